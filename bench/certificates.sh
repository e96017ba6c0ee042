#!/usr/bin/env bash
# Times certificates beside the matrices of the same rows, on one thread: the least of RUNS runs (five) by the clock,
# with the greatest resident size. A certificate of (2, 20) may take twice as long to check as its rows to make.
# Usage: bench/certificates.sh [RUNS]
. "$(dirname "$0")/measure.sh"
build specht_one

measure "${1:-5}" <<'PY'
import sys
import timing
from timing import ALONE
runs = int(sys.argv[1])

for e, n in ((2, 20), (2, 30), (3, 30)):
    asked = {name: f"{name} {e} {n}\n".encode() for name in ("crystal", "certificate")}
    commands = {name: ([ALONE], text) for name, text in asked.items()}
    certificate = timing.run([ALONE], asked["certificate"], keep=True).output
    commands["check"] = ([ALONE], b"check\n" + certificate)
    best = timing.least(commands, runs)
    ratio = best["check"][0] / best["crystal"][0]
    print(f"({e}, {n}), {len(certificate)} bytes: {timing.told(best)}; check {ratio:.2f} times crystal", flush=True)
PY
