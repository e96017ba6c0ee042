#!/usr/bin/env bash
# Times inverses and Cartan matrices beside the matrices that they are made of, on one thread: the least of RUNS runs
# (five) by the clock, with the greatest resident size; then those of e = 64 and degree 30, with few cells that are not
# 0.
# Usage: bench/inverse.sh [RUNS]
. "$(dirname "$0")/measure.sh"
build specht_one

measure "${1:-5}" <<'PY'
import sys
import timing
from timing import ALONE
runs = int(sys.argv[1])
MADE_OF = {"inverse": "crystal", "cartan": "decomposition"}

for asked, e, n in (("inverse", 2, 30), ("inverse", 3, 20), ("inverse", 64, 20), ("cartan", 2, 30), ("cartan", 3, 20)):
    commands = {name: ([ALONE], f"{name} {e} {n}\n".encode()) for name in (asked, MADE_OF[asked])}
    best = timing.least(commands, runs)
    (seconds, memory), (before, least) = best.values()
    ratios = f"{seconds / before:.2f} times the seconds, {memory / least:.2f} times the memory"
    print(f"({e}, {n}): {timing.told(best)}; {ratios}", flush=True)

for line in ("inverse 64 30", "cartan 64 30"):
    ran = timing.run([ALONE], line.encode())
    print(f"{line}: {ran.clock:.2f} s {ran.memory:.0f} MB", flush=True)
PY
