#!/usr/bin/env bash
# Times the run over 200 generated lines, `--generate 0`, in both programs, by the clock, the least of RUNS runs (five),
# with the greatest resident size, and prints the summary, which has to be one line for all.
# Usage: bench/generated.sh [RUNS]
. "$(dirname "$0")/measure.sh"
build specht specht_one

measure "${1:-5}" <<'PY'
import sys
import timing
from timing import ALONE, MANY
runs = int(sys.argv[1])
commands = {"one thread": ([ALONE, "--generate", "0"], b"")}
for count in (1, 4, 8):
    commands[f"{count} workers"] = ([MANY, "--workers", str(count), "--generate", "0"], b"")

told = set()
best = timing.least(commands, runs, outputs=told)
for text in sorted(told):
    print(text.decode(), end="")
for name, (taken, memory) in best.items():
    print(f"--generate 0, {name}: {taken:.3f} s {memory:.0f} MB", flush=True)
raise SystemExit(len(told) > 1)
PY
