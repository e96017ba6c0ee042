#!/usr/bin/env bash
# Times ladder vectors, and compares with the plain definition's program where that one ends within a minute.
# Usage: bench/ladder.sh [RUNS]. Seconds by the clock are the least of RUNS runs (five).
. "$(dirname "$0")/measure.sh"
build specht_one

measure "${1:-5}" <<'PY'
import sys
import timing
from plain_ladder import is_regular, partitions
from timing import ALONE, TOP
runs = int(sys.argv[1])

def plain(arguments):
    """The seconds of one run of the plain definition, or None past a minute."""
    try:
        return timing.run(["timeout", "60", sys.executable, f"{TOP}/bench/plain_ladder.py", *arguments]).clock
    except timing.Failed:
        return None

labels = [",".join(map(str, p)) for p in partitions(16) if is_regular(2, p)]
for name, lines, arguments in (
    ("ladder 2 20", ["ladder 2 20"], ["2", "20"]),
    ("ladder 3 20", ["ladder 3 20"], ["3", "20"]),
    ("all ladder vectors of degree 16 at e = 2", [f"ladder 2 {p}" for p in labels], ["2", "16", "--all"]),
):
    text = "".join(f"{line}\n" for line in lines).encode()
    ours = timing.least({name: ([ALONE], text)}, runs)[name][0]
    theirs = plain(arguments)
    if theirs is None:
        print(f"{name}: {ours:.4f} s, plain definition past a minute", flush=True)
    else:
        print(f"{name}: {ours:.4f} s, plain definition {theirs:.2f} s, ratio {theirs / ours:.1f}", flush=True)
PY
