#!/usr/bin/env bash
# Times matrices of degree 30 by 1, 2 and 4 workers, interleaved with the program on one thread: seconds by the clock,
# the least of RUNS runs (five), with the greatest resident size, and both as ratios to one worker and to one thread.
# `crystal` prints a page of several MB on one thread after its rows are made; the reply of `dims` is short, so that
# nearly all of its time is the making of rows and of the matrix.
# Usage: bench/workers.sh [RUNS [ONE_TABLE]]. ONE_TABLE is the path of a `specht` whose workers share one table for all
# rows (built from a commit where `sp_session::run` called `sp_pool::fill`): it is timed beside by 1 and 4 workers.
. "$(dirname "$0")/measure.sh"
build specht specht_one

measure "${1:-5}" "${2:-}" <<'PY'
import os
import sys
import timing
from timing import ALONE, MANY
runs, one_table = int(sys.argv[1]), sys.argv[2]
programs = {"one thread": [ALONE]}
for count in (1, 2, 4):
    programs[f"{count} workers"] = [MANY, "--workers", str(count)]
if one_table:
    for count in (1, 4):
        programs[f"{count} workers, one table"] = [one_table, "--workers", str(count)]

print(f"{os.cpu_count()} processors")
for line in ("crystal 2 30", "crystal 3 30", "dims 2 30", "dims 3 30"):
    best = timing.least({name: (command, line.encode()) for name, command in programs.items()}, runs)
    one_worker, one_thread = best["1 workers"], best["one thread"]
    for name, (taken, memory) in best.items():
        print(f"{line}, {name}: {taken:.3f} s {memory:.0f} MB, {one_worker[0] / taken:.2f} times as fast as 1 worker, "
              f"{taken / one_thread[0]:.2f} of the time and {memory / one_thread[1]:.2f} of the memory of one thread",
              flush=True)
PY
