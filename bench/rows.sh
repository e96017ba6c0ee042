#!/usr/bin/env bash
# Times all rows of a degree, as pages of matrices, in both conventions, and counts the instructions of one of them.
# Each page is a run of the program, so its start and the printing are counted too; the programs take turns, and the
# least processor time of RUNS runs is taken (eleven; three from degree 24 on), with the greatest resident size.
# Usage: bench/rows.sh [BASELINE.rs [RUNS]]. BASELINE.rs is an unverified program of the same algorithm, which is
# compiled and run as `BASELINE E N --mode naive --print` and with `--mode trie`; the plain mode is left out from
# degree 24 on.
. "$(dirname "$0")/measure.sh"
build specht_one
binary=$top/crates/specht_one/out/specht_one
source=${1:-}
runs=${2:-11}
work=$(mktemp -d)
trap 'rm -rf "$work"' EXIT
baseline=
if [ -n "$source" ]; then
  rustc -C opt-level=3 -C target-cpu=native "$source" -o "$work/baseline" 2>/dev/null && baseline=$work/baseline
fi

measure "$runs" "$baseline" <<'PY'
import sys
import timing
from timing import ALONE
runs, baseline = int(sys.argv[1]), sys.argv[2]

pages = [(e, n) for e in (2, 3) for n in (14, 16, 18, 20, 24, 28, 30)]
for e, n in pages:
    commands = {"program": ([ALONE], f"crystal {e} {n}\n".encode())}
    if baseline:
        for mode in ("trie",) if n >= 24 else ("naive", "trie"):
            commands[mode] = ([baseline, str(e), str(n), "--mode", mode, "--print"], b"")
    best = timing.least(commands, min(runs, 3) if n >= 24 else runs, by="processor")
    told = [timing.told(best, digits=4)]
    told += [f"ratio to {name} {best['program'][0] / best[name][0]:.2f}" for name in commands if name != "program"]
    print(f"e = {e}, n = {n}: " + ", ".join(told), flush=True)

for line in ("crystal 64 30", "block 3 1 9", "row 2 30", "branch 2 0 30"):
    ran = timing.run([ALONE], line.encode())
    print(f"{line}: {ran.processor:.3f} s {ran.memory:.0f} MB", flush=True)

# ten pages in one run, so that its start does not count
for e in (2, 3):
    pages = f"crystal {e} 20\n".encode() * 10
    best = timing.least(
        {"regular": ([ALONE], pages), "restricted": ([ALONE], b"convention restricted\n" + pages)}, runs, by="processor"
    )
    ratio = best["restricted"][0] / best["regular"][0]
    print(f"crystal {e} 20 in restricted labels: {ratio:.2f} times the page in regular ones", flush=True)
PY

if command -v valgrind >/dev/null; then
  echo 'crystal 2 20' >"$work/line"
  valgrind --tool=callgrind --callgrind-out-file="$work/callgrind" "$binary" <"$work/line" >/dev/null 2>"$work/log"
  echo "instructions of crystal 2 20: $(sed -n 's/.*Collected : //p' "$work/log")"
fi
