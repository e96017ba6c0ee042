#!/usr/bin/env bash
# Times the ten products of degree 30 with most fillings, all in one run of the program, beside `lrcalc mult` where it
# is installed (one run of it for each product), by the clock, the least of RUNS runs (five), with the greatest resident
# size; and the list of the fillings of one partition with most of them, for each. The products were found by a search
# through all pairs. The sum of the coefficients has to be the number of fillings that stands behind a product.
# Usage: bench/products.sh [RUNS]
. "$(dirname "$0")/measure.sh"
build specht_one

measure "${1:-5}" <<'PY'
import re
import shutil
import sys
import timing
from timing import ALONE
runs = int(sys.argv[1])

products = [
    ("5,4,3,2,1", "5,4,3,2,1", 26704),
    ("6,4,3,2,1", "6,4,2,1^2", 23117),
    ("5,4,3,2,1^2", "5,3,2^2,1^2", 23117),
    ("6,4,3,2,1^2", "5,4,2,1^2", 22404),
    ("6,4,3,2,1^2", "5,3,2^2,1", 22404),
    ("6,4,3,2,1^2", "6,3,2,1^2", 22086),
    ("6,4,3,2,1^2", "5,3,2,1^3", 22086),
    ("6,4,3,2,1", "5,4,2^2,1", 21496),
    ("5,4,3,2,1^2", "5,4,2^2,1", 21496),
    ("6,4,3,2,1", "5,4,3,1^2", 20754),
]
def parts(text):
    """The parts of a partition, with a space between each two."""
    words = (word.split("^") for word in text.split(","))
    return " ".join(" ".join([word[0]] * int(word[1] if len(word) > 1 else 1)) for word in words)


asked = "".join(f"product {lam} {mu}\n" for lam, mu, _ in products).encode()
answers = timing.run([ALONE], asked, keep=True).output.decode().splitlines()
lists = ""
for (lam, mu, count), answer in zip(products, answers, strict=True):
    terms = [(int(number or 1), nu) for number, nu in re.findall(r"(\d*)\[([^]]*)\]", answer)]
    most, nu = max(terms)
    lists += f"fillings {lam} {mu} {nu}\n"
    found = sum(number for number, _ in terms)
    print(f"product {lam} {mu}: {found} fillings of {len(terms)} partitions, at most {most} of one")
    if found != count:
        raise SystemExit(f"{count} were expected")

commands = {"product": ([ALONE], asked), "fillings": ([ALONE], lists.encode())}
if shutil.which("lrcalc"):
    lines = [f"lrcalc mult {parts(lam)} - {parts(mu)}" for lam, mu, _ in products]
    commands["lrcalc"] = (["sh", "-c", "\n".join(lines)], b"")
best = timing.least(commands, runs)
for name, (seconds, memory) in best.items():
    print(f"{len(products)} products, {name}: {seconds:.3f} s {memory:.0f} MB", flush=True)
if "lrcalc" in best:
    print(f"ratio to lrcalc {best['product'][0] / best['lrcalc'][0]:.2f}")
else:
    print("lrcalc is not installed")
PY
