#!/usr/bin/env python3
"""Compares products of Schur functions that are drawn at random with those of an independent program.

Usage: tools/random_products.py [PROGRAM [PRODUCTS [SEED]]], by default ./specht_one 2000 1.

Each product is a line `product`, behind it a line `fillings` of one of its partitions or of any other of the degree;
all lines go through one run of PROGRAM. The numbers come from `lrcalc mult` where that is installed. Where it is not,
which is said, they come from the words of semistandard tableaux: the product of the Schur functions of lambda and mu
has one term for each semistandard tableau of shape mu whose word, added to lambda letter by letter, never leaves the
partitions. (Fulton, Young Tableaux, 5.2) Prints how many replies were compared; ends with 1 where one differs. """

import os
import random
import re
import shlex
import shutil
import subprocess
import sys

TOP = os.path.dirname(os.path.dirname(os.path.abspath(__file__)))
DEGREE_LIMIT = 30


def partitions(n, most=None):
    """The partitions of n with parts up to `most`, descending."""
    most = n if most is None else most
    if n == 0:
        yield ()
    for first in range(min(n, most), 0, -1):
        for rest in partitions(n - first, first):
            yield (first,) + rest


def by_words(lam, mu):
    """The product by words: at each partition the number of tableaux."""
    # the nodes of mu, row by row from the top, each from right to left
    nodes = [(row, column) for row, length in enumerate(mu) for column in range(length - 1, -1, -1)]
    shape = list(lam) + [0] * len(nodes)
    tableau = {}
    found = {}

    def fill(place):
        if place == len(nodes):
            nu = tuple(part for part in shape if part)
            found[nu] = found.get(nu, 0) + 1
            return
        row, column = nodes[place]
        least = tableau.get((row - 1, column), -1) + 1
        most = tableau.get((row, column + 1), len(shape) - 1)
        for letter in range(least, most + 1):
            if letter == 0 or shape[letter] < shape[letter - 1]:
                shape[letter] += 1
                tableau[row, column] = letter
                fill(place + 1)
                del tableau[row, column]
                shape[letter] -= 1
            if shape[letter] == 0:
                break

    fill(0)
    return found


def by_lrcalc(lam, mu):
    """The product by `lrcalc mult`, whose lines have a coefficient and a partition in parentheses."""
    words = [str(part) for part in lam or (0,)] + ["-"] + [str(part) for part in mu or (0,)]
    lines = subprocess.run(["lrcalc", "mult", *words], check=True, capture_output=True, text=True).stdout.splitlines()
    found = {}
    for line in lines:
        count, *parts = (int(number) for number in re.findall(r"\d+", line))
        found[tuple(part for part in parts if part)] = count
    return found


def text(parts):
    """A partition as the program writes it."""
    words = [f"{part}^{parts.count(part)}" if parts.count(part) > 1 else f"{part}" for part in dict.fromkeys(parts)]
    return ",".join(words) or "-"


def vector(product):
    """The product as the program writes it, from the greatest partition on."""
    terms = sorted(product.items(), reverse=True)
    return " + ".join(f"{count if count > 1 else ''}[{text(nu)}]" for nu, count in terms)


def is_listed(lines, lam, nu, count):
    """Whether these are so many chains from lambda to nu."""
    if count == 0:
        return lines == ["-"]
    chains = [line.split(" < ") for line in lines]
    return len(set(lines)) == count and all(chain[0] == text(lam) and chain[-1] == text(nu) for chain in chains)


def main():
    if len(sys.argv) > 4:
        sys.exit(__doc__)
    words = sys.argv[1:] + [f"{TOP}/specht_one", "2000", "1"][len(sys.argv) - 1:]
    program, many, seed = shlex.split(words[0]), int(words[1]), int(words[2])
    rnd = random.Random(seed)
    independent = by_lrcalc if shutil.which("lrcalc") else by_words
    if independent is by_words:
        print("lrcalc is not installed: the numbers come from the words of tableaux")

    listed = [list(partitions(n)) for n in range(DEGREE_LIMIT + 1)]
    asked = []
    for _ in range(many):
        degree = rnd.randint(0, DEGREE_LIMIT)
        first = rnd.randint(0, degree)
        lam, mu = rnd.choice(listed[first]), rnd.choice(listed[degree - first])
        product = independent(lam, mu)
        nu = rnd.choice(sorted(product) if rnd.random() < 0.9 else listed[degree])
        asked.append((lam, mu, nu, product))

    source = "".join(
        f"product {text(lam)} {text(mu)}\nfillings {text(lam)} {text(mu)} {text(nu)}\n" for lam, mu, nu, _ in asked
    )
    ran = subprocess.run(program, input=source, capture_output=True, text=True)
    if ran.returncode:
        print(f"{program} ended with {ran.returncode}")
        return 1

    given = ran.stdout.splitlines()
    place = 0
    for lam, mu, nu, product in asked:
        count = product.get(nu, 0)
        answer, lines = given[place : place + 1], given[place + 1 : place + 1 + max(count, 1)]
        place += 1 + max(count, 1)
        if answer != [vector(product)]:
            print(f"product {text(lam)} {text(mu)}: {answer} in place of {vector(product)}")
            return 1
        if not is_listed(lines, lam, nu, count):
            print(f"fillings {text(lam)} {text(mu)} {text(nu)}: {lines} in place of {count} chains")
            return 1
    if place != len(given):
        print(f"{len(given) - place} lines more than there are answers")
        return 1
    print(f"{many} products and as many lists of fillings, no difference")
    return 0


if __name__ == "__main__":
    sys.exit(main())
