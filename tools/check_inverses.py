#!/usr/bin/env python3
"""Multiplies the inverses that the program prints with the matrices that it prints.

Usage: tools/check_inverses.py [PROGRAM [DEGREE]], by default ./specht_one 12.

For e = 2, 3, 4 and all degrees up to DEGREE, the pages of `crystal e n` and `inverse e n` are read. The matrix is cut
to the lines that are columns; its product with the inverse has to have 1 at equal pairs and 0 elsewhere, in both
orders. `cartan e n` is compared with the transpose of the matrix at v = 1 times that matrix, and `simple e mu`, for
each column mu, with the line of the inverse at v = 1. The arithmetic is this script's own. Prints how many answers
agree. Ends with 1 where one doesn't.
"""

import os
import re
import shlex
import subprocess
import sys
from collections import defaultdict

TOP = os.path.dirname(os.path.dirname(os.path.abspath(__file__)))
TERM = re.compile(r"([+-]?)(\d*)(v?)(?:\^(-?\d+))?")


def polynomial(text):
    """The powers of v with their coefficients, of a text as `v^-1+2-3v`; `.` is 0."""
    terms = defaultdict(int)
    place = 0
    while text != "." and place < len(text):
        found = TERM.match(text, place)
        sign, number, v, power = found.groups()
        if found.end() == place or not (number or v):
            raise ValueError(f"no polynomial: {text}")
        terms[int(power) if power else int(bool(v))] += int(sign + (number or "1"))
        place = found.end()
    return {power: number for power, number in terms.items() if number}


def page(text):
    """The columns of a page, and for each line its cells by their columns, without those that are 0."""
    first, *lines = text.splitlines()
    columns = first.split()[1:]
    cells = {}
    for line in lines:
        name, _, row = line.partition(": ")
        cells[name] = {column: p for column, p in zip(columns, map(polynomial, row.split()), strict=True) if p}
    return columns, cells


def at_one(p):
    return sum(p.values())


def add_product(total, p, q):
    for one, number in p.items():
        for other, factor in q.items():
            total[one + other] += number * factor


def product(a, b):
    """The product of two matrices, without the cells that are 0."""
    cells = {}
    for line, row in a.items():
        sums = defaultdict(lambda: defaultdict(int))
        for middle, p in row.items():
            for column, q in b[middle].items():
                add_product(sums[column], p, q)
        whole = {column: {power: number for power, number in p.items() if number} for column, p in sums.items()}
        cells[line] = {column: p for column, p in whole.items() if p}
    return cells


def cartan(columns, cells):
    """The transpose of the matrix at v = 1 times that matrix, without the cells that are 0."""
    sums = {one: defaultdict(int) for one in columns}
    for row in cells.values():
        for one, p in row.items():
            for other, q in row.items():
                sums[one][other] += at_one(p) * at_one(q)
    return {one: {other: {0: number} for other, number in row.items() if number} for one, row in sums.items()}


def vector(text):
    """The coefficients of a vector of constants, by the partitions."""
    found = re.findall(r"(^-?|[+-] )(\d*)\[([^]]*)\]", text)
    return {name: int(sign.strip() + (number or "1")) for sign, number, name in found}


def answers(program, lines):
    """The replies to these lines, each of which is answered by at least one line and followed by a mark."""
    text = "".join(f"{line}\nconjugate 30\n" for line in lines)
    ran = subprocess.run(program, input=text.encode(), stdout=subprocess.PIPE, check=True)
    return ran.stdout.decode().split("1^30\n")[:-1]


def differences(program, e, n):
    """What differs in one degree, and how many pages and lines were compared."""
    crystal, inverse, found = answers(program, [f"{name} {e} {n}" for name in ("crystal", "inverse", "cartan")])
    columns, cells = page(crystal)
    inverse_columns, inverted = page(inverse)
    square = {line: cells[line] for line in columns}
    one = {line: {line: {0: 1}} for line in columns}
    wrong = []
    if inverse_columns != columns or list(inverted) != columns:
        return [f"inverse {e} {n}: the lines and columns"], 1
    if product(square, inverted) != one:
        wrong.append(f"inverse {e} {n}: the matrix times the inverse")
    if product(inverted, square) != one:
        wrong.append(f"inverse {e} {n}: the inverse times the matrix")
    if page(found) != (columns, cartan(columns, cells)):
        wrong.append(f"cartan {e} {n}")
    for mu, told in zip(columns, answers(program, [f"simple {e} {mu}" for mu in columns]), strict=True):
        values = {column: at_one(p) for column, p in inverted[mu].items()}
        if vector(told) != {column: value for column, value in values.items() if value}:
            wrong.append(f"simple {e} {mu}")
    return wrong, 3 + len(columns)


def main():
    program = shlex.split(sys.argv[1]) if len(sys.argv) > 1 else [f"{TOP}/specht_one"]
    greatest = int(sys.argv[2]) if len(sys.argv) > 2 else 12
    wrong, count = [], 0
    for e in (2, 3, 4):
        for n in range(greatest + 1):
            found, compared = differences(program, e, n)
            wrong += found
            count += compared
    for it in wrong:
        print(f"differs: {it}")
    print(f"{count - len(wrong)} of {count} answers agree")
    return 1 if wrong else 0


if __name__ == "__main__":
    sys.exit(main())
