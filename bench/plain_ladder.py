#!/usr/bin/env python3
"""Ladder vectors by the plain definition: at each partition the sum over its sources, step by step.

Usage: plain_ladder.py E N          the ladder vector of (N)
       plain_ladder.py E N --all    those of all E-regular partitions of N
Prints the number of terms. It is here to be compared with, and shares nothing with the program.
"""
import sys


def partitions(n, most=None):
    most = n if most is None else most
    if n == 0:
        yield ()
        return
    for first in range(min(n, most), 0, -1):
        for rest in partitions(n - first, first):
            yield (first,) + rest


def is_regular(e, parts):
    return all(parts.count(p) < e for p in parts)


def residue(e, row, column):
    return (column - row) % e


def addable(parts):
    rows = list(parts) + [0]
    return [(r + 1, rows[r] + 1) for r in range(len(rows)) if r == 0 or rows[r] < rows[r - 1]]


def removable(parts):
    rows = list(parts) + [0]
    return [(r + 1, rows[r]) for r in range(len(parts)) if rows[r] > rows[r + 1]]


def added(before, after):
    if len(before) > len(after):
        return None
    rows = list(before) + [0] * (len(after) - len(before))
    if any(b > a for b, a in zip(rows, after)):
        return None
    return [(r + 1, c) for r in range(len(after)) for c in range(rows[r] + 1, after[r] + 1)]


def exponent(e, i, before, after, new):
    ups = [r for (r, c) in addable(after) if residue(e, r, c) == i]
    downs = [r for (r, c) in removable(before) if residue(e, r, c) == i]
    return sum(sum(u < r for u in ups) - sum(d < r for d in downs) for (r, c) in new)


def divided_power(e, i, m, vector, degree):
    result = {}
    for after in partitions(degree + m):
        total = {}
        for before, polynomial in vector.items():
            new = added(before, after)
            if new is None or len(new) != m or any(residue(e, r, c) != i for (r, c) in new):
                continue
            shift = exponent(e, i, before, after, new)
            for power, coefficient in polynomial.items():
                total[power + shift] = total.get(power + shift, 0) + coefficient
        if total:
            result[after] = total
    return result


def ladder_vector(e, parts):
    counts = {}
    for r, p in enumerate(parts, 1):
        for c in range(1, p + 1):
            ladder = r + (e - 1) * (c - 1)
            counts[ladder] = counts.get(ladder, 0) + 1
    vector, degree = {(): {0: 1}}, 0
    for ladder in sorted(counts):
        vector = divided_power(e, (1 - ladder) % e, counts[ladder], vector, degree)
        degree += counts[ladder]
    return vector


def main():
    e, n = int(sys.argv[1]), int(sys.argv[2])
    labels = [(n,)] if len(sys.argv) == 3 else [p for p in partitions(n) if is_regular(e, p)]
    print(sum(len(ladder_vector(e, p)) for p in labels))


if __name__ == "__main__":
    main()
