#!/usr/bin/env python3
"""Damages certificates, and compares what `check` answers with what an independent program says.

Usage: tools/damage_certificates.py ORACLE [PROGRAM [REPLIES [SEED]]], by default ./specht 20000 1.

ORACLE is a folder with an independent program in Python, which is no part of this repository: its modules `cert`,
`rows` and `session` write certificates of both versions, give rows and shares, and answer a whole input.

First each certificate of degree 5 at e = 2 with one damage: every cut, every exchange of two lines, every digit
changed to every other. Then inputs at random: each has some hundred certificates of small degrees behind lines
`check`, each with up to three damages: it is cut, two lines are exchanged, a digit is changed, a line is dropped or
doubled, or stands in for another of its kind. Where the line `end` is lost it is put back, but for the last
certificate of an input. Prints how many replies were compared, how many certificates were accepted, and how many of
these list a row or shares that are not those of the independent program. Ends with 1 where a reply differs or an
accepted certificate does not hold the rows. """

import itertools
import os
import random
import shlex
import subprocess
import sys

TOP = os.path.dirname(os.path.dirname(os.path.abspath(__file__)))
LEVELS = [(e, n) for e in (2, 3, 4, 5) for n in range(8)]
IN_ONE_INPUT = 250
LIMITS = (None, None, None, 1, 2, 3, 5)
# The last request of the independent program that knows both versions.
STAGE = 16
GREATEST_DEGREES = {1: 20, 2: 30}


def cut(rnd, lines):
    place = rnd.randrange(len(lines))
    return lines[:place] + [lines[place][:rnd.randrange(len(lines[place]) + 1)]]


def exchange(rnd, lines):
    one, two = rnd.randrange(len(lines)), rnd.randrange(len(lines))
    lines[one], lines[two] = lines[two], lines[one]
    return lines


def change_digit(rnd, lines):
    places = [(k, i) for k, line in enumerate(lines) for i, letter in enumerate(line) if letter.isdigit()]
    if places:
        k, i = rnd.choice(places)
        lines[k] = lines[k][:i] + rnd.choice("0123456789") + lines[k][i + 1:]
    return lines


def drop(rnd, lines):
    place = rnd.randrange(len(lines))
    return lines[:place] + lines[place + 1:]


def double(rnd, lines):
    place = rnd.randrange(len(lines))
    return lines[:place] + [lines[place]] + lines[place:]


def stand_in(rnd, lines):
    """A line in place of another that begins with the same word."""
    place = rnd.randrange(len(lines))
    alike = [line for line in lines if line.split(" ")[0] == lines[place].split(" ")[0]]
    lines[place] = rnd.choice(alike)
    return lines


DAMAGES = (cut, exchange, change_digit, drop, double, stand_in)


def damaged(rnd, lines):
    lines = list(lines)
    for _ in range(rnd.choice((0, 1, 1, 1, 1, 2, 3))):
        if lines:
            lines = rnd.choice(DAMAGES)(rnd, lines)
    return lines


def an_input(rnd, whole):
    """The lines of an input."""
    found = []
    for number in range(IN_ONE_INPUT):
        lines = damaged(rnd, rnd.choice(whole))
        if "end" not in lines and number < IN_ONE_INPUT - 1:
            lines.append("end")
        found += ["check"] + lines
    return found


def single_damages(lines):
    """The inputs of a certificate with one damage, each with a command behind it where the certificate has an end."""
    text = "".join(line + "\n" for line in lines)
    for place in range(len(text) + 1):
        yield "check\n" + text[:place]
    for one, two in itertools.combinations(range(len(lines)), 2):
        other = list(lines)
        other[one], other[two] = other[two], other[one]
        yield "check\n" + "\n".join(other) + "\nend\nconjugate 3,1\n"
    for place, letter in enumerate(text):
        for digit in "0123456789" if letter.isdigit() else "":
            if digit != letter:
                yield "check\n" + text[:place] + digit + text[place + 1 :] + "conjugate 3,1\n"


def holds_rows(cert, rows, lines):
    """Whether the certificate in the lines behind a `check` lists the rows, and their shares that are not 0."""
    kind, certificate = cert.read(lines, GREATEST_DEGREES)
    return kind == "whole" and all(
        column.entries == rows.regular_row(certificate.e, column.mu)
        and dict(column.shares) == rows.shares(certificate.e, column.mu)
        for column in certificate.columns
    )


def main():
    if not 2 <= len(sys.argv) <= 5:
        sys.exit(__doc__)
    words = sys.argv[1:] + ["", f"{TOP}/specht", "20000", "1"][len(sys.argv) - 1:]
    oracle, program, most, seed = words[0], shlex.split(words[1]), int(words[2]), int(words[3])
    sys.path.insert(0, oracle)
    import cert
    import rows
    import session

    rnd = random.Random(seed)
    whole = {}
    for e, n in LEVELS:
        all_rows = {mu: rows.regular_row(e, mu) for mu in cert.P.regular_of(e, n)}
        for version in (1, 2):
            whole[version, e, n] = cert.write(version, e, n, all_rows).removesuffix("\n").split("\n")

    compared = differences = accepted = refused_rows = 0

    def compare(text, limit):
        """Answers an input by both programs."""
        nonlocal compared, differences, accepted, refused_rows
        data = text.encode("ascii")
        found = session.replies(data, session.Settings(STAGE, limit or 2**127 - 1))
        ran = subprocess.run(program + (["--limit", str(limit)] if limit else []), input=data, stdout=subprocess.PIPE)
        given = ran.stdout.decode("ascii")
        if ran.returncode:
            print(f"status {ran.returncode}, with the limit {limit}")
            differences += 1
        # a line behind an `end` may be a command with a reply of many lines
        for lines, reply in found:
            answer, given = given[: len(reply)], given[len(reply) :]
            compared += bool(reply)
            if answer != reply:
                differences += 1
                shown = "\n".join(line.decode("ascii") for line in lines)
                print(f"{answer}\nin place of\n{reply}at\n{shown}")
                return
            if answer.startswith("accepted "):
                accepted += 1
                if not holds_rows(cert, rows, [line.decode("ascii") for line in lines[1:]]):
                    refused_rows += 1
                    print("accepted, but does not hold the rows")
        differences += bool(given)

    for version in (1, 2):
        for text in single_damages(whole[version, 2, 5]):
            compare(text, None)
    print(f"one damage each: {compared} replies, {differences} differences", flush=True)
    most += compared
    while compared < most:
        compare("\n".join(an_input(rnd, list(whole.values()))), rnd.choice(LIMITS))
    print(f"{compared} replies, {differences} differences")
    print(f"{accepted} accepted, {refused_rows} of these without the rows")
    return 1 if differences or refused_rows else 0


if __name__ == "__main__":
    sys.exit(main())
