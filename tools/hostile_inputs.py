#!/usr/bin/env python3
"""Runs the programs on large hostile inputs, and measures time and memory against stated bounds.

Usage: tools/hostile_inputs.py PROGRAM...     the paths of `specht` and `specht_one`

Each input has up to 16 MiB, and bounds of its own on both; the time of `wc` on the same bytes stands beside. One
line is printed for each run, and `specht` runs by 1 and by 4 workers; the status is 1 where a bound was passed or an
answer was another than it must be. """

import os
import random
import subprocess
import sys
import tempfile
import time

LIMIT = 16_777_216


def filled(line, size=LIMIT):
    """As many copies of a line as have room, in pieces."""
    for _ in range(size // len(line)):
        yield line


def noise():
    """Random bytes, always the same."""
    source = random.Random(1)
    for _ in range(LIMIT // 4_096):
        yield source.randbytes(4_096)


def certificate(*columns):
    """The first lines of a certificate of version 1, and what comes behind them."""
    yield b"check\ncertificate 1\ne 2\ndegree 5\ncolumn 3,2\n"
    for lines in columns:
        yield from lines


def long_polynomial():
    """An entry whose polynomial has many terms of 39 digits."""
    yield b"entry 3,2 1"
    for power in range(1, 340_000):
        yield b"+%dv^%d" % (10**38, power + 1)


def many_terms():
    """An entry whose polynomial is read: all its coefficients are 1."""
    yield b"entry 3,2 1+v"
    for power in range(2, 1_600_000):
        yield b"+v^%d" % power
    yield b"\n"


# Each input: its name, its bytes in pieces, what its output begins with, and the bounds on seconds and on MB. A run
# over the rows or pages of degree 30 is stopped after ten seconds: it answers some of them in each.
INPUTS = [
    ("newlines", filled(b"\n"), b"", 3, 24),
    ("one line", filled(b"a"), b"error 12 line past 4096 bytes\n", 3, 64),
    ("random bytes", noise(), b"error ", 6, 24),
    ("row 2 30, 2 MB of it", filled(b"row 2 30\n", 2_000_000), b"[30] + v[", None, 200),
    ("crystal 2 30, 2 MB of it", filled(b"crystal 2 30\n", 2_000_000), b"columns 30 29,1 28,2 ", None, 200),
    ("painters' names", filled(b"painter " + b"x" * 4_000 + b"\n"), b"error 14 ", 3, 24),
    ("partitions of 4,000 bytes", filled(b"conjugate 1" + b",1" * 2_000 + b"\n"), b"error 6 ", 3, 24),
    ("numbers of 4,000 digits", filled(b"partitions " + b"9" * 4_000 + b"\n"), b"error 6 ", 3, 24),
    ("comments", filled(b"# " + b"-" * 4_000 + b"\n"), b"", 3, 24),
    ("short commands", filled(b"dim 1\n"), b"1\n1\n", 6, 24),
    ("a certificate that never ends", certificate(filled(b"entry 3,2 1\n", LIMIT - 99)), b"error 15 ", 3, 64),
    ("one line in a certificate", certificate([b"entry 3,2 "], filled(b"1", LIMIT - 99)), b"error 15 ", 3, 96),
    ("a long polynomial", certificate(long_polynomial()), b"error 15 ", 6, 200),
    ("a polynomial of many terms", certificate(many_terms()), b"error 15 ", 3, 200),
    ("one column many times", certificate(filled(b"column 3,2\n", LIMIT - 99)), b"error 15 ", 3, 64),
    ("certificates without lines", filled(b"check\nend\n"), b"error 15 certificate malformed at line 1\n", 6, 24),
]
PATIENCE = 10


def measured(command, path, out, patience=None):
    """The exit code, the seconds and the MB of a run; None in place of the code where it was stopped."""
    with open(path, "rb") as source, open(out, "wb") as sink:
        begin = time.monotonic()
        process = subprocess.Popen(command, stdin=source, stdout=sink, stderr=subprocess.DEVNULL)
        if patience:
            try:
                process.wait(patience)
            except subprocess.TimeoutExpired:
                pass
            with open(f"/proc/{process.pid}/status", encoding="ascii") as status:
                mb = next(int(line.split()[1]) for line in status if line.startswith("VmHWM")) / 1000
            process.kill()
            process.wait()
            return None, time.monotonic() - begin, mb
        _, status, usage = os.wait4(process.pid, 0)
        seconds = time.monotonic() - begin
    return os.waitstatus_to_exitcode(status), seconds, usage.ru_maxrss / 1000


def commands(program):
    """The name and the words of each run of a program: of the one with workers two."""
    name = os.path.basename(program)
    if name != "specht":
        return [(name, [program])]
    return [(f"{name}, {count}", [program, "--workers", count]) for count in ("1", "4")]


def look(told, command, name, path, out, begins, most_seconds, most_mb):
    """Whether a command's run on an input is within the bounds and begins as it must; prints a line."""
    code, seconds, mb = measured(command, path, out, None if most_seconds else PATIENCE)
    with open(out, "rb") as file:
        answered = file.read(len(begins)) == begins
    fine = code in (None, 0) and answered and mb <= most_mb and (not most_seconds or seconds <= most_seconds)
    size = os.path.getsize(path) / 1_048_576
    line = f"{told:10} {name:30} {size:5.1f} MiB {seconds:6.2f} s {mb:5.0f} MB"
    print(line if fine else f"{line}  WRONG", flush=True)
    return fine


def main():
    """All inputs through all programs."""
    runs = [run for path in sys.argv[1:] for run in commands(os.path.abspath(path))]
    if not runs:
        print(__doc__, file=sys.stderr)
        return 2
    wrong = 0
    with tempfile.TemporaryDirectory() as folder:
        path, out = f"{folder}/input", f"{folder}/output"
        for name, pieces, begins, most_seconds, most_mb in INPUTS:
            with open(path, "wb") as file:
                for piece in pieces:
                    file.write(piece)
            _, seconds, _ = measured(["wc"], path, "/dev/null")
            print(f"{'wc':10} {name:30} {os.path.getsize(path) / 1_048_576:5.1f} MiB {seconds:6.2f} s")
            for told, command in runs:
                wrong += not look(told, command, name, path, out, begins, most_seconds, most_mb)
    print(f"hostile inputs: {wrong} wrong")
    return 1 if wrong else 0


if __name__ == "__main__":
    sys.exit(main())
