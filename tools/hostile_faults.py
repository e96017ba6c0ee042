#!/usr/bin/env python3
"""Refuses each growth of memory, each read, each write and each start of a thread of a program in turn.

Usage: tools/hostile_faults.py PROGRAM...     the paths of `specht` and `specht_one`

A small library (tools/refuse.c, built with `cc`) is laid over the C library, and each program runs once for each
call that is refused: each growth over rows, pages and a certificate, with 2 workers where there are many; each read
and each write at pieces of 1, 2, 3, 7 and 4,096 bytes over an input with every command. Where memory is refused,
the run ends out of memory with whole replies written, or as ever. Where a read or a write fails, what was written
is exactly what docs/COMMANDS.md says. The counts are printed, and each case that is not so; the status is 1 where
there was one. """

import concurrent.futures
import os
import re
import subprocess
import sys
import tempfile

TOP = os.path.dirname(os.path.abspath(__file__))
PIECES = [1, 2, 3, 7, 4096]
ROWS = b"row 2 7\ncrystal 2 6\nrow 3 6,4\nschaper 2 5\ndims 3 6\n"
CERTIFICATE = b"certificate 2 5\ncheck\n"
EVERY = (
    b"# every command\n\npartitions 4\nregular 2 5\nconjugate 3,1\ndominates 3,1 2^2\ndiagram 3 3,1\nhooks 3,1\n"
    b"content 3 4\n"
    b"core 3 4\ncombine 3 1 1|-|-\nabacus 3 4\ngood 2 4\npath 2 3,1\nmullineux 3 3,1\ninduce 2 0 1 2,1\nladders 2 3,1\n"
    b"ladder 2 3,1\nrow 2 5\nrow 2 2^2\npainter tex\ncrystal 2 3\npainter gap\ndecomposition 2 3\n"
    b"painter none\npainter plain\n"
    b"block 2 1 1\njantzen 3 1^3\nschaper 2 4\ndim 3,1\ndims 2 4\nno command\ncertificate 2 2\n"
    b"check\ncertificate 1\ne 2\ndegree 2\ncolumn 2\nentry 2 1\nentry 1^2 v\nend\n"
    b"check\nno certificate\nend\ndim 1\n"
    b"restrict 2 0 3,1\ncommutator 2 0 0 3,1\nbranch 2 0 4\nproduct 2,1 1\nfillings 2,1 1 3,1\nblocks 2 3\n"
    b"inverse 2 3\nsimple 2 3\ncartan 2 3\nconvention restricted\nladder 2 1^3\nrow 2 1^4\nrow 2 4\ncrystal 2 3\n"
    b"block 2 1 1\njantzen 3 3\nschaper 2 4\ndims 2 3\nconvention none\nconvention regular\n"
)
TRAILER = re.compile(rb"(% tables \d+\n)?(# matrices \d+\n)?\Z")


class Library:
    """The library that refuses, and the runs beneath it."""

    def __init__(self, folder):
        self.path = f"{folder}/refuse.so"
        command = ["cc", "-O1", "-shared", "-fPIC", "-o", self.path, f"{TOP}/refuse.c", "-ldl"]
        subprocess.run(command, check=True)

    def run(self, program, data, piece=0, **refused):
        """How a run ended, with the counts of its calls."""
        reader, writer = os.pipe()
        settings = {"LD_PRELOAD": self.path, "REFUSE_PIECE": str(piece), "REFUSE_TELL": str(writer)}
        settings.update({f"REFUSE_{kind.upper()}": str(number) for kind, number in refused.items()})
        pipes = {"stdin": subprocess.PIPE, "stdout": subprocess.PIPE, "stderr": subprocess.PIPE}
        with subprocess.Popen(program, env={**os.environ, **settings}, pass_fds=[writer], **pipes) as process:
            os.close(writer)
            written, said = process.communicate(data, timeout=120)
        counts = os.read(reader, 128).split()
        os.close(reader)
        return process.returncode, written, said, [int(count) for count in counts]


def replies(library, program, data):
    """Where each reply of an input ends in the transcript, by the lines behind which it does, and the transcript."""
    lines = data.splitlines(keepends=True)
    ends = []
    for count in range(len(lines) + 1):
        begun = b"".join(lines[:count])
        # a certificate that is begun has no reply yet, and is answered at the end of the input
        written = library.run(program, begun)[1]
        ends.append(len(TRAILER.sub(b"", written)))
    whole = library.run(program, data)[1]
    inside = False
    for place, line in enumerate(lines):
        if inside:
            inside = line != b"end\n"
        else:
            inside = line.split() == [b"check"]
        if inside:
            ends[place + 1] = ends[place]
    return ends, whole


def refuse_each(library, program, data, kind, place, wrong):
    """Each growth, or each start of a thread, refused in turn. How many runs there were, and how many found none."""
    ends, whole = replies(library, program, data)
    bounds = set(ends)
    total = library.run(program, data)[3][place] + 4

    def one(number):
        code, written, said, _ = library.run(program, data, **{kind: number})
        if code == 4 and said == b"specht: out of memory\n" and whole.startswith(written):
            return len(written) in bounds, True, number
        return (code, written, said) == (0, whole, b""), False, number

    starved = 0
    with concurrent.futures.ThreadPoolExecutor(max_workers=2) as pool:
        for fine, ended, number in pool.map(one, range(1, total + 1)):
            starved += ended
            if not fine:
                wrong.append(f"{program}: {kind} {number} of {data[:20]!r} refused")
    return total, starved


def fail_each_read(library, program, piece, ends, whole, data, wrong):
    """Each read failed in turn: the replies of the commands that were complete in the bytes before are written."""
    total = library.run(program, data, piece)[3][1]

    def one(number):
        taken = (number - 1) * min(piece, 4096)
        expected = whole[: ends[data[:taken].count(b"\n")]]
        code, written, said, _ = library.run(program, data, piece, read=number)
        return (code, written, said) == (2, expected, b"specht: read fault\n"), number

    with concurrent.futures.ThreadPoolExecutor(max_workers=2) as pool:
        for fine, number in pool.map(one, range(1, total + 1)):
            if not fine:
                wrong.append(f"{program}: read {number} failed at pieces of {piece}")
    return total


def fail_each_write(library, program, piece, whole, data, wrong):
    """Each write failed in turn: what the writes before took is written."""
    total = library.run(program, data, piece)[3][2]

    def one(number):
        code, written, said, _ = library.run(program, data, piece, write=number)
        fine = code == 3 and said == b"specht: write fault\n" and whole.startswith(written)
        return fine and number - 1 <= len(written) <= (number - 1) * piece, number

    with concurrent.futures.ThreadPoolExecutor(max_workers=2) as pool:
        for fine, number in pool.map(one, range(1, total + 1)):
            if not fine:
                wrong.append(f"{program}: write {number} failed at pieces of {piece}")
    return total


def main():
    """All cases for all programs."""
    if len(sys.argv) < 2:
        print(__doc__, file=sys.stderr)
        return 2
    wrong = []
    with tempfile.TemporaryDirectory() as folder:
        library = Library(folder)
        for path in map(os.path.abspath, sys.argv[1:]):
            name = os.path.basename(path)
            many = name == "specht"
            program = [path, "--workers", "2"] if many else [path]
            certificate = library.run(program, CERTIFICATE.splitlines(keepends=True)[0])[1]
            for data in [ROWS, CERTIFICATE + certificate]:
                runs, starved = refuse_each(library, program, data, "growth", 0, wrong)
                print(f"{name}: {runs} growths refused in turn, {starved} runs ended out of memory", flush=True)
            if many:
                runs, starved = refuse_each(library, program, ROWS, "thread", 3, wrong)
                print(f"{name}: {runs} starts of threads refused in turn, {starved} ended out of memory", flush=True)
            ends, whole = replies(library, program, EVERY)
            for piece in PIECES:
                reads = fail_each_read(library, program, piece, ends, whole, EVERY, wrong)
                writes = fail_each_write(library, program, piece, whole, EVERY, wrong)
                print(f"{name}, pieces of {piece}: {reads} reads and {writes} writes failed in turn", flush=True)
    for line in wrong[:40]:
        print(line)
    print(f"hostile faults: {len(wrong)} wrong")
    return 1 if wrong else 0


if __name__ == "__main__":
    sys.exit(main())
