#!/usr/bin/env python3
"""Runs the programs over streams that fail, and over little memory, and looks at what their mains alone decide.

Usage: tools/hostile_streams.py PROGRAM...     the paths of `specht` and `specht_one`

For each case the exit code, the line on standard error and what was written have to be as docs/COMMANDS.md says. One
line is printed for each that is not, and the count at the end; the status is 1 where one was not. It takes some ten
seconds; where a machine is busy a case may take two minutes.
"""

import os
import resource
import subprocess
import sys

INPUT_LIMIT = 16_777_216
# how long a case may take, in seconds
PATIENCE = 120
SAID = {
    0: b"",
    1: b"specht: bad words\n",
    2: b"specht: read fault\n",
    3: b"specht: write fault\n",
    4: b"specht: out of memory\n",
    5: b"specht: input too long\n",
}

PLAIN = b"columns 2\n2: 1\n1^2: v\n"
TEX = (
    b"% table 1\n\\begin{tabular}{l|c}\n & $2$ \\\\\n$2$ & $1$ \\\\\n$1^{2}$ & $v$ \\\\\n\\end{tabular}\n"
)
GAP = b"m1 := [[1],[v]];\n"

# What the mains alone decide: which painters there are and which is the first, that the words reach the run.
MAINS = [
    ([], b"crystal 2 2\n", 0, PLAIN),
    ([], b"painter plain\ncrystal 2 2\n", 0, b"painter plain\n" + PLAIN),
    ([], b"painter tex\ncrystal 2 2\n", 0, b"painter tex\n" + TEX + b"% tables 1\n"),
    ([], b"painter gap\ncrystal 2 2\n", 0, b"painter gap\n" + GAP + b"# matrices 1\n"),
    ([], b"painter maple\ncrystal 2 2\n", 0, b"error 14 unknown painter\n" + PLAIN),
    # trailers in the order of the painters
    (
        [],
        b"painter gap\ncrystal 2 2\npainter tex\ncrystal 2 2\n",
        0,
        b"painter gap\n" + GAP + b"painter tex\n" + TEX + b"% tables 1\n# matrices 1\n",
    ),
    ([], b"row 2 5\n", 0, b"[5] + v[3,1^2] + v^2[1^5]\n"),
    (["--limit", "1"], b"row 2 5\n", 0, b"error 9 too large\n"),
    (["--limit", "0"], b"row 2 5\n", 1, b""),
    (["--limit"], b"row 2 5\n", 1, b""),
    (["--"], b"row 2 5\n", 1, b""),
    (["row"], b"row 2 5\n", 1, b""),
    (["--limit", "1", "--limit", "1"], b"row 2 5\n", 1, b""),
    (["--generate", "2147483648"], b"row 2 5\n", 1, b""),
    (["--generate", "007"], b"row 2 5\n", 1, b""),
    ([], b"", 0, b""),
    ([], b"row 2 5", 0, b"[5] + v[3,1^2] + v^2[1^5]\n"),
]

# Replies of some length, and enough of them that a pipe or little memory is full before their end.
LONG = b"row 2 12\ncrystal 2 9\npartitions 14\n" * 40


class Watch:
    """Counts the cases, and prints those that are not as they must be."""

    def __init__(self):
        self.cases = 0
        self.wrong = 0

    def look(self, name, ok, found):
        self.cases += 1
        if not ok:
            self.wrong += 1
            print(f"{name}: {found}")


def told(run):
    """A short account of how a run ended."""
    return f"code {run.returncode}, {run.stderr[:80]!r}, {len(run.stdout or b'')} bytes written"


def is_ended(run, code):
    """Whether a run ended with this code, and the line that goes with it."""
    return run.returncode == code and run.stderr == SAID[code]


def run(program, words=(), **how):
    """A run of a program."""
    how.setdefault("stdout", subprocess.PIPE)
    return subprocess.run([program, *words], stderr=subprocess.PIPE, timeout=PATIENCE, check=False, **how)


def run_shell(program, redirection, data=None):
    """A run with streams as a shell redirects them."""
    command = f'exec "$0" {redirection}'
    return subprocess.run(
        ["sh", "-c", command, program],
        input=data,
        stdout=subprocess.PIPE,
        stderr=subprocess.PIPE,
        timeout=PATIENCE,
        check=False,
    )


def look_at_main(watch, program):
    """What the main alone decides."""
    for words, data, code, written in MAINS:
        ended = run(program, words, input=data)
        watch.look(
            f"{program} {' '.join(words)} {data!r}",
            is_ended(ended, code) and ended.stdout == written,
            told(ended),
        )
    if os.path.basename(program) == "specht_one":
        ended = run(program, ["--workers", "2"], input=b"row 2 5\n")
        watch.look(f"{program} --workers 2", is_ended(ended, 1) and not ended.stdout, told(ended))
        return
    for count, code in [("1", 0), ("16", 0), ("0", 1), ("17", 1), ("02", 1)]:
        ended = run(program, ["--workers", count], input=b"row 2 5\n")
        watch.look(f"{program} --workers {count}", is_ended(ended, code), told(ended))


def look_at_output(watch, program):
    """Standard output that is full, closed, or a pipe whose reader went away."""
    with open("/dev/full", "wb") as full:
        ended = run(program, input=b"row 2 5\n", stdout=full)
    watch.look(f"{program}: output full", is_ended(ended, 3), told(ended))
    with open("/dev/full", "wb") as full:
        ended = run(program, input=b"", stdout=full)
    watch.look(f"{program}: nothing to write, output full", is_ended(ended, 0), told(ended))
    ended = run_shell(program, ">&-", b"row 2 5\n")
    watch.look(f"{program}: output closed", is_ended(ended, 3), told(ended))
    whole = run(program, input=LONG).stdout
    reader, writer = os.pipe()
    with subprocess.Popen(
        [program], stdin=subprocess.PIPE, stdout=writer, stderr=subprocess.PIPE
    ) as process:
        os.close(writer)
        process.stdin.write(LONG)
        process.stdin.flush()
        got = os.read(reader, 100)
        os.close(reader)
        _, said = process.communicate(timeout=PATIENCE)
    watch.look(
        f"{program}: a pipe that closes early",
        process.returncode == 3 and said == SAID[3] and whole.startswith(got),
        f"code {process.returncode}, {said!r}",
    )


def look_at_input(watch, program):
    """Standard input that is a folder, closed, or has no end."""
    folder = os.open("/", os.O_RDONLY)
    try:
        ended = run(program, stdin=folder)
    finally:
        os.close(folder)
    watch.look(f"{program}: input a folder", is_ended(ended, 2) and not ended.stdout, told(ended))
    ended = run_shell(program, "<&-")
    watch.look(f"{program}: input closed", is_ended(ended, 2) and not ended.stdout, told(ended))
    with open("/dev/zero", "rb") as zeros:
        ended = run(program, stdin=zeros)
    watch.look(f"{program}: input without end", is_ended(ended, 5) and not ended.stdout, told(ended))
    most = b"\n" * INPUT_LIMIT
    ended = run(program, input=most)
    watch.look(f"{program}: the longest input", is_ended(ended, 0) and not ended.stdout, told(ended))
    ended = run(program, input=most + b"\n")
    watch.look(f"{program}: one byte more", is_ended(ended, 5) and not ended.stdout, told(ended))
    ended = run(program, input=b"row 2 5\n" + most)
    watch.look(
        f"{program}: a reply before too long an input",
        is_ended(ended, 5) and ended.stdout == b"[5] + v[3,1^2] + v^2[1^5]\n",
        told(ended),
    )


def replies_of(program, data):
    """What is written after each line of an input, and at the end: all the points where a run may be cut."""
    ends = {0}
    lines = data.splitlines(keepends=True)
    for count in range(len(lines) + 1):
        ends.add(len(run(program, input=b"".join(lines[:count])).stdout))
    return ends


def look_at_memory(watch, program):
    """The address space limited at 40 sizes: all replies are written, or whole ones and then memory is out."""
    data = b"row 2 12\ncrystal 2 10\npartitions 16\ncrystal 3 12\n"
    whole = run(program, input=data).stdout
    ends = replies_of(program, data)
    codes = {}
    for step in range(40):
        size = 2_097_152 + step * 524_288

        def limit(size=size):
            resource.setrlimit(resource.RLIMIT_AS, (size, size))

        try:
            ended = run(program, input=data, preexec_fn=limit)
        except OSError:
            continue
        if ended.returncode == 127 or ended.returncode < 0 and not ended.stdout:
            # the system found no memory to start it
            continue
        codes[ended.returncode] = codes.get(ended.returncode, 0) + 1
        fine = is_ended(ended, 0) and ended.stdout == whole
        cut = is_ended(ended, 4) and whole.startswith(ended.stdout) and len(ended.stdout) in ends
        watch.look(f"{program}: {size} bytes of memory", fine or cut, told(ended))
    counts = ", ".join(f"{codes[code]} with code {code}" for code in sorted(codes))
    print(f"{program}: of 40 sizes of memory {sum(codes.values())} were enough to start it; {counts}")


def main():
    """All cases for all programs."""
    if len(sys.argv) < 2:
        print(__doc__, file=sys.stderr)
        return 2
    watch = Watch()
    for program in map(os.path.abspath, sys.argv[1:]):
        look_at_main(watch, program)
        look_at_output(watch, program)
        look_at_input(watch, program)
        look_at_memory(watch, program)
    print(f"hostile streams: {watch.cases} cases, {watch.wrong} wrong")
    return 1 if watch.wrong else 0


if __name__ == "__main__":
    sys.exit(main())
