"""Times programs: one run, and the least of several runs that take turns. The measurements of this folder use it."""
import os
import subprocess
import tempfile
import time
from collections import namedtuple

TOP = os.path.dirname(os.path.dirname(os.path.abspath(__file__)))
# the programs on one thread and by many workers
ALONE, MANY = (f"{TOP}/crates/{it}/out/{it}" for it in ("specht_one", "specht"))

# seconds by the clock and of the processor, the greatest resident size in MB, and what was written where that is kept
Run = namedtuple("Run", "clock processor memory output")


class Failed(Exception):
    """A command that ended with another status than 0."""


def run(command, text=b"", keep=False):
    """One run of a command that reads this text."""
    with tempfile.TemporaryFile() as lines, tempfile.TemporaryFile() as out:
        lines.write(text)
        lines.seek(0)
        start = time.perf_counter()
        none = subprocess.DEVNULL
        ran = subprocess.Popen(command, stdin=lines, stdout=out if keep else none, stderr=none)
        _, status, used = os.wait4(ran.pid, 0)
        clock = time.perf_counter() - start
        ran.returncode = os.waitstatus_to_exitcode(status)
        if status:
            raise Failed(f"{command} ended with {ran.returncode}")
        out.seek(0)
        return Run(clock, used.ru_utime + used.ru_stime, used.ru_maxrss / 1000, out.read())


def least(commands, runs, by="clock", outputs=None):
    """For each name the least seconds and the greatest memory of so many runs of its command with its text.

    The commands take turns. Where a set of outputs is given, each output is put into it.
    """
    best = {name: (float("inf"), 0) for name in commands}
    for _ in range(runs):
        for name, (command, text) in commands.items():
            ran = run(command, text, outputs is not None)
            best[name] = min(best[name][0], getattr(ran, by)), max(best[name][1], ran.memory)
            if outputs is not None:
                outputs.add(ran.output)
    return best


def told(best, digits=3):
    """The seconds and MB of each name, in one line."""
    return ", ".join(f"{name} {seconds:.{digits}f} s {memory:.0f} MB" for name, (seconds, memory) in best.items())
