#!/usr/bin/env python3
"""Proves and builds a program and the crates below it, several crates at a time.

Usage: tools/build.py PROGRAM

`rt` locks all crates below the one that it works on, so two of its commands in one checkout wait for each other. Each
lane here therefore has a copy of the sources of its own, outside the repository, and the libraries that were built go
by hard links from the lane to the checkout and from there to the other lanes. What the checkout holds is never built
again, and after Ctrl-C the next start goes on with what was finished. One line is printed for each crate.
"""

import concurrent.futures
import hashlib
import os
import shutil
import subprocess
import sys
import threading
import time

TOP = os.path.dirname(os.path.dirname(os.path.abspath(__file__)))
PARTS = ("src", "specs", "proofs")
# The most memory that one check is likely to take, in bytes.
MEMORY = 3_000_000_000


def listed():
    """The libraries of the repository that each crate of crates.txt names."""
    found = {}
    with open(f"{TOP}/crates.txt", encoding="utf-8") as lines:
        for line in lines:
            head, colon, names = line.partition("#")[0].partition(":")
            if colon:
                found[head.split()[0]] = names.split()
    return {name: [it for it in below if it in found] for name, below in found.items()}


def closure(crates, program):
    """The program and all crates below it, each behind those that it stands on."""
    order = []

    def visit(name):
        for below in crates[name]:
            visit(below)
        if name not in order:
            order.append(name)

    visit(program)
    return order


def size_of(name):
    """The lines of a crate: its share of the work."""
    lines = 0
    for part in PARTS:
        for folder, _, files in os.walk(f"{TOP}/crates/{name}/{part}"):
            for file in files:
                with open(f"{folder}/{file}", "rb") as it:
                    lines += it.read().count(b"\n")
    return lines


def heights(crates, order):
    """For each crate the lines on the longest chain from it up to the program."""
    height = {name: size_of(name) for name in order}
    for name in reversed(order):
        above = [height[it] for it in order if name in crates[it]]
        height[name] += max(above, default=0)
    return height


def lanes_wanted():
    """As many lanes as there are processors, fewer where memory is short."""
    free = 0
    with open("/proc/meminfo", encoding="utf-8") as lines:
        for line in lines:
            if line.startswith("MemAvailable:"):
                free = int(line.split()[1]) * 1024
    return max(1, min(len(os.sched_getaffinity(0)), free // MEMORY))


def link(one, other):
    """Makes the folder `other` of hard links to the files of `one`, or of copies where links are not to be had."""

    def place(source, target):
        try:
            os.link(source, target)
        except OSError:
            shutil.copy2(source, target)

    shutil.rmtree(other, ignore_errors=True)
    os.makedirs(os.path.dirname(other), exist_ok=True)
    shutil.copytree(one, f"{other}.new", copy_function=place)
    os.rename(f"{other}.new", other)


class Lane:
    """A copy of the sources in which one command of rt runs at a time."""

    def __init__(self, folder, order):
        self.folder = folder
        self.work = None
        self.copied = time.time()
        os.makedirs(f"{folder}/crates", exist_ok=True)
        shutil.copy2(f"{TOP}/HANDLES", f"{folder}/HANDLES")
        with open(f"{TOP}/crates.txt", encoding="utf-8") as lines:
            # `rt` stops at a line whose crate has no folder
            kept = [line for line in lines if line.partition(":")[0] in order]
        with open(f"{folder}/crates.txt", "w", encoding="utf-8") as out:
            out.writelines(kept)
        for name in order:
            for part in PARTS:
                here, there = f"{TOP}/crates/{name}/{part}", f"{folder}/crates/{name}/{part}"
                shutil.rmtree(there, ignore_errors=True)
                if os.path.isdir(here):
                    shutil.copytree(here, there)

    def stop(self):
        """Ends the command that runs here, if one does."""
        if self.work and self.work.poll() is None:
            self.work.terminate()

    def build(self, name, below, jobs, log):
        """Builds one library over those of the checkout, and hands it to the checkout. Returns whether it could."""
        for it in below:
            link(f"{TOP}/crates/{it}/out/rlib", f"{self.folder}/crates/{it}/out/rlib")
        with open(log, "w", encoding="utf-8") as out:
            command = ["rt", "lib", name, "--jobs", str(jobs)]
            where = {"cwd": f"{self.folder}/crates/{name}", "stdin": subprocess.DEVNULL, "stdout": out, "stderr": out}
            self.work = subprocess.Popen(command, **where)
            if self.work.wait():
                return False
        link(f"{self.folder}/crates/{name}/out/rlib", f"{TOP}/crates/{name}/out/rlib")
        # a library that `rt` had kept from another checkout bears its first date
        os.utime(f"{TOP}/crates/{name}/out/rlib/stamp", (self.copied, self.copied))
        # what the check kept speeds a later `rt check` in the checkout
        kept = f"crates/{name}/out/incremental"
        if os.path.isdir(f"{self.folder}/{kept}") and not os.path.exists(f"{TOP}/{kept}"):
            shutil.move(f"{self.folder}/{kept}", f"{TOP}/{kept}")
        return True


class Build:
    """The crates that are still to be built, and those at work."""

    def __init__(self, program, rooms):
        self.crates = listed()
        self.order = closure(self.crates, program)
        self.libraries = self.order[:-1]
        self.height = heights(self.crates, self.order)
        self.below = {it: closure(self.crates, it)[:-1] for it in self.order}
        self.rooms = rooms
        self.done = set()
        self.started = time.monotonic()
        self.turn = threading.Lock()

    def tell(self, name, what):
        seconds = int(time.monotonic() - self.started)
        spent = f"{seconds // 60} min {seconds % 60:02} s"
        print(f"specht: {len(self.done):2} of {len(self.order)}  {name} {what}  ({spent})", file=sys.stderr, flush=True)

    def keep_current(self):
        """Counts the libraries that the checkout holds and whose text, and that of all below, is not newer."""
        for name in self.libraries:
            stamp = f"{TOP}/crates/{name}/out/rlib/stamp"
            if not os.path.isfile(stamp) or any(it not in self.done for it in self.below[name]):
                continue
            made = os.stat(stamp).st_mtime
            changed = [f"{TOP}/crates.txt"]
            for it in [*self.below[name], name]:
                for part in PARTS:
                    for folder, _, files in os.walk(f"{TOP}/crates/{it}/{part}"):
                        changed += [folder, *(f"{folder}/{file}" for file in files)]
            if all(os.stat(it).st_mtime <= made for it in changed):
                self.done.add(name)

    def ready(self, waiting):
        """The crates whose libraries are all built, the longest chain first."""
        open_ones = [it for it in waiting if all(below in self.done for below in self.below[it])]
        return sorted(open_ones, key=lambda it: -self.height[it])

    def jobs(self, name, waiting, count):
        """How many jobs a check gets: all processors on the longest chain that is left, for nothing above can begin
        before it ends, and one beside it."""
        return count if all(self.height[name] >= self.height[it] for it in waiting) else 1

    def run(self):
        """Builds all libraries. Returns the crate that failed and its log, if one did."""
        self.keep_current()
        waiting = [it for it in self.libraries if it not in self.done]
        if not waiting:
            return None
        count = min(lanes_wanted(), len(waiting))
        lanes = [Lane(f"{self.rooms}/lane{k}", self.order) for k in range(count)]
        running = {}
        with concurrent.futures.ThreadPoolExecutor(count) as pool:
            while waiting or running:
                ready = self.ready(waiting)[: len(lanes)]
                for name in ready:
                    waiting.remove(name)
                    lane, log = lanes.pop(), f"{self.rooms}/{name}.log"
                    jobs = self.jobs(name, waiting, count)
                    running[pool.submit(lane.build, name, self.below[name], jobs, log)] = name, lane, log
                finished, _ = concurrent.futures.wait(running, return_when=concurrent.futures.FIRST_COMPLETED)
                for it in finished:
                    name, lane, log = running.pop(it)
                    lanes.append(lane)
                    if not it.result():
                        for _, other, _ in running.values():
                            other.stop()
                        return name, log
                    self.done.add(name)
                    self.tell(name, "proved")
        return None


def main():
    program = sys.argv[1]
    cache = os.environ.get("XDG_CACHE_HOME") or os.path.expanduser("~/.cache")
    rooms = f"{cache}/specht/{hashlib.sha256(TOP.encode()).hexdigest()[:16]}"
    os.makedirs(rooms, exist_ok=True)
    build = Build(program, rooms)
    print(f"specht: proving and building {len(build.order)} crates; a first build takes some minutes", file=sys.stderr)
    failed = build.run()
    log = f"{rooms}/{program}.log"
    if not failed:
        with open(log, "w", encoding="utf-8") as out:
            folder = f"{TOP}/crates/{program}"
            none = subprocess.DEVNULL
            ran = subprocess.run(["rt", "run"], cwd=folder, stdin=none, stdout=out, stderr=out, check=False)
        failed = None if os.path.isfile(f"{folder}/out/{program}") and ran.returncode == 0 else (program, log)
    if failed:
        print(f"specht: {failed[0]} does not prove; the whole log is {failed[1]}; its last lines:", file=sys.stderr)
        with open(failed[1], encoding="utf-8", errors="replace") as it:
            print("".join(it.readlines()[-12:]), end="", file=sys.stderr)
        return 70
    build.done.add(program)
    build.tell(program, "built")
    shutil.rmtree(rooms, ignore_errors=True)
    return 0


if __name__ == "__main__":
    try:
        sys.exit(main())
    except KeyboardInterrupt:
        print("specht: stopped; the next start goes on from here", file=sys.stderr)
        sys.exit(130)
