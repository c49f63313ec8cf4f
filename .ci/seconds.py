#!/usr/bin/env python3
"""Runs a command, and then prints how many seconds of a processor the checks that it started took, by crate:

    .ci/seconds.py COMMAND WORDS..

It ends with the command's status. What a check took is looked up four times a second, so a check may have taken a
quarter of a second more than it says.
"""

import os
import subprocess
import sys
import threading
import time
from collections import defaultdict

# the prover, and the processes among which it divides a check that may have several jobs
PROVERS = ("rattle", "antt-kernel")
KINDS = ("proof", "tests", "edits", "code")
PAUSE = 0.25
TICKS = os.sysconf("SC_CLK_TCK")


def read(path):
    """The bytes of a file below /proc, none where the process has ended."""
    try:
        with open(path, "rb") as file:
            return file.read()
    except OSError:
        return b""


def folder_of(process):
    try:
        return os.readlink(f"/proc/{process}/cwd")
    except OSError:
        return ""


class Process:
    """What /proc says of a process: its name, its parent, when it was started, and its time so far."""

    def __init__(self, number):
        self.number = int(number)
        before, _, behind = read(f"/proc/{number}/stat").decode(errors="replace").rpartition(")")
        self.name = before.partition("(")[2]
        fields = behind.split()
        self.parent = int(fields[1]) if fields else 0
        self.start = fields[19] if fields else ""
        self.seconds = (int(fields[11]) + int(fields[12])) / TICKS if fields else 0.0


def what_it_checks(process):
    """The crate that a check is about and what of it, or None."""
    words = read(f"/proc/{process}/cmdline").decode(errors="replace").split("\0")
    if "--crate-name" not in words:
        return None
    crate = words[words.index("--crate-name") + 1]
    if "/rt-edit" in folder_of(process):
        return crate, "edits"
    if "--crate-checked" in words:
        return crate, "code"
    return crate, "tests" if "--test" in words else "proof"


class Watch(threading.Thread):
    """Looks at the processes below one, until it is told to stop."""

    def __init__(self, top):
        super().__init__(daemon=True)
        self.top = top
        self.stopped = threading.Event()
        self.checks = {}
        self.seconds = {}

    def run(self):
        while not self.stopped.wait(PAUSE):
            self.look()

    def look(self):
        found = {it.number: it for it in map(Process, filter(str.isdigit, os.listdir("/proc")))}
        for it in found.values():
            if it.name in PROVERS and self.is_below(it, found):
                key = it.number, it.start
                if self.checks.get(key) is None:
                    self.checks[key] = what_it_checks(it.number)
                self.seconds[key] = it.seconds

    def is_below(self, process, found):
        while process is not None:
            if process.parent == self.top:
                return True
            process = found.get(process.parent)
        return False

    def by_crate(self):
        sums = defaultdict(lambda: defaultdict(float))
        for key, check in self.checks.items():
            if check is not None:
                sums[check[0]][check[1]] += self.seconds[key]
        return sums


def line(name, cells):
    return f"{name:<14}" + "".join(f"{it:>9}" for it in cells)


def tell(sums, wall):
    """Prints the table, the crate that took most first."""
    print(line("seconds of", [*KINDS, "all"]))
    for crate, kinds in sorted(sums.items(), key=lambda it: -sum(it[1].values())):
        print(line(crate, [f"{kinds[it]:.0f}" if kinds[it] else "" for it in KINDS] + [f"{sum(kinds.values()):.0f}"]))
    totals = [sum(kinds[it] for kinds in sums.values()) for it in KINDS]
    print(line("all", [f"{it:.0f}" for it in [*totals, sum(totals)]]))
    print(f"{wall:.0f} seconds by the clock, on {len(os.sched_getaffinity(0))} processors", flush=True)


def main():
    begun = time.monotonic()
    with subprocess.Popen(sys.argv[1:]) as command:
        watch = Watch(command.pid)
        watch.start()
        status = command.wait()
        watch.stopped.set()
        watch.join()
    tell(watch.by_crate(), time.monotonic() - begun)
    sys.exit(status if status >= 0 else 128 - status)


main()
