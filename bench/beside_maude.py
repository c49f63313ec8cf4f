#!/usr/bin/env -S python3 -B
"""Measures a program beside Maude: beside_maude.py PROGRAM [REPEATS].

Processor time (the least of the repeats, 5 where none are named) and peak memory of the program, of the program
with --memo 0, and of Maude where it is installed, on each system and size of systems.py. What is printed is Markdown.
The least memory that the system tells is this script's own, some 12 MB; reading the text counts as time.
"""

import datetime
import math
import os
import platform
import re
import resource
import shutil
import subprocess
import sys
import tempfile

from systems import SYSTEMS

STEPS = "1000000000000"


def unbounded():
    """Maude recurses on its own stack."""
    resource.setrlimit(resource.RLIMIT_STACK, (resource.RLIM_INFINITY, resource.RLIM_INFINITY))


def measured(words):
    """The processor time in seconds, the peak memory in megabytes, and the output."""
    with tempfile.TemporaryFile() as out:
        child = subprocess.Popen(words, stdin=subprocess.DEVNULL, stdout=out, preexec_fn=unbounded)
        _, status, used = os.wait4(child.pid, 0)
        child.returncode = os.waitstatus_to_exitcode(status)
        if child.returncode:
            sys.exit(f"{' '.join(words)} ended with {child.returncode}")
        out.seek(0)
        return used.ru_utime + used.ru_stime, used.ru_maxrss / 1024, out.read().decode()


def value(name, text):
    """The value that was printed, in the program's spelling."""
    if name != "Maude":
        return text.split("\t")[0].strip()
    return re.sub(r"\s", "", re.search(r"^result \w+: (.*?)(?=^Bye|\Z)", text, re.M | re.S).group(1))


def ways(program, room, system):
    """The words that evaluate a system, by the names of who does it."""
    for end, text in (("rec", system.rec()), ("maude", system.maude())):
        with open(f"{room}/it.{end}", "w", encoding="utf-8") as file:
            file.write(text)
    words = [program, "eval", "--count", "--steps", STEPS]
    found = {"recw": [*words, f"{room}/it.rec"], "recw --memo 0": [*words, "--memo", "0", f"{room}/it.rec"]}
    if shutil.which("maude"):
        found["Maude"] = ["maude", "-no-banner", "-no-wrap", "-no-advise", "-no-ansi-color", f"{room}/it.maude"]
    return found


def row(program, room, system, repeats):
    """The least time and the memory of each, and the number of steps; the values have to agree."""
    best, values, steps = {}, {}, 0
    for turn in range(repeats):
        found = list(ways(program, room, system).items())
        for name, words in found if turn % 2 == 0 else reversed(found):
            time, memory, text = measured(words)
            best[name] = min(best.get(name, (time, memory)), (time, memory))
            values[name] = value(name, text)
            steps = int(text.split("\t")[1]) if name == "recw" else steps
    if len(set(values.values())) != 1:
        sys.exit(f"{system.name}: the values differ")
    return best, steps


def mean(ratios):
    return math.exp(sum(map(math.log, ratios)) / len(ratios))


def told_means(rows):
    for name in ("recw", "recw --memo 0"):
        both = [it for it in rows if "Maude" in it]
        if both:
            time, memory = (mean([max(it[name][k], 0.001) / max(it["Maude"][k], 0.001) for it in both]) for k in (0, 1))
            print(f"\n`{name}` beside Maude, geometric means at the largest sizes: time {time:.2f}, memory {memory:.2f}.")


def main():
    program, repeats = os.path.abspath(sys.argv[1]), int((sys.argv[2:] or ["5"])[0])
    print(f"On {datetime.date.today():%-d %B %Y}, {os.cpu_count()} processors ({platform.machine()}), the least of {repeats} runs:\n")
    largest, names = [], None
    with tempfile.TemporaryDirectory() as room:
        for make, sizes in SYSTEMS:
            for size in sizes:
                best, steps = row(program, room, make(size), repeats)
                if names is None:
                    names = list(best)
                    print(f"| System | Size | Steps | {' | '.join(names)} |")
                    print("|---|" + "---|" * (len(names) + 2))
                cells = " | ".join(f"{best[it][0]:.3f} s, {best[it][1]:.0f} MB" for it in names)
                print(f"| {make.__name__} | {size} | {steps:,} | {cells} |", flush=True)
                if size == sizes[-1]:
                    largest.append(best)
    told_means(largest)


if __name__ == "__main__":
    main()
