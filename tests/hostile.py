#!/usr/bin/env -S python3 -B
"""Refuses the program what it asks for, each request in its turn: hostile.py PROGRAM [PART..].

| Part | What is tried |
|---|---|
| texts | each beginning of a text |
| cells | each number of cells up to 64, for each worked specification |
| rows | each worked specification with other options on the memo, on reclaiming and on the count |
| files | each read and each write fails, is interrupted, or gives nothing; needs strace |
| depth | great depth and length, on stacks of 8 MiB and of 256 KiB |
| conversations | requests that are cut off, long, slow, many, without memory or cells, and streams that fail |
| checks | checks of specifications: worked, cut off, great and deep ones, without memory, and streams that fail |
| program | folders, missing and endless files, full devices, closed pipes, signals |
| breadth | texts of great breadth, for each call that may want memory |
| errors | each error of a read and of a write |
| streams | each read and each write of evaluations, reports, traces, conversations, checks and runs on terms fails |
| memory | each request for memory of the program |
| crates | each request for memory of single calls, by the program of crates/test_alloc_failure; that their blocks go back |

The last line is `N passed, M failed`. The last four parts trace the program, for which they need Linux on x86-64;
their runs stand side by side on the processors that this process may use.
"""

import re
import shutil
import sys
import time

from attempts import NO_CELLS, TRIED, check, passed, recw
from breadth import try_breadth, try_errors
from checks import try_checks
from conversations import try_conversations
from common import FAILURES, rows, text_of
from depth import try_depth
from memory import try_crates, try_memory
from refuse import is_allowed
from streams import try_files, try_program, try_streams

MEMOS = (0, 1, 65536)
RECLAIMS = (1, 262144)


def try_texts():
    spec = text_of("examples/add.rec").strip()
    for end in range(len(spec)):
        status, line, _ = recw("eval", input=spec[:end])
        check(f"the first {end} bytes of add.rec", (1, "!spec G\n"), (status, line))
    term = "f(a,[1,-7]){b}"
    for end in range(len(term)):
        beginning = term[:end]
        wanted = (0, f"{beginning}\n") if beginning in ("f", "f(a,[1,-7])") else (1, "!term A\n")
        check(f"the term {beginning!r}", wanted, recw("aterm", input=beginning)[:2])


def worked():
    """The rows of the table but those whose steps only remembered results make few."""
    return [it for it in rows() if "fast.rec" not in it[0]]


def without(options, name):
    """The options without one of them and its number."""
    return re.sub(rf"{name} \d+", "", options).split()


def try_cells():
    wanted = (0, "s(s(s(z)))\n", "")
    check("64 cells", wanted, recw("eval", "--steps", "3", "--cells", "64", "add.rec"))
    for files, options, output in worked():
        for cells in range(1, 65):
            words = [*without(options, "--cells"), "--cells", str(cells), *files.split()]
            status, lines, told = recw("eval", *words)
            refused = (status, told) == NO_CELLS and output.startswith(lines)
            check(" ".join(words), True, refused or (status, lines, told) == (0, output, ""))


def known_steps():
    """The steps of lines whose value comes with a budget and not with one less, by file, budget and line."""
    outputs = {}
    for files, options, output in worked():
        budget = int(re.search(r"--steps (\d+)", options)[1])
        outputs[files, budget] = [it.split("\t")[0] for it in output.splitlines()]
    known = {}
    for (files, budget), lines in outputs.items():
        fewer = outputs.get((files, budget - 1))
        for number, line in enumerate(lines):
            if budget == 0 or (fewer and fewer[number].startswith("!limit") and not line.startswith("!")):
                known[files, budget, number] = budget
    return known


def is_counted(output, found, steps):
    """Whether the lines are those without a count, with steps behind each value: the known ones, where they are."""
    lines = found.splitlines()
    if [it.split("\t")[0] for it in lines] != output.splitlines():
        return False
    for number, line in enumerate(lines):
        value, _, count = line.partition("\t")
        if value.startswith("!limit") != (count == "") or (count and int(count) != steps.get(number, int(count))):
            return False
    return True


def try_rows():
    known = known_steps()
    for files, options, output in worked():
        budget = int(re.search(r"--steps (\d+)", options)[1])
        steps = {number: it for (file, n, number), it in known.items() if (file, n) == (files, budget)}
        counted = set()
        for memo in MEMOS:
            for reclaim in RECLAIMS:
                words = [*without(options, "--memo"), "--memo", str(memo), "--reclaim", str(reclaim), *files.split()]
                check(" ".join(words), (0, output, ""), recw("eval", *words))
                if "--count" not in options:
                    counted.add(recw("eval", "--count", *words)[1])
        if "--count" not in options:
            found = counted.pop()
            check(f"{options} {files}: counts", True, not counted and is_counted(output, found, steps))


PARTS = {
    "texts": try_texts,
    "cells": try_cells,
    "rows": try_rows,
    "files": try_files,
    "depth": try_depth,
    "conversations": try_conversations,
    "checks": try_checks,
    "program": try_program,
    "breadth": try_breadth,
    "errors": try_errors,
    "streams": try_streams,
    "memory": try_memory,
    "crates": try_crates,
}


def lacks(part):
    """What a part needs and does not have here, if anything."""
    if part == "files" and not shutil.which("strace"):
        return "strace is not here"
    if part in ("errors", "streams", "memory", "crates") and not is_allowed():
        return "no program can be traced here"
    return None


def main():
    for part in sys.argv[2:] or PARTS:
        lack = lacks(part)
        if lack:
            print(f"not tried: {part}: {lack}")
            continue
        before, start = len(TRIED), time.monotonic()
        refused = PARTS[part]()
        told = f"{refused} requests refused, " if refused else ""
        print(f"{part}: {told}{len(TRIED) - before} tried in {time.monotonic() - start:.0f} s", flush=True)
    print(f"{passed()} passed, {len(FAILURES)} failed")
    sys.exit(1 if FAILURES else 0)


main()
