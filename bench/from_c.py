#!/usr/bin/env -S python3 -B
"""What the C library takes: from_c.py PROGRAM [SPEC..].

Nanoseconds a call, by `clib/users/bench.c` with 1,000, 300,000 and 3,000,000 terms of a kind; above each stands what
the machine takes for cells of the same size. Then the processor time, the least of three runs in turn, that
`clib/users/evaluate.c` takes beside the program, for the largest size of each system of systems.py, or for
specifications that are named; what both write has to agree. The library has to stand in clib/build (`make -C clib`).
"""

import math
import os
import subprocess
import sys
import tempfile

from beside_maude import STEPS, measured
from systems import SYSTEMS

CLIB = os.path.join(os.path.dirname(os.path.dirname(os.path.realpath(__file__))), "clib")
SIZES = (1000, 300000, 3000000)
TURNS = 3


def compiled(room, name):
    """A program of clib/users over the archive."""
    words = ["cc", "-std=c99", "-O2", f"{CLIB}/users/{name}.c", f"{CLIB}/build/libpercalesilt.a", "-o", f"{room}/{name}"]
    subprocess.run(words, check=True)
    return f"{room}/{name}"


def calls(room):
    program = compiled(room, "bench")
    for size in SIZES:
        print(subprocess.run([program, str(size)], check=True, stdout=subprocess.PIPE, text=True).stdout, flush=True)


def specifications(room, given):
    """The files of the specifications by their names."""
    if given:
        return {os.path.basename(it).removesuffix(".rec"): it for it in given}
    found = {}
    for make, sizes in SYSTEMS:
        found[make.__name__] = f"{room}/{make.__name__}.rec"
        with open(found[make.__name__], "w", encoding="utf-8") as file:
            file.write(make(sizes[-1]).rec())
    return found


def evaluations(room, program, given):
    ratios, evaluate = [], compiled(room, "evaluate")
    print("| System | the program | from C | ratio |\n|---|---|---|---|")
    for name, path in specifications(room, given).items():
        ways = {"program": [program, "eval", "--count", "--steps", STEPS, path], "C": [evaluate, path, STEPS]}
        best, texts = {}, {}
        for turn in range(TURNS):
            for way in list(ways) if turn % 2 == 0 else reversed(list(ways)):
                time, _, texts[way] = measured(ways[way])
                best[way] = min(best.get(way, time), time)
        if len(set(texts.values())) != 1:
            sys.exit(f"{name}: the values differ")
        ratios.append(max(best["C"], 0.001) / max(best["program"], 0.001))
        print(f"| {name} | {best['program']:.3f} s | {best['C']:.3f} s | {ratios[-1]:.2f} |", flush=True)
    print(f"\nfrom C beside the program, geometric mean: {math.exp(sum(map(math.log, ratios)) / len(ratios)):.2f}")


def main():
    with tempfile.TemporaryDirectory() as room:
        calls(room)
        evaluations(room, os.path.abspath(sys.argv[1]), sys.argv[2:])


main()
