#!/usr/bin/env -S python3 -B
"""How long calls of the package percalesilt take, in microseconds and beside a bare call by ctypes.

    bench.py [ROUNDS]

Each figure is the least of 20 rounds, or of ROUNDS, in processor time, which other work on the machine disturbs least.
"""

import ctypes
import itertools
import os
import sys
import time
import timeit
from typing import Any, Dict, Iterator, Optional, Tuple

sys.path.insert(0, os.path.dirname(os.path.dirname(os.path.realpath(__file__))))

from percalesilt import U32, Handle, Store, library

NUMBER = 5000


def cases() -> Iterator[Tuple[str, str, Dict[str, Any], int]]:
    """What is measured: words, what is done NUMBER times, its names, and how many items are done each time."""
    calls, handle, out, store = library(), Handle(0, None), U32(), Store()
    calls.psilt_open(ctypes.byref(handle), 1000000)
    names: Dict[str, Any] = {"call": calls.psilt_int, "handle": ctypes.byref(handle), "out": ctypes.byref(out), "handles": handle}
    names.update(store=store, counter=itertools.count(), kept=[], text="f(1,a)", term=store.parse("f(1,a)"))
    names.update(pattern=store.pattern("f(<int>,<term>)"), symbol=store.symbol("f", 2), items=store.list(range(100)))
    yield "a bare call", "call(handle, 5, out)", names, 1
    yield "a new integer, which is kept", "kept.append(store.int(next(counter)))", names, 1
    yield "a new integer, which is dropped", "store.int(next(counter))", names, 1
    yield "an integer that is there", "store.int(1)", names, 1
    yield f"reading {names['text']}, which is there", "store.parse(text)", names, 1
    yield "printing it", "str(term)", names, 1
    yield "its arguments", "term.args", names, 1
    yield "applying a symbol to two terms", "symbol(term, term)", names, 1
    yield "a match with two bindings", "pattern.match(term)", names, 1
    yield "an item of a list", "for it in items: pass", names, 100


def main() -> None:
    rounds = int(sys.argv[1]) if len(sys.argv) > 1 else 20
    bare: Optional[float] = None
    for words, statement, names, items in cases():
        number = max(1, NUMBER // items)
        timer = timeit.Timer(statement, timer=time.process_time, globals=names)
        least = min(timer.repeat(rounds, number)) / number / items * 1e6
        bare = bare or least
        print(f"{words:40} {least:6.2f} us {least / bare:6.2f}")


if __name__ == "__main__":
    main()
