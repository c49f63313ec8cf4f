#!/usr/bin/env -S python3 -B
"""Threads that share one store.

    threads.py [SECONDS]

Four threads parse and print on one store, while another one only allocates, so that Python's collector drops terms
there, and one reclaims. Nothing may fail, and when all terms are dropped a reclaim leaves no cell.
"""

import gc
import os
import sys
import threading
import time
from typing import Any, Iterable, List

sys.path.insert(0, os.path.dirname(os.path.dirname(os.path.realpath(__file__))))

from percalesilt import Store


class Cycle:
    """An object that only the collector frees."""

    def __init__(self, *held: object) -> None:
        self.held, self.itself = held, self


def parse_and_print(store: Store, number: int, counts: List[int]) -> None:
    for i in range(200):
        text = f"f({number},[{i % 50},g(a{i % 7}{{{number}}})])"
        term = store.parse(text)
        if str(term) != text:
            raise AssertionError(f"{term}, not {text}")
        if list(map(str, store.list(range(4)))) != ["0", "1", "2", "3"]:
            raise AssertionError("a list has other items")
        Cycle(term, store.appl("h", term, i), store.pattern("f(<int>,<list>)"))
        counts[number] += 1


def allocate() -> None:
    """Makes only objects of its own. The collector runs in this thread for most of them."""
    for _ in range(1000):
        Cycle()


def reclaim(store: Store) -> None:
    store.reclaim()
    time.sleep(0.01)


def in_threads(calls: Iterable[Any], ends: float = 0.0) -> None:
    """Each call in a thread of its own, once at least, and again until the time ends."""
    failures: List[BaseException] = []

    def run(call: Any, *words: object) -> None:
        try:
            call(*words)
            while time.monotonic() < ends:
                call(*words)
        except BaseException as failure:
            failures.append(failure)

    threads = [threading.Thread(target=run, args=it) for it in calls]
    for thread in threads:
        thread.start()
    for thread in threads:
        thread.join()
    if failures:
        raise failures[0]


def nothing_is_left(store: Store) -> None:
    gc.collect()
    store.reclaim()
    if store.cells:
        raise AssertionError(f"{store.cells} cells are left")


def main() -> None:
    seconds = float(sys.argv[1]) if len(sys.argv) > 1 else 10
    store, counts = Store(), [0] * 4
    users = [(parse_and_print, store, number, counts) for number in range(4)]
    gc.disable()
    for i in range(1000):
        Cycle(store.parse(f"g({i})"), store.pattern("<int>"))
    in_threads([(gc.collect,), *users])
    nothing_is_left(store)
    gc.enable()
    in_threads([*users, (allocate,), (reclaim, store)], time.monotonic() + seconds)
    nothing_is_left(store)
    print(f"threads.py: {sum(counts)} terms as wanted")


if __name__ == "__main__":
    main()
