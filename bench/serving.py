#!/usr/bin/env -S python3 -B
"""How long a request takes: serving.py PROGRAM [REQUESTS].

Requests of ten steps each, without remembered results: by a start of the program for each, by a client that waits for
each answer, and by one that sends ahead; with the seconds between, and the program's own time by the system's count.
"""

import os
import subprocess
import sys
import time

EXAMPLES = os.path.join(os.path.dirname(os.path.dirname(os.path.realpath(__file__))), "examples")
# Ten steps, and what they come to.
REQUEST = b"plus(s(s(s(s(s(s(s(s(s(z))))))))),z)\n"
ANSWER = b"s(s(s(s(s(s(s(s(s(z)))))))))\n"


def own_time(child):
    """Microseconds of processor time of a process that ends."""
    used = os.wait4(child.pid, 0)[2]
    child.returncode = 0
    return 1e6 * (used.ru_utime + used.ru_stime)


def begin(program):
    words = [program, "serve", "--memo", "0", f"{EXAMPLES}/add.rec"]
    return subprocess.Popen(words, stdin=subprocess.PIPE, stdout=subprocess.PIPE, bufsize=0)


def waiting(program, count):
    """Each request is sent when the answer before it is there."""
    child = begin(program)
    source, sink = child.stdout.fileno(), child.stdin.fileno()
    start = time.monotonic()
    for _ in range(count):
        os.write(sink, REQUEST)
        assert os.read(source, 65536) == ANSWER
    took = time.monotonic() - start
    child.stdin.close()
    return 1e6 * took / count, own_time(child) / count


def ahead(program, count):
    """All requests are sent as fast as they are taken."""
    child = begin(program)
    start = time.monotonic()
    if os.fork() == 0:
        os.close(child.stdout.fileno())
        for _ in range(count // 1000):
            child.stdin.write(REQUEST * 1000)
        os._exit(0)
    child.stdin.close()
    size = 0
    while piece := os.read(child.stdout.fileno(), 1 << 20):
        size += len(piece)
    took = time.monotonic() - start
    assert size == len(ANSWER) * count
    return 1e6 * took / count, own_time(child) / count


def starts(program, count):
    """A start of the program for each."""
    words = [program, "eval", "--memo", "0", f"{EXAMPLES}/add.rec", "-e", REQUEST.decode().strip()]
    start = time.monotonic()
    for _ in range(count):
        subprocess.run(words, stdout=subprocess.DEVNULL, check=True)
    return 1e6 * (time.monotonic() - start) / count


def main():
    program = os.path.realpath(sys.argv[1])
    count = int(sys.argv[2]) if len(sys.argv) > 2 else 100_000
    print(f"a start for each: {starts(program, 200):.0f} us")
    for name, how in (("waiting for each answer", waiting), ("sending ahead", ahead)):
        took, own = how(program, count)
        print(f"{name}: {took:.2f} us, {own:.2f} us of its own")


main()
