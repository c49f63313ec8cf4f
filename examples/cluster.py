#!/usr/bin/env python3
"""Evaluates many terms on several processes with Dask: cluster.py RECW SPEC PROCESSES < TERMS

Each line of the input is a request of `recw serve`. The lines are a bag of several partitions, and each partition goes
through one process of its own, on whichever worker has time; one that is lost with its worker is asked again. The
answers are written in the order of the requests. A RECW without a slash is looked up in PATH, as a shell does. With the
name of a scheduler in DASK_SCHEDULER the workers of that cluster are used, where RECW and SPEC have to be.
"""

import os
import shutil
import subprocess
import sys

import dask.bag
from distributed import Client, LocalCluster


def answers(lines, recw, spec):
    """The answers to the requests of one partition."""
    asked = "".join(lines)
    ran = subprocess.run([recw, "serve", spec], input=asked, stdout=subprocess.PIPE, encoding="latin-1", check=True)
    return ran.stdout.splitlines(keepends=True)


def ask(client, lines, recw, spec, count):
    """The answers to all requests, by so many partitions for each process."""
    bag = dask.bag.from_sequence(lines, npartitions=4 * count)
    return bag.map_partitions(answers, recw, spec).compute(scheduler=client)


def program(name):
    """The path of a program. Workers may run in other folders."""
    found = name if "/" in name else shutil.which(name)
    return os.path.abspath(found) if found else sys.exit(f"cluster.py: {name}: command not found")


def main():
    if len(sys.argv) != 4:
        sys.exit(__doc__)
    recw, spec, count = program(sys.argv[1]), os.path.abspath(sys.argv[2]), int(sys.argv[3])
    sys.stdin.reconfigure(encoding="latin-1")
    sys.stdout.reconfigure(encoding="latin-1")
    lines = [f"{line}\n" for line in sys.stdin.read().split("\n")]
    if lines[-1] == "\n":
        lines.pop()
    where = os.environ.get("DASK_SCHEDULER")
    cluster = None if where else LocalCluster(n_workers=count, threads_per_worker=1, dashboard_address=None)
    with Client(where or cluster) as client:
        sys.stdout.writelines(ask(client, lines, recw, spec, count))


if __name__ == "__main__":
    main()
