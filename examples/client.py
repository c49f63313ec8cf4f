#!/usr/bin/env python3
"""Asks a process that stays: client.py RECW SPEC TERM..

One process answers all; each term is sent after the previous response. A response that starts with `!` is an error.
"""

import subprocess
import sys


class Server:
    """A process that answers terms by a specification, within a `with` block."""

    def __init__(self, recw, spec, *options):
        words = [recw, "serve", *options, spec]
        self.process = subprocess.Popen(words, stdin=subprocess.PIPE, stdout=subprocess.PIPE, encoding="latin-1")

    def __enter__(self):
        return self

    def __exit__(self, *_):
        try:
            self.process.stdin.close()
        except BrokenPipeError:
            pass  # it has ended
        self.process.wait()

    def ask(self, term):
        """The response to a term, which is written on one line."""
        try:
            self.process.stdin.write(f"{term}\n")
            self.process.stdin.flush()
        except BrokenPipeError:
            pass  # the specification was rejected: its error line is all that there is to read
        return self.process.stdout.readline().rstrip("\n")


def main():
    if len(sys.argv) < 4:
        sys.exit("usage: client.py RECW SPEC TERM..")
    recw, spec, *terms = sys.argv[1:]
    with Server(recw, spec) as server:
        for term in terms:
            value = server.ask(term)
            if value.startswith("!spec"):
                sys.exit(f"{spec}: {value}")
            print(f"{term} is {value}")
        # what is asked may depend on an answer
        print(f"its value is {server.ask(value)}")


main()
