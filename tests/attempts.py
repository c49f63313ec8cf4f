"""What the parts of hostile.py share: what was tried, and a run of the program."""

import subprocess
import tempfile

from common import FAILURES, TOP, program, same

EXAMPLES = f"{TOP}/examples"
NO_MEMORY = (3, "recw: out of memory\n")
NO_CELLS = (3, "recw: out of cells\n")
NO_READ = (4, "recw: read failed\n")
NO_WRITE = (4, "recw: write failed\n")
# what is told of a closed pipe, and with --explain
CLOSED = (4, "")
CLOSED_EXPLAINED = (4, "recw: write failed\n<stdout>: Broken pipe\n")
TRIED = []


def check(what, wanted, found):
    TRIED.append(what)
    same(what, wanted, found)


def check_long(what, wanted, found):
    """The same of long outputs, which are not printed where they differ."""
    check(what, True, wanted == found)


def passed():
    return len(TRIED) - len(FAILURES)


def run(*words, before=(), **how):
    """The status and both outputs of a program, each byte a character."""
    how = {"cwd": EXAMPLES, "capture_output": True, "encoding": "latin-1", "check": False, "timeout": 600, **how}
    ran = subprocess.run([*before, *words], **how)
    return ran.returncode, ran.stdout, ran.stderr


def recw(*words, **how):
    """The same of the program that is tried."""
    return run(program(), *words, **how)


def at_stack(kib, memory="unlimited"):
    """The words before a program that is to have so large a stack, and so many KiB of memory."""
    return ("sh", "-c", f'ulimit -s {kib} && ulimit -v {memory} && exec "$@"', "sh")


def room():
    return tempfile.TemporaryDirectory()


def write_file(path, text):
    with open(path, "w", encoding="latin-1") as file:
        file.write(text)
    return path
