"""Tests on a terminal for tests/editors.py: what the program shows while its input is typed, and examples/prompt, with
rlwrap completion, history and explained errors, and without rlwrap."""

import fcntl
import os
import pty
import re
import select
import shutil
import struct
import subprocess
import sys
import termios
import time

from common import TOP, program, same

PROMPT = f"{TOP}/examples/prompt"


class Terminal:
    """A program on a terminal of its own."""

    def __init__(self, words, room, path):
        self.process, self.handle = pty.fork()
        if self.process == 0:
            os.environ.update({"TERM": "dumb", "HOME": room, "PATH": path, "RECW": program()})
            fcntl.ioctl(0, termios.TIOCSWINSZ, struct.pack("HHHH", 24, 100, 0, 0))
            os.execv(words[0], words)

    def read(self, wanted, seconds=30):
        """What is shown until a pattern is there."""
        shown, until = "", time.monotonic() + seconds
        while time.monotonic() < until and not re.search(wanted, shown):
            if select.select([self.handle], [], [], 0.1)[0]:
                try:
                    shown += os.read(self.handle, 4096).decode("utf-8", "replace")
                except OSError:
                    break
        return shown

    def type(self, text):
        os.write(self.handle, text.encode())

    def end(self, how="\x04"):
        """Ends the input, or interrupts the program, and returns the status."""
        self.type(how)
        self.read("^$", 1)
        status = os.waitpid(self.process, 0)[1]
        os.close(self.handle)
        return os.WEXITSTATUS(status) if os.WIFEXITED(status) else -1


def dialogue(terminal, name, rows):
    """Types each text, and looks for what is shown for it."""
    for text, wanted in rows:
        terminal.type(text)
        shown = terminal.read(wanted)
        same(f"prompt, {name}: {text!r} shows {shown!r}", True, re.search(wanted, shown) is not None)


def try_typing(room):
    """A specification and requests that are typed."""
    path = os.environ["PATH"]
    terminal = Terminal([program()], room, path)
    with open(f"{TOP}/examples/add.rec", encoding="ascii") as file:
        dialogue(terminal, "recw", [
            ("", "recw: reading a specification from standard input"),
            (file.read(), "END-SPEC"),
            ("\x04", r"s\(s\(s\(z\)\)\)\r\n"),
        ])
    same("recw on a terminal: status", 0, terminal.end(""))
    terminal = Terminal([program(), "serve", f"{TOP}/examples/add.rec"], room, path)
    dialogue(terminal, "serve", [
        ("", r"^recw: reading one term per line from standard input.*\r\nrec> $"),
        ("plus(s(z),z)\n", r"\r\ns\(z\)\r\nrec> $"),
        ("plus(s(z\n", r"\r\n!term A\r\n<stdin>:2:9: A: [\s\S]*\^\r\nrec> $"),
        ("z\n", r"\r\nz\r\nrec> $"),
    ])
    terminal.type("\x04")
    same("serve on a terminal: the end", "\r\n", terminal.read("\n"))
    same("serve on a terminal: status", 0, terminal.end(""))


def try_prompt(room):
    if len(sys.argv) < 2:
        print("not tried: the prompt, since no program is named")
        return
    try_typing(room)
    spec = f"{room}/some sums.rec"
    with open(f"{TOP}/examples/add.rec", encoding="ascii") as file, open(spec, "w", encoding="ascii") as copy:
        copy.write(file.read().replace("plus", "plus-of"))
    bare = subprocess.run([PROMPT], stdin=subprocess.DEVNULL, capture_output=True, text=True, check=False)
    same("prompt without a specification", (2, "usage"), (bare.returncode, bare.stderr[:5]))
    # without rlwrap: a folder with what the script needs otherwise
    folder = f"{room}/bin"
    os.mkdir(folder)
    for it in ("sh", "sed", "grep", "awk", "mktemp", "rm"):
        os.symlink(shutil.which(it), f"{folder}/{it}")
    terminal = Terminal([PROMPT, spec], room, folder)
    dialogue(terminal, "without rlwrap", [
        ("plus-of(s(z),z)\n", r"s\(z\)\t2"),
        ("plus-of(z\n", r"!term A[\s\S]*\^"),
        ("z\n", r"z\t0"),
    ])
    same("prompt without rlwrap: status", 0, terminal.end())
    if not shutil.which("rlwrap"):
        print("not tried: the prompt with rlwrap, which is not here")
        return
    path = f"{folder}:{os.path.dirname(shutil.which('rlwrap'))}"
    for name in ("first", "second"):
        terminal = Terminal([PROMPT, spec, "--steps=100"], room, path)
        shown = terminal.read("rec> ")
        same(f"prompt, {name}: {shown!r}", True, "rec> " in shown)
        if name == "first":
            dialogue(terminal, name, [
                ("plus-of(s(z),z)\n", r"s\(z\)\s+2"),
                ("pl\t(z,z)\n", r"plus-of\(z,z\)[\s\S]*z\t? *1"),
                ("s(pl\t(z,s(z)))\n", r"s\(plus-of\(z,s\(z\)\)\)[\s\S]*s\(s\(z\)\)\s+1"),
                ("plus-of(z\n", r"!term A[\s\S]*syntax error[\s\S]*\^"),
                ("\x1b[A\x1b[A\n", r"s\(s\(z\)\)\s+1"),
            ])
        else:
            dialogue(terminal, name, [("\x1b[A\n", r"s\(s\(z\)\)\s+1")])
        same(f"prompt, {name}: status", 0, terminal.end())
    terminal = Terminal([PROMPT, spec], room, path)
    terminal.read("rec> ")
    same("prompt: an interrupt", 130, terminal.end("\x03"))
    left = [it for it in os.listdir("/tmp") if it.startswith("recw-prompt-")]
    same("prompt: files that are left", [], left)
