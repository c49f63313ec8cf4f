#!/usr/bin/env python3
"""Builds the archive of a static library over the libraries that stand in crates/*/out:

    .ci/archive.py NAME [WORD..]

Further words are passed to rattle. The archive is crates/NAME/out/libNAME.a.

rt ci proves such a crate and builds no archive, and cuts the libraries below it down to their statements, over which
rt lib does not work: it would prove all of them once more. rattle itself takes them as rt ci left them, as it does for
the program: so the one crate is checked again, and compiled. Where that cannot be tried it is said, and there is no
archive.
"""

import os
import shutil
import subprocess
import sys

TOP = os.path.dirname(os.path.dirname(os.path.realpath(__file__)))


def uses():
    """What crates.txt says: of each crate the libraries that it uses."""
    with open(f"{TOP}/crates.txt", encoding="utf-8") as file:
        lines = [line.split(":") for line in file if not line.startswith("#")]
    return {head.split()[0]: used.split() for head, used in lines}


def below(known, name, found=()):
    """The crates of the repository below one, each once."""
    for it in known[name]:
        if it in known and it not in found:
            found = (*below(known, it, found), it)
    return tuple(dict.fromkeys(found))


def library(name):
    return f"{TOP}/crates/{name}/out/rlib/{name}.rlib"


def words(kit, known, name, further):
    """How rattle builds the archive."""
    said = ["--crate-name", name, "src/lib.rt", "--crate-type", "staticlib", "-L", f"dependency={kit}/rlibs"]
    for it in ("std", *known[name]):
        said += ["--extern", f"{it}={library(it) if it in known else f'{kit}/rlibs/{it}.rlib'}"]
    for it in below(known, name):
        said += ["-L", f"dependency={os.path.dirname(library(it))}"]
    said += ["--antt-project", f"{kit}/rattle/logic/antt-project.json", "--logic-built", f"{kit}/logic_built"]
    said += ["--links", f"{name}=", "--jobs", os.environ.get("RT_JOBS", "1"), "--backend", "llvm"]
    if "--toolchain" not in further:
        said += ["--toolchain", f"{kit}/toolchain"]
    return [f"{kit}/bin/rattle", "build", *said, *further, "-o", f"out/lib{name}.a"]


def cannot(name, why):
    print(f"not tried: the archive of {name}, since {why}")
    sys.exit(0)


def main():
    known, rt = uses(), shutil.which("rt")
    name, further = sys.argv[1], sys.argv[2:]
    archive = f"{TOP}/crates/{name}/out/lib{name}.a"
    if os.path.exists(archive):
        os.remove(archive)
    if rt is None:
        cannot(name, "there is no rt")
    lacking = [it for it in below(known, name) if not os.path.isdir(library(it))]
    if lacking:
        cannot(name, f"there is no library of {lacking[0]}")
    kit = os.path.dirname(os.path.dirname(os.path.realpath(rt)))
    how = {"cwd": f"{TOP}/crates/{name}", "stdout": subprocess.PIPE, "stderr": subprocess.STDOUT, "text": True}
    os.makedirs(os.path.dirname(archive), exist_ok=True)
    ran = subprocess.run(words(kit, known, name, further), check=False, **how)
    told = ran.stdout.rstrip().splitlines()
    # that the crate is proved, rt ci has said: what fails here is the call, of another kit's words, say
    if ran.returncode != 0 or not os.path.exists(archive):
        print("\n".join(told[-20:]))
        cannot(name, "rattle builds none of what stands there")
    print(told[-1] if told else archive)


if __name__ == "__main__":
    main()
