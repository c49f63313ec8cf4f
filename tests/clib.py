#!/usr/bin/env -S python3 -B
"""Tries the C library: clib.py [PART..].

    every       each call from C, as C99 and as C++, and under the compiler's sanitizers; a small evaluator in C
    calls       an operator is called 1,000 times on a value of 2^60 leaves, within a second and 100 MB
    stop        evaluations that another thread and a signal handler of a program in C stop
    header      the header alone, by each standard from C99 and from C++11 on, without a warning of gcc or of clang
    refused     each request for memory refused, in each call that makes requests
    python      the package percalesilt, its tests, and two examples
    types       the types of the package and of the programs in clib/users, by mypy --strict
    threads     threads that share a store for 2 seconds; `threads=SECONDS` for another time
    terms       20,000 random calls of the package by four threads, compared with a model; `terms=COUNT` for more
    rust        a program in Rust over the archive
    random      100,000 random calls beside a model; `random=COUNT` for another number
    valgrind    the programs of `every` and `refused` once more
    install     what is installed serves a program that knows pkg-config alone

Without words these are all but `valgrind` and `install`. What a command is missing for is passed over, and said. The
word `built` before them takes the archive of the crate as it is, and `released` the libraries of release/, for which no
kit is needed; without both rt builds the archive anew if it has to.
"""

import os
import re
import resource
import shutil
import subprocess
import sys
import tempfile
import time

from common import TOP, done, same

sys.path.insert(0, f"{TOP}/packaging")
from released import lack_of

USERS = f"{TOP}/clib/users"
BUILD = f"{TOP}/clib/build"
USUAL = ("every", "calls", "stop", "header", "refused", "python", "types", "threads", "terms", "rust", "random")
WARNINGS = ["-Wall", "-Wextra", "-Wpedantic", "-Werror"]
STANDARDS = {"c": "c99 c11 c17", "c++": "c++11 c++14 c++17 c++20"}
COMPILERS = {"gcc": "c", "clang": "c", "g++": "c++", "clang++": "c++"}
WRAPPED = ["-Wl,--wrap=malloc,--wrap=realloc,--wrap=free"]
# what make is told for the archive as it is
AS_IT_IS = ["PROVE=:"]


def is_there(part, *commands):
    """Whether there are these commands; which one is missing is said."""
    missing = [it for it in commands if shutil.which(it) is None]
    if missing:
        print(f"not tried: {part}, since there is no {missing[0]}")
    return not missing


def told(words, **how):
    """What a command says and its status, where that is not 0."""
    ran = subprocess.run(words, stdout=subprocess.PIPE, stderr=subprocess.STDOUT, text=True, check=False, **how)
    return ran.stdout.strip() + (f" (status {ran.returncode})" if ran.returncode else "")


def compiled(folder, name, *words, language="c", standard="c99", compiler="cc"):
    """A program of clib/users over the archive."""
    program = f"{folder}/{name}-{standard}{'-s' if '-fsanitize=address,undefined' in words else ''}"
    source = ["-x", language, f"{USERS}/{name}.c", "-x", "none"]
    archive = f"{BUILD}/libpercalesilt.a"
    how = [compiler, f"-std={standard}", *WARNINGS, "-O1", "-g", *source, archive, *words, "-o", program]
    same(f"compiling {name}.c as {standard}", "", told(how))
    return program


def every(folder):
    if is_there("every", "cc"):
        same("every.c", "all as wanted", told([compiled(folder, "every")]))
        sanitized = compiled(folder, "every", "-fsanitize=address,undefined")
        same("every.c with sanitizers", "all as wanted", told([sanitized]))
        added = told([compiled(folder, "evaluate"), f"{TOP}/examples/add.rec"])
        same("evaluate.c", "s(s(s(z)))\t3", added)
    if is_there("every as C++", "c++"):
        program = compiled(folder, "every", language="c++", standard="c++17", compiler="c++")
        same("every.c as C++", "all as wanted", told([program]))


def calls(folder):
    if is_there("calls", "cc"):
        # 60 nodes of three cells each, and `leaf` with the empty list
        program, limit = compiled(folder, "call"), (100_000_000, 100_000_000)
        begun = time.monotonic()
        answer = told([program], preexec_fn=lambda: resource.setrlimit(resource.RLIMIT_AS, limit))
        same("call.c", "60 steps, 182 cells\n1000 steps", answer)
        same("call.c within a second", True, time.monotonic() - begun < 1)


def stop(folder):
    if is_there("stop", "cc"):
        same("stop.c", "all as wanted", told([compiled(folder, "stop", "-pthread")]))


def header(folder):
    with open(f"{folder}/alone.c", "w", encoding="utf-8") as file:
        file.write(
            f'#include "{TOP}/clib/percalesilt.h"\n'
            "int main(void)\n{\n    psilt p = PSILT_INIT;\n    psilt_code code = psilt_open(&p, 9);\n"
            "    return psilt_errstr(code)[0] + psilt_version()[0];\n}\n"
        )
    for compiler, language in COMPILERS.items():
        for it in STANDARDS[language].split() if is_there(f"header by {compiler}", compiler) else ():
            words = [compiler, f"-std={it}", *WARNINGS, "-fsyntax-only", "-x", language, f"{folder}/alone.c"]
            same(f"the header as {it} by {compiler}", "", told(words))


def refused(folder):
    if is_there("refused", "cc"):
        answer = told([compiled(folder, "refused", *WRAPPED)])
        same("refused.c", "all as wanted", answer.partition(":")[0])


def python(_):
    answer = told([sys.executable, "-B", f"{USERS}/tests.py"])
    same("tests.py", "OK", answer.rpartition("\n")[2])
    texts = {"x*1 + 0": "x", "(a+b) - (a+b)": "0", "(2+3)*y - 0*z": "5 * y", "-(-x)": "0 - (0 - x)", "a - b*1": "a - b"}
    answer = told([sys.executable, "-B", f"{USERS}/simplify.py", *texts])
    same("simplify.py", "\n".join(texts.values()), answer)
    texts = {
        "a and not not (b or True)": "a",
        "not (a and False)": "True",
        "(a or b) and (a or b)": "a or b",
        "not a and (b or not b)": "not a and (b or not b)",
    }
    answer = told([sys.executable, "-B", f"{USERS}/logic.py", *texts])
    same("logic.py", "\n".join(texts.values()), answer)


def types(folder):
    same("typed.py", "typed.py: as wanted", told([sys.executable, "-B", f"{USERS}/typed.py"]))
    same("py.typed", True, os.path.exists(f"{TOP}/clib/percalesilt/py.typed"))
    if is_there("types", "mypy"):
        words = ["mypy", "--strict", "--no-error-summary", f"--cache-dir={folder}/mypy"]
        place = {**os.environ, "MYPYPATH": f"{TOP}/clib"}
        programs = sorted(f"{USERS}/{it}" for it in os.listdir(USERS) if it.endswith(".py"))
        same("mypy --strict", "", told([*words, f"{TOP}/clib/percalesilt", *programs], env=place))


def threads(_, seconds="2"):
    answer = told([sys.executable, "-B", f"{USERS}/threads.py", seconds])
    same("threads.py", "terms as wanted", answer.partition(" ")[2].partition(" ")[2])


def terms(_, count="20000"):
    answer = told([sys.executable, "-B", f"{USERS}/random_terms.py", count])
    same("random_terms.py", "calls as wanted", answer.partition(" ")[2].partition(" ")[2])


def rust(folder):
    if is_there("rust", "rustc"):
        words = ["rustc", "--edition", "2024", "-D", "warnings", "-L", BUILD, f"{USERS}/drops.rs"]
        same("compiling drops.rs", "", told([*words, "-o", f"{folder}/drops"]))
        same("drops.rs", "all as wanted", told([f"{folder}/drops"]))


def random(_, count="100000"):
    answer = told([sys.executable, "-B", f"{USERS}/random_calls.py", count])
    same("random_calls.py", "calls as wanted", answer.partition(" ")[2].partition(" ")[2])


def valgrind(folder):
    if is_there("valgrind", "cc", "valgrind"):
        words = ["valgrind", "-q", "--error-exitcode=9", "--leak-check=full"]
        same("every.c under valgrind", "all as wanted", told([*words, compiled(folder, "every")]))
        answer = told([*words, compiled(folder, "refused", *WRAPPED)])
        same("refused.c under valgrind", "all as wanted", answer.partition(":")[0])


def install(folder):
    if is_there("install", "make", "cc", "pkg-config"):
        words = ["make", "-s", "-C", f"{TOP}/clib", "install", f"PREFIX={folder}/installed"]
        words += AS_IT_IS if sys.argv[1:2] == ["built"] else []
        subprocess.run(words, check=True, stdout=subprocess.DEVNULL)
        place = {**os.environ, "PKG_CONFIG_PATH": f"{folder}/installed/lib/pkgconfig"}
        with open(f"{TOP}/clib/percalesilt.h", encoding="utf-8") as file:
            parts = re.findall(r"#define PSILT_VERSION_M?[AIP][A-Z]* ([0-9]+)\n", file.read())
        same("the version of pkg-config", ".".join(parts), told(["pkg-config", "--modversion", "percalesilt"], env=place))
        words = told(["pkg-config", "--cflags", "--libs", "percalesilt"], env=place).split()
        with open(f"{folder}/only.c", "w", encoding="utf-8") as file:
            file.write("#include <percalesilt.h>\nint main(void) { psilt p = PSILT_INIT; return psilt_open(&p, 9); }\n")
        same("compiling with pkg-config", "", told(["cc", f"{folder}/only.c", *words, "-o", f"{folder}/only"]))
        place = {**os.environ, "LD_LIBRARY_PATH": f"{folder}/installed/lib"}
        same("a program over what is installed", "", told([f"{folder}/only"], env=place))


def main():
    words = sys.argv[1:]
    way = {"built": AS_IT_IS, "released": ["released"]}.get(words[0] if words else "")
    lack = lack_of("libpercalesilt.a") or lack_of("libpercalesilt.so") if way == ["released"] else ""
    if lack:
        print(f"not tried: the C library, since {lack}")
        done()
    if not is_there("clib", "make", "cc", *["rt"] * (way != ["released"])):
        done()
    built = told(["make", "-s", "-C", f"{TOP}/clib", *(way or [])])
    same("make -C clib", False, built[-2000:] if "(status" in built else False)
    with tempfile.TemporaryDirectory() as folder:
        for word in words[way is not None :] or USUAL:
            part, _, count = word.partition("=")
            globals()[part](folder, *([count] if count else []))
    done()


if __name__ == "__main__":
    main()
