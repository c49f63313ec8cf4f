"""The calls of the C library, by ctypes."""

from __future__ import annotations

import ctypes
import functools
import os
from typing import Any, Dict, List, Optional

U32, U64, I32, SIZE, BOOL, BYTES = (
    ctypes.c_uint32,
    ctypes.c_uint64,
    ctypes.c_int32,
    ctypes.c_size_t,
    ctypes.c_bool,
    ctypes.c_char_p,
)


class Handle(ctypes.Structure):
    """What the library calls `psilt`."""

    _fields_ = [("state", U32), ("held", ctypes.c_void_p)]


U32_OUT, U64_OUT, I32_OUT = ctypes.POINTER(U32), ctypes.POINTER(U64), ctypes.POINTER(I32)
SIZE_OUT, BOOL_OUT = ctypes.POINTER(SIZE), ctypes.POINTER(BOOL)

# the version that the package is for, which is that of the header
VERSION = "0.1.0"

# the types of what each call takes after the handle
CALLS: Dict[str, List[Any]] = {
    "open": [U32],
    "close": [],
    "cells": [U32_OUT],
    "spare": [U32_OUT],
    "reserve": [U32],
    "names": [U32_OUT],
    "limit_names": [U32],
    "read": [BYTES, SIZE, U32_OUT],
    "place": [U32_OUT],
    "print": [U32, SIZE_OUT],
    "print_within": [U32, SIZE, SIZE_OUT],
    "print_table": [U32, SIZE_OUT],
    "read_table": [BYTES, SIZE, U32_OUT],
    "text": [ctypes.c_void_p, SIZE],
    "int": [I32, U32_OUT],
    "nil": [U32_OUT],
    "cons": [U32, U32, U32_OUT],
    "appl": [BYTES, SIZE, BOOL, U32_OUT, SIZE, U32_OUT],
    "hole": [U32, U32_OUT],
    "symbol": [BYTES, SIZE, BOOL, U32, SIZE_OUT],
    "apply": [SIZE, U32_OUT, SIZE, U32_OUT],
    "pattern": [BYTES, SIZE, SIZE_OUT],
    "pattern_free": [SIZE],
    "match": [SIZE, U32, SIZE_OUT],
    "bound": [SIZE, U32_OUT],
    "make": [SIZE, U32_OUT, SIZE, U32_OUT],
    "annotate": [U32, U32, U32_OUT],
    "kind": [U32, U32_OUT, I32_OUT],
    "head": [U32, U32_OUT],
    "tail": [U32, U32_OUT],
    "args": [U32, U32_OUT],
    "arg": [U32, U32, U32_OUT],
    "arity": [U32, U32_OUT],
    "name": [U32, SIZE_OUT],
    "quoted": [U32, BOOL_OUT],
    "inner": [U32, U32_OUT],
    "annotations": [U32, U32_OUT],
    "holds": [U32],
    "protect": [U32],
    "unprotect": [U32],
    "reclaim": [U32_OUT, SIZE],
    "rule": [U32_OUT],
    "spec": [BYTES, SIZE, U32, U32],
    "spec_free": [],
    "normalise": [U32, U64, U32_OUT, U64_OUT],
    "call": [SIZE, U32_OUT, SIZE, U64, U32_OUT, U64_OUT],
    "eval_terms": [U32_OUT],
    "eval_term": [U32, U32_OUT],
    "obey": [ctypes.c_void_p],
    "interrupt": [BOOL],
}

# Calls that take little time keep Python's interpreter lock: giving it away costs more than they
# take, and up to 5 ms if other threads run.
QUICK = frozenset(
    "annotate annotations appl apply args bound cells cons head hole inner int interrupt kind limit_names name names "
    "nil obey pattern_free place protect quoted rule spare symbol tail text unprotect".split()
)


def version_of(loaded: ctypes.CDLL) -> str:
    """The version of a library, such as "0.1.0"."""
    call = loaded.psilt_version_number
    call.restype, call.argtypes = U32, []
    number: int = call()
    return f"{number // 1000000}.{number // 1000 % 1000}.{number % 1000}"


def typed(call: Any, types: List[Any]) -> Any:
    """A call with its types. The handle is given by its address, or by ctypes.byref."""
    call.restype, call.argtypes = U32, [ctypes.c_void_p, *types]
    return call


class Calls:
    """The calls of a library by their names, without `psilt_`.

    `read_short` is `read` for a text of few bytes.
    """

    def __init__(self, path: str) -> None:
        # those of the second release Python's interpreter lock
        quick, other = ctypes.PyDLL(path), ctypes.CDLL(path)
        version = version_of(quick)
        if version.split(".")[:2] != VERSION.split(".")[:2]:
            raise ImportError(f"the library {path} is version {version}, and the package is for {VERSION}")
        for name, types in CALLS.items():
            library = quick if name in QUICK else other
            setattr(self, name, typed(getattr(library, f"psilt_{name}"), types))
        self.read_short = typed(quick.psilt_read, CALLS["read"])

    def __getattr__(self, name: str) -> Any:
        raise AttributeError(name)


def found(path: Optional[str]) -> str:
    """The path of the library: the given one, that of the variable PERCALESILT, the one in this
    package, the one that was built beside it, or a name that the system looks up."""
    here = os.path.dirname(os.path.realpath(__file__))
    known = [os.path.join(it, "libpercalesilt.so") for it in (here, os.path.join(os.path.dirname(here), "build"))]
    there = [it for it in known if os.path.exists(it)]
    return path or os.environ.get("PERCALESILT") or (there[0] if there else "libpercalesilt.so.0")


@functools.lru_cache(maxsize=None)
def calls_of(path: str) -> Calls:
    return Calls(path)


def library(path: Optional[str] = None) -> ctypes.CDLL:
    """The library with the types of its calls, for those who call it without this module."""
    loaded = ctypes.CDLL(found(path))
    for name, types in CALLS.items():
        typed(getattr(loaded, f"psilt_{name}"), types)
    return loaded
