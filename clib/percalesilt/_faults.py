"""The codes and kinds of the C library, and the exceptions for its codes."""

from __future__ import annotations

from enum import IntEnum
from typing import Dict, Optional, Type


class Code(IntEnum):
    """What a call returns, as in percalesilt.h."""

    OK = 0
    NOMEM = 1
    FULL = 2
    CLOSED = 3
    STALE = 4
    KIND = 5
    SYNTAX = 6
    RANGE = 7
    NAME = 8
    ROOTS = 9
    UNPROTECTED = 10
    OPEN = 11
    RULE = 12
    LIMIT = 13
    UNSPECIFIED = 14
    UNMATCHED = 15
    UNKNOWN = 16
    INTERRUPTED = 17


class Kind(IntEnum):
    """What a term is."""

    INT = 0
    NIL = 1
    CONS = 2
    APPL = 3
    HOLE = 4


# the words of psilt_errstr, by code
WORDS = (
    "done",
    "out of memory",
    "out of cells or names",
    "the handle is closed",
    "no such reference",
    "a term of another kind",
    "the text is outside its grammar",
    "a number outside its range",
    "a name that has to be quoted",
    "protected too often",
    "not protected",
    "the handle is open",
    "a rule is broken",
    "over the limit of steps",
    "nothing is specified",
    "no match",
    "no such pattern or symbol",
    "interrupted",
)

# the errors in texts and terms, with the words of `recw help refusals`
REASONS = {
    "L1": "the text has more than 16777216 bytes",
    "G": "syntax error in the specification",
    "S1": "duplicate sort",
    "S2": "duplicate symbol in CONS and OPNS, even with other sorts",
    "S3": "duplicate variable, or variable with the name of a symbol",
    "S4": "undeclared sort in CONS, OPNS or VARS",
    "S5": "undeclared symbol or variable in RULES or EVAL",
    "S6": "wrong number of arguments of a symbol, or arguments of a variable",
    "S7": "argument of the wrong sort",
    "S8": "left-hand side that does not start with an operator (a symbol of OPNS)",
    "S9": "rule or condition whose two sides have different sorts",
    "S10": "variable that is not in the left-hand side of its rule",
    "S11": "variable in an EVAL term",
    "A": "syntax error in the annotated term",
    "T2": "integer, list or placeholder as a subterm of an input term",
    "T3": "annotations on a subterm that is not a whole input term",
    "T4": "undeclared symbol, or wrong quotes (only plain names have none)",
    "T5": "wrong number of arguments",
    "T6": "argument of the wrong sort",
    "P1": "placeholder other than <term>, <int>, <str>, <appl>, <placeholder>, <list>",
    "P2": "placeholder with annotations",
    "R1": "table that is not a list without annotations, or has no element",
    "R2": "placeholder of a table that is not <N>, N being an earlier element, nor <[TERM]>",
    "M1": "wrong number of arguments for the pattern",
    "M2": "argument that does not match its placeholder",
}


class Fault(Exception):
    """A call returned another code than OK.

    Each code has a subclass. Those for which Python has a common exception derive from that too.

    code    the code
    reason  the name of the error in a text or a term, as `recw` writes it, such as "S5"; else None
    rule    the number in that name, of S1 to S11, T2 to T6, P1, P2, R1 and R2; else None
    place   the offset in the text, in bytes from 0; None if the error has no place
    line    the line of the place, from 1
    column  its column, in bytes from 1
    detail  what else is known of the error, in words
    """

    def __init__(
        self,
        code: int,
        place: Optional[int] = None,
        rule: Optional[int] = None,
        reason: Optional[str] = None,
        line: Optional[int] = None,
        column: Optional[int] = None,
        detail: Optional[str] = None,
    ) -> None:
        super().__init__(code, place, rule, reason, line, column, detail)
        self.code = Code(code)
        self.place, self.rule, self.reason = place, rule, reason
        self.line, self.column, self.detail = line, column, detail

    def __str__(self) -> str:
        if self.reason is None:
            words = WORDS[self.code]
        else:
            where = "" if self.line is None else f" at line {self.line}, column {self.column}"
            words = f"{self.reason}{where}: {REASONS[self.reason]}"
        return words if self.detail is None else f"{words}: {self.detail}"


class OutOfMemory(Fault, MemoryError):
    """NOMEM: memory ran out."""


class OutOfCells(Fault):
    """FULL: the store has as many cells, or as many names, as it may have."""


class ClosedFault(Fault, ValueError):
    """CLOSED: the store is closed."""


class StaleFault(Fault, ValueError):
    """STALE: the store has no such term, for instance since the term is of another store."""


class KindFault(Fault, TypeError):
    """KIND: a term is of another kind than the call takes."""


class PartFault(KindFault, AttributeError):
    """KIND: a term of this kind has no such attribute."""


class SyntaxFault(Fault, ValueError):
    """SYNTAX: a text is outside its grammar."""


class RangeFault(Fault, OverflowError, ValueError):
    """RANGE: a number, or the length of a text, is outside its range."""


class NameFault(Fault, ValueError):
    """NAME: a name has to be quoted."""


class RootsFault(Fault):
    """ROOTS: a term is protected 65,535 times."""


class UnprotectedFault(Fault):
    """UNPROTECTED: a term is not protected."""


class OpenFault(Fault):
    """OPEN: the handle is open."""


class RuleFault(Fault, ValueError):
    """RULE: a text or a term breaks a rule."""


class LimitReached(Fault):
    """LIMIT: an evaluation needs more steps than were given."""


class UnspecifiedFault(Fault):
    """UNSPECIFIED: the store has no specification, or another one."""


class UnmatchedFault(Fault):
    """UNMATCHED: a term does not match a pattern."""


class UnknownFault(Fault):
    """UNKNOWN: the pattern was freed."""


class Interrupted(Fault):
    """INTERRUPTED: an evaluation was stopped by `Store.interrupt`."""


FAULTS: Dict[int, Type[Fault]] = {
    Code.NOMEM: OutOfMemory,
    Code.FULL: OutOfCells,
    Code.CLOSED: ClosedFault,
    Code.STALE: StaleFault,
    Code.KIND: KindFault,
    Code.SYNTAX: SyntaxFault,
    Code.RANGE: RangeFault,
    Code.NAME: NameFault,
    Code.ROOTS: RootsFault,
    Code.UNPROTECTED: UnprotectedFault,
    Code.OPEN: OpenFault,
    Code.RULE: RuleFault,
    Code.LIMIT: LimitReached,
    Code.UNSPECIFIED: UnspecifiedFault,
    Code.UNMATCHED: UnmatchedFault,
    Code.UNKNOWN: UnknownFault,
    Code.INTERRUPTED: Interrupted,
}


def fault(code: int, reason: Optional[str] = None, detail: Optional[str] = None) -> Fault:
    """The exception for a code."""
    number = reason[1:] if reason is not None and reason[0] in "STPR" else ""
    return FAULTS[code](code, None, int(number) if number else None, reason, None, None, detail)


def fault_at(code: int, reason: str, text: bytes, place: int) -> Fault:
    """The exception for an error at an offset of a text."""
    made = fault(code, reason)
    line = text.count(b"\n", 0, place) + 1
    column = place - text.rfind(b"\n", 0, place)
    return type(made)(code, place, made.rule, reason, line, column)
