"""Annotated terms in which equal terms are one: the C library percalesilt, by ctypes.

    from percalesilt import Store
    store = Store()
    term = store.parse("plus(x{at(3,7)}, 1)")
    print(term, int(term.args[1]), store.appl("f", term, [1, 2]))

A term is kept while its object is alive, so `Store.reclaim` frees only what a program cannot reach. There is one object
for each term of a store: two terms are equal exactly if they are the same object. A store is closed by `close`, at the
end of its `with`, or when nothing refers to it any more; its terms raise `ClosedFault` after that.

Any number of threads may use a store: each call holds its lock. A term may be dropped in any thread.

Terms are bytes. A str that is read is encoded in UTF-8, and `str(term)` shows what is UTF-8 as characters. The text as
`recw` prints it, which is ASCII, is `bytes(term)`. Both are read back as the same term, unless they have more than
16,777,216 bytes.

Names are kept until a store is closed: `Store(names=1000)` limits their number.

The library is looked for in this package, in the folder `build` beside it, and then where the system looks; the
variable PERCALESILT names another one.
"""

from ._faults import (
    REASONS,
    WORDS,
    ClosedFault,
    Code,
    Fault,
    Interrupted,
    Kind,
    KindFault,
    LimitReached,
    NameFault,
    OpenFault,
    OutOfCells,
    OutOfMemory,
    PartFault,
    RangeFault,
    RootsFault,
    RuleFault,
    StaleFault,
    SyntaxFault,
    UnknownFault,
    UnmatchedFault,
    UnprotectedFault,
    UnspecifiedFault,
)
from ._library import BOOL, CALLS, I32, SIZE, U32, U64, VERSION, Handle, library
from ._store import MOST_CELLS, MOST_NAMES, MOST_STEPS, STEPS, Pattern, Spec, Store, Symbol, Term, Value

__version__ = VERSION

OK, NOMEM, FULL, CLOSED, STALE, KIND, SYNTAX, RANGE, NAME, ROOTS, UNPROTECTED, OPEN, RULE, LIMIT = list(Code)[:14]
UNSPECIFIED, UNMATCHED, UNKNOWN, INTERRUPTED = list(Code)[14:]
INT, NIL, CONS, APPL, HOLE = list(Kind)

__all__ = [
    "APPL",
    "BOOL",
    "CALLS",
    "CLOSED",
    "CONS",
    "ClosedFault",
    "Code",
    "FULL",
    "Fault",
    "HOLE",
    "Handle",
    "I32",
    "INT",
    "INTERRUPTED",
    "Interrupted",
    "KIND",
    "Kind",
    "KindFault",
    "LIMIT",
    "LimitReached",
    "MOST_CELLS",
    "MOST_NAMES",
    "MOST_STEPS",
    "NAME",
    "NIL",
    "NOMEM",
    "NameFault",
    "OK",
    "OPEN",
    "OpenFault",
    "OutOfCells",
    "OutOfMemory",
    "PartFault",
    "Pattern",
    "RANGE",
    "REASONS",
    "ROOTS",
    "RULE",
    "RangeFault",
    "RootsFault",
    "RuleFault",
    "SIZE",
    "STEPS",
    "STALE",
    "SYNTAX",
    "Spec",
    "StaleFault",
    "Store",
    "Symbol",
    "SyntaxFault",
    "Term",
    "U32",
    "U64",
    "UNKNOWN",
    "UNMATCHED",
    "UNPROTECTED",
    "UNSPECIFIED",
    "UnknownFault",
    "UnmatchedFault",
    "UnprotectedFault",
    "UnspecifiedFault",
    "VERSION",
    "Value",
    "WORDS",
    "library",
]
