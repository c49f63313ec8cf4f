"""Stores and what they hold: terms, patterns, symbols and the specification.

How threads share a store: each call takes the lock of its store, and no code of the user runs while
it is held, but for signal handlers and finalizers. The callbacks of weak references take no lock.
They only append to a queue, since they can run in any thread at any time, and the next call that
holds the lock empties the queue.

How terms are kept: the library frees no cell but in `reclaim`, `normalise`, `call` and `eval_term`.
So a term that is made is only noted, as fresh. `reclaim` is given the fresh terms as those to keep,
and before the others each of them is protected, and is a root from then on. A term that dies while
it is fresh has cost no call.
"""

from __future__ import annotations

import builtins
import ctypes
import operator
import re
import threading
import weakref
from array import array
from collections import deque
from collections.abc import Iterable as IsIterable
from collections.abc import Mapping, Set
from typing import Any, Callable, Collection, Deque, Dict, Iterable, Iterator, List, NoReturn, Optional, Sequence, Tuple
from typing import TypeVar, Union, overload

from ._faults import Code, Fault, Kind, LimitReached, PartFault, RangeFault, StaleFault, UnknownFault, UnspecifiedFault
from ._faults import fault, fault_at
from ._library import BOOL, I32, SIZE, U32, U64, Calls, Handle, calls_of, found

MOST_CELLS = 2**30
MOST_NAMES = 2**32 - 1
MOST_STEPS = 2**64 - 1
MOST_RESULTS = 2**20
# the step limit where none is given, which is that of `recw eval`
STEPS = 1000000
# an evaluation of so many steps is over at once, and is not stopped
FEW_STEPS = 2**16
MOST_TEXT = 2**24
MOST_SIZE = 2**64 - 1

OK, KIND, RANGE, SYNTAX, RULE = Code.OK.value, Code.KIND.value, Code.RANGE.value, Code.SYNTAX.value, Code.RULE.value
UNMATCHED, INTERRUPTED = Code.UNMATCHED.value, Code.INTERRUPTED.value
# a name that is not quoted
PLAIN = re.compile(rb"[A-Za-z_][-A-Za-z0-9_+*$.]*")
KINDS = tuple(Kind)
# a text up to this length is read without releasing Python's interpreter lock
SHORT = 4096
# a text up to this length is printed into memory that is used again
SHORT_TEXT = 1024
Text = Union[str, bytes, bytearray, memoryview]
Value = Union["Term", int, Iterable["Value"]]
Answer = TypeVar("Answer")
new = object.__new__


def checked(what: str, value: Any, least: int, most: int) -> int:
    """An integer that lies in a range."""
    number = operator.index(value)
    if not least <= number <= most:
        raise RangeFault(RANGE, detail=f"{what} is {number}, not in {least} to {most}")
    return number


def encoded(text: Text) -> bytes:
    """The bytes of a text, as a file in UTF-8 has them; surrogate escapes are single bytes."""
    if isinstance(text, str):
        return text.encode("utf-8", "surrogateescape")
    if isinstance(text, (bytes, bytearray, memoryview)):
        return bytes(text)
    raise TypeError(f"a text is str or bytes, not {type(text).__name__}")


def escaped(data: bytes) -> str:
    return "".join(f"\\{byte:03o}" for byte in data)


def shown(run: "re.Match[bytes]") -> bytes:
    """An escape of a printed text, or several of bytes from 0x80 on: characters that are printable
    stand for themselves in UTF-8, other bytes stay escaped."""
    octal = run.group(1)
    if octal is None:
        return run.group()
    data = bytes(int(it, 8) for it in octal.decode("ascii").split("\\")[1:])
    text = data.decode("utf-8", "surrogateescape")
    kept = (it if it.isprintable() else escaped(it.encode("utf-8", "surrogateescape")) for it in text)
    return "".join(kept).encode("utf-8")


# escapes of bytes from 0x80 on, or any other escape
ESCAPES = re.compile(rb"((?:\\[23][0-7][0-7])+)|\\.")


def readable(text: bytes) -> str:
    """A printed text, in which each escape that is UTF-8 of a printable character is that character."""
    return (ESCAPES.sub(shown, text) if b"\\" in text else text).decode("utf-8")


class TermRef(weakref.ref):  # type: ignore[type-arg]
    """A weak reference to a term, which knows the term's number."""

    __slots__ = ("number",)
    number: int


class PatternRef(weakref.ref):  # type: ignore[type-arg]
    """A weak reference to a pattern, which knows the pattern's number until that is freed."""

    __slots__ = ("number",)
    number: Optional[int]


class Held:
    """What belongs to a store: never copied, and not pickled."""

    __slots__ = ()

    def __copy__(self) -> Any:
        return self

    def __deepcopy__(self, memo: Any) -> Any:
        return self

    def __reduce__(self) -> NoReturn:
        raise TypeError(f"a {type(self).__name__} belongs to its store and cannot be pickled")


class Term(Held):
    """A term of a store, which the store keeps while this object is alive.

    There is one object for each term, so equal terms of one store are the same object, and copies
    are the term itself. A term has the attributes of its kind, and no others: an integer has
    `value`, an application `name`, `quoted`, `arity` and `args`, a list that is not empty `head`
    and `tail`, a placeholder `inner`. Lists also have `len`, items by index and iteration. Every
    term is true, so that `term or other` asks only whether there is a term.
    """

    __slots__ = ("_store", "_number", "_numbers", "__weakref__")
    __match_args__ = ("name", "args")
    _store: "Store"
    _number: int
    # the references of the items of a list, once they are asked for
    _numbers: Optional["array[int]"]

    def __init__(self) -> None:
        raise TypeError("terms are made by the methods of a Store")

    def __reduce__(self) -> NoReturn:
        raise TypeError(
            "a Term belongs to its store and cannot be pickled: pickle bytes(term), and parse that in a store"
        )

    @property
    def store(self) -> "Store":
        """The store of the term."""
        return self._store

    @property
    def number(self) -> int:
        """The reference of the term, as the C library has it."""
        return self._number

    def __bytes__(self) -> bytes:
        """The printed text, in ASCII: each byte of a name that is outside ASCII is escaped.

        `Store.parse` reads it as the same term, unless it has more than 16,777,216 bytes.
        """
        return self._store._text(self._store._calls.print, self)

    def __str__(self) -> str:
        """The printed text, in which escapes that are UTF-8 of a printable character are that character."""
        return readable(bytes(self))

    def text(self, most: int) -> str:
        """What `str` shows, if `bytes(term)` has at most `most` bytes; RangeFault if it has more.

        Time and memory are those of so many bytes: the text of a term that shares its parts can be far longer than the
        term takes cells.
        """
        most = checked("most", most, 0, MOST_SIZE)
        return readable(self._store._text(self._store._calls.print_within, self, f"the text has more than {most} bytes", most))

    def table(self) -> bytes:
        """The printed text of the table of the term, in ASCII: each part that the term shares is written once.

        `Store.parse_table` reads it as the same term, unless it has more than 16,777,216 bytes. Equal terms have equal
        tables, also in different stores.
        """
        return self._store._text(self._store._calls.print_table, self)

    def __repr__(self) -> str:
        return f"<{self}>"

    def __format__(self, width: str) -> str:
        return format(str(self), width)

    def __bool__(self) -> bool:
        return True

    def __int__(self) -> int:
        """The value of an integer; TypeError for other terms."""
        kind, value = self._store._kind(self)
        if kind != Kind.INT:
            raise fault(KIND, detail="only an integer has a value")
        return value

    @property
    def kind(self) -> Kind:
        return KINDS[self._store._kind(self)[0]]

    @property
    def value(self) -> int:
        """The value of an integer."""
        kind, value = self._store._kind(self)
        if kind != Kind.INT:
            raise PartFault(KIND, detail="only an integer has 'value'")
        return value

    @property
    def name(self) -> str:
        """The name of an application. Bytes that are not UTF-8 are surrogate escapes, as in names of files."""
        return self.name_bytes.decode("utf-8", "surrogateescape")

    @property
    def name_bytes(self) -> bytes:
        """The name of an application, in bytes."""
        return self._store._text(self._store._calls.name, self, "only an application has 'name'")

    @property
    def quoted(self) -> bool:
        """Whether the name of an application is quoted."""
        flag = BOOL()
        self._store._read(self._store._calls.quoted, self, flag, "only an application has 'quoted'")
        return flag.value

    @property
    def arity(self) -> int:
        """How many arguments an application has."""
        count = U32()
        self._store._read(self._store._calls.arity, self, count, "only an application has 'arity'")
        return count.value

    @property
    def args(self) -> List["Term"]:
        """The arguments of an application, in order."""
        return list(self._store._part(self._store._calls.args, self, "only an application has 'args'")._items())

    def arg(self, i: int) -> "Term":
        """The argument at place `i` of an application, from 0, in time that grows with `i`."""
        return self._store._arg(self, checked("i", i, 0, 2**32 - 1))

    @property
    def head(self) -> "Term":
        """The first item of a list."""
        return self._store._part(self._store._calls.head, self, "only a list that is not empty has 'head'")

    @property
    def tail(self) -> "Term":
        """A list without its first item, and without annotations."""
        return self._store._part(self._store._calls.tail, self, "only a list that is not empty has 'tail'")

    @property
    def inner(self) -> "Term":
        """The term inside a placeholder."""
        return self._store._part(self._store._calls.inner, self, "only a placeholder has 'inner'")

    @property
    def annotations(self) -> List["Term"]:
        """The annotations, in order; none if there are none."""
        return self._store._annotations(self)

    def noted(self, *annotations: Value) -> "Term":
        """The term with these annotations in place of its own."""
        return self._store._noted(self, self._store.list(annotations))

    def __iter__(self) -> Iterator["Term"]:
        """The items of a list, each in constant time."""
        self._check_list()
        return self._items()

    def __len__(self) -> int:
        """How many items a list has. The first call walks along the list, and later ones do not."""
        return len(self._item_numbers())

    @overload
    def __getitem__(self, i: int) -> "Term": ...

    @overload
    def __getitem__(self, i: slice) -> List["Term"]: ...

    def __getitem__(self, i: Union[int, slice]) -> Union["Term", List["Term"]]:
        """The item of a list at a place, or a Python list of the items at some places. The first call
        walks along the list, and later ones take constant time for each item."""
        numbers = self._item_numbers()
        if isinstance(i, slice):
            return [self._store._known(it) for it in numbers[i]]
        place = operator.index(i)
        if not -len(numbers) <= place < len(numbers):
            raise IndexError(f"item {place} of a list of {len(numbers)}")
        return self._store._known(numbers[place])

    def _check_list(self) -> None:
        if self._store._kind(self)[0] not in (Kind.NIL, Kind.CONS):
            raise fault(KIND, detail="only a list has items; those of an application are its 'args'")

    def _items(self) -> Iterator["Term"]:
        # this generator keeps the term alive, and so its parts, whose references stay
        if self._numbers is not None:
            yield from map(self._store._known, self._numbers)
            return
        rest = self._number
        while True:
            item = self._store._next(rest)
            if item is None:
                return
            yield item[0]
            rest = item[1]

    def _item_numbers(self) -> "array[int]":
        if self._numbers is None:
            self._check_list()
            self._numbers = self._store._heads(self)
        return self._numbers


class Pattern(Held):
    """A term with placeholders, which the store keeps while this object is alive."""

    __slots__ = ("_store", "_ref", "_number", "__weakref__")

    def __init__(self, store: "Store", number: int) -> None:
        self._store, self._number = store, number
        self._ref = PatternRef(self, store._dead.append)
        self._ref.number = number

    @property
    def store(self) -> "Store":
        return self._store

    @property
    def number(self) -> int:
        return self._number

    def match(self, value: Value) -> Optional[List[Term]]:
        """The bindings of the placeholders in a term, in order; None if the pattern does not match."""
        return self._store._match(self, self._store._made(value))

    def make(self, *values: Value) -> Term:
        """The pattern with these values in place of its placeholders, in order."""
        return self._store._make(self, self._store._made_all(values))

    def free(self) -> None:
        """Frees the pattern at once. It cannot be used from then on."""
        self._store._free_pattern(self)

    def _checked(self) -> int:
        if self._ref.number is None:
            raise UnknownFault(Code.UNKNOWN)
        return self._number


class Symbol(Held):
    """A name, whether it is quoted, and a number of arguments: called with values, it is their application."""

    __slots__ = ("_store", "_number")

    def __init__(self, store: "Store", number: int) -> None:
        self._store, self._number = store, number

    @property
    def store(self) -> "Store":
        return self._store

    @property
    def number(self) -> int:
        return self._number

    def __call__(self, *values: Value) -> Term:
        return self._store._apply(self, self._store._made_all(values))


class Spec(Held):
    """What a store evaluates by: the specification that `Store.specify` was given last."""

    __slots__ = ("_store", "_mark")

    def __init__(self, store: "Store", mark: object) -> None:
        self._store, self._mark = store, mark

    @property
    def store(self) -> "Store":
        return self._store

    def normalise(self, value: Value, steps: int = STEPS) -> Tuple[Term, int]:
        """The value of a term, and how many steps it took; LimitReached if it takes more than `steps`.

        Other threads that use the store wait until it is done. `Store.interrupt` ends it with Interrupted. In the main
        thread signal handlers run meanwhile, and the exception of one, such as KeyboardInterrupt, ends it.
        """
        steps = checked("steps", steps, 0, MOST_STEPS)
        return self._store._normalise(self, self._store._made(value), steps)

    def call(self, symbol: Union[Symbol, Text], *values: Value, steps: int = STEPS) -> Tuple[Term, int]:
        """The value of the call of a symbol on values, and how many steps it took; LimitReached if it takes more than
        `steps`.

        The values are not evaluated, and only the call itself is checked: it takes the time of the number of values and
        of the steps, however large the values are. A name stands for the declared symbol, or for one that may be added
        as by `Store.symbol`. Neither a signal handler nor `Store.interrupt` ends it.
        """
        steps = checked("steps", steps, 0, MOST_STEPS)
        return self._store._call(self, symbol, self._store._made_all(values), steps)

    @property
    def terms(self) -> List[Term]:
        """The terms below EVAL."""
        return self._store._eval_terms(self)

    def free(self) -> None:
        """The store forgets the specification; terms stay."""
        self._store._free_spec(self)

    def _check(self) -> None:
        """UnspecifiedFault if the store evaluates by another specification by now, or by none."""
        if self._store._mark is not self._mark:
            raise UnspecifiedFault(Code.UNSPECIFIED)


class Run:
    """An evaluation, from when it is asked for until it is over."""

    __slots__ = ("is_stopped",)

    def __init__(self) -> None:
        self.is_stopped = False


def close_handles(close: Any, *handles: Handle) -> None:
    """Closes the handles of a store that no thread can reach any more."""
    for handle in handles:
        code = close(ctypes.addressof(handle))
        if code:
            raise fault(code)


def in_another_thread(call: Callable[[], Answer], stop: Callable[[], None]) -> Answer:
    """What a call answers in a thread of its own. Signal handlers of this thread run meanwhile. If one of them raises
    an exception, the call is stopped and waited for, and the exception goes on."""
    answers: List[Answer] = []
    failures: List[BaseException] = []
    is_over = threading.Lock()

    def run() -> None:
        try:
            answers.append(call())
        except BaseException as failure:
            failures.append(failure)
        finally:
            is_over.release()

    is_over.acquire()
    # the program may end while it runs
    thread = threading.Thread(target=run, daemon=True)
    try:
        thread.start()
        is_over.acquire()
    except BaseException:
        stop()
        if thread.is_alive():
            is_over.acquire()
        raise
    if failures:
        try:
            raise failures[0]
        finally:
            # its traceback has this frame
            failures.clear()
    return answers[0]


def references(numbers: Collection[int]) -> Any:
    """Some references, as the calls take them."""
    count = len(numbers)
    # few lengths, since ctypes keeps a type for each
    return (U32 * (1 << count.bit_length()))(*numbers)


def numbers_of(terms: Sequence[Term]) -> Any:
    """The references of some terms, as the calls take them."""
    return references([it._number for it in terms])


class Store:
    """A store of at most `cells` different parts of terms, and of at most `names` names.

    Names are not freed before the store is closed. A name counts once for each number of arguments, and once more if
    it is also used with quotes. `parse`, `parse_table`, `appl`, `symbol`, `specify`, `Pattern.make` and `Spec.call` of
    a name can add names; if they would pass the limit, they raise `OutOfCells`.

    Any number of threads may use it. Their calls wait for each other; stores have nothing in common.
    """

    def __init__(self, cells: int = MOST_CELLS, path: Optional[str] = None, names: int = MOST_NAMES) -> None:
        cells = checked("cells", cells, 1, MOST_CELLS)
        names = checked("names", names, 0, MOST_NAMES)
        self._calls: Calls = calls_of(found(path))
        self._lock = threading.RLock()
        self._handle = Handle(0, None)
        self._at = ctypes.addressof(self._handle)
        # the handle by which evaluations are stopped, its lock, the evaluations that are not over, and the one that the
        # library is at
        self._stopper = Handle(0, None)
        self._stop_lock = threading.RLock()
        self._runs: List[Run] = []
        self._running: Optional[Run] = None
        # the object of each term that is alive, of those that are protected and of the others; and the patterns
        self._roots: Dict[int, TermRef] = {}
        self._fresh: Dict[int, TermRef] = {}
        self._patterns: Dict[int, PatternRef] = {}
        # the objects that died since the last call
        self._dead: Deque[Any] = deque()
        # counts the calls whose results the library keeps, so that a nested call of this thread is noticed
        self._turns = 0
        # whether a call is about to free terms, so that terms of a nested call are protected at once
        self._freeing = False
        # for texts that are short
        self._buffer: Any = ctypes.create_string_buffer(SHORT_TEXT)
        # belongs to the specification in use
        self._mark: Optional[object] = None
        stop = ctypes.addressof(self._stopper)
        code = self._calls.open(self._at, cells) or self._calls.limit_names(self._at, names)
        code = code or self._calls.open(stop, 1) or self._calls.obey(self._at, stop)
        if code:
            # those that are closed return a code that says so
            self._calls.close(self._at)
            self._calls.close(stop)
            raise fault(code)
        # the system takes the memory at the end of the program, when another thread may be in a call
        self._closing = weakref.finalize(self, close_handles, self._calls.close, self._handle, self._stopper)
        self._closing.atexit = False

    def __reduce__(self) -> NoReturn:
        raise TypeError("a Store cannot be copied or pickled: pickle the bytes of its terms instead")

    def __enter__(self) -> "Store":
        return self

    def __exit__(self, *_: object) -> None:
        self.close()

    def close(self) -> None:
        """Frees all memory of the store. Its terms answer ClosedFault from then on; closing it again does nothing."""
        with self._lock:
            if self._closing.detach() is None:
                return
            self._mark = None
            self._dead.clear()
            self._roots.clear()
            self._fresh.clear()
            self._patterns.clear()
            close_handles(self._calls.close, self._handle, self._stopper)

    # ---- making terms

    def int(self, value: builtins.int) -> Term:
        """An integer, from -2147483648 to 2147483647."""
        if type(value) is not int or not -2147483648 <= value <= 2147483647:
            value = checked("value", value, -2147483648, 2147483647)
        out = U32()
        with self._lock:
            if self._dead:
                self._free_dead()
            code = self._calls.int(self._at, value, out)
            if code:
                raise fault(code)
            return self._term(out.value)

    def list(self, values: Iterable[Value]) -> Term:
        """A list of values."""
        items = self._made_all(values)
        out = U32()
        with self._lock:
            self._free_dead()
            calls, at = self._calls, self._at
            code = calls.nil(at, out)
            # without their objects the tails are kept by the lock alone, since no other call frees terms meanwhile
            while not code and items:
                code = calls.cons(at, items[-1]._number, out.value, out)
                items.pop()
            if code:
                raise fault(code)
            return self._term(out.value)

    def appl(self, name: Text, *args: Value, quoted: bool = False) -> Term:
        """The application of a name to values."""
        data = encoded(name)
        terms = self._made_all(args)
        out = U32()
        with self._lock:
            self._free_dead()
            code = self._calls.appl(self._at, data, len(data), bool(quoted), numbers_of(terms), len(terms), out)
            if code:
                raise fault(code)
            return self._term(out.value)

    def hole(self, inner: Value) -> Term:
        """A placeholder with a value inside."""
        term = self._made(inner)
        out = U32()
        with self._lock:
            self._free_dead()
            code = self._calls.hole(self._at, term._number, out)
            if code:
                raise fault(code)
            return self._term(out.value)

    def parse(self, text: Text) -> Term:
        """The term that a text spells. A str is encoded in UTF-8.

        A part with annotations is first made without them, which takes a cell: `a{b}` takes five cells, of which four
        are its parts. So a term that is there can raise `OutOfCells`.
        """
        data = encoded(text)
        out = U32()
        with self._lock:
            if self._dead:
                self._free_dead()
            calls = self._calls
            read = calls.read if len(data) > SHORT else calls.read_short
            code = read(self._at, data, len(data), out)
            if code:
                raise self._text_fault(code, data, "A")
            return self._term(out.value)

    def parse_table(self, text: Text) -> Term:
        """The term of the table that a text spells, such as that of `Term.table`. A str is encoded in UTF-8.

        RuleFault if the text spells a term that is no table: `R1` if it is not a list without annotations that has an
        element, else `R2` if a placeholder is neither the number of an earlier element nor a list of one item. The
        terms of all elements take cells, and so do the numbers and lists in placeholders, until they are freed.
        """
        data = encoded(text)
        out = U32()
        with self._lock:
            self._free_dead()
            code = self._calls.read_table(self._at, data, len(data), out)
            if code:
                raise self._text_fault(code, data, "A", "R")
            return self._term(out.value)

    def symbol(self, name: Text, arity: builtins.int, quoted: bool = False) -> Symbol:
        """The symbol of a name and of a number of arguments, for those who apply it often."""
        arity = checked("arity", arity, 0, 2**32 - 1)
        data = encoded(name)
        out = SIZE()
        with self._lock:
            self._free_dead()
            code = self._calls.symbol(self._at, data, len(data), bool(quoted), arity, out)
            if code:
                raise fault(code)
            return Symbol(self, out.value)

    def pattern(self, text: Text) -> Pattern:
        """The pattern that a text spells."""
        data = encoded(text)
        out = SIZE()
        with self._lock:
            self._free_dead()
            code = self._calls.pattern(self._at, data, len(data), out)
            if code:
                raise self._text_fault(code, data, "A", "P")
            made = Pattern(self, out.value)
            self._patterns[out.value] = made._ref
            return made

    def specify(self, text: Text, memo: builtins.int = 65536, reclaim: builtins.int = 1048576) -> Spec:
        """What a text specifies is evaluated from now on, in place of what was.

        Results are remembered in a table of `memo` entries, 0 to 1,048,576; what nothing needs is freed after
        `reclaim` new cells at the latest, 1 to 1,073,741,824.
        """
        memo = checked("memo", memo, 0, MOST_RESULTS)
        reclaim = checked("reclaim", reclaim, 1, MOST_CELLS)
        data = encoded(text)
        with self._lock:
            self._free_dead()
            code = self._calls.spec(self._at, data, len(data), memo, reclaim)
            if code:
                raise self._text_fault(code, data, "G", "S")
            self._mark = object()
            return Spec(self, self._mark)

    @property
    def spec(self) -> Optional[Spec]:
        """The specification in use, or None."""
        with self._lock:
            return None if self._mark is None else Spec(self, self._mark)

    def interrupt(self) -> None:
        """Ends the evaluations of the store that are not over, in all threads: they raise Interrupted.

        It waits for nothing, so a signal handler may call it.
        """
        for run in list(self._runs):
            self._stop(run)

    # ---- cells

    def reclaim(self) -> None:
        """Frees all cells that no term that is alive needs."""
        self._check_not_nested()
        with self._lock:
            self._free_dead()
            self._freeing = True
            try:
                kept = list(self._fresh)
                code = self._calls.reclaim(self._at, references(kept), len(kept))
            finally:
                self._freeing = False
        if code:
            raise fault(code)

    def reserve(self, count: builtins.int) -> None:
        """Makes room for `count` cells more, so that as many can be made without a request for memory."""
        count = checked("count", count, 0, 2**32 - 1)
        with self._lock:
            self._free_dead()
            code = self._calls.reserve(self._at, count)
        if code:
            raise fault(code)

    @property
    def cells(self) -> builtins.int:
        """How many cells are taken."""
        return self._count(self._calls.cells)

    @property
    def spare(self) -> builtins.int:
        """How many cells can be taken without a request for memory."""
        return self._count(self._calls.spare)

    # ---- names

    @property
    def names(self) -> builtins.int:
        """How many names there are."""
        return self._count(self._calls.names)

    def limit_names(self, most: builtins.int) -> None:
        """From now on there may be `most` names. If there are more already, none is added."""
        most = checked("most", most, 0, MOST_NAMES)
        with self._lock:
            code = self._calls.limit_names(self._at, most)
        if code:
            raise fault(code)

    # ---- what the classes above share; all of these but the checks take the lock

    def _count(self, call: Any) -> builtins.int:
        out = U32()
        with self._lock:
            self._free_dead()
            code = call(self._at, out)
        if code:
            raise fault(code)
        return out.value

    def _made(self, value: Value) -> Term:
        """The term of a value: a term, an integer, or a list of values."""
        if isinstance(value, Term):
            if value._store is not self:
                raise StaleFault(Code.STALE, detail="the term is of another store")
            return value
        if hasattr(type(value), "__index__"):
            return self.int(value)  # type: ignore[arg-type]
        if isinstance(value, (str, bytes, bytearray, memoryview)):
            raise TypeError(
                f"{value!r:.60} is no value: pass a list of values, or make a term of it with parse or appl"
            )
        if not isinstance(value, IsIterable) or isinstance(value, (Mapping, Set)):
            raise TypeError(f"a value is a Term, an integer or a list of values, not {type(value).__name__}")
        return self.list(value)

    def _made_all(self, values: Iterable[Value]) -> List[Term]:
        if isinstance(values, (str, bytes, bytearray, memoryview)):
            raise TypeError("a string is no list of values: pass a list")
        return [self._made(it) for it in values]

    def _part(self, call: Any, term: Term, only: str) -> Term:
        """The part of a term that a call answers; a term of another kind has none."""
        out = U32()
        with self._lock:
            if self._dead:
                self._free_dead()
            code = call(self._at, term._number, out)
            if code:
                raise self._part_fault(code, only)
            return self._term(out.value)

    def _read(self, call: Any, term: Term, out: Any, only: str) -> None:
        with self._lock:
            self._free_dead()
            code = call(self._at, term._number, out)
        if code:
            raise self._part_fault(code, only)

    def _kind(self, term: Term) -> Tuple[builtins.int, builtins.int]:
        kind, value = U32(), I32()
        with self._lock:
            code = self._calls.kind(self._at, term._number, kind, value)
        if code:
            raise fault(code)
        return kind.value, value.value

    def _text(self, call: Any, term: Term, only: str = "", *words: builtins.int) -> bytes:
        """What the call `print`, `print_within` or `name` writes of a term."""
        length = SIZE()
        with self._lock:
            self._free_dead()
            while True:
                self._turns += 1
                turn = self._turns
                code = call(self._at, term._number, *words, length)
                if code:
                    raise self._part_fault(code, only)
                size = length.value
                buffer = self._buffer
                if size > SHORT_TEXT:
                    # few sizes, since ctypes keeps a type for each
                    buffer = ctypes.create_string_buffer(1 << size.bit_length())
                code = self._calls.text(self._at, buffer, len(buffer))
                text: bytes = buffer[:size]
                # a signal handler or a finalizer of this thread may have printed another term between the calls
                if turn == self._turns:
                    break
            if code:
                raise fault(code)
            return text

    def _arg(self, term: Term, i: builtins.int) -> Term:
        out = U32()
        with self._lock:
            self._free_dead()
            code = self._calls.arg(self._at, term._number, i, out)
            if code == RANGE:
                raise fault(code, detail=f"no argument is at place {i}")
            if code:
                raise self._part_fault(code, "only an application has arguments")
            return self._term(out.value)

    def _annotations(self, term: Term) -> List[Term]:
        out = U32()
        with self._lock:
            self._free_dead()
            code = self._calls.annotations(self._at, term._number, out)
            if code == KIND:
                return []
            if code:
                raise fault(code)
            annotations = self._term(out.value)
        return list(annotations._items())

    def _noted(self, term: Term, annotations: Term) -> Term:
        out = U32()
        with self._lock:
            self._free_dead()
            code = self._calls.annotate(self._at, term._number, annotations._number, out)
            if code:
                raise fault(code)
            return self._term(out.value)

    def _next(self, number: builtins.int) -> Optional[Tuple[Term, builtins.int]]:
        """The first item of a list and the reference of the rest; None at the end."""
        out = U32()
        with self._lock:
            if self._dead:
                self._free_dead()
            code = self._calls.head(self._at, number, out)
            if code == KIND:
                return None
            if not code:
                item = self._term(out.value)
                code = self._calls.tail(self._at, number, out)
            if code:
                raise fault(code)
            return item, out.value

    def _heads(self, term: Term) -> "array[builtins.int]":
        """The references of the items of a list."""
        heads = array("I")
        number, out = term._number, U32()
        while True:
            # for each item anew, so that other threads wait for one item only
            with self._lock:
                code = self._calls.head(self._at, number, out)
                if code == KIND:
                    return heads
                head = out.value
                if not code:
                    code = self._calls.tail(self._at, number, out)
            if code:
                raise fault(code)
            heads.append(head)
            number = out.value

    def _known(self, number: builtins.int) -> Term:
        """The term of a reference that is there, since it is of a part of a term that is alive."""
        with self._lock:
            self._free_dead()
            return self._term(number)

    def _match(self, pattern: Pattern, term: Term) -> Optional[List[Term]]:
        count, out = SIZE(), U32()
        bound: List[Term] = []
        with self._lock:
            self._free_dead()
            turn = -1
            # once more if a nested call has matched another pattern meanwhile
            while turn != self._turns:
                self._turns += 1
                turn = self._turns
                bound.clear()
                code = self._calls.match(self._at, pattern._checked(), term._number, count)
                if code == UNMATCHED:
                    return None
                while not code and len(bound) < count.value:
                    code = self._calls.bound(self._at, len(bound), out)
                    if not code:
                        bound.append(self._term(out.value))
            if code:
                raise fault(code)
        return bound

    def _make(self, pattern: Pattern, terms: List[Term]) -> Term:
        out = U32()
        with self._lock:
            self._free_dead()
            code = self._calls.make(self._at, pattern._checked(), numbers_of(terms), len(terms), out)
            if code:
                raise fault(code, {RANGE: "M1", KIND: "M2"}.get(code))
            return self._term(out.value)

    def _free_pattern(self, pattern: Pattern) -> None:
        with self._lock:
            self._free_dead()
            code = self._calls.pattern_free(self._at, pattern._checked())
            if not code:
                pattern._ref.number = None
                del self._patterns[pattern._number]
        if code:
            raise fault(code)

    def _apply(self, symbol: Symbol, terms: List[Term]) -> Term:
        out = U32()
        with self._lock:
            self._free_dead()
            code = self._calls.apply(self._at, symbol._number, numbers_of(terms), len(terms), out)
            if code == RANGE:
                raise fault(code, detail=f"the symbol does not take {len(terms)} arguments")
            if code:
                raise fault(code)
            return self._term(out.value)

    def _normalise(self, spec: Spec, term: Term, steps: builtins.int) -> Tuple[Term, builtins.int]:
        self._check_not_nested()
        run = Run()
        try:
            self._runs.append(run)
            if steps <= FEW_STEPS or threading.current_thread() is not threading.main_thread():
                return self._evaluated(run, spec, term, steps)
            try:
                return self._evaluated(run, spec, term, FEW_STEPS)
            except LimitReached:
                pass
            return in_another_thread(lambda: self._evaluated(run, spec, term, steps), lambda: self._stop(run))
        finally:
            if run in self._runs:
                self._runs.remove(run)

    def _start(self, run: Run) -> None:
        """Notes that the library is at an evaluation from now on; Interrupted if that was stopped before."""
        with self._stop_lock:
            self._running = run
            self._calls.interrupt(ctypes.addressof(self._stopper), False)
            if run.is_stopped:
                raise fault(INTERRUPTED)

    def _stop(self, run: Run) -> None:
        """Stops an evaluation, whether the library is at it or it has to wait for others."""
        with self._stop_lock:
            run.is_stopped = True
            if self._running is run:
                self._calls.interrupt(ctypes.addressof(self._stopper), True)

    def _evaluated(self, run: Run, spec: Spec, term: Term, steps: builtins.int) -> Tuple[Term, builtins.int]:
        out, taken = U32(), U64()
        with self._lock:
            self._free_dead()
            spec._check()
            self._start(run)
            code = self._freeing_call(self._calls.normalise, term._number, steps, out, taken)
            if code == RULE:
                raise self._rule_fault(code, "T")
            if code:
                raise fault(code)
            return self._term(out.value), taken.value

    def _call(
        self, spec: Spec, symbol: Union[Symbol, Text], terms: List[Term], steps: builtins.int
    ) -> Tuple[Term, builtins.int]:
        self._check_not_nested()
        out, taken = U32(), U64()
        with self._lock:
            self._free_dead()
            spec._check()
            number = self._symbol_number(symbol, len(terms))
            code = self._freeing_call(self._calls.call, number, numbers_of(terms), len(terms), steps, out, taken)
            if code == RULE:
                raise self._rule_fault(code, "T")
            if code == RANGE:
                raise fault(code, detail=f"the symbol does not take {len(terms)} arguments")
            if code:
                raise fault(code)
            return self._term(out.value), taken.value

    def _symbol_number(self, symbol: Union[Symbol, Text], arity: builtins.int) -> builtins.int:
        """The number of a symbol, or of the one of a name with so many arguments, quoted if it is not plain."""
        if isinstance(symbol, Symbol):
            if symbol._store is not self:
                raise UnknownFault(Code.UNKNOWN, detail="the symbol is of another store")
            return symbol._number
        data = encoded(symbol)
        return self.symbol(data, arity, quoted=PLAIN.fullmatch(data) is None)._number

    def _eval_terms(self, spec: Spec) -> List[Term]:
        self._check_not_nested()
        count, out = U32(), U32()
        terms: List[Term] = []
        with self._lock:
            self._free_dead()
            spec._check()
            code = self._calls.eval_terms(self._at, count)
            while not code and len(terms) < count.value:
                code = self._freeing_call(self._calls.eval_term, len(terms), out)
                if not code:
                    terms.append(self._term(out.value))
            if code:
                raise fault(code)
        return terms

    def _free_spec(self, spec: Spec) -> None:
        with self._lock:
            self._free_dead()
            spec._check()
            code = self._calls.spec_free(self._at)
            if code:
                raise fault(code)
            self._mark = None

    def _check_not_nested(self) -> None:
        """A signal handler or a finalizer can run in the middle of another call of this thread, which holds the lock.
        That one may hold references that nothing protects, so no term may be freed then."""
        owned = getattr(self._lock, "_is_owned")
        if owned():
            raise RuntimeError("no terms can be freed in the middle of another call of the same thread")

    # ---- for those who hold the lock

    def _term(self, number: builtins.int) -> Term:
        """The one object of a reference."""
        known = self._fresh
        ref = known.get(number)
        if ref is None:
            ref = self._roots.get(number)
            if ref is not None:
                known = self._roots
        if ref is not None:
            term: Optional[Term] = ref()
            if term is not None:
                return term
        made = new(Term)
        made._store, made._number, made._numbers = self, number, None
        ref = TermRef(made, self._dead.append)
        ref.number = number
        if self._freeing and known is self._fresh:
            code = self._calls.protect(self._at, number)
            if code:
                raise fault(code)
            known.pop(number, None)
            known = self._roots
        # in the place of an object that is dead, and as protected as that was
        known[number] = ref
        return made

    def _freeing_call(self, call: Any, *words: Any) -> builtins.int:
        """The code of a call that frees terms, but none that is alive."""
        self._freeing = True
        try:
            self._protect_fresh()
            code: builtins.int = call(self._at, *words)
            return code
        finally:
            self._freeing = False

    def _protect_fresh(self) -> None:
        """Protects the terms that are not protected yet."""
        fresh, roots = self._fresh, self._roots
        for number, ref in list(fresh.items()):
            # a dead one is about to be freed
            if ref() is not None:
                code = self._calls.protect(self._at, number)
                if code:
                    raise fault(code)
                roots[number] = ref
            fresh.pop(number, None)

    def _free_dead(self) -> None:
        """Forgets the terms that died since the last call, and frees such patterns."""
        dead, fresh, roots = self._dead, self._fresh, self._roots
        while dead:
            # other threads only append, but a nested call may have taken the last one
            try:
                ref = dead.popleft()
            except IndexError:
                return
            number, code = ref.number, OK
            if type(ref) is TermRef:
                # the reference may have another object by now
                if fresh.get(number) is ref:
                    del fresh[number]
                elif roots.get(number) is ref:
                    del roots[number]
                    code = self._calls.unprotect(self._at, number)
            elif number is not None:
                self._patterns.pop(number, None)
                code = self._calls.pattern_free(self._at, number)
            # a closed store has freed all
            if code and code != Code.CLOSED:
                raise fault(code)

    def _number_of(self, call: Any) -> builtins.int:
        out = U32()
        code = call(self._at, out)
        if code:
            raise fault(code)
        return out.value

    def _rule_fault(self, code: builtins.int, family: str) -> Fault:
        return fault(code, f"{family}{self._number_of(self._calls.rule)}")

    def _text_fault(self, code: builtins.int, text: bytes, grammar: str, family: str = "") -> Fault:
        """The exception for a text, whose grammar and whose rules have these names."""
        if code == SYNTAX:
            return fault_at(code, grammar, text, self._number_of(self._calls.place))
        if code == RULE and family == "S":
            reason = f"S{self._number_of(self._calls.rule)}"
            return fault_at(code, reason, text, self._number_of(self._calls.place))
        if code == RULE:
            return self._rule_fault(code, family)
        return fault(code, "L1" if code == RANGE and len(text) > MOST_TEXT else None)

    def _part_fault(self, code: builtins.int, only: str) -> Fault:
        if code == RANGE:
            return fault(code, detail=only)
        return PartFault(code, detail=only) if code == KIND else fault(code)
