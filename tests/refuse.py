"""Runs of a program in which one request for memory is refused, its blocks are counted, or a read or a write fails.

Linux on x86-64 alone.

The program is traced. In its table of the functions that it calls of the C library, other addresses stand for those
that are looked for, at which no code lies: so it stops at each call of them, and nowhere else.
"""

import ctypes
import os
import resource
import signal
import struct
import tempfile

REQUESTS = ("malloc", "realloc")
# The first write of a program under `alone` begins what counts, and its second ends it.
CAUGHT = {name: 8 * (1 + number) for number, name in enumerate((*REQUESTS, "free", "read", "write"))}
NAMES = {address: name for name, address in CAUGHT.items()}
# Seconds of processor time, for a program that does not end.
LONGEST = 120

LIBC = ctypes.CDLL(None, use_errno=True)
LIBC.ptrace.argtypes = [ctypes.c_long, ctypes.c_long, ctypes.c_void_p, ctypes.c_void_p]
LIBC.ptrace.restype = ctypes.c_long
TRACE_ME, CONTINUE, GET_REGISTERS, SET_REGISTERS, TO_SYSTEM_CALL, SET_OPTIONS = 0, 7, 12, 13, 24, 0x4200
ENDS_WITH_TRACER = 0x100000
RAX, RDI, SYSTEM_CALL, RIP, RSP = 10, 14, 15, 16, 19
NO_CALL = 2**64 - 1
# Of an auxiliary vector: where the program begins. Of a section: that it says what is to be linked.
ENTRY, RELOCATIONS = 9, 4
BREAKPOINT = b"\xcc"


def ptrace(request, pid, where=0, what=0):
    if LIBC.ptrace(request, pid, where, what) == -1:
        raise OSError(ctypes.get_errno(), "ptrace")


def word(data, at):
    return struct.unpack_from("<Q", data, at)[0]


def sections_of(data):
    size, count = struct.unpack_from("<HH", data, 58)
    return [struct.unpack_from("<IIQQQQIIQQ", data, word(data, 40) + size * it) for it in range(count)]


def places_of(data):
    """Where an ELF program, before it is moved, has the address of each function that is caught."""
    sections, places = sections_of(data), {}
    for _, kind, _, _, start, length, symbols, *_ in sections:
        if kind != RELOCATIONS:
            continue
        names = sections[sections[symbols][6]][4]
        for place, which, _ in struct.iter_unpack("<QQq", data[start : start + length]):
            name = names + struct.unpack_from("<I", data, sections[symbols][4] + 24 * (which >> 32))[0]
            places[data[name : data.index(b"\0", name)].decode()] = place
    return {name: places[name] for name in CAUGHT if name in places}


class Run:
    """A traced program, which stands at its beginning."""

    def __init__(self, words, cwd, out, err):
        self.pid = os.fork()
        if self.pid == 0:
            begin(words, cwd, out, err)
        self.registers = (ctypes.c_ulonglong * 27)()
        self.wait()
        ptrace(SET_OPTIONS, self.pid, 0, ENDS_WITH_TRACER)
        self.memory = os.open(f"/proc/{self.pid}/mem", os.O_RDWR)
        with open(words[0], "rb") as file:
            data = file.read()
        moved = self.go_to_entry() - word(data, 24)
        self.places = {name: moved + place for name, place in places_of(data).items()}
        self.functions = {name: self.read(place) for name, place in self.places.items()}

    def go_to_entry(self):
        """By then the linker has filled the table."""
        with open(f"/proc/{self.pid}/auxv", "rb") as file:
            entry = dict(struct.iter_unpack("<QQ", file.read()))[ENTRY]
        first = os.pread(self.memory, 1, entry)
        os.pwrite(self.memory, BREAKPOINT, entry)
        self.go_on()
        os.pwrite(self.memory, first, entry)
        self.change({RIP: entry})
        return entry

    def read(self, place):
        return word(os.pread(self.memory, 8, place), 0)

    def change(self, registers):
        for number, value in registers.items():
            self.registers[number] = value
        ptrace(SET_REGISTERS, self.pid, 0, ctypes.addressof(self.registers))

    def catch(self, names):
        """The program stops at each call of these functions, and of no others."""
        for name, place in self.places.items():
            address = CAUGHT[name] if name in names else self.functions[name]
            os.pwrite(self.memory, struct.pack("<Q", address), place)

    def wait(self):
        self.stop = os.waitpid(self.pid, 0)[1]
        if os.WIFSTOPPED(self.stop):
            ptrace(GET_REGISTERS, self.pid, 0, ctypes.addressof(self.registers))

    def go_on(self, received=0, request=CONTINUE):
        ptrace(request, self.pid, 0, received)
        self.wait()

    def caught(self):
        """Goes on to the next call that is caught, and names it; None at the end of the program."""
        self.go_on()
        while os.WIFSTOPPED(self.stop):
            name = NAMES.get(self.registers[RIP])
            if name:
                return name
            self.go_on(os.WSTOPSIG(self.stop))
        return None

    def call(self, name):
        self.change({RIP: self.functions[name]})

    def refuse(self):
        """The call answers that there is no memory."""
        top = self.registers[RSP]
        self.change({RAX: 0, RIP: self.read(top), RSP: top + 8})

    def fail(self, name, number):
        """The call is made, and the system answers it by an error of this number, with nothing done."""
        self.call(name)
        self.go_on(request=TO_SYSTEM_CALL)
        self.change({SYSTEM_CALL: NO_CALL})
        self.go_on(request=TO_SYSTEM_CALL)
        self.change({RAX: 2**64 - number})

    def status(self):
        os.close(self.memory)
        ended = os.waitstatus_to_exitcode(self.stop)
        return ended if ended >= 0 else 128 - ended


def begin(words, cwd, out, err):
    """The rest of a new process."""
    try:
        empty = os.open(os.devnull, os.O_RDONLY)
        for number, file in enumerate((empty, out.fileno(), err.fileno())):
            os.dup2(file, number)
        os.chdir(cwd)
        resource.setrlimit(resource.RLIMIT_CPU, (LONGEST, LONGEST))
        ptrace(TRACE_ME, 0)
        os.execve(words[0], words, {**os.environ, "LD_BIND_NOW": "1"})
    finally:
        os.kill(os.getpid(), signal.SIGKILL)


def is_allowed():
    """Whether this process may trace a program."""
    try:
        return answer(["/bin/true"], "/")["status"] == 0
    except OSError:
        return False


def count_requests(run, alone, refused):
    """Lets the program run to its end, or until it was refused once; how often it made each request."""
    counts = dict.fromkeys(REQUESTS, 0)
    run.catch(("write",) if alone else REQUESTS)
    writes = 0
    while name := run.caught():
        if name == "write":
            writes += 1
            run.catch((*REQUESTS, "write") if writes == 1 else ())
            run.call(name)
            continue
        counts[name] += 1
        if (name, counts[name]) == refused:
            run.catch(())
            run.refuse()
        else:
            run.call(name)
    return counts


def count_blocks(run):
    """Lets the program run to its end; how many blocks of memory it asked for, and how many it gave back."""
    run.catch((*REQUESTS, "free"))
    counts = {"asked": 0, "given back": 0}
    while name := run.caught():
        # Of `free` and `realloc` the first argument is a block, or null.
        is_null = run.registers[RDI] == 0
        if name == "free":
            counts["given back"] += not is_null
        elif name == "malloc" or is_null:
            counts["asked"] += 1
        run.call(name)
    return counts


def fail_once(run, name, number, which=1):
    """Lets the program run to its end, where one call of a function fails, by its place among them, from 1.

    The file that the call was for; None if the program made fewer calls.
    """
    run.catch((name,))
    for _ in range(1, which):
        if run.caught() is None:
            return None
        run.call(name)
    if run.caught() is None:
        return None
    file = run.registers[RDI]
    run.catch(())
    run.fail(name, number)
    return file if run.caught() is None else None


def followed(words, cwd, follow):
    """The exit status, both outputs, and what was counted on the way."""
    with tempfile.TemporaryFile() as out, tempfile.TemporaryFile() as err:
        run = Run(words, cwd, out, err)
        counts = follow(run)
        outputs = []
        for file in (out, err):
            file.seek(0)
            outputs.append(file.read().decode("latin-1"))
        return {"counts": counts, "status": run.status(), "out": outputs[0], "err": outputs[1]}


def answer(words, cwd, refused=None, alone=False):
    """The exit status, both outputs, and how often each request was made, until one was refused: its name and number.

    Where only the requests alone count, these are those between the first and the second write.
    """
    return {"refused": refused, **followed(words, cwd, lambda run: count_requests(run, alone, refused))}


def blocks(words, cwd):
    """The exit status, both outputs, and how many blocks of memory were asked for and given back."""
    return followed(words, cwd, count_blocks)


def failing(words, cwd, name, number, which=1):
    """The exit status, both outputs, and the file at which a read or write failed by an error of this number.

    Which one of them is its place among all, from 1; None if there are fewer.
    """
    return followed(words, cwd, lambda run: fail_once(run, name, number, which))
