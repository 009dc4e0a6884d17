"""The exports of the static library, through Python's ctypes: include/symbreak.h as a host sees it."""
import ctypes
import functools
import mmap
import os
import random
import subprocess
import sys
import tempfile

ROOT = os.path.dirname(os.path.dirname(os.path.dirname(os.path.abspath(__file__))))
sys.path.insert(0, os.path.join(ROOT, "tests", "reference"))
TOP = 2 ** 64 - 1

NUMBER, SLICE = [ctypes.c_uint64], [ctypes.c_void_p, ctypes.c_size_t]
RECORD = NUMBER * 4
STORE = RECORD + SLICE * 4


class Record(ctypes.Structure):
    _fields_ = [(name, ctypes.c_uint64) for name in ("variables", "clauses", "rows", "is_open")]


class Answer(ctypes.Structure):
    _fields_ = [("refusal", ctypes.c_uint32), ("place", ctypes.c_uint64), ("value", ctypes.c_uint64)]


class Sizes(ctypes.Structure):
    _fields_ = [("refusal", ctypes.c_uint32)] + [(name, ctypes.c_uint64) for name in ("place", "variables", "clauses", "literals", "bytes")]


class Descent(ctypes.Structure):
    _fields_ = [("refusal", ctypes.c_uint32)] + [(name, ctypes.c_uint64) for name in ("place", "settled", "moves")]


class Stored(ctypes.Structure):
    _fields_ = [("refusal", ctypes.c_uint32), ("place", ctypes.c_uint64)] + Record._fields_


EXPORTS = {
    "symbreak_new_record": (Record, []),
    "symbreak_open": (Stored, RECORD + SLICE * 4),
    "symbreak_offer": (Stored, STORE + SLICE * 2),
    "symbreak_withdraw": (Stored, STORE),
    "symbreak_figures": (Sizes, STORE),
    "symbreak_header": (Answer, STORE + SLICE),
    "symbreak_clause": (Answer, STORE + NUMBER + SLICE),
    "symbreak_fill_in": (Answer, STORE + SLICE * 2),
    "symbreak_check": (Answer, STORE + SLICE),
    "symbreak_descend": (Descent, STORE + SLICE + NUMBER),
    "symbreak_compare": (Answer, SLICE * 2),
    "symbreak_efficiency": (Answer, NUMBER * 3),
}


def rounds(default):
    """How many random cases a test program tries: the number on its command line if it is above the default."""
    return max(int(sys.argv.pop(1)), default) if sys.argv[1:] and sys.argv[1].isdigit() else default


@functools.cache
def archive():
    """The static library: what the environment names as LIBSYMBREAK, or this repository's, which is proved and built first."""
    if "LIBSYMBREAK" not in os.environ:
        subprocess.run([os.path.join(ROOT, "tools", "build"), "library"], cwd=ROOT, check=True, stdout=subprocess.DEVNULL)
    return os.environ.get("LIBSYMBREAK", os.path.join(ROOT, "target", "staticlib", "libsymbreak.a"))


@functools.cache
def load():
    """The static library, loaded as a shared one."""
    with tempfile.TemporaryDirectory() as folder:
        shared = os.path.join(folder, "libsymbreak.so")
        subprocess.run(["gcc", "-shared", "-o", shared, "-Wl,--whole-archive", archive(), "-Wl,--no-whole-archive"], check=True)
        library = ctypes.CDLL(shared)
    for name, (result, arguments) in EXPORTS.items():
        getattr(library, name).restype = result
        getattr(library, name).argtypes = arguments
    return library


class Anywhere:
    """Memory for slices, wherever they come to lie."""

    def lend(self, kind, values):
        return (kind * len(values))(*values)

    def address(self, lent):
        return lent

    def protect(self, lent, writable):
        pass


class Guarded:
    """Memory that makes a call die where it leaves a slice: each slice ends where a page starts that nobody may touch, or starts where one ends. What a call
    may not write is read-only meanwhile. An empty slice may have any pointer, and gets one that nobody may follow."""

    PAGE = mmap.PAGESIZE
    NONE, READ, WRITE = 0, 1, 2  # as mprotect has them; Python's mmap has no name for the first
    MPROTECT = ctypes.CDLL(None).mprotect
    MPROTECT.argtypes = [ctypes.c_void_p, ctypes.c_size_t, ctypes.c_int]

    def __init__(self, at_end):
        self.at_end = at_end
        self.chance = random.Random(at_end)

    def _pages(self, lent):
        """Where the pages of a slice start, and how many bytes they have."""
        return ctypes.addressof(lent) // self.PAGE * self.PAGE, -(-ctypes.sizeof(lent) // self.PAGE) * self.PAGE

    def _allow(self, start, size, rights):
        assert self.MPROTECT(start, size, rights) == 0

    def lend(self, kind, values):
        array = kind * len(values)
        size = ctypes.sizeof(array)
        inside = -(-size // self.PAGE) * self.PAGE
        area = mmap.mmap(-1, self.PAGE + inside + self.PAGE)
        lent = array.from_buffer(area, self.PAGE + (inside - size if self.at_end else 0))
        lent[:] = values
        start, _ = self._pages(lent)
        self._allow(start - self.PAGE, self.PAGE, self.NONE)
        self._allow(start + inside, self.PAGE, self.NONE)
        return lent

    def address(self, lent):
        return lent if len(lent) else self.chance.choice([lent, None, 1, TOP])

    def protect(self, lent, writable):
        self._allow(*self._pages(lent), self.READ | (self.WRITE if writable else 0))


memory = Anywhere()  # what all slices are lent from; test_guarded.py puts others here


def call(function, *arguments, written=()):
    """Calls an export. Each argument is a number, or a slice as an array and its length; no other slice than those in `written` may be written."""
    slices = [each[0] for each in arguments if isinstance(each, tuple)]
    fixed = [lent for lent in slices if not any(lent is other for other in written)]
    for lent in fixed:
        memory.protect(lent, False)
    answer = function(*(part for each in arguments for part in ((memory.address(each[0]), each[1]) if isinstance(each, tuple) else (each,))))
    for lent in fixed:
        memory.protect(lent, True)
    return answer


def whole(lent):
    """An array as the slice that it is."""
    return lent, len(lent)


def said(answer):
    """An answer in the reference's terms; what it doesn't use is 0."""
    assert (answer.value if answer.refusal else answer.place) == 0
    return ("refused", answer.refusal, answer.place) if answer.refusal else ("done", answer.value)


def sized(answer):
    """The figures of a made formula, in the reference's terms; what the answer doesn't use is 0."""
    figures = answer.variables, answer.clauses, answer.literals, answer.bytes
    assert (figures == (0, 0, 0, 0)) if answer.refusal else answer.place == 0
    return ("refused", answer.refusal, answer.place) if answer.refusal else ("done", *figures)


def ended(answer):
    """How a descent ended, in the reference's terms; what the answer doesn't use is 0."""
    assert ((answer.settled, answer.moves) == (0, 0)) if answer.refusal else answer.place == 0
    return ("refused", answer.refusal, answer.place) if answer.refusal else ("done", {0: "spent", 1: "settled"}[answer.settled], answer.moves)


def compare(library, a, b):
    lent = [memory.lend(ctypes.c_uint64, each) for each in (a, b)]
    answer = call(library.symbreak_compare, *map(whole, lent))
    assert [list(each) for each in lent] == [a, b]
    return said(answer)


class Host:
    """A store as a host keeps it: a record and four slices, lent at each call. A slice that a call only reads is said to have `beyond` entries more
    than it has, which a call may not look at where they are not in use."""

    beyond = 0

    def __init__(self, library, record, literals, ends, keys, images):
        self.library = library
        self.put(record, literals, ends, keys, images)

    def put(self, record, literals, ends, keys, images):
        """Keeps another store."""
        self.record = record
        self.literals, self.ends, self.images = (memory.lend(ctypes.c_uint16, part) for part in (literals, ends, images))
        self.keys = memory.lend(ctypes.c_uint64, keys)

    def parts(self):
        """All that is lent, as the reference has it."""
        return self.record, self.literals[:], self.ends[:], self.keys[:], self.images[:]

    def _numbers(self):
        return self.record.variables, self.record.clauses, self.record.rows, int(self.record.open)

    def _store(self, written=None):
        slices = self.literals, self.ends, self.keys, self.images
        return *self._numbers(), *((part, len(part) + (self.beyond if part is not written else 0)) for part in slices)

    def _told(self, answer, done):
        """The answer, and the record beside it, which says open as 1."""
        assert answer.is_open in (0, 1) and not (answer.refusal == 0 and answer.place)
        self.record = self.record._replace(variables=answer.variables, clauses=answer.clauses, rows=answer.rows, open=answer.is_open == 1)
        return ("refused", answer.refusal, answer.place) if answer.refusal else done(self.record)

    def open(self, text):
        lent = memory.lend(ctypes.c_uint8, text)
        slices = lent, self.literals, self.ends, self.keys
        answer = call(self.library.symbreak_open, *self._numbers(), *map(whole, slices), written=slices[1:])
        assert bytes(lent) == text
        return self._told(answer, lambda record: ("done", record.variables, record.clauses))

    def offer(self, names, values):
        lent = [memory.lend(ctypes.c_uint8, line) for line in (names, values)]
        answer = call(self.library.symbreak_offer, *self._store(self.images), *map(whole, lent), written=[self.images])
        assert [bytes(line) for line in lent] == [names, values]
        return self._told(answer, lambda record: ("done",))

    def withdraw(self):
        return self._told(call(self.library.symbreak_withdraw, *self._store()), lambda record: ("done",))

    def figures(self):
        return sized(call(self.library.symbreak_figures, *self._store()))

    def _written(self, function, out, *before_out):
        lent = memory.lend(ctypes.c_uint8, out)
        answer = call(function, *self._store(), *before_out, whole(lent), written=[lent])
        return said(answer), bytes(lent)

    def header(self, out):
        return self._written(self.library.symbreak_header, out)

    def clause(self, q, out):
        return self._written(self.library.symbreak_clause, out, q)

    def fill_in(self, a, out):
        lent, room = memory.lend(ctypes.c_uint64, a), memory.lend(ctypes.c_uint64, out)
        answer = call(self.library.symbreak_fill_in, *self._store(), whole(lent), whole(room), written=[room])
        assert list(lent) == a
        return said(answer), list(room)

    def check(self, a):
        lent = memory.lend(ctypes.c_uint64, a)
        answer = call(self.library.symbreak_check, *self._store(), whole(lent))
        assert list(lent) == a
        return said(answer)

    def descend(self, a, limit):
        lent = memory.lend(ctypes.c_uint64, a)
        answer = call(self.library.symbreak_descend, *self._store(), whole(lent), limit, written=[lent])
        return ended(answer), list(lent)
