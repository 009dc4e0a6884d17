"""Reference symmetry breaker: document 01 with CR 1 to CR 10 of document 02, written from the papers, naive on purpose.

A call answers ('refused', number, place) or ('done', value...).  A call that may write lent memory returns that
answer followed by the new contents of each thing it may write; nothing lent is ever changed in place.
`lesser` and `new_record` can refuse nothing and return their value bare.
Inside, a clause is a list of signed literals, a row is {i: p(i)} with literals p(i), and an assignment is {variable: bool}.
"""
from __future__ import annotations

import functools
import inspect
import os
import re
import sys
from fractions import Fraction
from itertools import accumulate, islice
from typing import Dict, Iterator, List, NamedTuple, Optional, Tuple

MAX_VARIABLES, MAX_CLAUSES, MAX_LITERALS, MAX_ROWS = 512, 4096, 12288, 64
MAX_COMPARED_WORDS, MAX_INPUT, MAX_LABELLED = 519, 65536, 10 ** 12

Clause = List[int]
Row = Dict[int, int]
Assignment = Dict[int, bool]


class Record(NamedTuple):
    """"a small record of n, m, the count of rows and whether it is open"."""
    variables: int
    clauses: int
    rows: int
    open: bool


class Refusal(Exception):
    """"A refusal carries its number and a place inside the answer"."""

    def __init__(self, number: int, place: int):
        super().__init__(number, place)
        self.answer = ("refused", number, place)


def call(*written: str):
    """"nothing else changes": a refusal hands the writable arguments back as they were lent."""
    def wrap(body):
        signature = inspect.signature(body)

        @functools.wraps(body)
        def answered(*given, **named):
            lent = signature.bind(*given, **named).arguments
            try:
                return body(*given, **named)
            except Refusal as refusal:
                return (refusal.answer, *(lent[name] for name in written)) if written else refusal.answer
        return answered
    return wrap


def overwritten(lent, new, at: int = 0):
    """"entries past those then in use unchanged", "bytes past it stay", "Words after it stay"."""
    return type(lent)([*lent[:at], *new, *lent[at + len(new):]])


def words(text: bytes) -> List[Tuple[int, bytes]]:
    """"A word is a run of bytes other than space, tab and line feed", each with its offset."""
    return [(found.start(), bytes(found.group())) for found in re.finditer(rb"[^ \t\n]+", text)]


def number_of(word: bytes) -> Optional[int]:
    """"an optional - and one to six decimal digits, without leading zeros except 0 itself; -0 is no number"."""
    return int(word) if re.fullmatch(rb"0|-?[1-9][0-9]{0,5}", word) else None


def lines(text: bytes) -> List[Tuple[int, bytes]]:
    """"A last line feed starts no further line": the lines without their line feeds, each with its offset."""
    found, place = [], 0
    for line in bytes(text).split(b"\n"):
        found.append((place, line))
        place += len(line) + 1
    return found[:-1] if found[-1][1] == b"" else found


def problem_line(text: bytes) -> Tuple[int, bytes]:
    """"first line that doesn't start with c, or the text's length" (1)."""
    for place, line in lines(text):
        if not line.startswith(b"c"):
            return place, line
    raise Refusal(1, len(text))


def problem_counts(place: int, line: bytes) -> Tuple[int, int]:
    """"p cnf n m (that byte p first, four words, n and m not negative)" (1); "n or m over its limit" (2)."""
    parts = [word for _, word in words(line)]
    if not line.startswith(b"p") or len(parts) != 4 or parts[:2] != [b"p", b"cnf"]:
        raise Refusal(1, place)
    n, m = number_of(parts[2]), number_of(parts[3])
    if n is None or m is None or n < 0 or m < 0:
        raise Refusal(1, place)
    if n > MAX_VARIABLES or m > MAX_CLAUSES:
        raise Refusal(2, place)
    return n, m


def body_words(text: bytes, problem: int) -> Iterator[Tuple[int, bytes]]:
    """CR 1: "After the problem line, a line whose first byte is c is skipped, also inside a clause that spans lines"; offsets in the text as lent."""
    for start, line in lines(text):
        if start > problem and line[:1] != b"c":
            yield from ((start + place, word) for place, word in words(line))


def read_clauses(text: bytes, problem: int, n: int, m: int) -> List[Clause]:
    """"the first fault from the left counts, and at one word the lower number, but 6 goes before 3, 4 and 5"."""
    closed, current, count = [], [], 0
    for place, word in body_words(text, problem):
        number = number_of(word)
        if len(closed) == m:
            raise Refusal(6, place)
        if number is None:
            raise Refusal(3, place)
        if abs(number) > n:
            raise Refusal(4, place)
        if number != 0 and count == MAX_LITERALS:
            raise Refusal(5, place)
        if number == 0:
            closed.append(current)
            current = []
        else:
            current.append(number)
            count += 1
    if len(closed) < m:
        raise Refusal(6, len(text))
    return closed


def listed_numbers() -> Dict[int, int]:
    """CR 5: "The team picks the 1,024 numbers, no two alike and none 0, and lists them in docs/": that of each literal, from the table of docs/KEYS.md."""
    with open(os.path.join(os.path.dirname(os.path.abspath(__file__)), "..", "..", "docs", "KEYS.md")) as page:
        rows = [map(int, row) for row in re.findall(r"^\| (\d+) \| (\d+) \| (\d+) \|$", page.read(), re.M)]
    return {literal: number for i, positive, negative in rows for literal, number in ((i, positive), (-i, negative))}


NUMBERS = listed_numbers()


def key_of(clause_: Clause) -> int:
    """CR 5: "a 64-bit key for each clause: the wrapping sum of one fixed number for each different literal in it"."""
    return sum(NUMBERS[literal] for literal in set(clause_)) % 2 ** 64


def new_record() -> Record:
    """"A new store starts closed"."""
    return Record(0, 0, 0, False)


@call("record", "literals", "ends", "keys")
def open_formula(record, text: bytes, literals, ends, keys):
    """"Opening a formula replaces the old one and drops its rows"; "opening tries literals before ends" (23), and the "keys slice, tried last" (CR 5)."""
    place, line = problem_line(text)
    n, m = problem_counts(place, line)
    formula = read_clauses(text, place, n, m)
    codes = [literal_code(literal) for clause_ in formula for literal in clause_]
    new_ends = list(accumulate(len(clause_) for clause_ in formula))
    if len(literals) < len(codes):
        raise Refusal(23, len(codes))
    if len(ends) < m:
        raise Refusal(23, m)
    if len(keys) < m:
        raise Refusal(23, m)
    new_keys = [key_of(clause_) for clause_ in formula]
    return ("done", n, m), Record(n, m, 0, True), overwritten(literals, codes), overwritten(ends, new_ends), overwritten(keys, new_keys)


def literal_code(literal: int) -> int:
    """"Literal i means variable i is true, -i that it is false": codes 2i and 2i + 1."""
    return 2 * literal if literal > 0 else 2 * -literal + 1


def literal_of(code: int) -> int:
    """"Literal i means variable i is true, -i that it is false": the signed literal of a code."""
    return -(code // 2) if code % 2 else code // 2


def badly_formed(record, literals, ends, keys, images) -> bool:
    """"a slice too short for the counts, ends that fall or pass the literals, .." (21); "A stored key that isn't its clause's sum" too (CR 5), and
    "a row with a size that is 0, over n or repeated" (CR 6)."""
    n, m, rows = record.variables, record.clauses, record.rows
    if n > MAX_VARIABLES or m > MAX_CLAUSES or rows > MAX_ROWS:
        return True
    if len(ends) < m or len(keys) < m or len(images) < rows * n:
        return True
    if any(ends[q] < ends[q - 1] for q in range(1, m)) or any(end > len(literals) for end in ends[:m]):
        return True
    used = ends[m - 1] if m > 0 else 0
    if used > MAX_LITERALS or any(not 1 <= code // 2 <= n for code in literals[:used]):
        return True
    if any(keys[q] != key_of(clause_) for q, clause_ in enumerate(plain_clauses(record, literals, ends))):
        return True
    sizes = list(range(1, n + 1))
    return any(sorted(code // 2 for code in images[r * n:(r + 1) * n]) != sizes for r in range(rows))


def require_store(record, literals, ends, keys, images) -> None:
    """"20. Not open. 21. Badly formed .. These have place 0 and come first, in this order"."""
    if not record.open:
        raise Refusal(20, 0)
    if badly_formed(record, literals, ends, keys, images):
        raise Refusal(21, 0)


def plain_clauses(record, literals, ends) -> List[Clause]:
    """"literals in order, each clause's end (the count of literals up to it)"."""
    starts = [0, *ends[:record.clauses]]
    return [[literal_of(code) for code in literals[starts[q]:ends[q]]] for q in range(record.clauses)]


def rows_of(record, images) -> List[Row]:
    """"the images of the accepted permutations, one row of n each"; CR 6: "Rows hold signed values"."""
    n = record.variables
    return [{i: literal_of(images[r * n + i - 1]) for i in range(1, n + 1)} for r in range(record.rows)]


def line_numbers(line: bytes, refusal: int) -> List[Tuple[int, int]]:
    """"a word that is no number" (7 on the names line, 9 on a value line), tried over the whole line."""
    found = [(place, number_of(word)) for place, word in words(line)]
    for place, number in found:
        if number is None:
            raise Refusal(refusal, place)
    return found


def read_names(line: bytes, n: int) -> List[int]:
    """"A name outside 1..n or repeated, or no name (place: length)" (8)."""
    names: List[int] = []
    for place, number in line_numbers(line, 7):
        if not 1 <= number <= n or number in names:
            raise Refusal(8, place)
        names.append(number)
    if not names:
        raise Refusal(8, len(line))
    return names


def read_values(line: bytes, names: List[int]) -> List[int]:
    """"A value that isn't a name or is repeated, or too few (place: length)" (10); CR 6: "A value may now be -i: its size must be a name not yet used"."""
    values: List[int] = []
    for place, number in line_numbers(line, 9):
        if abs(number) not in names or abs(number) in map(abs, values):
            raise Refusal(10, place)
        values.append(number)
    if len(values) < len(names):
        raise Refusal(10, len(line))
    return values


def require_moving(names: List[int], values: List[int]) -> None:
    """CR 8: "Refusal 31, place 0, is given where every value equals its name"."""
    if values == names:
        raise Refusal(31, 0)


def stated_row(n: int, names: List[int], values: List[int]) -> Row:
    """"Name i goes to its value p(i); variables not named stay"."""
    row = {i: i for i in range(1, n + 1)}
    row.update(zip(names, values))
    return row


def image(clause_: frozenset, row: Row) -> frozenset:
    """"A clause's image replaces each variable i by p(i)"; CR 6: "The image of a literal takes its sign from both"."""
    return frozenset(row[literal] if literal > 0 else -row[-literal] for literal in clause_)


def contradictory(clause_: Clause) -> bool:
    """CR 7: "a contradictory pair of literals", as in "clauses such as 5 -5 8": the clause is always true."""
    literals = set(clause_)
    return any(-literal in literals for literal in literals)


def judged(formula: List[Clause]) -> Dict[int, frozenset]:
    """CR 7: the "clauses without a contradictory pair of literals", each as a set, "by its number in the whole formula"."""
    return {q: frozenset(clause_) for q, clause_ in enumerate(formula, 1) if not contradictory(clause_)}


def require_symmetry(formula: List[Clause], row: Row) -> None:
    """CR 7: "A symmetry .. is one that maps the set of clauses without a contradictory pair of literals to itself, and 11 gives the first of these whose
    image is missing"."""
    clauses = judged(formula)
    clause_set, image_set = set(clauses.values()), {image(clause_, row) for clause_ in clauses.values()}
    if image_set != clause_set:
        raise Refusal(11, min(q for q, clause_ in clauses.items() if image(clause_, row) not in clause_set))


@call("record", "images")
def offer(record, literals, ends, keys, images, names: bytes, values: bytes):
    """"An offer tries 7, 8, 9, 10, 11 in that order, each over its whole line"; 20, 21, 22 before, 23 last; CR 8: 31 "after 10 and before 11"."""
    require_store(record, literals, ends, keys, images)
    n, held = record.variables, record.rows
    if held == MAX_ROWS:
        raise Refusal(22, 0)
    named = read_names(names, n)
    valued = read_values(values, named)
    require_moving(named, valued)
    row = stated_row(n, named, valued)
    require_symmetry(plain_clauses(record, literals, ends), row)
    if len(images) < (held + 1) * n:
        raise Refusal(23, (held + 1) * n)
    codes = [literal_code(row[i]) for i in range(1, n + 1)]
    return ("done",), record._replace(rows=held + 1), overwritten(images, codes, held * n)


@call("record")
def withdraw(record, literals, ends, keys, images):
    """CR 3: "a call that drops the newest row"; "from a store that holds no row is refused with 30, place 0, after 21"."""
    require_store(record, literals, ends, keys, images)
    if record.rows == 0:
        raise Refusal(30, 0)
    return ("done",), record._replace(rows=record.rows - 1)


def moved_variables(row: Row) -> List[int]:
    """"An accepted row has moved variables x1 < .. < xk"; CR 6: "a variable sent to its own negation counts as moved". They are the x of the longer form, as it
    was before CR 9."""
    return [i for i in sorted(row) if row[i] != i]


def cycles(row: Row) -> List[List[int]]:
    """CR 9: "each cycle of a row": from i to the size of p(i), and so on until i comes again. A variable that stays is a cycle of its own."""
    found, seen = [], set()
    for i in sorted(row):
        if i not in seen:
            cycle = [i]
            while abs(row[cycle[-1]]) != i:
                cycle.append(abs(row[cycle[-1]]))
            found.append(cycle)
            seen.update(cycle)
    return found


def turns_sign(row: Row, cycle: List[int]) -> bool:
    """CR 9: "going once round the cycle turns the sign an odd number of times"."""
    return sum(row[i] < 0 for i in cycle) % 2 == 1


def remaining_variables(row: Row) -> List[int]:
    """CR 9: "Leave out, for each cycle of a row, its largest variable, unless going once round the cycle turns the sign an odd number of times. The rest are
    x1 .. xk"."""
    left_out = {max(cycle) for cycle in cycles(row) if not turns_sign(row, cycle)}
    return [i for i in sorted(row) if i not in left_out]


def auxiliaries(xs: List[int]) -> int:
    """"It adds k-1 auxiliaries"; "The identity adds nothing"; CR 8: "Rows of that sort in an existing store remain well formed, add no clauses and count
    towards 64"."""
    return max(len(xs) - 1, 0)


def row_clauses(row: Row, xs: List[int], last: int) -> Iterator[Clause]:
    """"six clauses for each auxiliary j, written in this order", numbered on from `last`; CR 6: "A row with k = 1 adds the single clause -x1 y1"."""
    xs = [0, *xs]
    if len(xs) == 2:
        yield [-xs[1], row[xs[1]]]
    for j in range(1, len(xs) - 1):
        x, y, e, before = xs[j], row[xs[j]], last + j, last + j - 1
        x_next, y_next = xs[j + 1], row[xs[j + 1]]
        yield [-x, y] if j == 1 else [-e, before]
        yield [-e, -x, y]
        yield [-e, x, -y]
        yield [e, x, y] if j == 1 else [e, -before, x, y]
        yield [e, -x, -y] if j == 1 else [e, -before, -x, -y]
        yield [-e, -x_next, y_next]


def formula_by(xs_of, record, literals, ends, images) -> Iterator[Clause]:
    """"The first m clauses are the plain ones, then each row's in order of acceptance", a row's by the x that `xs_of` finds."""
    yield from plain_clauses(record, literals, ends)
    last = record.variables
    for row in rows_of(record, images):
        xs = xs_of(row)
        yield from row_clauses(row, xs, last)
        last += auxiliaries(xs)


def counts_by(xs_of, record, images) -> Tuple[int, int]:
    """"N = n + the sum of (k-1) over the rows that move something, and M = m + 6 times that sum"; CR 6: k = 1 adds a clause, "and M counts it"."""
    counts = [len(xs_of(row)) for row in rows_of(record, images)]
    added = sum(k - 1 for k in counts if k > 0)
    return record.variables + added, record.clauses + 6 * added + counts.count(1)


def made_formula(record, literals, ends, _keys, images) -> Iterator[Clause]:
    """The made formula: its x are those that CR 9 leaves."""
    return formula_by(remaining_variables, record, literals, ends, images)


def made_counts(record, images) -> Tuple[int, int]:
    """N and M of the made formula."""
    return counts_by(remaining_variables, record, images)


def longer_formula(record, literals, ends, _keys, images) -> Iterator[Clause]:
    """CR 9: "the longer form", with all moved variables; "the kept models are exactly those of the longer form", and nothing else here speaks of it."""
    return formula_by(moved_variables, record, literals, ends, images)


def longer_counts(record, images) -> Tuple[int, int]:
    """N and M of the longer form."""
    return counts_by(moved_variables, record, images)


def header_line(record, images) -> bytes:
    """"Header line: p cnf N M"."""
    return b"p cnf %d %d\n" % made_counts(record, images)


def clause_line(clause_: Clause) -> bytes:
    """"literals as read, one space between, ` 0` and a line feed; an empty clause's line is 0 alone"."""
    return " ".join(map(str, [*clause_, 0])).encode() + b"\n"


def made_text(record, literals, ends, keys, images) -> bytes:
    """"the text written is exactly the plain formula followed by the documented clauses": header and all lines."""
    return header_line(record, images) + b"".join(map(clause_line, made_formula(record, literals, ends, keys, images)))


@call()
def figures(record, literals, ends, keys, images):
    """CR 10: "the made formula's variables, clauses, literals (closing zeros not counted) and bytes of text"; "Each equals what the writing then gives"."""
    require_store(record, literals, ends, keys, images)
    made = made_formula(record, literals, ends, keys, images)
    return "done", *made_counts(record, images), sum(map(len, made)), len(made_text(record, literals, ends, keys, images))


def write_line(line: bytes, out):
    """"each returning its byte length; bytes past it stay"; "An output slice too short" (23)."""
    if len(out) < len(line):
        raise Refusal(23, len(line))
    return ("done", len(line)), overwritten(out, line)


@call("out")
def header(record, literals, ends, keys, images, out):
    """"Header and clause q (1 to M) are written by separate calls": the header's."""
    require_store(record, literals, ends, keys, images)
    return write_line(header_line(record, images), out)


@call("out")
def clause(record, literals, ends, keys, images, q: int, out):
    """"Header and clause q (1 to M) are written by separate calls"; "Clause number 0 or above M" (13)."""
    require_store(record, literals, ends, keys, images)
    if not 1 <= q <= made_counts(record, images)[1]:
        raise Refusal(13, 0)
    return write_line(clause_line(next(islice(made_formula(record, literals, ends, keys, images), q - 1, None))), out)


def bits(words_: List[int]) -> List[bool]:
    """"variable 1 is the highest bit of the first word, 1 is true"."""
    return [digit == "1" for word in words_ for digit in format(word, "064b")]


def word_count(n: int) -> int:
    """"the count of words is just enough"."""
    return (n + 63) // 64


def assignment_of(words_: List[int], n: int) -> Assignment:
    """"An assignment of the wrong length or with a spare bit set; place 0" (12)."""
    if len(words_) != word_count(n) or any(bits(words_)[n:]):
        raise Refusal(12, 0)
    return dict(enumerate(bits(words_)[:n], 1))


def words_of(a: Assignment) -> List[int]:
    """"An assignment is lent as 64-bit words .. spare low bits are 0"."""
    digits = "".join("1" if a[i] else "0" for i in sorted(a))
    return [int(digits[start:start + 64].ljust(64, "0"), 2) for start in range(0, len(digits), 64)]


def first_difference(a: Assignment, b: Assignment) -> int:
    """"the variable at which two assignments first differ .. or 0 when equal"."""
    return min((i for i in a if a[i] != b[i]), default=0)


def less(a: Assignment, b: Assignment) -> bool:
    """"A < B when A has 0 and B has 1 at the variable at which two assignments first differ"."""
    i = first_difference(a, b)
    return i != 0 and not a[i] and b[i]


@call()
def compare(a: List[int], b: List[int]):
    """"one call gives that variable, or 0 when equal, and refuses unequal lengths or more than 519 words"."""
    if len(a) != len(b) or len(a) > MAX_COMPARED_WORDS:
        raise Refusal(12, 0)
    return "done", first_difference(dict(enumerate(bits(a), 1)), dict(enumerate(bits(b), 1)))


def lesser(a: List[int], b: List[int]) -> str:
    """"the first when equal, the empty beginning of the first when lengths differ"."""
    if len(a) != len(b):
        return "empty"
    return "second" if less(dict(enumerate(bits(b), 1)), dict(enumerate(bits(a), 1))) else "first"


def value(literal: int, a: Assignment) -> bool:
    """"Literal i means variable i is true, -i that it is false": A(-i) is "the negated value" (CR 6) of A(i)."""
    return a[abs(literal)] == (literal > 0)


def moved(row: Row, a: Assignment) -> Assignment:
    """"A moved by p has, at variable i, the value A(p(i))"; CR 6: "A moved takes the negated value"."""
    return {i: value(row[i], a) for i in a}


def lowers(row: Row, a: Assignment) -> bool:
    """"p carries A to that, and makes A smaller when that is < A"."""
    return less(moved(row, a), a)


def trial(row: Row, a: Assignment) -> Tuple[bool, int]:
    """CR 2: "look at the row's moved variables alone and stop at the first that decides"; yes or no, and "the variable that decided .. or 0 where none does"."""
    for x in moved_variables(row):
        if a[x] != value(row[x], a):
            return a[x], x
    return False, 0


def true_clause(clause_: Clause, a: Assignment) -> bool:
    """"every clause has a true literal"."""
    return any(value(literal, a) for literal in clause_)


def filled_in(record, images, a: Assignment) -> Assignment:
    """"A itself, and ej true exactly when A agrees with A moved by p on x1 .. xj"; CR 9: "filling in speaks of the x that are left"."""
    full, last = dict(a), record.variables
    for row in rows_of(record, images):
        xs, carried = remaining_variables(row), moved(row, a)
        for j in range(1, len(xs)):
            full[last + j] = all(a[x] == carried[x] for x in xs[:j])
        last += auxiliaries(xs)
    return full


@call("out_words")
def fill_in(record, literals, ends, keys, images, a: List[int], out_words):
    """"Filling in writes an assignment of 1..N .. Words after it stay"."""
    require_store(record, literals, ends, keys, images)
    filled = words_of(filled_in(record, images, assignment_of(a, record.variables)))
    if len(out_words) < len(filled):
        raise Refusal(23, len(filled))
    return ("done", len(filled)), overwritten(out_words, filled)


@call()
def check(record, literals, ends, keys, images, a: List[int]):
    """"answers yes, or the first clause of the made formula that an assignment of 1..N makes false"."""
    require_store(record, literals, ends, keys, images)
    full = assignment_of(a, made_counts(record, images)[0])
    false = (q for q, clause_ in enumerate(made_formula(record, literals, ends, keys, images), 1)
             if not true_clause(clause_, full))
    return "done", next(false, 0)


@call("a")
def descend(record, literals, ends, keys, images, a: List[int], limit: int):
    """"Descent takes the first row by which A moved is < A, puts that in A, and goes on"; settled or spent."""
    require_store(record, literals, ends, keys, images)
    reached, rows, moves = assignment_of(a, record.variables), rows_of(record, images), 0
    while True:
        lowering = next((row for row in rows if lowers(row, reached)), None)
        if lowering is None:
            return ("done", "settled", moves), words_of(reached)
        if moves == limit:
            return ("done", "spent", moves), words_of(reached)
        reached, moves = moved(lowering, reached), moves + 1


@call()
def efficiency(labelled: int, unlabelled: int, allowed: int):
    """"10,000 x (labelled - allowed) / (labelled - unlabelled)", "the nearest .., an exact half going to the even one" (CR 4); 14."""
    if not unlabelled <= allowed <= labelled or labelled == unlabelled or labelled > MAX_LABELLED:
        raise Refusal(14, 0)
    return "done", round(Fraction(10000 * (labelled - allowed), labelled - unlabelled))  # Python rounds a half to the even number


def split_input(data: bytes) -> Tuple[bytes, List[bytes]]:
    """"formula text (all before the first line that is just %), that line, the names line, value lines" (15)."""
    found = lines(data)
    marks = [index for index, (_, line) in enumerate(found) if line == b"%"]
    if len(data) > MAX_INPUT or not marks:
        raise Refusal(15, 0)
    return data[:found[marks[0]][0]], [line for _, line in found[marks[0] + 1:]]


def run(data: bytes) -> bytes:
    """"It offers all, then prints the made formula"; "without value lines nothing is offered"."""
    text, after = split_input(data)
    literals, ends, keys, images = [0] * MAX_LITERALS, [0] * MAX_CLAUSES, [0] * MAX_CLAUSES, [0] * (MAX_ROWS * MAX_VARIABLES)
    answer, record, literals, ends, keys = open_formula(new_record(), text, literals, ends, keys)
    for values in after[1:]:
        if answer[0] == "done":
            answer, record, images = offer(record, literals, ends, keys, images, after[0], values)
    if answer[0] == "refused":
        raise Refusal(*answer[1:])
    return made_text(record, literals, ends, keys, images)


def program(data: bytes) -> bytes:
    """"or only the line refused NUMBER WHERE at the first refusal, WHERE being its place"."""
    try:
        return run(data)
    except Refusal as refusal:
        return b"refused %d %d\n" % refusal.answer[1:]


if __name__ == "__main__":
    sys.stdout.buffer.write(program(sys.stdin.buffer.read(MAX_INPUT + 1)))
