"""Each export beside the reference: the same answer, and the same in every entry of all that was lent."""
import random
import unittest

import generate
import library
import reference

LIBRARY = library.load()


def told(record):
    """A record as an export answers it: open is 1."""
    return record._replace(open=bool(record.open))


def held(host):
    """The rows of a well formed store, as lists of images."""
    return [list(row.values()) for row in reference.rows_of(host.record, host.images[:])]


def holding(n, clauses, rows):
    """A store lent with these clauses and rows, which need be no symmetries, at times with something past those in use."""
    numbers, *slices = generate.store(random.Random(n), n, clauses, rows, 1)
    return library.Host(LIBRARY, reference.Record(*numbers), *slices)


def counted(text):
    """The figures of a made formula by its text, which has as many lines as its header says: that one's two numbers, the literals, the bytes."""
    header, *lines = text.splitlines()
    variables, clauses = map(int, header.split()[2:])
    assert len(lines) == clauses, text
    return variables, clauses, sum(len(line.split()) - 1 for line in lines), len(text)


def judged(host, names, values, answer):
    """Of which sorts (generate.JUDGED) an offer was that came to be judged: that was accepted, or refused with 11, or with 23, which is tried after it."""
    if answer != ("done",) and answer[1] not in (11, 23):
        return []
    return generate.judged(reference.plain_clauses(host.record, host.literals, host.ends), generate.stated(host.record.variables, names, values))


def idle(host, names, values, answer):
    """Of which sorts (generate.IDLE) an offer was whose value line was read, and whether it was idle where there was no room; or it was so beside 64 rows."""
    number = 0 if answer == ("done",) else answer[1]
    found = generate.idle(host.record.variables, names, values)
    if number == 22:
        return ["idle beside 64 rows"] if "idle" in found else []
    without_room = number == 31 and len(host.images) < (host.record.rows + 1) * host.record.variables
    return [] if number in (7, 8, 20, 21) else found + ["idle without room"] * without_room


def lend_identities(chance, host):
    """Puts identities in among the rows of a well formed store, and keeps what follows them."""
    rows = generate.with_identities(chance, host.record.variables, held(host))
    past = host.images[host.record.rows * host.record.variables:]
    host.put(host.record._replace(rows=len(rows)), *host.parts()[1:4], generate.codes(rows) + past)


class Agree(unittest.TestCase):
    def open(self, host, text):
        record, literals, ends, keys, images = before = host.parts()
        expected, record, literals, ends, keys = reference.open_formula(record, text, literals, ends, keys)
        answer = host.open(text)
        self.assertEqual((answer, *host.parts()), (expected, told(record), literals, ends, keys, images), (before, text))
        return answer

    def offer(self, host, names, values):
        before = host.parts()
        expected, record, images = reference.offer(*before, names, values)
        answer = host.offer(names, values)
        self.assertEqual((answer, *host.parts()), (expected, told(record), *before[1:4], images), (before, names, values))
        return answer

    def withdraw(self, host):
        before = host.parts()
        expected, record = reference.withdraw(*before)
        answer = host.withdraw()
        self.assertEqual((answer, *host.parts()), (expected, told(record), *before[1:]), before)
        return answer

    def figures(self, host):
        before = host.parts()
        answer = host.figures()
        self.assertEqual((answer, host.parts()), (reference.figures(*before), before), before)
        if answer[0] == "done":
            self.bounded(host, *answer[1:])
        return answer

    def bounded(self, host, variables, clauses, literals, size):
        """The bounds of CR 10 on the figures of a store."""
        n, m, rows, _ = host.record
        used, images = host.ends[m - 1] if m else 0, rows * n
        for figure, bound in [(variables, n + images), (clauses, m + 6 * images), (literals, used + 19 * images), (size, 19 + 7 * literals + 2 * clauses)]:
            self.assertLessEqual(figure, bound, host.parts())

    def header(self, host, out):
        before = host.parts()
        answer, written = host.header(out)
        self.assertEqual(((answer, written), host.parts()), (reference.header(*before, out), before), (before, out))
        return answer

    def clause(self, host, q, out):
        before = host.parts()
        answer, written = host.clause(q, out)
        self.assertEqual(((answer, written), host.parts()), (reference.clause(*before, q, out), before), (before, q, out))
        return answer

    def as_reference(self, chance, host, most=100):
        """The header, the first and last clauses and some others are those of the reference."""
        header, *lines = reference.made_text(*host.parts()).splitlines(True)
        numbers = range(1, len(lines) + 1)
        self.assertEqual(host.header(bytes(64))[1].rstrip(b"\0"), header)
        for q in {*numbers[:12], *numbers[-12:], *chance.sample(numbers, min(most, len(lines)))}:
            self.assertEqual(host.clause(q, bytes(64))[1].rstrip(b"\0"), lines[q - 1], (host.parts(), q))
        self.assertEqual(host.clause(len(lines) + 1, bytes(64))[0], ("refused", 13, 0))
        return [header, *lines]

    def fill_in(self, host, a, out):
        before = host.parts()
        answer, written = host.fill_in(a, out)
        self.assertEqual(((answer, written), host.parts()), (reference.fill_in(*before, a, out), before), (before, a, out))
        return answer, written

    def check(self, host, a):
        before = host.parts()
        answer = host.check(a)
        self.assertEqual((answer, host.parts()), (reference.check(*before, a), before), (before, a))
        return answer

    def descend(self, host, a, limit):
        before = host.parts()
        answer, reached = host.descend(a, limit)
        self.assertEqual(((answer, reached), host.parts()), (reference.descend(*before, a, limit), before), (before, a, limit))
        return answer, reached

    def compare(self, a, b):
        answer = library.compare(LIBRARY, a, b)
        self.assertEqual(answer, reference.compare(a, b), (a, b))
        return answer
