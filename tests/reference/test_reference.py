"""Tests of the reference: the worked cases of 01, the examples of the readings A-J, the tables of 000, demand 3 and CR 9's statement by brute force."""
import copy
import itertools
import operator
import random
import unittest
from collections import Counter

import reference as ref
import tables
import truth

LISTING = b"p cnf 3 2\n1 2 0\n2 3 0\n"
TOP = 2 ** 64 - 1
NUMBERS = {1: 8399848799940609, -1: 24472253299388417, 2: 27429481777696769, -2: 47979604178350081, 3: 56431291722078209,
           512: 18413816788118036481, -512: 18434917261454266369}  # some of docs/KEYS.md
LISTING_KEYS = [NUMBERS[1] + NUMBERS[2], NUMBERS[2] + NUMBERS[3]]


class Host:
    """A store with slices of its own; every call is checked to change nothing in place, and nothing when refused."""

    def __init__(self, text=LISTING, literals=64, ends=64, keys=64, images=256):
        self.record, self.images = ref.new_record(), [7] * images
        self.literals, self.ends, self.keys = [9] * literals, [8] * ends, [6] * keys
        self.answer = self.open(text)

    @property
    def store(self):
        return self.record, self.literals, self.ends, self.keys, self.images

    def open(self, text):
        answer, self.record, self.literals, self.ends, self.keys = call(
            ref.open_formula, self.record, text, self.literals, self.ends, self.keys, written=(0, 2, 3, 4))
        return answer

    def offer(self, names, values):
        answer, self.record, self.images = call(ref.offer, *self.store, names, values, written=(0, 4))
        return answer

    def withdraw(self):
        answer, self.record = call(ref.withdraw, *self.store, written=(0,))
        return answer

    def with_rows(self, *rows):
        """Hold these rows, symmetries or not."""
        n = self.record.variables
        self.record = self.record._replace(rows=len(rows))
        self.images = [ref.literal_code(value) for row in rows for value in row] + self.images
        assert all(sorted(map(abs, row)) == list(range(1, n + 1)) for row in rows)
        return self


def call(function, *lent, written):
    """Call and check: nothing lent changes in place, a refusal returns it all unchanged."""
    before = [copy.copy(part) for part in lent]
    answer, *after = function(*lent)
    assert list(lent) == before, "changed in place"
    assert len(after) == len(written)
    if answer[0] == "refused":
        assert after == [before[index] for index in written], "a refusal changed something"
    return (answer, *after)


def words(digits):
    """'101' as lent words."""
    return ref.words_of({i: digit == "1" for i, digit in enumerate(digits, 1)})


def digits(words_, n):
    return "".join("1" if bit else "0" for bit in ref.bits(words_)[:n])


def opening(text, literals=13000, ends=5000, keys=5000):
    return ref.open_formula(ref.new_record(), text, [0] * literals, [0] * ends, [0] * keys)[0]


def descend(host, a, limit=TOP):
    answer, reached = call(ref.descend, *host.store, words(a), limit, written=(5,))
    return answer, digits(reached, len(a))


def fill_in(host, a, room=1):
    return call(ref.fill_in, *host.store, words(a), [TOP] * room, written=(6,))


class WorkedCases(unittest.TestCase):
    """01, "Tried on both edges" and the listing."""

    def test_offers(self):
        cases = [(b"1 3", b"3 1", ("done",)), (b"1 2", b"2 1", ("refused", 11, 2)), (b"1 3", b"3", ("refused", 10, 1)),
                 (b"1 3", b"3 3", ("refused", 10, 2)), (b"1 1", b"", ("refused", 8, 2)), (b"4", b"", ("refused", 8, 0))]
        for names, values, answer in cases:
            host = Host()
            self.assertEqual(host.offer(names, values), answer)
            accepted = answer == ("done",)
            self.assertEqual(host.record, ref.Record(3, 2, int(accepted), True))
            self.assertEqual(host.images, ([6, 4, 2] if accepted else [7] * 3) + [7] * 253)

    def test_descent_and_filling_in(self):
        host = Host().with_rows((3, 2, 1))
        self.assertEqual(descend(host, "110"), (("done", "settled", 1), "011"))
        self.assertEqual(descend(host, "110", 0), (("done", "spent", 0), "110"))
        self.assertEqual(descend(host, "011", 0), (("done", "settled", 0), "011"))
        for a in "101", "011":
            answer, out = fill_in(host, a, 3)
            self.assertEqual((answer, out), (("done", 1), [*words(a), TOP, TOP]))
        self.assertEqual(fill_in(host, "011", 0), (("refused", 23, 1), []))
        turned = Host(b"p cnf 3 1\n1 2 3 0\n")
        self.assertEqual(turned.offer(b"1 2 3", b"2 3 1"), ("done",))
        self.assertEqual(descend(turned, "100"), (("done", "settled", 1), "001"))
        self.assertEqual(descend(turned, "010"), (("done", "settled", 0), "010"))

    def test_efficiency(self):
        cases = [((25, 6, 8), 8947), ((29281, 302, 1024), 9751), ((10 ** 12, 0, 0), 10000), ((5, 4, 5), 0),
                 ((20001, 1, 20000), 0), ((20001, 1, 19998), 2)]
        cases += [(counts, tables.hundredths(percent)) for _, _, *counts, percent in tables.ROWS]
        for figures, answer in cases:
            self.assertEqual(ref.efficiency(*figures), ("done", answer))
        for figures in (3, 3, 3), (5, 4, 3), (5, 2, 6), (10 ** 12 + 1, 0, 0), (0, 0, 0), (2, TOP, TOP), (TOP, 0, 1):
            self.assertEqual(ref.efficiency(*figures), ("refused", 14, 0))

    def test_nearest_figure(self):
        """Of all figures the nearest one, and of two that are as near the even one."""
        halves = 0
        for labelled, unlabelled in [(7, 0), (33, 1), (64, 0), (97, 1), (20000, 0), (20001, 1)]:
            for allowed in {*range(unlabelled, unlabelled + 30), *range(labelled - 30, labelled + 1)} & set(range(unlabelled, labelled + 1)):
                x, y = 10000 * (labelled - allowed), labelled - unlabelled
                halves += 2 * x % (2 * y) == y
                self.assertEqual(ref.efficiency(labelled, unlabelled, allowed), ("done", min(range(10001), key=lambda f: (abs(x - f * y), f % 2))))
        self.assertGreater(halves, 50)

    def test_edges_of_the_text(self):
        self.assertEqual(opening(b"p cnf 512 4096\n" + b"0 " * 4096), ("done", 512, 4096))
        self.assertEqual(opening(b"c\np cnf 513 0"), ("refused", 2, 2))
        self.assertEqual(opening(b"p cnf 1 4097"), ("refused", 2, 0))
        self.assertEqual(opening(b"p cnf 0 0"), ("done", 0, 0))
        self.assertEqual(opening(b"p cnf 1 1\n-0 0"), ("refused", 3, 10))

    def test_row_64(self):
        host = Host()
        for _ in range(64):
            self.assertEqual(host.offer(b"3 1", b"1 3"), ("done",))
        self.assertEqual(host.offer(b"x", b"y"), ("refused", 22, 0))
        self.assertEqual(ref.made_counts(host.record, host.images), (3, 2 + 64))

    def test_listing(self):
        made = b"p cnf 3 3\n1 2 0\n2 3 0\n-1 3 0\n"
        self.assertEqual(ref.program(LISTING + b"%\n1 3\n3 1\n"), made)
        self.assertEqual(ref.program(LISTING + b"%\n1 3\n3 1"), made)


class Withdrawing(unittest.TestCase):
    """CR 3 and readings I1 to I4."""

    def test_withdraw(self):
        host = Host(b"p cnf 3 1\n1 2 3 0\n")
        self.assertEqual(host.withdraw(), ("refused", 30, 0))
        self.assertEqual((host.offer(b"1 2 3", b"2 3 1"), host.offer(b"1 3", b"3 1")), (("done",), ("done",)))
        images = list(host.images)
        self.assertEqual(ref.made_counts(host.record, host.images), (4, 1 + 6 + 1))  # 3 is left out of either, so that k is 2, then 1
        self.assertEqual((host.withdraw(), host.record.rows, host.images), (("done",), 1, images))
        self.assertEqual(ref.made_counts(host.record, host.images), (4, 1 + 6))
        self.assertEqual((host.withdraw(), host.withdraw(), host.images), (("done",), ("refused", 30, 0), images))
        self.assertEqual(host.offer(b"1 2 3", b"3 1 2"), ("done",))
        self.assertEqual(ref.made_text(*host.store).splitlines()[-1], b"-4 -2 1 0")
        host.record = host.record._replace(rows=0, variables=2)
        self.assertEqual(host.withdraw(), ("refused", 21, 0))
        host.record = host.record._replace(open=False)
        self.assertEqual(host.withdraw(), ("refused", 20, 0))


class OpeningReadings(unittest.TestCase):
    """Readings A and B."""

    def test_numbers(self):
        for word in b"-0", b"00", b"-00", b"01", b"+1", b"1000000", b"-", b"--1", b"1\r", b"\x80", b"\0", b"1_0":
            self.assertIsNone(ref.number_of(word))
        for number in 0, 1, -1, 10, 999999, -999999:
            self.assertEqual(ref.number_of(b"%d" % number), number)

    def test_places(self):
        cases = {
            b"": (1, 0), b"c x\n": (1, 4), b"c x": (1, 3), b"c\n\np cnf 0 0": (1, 2), b"p cnf 1 1\r\n1 0": (1, 0),
            b"p cnf 1000000 0": (1, 0), b"p cnf 513 x": (1, 0), b"p cnf 0512 0": (1, 0), b"p cnf -0 0": (1, 0),
            b"p cnf 1 -1": (1, 0), b"p cnf 999999 0": (2, 0), b" p cnf 0 0": (1, 0), b"pcnf 0 0": (1, 0),
            b"p cnf 0 0 0": (1, 0), b"p cnf 1 1 1 0": (1, 0), b"p cnf 1\n1\n0": (1, 0), b"p cnf 0 0 c x": (1, 0),
            b"px cnf 0 0": (1, 0), b"c\rc\np cnff 0 0": (1, 4), b"p cnf 1 1\n1 0\r": (3, 12),
            b"p cnf 1 1\n c x": (3, 11), b"p cnf 1 1\n1 c": (3, 12), b"p cnf 1 1\n1 0\n c": (6, 15),
            b"p cnf 3 1\n-4 0": (4, 10), b"p cnf 0 1\n1 0": (4, 10), b"p cnf 3 1\n1 2": (6, 13),
            b"p cnf 3 1\n1 2 \n": (6, 15), b"p cnf 3 0\nx": (6, 10), b"p cnf 3 0\n4": (6, 10),
            b"p cnf 3 0 \n 0": (6, 12), b"p cnf 3 1": (6, 9), b"p cnf 3 1\n999999 0": (4, 10),
            b"p cnf 3 1\n1000000 0": (3, 10)}
        for text, refusal in cases.items():
            self.assertEqual(opening(text), ("refused", *refusal), text)
        for text in (b"p\tcnf  0 0 \t\n\n \t\n", b"cnf 3 2\ncp cnf 0 0\ncomment\r\np cnf 0 0",
                     b"p cnf 1 2 \n\n0 -1 1\n\n1\n0"):
            self.assertEqual(opening(text)[0], "done", text)

    def test_comments(self):
        """CR 1 and readings A8 to A11."""
        for body in (b"1\nc x 0\n2 0", b"c\n1 2 0", b"1 2\nc\n0\n", b"1 2 0\nc x\n", b"1 2 0\nc", b"cnf 3 2\n1 2 0\ncp cnf 0 0\ncomment\r\n"):
            host = Host(b"p cnf 2 1\n" + body)
            self.assertEqual((host.answer, host.literals[:3], host.ends[:2]), (("done", 2, 1), [2, 4, 9], [2, 8]), body)
        cases = {b" c x\n1 2 0": (3, 11), b"1 2 0\n c x": (6, 17), b"1 c\n2 0": (3, 12), b"1 2 0 c": (6, 16), b"c x\nc\n": (6, 16), b"c x\nc": (6, 15),
                 b"c x\n1 3 0": (4, 16), b"1\nc x\ny 0": (3, 16), b"1 2 0\nc x\n1": (6, 20), b"c x\r1 2 0": (6, 19)}
        for body, refusal in cases.items():
            self.assertEqual(opening(b"p cnf 2 1\n" + body), ("refused", *refusal), body)

    def test_literal_12289(self):
        full = b"p cnf 1 2\n" + b"1 " * 12288
        for tail, refusal in (b"1", 5), (b"2", 4), (b"x", 3), (b"-1", 5), (b"0 0 x", 6):
            place = len(full) + (4 if refusal == 6 else 0)
            self.assertEqual(opening(full + tail), ("refused", refusal, place))
        self.assertEqual(opening(full + b"0 0"), ("done", 1, 2))
        self.assertEqual(opening(full + b"0 1 0"), ("refused", 5, len(full) + 2))

    def test_slices(self):
        self.assertEqual(opening(LISTING, 3, 1), ("refused", 23, 4))
        self.assertEqual(opening(LISTING, 4, 1), ("refused", 23, 2))
        host = Host(literals=5, ends=3, keys=3).with_rows((1, 2, 3))
        self.assertEqual((host.open(b"p cnf 2 2 -1 2"), host.record.rows), (("refused", 1, 0), 1))
        self.assertEqual(host.open(b"p cnf 2 2\n0 -1 0"), ("done", 2, 2))
        self.assertEqual(host.store[:4], (ref.Record(2, 2, 0, True), [3, 4, 4, 6, 9], [0, 1, 8], [0, NUMBERS[-1], 6]))
        self.assertEqual(ref.plain_clauses(*host.store[:3]), [[], [-1]])


class Keys(unittest.TestCase):
    """CR 5 and readings B5, B7, D2 and D8."""

    def test_key(self):
        """Order and repeats make no difference, i and -i are two literals, the empty clause has 0; sums wrap at 2^64."""
        cases = [([1, 2], NUMBERS[1] + NUMBERS[2]), ([2, 1], NUMBERS[1] + NUMBERS[2]), ([2, 1, 2, 2], NUMBERS[1] + NUMBERS[2]), ([1, 1], NUMBERS[1]),
                 ([1, -1], NUMBERS[1] + NUMBERS[-1]), ([-1, 1, -1], NUMBERS[1] + NUMBERS[-1]), ([], 0), ([1, -2, 1], 56379452978290690),
                 ([512, -512], NUMBERS[512] + NUMBERS[-512] - 2 ** 64), ([-512, 512, -512, 1], NUMBERS[512] + NUMBERS[-512] + NUMBERS[1] - 2 ** 64)]
        for clause, key in cases:
            self.assertEqual(ref.key_of(clause), key, clause)
        everything = [sign * i for i in range(1, 513) for sign in (1, -1)]
        self.assertEqual(sorted(ref.NUMBERS), sorted(everything))
        self.assertEqual(ref.key_of(everything), sum(ref.NUMBERS.values()) & TOP)
        self.assertGreater(sum(ref.NUMBERS.values()), 2 ** 72)

    def test_opening(self):
        """A key for each clause, and entries past them stay."""
        host = Host(b"p cnf 512 5\n1 -2 1 0 0 512 -512 0 -1 0 -1 0", keys=7)
        self.assertEqual(host.keys, [56379452978290690, 0, NUMBERS[512] + NUMBERS[-512] - 2 ** 64, NUMBERS[-1], NUMBERS[-1], 6, 6])
        self.assertEqual((host.open(LISTING), host.keys[:3]), (("done", 3, 2), [*LISTING_KEYS, NUMBERS[512] + NUMBERS[-512] - 2 ** 64]))

    def test_short(self):
        """23 with the count of clauses, after 1 to 6, after the literals and after the ends, which need as many; a refused opening leaves the keys."""
        for keys in 0, 1:
            self.assertEqual(opening(LISTING, 4, 2, keys), ("refused", 23, 2))
            self.assertEqual(opening(LISTING, 3, 2, keys), ("refused", 23, 4))
            self.assertEqual(opening(LISTING, 4, 1, keys), ("refused", 23, 2))
            self.assertEqual(opening(LISTING + b"x", 4, 2, keys), ("refused", 6, 22))
        self.assertEqual(opening(LISTING, 4, 2, 2), ("done", 3, 2))
        self.assertEqual(opening(b"p cnf 3 0", 0, 0, 0), ("done", 3, 0))
        host = Host(keys=3)
        self.assertEqual(host.open(b"p cnf 1 4\n0 0 1 0 0"), ("refused", 23, 4))
        self.assertEqual((host.record, host.keys), (ref.Record(3, 2, 0, True), [*LISTING_KEYS, 6]))
        self.assertEqual(host.offer(b"1 3", b"3 1"), ("done",))

    def test_badly_formed(self):
        """A key of a clause that is not its sum, or a key too few; entries past those in use are free."""
        one, two = LISTING_KEYS
        for keys in [], [one], [two, one], [one, one], [one, two + 1], [one ^ 2 ** 63, two], [one + NUMBERS[1], two], [NUMBERS[1], two], [0, two]:
            self.assertTrue(ref.badly_formed(ref.Record(3, 2, 0, True), [2, 4, 4, 6], [2, 4], keys, []), keys)
        for keys in [one, two], [one, two, 0], [one, two, TOP, one]:
            self.assertFalse(ref.badly_formed(ref.Record(3, 2, 0, True), [2, 4, 4, 6], [2, 4], keys, []), keys)
        for literals, ends, key in ([2, 2], [2], NUMBERS[1]), ([3, 2, 3], [3], NUMBERS[1] + NUMBERS[-1]), ([], [0], 0):
            self.assertFalse(ref.badly_formed(ref.Record(1, 1, 0, True), literals, ends, [key], []))
            self.assertTrue(ref.badly_formed(ref.Record(1, 1, 0, True), literals, ends, [key + NUMBERS[1]], []))
        self.assertFalse(ref.badly_formed(ref.Record(3, 0, 0, True), [], [], [], []))


class OfferReadings(unittest.TestCase):
    """Readings C."""

    def test_places(self):
        cases = [(b"4 x", b"", 7, 2), (b"1 3\r", b"", 7, 2), (b"4", b"x", 8, 0), (b"1 3", b"3 3 x", 9, 4),
                 (b"  ", b"x", 8, 2), (b"", b"", 8, 0), (b"1 3", b"2", 10, 0), (b"1 3", b"3 1 2", 10, 4),
                 (b"1 3", b" 3\t", 10, 3), (b"-1", b"", 8, 0), (b"1 0", b"", 8, 2), (b"1 3", b"-2 1", 10, 0),
                 (b"1 3", b"0 1", 10, 0), (b"999999", b"", 8, 0), (b"1000000", b"", 7, 0), (b"1 2 3", b"2 3 1", 11, 2)]
        for names, values, number, place in cases:
            self.assertEqual(Host().offer(names, values), ("refused", number, place), (names, values))
        self.assertEqual(Host().offer(b"1\n3", b"\t3\n1 "), ("done",))
        for names in b"x", b"1", b"":
            self.assertEqual(Host(b"p cnf 0 0").offer(names, b"")[1], 7 if names == b"x" else 8)

    def test_clause_sets_and_repeats(self):
        host = Host(b"p cnf 3 5\n3 1 1 0 2 0 -2 2 0 1 3 0 0")
        for _ in range(2):
            self.assertEqual(host.offer(b"1 3", b"3 1"), ("done",))
        self.assertEqual(host.offer(b"1 2", b"2 1"), ("refused", 11, 1))
        self.assertEqual(list(ref.made_formula(*host.store))[5:], [[-1, 3], [-1, 3]])
        self.assertEqual(ref.made_counts(host.record, host.images), (3, 7))
        self.assertEqual(Host(b"p cnf 2 3\n2 1 0 1 0 1 1 0").offer(b"1 2", b"2 1"), ("refused", 11, 2))

    def test_room(self):
        host = Host(images=5)
        self.assertEqual(host.offer(b"1 3", b"3 1"), ("done",))
        self.assertEqual(host.offer(b"1 3", b"3 1"), ("refused", 23, 6))
        self.assertEqual(host.offer(b"1 2", b"2 1"), ("refused", 11, 2))


SQUARE = b"p cnf 3 4\n1 2 3 0\n1 -2 3 0\n-1 -2 3 0\n-1 2 3 0\n"  # which exchanges and negations of 1 and 2 keep


class Signs(unittest.TestCase):
    """CR 6 and readings C6, C7, D4, D7, E1, E2 and O3."""

    def test_offers(self):
        cases = [(b"1", b"-1", [3, 4, 6]), (b"1 2", b"-2 1", [5, 2, 6]), (b"2 1", b"-1 -2", [5, 3, 6]), (b"1 2 3", b"2 -1 3", [4, 3, 6]),
                 (b"3", b"-3", 1), (b"1 3", b"-3 -1", 1), (b"1 3", b"3 1", 3), (b"1 3", b"3 -1", 3), (b"2 3", b"3 -2", 2)]
        for names, values, expected in cases:
            host, accepted = Host(SQUARE), isinstance(expected, list)
            self.assertEqual(host.offer(names, values), ("done",) if accepted else ("refused", 11, expected), (names, values))
            self.assertEqual(host.images[:4], [*expected, 7] if accepted else [7] * 4)

    def test_sign_from_both(self):
        """The image of a negative literal by a negative value is positive."""
        self.assertEqual(Host(b"p cnf 2 1\n-1 2 0").offer(b"1 2", b"-2 -1"), ("done",))
        self.assertEqual(Host(b"p cnf 2 1\n1 2 0").offer(b"1 2", b"-2 -1"), ("refused", 11, 1))
        self.assertEqual(Host(b"p cnf 2 2\n1 2 0 2 -1 0").offer(b"1", b"-1"), ("done",))
        self.assertEqual(Host(b"p cnf 2 3\n1 2 0 2 -1 0 1 0").offer(b"1", b"-1"), ("refused", 11, 3))
        self.assertEqual(Host(b"p cnf 2 2\n-1 -1 0 1 0").offer(b"1", b"-1"), ("done",))
        self.assertEqual(Host(b"p cnf 2 2\n1 -1 0 -2 2 0").offer(b"2 1", b"-1 2"), ("done",))

    def test_places(self):
        """A value's size is a name not yet used; 0 is none, and -0 no number. Names have no signs."""
        cases = [(b"-2 1", 10, 0), (b"-4 1", 10, 0), (b"3 -3", 10, 2), (b"-3 3", 10, 3), (b"-3 -3", 10, 3), (b"-1", 10, 2), (b"-3 -1 1", 10, 6),
                 (b"0 1", 10, 0), (b"-999999 1", 10, 0), (b"-0 1", 9, 0), (b"3 --1", 9, 2), (b"-3 3 -", 9, 5), (b"3 -01", 9, 2), (b"-1000000", 9, 0),
                 (b"-3 1", 11, 1), (b"3 -1", 11, 2), (b"-3 -1", 11, 1)]
        for values, number, place in cases:
            self.assertEqual(Host().offer(b"1 3", values), ("refused", number, place), values)
        self.assertEqual(Host().offer(b"1 2", b"2 -2"), ("refused", 10, 2))
        for names, number, place in (b"-1", 8, 0), (b"1 -3", 8, 2), (b"-0", 7, 0):
            self.assertEqual(Host().offer(names, b"-1"), ("refused", number, place), names)

    def test_single_clause(self):
        """A row that moves one variable: a clause, written with both its literals, and no auxiliary."""
        host = Host(b"p cnf 2 0")
        self.assertEqual((host.offer(b"1", b"-1"), ref.made_text(*host.store)), (("done",), b"p cnf 2 1\n-1 -1 0\n"))
        self.assertEqual((host.offer(b"1 2", b"1 -2"), ref.made_text(*host.store)), (("done",), b"p cnf 2 2\n-1 -1 0\n-2 -2 0\n"))
        self.assertEqual((fill_in(host, "10")[1], descend(host, "11")), (words("10"), (("done", "settled", 2), "00")))
        for a, answer in ("00", 0), ("10", 1), ("01", 2), ("11", 1):
            self.assertEqual(ref.check(*host.store, words(a)), ("done", answer), a)
        for _ in range(62):
            self.assertEqual(host.offer(b"1", b"-1"), ("done",))
        self.assertEqual((host.offer(b"1", b"-1"), ref.made_counts(host.record, host.images)), (("refused", 22, 0), (2, 64)))
        lent = Host(b"p cnf 1 1\n1 0").with_rows((-1,))
        self.assertEqual([ref.check(*lent.store, words(a)) for a in "01"], [("done", 1), ("done", 2)])

    def test_made(self):
        """Auxiliaries are numbered on past the single clause's row."""
        self.assertEqual(ref.program(SQUARE + b"%\n1 2\n-1 2\n-2 1\n"),
                         SQUARE.replace(b"3 4", b"4 11") + b"-1 -1 0\n-1 -2 0\n-4 -1 -2 0\n-4 1 2 0\n4 1 -2 0\n4 -1 2 0\n-4 -2 1 0\n")
        self.assertEqual(ref.program(b"p cnf 3 0\n%\n1 2 3\n3 -2 1\n"),
                         b"p cnf 4 6\n-1 3 0\n-4 -1 3 0\n-4 1 -3 0\n4 1 3 0\n4 -1 -3 0\n-4 -2 -2 0\n")
        self.assertEqual(ref.program(b"p cnf 3 0\n%\n1 2 3\n3 -2 -1\n"),
                         b"p cnf 5 12\n-1 3 0\n-4 -1 3 0\n-4 1 -3 0\n4 1 3 0\n4 -1 -3 0\n-4 -2 -2 0\n"
                         b"-5 4 0\n-5 -2 -2 0\n-5 2 2 0\n5 -4 2 -2 0\n5 -4 -2 2 0\n-5 -3 -1 0\n")

    def test_assignments(self):
        """Each A with what it fills in as, the first clause that is false then, the moves of its descent and its end."""
        cases = {(-2, 1): [("00", "0", 0, 0, "00"), ("01", "1", 6, 1, "00"), ("10", "1", 0, 0, "10"), ("11", "0", 1, 2, "00")],
                 (3, -2, 1): [("000", "1", 0, 0, "000"), ("001", "0", 0, 0, "001"), ("010", "1", 6, 1, "000"), ("011", "0", 0, 0, "011"),
                              ("100", "0", 1, 1, "011"), ("101", "1", 0, 0, "101"), ("110", "0", 1, 1, "001"), ("111", "1", 6, 1, "101")]}
        for row, table in cases.items():
            host = Host(b"p cnf %d 0" % len(row)).with_rows(row)
            for a, setting, false, moves, end in table:
                self.assertEqual(fill_in(host, a), (("done", 1), words(a + setting)))
                self.assertEqual(ref.check(*host.store, words(a + setting)), ("done", false), a)
                self.assertEqual(descend(host, a), (("done", "settled", moves), end))
        turned = Host(b"p cnf 2 0").with_rows((-2, 1))
        self.assertEqual((descend(turned, "11", 0), descend(turned, "11", 1)), ((("done", "spent", 0), "11"), (("done", "spent", 1), "01")))
        for full, answer in ("001", 3), ("010", 4), ("100", 5), ("111", 1):
            self.assertEqual(ref.check(*turned.store, words(full)), ("done", answer), full)

    def test_lent(self):
        """Odd codes are negative values."""
        for images, row in ([6, 4, 3], (3, 2, -1)), ([7, 5, 3], (-3, -2, -1)), ([2, 5, 6], (1, -2, 3)):
            store = ref.Record(3, 2, 1, True), [2, 4, 4, 6], [2, 4], LISTING_KEYS, images
            self.assertEqual((ref.badly_formed(*store), ref.rows_of(store[0], images)), (False, [dict(enumerate(row, 1))]))
        # x are 1 and 3, an odd cycle; then 1 and 2, of which only the first is in an even one; then 2
        self.assertEqual(ref.made_counts(ref.Record(3, 2, 3, True), [6, 4, 3, 7, 5, 3, 2, 5, 6]), (3 + 1 + 1, 2 + 6 + 6 + 1))


EXCHANGED, NEGATED = (b"1 2", b"2 1"), (b"2", b"-2")

# Clauses over three variables, two lines, and the place of 11, or 0: by the former rule, then by CR 7.
ALWAYS_TRUE = [
    ("such a clause alone", b"1 -1 3 0", EXCHANGED, 1, 0),
    ("the pair alone", b"1 -1 0", EXCHANGED, 1, 0),
    ("first", b"2 -2 3 0 1 0 2 0", EXCHANGED, 1, 0),
    ("in the middle", b"1 0 2 -2 3 0 2 0", EXCHANGED, 2, 0),
    ("last", b"1 0 2 0 2 -2 3 0", EXCHANGED, 3, 0),
    ("first, in the middle and last", b"1 -1 0 1 0 3 -3 2 0 2 0 1 -1 3 0", EXCHANGED, 1, 0),
    ("the negative literal first", b"-1 1 3 0", EXCHANGED, 1, 0),
    ("the pair at both ends", b"1 2 3 -1 0", EXCHANGED, 1, 0),
    ("the pair last", b"3 -2 1 -1 0", EXCHANGED, 1, 0),
    ("the pair apart and not first", b"3 1 -2 -1 0", EXCHANGED, 1, 0),
    ("a pair and repeats", b"1 -1 1 0", EXCHANGED, 1, 0),
    ("repeats before a pair", b"1 1 1 3 -1 -1 0", EXCHANGED, 1, 0),
    ("two pairs", b"1 3 -1 -3 0", EXCHANGED, 1, 0),
    ("a pair that stays beside a literal that moves", b"3 1 -3 0", EXCHANGED, 1, 0),
    ("moved onto itself", b"3 -3 0 1 2 -1 -2 0", EXCHANGED, 0, 0),
    ("moved onto another", b"1 -1 3 0 3 2 -2 0", EXCHANGED, 0, 0),
    ("moved onto another, which is moved onto none", b"1 -1 0 2 -2 0 2 -2 3 0", EXCHANGED, 3, 0),
    ("a clause without a pair after two with one", b"1 -1 0 3 -3 2 0 1 3 0 2 0", EXCHANGED, 1, 3),
    ("between two with one", b"1 -1 0 1 3 0 3 -3 2 0", EXCHANGED, 1, 2),
    ("before one with one", b"1 3 0 1 -1 0", EXCHANGED, 1, 1),
    ("after equal sets and one with a pair", b"1 0 2 2 0 1 -1 0 -1 0 -1 0", EXCHANGED, 3, 4),
    ("after one with a pair that is moved onto itself", b"3 -3 0 1 0", EXCHANGED, 2, 2),
    ("its image is there but for a pair", b"2 1 -1 0 2 3 -3 0 1 0", EXCHANGED, 1, 3),
    ("it holds all but the negation of another", b"1 -1 2 0 1 2 0 1 0", EXCHANGED, 1, 3),
    ("repeats without a pair", b"1 1 0", EXCHANGED, 1, 1),
    ("a repeat without a pair after a clause with one", b"1 -1 0 3 1 3 0", EXCHANGED, 1, 2),
    ("the same size in two clauses", b"1 0 -1 0", EXCHANGED, 1, 1),
    ("the empty clause alone", b"0", EXCHANGED, 0, 0),
    ("the empty clause before a clause with a pair", b"0 1 -1 0", EXCHANGED, 2, 0),
    ("the empty clause after one, then one without", b"1 -1 0 0 1 0", EXCHANGED, 1, 3),
    ("a pair beside a literal that is negated", b"1 -1 2 0", NEGATED, 1, 0),
    ("a pair that is negated", b"2 -2 1 0", NEGATED, 0, 0),
    ("a pair and a symmetry that turns a sign", b"1 2 0 3 2 -3 0 -2 1 0", NEGATED, 2, 0),
    ("a missing negation after a clause with a pair", b"3 2 -3 0 -2 1 0", NEGATED, 1, 2),
    ("a clause with a pair is no image of one without", b"2 1 0 1 2 -2 0", NEGATED, 1, 1),
]

# The sixteen clauses over two variables, as sets of the four literals, and the eight rows.
FOUR = (1, -1, 2, -2)
SIXTEEN = [tuple(c) for size in range(5) for c in itertools.combinations(FOUR, size)]


def bit(holds, at):
    return 1 << at if holds else 0


def united(parts):
    """The union of what each bit of a number of sixteen bits stands for, as a table for all of these numbers."""
    table = [0]
    for part in parts:
        table += [part | rest for rest in table]
    return table


class AlwaysTrue(unittest.TestCase):
    """CR 7 and readings C8, C9, C10 and O4."""

    def test_cases(self):
        for name, body, lines, former, place in ALWAYS_TRUE:
            with self.subTest(name):
                host = Host(b"p cnf 3 %d\n" % body.split().count(b"0") + body)
                clauses, row = ref.plain_clauses(*host.store[:3]), ref.stated_row(3, *(list(map(int, line.split())) for line in lines))
                self.assertEqual((former_rule(clauses, row), host.answer[0]), (former, "done"))
                self.assertEqual(host.offer(*lines), ("refused", 11, place) if place else ("done",))
                self.assertEqual((host.record.rows, ref.plain_clauses(*host.store[:3])), (int(not place), clauses))

    def test_like(self):
        """The request's clause: 5 and 6 are alike, and so are 1 to 4."""
        text = b"p cnf 8 5\n5 -5 8 0\n5 1 2 3 4 0\n1 -1 7 0\n6 1 2 3 4 0\n8 3 -3 0\n"
        for names, values in (b"5 6", b"6 5"), (b"1 2 3 4", b"2 3 4 1"), (b"1 4", b"4 1"), (b"7 8", b"-8 7"), (b"8", b"-8"):
            host = Host(text)
            row = ref.stated_row(8, *(list(map(int, line.split())) for line in (names, values)))
            self.assertNotEqual(former_rule(ref.plain_clauses(*host.store[:3]), row), 0)
            self.assertEqual((host.offer(names, values), ref.made_text(*host.store).split(b"\n", 1)[1][:len(text) - 10]), (("done",), text[10:]))
        for names, values, place in (b"1 5", b"5 1", 4), (b"4 7", b"7 4", 2), (b"5", b"-5", 2), (b"6", b"-6", 4):
            self.assertEqual(Host(text).offer(names, values), ("refused", 11, place))

    def test_only_such(self):
        """A formula of clauses with a pair alone has every row as a symmetry; only the identity is turned back."""
        for n in 1, 2, 3:
            clauses = [c for c in [(1, -1), (1, -1, 1), (-2, 1, 2), (3, 1, 2, -3)] if max(map(abs, c)) <= n]
            host = Host(b"p cnf %d %d\n" % (n, len(clauses)) + b"".join(map(ref.clause_line, clauses)))
            for row in signed_rows(n):
                host.record = host.record._replace(rows=0)
                idle = row == tuple(range(1, n + 1))
                answer = host.offer(*(b" ".join(b"%d" % i for i in line) for line in (range(1, n + 1), row)))
                self.assertEqual(answer, ("refused", 31, 0) if idle else ("done",), row)
                self.assertEqual(ref.rows_of(host.record, host.images), [] if idle else [dict(enumerate(row, 1))])

    def test_written(self):
        """Such clauses are written out as they were read, and counted."""
        for count, clauses in (3, b"1 2 0\n1 -1 2 0\n2 3 0\n"), (5, b"3 -3 3 0\n1 2 0\n-1 -1 1 2 0\n2 3 0\n-2 1 2 0\n"):
            self.assertEqual(ref.program(b"p cnf 3 %d\n%b%%\n1 3\n3 1\n" % (count, clauses)), b"p cnf 3 %d\n%b-1 3 0\n" % (count + 1, clauses))
        self.assertEqual(ref.program(b"p cnf 2 1\n2 -2 0\n%\n1\n-1\n"), b"p cnf 2 2\n2 -2 0\n-1 -1 0\n")
        self.assertEqual(ref.program(b"p cnf 3 2\n1 -1 0\n1 3 0\n%\n1 2\n2 1\n"), b"refused 11 2\n")

    def test_checked(self):
        """The checking call counts such clauses, and says of none that it is false."""
        host = Host(b"p cnf 3 4\n1 -1 0\n2 3 0\n-2 3 2 0\n1 3 0\n")
        self.assertEqual(host.offer(b"1 2", b"2 1"), ("done",))
        self.assertEqual(ref.made_counts(host.record, host.images), (3, 5))
        for a, answer in ("000", 2), ("001", 0), ("010", 4), ("011", 0), ("100", 2), ("101", 5), ("110", 0), ("111", 0):
            self.assertEqual(ref.check(*host.store, words(a)), ("done", answer), a)
        self.assertEqual(fill_in(host, "011"), (("done", 1), words("011")))
        self.assertEqual(descend(host, "101"), (("done", "settled", 1), "011"))

    def test_keys(self):
        """Such a clause has a key, and where it is wrong the store is badly formed."""
        host = Host(b"p cnf 3 3\n1 -1 2 0\n1 2 0\n-2 2 -2 0", keys=4)
        keys = [NUMBERS[1] + NUMBERS[-1] + NUMBERS[2], NUMBERS[1] + NUMBERS[2], NUMBERS[2] + NUMBERS[-2]]
        self.assertEqual(host.keys, [*keys, 6])
        for at, wrong in (0, 0), (0, keys[0] ^ 1), (0, NUMBERS[2]), (0, keys[1]), (2, 0), (2, keys[2] + NUMBERS[-2]), (2, keys[0]):
            host.keys = [wrong if place == at else key for place, key in enumerate(keys)]
            self.assertEqual((host.offer(b"1 2", b"2 1"), host.withdraw()), (("refused", 21, 0),) * 2)
        host.keys = keys
        self.assertEqual(host.offer(b"1 2", b"2 1"), ("done",))

    def test_every_formula_of_two_variables(self):
        """All 65,536 formulas, as numbers with a bit for each clause, by all 8 rows: which are symmetries, before too, and that models are moved to models."""
        numbers = {frozenset(c): at for at, c in enumerate(SIXTEEN)}
        assignments = [{1: one, 2: two} for one in (False, True) for two in (False, True)]
        false = united([sum(bit(not ref.true_clause(c, a), at) for at, a in enumerate(assignments)) for c in SIXTEEN])
        judged = sum(bit(not ref.contradictory(c), at) for at, c in enumerate(SIXTEEN))
        former = now = 0
        for p in signed_rows(2):
            row = dict(enumerate(p, 1))
            images = united([1 << numbers[ref.image(frozenset(c), row)] for c in SIXTEEN])
            moved = united([1 << assignments.index(ref.moved(row, a)) for a in assignments])
            before = {f for f in range(1 << 16) if images[f] == f}
            kept = [f for f in range(1 << 16) if images[f & judged] == f & judged]
            former, now = former + len(before), now + len(kept)
            self.assertLessEqual(before, set(kept))
            self.assertTrue(all(moved[15 & ~false[f]] == 15 & ~false[f] for f in kept))
        self.assertEqual((bin(judged).count("1"), former, now), (9, 76928, 104448))

    def test_every_small_formula_of_two_variables(self):
        """The rule as the reference has it, on all formulas of up to three clauses in any order, repeats included, by all 8 rows: the place is by the test's
        own rule."""
        seen = Counter()
        for clauses in itertools.chain.from_iterable(itertools.product(SIXTEEN, repeat=size) for size in range(4)):
            for p in signed_rows(2):
                row = dict(enumerate(p, 1))
                place = place_of_11(clauses, row)
                try:
                    ref.require_symmetry(clauses, row)
                    self.assertEqual(place, 0, (clauses, p))
                except ref.Refusal as refusal:
                    self.assertEqual(refusal.answer, ("refused", 11, place), (clauses, p))
                seen[former_rule(clauses, row), place] += 1
        self.assertEqual({(former, place) for former, place in seen if place == 0 or place != former}, {(0, 0), (1, 0), (2, 0), (3, 0), (1, 2), (1, 3), (2, 3)})


# Two lines offered to the listing's formula, and the number and place of the refusal, if there is one.
IDLE = [
    ("one name", b"2", b"2", 31, 0),
    ("two names", b"1 3", b"1 3", 31, 0),
    ("in falling order", b"3 1", b"3 1", 31, 0),
    ("no symmetry if exchanged", b"1 2", b"1 2", 31, 0),
    ("all names", b"1 2 3", b"1 2 3", 31, 0),
    ("all names in another order", b"2 3 1", b"2 3 1", 31, 0),
    ("blanks", b" 1\t3", b"\t1   3 \t", 31, 0),
    ("line feeds, which are blanks", b"1\n3", b"\n1 3\n", 31, 0),
    ("the same values in another order", b"1 3", b"3 1"),
    ("one of three equal", b"1 2 3", b"3 2 1"),
    ("the same, equal first", b"2 3 1", b"2 1 3"),
    ("one of three equal, no symmetry", b"1 2 3", b"1 3 2", 11, 1),
    ("a negated value", b"1", b"-1", 11, 1),
    ("all negated", b"1 2 3", b"-1 -2 -3", 11, 1),
    ("the last of three negated", b"1 2 3", b"1 2 -3", 11, 2),
    ("a letter for a name", b"1 x", b"1 x", 7, 2),
    ("a leading zero", b"01", b"01", 7, 0),
    ("beyond n", b"1 4", b"1 4", 8, 2),
    ("zero", b"0", b"0", 8, 0),
    ("a negative name", b"-1", b"-1", 8, 0),
    ("a name twice", b"1 1", b"1 1", 8, 2),
    ("no name", b"", b"", 8, 0),
    ("a letter after an equal value", b"1 2", b"1 x", 9, 2),
    ("a letter after all values", b"1 2", b"1 2 x", 9, 4),
    ("a plus", b"1 2", b"1 +2", 9, 2),
    ("a leading zero as a value", b"1 2", b"01 2", 9, 0),
    ("no value", b"1 2", b" ", 10, 1),
    ("a value too few", b"1 2", b"1", 10, 1),
    ("a value twice", b"1 2", b"1 1", 10, 2),
    ("a value that is no name", b"1 2", b"1 3", 10, 2),
    ("a value more", b"1 2", b"1 2 2", 10, 4),
    ("a value more, negated", b"1 2", b"1 2 -1", 10, 4),
    ("a value more that is no name", b"1 2", b"1 2 3", 10, 4),
]


class Idle(unittest.TestCase):
    """CR 8 and readings C11 to C14, D9 and O1."""

    def test_cases(self):
        for name, names, values, *refusal in IDLE:
            with self.subTest(name):
                host = Host()
                before = host.store
                self.assertEqual(host.offer(names, values), ("refused", *refusal) if refusal else ("done",))
                self.assertEqual(host.store == before, bool(refusal))

    def test_order(self):
        """20, 21, 22, 8 and 10 go before 31, and 31 before 23, with every choice of reasons; 11 goes before 23 as well."""
        for closed, damaged, full, misnamed, misvalued, short in itertools.product((False, True), repeat=6):
            held = 64 if full else 1
            host = Host().with_rows(*[(3, 2, 1)] * held)
            host.record, host.images = host.record._replace(open=not closed), host.images[:3 * held + (2 if short else 3)]
            host.literals[3] = 8 if damaged else 6
            first = [refusal for refusal, holds in zip([(20, 0), (21, 0), (22, 0), (8, 4), (10, 4)], [closed, damaged, full, misnamed, misvalued]) if holds]
            for names, values, last in (b"1 3", b"1 3", (31, 0)), (b"1 3", b"3 1", (23, 6)), (b"1 2", b"2 1", (11, 2)):
                lines = names + b" 4" * misnamed, values + b" 1" * misvalued
                refusal = (first + [last])[0]
                accepted = refusal == (23, 6) and not short
                after = copy.copy(host)
                self.assertEqual((after.offer(*lines), after.record.rows), (("done",) if accepted else ("refused", *refusal), held + accepted))

    def test_every_line(self):
        """Every names line of three variables with every value line, where there are no clauses: 31 exactly where the row that they state moves nothing."""
        seen = Counter()
        for size in 1, 2, 3:
            for names in itertools.permutations((1, 2, 3), size):
                for values in (tuple(names[abs(place) - 1] * (1 if place > 0 else -1) for place in row) for row in signed_rows(size)):
                    answer = Host(b"p cnf 3 0").offer(*(b" ".join(b"%d" % i for i in line) for line in (names, values)))
                    moving = ref.moved_variables(ref.stated_row(3, names, values)) != []
                    self.assertEqual(answer, ("done",) if moving else ("refused", 31, 0), (names, values))
                    seen[size, moving] += 1
        self.assertEqual(seen, {(1, True): 3, (1, False): 3, (2, True): 42, (2, False): 6, (3, True): 282, (3, False): 6})

    def test_largest(self):
        """512 names and as many equal values, one more, one too few; the last one negated, the last two exchanged."""
        host, names = Host(b"p cnf 512 0", images=512), b" ".join(b"%d" % i for i in range(1, 513))
        for values, answer in ((names, ("refused", 31, 0)), (names + b" 512", ("refused", 10, len(names) + 1)), (names[:-4], ("refused", 10, len(names) - 4)),
                               (names.replace(b"511 512", b"511 -512"), ("done",))):
            self.assertEqual(host.offer(names, values), answer)
        host.record = host.record._replace(rows=0)
        self.assertEqual((host.offer(names, names.replace(b"511 512", b"512 511")), host.offer(names, names)), (("done",), ("refused", 31, 0)))

    def test_lent(self):
        """Identities in a lent store are well formed, add nothing and lower nothing; offers and withdrawals go on beside them."""
        still, swap, turn, all_ = (1, 2, 3), (3, 2, 1), (2, 3, 1), [format(a, "03b") for a in range(8)]
        for rows in [still], [still, swap], [swap, still], [still, turn], [still, swap, still, still, turn], [turn, still, swap, still, turn]:
            host, without = Host().with_rows(*rows), Host().with_rows(*(row for row in rows if row != still))
            self.assertEqual((ref.badly_formed(*host.store), ref.made_text(*host.store)), (False, ref.made_text(*without.store)))
            for a in all_:
                filled = fill_in(host, a)
                self.assertEqual((filled, descend(host, a)), (fill_in(without, a), descend(without, a)))
                self.assertEqual(ref.check(*host.store, filled[1]), ref.check(*without.store, filled[1]))
            self.assertEqual((host.offer(b"1 3", b"1 3"), host.offer(b"1 3", b"3 1"), host.record.rows), (("refused", 31, 0), ("done",), len(rows) + 1))
            self.assertEqual([host.withdraw() for _ in range(len(rows) + 2)], [("done",)] * (len(rows) + 1) + [("refused", 30, 0)])

    def test_64(self):
        """Identities count towards 64."""
        for identities in 1, 32, 63, 64:
            host = Host().with_rows(*[(3, 2, 1)] * (64 - identities), *[(1, 2, 3)] * identities)
            for values in b"3 1", b"1 3", b"x":
                self.assertEqual(host.offer(b"1 3", values), ("refused", 22, 0))
            self.assertEqual((host.withdraw(), host.offer(b"1 3", b"1 3"), host.offer(b"1 3", b"3 1")), (("done",), ("refused", 31, 0), ("done",)))
            self.assertEqual((host.record.rows, ref.made_counts(host.record, host.images)), (64, (3, 2 + 65 - identities)))


class StoreReadings(unittest.TestCase):
    """Readings D: 20 and 21 in every call that needs an open store, entries past those in use not looked at."""

    def answers(self, *store):
        lent = [5] * 600
        return [call(ref.offer, *store, b"x", b"", written=(0, 4))[0], call(ref.withdraw, *store, written=(0,))[0],
                call(ref.header, *store, [], written=(5,))[0], call(ref.clause, *store, 0, [], written=(6,))[0],
                call(ref.fill_in, *store, lent, [], written=(6,))[0], ref.check(*store, lent), call(ref.descend, *store, lent, 0, written=(5,))[0]]

    def test_refusals(self):
        good = ref.Record(3, 2, 1, True), [2, 4, 4, 6, 0], [2, 4, 0], [*LISTING_KEYS, 0], [6, 4, 2, 1]
        self.assertEqual([a[1:2] for a in self.answers(*good)], [(7,), (), (23,), (13,), (12,), (12,), (12,)])
        self.assertEqual(ref.figures(*good)[0], "done")
        variants = [(0, good[0]._replace(variables=513)), (0, good[0]._replace(variables=TOP)),
                    (0, good[0]._replace(clauses=4097)), (0, good[0]._replace(clauses=TOP)),
                    (0, good[0]._replace(rows=65)), (0, good[0]._replace(rows=TOP)), (0, good[0]._replace(clauses=3)),
                    (0, good[0]._replace(rows=2)), (0, good[0]._replace(variables=2)), (1, [2, 4, 4]), (2, [2]),
                    (2, [3, 2]), (2, [2, 5]), (2, [65535, 4]), (4, [6, 4]), (4, [6, 4, 7]), (4, [6, 6, 2]), (4, [3, 2, 6]),
                    (4, [0, 4, 2]), (4, [1, 4, 2]), (4, [6, 4, 8]), (4, [6, 4, 9]), (1, [0, 4, 4, 6]), (1, [1, 4, 4, 6]),
                    (1, [8, 4, 4, 6]), (1, [9, 4, 4, 6]), (3, []), (3, LISTING_KEYS[:1]), (3, LISTING_KEYS[::-1]), (3, [LISTING_KEYS[0], 0])]
        for index, bad in variants:
            store = [bad if place == index else part for place, part in enumerate(good)]
            self.assertEqual(self.answers(*store), [("refused", 21, 0)] * 7, (index, bad))
            self.assertEqual(ref.figures(*store), ("refused", 21, 0), (index, bad))
            store[0] = store[0]._replace(open=False)
            self.assertEqual(self.answers(*store), [("refused", 20, 0)] * 7)
            self.assertEqual(ref.figures(*store), ("refused", 20, 0))
        self.assertEqual(self.answers(ref.new_record(), [], [], [], []), [("refused", 20, 0)] * 7)
        self.assertEqual(ref.figures(ref.new_record(), [], [], [], []), ("refused", 20, 0))

    def test_literal_count(self):
        for count, refused in (12288, False), (12289, True):
            self.assertEqual(ref.badly_formed(ref.Record(1, 1, 0, True), [2] * count, [count], [NUMBERS[1]], []), refused)

    def test_no_variables(self):
        store = ref.Record(0, 1, 64, True), [], [0], [0], []
        self.assertEqual(ref.made_text(*store), b"p cnf 0 1\n0\n")
        self.assertEqual(ref.check(*store, []), ("done", 1))
        self.assertEqual(ref.descend(*store, [], 0), (("done", "settled", 0), []))
        self.assertEqual(ref.fill_in(*store, [], [5]), (("done", 0), [5]))


class WritingAndAssignments(unittest.TestCase):
    """Readings E and F, and the figures at the limits."""

    def test_calls_write_the_text(self):
        host = Host(b"p cnf 4 4\n3 1 1 0 0 -2 2 0 2 4 0").with_rows((3, 4, 1, 2), (1, 2, 3, 4), (2, 3, 4, 1))
        lines = ref.made_text(*host.store).splitlines(keepends=True)
        # two exchanges leave 1 and 2, with the auxiliary 5; the turn of four leaves 1, 2 and 3, with 6 and 7
        self.assertEqual(lines[:6], [b"p cnf 7 22\n", b"3 1 1 0\n", b"0\n", b"-2 2 0\n", b"2 4 0\n", b"-1 3 0\n"])
        self.assertEqual(lines[6:11], [b"-5 -1 3 0\n", b"-5 1 -3 0\n", b"5 1 3 0\n", b"5 -1 -3 0\n", b"-5 -2 4 0\n"])
        self.assertEqual(lines[11:17], [b"-1 2 0\n", b"-6 -1 2 0\n", b"-6 1 -2 0\n", b"6 1 2 0\n", b"6 -1 -2 0\n", b"-6 -2 3 0\n"])
        self.assertEqual(lines[17:], [b"-7 6 0\n", b"-7 -2 3 0\n", b"-7 2 -3 0\n", b"7 -6 2 3 0\n", b"7 -6 -2 -3 0\n", b"-7 -3 4 0\n"])
        for q, line in enumerate(lines):
            for room in len(line) - 1, len(line), len(line) + 2:
                out, tail = bytearray(b"#" * room), (q,) if q else ()
                answer, after = call(ref.clause if q else ref.header, *host.store, *tail, out, written=(5 + len(tail),))
                enough = room >= len(line)
                self.assertEqual(answer, ("done", len(line)) if enough else ("refused", 23, len(line)))
                self.assertEqual(after, line + b"#" * (room - len(line)) if enough else out)
        for q in 0, 23, TOP:
            self.assertEqual(ref.clause(*host.store, q, [])[0], ("refused", 13, 0))

    def test_comparison(self):
        self.assertEqual(ref.compare([], []), ("done", 0))
        self.assertEqual(ref.compare([5, TOP], [5, TOP - 1]), ("done", 128))
        self.assertEqual(ref.compare([0] * 519, [0] * 518 + [1]), ("done", 33216))
        for a, b in ([0] * 520, [0] * 520), ([0], []):
            self.assertEqual(ref.compare(a, b), ("refused", 12, 0))
        for a, b, which in ([], [], "first"), ([1], [1], "first"), ([1], [2], "first"), ([3], [2], "second"), \
                ([], [1], "empty"), ([1] * 600, [1] * 599 + [0], "second"), ([0] * 600, [0], "empty"):
            self.assertEqual(ref.lesser(a, b), which)

    def test_descent_starts_again_at_the_first_row(self):
        host = Host(b"p cnf 4 0").with_rows((1, 2, 4, 3), (2, 3, 1, 4))
        self.assertEqual(descend(host, "1100"), (("done", "settled", 3), "0011"))
        self.assertEqual(descend(host, "1100", 2)[0], ("done", "spent", 2))
        self.assertEqual(descend(host, "1100", 3)[0], ("done", "settled", 3))
        host = Host(b"p cnf 4 0").with_rows((1, 3, 4, 2), (3, 1, 2, 4))
        self.assertEqual(descend(host, "1110"), (("done", "settled", 2), "1011"))

    def test_form_of_assignments(self):
        host = Host().with_rows((3, 2, 1))
        for a in [], [0, 0], [1], [1 << 60]:
            self.assertEqual(ref.descend(*host.store, a, 0), (("refused", 12, 0), a))
            self.assertEqual(ref.fill_in(*host.store, a, []), (("refused", 12, 0), []))
        self.assertEqual(ref.check(*host.store, [1 << 60]), ("refused", 12, 0))
        for a, answer in ("000", 1), ("001", 1), ("010", 0), ("011", 0), ("100", 2), ("101", 0), ("110", 3), ("111", 0):
            self.assertEqual(ref.check(*host.store, words(a)), ("done", answer), a)
        turned = Host().with_rows((2, 3, 1))  # with the auxiliary 4: 1 and 2 agree
        self.assertEqual(ref.check(*turned.store, [1 << 59]), ("refused", 12, 0))
        for full, answer in ("0110", 0), ("0010", 1), ("0111", 5), ("1010", 3), ("1111", 0), ("1110", 7), ("1101", 8):
            self.assertEqual(ref.check(*turned.store, words(full)), ("done", answer), full)

    def test_limits(self):
        """64 rows, each one cycle of all variables that turns the sign once: none is left out, and N and M are as large as they can be."""
        n = 512
        text = b"p cnf 512 4096\n" + b"".join(b"%d %d %d 0\n" % (i, -i, i) for i in range(1, n + 1)) * 8
        host = Host(text, 12288, 4096, 4096, 64 * n)
        names = b" ".join(b"%d" % i for i in range(1, n + 1))
        for by in range(1, 128, 2):
            self.assertEqual(host.offer(names, b" ".join(b"%d" % value for value in shifted(n, by, (n,)))), ("done",))
        self.assertEqual(call(ref.header, *host.store, [0] * 19, written=(5,))[1], list(b"p cnf 33216 200320\n"))
        self.assertEqual(sum(1 for _ in ref.made_formula(*host.store)), 200320)
        answer, line = call(ref.clause, *host.store, 200320, [0] * 20, written=(6,))
        self.assertEqual((answer, bytes(line)), (("done", 19), b"-33216 -512 -127 0\n\0"))
        for a, false in ("0" * n, 0), ("1" * n, 4096 + 6 * 511), ("0" * 256 + "1" * 256, 0):
            answer, out = fill_in(host, a, 519)
            self.assertEqual((answer, ref.check(*host.store, out)), (("done", 519), ("done", false)))
        self.assertEqual(descend(host, "1" + "0" * 511), (("done", "settled", 1), "0" * n))

    def test_even_limits(self):
        """64 rows that send i to i + 1, to i + 2, .., to i + 64. Each has as many cycles as the largest power of two that divides the number, all even, and k
        is so many less than 512. The powers add up to 6 times 32, and 64, which is 256."""
        n = 512
        host = Host(b"p cnf 512 0").with_rows(*(shifted(n, by) for by in range(1, 65)))
        self.assertEqual(ref.made_counts(host.record, host.images), (33216 - 256, 6 * (64 * 511 - 256)))
        self.assertEqual(sum(1 for _ in ref.made_formula(*host.store)), 194688)
        # the last row's x are 1 .. 448, and its last clause is about 448 and 512, which is left out
        self.assertEqual(bytes(call(ref.clause, *host.store, 194688, [0] * 20, written=(6,))[1]), b"-32960 -448 512 0\n\0\0")
        for a, false in ("0" * 256 + "1" * 256, 0), ("1" * 511 + "0", 6 * 510):
            answer, out = fill_in(host, a, 516)
            self.assertEqual((answer, out[515], ref.check(*host.store, out[:515])), (("done", 515), TOP, ("done", false)))
        self.assertEqual(descend(host, "1" + "0" * 511), (("done", "settled", 1), "0" * 511 + "1"))


class ProgramReadings(unittest.TestCase):
    """Readings H."""

    def test_runs(self):
        plain = LISTING
        cases = {
            b"": b"15 0", LISTING: b"15 0", LISTING + b"% \n": b"15 0", LISTING + b" %\n": b"15 0", b"%%": b"15 0",
            LISTING + b"%\r\n": b"15 0", b"%": b"1 0", b"c\n%\n": b"1 2", b"p cnf 3 1\n1\n%": b"6 12",
            LISTING + b"%\n1 3\n%\n": b"9 0", LISTING + b"%\n%\n1": b"7 0", LISTING + b"%\n\n1\n": b"8 0",
            LISTING + b"%\n1 3\n3 1\n\n": b"10 0", LISTING + b"%\n1 3\n\n": b"10 0", LISTING + b"%\n1 2\n2 1": b"11 2",
            LISTING + b"%\n1 3\n" + b"3 1\n" * 65: b"22 0", LISTING + b"%\n1 3\n3 1\n3 3\n": b"10 2",
            LISTING + b"%\n1 3\n1 3": b"31 0", LISTING + b"%\n3 1\n1 3\n3 1\n1 3\n": b"31 0", LISTING + b"%\n2 1\n2 1\n1 2\n": b"31 0",
            LISTING + b"%\n1 2\n2 1\n1 2\n": b"11 2", LISTING + b"%\n1 3\n1\n1 3\n": b"10 1",
            LISTING + b"%\n1 3\n" + b"3 1\n" * 63 + b"1 3\n": b"31 0", LISTING + b"%\n1 3\n" + b"3 1\n" * 64 + b"1 3\n": b"22 0",
            LISTING + b"%\n" + b"x" * 65536: b"15 0"}
        for data, refusal in cases.items():
            self.assertEqual(ref.program(data), b"refused " + refusal + b"\n", data[:40])
        room = 65536 - len(plain) - 2
        for tail in b"%", b"%\n", b"%\nrubbish", b"%\nrubbish\n", b"%\n\n", b"%\n" + b"x" * room:
            self.assertEqual(ref.program(LISTING + tail), plain)
        self.assertEqual(ref.program(b"c\np cnf 2 2\n0 2\n 2 -1 0\n%\n2\n"), b"p cnf 2 2\n0\n2 2 -1 0\n")


def models(formula, a, free):
    """All extensions of `a` by the variables `free` that make every clause true, by plain branching."""
    left = [c for c in formula if not any(abs(l) in a and a[abs(l)] == (l > 0) for l in c)]
    if any(all(abs(l) in a for l in c) for c in left):
        return
    if not free:
        yield dict(a)
        return
    for value in False, True:
        yield from models(left, {**a, free[0]: value}, free[1:])


def small_rows():
    """All rows of up to four variables, signed or not, and those of five without signs: a count of variables and its rows."""
    return [(n, list(signed_rows(n))) for n in range(1, 5)] + [(5, list(itertools.permutations(range(1, 6))))]


def signed_rows(n):
    """All permutations of 1..n, with all choices of signs."""
    for sizes in itertools.permutations(range(1, n + 1)):
        for signs in itertools.product((1, -1), repeat=n):
            yield tuple(map(operator.mul, sizes, signs))


def shifted(n, by, negated=()):
    """The row that sends i to i + by, from n on to 1; negated are the values of these."""
    return tuple(((i - 1 + by) % n + 1) * (-1 if i in negated else 1) for i in range(1, n + 1))


def random_row(rng, n):
    """A permutation of 1..n, half the time with signs, at times with signs alone."""
    sizes = rng.sample(range(1, n + 1), n) if rng.random() < .8 else range(1, n + 1)
    signs = rng.choice(((1,), (1, -1)))
    return {i: rng.choice(signs) * size for i, size in enumerate(sizes, 1)}


def applied(row, literal):
    """p of a literal: p(-i) is -p(i)."""
    return row[literal] if literal > 0 else -row[-literal]


def carried(row, a):
    """A moved by p."""
    return {i: a[abs(row[i])] ^ (row[i] < 0) for i in a}


def former_rule(clauses, row):
    """Before CR 7: 0 where the set of images equals the set of clauses, else the number of the first clause whose image is missing."""
    sets, images = [frozenset(c) for c in clauses], [frozenset(applied(row, l) for l in c) for c in clauses]
    return 0 if set(images) == set(sets) else next(q for q, each in enumerate(images, 1) if each not in sets)


def place_of_11(clauses, row):
    """CR 7: the number of the first clause without a pair whose image is missing, or 0; images are looked for among all clauses."""
    without = [len(set(map(abs, c))) == len(set(c)) for c in clauses]
    sets = {tuple(sorted(set(c))) for c in clauses}
    return next((q for q, c in enumerate(clauses, 1) if without[q - 1] and tuple(sorted({applied(row, l) for l in c})) not in sets), 0)


def random_formula(rng, n):
    """A text, often the closure of some clauses under a random permutation, literals shuffled and repeated, then at times clauses with a pair put in."""
    row = random_row(rng, n)
    clauses = []
    for _ in range(rng.randint(0, 3)):
        c = [rng.choice((1, -1)) * rng.randint(1, n) for _ in range(rng.choice((0, 1, 2, 2, 3, 3)) if n else 0)]
        for _ in range(rng.choice((1, 60, 60))):
            if frozenset(c) not in map(frozenset, clauses):
                clauses.append(rng.sample(c, len(c)) + c[:rng.randint(0, 1)])
            c = [applied(row, l) for l in c]
    clauses += rng.sample(clauses, min(len(clauses), rng.randint(0, 1)))
    for _ in range(rng.choice((0, 0, 1, 2)) if n else 0):
        i, *others = (rng.choice((1, -1)) * rng.randint(1, n) for _ in range(rng.randint(1, 4)))
        clauses.append(rng.sample([i, -i, *others], len(others) + 2))
    rng.shuffle(clauses)
    lines = [" ".join(map(str, [*c, 0])) for c in clauses]
    return "\n".join([f"p cnf {n} {len(clauses)}", *lines]).encode(), clauses, row


# Rows, and the variables that are left, by hand: which cycles there are, the signs of each counted.
REMAINING = [
    ("no variable", (), []),
    ("the identity", (1, 2, 3), []),
    ("i to -i", (-1,), [1]),
    ("i to -i beside others", (1, -2, 3), [2]),
    ("all to their negations", (-1, -2, -3), [1, 2, 3]),
    ("an exchange", (2, 1), [1]),
    ("the listing's", (3, 2, 1), [1]),
    ("an exchange after others", (1, 2, 4, 3), [3]),
    ("an exchange with two signs", (-2, -1), [1]),
    ("an exchange with one sign", (-2, 1), [1, 2]),
    ("an exchange with the other sign", (2, -1), [1, 2]),
    ("an exchange and i to -i between", (3, -2, 1), [1, 2]),
    ("an exchange and i to -i after it", (2, 1, -3), [1, 3]),
    ("an odd exchange and i to -i", (3, -2, -1), [1, 2, 3]),
    ("three on", (2, 3, 1), [1, 2]),
    ("three back", (3, 1, 2), [1, 2]),
    ("three, the first sign", (-2, 3, 1), [1, 2, 3]),
    ("three, the second sign", (2, -3, 1), [1, 2, 3]),
    ("three, the last sign", (2, 3, -1), [1, 2, 3]),
    ("three, all signs but the first", (2, -3, -1), [1, 2]),
    ("three, all signs but the last", (-2, -3, 1), [1, 2]),
    ("three, all signs", (-2, -3, -1), [1, 2, 3]),
    ("four on", (2, 3, 4, 1), [1, 2, 3]),
    ("four, the largest in the middle", (3, 4, 2, 1), [1, 2, 3]),
    ("four, one sign", (3, 4, -2, 1), [1, 2, 3, 4]),
    ("four, two signs", (-2, 3, -4, 1), [1, 2, 3]),
    ("four, three signs", (-2, -3, 4, -1), [1, 2, 3, 4]),
    ("four, four signs", (-2, -3, -4, -1), [1, 2, 3]),
    ("five", (3, 1, 5, 2, 4), [1, 2, 3, 4]),
    ("five, one sign", (3, 1, 5, -2, 4), [1, 2, 3, 4, 5]),
    ("five, four signs", (-3, -1, 5, -2, -4), [1, 2, 3, 4]),
    ("five, five signs", (-3, -1, -5, -2, -4), [1, 2, 3, 4, 5]),
    ("six", (4, 6, 5, 2, 1, 3), [1, 2, 3, 4, 5]),
    ("six, one sign", (4, 6, 5, 2, 1, -3), [1, 2, 3, 4, 5, 6]),
    ("six, five signs", (-4, -6, -5, -2, 1, -3), [1, 2, 3, 4, 5, 6]),
    ("six, six signs", (-4, -6, -5, -2, -1, -3), [1, 2, 3, 4, 5]),
    ("two exchanges", (2, 1, 4, 3), [1, 3]),
    ("two exchanges, one inside the other", (4, 3, 2, 1), [1, 2]),
    ("two exchanges that cross", (3, 4, 1, 2), [1, 2]),
    ("the first of them odd", (2, -1, 4, 3), [1, 2, 3]),
    ("the second odd", (2, 1, -4, 3), [1, 3, 4]),
    ("the outer odd", (-4, 3, 2, 1), [1, 2, 4]),
    ("the inner odd", (4, 3, -2, 1), [1, 2, 3]),
    ("both odd, so that the row has two signs", (-2, 1, 4, -3), [1, 2, 3, 4]),
    ("one with two signs, one odd", (-2, -1, 4, -3), [1, 3, 4]),
    ("three exchanges without signs", (6, 5, 4, 3, 2, 1), [1, 2, 3]),
    ("three exchanges with all signs", (-6, -5, -4, -3, -2, -1), [1, 2, 3]),
    ("two of three", (2, 3, 1, 6, 4, 5), [1, 2, 4, 5]),
    ("two of three, the first odd", (2, 3, -1, 6, 4, 5), [1, 2, 3, 4, 5]),
    ("two of three, the second odd", (2, 3, 1, 6, -4, 5), [1, 2, 4, 5, 6]),
    ("an odd exchange, three on, one that stays", (5, 3, 6, 4, -1, 2), [1, 2, 3, 5]),
    ("two exchanges and i to -i", (3, 5, 1, -4, 2), [1, 2, 4]),
]

# Rows without clauses, and the made formula's text.
SHORTER = [
    ((2, 1), b"p cnf 2 1\n-1 2 0\n"),
    ((-2, -1), b"p cnf 2 1\n-1 -2 0\n"),
    ((-1, 2), b"p cnf 2 1\n-1 -1 0\n"),
    ((2, -1), b"p cnf 3 6\n-1 2 0\n-3 -1 2 0\n-3 1 -2 0\n3 1 2 0\n3 -1 -2 0\n-3 -2 -1 0\n"),
    ((2, 3, 1), b"p cnf 4 6\n-1 2 0\n-4 -1 2 0\n-4 1 -2 0\n4 1 2 0\n4 -1 -2 0\n-4 -2 3 0\n"),
    ((3, 1, 2), b"p cnf 4 6\n-1 3 0\n-4 -1 3 0\n-4 1 -3 0\n4 1 3 0\n4 -1 -3 0\n-4 -2 1 0\n"),
    ((-2, 3, -1), b"p cnf 4 6\n-1 -2 0\n-4 -1 -2 0\n-4 1 2 0\n4 1 -2 0\n4 -1 2 0\n-4 -2 3 0\n"),
    ((2, 3, -1), b"p cnf 5 12\n-1 2 0\n-4 -1 2 0\n-4 1 -2 0\n4 1 2 0\n4 -1 -2 0\n-4 -2 3 0\n"
                 b"-5 4 0\n-5 -2 3 0\n-5 2 -3 0\n5 -4 2 3 0\n5 -4 -2 -3 0\n-5 -3 -1 0\n"),
    ((2, 1, 4, 3), b"p cnf 5 6\n-1 2 0\n-5 -1 2 0\n-5 1 -2 0\n5 1 2 0\n5 -1 -2 0\n-5 -3 4 0\n"),
    ((-2, -1, 4, -3), b"p cnf 6 12\n-1 -2 0\n-5 -1 -2 0\n-5 1 2 0\n5 1 -2 0\n5 -1 2 0\n-5 -3 4 0\n"
                      b"-6 5 0\n-6 -3 4 0\n-6 3 -4 0\n6 -5 3 4 0\n6 -5 -3 -4 0\n-6 -4 -3 0\n"),
]

# A row, then each A with what it fills in as and the first clause that is false then.
FILLED = {
    (2, 3, 1): [("000", "1", 0), ("001", "1", 0), ("010", "0", 0), ("011", "0", 0), ("100", "0", 1), ("101", "0", 1), ("110", "1", 6), ("111", "1", 0)],
    (2, 1, -3): [("000", "1", 0), ("001", "1", 6), ("010", "0", 0), ("011", "0", 0), ("100", "0", 1), ("101", "0", 1), ("110", "1", 0), ("111", "1", 6)],
    (-2, 1, -3): [("000", "00", 0), ("001", "00", 0), ("010", "10", 6), ("011", "10", 6), ("100", "10", 0), ("101", "10", 0), ("110", "00", 1),
                  ("111", "00", 1)],
    (2, 1, 4, 3): [("0000", "1", 0), ("0001", "1", 0), ("0010", "1", 6), ("0110", "0", 0), ("1010", "0", 1), ("1101", "1", 0), ("1110", "1", 6)],
    (4, 3, 2, -1): [("0000", "11", 0), ("0001", "00", 0), ("0010", "10", 0), ("0100", "10", 6), ("0110", "11", 0), ("1001", "11", 12), ("1011", "10", 0),
                    ("1101", "10", 6), ("1111", "11", 12), ("1000", "00", 1)],
}


def remains(row, i):
    """Whether CR 9 leaves i among the x, by a rule of the test's own: the literals that p goes through from i on end at -i, or one of them is of a larger
    variable."""
    literal, larger = row[i], False
    while abs(literal) != i:
        literal, larger = applied(row, literal), larger or abs(literal) > i
    return literal == -i or larger


class Cycles(unittest.TestCase):
    """CR 9 and readings E3 to E5 and O3."""

    def both_forms(self, host):
        """The kept models, found by all settings of the auxiliaries, are those of the longer form; each has one setting, and filling in writes it. How many of
        all assignments are not kept."""
        n, (last, count) = host.record.variables, ref.made_counts(host.record, host.images)
        made, longer = list(ref.made_formula(*host.store)), list(ref.longer_formula(*host.store))
        self.assertEqual((len(made), len(longer)), (count, ref.longer_counts(host.record, host.images)[1]))
        found = truth.models(last, made)
        kept = truth.beginnings(n, ref.longer_counts(host.record, host.images)[0], longer)
        for number in range(1 << n):
            a = {i: bool(number >> n - i & 1) for i in range(1, n + 1)}
            full = ref.filled_in(host.record, host.images, a)
            setting = sum(full[i] << last - i for i in range(n + 1, last + 1))
            self.assertEqual(truth.members(truth.settings(found, number, last - n)), [setting] if number in kept else [], (host.store, number))
        return (1 << n) - len(kept)

    def test_remaining(self):
        for name, row, xs in REMAINING:
            with self.subTest(name):
                self.assertEqual(ref.remaining_variables(dict(enumerate(row, 1))), xs)

    def test_every_row(self):
        """Every small row, and many larger ones, beside the test's own rule. Then how many rows of n variables leave k: where t counts even cycles, these are
        the coefficients of (t + 1)(t + 3) .. (t + 2n - 1). The last factor has t for n staying, 1 for n to -n, and 2n - 2 for n put in after one of the others,
        with signs that leave that cycle even or odd as it was."""
        rng = random.Random(19)
        for row in (dict(enumerate(p, 1)) for _, rows in small_rows() for p in rows):
            self.assertEqual(ref.remaining_variables(row), [i for i in row if remains(row, i)], row)
        for row in (random_row(rng, rng.randint(6, 60)) for _ in range(300)):
            self.assertEqual(ref.remaining_variables(row), [i for i in row if remains(row, i)], row)
        for n, counts in (1, [1, 1]), (2, [1, 4, 3]), (3, [1, 9, 23, 15]), (4, [1, 16, 86, 176, 105]):
            found = Counter(len(ref.remaining_variables(dict(enumerate(p, 1)))) for p in signed_rows(n))
            self.assertEqual([found[k] for k in range(n + 1)], counts)

    def test_longer(self):
        """The longer form is that of 01's listing, where the row has both moved variables."""
        host = Host().with_rows((3, 2, 1))
        self.assertEqual(list(ref.longer_formula(*host.store)), [[1, 2], [2, 3], [-1, 3], [-4, -1, 3], [-4, 1, -3], [4, 1, 3], [4, -1, -3], [-4, -3, 1]])
        self.assertEqual((ref.longer_counts(host.record, host.images), ref.made_counts(host.record, host.images)), ((4, 8), (3, 3)))

    def test_text(self):
        for row, text in SHORTER:
            self.assertEqual(ref.made_text(*Host(b"p cnf %d 0" % len(row)).with_rows(row).store), text, row)

    def test_rows_on(self):
        """Auxiliaries are numbered on from those that are left, past rows with one clause or none; each row loses variables of its own cycles."""
        host = Host(b"p cnf 4 1\n1 2 3 4 0").with_rows((2, 3, 1, 4), (2, 1, 3, 4), (1, 2, 3, 4), (4, 2, 3, -1), (1, 2, -3, 4), (1, 3, 4, 2))
        self.assertEqual(ref.made_counts(host.record, host.images), (4 + 1 + 1 + 1, 1 + 6 + 1 + 6 + 1 + 6))
        self.assertEqual([ref.clause_line(c) for c in ref.made_formula(*host.store)][1:], [line + b" 0\n" for line in (
            b"-1 2", b"-5 -1 2", b"-5 1 -2", b"5 1 2", b"5 -1 -2", b"-5 -2 3", b"-1 2", b"-1 4", b"-6 -1 4", b"-6 1 -4", b"6 1 4", b"6 -1 -4", b"-6 -4 -1",
            b"-3 -3", b"-2 3", b"-7 -2 3", b"-7 2 -3", b"7 2 3", b"7 -2 -3", b"-7 -3 4")])
        for a, setting in (("0000", "111"), ("0110", "011"), ("0010", "110"), ("0111", "001"), ("1010", "000"), ("1110", "101"), ("1100", "100"),
                           ("0100", "010")):
            self.assertEqual(fill_in(host, a), (("done", 1), words(a + setting)), a)

    def test_filling_in(self):
        for row, table in FILLED.items():
            host = Host(b"p cnf %d 0" % len(row)).with_rows(row)
            for a, setting, false in table:
                self.assertEqual(fill_in(host, a), (("done", 1), words(a + setting)), (row, a))
                self.assertEqual(ref.check(*host.store, words(a + setting)), ("done", false), (row, a))

    def test_words(self):
        """The made formula's words: 64 variables and no auxiliary, then one."""
        for values, count, a in ((2, 1, 3), 1, "0" * 64), ((2, 3, 1), 2, "0" * 64 + "1"), ((2, -1, 3), 2, "0" * 64 + "1"), ((2, 1, -3), 2, "0" * 64 + "1"):
            host = Host(b"p cnf 64 0").with_rows((*values, *range(4, 65)))
            self.assertEqual(fill_in(host, "0" * 64, 2), (("done", count), [*words(a), TOP][:2]))
            self.assertEqual(fill_in(host, "0" * 64, count - 1)[0], ("refused", 23, count))
            self.assertEqual((ref.check(*host.store, words(a)), ref.check(*host.store, [0] * (3 - count))), (("done", 0), ("refused", 12, 0)))

    def test_long(self):
        """One cycle through 512 variables, on or back, even or odd: 511 are left, or all. The last clause is about the last x; from 511 it goes on to 512,
        which is left out of an even one."""
        for row, k, last in ((shifted(512, 1), 511, b"-1022 -511 512 0"), (shifted(512, -1), 511, b"-1022 -511 510 0"),
                             (shifted(512, 1, (512,)), 512, b"-1023 -512 -1 0"), (shifted(512, -1, (1,)), 512, b"-1023 -512 511 0"),
                             (shifted(512, -1, (1, 512)), 511, b"-1022 -511 510 0"), (shifted(512, 1, range(1, 513)), 511, b"-1022 -511 -512 0"),
                             (shifted(512, 1, range(2, 513)), 512, b"-1023 -512 -1 0")):
            host = Host(b"p cnf 512 0").with_rows(row)
            lines = ref.made_text(*host.store).splitlines()
            self.assertEqual((lines[0], len(lines), lines[-1]), (b"p cnf %d %d" % (511 + k, 6 * (k - 1)), 1 + 6 * (k - 1), last))
        for by in 1, -1:
            host = Host(b"p cnf 512 0").with_rows(shifted(512, by))
            for a, kept in (("1" * 512, True), ("0" * 511 + "1", True), ("1" + "0" * 511, False), ("1" * 511 + "0", False), ("011" + "0" * 509, by > 0),
                            ("10" * 255 + "11", by < 0)):
                answer, out = fill_in(host, a, 16)
                self.assertEqual((answer, ref.check(*host.store, out)[1] == 0), (("done", 16), kept))

    def test_every_pair(self):
        """Every two rows of three variables with signs, first without a formula, then some of them with one."""
        rng, dropped, plain = random.Random(20), 0, Counter()
        for pair in itertools.product(signed_rows(3), repeat=2):
            dropped += self.both_forms(Host(b"p cnf 3 0").with_rows(*pair))
            if rng.random() < .3:
                text, clauses, _ = random_formula(rng, 3)
                self.both_forms(Host(text).with_rows(*pair))
                plain[all(place_of_11(clauses, dict(enumerate(row, 1))) == 0 for row in pair)] += clauses != []
        self.assertGreater(dropped, 5000)
        self.assertGreater(min(plain[symmetries] for symmetries in (False, True)), 20)

    def test_lists(self):
        """Lists of rows of up to five variables, with formulas; some of the rows are symmetries, and some of them have cycles of both sorts."""
        rng, seen = random.Random(21), Counter()
        for _ in range(600):
            n = rng.choice((1, 2, 3, 4, 4, 5, 5))
            text, clauses, row = random_formula(rng, n)
            rows = [row if rng.random() < .3 else random_row(rng, n) for _ in range(rng.randint(1, 3))]
            seen["dropped"] += self.both_forms(Host(text).with_rows(*(tuple(row.values()) for row in rows)))
            for row in rows:
                turns = {ref.turns_sign(row, cycle) for cycle in ref.cycles(row) if len(cycle) > 1 or row[cycle[0]] < 0}
                seen.update([("symmetry", place_of_11(clauses, row) == 0), ("turns", len(turns))])
                seen["left out"] += len(ref.moved_variables(row)) - len(ref.remaining_variables(row))
        for sort, least in ("dropped", 2000), (("symmetry", True), 100), (("symmetry", False), 100), (("turns", 2), 50), ("left out", 500):
            self.assertGreater(seen[sort], least, sort)


def turn(n):
    """The row of n variables that sends 1 to 2, 2 to 3 and 3 to 1."""
    return (2, 3, 1, *range(4, n + 1))


def odd(n, added):
    """The row of n variables that adds so many auxiliaries: it sends 1 to 2, 2 to 3 and so on, and the last of these to -1."""
    return (*shifted(added + 1, 1, (added + 1,)), *range(added + 2, n + 1))


# A formula, the rows that it is lent, the made formula's text, and its figures: variables, clauses, literals, and the bytes of its lines, counted by hand.
FIGURES = [
    ("the listing before its row", LISTING, [], b"p cnf 3 2\n1 2 0\n2 3 0\n", (3, 2, 4, 10 + 6 + 6)),
    ("the listing", LISTING, [(3, 2, 1)], b"p cnf 3 3\n1 2 0\n2 3 0\n-1 3 0\n", (3, 3, 6, 10 + 6 + 6 + 7)),
    ("nothing", b"p cnf 0 0", [], b"p cnf 0 0\n", (0, 0, 0, 10)),
    ("no variables, empty clauses, and rows of none", b"p cnf 0 2\n0 0", [(), ()], b"p cnf 0 2\n0\n0\n", (0, 2, 0, 10 + 2 + 2)),
    ("an empty clause, a repeat and a pair", b"p cnf 2 3\n1 -2 0 0 2 2 -2 0", [], b"p cnf 2 3\n1 -2 0\n0\n2 2 -2 0\n", (2, 3, 5, 10 + 7 + 2 + 9)),
    ("nine clauses", b"p cnf 1 9\n" + b"0 " * 9, [], b"p cnf 1 9\n" + b"0\n" * 9, (1, 9, 0, 10 + 18)),
    ("ten clauses", b"p cnf 1 10\n" + b"0 " * 10, [], b"p cnf 1 10\n" + b"0\n" * 10, (1, 10, 0, 11 + 20)),
    ("nine clauses and a row's", b"p cnf 1 9\n" + b"0 " * 9, [(-1,)], b"p cnf 1 10\n" + b"0\n" * 9 + b"-1 -1 0\n", (1, 10, 2, 11 + 18 + 8)),
    ("i to -i", b"p cnf 2 0", [(-1, 2)], b"p cnf 2 1\n-1 -1 0\n", (2, 1, 2, 10 + 8)),
    ("an exchange", b"p cnf 2 0", [(2, 1)], b"p cnf 2 1\n-1 2 0\n", (2, 1, 2, 10 + 7)),
    ("an exchange with two signs", b"p cnf 3 0", [(1, -3, -2)], b"p cnf 3 1\n-2 -3 0\n", (3, 1, 2, 10 + 8)),
    ("an exchange of 9 and 10", b"p cnf 10 0", [(*range(1, 9), 10, 9)], b"p cnf 10 1\n-9 10 0\n", (10, 1, 2, 11 + 8)),
    ("an exchange of 10 and 11", b"p cnf 11 0", [(*range(1, 10), -11, -10)], b"p cnf 11 1\n-10 -11 0\n", (11, 1, 2, 11 + 10)),
    ("i to -i for 10", b"p cnf 10 0", [(*range(1, 10), -10)], b"p cnf 10 1\n-10 -10 0\n", (10, 1, 2, 11 + 10)),
    ("identities", LISTING, [(1, 2, 3)] * 3, LISTING, (3, 2, 4, 10 + 6 + 6)),
    ("identities beside the listing's row", LISTING, [(1, 2, 3), (3, 2, 1), (1, 2, 3)], b"p cnf 3 3\n1 2 0\n2 3 0\n-1 3 0\n", (3, 3, 6, 10 + 6 + 6 + 7)),
    ("k = 2", b"p cnf 3 0", [turn(3)], b"p cnf 4 6\n-1 2 0\n-4 -1 2 0\n-4 1 -2 0\n4 1 2 0\n4 -1 -2 0\n-4 -2 3 0\n",
     (4, 6, 2 + 3 + 3 + 3 + 3 + 3, 10 + 7 + 10 + 10 + 8 + 10 + 10)),
    ("k = 2, an odd exchange", b"p cnf 2 0", [(2, -1)], b"p cnf 3 6\n-1 2 0\n-3 -1 2 0\n-3 1 -2 0\n3 1 2 0\n3 -1 -2 0\n-3 -2 -1 0\n",
     (3, 6, 17, 10 + 7 + 10 + 10 + 8 + 10 + 11)),
    ("k = 2, all signs, which stand before both x and y, or before neither", b"p cnf 2 0", [(-1, -2)],
     b"p cnf 3 6\n-1 -1 0\n-3 -1 -1 0\n-3 1 1 0\n3 1 -1 0\n3 -1 1 0\n-3 -2 -2 0\n", (3, 6, 17, 10 + 8 + 11 + 9 + 9 + 9 + 11)),
    ("k = 2, auxiliary 9", b"p cnf 8 0", [turn(8)], b"p cnf 9 6\n-1 2 0\n-9 -1 2 0\n-9 1 -2 0\n9 1 2 0\n9 -1 -2 0\n-9 -2 3 0\n",
     (9, 6, 17, 10 + 7 + 10 + 10 + 8 + 10 + 10)),
    ("k = 2, auxiliary 10", b"p cnf 9 0", [turn(9)], b"p cnf 10 6\n-1 2 0\n-10 -1 2 0\n-10 1 -2 0\n10 1 2 0\n10 -1 -2 0\n-10 -2 3 0\n",
     (10, 6, 17, 11 + 7 + 11 + 11 + 9 + 11 + 11)),
    ("k = 2, x and y across 9 and 10", b"p cnf 10 0", [(*range(1, 9), 10, -9)],
     b"p cnf 11 6\n-9 10 0\n-11 -9 10 0\n-11 9 -10 0\n11 9 10 0\n11 -9 -10 0\n-11 -10 -9 0\n", (11, 6, 17, 11 + 8 + 12 + 12 + 10 + 12 + 13)),
    ("k = 3, auxiliaries 8 and 9", b"p cnf 7 0", [odd(7, 2)], b"p cnf 9 12\n-1 2 0\n-8 -1 2 0\n-8 1 -2 0\n8 1 2 0\n8 -1 -2 0\n-8 -2 3 0\n"
     b"-9 8 0\n-9 -2 3 0\n-9 2 -3 0\n9 -8 2 3 0\n9 -8 -2 -3 0\n-9 -3 -1 0\n", (9, 12, 17 + 19, 11 + 55 + 7 + 10 + 10 + 11 + 13 + 11)),
    ("k = 3, auxiliaries 9 and 10", b"p cnf 8 0", [odd(8, 2)], b"p cnf 10 12\n-1 2 0\n-9 -1 2 0\n-9 1 -2 0\n9 1 2 0\n9 -1 -2 0\n-9 -2 3 0\n"
     b"-10 9 0\n-10 -2 3 0\n-10 2 -3 0\n10 -9 2 3 0\n10 -9 -2 -3 0\n-10 -3 -1 0\n", (10, 12, 36, 12 + 55 + 8 + 11 + 11 + 12 + 14 + 12)),
    ("k = 3, auxiliaries 10 and 11", b"p cnf 9 0", [odd(9, 2)], b"p cnf 11 12\n-1 2 0\n-10 -1 2 0\n-10 1 -2 0\n10 1 2 0\n10 -1 -2 0\n-10 -2 3 0\n"
     b"-11 10 0\n-11 -2 3 0\n-11 2 -3 0\n11 -10 2 3 0\n11 -10 -2 -3 0\n-11 -3 -1 0\n", (11, 12, 36, 12 + 60 + 9 + 11 + 11 + 13 + 15 + 12)),
    ("9 in a row, and 10 in the next", b"p cnf 8 0", [turn(8), (3, 1, 2, *range(4, 9))],
     b"p cnf 10 12\n-1 2 0\n-9 -1 2 0\n-9 1 -2 0\n9 1 2 0\n9 -1 -2 0\n-9 -2 3 0\n"
     b"-1 3 0\n-10 -1 3 0\n-10 1 -3 0\n10 1 3 0\n10 -1 -3 0\n-10 -2 1 0\n", (10, 12, 34, 12 + 55 + 7 + 11 + 11 + 9 + 11 + 11)),
    ("the same, with rows between that have no auxiliary", b"p cnf 8 0", [turn(8), tuple(range(1, 9)), (-1, *range(2, 9)), (3, 1, 2, *range(4, 9))],
     b"p cnf 10 13\n-1 2 0\n-9 -1 2 0\n-9 1 -2 0\n9 1 2 0\n9 -1 -2 0\n-9 -2 3 0\n-1 -1 0\n"
     b"-1 3 0\n-10 -1 3 0\n-10 1 -3 0\n10 1 3 0\n10 -1 -3 0\n-10 -2 1 0\n", (10, 13, 36, 12 + 55 + 8 + 7 + 11 + 11 + 9 + 11 + 11)),
]


class Figures(unittest.TestCase):
    """CR 10 and readings J1 to J4."""

    def figures(self, host):
        """The figures, which are those of the text, and at most as CR 10 says: the highest number written, or n, the lines, the words but for each line's zero,
        the bytes."""
        n, m, rows, _ = host.record
        used, images = host.ends[m - 1] if m else 0, rows * n
        header, *lines = ref.made_text(*host.store).split(b"\n")[:-1]
        words_ = [list(map(int, line.split())) for line in lines]
        answer, *figures = ref.figures(*host.store)
        variables, clauses, literals, size = figures
        self.assertEqual((answer, variables, clauses), ("done", max([n, *(abs(word) for line in words_ for word in line)]), len(lines)))
        self.assertEqual((literals, size), (sum(len(line) - 1 for line in words_), len(header) + 1 + sum(len(line) + 1 for line in lines)))
        self.assertEqual(header, b"p cnf %d %d" % (variables, clauses))
        for figure, bound in zip(figures, [n + images, m + 6 * images, used + 19 * images, 19 + 7 * literals + 2 * clauses]):
            self.assertLessEqual(figure, bound, host.record)
        return figures

    def test_cases(self):
        for name, text, rows, made, figures in FIGURES:
            with self.subTest(name):
                host = Host(text).with_rows(*rows)
                self.assertEqual((ref.made_text(*host.store), ref.figures(*host.store)), (made, ("done", *figures)))
                self.assertEqual(self.figures(host), [*figures])

    def test_changes(self):
        """The figures follow openings, offers and withdrawals, and refused ones change nothing."""
        host = Host()
        for change, figures in [(lambda: host.offer(b"1 2", b"2 1"), (3, 2, 4, 22)), (lambda: host.offer(b"1 3", b"3 1"), (3, 3, 6, 29)),
                                (lambda: host.offer(b"3 1", b"1 3"), (3, 4, 8, 36)), (lambda: host.open(b"p cnf 513 0"), (3, 4, 8, 36)),
                                (host.withdraw, (3, 3, 6, 29)), (host.withdraw, (3, 2, 4, 22)), (host.withdraw, (3, 2, 4, 22)),
                                (lambda: host.open(b"p cnf 12 0"), (12, 0, 0, 11))]:
            change()
            self.assertEqual(ref.figures(*host.store), ("done", *figures))

    def test_digits(self):
        """After auxiliaries up to e - 1, the row `2 3 1` adds 50 bytes and 5 for each digit of e; the odd turn of three adds 103, 8 for each digit of e and 6
        for each of e + 1. Beside that only the header's two numbers may get longer."""
        for e in (e for power in (10, 100, 1000, 10000) for e in (power - 1, power)):
            n = min(e - 1, 512)
            whole, rest = divmod(e - 1 - n, n - 1)
            before = [odd(n, n - 1)] * whole + [odd(n, rest)] * (rest > 0)
            sizes = []
            for row in [], [turn(n)], [odd(n, 2)]:
                host = Host(b"p cnf %d 0" % n).with_rows(*before, *row)
                variables, _, _, size = self.figures(host)
                sizes.append((variables, size - len(ref.header_line(host.record, host.images))))
            (_, size), d, f = sizes[0], len(str(e)), len(str(e + 1))
            self.assertEqual(sizes, [(e - 1, size), (e, size + 50 + 5 * d), (e + 1, size + 103 + 8 * d + 6 * f)])

    def test_random(self):
        rng, seen = random.Random(22), Counter()
        for _ in range(500):
            n = rng.randint(0, 12)
            text, _, row = random_formula(rng, n)
            rows = [rng.choice([row, random_row(rng, n), random_row(rng, n), {i: i for i in row}]) for _ in range(rng.randint(0, 4))]
            host = Host(text, 1000, 300, 300).with_rows(*(tuple(row.values()) for row in rows))
            variables, clauses, _, _ = self.figures(host)
            seen.update([("a digit more", n < 10 <= variables), ("a digit more for M", host.record.clauses < 10 <= clauses)])
            seen.update(("k", min(len(ref.remaining_variables(row)), 3)) for row in rows)
        for sort in ("a digit more", True), ("a digit more for M", True), *(("k", k) for k in range(4)):
            self.assertGreater(seen[sort], 50, sort)

    def test_bounds(self):
        """Stores at one limit: without rows, three bounds are reached; rows that add nothing count in them."""
        still = tuple(range(1, 513))
        for text, rows, figures in ((b"p cnf 512 0", [], (512, 0, 0, 12)), (b"p cnf 512 0", [still] * 64, (512, 0, 0, 12)),
                                    (b"p cnf 0 4096\n" + b"0 " * 4096, [()] * 64, (0, 4096, 0, 13 + 2 * 4096)),
                                    (b"p cnf 512 1\n" + b"-512 " * 12288 + b"0", [], (512, 1, 12288, 12 + 5 * 12288 + 2)),
                                    (b"p cnf 1 0", [(-1,)] * 64, (1, 64, 128, 11 + 64 * 8)), (b"p cnf 2 0", [(2, 1)] * 64, (2, 64, 128, 11 + 64 * 7)),
                                    # of the auxiliaries 3 to 66 seven have one digit, five times each
                                    (b"p cnf 2 0", [(2, -1)] * 64, (66, 384, 64 * 17, 13 + 64 * (56 + 5) - 7 * 5))):
            self.assertEqual(self.figures(Host(text, 12288, 4096, 4096).with_rows(*rows)), [*figures])

    def test_limits(self):
        """At all the limits no header has more bytes. Of each row the first auxiliary has 17 literals, and each other 19."""
        host = Host(b"p cnf 512 4096\n" + b"-512 -512 -512 0\n" * 4096, 12288, 4096, 4096).with_rows(*(shifted(512, by, (512,)) for by in range(1, 128, 2)))
        self.assertEqual(self.figures(host)[:3], [33216, 200320, 12288 + 64 * (17 + 510 * 19)])
        header = ref.header_line(host.record, host.images)
        self.assertEqual((header, len(header)), (b"p cnf 33216 200320\n", 19))
        self.assertIn(b"\n-33216 -512 -127 0\n", ref.made_text(*host.store))


class Demands(unittest.TestCase):
    """Demands 2 and 3 of the brief, brute force over all assignments of random small formulas."""

    def offers(self, rng, host, clauses, row, seen):
        """A list of offers, refused ones included; the accepted rows by a definition of the test's own."""
        n, accepted = host.record.variables, []
        power = {i: i for i in row}
        for _ in range(rng.randint(0, 5)):
            power = {i: applied(row, power[i]) for i in row}
            chosen = power if rng.random() < .6 else random_row(rng, n)
            names = [i for i in rng.sample(list(row), n) if chosen[i] != i or rng.random() < .3]
            values = [chosen[i] for i in names][:None if rng.random() < .9 else -1]
            answer = host.offer(" ".join(map(str, names)).encode(), " ".join(map(str, values)).encode())
            place, stated, moving = place_of_11(clauses, chosen), bool(names) and len(values) == len(names), any(chosen[i] != i for i in chosen)
            self.assertEqual(answer == ("done",), stated and moving and place == 0, answer)
            if stated:
                self.assertEqual(answer, ("refused", 11, place) if place else ("done",) if moving else ("refused", 31, 0))
                seen["refused after a pair" if place else "accepted over a pair"] += former_rule(clauses, chosen) != place
                seen["idle"] += not moving
            accepted += [chosen] if answer == ("done",) else []
        return accepted

    def lent_identities(self, rng, host, rows):
        """The store lent with identities put in among its rows; all rows that it holds then."""
        n, held = host.record.variables, list(rows)
        for _ in range(rng.randint(1, 3)):
            held.insert(rng.randint(0, len(held)), {i: i for i in range(1, n + 1)})
        host.with_rows(*(tuple(row.values()) for row in held))
        return held

    def demand_3(self, rng, host, clauses, accepted):
        n = host.record.variables
        made, (total, count) = list(ref.made_formula(*host.store)), ref.made_counts(host.record, host.images)
        longer, (longest, _) = list(ref.longer_formula(*host.store)), ref.longer_counts(host.record, host.images)
        self.assertEqual((made[:len(clauses)], len(made)), (clauses, count))
        plain = list(models(clauses, {}, list(range(1, n + 1))))
        as_tuple = lambda a: tuple(a[i] for i in range(1, n + 1))
        kept = set()
        for a in plain:
            full = list(models(made, a, list(range(n + 1, total + 1))))
            lowered = any(as_tuple(carried(p, a)) < as_tuple(a) for p in accepted)
            self.assertEqual((len(full), len(list(models(longer, a, list(range(n + 1, longest + 1)))))), (0, 0) if lowered else (1, 1))
            answer, out = fill_in(host, "".join("01"[a[i]] for i in sorted(a)), 4)
            self.assertEqual(answer, ("done", ref.word_count(total)))
            self.assertEqual(out[answer[1]:], [TOP] * (4 - answer[1]))
            filled = dict(enumerate(ref.bits(out)[:total], 1))
            self.assertEqual(filled in full, not lowered)
            self.assertEqual(ref.check(*host.store, out[:answer[1]])[1] == 0, not lowered)
            kept |= set() if lowered else {as_tuple(a)}
        self.assertEqual(bool(plain), bool(kept))
        self.descents(rng, host, plain, kept, as_tuple)
        for a in plain:
            reach = [a]
            for b in reach:
                reach += [c for p in accepted for c in [carried(p, b)] if c not in reach]
            self.assertTrue(any(as_tuple(b) in kept for b in reach) and all(b in plain for b in reach))

    def descents(self, rng, host, plain, kept, as_tuple):
        for a in plain:
            text = "".join("01"[bit] for bit in as_tuple(a))
            for limit in 0, 1, rng.randint(2, 5), TOP:
                (_, how, moves), reached = descend(host, text, limit)
                end = tuple(digit == "1" for digit in reached)
                self.assertEqual(how == "settled", end in kept)
                self.assertTrue(moves == limit if how == "spent" else moves <= limit)
                self.assertTrue(end == as_tuple(a) if moves == 0 else end < as_tuple(a))

    def test_random_formulas(self):
        rng, seen = random.Random(17), Counter()
        for _ in range(600):
            text, clauses, row = random_formula(rng, rng.choice((0, 1, 2, 3, 4, 5, 6, 6)))
            host = Host(text, 128, 64, 64, 40)
            self.assertEqual(host.answer[0], "done")
            accepted = self.offers(rng, host, clauses, row, seen)
            self.assertEqual(ref.rows_of(host.record, host.images), accepted)
            self.assertEqual(host.images[len(accepted) * len(row):], [7] * (40 - len(accepted) * len(row)))
            if rng.random() < .3:
                accepted = self.lent_identities(rng, host, accepted)
            self.demand_3(rng, host, clauses, accepted)
            for p in accepted:
                moving, k = [i for i in p if p[i] != i], len(ref.remaining_variables(p))
                seen.update(["held", "moving one" if len(moving) == 1 else "moving more" if moving else "identity", ("k", min(k, 3), len(moving) - k)])
                seen.update({"signed" for i in moving if p[i] < 0} | {"own negation" for i in moving if p[i] == -i})
        for sort, least in ("held", 500), ("moving one", 30), ("moving more", 300), ("identity", 100), ("idle", 100), ("signed", 200), ("own negation", 100), \
                ("accepted over a pair", 100), ("refused after a pair", 50), (("k", 1, 1), 30), (("k", 2, 0), 30), (("k", 2, 1), 30), (("k", 2, 2), 10), \
                (("k", 3, 0), 30), (("k", 3, 1), 30), (("k", 3, 2), 10):
            self.assertGreater(seen[sort], least, sort)

    def test_every_row_fills_in_uniquely(self):
        """Every small row, and pairs of them: kept is what none makes smaller, with one setting, and filling in writes it."""
        rng = random.Random(18)
        for n, rows in small_rows():
            for held in [[p] for p in rows] + [rng.choices(rows, k=2) for _ in range(100)]:
                host = Host(b"p cnf %d 0" % n).with_rows(*held)
                made, (total, count) = list(ref.made_formula(*host.store)), ref.made_counts(host.record, host.images)
                self.assertEqual(len(made), count)
                for bits in itertools.product((False, True), repeat=n):
                    a = dict(enumerate(bits, 1))
                    full = list(models(made, a, list(range(n + 1, total + 1))))
                    lowered = any(tuple(carried(dict(enumerate(p, 1)), a).values()) < bits for p in held)
                    self.assertEqual(full, [] if lowered else [ref.filled_in(host.record, host.images, a)])

    def test_trial_is_comparison(self):
        """CR 2 and reading F9: every small row on every assignment. A variable that CR 9 leaves out never decides."""
        for n, rows in small_rows():
            for p in rows:
                row = dict(enumerate(p, 1))
                for bits in itertools.product((False, True), repeat=n):
                    a = dict(enumerate(bits, 1))
                    lowered, decided = ref.trial(row, a)
                    self.assertEqual((lowered, decided), (ref.lowers(row, a), ref.first_difference(a, ref.moved(row, a))))
                    self.assertIn(decided, [0, *ref.remaining_variables(row)])


if __name__ == "__main__":
    unittest.main()
