"""Filling in, checking and descent against the reference, and demand 3 by brute force: fixed seeds. Run by tests/run."""
import itertools
import random
import unittest
from collections import Counter

import generate
import library
import reference
import truth
from agree import LIBRARY, Agree, held, holding, idle, judged, lend_identities
from library import TOP


def packed(digits):
    """The words of an assignment that is given by its digits."""
    return [int(digits[at:at + 64].ljust(64, "0"), 2) for at in range(0, len(digits), 64)]


def opened(text, literals=1200, clauses=500, images=1500):
    """A store with this formula, if it opens, and something in every entry past those in use."""
    host = library.Host(LIBRARY, reference.new_record(), [7] * literals, [7] * clauses, [7] * clauses, [7] * images)
    host.open(text)
    return host


def offered(text, *lines):
    """A store with this formula after an offer of two lines, which is accepted."""
    host = opened(text)
    assert host.offer(*lines) == ("done",)
    return host


def refusal(answer):
    """The number of a refusal, or None."""
    return answer[1] if answer[0] == "refused" else None


class Worked(Agree):
    """Cases of document 01, and edges, worked out by hand."""

    def test_listing(self):
        self.listing(offered(b"p cnf 3 2\n1 2 0\n2 3 0\n", b"1 3", b"3 1"))

    def test_identities(self):
        """Beside identities in a lent store all is as it is without them; where only they are held, nothing is lowered and nothing added."""
        still, swap, turn = [2, 4, 6], [6, 4, 2], [4, 6, 2]
        for rows in [still + swap, swap + still, still * 31 + swap + still * 32]:
            self.listing(stored(record=reference.Record(3, 2, len(rows) // 3, True), images=rows))
        for rows in [still + turn, turn + still, still * 31 + turn + still * 32]:
            self.turn(stored(record=reference.Record(3, 2, len(rows) // 3, True), images=rows))
        for count in [1, 2, 64]:
            host = stored(record=reference.Record(3, 2, count, True), images=still * count)
            for digits, clause in [("110", 0), ("011", 0), ("101", 0), ("001", 1), ("100", 2)]:
                self.assertEqual(self.descend(host, packed(digits), 0), (("done", "settled", 0), packed(digits)))
                self.assertEqual(self.fill_in(host, packed(digits), [5, 6]), (("done", 1), packed(digits) + [6]))
                self.assertEqual(self.check(host, packed(digits)), ("done", clause))

    def listing(self, host):
        """The cases of the listing's formula with its row."""
        for start, limit, expected, end in [("110", TOP, ("done", "settled", 1), "011"), ("110", 1, ("done", "settled", 1), "011"),
                                            ("110", 0, ("done", "spent", 0), "110"), ("011", 0, ("done", "settled", 0), "011")]:
            self.assertEqual(self.descend(host, packed(start), limit), (expected, packed(end)), (start, limit))
        for plain in ["101", "011"]:
            self.assertEqual(self.fill_in(host, packed(plain), [5]), (("done", 1), packed(plain)))
            self.assertEqual(self.fill_in(host, packed(plain), [5, 6, 7]), (("done", 1), packed(plain) + [6, 7]))
        for a, clause in [("000", 1), ("001", 1), ("010", 0), ("011", 0), ("100", 2), ("101", 0), ("110", 3), ("111", 0)]:
            self.assertEqual(self.check(host, packed(a)), ("done", clause), a)

    def turn(self, host):
        """The listing's formula with the row `2 3 1`, which leaves 1 and 2 and is no symmetry: an auxiliary says whether they agree."""
        for plain, filled in [("000", "0001"), ("001", "0011"), ("010", "0100"), ("011", "0110"), ("100", "1000"), ("110", "1101"), ("111", "1111")]:
            self.assertEqual(self.fill_in(host, packed(plain), [5, 6]), (("done", 1), packed(filled) + [6]))
        for full, clause in [("0110", 0), ("0010", 1), ("1000", 2), ("1010", 3), ("0111", 5), ("0101", 5), ("1110", 7), ("1101", 8), ("1111", 0)]:
            self.assertEqual(self.check(host, packed(full)), ("done", clause), full)

    def test_turn(self):
        """A moved by p has, at variable i, the value A(p(i)): not moved by the inverse, and not once only."""
        self.turn(stored(images=[4, 6, 2]))
        host = offered(b"p cnf 3 1\n1 2 3 0\n", b"1 2 3", b"2 3 1")
        for start, limit, expected, end in [("100", TOP, ("done", "settled", 1), "001"), ("010", TOP, ("done", "settled", 0), "010"),
                                            ("010", 0, ("done", "settled", 0), "010"), ("000", TOP, ("done", "settled", 0), "000")]:
            self.assertEqual(self.descend(host, packed(start), limit), (expected, packed(end)), (start, limit))

    def test_signs(self):
        """Each A with what it fills in as, the first clause that is false then, the moves of its descent and its end."""
        for values, table in [(b"-1 2 3", [("000", "", 0, 0, "000"), ("011", "", 0, 0, "011"), ("100", "", 1, 1, "000"), ("111", "", 1, 1, "011")]),
                              (b"-2 1 3", [("000", "0", 0, 0, "000"), ("010", "1", 6, 1, "000"), ("100", "1", 0, 0, "100"), ("110", "0", 1, 2, "000")]),
                              (b"3 -2 1", [("000", "1", 0, 0, "000"), ("001", "0", 0, 0, "001"), ("010", "1", 6, 1, "000"), ("011", "0", 0, 0, "011"),
                                           ("100", "0", 1, 1, "011"), ("101", "1", 0, 0, "101"), ("110", "0", 1, 1, "001"), ("111", "1", 6, 1, "101")]),
                              (b"3 -2 -1", [("000", "10", 0, 0, "000"), ("001", "00", 0, 0, "001"), ("010", "10", 6, 1, "001"), ("011", "00", 0, 0, "011"),
                                            ("100", "00", 1, 2, "001"), ("101", "10", 0, 0, "101"), ("110", "00", 1, 1, "000"), ("111", "10", 6, 3, "001")])]:
            host = offered(b"p cnf 3 0", b"1 2 3", values)
            for a, setting, false, moves, end in table:
                self.assertEqual(self.fill_in(host, packed(a), [5, 6]), (("done", 1), packed(a + setting) + [6]))
                self.assertEqual(self.check(host, packed(a + setting)), ("done", false), (values, a))
                self.assertEqual(self.descend(host, packed(a), TOP), (("done", "settled", moves), packed(end)))
        turned = offered(b"p cnf 2 0", b"1 2", b"-2 1")
        self.assertEqual(self.descend(turned, packed("11"), 1), (("done", "spent", 1), packed("01")))
        for full, clause in [("000", 0), ("001", 3), ("010", 4), ("011", 6), ("100", 5), ("101", 0), ("110", 1), ("111", 1)]:
            self.assertEqual(self.check(turned, packed(full)), ("done", clause), full)

    def test_cycles(self):
        """Rows, then each A with what it fills in as and the first clause that is false then: only the variables that are left count."""
        for row, table in [([2, 1, -3], [("000", "1", 0), ("001", "1", 6), ("010", "0", 0), ("100", "0", 1), ("110", "1", 0), ("111", "1", 6)]),
                           ([-2, 1, -3], [("000", "00", 0), ("001", "00", 0), ("010", "10", 6), ("011", "10", 6), ("100", "10", 0), ("101", "10", 0),
                                          ("110", "00", 1)]),
                           ([2, 1, 4, 3], [("0000", "1", 0), ("0001", "1", 0), ("0010", "1", 6), ("0110", "0", 0), ("1010", "0", 1), ("1101", "1", 0),
                                           ("1110", "1", 6)]),
                           ([4, 3, 2, -1], [("0000", "11", 0), ("0001", "00", 0), ("0010", "10", 0), ("0100", "10", 6), ("0110", "11", 0), ("1001", "11", 12),
                                            ("1011", "10", 0), ("1101", "10", 6), ("1111", "11", 12), ("1000", "00", 1)])]:
            host = holding(len(row), [], [row])
            for a, setting, false in table:
                self.assertEqual(self.fill_in(host, packed(a), [5, 6]), (("done", 1), packed(a + setting) + [6]), (row, a))
                self.assertEqual(self.check(host, packed(a + setting)), ("done", false), (row, a))

    def test_long(self):
        """One cycle through 512 variables, on or back, even or odd: 1,022 variables in 16 words, or 1,023. Each A with the first clause that is false then."""
        on, back, odd = generate.shifted(512, 1), generate.shifted(512, -1), generate.shifted(512, 1, [512])
        for row, cases in [(on, [("1" * 512, 0), ("0" * 511 + "1", 0), ("1" + "0" * 511, 1), ("1" * 511 + "0", 6 * 510), ("0" + "1" * 511, 0)]),
                           (back, [("1" * 512, 0), ("0" * 511 + "1", 0), ("1" * 511 + "0", 1), ("0" * 510 + "10", 6 * 510), ("011" + "0" * 509, 6)]),
                           (odd, [("0" * 512, 0), ("1" * 512, 6 * 511), ("0" * 511 + "1", 0), ("1" * 511 + "0", 6 * 510), ("1" + "0" * 511, 1)])]:
            host, n = holding(512, [], [row]), 1023 if row is odd else 1022
            for a, false in cases:
                answer, filled = self.fill_in(host, packed(a), [3] * 17)
                self.assertEqual((answer, filled[16]), (("done", 16), 3))
                self.assertEqual(self.check(host, filled[:16]), ("done", false), (row[:2], a))
                self.assertEqual(self.check(host, flipped(filled[:16], n + 1)), ("refused", 12, 0))

    def test_no_symmetry(self):
        """A lent row that is no symmetry: the plain formula has a model, and the made one none."""
        host = library.Host(LIBRARY, reference.Record(1, 1, 1, True), [2], [1], generate.keys_of([2], [1]), [3])
        self.assertEqual([self.check(host, packed(a)) for a in "01"], [("done", 1), ("done", 2)])

    def test_nothing(self):
        """Without variables there are no words; the empty clause is false."""
        self.assertEqual(self.fill_in(opened(b"p cnf 0 0"), [], []), (("done", 0), []))
        self.assertEqual(self.fill_in(opened(b"p cnf 0 0"), [], [9]), (("done", 0), [9]))
        self.assertEqual(self.descend(opened(b"p cnf 0 0"), [], 0), (("done", "settled", 0), []))
        self.assertEqual(self.check(opened(b"p cnf 0 0"), []), ("done", 0))
        self.assertEqual(self.check(opened(b"p cnf 0 1\n0"), []), ("done", 1))

    def test_largest(self):
        """64 rows of 512 variables in odd cycles, so that none is left out: assignments of 519 words, the last one full."""
        chance = random.Random(9)
        host = opened(b"p cnf 512 1\n" + b" ".join(b"%d -%d" % (i, i) for i in range(1, 513)) + b" 0", 1024, 1, 64 * 512)
        names = b" ".join(b"%d" % i for i in range(1, 513))
        for row in [generate.shifted(512, 1, [512])] + [generate.cycle(chance, 512, 512, (True,)) for _ in range(63)]:
            self.assertEqual(host.offer(names, b" ".join(b"%d" % i for i in row)), ("done",))
        self.assertGreater(sum(len(generate.moving_cycles(row)) == 1 for row in held(host)), 20)
        kept = packed("0" * 504 + "1" * 8)
        self.assertEqual(self.fill_in(host, kept, [3] * 518), (("refused", 23, 519), [3] * 518))
        answer, filled = self.fill_in(host, kept, [3] * 520)
        self.assertEqual((answer, filled[519]), (("done", 519), 3))
        self.assertEqual(self.check(host, filled), ("refused", 12, 0))
        self.assertEqual(self.check(host, filled[:519]), ("done", 0))
        self.assertEqual(self.check(host, flipped(filled[:519], 33216)), ("done", 1 + 6 * 32704 - 5))
        self.assertEqual(self.descend(host, kept, 0), (("done", "settled", 0), kept))
        self.assertEqual(self.descend(host, packed("1" * 512), 3), (("done", "spent", 3), packed("1" * 509 + "000")))  # by the first row


STORE = {"record": reference.Record(3, 2, 1, True), "literals": [2, 4, 4, 6], "ends": [2, 4], "images": [6, 4, 2]}
KEYS = generate.keys_of(STORE["literals"], STORE["ends"])

BADLY_FORMED = [
    ("513 variables", {"record": reference.Record(513, 0, 0, True)}),
    ("4,097 clauses", {"record": reference.Record(3, 4097, 1, True), "ends": [0] * 4097}),
    ("65 rows", {"record": reference.Record(3, 2, 65, True), "images": [6, 4, 2] * 65}),
    ("counts whose product passes a word", {"record": reference.Record(512, 0, 2 ** 55, True)}),
    ("the highest counts", {"record": reference.Record(TOP, TOP, TOP, True)}),
    ("12,289 literals", {"literals": [2] * 12289, "ends": [1, 12289]}),
    ("a literal too few", {"literals": [2, 4, 4]}),
    ("an end too few", {"ends": [2]}),
    ("an image too few", {"images": [6, 4]}),
    ("a row too few", {"record": reference.Record(3, 2, 2, True)}),
    ("ends that fall", {"ends": [4, 2]}),
    ("an end past the literals", {"ends": [2, 5]}),
    ("a literal 0", {"literals": [2, 4, 0, 6]}),
    ("a literal -0", {"literals": [2, 4, 1, 6]}),
    ("a literal beyond n", {"literals": [2, 4, 4, 8]}),
    ("a negated literal beyond n", {"literals": [2, 4, 4, 9]}),
    ("an image 0", {"images": [6, 4, 0]}),
    ("an image beyond n", {"images": [6, 4, 8]}),
    ("an image twice", {"images": [6, 4, 4]}),
    ("an image -0", {"images": [6, 4, 1]}),
    ("a negated image beyond n", {"images": [6, 4, 9]}),
    ("a size twice, with two signs", {"images": [6, 4, 5]}),
    ("a negated image twice", {"images": [7, 4, 7]}),
    ("a key too few", {"keys": KEYS[:1]}),
    ("keys exchanged", {"keys": KEYS[::-1]}),
    ("a key wrong by a bit", {"keys": [KEYS[0], KEYS[1] ^ 2 ** 40]}),
    ("a literal more than its key", {"literals": [2, 4, 2, 4, 6], "ends": [2, 5], "keys": KEYS}),
]


def stored(**changed):
    """That store with parts changed, and with its clauses' keys if these are not among them."""
    parts = STORE | changed
    return library.Host(LIBRARY, **{"keys": generate.keys_of(parts["literals"], parts["ends"])} | parts)


class Refusals(Agree):
    def refused(self, host, number, a=(2 ** 63,), out=(1, 2)):
        """All three calls refuse with this number and place 0, and change nothing; and there are no figures."""
        for limit in [0, TOP]:
            self.assertEqual(self.descend(host, list(a), limit), (("refused", number, 0), list(a)))
        self.assertEqual(self.fill_in(host, list(a), list(out)), (("refused", number, 0), list(out)))
        self.assertEqual(self.check(host, list(a)), ("refused", number, 0))
        self.assertEqual(self.figures(host), ("refused", number, 0))

    def test_not_open(self):
        self.refused(library.Host(LIBRARY, reference.new_record(), [], [], [], []), 20)
        self.refused(stored(record=reference.Record(3, 2, 1, False)), 20)

    def test_open(self):
        """Every other flag is open."""
        for flag in [True, 2, 2 ** 32, TOP]:
            self.assertEqual(self.check(stored(record=reference.Record(3, 2, 1, flag)), packed("101")), ("done", 0))

    def test_badly_formed(self):
        for name, damage in BADLY_FORMED:
            with self.subTest(name):
                self.refused(stored(**damage), 21)

    def test_order(self):
        """20 before 21 before 12 before 23, with every choice of reasons; only filling in knows the last."""
        for reasons in itertools.product([False, True], repeat=4):
            closed, damaged, misfit, short = reasons
            host = stored(record=reference.Record(3, 2, 1, not closed), images=[6, 4, 4] if damaged else [6, 4, 2])
            plain = [] if misfit else packed("110")
            numbers = [number for number, holds in zip([20, 21, 12], reasons) if holds]
            self.assertEqual(refusal(self.check(host, plain)), (numbers + [None])[0])
            self.assertEqual(refusal(self.descend(host, plain, 0)[0]), (numbers + [None])[0])
            self.assertEqual(refusal(self.fill_in(host, plain, [] if short else [9])[0]), (numbers + [23] * short + [None])[0])

    def test_form(self):
        """Assignments of 64 variables, 65 with the auxiliary: the first for filling in and descent, the second for checking. An exchange has no auxiliary."""
        host = offered(b"p cnf 64 0", b"1 2", b"2 1")
        self.assertEqual(self.fill_in(host, [1], [4, 5]), (("done", 1), [1, 5]))
        self.assertEqual((self.check(host, [1]), self.check(host, [1, 0])), (("done", 0), ("refused", 12, 0)))
        host = offered(b"p cnf 64 0", b"1 2 3", b"2 3 1")
        plain, made = packed("0" * 63 + "1"), packed("0" * 63 + "11")
        self.assertEqual(self.fill_in(host, plain, [4, 5]), (("done", 2), made))
        self.assertEqual(self.check(host, made), ("done", 0))
        for misfit in [[], plain + [0], made]:
            self.assertEqual(self.fill_in(host, misfit, [4, 5]), (("refused", 12, 0), [4, 5]))
            self.assertEqual(self.descend(host, misfit, 0), (("refused", 12, 0), misfit))
        for misfit in [[], plain, made + [0], [made[0], made[1] | 2 ** 62], [made[0], made[1] | 1]]:
            self.assertEqual(self.check(host, misfit), ("refused", 12, 0))
        for out in [[], [4]]:
            self.assertEqual(self.fill_in(host, plain, out), (("refused", 23, 2), out))


SIZES = [0, 1, 2, 3, 4, 6, 9, 20, 40, 58, 60, 62, 63, 64, 65, 66, 100, 126, 127, 128, 129, 130]


WANTED = [
    *(("fill in", outcome) for outcome in (None, 12, 20, 21, 23)),
    *(("check", outcome) for outcome in ("yes", "plain", "added", 12, 20, 21)),
    *(("figures", outcome) for outcome in (None, 20, 21)),
    *(("descend", (ending, moves)) for ending in ("settled", "spent") for moves in (0, 1, 2, 3)),
    *(("descend", outcome) for outcome in (12, 20, 21)),
    *(("place among six", r) for r in (1, 3, 4, 5, 6)),
    ("place among six", "alone"),
    *(("variables", n) for n in SIZES if n > 1),
    *(("last word", rest) for rest in (63, 0, 1)),
    "more words",
    "refused offers",
]


def last_number(host):
    """The N of the made formula, as the library writes it."""
    return int(host.header(bytes(32))[1].split()[2])


def offer_all(chance, host, n, rows, seen, last=TOP):
    """A list of offers, damaged ones among them and at times one that moves nothing, or nearly so, until the made formula passes `last` variables; what was
    accepted, how many were refused. Of each offer it is seen of which sorts it is."""
    accepted, refused = [], 0
    offers = [generate.offers(chance, n, [row]) for row in rows]
    if n and chance.random() < 0.4:
        offers.insert(chance.randint(0, len(offers)), generate.idle_lines(chance, n))
    for names, values in offers:
        if chance.random() < 0.15:
            values = generate.damaged(chance, values)
        answer = host.offer(names, values)
        seen.update(judged(host, names, values, answer) + idle(host, names, values, answer))
        if refusal(answer):
            refused += 1
            continue
        accepted.append(generate.stated(n, names, values))
        if last_number(host) > last:
            break
    return accepted, refused


def flipped(a, i):
    """An assignment with the value of variable i changed."""
    return [word ^ (1 << 63 - (i - 1) % 64 if at == (i - 1) // 64 else 0) for at, word in enumerate(a)]


def places(row):
    """The place among six of each clause that a row adds."""
    count = len(generate.remaining(row))
    return ["alone"] if count == 1 else [1, 2, 3, 4, 5, 6] * (count - 1)


def at_times_misfit(chance, n, a):
    """The assignment, or now and then words that are none of 1..n."""
    return generate.misfit(chance, n, a) if chance.random() < 0.08 else a


class Random(Agree):
    """Formulas with symmetries, lists of offers, stores damaged at times; assignments that are models or not, at times of the wrong form."""

    def descents(self, chance, host, n, a, seen):
        """Descends from an assignment with several limits; what was reached."""
        reached = []
        for limit in [0, 1, 2, 3, chance.randint(4, 9), TOP]:
            answer, left = self.descend(host, at_times_misfit(chance, n, a), limit)
            reached.append(left)
            seen["descend", refusal(answer) or (answer[1], min(answer[2], 3))] += 1
        return reached

    def fillings(self, chance, host, n, last, starts, seen):
        """Fills in assignments, into buffers that are long enough or not; what was written."""
        written = []
        for a in starts:
            length = reference.word_count(last) + chance.choice([0, 0, 1, 3]) if chance.random() < 0.9 else chance.randrange(3)
            answer, out = self.fill_in(host, at_times_misfit(chance, n, a), [chance.getrandbits(64) for _ in range(length)])
            seen["fill in", refusal(answer)] += 1
            if answer[0] == "done":
                written.append(out[:answer[1]])
        return written

    def checks(self, chance, host, n, last, filled, seen):
        """Checks filled in assignments, the same with an auxiliary changed, and others."""
        changed = [flipped(a, chance.randint(n + 1, last)) for a in filled if last > n]
        for a in filled + changed + [packed(generate.digits(chance, last))]:
            answer = self.check(host, at_times_misfit(chance, last, a))
            added = answer[-1] - host.record.clauses
            seen["check", refusal(answer) or ("yes" if answer[1] == 0 else "added" if added > 0 else "plain")] += 1
            if refusal(answer) is None and added > 0:
                seen["place among six", [r for row in held(host) for r in places(row)][added - 1]] += 1

    def offered(self, chance, n, clauses, rows, seen):
        """A store after a list of offers, at times with identities put in then, and the N of its made formula."""
        host = opened(generate.text(chance, n, clauses))
        seen["refused offers"] += offer_all(chance, host, n, rows, seen)[1]
        last = reference.made_counts(host.record, list(host.images))[0]
        seen["variables", n] += host.record.rows > 0
        seen["last word", last % 64] += last > n
        seen["more words"] += reference.word_count(last) > reference.word_count(n)
        seen.update(sort for row in held(host) for sort in generate.sorts(row))
        if chance.random() < 0.25:
            lend_identities(chance, host)
            seen["identity held"] += n > 0
        return host, last

    def test_random(self):
        chance = random.Random(15)
        seen = Counter()
        for n in SIZES * 10:
            clauses, rows = generate.family(chance, n)
            host, last = self.offered(chance, n, clauses, rows + [generate.permutation(chance, n)] * (not all(map(generate.holds_pair, clauses))), seen)
            for _ in range(2):
                if chance.random() < 0.15:
                    host.put(*generate.damaged_store(chance, *host.parts()))
                seen["figures", refusal(self.figures(host))] += 1
                a = packed(generate.repaired(chance, clauses, generate.digits(chance, n)))
                reached = self.descents(chance, host, n, a, seen)
                filled = self.fillings(chance, host, n, last, [packed(generate.digits(chance, n)), a, reached[-1]], seen)
                self.checks(chance, host, n, last, filled, seen)
        for sort in WANTED:
            self.assertGreater(seen[sort], 5, sort)
        for sort, least in [*((sort, 50) for sort in generate.SORTS), *((sort, 30) for sort in generate.SHAPES),
                            *((sort, 5) for sort in generate.CYCLES), *((sort, 10) for sort in generate.JUDGED), ("idle", 50), ("identity held", 30)]:
            self.assertGreater(seen[sort], least, sort)


def made_formula(host):
    """The made formula as the library writes it: N, and its clauses."""
    variables, count = map(int, host.header(bytes(32))[1].split()[2:4])
    lines = [host.clause(q, bytes(256))[1].split(b"\n")[0] for q in range(1, count + 1)]
    return variables, [[int(word) for word in line.split()][:-1] for line in lines]


def first_false(clauses, digits):
    """The number of the first clause that is false under the digits, or 0."""
    return next((q for q, clause in enumerate(clauses, 1) if not any(digits[abs(literal) - 1] == "01"[literal > 0] for literal in clause)), 0)


def path(rows, digits):
    """What a descent passes: digits after digits, each moved by the first row that makes them smaller."""
    lower = next((moved for moved in (generate.moved(row, digits) for row in rows) if moved < digits), None)
    return [digits] + (path(rows, lower) if lower is not None else [])


def numbered(number, n):
    """The n digits of a number."""
    return format(number, "b").rjust(n, "0")[-n:] if n else ""


def is_symmetry(clauses, row):
    """The reference finds that a permutation is a symmetry."""
    try:
        reference.require_symmetry(clauses, dict(enumerate(row, 1)))
        return True
    except reference.Refusal:
        return False


class Demand3(unittest.TestCase):
    """Demand 3 over all assignments, by the library's calls alone, after lists of offers and withdrawals with refused ones among them."""

    def descents(self, host, rows, digits, seen):
        """A descent at every limit goes as moving by hand does; where it settles."""
        passed = path(rows, digits)
        moves = len(passed) - 1
        for limit in range(moves):
            self.assertEqual(host.descend(packed(digits), limit), (("done", "spent", limit), packed(passed[limit])), digits)
        for limit in [moves, moves + 1, TOP]:
            self.assertEqual(host.descend(packed(digits), limit), (("done", "settled", moves), packed(passed[-1])), digits)
        seen["spent"] += moves
        seen["moves", min(moves, 3)] += 1
        return passed[-1]

    def filled(self, host, digits, setting):
        """Filling in writes this setting of the auxiliaries, and checking says yes to it."""
        full = packed(digits + setting)
        self.assertEqual(host.fill_in(packed(digits), [7] * len(full) + [8]), (("done", len(full)), full + [8]), digits)
        self.assertEqual(host.check(full), ("done", 0), digits)

    def kept(self, host, n, rows, plain, full):
        """The kept models: those that no row makes smaller, each with the one setting that filling in writes; and they are those of the longer form."""
        auxiliaries = last_number(host) - n
        kept = set()
        for number in range(1 << n):
            digits, settings = numbered(number, n), truth.settings(full, number, auxiliaries)
            smaller = any(generate.moved(row, digits) < digits for row in rows)
            self.assertEqual(settings != 0, plain >> number & 1 == 1 and not smaller, digits)
            if settings:
                kept.add(digits)
                self.assertEqual(settings & settings - 1, 0, digits)
                self.filled(host, digits, numbered(settings.bit_length() - 1, auxiliaries))
        longest, _ = reference.longer_counts(host.record, host.images[:])
        longer = truth.beginnings(n, longest, reference.longer_formula(*host.parts()))
        self.assertEqual(kept, {numbered(number, n) for number in longer})
        return kept

    def whole(self, host, n, clauses, rows, seen):
        """All of demand 3 for one store and the accepted permutations of its list."""
        last, made = made_formula(host)
        self.assertEqual(made[:len(clauses)], clauses)
        plain, full = truth.models(n, clauses), truth.models(last, made)
        self.assertEqual(full != 0, plain != 0)
        kept = self.kept(host, n, rows, plain, full)
        for number in range(1 << n):
            settled = self.descents(host, rows, numbered(number, n), seen)
            if plain >> number & 1:
                self.assertIn(settled, kept)
        for number in range(1 << last if last < 9 else 0):
            digits = numbered(number, last)
            self.assertEqual(host.check(packed(digits)), ("done", first_false(made, digits)), digits)
            seen["false added"] += first_false(made, digits) > len(clauses)
        seen["satisfiable", plain != 0] += 1
        seen["kept"] += len(kept)
        seen["dropped"] += bin(plain).count("1") - len(kept)

    def test_lists(self):
        chance = random.Random(11)
        seen = Counter()
        for _ in range(450):
            n = chance.choice([0, 1, 2, 3, 3, 4, 4, 5, 5, 6, 7])
            clauses, rows = generate.family(chance, n, (generate.cycles, generate.powers, generate.columns))
            host = opened(b"p cnf %d %d\n" % (n, len(clauses)) + b"".join(map(reference.clause_line, clauses)), 400, 120, 80)
            offers, idle_before = chance.choices(rows, k=chance.randint(1, 4)) + [generate.permutation(chance, n)], seen["idle"]
            chance.shuffle(offers)
            accepted, refused = offer_all(chance, host, n, offers, seen, 10)
            taken_back = chance.choice([0, 0, 1, 2, 3])
            for _ in range(taken_back):
                self.assertEqual(host.withdraw(), ("done",) if accepted else ("refused", 30, 0))
                seen["taken back", accepted != []] += 1
                accepted = accepted[:-1]
            if taken_back and last_number(host) <= 10:
                accepted += offer_all(chance, host, n, [chance.choice(rows)], seen)[0]
            self.assertEqual(held(host), accepted)
            self.assertFalse(any(map(generate.identity, held(host))))
            seen["idle line", accepted != []] += seen["idle"] > idle_before
            seen["rows", min(len(accepted), 2), refused > 0] += 1
            if chance.random() < 0.2:
                lend_identities(chance, host)
                accepted = held(host)
                seen["identity held"] += n > 0
            before = host.parts()
            self.whole(host, n, clauses, accepted, seen)
            self.assertEqual(host.parts(), before)
            seen.update(sort for row in accepted for sort in generate.sorts(row))
        for sort, least in [(("satisfiable", True), 200), (("satisfiable", False), 20), ("kept", 2000), ("dropped", 1000), ("spent", 2000),
                            ("false added", 2000), (("moves", 0), 1000), (("moves", 1), 1000), (("moves", 2), 300), (("moves", 3), 100),
                            (("rows", 1, True), 20), (("rows", 2, True), 80), (("taken back", True), 100), (("taken back", False), 20),
                            (("idle line", True), 50), (("idle line", False), 30), ("identity held", 50), *((sort, 20) for sort in generate.IDLE),
                            *((sort, 50) for sort in generate.SORTS), *((sort, 20) for sort in generate.SHAPES),
                            *((sort, 5) for sort in generate.CYCLES[:7]), *((sort, 10) for sort in generate.JUDGED)]:
            self.assertGreater(seen[sort], least, sort)

    def test_lent(self):
        """Lent rows, most of them no symmetries, so that all models may be dropped: kept are those that no row makes smaller, as by the longer form."""
        chance, seen = random.Random(16), Counter()
        for _ in range(400):
            n = chance.choice([1, 2, 3, 4, 4, 5, 5])
            clauses = generate.drawn(chance, n, 6)[0]
            rows = [generate.cycle(chance, n, chance.randint(1, n)) for _ in range(chance.randint(0, 2))] + [generate.permutation(chance, n)]
            host = holding(n, clauses, rows)
            (last, made), plain = made_formula(host), truth.models(n, clauses)
            kept = self.kept(host, n, rows, plain, truth.models(last, made))
            seen["kept"] += len(kept)
            seen["dropped"] += bin(plain).count("1") - len(kept)
            seen["all dropped"] += plain != 0 and not kept
            seen.update(sort for row in rows for sort in [*generate.sorts(row), ("symmetry", is_symmetry(clauses, row))])
        for sort, least in [("kept", 300), ("dropped", 500), ("all dropped", 5), (("symmetry", False), 100), (("symmetry", True), 50),
                            *((sort, 15) for sort in [*generate.SORTS, *generate.SHAPES]), *((sort, 5) for sort in generate.CYCLES[:9])]:
            self.assertGreater(seen[sort], least, sort)

    def test_always_true(self):
        """Formulas of which some clauses hold a pair, and lists of offers from all permutations of their variables: accepted are those that the reference finds
        to be symmetries, but for the identity, and demand 3 holds, also after a withdrawal."""
        chance, seen = random.Random(13), Counter()
        for _ in range(80):
            n = chance.choice([2, 3, 3, 4, 4])
            _, clauses, _ = generate.over_pairs(chance, n)
            rows = generate.every_row(n)
            kept = [row for row in rows if is_symmetry(clauses, row)]
            offers = chance.choices(kept, k=chance.randint(1, 3)) + chance.choices(rows, k=2)
            chance.shuffle(offers)
            host = opened(b"p cnf %d %d\n" % (n, len(clauses)) + b"".join(map(reference.clause_line, clauses)))
            accepted = []
            for row in offers:
                lines = [b" ".join(b"%d" % i for i in line) for line in (range(1, n + 1), row)]
                answer = host.offer(*lines)
                self.assertEqual(answer == ("refused", 31, 0), generate.identity(row))
                self.assertEqual(answer == ("done",), row in kept and not generate.identity(row))
                seen.update(judged(host, *lines, answer))
                accepted += [row] if answer == ("done",) else []
            self.whole(host, n, clauses, accepted, seen)
            self.assertEqual(host.withdraw(), ("done",) if accepted else ("refused", 30, 0))
            self.whole(host, n, clauses, accepted[:-1], seen)
        for sort, least in [(("satisfiable", True), 60), ("kept", 200), ("dropped", 200), *((sort, 5) for sort in generate.JUDGED)]:
            self.assertGreater(seen[sort], least, sort)

    def test_every_row(self):
        """Every permutation of up to three variables, with every choice of signs, alone and before another. Where there are no clauses all are symmetries, and
        only the identity is turned back; it is lent then."""
        chance, seen = random.Random(12), Counter()
        for n in [1, 2, 3]:
            rows = generate.every_row(n)
            for pair in ([row, chance.choice(rows)] for row in rows):
                host = opened(b"p cnf %d 0" % n)
                for count, row in enumerate(pair, 1):
                    still = generate.identity(row)
                    answer = host.offer(*(b" ".join(b"%d" % i for i in line) for line in (range(1, n + 1), row)))
                    self.assertEqual(answer, ("refused", 31, 0) if still else ("done",))
                    if still:
                        host.put(host.record._replace(rows=count), *host.parts()[1:4], generate.codes(pair[:count]) + host.images[count * n:])
                    self.whole(host, n, [], pair[:count], seen)
        self.assertGreater(seen["dropped"], 200)


if __name__ == "__main__":
    unittest.main()
