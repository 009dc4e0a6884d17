"""The exports against the reference: fixed seeds, ordinary and damaged input. Run by tests/run."""
import itertools
import random
import timeit
import unittest
from collections import Counter

import generate
import library
import reference
import tables
from agree import LIBRARY, Agree, counted, held, holding, idle, judged, lend_identities
from library import TOP

LISTING = b"p cnf 3 2\n1 2 0\n2 3 0\n"


def fresh(literals=128, ends=64, keys=64, images=256, entry=7):
    """A store that was never opened, with something in every entry."""
    return library.Host(LIBRARY, reference.new_record(), *([entry] * length for length in (literals, ends, keys, images)))


class Stores(Agree):
    """Opening and offers: the answer, the record and every entry of every lent slice."""

    def written(self, host, chance, answers):
        """The header and some clauses, into buffers that are long enough or not."""
        before = host.parts()
        text = b"" if reference.badly_formed(*before) or not before[0].open else reference.made_text(*before)
        lines = text.split(b"\n")
        for q in [None, 0, 1, len(lines) - 2, len(lines) - 1, chance.randrange(len(lines) + 1), TOP]:
            out = bytes(chance.randrange(256) for _ in range(chance.choice([64, 64, chance.randrange(24)])))
            self.count(answers, self.header(host, out) if q is None else self.clause(host, q, out))

    def test_new_record(self):
        record = LIBRARY.symbreak_new_record()
        self.assertEqual((record.variables, record.clauses, record.rows, bool(record.is_open)), tuple(reference.new_record()))

    def test_worked_cases(self):
        for names, values, expected in [(b"1 3", b"3 1", ("done",)), (b"1 2", b"2 1", ("refused", 11, 2)), (b"1 3", b"3", ("refused", 10, 1)),
                                        (b"1 3", b"3 3", ("refused", 10, 2)), (b"1 1", b"", ("refused", 8, 2)), (b"4", b"", ("refused", 8, 0))]:
            host = fresh()
            self.assertEqual(self.open(host, LISTING), ("done", 3, 2))
            self.assertEqual(self.offer(host, names, values), expected)
        self.assertEqual(self.open(fresh(), b"p cnf 0 0"), ("done", 0, 0))
        self.assertEqual(self.open(fresh(), b"p cnf 1 1\n-0 0"), ("refused", 3, 10))

    def test_limits(self):
        full = fresh(literals=12289, ends=4097, keys=4097)
        self.assertEqual(self.open(full, b"p cnf 512 0"), ("done", 512, 0))
        self.assertEqual(self.open(full, b"p cnf 513 0"), ("refused", 2, 0))
        self.assertEqual(self.open(full, b"p cnf 0 4096" + b"\n0" * 4096), ("done", 0, 4096))
        self.assertEqual(self.open(full, b"p cnf 0 4097" + b"\n0" * 4097), ("refused", 2, 0))
        self.assertEqual(self.open(full, b"p cnf 1 1\n" + b"1 " * 12288 + b"0"), ("done", 1, 1))
        self.assertEqual(self.open(full, b"p cnf 1 1\n" + b"1 " * 12289 + b"0"), ("refused", 5, 10 + 2 * 12288))
        self.assertEqual(self.open(fresh(literals=12287), b"p cnf 1 1\n" + b"1 " * 12288 + b"0"), ("refused", 23, 12288))
        self.assertEqual(self.open(fresh(ends=4095, keys=4096), b"p cnf 0 4096" + b"\n0" * 4096), ("refused", 23, 4096))
        self.assertEqual(self.open(fresh(ends=4096, keys=4095), b"p cnf 0 4096" + b"\n0" * 4096), ("refused", 23, 4096))
        rows = fresh(images=2 * 64)
        self.open(rows, b"p cnf 2 1\n1 2 0\n")
        for _ in range(64):
            self.assertEqual(self.offer(rows, b"1 2", b"2 1"), ("done",))
        self.assertEqual(self.offer(rows, b"1 2", b"2 1"), ("refused", 22, 0))
        short = fresh(images=3)
        self.open(short, b"p cnf 2 1\n1 2 0\n")
        self.assertEqual(self.offer(short, b"1 2", b"2 1"), ("done",))
        self.assertEqual(self.offer(short, b"1 2", b"2 1"), ("refused", 23, 4))

    def test_largest(self):
        """A formula at all the limits, with a permutation that keeps it."""
        clauses = [[1 + i % 512, -(1 + (i * 7) % 512), 1 + (i * 11) % 512] for i in range(2048)]
        swaps = generate.swaps(512)
        clauses = [each for clause in clauses for each in (clause, generate.image(clause, swaps))]
        host = fresh(literals=12288, ends=4096, keys=4096, images=1024)
        self.assertEqual(self.open(host, generate.text(random.Random(3), 512, clauses)), ("done", 512, 4096))
        names = b" ".join(b"%d" % i for i in range(1, 513))
        self.assertEqual(self.offer(host, names, b" ".join(b"%d" % i for i in swaps)), ("done",))
        self.assertEqual(self.offer(host, b"1 2", b"2 1")[1], 11)

    def test_random(self):
        chance = random.Random(4)
        answers, lines, figures, accepted = {}, {}, {}, Counter()
        for _ in range(2500):
            n = chance.choice([0, 1, 2, 3, 4, 5, 6, 9])
            clauses, rows = generate.formula(chance, n, 12)
            text = generate.text(chance, n, clauses)
            sizes = [128, 128, 128, chance.randrange(50)], [64, 64, chance.randrange(18)], [64, 64, chance.randrange(18)], [256, 256, chance.randrange(40)]
            host = fresh(*map(chance.choice, sizes))
            if chance.random() < 0.3:
                text = generate.damaged(chance, text)
            self.count(answers, self.open(host, text))
            if chance.random() < 0.15:
                lend_identities(chance, host)
            for row in rows + [generate.permutation(chance, n)]:
                named = [i for i in range(1, n + 1) if row[i - 1] != i or chance.random() < 0.3]
                chance.shuffle(named)
                names, values = generate.line(chance, named), generate.line(chance, [row[i - 1] for i in named])
                if n and chance.random() < 0.15:
                    names, values = generate.idle_lines(chance, n)
                if chance.random() < 0.2:
                    names = generate.damaged(chance, names)
                if chance.random() < 0.2:
                    values = generate.damaged(chance, values)
                if chance.random() < 0.2:
                    host.put(*generate.damaged_store(chance, *host.parts()))
                answer = self.offer(host, names, values)
                self.count(answers, answer)
                accepted.update(generate.sorts(held(host)[-1]) if answer == ("done",) else [])
                accepted.update(judged(host, names, values, answer) + idle(host, names, values, answer))
                accepted["beside an identity"] += answer[1:2] not in [(20,), (21,)] and any(map(generate.identity, held(host)))
            self.written(host, chance, lines)
            self.count(figures, self.figures(host))
        for refusal in [None, 1, 2, 3, 4, 6, 7, 8, 9, 10, 11, 20, 21, 23, 31]:
            self.assertGreater(answers.get(refusal, 0), 5, refusal)
        for refusal in [None, 13, 20, 21, 23]:
            self.assertGreater(lines.get(refusal, 0), 5, refusal)
        for refusal in [None, 20, 21]:
            self.assertGreater(figures.get(refusal, 0), 100, refusal)
        for sort, least in [*((sort, 50) for sort in generate.SORTS), *((sort, 30) for sort in [*generate.SHAPES, *generate.JUDGED, *generate.IDLE]),
                            *((sort, 5) for sort in generate.CYCLES[:7]), ("idle without room", 20), ("beside an identity", 200)]:
            self.assertGreater(accepted[sort], least, sort)

    def count(self, answers, answer):
        number = answer[1] if answer[0] == "refused" else None
        answers[number] = answers.get(number, 0) + 1


class Withdrawals(Agree):
    """CR 3: the newest row taken back."""

    def test_cases(self):
        """20, then 21, then 30. The row's entries stay, and the next row is written over them with the same auxiliary."""
        host = fresh(images=4)
        self.assertEqual(self.withdraw(host), ("refused", 20, 0))
        self.open(host, b"p cnf 3 1\n1 2 3 0\n")
        self.assertEqual(self.withdraw(host), ("refused", 30, 0))
        self.assertEqual(self.offer(host, b"1 2 3", b"2 3 1"), ("done",))
        self.assertEqual((host.header(bytes(12))[1], host.clause(7, bytes(12))[1]), (b"p cnf 4 7\n\0\0", b"-4 -2 3 0\n\0\0"))
        self.assertEqual(self.offer(host, b"1 2 3", b"3 1 2"), ("refused", 23, 6))
        self.assertEqual(self.withdraw(host), ("done",))
        self.assertEqual((host.record.rows, host.images[:]), (0, [4, 6, 2, 7]))
        self.assertEqual(self.withdraw(host), ("refused", 30, 0))
        self.assertEqual(self.offer(host, b"1 2 3", b"3 1 2"), ("done",))
        self.assertEqual((host.record.rows, host.images[:]), (1, [6, 2, 4, 7]))
        self.assertEqual((host.header(bytes(12))[1], host.clause(7, bytes(12))[1]), (b"p cnf 4 7\n\0\0", b"-4 -2 1 0\n\0\0"))

    def test_order(self):
        """20 before 21 before 30, with every choice of reasons."""
        for closed, damaged, empty in itertools.product([False, True], repeat=3):
            record, literals, ends = reference.Record(3, 2, 0 if empty else 1, not closed), [2, 4, 4, 8 if damaged else 6], [2, 4]
            host = library.Host(LIBRARY, record, literals, ends, generate.keys_of(literals, ends), [6, 4, 2])
            expected = 20 if closed else 21 if damaged else 30 if empty else None
            self.assertEqual(self.withdraw(host), ("refused", expected, 0) if expected else ("done",))

    def test_full(self):
        """After 64 rows, a withdrawal makes room for one; a damaged newest row is 21, and so it stays; an identity in its place is taken back."""
        host = fresh(images=2 * 64)
        self.open(host, b"p cnf 2 1\n1 2 0\n")
        for _ in range(64):
            self.offer(host, b"1 2", b"2 1")
        self.assertEqual(self.offer(host, b"1 2", b"1 2"), ("refused", 22, 0))
        self.assertEqual(self.withdraw(host), ("done",))
        self.assertEqual(self.offer(host, b"1 2", b"1 2"), ("refused", 31, 0))
        self.assertEqual(self.offer(host, b"1 2", b"2 1"), ("done",))
        self.assertEqual(host.images[126:], [4, 2])
        for damage in [4, 5]:
            host.images[127] = damage
            self.assertEqual(self.withdraw(host), ("refused", 21, 0))
        host.images[126:] = [2, 4]
        for left in reversed(range(64)):
            self.assertEqual((self.withdraw(host), host.record.rows), (("done",), left))
        self.assertEqual(self.withdraw(host), ("refused", 30, 0))

    def listed(self, chance, host, n, rows, seen):
        """A list of offers and withdrawals, each compared with the reference, at times with a longer images slice after a 23; the offers accepted and not taken
        back."""
        left = []
        for _ in range(chance.randint(1, 12)):
            if chance.random() < 0.4:
                answer = self.withdraw(host)
                if answer == ("done",):
                    left.pop()
            else:
                lines = generate.two_lines(chance, n, chance.choice(rows))
                lines = [generate.damaged(chance, line) if chance.random() < 0.1 else line for line in lines]
                answer = self.offer(host, *lines)
                seen.update(judged(host, *lines, answer) + idle(host, *lines, answer))
                if answer == ("done",):
                    left.append(lines)
                elif answer[1] == 23 and chance.random() < 0.5:
                    host.put(*host.parts()[:4], host.images[:] + [7] * chance.randint(1, 3 * n))
                    seen["lent"] += 1
            seen[answer[1] if answer[0] == "refused" else "done"] += 1
        return left

    def test_lists(self):
        """After a list of offers and withdrawals, record, rows in use and text are those of a store that got only the offers accepted and not taken back, with
        room for their rows and no more. No row held moves nothing."""
        chance = random.Random(6)
        seen = Counter()
        for _ in range(600):
            n = chance.choice([0, 1, 2, 3, 4, 6])
            clauses, rows = generate.cycles(chance, n, 12)
            text = generate.text(chance, n, clauses)
            host = fresh(images=chance.choice([n * 20, n * 20, chance.randrange(n * 4 + 1)]))
            if self.open(host, text)[0] == "refused":
                continue
            idle_before = seen["idle"]
            left = self.listed(chance, host, n, rows + [generate.permutation(chance, n)], seen)
            self.assertFalse(any(map(generate.identity, held(host))))
            other = fresh(images=len(left) * n, entry=8)
            other.open(text)
            for lines in left:
                self.assertEqual(other.offer(*lines), ("done",))
            used = host.record.rows * n
            self.assertEqual((other.record, other.images[:used]), (host.record, host.images[:used]))
            self.assertEqual(reference.made_text(*other.parts()), reference.made_text(*host.parts()))
            self.assertEqual(other.figures(), self.figures(host))
            seen["left", min(len(left), 2)] += 1
            seen["left after an idle line", left != []] += seen["idle"] > idle_before
            seen.update(sort for row in held(host) for sort in generate.sorts(row))
        for sort in ["done", 11, 23, 30, 31, "lent", ("left", 0), ("left", 1), ("left", 2), *generate.SORTS, *generate.JUDGED, *generate.IDLE,
                     *(("left after an idle line", some) for some in (False, True))]:
            self.assertGreater(seen[sort], 20, sort)
        for sort in [*generate.SHAPES, *generate.CYCLES[:5]]:
            self.assertGreater(seen[sort], 5, sort)

    def test_damaged(self):
        """Lists on stores that are damaged between two calls, at times after identities were put in."""
        chance = random.Random(7)
        seen = Counter()
        for _ in range(600):
            n = chance.choice([1, 2, 3, 4, 6])
            clauses, rows = generate.cycles(chance, n, 12)
            host = fresh(images=n * 20)
            self.open(host, generate.text(chance, n, clauses))
            self.listed(chance, host, n, rows, Counter())
            if chance.random() < 0.4:
                lend_identities(chance, host)
            host.put(*generate.damaged_store(chance, *host.parts()))
            figures = self.figures(host)
            seen["figures", figures[1] if figures[0] == "refused" else "done"] += 1
            for answer in [self.taken_back(host, seen), self.offer(host, *generate.offers(chance, n, [chance.choice(rows)])), self.taken_back(host, seen)]:
                seen[answer[1] if answer[0] == "refused" else "done"] += 1
        for sort in ["done", 20, 21, 30, "an identity taken back", *(("figures", outcome) for outcome in ("done", 20, 21))]:
            self.assertGreater(seen[sort], 20, sort)

    def taken_back(self, host, seen):
        """A withdrawal; it is seen whether the row was an identity."""
        answer = self.withdraw(host)
        if answer == ("done",):
            at, n = host.record.rows * host.record.variables, host.record.variables
            seen["an identity taken back"] += host.images[at:at + n] == generate.codes([range(1, n + 1)])
        return answer


SQUARE = b"p cnf 3 4\n1 2 3 0\n1 -2 3 0\n-1 -2 3 0\n-1 2 3 0\n"  # which exchanges and negations of 1 and 2 keep

SIGNED = [
    ("one variable negated", b"1", b"-1", [3, 4, 6]),
    ("an exchange with a sign", b"1 2", b"-2 1", [5, 2, 6]),
    ("with two signs, names in falling order", b"2 1", b"-1 -2", [5, 3, 6]),
    ("all named, one of them staying", b"1 2 3", b"2 -1 3", [4, 3, 6]),
    ("no symmetry: one variable negated", b"3", b"-3", ("refused", 11, 1)),
    ("no symmetry: without a sign", b"1 3", b"3 1", ("refused", 11, 3)),
    ("no symmetry: with a sign", b"2 3", b"3 -2", ("refused", 11, 2)),
    ("no symmetry: with two signs", b"1 3", b"-3 -1", ("refused", 11, 1)),
    ("a size that is no name", b"1 3", b"-2 1", ("refused", 10, 0)),
    ("a size beyond n", b"1 2", b"-1 -4", ("refused", 10, 3)),
    ("a size of six digits", b"1 2", b"-999999 1", ("refused", 10, 0)),
    ("a size twice, with two signs", b"1 2", b"2 -2", ("refused", 10, 2)),
    ("the same, the negative one first", b"1 2", b"-2 2", ("refused", 10, 3)),
    ("a negative value twice", b"1 2", b"-2 -2", ("refused", 10, 3)),
    ("a value too few", b"1 2", b"-2", ("refused", 10, 2)),
    ("a value more", b"1 2", b"-2 -1 1", ("refused", 10, 6)),
    ("value 0", b"1 2", b"-2 0", ("refused", 10, 3)),
    ("value -0", b"1 2", b"-2 -0", ("refused", 9, 3)),
    ("a minus more", b"1 2", b"2 --1", ("refused", 9, 2)),
    ("a minus alone after a size twice", b"1 2", b"2 -2 -", ("refused", 9, 5)),
    ("a negative name", b"1 -2", b"-2 1", ("refused", 8, 2)),
    ("name -0", b"-0", b"-1", ("refused", 7, 0)),
]


class Offers(Agree):
    def offered(self, text, cases):
        """Two lines offered to this formula, case by case, and the row that is then held, or the refusal."""
        for name, names, values, expected in cases:
            with self.subTest(name):
                host, accepted = fresh(images=4), isinstance(expected, list)
                self.open(host, text)
                self.assertEqual(self.offer(host, names, values), ("done",) if accepted else expected)
                self.assertEqual((host.record.rows, host.images[:]), (1, [*expected, 7]) if accepted else (0, [7] * 4))


class Signs(Offers):
    """CR 6: permutations that turn signs."""

    def test_offers(self):
        self.offered(SQUARE, SIGNED)

    def test_sign_from_both(self):
        """The image of a negative literal by a negative value is positive."""
        for text, names, values, expected in [(b"p cnf 2 1\n-1 2 0", b"1 2", b"-2 -1", ("done",)), (b"p cnf 2 1\n1 2 0", b"1 2", b"-2 -1", ("refused", 11, 1)),
                                              (b"p cnf 2 2\n1 2 0 2 -1 0", b"1", b"-1", ("done",)), (b"p cnf 2 2\n-1 -1 0 1 0", b"1", b"-1", ("done",)),
                                              (b"p cnf 2 3\n1 2 0 2 -1 0 1 0", b"1", b"-1", ("refused", 11, 3))]:
            host = fresh()
            self.open(host, text)
            self.assertEqual(self.offer(host, names, values), expected, text)

    def test_lines(self):
        """The clauses of a row that moves one variable, of one that exchanges two with a sign, and of two that send a variable to its own negation and exchange
        the others, without a sign and with one."""
        host = fresh()
        self.open(host, b"p cnf 3 0")
        for values in [b"-1 2 3", b"-2 1 3", b"3 -2 1", b"3 -2 -1"]:
            self.assertEqual(self.offer(host, b"1 2 3", values), ("done",))
        expected = [b"p cnf 7 25", b"-1 -1 0", b"-1 -2 0", b"-4 -1 -2 0", b"-4 1 2 0", b"4 1 -2 0", b"4 -1 2 0", b"-4 -2 1 0",
                    b"-1 3 0", b"-5 -1 3 0", b"-5 1 -3 0", b"5 1 3 0", b"5 -1 -3 0", b"-5 -2 -2 0",
                    b"-1 3 0", b"-6 -1 3 0", b"-6 1 -3 0", b"6 1 3 0", b"6 -1 -3 0", b"-6 -2 -2 0",
                    b"-7 6 0", b"-7 -2 -2 0", b"-7 2 2 0", b"7 -6 2 -2 0", b"7 -6 -2 2 0", b"-7 -3 -1 0"]
        for q, line in enumerate(expected):
            for room in [len(line), len(line) + 1, 20]:
                answer = self.clause(host, q, bytes(room)) if q else self.header(host, bytes(room))
                self.assertEqual(answer, ("done", len(line) + 1) if room > len(line) else ("refused", 23, len(line) + 1), line)
            self.assertEqual((host.clause(q, bytes(20)) if q else host.header(bytes(20)))[1].rstrip(b"\0"), line + b"\n")
        self.assertEqual(self.clause(host, 26, bytes(20)), ("refused", 13, 0))

    def test_single_clauses(self):
        """64 rows that move one variable each: 64 clauses, and no auxiliary. A withdrawal takes one clause."""
        host = fresh(images=128)
        self.open(host, b"p cnf 2 0")
        for _ in range(32):
            self.assertEqual((self.offer(host, b"1", b"-1"), self.offer(host, b"2", b"-2")), (("done",), ("done",)))
        self.assertEqual(self.offer(host, b"1", b"-1"), ("refused", 22, 0))
        self.assertEqual((host.header(bytes(12))[1], host.clause(64, bytes(9))[1]), (b"p cnf 2 64\n\0", b"-2 -2 0\n\0"))
        self.assertEqual((self.withdraw(host), host.header(bytes(12))[1]), (("done",), b"p cnf 2 63\n\0"))
        self.assertEqual((self.clause(host, 63, bytes(9)), self.clause(host, 64, bytes(9))), (("done", 8), ("refused", 13, 0)))


# Rows of a store without clauses, and the lines of its made formula without their zeros, worked out by hand.
SHORTER = [
    ("the identity", [[1, 2, 3]], [b"p cnf 3 0"]),
    ("an exchange", [[2, 1]], [b"p cnf 2 1", b"-1 2"]),
    ("an exchange with two signs", [[1, -3, -2]], [b"p cnf 3 1", b"-2 -3"]),
    ("an exchange with one sign", [[2, -1]], [b"p cnf 3 6", b"-1 2", b"-3 -1 2", b"-3 1 -2", b"3 1 2", b"3 -1 -2", b"-3 -2 -1"]),
    ("a variable to its negation", [[1, -2]], [b"p cnf 2 1", b"-2 -2"]),
    ("three on", [[2, 3, 1]], [b"p cnf 4 6", b"-1 2", b"-4 -1 2", b"-4 1 -2", b"4 1 2", b"4 -1 -2", b"-4 -2 3"]),
    ("three back", [[3, 1, 2]], [b"p cnf 4 6", b"-1 3", b"-4 -1 3", b"-4 1 -3", b"4 1 3", b"4 -1 -3", b"-4 -2 1"]),
    ("three with two signs", [[-2, 3, -1]], [b"p cnf 4 6", b"-1 -2", b"-4 -1 -2", b"-4 1 2", b"4 1 -2", b"4 -1 2", b"-4 -2 3"]),
    ("three with one sign", [[2, 3, -1]], [b"p cnf 5 12", b"-1 2", b"-4 -1 2", b"-4 1 -2", b"4 1 2", b"4 -1 -2", b"-4 -2 3",
                                           b"-5 4", b"-5 -2 3", b"-5 2 -3", b"5 -4 2 3", b"5 -4 -2 -3", b"-5 -3 -1"]),
    ("four, the largest in the middle", [[3, 4, 2, 1]], [b"p cnf 6 12", b"-1 3", b"-5 -1 3", b"-5 1 -3", b"5 1 3", b"5 -1 -3", b"-5 -2 4",
                                                         b"-6 5", b"-6 -2 4", b"-6 2 -4", b"6 -5 2 4", b"6 -5 -2 -4", b"-6 -3 2"]),
    ("two exchanges", [[2, 1, 4, 3]], [b"p cnf 5 6", b"-1 2", b"-5 -1 2", b"-5 1 -2", b"5 1 2", b"5 -1 -2", b"-5 -3 4"]),
    ("two exchanges, the outer odd", [[4, 3, 2, -1]], [b"p cnf 6 12", b"-1 4", b"-5 -1 4", b"-5 1 -4", b"5 1 4", b"5 -1 -4", b"-5 -2 3",
                                                       b"-6 5", b"-6 -2 3", b"-6 2 -3", b"6 -5 2 3", b"6 -5 -2 -3", b"-6 -4 -1"]),
    ("two odd exchanges", [[-2, 1, 4, -3]], [b"p cnf 7 18", b"-1 -2", b"-5 -1 -2", b"-5 1 2", b"5 1 -2", b"5 -1 2", b"-5 -2 1",
                                             b"-6 5", b"-6 -2 1", b"-6 2 -1", b"6 -5 2 1", b"6 -5 -2 -1", b"-6 -3 4",
                                             b"-7 6", b"-7 -3 4", b"-7 3 -4", b"7 -6 3 4", b"7 -6 -3 -4", b"-7 -4 -3"]),
    ("rows one after the other", [[2, 3, 1, 4], [2, 1, 3, 4], [1, 2, 3, 4], [4, 2, 3, -1], [1, 2, -3, 4], [1, 3, 4, 2]],
     [b"p cnf 7 20", b"-1 2", b"-5 -1 2", b"-5 1 -2", b"5 1 2", b"5 -1 -2", b"-5 -2 3", b"-1 2",
      b"-1 4", b"-6 -1 4", b"-6 1 -4", b"6 1 4", b"6 -1 -4", b"-6 -4 -1", b"-3 -3", b"-2 3", b"-7 -2 3", b"-7 2 -3", b"7 2 3", b"7 -2 -3", b"-7 -3 4"]),
]


class Shorter(Agree):
    """CR 9: of each even cycle the largest variable is left out."""

    def lines(self, host, header, lines):
        """The exports write this header and these lines into room that is just enough, and refuse less; there is no clause after the last."""
        for q, line in enumerate([header, *lines]):
            for room in [len(line), len(line) + 1]:
                answer, out = host.clause(q, bytes(room)) if q else host.header(bytes(room))
                self.assertEqual((answer, out), (("done", room), line + b"\n") if room > len(line) else (("refused", 23, room + 1), bytes(room)))
        self.assertEqual(self.clause(host, len(lines) + 1, bytes(64)), ("refused", 13, 0))

    def test_lines(self):
        for name, rows, (header, *lines) in SHORTER:
            with self.subTest(name):
                self.lines(holding(len(rows[0]), [], rows), header, [line + b" 0" for line in lines])

    def test_every_row(self):
        """Every row of up to four variables, with every choice of signs."""
        chance = random.Random(17)
        for row in (row for n in range(1, 5) for row in generate.every_row(n)):
            self.as_reference(chance, holding(len(row), [], [row]))

    def test_random(self):
        """Made formulas with rows that are symmetries or not."""
        chance, seen = random.Random(15), Counter()
        for n in [*range(1, 13)] * 30 + [63, 64, 65, 130]:
            rows = [generate.cycle(chance, n, chance.randint(1, n)) for _ in range(chance.randint(0, 3))] + [generate.permutation(chance, n)]
            self.as_reference(chance, holding(n, generate.drawn(chance, n, 3)[0], rows))
            seen.update(sort for row in rows for sort in generate.sorts(row))
        for sort, least in [*((sort, 20) for sort in [*generate.SORTS, *generate.SHAPES]), *((sort, 10) for sort in generate.CYCLES)]:
            self.assertGreater(seen[sort], least, sort)

    def test_exchanges(self):
        """64 exchanges: 64 clauses, and no auxiliary. A withdrawal takes one clause; in its place an exchange with a sign adds six, and an auxiliary."""
        host = fresh(images=128)
        self.open(host, b"p cnf 2 0")
        for _ in range(64):
            self.assertEqual(self.offer(host, b"1 2", b"2 1"), ("done",))
        self.assertEqual((host.header(bytes(12))[1], host.clause(64, bytes(8))[1]), (b"p cnf 2 64\n\0", b"-1 2 0\n\0"))
        self.assertEqual((self.withdraw(host), host.header(bytes(12))[1]), (("done",), b"p cnf 2 63\n\0"))
        self.assertEqual((self.clause(host, 63, bytes(8)), self.clause(host, 64, bytes(8))), (("done", 7), ("refused", 13, 0)))
        self.assertEqual((self.offer(host, b"1 2", b"2 -1"), host.header(bytes(12))[1]), (("done",), b"p cnf 3 69\n\0"))
        self.assertEqual(host.clause(69, bytes(11))[1], b"-3 -2 -1 0\n")

    def test_pairs(self):
        """All variables exchanged in pairs: neighbours, the first and the last and so on, or each with the one half way on, also with all signs."""
        for n in [2, 4, 6, 64, 128, 512]:
            for row in [generate.swaps(n), list(range(n, 0, -1)), generate.shifted(n, n // 2), generate.shifted(n, n // 2, range(1, n + 1))]:
                header = self.as_reference(random.Random(n), holding(n, [], [row]))[0]
                self.assertEqual(header, b"p cnf %d %d\n" % ((n + n // 2 - 1, 6 * (n // 2 - 1)) if n > 2 else (2, 1)))

    def test_long(self):
        """One cycle through 512 variables, on or back, even or odd, with few signs or many: 511 are left, or all."""
        for row, k, line in [(generate.shifted(512, 1), 511, b"-1022 -511 512 0\n"), (generate.shifted(512, -1), 511, b"-1022 -511 510 0\n"),
                             (generate.shifted(512, 1, [512]), 512, b"-1023 -512 -1 0\n"), (generate.shifted(512, -1, [1]), 512, b"-1023 -512 511 0\n"),
                             (generate.shifted(512, -1, [1, 512]), 511, b"-1022 -511 510 0\n"),
                             (generate.shifted(512, 1, range(1, 513)), 511, b"-1022 -511 -512 0\n"),
                             (generate.shifted(512, 1, range(2, 513)), 512, b"-1023 -512 -1 0\n")]:
            self.assertEqual(self.as_reference(random.Random(k), holding(512, [], [row]))[::6 * (k - 1)], [b"p cnf %d %d\n" % (511 + k, 6 * (k - 1)), line])

    def test_limits(self):
        """64 rows of one cycle of 512 variables each: all odd, which gives the largest N and M, all even, or in turn. An odd row adds 511 auxiliaries, an even
        one 510."""
        odd, even = [generate.shifted(512, by, [512]) for by in range(1, 128, 2)], [generate.shifted(512, -by) for by in range(1, 128, 2)]
        mixed = [each for pair in zip(odd[:32], even) for each in pair]
        for rows, added, line in [(odd, 64 * 511, b"-33216 -512 -127 0\n"), (even, 64 * 510, b"-33152 -511 384 0\n"),
                                  (mixed, 32 * 511 + 32 * 510, b"-33184 -511 448 0\n")]:
            host, count = holding(512, [[1, -1, 512]] * 4096, rows), 4096 + 6 * added
            self.assertEqual((self.header(host, bytes(19)), host.header(bytes(19))[1]), (("done", 19), b"p cnf %d %d\n" % (512 + added, count)))
            self.assertEqual((self.clause(host, count, bytes(len(line))), host.clause(count, bytes(len(line)))[1]), (("done", len(line)), line))
            self.assertEqual(self.clause(host, count + 1, bytes(20)), ("refused", 13, 0))


EXCHANGED, NEGATED = (b"1 2", b"2 1"), (b"2", b"-2")

# Clauses over three variables, two lines, and the place of 11, or 0; but for those marked, it was another before CR 7.
ALWAYS_TRUE = [
    ("alone", b"1 -1 3 0", EXCHANGED, 0),
    ("first", b"2 -2 3 0 1 0 2 0", EXCHANGED, 0),
    ("in the middle", b"1 0 2 -2 3 0 2 0", EXCHANGED, 0),
    ("last", b"1 0 2 0 2 -2 3 0", EXCHANGED, 0),
    ("everywhere", b"1 -1 0 1 0 3 -3 2 0 2 0 1 -1 3 0", EXCHANGED, 0),
    ("the pair alone, the negative literal first", b"-1 1 0", EXCHANGED, 0),
    ("the pair at both ends", b"1 2 3 -1 0", EXCHANGED, 0),
    ("the pair apart and not first", b"3 1 -2 -1 0", EXCHANGED, 0),
    ("a pair and a repeat", b"1 -1 1 0", EXCHANGED, 0),
    ("repeats and a pair", b"1 1 1 3 -1 -1 0", EXCHANGED, 0),
    ("two pairs", b"1 3 -1 -3 0", EXCHANGED, 0),
    ("a pair that stays beside a literal that moves", b"3 1 -3 0", EXCHANGED, 0),
    ("a pair that is negated stays (as before)", b"2 -2 1 0", NEGATED, 0),
    ("a pair beside a literal that is negated", b"1 -1 2 0", NEGATED, 0),
    ("a symmetry that turns a sign", b"1 2 0 3 2 -3 0 -2 1 0", NEGATED, 0),
    ("onto another (as before)", b"1 -1 3 0 3 2 -2 0", EXCHANGED, 0),
    ("onto another, and another onto none", b"1 -1 0 2 -2 0 2 -2 3 0", EXCHANGED, 0),
    ("beside the empty clause", b"0 1 -1 0", EXCHANGED, 0),
    ("after two", b"1 -1 0 3 -3 2 0 1 3 0 2 0", EXCHANGED, 3),
    ("between two", b"1 -1 0 1 3 0 3 -3 2 0", EXCHANGED, 2),
    ("before one (as before)", b"1 3 0 1 -1 0", EXCHANGED, 1),
    ("after one and equal sets", b"1 0 2 2 0 1 -1 0 -1 0 -1 0", EXCHANGED, 4),
    ("after one and the empty clause", b"1 -1 0 0 1 0", EXCHANGED, 3),
    ("after one, for its sign", b"3 2 -3 0 -2 1 0", NEGATED, 2),
    ("a repeat is no pair", b"1 -1 0 3 1 3 0", EXCHANGED, 2),
    ("a pair in two clauses is none (as before)", b"1 0 -1 0", EXCHANGED, 1),
    ("an image with a pair more", b"2 1 -1 0 2 3 -3 0 1 0", EXCHANGED, 3),
    ("an image with a negation more", b"1 2 -2 0 1 2 0 1 0", EXCHANGED, 3),
]


class AlwaysTrue(Agree):
    """CR 7: offers are judged without the clauses that hold a pair."""

    def test_cases(self):
        for name, body, lines, place in ALWAYS_TRUE:
            with self.subTest(name):
                host = fresh(images=4)
                self.assertEqual(self.open(host, b"p cnf 3 %d\n%b" % (body.split().count(b"0"), body))[0], "done")
                self.assertEqual(self.offer(host, *lines), ("refused", 11, place) if place else ("done",))

    def test_lines(self):
        """Such clauses are written out as they were read and counted; the checking call counts them too."""
        host = fresh()
        self.open(host, b"p cnf 3 5\n3 -3 3 0 1 2 0 -1 -1 1 2 0 2 3 0 -2 1 2 0")
        self.assertEqual(self.offer(host, b"1 3", b"3 1"), ("done",))
        lines = [b"p cnf 3 6", b"3 -3 3 0", b"1 2 0", b"-1 -1 1 2 0", b"2 3 0", b"-2 1 2 0", b"-1 3 0"]
        for q, line in enumerate(lines):
            self.assertEqual(self.clause(host, q, bytes(20)) if q else self.header(host, bytes(20)), ("done", len(line) + 1))
            self.assertEqual((host.clause(q, bytes(20)) if q else host.header(bytes(20)))[1].rstrip(b"\0"), line + b"\n")
        for digits, clause in [("000", 2), ("001", 2), ("010", 0), ("011", 0), ("100", 4), ("101", 0), ("110", 6), ("111", 0)]:
            self.assertEqual(self.check(host, [int(digits, 2) << 61]), ("done", clause), digits)

    def test_wrong_keys(self):
        """A wrong key of such a clause is 21 in an offer, though the clause is not judged, and in a withdrawal."""
        for at, wrong in itertools.product([0, 2], [0, 1, 2 ** 63]):
            host = fresh()
            self.open(host, b"p cnf 3 3\n1 -1 2 0 1 2 0 -2 2 -2 0")
            self.assertEqual(self.offer(host, *EXCHANGED), ("done",))
            host.keys[at] = host.keys[at] ^ wrong if wrong else 0
            self.assertEqual((self.offer(host, *EXCHANGED), self.withdraw(host)), (("refused", 21, 0),) * 2)

    def test_only_such(self):
        """Where all clauses hold a pair, every permutation of three variables is accepted, with every choice of signs; only the identity is turned back."""
        host = fresh(images=3 * 47)
        self.open(host, b"p cnf 3 4\n1 -1 0 1 -1 2 0 -2 3 2 1 0 3 2 1 -3 0")
        for sizes, turn in itertools.product(itertools.permutations([1, 2, 3]), itertools.product([1, -1], repeat=3)):
            values = b" ".join(b"%d" % (size * sign) for size, sign in zip(sizes, turn))
            self.assertEqual(self.offer(host, b"1 2 3", values), ("refused", 31, 0) if values == b"1 2 3" else ("done",))
        self.assertEqual((host.record.rows, len(set(map(tuple, held(host))))), (47, 47))

    def test_limits(self):
        """12,288 literals, in clauses as long as they can be or as many. An offer's time is linear: it is not ten times that of the same lines offered where
        there are no clauses."""
        everything = [sign * i for i in range(1, 513) for sign in (1, -1)] * 12
        far = [1, *(2 + i % 511 for i in range(12286)), -1]
        positive = [1 + i % 511 for i in range(12288)]
        pairs = [[1 + i % 256, -(1 + i % 256), 1 + (5 * i + i // 256) % 512] for i in range(4096)]
        halves = [*range(257, 513), *range(1, 257)]
        self.assertTrue({frozenset(generate.image(clause, halves)) for clause in pairs}.isdisjoint(map(frozenset, pairs)))
        for name, clauses, row, place in [("every literal", [everything], generate.swaps(512), 0), ("a pair at both ends", [far], [-512, *range(2, 512), 1], 0),
                                          ("no pair", [positive], halves, 1), ("no pair, a literal to its negation", [positive], [-1, *range(2, 513)], 1),
                                          ("a half with pairs, a half without", [everything[:6144], positive[:6144]], halves, 2),
                                          ("many", pairs, halves, 0), ("many, then one without", pairs[:-1] + [[1, 2, 3]], halves, 4096)]:
            with self.subTest(name):
                host, empty = (fresh(literals=12288, ends=4096, keys=4096, images=512 * 4) for _ in range(2))
                self.assertEqual(host.open(b"p cnf 512 %d\n" % len(clauses) + b"".join(map(reference.clause_line, clauses))), ("done", 512, len(clauses)))
                empty.open(b"p cnf 512 0")
                lines = [b" ".join(b"%d" % i for i in line) for line in (range(1, 513), row)]
                self.assertEqual(self.offer(host, *lines), ("refused", 11, place) if place else ("done",))
                long, short = (min(timeit.repeat(lambda: each.offer(*lines), number=1, repeat=3)) for each in (host, empty))
                self.assertLess(long, 10 * short)

    def test_random(self):
        """Clauses that a permutation keeps, but for some with a pair, at times with one without a pair after these."""
        chance = random.Random(14)
        seen = Counter()
        for _ in range(300):
            n = chance.choice([2, 3, 4, 5, 6, 9])
            row, clauses, place = generate.over_pairs(chance, n)
            host = fresh(literals=256)
            self.assertEqual(self.open(host, b"p cnf %d %d\n" % (n, len(clauses)) + b"".join(map(reference.clause_line, clauses))), ("done", n, len(clauses)))
            lines = generate.offers(chance, n, [row])
            answer = self.offer(host, *lines)
            self.assertEqual(answer, ("refused", 11, place) if place else ("done",), (clauses, row))
            seen.update(judged(host, *lines, answer))
            seen.update(generate.sorts(row) if answer == ("done",) else [])
        for sort, least in [*zip(generate.JUDGED, [120, 30, 10, 100, 20]), *((sort, 10) for sort in generate.SORTS)]:
            self.assertGreater(seen[sort], least, sort)


IDLE_LINES = [
    ("one name", b"2", b"2", ("refused", 31, 0)),
    ("two names in falling order", b"3 1", b"3 1", ("refused", 31, 0)),
    ("two that may not be exchanged", b"1 2", b"1 2", ("refused", 31, 0)),
    ("all names", b"1 2 3", b"1 2 3", ("refused", 31, 0)),
    ("all names in another order", b"2 3 1", b"2 3 1", ("refused", 31, 0)),
    ("blanks", b" 1\t3", b"\t1   3 \t", ("refused", 31, 0)),
    ("line feeds, which are blanks", b"1\n3", b"\n1 3\n", ("refused", 31, 0)),
    ("the same values in another order", b"1 3", b"3 1", [6, 4, 2]),
    ("one of three stays", b"1 2 3", b"3 2 1", [6, 4, 2]),
    ("the first of three stays", b"2 3 1", b"2 1 3", [6, 4, 2]),
    ("one of three stays, no symmetry", b"1 2 3", b"1 3 2", ("refused", 11, 1)),
    ("negated", b"1", b"-1", ("refused", 11, 1)),
    ("all negated", b"1 2 3", b"-1 -2 -3", ("refused", 11, 1)),
    ("the last of three negated", b"1 2 3", b"1 2 -3", ("refused", 11, 2)),
    ("a letter for a name", b"1 x", b"1 x", ("refused", 7, 2)),
    ("a leading zero", b"01", b"01", ("refused", 7, 0)),
    ("beyond n", b"1 4", b"1 4", ("refused", 8, 2)),
    ("a negative name", b"-1", b"-1", ("refused", 8, 0)),
    ("a name twice", b"1 1", b"1 1", ("refused", 8, 2)),
    ("no name", b"", b"", ("refused", 8, 0)),
    ("a letter after an equal value", b"1 2", b"1 x", ("refused", 9, 2)),
    ("a letter after all values", b"1 2", b"1 2 x", ("refused", 9, 4)),
    ("a plus", b"1 2", b"1 +2", ("refused", 9, 2)),
    ("a leading zero as a value", b"1 2", b"01 2", ("refused", 9, 0)),
    ("no value", b"1 2", b" ", ("refused", 10, 1)),
    ("a value too few", b"1 2", b"1", ("refused", 10, 1)),
    ("a value twice", b"1 2", b"1 1", ("refused", 10, 2)),
    ("a value that is no name", b"1 2", b"1 3", ("refused", 10, 2)),
    ("a value more", b"1 2", b"1 2 2", ("refused", 10, 4)),
    ("a value more, negated", b"1 2", b"1 2 -1", ("refused", 10, 4)),
]

STILL, SWAP, TURN = [2, 4, 6], [6, 4, 2], [4, 6, 2]


def lent(rows, is_open=True, literals=(2, 4, 4, 6), past=3):
    """The listing's formula with these images as its rows, and so many entries past them."""
    literals, ends = list(literals), [2, 4]
    return library.Host(LIBRARY, reference.Record(3, 2, len(rows), is_open), literals, ends, generate.keys_of(literals, ends), sum(rows, []) + [7] * past)


class Idle(Offers):
    """CR 8: value lines that move nothing are turned back, and identities in a lent store are not."""

    def test_cases(self):
        self.offered(LISTING, IDLE_LINES)

    def test_negated(self):
        """The value -i is not name i: where there are no clauses all negations are accepted."""
        host = fresh(images=9)
        self.open(host, b"p cnf 3 0")
        for names, values in [(b"1", b"-1"), (b"1 2 3", b"1 2 -3"), (b"3 1 2", b"-3 -1 -2")]:
            self.assertEqual(self.offer(host, names, values), ("done",))
        self.assertEqual((self.offer(host, b"1", b"1"), held(host)), (("refused", 31, 0), [[-1, 2, 3], [1, 2, -3], [-1, -2, -3]]))

    def test_order(self):
        """20, 21, 22, 8 and 10 go before 31, and 31 before 23, with every choice of reasons; 11 goes before 23 as well."""
        for closed, damaged, full, misnamed, misvalued, short in itertools.product([False, True], repeat=6):
            first = [refusal for refusal, holds in zip([(20, 0), (21, 0), (22, 0), (8, 4), (10, 4)], [closed, damaged, full, misnamed, misvalued]) if holds]
            for names, values, last in [(b"1 3", b"1 3", (31, 0)), (b"1 3", b"3 1", (23, 6)), (b"1 2", b"2 1", (11, 2))]:
                host = lent([SWAP] * (64 if full else 1), not closed, (2, 4, 4, 8 if damaged else 6), 2 if short else 3)
                refusal = (first + [last])[0]
                accepted = refusal == (23, 6) and not short
                self.assertEqual(self.offer(host, names + b" 4" * misnamed, values + b" 1" * misvalued), ("done",) if accepted else ("refused", *refusal))

    def test_every_line(self):
        """Every names line of three variables with every value line, where there are no clauses: 31 where the permutation that they state moves nothing."""
        host, seen = fresh(images=3), Counter()
        self.open(host, b"p cnf 3 0")
        for size in [1, 2, 3]:
            for names, values, turn in itertools.product(*[list(itertools.permutations([1, 2, 3], size))] * 2, itertools.product([1, -1], repeat=size)):
                if set(names) == set(values):
                    host.record = host.record._replace(rows=0)
                    lines = [b" ".join(b"%d" % i for i in line) for line in (names, [i * sign for i, sign in zip(values, turn)])]
                    still = generate.identity(generate.stated(3, *lines))
                    self.assertEqual(self.offer(host, *lines), ("refused", 31, 0) if still else ("done",), lines)
                    seen[size, still] += 1
        self.assertEqual(seen, {(1, True): 3, (1, False): 3, (2, True): 6, (2, False): 42, (3, True): 6, (3, False): 282})

    def test_largest(self):
        """512 names and as many equal values, one more, one too few; the last one negated, the last two exchanged."""
        host, names = fresh(images=1024), b" ".join(b"%d" % i for i in range(1, 513))
        self.open(host, b"p cnf 512 0")
        for values, answer in [(names, ("refused", 31, 0)), (names + b" 512", ("refused", 10, len(names) + 1)), (names[:-4], ("refused", 10, len(names) - 4)),
                               (names[:-3] + b"-512", ("done",)), (names[:-7] + b"512 511", ("done",)), (names, ("refused", 31, 0))]:
            self.assertEqual(self.offer(host, names, values), answer)

    def test_lent(self):
        """Identities in a lent store are well formed and add nothing; offers and withdrawals go on beside them."""
        for rows in [[STILL], [STILL, SWAP], [SWAP, STILL], [STILL, TURN], [STILL, SWAP, STILL, STILL, TURN], [TURN, STILL, SWAP, STILL, TURN]]:
            host, without = lent(rows), lent([row for row in rows if row != STILL])
            self.assertEqual(host.header(bytes(20)), without.header(bytes(20)))
            self.assertEqual(self.figures(host), self.figures(without))
            for q in range(1, 17):
                self.assertEqual(host.clause(q, bytes(20)), without.clause(q, bytes(20)))
            self.assertEqual((self.offer(host, b"1 3", b"1 3"), self.offer(host, b"1 3", b"3 1")), (("refused", 31, 0), ("done",)))
            self.assertEqual((host.record.rows, host.images[:]), (len(rows) + 1, sum(rows, []) + SWAP))
            self.assertEqual([self.withdraw(host) for _ in range(len(rows) + 2)], [("done",)] * (len(rows) + 1) + [("refused", 30, 0)])

    def test_64(self):
        """Identities count towards 64, also where there are no variables."""
        for identities in [1, 32, 63, 64]:
            host = lent([SWAP] * (64 - identities) + [STILL] * identities)
            for values in [b"3 1", b"1 3", b"x"]:
                self.assertEqual(self.offer(host, b"1 3", values), ("refused", 22, 0))
            self.assertEqual((self.withdraw(host), self.offer(host, b"1 3", b"1 3")), (("done",), ("refused", 31, 0)))
            self.assertEqual((self.offer(host, b"1 3", b"3 1"), self.offer(host, b"1 3", b"1 3")), (("done",), ("refused", 22, 0)))
            self.assertEqual((host.record.rows, host.header(bytes(13))[1].rstrip(b"\0")), (64, b"p cnf 3 %d\n" % (67 - identities)))
        empty = library.Host(LIBRARY, reference.Record(0, 0, 64, True), [], [], [], [])
        self.assertEqual((self.offer(empty, b"1", b"1"), self.withdraw(empty)), (("refused", 22, 0), ("done",)))
        self.assertEqual((self.offer(empty, b"1", b"1"), empty.record.rows), (("refused", 8, 0), 63))


NUMBERS = {1: 8399848799940609, -1: 24472253299388417, 2: 27429481777696769, -2: 47979604178350081, 3: 56431291722078209,
           512: 18413816788118036481, -512: 18434917261454266369}  # some of docs/KEYS.md
FIRST, SECOND = NUMBERS[1] + NUMBERS[2], NUMBERS[2] + NUMBERS[3]

WRONG_KEYS = [
    ("none", []),
    ("a key too few", [FIRST]),
    ("exchanged", [SECOND, FIRST]),
    ("the first twice", [FIRST, FIRST]),
    ("the second one place on", [FIRST, 0, SECOND]),
    ("a key 0", [0, SECOND]),
    ("the highest bit", [FIRST ^ 2 ** 63, SECOND]),
    ("the lowest bit", [FIRST, SECOND ^ 1]),
    ("a literal left out", [NUMBERS[1], SECOND]),
    ("a literal twice", [FIRST + NUMBERS[1], SECOND]),
    ("the negations", [NUMBERS[-1] + NUMBERS[-2], SECOND]),
    ("all literals so far", [FIRST, FIRST + SECOND]),
]


class Keys(Agree):
    """CR 5: a key for each clause."""

    def test_written(self):
        """Order and repeats make no difference, i and -i are two literals, the empty clause has 0, sums wrap at 2^64; entries past the clauses stay."""
        host, wrapped = fresh(keys=9), NUMBERS[512] + NUMBERS[-512] - 2 ** 64
        self.assertEqual(self.open(host, b"p cnf 512 7\n1 2 0 2 1 2 0 1 -1 0 0 1 -2 1 0 512 -512 0 -512 1 512 1 0"), ("done", 512, 7))
        self.assertEqual(host.keys[:], [FIRST, FIRST, NUMBERS[1] + NUMBERS[-1], 0, 56379452978290690, wrapped, wrapped + NUMBERS[1], 7, 7])
        self.assertEqual(self.open(host, LISTING), ("done", 3, 2))
        self.assertEqual(host.keys[:4], [FIRST, SECOND, NUMBERS[1] + NUMBERS[-1], 0])

    def test_short(self):
        """23 for literals, then for ends, then for keys, of which as many are needed; after 1 to 6."""
        self.assertEqual(self.open(fresh(4, 2, 2), LISTING), ("done", 3, 2))
        for lengths, needed in [((4, 2, 1), 2), ((4, 2, 0), 2), ((4, 1, 2), 2), ((4, 1, 1), 2), ((3, 2, 1), 4), ((3, 1, 1), 4)]:
            self.assertEqual(self.open(fresh(*lengths), LISTING), ("refused", 23, needed), lengths)
        self.assertEqual(self.open(fresh(keys=1), LISTING + b"x"), ("refused", 6, 22))
        self.assertEqual(self.open(fresh(keys=0), b"p cnf 3 0"), ("done", 3, 0))

    def every(self, host):
        """What every call that needs an open store answers. The store has a row, and the next offer has room."""
        yield self.header(host, bytes(20))
        yield self.clause(host, 1, bytes(20))
        yield self.fill_in(host, [0], [5])[0]
        yield self.check(host, [0])
        yield self.descend(host, [0], 1)[0]
        yield self.offer(host, b"1 3", b"3 1")
        yield self.withdraw(host)

    def test_wrong(self):
        """A key that is not its clause's, or a key too few, is 21 in every call, after 20."""
        for name, keys in WRONG_KEYS:
            for is_open, number in [(True, 21), (False, 20)]:
                with self.subTest(name, open=is_open):
                    host = library.Host(LIBRARY, reference.Record(3, 2, 1, is_open), [2, 4, 4, 6], [2, 4], keys, [6, 4, 2, 0, 0, 0])
                    self.assertEqual(list(self.every(host)), [("refused", number, 0)] * 7)
                    self.assertEqual(self.figures(host), ("refused", number, 0))

    def test_past(self):
        """Keys past those in use are not looked at."""
        for past in [[], [0], [TOP, FIRST, 1]]:
            host = library.Host(LIBRARY, reference.Record(3, 2, 1, True), [2, 4, 4, 6], [2, 4], [FIRST, SECOND, *past], [6, 4, 2, 0, 0, 0])
            self.assertEqual([answer[0] for answer in self.every(host)], ["done"] * 7)
            self.assertEqual(self.figures(host)[0], "done")

    def test_random(self):
        """Damaged stores: many are sound still, or would be with other keys."""
        chance = random.Random(8)
        seen = Counter()
        for _ in range(1000):
            n = chance.choice([1, 2, 3, 4, 6])
            clauses, rows = generate.cycles(chance, n, 12)
            chosen = chance.choices(rows, k=chance.randrange(3))
            chosen = generate.with_identities(chance, n, chosen) if chance.random() < 0.2 else chosen
            numbers, *slices = generate.store(chance, n, clauses, chosen, 1)
            record, literals, ends, keys, images = parts = generate.damaged_store(chance, reference.Record(*numbers), *slices)
            host = library.Host(LIBRARY, *parts)
            self.header(host, bytes(32))
            self.figures(host)
            self.offer(host, *generate.offers(chance, n, [chance.choice(rows)]))
            self.withdraw(host)
            right = generate.keys_of(literals, ends[:record.clauses])
            if not reference.badly_formed(*parts):
                seen["sound"] += 1
                seen["identity held"] += any(generate.identity([*row.values()]) for row in reference.rows_of(record, images))
            elif not reference.badly_formed(record, literals, ends, right, images):
                seen["a key too few" if len(keys) < record.clauses else "a wrong key"] += 1
                repeated = map(generate.summed, generate.clauses_of(literals, ends))
                seen["repeats counted"] += any(key == wrong != true for key, wrong, true in zip(keys, repeated, right))
                without = [q for q, clause in enumerate(generate.clauses_of(literals, ends[:record.clauses])) if not any(code ^ 1 in clause for code in clause)]
                seen["of clauses with a pair alone"] += all(keys[q:q + 1] == [right[q]] for q in without)
        for sort, least in [("sound", 300), ("identity held", 30), ("a wrong key", 100), ("a key too few", 10), ("repeats counted", 10),
                            ("of clauses with a pair alone", 30)]:
            self.assertGreater(seen[sort], least, sort)


# Variables, clauses and rows of a store, and its figures: variables, clauses, literals, and the bytes of its lines, counted by hand.
FIGURES = [
    ("nothing", 0, [], [], (0, 0, 0, 10)),
    ("no variables, empty clauses, and rows of none", 0, [[], []], [[], []], (0, 2, 0, 10 + 2 + 2)),
    ("an empty clause, a repeat and a pair", 2, [[1, -2], [], [2, 2, -2]], [], (2, 3, 5, 10 + 7 + 2 + 9)),
    ("nine clauses", 1, [[]] * 9, [], (1, 9, 0, 10 + 9 * 2)),
    ("ten clauses", 1, [[]] * 10, [], (1, 10, 0, 11 + 10 * 2)),
    ("nine clauses and a row's", 1, [[]] * 9, [[-1]], (1, 10, 2, 11 + 9 * 2 + 8)),
    ("a variable to its negation", 2, [], [[-1, 2]], (2, 1, 2, 10 + 8)),
    ("10 to its negation", 10, [], [[*range(1, 10), -10]], (10, 1, 2, 11 + 10)),
    ("an exchange", 2, [], [[2, 1]], (2, 1, 2, 10 + 7)),
    ("an exchange with two signs", 3, [], [[1, -3, -2]], (3, 1, 2, 10 + 8)),
    ("an exchange of 9 and 10", 10, [], [[*range(1, 9), 10, 9]], (10, 1, 2, 11 + 8)),
    ("an exchange of 99 and 100", 100, [], [[*range(1, 99), -100, -99]], (100, 1, 2, 12 + 11)),
    ("an odd exchange of 9 and 10", 10, [], [[*range(1, 9), 10, -9]], (11, 6, 17, 11 + 8 + 12 + 12 + 10 + 12 + 13)),
    ("identities", 3, [[1, 2], [2, 3]], [[1, 2, 3]] * 64, (3, 2, 4, 10 + 6 + 6)),
    ("identities beside the listing's row", 3, [[1, 2], [2, 3]], [[1, 2, 3], [3, 2, 1], [1, 2, 3]], (3, 3, 6, 10 + 6 + 6 + 7)),
    ("two left", 3, [], [[2, 3, 1]], (4, 6, 17, 10 + 7 + 10 + 10 + 8 + 10 + 10)),
    ("two left, with signs", 2, [], [[-1, -2]], (3, 6, 17, 10 + 8 + 11 + 9 + 9 + 9 + 11)),
    ("auxiliary 9", 8, [], [[2, 3, 1, *range(4, 9)]], (9, 6, 17, 10 + 55)),
    ("auxiliary 10", 9, [], [[2, 3, 1, *range(4, 10)]], (10, 6, 17, 11 + 7 + 11 + 11 + 9 + 11 + 11)),
    ("auxiliary 100", 99, [], [[2, 3, 1, *range(4, 100)]], (100, 6, 17, 12 + 65)),
    ("three left, 8 and 9", 7, [], [[2, 3, -1, *range(4, 8)]], (9, 12, 17 + 19, 11 + 55 + 7 + 10 + 10 + 11 + 13 + 11)),
    ("three left, 9 and 10", 8, [], [[2, 3, -1, *range(4, 9)]], (10, 12, 36, 12 + 55 + 8 + 11 + 11 + 12 + 14 + 12)),
    ("three left, 10 and 11", 9, [], [[2, 3, -1, *range(4, 10)]], (11, 12, 36, 12 + 60 + 9 + 11 + 11 + 13 + 15 + 12)),
    ("9 in a row, and 10 in the next", 8, [], [[2, 3, 1, *range(4, 9)]] * 2, (10, 12, 34, 12 + 55 + 60)),
    ("the same, and rows between that have no auxiliary", 8, [],
     [[2, 3, 1, *range(4, 9)], [*range(1, 9)], [-1, *range(2, 9)], [2, 3, 1, *range(4, 9)]], (10, 13, 36, 12 + 55 + 8 + 60)),
]


class Figures(Agree):
    """CR 10: the figures are those of what the header and clause calls write then."""

    def written(self, host, first=1):
        """The lines of the made formula from this clause on, as they are written until there is none."""
        lines = []
        for q in itertools.count(first):
            answer, out = host.clause(q, bytes(64))
            if answer[0] == "refused":
                self.assertEqual(answer, ("refused", 13, 0))
                return lines
            lines.append(out[:answer[1]])

    def header_line(self, host):
        (_, length), out = host.header(bytes(64))
        return out[:length]

    def as_written(self, host):
        """The figures, which are those of all lines."""
        answer = self.figures(host)
        self.assertEqual(answer, ("done", *counted(self.header_line(host) + b"".join(self.written(host)))), host.parts())
        return answer

    def as_text(self, chance, host):
        """The figures, which are those of the reference's text; of its lines some are compared with those written."""
        before, answer = host.parts(), host.figures()
        self.assertEqual((answer, host.parts()), (("done", *counted(b"".join(self.as_reference(chance, host)))), before))
        self.bounded(host, *answer[1:])
        return answer

    def grown(self, before, host):
        """The figures of a store are those that it has without its last rows, and what their lines have; beside that only the header is another."""
        (_, _, clauses, literals, size), old, header = before.figures(), self.header_line(before), self.header_line(host)
        lines, answer = self.written(host, clauses + 1), host.figures()
        self.assertEqual(answer, ("done", *map(int, header.split()[2:]), literals + sum(len(line.split()) - 1 for line in lines),
                                  size - len(old) + len(header) + sum(map(len, lines))), host.parts())
        self.assertEqual(answer[2], clauses + len(lines))
        self.bounded(host, *answer[1:])

    def test_listing(self):
        """Before the text is opened, then with its row, without it again, and after refusals."""
        host = fresh()
        self.assertEqual(self.figures(host), ("refused", 20, 0))
        for change, figures in [(lambda: self.open(host, LISTING), (3, 2, 4, 22)), (lambda: self.offer(host, b"1 2", b"2 1"), (3, 2, 4, 22)),
                                (lambda: self.offer(host, b"1 3", b"3 1"), (3, 3, 6, 29)), (lambda: self.offer(host, b"3 1", b"1 3"), (3, 4, 8, 36)),
                                (lambda: self.open(host, b"p cnf 513 0"), (3, 4, 8, 36)), (lambda: self.withdraw(host), (3, 3, 6, 29)),
                                (lambda: self.withdraw(host), (3, 2, 4, 22)), (lambda: self.withdraw(host), (3, 2, 4, 22)),
                                (lambda: self.open(host, b"p cnf 12 0"), (12, 0, 0, 11))]:
            change()
            self.assertEqual(self.as_written(host), ("done", *figures))

    def test_cases(self):
        for name, n, clauses, rows, figures in FIGURES:
            with self.subTest(name):
                self.assertEqual(self.as_written(holding(n, clauses, rows)), ("done", *figures))

    def test_refusals(self):
        """20 before 21, with every choice of reasons. Every flag but 0 is open."""
        for flag, damaged in itertools.product([0, 1, 2, 2 ** 32, TOP], [False, True]):
            host = lent([SWAP], flag, (2, 4, 4, 8 if damaged else 6))
            self.assertEqual(self.figures(host), ("refused", 21 if flag else 20, 0) if damaged or not flag else ("done", 3, 3, 6, 29))

    def test_random(self):
        """Clauses of every sort, and rows with cycles of every shape, symmetries or not."""
        chance, seen = random.Random(18), Counter()
        for n in [*range(14)] * 25:
            rows = [generate.cycle(chance, n, chance.randint(min(n, 1), n)) for _ in range(chance.randint(0, 3))] + [generate.permutation(chance, n)]
            host = holding(n, generate.formula(chance, n, 12)[0], rows if chance.random() < 0.8 else generate.with_identities(chance, n, rows))
            _, variables, clauses, _, _ = self.as_written(host)
            seen.update([("variables", n < 10 <= variables), ("clauses", host.record.clauses < 100 <= clauses)])
            seen.update(sort for row in held(host) for sort in generate.sorts(row))
            seen["identity"] += n > 0 and any(map(generate.identity, held(host)))
        for sort, least in [*((sort, 20) for sort in [*generate.SORTS, *generate.SHAPES]), *((sort, 5) for sort in generate.CYCLES),
                            ("identity", 50), (("variables", True), 50), (("clauses", True), 20)]:
            self.assertGreater(seen[sort], least, sort)

    def test_plain(self):
        """Plain variables with one digit and two, and with two and three: every permutation of the four about there, with every choice of signs; and all
        literals of 512 variables, each in a clause."""
        for at, row in itertools.product([8, 98], generate.every_row(4)):
            self.as_written(holding(at + 3, [], [generate.placed(at + 3, at, row)]))
        self.as_written(holding(512, [[sign * i] for i in range(1, 513) for sign in (1, -1)], []))

    def test_digits(self):
        """Auxiliaries that get a digit more, at every place in a row, or where the next row begins: rows whose auxiliaries end up to four short of that, then
        one with up to three, at times one with none, and another."""
        chance = random.Random(19)
        for last in (power - short for power in [10, 100, 1000, 10000] for short in [4, 3, 2, 1]):
            n = min(last, 500)
            rows = generate.numbered_to(chance, n, last)
            before = holding(n, [], rows)
            self.assertEqual(self.figures(before)[1], last)
            for first, second in itertools.product(range(4), repeat=2):
                between = chance.choice([[], [[*range(1, n + 1)]], [generate.placed(n, chance.randint(1, n - 1), chance.choice([[-1], [2, 1], [-2, -1]]))]])
                self.grown(before, holding(n, [], [*rows, generate.adding(chance, n, first), *between, generate.adding(chance, n, second)]))

    def test_counts(self):
        """As many clauses as a power of ten, and one fewer: plain ones, and rows' where these are not enough."""
        chance = random.Random(20)
        for count in (power - short for power in [10, 100, 1000, 10000, 100000] for short in [1, 0]):
            added = -(-max(count - 4096, 0) // 6)
            host = holding(500, [[]] * (count - 6 * added), generate.numbered_to(chance, 500, 500 + added))
            self.assertEqual(self.as_text(chance, host)[2], count)

    def test_limits(self):
        """The largest figures but for the bytes, by odd cycles over all variables: of each row the first auxiliary has 17 literals, and each other 19. Then
        cycles of any sort; as many literals in one clause; as many clauses, without literals, and rows that move nothing."""
        chance, clauses = random.Random(21), [[-512] * 3] * 4096
        host = holding(512, clauses, [generate.shifted(512, by, [512]) for by in range(1, 128, 2)])
        self.assertEqual(self.as_text(chance, host)[1:4], (33216, 200320, 12288 + 64 * (17 + 510 * 19)))
        self.assertEqual(self.header_line(host), b"p cnf 33216 200320\n")
        self.as_text(chance, holding(512, clauses, [generate.cycle(chance, 512, 512) for _ in range(64)]))
        self.assertEqual(self.figures(holding(512, [[-512] * 12288], [])), ("done", 512, 1, 12288, 12 + 12288 * 5 + 2))
        self.assertEqual(self.figures(holding(512, [[]] * 4096, [[*range(1, 513)]] * 64)), ("done", 512, 4096, 0, 15 + 4096 * 2))


COMMENTS = [
    ("inside a clause", b"p cnf 2 1\n1\nc x 0\n2 0\n", ("done", 2, 1)),
    ("before the closing zero", b"p cnf 2 1\n1 2\nc\n0\n", ("done", 2, 1)),
    ("between clauses", b"p cnf 2 2\n1 0\nc x\nc\n2 0\n", ("done", 2, 2)),
    ("right after the problem line", b"p cnf 2 1\nc x\n1 2 0\n", ("done", 2, 1)),
    ("as the last line", b"p cnf 2 1\n1 2 0\nc x\n", ("done", 2, 1)),
    ("as the last line, without its line feed", b"p cnf 2 1\n1 2 0\nc x", ("done", 2, 1)),
    ("a `c` alone as the last byte", b"p cnf 2 1\n1 2 0\nc", ("done", 2, 1)),
    ("where there are no clauses", b"p cnf 0 0\nc\n\nc x\n", ("done", 0, 0)),
    ("a line like the rest of a problem line", b"p cnf 2 1\ncnf 3 2\n1 2 0\n", ("done", 2, 1)),
    ("a carriage return before its line feed", b"p cnf 1 1\nc x\r\n1 0\n", ("done", 1, 1)),
    ("only a line feed ends it", b"p cnf 1 1\nc x\r1 0\n", ("refused", 6, 18)),
    ("only comments until the end", b"p cnf 2 1\nc x\nc\n", ("refused", 6, 16)),
    ("only comments until the end, without a line feed", b"p cnf 2 1\nc x\nc", ("refused", 6, 15)),
    ("a comment in a clause that is not closed", b"p cnf 2 1\n1\nc 0\n2\n", ("refused", 6, 18)),
    ("a blank first", b"p cnf 2 1\n c x\n1 2 0\n", ("refused", 3, 11)),
    ("a tab first", b"p cnf 2 1\n1\n\tc\n2 0\n", ("refused", 3, 13)),
    ("a blank first, after the clauses", b"p cnf 2 1\n1 2 0\n c x\n", ("refused", 6, 17)),
    ("in the middle of a line", b"p cnf 2 1\n1 c x\n2 0\n", ("refused", 3, 12)),
    ("in the middle of a line, after the clauses", b"p cnf 2 1\n1 2 0 c\n", ("refused", 6, 16)),
    ("on the problem line", b"p cnf 0 0 c\n", ("refused", 1, 0)),
    ("a capital letter", b"p cnf 1 1\nC\n1 0\n", ("refused", 3, 10)),
    ("a letter after comments", b"p cnf 1 1\nc x\nc y\n1 z 0\n", ("refused", 3, 20)),
    ("a literal beyond n after a comment", b"p cnf 1 1\nc x\n2 0\n", ("refused", 4, 14)),
    ("a word after the clauses and a comment", b"p cnf 1 1\n1 0\nc x\n1\n", ("refused", 6, 18)),
]


class Comments(Agree):
    """CR 1: comment lines after the problem line."""

    def test_cases(self):
        for name, text, expected in COMMENTS:
            with self.subTest(name):
                self.assertEqual(self.open(fresh(), text), expected)

    def test_limits(self):
        """A remark above each of 4,096 clauses; then literal 12,289, its offset counted with them."""
        clauses = [b"%d %d -%d 0\n" % (1 + i % 512, 1 + i * 7 % 512, 1 + i * 11 % 512) for i in range(4096)]
        plain, remarked = (fresh(literals=12288, ends=4096, keys=4096) for _ in range(2))
        text = b"p cnf 512 4096\n" + b"".join(b"c bracket %d\n" % i + clause for i, clause in enumerate(clauses))
        self.assertEqual(self.open(plain, b"p cnf 512 4096\n" + b"".join(clauses)), ("done", 512, 4096))
        self.assertEqual(self.open(remarked, text), ("done", 512, 4096))
        self.assertEqual(remarked.parts(), plain.parts())
        self.assertEqual(self.open(remarked, text[:-2] + b"1\nc\n0\n"), ("refused", 5, len(text) - 2))

    def test_put_in(self):
        """Comments put into a text, in order or damaged: it opens to the same store, or is refused at the same word, so much further on as they are long."""
        chance = random.Random(5)
        seen = {}
        for _ in range(1000):
            n = chance.choice([0, 1, 2, 3, 9])
            text = generate.text(chance, n, generate.formula(chance, n, 12)[0])
            if chance.random() < 0.5:
                text = generate.damaged(chance, text)
            remarked, put = generate.commented(chance, text, 8)
            before, after = fresh(), fresh()
            answer, then = self.open(before, text), self.open(after, remarked)
            if answer[0] == "refused":
                answer = (*answer[:2], answer[2] + sum(size for at, size in put if at <= answer[2]))
            self.assertEqual((then, after.parts()), (answer, before.parts()), (text, remarked))
            kind = answer[1] if answer[0] == "refused" else None
            seen[kind] = seen.get(kind, 0) + (put != [])
        for kind in [None, 3, 4, 6]:
            self.assertGreater(seen.get(kind, 0), 10, kind)


class Compare(Agree):
    def test_edges(self):
        self.assertEqual(self.compare([], []), ("done", 0))
        self.assertEqual(self.compare([1], []), ("refused", 12, 0))
        self.assertEqual(self.compare([0] * 519, [0] * 518 + [1]), ("done", 33216))
        self.assertEqual(self.compare([0] * 520, [0] * 520), ("refused", 12, 0))
        for bit in range(64):
            self.assertEqual(self.compare([TOP], [TOP ^ (1 << bit)]), ("done", 64 - bit))

    def test_random(self):
        chance = random.Random(1)
        for _ in range(3000):
            a = [chance.choice([0, TOP, chance.getrandbits(64)]) for _ in range(chance.randrange(9))]
            b = list(a)
            for _ in range(chance.randrange(4)):
                kind = chance.randrange(4)
                if kind == 0 and b:
                    b[chance.randrange(len(b))] ^= 1 << chance.randrange(64)
                elif kind == 1 and b:
                    b[chance.randrange(len(b))] = chance.getrandbits(64)
                elif kind == 2:
                    b.append(chance.getrandbits(64))
                elif b:
                    b.pop()
            self.compare(a, b)


class Efficiency(unittest.TestCase):
    def agree(self, *counts):
        answer = library.said(LIBRARY.symbreak_efficiency(*counts))
        self.assertEqual(answer, reference.efficiency(*counts), counts)
        return answer

    def test_edges(self):
        self.assertEqual(self.agree(25, 6, 8), ("done", 8947))
        self.assertEqual(self.agree(29281, 302, 1024), ("done", 9751))
        self.assertEqual(self.agree(20001, 1, 20000), ("done", 0))
        self.assertEqual(self.agree(20001, 1, 19998), ("done", 2))
        self.assertEqual(self.agree(10 ** 12, 0, 0), ("done", 10000))
        for counts in [(10 ** 12 + 1, 0, 0), (9, 3, 2), (9, 3, 10), (7, 7, 7), (0, 0, 0), (TOP, 0, TOP), (TOP, TOP, TOP)]:
            self.assertEqual(self.agree(*counts), ("refused", 14, 0))

    def test_random(self):
        chance = random.Random(2)
        edges = [0, 1, 2, 9999, 10000, 10 ** 12 - 1, 10 ** 12, 10 ** 12 + 1, 2 ** 63, TOP]
        for _ in range(20000):
            size = chance.choice([10, 10 ** 4, 10 ** 12, 2 ** 64])
            counts = [chance.choice(edges) if chance.random() < 0.2 else chance.randrange(size) for _ in range(3)]
            if chance.random() < 0.7:
                counts = [max(counts), min(counts), sorted(counts)[1]]
            self.agree(*counts)

    def test_halves(self):
        """Counts whose quotient is k and an exact half, and one allowed more and fewer."""
        chance = random.Random(3)
        for _ in range(5000):
            k, unit = chance.randrange(10000), chance.choice([1, chance.randrange(1, 100), chance.randrange(1, 49999998)])
            unlabelled = chance.randrange(10 ** 12 - 20000 * unit + 1)
            labelled = unlabelled + 20000 * unit
            allowed = labelled - (2 * k + 1) * unit
            self.assertEqual(self.agree(labelled, unlabelled, allowed), ("done", k + k % 2))
            self.assertEqual(self.agree(labelled, unlabelled, allowed + 1), ("done", k))
            self.assertEqual(self.agree(labelled, unlabelled, allowed - 1), ("done", k + 1))

    def test_printed_tables(self):
        for _, _, *counts, percent in tables.ROWS:
            self.assertEqual(self.agree(*counts), ("done", tables.hundredths(percent)))


if __name__ == "__main__":
    unittest.main()
