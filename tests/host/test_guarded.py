"""The exports on slices that end where a mapped page ends, and then on slices that start where one starts: a call that leaves a slice, or writes one that it
may only read, dies. Random stores, many of them damaged, against the reference, and the worked cases of the other files. Run by tests/run. A number on the
command line is how many stores are tried: `python3 tests/host/test_guarded.py 100000`. Store i is the same whatever that number is."""
import ctypes
import faulthandler
import os
import random
import signal
import unittest
from collections import Counter

import generate
import library
import reference
import test_host
import test_models
from agree import LIBRARY, Agree, held, idle, judged
from library import TOP

STORES = library.rounds(1000)
END, START = library.Guarded(at_end=True), library.Guarded(at_end=False)


def ending(act):
    """The signal that ends a process which does this, or 0."""
    child = os.fork()
    if child == 0:
        faulthandler.disable()
        try:
            act()
        finally:
            os._exit(0)
    return os.WTERMSIG(os.waitpid(child, 0)[1])


class Guards(unittest.TestCase):
    """The guards work: what a call may touch it can, and the next byte kills it."""

    def dies(self, act):
        self.assertEqual(ending(act), signal.SIGSEGV)

    def test_edges(self):
        for memory in [END, START]:
            for kind, length in [("uint8", 0), ("uint8", 1), ("uint8", 4097), ("uint16", 3), ("uint16", 32768), ("uint64", 519)]:
                lent = memory.lend(getattr(ctypes, "c_" + kind), [7] * length)
                start, size = ctypes.addressof(lent), ctypes.sizeof(lent)
                self.assertEqual((list(lent), ctypes.string_at(start, size)), ([7] * length, bytes(lent)))
                if memory is END or not length:
                    self.dies(lambda: ctypes.string_at(start + size, 1))
                    self.dies(lambda: ctypes.memset(start + size, 0, 1))
                if memory is START or not length:
                    self.dies(lambda: ctypes.string_at(start - 1, 1))
                    self.dies(lambda: ctypes.memset(start - 1, 0, 1))

    def test_read_only(self):
        for library.memory in [END, START]:
            for at in [0, 4095]:
                first, second = (library.memory.lend(ctypes.c_uint16, [7] * 4096) for _ in range(2))
                arguments = [lambda lent, *rest: ctypes.memset(ctypes.addressof(lent) + 2 * at, 9, 1), library.whole(first), library.whole(second)]
                self.dies(lambda: library.call(*arguments))
                self.dies(lambda: library.call(*arguments, written=[second]))
                library.call(*arguments, written=[first])
                self.assertEqual(first[at], 9)


SIZES = [0, 1, 2, 2, 3, 3, 4, 4, 5, 5, 6, 9, 20, 63, 64, 65]

WANTED = [
    *(("open", refusal) for refusal in (None, 1, 2, 3, 4, 6, 23)),
    *(("offer", refusal) for refusal in (None, 7, 8, 9, 10, 11, 20, 21, 22, 23, 31)),
    *(("withdraw", refusal) for refusal in (None, 20, 21, 30)),
    *(("header", refusal) for refusal in (None, 20, 21, 23)),
    *(("clause", refusal) for refusal in (None, 13, 20, 21, 23)),
    *(("figures", refusal) for refusal in (None, 20, 21)),
    *(("fill in", refusal) for refusal in (None, 12, 20, 21, 23)),
    *((call, refusal) for call in ("check", "descend") for refusal in (None, 12, 20, 21)),
    *(("compare", refusal) for refusal in (None, 12)),
]


def about(chance, needed):
    """A length that is needed, or beside it."""
    return max(chance.choice([needed, needed, needed, needed + 1, needed - 1, chance.randint(0, needed), needed + 40]), 0)


def entries(chance, count, bits=16):
    return [chance.getrandbits(bits) for _ in range(count)]


class Random(Agree):
    """Every export on random stores, many of them damaged, with slices that are just long enough, or nearly."""

    def lent(self, chance, n, clauses, rows):
        """A store with some of these rows and others, at times with identities, damaged or not. Where a call may only look at entries in use, more are said to
        follow."""
        rows = rows + [generate.cycle(chance, n, chance.randint(min(n, 1), n)) for _ in range(2)]
        chosen = chance.choices(rows, k=chance.choice([0, 1, 1, 2, 2, 3, 64] if n < 10 else [0, 1, 2]))
        if chance.random() < 0.2:
            chosen = generate.with_identities(chance, n, chosen)
        numbers, *slices = generate.store(chance, n, clauses, chosen, chance.choice([1, 1, 1, 2, 2 ** 32, TOP]))
        parts = reference.Record(*numbers), *slices
        if chance.random() < 0.65:
            parts = generate.damaged_store(chance, *parts)
        host = library.Host(LIBRARY, *parts)
        sound = not reference.badly_formed(*parts)
        if sound or not parts[0].open:
            host.beyond = chance.choice([0, 1, 2000])
        return host, sound

    def lines(self, chance, host, made):
        """The figures, then the header and a clause, into buffers about as long as the lines of the made formula; the answers."""
        q = chance.choice([0, 1, chance.randrange(len(made) + 1), len(made) - 1, len(made), TOP])
        yield "figures", self.figures(host)
        yield "header", self.header(host, chance.randbytes(about(chance, len(made[0]))))
        yield "clause", self.clause(host, q, chance.randbytes(about(chance, len(made[min(q, len(made) - 1)]))))

    def models(self, chance, host, n, last):
        """Filling in, checking and descent; the answers."""
        a = test_models.packed(generate.digits(chance, n))
        answer, filled = self.fill_in(host, test_models.at_times_misfit(chance, n, a), entries(chance, about(chance, reference.word_count(last)), 64))
        yield "fill in", answer
        full = filled[:answer[1]] if answer[0] == "done" and chance.random() < 0.8 else test_models.packed(generate.digits(chance, last))
        yield "check", self.check(host, test_models.at_times_misfit(chance, last, full))
        limit = chance.choice([0, 1, 2, chance.getrandbits(64), TOP])
        yield "descend", self.descend(host, test_models.at_times_misfit(chance, n, a), limit)[0]

    def changes(self, chance, host, n, clauses, rows, seen):
        """An offer, a withdrawal, then an opening; the answers. Of the offer it is seen of which sorts it is."""
        lines = generate.two_lines(chance, n, chance.choice(rows + [generate.permutation(chance, n)]))
        lines = [generate.damaged(chance, line) if chance.random() < 0.15 else line for line in lines]
        answer = self.offer(host, *lines)
        seen.update(judged(host, *lines, answer) + idle(host, *lines, answer))
        yield "offer", answer
        yield "withdraw", self.withdraw(host)
        text = generate.text(chance, n, clauses)
        record = host.record._replace(variables=chance.choice(generate.EDGES), open=chance.choice([0, 1, TOP]))
        slices = (entries(chance, about(chance, needed), bits) for needed, bits in [(sum(map(len, clauses)), 16), (len(clauses), 16), (len(clauses), 64)])
        host.put(record, *slices, [])
        yield "open", self.open(host, generate.damaged(chance, text) if chance.random() < 0.5 else text)

    def compared(self, chance):
        """A comparison; the answer."""
        a = entries(chance, chance.choice([0, 1, 2, 3, 8, 519, 520] if chance.random() < 0.1 else [0, 1, 2, 3, 8]), 64)
        b = [word ^ (chance.random() < 0.2) << chance.randrange(64) for word in a]
        yield "compare", self.compare(a, b if chance.random() < 0.8 else b[1:])

    def calls(self, chance, seen):
        """Every call on one store; the answers. Of a store that is in order it is seen of which sorts its rows are, and whether one is the identity."""
        n = chance.choice(SIZES)
        clauses, rows = generate.family(chance, n) if chance.random() < 0.5 else generate.formula(chance, n, 12)
        host, sound = self.lent(chance, n, clauses, rows)
        in_use = held(host) if sound else []
        seen.update(sort for row in in_use for sort in generate.sorts(row))
        seen["identity among 64" if len(in_use) == 64 else "identity held"] += host.record.open != 0 and any(map(generate.identity, in_use))
        made = reference.made_text(*host.parts()).splitlines(True) if sound else [b"p cnf 1 1\n", b"1 2 3 0\n"]
        yield from self.lines(chance, host, made)
        yield from self.models(chance, host, n, int(made[0].split()[2]) if sound else n)
        yield from self.changes(chance, host, n, clauses, rows, seen)
        yield from self.compared(chance)

    def test_random(self):
        seen = Counter()
        for number in range(STORES):
            with self.subTest(store=number):
                seen.update((call, test_models.refusal(answer)) for call, answer in self.calls(random.Random(number), seen))
        for sort in WANTED:
            self.assertGreater(seen[sort], 5, sort)
        for sort in generate.SORTS:
            self.assertGreater(seen[sort], 200, sort)
        for sort in [*generate.SHAPES, *generate.CYCLES]:
            self.assertGreater(seen[sort], 20, sort)
        for sort in [*generate.JUDGED, *generate.IDLE, "idle without room", "idle beside 64 rows", "identity among 64"]:
            self.assertGreater(seen[sort], 5, sort)
        self.assertGreater(seen["identity held"], 50)


class Stores(test_host.Stores):
    test_random = None


class Withdrawals(test_host.Withdrawals):
    test_lists = test_damaged = None


class Shorter(test_host.Shorter):
    test_every_row = test_random = None


class AlwaysTrue(test_host.AlwaysTrue):
    test_random = None


class Idle(test_host.Idle):
    test_every_line = None


class Keys(test_host.Keys):
    test_random = None


class Figures(test_host.Figures):
    test_random = test_plain = test_digits = test_counts = None


class Compare(test_host.Compare):
    test_random = None


def load_tests(loader, *_):
    """The guards, then all cases at the end of a page and again at the start of one."""
    suite = loader.loadTestsFromTestCase(Guards)
    for name, memory in [("AtEnd", END), ("AtStart", START)]:
        for case in [Random, Stores, Withdrawals, test_host.Signs, Shorter, AlwaysTrue, Idle, Keys, Figures, Compare, test_models.Worked, test_models.Refusals]:
            placed = type(case.__name__ + name, (case,), {"setUp": lambda self, memory=memory: setattr(library, "memory", memory)})
            suite.addTests(loader.loadTestsFromTestCase(placed))
    return suite


if __name__ == "__main__":
    faulthandler.enable()
    unittest.main()
