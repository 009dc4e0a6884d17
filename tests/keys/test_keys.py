"""The numbers of the keys, wherever they stand; and offers where two clauses share a key, so that only comparing in full tells them apart. Run by tests/run."""
import itertools
import os
import random
import re
import subprocess
import sys
import unittest
from collections import Counter

HERE = os.path.dirname(os.path.abspath(__file__))
sys.path.insert(0, os.path.join(os.path.dirname(HERE), "host"))

import generate
import library
import literal_numbers
import reference
from agree import LIBRARY, Agree

BREAKER = os.environ.get("BREAKER", os.path.join(library.ROOT, "target", "bin", "breaker"))
LITERALS = [sign * i for i in range(1, 513) for sign in (1, -1)]


def part(path, pattern):
    """The part of a file of the project that a pattern finds."""
    with open(os.path.join(library.ROOT, path), encoding="utf-8") as file:
        return re.search(pattern, file.read(), re.S | re.M)[1]


def numbers(text):
    return [int(number.replace("_", "")) for number in re.findall(r"\b\d[\d_]*", text)]


def text(clauses):
    return b"p cnf 512 %d\n" % len(clauses) + b"".join(map(reference.clause_line, clauses))


def opened(clauses):
    """A store with a formula of these clauses over 512 variables, room for a row, and something in every entry past those in use."""
    host = library.Host(LIBRARY, reference.new_record(), [7] * 1030, [7] * 1030, [7] * 1030, [7] * 512)
    assert host.open(text(clauses)) == ("done", 512, len(clauses))
    return host


class Numbers(unittest.TestCase):
    """All places have the same 1,024 numbers."""

    MADE = literal_numbers.made()

    def test_chosen(self):
        """No two alike and none 0, each of 64 bits, of which the last eleven are those of 1."""
        self.assertEqual((len(self.MADE), len(set(self.MADE))), (1024, 1024))
        self.assertTrue(all(0 < number < 2 ** 64 and number % 2048 == 1 for number in self.MADE))

    def test_page(self):
        """The page's table is what the generator prints, and the reference has it."""
        printed = subprocess.run([sys.executable, os.path.join(HERE, "literal_numbers.py")], capture_output=True, check=True, text=True).stdout
        self.assertEqual(part("docs/KEYS.md", r"^\|---:\|---:\|---:\|\n(.*)\Z"), printed)
        self.assertEqual(numbers(printed), [each for i in range(1, 513) for each in (i, *self.MADE[2 * i - 2:2 * i])])
        self.assertEqual(reference.NUMBERS, dict(zip(LITERALS, self.MADE)))

    def test_code(self):
        self.assertEqual(numbers(part("crates/numbers/src/lib.rt", r"^const NUMBERS: \[u64; \w+\] = \[(.*?)\];")), self.MADE)

    def test_definition(self):
        self.assertEqual(numbers(part("crates/numbers/specs/Numbers.antt", r"^numbers =([\s\d_∷]*)\[\]")), self.MADE)

    def test_opening(self):
        """Opening writes them as the keys of the unit clauses."""
        self.assertEqual(opened([[literal] for literal in LITERALS]).keys[:], self.MADE + [7] * 6)

    def test_count(self):
        """The last eleven bits of a key are the count of different literals, of all 1,024 too."""
        chance = random.Random(11)
        for count in [0, 1, 2, 1023, 1024, *(chance.randrange(1025) for _ in range(50))]:
            host = library.Host(LIBRARY, reference.new_record(), [0] * 2048, [0], [0], [])
            clause = chance.sample(LITERALS, count)
            self.assertEqual(host.open(text([clause + clause[:chance.randrange(1025)]])), ("done", 512, 1))
            self.assertEqual(host.keys[0] % 2048, count)


# What sharing.py finds: pairs of clauses, each with their key; in the third one clause holds a literal and its negation. Then clauses that are like them, of other variables
# but for one, which has G's.
A, B, SHARED = [-18, -36, -63, -145, 159, 176], [-272, 279, -292, -421, 425, -441], 2237341672726149126
E, F, SECOND = [-39, 44, -57, 150, -162, -173], [-288, -302, -318, -402, 427, 430], 3245079644745213958
G, H, THIRD = [13, -13, -25, -137, -164, -183], [-257, 291, 315, -388, 401, -432], 188523479680112646
C, D = [1, 2, -3, -4, -5, -6], [7, 8, -9, -10, -11, -12]
I, OF_G = [1, 2, 3, -4, -5, -6], [13, 14, -25, -137, -164, -183]


def exchange(chance, pairs):
    """A permutation that takes one clause of each pair to the other and back: half the time positive literals to positive ones in their order, and negative ones
    to negative ones; else any literal to any, so that signs are turned."""
    images, in_order = list(range(1, 513)), chance.random() < 0.5
    for pair in pairs:
        for one, other in zip(*(sorted(clause, key=lambda each: (each < 0, abs(each))) if in_order else chance.sample(clause, 6) for clause in pair)):
            for source, target in (one, other), (other, one):
                images[abs(source) - 1] = target if source > 0 else -target
    return images


# Clauses of which some share a key, and pairs of them to be exchanged. In the second family all do; in the third, one that is judged with one that is not (CR 7), whose image
# is itself, or missing.
FAMILIES = [
    ([A, B, C, D], [[(A, C)], [(B, D)], [(A, C), (B, D)], [(A, B)], [(A, B), (C, D)], [(A, D), (B, C)]]),
    ([A, B, E, F], [[(A, E)], [(A, E), (B, F)], [(A, F), (B, E)], [(A, B)], [(A, B), (E, F)]]),
    ([G, H, I], [[(H, I)], [(H, I), (OF_G, D)], [(OF_G, H)], [(OF_G, I)]]),
]


def first_missing(clauses, row, same):
    """The number of the first clause, of those that are judged, whose image is the same as no clause, or 0."""
    judged = [(q, clause) for q, clause in enumerate(clauses, 1) if not generate.holds_pair(clause)]
    return next((q for q, clause in judged if not any(same(generate.image(clause, row)) == same(other) for other in clauses)), 0)


class Sharing(Agree):
    """Offers to formulas of a family's clauses, in any order, some of them missing, some more than once."""

    def offers(self, family, most):
        """All formulas of one clause up to so many, with each exchange as two lines, and the place of 11, or 0; then what it would be if keys decided."""
        chance = random.Random(12)
        for count in range(1, most + 1):
            for clauses in itertools.product(family[0], repeat=count):
                repeating = [clause + clause[:chance.randrange(3)] for clause in clauses]
                shuffled = [chance.sample(clause, len(clause)) for clause in repeating]
                for row in (exchange(chance, pairs) for pairs in family[1]):
                    yield shuffled, generate.offers(chance, 512, [row]), first_missing(clauses, row, frozenset), first_missing(clauses, row, reference.key_of)

    def test_shared(self):
        self.assertEqual(opened([A, B, E, F, G, H]).keys[:6], [SHARED, SHARED, SECOND, SECOND, THIRD, THIRD])
        self.assertEqual(len({abs(literal) for literal in A + B + C + D + E + F}), 36)
        self.assertEqual(len({reference.key_of(clause) for clause in (A, C, D, E, G, I, OF_G)}), 7)

    def test_offers(self):
        """Each is decided as the clauses say, and not their keys, with signs and without."""
        for family, least in zip(FAMILIES, [300, 400, 10]):
            otherwise = Counter()
            for clauses, lines, missing, by_keys in self.offers(family, 4):
                self.assertEqual(self.offer(opened(clauses), *lines), ("refused", 11, missing) if missing else ("done",), clauses)
                otherwise[b"-" in lines[1]] += missing != by_keys
            self.assertGreater(min(otherwise[signed] for signed in (False, True)), least)

    def test_program(self):
        """The program decides so too."""
        for family in FAMILIES:
            for clauses, lines, missing, _ in self.offers(family, 3):
                ended = subprocess.run([BREAKER], input=b"%b%%\n%b\n%b\n" % (text(clauses), *lines), capture_output=True)
                self.assertTrue(ended.stdout.startswith(b"refused 11 %d\n" % missing if missing else b"p cnf "), ended)

    def test_stored(self):
        """The key of one is the right key of the other: A is exchanged for B in the store."""
        host = opened([A, D, C])
        host.literals[:6] = [reference.literal_code(literal) for literal in B]
        self.assertEqual(self.clause(host, 1, bytes(40))[0], "done")
        chance = random.Random(13)
        for pair, answer in [((A, C), ("refused", 11, 3)), ((B, D), ("done",))]:
            self.assertEqual(self.offer(host, *generate.offers(chance, 512, [exchange(chance, [pair])])), answer)


if __name__ == "__main__":
    unittest.main()
