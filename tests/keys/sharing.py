"""Finds two pairs of clauses of six literals that share a key, in half a minute or so: test_keys.py has what it prints. No variable comes twice, and as many literals are
positive in each clause, so that a permutation can take one to another without signs too. Then a third pair, of which one clause holds a literal and its negation and the
other does not.

It is Wagner's search ("A generalized birthday problem", 2002) with four lists, of the sums of three numbers each, from four parts of the literals. Wanted are sums
with a + b = c + d modulo 2^64, that is a - c = d - b. The last eleven bits of every number are those of 1, so clauses of six literals agree in these; what is left
of the numbers has 53 bits. Each list has 341,376 sums, and of the differences only those with one rest modulo 2^17 are made, about 2^18 on either side. That are
2^36 pairs, of which one in 2^36 agrees in the other 36 bits as well.
"""
import itertools

import literal_numbers

TOP, LOW = 2 ** 53 - 1, 2 ** 17 - 1
LITERALS = [sign * i for i in range(1, 513) for sign in (1, -1)]
NUMBERS = dict(zip(LITERALS, literal_numbers.made()))
PARTS = [LITERALS[at:at + 128] for at in range(0, 1024, 256)]


def total(three):
    """The sum of the numbers of three literals, but for their last eleven bits."""
    return sum(NUMBERS[literal] // literal_numbers.COUNT_RANGE for literal in three)


def sums(part):
    """The sums of any three numbers of a part's literals."""
    return list(map(total, itertools.combinations(part, 3)))


def summed(part, wanted):
    """Three literals of a part with this sum."""
    return next([*three] for three in itertools.combinations(part, 3) if total(three) == wanted)


def holds_pair(literals):
    """A literal is there together with its negation."""
    return any(-literal in literals for literal in literals)


def differences(minuends, subtrahends, rest):
    """The differences modulo 2^53 that have this rest modulo 2^17, with what they are differences of; the minuends are given by their own rests."""
    return {minuends[low] - x & TOP: (minuends[low], x) for x in subtrahends if (low := x + rest & LOW) in minuends}


def found(a=None):
    """Two clauses with the same key, the first with three literals of the first part that have one of these sums, or any; then others, without end."""
    a, b, c, d = a or sums(PARTS[0]), *map(sums, PARTS[1:])
    a, d = ({x & LOW: x for x in each} for each in (a, d))  # one for each rest will do
    for rest in itertools.count():
        first, second = differences(a, c, rest), differences(d, b, rest)
        for shared in sorted(first.keys() & second.keys()):
            totals = first[shared][0], second[shared][1], first[shared][1], second[shared][0]
            threes = [summed(part, wanted) for part, wanted in zip(PARTS, totals)]
            yield threes[0] + threes[1], threes[2] + threes[3]


def apart(*clauses):
    """No variable comes twice in them, and as many literals are positive in each."""
    literals = [literal for clause in clauses for literal in clause]
    return len({abs(literal) for literal in literals}) == len(literals) and len({sum(literal > 0 for literal in clause) for clause in clauses}) == 1


if __name__ == "__main__":
    pairs = found()
    first = next(pair for pair in pairs if apart(*pair))
    second = next(pair for pair in pairs if apart(*first, *pair))
    over_a_pair = found([total(three) for three in itertools.combinations(PARTS[0], 3) if holds_pair(three)])
    third = next(pair for pair in over_a_pair if not holds_pair(pair[1]))
    for pair in first, second, third:
        print(*pair, *{sum(NUMBERS[literal] for literal in clause) % 2 ** 64 for clause in pair}, sep="\n")
