"""All settings of a small formula's variables, tried at once: a set of assignments of 1..n is a number that has bit A set where the digits of A are in it."""
import functools
import operator


def false(n, i):
    """The assignments of 1..n in which variable i is false: as many ones as there are settings of what follows i, as many zeros, and so on."""
    size = 1 << n - i
    found = (1 << size) - 1
    for doubled in range(1, i):
        found |= found << (size << doubled)
    return found


def models(n, clauses):
    """The models of a formula over 1..n."""
    every, without = (1 << (1 << n)) - 1, [false(n, i) for i in range(1, n + 1)]
    found = every
    for clause in clauses:
        found &= functools.reduce(operator.or_, (every ^ without[literal - 1] if literal > 0 else without[-literal - 1] for literal in clause), 0)
    return found


def settings(found, number, free):
    """Of those that begin with the digits of a number, what the last `free` variables are set to."""
    return found >> (number << free) & (1 << (1 << free)) - 1


def members(found):
    """The numbers in a set, in rising order."""
    return [at for at, digit in enumerate(reversed(format(found, "b"))) if digit == "1"]


def beginnings(n, last, clauses):
    """The assignments of 1..n that some setting of n+1..last makes models of a formula."""
    found = models(last, clauses)
    return [number for number in range(1 << n) if settings(found, number, last - n)]
