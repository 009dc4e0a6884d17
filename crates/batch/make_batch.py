"""Makes this program's stdin, a batch of random inputs of the symmetry breaker, and its stdout, by the reference.

Takes no arguments and writes both files beside itself; a second run gives the same bytes. An input in stdin is a
line with its length in bytes, then that many bytes. In stdout input K, from 1, has the line `input K` and what the
reference prints for it.
"""
import os
import random
import sys

HERE = os.path.dirname(os.path.abspath(__file__))
TESTS = os.path.join(HERE, "..", "..", "tests")
sys.path[:0] = [os.path.join(TESTS, "reference"), os.path.join(TESTS, "host")]
import generate
import reference

# How many inputs of each kind: refused with a number, or accepted with as many rows, of which some turn signs or none. Apart from these, inputs with a clause
# that holds a pair and whose image is missing: refused with 11 at a clause after it, or accepted, with or without signs. And accepted ones with rows of each
# shape (CR 9), or with an even or an odd cycle of five variables or more.
WANTED = {**{("refused", number): 3 for number in (1, 3, 4, 6, 7, 8, 9, 10, 11, 15)}, ("refused", 31): 6,
          ("accepted", 0, False): 6, **{("accepted", rows, signed): 3 for rows in (1, 2, 3, 4) for signed in (False, True)},
          ("refused after a pair", 11): 3, **{("accepted over a pair", signed): 3 for signed in (False, True)},
          **{shape: 3 for shape in generate.SHAPES}, **{("long cycle", odd): 3 for odd in (False, True)}}


def kinds(data):
    """What the reference says of an input, in WANTED's terms."""
    printed = reference.program(data)
    if printed.startswith(b"refused"):
        number = int(printed.split()[1])
        after = number == 11 and "missing after a pair" in generate.judged_input(data)
        return {("refused after a pair" if after else "refused", number)}
    rows = generate.accepted_rows(data)
    sorts = {sort for row in rows for sort in generate.sorts(row)}
    over = "symmetry over a pair" in generate.judged_input(data)
    long = {("long cycle", odd) for odd in (False, True) if any((size, odd) in sorts for size in range(5, 9))}
    return {("accepted over a pair", "signed" in sorts) if over else ("accepted", len(rows), "signed" in sorts), *long, *sorts.intersection(generate.SHAPES)}


def longest():
    """An input with one cycle of sixteen variables, on, back, odd, and with all signs, and with these variables exchanged in pairs."""
    rows = [generate.shifted(16, 1), generate.shifted(16, -1), generate.shifted(16, 1, [16]), generate.shifted(16, -1, range(1, 17)), generate.swaps(16)]
    return b"p cnf 16 0\n%%\n%b\n" % b"\n".join(b" ".join(b"%d" % i for i in row) for row in [range(1, 17), *rows])


def batch(chance):
    """Inputs drawn until there are as many of each kind as wanted, then the longest."""
    missing, inputs = dict(WANTED), []
    while any(missing.values()):
        data = generate.program_input(chance, chance.randint(0, 8), 30)
        if chance.random() < 0.5:
            data = generate.damaged_input(chance, data)
        found = [kind for kind in kinds(data) if missing.get(kind)]
        if found:
            missing.update({kind: missing[kind] - 1 for kind in found})
            inputs.append(data)
    return inputs + [longest()]


def write(name, parts):
    with open(os.path.join(HERE, name), "wb") as file:
        file.write(b"".join(parts))


def main():
    inputs = batch(random.Random(8))
    write("stdin", [b"%d\n%b" % (len(data), data) for data in inputs])
    write("stdout", [b"input %d\n%b" % (k, reference.program(data)) for k, data in enumerate(inputs, 1)])


if __name__ == "__main__":
    main()
