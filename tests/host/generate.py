"""Random input for the tests: formulas that are symmetric by construction, texts and lines that are in order or damaged."""
import itertools
import operator
import re

import library  # which makes the reference importable
import reference


def turned(chance, values):
    """The same values, or half the time with signs turned: of one, of some or of all."""
    if not values or chance.random() < 0.5:
        return values
    negative = chance.sample(range(len(values)), chance.choice([1, chance.randint(1, len(values)), len(values)]))
    return [-value if at in negative else value for at, value in enumerate(values)]


def permutation(chance, n):
    """A permutation of 1..n as a list of images, half the time with signs, more often one that moves little, at times a cycle or some."""
    if chance.random() < 0.3:
        return cycle(chance, n, chance.randint(0, n))
    images = list(range(1, n + 1))
    moving = chance.sample(range(n), chance.randint(0, n)) if chance.random() < 0.5 else chance.sample(range(n), min(n, 2))
    values = [images[i] for i in moving]
    chance.shuffle(values)
    for i, value in zip(moving, turned(chance, values)):
        images[i] = value
    return images


def image(clause, images):
    """A clause's image. A permutation is a list of literals too, and its image is the product: first the one, then the other."""
    return [images[abs(literal) - 1] * (1 if literal > 0 else -1) for literal in clause]


def moved(row, digits):
    """An assignment as digits moved by a permutation: at a negative image its digit is turned."""
    return "".join("01"[(digits[abs(value) - 1] == "1") == (value > 0)] for value in row)


SORTS = ["unsigned", "signed", "moves one", "own negation"]
SHAPES = ["exchange", "even with signs", "odd", "both parities", "left out between"]
CYCLES = [(size, odd) for size in range(1, 7) for odd in (False, True) if odd or size > 1]


def remaining(row):
    """The variables of a permutation that are left for its clauses."""
    return reference.remaining_variables(dict(enumerate(row, 1)))


def moving_cycles(row):
    """The cycles of a permutation that move something, each with whether going round it turns the sign an odd number of times."""
    images = dict(enumerate(row, 1))
    return [(cycle, reference.turns_sign(images, cycle)) for cycle in reference.cycles(images) if len(cycle) > 1 or row[cycle[0] - 1] < 0]


def sorts(row):
    """Of which sorts a permutation is: it moves something and turns no sign, it turns signs, it moves one variable, it negates a variable and moves another.
    Then its SHAPES, and the size of each of its cycles and whether it is odd, as in CYCLES."""
    moved = [(i, value) for i, value in enumerate(row, 1) if value != i]
    signed, negated = any(value < 0 for _, value in moved), any(value == -i for i, value in moved)
    found = [sort for sort, holds in zip(SORTS, [moved and not signed, signed, len(moved) == 1, negated and len(moved) > 1]) if holds]
    return found + shapes(row) + [(len(cycle), odd) for cycle, odd in moving_cycles(row)]


def shapes(row):
    """Of which shapes a permutation is: it exchanges two variables, of which one is left; a cycle has signs and is even, a cycle of more than one variable is
    odd, one is even and another odd; a variable is left out before one that is moved."""
    cycles, left = moving_cycles(row), remaining(row)
    moved = sorted(i for cycle, _ in cycles for i in cycle)
    signed = any(not odd and any(row[i - 1] < 0 for i in cycle) for cycle, odd in cycles)
    holds = [(len(moved), len(left)) == (2, 1), signed, any(odd and len(cycle) > 1 for cycle, odd in cycles), len({odd for _, odd in cycles}) == 2,
             any(i not in left for i in moved[:-1])]
    return [shape for shape, each in zip(SHAPES, holds) if each]


def identity(row):
    """The permutation moves nothing."""
    return row == list(range(1, len(row) + 1))


def with_identities(chance, n, rows):
    """The same rows with identities put in among them, or in the place of some where 64 are held; at times only identities."""
    still = list(range(1, n + 1))
    rows = [still] * len(rows) if chance.random() < 0.2 else list(rows)
    for _ in range(chance.choice([1, 1, 2, 5])):
        at = chance.randint(0, min(len(rows), 63))
        rows[at:at + (len(rows) == 64)] = [still]
    return rows


def holds_pair(clause):
    """A literal and its negation are in the clause, so that it is always true."""
    return any(-literal in clause for literal in clause)


def stands_apart(clause):
    """The clause holds a pair, but its first literal is in none, and no two neighbours are one."""
    return holds_pair(clause) and -clause[0] not in clause and all(one != -other for one, other in zip(clause, clause[1:]))


JUDGED = ["symmetry over a pair", "symmetry over a pair apart", "symmetry with a pair onto another", "missing after a pair", "missing at a repeat"]


def missing(clauses, row):
    """The clauses whose image by a permutation is none of them."""
    sets = {frozenset(clause) for clause in clauses}
    return [clause for clause in clauses if frozenset(image(clause, row)) not in sets]


def judged(clauses, row):
    """Of which sorts a permutation is for these clauses: it keeps those without a pair, but not one with a pair, or not one whose pairs are apart, or it takes
    one with a pair to another; or the first clause without a pair whose image is missing comes after one with a pair whose image is missing, or it repeats a
    literal."""
    lost = missing(clauses, row)
    over = list(itertools.takewhile(holds_pair, lost))
    kept, wrong = len(over) == len(lost), lost[len(over):][:1]
    onto = kept and any(clause not in lost and set(image(clause, row)) != set(clause) for clause in filter(holds_pair, clauses))
    found = [kept and over, kept and any(map(stands_apart, over)), onto, wrong and over, any(len(set(clause)) < len(clause) for clause in wrong)]
    return [sort for sort, holds in zip(JUDGED, found) if holds]


def some_literals(chance, n, sizes):
    """So many literals of 1..n as one of the sizes says."""
    return [chance.choice([-1, 1]) * chance.randint(1, n) for _ in range(chance.choice(sizes))]


def is_missing(clause, row, clauses):
    """The clause's image by a permutation is none of these clauses, were it one of them."""
    return frozenset(image(clause, row)) not in {frozenset(each) for each in [*clauses, clause]}


def with_pair(chance, n, row, clauses):
    """A clause that holds a pair, half the time apart, and whose image is missing, if one is found."""
    for _ in range(8):
        first, *others = some_literals(chance, n, [1, 2, 2, 3, 4, 7])
        clause = [*others[:1], first, *others[1:], -first]
        if is_missing(clause, row, clauses):
            break
    if chance.random() < 0.5:
        chance.shuffle(clause)
    return clause


def with_pairs(chance, n, clauses, rows):
    """The same clauses, half the time with some put in that hold a pair and whose image by one of the rows is missing, or at times put in too."""
    clauses = list(clauses)
    for _ in range(chance.choice([0, 0, 0, 1, 1, 2]) if n else 0):
        row = chance.choice(rows or [list(range(1, n + 1))])
        new = with_pair(chance, n, row, clauses)
        for clause in [new, image(new, row)][:chance.choice([1, 1, 1, 2])]:
            clauses.insert(chance.choice([0, chance.randint(0, len(clauses)), len(clauses)]), clause)
    return clauses


def over_pairs(chance, n):
    """A permutation of 1..n, n above 1, and clauses that it keeps, but for some with a pair, whose images are missing; half the time with a clause without a
    pair put in after one of them, whose image is missing too. Then the number of that clause, or 0."""
    row = cycle(chance, n, chance.randint(1, n))
    clauses = closed([clause for clause in drawn(chance, n, 3)[0] if clause or chance.random() < 0.2], [row], 1000)
    for _ in range(chance.choice([1, 1, 2, 3])):
        clauses.insert(chance.randint(0, len(clauses)), with_pair(chance, n, row, clauses))
    first = clauses.index((missing(clauses, row) or clauses)[0]) + 1
    tried = [some_literals(chance, n, [1, 2, 2, 3, 4]) for _ in range(chance.choice([0, 8]))]
    broken = next((clause for clause in tried if not holds_pair(clause) and is_missing(clause, row, clauses)), None)
    if broken is None:
        return row, clauses, 0
    at = chance.randint(first, len(clauses))
    return row, clauses[:at] + [broken] + clauses[at:], at + 1


def formula(chance, n, most):
    """Clauses over 1..n, as `drawn` has them, at times with some put in that hold a pair, and permutations of which some keep the others."""
    clauses, rows = drawn(chance, n, most)
    return with_pairs(chance, n, clauses, rows), rows


def drawn(chance, n, most):
    """Clauses over 1..n, with repeats of literals and clauses and empty clauses, and permutations of which some keep them."""
    clauses = [[chance.choice([-1, 1]) * chance.randint(1, n) for _ in range(chance.randrange(4))] if n else [] for _ in range(chance.randrange(4))]
    rows = [permutation(chance, n) for _ in range(chance.randrange(4))]
    if chance.random() < 0.8:
        for _ in range(6):
            sets = {frozenset(clause) for clause in clauses}
            new = [image(clause, row) for row in rows for clause in clauses]
            clauses += [clause for clause in new if frozenset(clause) not in sets][:most]
    for clause in clauses:
        chance.shuffle(clause)
        if clause and chance.random() < 0.1:
            clause.append(chance.choice(clause))
    chance.shuffle(clauses)
    return clauses[:most], rows


def blank(chance):
    return chance.choice([b" "] * 6 + [b"\t", b"  ", b" \t"])


COMMENTS = [b"c", b"c", b"cnf 3 2", b"cp cnf 0 0", b"c 1 0", b"c0", b"c\t-1 0", b"c\r", b"cc", b"c \x00\xff", b"c bracket 7: p cnf 9 9 %", b"c" * 80]


def commented(chance, data, most):
    """The same text with comment lines put in after its problem line, the last at times without its line feed, and where each was put and how long it is."""
    problem = re.match(rb"(c[^\n]*\n)*", data).end()
    starts = [feed.end() for feed in re.finditer(rb"\n", data) if feed.end() > problem]
    if not starts:
        return data, []
    put = [(at, chance.choice(COMMENTS) + b"\n") for at in sorted(chance.choices(starts, k=chance.randint(0, most)))]
    if chance.random() < 0.2:
        put.append((len(data), b"\n" * (data[-1:] != b"\n") + chance.choice(COMMENTS)))
    for at, comment in reversed(put):
        data = data[:at] + comment + data[at:]
    return data, [(at, len(comment)) for at, comment in put]


def text(chance, n, clauses):
    """The text of a formula, with comment lines and clauses that span lines; at times a size is over its limit."""
    lines = [chance.choice([b"c", b"cnf 1 1", b"comment x"]) + b"\n" for _ in range(chance.choice([0, 0, 0, 1, 2]))]
    sizes = [n, len(clauses)]
    if chance.random() < 0.03:
        sizes[chance.randrange(2)] += 5000
    lines.append(b"p" + blank(chance) + b"cnf" + blank(chance) + b"%d" % sizes[0] + blank(chance) + b"%d" % sizes[1] + chance.choice([b"", b" "]) + b"\n")
    for clause in clauses:
        between = chance.choice([b" ", b" ", b"\t", b"\n"])
        lines.append(between.join(b"%d" % literal for literal in [*clause, 0]) + chance.choice([b"\n", b"\n", b" ", b"\n\n"]))
    joined = b"".join(lines)
    joined = joined.rstrip(b"\n") if chance.random() < 0.2 else joined
    return commented(chance, joined, chance.choice([1, 4]))[0] if chance.random() < 0.4 else joined


def line(chance, numbers):
    """A line of numbers, at times with blanks at its ends."""
    joined = b"".join(b"%d" % number + blank(chance) for number in numbers)
    return chance.choice([b"", b"", b" "]) + (joined if chance.random() < 0.2 else joined.rstrip())


WORDS = [b"512", b"4097", b"0", b"-0", b"00", b"01", b"+1", b"-", b"x", b"1\r", b"\x00", b"\xff", b"999999", b"1000000", b"-1", b"-2", b"513", b"-512", b"%",
         b"c", b"p"]


def damaged(chance, data):
    """The same bytes with a few bytes or words put in, taken out or changed."""
    data = bytearray(data)
    for _ in range(chance.choice([1, 1, 2, 3])):
        at = chance.randrange(len(data) + 1)
        kind = chance.randrange(6)
        if kind == 0:
            data[at:at] = b" " + chance.choice(WORDS) + b" "
        elif kind == 5 and data.split():
            word = chance.choice(list(re.finditer(rb"[^ \t\n]+", data)))
            data[word.start():word.end()] = chance.choice(WORDS)
        elif kind == 1:
            data[at:at + chance.randint(1, 3)] = b""
        elif kind == 2:
            data[at:at + 1] = bytes([chance.randrange(256)])
        elif kind == 3:
            data[at:at] = chance.choice([b" ", b"\t", b"\n", b"\r"])
        else:
            del data[at:]
    return bytes(data)


def pieces(chance, order):
    """A list in pieces: half the time whole; else cut at up to three places, in pairs, or all but a first piece alone."""
    size = len(order)
    if size < 2:
        return [order] * size
    some = sorted(chance.sample(range(1, size), min(size - 1, chance.randint(1, 3))))
    cuts = chance.choice([[]] * 3 + [some, range(2, size, 2), range(chance.randint(1, size), size)])
    return [order[start:end] for start, end in zip([0, *cuts], [*cuts, size])]


def ring(chance, order, odd):
    """The images of a cycle through these variables in this order. Going round it turns the sign an even or an odd number of times: mostly as seldom as can be,
    else any number of times, or as often as can be."""
    counts = range(odd, len(order) + 1, 2)
    negative = chance.sample(order, chance.choice([counts[0], counts[0], chance.choice(counts), counts[-1]]))
    return {i: -after if i in negative else after for i, after in zip(order, order[1:] + order[:1])}


def cycle(chance, n, size, parities=(False, True)):
    """A permutation of 1..n that moves so many variables, by one cycle or by several. Each is odd or even, as one of `parities`; a variable alone goes to its
    negation, which is odd."""
    after = {}
    for piece in pieces(chance, chance.sample(range(1, n + 1), size)):
        after |= ring(chance, piece, len(piece) == 1 or chance.choice(parities))
    return [after.get(i, i) for i in range(1, n + 1)]


def shifted(n, by, negated=()):
    """The permutation of 1..n that sends i to i + by, and past n to 1 again; negated are the images of these. By 1 and by -1 it is one cycle."""
    return [((i - 1 + by) % n + 1) * (-1 if i in negated else 1) for i in range(1, n + 1)]


def placed(n, at, row):
    """The permutation of 1..n that does with the variables from `at` on what a smaller one does with its own, and leaves the others."""
    return [*range(1, at), *(value + (at - 1 if value > 0 else 1 - at) for value in row), *range(at + len(row), n + 1)]


def adding(chance, n, count):
    """A permutation of 1..n that adds so many auxiliaries: it moves one variable more, by odd cycles, which leave none out."""
    return cycle(chance, n, count + 1, (True,))


def numbered_to(chance, n, last):
    """Permutations of 1..n, n above 1, whose auxiliaries end at this number."""
    rows = []
    while n < last:
        rows.append(adding(chance, n, min(n - 1, last - n)))
        last -= min(n - 1, last - n)
    return rows


def every_row(n):
    """All permutations of 1..n, with every choice of signs."""
    turns = list(itertools.product([1, -1], repeat=n))
    return [list(map(operator.mul, sizes, turn)) for sizes in itertools.permutations(range(1, n + 1)) for turn in turns]


def swaps(n):
    """The permutation of 1..n, n even, that exchanges 1 and 2, 3 and -4, 5 and 6, 7 and -8, and so on: cycles of two, all even, and none stays."""
    return [(-1 if i % 4 in (0, 3) else 1) * (i + 1 if i % 2 else i - 1) for i in range(1, n + 1)]


def closed(clauses, rows, most):
    """The clauses, then their images by the rows and the images of these, as far as there is room for them."""
    clauses, sets = list(clauses), {frozenset(clause) for clause in clauses}
    for clause in clauses:
        for new in (image(clause, row) for row in rows):
            if frozenset(new) not in sets and len(clauses) < most:
                sets.add(frozenset(new))
                clauses.append(new)
    return clauses


def offers(chance, n, rows):
    """A names line with at least what the rows move, and a value line for each row."""
    named = [i for i in range(1, n + 1) if any(row[i - 1] != i for row in rows) or chance.random() < 0.5]
    named = named or chance.sample(range(1, n + 1), min(n, 1))
    chance.shuffle(named)
    return [line(chance, named)] + [line(chance, [row[i - 1] for i in named]) for row in rows]


def idle_values(chance, named):
    """The names themselves as their values, half the time but for little: cut short, one more, one twice, two exchanged, all but the first turned round, or one
    negated."""
    values, at, kind = list(named), chance.randrange(len(named)), chance.randrange(10)
    if kind == 0:
        del values[max(at, 1):]
    elif kind == 1:
        values.append(chance.choice(values))
    elif kind == 2:
        values[at] = chance.choice(values)
    elif kind == 3:
        values[at - 1], values[at] = values[at], values[at - 1]
    elif kind == 4:
        values[1:] = values[2:] + values[1:2]
    elif kind == 5:
        values[at] = -values[at]
    return values


def idle_lines(chance, n):
    """Two lines of which the second moves nothing, or nearly so."""
    named = chance.sample(range(1, n + 1), chance.randint(1, n))
    return [line(chance, named), line(chance, idle_values(chance, named))]


def two_lines(chance, n, row):
    """Two lines that state the permutation; at times two that move nothing, or nearly so."""
    return idle_lines(chance, n) if n and chance.random() < 0.15 else offers(chance, n, [row])


IDLE = ["idle", "idle, some named", "idle so far", "idle but for two", "idle at one", "idle but for signs"]


def idle(n, names, values):
    """Of which sorts two lines are: each value is its name, and not all variables are named; each is, but there are too few or too many; all but two of three
    or more are, or one of two or more; all are but for signs."""
    named, valued = ([word for _, word in reference.words(part)] for part in (names, values))
    same, as_many = [value == name for name, value in zip(named, valued)], len(named) == len(valued)
    found = [named == valued, named == valued and len(named) < n, not as_many and same and all(same),
             as_many and len(same) > 2 and same.count(False) == 2, as_many and len(same) > 1 and same.count(True) == 1,
             not all(same) and [value.removeprefix(b"-") for value in valued] == named]
    return [sort for sort, holds in zip(IDLE, found) if holds]


def stated(n, names, values):
    """The permutation of 1..n that two lines state."""
    images = dict(zip(map(int, names.split()), map(int, values.split())))
    return [images.get(i, i) for i in range(1, n + 1)]


def cycles(chance, n, most=60):
    """Cycles of 1..n and those of their products that move something, and clauses that they keep if there is room."""
    rows = [cycle(chance, n, chance.randint(min(n, 1), n)) for _ in range(chance.choice([1, 1, 2, 3]))]
    clauses = closed(drawn(chance, n, 3)[0] + drawn(chance, n, 3)[0], rows, most)
    products = [image(first, second) for first in rows for second in rows]
    return with_pairs(chance, n, clauses, rows), rows + [row for row in products if not identity(row)]


def program_input(chance, n, most):
    """Input for the program: a formula's text, the `%` line and offers, of which some are no symmetries, and some move nothing, or nearly so."""
    clauses, rows = cycles(chance, n, most)
    chance.shuffle(clauses)
    offered = chance.choices(rows, k=chance.randrange(6))
    if chance.random() < 0.3:
        offered.insert(chance.randint(0, len(offered)), permutation(chance, n))
    names, *values = offers(chance, n, offered)
    if n and chance.random() < 0.15:
        values.insert(chance.randint(0, len(values)), line(chance, idle_values(chance, list(map(int, names.split())))))
    return b"\n".join([text(chance, n, clauses).removesuffix(b"\n"), b"%", names, *values]) + chance.choice([b"", b"\n"])


def damaged_input(chance, data):
    """The same input damaged anywhere or in a line after the `%` line, with lines swapped, or with that line changed."""
    lines = data.split(b"\n")
    mark = lines.index(b"%")
    kind = chance.randrange(8)
    if kind < 4:
        return damaged(chance, data)
    if kind < 6:
        at = chance.randrange(mark + 1, len(lines))
        lines[at] = damaged(chance, lines[at])
    elif kind == 6:
        first, second = chance.randrange(len(lines)), chance.randrange(len(lines))
        lines[first], lines[second] = lines[second], lines[first]
    else:
        lines[mark] = chance.choice([b"%%", b"% ", b" %", b"%\r", b""])
    return b"\n".join(lines)


def accepted_rows(data):
    """The permutations that the offers of an accepted input state."""
    lines = data.split(b"\n")
    names, *offered = lines[lines.index(b"%") + 1:] or [b""]
    return [stated(max(map(int, names.split())), names, values) for values in offered if values.split()]


def judged_input(data):
    """Of which sorts the offers of an input are, for an input that is accepted or refused with 11: those up to the refused one."""
    formula_text, lines = reference.split_input(data)
    place, line = reference.problem_line(formula_text)
    n, m = reference.problem_counts(place, line)
    clauses, found = reference.read_clauses(formula_text, place, n, m), []
    for row in (stated(n, lines[0], values) for values in lines[1:]):
        found += judged(clauses, row)
        if not all(map(holds_pair, missing(clauses, row))):
            break
    return found


def idle_input(data):
    """Of which sorts (IDLE) the offers of an input are, for one that is accepted or refused with 10 or 31: those up to the first that is idle, or so far."""
    formula_text, lines = reference.split_input(data)
    n, _ = reference.problem_counts(*reference.problem_line(formula_text))
    found = []
    for values in lines[1:]:
        found += idle(n, lines[0], values)
        if "idle" in found or "idle so far" in found:
            break
    return found


def powers(chance, n):
    """A cycle of 1..n and some of its powers, and clauses that they keep."""
    first = cycle(chance, n, chance.randint(min(n, 2), n))
    rows = [first]
    for _ in range(chance.randrange(4)):
        rows.append(image(rows[-1], first))
    return with_pairs(chance, n, closed(drawn(chance, n, 3)[0][:2], [first], 4 * n + 4), rows), rows


def columns(chance, n):
    """Swaps of columns of a table that holds most of 1..n in any order, half the time with signs, all of them turned by one, at times a line of it negated, and
    clauses that they keep."""
    width = chance.randint(1, 4)
    order = turned(chance, chance.sample(range(1, n + 1), n - n % width))
    table = [order[at:at + width] for at in range(0, len(order), width)]
    turns = [list(range(width)[1:]) + [0]] + [[*range(at), at + 1, at, *range(at + 2, width)] for at in range(width - 1)]
    maps = [{line[at]: line[turn[at]] for line in table for at in range(width)} for turn in turns]
    maps += [{i: -i for i in line} for line in table[:chance.randrange(2)]]
    rows = [[to.get(i, -to.get(-i, -i)) for i in range(1, n + 1)] for to in maps]
    return with_pairs(chance, n, closed(drawn(chance, n, 3)[0], rows, 200), rows), rows


def edged(chance, n):
    """Cycles of 1..n that add so many auxiliaries that the last number is beside a multiple of 64, at times one that adds none, and no clauses that
    they could break: none, or some that hold a pair."""
    last = chance.choice([edge for edge in (63, 64, 65, 127, 128, 129, 191, 192, 193) if edge >= n])
    rows = []
    while n > 1 and last > n:
        row = cycle(chance, n, min(n, last - n + 1, chance.randint(2, n)))
        added = len(remaining(row)) - 1
        if added > 0 or chance.random() < 0.1:
            rows.append(row)
            last -= added
    for _ in range(chance.randrange(3)):
        rows.insert(chance.randint(0, len(rows)), cycle(chance, n, min(n, 1)))
    return with_pairs(chance, n, [], rows), rows


def family(chance, n, kinds=(cycles, powers, columns, edged, edged)):
    """Clauses, seldom empty ones, and permutations of which most keep them."""
    clauses, rows = chance.choice(kinds)(chance, n)
    return [clause for clause in clauses if clause or chance.random() < 0.05], rows


def digits(chance, n):
    """An assignment of 1..n as digits, at times with few of one kind."""
    share = chance.choice([0.5, 0.5, 0.1, 0.9])
    return "".join("1" if chance.random() < share else "0" for _ in range(n))


def repaired(chance, clauses, given):
    """Digits changed at one literal of a false clause after another, so that they often end as a model."""
    changed = list(given)
    for _ in range(40):
        false = [clause for clause in clauses if clause and not any(changed[abs(literal) - 1] == "01"[literal > 0] for literal in clause)]
        if false:
            literal = chance.choice(chance.choice(false))
            changed[abs(literal) - 1] = "01"[literal > 0]
    return "".join(changed)


def summed(codes):
    """The sum modulo 2^64 of the numbers of codes, each as often as it comes. A code that is no literal's adds nothing."""
    return sum(reference.NUMBERS.get(reference.literal_of(code), 0) for code in codes) % 2 ** 64


def clauses_of(literals, ends):
    return [literals[start:end] for start, end in zip([0, *ends], ends)]


def keys_of(literals, ends):
    """The keys of the clauses that these codes and ends make."""
    return [summed(set(clause)) for clause in clauses_of(literals, ends)]


def codes(lists):
    """The codes of the literals of some lists, one list after the other."""
    return [2 * abs(literal) + (literal < 0) for each in lists for literal in each]


def store(chance, n, clauses, rows, flag):
    """The numbers and slices of a store that holds these clauses and rows, with entries of any value past those in use, at times as many as a row."""
    literals, ends = codes(clauses), list(itertools.accumulate(len(clause) for clause in clauses))
    slices = literals, ends, keys_of(literals, ends), codes(rows)
    spare = [[chance.getrandbits(bits) for _ in range(chance.choice([0, 0, 1, most]))] for most, bits in [(3, 16), (3, 16), (3, 64), (n, 16)]]
    return (n, len(clauses), len(rows), flag), *map(operator.add, slices, spare)


EDGES = [0, 1, 2, 3, 63, 64, 65, 512, 513, 4096, 4097, 2 ** 16, 2 ** 32, 2 ** 55, 2 ** 63, 2 ** 64 - 1]


def put_wrong_key(chance, clauses, keys):
    """Makes a key any number, changes a bit of it, exchanges two, or counts the literals of a clause as often as they come."""
    at, other = (chance.randrange(len(clauses)) for _ in range(2))
    kind = chance.randrange(4)
    if kind == 0:
        keys[at] = chance.choice([0, 1, 2 ** 64 - 1, chance.getrandbits(64)])
    elif kind == 1:
        keys[at] ^= 1 << chance.randrange(64)
    elif kind == 2:
        keys[at], keys[other] = keys[other], keys[at]
    else:
        repeating = [q for q, clause in enumerate(clauses) if len(set(clause)) < len(clause)]
        at = chance.choice(repeating or [at])
        keys[at] = summed(clauses[at])


def damaged_store(chance, record, literals, ends, keys, images):
    """A store that no call left so: counts, the flag, an entry in use, a slice's length or a key changed. Mostly the keys are those of the clauses as changed,
    so that they hide no other damage."""
    slices = literals, ends, keys, images = [list(part) for part in (literals, ends, keys, images)]
    kinds = chance.choices(range(7), k=chance.choice([1, 1, 1, 2]))
    for kind in kinds:
        if kind == 0:
            for field in chance.sample(["variables", "clauses", "rows"], chance.choice([1, 1, 1, 2, 3])):
                record = record._replace(**{field: chance.choice([*EDGES, min(getattr(record, field) + 1, EDGES[-1])])})
        elif kind == 1:
            record = record._replace(open=chance.choice([0, 0, 0, 1, 2, 2 ** 32, 2 ** 64 - 1]))
        elif kind < 6:
            which = chance.randrange(4) if kind == 2 else chance.choice([0, 1, 3])
            part, used = slices[which], [max(ends[:record.clauses], default=0), record.clauses, record.clauses, record.rows * record.variables][which]
            used = min(used, len(part))
            if kind == 2:
                del part[max(chance.choice([used - 1, chance.randint(0, used), 0]), 0):]
            elif used:
                at = chance.randrange(used)
                other = chance.choice(part)
                part[at] = chance.choice([0, 1, 65535, part[at] ^ 1, part[at] + 1, part[at] - 1, other, other ^ 1, chance.randrange(300)]) % 65536
    keyed = clauses_of(literals, ends[:record.clauses])[:len(keys)]
    if chance.random() < 0.8:
        keys[:len(keyed)] = [summed(set(clause)) for clause in keyed]
    if 6 in kinds and keyed:
        put_wrong_key(chance, keyed, keys)
    return record, literals, ends, keys, images


def misfit(chance, n, words):
    """Words that are no assignment of 1..n: too few, too many, or with a spare bit set."""
    kind = chance.randrange(3)
    if kind == 0 and words:
        return words[:chance.randrange(len(words))]
    if kind == 1 and words and n % 64:
        return words[:-1] + [words[-1] | 1 << chance.choice([0, 63 - n % 64, chance.randrange(64 - n % 64)])]
    return words + [chance.choice([0, 1, 2 ** 63])] * chance.randint(1, 2)
