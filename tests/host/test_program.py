"""The program against the reference, against lines worked out by hand from document 01, and against the library's figures: fixed seeds. Run by tests/run. A
number on the command line is how many random inputs are tried: `python3 tests/host/test_program.py 100000`. Input i is the same whatever that number is."""
import fcntl
import functools
import os
import random
import resource
import signal
import subprocess
import tempfile
import time
import unittest
from collections import Counter

import generate
import library
import reference
from agree import LIBRARY, counted

BREAKER = os.environ.get("BREAKER", os.path.join(library.ROOT, "target", "bin", "breaker"))
INPUTS = library.rounds(1500)

LISTING = b"""p cnf 3 2
1 2 0
2 3 0
%
1 3
3 1
"""
MADE = b"""p cnf 3 3
1 2 0
2 3 0
-1 3 0
"""
PLAIN = b"p cnf 3 2\n1 2 0\n2 3 0\n"
FULL = b"p cnf 1 1\n" + b"1 " * 12288

OPENINGS = [
    ("nothing before the % line", b"", "refused 1 0"),
    ("only comments", b"c one\nc two\n", "refused 1 12"),
    ("an empty line before the problem line", b"c\n\np cnf 0 0\n", "refused 1 2"),
    ("another line before the problem line", b"c\nx\np cnf 0 0\n", "refused 1 2"),
    ("a blank before p", b" p cnf 0 0\n", "refused 1 0"),
    ("no blank after p", b"pcnf 0 0\n", "refused 1 0"),
    ("p followed by another letter", b"px cnf 0 0\n", "refused 1 0"),
    ("another form", b"p dnf 0 0\n", "refused 1 0"),
    ("three words", b"p cnf 0\n", "refused 1 0"),
    ("five words", b"p cnf 1 1 1 0\n", "refused 1 0"),
    ("a problem line over two lines", b"p cnf 1\n1\n1 0\n", "refused 1 0"),
    ("n negative", b"p cnf -1 0\n", "refused 1 0"),
    ("m negative", b"p cnf 0 -1\n", "refused 1 0"),
    ("a leading zero", b"c\np cnf 01 0\n", "refused 1 2"),
    ("seven digits", b"p cnf 1000000 0\n", "refused 1 0"),
    ("a carriage return", b"p cnf 0 0\r\n", "refused 1 0"),
    ("no number beside one over its limit", b"p cnf 513 x\n", "refused 1 0"),
    ("513 variables", b"p cnf 513 0\n", "refused 2 0"),
    ("six digits", b"p cnf 999999 0\n", "refused 2 0"),
    ("4,097 clauses", b"c x\np cnf 0 4097\n" + b"0\n" * 4097, "refused 2 4"),
    ("a letter", b"p cnf 3 2\n1 2 0\n2 x 0\n", "refused 3 18"),
    ("minus zero", b"p cnf 1 1\n-0 0\n", "refused 3 10"),
    ("two zeros", b"p cnf 1 1\n1 00\n", "refused 3 12"),
    ("plus one", b"p cnf 1 1\n\n\t+1 0\n", "refused 3 12"),
    ("minus alone", b"p cnf 1 1\n- 0\n", "refused 3 10"),
    ("seven digits as a literal", b"p cnf 1 1\n1000000 0\n", "refused 3 10"),
    ("a comment with a blank first", b"p cnf 1 1\n c\n1 0\n", "refused 3 11"),
    ("a comment in the middle of a line", b"p cnf 1 1\n1 c\n0\n", "refused 3 12"),
    ("a letter after a comment", b"p cnf 1 1\nc x\nx 0\n", "refused 3 14"),
    ("a carriage return after the zero", b"p cnf 1 1\n1 0\r\n", "refused 3 12"),
    ("a byte of 0", b"p cnf 1 1\n1 0\x00\n", "refused 3 12"),
    ("a byte of 255", b"p cnf 1 1\n\xff 0\n", "refused 3 10"),
    ("variable 4 of 3", b"p cnf 3 1\n1 4 0\n", "refused 4 12"),
    ("its negation", b"p cnf 3 1\n1 2 -4 0\n", "refused 4 14"),
    ("six digits as a literal", b"p cnf 3 1\n999999 x\n", "refused 4 10"),
    ("a literal without variables", b"c\np cnf 0 1\n1 0\n", "refused 4 12"),
    ("literal 12,289", FULL + b"1 0\n", "refused 5 24586"),
    ("no number as literal 12,289", FULL + b"x 0\n", "refused 3 24586"),
    ("literal 12,289 beyond n", FULL + b"2 0\n", "refused 4 24586"),
    ("literal 12,289 after the last clause", FULL + b"0 1 0\n", "refused 6 24588"),
    ("a clause more", b"p cnf 2 1\n1 0\n2 0\n", "refused 6 14"),
    ("a letter after the clauses", b"p cnf 0 0\n x\n", "refused 6 11"),
    ("a literal beyond n after the clauses", b"p cnf 1 1\n1 0 2\n", "refused 6 14"),
    ("a comment with a blank first after the clauses", b"p cnf 0 0\n c\n", "refused 6 11"),
    ("a clause more after a comment", b"p cnf 1 1\n1 0\nc\n1 0\n", "refused 6 16"),
    ("only comments after the problem line", b"p cnf 1 1\nc\nc 1 0\n", "refused 6 18"),
    ("a clause less", b"p cnf 2 2\n1 2 0\n", "refused 6 16"),
    ("a clause not closed", b"p cnf 2 1\n1 2\n\n", "refused 6 15"),
]

OFFERS = [
    ("a letter as a name", b"1 x\n3 1", "refused 7 2"),
    ("minus zero as a name", b" -0\n1", "refused 7 1"),
    ("a carriage return after the names", b"1 3\r\n3 1", "refused 7 2"),
    ("a letter after a bad name", b"4 x\n3 1", "refused 7 2"),
    ("a % line as names", b"%\n3 1", "refused 7 0"),
    ("name 4 of 3", b"1 4\n4 1", "refused 8 2"),
    ("name 0", b"0\n0", "refused 8 0"),
    ("a negative name", b"3 -1\n3 1", "refused 8 2"),
    ("a name twice", b"1 1\n1 1", "refused 8 2"),
    ("an empty names line", b"\n3 1", "refused 8 0"),
    ("blanks as names", b" \t \n3 1", "refused 8 3"),
    ("a bad name before a letter as a value", b"4\nx", "refused 8 0"),
    ("a letter as a value", b"1 3\n3 x", "refused 9 2"),
    ("a letter after a bad value", b"1 3\n3 3 x", "refused 9 4"),
    ("minus zero as a value", b"1 3\n3 -0", "refused 9 2"),
    ("a carriage return after the values", b"1 3\n3 1\r", "refused 9 2"),
    ("a % line as values", b"1 3\n%", "refused 9 0"),
    ("a letter in the second offer", b"1 3\n3 1\n1 x", "refused 9 2"),
    ("a value that is no name", b"1 3\n2 1", "refused 10 0"),
    ("a negative value whose size is no name", b"1 3\n-2 1", "refused 10 0"),
    ("value 0", b"1 3\n3 0", "refused 10 2"),
    ("a value twice", b"1 3\n3 3", "refused 10 2"),
    ("a size twice, with two signs", b"1 3\n-3 3", "refused 10 3"),
    ("a value that is no name, and too few", b"1 3\n2", "refused 10 0"),
    ("a value too few", b"1 3\n3", "refused 10 1"),
    ("a value too few and a blank", b"1 3\n3 ", "refused 10 2"),
    ("a value more", b"1 3\n3 1 1", "refused 10 4"),
    ("no value", b"1 3\n\n3 1", "refused 10 0"),
    ("an equal value before a letter", b"1 3\n1 x", "refused 9 2"),
    ("equal values before a letter", b"1 3\n1 3 x", "refused 9 4"),
    ("an equal value and too few", b"1 3\n1", "refused 10 1"),
    ("an equal value twice", b"1 3\n1 1", "refused 10 2"),
    ("equal values and one more", b"1 3\n1 3 3", "refused 10 4"),
    ("a line that moves nothing", b"1 3\n1 3", "refused 31 0"),
    ("one name", b"2\n2", "refused 31 0"),
    ("all names, in another order", b"3 1 2\n3 1 2", "refused 31 0"),
    ("blanks around equal values", b"\t3 1\n 3\t\t1 ", "refused 31 0"),
    ("a line that moves nothing in the second offer", b"1 3\n3 1\n1 3", "refused 31 0"),
    ("a line that moves nothing before one that is no symmetry", b"1 2\n1 2\n2 1", "refused 31 0"),
    ("no symmetry before a line that moves nothing", b"1 2\n2 1\n1 2", "refused 11 2"),
    ("no symmetry, one of three equal", b"1 2 3\n1 3 2", "refused 11 1"),
    ("no symmetry, the value the name negated", b"2\n-2", "refused 11 1"),
    ("no symmetry", b"1 2\n2 1", "refused 11 2"),
    ("no symmetry in the second offer", b"1 2 3\n3 2 1\n1 3 2", "refused 11 1"),
    ("no symmetry for its sign", b"1 3\n3 -1", "refused 11 2"),
    ("two bad offers", b"1 2 3\n2 1 3\nx", "refused 11 2"),
]

MISSING = [
    ("a unit", b"p cnf 2 1\n1 0\n", "refused 11 1"),
    ("the other sign", b"p cnf 2 2\n1 0\n-2 0\n", "refused 11 1"),
    ("another after equal sets", b"p cnf 2 4\n1 0\n2 2 0\n-1 0\n-1 0\n", "refused 11 3"),
    ("less than a clause", b"p cnf 2 2\n1 2 0\n1 0\n", "refused 11 2"),
    ("more than a clause", b"p cnf 2 2\n0\n1 0\n", "refused 11 2"),
    ("after a clause with a pair", b"p cnf 2 2\n1 -1 0\n1 0\n", "refused 11 2"),
    ("between clauses with a pair", b"p cnf 2 4\n2 -2 1 0\n-2 1 2 0\n-1 0\n1 -1 0\n", "refused 11 3"),
    ("a repeat after a pair and a repeat", b"p cnf 2 2\n1 -1 1 0\n1 1 0\n", "refused 11 2"),
]


@functools.cache
def most_rows():
    """512 variables, clauses of those that stay, and 64 permutations that each move all names by one cycle, every second one with a sign."""
    chance = random.Random(8)
    names = [*range(1, 100), *range(338, 513)]
    clauses = [[chance.choice([-1, 1]) * chance.randint(100, 337) for _ in range(3)] for _ in range(20)]
    lines = [b"p cnf 512 20", *(b"%d %d %d 0" % tuple(clause) for clause in clauses), b"%", b" ".join(b"%d" % name for name in names)]
    for row in range(64):
        round = chance.sample(names, len(names))
        values = dict(zip(round, round[1:] + [-round[0] if row % 2 else round[0]]))
        lines.append(b" ".join(b"%d" % values[name] for name in names))
    return b"\n".join(lines)


def figures(data):
    """The figures of the made formula that an accepted input gives, by the library."""
    text, lines = reference.split_input(data)
    host = library.Host(LIBRARY, reference.new_record(), *[[0] * len(data)] * 3, [0] * 512 * len(lines))
    assert host.open(text)[0] == "done" and all(host.offer(lines[0], values) == ("done",) for values in lines[1:])
    return host.figures()


class Program(unittest.TestCase):
    def agree(self, data):
        """What the program prints, which is what the reference prints; of a made formula the library's figures say as much."""
        ended = subprocess.run([BREAKER], input=data, capture_output=True)
        self.assertEqual(ended.returncode, 0, data)
        self.assertEqual(ended.stderr, b"", data)
        self.assertEqual(ended.stdout, reference.program(data), data)
        if not ended.stdout.startswith(b"refused"):
            self.assertEqual(figures(data), ("done", *counted(ended.stdout)), data)
        return ended.stdout

    def prints(self, data, expected):
        """The program prints what was worked out by hand."""
        self.assertEqual(self.agree(data), expected, data)

    def table(self, cases, layout):
        """Every case refused with its line; the numbers that came up."""
        for name, part, expected in cases:
            with self.subTest(name):
                self.prints(layout % part, expected.encode() + b"\n")
        return {int(expected.split()[1]) for _, _, expected in cases}

    def test_listing(self):
        self.prints(LISTING, MADE)

    def test_input_in_pieces(self):
        """Input that arrives byte by byte is read to its end."""
        with subprocess.Popen([BREAKER], stdin=subprocess.PIPE, stdout=subprocess.PIPE, bufsize=0) as running:
            for byte in LISTING:
                running.stdin.write(bytes([byte]))
                time.sleep(0.001)
            running.stdin.close()
            self.assertEqual(running.stdout.read(), MADE)

    def test_length(self):
        """65,536 bytes are read, wherever they are; 65,537 are 15, whatever they hold."""
        for length, expected in [(65536, MADE), (65537, b"refused 15 0\n"), (65538, b"refused 15 0\n"), (300000, b"refused 15 0\n")]:
            room = length - len(LISTING)
            for data in [b"c" + b"x" * (room - 2) + b"\n" + LISTING, LISTING.rstrip() + b" " * room + b"\n", LISTING.replace(b"%", b"\n" * room + b"%")]:
                self.assertEqual(len(data), length)
                self.prints(data, expected)
        text = b"p cnf 0 0" + b"\n" * 65526
        self.prints(text + b"%", b"p cnf 0 0\n")
        self.prints(text + b"\n%", b"refused 15 0\n")

    def test_divider(self):
        """Without a line that is just % it is 15, before all else; of several the first counts."""
        for line, place in [(b"%%", 22), (b"% ", 22), (b" %", 23), (b"\t%", 23), (b"%\r", 22), (b"%x", 22), (b" c %", 23)]:
            self.prints(LISTING.replace(b"%", line), b"refused 15 0\n")
            self.prints(LISTING.replace(b"%", line + b"\n%"), b"refused 6 %d\n" % place)
        for data in [b"", b"\n", b"x", PLAIN, b"p cnf 0 0%", b"p cnf 513 0\n", b"%%\n%\r\n"]:
            self.prints(data, b"refused 15 0\n")
        self.prints(LISTING.replace(b"%", b"c %"), b"refused 15 0\n")
        self.prints(LISTING.replace(b"%", b"c %\n%"), MADE)
        self.prints(b"p cnf 1 1\n1\n%\n0\n%\n", b"refused 6 12\n")
        self.prints(PLAIN + b"%\n%\n1 3\n3 1\n", b"refused 7 0\n")

    def test_lines(self):
        """A last line feed starts no line; without value lines nothing is offered and the names line is not looked at."""
        for after in [b"", b"\n", b"\n\n", b"\n1 3", b"\n1 3\n", b"\nrubbish", b"\n4 \xff x\n", b"\n%", b"\n%\n"]:
            self.prints(PLAIN + b"%" + after, PLAIN)
        for after, expected in [(b"\n1 3\n3 1", MADE), (b"\n1 3\n3 1\n", MADE), (b"\n1 3\n3 1\n\n", b"refused 10 0\n"), (b"\n1 3\n\n", b"refused 10 0\n"),
                                (b"\n\n\n", b"refused 8 0\n"), (b"\nrubbish\n\n", b"refused 7 0\n"), (b"\n%\n%\n", b"refused 7 0\n")]:
            self.prints(PLAIN + b"%" + after, expected)

    def test_layout(self):
        """Blanks, line ends and comments don't matter; order, repeats and empty clauses stay."""
        self.prints(b"c %\ncp cnf 9 9\r\np\tcnf  3 \t2 \n\n1\n2 0 2\t3 0\n \n%\n\t3  1 \n1\t3", MADE)
        self.prints(b"p cnf 3 2\nc\n1\nc % 0\n2 0 2\t3\ncnf 9 9\r\n0\nc 1\n%\n3 1\n1 3", MADE)
        self.prints(b"p cnf 2 6\n0 1 1 0 1 -1 0 0 2 2 2 0 -2 2 0\n%\n2 1\n1 2\n",
                    b"p cnf 2 7\n0\n1 1 0\n1 -1 0\n0\n2 2 2 0\n-2 2 0\n-1 2 0\n")
        self.prints(b"p cnf 0 0\n%\n", b"p cnf 0 0\n")

    def test_two_rows(self):
        """Each row's clauses from its own side, with auxiliaries numbered on. The largest of three or four is left out, and is still the image of another."""
        self.prints(b"p cnf 3 1\n1 2 3 0\n%\n1 2 3\n2 3 1\n3 1 2\n",
                    b"p cnf 5 13\n1 2 3 0\n"
                    b"-1 2 0\n-4 -1 2 0\n-4 1 -2 0\n4 1 2 0\n4 -1 -2 0\n-4 -2 3 0\n"
                    b"-1 3 0\n-5 -1 3 0\n-5 1 -3 0\n5 1 3 0\n5 -1 -3 0\n-5 -2 1 0\n")
        self.prints(b"p cnf 4 1\n1 2 3 4 0\n%\n1 2 3 4\n2 3 4 1\n4 1 2 3\n",
                    b"p cnf 8 25\n1 2 3 4 0\n"
                    b"-1 2 0\n-5 -1 2 0\n-5 1 -2 0\n5 1 2 0\n5 -1 -2 0\n-5 -2 3 0\n"
                    b"-6 5 0\n-6 -2 3 0\n-6 2 -3 0\n6 -5 2 3 0\n6 -5 -2 -3 0\n-6 -3 4 0\n"
                    b"-1 4 0\n-7 -1 4 0\n-7 1 -4 0\n7 1 4 0\n7 -1 -4 0\n-7 -2 1 0\n"
                    b"-8 7 0\n-8 -2 1 0\n-8 2 -1 0\n8 -7 2 1 0\n8 -7 -2 -1 0\n-8 -3 2 0\n")

    def test_signs(self):
        """A row that moves one variable adds one clause; then an exchange with a sign, and a variable that is sent to its own negation beside an exchange,
        without a sign and with one; and an exchange with two signs, which adds one clause."""
        square = b"1 2 3 0\n1 -2 3 0\n-1 -2 3 0\n-1 2 3 0\n"
        self.prints(b"p cnf 3 4\n" + square + b"%\n1 2\n-1 2\n-2 1\n",
                    b"p cnf 4 11\n" + square + b"-1 -1 0\n-1 -2 0\n-4 -1 -2 0\n-4 1 2 0\n4 1 -2 0\n4 -1 2 0\n-4 -2 1 0\n")
        self.prints(b"p cnf 3 0\n%\n1 2 3\n3 -2 1\n3 -2 -1\n",
                    b"p cnf 6 18\n-1 3 0\n-4 -1 3 0\n-4 1 -3 0\n4 1 3 0\n4 -1 -3 0\n-4 -2 -2 0\n"
                    b"-1 3 0\n-5 -1 3 0\n-5 1 -3 0\n5 1 3 0\n5 -1 -3 0\n-5 -2 -2 0\n"
                    b"-6 5 0\n-6 -2 -2 0\n-6 2 2 0\n6 -5 2 -2 0\n6 -5 -2 2 0\n-6 -3 -1 0\n")
        self.prints(b"p cnf 2 1\n-1 2 0\n%\n1 2\n-2 -1\n", b"p cnf 2 2\n-1 2 0\n-1 -2 0\n")

    def test_cycles(self):
        """Rows of several cycles: two exchanges, then with the second odd, then the outer of two odd, so that 1, 2 and 4 are left."""
        self.prints(b"p cnf 4 0\n%\n1 2 3 4\n2 1 4 3\n-2 -1 4 -3\n4 3 2 -1\n",
                    b"p cnf 9 30\n-1 2 0\n-5 -1 2 0\n-5 1 -2 0\n5 1 2 0\n5 -1 -2 0\n-5 -3 4 0\n"
                    b"-1 -2 0\n-6 -1 -2 0\n-6 1 2 0\n6 1 -2 0\n6 -1 2 0\n-6 -3 4 0\n-7 6 0\n-7 -3 4 0\n-7 3 -4 0\n7 -6 3 4 0\n7 -6 -3 -4 0\n-7 -4 -3 0\n"
                    b"-1 4 0\n-8 -1 4 0\n-8 1 -4 0\n8 1 4 0\n8 -1 -4 0\n-8 -2 3 0\n-9 8 0\n-9 -2 3 0\n-9 2 -3 0\n9 -8 2 3 0\n9 -8 -2 -3 0\n-9 -4 -1 0\n")

    def test_long(self):
        """One cycle through 512 variables, on and back, even and odd: the even ones leave 511. Then all of them exchanged in pairs, which leaves 256."""
        rows = [generate.shifted(512, by, negated) for by in (1, -1) for negated in ([], [1], [1, 512])] + [generate.swaps(512), list(range(512, 0, -1))]
        printed = self.agree(b"p cnf 512 0\n%%\n%b\n" % b"\n".join(b" ".join(b"%d" % i for i in row) for row in [range(1, 513), *rows]))
        added = 2 * (510 + 511 + 510) + 2 * 255
        self.assertTrue(printed.startswith(b"p cnf %d %d\n" % (512 + added, 6 * added)))

    def test_always_true(self):
        """A clause with a pair is written out where it stands, and offers are judged without it: the listing with one more clause, and others."""
        self.prints(b"p cnf 3 3\n1 2 0\n1 -1 2 0\n2 3 0\n%\n1 3\n3 1\n",
                    b"p cnf 3 4\n1 2 0\n1 -1 2 0\n2 3 0\n-1 3 0\n")
        plain = b"1 2 0\n2 3 0\n"
        for clauses in [b"1 -1 2 0\n" + plain, plain + b"2 1 -1 0\n", b"3 2 -3 3 0\n" + plain + b"-1 1 0\n", b"1 -1 0\n0\n3 1 -1 0\n", b"1 2 3 -1 0\n"]:
            count = clauses.count(b"\n")
            self.prints(b"p cnf 3 %d\n%b%%\n1 3\n3 1\n" % (count, clauses), b"p cnf 3 %d\n%b-1 3 0\n" % (count + 1, clauses))
        self.prints(b"p cnf 8 3\n5 -5 8 0\n5 6 0\n7 -8 -7 0\n%\n5 6 8\n6 5 8\n5 6 -8\n",
                    b"p cnf 8 5\n5 -5 8 0\n5 6 0\n7 -8 -7 0\n-5 6 0\n-8 -8 0\n")

    def test_over_pairs(self):
        """Clauses that a permutation keeps, but for some with a pair: all are written out, or the first of the others whose image is missing is told."""
        chance, seen = random.Random(9), Counter()
        for _ in range(100):
            n = chance.choice([2, 3, 4, 5, 6, 9])
            row, clauses, place = generate.over_pairs(chance, n)
            text = b"".join(map(reference.clause_line, clauses))
            printed = self.agree(b"p cnf %d %d\n%b%%\n%b\n%b\n" % (n, len(clauses), text, *generate.offers(chance, n, [row])))
            self.assertTrue(printed == b"refused 11 %d\n" % place if place else printed.split(b"\n", 1)[1].startswith(text), printed)
            seen.update(generate.judged(clauses, row))
        for sort in ["symmetry over a pair", "missing after a pair"]:
            self.assertGreater(seen[sort], 30, sort)

    def test_refusals(self):
        found = self.table(OPENINGS, b"%b%%\n1 3\n3 1\n") | self.table(OFFERS, PLAIN + b"%%\n%b\n") | self.table(MISSING, b"%b%%\n1 2\n2 1\n")
        self.assertEqual(found, {*range(1, 12), 31})

    def test_rows_held(self):
        """Row 64 is held, the next offer is 22 and not looked at."""
        cycles = b"p cnf 3 1\n1 2 3 0\n%\n1 2 3\n" + b"2 3 1\n" * 63
        self.assertTrue(self.agree(cycles + b"2 3 1\n").startswith(b"p cnf 67 385\n1 2 3 0\n"))
        self.prints(cycles + b"x\n", b"refused 9 0\n")
        self.prints(cycles + b"1 2 3\n", b"refused 31 0\n")
        for line in [b"2 3 1", b"1 2 3", b"x", b""]:
            self.prints(cycles + b"2 3 1\n" + line + b"\n", b"refused 22 0\n")
        self.prints(b"p cnf 2 0\n%\n2\n" + b"-2\n" * 64, b"p cnf 2 64\n" + b"-2 -2 0\n" * 64)
        self.prints(b"p cnf 2 0\n%\n2 1\n" + b"1 2\n" * 64, b"p cnf 2 64\n" + b"-1 2 0\n" * 64)

    def test_random(self):
        refused, accepted, sorts = Counter(), Counter(), Counter()
        for seed in range(INPUTS):
            chance = random.Random(seed)
            data = generate.program_input(chance, chance.choice([0, 1, 2, 2, 3, 3, 4, 4, 5, 5, 6, 7, 8, 9]), 40)
            if seed % 2:
                data = generate.damaged_input(chance, data)
            with self.subTest(input=seed):
                printed = self.agree(data)
                number = int(printed.split()[1]) if printed.startswith(b"refused") else None
                if number in (None, 11):
                    sorts.update(generate.judged_input(data))
                if number in (None, 10, 31):
                    sorts.update(generate.idle_input(data))
                if number is None:
                    rows = generate.accepted_rows(data)
                    self.assertFalse(any(map(generate.identity, rows)))
                    accepted[len(rows)] += 1
                    sorts.update(sort for row in rows for sort in generate.sorts(row))
                else:
                    refused[number] += 1
        for number in [1, 2, 3, 4, 6, 7, 8, 9, 10, 11, 15, 31]:
            self.assertGreater(refused[number], 5, number)
        self.assertGreater(sum(times for rows, times in accepted.items() if rows >= 1), 200)
        self.assertGreater(sum(times for rows, times in accepted.items() if rows >= 2), 100)
        for sort, least in [*((sort, 50) for sort in generate.SORTS), *((sort, 10) for sort in [*generate.SHAPES, *generate.JUDGED, *generate.IDLE]),
                            *((sort, 5) for sort in generate.CYCLES[:9])]:
            self.assertGreater(sorts[sort], least, sort)

    def test_many_rows(self):
        """64 rows that move all of 256 variables by odd cycles, so that none is left out: 97,920 clauses."""
        chance = random.Random(6)
        rows = [generate.cycle(chance, 256, 256, (True,)) for _ in range(32)] + [generate.shifted(256, by, [256]) for by in range(1, 65, 2)]
        data = b"p cnf 256 0\n%\n" + b"".join(b" ".join(b"%d" % i for i in row) + b"\n" for row in [range(1, 257), *rows])
        self.assertLessEqual(len(data), 65536)
        self.assertTrue(self.agree(data).startswith(b"p cnf 16576 97920\n"))

    def test_most_rows(self):
        """64 accepted rows over 512 variables that move as many of them as 65,536 bytes can state, the last one too."""
        data = most_rows()
        self.assertLessEqual(len(data), 65536)
        self.assertEqual(len(generate.accepted_rows(data)), 64)
        added = 32 * 272 + 32 * 273  # of 274 names the even rows leave 273
        self.assertTrue(self.agree(data).startswith(b"p cnf %d %d\n" % (512 + added, 20 + 6 * added)))

    def test_many_clauses(self):
        """4,096 clauses over 512 variables with two rows that move all; only the last one's image missing; 12,288 literals."""
        chance = random.Random(7)
        swaps = generate.swaps(512)
        halves = [[chance.choice([-1, 1]) * chance.randint(1, 512) for _ in range(2)] for _ in range(2048)]
        clauses = [each for clause in halves for each in (clause, generate.image(clause, swaps))]
        names, values = (b" ".join(b"%d" % i for i in row) for row in (range(1, 513), swaps))
        text = b"p cnf 512 4096\n" + b"".join(b"%d %d 0\n" % tuple(clause) for clause in clauses)
        self.assertTrue(self.agree(b"\n".join([text + b"%", names, values, values])).startswith(b"p cnf 1022 7156\n"))  # each row adds 255 auxiliaries
        self.prints(b"p cnf 2 4096\n" + b"1 2 0\n" * 4095 + b"1 0\n%\n1 2\n2 1\n", b"refused 11 4096\n")
        self.prints(b"p cnf 2 4096\n" + b"1 -1 0\n" * 4095 + b"1 0\n%\n1 2\n2 1\n", b"refused 11 4096\n")
        self.prints(FULL + b"0\n%\n", FULL + b"0\n")


class Failures(unittest.TestCase):
    """Reads and writes of the system that fail: what arrived is a beginning of the output, and standard error has one line. The exit status stays 0."""

    @classmethod
    def setUpClass(cls):
        cls.large = reference.program(most_rows())
        cls.outputs = [(LISTING, MADE), (b"", b"refused 15 0\n"), (most_rows(), cls.large)]

    def run_with(self, data, **options):
        """The program's standard error, its input in a file."""
        with tempfile.TemporaryFile() as source:
            source.write(data)
            source.seek(0)
            ended = subprocess.run([BREAKER], stdin=source, stderr=subprocess.PIPE, **options)
        self.assertEqual(ended.returncode, 0)
        return ended.stderr

    def cut(self, arrived, expected, complaint):
        """What arrived is a beginning of the output, and only a beginning is complained of."""
        self.assertEqual(arrived, expected[:len(arrived)])
        self.assertEqual(complaint, b"" if arrived == expected else b"breaker: writing failed\n")

    def slowly(self, nonblocking, pause):
        """What arrives through a pipe that is read piece by piece, and standard error."""
        reading, writing = os.pipe()
        if nonblocking:
            fcntl.fcntl(writing, fcntl.F_SETFL, fcntl.fcntl(writing, fcntl.F_GETFL) | os.O_NONBLOCK)
        with subprocess.Popen([BREAKER], stdin=subprocess.PIPE, stdout=writing, stderr=subprocess.PIPE) as running, open(reading, "rb", 0) as source:
            os.close(writing)
            running.stdin.write(most_rows())
            running.stdin.close()
            pieces = []
            while True:
                time.sleep(pause)
                piece = source.read(50000)
                if not piece:
                    return b"".join(pieces), running.stderr.read()
                pieces.append(piece)

    def test_slow_pipe(self):
        """A pipe that is read slowly gets the whole output."""
        self.assertEqual(self.slowly(False, 0.005), (self.large, b""))

    def test_nonblocking_pipe(self):
        """A write that would wait fails, and no later page follows."""
        for pause in [0, 0.001, 0.1]:
            arrived, complaint = self.slowly(True, pause)
            self.cut(arrived, self.large, complaint)
        self.assertLess(len(arrived), len(self.large))

    def test_full_device(self):
        for data, _ in self.outputs:
            with open("/dev/full", "wb") as full:
                self.assertEqual(self.run_with(data, stdout=full), b"breaker: writing failed\n")

    def test_closed_output(self):
        for data, _ in self.outputs:
            self.assertEqual(self.run_with(data, preexec_fn=lambda: os.close(1)), b"breaker: writing failed\n")

    def test_file_limit(self):
        """A file that may not grow has the output's first bytes, up to its limit."""
        def limited(limit):
            signal.signal(signal.SIGXFSZ, signal.SIG_IGN)
            resource.setrlimit(resource.RLIMIT_FSIZE, (limit, limit))

        for data, expected in self.outputs:
            for limit in [0, 1, 12, 13, 4096, 100001, 524288, 700001, len(expected) - 1, len(expected)]:
                with tempfile.TemporaryFile() as target:
                    complaint = self.run_with(data, stdout=target, restore_signals=False, preexec_fn=functools.partial(limited, limit))
                    target.seek(0)
                    arrived = target.read()
                self.assertEqual(len(arrived), min(limit, len(expected)))
                self.cut(arrived, expected, complaint)

    def test_full_disk(self):
        with tempfile.TemporaryDirectory() as place:
            if subprocess.run(["mount", "-t", "tmpfs", "-o", "size=1m", "tmpfs", place], capture_output=True).returncode:
                self.skipTest("no small file system can be mounted here")
            try:
                with open(os.path.join(place, "output"), "w+b") as target:
                    complaint = self.run_with(most_rows(), stdout=target)
                    target.seek(0)
                    arrived = target.read()
            finally:
                subprocess.run(["umount", place], check=True)
        self.assertLess(len(arrived), len(self.large))
        self.cut(arrived, self.large, complaint)

    def unread(self, **options):
        """Nothing is printed where a read fails."""
        ended = subprocess.run([BREAKER], capture_output=True, **options)
        self.assertEqual((ended.returncode, ended.stdout, ended.stderr), (0, b"", b"breaker: reading failed\n"))

    def test_unreadable_input(self):
        """A directory, no descriptor at all, one that is only written."""
        directory, written = os.open("/", os.O_RDONLY), os.open(os.devnull, os.O_WRONLY)
        self.unread(stdin=directory)
        self.unread(stdin=written)
        self.unread(preexec_fn=lambda: os.close(0))
        os.close(directory)
        os.close(written)

    def test_input_that_fails_later(self):
        """A pipe without more bytes that is not at its end, whatever came before."""
        for before in [b"", b"x", LISTING, LISTING * 900]:
            reading, writing = os.pipe()
            os.write(writing, before[:65536])
            os.set_blocking(reading, False)
            self.unread(stdin=reading)
            os.close(reading)
            os.close(writing)


if __name__ == "__main__":
    unittest.main()
