"""The manual's examples, run: its console blocks and its host in C, every refusal of its table, its figures, and its tables of moving, filling in,
descent and the efficiency. What docs/MANUAL.md shows is taken from there, so that it stays true. Run by tests/run, after the program and the library are built."""
import os
import re
import subprocess
import tempfile
import unittest

import generate
import library
import reference

BREAKER = os.environ.get("BREAKER", os.path.join(library.ROOT, "target", "bin", "breaker"))
with open(os.path.join(library.ROOT, "docs", "MANUAL.md")) as manual:
    MANUAL = manual.read()
LISTING = b"p cnf 3 2\n1 2 0\n2 3 0\n"
CLOSED = reference.Record(0, 0, 0, False)


def section(title):
    """A section of the manual, without its heading."""
    return re.search(rf"^## {title}\n(.*?)(?=^## |\Z)", MANUAL, re.S | re.M)[1]


def rows(part):
    """The rows of a section's tables, as lists of cells; heads and rules are left out."""
    table = [line[2:-2].split(" | ") for line in part.splitlines() if line.startswith("| ")]
    return [row for row in table if re.match(r"\d", row[0])]


def store(text, literals=12288, ends=4096, keys=4096, images=64 * 512):
    """A store of these lengths, and what opening a text in it answers."""
    host = library.Host(library.load(), CLOSED, [0] * literals, [0] * ends, [0] * keys, [0] * images)
    return host, host.open(text)


def opened(text, *permutations):
    """A store of a text that opens, with rows."""
    host, answer = store(text)
    assert answer[0] == "done", answer
    for names, values in permutations:
        assert host.offer(names, values) == ("done",)
    return host


def words(digits):
    """An assignment that is written as digits."""
    return [int(digits[at:at + 64].ljust(64, "0"), 2) for at in range(0, len(digits), 64)]


def raw(quoted):
    """The bytes of a text as the manual writes it."""
    return quoted.encode().decode("unicode_escape").encode("latin1")


class Manual(unittest.TestCase):
    def test_console(self):
        """Each console block prints what is shown, in a folder that has the repository's parts and the host in C."""
        blocks = re.findall(r"```console\n(.*?)```", MANUAL, re.S)
        (host,) = re.findall(r"```c\n(.*?)```", MANUAL, re.S)
        self.assertGreaterEqual(len(blocks), 6)
        with tempfile.TemporaryDirectory() as folder:
            for name in ("include", "target", "crates"):
                os.symlink(os.path.join(library.ROOT, name), os.path.join(folder, name))
            with open(os.path.join(folder, "calls.c"), "w") as file:
                file.write(host)
            for block in blocks:
                script = "".join(line[2:] + "\n" for line in block.splitlines() if line.startswith("$ "))
                shown = "".join(line + "\n" for line in block.splitlines() if not line.startswith("$ "))
                with self.subTest(script):
                    ran = subprocess.run(["bash", "-c", script], cwd=folder, capture_output=True, text=True)
                    self.assertEqual((ran.stdout, ran.stderr, ran.returncode), (shown, "", 0))
            strict = ["cc", "-std=c99", "-pedantic", "-Wall", "-Wextra", "-Werror", "-c", "calls.c", "-Iinclude", "-o", os.devnull]
            self.assertEqual(subprocess.run(strict, cwd=folder).returncode, 0)

    def refusal(self, example):
        """Number and place that an example of the table of refusals gives, by its wording."""
        host = opened(LISTING, (b"1 3", b"3 1"))
        zeros = bytes(100)
        special = {
            "`symbreak_descend` with two words": lambda: host.descend([0, 0], 5)[0],
            "`symbreak_fill_in` of the word 1": lambda: host.fill_in([1], [0] * 9)[0],
            "`symbreak_compare` of one word and two": lambda: library.compare(library.load(), [0], [0, 0]),
            "`symbreak_clause` with q = 4, where M is 3": lambda: host.clause(4, zeros)[0],
            "`symbreak_efficiency` of 5, 4, 3": lambda: library.said(library.load().symbreak_efficiency(5, 4, 3)),
            "`symbreak_efficiency` of 4, 4, 4": lambda: library.said(library.load().symbreak_efficiency(4, 4, 4)),
            "`symbreak_header` with `symbreak_new_record()`": lambda: self.header(host, record=CLOSED),
            "`symbreak_header` with variables = 2": lambda: self.header(host, record=host.record._replace(variables=2)),
            "`symbreak_header` with ends_len = 1": lambda: self.header(host, ends=host.ends[:1]),
            "`symbreak_header` with keys[0] = 0": lambda: self.header(host, keys=[0, *host.keys[1:]]),
            "`symbreak_header` with out_len = 4": lambda: host.header(bytes(4))[0],
            "`symbreak_open` with literals_len = 3": lambda: store(LISTING, literals=3)[1],
            "`symbreak_open` with keys_len = 1": lambda: store(LISTING, keys=1)[1],
            "`symbreak_offer` with images_len = 2, no row held": lambda: store(LISTING, images=2)[0].offer(b"1 3", b"3 1"),
            "names `1 3`, values `3 1`, the 65th time": lambda: [host.offer(b"1 3", b"3 1") for _ in range(64)][-1],
            "`symbreak_withdraw`, the second time": lambda: [host.withdraw() for _ in range(2)][-1],
        }
        if example in special:
            return special[example]()[1:]
        shown = [raw(part) for part in re.findall(r"`(.*?)`", example)]
        if example.startswith("program"):
            word, number, place = subprocess.run([BREAKER], input=shown[0], capture_output=True).stdout.split()
            self.assertEqual(word, b"refused")
            return int(number), int(place)
        if example.startswith("names"):
            return opened(LISTING).offer(*shown)[1:]
        self.assertTrue(example.startswith("text"), example)
        times = re.search(r"`1 ` ([\d,]+) times", example)
        return store(shown[0] + shown[1] * int(times[1].replace(",", "")) + shown[2] if times else shown[0])[1][1:]

    def header(self, host, **changed):
        parts = dict(zip(("record", "literals", "ends", "keys", "images"), host.parts())) | changed
        return library.Host(library.load(), **parts).header(bytes(100))[0]

    def test_refusals(self):
        """Every example of the table of refusals, and one at least for each number."""
        tried = set()
        for number, _, _, examples in rows(section("Refusals")):
            for each in examples.split("; "):
                example, place = re.fullmatch(r"(.*): (\d+)", each).groups()
                with self.subTest(each):
                    self.assertEqual(self.refusal(example), (int(number), int(place)))
                tried.add(int(number))
        self.assertEqual(tried, set(range(1, 16)) | set(range(20, 24)) | {30, 31})

    def test_moving(self):
        """Each table says in its head by which values of the names 1, 2, .. it moves; where there are no clauses they are all accepted."""
        tables = re.findall(r"^\| A \| A moved by `([-\d ]+)` \|.*\n((?:\|.*\n)+)", section("Moving an assignment"), re.M)
        self.assertGreaterEqual(sum(len(rows(table)) for _, table in tables), 3)
        for values, table in tables:
            images = list(map(int, values.split()))
            host = opened(b"p cnf %d 0\n" % len(images), (b" ".join(b"%d" % i for i in range(1, len(images) + 1)), values.encode()))
            for before, after, smaller in rows(table):
                moved = generate.moved(images, before)
                self.assertEqual((after, smaller), (moved, "yes" if moved < before else "no"))
                told, left = host.descend(words(before), 1)
                self.assertEqual(left, words(after if smaller == "yes" else before), told)

    def test_figures(self):
        """Those of the example with k = 3."""
        (figures,) = re.findall(r"those of the last example are (\d+), (\d+), (\d+) and (\d+)", " ".join(MANUAL.split()))
        self.assertEqual(opened(b"p cnf 3 0\n", (b"1 2 3", b"2 3 -1")).figures(), ("done", *map(int, figures)))

    def test_filling_in(self):
        table = rows(section("Filling in and checking"))
        self.assertEqual(len(table), 3)
        host = opened(b"p cnf 3 1\n1 2 3 0\n", (b"1 2 3", b"2 3 1"))
        for plain, filled, checked in table:
            self.assertEqual(host.fill_in(words(plain), [0]), (("done", 1), words(filled)))
            self.assertEqual(host.check(words(filled)), ("done", int(checked.split(":")[0])))

    def test_descent(self):
        table = rows(section("Descent"))
        self.assertEqual(len(table), 4)
        host = opened(b"p cnf 4 1\n1 2 3 4 0\n", (b"1 2 3 4", b"1 2 4 3"), (b"1 2 3 4", b"2 3 1 4"))
        reached = words("0011")
        for limit, way, ends in table:
            told, left = host.descend(words("1100"), int(limit))
            how, moves = re.match(r"(\w+), (\d+) move", ends).groups()
            self.assertEqual(told, ("done", how, int(moves)))
            steps = re.findall(r"[01]{4}", way)
            self.assertEqual(left, words(steps[-1]) if steps else words("1100") if way == "none" else reached)

    def test_efficiency(self):
        table = rows(section("The efficiency figure"))
        self.assertEqual(len(table), 6)
        for *numbers, percent in table:
            *counts, figure = (int(number.replace(",", "")) for number in numbers)
            self.assertEqual(library.said(library.load().symbreak_efficiency(*counts)), ("done", figure))
            self.assertEqual(round(100 * float(percent.split(" %")[0])), figure)


if __name__ == "__main__":
    unittest.main()
