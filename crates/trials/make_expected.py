"""Makes this program's stdout by the reference: what a trial answers of each of its rows on every assignment of six variables.

Takes no arguments and writes the file beside itself; a second run gives the same bytes.
"""
import os
import sys

HERE = os.path.dirname(os.path.abspath(__file__))
sys.path.insert(0, os.path.join(HERE, "..", "..", "tests", "reference"))
import reference

ROWS = {
    "nothing moved": (1, 2, 3, 4, 5, 6),
    "1 and 2 exchanged": (2, 1, 3, 4, 5, 6),
    "2 and 5 exchanged": (1, 5, 3, 4, 2, 6),
    "5 and 6 exchanged": (1, 2, 3, 4, 6, 5),
    "1 to 3, 3 to 6, 6 to 1": (3, 2, 6, 4, 5, 1),
    "1 to 6, 6 to 3, 3 to 1": (6, 2, 1, 4, 5, 3),
    "turned round": (6, 5, 4, 3, 2, 1),
    "all to the next": (2, 3, 4, 5, 6, 1),
    "3 to -3": (1, 2, -3, 4, 5, 6),
    "1 to 4, 4 to -1": (4, 2, 3, -1, 5, 6),
    "2 to -6, 6 to -2": (1, -6, 3, 4, 5, -2),
    "1 to -2, 2 to -3, 3 to -1, 5 to -5": (-2, -3, -1, 4, -5, 6),
    "all negated": (-1, -2, -3, -4, -5, -6),
}


def expected():
    for name, images in ROWS.items():
        yield name
        row = dict(enumerate(images, 1))
        for number in range(64):
            a = {i: bool(number >> (6 - i) & 1) for i in range(1, 7)}
            lowers, variable = reference.trial(row, a)
            yield f"{number} {int(lowers)} {variable}"


with open(os.path.join(HERE, "stdout"), "w") as file:
    file.writelines(line + "\n" for line in expected())
