#!/usr/bin/env python3
"""Writes a pigeonhole formula and exchanges that are symmetries of it, as the two files that `host` reads.

Variable (i - 1) * holes + j says that pigeon i sits in hole j. Each pigeon sits somewhere, and no two share a hole; exchanged are neighbouring holes,
neighbouring pigeons or both. With as many holes as pigeons there are models: things that are alike in places that are alike.
"""
import argparse
from itertools import combinations

import files

KINDS = "none", "holes", "pigeons", "both"


def formula(pigeons, holes):
    """The clauses, with pigeons and holes counted from 0."""
    def sits(i, j):
        return i * holes + j + 1
    somewhere = [[sits(i, j) for j in range(holes)] for i in range(pigeons)]
    alone = [[-sits(i, j), -sits(k, j)] for j in range(holes) for i, k in combinations(range(pigeons), 2)]
    return somewhere + alone


def exchanged(count, at):
    """0 .. count - 1 with `at` and its successor exchanged."""
    order = list(range(count))
    order[at], order[at + 1] = order[at + 1], order[at]
    return order


def exchanges(pigeons, holes, kind):
    """For each exchange the values of all variables, in their order."""
    of_holes = [[i * holes + j + 1 for i in range(pigeons) for j in exchanged(holes, at)] for at in range(holes - 1)]
    of_pigeons = [[i * holes + j + 1 for i in exchanged(pigeons, at) for j in range(holes)] for at in range(pigeons - 1)]
    return (of_holes if kind in ("holes", "both") else []) + (of_pigeons if kind in ("pigeons", "both") else [])


def main():
    parser = argparse.ArgumentParser(description=__doc__, formatter_class=argparse.RawDescriptionHelpFormatter)
    parser.add_argument("pigeons", type=int)
    parser.add_argument("holes", type=int)
    parser.add_argument("exchanges", choices=KINDS)
    files.add_arguments(parser)
    asked = parser.parse_args()
    if min(asked.pigeons, asked.holes) < 1:
        parser.error("at least one pigeon and one hole, please")

    clauses, rows = formula(asked.pigeons, asked.holes), exchanges(asked.pigeons, asked.holes, asked.exchanges)
    files.write(parser, asked, asked.pigeons * asked.holes, clauses, rows)


if __name__ == "__main__":
    main()
