#!/usr/bin/env python3
"""Writes a Tseitin formula and symmetries of it that turn signs, as the two files that `host` reads.

A variable is an edge of a graph. At each point the exclusive or of its edges is 0, but 1 at the first point; since every edge has two ends, there is no model.
A cycle has an even number of edges at each point, so to turn the signs of all its edges is a symmetry. The rows are those of a basis of all cycles: for each
edge off a spanning tree, the cycle that it closes. The tree is made of the last edges or of the first, as far as these reach new points.
"""
import argparse
import random
from itertools import product
from math import prod

import files

TREES = {"none": None, "first": min, "last": max}
DEGREE = 5


def grid(size):
    """The edges of `size` by `size` points: from each to the one on its right and to the one below."""
    return [(y * size + x, v * size + u) for y in range(size) for x in range(size) for u, v in ((x + 1, y), (x, y + 1)) if max(u, v) < size]


def urquhart(size):
    """The edges of a graph like Urquhart's: `size` points on either side, and five ways to pair the two sides, no two with an edge in common. Two make a ring of
    all points, and three are drawn by chance."""
    chance, side = random.Random(1), range(size)
    pairings = [[*side], [*side[1:], 0]]
    while len(pairings) < DEGREE:
        drawn = chance.sample(side, size)
        if all(i != j for pairing in pairings for i, j in zip(pairing, drawn)):
            pairings.append(drawn)
    return [(i, size + j) for pairing in pairings for i, j in enumerate(pairing)]


GRAPHS = {"grid": (grid, 2), "urquhart": (urquhart, DEGREE)}  # with the least size


def formula(edges):
    """The clauses: at each point those that forbid an assignment of its edges with the wrong exclusive or."""
    points = sorted({point for ends in edges.values() for point in ends})
    around = [[edge for edge, ends in edges.items() if point in ends] for point in points]
    return [[sign * edge for sign, edge in zip(signs, near)] for point, near in zip(points, around) for signs in product((1, -1), repeat=len(near))
            if prod(signs) == (1 if point == 0 else -1)]


def cycles(edges, choose):
    """For each edge off the tree the cycle that it closes, as the set of its edges."""
    ways = {0: set()}  # from the first point to each that the tree has reached
    while near := [edge for edge, ends in edges.items() if len(ways.keys() & ends) == 1]:
        edge = choose(near)
        old, new = sorted(edges[edge], key=lambda point: point not in ways)
        ways[new] = ways[old] | {edge}
    closed = [{edge} ^ ways[a] ^ ways[b] for edge, (a, b) in edges.items()]  # empty for an edge of the tree
    return [cycle for cycle in closed if cycle]


def main():
    parser = argparse.ArgumentParser(description=__doc__, formatter_class=argparse.RawDescriptionHelpFormatter)
    parser.add_argument("graph", choices=GRAPHS)
    parser.add_argument("size", type=int, help="the points on a side")
    parser.add_argument("tree", choices=TREES)
    files.add_arguments(parser)
    asked = parser.parse_args()
    graph, least = GRAPHS[asked.graph]
    if asked.size < least:
        parser.error(f"at least {least} points on a side, please")

    edges = dict(enumerate(graph(asked.size), 1))
    turned = cycles(edges, TREES[asked.tree]) if TREES[asked.tree] else []
    files.write(parser, asked, len(edges), formula(edges), [[-edge if edge in cycle else edge for edge in edges] for cycle in turned])


if __name__ == "__main__":
    main()
