"""What the generators of examples share: the library's limits, and the two files that `host` reads."""
LIMITS = {"variables": 512, "clauses": 4096, "literals": 12288, "rows": 64}


def add_arguments(parser):
    """The two arguments that come last."""
    parser.add_argument("formula", help="the file for the formula")
    parser.add_argument("permutations", help="the file for the line of names and the lines of values")


def write_lines(path, lines):
    with open(path, "w") as out:
        for line in lines:
            print(*line, file=out)


def write(parser, asked, variables, clauses, rows):
    """Writes both files, if they fit the limits. A row has the values of all variables, in their order."""
    sizes = {"variables": variables, "clauses": len(clauses), "literals": sum(map(len, clauses)), "rows": len(rows)}
    for what, size in sizes.items():
        if size > LIMITS[what]:
            parser.error(f"{size} {what}, and the library takes {LIMITS[what]}")
    write_lines(asked.formula, [("p cnf", variables, len(clauses))] + [clause + [0] for clause in clauses])
    write_lines(asked.permutations, [range(1, variables + 1)] + rows)
