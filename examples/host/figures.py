#!/usr/bin/env python3
"""Measures a solver on formulas without and with the added clauses, and prints a table of README.md.

    figures.py pigeonhole|grid|urquhart [minisat|cadical] [OPTION ...] [SIZE ...]

The solver is minisat where none is named, and words that start with `-` go to it. Each cell is its own count of conflicts and of processor seconds; `>` means
stopped at the limit. `host` must be built.
"""
import os
import re
import subprocess
import sys
import tempfile

HERE = os.path.dirname(os.path.abspath(__file__))
LIMIT = 60  # seconds for each formula, which minisat counts by the processor and cadical by the clock
SOLVERS = {  # how the limit is said, and what a solver calls the processor seconds that it took
    "minisat": ([f"-cpu-lim={LIMIT}"], "CPU time"),
    "cadical": (["-t", str(LIMIT)], "total process time since initialization"),
}
FAMILIES = {  # how a formula of a size is generated, by which permutations, and the sizes of the table
    "pigeonhole": (lambda pigeons: ["pigeonhole.py", pigeons, pigeons - 1], ["none", "holes", "pigeons", "both"], [7, 8, 9, 10, 11, 12, 20]),
    "grid": (lambda size: ["tseitin.py", "grid", size], ["none", "first", "last"], [5, 6, 7, 8, 9]),
    "urquhart": (lambda size: ["tseitin.py", "urquhart", size], ["none", "first", "last"], [5, 6, 7, 8, 21]),
}


def measure(solver, options, generator, kind, folder):
    formula, permutations, made = (os.path.join(folder, name) for name in ("formula", "permutations", "made"))
    script, *arguments = generator
    subprocess.run([os.path.join(HERE, script), *map(str, arguments), kind, formula, permutations], check=True)
    # Without a PATH the host finds no solver and stops after writing.
    subprocess.run([os.path.join(HERE, "host"), formula, permutations, made], check=True, env={"PATH": "/nonexistent"}, stdout=subprocess.DEVNULL)
    limit, time = SOLVERS[solver]
    said = subprocess.run([solver, *options, *limit, made], capture_output=True, text=True).stdout
    conflicts, seconds = (re.search(word + r"\s*:\s*([\d.]+)", said).group(1) for word in ("conflicts", time))
    return f"{int(conflicts):,} / {float(seconds):.2f} s" if "UNSATISFIABLE" in said else f"> {int(conflicts):,} / > {LIMIT} s"


def main(family, solver, options, sizes):
    generator, kinds, usual = FAMILIES[family]
    print("|", family, "|", " | ".join(kinds), "|\n|" + "---|" * (1 + len(kinds)))
    for size in sizes or usual:
        with tempfile.TemporaryDirectory() as folder:
            print("|", size, "|", " | ".join(measure(solver, options, generator(size), kind, folder) for kind in kinds), "|", flush=True)


if __name__ == "__main__":
    family, *words = sys.argv[1:] or [None]
    if family not in FAMILIES:
        sys.exit(__doc__)
    solver = words.pop(0) if words and words[0] in SOLVERS else "minisat"
    main(family, solver, [word for word in words if word.startswith("-")], [int(word) for word in words if not word.startswith("-")])
