#!/usr/bin/env python3
"""Brings the repository's own definitions and lemmas to the spelling of today's Rattle: words in snake case where port.py left them in camel case.

usage: python3 tools/port_names.py, once, at the top, after /opt/rattle/port/port.py. It goes over the texts of crates/ (sources, specs, proofs, must-fail
edits) and the documents. Functions of src/, exported C names, strings, inputs and outputs have no such names and keep theirs. A lemma whose name would
fall together with that of the definition that it is about gets `_lem` after its name, first.
"""
import glob
import re

WORD = re.compile(r"[A-Za-z_\u0370-\u03ff][A-Za-z0-9_'\u2080-\u2089\u0370-\u03ff]*(?:-[A-Za-z0-9_'\u2080-\u2089\u0370-\u03ff*]+)*")
# a lemma, and in which files: those of the crates named, or all
LEMMAS = {
    "is_name": r"crates/(permutation/proofs/NameLaws|demands/proofs/OfferFirsts)\.antt$",
    "on_store": r"crates/demands/proofs/",
    "too_short": r"crates/demands/proofs/",
    "digits_of": r"crates/render/proofs/AsRead\.antt$",
    "run_end": r"crates/dimacs/proofs/|crates/opening/proofs/Former\.antt$",
}
# names of the kit's own in documents and tools
KEEP = {"camelCase"}


def snake(part):
    part = re.sub(r"getD", "get_or", part)
    return re.sub(r"(?<=[a-z0-9])([A-Z])", lambda m: "_" + m.group(1).lower(), part)


def turned(word, path):
    for lemma, where in LEMMAS.items():
        if word == lemma and re.search(where, path):
            return word + "_lem"
    if word in KEEP:
        return word
    parts = word.split("-")
    return "-".join(snake(p) if re.match(r"[a-z]", p) and re.search(r"[a-z0-9][A-Z]", p) else p for p in parts)


def texts():
    for pattern in ["crates/*/src/*.rt", "crates/*/specs/*.antt", "crates/*/proofs/**/*.antt", "crates/*/must-fail/*.edit", "docs/**/*.md", "README.md"]:
        yield from sorted(glob.glob(pattern, recursive=True))


def main():
    for path in texts():
        with open(path, encoding="utf-8") as f:
            old = f.read()
        new = WORD.sub(lambda m: turned(m.group(0), path), old)
        if new != old:
            with open(path, "w", encoding="utf-8") as f:
                f.write(new)


main()
