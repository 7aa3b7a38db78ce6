#!/usr/bin/env python3
"""Phases of merges, by how many segments are merged: `make`, the same script by `run`, and documents of 50 to 200
words, whose last commit is then asked no question, one and many.
"""
from make_script import generated, lines
from started import start
from tools import Phase, Run, main, nothing

MERGES = [2, 8, 64]


def phases(quick):
    size, documents, many = (1_000, 1_000, 100) if quick else (100_000, 50_000, 1_000)
    make = ("make", "--seed", "7", "--lines", str(size), "--callers", "8")
    yield Phase("merges: make", size, Run(make, (nothing,)))
    for merge in MERGES:
        words = ("run", "--buffer", "64", "--merge", str(merge))
        yield Phase(f"merges: generated, merge {merge}", size, Run(words, (generated, 7, size, 8)))
    for merge in MERGES:
        write = Run(("run", "--merge", str(merge)), (lines, "long", documents))
        yield Phase(f"merges: write, merge {merge}", documents, write)
        for count in (0, 1, many):
            name = f"merges: ask {count:,}, merge {merge}"
            yield Phase(name, documents, Run(("ask",), (lines, "questions", count)), (write,))


if __name__ == "__main__":
    start(main, phases)
