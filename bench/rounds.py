#!/usr/bin/env python3
"""Phases of rounds: small documents and what is done with them, and the generator's script with a commit every 64
lines, each by one writer, in few segments and many, merged and not; two of them in small buffers and by more writers.
"""
from make_script import lines
from started import start
from tools import Phase, Run, main

KINDS = ["write", "add", "update", "delete", "set", "generated"]
# How many threads, documents in a buffer, and segments that are merged.
CHOICES = [(1, 1_000, 64), (1, 65_536, 64), (1, 1_000, 8)]
MORE = [(1, 10, 8), (4, 1_000, 8), (16, 1_000, 8)]


def phases(quick):
    size = 500 if quick else 10_000
    for kind in KINDS:
        for threads, buffer, merge in CHOICES + MORE * (kind in ("write", "generated")):
            words = ("run", "--threads", str(threads), "--buffer", str(buffer), "--merge", str(merge))
            name = f"rounds: {kind}, threads {threads}, buffer {buffer:,}, merge {merge}"
            yield Phase(name, size, Run(words, (lines, kind, size)))


if __name__ == "__main__":
    start(main, phases)
