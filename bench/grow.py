#!/usr/bin/env python3
"""Phases of small documents in growing sizes: written, updated, deleted, with numbers set; and three questions."""
from make_script import SEARCHES, lines
from started import start
from tools import Phase, Run, main

KINDS = ["write", "update", "delete", "set"]


def searches():
    """A term, a phrase, and all but one kind."""
    return SEARCHES


def phases(quick):
    for size in [1_000] if quick else [1_000, 10_000, 100_000]:
        for kind in KINDS:
            yield Phase(f"grow: {kind}", size, Run(("run",), (lines, kind, size)), fts5=True)
        before = (Run(("run",), (lines, "write", size)),)
        yield Phase("grow: ask 3", size, Run(("ask",), (searches,)), before, fts5=True)


if __name__ == "__main__":
    start(main, phases)
