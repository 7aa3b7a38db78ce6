#!/usr/bin/env python3
"""Phases of documents of 50 to 200 words: written, opened by a process that asks nothing, and asked questions."""
from make_script import lines
from started import start
from tools import Phase, Run, main


def phases(quick):
    documents, many = (1_000, 100) if quick else (50_000, 1_000)
    write = Run(("run",), (lines, "long", documents))
    yield Phase("text: write", documents, write, fts5=True)
    for name, count in [("open", 0), ("ask 1", 1), (f"ask {many:,}", many)]:
        yield Phase(f"text: {name}", documents, Run(("ask",), (lines, "questions", count)), (write,), fts5=True)


if __name__ == "__main__":
    start(main, phases)
