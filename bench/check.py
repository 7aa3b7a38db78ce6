#!/usr/bin/env python3
"""Phases of checks: an index of documents of 50 to 200 words, and one of small ones, are written, asked one question and
checked; and the first one is checked with further commits, which list the same segments. FTS5's check is its
`integrity-check` and SQLite's `integrity_check`.
"""
from make_script import lines
from started import start
from tools import Phase, Run, main, nothing


def commits(count):
    """So many commits."""
    for _ in range(count):
        yield {"c": 0, "op": "commit"}


def phases(quick):
    documents, smalls = (1_000, 1_000) if quick else (50_000, 100_000)
    check = Run(("check",), (nothing,))
    ask = Run(("ask",), (lines, "questions", 1))
    small, long = (Run(("run",), (lines, kind, size)) for kind, size in (("write", smalls), ("long", documents)))
    yield Phase("check: write small", smalls, small, fts5=True)
    yield Phase("check: small", smalls, check, (small,), fts5=True)
    yield Phase("check: write", documents, long, fts5=True)
    yield Phase("check: ask 1", documents, ask, (long,), fts5=True)
    yield Phase("check: as written", documents, check, (long,), fts5=True)
    for count in (10, 100):
        before = (long, Run(("run",), (commits, count)))
        yield Phase(f"check: {count} commits more", documents, check, before, fts5=True)


if __name__ == "__main__":
    start(main, phases)
