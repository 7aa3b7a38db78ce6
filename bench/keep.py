#!/usr/bin/env python3
"""Phases of commits that are kept or given up: one commit more on many, with all of them kept, with as many as were
there, and with the last alone; and a run of many commits that keeps the last alone.
"""
from commits import one_by_one
from started import start
from tools import Phase, Run, main


def commits(first, count):
    """So many commits of ten small documents each, by one caller."""
    for number in range(first, first + count):
        yield from one_by_one(10 * number, 10)


def phases(quick):
    count = 100 if quick else 1_000
    words = ("run", "--threads", "1")
    many = (Run(words, (commits, 0, count)),)
    more = (commits, count, 1)
    yield Phase("keep: one commit more, all kept", count, Run(words, more), many)
    yield Phase("keep: the same, as many kept", count, Run((*words, "--keep", str(count)), more), many)
    yield Phase("keep: the same, one kept", count, Run((*words, "--keep", "1"), more), many)
    yield Phase("keep: all in one run, one kept", count, Run((*words, "--keep", "1"), (commits, 0, count)))


if __name__ == "__main__":
    start(main, phases)
