#!/usr/bin/env python3
"""Measures all phases in one table: those of grow.py, text.py, commits.py, keep.py, ranges.py, threads.py, rounds.py,
merges.py and check.py.

usage: all.py PROGRAM [--quick] [--only WORD] [--times N] [--count]
"""
import check
import commits
import grow
import keep
import merges
import ranges
import rounds
import text
import threads
from started import start
from tools import main


def phases(quick):
    for module in (grow, text, commits, keep, ranges, threads, rounds, merges, check):
        yield from module.phases(quick)


if __name__ == "__main__":
    start(main, phases)
