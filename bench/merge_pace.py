#!/usr/bin/env python3
"""Simulates merges: how many source rows they read, and how many segments there are, by the rows that a step reads for each operation of
its round. No program is run. A merge takes the M segments with the fewest rows as soon as there are M and none runs; each round takes one step
of it, of a buffer's rows at most. See "How far a merge goes after a round" in docs/DECISIONS.md.

    bench/merge_pace.py [M]
"""
import sys

from started import start

ROW, SEGMENT = 10e3, 5e3  # instructions taken for a merged row, and for a segment in each commit
BUFFER = 1000


class Index:
    def __init__(self, m, rows_each):
        self.m, self.rows_each = m, rows_each
        self.segments, self.sources, self.done = [], None, 0
        self.read = self.most = self.seen = 0

    def round(self, pieces, operations):
        self.segments += pieces
        rows = min(BUFFER, self.rows_each * operations) if self.rows_each else BUFFER
        if self.sources is None and len(self.segments) >= self.m:
            self.segments.sort()
            self.sources, self.segments, self.done = self.segments[: self.m], self.segments[self.m :], 0
        if self.sources:
            step = min(rows, sum(self.sources) - self.done)
            self.read, self.done = self.read + step, self.done + step
            if self.done == sum(self.sources):
                self.segments.append(self.done)
                self.sources = None
        count = len(self.segments) + len(self.sources or [])
        self.most, self.seen = max(self.most, count), self.seen + count


def loaded(m, rows_each, rows=100_000, round_rows=7_320):
    """An index of so many rows that one caller has added in one run."""
    index = Index(m, rows_each)
    while rows > 0:
        now = min(rows, round_rows)
        rows -= now
        index.round([BUFFER] * (now // BUFFER) + ([now % BUFFER] if now % BUFFER else []), now)
    index.read = index.most = index.seen = 0
    return index


def main():
    m = int(sys.argv[1]) if len(sys.argv) > 1 else 8
    cases = [
        ("1,000 commits of ten adds", Index, 1_000, 10, 10),
        ("10,000 commits of ten adds", Index, 10_000, 10, 10),
        ("50 commits of 64 operations on 100,000 rows", loaded, 50, 48, 64),
        ("10,000 commits of 64 operations on 100,000 rows", loaded, 10_000, 48, 64),
    ]
    for name, make, commits, adds, operations in cases:
        print(name)
        for rows_each in (2, 4, 8, 16, 0):
            index = make(m, rows_each)
            for _ in range(commits):
                index.round([adds], operations)
            cost = (index.read * ROW + index.seen * SEGMENT) / 1e9
            print(f"  {rows_each or 'all':>4} rows for an operation: {index.read:>10,} rows read, {index.most:>5} segments at most, {cost:6.2f} G")


if __name__ == "__main__":
    start(main)
