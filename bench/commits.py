#!/usr/bin/env python3
"""Phases of commits: the generator's script with one every 64 lines; commits on older rows; and one whose deletes by
query, of a phrase that stands in every row, go to eight segments on one, two and four processors. Those queries
exclude all rows, so that each is answered anew.
"""
from make_script import adds, lines, small
from started import start
from tools import Phase, Run, main, nothing

# Options with which a run of up to 7,000 small documents leaves one new segment, a longer one a segment for each round
# that a full part of the queue ends, and nothing is merged.
ALONE = ("run", "--threads", "1", "--buffer", "65536", "--merge", "64")


def one_by_one(first, count):
    """So many small documents by one caller, and its commit."""
    yield from adds(map(small, range(first, first + count)), 1)
    yield {"c": 0, "op": "commit"}


def changes(commits, rows):
    """So many commits, each of 32 adds, 16 updates, 8 deletes and 8 sets by the keys of older rows."""
    old = 0
    for number in range(rows, rows + 32 * commits, 32):
        yield from adds(map(small, range(number, number + 32)), 1)
        for step in range(32):
            old = (old + 7919) % rows
            line = {"c": 0, "field": "key", "term": f"k{old}"}
            if step < 16:
                yield {**line, "op": "update", "doc": small(old)}
            elif step < 24:
                yield {**line, "op": "delete"}
            else:
                yield {**line, "op": "set", "num": "n", "value": step}
        yield {"c": 0, "op": "commit"}


def phrases(count):
    """So many deletes of no row, and a commit."""
    query = {"bool": {"must": [{"phrase": ["body", "common text"]}], "not": ["all"]}}
    for _ in range(count):
        yield {"c": 0, "op": "delete_query", "query": query}
    yield {"c": 0, "op": "commit"}


def on_older(rows, count):
    """A run on so many rows that does nothing, and one that makes commits; with default options and on few segments."""
    for words, where, fts5 in [(("run",), "older rows", True), (ALONE, "few older segments", False)]:
        before = (Run(words, (one_by_one, 0, rows)),)
        yield Phase(f"commits: none on {where}", rows, Run(words, (nothing,)), before, fts5)
        yield Phase(f"commits: {count} on {where}", rows, Run(words, (changes, count, rows)), before, fts5)


def by_processors(rows, count):
    """Deletes by query on eight segments."""
    before = tuple(Run(ALONE, (one_by_one, first, rows)) for first in range(0, 8 * rows, rows))
    for processors in (1, 2, 4):
        name = f"commits: {count} deletes by query, processors {processors}"
        yield Phase(name, 8 * rows, Run(ALONE, (phrases, count)), before, processors=processors)


def phases(quick):
    size, count = (1_000, 10) if quick else (10_000, 50)
    yield Phase("commits: generated", size, Run(("run",), (lines, "generated", size)), fts5=True)
    for rows in [size] if quick else [10_000, 100_000]:
        yield from on_older(rows, count)
    yield from by_processors(*((250, 40) if quick else (7_000, 200)))


if __name__ == "__main__":
    start(main, phases)
