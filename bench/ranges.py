#!/usr/bin/env python3
"""Phases of ranges of a number, on small documents in fourteen segments: deletes by a range in one commit, between sets of the
number, and searches for a range. Each range has ten documents. Beside them the same of a term and of a key, which look at
no number.
"""
from commits import ALONE, one_by_one
from started import start
from tools import Phase, Run, main

SEGMENTS = 14


def picked(rows, count):
    """So many numbers of documents, spread over all, each ten apart from the next one at least."""
    for place in range(count):
        yield place * 7919 % (rows // 10) * 10


def range_of(number):
    return {"range": ["n", number, number + 9]}


def deletes(rows, count):
    """So many deletes by a range, behind each a set of a document in the next range, and a commit."""
    for number in picked(rows, count):
        yield {"c": 0, "op": "delete_query", "query": range_of(number)}
        yield {"c": 0, "op": "set", "field": "key", "term": f"k{number + 10}", "num": "n", "value": -number}
    yield {"c": 0, "op": "commit"}


def key_deletes(rows, count):
    """So many deletes by a key in place of the range, and the sets."""
    for number in picked(rows, count):
        yield {"c": 0, "op": "delete", "field": "key", "term": f"k{number}"}
        yield {"c": 0, "op": "set", "field": "key", "term": f"k{number + 10}", "num": "n", "value": -number}
    yield {"c": 0, "op": "commit"}


def searches(rows, count):
    """A commit, which tells how many documents there are, and so many searches for a range in it."""
    yield {"c": 0, "op": "commit"}
    for number in picked(rows, count):
        yield {"c": 0, "op": "search", "query": range_of(number)}


def searches_before(rows, count):
    """So many searches for a range in the commit that the run begins on, and a commit, which tells how many documents there are."""
    for number in picked(rows, count):
        yield {"c": 0, "op": "search", "query": range_of(number)}
    yield {"c": 0, "op": "commit"}


def questions(rows, count):
    """So many questions for a range, by a later process."""
    for number in picked(rows, count):
        yield range_of(number)


def among_terms(rows, count):
    """A commit, and so many searches for a range among the documents of a key in it."""
    yield {"c": 0, "op": "commit"}
    for number in picked(rows, count):
        must = [{"term": ["key", f"k{number}"]}, range_of(number)]
        yield {"c": 0, "op": "search", "query": {"bool": {"must": must}}}


def prepared(first, count):
    """So many documents, a commit, and a search for a range, for which SQLite makes its index."""
    yield from one_by_one(first, count)
    yield {"c": 0, "op": "search", "query": range_of(-20)}


def phases(quick):
    each, count = (100, 20) if quick else (7_000, 1_000)
    rows = SEGMENTS * each
    before = tuple(Run(ALONE, (prepared, first, each)) for first in range(0, rows, each))
    yield Phase(f"ranges: {count} deletes", rows, Run(ALONE, (deletes, rows, count)), before, fts5=True)
    yield Phase(f"ranges: {count} deletes by key", rows, Run(ALONE, (key_deletes, rows, count)), before, fts5=True)
    for one in (1, count):
        yield Phase(f"ranges: {one} searches", rows, Run(ALONE, (searches, rows, one)), before, fts5=True)
        yield Phase(f"ranges: {one} searches before", rows, Run(ALONE, (searches_before, rows, one)), before, fts5=True)
        yield Phase(f"ranges: {one} questions", rows, Run(("ask",), (questions, rows, one)), before, fts5=True)
    yield Phase(f"ranges: {count} searches among terms", rows, Run(ALONE, (among_terms, rows, count)), before, fts5=True)


if __name__ == "__main__":
    start(main, phases)
