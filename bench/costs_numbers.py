#!/usr/bin/env python3
"""Prints a script whose cost shows what set numbers take, of one caller. What it costs may grow no faster than its size.

usage: costs_numbers.py row COUNT
       costs_numbers.py idle ROWS COMMITS
       costs_numbers.py plain ROWS COMMITS

row    adds a document, sets as many numbers of different names on it, and commits
idle   adds documents, sets a number on each, and commits; then as many times deletes by a term that no
       document holds, and commits
plain  the same with no number set
"""
import json
import sys

from started import start


def change(op, key, **further):
    """A line that changes the documents of a key."""
    return {"c": 0, "op": op, "field": "key", "term": key, **further}


def add(number):
    """Adds a document without fields."""
    return {"c": 0, "op": "add", "doc": {"key": f"k{number}"}}


COMMIT = {"c": 0, "op": "commit"}


def row(count):
    """Names come in an order that isn't theirs."""
    yield add(0)
    for number in range(count):
        yield change("set", "k0", num=f"n{number * 7919 % count}", value=number)
    yield COMMIT


def commits(rows, count, numbers):
    """Commits that hit nothing, on so many documents, with a number set on each or without."""
    for number in range(rows):
        yield add(number)
    yield COMMIT
    for number in range(rows if numbers else 0):
        yield change("set", f"k{number}", num="n", value=number)
    yield COMMIT
    for number in range(count):
        yield change("delete", f"absent{number}")
        yield COMMIT


def lines(kind, *sizes):
    """The lines of a script."""
    if kind == "row":
        return row(*sizes)
    return commits(*sizes, kind == "idle")


def main():
    if len(sys.argv) < 4:
        sys.exit(__doc__.strip())
    for line in lines(sys.argv[1], *map(int, sys.argv[2:])):
        print(json.dumps(line))


if __name__ == "__main__":
    start(main)
