#!/usr/bin/env python3
"""Prints what the files of an index hold, read by docs/FORMATS.md alone: a line for each commit and, below the last
one, a line for each of its live rows, with the numbers that were set in it, and one for each term of each of its
segments, with the places where it stands in the segment's rows, live or not: the birth and the place of each row, and the
positions in it.

usage: look.py DIR

It stops at a file that is not in the grammar. It does not test all rules: `index_run` does.
"""
import json
import os
import re
import sys


class Reader:
    """The fields of a file, from its first byte on."""

    def __init__(self, path):
        with open(path, "rb") as file:
            self.path, self.bytes, self.at = path, file.read(), 0

    def take(self, count):
        piece = self.bytes[self.at:self.at + count]
        if len(piece) < count:
            sys.exit(f"{self.path}: cut short at {self.at}")
        self.at += count
        return piece

    def mark(self, wanted):
        if self.take(8) != wanted:
            sys.exit(f"{self.path}: no mark {wanted.decode()}")

    def number(self, size, signed=False):
        return int.from_bytes(self.take(size), "big", signed=signed)

    def text(self):
        return self.take(self.number(4)).decode()

    def end(self):
        if self.at != len(self.bytes):
            sys.exit(f"{self.path}: {len(self.bytes) - self.at} bytes after the last field")


def read_commit(directory, number):
    file = Reader(os.path.join(directory, f"segments_{number}"))
    mark = file.take(8)
    if mark not in (b"IXCOM001", b"IXCOM002"):
        sys.exit(f"{file.path}: no mark of a commit file")
    head = {"commit": file.number(8), "docs": file.number(8), "next_id": file.number(8)}
    head["segments"] = [
        {"id": file.number(8), "n": file.number(4), "v": file.number(8)} for _ in range(file.number(8))
    ]
    if mark == b"IXCOM002":
        pairs = {file.text(): file.text() for _ in range(file.number(4))}
        if pairs:
            head["pairs"] = pairs
    file.end()
    return head


def read_rows(directory, segment):
    file = Reader(os.path.join(directory, f"seg_{segment}.row"))
    mark = file.take(8)
    if mark not in (b"IXROW001", b"IXROW002"):
        sys.exit(f"{file.path}: no mark of a file of rows")
    file.number(8)
    rows = []
    for _ in range(file.number(4)):
        row = {"birth": file.number(8), "place": file.number(4) if mark == b"IXROW002" else 0, "key": file.text()}
        row["text"] = {file.text(): file.text() for _ in range(file.number(4))}
        row["exact"] = {file.text(): file.text() for _ in range(file.number(4))}
        row["num"] = {file.text(): file.number(8, signed=True) for _ in range(file.number(8))}
        rows.append(row)
    file.end()
    return rows


def read_live(directory, entry):
    """Whether each row of a segment is live."""
    file = Reader(os.path.join(directory, f"seg_{entry['id']}_{entry['v']}.liv"))
    file.mark(b"IXLIV001")
    file.number(20)
    bits = file.take((entry["n"] + 7) // 8)
    file.end()
    return [bits[row // 8] >> row % 8 & 1 == 1 for row in range(entry["n"])]


def read_values(directory, entry):
    """The numbers that were set in each row of a segment."""
    file = Reader(os.path.join(directory, f"seg_{entry['id']}_{entry['v']}.val"))
    file.mark(b"IXVAL001")
    file.number(20)
    values = [{} for _ in range(entry["n"])]
    for _ in range(file.number(8)):
        row, name = file.number(4), file.text()
        values[row][name] = file.number(8, signed=True)
    file.end()
    return values


def live_rows(directory, entry, rows):
    """The live rows of a segment, with the numbers that were set in them."""
    marks = zip(rows, read_live(directory, entry), read_values(directory, entry))
    return [{**row, "num": dict(sorted({**row["num"], **values}.items()))} for row, live, values in marks if live]


def read_postings(directory, segment, births):
    file = Reader(os.path.join(directory, f"seg_{segment}.pst"))
    file.mark(b"IXPST001")
    file.number(12)
    terms = []
    for _ in range(file.number(8)):
        term = {"segment": segment, "field": file.text(), "term": file.text(), "rows": []}
        for _ in range(file.number(4)):
            birth, place = births[file.number(4)]
            term["rows"].append([birth, place, [file.number(4) for _ in range(file.number(4))]])
        terms.append(term)
    file.end()
    return terms


def main():
    if len(sys.argv) != 2 or sys.argv[1] in ("-h", "--help"):
        sys.exit(print(__doc__.strip()))
    directory = sys.argv[1]
    names = [re.fullmatch(r"segments_([1-9][0-9]*)", name) for name in os.listdir(directory)]
    numbers = sorted(int(name[1]) for name in names if name)
    for number in numbers:
        commit = read_commit(directory, number)
        print(json.dumps(commit, ensure_ascii=False))
    if numbers:
        segments = [(entry, read_rows(directory, entry["id"])) for entry in commit["segments"]]
        live = [row for entry, rows in segments for row in live_rows(directory, entry, rows)]
        for row in sorted(live, key=lambda row: (row["birth"], row["place"])):
            print(json.dumps(row, ensure_ascii=False))
        for entry, rows in segments:
            for term in read_postings(directory, entry["id"], [(row["birth"], row["place"]) for row in rows]):
                print(json.dumps(term, ensure_ascii=False))


try:
    main()
except OSError as error:
    sys.exit(f"look.py: {error.filename}: {error.strerror}")
