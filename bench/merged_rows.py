#!/usr/bin/env python3
"""What a merged row costs: the instructions of all turns of a merge, by callgrind, over all rows that they read.

usage: merged_rows.py PROGRAM [SOURCES ROWS]..

Counts merges of so many segments of so many rows each, and the table's five where none are given. The documents are those of `long`,
of some 125 words. One caller commits each time when a buffer is full. A first run, which isn't counted, writes all segments but the
last that a merge waits for; the counted one brings that and as many more as there are sources. So each of its turns reads as many
rows as a buffer holds: those of one merge, and the first ones of the next.
"""
import os
import re
import subprocess
import sys
import tempfile

from make_script import long, write_lines
from started import start

TABLE = [(8, 1_000), (8, 500), (64, 1_000), (64, 125), (64, 63)]
TURN = re.compile(r"c?fn=\((\d+)\)(?: (.*))?$")


def script(documents, rows):
    """Adds the documents, with a commit behind each so many of them."""
    for number, document in enumerate(documents, 1):
        yield {"c": 0, "op": "add", "doc": document}
        if number % rows == 0:
            yield {"c": 0, "op": "commit"}


def run(words, lines):
    """Runs a program on a script."""
    with tempfile.TemporaryFile("w+") as given:
        write_lines(lines, given)
        given.seek(0)
        subprocess.run(words, stdin=given, stdout=subprocess.DEVNULL, stderr=subprocess.DEVNULL, check=True)


def counted(report, name):
    """The instructions of all calls of a function, with all that it calls, and how many calls there were."""
    names, called, calls, instructions = {}, False, 0, 0
    with open(report) as lines:
        for line in lines:
            found = TURN.match(line)
            if found:
                names.setdefault(found[1], found[2])
                called = line.startswith("cfn") and names[found[1]].endswith(name)
            elif called and line.startswith("calls="):
                calls += int(line[6:].split()[0])
                instructions += int(next(lines).split()[1])
                called = False
    return instructions, calls


def merged_row(program, sources, rows):
    """The instructions of all turns of a merge, and how many rows they read."""
    documents = list(long(2 * sources * rows))
    before = (sources - 1) * rows
    words = ["run", "--threads", "1", "--buffer", str(rows), "--merge", str(sources)]
    with tempfile.TemporaryDirectory() as room:
        folder, report = f"{room}/index", f"{room}/report"
        os.mkdir(folder)
        run([program, folder, *words], script(documents[:before], rows))
        valgrind = ["valgrind", "--tool=callgrind", f"--callgrind-out-file={report}"]
        run([*valgrind, program, folder, *words], script(documents[before:], rows))
        turns, _ = counted(report, "Published::turn")
    if turns == 0:
        sys.exit("no turn was counted: the program has no function Published::turn")
    return turns, (sources + 1) * rows


def main():
    program, *numbers = sys.argv[1:] if sys.argv[1:] else sys.argv[1]
    numbers = list(map(int, numbers))
    print("| Sources | Rows of each | Thousand instructions a merged row |\n|---|---|---|")
    for sources, rows in list(zip(numbers[::2], numbers[1::2])) or TABLE:
        turns, read = merged_row(os.path.realpath(program), sources, rows)
        print(f"| {sources} | {rows:,} | {turns / read / 1_000:.1f} |", flush=True)


if __name__ == "__main__":
    start(main)
