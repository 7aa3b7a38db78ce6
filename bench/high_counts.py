#!/usr/bin/env python3
"""Reads commits whose counts and lengths are far too high under a small limit on memory, and looks at what the program answers.

usage: high_counts.py PROGRAM [MEGABYTES]

PROGRAM is a built index_run. A directory has one commit of one document, with a text, an exact text and a number, in which a number was set.
In each field of its files that counts or measures something that comes after it, the highest number is put in the place of the right one.
`ask` and `run` then read the commit, each in a process whose address space may have so many megabytes (64, unless told). A reader that took
memory by such a count before it read what is counted would find none, and end with status 4. It has to end with status 8, and to name the
place that is first broken: of a count that is the first element that isn't there, of a length the field itself.

What differs from this is printed, and the exit status is then 1.
"""
import os
import resource
import shutil
import struct
import subprocess
import sys
import tempfile

from started import start

SCRIPT = (
    '{"c":0,"op":"add","doc":{"key":"m1","text":{"body":"Hi you"},"exact":{"box":"in"},"num":{"size":-2}}}\n'
    '{"c":0,"op":"set","field":"key","term":"m1","num":"size","value":7}\n'
    '{"c":0,"op":"commit"}\n'
)
QUESTION, ADD = '"all"\n', '{"c":0,"op":"add","doc":{"key":"a2"}}\n'
ROWS, POSTS, COMMIT = "seg_1.row", "seg_1.pst", "segments_3"
LIVE, VALUES = "seg_1_3.liv", "seg_1_3.val"

# The file, what the field says, where it stands, its bytes, and the file and place that are first broken then.
FIELDS = [
    (COMMIT, "documents", 16, 8, COMMIT, 16),
    (COMMIT, "segments", 32, 8, COMMIT, 60),
    (COMMIT, "segments, in its lower half", 36, 4, COMMIT, 60),
    (COMMIT, "rows of the segment", 48, 4, ROWS, 16),
    (ROWS, "rows", 16, 4, ROWS, 16),
    (ROWS, "bytes of the key", 28, 4, ROWS, 28),
    (ROWS, "texts", 34, 4, ROWS, 56),
    (ROWS, "bytes of a name", 38, 4, ROWS, 38),
    (ROWS, "bytes of a text", 46, 4, ROWS, 46),
    (ROWS, "exact texts", 56, 4, ROWS, 73),
    (ROWS, "numbers", 73, 8, ROWS, 97),
    (ROWS, "numbers, in its lower half", 77, 4, ROWS, 97),
    (POSTS, "rows", 16, 4, POSTS, 16),
    (POSTS, "terms", 20, 8, POSTS, 147),
    (POSTS, "terms, in its lower half", 24, 4, POSTS, 147),
    (POSTS, "bytes of a field", 28, 4, POSTS, 28),
    (POSTS, "bytes of a term", 36, 4, POSTS, 36),
    (POSTS, "rows of the last term", 131, 4, POSTS, 147),
    (POSTS, "positions of the last term", 139, 4, POSTS, 147),
    (LIVE, "rows", 24, 4, LIVE, 24),
    (VALUES, "rows", 24, 4, VALUES, 24),
    (VALUES, "numbers", 28, 8, VALUES, 56),
    (VALUES, "numbers, in its lower half", 32, 4, VALUES, 56),
    (VALUES, "bytes of a name", 40, 4, VALUES, 40),
]


def call(program, where, words, text, megabytes):
    """How a call ends under the limit, and what it writes."""
    size = megabytes << 20
    limit = lambda: resource.setrlimit(resource.RLIMIT_AS, (size, size))
    done = subprocess.run([program, where, *words], input=text.encode(), capture_output=True, preexec_fn=limit)
    return done.returncode, done.stdout.decode(errors="replace")


def with_count(folder, name, at, size):
    """Puts the highest number into a field of a file."""
    with open(f"{folder}/{name}", "r+b") as file:
        file.seek(at)
        file.write(b"\xff" * size)


def main():
    program, megabytes = os.path.abspath(sys.argv[1]), int(sys.argv[2]) if len(sys.argv) > 2 else 64
    calls, good = [(("ask",), QUESTION), (("run", "--threads", "1"), ADD)], True
    with tempfile.TemporaryDirectory() as space:
        base, where = f"{space}/base", f"{space}/index"
        os.mkdir(base)
        made = call(program, base, ("run", "--threads", "1"), SCRIPT, megabytes)
        if made[0] != 0 or struct.unpack(">Q", open(f"{base}/{COMMIT}", "rb").read()[16:24]) != (1,):
            sys.exit(f"the commit wasn't made under the limit: {made}")
        for name, what, at, size, found, place in FIELDS:
            wanted = (8, f'{{"at":{place},"file":"{found}","status":8}}\n')
            for words, text in calls:
                shutil.rmtree(where, ignore_errors=True)
                shutil.copytree(base, where)
                with_count(where, name, at, size)
                told = call(program, where, words, text, megabytes)
                if told != wanted:
                    good = False
                    print(f"{name}, {what}: {words[0]} ends with {told}, not {wanted}")
    print(f"{len(FIELDS)} fields, {2 * len(FIELDS)} calls, {megabytes} MB")
    sys.exit(not good)


if __name__ == "__main__":
    start(main)
