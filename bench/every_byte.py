#!/usr/bin/env python3
"""Changes every byte of every file of a small index, one at a time, and sees what `index_run DIR check` makes of it.

usage: every_byte.py PROGRAM [--every] [--field WORD] [--list]

PROGRAM is as `rt run` leaves it: crates/index_run/out/index_run. The index has texts, exact texts, numbers, deletes,
sets, blocks, merged segments and four commits; three runs make it. Each byte gets one more, its highest bit turned, and
0; with --every each of the other 255 values, which takes an hour; with --field only the bytes of fields whose names contain
WORD. A change is *found* where `check` ends with 8 or 11. It is *harmless*
where `check` ends with 0 and each commit answers all questions as before. Any other is *unnoticed*: then the byte has
to be one of a field that is named here, which this script finds by the layouts of docs/FORMATS.md alone. It prints how
many changes of each field were found, harmless and unnoticed, and ends with 1 where one of another field was unnoticed. With
--list it prints the places of the unnoticed ones.
"""
import argparse
import collections
import os
import subprocess
import sys
import tempfile

from started import start

# Three runs, each of one commit or two, by their options and scripts. The second one merges segments, the last one leaves two.
RUNS = (
    (("--merge", "2"), """
{"c":0,"op":"add","doc":{"key":"a1","text":{"body":"Quick brown Fox","head":"one"},"exact":{"kind":"red"},"num":{"n":5,"size":-2}}}
{"c":0,"op":"add","doc":{"key":"a2","text":{"body":"slow fox, quick dog"},"exact":{"kind":"blue"},"num":{"n":6}}}
{"c":0,"op":"add_block","docs":[{"key":"b1","text":{"body":"in a block"},"num":{"n":1}},{"key":"b2","exact":{"kind":"red"}}]}
{"c":0,"op":"commit","data":{"offset":"4096","source":"mail"}}
"""),
    (("--merge", "2"), """
{"c":0,"op":"add","doc":{"key":"a3","text":{"body":"brown dog"},"num":{"n":7}}}
{"c":0,"op":"update","field":"key","term":"a2","doc":{"key":"a2","text":{"body":"slow fox again"},"num":{"n":8}}}
{"c":0,"op":"set","field":"kind","term":"red","num":"price","value":9}
{"c":0,"op":"commit"}
{"c":0,"op":"set","field":"key","term":"a3","num":"n","value":70}
{"c":0,"op":"delete","field":"key","term":"b1"}
{"c":0,"op":"commit","data":{"offset":"8192"}}
"""),
    (("--merge", "64"), """
{"c":0,"op":"add","doc":{"key":"a4","text":{"body":"last fox"},"num":{"n":11}}}
{"c":0,"op":"commit"}
"""),
)

QUESTIONS = """
"all"
{"term":["key","a1"]}
{"term":["body","fox"]}
{"term":["kind","red"]}
{"phrase":["body","quick brown"]}
{"phrase":["body","slow fox"]}
{"range":["n",6,70]}
{"range":["price",9,9]}
{"bool":{"must":["all"],"not":[{"term":["body","dog"]}]}}
"""

# The fields whose bytes may change unnoticed.
FREE = {
    "birth", "place", "name of a number", "number", "live bits", "row of a set number", "name of a set number",
    "set number", "id of an entry", "version of an entry",
}


class Bytes:
    """The bytes of a file, taken field by field; each is noted with its field."""

    def __init__(self, data):
        self.data, self.fields = data, []

    def take(self, count, field):
        begun = len(self.fields)
        self.fields += [field] * count
        return self.data[begun:begun + count]

    def number(self, count, field):
        return int.from_bytes(self.take(count, field), "big")

    def text(self, field):
        length = self.number(4, f"length of a {field}")
        return self.take(length, field)


def row_fields(file):
    file.take(8, "mark")
    file.take(8, "id")
    for _ in range(file.number(4, "count of rows")):
        file.take(8, "birth")
        file.take(4, "place")
        file.text("key")
        for field in ("text", "exact text"):
            for _ in range(file.number(4, f"count of {field}s")):
                file.text(f"name of a {field}")
                file.text(field)
        for _ in range(file.number(8, "count of numbers")):
            file.text("name of a number")
            file.take(8, "number")


def posting_fields(file):
    file.take(8, "mark")
    file.take(8, "id")
    file.take(4, "count of rows")
    for _ in range(file.number(8, "count of terms")):
        file.text("field of a term")
        file.text("term")
        for _ in range(file.number(4, "count of a term's rows")):
            file.take(4, "row of a term")
            for _ in range(file.number(4, "count of positions")):
                file.take(4, "position")


def live_fields(file):
    file.take(8, "mark")
    file.take(8, "id")
    file.take(8, "version")
    count = file.number(4, "count of rows")
    file.take((count + 7) // 8, "live bits")


def value_fields(file):
    file.take(8, "mark")
    file.take(8, "id")
    file.take(8, "version")
    file.take(4, "count of rows")
    for _ in range(file.number(8, "count of set numbers")):
        file.take(4, "row of a set number")
        file.text("name of a set number")
        file.take(8, "set number")


def commit_fields(file):
    file.take(8, "mark")
    file.take(8, "number of the commit")
    file.take(8, "count of documents")
    file.take(8, "next id")
    for _ in range(file.number(8, "count of segments")):
        file.take(8, "id of an entry")
        file.take(4, "rows of an entry")
        file.take(8, "version of an entry")
    for _ in range(file.number(4, "count of data")):
        file.text("name of data")
        file.text("data")


LAYOUTS = {".row": row_fields, ".pst": posting_fields, ".liv": live_fields, ".val": value_fields, "": commit_fields}


def fields_of(name, data):
    """The field of each byte of a file."""
    file = Bytes(data)
    LAYOUTS[os.path.splitext(name)[1]](file)
    if len(file.fields) != len(data):
        sys.exit(f"{name} has {len(data)} bytes, and its fields {len(file.fields)}")
    return file.fields


def call(program, folder, words, text=""):
    done = subprocess.run([program, folder, *words], input=text.encode(), capture_output=True)
    return done.returncode, done.stdout


def answers(program, folder, commits):
    return [call(program, folder, ("ask", "--commit", str(number)), QUESTIONS) for number in commits]


def others(byte, every):
    """The values that a byte is changed to."""
    values = range(256) if every else ((byte + 1) % 256, byte ^ 0x80, 0)
    return sorted(set(values) - {byte})


def main():
    parser = argparse.ArgumentParser(description="Changes every byte of an index, and looks what check finds.")
    parser.add_argument("program", help="the program, as rt run leaves it")
    parser.add_argument("--every", action="store_true", help="each other value of each byte")
    parser.add_argument("--field", default="", metavar="WORD", help="only fields whose names contain WORD")
    parser.add_argument("--list", action="store_true", help="print the places of unnoticed changes")
    asked = parser.parse_args()
    program = os.path.realpath(asked.program)
    with tempfile.TemporaryDirectory() as folder:
        for options, script in RUNS:
            status, _ = call(program, folder, ("run", "--threads", "1", *options), script)
            if status != 0:
                sys.exit(f"a run ended with {status}")
        names = sorted(os.listdir(folder))
        commits = sorted(int(name[9:]) for name in names if name.startswith("segments_"))
        whole = answers(program, folder, commits)
        counts, wrong = collections.Counter(), 0
        for name in names:
            path = os.path.join(folder, name)
            with open(path, "rb") as file:
                data = file.read()
            fields = fields_of(name, data)
            for at, byte in enumerate(data):
                for value in others(byte, asked.every) if asked.field in fields[at] else ():
                    with open(path, "wb") as file:
                        file.write(data[:at] + bytes([value]) + data[at + 1:])
                    status, _ = call(program, folder, ("check",))
                    if status in (8, 11):
                        what = "found"
                    elif status == 0:
                        what = "harmless" if answers(program, folder, commits) == whole else "unnoticed"
                    else:
                        sys.exit(f"check of {name} with {value} at {at} ended with {status}")
                    ending = os.path.splitext(name)[1] or "segments_S"
                    counts[ending, fields[at], what] += 1
                    if what == "unnoticed":
                        if fields[at] not in FREE:
                            wrong += 1
                            print(f"{name}: {value} at {at}, {fields[at]}")
                        elif asked.list:
                            print(f"{name}: {value} at {at}, {fields[at]}")
            with open(path, "wb") as file:
                file.write(data)
        print(f"{len(names)} files, {len(commits)} commits")
        print("| File | Field | Found | Harmless | Unnoticed |\n|---|---|---|---|---|")
        for ending, field in dict.fromkeys((ending, field) for ending, field, _ in counts):
            told = [counts[ending, field, what] for what in ("found", "harmless", "unnoticed")]
            print(f"| `{ending}` | {field} | {' | '.join(f'{count:,}' for count in told)} |")
    return 1 if wrong else 0


if __name__ == "__main__":
    start(main)
