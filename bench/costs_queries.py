#!/usr/bin/env python3
"""What queries cost that ask for much: scripts of one kind, at any size, and a table of what they take.

usage: costs_queries.py phrase WORDS [POSITIONS]     a text of so many words `a`, and the phrase of WORDS of them
       costs_queries.py should CLAUSES [ROWS]        so many rows, and a query that wants one of CLAUSES terms, which all of them hold
       costs_queries.py all CLAUSES [ROWS]           the same of "all"
       costs_queries.py few CLAUSES [ROWS]           the same of terms that each one row holds
       costs_queries.py numbers COUNT                COUNT numbers of different names, set on one row, and a search that finds it
       costs_queries.py table PROGRAM                runs each of them at two sizes, and prints processor seconds and MB
"""
import json
import os
import subprocess
import sys
import tempfile

from started import start

COMMIT = {"c": 0, "op": "commit"}


def add(number, body):
    return {"c": 0, "op": "add", "doc": {"key": f"k{number}", "text": {"body": body}}}


def search(query):
    return {"c": 0, "op": "search", "query": query}


def phrase(words, positions=40_000):
    yield add(0, "a " * positions)
    yield COMMIT
    yield search({"phrase": ["body", "a " * words]})


def wanted(clauses, rows):
    for number in range(rows):
        yield add(number, f"word{number} common")
    yield COMMIT
    yield search({"bool": {"should": clauses}})


def should(clauses, rows=20_000):
    return wanted([{"term": ["body", "common"]}] * clauses, rows)


def all_rows(clauses, rows=20_000):
    return wanted(["all"] * clauses, rows)


def few(clauses, rows=20_000):
    return wanted([{"term": ["body", f"word{number % rows}"]} for number in range(clauses)], rows)


def numbers(count):
    yield add(0, "common")
    for number in range(count):
        yield {"c": 0, "op": "set", "field": "key", "term": "k0", "num": f"n{number:07}", "value": number}
    yield COMMIT
    yield search("all")


KINDS = {"phrase": phrase, "should": should, "all": all_rows, "few": few, "numbers": numbers}
SIZES = [("phrase", 4_000), ("phrase", 8_000), ("should", 2_000), ("should", 4_000), ("all", 2_000), ("all", 4_000),
         ("few", 10_000), ("few", 20_000), ("numbers", 2_000), ("numbers", 4_000), ("numbers", 8_000)]


def write_script(path, kind, size):
    """Writes a script in a process of its own: a measured process has no less memory than what starts it."""
    with open(path, "w") as sink:
        subprocess.run([sys.executable, __file__, kind, str(size)], stdout=sink, check=True)


def measured(program, directory, script):
    """The processor seconds and the most memory, in MB, of a run of the script in an empty directory."""
    with open(script) as lines, open(os.devnull, "w") as sink:
        process = subprocess.Popen([program, directory, "run"], stdin=lines, stdout=sink)
        _, status, usage = os.wait4(process.pid, 0)
    if status:
        sys.exit(f"{program} ended with {status}")
    return usage.ru_utime + usage.ru_stime, usage.ru_maxrss / 1024


def table(program):
    print("| Kind | Size | Processor | MB |\n|---|---|---|---|")
    for kind, size in SIZES:
        with tempfile.TemporaryDirectory() as home:
            script = os.path.join(home, "script")
            store = os.path.join(home, "store")
            os.mkdir(store)
            write_script(script, kind, size)
            seconds, megabytes = measured(program, store, script)
            print(f"| {kind} | {size:,} | {seconds:.2f} | {megabytes:.0f} |", flush=True)


def main(words):
    if len(words) == 2 and words[0] == "table":
        return table(os.path.realpath(words[1]))
    if len(words) < 2 or words[0] not in KINDS:
        sys.exit(__doc__)
    for line in KINDS[words[0]](*map(int, words[1:])):
        print(json.dumps(line, separators=(",", ":")))


if __name__ == "__main__":
    start(main, sys.argv[1:])
