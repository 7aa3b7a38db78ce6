#!/usr/bin/env python3
"""Refuses each request for memory of small runs in turn, and looks at what the program answers.

usage: refuse_memory.py PROGRAM [WORD]

PROGRAM is a built index_run, and WORD chooses the runs whose name has it. Each run is done once with memory,
which counts its requests (malloc, calloc and realloc, those of the C library too). Then it is done anew for
each of them, over a copy of the same index: once with this request refused alone, and once with it and all
later ones. It has to end with status 4 and nothing written, or as it does with memory. Either way the files
that were there have their bytes, each commit in the directory is one of the run with memory and answers as
there, and they are the first ones. What differs is printed, and the exit status is then 1.

A library that the C compiler makes in a temporary directory stands before malloc by LD_PRELOAD.
"""
import os
import shutil
import subprocess
import sys
import tempfile

from started import start

LIBRARY = r"""
#include <errno.h>
#include <fcntl.h>
#include <stdatomic.h>
#include <stdlib.h>
#include <sys/mman.h>

extern void *__libc_malloc(size_t size);
extern void *__libc_calloc(size_t count, size_t size);
extern void *__libc_realloc(void *old, size_t size);

static atomic_long here;
static atomic_long *requests = &here;
static long refused_at, refused_all;

/* The requests are counted in a file of 8 bytes, since the program runs nothing of a library when it ends. */
__attribute__((constructor)) static void begin(void)
{
    const char *at = getenv("REFUSED_AT"), *all = getenv("REFUSED_ALL"), *name = getenv("REQUESTS_TO");
    int file = name ? open(name, O_RDWR) : -1;
    void *shared = file < 0 ? MAP_FAILED : mmap(NULL, 8, PROT_READ | PROT_WRITE, MAP_SHARED, file, 0);
    if (shared != MAP_FAILED)
        requests = shared;
    refused_at = at ? atol(at) : 0;
    refused_all = all ? atol(all) : 0;
    atomic_store(requests, 0);
}

static int is_refused(void)
{
    long now = atomic_fetch_add(requests, 1) + 1;
    int refused = refused_at > 0 && (now == refused_at || (refused_all && now > refused_at));
    if (refused)
        errno = ENOMEM;
    return refused;
}

void *malloc(size_t size) { return is_refused() ? NULL : __libc_malloc(size); }
void *calloc(size_t count, size_t size) { return is_refused() ? NULL : __libc_calloc(count, size); }
void *realloc(void *old, size_t size) { return is_refused() ? NULL : __libc_realloc(old, size); }
"""

ADD = '{"c":0,"op":"add","doc":{"key":"%s","exact":{"tag":"x"},"text":{"body":"Red fox"},"num":{"n":1}}}\n'
COMMIT = '{"c":0,"op":"commit"}\n'
ALL_BUT = '{"bool":{"must":[{"phrase":["body","red FOX"]}],"not":[{"term":["key","b"]}]}}'
SEARCH = '{"c":0,"op":"search","query":' + ALL_BUT + "}\n"
DELETE = '{"c":0,"op":"delete","field":"key","term":"%s"}\n'
DELETE_QUERY = '{"c":0,"op":"delete_query","query":{"phrase":["body","red fox"]}}\n'
SET = '{"c":0,"op":"set","field":"tag","term":"x","num":"p","value":7}\n'
UPDATE = '{"c":0,"op":"update","field":"key","term":"a","doc":{"key":"a","text":{"body":"old fox"}}}\n'
ALL = '{"c":0,"op":"search","query":"all"}\n'

ONE = ADD % "a" + COMMIT + SEARCH
CHANGES = ADD % "a" + ADD % "b" + DELETE % "b" + SET + COMMIT + ADD % "c" + UPDATE + DELETE_QUERY + COMMIT + ALL
MERGES = "".join(ADD % key + COMMIT for key in "abcd") + DELETE % "b" + SET + COMMIT + ALL
SMALL = ["run", "--threads", "1", "--buffer", "1", "--merge", "2"]

# The name of a run, the script that makes the index that it begins on, its words and its input.
RUNS = [
    ("empty", "", ["run", "--threads", "1"], ""),
    ("one", "", ["run", "--threads", "1"], ONE),
    ("changes", "", ["run", "--threads", "1"], CHANGES),
    ("changes-small", "", SMALL, CHANGES),
    ("merges", "", SMALL, MERGES),
    ("second", MERGES, ["run", "--threads", "1"], CHANGES),
    ("second-small", CHANGES, SMALL, MERGES),
    ("threads", CHANGES, ["run", "--threads", "2", "--buffer", "1", "--merge", "2"], CHANGES),
    ("bad", MERGES, ["run"], ADD % "a" + "{"),
    ("ask", MERGES, ["ask"], '"all"\n{"phrase":["body","red fox"]}\n'),
    ("list", MERGES, ["list"], ""),
    ("make", "", ["make", "--seed", "3", "--lines", "40", "--callers", "1"], ""),
]


def run(program, directory, words, text, at=0, every=False, library=None, count=None):
    """Runs the program, and returns its status and what it wrote."""
    names = dict(os.environ)
    if library:
        names.update(LD_PRELOAD=library, REFUSED_AT=str(at), REFUSED_ALL="1" if every else "0")
    if count:
        names["REQUESTS_TO"] = count
    done = subprocess.run([program, directory] + words, input=text.encode(), env=names, capture_output=True, timeout=60)
    return done.returncode, done.stdout, done.stderr


def files_of(directory):
    files = {}
    for name in os.listdir(directory):
        with open(os.path.join(directory, name), "rb") as file:
            files[name] = file.read()
    return files


KNOWN = {}


def answers(program, directory):
    """What each commit of the directory answers, by number. The same files are asked once."""
    held = tuple(sorted(files_of(directory).items()))
    if held not in KNOWN:
        numbers = sorted(int(name[9:]) for name, _ in held if name.startswith("segments_"))
        asked = {number: run(program, directory, ["ask", "--commit", str(number)], '"all"\n') for number in numbers}
        KNOWN[held] = asked
    return KNOWN[held]


def faults(program, begun, left, whole, done, wanted):
    """What is wrong with a run that ended so, over this index, and left that directory."""
    if done != wanted and done != (4, b"", b""):
        yield f"it ended with {done}"
    files = files_of(left)
    for name, held in begun.items():
        if files.get(name) != held:
            yield f"{name} has other bytes"
    there = answers(program, left)
    if list(there) != sorted(whole)[: len(there)]:
        yield f"its commits are {list(there)} of {sorted(whole)}"
    for number, answer in there.items():
        if number in whole and answer != whole[number]:
            yield f"commit {number} answers {answer}"
    if done == wanted and done[0] == 0 and len(there) != len(whole):
        yield f"it lacks commits: {list(there)}"


def refuse_each(program, library, room, kind, before, words, text):
    """Refuses each request of one run in turn, prints how many ended in which way, and returns how many wrongly."""
    start, left, count = (os.path.join(room, name) for name in ("start", "left", "count"))
    for directory in (start, left):
        shutil.rmtree(directory, ignore_errors=True)
    os.mkdir(start)
    if before:
        run(program, start, SMALL, before)
    begun = files_of(start)
    shutil.copytree(start, left)
    with open(count, "wb") as file:
        file.write(bytes(8))
    wanted = run(program, left, words, text, library=library, count=count)
    whole = answers(program, left)
    with open(count, "rb") as file:
        requests = int.from_bytes(file.read(), sys.byteorder)
    tally = {"status 4": 0, "as with memory": 0, "wrong": 0}
    for every in (False, True):
        for at in range(1, requests + 1):
            shutil.rmtree(left)
            shutil.copytree(start, left)
            done = run(program, left, words, text, at, every, library)
            wrong = list(faults(program, begun, left, whole, done, wanted))
            for fault in wrong:
                print(f"{kind}: request {at}{' and all later ones' if every else ''}: {fault}")
            tally["wrong" if wrong else "status 4" if done[0] == 4 else "as with memory"] += 1
    print(f"{kind}: status {wanted[0]}, {requests} requests;", ", ".join(f"{tally[name]} {name}" for name in tally))
    return tally["wrong"]


def main():
    program = os.path.abspath(sys.argv[1])
    word = sys.argv[2] if len(sys.argv) > 2 else ""
    wrong = 0
    with tempfile.TemporaryDirectory() as room:
        source, library = os.path.join(room, "refuse.c"), os.path.join(room, "refuse.so")
        with open(source, "w") as file:
            file.write(LIBRARY)
        subprocess.run(["cc", "-O2", "-shared", "-fPIC", "-o", library, source], check=True)
        for kind, before, words, text in RUNS:
            if word in kind:
                wrong += refuse_each(program, library, room, kind, before, words, text)
    return 1 if wrong else 0


if __name__ == "__main__":
    start(main)
