#!/usr/bin/env python3
"""Phases of several threads: documents of 50 to 200 words by eight callers, each with a commit at its end. `read` is a
run of the script with a bad last line, which does nothing; `index` a run without its commits, which writes no file.
"""
import itertools

from make_script import adds, commits, long
from started import start
from tools import Phase, Run, main

CALLERS = 8


def whole(documents):
    return itertools.chain(adds(long(documents), CALLERS), commits(CALLERS))


def index(documents):
    return adds(long(documents), CALLERS)


def read(documents):
    return itertools.chain(adds(long(documents), CALLERS), ["no line"])


def phases(quick):
    documents = 1_000 if quick else 50_000
    for threads in (1, 2, 4):
        for made, status in [(read, 3), (index, 0), (whole, 0)]:
            run = Run(("run", "--threads", str(threads)), (made, documents))
            yield Phase(f"threads: {made.__name__}, threads {threads}", documents, run, status=status)


if __name__ == "__main__":
    start(main, phases)
