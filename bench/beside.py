#!/usr/bin/env python3
"""Measures how far commits are written beside the work of the next round: the generator's script, with a commit every 64 lines, on an index on the
disk. Programs are run in turn, so that what else the machine does meets all of them; the least seconds of each count. Each is run on the disk as it is,
and once more with every fsync made longer by some milliseconds, by strace: a disk that syncs slowly.

    bench/beside.py PROGRAM [OLDER ..] [--lines N] [--callers N] [--threads N] [--delay MS] [--times N]

With an older program beside the newer one the last column tells the newer one's part of the older one's seconds. strace is needed.
"""
import argparse
import os
import shutil
import sys
import tempfile

from make_script import generated, write_lines
from started import start
from tools import measured


def words_of(program, folder, threads, delay):
    """The call of a program, with slow syncs where there is a delay in milliseconds."""
    slow = ["strace", "-f", "--seccomp-bpf", "-o", "/dev/null", "-e", "trace=fsync", "-e", f"inject=fsync:delay_exit={delay * 1000}"]
    return (slow if delay else []) + [program, folder, "run", "--threads", str(threads)]


def least(programs, script, room, threads, delay, times):
    """The least seconds of each program."""
    best = [float("inf")] * len(programs)
    for _ in range(times):
        for at, program in enumerate(programs):
            folder = tempfile.mkdtemp(dir=room)
            os.sync()
            figures = measured(words_of(program, folder, threads, delay), script, f"{room}/report", 0, 0)
            best[at] = min(best[at], figures.seconds)
            shutil.rmtree(folder)
    return best


def main():
    parser = argparse.ArgumentParser(description=__doc__.split("\n")[0])
    parser.add_argument("programs", nargs="+")
    parser.add_argument("--lines", type=int, default=160 * 64)
    parser.add_argument("--callers", type=int, default=4)
    parser.add_argument("--threads", type=int, default=4)
    parser.add_argument("--delay", type=int, default=5)
    parser.add_argument("--times", type=int, default=5)
    asked = parser.parse_args()
    room = tempfile.mkdtemp(dir=os.environ.get("BENCH_DIR", "."))
    try:
        script = f"{room}/script"
        with open(script, "w") as out:
            write_lines(generated(7, asked.lines, asked.callers), out)
        for delay in (0, asked.delay):
            best = least(asked.programs, script, room, asked.threads, delay, asked.times)
            part = f"{best[0] / best[1]:.2f}" if len(best) > 1 else ""
            syncs = f"each fsync {delay} ms longer" if delay else "the disk as it is"
            print(f"{syncs:28}", *(f"{seconds:8.3f}" for seconds in best), part, flush=True)
    finally:
        shutil.rmtree(room)


if __name__ == "__main__":
    start(main)
