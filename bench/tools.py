"""What all phases share: how one is described, run and measured, and the table that they are printed in.

A module of phases calls `main(phases)`, where `phases(quick)` gives its phases, with small sizes if `quick`.
"""
import argparse
import json
import os
import re
import shutil
import subprocess
import sys
import tempfile
import time
from typing import NamedTuple

from make_script import write_lines

HERE = os.path.dirname(os.path.realpath(__file__))


class Run(NamedTuple):
    """One call: its words after the directory, and the script that it reads, as a function and its arguments."""
    words: tuple
    script: tuple


class Phase(NamedTuple):
    """A run that is measured, on the index that the runs of `before` leave in an empty directory."""
    name: str
    size: int
    run: Run
    before: tuple = ()
    fts5: bool = False          # whether SQLite does it too
    status: int = 0             # the exit status that is wanted
    processors: int = 0         # how many it may use; 0 for all


class Figures(NamedTuple):
    """What a run took: seconds, seconds of a processor, and the most memory in MB."""
    seconds: float
    processor: float
    megabytes: float


def nothing():
    """The script without a line."""
    return ()


def apart(work, *arguments):
    """Calls a function in a process of its own and returns its result. A measured process is reported with no
    less memory than the one that starts it ever had, so this one has to stay small."""
    source, sink = os.pipe()
    child = os.fork()
    if child == 0:
        try:
            os.write(sink, json.dumps(work(*arguments)).encode())
            os._exit(0)
        finally:
            os._exit(1)
    os.close(sink)
    with open(source) as told:
        text = told.read()
    if os.waitpid(child, 0)[1] != 0:
        sys.exit(f"{work.__name__}{arguments} failed")
    return json.loads(text)


def write_script(path, script):
    with open(path, "w") as out:
        write_lines(script[0](*script[1:]), out)


def found(report):
    """The documents of the last commit in a report or a list, and the hits of all its searches."""
    docs, last, hits = 0, -1, 0
    with open(report) as lines:
        for line in map(json.loads, lines):
            hits += len(line.get("hits", ()))
            number = line.get("seq", last + 1)
            if number > last and "docs" in line:
                docs, last = line["docs"], number
    return [docs, hits]


def measured(words, script, report, status, processors):
    """The figures of one process, which has to end with this status."""
    every = os.sched_getaffinity(0)
    if processors:
        os.sched_setaffinity(0, sorted(every)[:processors])
    with open(script) as given, open(report, "w") as taken:
        begun = time.monotonic()
        child = subprocess.Popen(words, stdin=given, stdout=taken)
        _, ended, usage = os.wait4(child.pid, 0)
        seconds = time.monotonic() - begun
    os.sched_setaffinity(0, every)
    child.returncode = os.waitstatus_to_exitcode(ended)
    if child.returncode != status:
        sys.exit(f"{words} ended with status {child.returncode}")
    return Figures(seconds, usage.ru_utime + usage.ru_stime, usage.ru_maxrss / 1024)


def instructions(words, script, report):
    """The instructions of one process by callgrind, in millions."""
    call = ["valgrind", "--tool=callgrind", f"--callgrind-out-file={report}"]
    with open(script) as given:
        told = subprocess.run(call + words, stdin=given, stdout=subprocess.DEVNULL, stderr=subprocess.PIPE, text=True)
    counted = re.search(r"Collected : (\d+)", told.stderr)
    return int(counted[1]) / 1e6 if counted else sys.exit(f"no count of {words}: {told.stderr}")


def size_of(folder):
    """The megabytes of the files in a folder."""
    return sum(entry.stat().st_size for entry in os.scandir(folder)) / 1e6


def segments_of(folder):
    """How many segments the last commit in a folder lists (offset 32 of its file), or None without one."""
    names = [re.fullmatch(r"segments_(\d+)", entry.name) for entry in os.scandir(folder)]
    last = max((int(name[1]) for name in names if name), default=None)
    if last is None:
        return None
    with open(os.path.join(folder, f"segments_{last}"), "rb") as file:
        return int.from_bytes(file.read(40)[32:], "big")


class Bench:
    """Measures phases by one program in a room of its own. Scripts and indexes are made once and kept there."""

    def __init__(self, room, program, times, count):
        self.room, self.program, self.times, self.count = room, program, times, count
        self.scripts, self.indexes = {}, {}
        self.report, self.folder = f"{room}/report", None

    def words(self, by, folder, run):
        if by == "FTS5":
            return [sys.executable, f"{HERE}/fts5.py", f"{folder}/docs.db", run.words[0]]
        return [self.program, folder, *run.words]

    def script(self, script):
        """The file that has this script."""
        if script not in self.scripts:
            self.scripts[script] = f"{self.room}/script{len(self.scripts)}"
            apart(write_script, self.scripts[script], script)
        return self.scripts[script]

    def index(self, by, runs):
        """The folder in which these runs were done, one after another."""
        if (by, runs) not in self.indexes:
            folder = tempfile.mkdtemp(dir=self.room)
            if runs:
                shutil.copytree(self.index(by, runs[:-1]), folder, dirs_exist_ok=True)
                measured(self.words(by, folder, runs[-1]), self.script(runs[-1].script), self.report, 0, 0)
            self.indexes[by, runs] = folder
        return self.indexes[by, runs]

    def renew(self, by, phase):
        """Makes a further folder as the phase finds it, with nothing on its way to the disk, and returns the call for it.
        None is deleted before all is measured: for minutes afterwards ext4 looks at deleted files for each new one."""
        self.folder = tempfile.mkdtemp(dir=self.room)
        shutil.copytree(self.index(by, phase.before), self.folder, dirs_exist_ok=True)
        os.sync()
        return self.words(by, self.folder, phase.run)

    def measure(self, by, phase):
        """The row of a phase, and what its report says was found."""
        script, runs = self.script(phase.run.script), []
        for _ in range(self.times):
            words = self.renew(by, phase)
            runs.append(measured(words, script, self.report, phase.status, phase.processors))
        seconds, processor, megabytes = (least(each) for least, each in zip((min, min, max), zip(*runs)))
        answer = apart(found, self.report) if phase.fts5 else None
        segments = segments_of(self.folder) if by == "index_run" else None
        row = [phase.name, by, f"{phase.size:,}", f"{seconds:.2f}", f"{processor:.2f}", f"{megabytes:.0f}",
               f"{size_of(self.folder):.1f}", "" if segments is None else f"{segments:,}"]
        if self.count:
            words = self.renew(by, phase)
            row.append(f"{instructions(words, script, self.report):,.0f}" if by == "index_run" else "")
        return row, answer


def print_row(cells):
    print(f"| {' | '.join(cells)} |", flush=True)


def print_table(bench, phases):
    """Prints a row for each phase, and one for FTS5 where it does it too. Both have to find as much."""
    head = ["Phase", "By", "Size", "Seconds", "Processor", "MB", "Files, MB", "Segments"]
    head += ["Million instructions"] * bench.count
    print_row(head)
    print(f"|{'---|' * len(head)}")
    for phase in phases:
        row, ours = bench.measure("index_run", phase)
        print_row(row)
        if phase.fts5:
            row, theirs = bench.measure("FTS5", phase)
            print_row(row)
            if ours != theirs:
                sys.exit(f"index_run found {ours} documents and hits, FTS5 {theirs}")


def main(phases):
    """Reads the words of the command line and prints the table of these phases."""
    parser = argparse.ArgumentParser(description="Measures index_run, and SQLite's FTS5 beside it, in one table.")
    parser.add_argument("program", help="the program, as rt run leaves it: crates/index_run/out/index_run")
    parser.add_argument("--quick", action="store_true", help="small sizes")
    parser.add_argument("--only", default="", metavar="WORD", help="only the phases whose names contain WORD")
    parser.add_argument("--times", type=int, default=1, metavar="N", help="least seconds, most memory of N runs")
    parser.add_argument("--count", action="store_true", help="count instructions too, by valgrind --tool=callgrind")
    asked = parser.parse_args()
    with tempfile.TemporaryDirectory() as room:
        bench = Bench(room, os.path.realpath(asked.program), asked.times, asked.count)
        print_table(bench, [phase for phase in phases(asked.quick) if asked.only in phase.name])
