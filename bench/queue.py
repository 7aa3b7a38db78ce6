#!/usr/bin/env python3
"""Measures the links a second of the delete queue beside those of a vector under a lock, by 1, 2 and 4 threads, and
prints a table.

usage: queue.py [FOLDER]

It makes a repository of its own from the crates of this one and the texts in queue/, proves and builds the program
there by `rt run`, and runs it. With a FOLDER the repository stays there, so that a later run has less to prove.
"""
import pathlib
import shutil
import subprocess
import sys
import tempfile

from started import start

TOP = pathlib.Path(__file__).resolve().parent.parent
TEXTS = TOP / "bench" / "queue"
CRATES = ["ix_base", "queue_rule", "delete_queue"]
LINE = "queue_bench: ix_base atomic_table queue_rule delete_queue anyhow"

KINDS = ["queue", "mutex"]
SEATS = [1, 2, 4]
LINKS_A_SEAT = 4_160
SEATS_FILLED = 1_200
RUNS = 5


def copy_crate(name, top):
    """Copies what is proved and built of a crate, without its edits and what earlier runs kept."""
    for part in ["src", "specs", "proofs"]:
        old, new = TOP / "crates" / name / part, top / "crates" / name / part
        shutil.rmtree(new, ignore_errors=True)
        if old.exists():
            shutil.copytree(old, new)


def write_program(crate):
    """Writes the program's crate from the texts."""
    (crate / "src").mkdir(parents=True, exist_ok=True)
    shutil.copy(TEXTS / "main.txt", crate / "src" / "main.rt")
    for text in (TEXTS / "proofs").rglob("*.txt"):
        proof = (crate / text.relative_to(TEXTS)).with_suffix(".antt")
        proof.parent.mkdir(parents=True, exist_ok=True)
        shutil.copy(text, proof)


def make_repository(top):
    """Makes or renews the repository, and returns the folder of the program's crate."""
    top.mkdir(parents=True, exist_ok=True)
    for name in CRATES:
        copy_crate(name, top)
    lines = (TOP / "crates.txt").read_text().splitlines()
    wanted = [line for line in lines if line.split(":")[0].split(" ")[0] in CRATES]
    (top / "crates.txt").write_text("\n".join(wanted + [LINE]) + "\n")
    shutil.copy(TOP / "HANDLES", top / "HANDLES")
    crate = top / "crates" / "queue_bench"
    write_program(crate)
    return crate


def build(crate):
    """Proves and builds the program, and returns its path."""
    done = subprocess.run(["rt", "run", "--", "queue", "1", "1"], cwd=crate, capture_output=True, text=True)
    if done.returncode != 0:
        sys.exit(f"rt run ended with status {done.returncode}:\n{done.stdout[-2000:]}\n{done.stderr[-2000:]}")
    return crate / "out" / "queue_bench"


def run(program, kind, seats):
    """The nanoseconds of those rounds of one run that count: all threads were at work in half of the time or more."""
    words = [program, kind, str(seats), str(SEATS_FILLED // seats)]
    lines = subprocess.run(words, check=True, capture_output=True, text=True).stdout.splitlines()
    rounds = [[int(word) for word in line.split()] for line in lines]
    return [whole for whole, together in rounds if 2 * together >= whole]


def measure(program):
    """The runs of each kind and number of seats, in turn, so that all of them share what else the machine does."""
    runs = {(kind, seats): [] for kind in KINDS for seats in SEATS}
    for _ in range(RUNS):
        for kind, seats in runs:
            runs[kind, seats].append(run(program, kind, seats))
    return runs


def links_a_second(rounds, seats):
    """The links of these rounds in a second, 0 where there are no rounds."""
    return LINKS_A_SEAT * seats * len(rounds) * 1e9 / max(sum(rounds), 1)


def print_table(runs):
    """Prints a row for each kind and number of seats."""
    print("| List | Seats | Rounds | Links | Seconds | Links a second | Best run |\n|---|---|---|---|---|---|---|")
    for (kind, seats), of_kind in runs.items():
        rounds = [whole for counted in of_kind for whole in counted]
        links, seconds = LINKS_A_SEAT * seats * len(rounds), sum(rounds) / 1e9
        best = max(links_a_second(counted, seats) for counted in of_kind)
        count = f"{len(rounds):,} of {SEATS_FILLED // seats * RUNS:,}"
        print(f"| {kind} | {seats} | {count} | {links:,} | {seconds:.3f} "
              f"| {links_a_second(rounds, seats):,.0f} | {best:,.0f} |")


def main():
    with tempfile.TemporaryDirectory() as room:
        folder = pathlib.Path(sys.argv[1] if len(sys.argv) > 1 else room).resolve()
        print_table(measure(build(make_repository(folder))))


if __name__ == "__main__":
    start(main)
