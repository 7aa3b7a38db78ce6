#!/usr/bin/env python3
"""Tries the edits of bench/edits: bodies that are wrong, each of which the prover must refuse.

usage: try_edits.py [CRATE ..]

The gate tries a few edits of each crate (crates/CRATE/must-fail); those here are tried by hand, since each takes
half a minute and a crate with edits is proved a second time. The repository is cloned into a temporary folder, each
crate's edits are laid beside its own, and `rt must-fail CRATE` tries them all; it says of each whether it was refused.
Without names it takes all crates that have edits here, one after another. Ends with 1 where an edit wasn't refused.
"""

import os
import shutil
import subprocess
import sys
import tempfile

from started import start

TOP = os.path.dirname(os.path.dirname(os.path.abspath(__file__)))
EDITS = os.path.join(TOP, "bench", "edits")


def main():
    if "--help" in sys.argv or "-h" in sys.argv:
        print(__doc__.strip())
        return 0
    crates = sys.argv[1:] or sorted(os.listdir(EDITS))
    lacking = [crate for crate in crates if not os.path.isdir(os.path.join(EDITS, crate))]
    if lacking:
        print(f"no edits of {lacking[0]} in {EDITS}", file=sys.stderr)
        return 2
    missed = []
    with tempfile.TemporaryDirectory() as room:
        copy = os.path.join(room, "copy")
        subprocess.run(["git", "clone", "-q", TOP, copy], check=True)
        for crate in crates:
            shutil.copytree(
                os.path.join(EDITS, crate), os.path.join(copy, "crates", crate, "must-fail"), dirs_exist_ok=True
            )
            if subprocess.run(["rt", "must-fail", crate], cwd=copy).returncode:
                missed.append(crate)
    if missed:
        print("not refused, or not tried, in:", *missed)
    return 1 if missed else 0


if __name__ == "__main__":
    start(main)
