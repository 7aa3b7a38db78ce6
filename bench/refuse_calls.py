#!/usr/bin/env python3
"""Refuses each call of the system that a run makes on its directory in turn, and looks at how the run ends and what it leaves.

usage: refuse_calls.py PROGRAM

PROGRAM is a built index_run. A directory has one commit; a second run adds a document, commits and searches. Its calls on the directory, and those
on its input and its output, are read from a trace. Then the run is done anew for each of them and each error that it may give, over a copy of the
directory, with this call refused by strace. It has to end with status 7, 5 or 6, as the call is one on the directory, the input or the output,
or as it does without a refusal. The files of the first commit then have their bytes, the second commit is whole or not there, and a further run
goes on from what is there. After that come directories with something odd in them, by what `run`, `ask` and `list` answer.

What differs from this is printed, and the exit status is then 1. strace is needed, and for the last cases a root user.
"""
import collections
import os
import re
import resource
import shutil
import signal
import subprocess
import sys
import tempfile

from started import start

ERRORS = {
    "openat": ("EACCES", "EMFILE", "EIO", "EINTR"),
    "read": ("EIO", "EINTR"),
    "write": ("EIO", "ENOSPC", "EDQUOT", "EINTR"),
    "fsync": ("EIO", "ENOSPC", "EINTR"),
    "rename": ("EIO", "ENOSPC", "EACCES"),
    "getdents64": ("EIO",),
    "statx": ("EIO", "EACCES"),
    "flock": ("EAGAIN", "ENOLCK", "EINTR"),
    "close": ("EIO", "EINTR"),
}
FIRST = '{"c":0,"op":"add","doc":{"key":"a1"}}\n{"c":0,"op":"commit"}\n'
SECOND = '{"c":0,"op":"add","doc":{"key":"a2"}}\n{"c":0,"op":"commit"}\n{"c":0,"op":"search","query":"all"}\n'
THIRD = '{"c":0,"op":"add","doc":{"key":"a3"}}\n{"c":0,"op":"commit"}\n{"c":0,"op":"search","query":"all"}\n'
RUN = ("run", "--threads", "1")
NOBODY = 65534


def call(program, where, words, script, before=(), prepare=None):
    """How a call of the program ends, and what it writes."""
    done = subprocess.run(
        [*before, program, where, *words], input=script.encode(), capture_output=True, preexec_fn=prepare
    )
    return done.returncode, done.stdout.decode(errors="replace")


def files_of(where):
    return {name: open(f"{where}/{name}", "rb").read() for name in os.listdir(where)}


def traced(program, where, trace):
    """The calls on the directory and the standard streams: each one's name, its place among those of this name, and the status of its kind."""
    call(program, where, RUN, SECOND, ("strace", "-f", "-y", "-s", "0", "-o", trace))
    found, counts, main = [], collections.Counter(), None
    for line in open(trace, errors="replace"):
        parts = re.match(r"(\d+) +(\w+)\((.*)", line)
        if not parts:
            continue
        thread, name, rest = parts.groups()
        main = main or thread
        if thread != main:
            continue
        counts[name] += 1
        if name not in ERRORS:
            continue
        if where in rest:
            found.append((name, counts[name], 7))
        elif name == "read" and rest.startswith("0<"):
            found.append((name, counts[name], 5))
        elif name == "write" and rest.startswith("1<"):
            found.append((name, counts[name], 6))
    return found


def left_whole(program, where, base, whole):
    """What is wrong with what a refused run has left, if something is."""
    now = files_of(where)
    if any(now.get(name) != bytes_ for name, bytes_ in base.items()):
        return "a file of the first commit changed"
    second = "segments_4" in now
    status, text = call(program, where, ("ask",), '"all"\n')
    keys = re.findall(r'"key":"(\w+)"', text)
    if status != 0 or keys != (["a1", "a2"] if second else ["a1"]):
        return f"ask ends with {status}: {text.strip()}"
    if second and any(now.get(name) != bytes_ for name, bytes_ in whole.items()):
        return "the second commit isn't whole"
    status, text = call(program, where, RUN, THIRD)
    wanted = keys + ["a3"]
    if status != 0 or re.findall(r'"key":"(\w+)"', text) != wanted:
        return f"the next run ends with {status}: {text.strip()}"
    return None


def refused_calls(program, space):
    """A row for each call and error; whether all ended as they have to."""
    base_at, where = f"{space}/base", f"{space}/index"
    os.mkdir(base_at)
    call(program, base_at, RUN, FIRST)
    base = files_of(base_at)
    shutil.copytree(base_at, where)
    found = traced(program, where, f"{space}/trace")
    whole = files_of(where)
    shutil.rmtree(where)
    shutil.copytree(base_at, where)
    usual = call(program, where, RUN, SECOND)
    ends, good = collections.defaultdict(collections.Counter), True
    for name, place, kind in found:
        for error in ERRORS[name]:
            shutil.rmtree(where)
            shutil.copytree(base_at, where)
            inject = f"inject={name}:error={error}:when={place}"
            status, text = call(program, where, RUN, SECOND, ("strace", "-f", "-o", "/dev/null", "-e", f"trace={name}", "-e", inject))
            ends[name, kind, error][status] += 1
            wrong = None
            if status not in (kind, 0):
                wrong = f"ends with {status}"
            elif status == 0 and (status, text) != usual:
                wrong = f"writes {text.strip()}"
            elif status == 7 and text != '{"status":7,"why":"store"}\n':
                wrong = f"writes {text.strip()}"
            wrong = wrong or left_whole(program, where, base, whole)
            if wrong:
                good = False
                print(f"{name} {place} with {error}: {wrong}")
    print("| Call | On | Error | Calls | Ended with |\n|---|---|---|---|---|")
    for (name, kind, error), counts in ends.items():
        on = {7: "the directory", 5: "the input", 6: "the output"}[kind]
        told = ", ".join(f"{status} ({count})" for status, count in sorted(counts.items()))
        print(f"| `{name}` | {on} | {error} | {sum(counts.values())} | {told} |")
    return good


def as_nobody():
    os.setgroups([])
    os.setgid(NOBODY)
    os.setuid(NOBODY)


def small_files():
    signal.signal(signal.SIGXFSZ, signal.SIG_IGN)
    resource.setrlimit(resource.RLIMIT_FSIZE, (4096, 4096))


def odd(program, space):
    """Directories with something odd in them: what is odd, what makes it, who runs the program, and the statuses of run, ask and list."""
    large = "".join(f'{{"c":0,"op":"add","doc":{{"key":"k{i}","text":{{"b":"{"word " * 40}"}}}}}}\n' for i in range(2000)) + '{"c":0,"op":"commit"}\n'
    cases = [
        ("no directory", lambda d: shutil.rmtree(d), None, SECOND),
        ("a file in the place of the directory", lambda d: (shutil.rmtree(d), open(d, "w").close()), None, SECOND),
        ("a directory that may not be read", lambda d: os.chmod(d, 0o000), as_nobody, SECOND),
        ("a directory that may not be written", lambda d: os.chmod(d, 0o555), as_nobody, SECOND),
        ("a commit file that may not be read", lambda d: os.chmod(f"{d}/segments_2", 0o000), as_nobody, SECOND),
        ("a segment's file that may not be read", lambda d: os.chmod(f"{d}/seg_1.row", 0o000), as_nobody, SECOND),
        ("a name that isn't UTF-8", lambda d: open(os.fsencode(d) + b"/\xff", "w").close(), None, SECOND),
        ("a name of another kind", lambda d: open(f"{d}/notes", "w").close(), None, SECOND),
        ("a directory with the name of a commit file", lambda d: os.mkdir(f"{d}/segments_9"), None, SECOND),
        ("a FIFO with the name of a commit file", lambda d: os.mkfifo(f"{d}/segments_9"), None, SECOND),
        ("a link with the name of a commit file", lambda d: os.symlink("segments_2", f"{d}/segments_9"), None, SECOND),
        ("a link in the place of a segment's file", lambda d: (os.rename(f"{d}/seg_1.row", f"{d}/rows"), os.symlink("rows", f"{d}/seg_1.row")), None, SECOND),
        ("a FIFO in the place of a segment's file", lambda d: (os.remove(f"{d}/seg_1.row"), os.mkfifo(f"{d}/seg_1.row")), None, SECOND),
        ("a directory in the place of a new segment's file", lambda d: os.mkdir(f"{d}/seg_2.row"), None, SECOND),
        ("files of 4,096 bytes at most", lambda d: None, small_files, large),
        ("a disk that is full", None, None, large),
    ]
    print("\n| Directory | `run` | `ask` | `list` |\n|---|---|---|---|")
    good = True
    for name, make, who, script in cases:
        where = f"{space}/odd"
        shutil.copytree(f"{space}/base", where)
        os.chmod(where, 0o777)
        for file in os.listdir(where):
            os.chmod(f"{where}/{file}", 0o666)
        mounted = make is None
        if mounted:
            kept = files_of(where)
            if subprocess.run(["mount", "-t", "tmpfs", "-o", "size=64k", "none", where], capture_output=True).returncode:
                print(f"| {name} | not tried: no small file system could be mounted | | |")
                shutil.rmtree(where)
                continue
            for file, bytes_ in kept.items():
                open(f"{where}/{file}", "wb").write(bytes_)
        else:
            make(where)
        ask, listed = call(program, where, ("ask",), '"all"\n', prepare=who), call(program, where, ("list",), "", prepare=who)
        run = call(program, where, RUN, script, prepare=who)
        print(f"| {name} | {run[0]} | {ask[0]} | {listed[0]} |")
        if run[0] == 7 and ask[0] == 0 and call(program, where, ("ask",), '"all"\n', prepare=who) != ask:
            print(f"{name}: the first commit answers otherwise after the run")
            good = False
        if mounted:
            subprocess.run(["umount", where])
        if os.path.isdir(where):
            os.chmod(where, 0o777)
            shutil.rmtree(where)
        else:
            if os.path.exists(where):
                os.remove(where)
    return good


def main():
    program = os.path.abspath(sys.argv[1])
    with tempfile.TemporaryDirectory() as space:
        os.chmod(space, 0o755)
        copy = f"{space}/program"
        shutil.copy(program, copy)
        os.chmod(copy, 0o755)
        good = refused_calls(copy, space)
        good = odd(copy, space) and good
    sys.exit(0 if good else 1)


if __name__ == "__main__":
    start(main)
