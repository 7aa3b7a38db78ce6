#!/usr/bin/env python3
"""Scripts and questions of 64 MiB in the shapes that cost most, with what a run or `ask` makes of them: status, seconds, and the most memory.

usage: worst_inputs.py PROGRAM [WORD]

PROGRAM is a built index_run, and WORD chooses the shapes whose name has it. A stack of 8 MiB is enough for all of them.
"""
import multiprocessing
import os
import subprocess
import sys
import tempfile
import time

from started import start

SIZE = 64 << 20
ADD = '{"c":0,"op":"add","doc":{"key":"k","text":{"b":"%s"}}}\n'


def filled(before, piece, after):
    """As many pieces between these as 64 MiB hold."""
    return before + piece * ((SIZE - len(before) - len(after)) // len(piece)) + after


def counted(before, piece, after):
    """The same of pieces with a number in each."""
    parts, size, number = [before], len(before) + len(after), 0
    while True:
        part = piece % number
        if size + len(part) > SIZE:
            return "".join(parts) + after
        parts.append(part)
        size += len(part)
        number += 1


def shapes():
    before, after = ADD.split("%s")
    yield "run", "one word of a text", lambda: filled(before, "a", after)
    yield "run", "one text of a word again and again", lambda: filled(before, "a ", after)
    yield "run", "one text of different words", lambda: counted(before, "w%d ", after)
    yield "run", "one text of escapes", lambda: filled(before, "\\u0061", after)
    yield "run", "arrays within one another", lambda: filled("", "[", "")
    yield "run", "queries within one another", lambda: filled("", '{"bool":{"must":[', "")
    yield "run", "digits", lambda: filled("", "1", "")
    yield "run", "members of one object", lambda: counted('{"c":0', ',"m%d":0', "}")
    yield "run", "spaces", lambda: filled("", " ", "")
    yield "run", "line ends", lambda: filled("", "\n", "")
    yield "run", "small adds", lambda: filled("", '{"c":0,"op":"add","doc":{"key":"k"}}\n', "")
    yield "run", "small deletes", lambda: filled("", '{"c":0,"op":"delete","field":"f","term":"t"}\n', "")
    yield "run", "small searches", lambda: filled("", '{"c":0,"op":"search","query":"all"}\n', "")
    yield "run", "one search of clauses", lambda: filled('{"c":0,"op":"search","query":{"bool":{"should":[', '"all",', '"all"]}}}\n')
    yield "ask", "one phrase", lambda: filled('{"phrase":["b","', "a ", 'a"]}\n')
    yield "ask", "one question of clauses", lambda: filled('{"bool":{"should":[', '"all",', '"all"]}}\n')
    yield "ask", "small questions that match nothing", lambda: filled("", '{"bool":{}}\n', "")
    yield "ask", "small questions that match one document", lambda: filled("", '"all"\n', "")


def write(make, name):
    with open(name, "w") as out:
        out.write(make())


def measured(program, where, words, script):
    """The status, the seconds and the most memory in MB of a call."""
    begin = time.monotonic()
    with open(script, "rb") as source, open(os.devnull, "wb") as sink:
        child = subprocess.Popen([program, where, *words], stdin=source, stdout=sink)
        _, status, used = os.wait4(child.pid, 0)
    return os.waitstatus_to_exitcode(status), time.monotonic() - begin, used.ru_maxrss >> 10


def main():
    program, word = os.path.abspath(sys.argv[1]), sys.argv[2] if len(sys.argv) > 2 else ""
    print("| Command | Input of 64 MiB | Status | Seconds | MB |\n|---|---|---|---|---|")
    for command, name, make in shapes():
        if word not in f"{command} {name}":
            continue
        with tempfile.TemporaryDirectory() as space:
            where, script = f"{space}/index", f"{space}/input"
            os.mkdir(where)
            if command == "ask":
                one = ADD % "a b" + '{"c":0,"op":"commit"}\n'
                subprocess.run([program, where, "run"], input=one.encode(), stdout=subprocess.DEVNULL)
            # (by a process of its own: a child's most memory is no less than what its parent has)
            writer = multiprocessing.Process(target=write, args=(make, script))
            writer.start()
            writer.join()
            status, seconds, memory = measured(program, where, (command,), script)
            print(f"| `{command}` | {name} | {status} | {seconds:.1f} | {memory:,} |", flush=True)


if __name__ == "__main__":
    start(main)
