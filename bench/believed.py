#!/usr/bin/env python3
"""What has to be believed of a clause of `top`: the definitions that it rests on, by file, with their lines.

It begins with the names that a clause cites, follows them through crates/*/specs/*.antt, and counts the lines of the
definitions that it comes to, without comments and blank lines. Files stand in the order in which it comes to them. A lemma
isn't counted, nor is what only lemmas cite. Crates of the kit and types of Rust sources are named and not counted.
"""
import argparse
import os
import re
from pathlib import Path
from typing import NamedTuple

from started import start

TOP = Path("crates/index_run/src/call.rt")
OPENING = {"(": 1, "{": 1, "[": 1, ")": -1, "}": -1, "]": -1}
KEYWORDS = ("abbrev", "unfoldable", "record", "data", "pub")


class Item(NamedTuple):
    """A definition or a lemma: its file, its name, and its lines."""
    file: str
    name: str
    lines: tuple


class Source(NamedTuple):
    """A file: what its names stand for elsewhere, and its own items."""
    imports: dict
    items: dict


def code_of(text):
    """The lines without comments and without blank ones."""
    lines = (re.sub(r"(^|\s)--(\s.*)?$", "", line).rstrip() for line in text.split("\n"))
    return [line for line in lines if line]


def joined(lines):
    """The lines, of which each `use` that goes over several is one."""
    whole, depth = [], 0
    for line in lines:
        if depth > 0:
            whole[-1] += " " + line.strip()
        else:
            whole.append(line)
        if depth > 0 or re.match(r"(ghost )?use ", line):
            depth += sum(OPENING.get(letter, 0) for letter in line)
    return whole


def unpacked(lines):
    """The lines, with those inside `mutual` and `module _` moved to the margin, and a keyword before `mutual` to its items."""
    flat, inside, keyword = [], False, ""
    for line in lines:
        opening = re.match(r"((?:abbrev |unfoldable )?)mutual$|module _ ", line)
        if opening:
            inside, keyword = True, opening[1] or ""
            continue
        inside = inside and line.startswith(" ")
        flat.append(re.sub("^pub ", keyword + "pub ", line[2:]) if inside else line)
    return flat


def imported(line):
    """The names that a `use` brings in, each with the path and the name that it stands for. A name `X.` stands for a path."""
    found = re.match(r"(?:ghost )?use (\S+?)(?:\.\{(.*)\})?(?: as (\S+?))?;?$", line)
    if not found:
        return {}
    path, names, alias = found.groups()
    if names is None:
        return {(alias or path.rsplit(".", 1)[1]) + ".": (path, None)}
    names = (name.strip().split(" as ") for name in names.split(","))
    return {pair[-1].strip(): (path, pair[0].strip()) for pair in names}


def items_of(file, lines):
    """The items of a file: each begins at the margin, and has the clauses that follow it. A constructor stands for its type."""
    items, name, held = {}, None, []
    for line in lines:
        start = re.match(r"(?:(?:%s) )*(\S+) +(?::|where|[({])" % "|".join(KEYWORDS), line)
        fresh = start and not line.startswith((" ", ")", "}")) and (line.split()[0] in KEYWORDS or f"{start[1]} :" in line)
        if fresh:
            name, held = start[1], []
            items[name] = held
        if name:
            held.append(line)
    whole = {name: Item(file, name, tuple(held)) for name, held in items.items()}
    constructors = {line.split()[0]: item for item in whole.values() if re.match(r"(pub )?data ", item.lines[0])
                    for line in item.lines[1:]}
    return constructors | whole


def read(path):
    imports, rest = {}, []
    for line in joined(code_of(path.read_text())):
        if line.startswith("use "):
            imports.update(imported(line))
        elif not re.match(r"(pub )?mod |infix|unfolding ", line):
            rest.append(line)
    return Source(imports, items_of(str(path), unpacked(rest)))


def bound_in(text):
    """The names that are bound in a text: parameters, and what a clause, a `λ`, a `let` or a `do` names."""
    names = set()
    for group in re.findall(r"[({]([^(){}:]+) :", text) + re.findall(r"λ ([^.(]+)\.", text):
        names.update(group.split())
    names.update(re.findall(r"(?:let )(\S+)", text) + re.findall(r"(\S+) ←", text))
    for line in text.split("\n"):
        left = line.split(" = ")[0] if " = " in line and not line.startswith(" ") else ""
        names.update(word for word in re.findall(r"[^\s(),]+", left)[1:] if not word[0].isupper())
    return {name for name in names if not name[:1].isupper()}


def words_of(text):
    """The names that a text may refer to: words, and words behind the name of a path."""
    words = set()
    for word in re.split(r"[\s(){}\[\],;]+", text):
        words.add(word)
        if "." in word:
            head, rest = word.split(".", 1)
            words.update((head, f"{head}.{rest.split('.')[0]}"))
    if re.search(r"\bdo$", text, re.M):
        words.add(">>=")
    return words


def is_named(name, words):
    """Whether a name, or an operator with its pieces, is among the words."""
    if "◌" not in name:
        return name in words
    return all(piece in words for piece in name.split("◌") if piece)


class Reader:
    """Finds what names stand for, over all files of specs."""

    def __init__(self):
        self.sources = {}
        for path in sorted(Path("crates").glob("*/specs/*.antt")):
            self.sources[f"Rattle.{path.parts[1]}.specs.{path.stem}"] = read(path)

    def targets(self, text, imports, own):
        """What a text refers to, in the order of the text: items by path and name."""
        words = words_of(text) - bound_in(text)
        here = self.sources[own].items if own else ()
        found = [(text.find(name.strip("◌")), own, name) for name in here if is_named(name, words)]
        for name, (path, origin) in imports.items():
            if origin is None:
                found += [(text.find(word), path, word.split(".")[1]) for word in words if word.startswith(name)]
            elif is_named(name, words):
                found.append((text.find(name.strip("◌")), path, origin))
        return [(path, name) for _at, path, name in sorted(found)]

    def definitions(self, files):
        """All definitions of these files."""
        items = {(item.file, item.name): item for source in self.sources.values() for item in source.items.values()}
        return [item for item in items.values() if item.file in files and is_definition(item)]

    def reached(self, keys):
        """All items that these rest on, and the paths of all else that they name: of the kit, and of Rust sources."""
        items, others, waiting = {}, set(), list(keys)
        for path, name in waiting:
            source = self.sources.get(path)
            if not source:
                others.add(path.replace(".TheVariants", ""))
                continue
            item = source.items.get(name)
            if item and (path, item.name) not in items:
                items[path, item.name] = item
                waiting += self.targets("\n".join(item.lines), source.imports, path)
        return items, others


def clauses():
    """The clauses of `top` by label, and what the names stand for that they cite."""
    text = TOP.read_text()
    imports = {}
    for line in joined(code_of(text)):
        if line.startswith("ghost use "):
            imports.update(imported(line))
    contract = text[text.index("pub fn top<"):]
    contract = re.sub(r"//.*", "", contract[:contract.index("\n{\n")])
    parts = re.split(r"\bensures (\w+) ", contract)[1:]
    return dict(zip(parts[::2], parts[1::2])), imports


def lines_of(items):
    return sum(len(item.lines) for item in items)


def is_definition(item):
    return re.match(r"(pub )?(abbrev|unfoldable|record|data) ", item.lines[0])


def by_file(items):
    files = {}
    for item in items.values():
        files.setdefault(item.file, []).append(item)
    return files


def show(title, reader, items, others, names):
    files = by_file(items)
    print(f"{title}: {lines_of(items.values())} lines, {len(items)} definitions, {len(files)} files; "
          f"all definitions of these files: {lines_of(reader.definitions(files))} lines")
    for file, held in files.items():
        print(f"{lines_of(held):6}  {file}")
        if names:
            print("        " + " ".join(item.name for item in held))
    ours = {path for path in others if (Path("crates") / path.split(".")[1]).is_dir()}
    print("  types of Rust sources: " + " ".join(sorted(path.split(".")[1] + "::" + path.split(".")[-1] for path in ours)))
    print("  crates of the kit: " + " ".join(sorted({path.split(".")[1] for path in others - ours})))


def show_table(headline, whole):
    """The list of docs/PROOFS.md: the files of the headline, and then those that other clauses add."""
    first, all_files = by_file(headline), by_file(whole)
    print("| File | Headline | All of `top` |\n|---|---|---|")
    for file in list(first) + [file for file in all_files if file not in first]:
        print(f"| `{file.replace('crates/', '')}` | {lines_of(first.get(file, ())) or ''} | {lines_of(all_files[file])} |")
    print(f"| Lines | {lines_of(headline.values())} | {lines_of(whole.values())} |")


def main():
    parser = argparse.ArgumentParser(description=__doc__.split("\n")[0])
    parser.add_argument("labels", nargs="*", help="clauses of top; without one: each in a line, then headline and all in full")
    parser.add_argument("--names", action="store_true", help="the names of the definitions too")
    parser.add_argument("--table", action="store_true", help="the table of docs/PROOFS.md alone")
    wanted = parser.parse_args()
    os.chdir(Path(__file__).resolve().parent.parent)
    reader = Reader()
    texts, imports = clauses()
    unknown = [label for label in wanted.labels if label not in texts]
    if unknown:
        parser.error(f"top has no clause {unknown[0]}: {', '.join(texts)}")
    by_label = {label: reader.reached(reader.targets(text, imports, None)) for label, text in texts.items()}
    for label in wanted.labels:
        show(label, reader, *by_label[label], wanted.names)
    if wanted.labels:
        return
    whole = reader.reached(reader.targets("\n".join(texts.values()), imports, None))
    if wanted.table:
        show_table(by_label["headline"][0], whole[0])
        return
    for label, (items, _others) in by_label.items():
        print(f"{lines_of(items.values()):6}  {label}")
    show("headline", reader, *by_label["headline"], wanted.names)
    show("all of top", reader, *whole, wanted.names)


if __name__ == "__main__":
    start(main)
