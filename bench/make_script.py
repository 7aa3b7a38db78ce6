#!/usr/bin/env python3
"""The scripts and the questions of the benchmark: each is a list of lines, which are JSON values.

usage: make_script.py KIND COUNT

prints one. COUNT is a number of documents, but of lines in `generated` and of questions in `questions`.

KIND       what it does
add        adds small documents, commits, and searches: a term, a phrase, all but one kind
write      adds small documents and commits
update     adds small documents, updates each by its key, and commits
delete     adds small documents, deletes each by its key, and commits
set        adds small documents, sets a number on each by its key, and commits
generated  the generator's lines of seed 7: adds, changes and, as each 64th line, a commit
long       adds documents of 50 to 200 words and commits
questions  asks for terms (40 %), phrases and bools (30 % each) of the documents of `long`

There are four callers. Each commits at the end.
"""
import itertools
import json
import random
import sys

from started import start

CALLERS = 4
VOCABULARY = 30_000
COMMON = 200

SEARCHES = [
    {"term": ["body", "word5"]},
    {"phrase": ["body", "common text"]},
    {"bool": {"must": ["all"], "not": [{"term": ["kind", "e3"]}]}},
]


def small(number):
    """A document of five words and a number."""
    body = f"word{number % 97} common text of number {number}"
    return {"key": f"k{number}", "text": {"body": body}, "exact": {"kind": f"e{number % 7}"}, "num": {"n": number}}


def adds(documents, callers=CALLERS):
    """Adds each document, by one caller after another."""
    for number, document in enumerate(documents):
        yield {"c": number % callers, "op": "add", "doc": document}


def commits(callers=CALLERS):
    """A commit of each caller."""
    for caller in range(callers):
        yield {"c": caller, "op": "commit"}


def change(kind, number):
    """The line that changes the small document of this number, without its caller."""
    line = {"op": kind, "field": "key", "term": f"k{number}"}
    if kind == "update":
        line["doc"] = small(number)
    if kind == "set":
        line.update(num="n", value=-number)
    return line


def grown(kind, count):
    """So many small documents, what the kind does with each, and the commits."""
    yield from adds(map(small, range(count)))
    if kind in ("update", "delete", "set"):
        for number in range(count):
            yield {"c": number % CALLERS, **change(kind, number)}
    yield from commits()
    if kind == "add":
        for query in SEARCHES:
            yield {"c": 0, "op": "search", "query": query}


def generated(seed, count, callers):
    """The lines that `index_run DIR make` makes of a seed."""
    x = seed
    for i in range(1, count + 1):
        x = (x * 1103515245 + 12345) % 2**31
        c, r = (i - 1) % callers, x // 65536
        d = r // 8
        key, tag = f"k{c}-{d % 16}", f"t{c}-{d % 4}"
        doc = {"key": key, "text": {"body": f"w{d % 16} w{d % 4}"}, "exact": {"tag": tag}, "num": {"n": d}}
        if i % 64 == 0:
            yield {"c": c, "op": "commit"}
        elif r % 8 < 4:
            yield {"c": c, "op": "add", "doc": doc}
        elif r % 8 == 4:
            yield {"c": c, "op": "update", "field": "key", "term": key, "doc": doc}
        elif r % 8 == 5:
            yield {"c": c, "op": "delete", "field": "tag", "term": tag}
        elif r % 8 == 6:
            yield {"c": c, "op": "set", "field": "tag", "term": tag, "num": "n", "value": d}
        else:
            query = {"bool": {"must": [{"term": ["tag", tag]}], "not": [{"term": ["key", key]}]}}
            yield {"c": c, "op": "delete_query", "query": query}
    yield from commits(callers)


def vocabulary(chance):
    """Distinct words of two to five syllables, the most frequent first."""
    syllables = [first + vowel for first in "bdfgklmnprstvz" for vowel in "aeiou"]
    found = {}
    while len(found) < VOCABULARY:
        found["".join(chance.choices(syllables, k=chance.randint(2, 5)))] = None
    return list(found)


def bodies(count):
    """The words of so many documents. The n-th word of the vocabulary is about n times rarer than the first."""
    chance = random.Random(7)
    words = vocabulary(chance)
    frequency = list(itertools.accumulate(1 / (place + 1) for place in range(VOCABULARY)))
    for _ in range(count):
        yield chance.choices(words, cum_weights=frequency, k=chance.randint(50, 200))


def long(count):
    """So many documents of 50 to 200 words."""
    for number, words in enumerate(bodies(count)):
        yield {"key": f"k{number}", "text": {"body": " ".join(words)}}


def questions(count):
    """So many queries on `long` documents. Each names a word that few of them have."""
    chance = random.Random(11)
    common = set(vocabulary(random.Random(7))[:COMMON])
    texts = list(bodies(2_000))
    for number in range(count):
        text = chance.choice(texts)
        place = chance.choice([place for place, word in enumerate(text[:-1]) if word not in common])
        first, second = text[place], text[place + 1]
        other = chance.choice(chance.choice(texts))
        if number % 10 < 4:
            yield {"term": ["body", first]}
        elif number % 10 < 7:
            yield {"phrase": ["body", f"{first} {second}"]}
        else:
            must = [{"term": ["body", word]} for word in (first, second)]
            yield {"bool": {"must": must, "not": [{"term": ["body", other]}]}}


def lines(kind, count):
    """The lines of a kind."""
    if kind == "generated":
        return generated(7, count, CALLERS)
    if kind == "long":
        return itertools.chain(adds(long(count)), commits())
    if kind == "questions":
        return questions(count)
    return grown(kind, count)


def write_lines(made, out):
    """Writes the lines as index_run reads them."""
    for line in made:
        print(json.dumps(line, separators=(",", ":")), file=out)


def main():
    if len(sys.argv) != 3:
        sys.exit(__doc__)
    write_lines(lines(sys.argv[1], int(sys.argv[2])), sys.stdout)


if __name__ == "__main__":
    start(main)
