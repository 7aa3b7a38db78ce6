#!/usr/bin/env python3
"""Does a script of index_run, or answers its questions, by SQLite with FTS5 through Python's own sqlite3.

usage: fts5.py DATABASE run < SCRIPT
       fts5.py DATABASE ask < QUESTIONS
       fts5.py DATABASE check

It knows the documents and queries of the benchmark: one text, `body`, the exact texts `kind` and `tag`, the number
`n`. Documents are rows of a table with an index on each column that is looked for; their words are in FTS5, under
the same row numbers. An index on `n` is made for the first query of a range. A commit is SQLite's. Searches and
questions print {"hits":[KEY, ..]}, and a script at its end {"docs":D}, the rows that are there, if it has a line. A
check is FTS5's `integrity-check`, of its words and the documents, and SQLite's `integrity_check`; it prints the same.
"""
import json
import sqlite3
import sys

from started import start

TABLES = """
    create table docs (id integer primary key, key text, kind text, tag text, n integer);
    create index by_key on docs (key);
    create index by_kind on docs (kind) where kind is not null;
    create index by_tag on docs (tag) where tag is not null;
    create virtual table words using fts5 (body, tokenize='unicode61');
"""


def words_of(query):
    """The query as FTS5's own, or None where it asks for more than words."""
    (kind, of), = query.items() if query != "all" else [("all", None)]
    if kind in ("term", "phrase"):
        return f'"{of[1]}"' if of[0] == "body" else None
    if kind in ("all", "range") or "should" in of or not of.get("must"):
        return None
    must, lack = ([words_of(one) for one in of.get(part, ())] for part in ("must", "not"))
    if None in must + lack:
        return None
    return f"({' AND '.join(must)})" + "".join(f" NOT {one}" for one in lack)


def condition_of(query, values):
    """The query as a condition of SQL, whose values it puts into the list."""
    if query == "all":
        return "1"
    words = words_of(query)
    if words:
        values.append(words)
        return "id in (select rowid from words where words match ?)"
    (kind, of), = query.items()
    if kind == "term":
        values.append(of[1])
        return f"{of[0]} = ?"
    if kind == "range":
        values.extend(of[1:])
        return f"{of[0]} between ? and ?"
    must = [condition_of(one, values) for one in of["must"]]
    return " and ".join(must + [f"not ({condition_of(one, values)})" for one in of.get("not", ())])


def has_range(query):
    return '"range"' in json.dumps(query)


def ids_of(store, query):
    values = []
    if has_range(query):
        store.execute("create index if not exists by_n on docs (n)")
    return store.execute(f"select id from docs where {condition_of(query, values)}", values).fetchall()


def hits(store, query):
    """The keys of the documents that match, in the order in which they were added."""
    words, values = words_of(query), []
    if has_range(query):
        store.execute("create index if not exists by_n on docs (n)")
    if words:
        text = "select key from words join docs on id = words.rowid where words match ? order by words.rowid"
        return [key for key, in store.execute(text, [words])]
    text = f"select key from docs where {condition_of(query, values)} order by id"
    return [key for key, in store.execute(text, values)]


def remove(store, ids):
    store.executemany("delete from words where rowid = ?", ids)
    store.executemany("delete from docs where id = ?", ids)


def add(store, doc):
    exact = doc.get("exact", {})
    row = (doc["key"], exact.get("kind"), exact.get("tag"), doc.get("num", {}).get("n"))
    number = store.execute("insert into docs (key, kind, tag, n) values (?, ?, ?, ?)", row).lastrowid
    store.execute("insert into words (rowid, body) values (?, ?)", (number, doc["text"]["body"]))


def do_line(store, line):
    """Does one line of a script."""
    kind = line["op"]
    if kind == "commit":
        store.commit()
    elif kind == "search":
        print(json.dumps({"hits": hits(store, line["query"])}))
    elif kind == "set":
        store.execute(f"update docs set n = ? where {line['field']} = ?", (line["value"], line["term"]))
    elif kind != "add":
        remove(store, ids_of(store, line["query"] if "query" in line else {"term": [line["field"], line["term"]]}))
    if kind in ("add", "update"):
        add(store, line["doc"])


def check(store):
    """Checks FTS5's words, and the whole database. Where they are wrong it ends with an error."""
    store.execute("insert into words (words) values ('integrity-check')")
    told = store.execute("pragma integrity_check").fetchall()
    if told != [("ok",)]:
        sys.exit(f"integrity_check: {told}")


def print_docs(store):
    print(json.dumps({"docs": store.execute("select count(*) from docs").fetchone()[0]}))


def main():
    store = sqlite3.connect(sys.argv[1])
    if sys.argv[2] == "check":
        check(store)
        return print_docs(store)
    if not store.execute("select * from sqlite_master").fetchone():
        store.executescript(TABLES)
    line = None
    for line in map(json.loads, sys.stdin):
        if sys.argv[2] == "run":
            do_line(store, line)
        else:
            print(json.dumps({"hits": hits(store, line)}))
    if line and sys.argv[2] == "run":
        print_docs(store)


if __name__ == "__main__":
    start(main)
