#!/usr/bin/env python3
"""Makes a script for index_run of a catalogue, and prints it.

usage: from_catalogue.py NEW [OLD]
       from_catalogue.py --cut PERCENT --least CENTS NOW

The files are CSV with the columns id, title, description, category, price, stock. The first form brings an index from
OLD, or from nothing, to NEW. Of each product, by its id:

it is new                              an add
title, description or category differ  an update by its key
only price or stock differ             a set of each number that does
it is gone                             a delete by its key

text   title, description
exact  category
num    price, in cents; stock

The second form cuts the prices of an index that has NOW: it sets each product's new price by its key, deletes what then
costs less than CENTS, and searches for what costs up to twice as much.
"""
import argparse
import csv
import json
import sys
from decimal import Decimal


def product_of(row):
    """A row of the file as a document of docs/FORMATS.md."""
    return {
        "key": row["id"],
        "text": {"title": row["title"], "description": row["description"]},
        "exact": {"category": row["category"]},
        "num": {"price": int(Decimal(row["price"]) * 100), "stock": int(row["stock"])},
    }


def read_catalogue(path):
    """The products of a file by their keys."""
    with open(path, newline="", encoding="utf-8") as file:
        return {row["id"]: product_of(row) for row in csv.DictReader(file)}


def lines_from(old, new):
    """The lines that make the new catalogue of the old one, without their caller."""
    for key, product in new.items():
        by_key, before = {"field": "key", "term": key}, old.get(key)
        if before is None:
            yield {"op": "add", "doc": product}
        elif {**before, "num": 0} != {**product, "num": 0}:
            yield {"op": "update", **by_key, "doc": product}
        else:
            for name, value in product["num"].items():
                if value != before["num"][name]:
                    yield {"op": "set", **by_key, "num": name, "value": value}
    for key in sorted(old.keys() - new.keys()):
        yield {"op": "delete", "field": "key", "term": key}
    yield {"op": "commit"}


def lines_of_cut(products, percent, least):
    """The lines that cut the prices of these products, without their caller."""
    for key, product in products.items():
        price = product["num"]["price"] * (100 - percent) // 100
        yield {"op": "set", "field": "key", "term": key, "num": "price", "value": price}
    yield {"op": "delete_query", "query": {"range": ["price", 0, least - 1]}}
    yield {"op": "commit"}
    yield {"op": "search", "query": {"range": ["price", least, 2 * least]}}


def main():
    parser = argparse.ArgumentParser(description=__doc__, formatter_class=argparse.RawDescriptionHelpFormatter)
    parser.add_argument("--cut", type=int, metavar="PERCENT")
    parser.add_argument("--least", type=int, default=0, metavar="CENTS")
    parser.add_argument("new")
    parser.add_argument("old", nargs="?")
    args = parser.parse_args()
    new, old = read_catalogue(args.new), read_catalogue(args.old) if args.old else {}
    lines = lines_from(old, new) if args.cut is None else lines_of_cut(new, args.cut, args.least)
    for line in lines:
        print(json.dumps({"c": 0, **line}))


try:
    main()
except OSError as error:
    sys.exit(f"from_catalogue.py: {error.filename}: {error.strerror}")
