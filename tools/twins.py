#!/usr/bin/env python3
"""Lists the functions of crates/*/src that are of one shape: the same body but for names, numbers and texts.

usage: tools/twins.py [LINES], at the top of the checkout. A body of fewer than LINES lines (3 by itself) is no twin. A row is a place to look."""
import collections
import glob
import re
import sys

KEPT = set("as else false fn for if impl in let loop match mut pub ref return self struct true type use where while".split())
FUNCTION = re.compile(r"\bfn (\w+)")
TOKEN = re.compile(r'b?"(?:\\.|[^"])*"|b?\'(?:\\.|[^\'])\'|\w+|[^\w\s]')


def functions(text):
    """Name and body of each function, a body by its braces on lines of their own indent."""
    lines = text.split("\n")
    for at, line in enumerate(lines):
        found = FUNCTION.search(line)
        if not found or line.lstrip().startswith("//"):
            continue
        indent = line[: len(line) - len(line.lstrip())]
        begin = at
        while begin < len(lines) and not (lines[begin].rstrip() == indent + "{" or lines[begin].rstrip().endswith(" {") and begin == at):
            begin += 1
        end = begin + 1
        while end < len(lines) and lines[end].rstrip() != indent + "}":
            end += 1
        yield found.group(1), [x for x in lines[begin + 1 : end] if x.strip() and not x.strip().startswith("//")]


def shape(body):
    return " ".join(t if t in KEPT or not re.match(r"\w|b?[\"']", t) else "_" for t in TOKEN.findall("\n".join(body)))


def main(least):
    shapes = collections.defaultdict(list)
    for path in sorted(glob.glob("crates/*/src/*.rt")):
        for name, body in functions(open(path, encoding="utf-8").read()):
            if len(body) >= least:
                shapes[shape(body)].append(f"{path}: {name}")
    for places in shapes.values():
        if len(places) > 1:
            print("; ".join(places))


main(int(sys.argv[1]) if len(sys.argv) > 1 else 3)
