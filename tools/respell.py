#!/usr/bin/env python3
"""Brings this repository's own antt names to today's spelling: words in snake case, types and modules in camel case.

Run once, at the top of the checkout, behind /opt/rattle/port/port.py. It renames the definitions, constructors, fields and lemmas that specs/ and
the lemma files of proofs/ declare, wherever code, clauses, proofs, edits and documents name them. A capital of a fact or of a Rust constant stays.
A dash stays where it joins the names of two functions and of nothing else; between plain words it becomes `_`. Names in a function's own proof file that Rattle asks
for, and functions of src/, keep their names.
"""
import re
import subprocess
import sys
from pathlib import Path

# `RC` is FIPS 202's; `rc` is another of its functions.
KEEP = {"RC"}
BY_HAND = {
    "bit-and": "bit-bit_and",
    "bit-or": "bit-bit_or",
    "bit-xor": "bit-bit_xor",
    "string-of": "string_of-array_of",
    "getD-count": "get_or-count_from",
    "getD-upto": "get_or-upto",
    "notASession": "not_a_session",
    "upper-read": "upper_read-even",
    "keccakF": "keccak_f",
    "keccakF1600": "keccak_f1600",
    "keccakP": "keccak_p",
    "thetaL": "theta_lanes",
    "rhoL": "rho_lanes",
    "piL": "pi_lanes",
    "chiL": "chi_lanes",
    "iotaL": "iota_lanes",
    "roundL": "round_lanes",
    "roundsL": "rounds_lanes",
    "roundsS": "rounds_on_strings",
}
# a parameter of modules, which nothing declares by a signature
VARIABLES = {"keepsAll": "keeps_all"}
WORD = re.compile(r"[^\s(){}\[\],;.«»◌`\"|]+")
DECLARED = re.compile(r"^\s*((?:(?:abbrev|unfoldable|pub|data|record|rule|ruleset|opaque)\s+)*)([^\s:({},.]+)\s*(?:\{[^}]*\}\s*|\([^)]*\)\s*)*:")
CODE = re.compile(r"(--.*$|//.*$|\"[^\"\n]*\")", re.M)


def tracked(*patterns):
    names = subprocess.run(["git", "ls-files", "-z", "-c", "-o", "--exclude-standard", *patterns], check=True, capture_output=True).stdout
    return [Path(n) for n in names.decode().split("\0") if n and Path(n).is_file()]


def declares(path):
    """Whether the names that a file declares are the repository's own to choose."""
    parts = path.parts
    return parts[0] == "crates" and path.suffix == ".antt" and (parts[2] == "specs" or path.name not in ("Proof.antt", "Invariants.antt", "Answers.antt"))


def names_of(path):
    for line in path.read_text().split("\n"):
        if line.lstrip().startswith(("--", "use ", "mod ", "pub mod ", "module ")):
            continue
        found = DECLARED.match(line)
        if found and "λ" not in found[2]:
            yield found[2]
        constructor = re.match(r"^\s+\|?\s*([^\s:(){},.]+)\s*:", line)
        if constructor:
            yield constructor[1]


def functions_of(sources):
    found = set()
    for path in sources:
        if path.suffix == ".antt" and path.parts[2] == "specs":
            found |= set(re.findall(r"^\s*(?:abbrev|unfoldable) (?:pub )?([^\s:({]+)", path.read_text(), re.M))
    return found


def snake(part):
    if re.fullmatch(r"[A-Z0-9]+", part) or part[0].isupper():
        return re.sub(r"^RC(?=[A-Z])", "RC_", part) if part.startswith("RC") else part
    part = re.sub(r"(?<=[a-z0-9])([A-Z]+)(?=[A-Z][a-z])", lambda m: "_" + m[1], part)
    return re.sub(r"([A-Z])", lambda m: "_" + m[1].lower(), part)


def turned(name, functions):
    if name in KEEP:
        return name
    if name in BY_HAND:
        return BY_HAND[name]
    parts = [BY_HAND.get(p) or snake(p) for p in name.split("-")]
    if parts[0].startswith("RC_"):
        parts[0] = "RC_" + parts[0][3:].lower()
    if len(parts) == 1 or any(p == "" for p in parts):
        return "-".join(parts)
    for k in range(1, len(parts)):
        left, right = "_".join(parts[:k]), "_".join(parts[k:])
        if left in functions and right in functions:
            return left + "-" + right
    return "_".join(parts)


def main():
    sources = tracked("crates")
    declared = {}
    specs = set()
    for path in sources:
        if declares(path):
            for name in names_of(path):
                declared.setdefault(name, set()).add(path)
                if path.parts[2] == "specs":
                    specs.add(name)
    defined = functions_of(sources)
    functions = {BY_HAND.get(n) or snake(n) for n in specs if "-" not in n and not n[0].isupper() and n in defined}
    functions |= {"length", "get_or", "set", "take", "drop", "map", "replicate", "bit_xor", "bit_and", "bit_or"}
    table = {}
    for name in declared:
        if not re.search(r"[A-Za-z]", name):
            continue
        if name in specs and "-" in name:
            new = "_".join(snake(p) for p in name.split("-"))
        else:
            new = turned(name, functions)
        if new != name:
            table[name] = new
    table.update(VARIABLES)
    if "--list" in sys.argv:
        for name, new in sorted(table.items()):
            print(name, new, sep="\t")
    back = {}
    for name, new in table.items():
        back.setdefault(new, set()).add(name)
    for new, olds in sorted(back.items()):
        if len(olds) > 1 or new in declared:
            print("falls together:", new, sorted(olds), "declared" if new in declared else "", file=sys.stderr)
    pages = [p for p in tracked("*.md", "docs") if p.suffix in (".md", "")]
    files = [p for p in sources if p.suffix in (".antt", ".rt", ".edit")] + pages
    for path in files:
        text = path.read_text()
        taken = {m[0] for m in WORD.finditer(text)}
        clash = sorted((n, table[n]) for n in table if n in taken and table[n] in taken)
        for old, new in clash:
            print(f"in use: {path}: {old} -> {new}", file=sys.stderr)
    if "--list" in sys.argv or "--look" in sys.argv:
        return
    for path in files:
        text = path.read_text()
        new = respelled(text, table, path)
        if new != text:
            path.write_text(new)


def respelled(text, table, path):
    def word(found, dashes):
        name = found[0]
        if name not in table or ("-" in name and not dashes):
            return name
        before = found.string[: found.start()]
        if "-" in name and before.endswith(".") and re.search(r"\b(?:c|l|a|n|s|o|w|g|goal|tie|before)\.$", before):
            return name
        return table[name]

    def quoted(text):
        return re.sub(r"`[^`\n]*`", lambda m: WORD.sub(lambda w: word(w, True), m[0]), text)

    if path.suffix not in (".antt", ".rt", ".edit"):
        return quoted(text)
    pieces = CODE.split(text)
    for i, piece in enumerate(pieces):
        if i % 2 == 0:
            pieces[i] = WORD.sub(lambda w: word(w, True), piece)
        elif not piece.startswith('"'):
            pieces[i] = quoted(WORD.sub(lambda w: word(w, False), piece))
    return "".join(pieces)


if __name__ == "__main__":
    main()
