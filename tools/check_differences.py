#!/usr/bin/env python3
"""Fails where the name of an intended difference is no item of docs/DIFFERENCES.md.

The names are those of the tables in crates/conformance_run/data, wrong.tsv left out, and of the list
in crates/conformance/src/names.rt, which has exactly the names that its program knows. An item of
docs/DIFFERENCES.md is what its first column has, divided at its commas. Usage, at the top of the
repository: python3 tools/check_differences.py
"""
import pathlib
import re
import sys

DOCUMENT = pathlib.Path("docs/DIFFERENCES.md")
LIST = pathlib.Path("crates/conformance/src/names.rt")
TABLES = pathlib.Path("crates/conformance_run/data")


def items():
    """The items of the document's tables, without their code marks."""
    found = set()
    for line in DOCUMENT.read_text().splitlines():
        if line.startswith("| "):
            cell = line.split("|")[1].replace("`", "").strip()
            found.update([cell, *cell.split(", ")])
    return found


def listed():
    """The names that the program knows."""
    text = LIST.read_text()
    names = re.search(r"const NAMES.*?= &\[(.*?)\];", text, re.S).group(1)
    return [name.replace('\\"', '"') for name in re.findall(r'"((?:\\.|[^"\\])*)"', names)]


def named():
    """Each name of a table, with the line where it stands."""
    for path in sorted(TABLES.glob("*.tsv")):
        if path.name == "wrong.tsv":
            continue
        for number, line in enumerate(path.read_text().splitlines(), 1):
            fields = line.split("\t")
            if not line.startswith("#") and len(fields) > 6 and fields[6]:
                for name in fields[6].split("; "):
                    yield f"{path}:{number}", name


def main():
    known, faults = items(), 0
    places = [(str(LIST), name) for name in listed()] + list(named())
    for place, name in places:
        if name not in known:
            print(f"{place}: {name} is no item of {DOCUMENT}")
            faults += 1
    for name in sorted(set(name for _, name in named()) - set(listed())):
        print(f"{LIST}: {name} is missing")
        faults += 1
    print(f"{len(places)} names, {faults} faults")
    return 1 if faults else 0


sys.exit(main())
