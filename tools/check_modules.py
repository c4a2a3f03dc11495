#!/usr/bin/env python3
"""Fails on a module of the library that the module table of docs/ARCHITECTURE.md does not name.

The library is every crate whose name begins with nano. Usage, at the top of the repository:
python3 tools/check_modules.py
"""
import pathlib
import re
import sys


def named():
    """The modules that the table names."""
    text = pathlib.Path("docs/ARCHITECTURE.md").read_text()
    table = text.split("## Modules", 1)[1].split("## ", 1)[0].split("`specs/` has", 1)[0]
    rows = [row.split("|")[2] for row in table.splitlines() if row.startswith("|")]
    return set(re.findall(r"`(\w+)`", " ".join(rows)))


def main():
    known, unknown, seen = named(), [], {"main"}
    for path in sorted(pathlib.Path("crates").glob("nano*/src/**/*.rt")):
        seen.add(path.stem)
        if path.stem not in known | {"main"}:
            unknown.append(path)
    for path in unknown:
        print(f"{path}: the module table does not name {path.stem}")
    for name in sorted(known - seen):
        print(f"the module table names {name}, and no crate has it")
    return 1 if unknown or known - seen else 0


if __name__ == "__main__":
    sys.exit(main())
