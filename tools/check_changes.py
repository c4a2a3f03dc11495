#!/usr/bin/env python3
"""Fails where a case of the table "Data that changes" of docs/GUIDE.md is no row of the tables of cases.

In the last column a type is followed by a colon and inputs. An input is in pairs of hexadecimal digits,
or it is a text, in which `..` leaves out what follows. An input that `is` something has that answer.
Usage, at the top of the repository: python3 tools/check_changes.py [-v]
With -v each row that is found is printed.
"""
import pathlib
import re
import sys
import urllib.parse

TABLES = ["user_types.tsv", "requests.tsv"]
CODE = re.compile(r"`([^`]+)`(:| is `([^`]+)`)?")
PAIRS = re.compile(r"[0-9a-f]{2}(?: [0-9a-f]{2})*")


def rows():
    """The rows of the tables: format, type, input, verdict and answer."""
    for name in TABLES:
        path = pathlib.Path("crates/conformance_run/data", name)
        for number, line in enumerate(path.read_text().splitlines(), 1):
            fields = line.split("\t")
            if not line.startswith("#") and len(fields) > 4:
                yield f"{name}:{number}", fields


def cases():
    """The cases of the table: the line, the type, the input, and the answer where it is named."""
    inside = False
    for number, line in enumerate(pathlib.Path("docs/GUIDE.md").read_text().splitlines(), 1):
        inside = line == "## Data that changes" if line.startswith("## ") else inside
        cells = re.split(r" \| ", line.strip("| ")) if inside and line.startswith("| ") else []
        if len(cells) < 5 or cells[0] == "Change":
            continue
        kind, found = None, False
        for code, after, answer in CODE.findall(cells[-1]):
            if after == ":":
                kind = code
            else:
                found = True
                yield number, kind, code, answer
        if not found:
            yield number, kind, "no case", ""


def stands_for(code, fields):
    """Whether the input of a row is the one of a case."""
    text = fields[2].split(" ", 1)[1] if fields[0] == "bin-at" else fields[2]
    if PAIRS.fullmatch(code) and fields[0].startswith("bin"):
        return urllib.parse.unquote_to_bytes(text) == bytes.fromhex(code)
    if fields[0].startswith("bin"):
        return False
    text = urllib.parse.unquote(text)
    return text.startswith(code.split("..")[0]) if ".." in code else text == code


def main():
    table, count, faults = list(rows()), 0, 0
    for number, kind, code, answer in cases():
        count += 1
        found = [(place, fields) for place, fields in table
                 if fields[1] == kind and stands_for(code, fields) and (not answer or fields[4] == answer)]
        if not found:
            print(f"docs/GUIDE.md:{number}: no row of `{kind}` for `{code}`" + (f" is `{answer}`" if answer else ""))
            faults += 1
        elif "-v" in sys.argv:
            for place, fields in found:
                print(f"docs/GUIDE.md:{number}: {place}: {' '.join(fields)}")
    print(f"{count} cases of data that changes, {faults} that are no row")
    return 1 if faults or not count else 0


if __name__ == "__main__":
    sys.exit(main())
