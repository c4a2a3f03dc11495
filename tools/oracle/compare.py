#!/usr/bin/env python3
"""Compares what the Rust crate does with the answers of the port, on the rows of tables.

    python3 tools/oracle/compare.py ORACLE [TABLE..]

ORACLE is the program that build.sh built; a table is one of crates/conformance_run/data, rust_crate.tsv
if none is named. Where both answer, the answers are the same; where both reject, so are the texts. Any
other row needs a name of differences.py; where the table names the difference, the input meets the
conditions of its names. Where the table says what the crate did, it did that. Each other row is printed,
and fails.

Compared as follows: hashed maps and sets in ascending order, as ordered.rs walks them. Errors of RON and
TOML without their columns, which the crate leaves at 0. A float in a message as F64 alone, and numbers of
TOML as floats. Of an error of bytes o, l and s. A type that the oracle does not know is counted.
"""
import pathlib
import re
import subprocess
import sys
from collections import Counter

from differences import conditions_met, names_of

DATA = pathlib.Path(__file__).resolve().parents[2] / "crates/conformance_run/data"
COPIES = re.compile(r"%\*(\d+)\(([^)]*)\)")
NUMBER = re.compile(r'"(?:[^"\\]|\\.)*"|date [^\s,\]]+|tables \d+|(?:dec )?(-?[\d.]+)')
STATUS = {"is": "answered", "error": "rejected", "rejected": "rejected"}


def rows_of(path):
    """The fields of each case of a table, with repeated text written out."""
    for line in path.read_text(encoding="ascii").splitlines():
        if line and not line.startswith("#"):
            line = COPIES.sub(lambda m: m.group(2) * int(m.group(1)), line)
            yield (line.split("\t") + ["", ""])[:7]


def unescaped(field):
    return re.sub(rb"%([0-9A-F]{2})", lambda m: bytes([int(m.group(1), 16)]), field.encode())


def ask(oracle, rows):
    """The crate's status and text for each row."""
    lines = "".join("\t".join(row[:3]) + "\n" for row in rows)
    done = subprocess.run([oracle], input=lines, capture_output=True, text=True, check=True)
    answers = [line.split("\t") + [""] for line in done.stdout.splitlines()]
    if len(answers) != len(rows):
        raise ValueError(f"{len(answers)} answers to {len(rows)} rows")
    return [(answer[0], answer[1]) for answer in answers]


def told_error(form, text):
    """An error without what the crate tells otherwise."""
    text = re.sub(r"F64\([^)]*\)", "F64", text)
    if form.startswith("bin"):
        return re.sub(r"^\w+ o (\d+) l (\d+) s (\d+)$",
                      r"Bin deserialize error at:\1 wanted:\2 bytes but max size is \3", text)
    if "Json Deserialize" in text:
        return text
    return re.sub(r", line:(\d+) col:\d+$", r", line:\1", text)


def told_listing(text):
    """A listing with its numbers as floats."""
    return NUMBER.sub(lambda m: repr(float(m.group(1))) if m.group(1) else m.group(0),
                      text.replace("%0A", "\n"))


def is_same(row, status, text):
    """Whether the crate did with the row what the port does."""
    form, kind, _, verdict, answer = row[:5]
    if STATUS.get(verdict) != status:
        return False
    if verdict == "rejected":
        return True
    if verdict == "error":
        return told_error(form, answer) == told_error(form, text)
    if (form, kind) == ("run", "toml"):
        return told_listing(answer) == told_listing(text)
    return answer == text


def fault_of(row, status, text):
    """What is wrong with a row, if anything is."""
    form, kind, given, verdict, _, crate, named = row
    if crate and crate != status:
        return f"the crate {status}, and the table says {crate}"
    names = names_of(form, kind, unescaped(given), verdict, status)
    if is_same(row, status, text):
        return f"no difference, and the table says {named}" if named else None
    if not names or crate and not named:
        return f"the crate {status} {text}, and no name says why"
    met = conditions_met(form, kind, unescaped(given))
    missing = [name for name in named.split("; ") if named and name not in met]
    return f"not for {missing[0]}" if missing else None


def compared(oracle, name, rows):
    """Prints the faults of the rows, and gives their counts."""
    counts = Counter(rows=len(rows))
    for row, (status, text) in zip(rows, ask(oracle, rows)):
        if status == "unknown":
            counts["of types without an oracle"] += 1
            continue
        counts[status] += 1
        counts["told apart by a name"] += not is_same(row, status, text)
        fault = fault_of(row, status, text)
        if fault:
            counts["faults"] += 1
            print("\t".join(row)[:1000] + f"\n  {fault[:1000]}")
    print(f"{name}: " + ", ".join(f"{count} {what}" for what, count in counts.items()))
    return counts["faults"]


def main():
    oracle, *tables = sys.argv[1:]
    faults = 0
    for table in tables or ["rust_crate.tsv"]:
        path = pathlib.Path(table)
        path = path if path.exists() else DATA / table
        faults += compared(oracle, path.name, list(rows_of(path)))
    return 1 if faults else 0


if __name__ == "__main__":
    sys.exit(main())
