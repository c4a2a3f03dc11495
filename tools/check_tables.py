#!/usr/bin/env python3
"""Fails on a row of crates/conformance_run/data that the model of the two pages answers otherwise.

Each row of each table is judged by tools/model, which is written from docs/FORMATS.md and
docs/ERRORS.md. A fault is an answer that differs, a wrong count of fields, a field that is written
as none can be, a verdict `rejected` (the pages give the text of every error), and a row that the
model cannot judge, but for those of NOT_JUDGED. Each row of wrong.tsv has a fault, and where it is
judged the program's stored output has the model's answer; rows whose format ends in `-written` are
about the program's own questions alone. The counts there are those of the tables.

Of rust_crate.tsv it is looked at what the Rust crate did. The model is asked again with each named
difference undone (rust_crate.py): then it does what the column RUST_CRATE says, each name changes
what comes, and no other difference does. What the crate answered, and the text of its errors, stand
in no column; so a name that changes these alone is judged by what the model would answer.
Usage, at the top of the repository: python3 tools/check_tables.py [-v] [TABLE..]
With -v each row that is not judged is printed.
"""
import pathlib
import re
import sys
import time

sys.path.insert(0, str(pathlib.Path(__file__).parent))
sys.setrecursionlimit(20_000)
import rust_crate  # noqa: E402
from model import cases  # noqa: E402
from model.answer import answer  # noqa: E402

DATA = pathlib.Path("crates/conformance_run/data")
STORED = pathlib.Path("crates/conformance_run/stdout")
WRONG = "wrong.tsv"
# Rows that the model cannot judge, by table, format and type, and why.
NOT_JUDGED = {}
# How many fields a row has, where it is not five.
FIELDS = {"rust_crate.tsv": {7}, WRONG: {5, 7}}


def faults_of(table, fields, outcomes):
    """What is wrong with a row; what the model answered is added to the outcomes."""
    if len(fields) not in FIELDS.get(table, {5}):
        yield f"{len(fields)} fields"
        return
    try:
        given, answered = cases.unescape(fields[2]), cases.escape(cases.unescape(fields[4]))
    except cases.Malformed as error:
        yield f"no field: {error}"
        return
    got = answer(fields[0], fields[1], given)
    outcomes.append(got)
    if got.verdict == "unknown":
        if (table, fields[0], fields[1]) not in NOT_JUDGED:
            yield "the model cannot judge it"
        return
    if fields[3] == "rejected" and got.verdict == "error":
        yield f"its error has a text: error {got.answer}"
    elif (fields[3], answered) != tuple(got):
        yield f"wanted {fields[3]} {answered[:200]}, got {got.verdict} {got.answer[:200]}"
    if len(fields) == 7:
        yield from rust_crate.faults(fields)


def stored():
    """Of the stored output, the counts of each table, and what each row of wrong.tsv came to."""
    counts, came, number = {}, {}, None
    for line in STORED.read_text().splitlines():
        count = re.fullmatch(r"(\w+\.tsv): (\d+) cases, \d+ differ", line)
        if count:
            counts[count.group(1)] = int(count.group(2))
        elif line.startswith(f"{WRONG}:"):
            number = line.split(":")[1]
        elif ", got " in line:
            came[number] = line.rpartition(", got ")[2]
    return counts, came


def main():
    verbose = "-v" in sys.argv
    named = [pathlib.Path(word) for word in sys.argv[1:] if word != "-v"]
    counts, came = stored()
    total = 0
    for path in named or sorted(DATA.glob("*.tsv")):
        start, rows, judged, faults = time.time(), 0, 0, 0
        for place, fields in cases.rows(path):
            rows += 1
            outcomes = []
            found = list(faults_of(path.name, fields, outcomes))
            judged += bool(outcomes) and outcomes[0].verdict != "unknown"
            if verbose and not (outcomes and outcomes[0].verdict != "unknown"):
                print(f"{place}: not judged")
            if path.name == WRONG:
                judges = outcomes and not fields[0].endswith("-written")
                got = f"{outcomes[0].verdict} {outcomes[0].answer}" if judges else None
                found = [] if found else ["nothing is wrong with it"]
                if got is not None and came.get(place.rpartition(":")[2], got) != got:
                    found.append(f"the stored output has another answer than {got}")
            for fault in found:
                print(f"{place}: {fault}")
            faults += bool(found)
        if path.parent == DATA and counts.get(path.name) != rows:
            print(f"{STORED}: {path.name} has {rows} rows, and not {counts.get(path.name)}")
            faults += 1
        total += faults
        print(f"{path.name}: {judged} of {rows} rows judged, {faults} faults, {time.time() - start:.1f} s")
    return 1 if total else 0


if __name__ == "__main__":
    sys.exit(main())
