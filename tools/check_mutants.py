#!/usr/bin/env python3
"""Compares two lists of mutants with the clauses of public functions and with the mutants of the gate.

A line of tools/mutants.tsv has a crate, modules of it, clauses, their count, the mutants that break them, and a
reason. The crates are the libraries and the examples. The clauses of a module are those of its `pub fn`
and of the methods of its public traits, and of `main` those of each function: `NAME` for `ensures NAME`,
`-` for one without a name, and the same after `requires ` for a condition. `*` stands
for each module, or for each clause that no line of the crate names. Mutants are the files of the crate's
folder must-fail without their ending, or of another one as CRATE/NAME. Where none stands, the reason says
what rejects a body that breaks the clause.

The script fails on a clause without a line, or with two; on a line without a clause, and on one with
another count; on a mutant that no line names, and on a name of none; on a line with neither mutant nor
reason; on a mutant whose old text does not stand exactly once in its file, and on one whose first line does
not name the goal that the check refuses, as `goal: GOAL of FUNCTION`. So it does on a line of
tools/wrong_bodies.tsv whose mutants or whose case are not there, and on a crate with mutants whose row in
docs/GUARANTEES.md has other counts. Usage, at the top of the repository: python3 tools/check_mutants.py
"""
import pathlib
import re
import sys
from collections import Counter
from typing import NamedTuple

TABLE = pathlib.Path("tools/mutants.tsv")
BODIES = pathlib.Path("tools/wrong_bodies.tsv")
DOCUMENT = pathlib.Path("docs/GUARANTEES.md")
DATA = pathlib.Path("crates/conformance_run/data")
ITEM = re.compile(r"^(\s*)(pub |pub\(crate\) )?(?:(?:const|final|default) )*(fn|trait|impl)\b\s*(\w*)")
CLAUSE = re.compile(r"^\s*(ensures|requires) (\w+ )?\{")


class Line(NamedTuple):
    """A line of the table."""

    number: int
    crate: str
    modules: list
    clauses: list
    count: int
    mutants: list
    reason: str


def crates():
    """The libraries and the examples: the crates of crates.txt above its tests, and those below them."""
    head, _, rest = pathlib.Path("crates.txt").read_text().partition("# tests")
    examples = rest.partition("# examples")[2]
    return re.findall(r"^(\w+)[^:\n#]*:", head + examples, re.M)


def clauses():
    """Crate, module and clause of each contract of a public function, and how often they stand."""
    found = Counter()
    for crate in crates():
        for path in sorted(pathlib.Path("crates", crate, "src").glob("**/*.rt")):
            is_open = is_public = False
            for line in path.read_text().splitlines():
                item, clause = ITEM.match(line), CLAUSE.match(line)
                if item and item.group(3) == "fn":
                    is_public = item.group(2) == "pub " or bool(item.group(1)) and is_open or path.stem == "main"
                elif item and not item.group(1):
                    is_open = item.group(3) == "trait" and item.group(2) == "pub "
                if clause and is_public:
                    name = (clause.group(2) or "-").strip()
                    name = name if clause.group(1) == "ensures" else f"requires {name}"
                    found[crate, path.stem, name] += 1
    return found


def lines():
    """The lines of the table."""
    for number, line in enumerate(TABLE.read_text().splitlines(), 1):
        if line and not line.startswith("#"):
            crate, modules, names, count, mutants, reason = line.split("\t")
            yield Line(number, crate, modules.split(", "), names.split(", "), int(count),
                       mutants.split() if mutants != "-" else [], reason)


def mutants():
    """Each mutant, as CRATE/NAME, with its file."""
    return {f"{path.parts[1]}/{path.stem}": path
            for path in sorted(pathlib.Path("crates").glob("*/must-fail/*.edit"))}


def is_of(line, clause, named):
    """Whether a clause belongs to a line."""
    crate, module, name = clause
    if line.crate != crate or module not in line.modules and line.modules != ["*"]:
        return False
    return name in line.clauses or line.clauses == ["*"] and (crate, module, name) not in named


def faults_of_lines(table):
    """Clauses without a line, or with two, and lines whose count is another."""
    found = clauses()
    named = {clause for clause in found for line in table
             if line.clauses != ["*"] and is_of(line, clause, set())}
    counts = Counter()
    for clause, count in found.items():
        owners = [line for line in table if is_of(line, clause, named)]
        counts.update({line.number: count for line in owners})
        if len(owners) != 1:
            places = ", ".join(str(line.number) for line in owners) or "none"
            yield f"{' '.join(clause)}: it has the lines {places}"
    for line in table:
        if not counts[line.number]:
            yield f"{TABLE}:{line.number}: it has no clause"
        elif counts[line.number] != line.count:
            yield f"{TABLE}:{line.number}: {counts[line.number]} clauses, and not {line.count}"


def faults_of_mutants(table):
    """Mutants that no line names, names of none, and lines with neither mutant nor reason."""
    known, named = mutants(), set()
    for line in table:
        for name in line.mutants:
            name = name if "/" in name else f"{line.crate}/{name}"
            named.add(name)
            if name not in known:
                yield f"{TABLE}:{line.number}: no mutant {name}"
        if not line.mutants and not line.reason:
            yield f"{TABLE}:{line.number}: neither mutant nor reason"
    for name in sorted(set(known) - named):
        yield f"{known[name]}: no line of {TABLE} names it"


def faults_of_edit(path):
    """No goal of a function of the crate in the first line, and old texts that do not stand once in their file."""
    source, old = None, None
    lines_of_edit = path.read_text().splitlines()
    goal = re.fullmatch(r"goal: (\S+) of (\w+)", lines_of_edit[0])
    texts = [file.read_text() for file in path.parents[1].glob("src/**/*.rt")]
    if not goal or not any(re.search(rf"\bfn {goal.group(2)}\b", text) for text in texts):
        yield f"{path}: its first line names no goal of a function there"
    for line in lines_of_edit:
        word, _, text = line.partition(":")
        text = text.removeprefix(" ")
        if word == "file":
            source = path.parents[1] / text
        elif word == "old":
            old = text
            times = source.read_text().count(text) if source.exists() else 0
            if times != 1:
                yield f"{path}: the old text stands {times} times in {source}"
        elif word != "goal" and (word != "new" or old is None):
            yield f"{path}: what is {line[:60]!r}?"


def faults_of_bodies():
    """Wrong bodies whose mutants or whose case are not there, or that have neither."""
    known = mutants()
    for number, line in enumerate(BODIES.read_text().splitlines(), 1):
        if not line or line.startswith("#"):
            continue
        _, names, table, *case = line.split("\t")
        if names == "-" and table == "-":
            yield f"{BODIES}:{number}: neither mutant nor case"
        for name in names.split() if names != "-" else []:
            if name not in known:
                yield f"{BODIES}:{number}: no mutant {name}"
        if table != "-" and not any(row.split("\t")[:3] == case for row in (DATA / table).read_text().splitlines()):
            yield f"{BODIES}:{number}: no such case in {table}"


def faults_of_document(table):
    """Crates with mutants whose row in the document has other counts, and rows of other crates."""
    wanted = set()
    for crate in {name.partition("/")[0] for name in mutants()}:
        own = [line for line in table if line.crate == crate]
        held = sum(name.startswith(f"{crate}/") for name in mutants())
        broken = sum(line.count for line in own if line.mutants)
        wanted.add(f"| `{crate}` | {sum(line.count for line in own)} | {broken} | {held} |")
    rows = set(re.findall(r"^\| `\w+` \| \d+ \| \d+ \| \d+ \|$", DOCUMENT.read_text(), re.M))
    for row in sorted(wanted ^ rows):
        yield f"{DOCUMENT}: {'no row' if row in wanted else 'another count in'} {row}"


def main():
    table = list(lines())
    faults = [*faults_of_lines(table), *faults_of_mutants(table), *faults_of_bodies(), *faults_of_document(table)]
    for path in mutants().values():
        faults += faults_of_edit(path)
    for fault in faults:
        print(fault)
    count = sum(line.count for line in table)
    broken = sum(line.count for line in table if line.mutants)
    print(f"{count} clauses, {broken} in lines with a mutant, {len(mutants())} mutants, {len(faults)} faults")
    return 1 if faults else 0


if __name__ == "__main__":
    sys.exit(main())
