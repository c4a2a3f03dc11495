#!/usr/bin/env python3
"""Finds what the documents cite, and fails on a name or a file that is not there.

The documents are README.md, CONTRIBUTING.md, those of docs, and the README.md of a crate. A name
in backticks is looked for among the names of the sources, of the definitions, of the proofs and of
the case tables; a path among the files. Words of Rust, of the toolchain, and of other libraries are
listed below. Numbers of cases in tables are counted, and a clause that GUARANTEES.md cites of a
function is looked for in a contract of that function.
Usage, at the top of the repository: python3 tools/check_claims.py
"""
import pathlib
import re
import sys

TICKS = re.compile(r"`([^`\n]+)`")
# Names of clauses, and what they are said to be clauses of.
CITED = re.compile(r"((?:`\w+`(?:, | and )?)+) of (the same|(?:`[\w:]+`(?:, )?)+)")
NAME = re.compile(r"[A-Za-z_][\w]*(?:-[\w]+)*")
PATH = re.compile(r"^[\w./*-]+\.(?:rt|antt|md|py|sh|svg|edit|tsv|txt|c|rs)$"
                  r"|^(?:crates|docs|src|specs|proofs)/[\w./*-]*$")
# What stands for itself: a command, a text, or an example of input.
OTHER = re.compile(r"^(?:rt|sh|python3|cargo|echo|printf|git|valgrind|out)\b|[\"'{}\[\]<>=|\\;]|^\W|^\d")
# Words of Rust, of its other crates, of the toolchain and of the formats.
KNOWN = set(
    "Some None Ok Err true false null NaN inf nan String Vec Option Box HashMap HashSet BTreeMap BTreeSet LinkedList "
    "u8 u16 u32 u64 u128 usize i8 i16 i32 i64 i128 f32 f64 bool char str Drop Clone Debug Display PartialEq Eq Hash "
    "Ord serde serde_json bincode ron toml nanoserde std anyhow thiserror impl derive trait struct enum match ghost "
    "ensures requires unsafe where use mod pub fn let crate self mut ref dyn static const type as in for if else loop "
    "while missing-field non-exhaustive-match unsatisfied-bound malloc nanoserde-derive no_std alloc Send Sync Read "
    "Write Result Rc Arc RefCell Cell Cow Default From Into TryFrom Iterator main".split()
)
# Files of another place, and the two that stand for all of their kind.
FILES = {"build.sh", "main.rs", "src/settings.rt", "X.antt", "XLaws.antt", "specs/X.antt", "specs/XLaws.antt",
         "proofs/XLaws.antt", "specs/XCodecs.antt", "specs/XImpls.antt"}


def known_names():
    """Every name of the repository's sources, definitions, proofs, programs, mutants and scripts."""
    names = set(KNOWN)
    for path in pathlib.Path(".").glob("**/*"):
        parts = path.parts
        if "out" in parts or ".git" in parts or not path.is_file():
            continue
        names.update(re.findall(r"[\w-]+", path.stem), parts)
        if path.suffix in (".rt", ".antt", ".edit", ".txt", ".py", ".sh", ".rs", ".tsv", ".c") or not path.suffix:
            try:
                names.update(NAME.findall(path.read_text()))
            except UnicodeDecodeError:
                continue
    return names


def is_known(name, names, cited):
    """Whether the name is one of these, or a part of one where the citation leaves some open."""
    if name in names or name.rstrip("s") in names:
        return True
    return ("*" in cited or name.endswith("_")) and any(name in known for known in names)


def is_there(cited):
    """Whether a file of this path, or of this end of a path, is there."""
    if pathlib.Path(cited.rstrip("/")).exists():
        return True
    return any(True for _ in pathlib.Path(".").glob("crates/*/" + cited)) or any(
        True for _ in pathlib.Path(".").glob("**/" + cited.lstrip("/")))


def faults_of(path, names):
    fenced = False
    for number, line in enumerate(path.read_text().splitlines(), 1):
        fenced = fenced != line.startswith("```")
        if fenced or line.startswith("    "):
            continue
        for cited in TICKS.findall(line):
            if PATH.match(cited):
                if cited not in FILES and not is_there(cited):
                    yield number, f"no file {cited}"
            elif not OTHER.search(cited) and " " not in cited:
                for name in NAME.findall(cited):
                    if not is_known(name, names, cited):
                        yield number, f"no name {name} in `{cited}`"


def counts_of(path):
    """The rows of tables that give a number of cases that is not there."""
    for number, line in enumerate(path.read_text().splitlines(), 1):
        cases = re.match(r"\| `(\w+\.tsv)` \| ([\d,]+) \|", line)
        if cases:
            table = pathlib.Path("crates/conformance_run/data", cases.group(1)).read_text()
            found = sum(1 for row in table.splitlines() if row and row[0] != "#")
            if found != int(cases.group(2).replace(",", "")):
                yield number, f"{found} cases in {cases.group(1)}"


def clauses():
    """The named clauses of each function, by its name alone."""
    found = {}
    for path in pathlib.Path("crates").glob("*/src/**/*.rt"):
        name = None
        for line in path.read_text().splitlines():
            function, clause = re.search(r"\bfn (\w+)", line), re.match(r"\s*ensures (\w+) \{", line)
            if function:
                name = function.group(1)
                found.setdefault(name, set())
            if clause and name:
                found[name].add(clause.group(1))
    return found


def clauses_of(path):
    """The clauses that a table cites of functions which have none of that name."""
    if path.name != "GUARANTEES.md":
        return
    known, functions = clauses(), []
    for number, line in enumerate(path.read_text().splitlines(), 1):
        for cited, of in CITED.findall(line.rpartition(" | ")[2] if line.startswith("|") else ""):
            functions = functions if of == "the same" else [
                name.split("::")[-1] for name in TICKS.findall(of)]
            there = [known[name] for name in functions if name in known]
            for clause in TICKS.findall(cited):
                if there and not any(clause in found for found in there):
                    yield number, f"no clause {clause} of {' '.join(functions)}"


def main():
    names, faults = known_names(), 0
    documents = [pathlib.Path("README.md"), pathlib.Path("CONTRIBUTING.md")]
    for folder in ("docs/*.md", "crates/*/README.md"):
        documents += sorted(pathlib.Path(".").glob(folder))
    for path in documents:
        for number, fault in [*faults_of(path, names), *counts_of(path), *clauses_of(path)]:
            print(f"{path}:{number}: {fault}")
            faults += 1
    print(f"{faults} claims that cite what is not there")
    return 1 if faults else 0


if __name__ == "__main__":
    sys.exit(main())
