#!/usr/bin/env python3
"""Fails on a line of tools/model that no row of the tables runs: a rule of the pages without a case.

The rows are those of crates/conformance_run/data, tables of short rows first, until each line ran.
check_tables.py compares the answers. The last line says how many lines the model has, and how many of
them have code. A model of too many lines to be read beside the pages fails too.
Usage, at the top of the repository: python3 tools/check_model.py
"""
import pathlib
import sys
import types

TOOLS = pathlib.Path(__file__).resolve().parent
sys.path.insert(0, str(TOOLS))
sys.setrecursionlimit(20_000)
MODEL = TOOLS / "model"
DATA = TOOLS.parent / "crates/conformance_run/data"
MOST = 1500  # lines: it is to be read
# What no row can run, and why.
NO_ROW = {'raise BinFault("Memory", at, 0, len(data))': "out of memory, with which the program ends"}

left = {}  # by the code of a function, the lines that did not run
done = {}  # codes of which none is left, or which are not the model's


def lines_of(code):
    """The lines of a code and of those in it, each with the code that it is in."""
    for _, _, line in code.co_lines():
        if line and line != code.co_firstlineno:
            yield code, line
    for inner in code.co_consts:
        if isinstance(inner, types.CodeType):
            yield from lines_of(inner)


def watch(frame, _event, _argument):
    """Follows the lines of a function of the model until each of them ran."""
    code = frame.f_code
    if id(code) in done:
        return None
    if not left.get(key_of(code)):
        done[id(code)] = code
        return None
    return note


def note(frame, event, _argument):
    """Notes a line that runs."""
    if event == "line":
        left[key_of(frame.f_code)].discard(frame.f_lineno)
    return note


def key_of(code):
    """A code by its file and its first line."""
    return code.co_filename, code.co_name, code.co_firstlineno


def mean_length(path):
    """How long a row is. Short ones come first: what they run is no longer followed in the long ones."""
    data = path.read_bytes()
    return len(data) / data.count(b"\n")


def main():
    total = 0
    for path in sorted(MODEL.glob("*.py")):
        text = path.read_text(encoding="utf-8")
        lines = text.splitlines()
        total += len(lines)
        for code, line in lines_of(compile(text, str(path), "exec")):
            if lines[line - 1].strip() not in NO_ROW:
                left.setdefault(key_of(code), set()).add(line)
    count = sum(map(len, left.values()))
    sys.settrace(watch)
    from model import answer, cases
    for path in sorted(DATA.glob("*.tsv"), key=mean_length):
        for _, fields in cases.rows(path) if any(left.values()) else ():
            try:
                answer.answer(*fields[:2], cases.unescape(fields[2]))
            except cases.Malformed:
                pass
    sys.settrace(None)
    found = sorted((file, line) for (file, _, _), lines in left.items() for line in lines)
    for file, line in found:
        print(f"{pathlib.Path(file).relative_to(TOOLS.parent)}:{line} is run by no row")
    if total >= MOST:
        print(f"the model has {total} lines, and is to have less than {MOST}")
    print(f"{total} lines, of which {count} have code and {len(found)} are run by no row")
    return 1 if found or total >= MOST else 0


if __name__ == "__main__":
    sys.exit(main())
