#!/usr/bin/env python3
"""Compares crates/example_lines and the model with the rows of crates/example_lines/data/lines.tsv.

Each row is a stream of lines and what the program writes for it. The model reads a line as the
program's type, from a text that is that line and nothing else, and the rest is said here: where
lines end, which are blank, which are too long, and which are no text. Prints each row that one of
the two answers otherwise, and fails; the program is the one that `rt ci` built."""
import os
import subprocess
import sys

TOOLS = os.path.dirname(os.path.abspath(__file__))
sys.path.insert(0, TOOLS)
from model.answer import answer
from model.cases import rows, unescape

CRATE = os.path.join(TOOLS, "..", "crates", "example_lines")
PROGRAM = os.path.join(CRATE, "out", "example_lines")
TYPE = "(String, u8)"
LIMIT = 1000
SHOWN = 200


def lines_of(stream):
    """The lines, without their line feeds: what follows the last one is a line if it is not empty."""
    lines = stream.split(b"\n")
    return lines if lines[-1] else lines[:-1]


def answer_of(number, line):
    """What stands in the output for a line."""
    if len(line) > LIMIT:
        return f"line {number} is longer than the limit\n".encode()
    if not line.strip(b" \t\r"):
        return b""
    try:
        line.decode()
    except UnicodeDecodeError:
        return f"line {number} is not UTF-8\n".encode()
    outcome = known(line)
    text = unescape(outcome.answer)
    if outcome.verdict == "error":
        text = text.replace(b"line:1 ", f"line:{number} ".encode())
    return text + b"\n"


def known(line, answers={}):
    """The model's answer for a text, worked out once."""
    if line not in answers:
        answers[line] = answer("json-whole", TYPE, line)
    return answers[line]


def main():
    if not os.path.exists(PROGRAM):
        sys.exit("check_lines.py: crates/example_lines/out/example_lines is not there; rt ci builds it")
    faults, count = 0, 0
    for place, fields in rows(os.path.join(CRATE, "data", "lines.tsv")):
        stream, output = (unescape(field) for field in fields)
        count += 1
        lines = lines_of(stream)
        model = b"".join(answer_of(number, line) for number, line in enumerate(lines, 1))
        program = subprocess.run([PROGRAM], input=stream, capture_output=True)
        answers = {"the program": program.stdout + program.stderr, "the model": model}
        for who, came in answers.items():
            if came != output:
                faults += 1
                print(f"{place}: {who} answers {came[:SHOWN]!r}, not {output[:SHOWN]!r}")
    print(f"{count} rows, {faults} faults")
    return faults != 0


sys.exit(main())
