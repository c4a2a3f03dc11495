#!/usr/bin/env python3
"""Runs crates/example_document, as `rt ci` built it, over real files of JSON.

    find /usr -name '*.json' | python3 tools/measure/real_documents.py

Each file of the list that is UTF-8 is read by the program and by Python. What is written, on one line
and indented, must have Python's value, with names in their order and decimals by their texts, and the
indented text must be what Python writes with two spaces. Prints counts, and each file that differs; of
those that the program alone refuses, how many for which words. Fails where a file differs, or none was
read.
"""
import json
import os
import pathlib
import re
import subprocess
import sys
from collections import Counter

TOP = pathlib.Path(__file__).resolve().parent.parent.parent
PROGRAM = TOP / "crates/example_document/out/example_document"


MARK = "\0decimal "  # before the text of a decimal, which Python would write anew
NUMBERED = re.compile(r'"\\u0000[0-9]+ ')  # before a name, so that Python keeps each that stands twice


def value(text):
    """What Python reads, where an object is a list of names and values; none where it reads none."""
    try:
        return [json.loads(text, parse_float=lambda decimal: MARK + decimal,
                           object_pairs_hook=lambda pairs: ("object", pairs))]
    except (ValueError, RecursionError):
        return None


def numbered(pairs):
    """An object by its names, each with its place before it."""
    return {f"\0{place} {name}": inner for place, (name, inner) in enumerate(pairs)}


def lines(text):
    """What Python writes with two spaces, with each decimal as it stands."""
    document = json.loads(text, parse_float=lambda decimal: MARK + decimal, object_pairs_hook=numbered)
    written = json.dumps(document, ensure_ascii=False, indent=2) + "\n"
    return re.sub(r'"\\u0000decimal ([^"]*)"', r"\1", NUMBERED.sub('"', written))


def answer(data):
    """What comes of a file, in a word or two."""
    try:
        text = data.decode()
    except UnicodeDecodeError:
        return "not UTF-8"
    wanted = value(text)
    written = []
    for word in ("compact", "indent"):
        ran = subprocess.run([PROGRAM, word], input=data, capture_output=True)
        if ran.returncode:
            words = ran.stderr.decode().split("\n")[0].split(": ", 1)[-1]
            return f"refused here alone: {words.strip()}" if wanted else "refused by both"
        written.append(ran.stdout.decode())
    if not wanted:
        return "read here alone"
    same = all(value(one) == wanted for one in written)
    return "read to the same" if same and written[1] == lines(text) else "DIFFERS"


def main():
    counts = Counter()
    for path in sys.stdin.read().splitlines():
        if os.path.isfile(path):
            came = answer(pathlib.Path(path).read_bytes())
            counts[came] += 1
            if came in ("DIFFERS", "read here alone"):
                print(f"{path}: {came}")
    for came, count in counts.most_common():
        print(f"{count:,} {came}")
    return counts["DIFFERS"] > 0 or not counts["read to the same"]


sys.exit(main())
