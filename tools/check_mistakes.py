#!/usr/bin/env python3
"""Fails where docs/USER_TYPES.md or docs/NESTED_TYPES.md gives a message of `derive` that its source does
not have.

The messages are the second column of the tables that begin `| You wrote | `derive` says |`. What a
message is about, in backticks at its beginning, is left out: the rest is to stand in a text of
derive_source, derive_syntax, derive_impls or derive_text, from its beginning. Usage, at the top of the
repository:
python3 tools/check_mistakes.py
"""
import pathlib
import re
import sys

DOCUMENTS = [pathlib.Path("docs", name) for name in ("USER_TYPES.md", "NESTED_TYPES.md")]
HEAD = "| You wrote | `derive` says |"
CRATES = ["derive_source", "derive_syntax", "derive_impls", "derive_text"]
TEXT = re.compile(r'"((?:\\.|[^"\\])*)"', re.S)


def texts():
    """The string literals of the sources, as they are printed."""
    found = set()
    for crate in CRATES:
        for path in pathlib.Path("crates", crate, "src").glob("**/*.rt"):
            for text in TEXT.findall(path.read_text()):
                found.add(re.sub(r"\\\n\s*", "", text).replace('\\"', '"'))
    return found


def messages(document):
    """Each message of a document, with the number of its line."""
    lines = document.read_text().splitlines()
    for number, line in enumerate(lines[lines.index(HEAD) + 2:], lines.index(HEAD) + 3):
        if not line.startswith("| "):
            return
        yield number, line.split(" | ")[-1].removesuffix(" |")


def main():
    known, count, faults = texts(), 0, 0
    found = [(document, *found) for document in DOCUMENTS for found in messages(document)]
    for document, number, message in found:
        count += 1
        words = re.sub(r"^`[^`]*` ", "", message)
        if not any(text.startswith(words) for text in known):
            print(f"{document}:{number}: derive does not say: {words}")
            faults += 1
    print(f"{count} messages, {faults} that derive does not say")
    return 1 if faults or not count else 0


if __name__ == "__main__":
    sys.exit(main())
