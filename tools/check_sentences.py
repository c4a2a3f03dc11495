#!/usr/bin/env python3
"""Fails on a sentence of more than 40 words, and on a document that is too long.

Words are counted outside of tables, headings and code; a piece of code within a sentence is one
word. A document may be a quarter longer than its plan. Usage, at the top of the repository:
python3 tools/check_sentences.py [-v]
With -v the length of each document is printed.
"""
import pathlib
import re
import sys

MOST = 40
# The lines that each document is planned for; none where its length is that of its subject.
PLANNED = {
    "README.md": 102,
    "CONTRIBUTING.md": 115,
    "docs/ARCHITECTURE.md": 182,
    "docs/DECISIONS.md": 178,
    "docs/DIFFERENCES.md": None,
    "docs/ERRORS.md": None,
    "docs/FORMATS.md": None,
    "docs/GUARANTEES.md": 228,
    "docs/GUIDE.md": 340,
    "docs/NESTED_TYPES.md": 100,
    "docs/SECURITY.md": 72,
    "docs/SPEED.md": None,
    "docs/USER_TYPES.md": 230,
}


def paragraphs(text):
    """The paragraphs and items of lists of a document, each with the number of its first line."""
    fenced, start, words = False, 0, []
    for number, line in enumerate(text.splitlines() + [""], 1):
        if line.startswith("```"):
            fenced = not fenced
        breaks = not line.strip() or line.startswith(("```", "#", "|", "    ", "<!--")) or fenced
        item = re.match(r"\s*(?:[-*]|\d+\.) ", line)
        if (breaks or item) and words:
            yield start, " ".join(words)
            words = []
        if not breaks:
            start = start if words else number
            words.append(line[item.end():] if item else line.strip())


def sentences(text):
    """The sentences of a paragraph, with each piece of code as one word."""
    text = re.sub(r"`[^`]*`", "code", text)
    text = re.sub(r"!?\[([^\]]*)\]\([^)]*\)", r"\1", text)
    return re.split(r"(?<=[.!?])[)*\"]*\s+(?=[A-Z`*\"(\d])|(?<=[.!?]) (?=code)", text)


def main():
    faults = 0
    for name, planned in PLANNED.items():
        text = pathlib.Path(name).read_text()
        length = len(text.splitlines())
        if "-v" in sys.argv:
            print(f"{name}: {length} lines" + (f", planned {planned}" if planned else ""))
        if planned and length > planned * 5 // 4:
            print(f"{name}: {length} lines, planned {planned}")
            faults += 1
        for number, paragraph in paragraphs(text):
            for sentence in sentences(paragraph):
                count = len(re.findall(r"[\w'’.-]*\w[\w'’.-]*", sentence))
                if count > MOST:
                    print(f"{name}:{number}: {count} words: {' '.join(sentence.split()[:8])} ..")
                    faults += 1
    print(f"{faults} sentences or documents that are too long")
    return 1 if faults else 0


if __name__ == "__main__":
    sys.exit(main())
