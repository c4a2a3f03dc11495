#!/usr/bin/env python3
"""Compares the snippets of documents, and the examples of doc comments, with the sources and the
stored output.

    ```rust    stands in one file of crates/example_*/src or test_nested_defaults, or of tools/walk
    ```antt    stands in one file of crates/example_*/specs
    ```toml    stands in the stored input of a program, crates/*/stdin
    ```json    stands in tools/walk/stdin
    ```text    stands in the stored output of a program (crates/*/stdout) or of tools/walk.sh, is the
               answer of a case of crates/conformance_run/data, or is a text that a test of
               crates/test_* expects
    ```sh      is not compared

An example in a doc comment of crates/*/src, between ``` and ```, stands in one file of
crates/example_*/src.

Lines are compared one by one, after the common indent and blanks at their ends are taken off. A line
`// ..` or `-- ..` leaves lines of the source out; what follows it stands further down in the same
file. Any other fence, or none, is a fault. Usage, at the top of the repository:
python3 tools/check_snippets.py [-v]
With -v each snippet is printed with the file that it stands in.
"""
import pathlib
import re
import sys

DOCUMENTS = ["README.md", "docs/GUIDE.md", "docs/USER_TYPES.md", "docs/NESTED_TYPES.md"]
CUTS = {"// ..", "-- .."}
SOURCES = {
    "rust": ["crates/example_*/src/*.rt", "crates/test_nested_defaults/src/*.rt", "tools/walk/*.rt.txt"],
    "antt": ["crates/example_*/specs/*.antt"],
    "toml": ["crates/*/stdin"],
    "json": ["tools/walk/stdin"],
    "text": ["crates/*/stdout", "tools/walk/stdout", "tools/walk/first_stdout", "tools/walk/fault.txt",
             "crates/conformance_run/data/*.tsv", "crates/test_*/src/*.rt"],
}
STRING = re.compile(r'"((?:[^"\\]|\\.)*)"')
ESCAPES = {"n": "\n", "t": "\t", "\\": "\\", '"': '"', "'": "'", "0": "\0", "r": "\r"}


def snippets(text):
    """Each fenced block: the number of its first line, its language, and its lines."""
    language, start, lines = None, 0, []
    for number, line in enumerate(text.splitlines(), 1):
        if line.startswith("```"):
            if language is None:
                language, start, lines = line[3:].strip(), number + 1, []
            else:
                yield start, language, lines
                language = None
        elif language is not None:
            lines.append(line)


def examples(text):
    """Each fenced block of a doc comment: the number of its first line, and its lines."""
    start, lines = None, []
    for number, line in enumerate(text.splitlines(), 1):
        comment = re.match(r"\s*///? ?(.*)", line)
        if comment is None:
            start = None
        elif comment.group(1).startswith("```"):
            if start is None:
                start, lines = number + 1, []
            else:
                yield start, lines
                start = None
        elif start is not None:
            lines.append(comment.group(1))


def without_indent(lines):
    """The lines without the indent that all of them share, and without blanks at their ends."""
    lines = [line.rstrip() for line in lines]
    indents = [len(line) - len(line.lstrip()) for line in lines if line]
    shared = min(indents, default=0)
    return [line[shared:] for line in lines]


def parts(lines):
    """The runs of lines between the cuts, each with its own indent taken off."""
    runs = [[]]
    for line in lines:
        if line.strip() in CUTS:
            runs.append([])
        else:
            runs[-1].append(line)
    runs = [without_indent(run) for run in runs]
    return [trimmed for trimmed in map(trim, runs) if trimmed]


def trim(run):
    """The run without empty lines at either end."""
    while run and not run[0]:
        run = run[1:]
    while run and not run[-1]:
        run = run[:-1]
    return run


def after(run, lines, start):
    """The place after the first standing of a run in the lines, from a place on, or none."""
    for at in range(start, len(lines) - len(run) + 1):
        if without_indent(lines[at:at + len(run)]) == run:
            return at + len(run)
    return None


def stands(runs, lines):
    """Whether the runs stand in the lines, one after the other."""
    at = 0
    for run in runs:
        at = after(run, lines, at)
        if at is None:
            return False
    return True


def answers(path, language):
    """The texts that a file holds: a table's answers, a test's strings, or the file itself."""
    text = path.read_bytes().decode("utf-8", "replace")
    if path.suffix == ".tsv":
        fields = [line.split("\t") for line in text.splitlines() if not line.startswith("#")]
        for row in fields:
            if len(row) > 4:
                answer = re.sub("%([0-9A-F]{2})", lambda m: chr(int(m.group(1), 16)), row[4])
                yield re.sub(r"^\d: ", "", answer) if row[0] == "run" else answer
    elif path.suffix == ".rt" and language == "text":
        for string in STRING.findall(text):
            yield re.sub(r"\\(.)", lambda m: ESCAPES.get(m.group(1), m.group(1)), string)
    else:
        yield text


def place_of(language, lines):
    """The file that a snippet stands in, or none."""
    runs = parts(lines)
    for pattern in SOURCES[language]:
        for path in sorted(pathlib.Path(".").glob(pattern)):
            whole = path.suffix == ".tsv"
            for text in answers(path, language):
                found = text.splitlines()
                if whole and runs == [trim(without_indent(found))] or not whole and stands(runs, found):
                    return path
    return None


def all_snippets():
    """Each snippet of the documents and of the doc comments: its file, line, language and lines."""
    for document in DOCUMENTS:
        for number, language, lines in snippets(pathlib.Path(document).read_text()):
            if language != "sh":
                yield document, number, language, lines
    for path in sorted(pathlib.Path(".").glob("crates/*/src/**/*.rt")):
        for number, lines in examples(path.read_text()):
            yield path, number, "rust", lines


def main():
    count, faults = 0, 0
    for document, number, language, lines in all_snippets():
        count += 1
        place = place_of(language, lines) if language in SOURCES else None
        if place is None:
            print(f"{document}:{number}: this {language or 'unnamed'} snippet stands nowhere")
            faults += 1
        elif "-v" in sys.argv:
            print(f"{document}:{number}: {place}")
    print(f"{count} snippets, {faults} that stand nowhere")
    return 1 if faults else 0


if __name__ == "__main__":
    sys.exit(main())
