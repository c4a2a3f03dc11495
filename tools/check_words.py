#!/usr/bin/env python3
"""Fails on a word in a name or a comment for which the field has another one.

A name is split at its underscores, hyphens and capitals. Names of the standard library and of the
published surface are allowed, each listed below. Usage, at the top of the repository:
python3 tools/check_words.py
"""
import pathlib
import re
import sys

# The word that stands in a name or a comment, and the field's word.
WORDS = {
    "spell": "encode", "spells": "encodes", "spelled": "encoded", "spelling": "encoding",
    "spellings": "encodings", "writings": "canonical encodings", "refuse": "reject",
    "refuses": "rejects", "refused": "rejected", "refusal": "error", "refusals": "errors",
    "told": "reported", "front": "prefix", "fronts": "prefixes", "behind": "after",
    "marks": "punctuation", "tied": "agrees", "stays": "is unchanged", "kept": "unchanged",
    "house": "codebase",
}
# Only in names: in a sentence these are ordinary English.
NAMES = {"writing": "canonical", "live": "remaining", "mark": "punctuator", "ties": "agrees",
         "room": "capacity", "format": "codec", "keep": "rollback"}
# Names of the standard library, of Rust, and of the published surface.
ALLOWED = set(
    "Refused OnRefused ConnectionRefused push_front pop_front front_len tied_itself tied_back "
    "Format format format_args room formats Appends-kept unknown_are_kept is_sorted_front "
    "ensures.front Kept".split()
)
NAME = re.compile(r"(?<![\w'])[A-Za-z_][\w']*(?:-[\w']+)*")
PART = re.compile(r"[A-Z]+(?![a-z])|[A-Z]?[a-z]+")
COMMENT = {".rt": re.compile(r"//[/!]?(.*)$"), ".antt": re.compile(r"--(.*)$")}
TEXT = re.compile(r'"(?:\\.|[^"\\])*"')


def faults_of(path):
    """The line, the place's kind, and the name or word that has another."""
    for number, line in enumerate(path.read_text().splitlines(), 1):
        line = TEXT.sub('""', line)
        comment = COMMENT[path.suffix].search(line)
        code = line[: comment.start()] if comment else line
        code = code.replace(".ensures.front", ".ensures.prefix")
        for name in NAME.findall(code):
            parts = {part.lower() for part in PART.findall(name)}
            if name not in ALLOWED and parts & (WORDS.keys() | NAMES.keys()):
                yield number, "name", name
        if comment:
            words = re.findall(r"[A-Za-z]+", re.sub(r"`[^`]*`", "", comment.group(1)))
            for word in words:
                if word.lower() in WORDS:
                    yield number, "comment", word


def main():
    faults = 0
    for path in sorted(pathlib.Path("crates").glob("*/*/**/*")):
        if path.suffix in COMMENT and "out" not in path.parts:
            for number, kind, name in faults_of(path):
                print(f"{path}:{number}: {kind} {name}")
                faults += 1
    print(f"{faults} words that have another")
    return 1 if faults else 0


if __name__ == "__main__":
    sys.exit(main())
