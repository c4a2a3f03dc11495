#!/usr/bin/env python3
"""Compares crates/example_document with the rows of crates/example_document/data/documents.tsv.

A row has the program's words, its input, its status, and what it prints: standard output, or the
first line of standard error. The row is judged by the program that `rt ci` built, and by the model's
documents. Where Python's own `json` reads the input too, what is written is read by it to the same
value. Prints what differs, and fails.
"""
import json
import os
import subprocess
import sys

TOOLS = os.path.dirname(os.path.abspath(__file__))
sys.path.insert(0, TOOLS)
from model import type_tree, values
from model.cases import rows, unescape, words_of
from model.json_format import JsonForm, JsonReader
from model.reader import Fault

CRATE = os.path.join(TOOLS, "..", "crates", "example_document")
PROGRAM = os.path.join(CRATE, "out", "example_document")
DATA = os.path.join(CRATE, "data", "documents.tsv")
JSON = type_tree.parse("Json")
LIST, OBJECT = 6, 7  # variants of a document
sys.setrecursionlimit(20000)
SHOWN = 200


class Nothing(Exception):
    """A pointer leads nowhere."""


def whole(text, limit=JSON.limit):
    """The document of at most so many levels that a whole text is."""
    return values.deserialize(JsonReader(text), JSON._replace(levels=limit, limit=limit), True)


def compact(document):
    """The canonical text."""
    return values.write(JsonForm, JSON, document)


def indented(document, level=1):
    """The text with each item and entry on a line of its own, two spaces to a level."""
    variant, (held,) = document
    if variant not in (LIST, OBJECT) or not held:
        return compact(document)
    opened, closed = "{}" if variant == OBJECT else "[]"
    texts = [f"{JsonForm.quoted(part[0])}: {indented(part[1], level + 1)}" if variant == OBJECT
             else indented(part, level + 1) for part in held]
    lines = ",".join("\n" + "  " * level + text for text in texts)
    return opened + lines + "\n" + "  " * (level - 1) + closed


def place(document, token):
    """Where a token of a pointer leads: the place of an item, or of the last entry of that name."""
    variant, (held,) = document
    if variant == OBJECT:
        names = [name.replace("~", "~0").replace("/", "~1") for name, _ in held]
        if token in names:
            return len(names) - 1 - names[::-1].index(token)
    elif variant == LIST and token in map(str, range(len(held))):
        return int(token)
    raise Nothing


def found(document, pointer):
    """What a pointer leads to."""
    if pointer and not pointer.startswith("/"):
        raise Nothing
    for token in pointer.split("/")[1:]:
        variant, (held,) = document
        inner = held[place(document, token)]
        document = inner[1] if variant == OBJECT else inner
    return document


def replaced(document, tokens, new):
    """The document with another one in the place that a pointer's tokens lead to."""
    if not tokens:
        return new
    at, (variant, (held,)) = place(document, tokens[0]), document
    inner = held[at]
    if variant == OBJECT:
        inner = inner[0], replaced(inner[1], tokens[1:], new)
    else:
        inner = replaced(inner, tokens[1:], new)
    return variant, ((*held[:at], inner, *held[at + 1:]),)


def shown(text, line, column):
    """The character where reading stopped, its line and its column, both counted from 1."""
    lines = text.split("\n")
    if column == 0 and line > 0:  # the line feed before this line
        return f"{line}:{len(lines[line - 1]) + 1}"
    return f"{line + 1}:{max(min(len(lines[line]) + 1, column), 1)}"


def answer_of(words, text):
    """The status, and what is printed."""
    try:
        word, *more = words
        document = whole(text, int(more[0])) if word == "within" else whole(text)
        if word == "get":
            document = found(document, more[0])
        if word == "set":
            found(document, more[0])
            document = replaced(document, more[0].split("/")[1:], whole(more[1]))
        return "0", (indented if word == "indent" else compact)(document) + "\n"
    except Fault as fault:
        message, *place = fault.args
        return "1", f"input:{shown(text, *place)}: {message}\n"
    except Nothing:
        return "1", f"Error: nothing at {more[0]}\n"


def of_program(words, data):
    """The same of the program."""
    ran = subprocess.run([PROGRAM, *words], input=data, capture_output=True)
    printed = ran.stderr.splitlines(keepends=True)[0] if ran.returncode else ran.stdout
    return str(ran.returncode), printed.decode()


def by_python(text):
    """The value as Python's own reader has it, or none where it reads none."""
    try:
        return [json.loads(text, object_pairs_hook=lambda pairs: ("object", pairs))]
    except ValueError:
        return None


def main():
    if not os.path.exists(PROGRAM):
        sys.exit("check_documents.py: crates/example_document/out/example_document is not there; rt ci builds it")
    faults, count = 0, 0
    for where, (words, data, status, output) in rows(DATA):
        words, data = words_of(words), unescape(data)
        wanted = status, unescape(output).decode()
        answers = {"the program": of_program(words, data), "the model": answer_of(words, data.decode())}
        count += 1
        for who, came in answers.items():
            if came != wanted:
                faults += 1
                print(f"{where}: {who} answers {str(came)[:SHOWN]}, not {str(wanted)[:SHOWN]}")
        if status == "0" and words[0] in ("compact", "indent", "within") and by_python(data):
            if by_python(data) != by_python(wanted[1]):
                faults += 1
                print(f"{where}: Python reads another value from what is written")
    print(f"{count} rows, {faults} faults")
    return faults != 0


if __name__ == "__main__":
    sys.exit(main())
