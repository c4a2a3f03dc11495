"""Reads the items of a .rt file: their comments, heads, clauses and members."""
import re
import textwrap

HIDDEN = re.compile(
    r"""//[^\n]*|r#".*?"#|b?"(?:[^"\\]|\\.)*"|b?'(?:[^'\\\n]|\\(?:x\w\w|u\{\w+\}|.))'""", re.S)
CLAUSE_HEAD = re.compile(r"\b(requires|ensures)\b(?:\s+([\w']+))?\s*$")
KIND = re.compile(
    r"(?P<public>pub(?:\([^)]*\))?\s+)?(?:(?:final|default|const|unsafe)\s+(?=fn\b|final\b|const\b))*"
    r"(?P<kind>trait|impl|struct|enum|union|fn|const|static|type|use|ghost|mod|macro_rules!)\b")


class Item:
    """An item as it stands: its comment, attributes, head, body and the members inside."""

    def __init__(self, kind, public, docs, attributes, head, body):
        self.kind, self.public, self.docs, self.attributes = kind, public, docs, attributes
        self.head, self.body, self.members = head, body, []
        name = re.search(rf"\b{kind}\s+(\w+)", head)
        self.name = name.group(1) if name else ""

    def clauses(self):
        """The head of a function in parts: its signature, and then each clause with its name."""
        hidden, parts, at, depth = masked(self.head), [], 0, 0
        for index, character in enumerate(hidden):
            if character == "{" and depth == 0:
                before = CLAUSE_HEAD.search(hidden[at:index])
                if before:
                    start = at + before.start()
                    end = matching(hidden, index) + 1
                    parts.append((before.group(1), before.group(2) or "", start, end))
                    at = end
            if index >= at:
                depth += (character in "([{") - (character in ")]}")
        return parts


def clause_name(number, word, name):
    """The part of an anchor for a clause, by its place among the others, its word and its name."""
    return (name or word) + ("" if name or number == 0 else f"-{number}")


def masked(text):
    """The text with comments, strings and characters blanked out, so that brackets can be paired."""
    return HIDDEN.sub(lambda match: re.sub(r"[^\n]", " ", match.group()), text)


def matching(hidden, at):
    """The index of the bracket that closes the one at this index."""
    depth = 0
    for index in range(at, len(hidden)):
        depth += (hidden[index] in "([{") - (hidden[index] in ")]}")
        if depth == 0:
            return index
    return len(hidden) - 1


def docs_before(text, hidden, at):
    """What stands before an item: its doc lines, its attributes and where it begins."""
    docs, attributes, comments = [], [], []
    while True:
        space = re.compile(r"\s*").match(text, at)
        if "\n\n" in space.group():
            comments = []
        at = space.end()
        if text.startswith("//", at):
            line = re.compile(r"[^\n]*").match(text, at)
            is_doc = re.match(r"///(?!/) ?(.*)", line.group())
            (docs if is_doc else comments).append(is_doc.group(1) if is_doc else line.group())
            at = line.end()
        elif re.compile(r"#!?\[").match(hidden, at):
            end = matching(hidden, hidden.index("[", at)) + 1
            attributes.append(text[at:end])
            at = end
        else:
            return docs, attributes, at


def end_of_head(hidden, at, kind):
    """Where the head of an item ends, and whether a body follows."""
    depth, since = 0, at
    while at < len(hidden):
        character = hidden[at]
        if character == ";" and depth == 0:
            return at, False
        if character == "{" and depth == 0:
            if kind not in ("use", "ghost", "const", "static") \
                    and not CLAUSE_HEAD.search(hidden[since:at]):
                return at, True
            at = matching(hidden, at)
            since = at + 1
        elif character in "([":
            at = matching(hidden, at)
        at += 1
    return at, False


def items_of(text):
    """The items of a text, with the members of traits, impls and modules."""
    hidden, found, at = masked(text), [], 0
    while True:
        docs, attributes, at = docs_before(text, hidden, at)
        match = KIND.match(hidden, at)
        if not match:
            if at >= len(text):
                return found
            at = hidden.find("\n", at) if hidden.find("\n", at) >= 0 else len(text)
            continue
        end, has_body = end_of_head(hidden, at, match["kind"])
        indent = at - (text.rfind("\n", 0, at) + 1)
        head = textwrap.dedent(" " * indent + text[at:end].rstrip())
        close = matching(hidden, end) if has_body else end
        item = Item(match["kind"], (match["public"] or "").strip(), docs, attributes, head,
                    text[end + 1:close] if has_body else "")
        if has_body and item.kind in ("trait", "impl", "mod"):
            item.members = items_of(item.body)
        found.append(item)
        at = close + 1


def module_docs(text):
    """The comment of a file."""
    return [line[3:].removeprefix(" ") for line in text.splitlines() if line.startswith("//!")]


def parts_of_body(body):
    """The fields of a struct, or the variants of an enum: comment lines and text of each."""
    hidden, parts, at = masked(body), [], 0
    while True:
        docs, _, at = docs_before(body, hidden, at)
        if at >= len(body):
            return parts
        end, depth, angles = at, 0, 0
        while end < len(body) and (hidden[end] != "," or depth or angles):
            depth += (hidden[end] in "([{") - (hidden[end] in ")]}")
            if depth == 0:
                angles += (hidden[end] == "<") - (hidden[end] == ">" and hidden[end - 1] != "-")
            end += 1
        parts.append((docs, body[at:end].strip()))
        at = end + 1
