"""The tokens of a text: of clauses and definitions, and of Rust code.

A token is a kind and its text; the texts of all tokens are the whole text again. The kinds are
space, comment, string, number, word, field (a name after a dot that stands close), dot and symbol.
"""
import re

WORD = r"[^\W\dλ][\w']*(?:-[\w']+)*"
RUST_WORD = r"'?[^\W\d]\w*"
LOGIC = re.compile(rf"""
    (?P<comment>--[^\n]*|//[^\n]*)
    |(?P<string>"(?:[^"\\]|\\.)*")
    |(?P<space>\s+)
    |(?P<field>(?<=[\w)⟧'])\.(?:\d+|{WORD}))
    |(?P<word>«[^»]*»|{WORD})
    |(?P<number>\d\w*)
    |(?P<symbol>[(){{}}\[\],;.λ⟦⟧]|[^\w\s(){{}}\[\],;.λ⟦⟧"]+)
    """, re.X)
RUST = re.compile(rf"""
    (?P<comment>//[^\n]*)
    |(?P<string>b?"(?:[^"\\]|\\.)*"|b?'(?:[^'\\\n]|\\[^\n]+?)')
    |(?P<space>\s+)
    |(?P<word>{RUST_WORD})
    |(?P<number>\d[\w.]*)
    |(?P<symbol>::|->|.)
    """, re.X)
OPEN, CLOSE = "([{⟦", ")]}⟧"


def tokens_of(text, pattern=LOGIC):
    """The tokens of a text, as pairs of kind and text."""
    return [(match.lastgroup, match.group()) for match in pattern.finditer(text)]


def closing(tokens, at):
    """The index of the bracket that closes the one at this index, or the end."""
    depth = 0
    for index in range(at, len(tokens)):
        kind, text = tokens[index]
        if kind == "symbol":
            depth += (text in OPEN) - (text in CLOSE)
            if depth == 0:
                return index
    return len(tokens)


def joined(tokens):
    """The text of tokens."""
    return "".join(text for _, text in tokens)


def without_comments(text):
    """A definition's text with its comments blanked out."""
    return re.sub(r"--[^\n]*", lambda match: " " * len(match.group()), text)
