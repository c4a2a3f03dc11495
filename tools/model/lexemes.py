"""Lexemes that JSON and RON share: numbers and strings. Each call answers the kind and the value
of a token and the place after it, or no kind and the place of the last character that it took."""
import re

RUN = re.compile(r"[+-]?([0-9]*)(\.([0-9]*))?([eE]-?([0-9]*))?")
PLAIN = re.compile(r'[^"\\\0]*')
FOUR = re.compile("[0-9a-fA-F]{0,4}")
ESCAPES = {"n": "\n", "r": "\r", "t": "\t", "b": "\b", "f": "\f", "0": "\0"}
LEAST, MOST = -(2**63), 2**64 - 1


def number(text, at, end):
    """A run: it is taken as long as it goes, and then it is good or it is no token."""
    run = RUN.match(text, at, end)
    whole, point, after, exponent, power = run.groups()
    if not (whole or after) or exponent and not power:  # a digit, and one in the exponent
        return None, None, run.end()
    kind, value = ("F64", run.group()) if point or exponent else integer(run.group())
    return kind, value, run.end()


def is_decimal(text):
    """Whether all of a text is an F64 of JSON, whose numbers start with a sign or a digit."""
    return text[:1] != "." and number(text, 0, len(text)) == ("F64", text, len(text))


def integer(digits):
    """The kind and the value of digits with a sign or none, or no kind where no token has the value."""
    if len(digits.lstrip("+-0")) > 20:
        return None, None
    value = int(digits)
    if digits[0] == "-":
        return ("I64", value) if value >= LEAST else (None, None)
    return ("U64", value) if value <= MOST else (None, None)


def string(text, at, end):
    """A quote, pieces, a quote. What is no string is found at the first character that fits no piece."""
    pieces, at = [], at + 1
    while True:
        plain = PLAIN.match(text, at, end)
        pieces.append(plain.group())
        at = plain.end()
        if at < end and text[at] == '"':
            return "Str", "".join(pieces), at + 1
        if at == end or at + 1 == end:  # the end of the text, a NUL, or `\` before one
            return None, None, end
        if text[at + 1] == "u":
            code, at = escaped(text, at + 2, end)
            if code is None:
                return None, None, at
            pieces.append(chr(code))
        else:
            pieces.append(ESCAPES.get(text[at + 1], text[at + 1]))
            at += 2


def escaped(text, at, end):
    """The number of the character that the digits after `\\u` stand for, and the place after them."""
    lead, at = four(text, at, end)
    if lead is None or not 0xD800 <= lead <= 0xDFFF:
        return lead, at
    if lead >= 0xDC00 or not text.startswith("\\", at, end):
        return None, at
    if not text.startswith("u", at + 1, end):
        return None, at + 1
    trail, at = four(text, at + 2, end)
    if trail is None or not 0xDC00 <= trail <= 0xDFFF:
        return None, at
    return 0x10000 + (lead - 0xD800) * 0x400 + (trail - 0xDC00), at


def four(text, at, end):
    """Four hexadecimal digits of either case."""
    digits = FOUR.match(text, at, end)
    return (int(digits.group(), 16) if len(digits.group()) == 4 else None), digits.end()
