"""Characters and texts as Rust's debug form shows them, in the names of tokens.

A character that is newer than the tables of this Python is shown as one that is not printed.
"""
import unicodedata

ESCAPES = {"\0": "\\0", "\t": "\\t", "\r": "\\r", "\n": "\\n", "\\": "\\\\"}
# Characters of other categories than Mn and Me that extend the one before them.
EXTEND = {0x9BE, 0x9D7, 0xB3E, 0xB57, 0xBBE, 0xBD7, 0xCC2, 0xCD5, 0xCD6, 0xD3E, 0xD57, 0xDCF, 0xDDF, 0x1B35, 0x302E,
          0x302F, 0xFF9E, 0xFF9F, 0x1133E, 0x11357, 0x114B0, 0x114BD, 0x115AF, 0x11930, 0xCC0, 0xCC7, 0xCC8, 0xCCA,
          0xCCB, 0x1715, 0x1734, 0x1B3B, 0x1B3D, 0x1B43, 0x1B44, 0x1BAA, 0x1BF2, 0x1BF3, 0xA953, 0xA9C0, 0x111C0,
          0x11235, 0x1134D, 0x116B6, 0x1193D, 0x16FF0, 0x16FF1, 0x1D165, 0x1D166, *range(0x1D16D, 0x1D173)}


def shown(text, quote):
    """A text, or a character as one, between quotes of this kind."""
    return quote + "".join(piece(char, quote) for char in text) + quote


def piece(char, quote):
    """A character between such quotes: what cannot be printed alone is `\\u{..}`."""
    if char in ESCAPES:
        return ESCAPES[char]
    if char == quote:
        return "\\" + char
    extends = unicodedata.category(char) in ("Mn", "Me") or ord(char) in EXTEND
    return f"\\u{{{ord(char):x}}}" if extends or not char.isprintable() else char
