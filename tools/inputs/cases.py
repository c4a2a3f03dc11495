"""A case drawn at random: the columns FORMAT, TYPE and INPUT of a row. Its type is one that a table names."""
import pathlib

from model.type_tree import has, parse
from model.words import TYPES as WORDS

from . import binary_code, damage, states, texts, toml_text

DATA = pathlib.Path(__file__).resolve().parents[2] / "crates/conformance_run/data"
JSON_ALONE = ["Message"]
IN_BYTES = {"bin", "bin-whole", "bin-at"}


def types_of_tables():
    """The types that the tables name: those of all formats, and those of bytes alone."""
    found = {}
    for path in DATA.glob("*.tsv"):
        rows = path.read_text(encoding="ascii").splitlines() if path.name != "wrong.tsv" else []
        for row in rows:
            form, _, rest = row.partition("\t")
            kind = rest.partition("\t")[0]
            if form.split("-")[0] in ("bin", "json", "ron") and kind[:1] != ".":
                found.setdefault(kind, set()).add(form)
    alone = {kind for kind, forms in found.items() if forms <= IN_BYTES}
    return sorted(found.keys() - alone - set(JSON_ALONE)), sorted(alone)


TYPES, BYTES_ALONE = types_of_tables()
# What is said of an input in each format, and of how many cases. Of an accepted input the program reads each
# prefix too, but where its bytes, or the text of bytes, are asked for; so most are drawn in these formats.
FORMATS = [("json", 7), ("json-whole", 6), ("json-bin", 18), ("ron", 7), ("ron-whole", 6), ("ron-bin", 18),
           ("bin", 10), ("bin-whole", 5), ("bin-json", 6), ("bin-ron", 6), ("run", 16),
           ("json-state", 4), ("ron-state", 4), ("bin-at", 2)]
ALSO_LONG = 0.1  # of how many long texts each prefix is read
DRAWN = [form for form, count in FORMATS for _ in range(count)]


def case(draw):
    """Format, type and input."""
    form = draw.pick(DRAWN)
    if form == "run":
        return ("run", *run_case(draw))
    source = form.split("-")[0]
    alone = {"bin": BYTES_ALONE, "bin-whole": BYTES_ALONE, "json": JSON_ALONE, "json-whole": JSON_ALONE}
    share = 0.2 if source == "bin" else 0.04
    name = draw.pick(alone[form]) if form in alone and draw.chance(share) else draw.pick(TYPES)
    if not has(name, "ron"):
        form, source = form.replace("ron", "json"), source.replace("ron", "json")
    data = given(draw, source, lambda: good(draw, source, parse(name)))
    if source == "bin" and name == "Vec<()>":
        # Items without bytes: the count alone says how long it takes.
        data = data[:2] + bytes(min(len(data), 8) - 2) + data[8:] if len(data) > 2 else data
        form = "bin" if form == "bin-at" else form
    if form == "bin-at":
        return form, name, states.offset(draw, data)
    if form.endswith("-state"):
        kind = name if draw.chance(0.3) else states.calls(draw, source)
        return form, kind, states.state(draw, source, data)
    if len(data) > 80 and form in ("json", "json-whole", "ron", "ron-whole") and not draw.chance(ALSO_LONG):
        form = form if name in JSON_ALONE else source + "-bin"
    return form, name, data


def good(draw, source, kind):
    """A good input, now and then with something after it."""
    if source == "bin":
        data = binary_code.code(draw, kind)
        return data + damage.noise(draw) if draw.chance(0.05) else data
    spelling = texts.Json(draw) if source == "json" else texts.Ron(draw)
    text = spelling.value(kind) + spelling.gap()
    if draw.chance(0.06):
        text += draw.pick(("]", "1", ",", "\0", "\0x", " x", '"', "@", "//", "/*", "-"))
    return text.encode()


def given(draw, source, good):
    """A good input, or what is left of one, or one that is none."""
    way = draw.random()
    if way < 0.5:
        return good()
    if way < 0.72:
        return damage.damaged(draw, good(), source)
    if way < 0.82:
        return damage.cut(draw, good())
    if way < 0.9:
        return damage.cut(draw, good()) + damage.cut(draw, good())
    if way < 0.97 and source != "bin":
        return damage.soup(draw, source)
    return damage.noise(draw)


def run_case(draw):
    """The words of nano_show, and its input."""
    way = draw.random()
    if way < 0.6:
        return "toml", given(draw, "toml", lambda: toml_text.text(draw).encode())
    if way < 0.8:
        form = draw.pick(("json", "ron", "bin"))
        word = draw.pick(list(WORDS))
        data = given(draw, form, lambda: good(draw, form, parse(WORDS[word])))
        return form + draw.pick(("", "-whole")) + " " + word, data
    words = code_words(draw) if way < 0.95 else wrong_words(draw)
    return " ".join([escape_word(word) for word in words]), damage.noise(draw)


def code_words(draw):
    if draw.chance(0.3):
        return ["code", "text", *(draw.text().replace("\0", "") for _ in range(draw.below(3)))]
    numerals = [str(draw.integer(0, 65535)) for _ in range(draw.below(4))]
    if draw.chance(0.2):
        numerals.append(draw.pick(("+1", "-0", "0x1", "", "65536", "00000000065535", "1_0", "\u0663", " 1")))
    return ["code", "u16s", *numerals]


def wrong_words(draw):
    known = ["json", "ron", "bin", "toml", "code", "u16s", "text", "item", "u8", "json-whole", "x", "", "set"]
    return [draw.pick(known) for _ in range(draw.below(4))]


def escape_word(word):
    """A word as the column TYPE has it."""
    return "".join([chr(b) if 0x21 <= b <= 0x7E and b != 0x25 else f"%{b:02X}" for b in word.encode()]) or "%_"
