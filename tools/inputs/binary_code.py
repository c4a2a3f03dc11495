"""Bytes of a type, drawn at random: any code of a value, of which many are not what is written."""
from model.type_tree import opened


def code(draw, kind):
    """A code of a value of this type, which is one of the model's."""
    return CODES[kind.kind](draw, kind)


def number(value, size):
    return (value % (1 << 8 * size)).to_bytes(size, "little")


def integer(draw, kind):
    return number(draw.integer(kind.low, kind.high), kind.size)


def boolean(draw, _):
    return draw.pick((b"\0", b"\1", b"\1", b"\2", b"\xff"))


def text(draw, _):
    data = draw.text().encode()
    return number(len(data), 8) + data


def decimal(draw, _):
    data = draw.decimal().encode()
    return number(len(data), 8) + data


def option(draw, kind):
    if draw.is_deepest() or draw.chance(0.4):
        return draw.pick((b"\0", b"\0", b"\2", b"\xff"))
    return b"\1" + code(draw, kind.parts[0])


def items(draw, kind):
    """A list, a set, or a map, whose items or pairs may come twice and in any order."""
    found = []
    for _ in range(draw.few()):
        again = found and draw.chance(0.1)
        found.append(draw.pick(found) if again else b"".join([code(draw, part) for part in kind.parts]))
    return number(len(found), 8) + b"".join(found)


def parts(draw, kind):
    return b"".join([code(draw, part) for part in kind.parts])


def struct(draw, kind):
    """Fields in declared order; one that may be missing as its option."""
    return b"".join([code(draw, field.type) for field in kind.fields])


def enum(draw, kind):
    place = draw.variant(kind.variants)
    if draw.chance(0.03):
        return number(draw.pick((len(kind.variants), 255, 256, 65535)), 2)
    return number(place, 2) + code(draw, kind.variants[place].content)


def nested(draw, kind):
    """A struct or an enum that contains itself."""
    return draw.nested(lambda: code(draw, opened(kind)))


CODES = {"int": integer, "bool": boolean, "String": text, "decimal": decimal, "unit": parts, "option": option,
         "list": items, "linked": items, "set": items, "map": items, "entries": items, "array": parts, "tuple": parts,
         "struct": struct, "enum": enum, "document": enum, "nested": nested}
