"""Bytes: how a value is read and written. Section Binary of docs/FORMATS.md."""
from .lexemes import is_decimal
from .type_tree import Type, collected, opened


class BinFault(Exception):
    """An error. Its arguments are its kind, `o`, `l` and `s`."""

    def column(self):
        """As the tables have it."""
        return "{} o {} l {} s {}".format(*self.args)

    def printed(self):
        """As it is printed."""
        return "Bin deserialize error at:{1} wanted:{2} bytes but max size is {3}".format(*self.args)


def take(data, at, count):
    """The place after `count` bytes; fewer are TooShort, and past the end there are none."""
    if at + count > len(data):
        raise BinFault("TooShort", at, count, len(data))
    return at + count


def number(data, at, size, signed=False):
    """An integer, little endian, and the place after it."""
    end = take(data, at, size)
    return int.from_bytes(data[at:end], "little", signed=signed), end


def text(data, length, at):
    """So many bytes of UTF-8: in an error `o` is the first of them, and `l` their number."""
    end = take(data, at, length)
    try:
        return data[at:end].decode(), end
    except UnicodeDecodeError:
        raise BinFault("NotUtf8", at, length, len(data)) from None


def counted(_, count, at):
    """The count of a container of this type, with which nothing is done before its items are read."""
    return count, at


def read(type, data, at):
    """The value of the code at a place, and the place after it."""
    kind = type.kind
    if kind == "int":
        return number(data, at, type.size, type.low < 0)
    if kind == "bool":  # 0 is false, any other true
        value, at = number(data, at, 1)
        return value != 0, at
    if kind in ("String", "decimal"):  # the text of a decimal is one, and another is the kind Own
        value, end = text(data, *number(data, at, 8))
        if kind == "decimal" and not is_decimal(value):
            raise BinFault("Own", at, 0, len(data))
        return value, end
    if kind == "option":  # 1 and an item, and any other byte is none
        value, at = number(data, at, 1)
        if value != 1:
            return (), at
        item, at = read(type.parts[0], data, at)
        return (item,), at
    if kind in ("unit", "tuple", "array", "struct"):
        return read_parts(type.parts, data, at)
    if kind in ("enum", "document"):  # the place of the variant as a u16; another is the kind Own
        index, end = number(data, at, 2)
        if index >= len(type.variants):
            raise BinFault("Own", at, 0, len(data))
        content, at = read(type.variants[index].content, data, end)
        return (index, content), at
    if kind == "nested":
        if type.levels == 0:
            raise BinFault("Memory", at, 0, len(data))
        return read(opened(type), data, at)
    count, at = counted(type, *number(data, at, 8))
    item = item_of(type)
    items, at = read_parts((item for _ in range(count)), data, at)
    return collected(kind, items), at


def item_of(type):
    """What stands in a container, one after another: of a map its pairs."""
    return Type("tuple", type.parts) if type.kind in ("map", "entries") else type.parts[0]


def read_parts(parts, data, at):
    """The parts, one after another."""
    values = []
    for part in parts:
        value, at = read(part, data, at)
        values.append(value)
    return tuple(values), at


def write(type, value):
    """The code of a value."""
    kind = type.kind
    if kind == "int":
        return value.to_bytes(type.size, "little", signed=type.low < 0)
    if kind == "bool":
        return bytes([value])
    if kind in ("String", "decimal"):
        return size(value.encode()) + value.encode()
    if kind == "option":
        return b"\1" + write(type.parts[0], value[0]) if value else b"\0"
    if kind in ("unit", "tuple", "array", "struct"):
        return write_parts(type.parts, value)
    if kind in ("enum", "document"):
        index, content = value
        if kind == "document" and index == 3 and content[0] >= 0:  # a number that is not below 0 is a U64
            index = 2
        return index.to_bytes(2, "little") + write(type.variants[index].content, content)
    if kind == "nested":
        return write(opened(type), value)
    return size(value) + write_parts([item_of(type)] * len(value), value)


def size(items):
    """A count or a length, as a usize."""
    return len(items).to_bytes(8, "little")


def write_parts(parts, values):
    """The parts, one after another."""
    return b"".join(write(part, value) for part, value in zip(parts, values))


def deserialize(type, data, whole):
    """The value that the bytes begin with, or that they are."""
    value, at = read(type, data, 0)
    if whole and at != len(data):
        raise BinFault("TrailingBytes", at, 0, len(data))
    return value
