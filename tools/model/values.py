"""Values in JSON and RON: what each type asks of a reader, in order, and what is written of a value.

See What each type asks, in order, in docs/ERRORS.md, and the tables of types in docs/FORMATS.md.
"""
from .reader import BLOCK, CURLY, GREATEST
from .type_tree import collected, opened


def read(reader, type):
    """The value that the tokens from the pending one on begin with. Each token of it is taken."""
    kind = type.kind
    if kind in ("int", "bool", "String", "decimal"):
        if kind == "int":
            value = reader.i64_range(type.low, type.high) if type.low else reader.u64_range(type.high)
        elif kind == "decimal":  # asked for where it is pending
            value = reader.value
        else:
            value = reader.as_bool() if kind == "bool" else reader.as_string()
        reader.next_tok()
        return value
    if kind == "unit":
        return reader.unit()
    if kind == "option":
        if reader.is_absent():
            reader.next_tok()
            return ()
        return (read(reader, type.parts[0]),)
    if kind in ("tuple", "array"):
        return read_parts(reader, type.parts)
    if kind == "struct":
        return read_fields(reader, type)
    if kind == "enum":
        return reader.variant(type.variants)
    if kind == "document":
        return reader.document(type.variants)
    if kind == "nested":
        test_levels(reader, type)
        return read(reader, opened(type))
    if kind in ("map", "entries"):
        return collected(kind, read_list(reader, CURLY, lambda: read_pair(reader, *type.parts)))
    return collected(kind, read_list(reader, BLOCK, lambda: read(reader, type.parts[0])))


def read_list(reader, brackets, read_item):
    """LIST: one comma between two items, and optionally one after the last."""
    items = []
    reader.ask(*brackets.open)
    while reader.tok != brackets.close[0]:
        items.append(read_item())
        reader.eat_comma(brackets)
    reader.ask(*brackets.close)
    return items


def test_levels(reader, type):
    """A value inside as many others as its type may have levels is out of range."""
    if type.kind == "nested" and type.levels == 0:
        raise reader.err_range(f"levels>{type.limit}")


def read_pair(reader, key, value):
    """A key, Colon, a value. The levels of a document are tested before its name."""
    if value.name == "Json":
        test_levels(reader, value)
    name = read(reader, key)
    reader.ask("Colon", ":")
    return name, read(reader, value)


def read_parts(reader, parts):
    """LIST of exactly these parts."""
    values = []
    reader.ask(*reader.PARTS.open)
    for part in parts:
        values.append(read(reader, part))
        reader.eat_comma(reader.PARTS)
    reader.ask(*reader.PARTS.close)
    return tuple(values)


def read_fields(reader, type):
    """LIST of named fields in any order. Missing ones are looked for after the closing bracket."""
    known = {name: field for field in type.fields for name in (field.name, *field.aliases)}
    found = {}  # of the names of a field that occur, the last one counts
    reader.ask(*reader.FIELDS.open)
    while reader.tok == reader.NAME:
        name = reader.value
        if name in known:
            reader.next_colon()
            found[known[name].name] = read(reader, known[name].type)
        else:
            reader.unknown_field(name, type.above)
        reader.eat_comma(reader.FIELDS)
    reader.ask(*reader.FIELDS.close)
    values = []
    for field in type.fields:
        if field.name not in found and field.kind == "required":
            raise reader.error(f"Key not found {field.name}")
        values.append(found.get(field.name, field.default))
    return tuple(values)


def deserialize(reader, type, whole):
    """The value that a text begins with, or that it is."""
    reader.next_tok()
    value = read(reader, type)
    if whole:
        reader.end_of_input()
    return value


def write(form, type, value, level=0):
    """The text that is written at a level, in one of the two forms."""
    kind = type.kind
    if kind in ("int", "bool"):
        return str(value).lower()
    if kind == "String":
        return form.quoted(value)
    if kind == "decimal":
        return value
    if kind == "unit":
        return form.UNIT
    if kind == "document":
        return write(form, type.variants[value[0]].content.parts[0], value[1][0], level)
    if kind == "option":
        return write(form, type.parts[0], value[0], level) if value else form.NONE
    if kind == "tuple":
        return write_parts(form, type.parts, value, level)
    if kind == "struct":
        return write_fields(form, type.fields, value, level)
    if kind == "nested":
        return write(form, opened(type), value, level)
    if kind == "enum":
        name, content = type.variants[value[0]]
        has_content = content.kind != "unit"
        return form.content(name, write(form, content, value[1], level)) if has_content else form.name(name)
    deeper = min(level + 1, GREATEST)
    if kind == "array":
        return write_parts(form, type.parts, value, deeper)
    if kind in ("map", "entries"):
        key, item = type.parts
        return form.pairs([f"{write(form, key, k, deeper)}:{write(form, item, v, deeper)}"
                           for k, v in value], level)
    items = [write(form, type.parts[0], item, deeper) for item in value]
    return form.lines(items, level) if kind == "list" else form.items(items, level)


def write_parts(form, parts, values, level):
    """The parts at this level."""
    return form.parts([write(form, part, value, level) for part, value in zip(parts, values)])


def write_fields(form, fields, values, level):
    """The fields in declared order; one that may be missing is not written if it is `None`."""
    deeper = min(level + 1, GREATEST)
    return form.fields([f"{form.key(field.name)}:{write(form, field.type, value, deeper)}"
                        for field, value in zip(fields, values)
                        if field.kind != "optional" or value], level)
