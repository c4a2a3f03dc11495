"""TOML: statements, their table, and its listing. The section TOML of docs/FORMATS.md."""
from .json_format import JsonForm
from .toml_tokens import TomlReader

VALUES = {"Str": "Str", "Bool": "Bool", "Date": "Date", "Nan": "Nan", "Inf": "Inf",
          "U64": "Num", "I64": "Num", "F64": "Dec"}


def parse(text):
    """The table of a text: by key the kind of a value, and the value."""
    reader = TomlReader(text)
    root, element, scope = {}, None, ""
    while True:
        key = reader.want("BlockOpen", "Ident", "Str", "Eof")
        if reader.tok == "Eof":
            return root
        if reader.tok != "BlockOpen":
            reader.want("Equals")
            reader.next_tok()
            # The last value of a key counts, in the root or in the last table.
            (root if element is None else element)[f"{scope}.{key}" if scope else key] = value(reader)
            continue
        name = reader.want("BlockOpen", "Ident", "Str")
        if reader.tok == "BlockOpen":
            element = array_header(reader, root)
        else:
            scope = name
            reader.want("BlockClose")


def array_header(reader, root):
    """`[[a]]`: one more table in the Array at root key `a`, whatever the scope."""
    key = reader.want("Ident")
    reader.want("BlockClose")
    reader.want("BlockClose")
    kind, tables = root.setdefault(key, ("Array", []))
    if kind != "Array":
        raise reader.error(f"Array header on another kind {key} ")
    tables.append({})
    return tables[-1]


def value(reader):
    """The value that the token begins. The end of the text ends all open arrays."""
    open_arrays = []
    while True:
        if reader.tok == "BlockOpen":
            open_arrays.append([])
        elif reader.tok in VALUES:
            if not open_arrays:
                return VALUES[reader.tok], reader.value
            open_arrays[-1].append((VALUES[reader.tok], reader.value))
        elif open_arrays and reader.tok in ("BlockClose", "Eof"):
            closed = ("SimpleArray", open_arrays.pop())
            if not open_arrays:
                return closed
            open_arrays[-1].append(closed)
            if reader.tok == "Eof":
                continue
        elif not open_arrays or reader.tok != "Comma":
            raise reader.err_unexpected()
        reader.next_tok()


def shown(kind, content):
    """A value as the listing has it."""
    if kind == "Str":
        return JsonForm.quoted(content)
    if kind in ("Bool", "Num"):
        return str(content).lower()
    if kind in ("Dec", "Date"):
        return f"{kind.lower()} {content}"
    if kind in ("Nan", "Inf"):
        return ("-" if content else "") + kind.lower()
    return "[" + ", ".join(shown(*item) for item in content) + "]"


def listing(table):
    """The lines of the program's listing."""
    lines = []
    for key, (kind, content) in sorted(table.items()):
        if kind != "Array":
            lines.append(f"{JsonForm.quoted(key)} = {shown(kind, content)}")
            continue
        lines.append(f"{JsonForm.quoted(key)} = tables {len(content)}")
        for index, element in enumerate(content):
            for subkey, item in sorted(element.items()):
                lines.append(f"{JsonForm.quoted(key)}[{index}] {JsonForm.quoted(subkey)} = {shown(*item)}")
    return "".join(line + "\n" for line in lines)
