"""Definitions that are drawn: a struct, a tuple struct, an enum and a nested type in each file."""

TYPES = [
    "u8",
    "u16",
    "u32",
    "u64",
    "usize",
    "i8",
    "i16",
    "i32",
    "i64",
    "bool",
    "String",
    "std::string::String",
    "Vec<u8>",
    "Vec<String>",
    "Option<u16>",
    "Box<i32>",
    "(u8, String)",
    "[u16; 3]",
    "std::vec::Vec<Option<bool>>",
    "BTreeMap<String, u32>",
    "std::option::Option<u64>",
    "Vec<Option<Box<u8>>>",
    "Option<Vec<Box<(u8, [Option<String>; 3])>>>",
    "LinkedList<BTreeMap<u8, (u8, (bool, Vec<()>))>>",
    "crate::b::B",
    "self::super::c::C",
    "Option<super::c::C>",
    "(super::super::d::D, self::super::c::C)",
]
# Types that have bytes alone.
OF_BYTES = ["u128", "i128"]
# Types that take memory, and others of which a skipped field is made only as what it is given.
IN_MEMORY = ["String", "std::string::String", "Vec<u8>", "Vec<String>", "BTreeMap<String, u32>"]
NOT_MADE = ["Box<i32>", "(u8, String)"]
# Paths of types that stand for defaults.
PATHS = ["crate::b::Start", "self::Start", "super::c::Start", "super::super::d::Start"]
# How names begin that are given, and those of aliases: in RON, and where a type is not in RON.
LETTERS_OF_RON = ("xyz", "abc")
LETTERS = ("xyzöя長", "abcéж🦀")
# Types with the parameters A and B, and what may be asked of them.
GENERIC = [
    "A",
    "Option<B>",
    "Vec<Option<Box<A>>>",
    "(B, u8)",
    "LinkedList<std::vec::Vec<A>>",
    "Vec<(u8, (A, super::c::C), Option<Vec<B>>)>",
]
# What a type that contains itself is made of, where `$` is the type.
PLAIN = ["u8", "i64", "bool", "String", "()", "Mode", "Place", "Here"]
COLLECTIONS = [
    "(u8, String)",
    "[i64; 3]",
    "[(Mode, u8); 2]",
    "LinkedList<(Place, [bool; 1], Vec<u8>)>",
    "HashSet<String>",
    "BTreeSet<i64>",
    "HashMap<u8, (String, Here, u8, bool)>",
]
GIVEN = {"u8": "7", "i64": "-5", "bool": "true", "String": "some text"}
AROUND = ["{}", "Vec<{}>", "Option<{}>", "Box<{}>", "Vec<Option<{}>>"]
ITSELF = ["Vec<$>", "Box<$>", "Option<Box<$>>", "Option<Vec<$>>", "Vec<Box<$>>", "Vec<Vec<$>>"]
TRAITS = ["Clone", "PartialEq<u8>", "'static", "super::c::T", "self::super::c::U<Vec<u8>>"]
CASES = ["lowercase", "UPPERCASE", "PascalCase", "camelCase", "snake_case", "SCREAMING_SNAKE_CASE"]


def drawn_head(draw, types, end):
    """The parameters of a type, its bounds, which `end` follows, and the types that it may name."""
    if draw.random() < 0.6:
        return "", end, types
    parameters, where = [], []
    for name in "AB":
        traits = " + ".join(draw.sample(TRAITS, draw.randrange(1, 3)))
        kind = draw.randrange(3)
        parameters.append(name + (f": {traits}" if kind == 1 else ""))
        where += [f"{name}: {traits}"] * (kind == 2)
    if draw.random() < 0.3:
        where.append("Vec<A>: Clone")
    clause = f" where {', '.join(where)}" if where else ""
    return f"<{', '.join(parameters)}>", clause + end, types + GENERIC


def drawn_value(draw, type):
    """A default that is given: a number, a truth value, a text, or the path of a type."""
    values = {
        "u": str(draw.randrange(200)),
        "i": str(draw.randrange(-100, 100)),
        "b": draw.choice(["true", "false"]),
        "S": draw.choice(["some text", ""]),
    }
    is_word = type.isalnum() and type[0] in values
    return values[type[0]] if is_word and draw.random() < 0.8 else draw.choice(PATHS)


def drawn_skip(draw, type):
    """What stands above a field that is skipped."""
    if type in NOT_MADE or draw.random() < 0.5:
        return ["skip", f'default = "{drawn_value(draw, type)}"']
    return ["skip"]


def drawn_attributes(draw, name, type, letters):
    """What stands above a field that is read."""
    attributes = []
    if draw.random() < 0.25:
        attributes.append(f'rename = "{draw.choice(letters[0])}_{name}"')
    if type != "A" and draw.random() < 0.25:
        attributes.append(f'default = "{drawn_value(draw, type)}"')
    elif type != "A" and draw.random() < 0.2:
        attributes.append("default")
    if draw.random() < 0.25:
        olds = draw.sample(letters[1], draw.randrange(1, 3))
        attributes += [f'alias = "{old}_{name}"' for old in olds]
    return attributes


def drawn_fields(draw, types, names, in_line, letters):
    """Fields, of which each may be skipped."""
    lines = []
    for name in names:
        type = draw.choice(types)
        if type not in GENERIC and draw.random() < 0.3:
            type = draw.choice([type, draw.choice(IN_MEMORY)])
            attributes = drawn_skip(draw, type)
        else:
            attributes = drawn_attributes(draw, name, type, letters)
        lines += [f"    // nanoserde: {', '.join(attributes)}"] * bool(attributes) + [
            f"    {in_line}{name}: {type},"
        ]
    return lines


def drawn_parts(draw, name, names):
    """The types of so many parts of a type of this name, of which some hold the type itself."""
    held = draw.sample(names, draw.randrange(len(names) + 1))
    parts = []
    for part in names:
        plain = draw.choice(PLAIN if draw.random() < 0.7 else COLLECTIONS)
        around = draw.choice(AROUND).format(plain)
        parts.append(draw.choice(ITSELF).replace("$", name) if part in held else around)
    return parts


def drawn_nested_fields(draw, name, names, in_line):
    """Named fields of a type of this name, of which some hold the type itself."""
    lines = []
    for field, type in zip(names, drawn_parts(draw, name, names)):
        attributes = [f'rename = "{draw.choice("xyz")}_{field}"'] * (draw.random() < 0.25)
        if type in GIVEN and draw.random() < 0.3:
            attributes.append(f'default = "{GIVEN[type]}"')
        elif (type in GIVEN or type[:4] in ("()", "Vec<")) and draw.random() < 0.3:
            attributes.append("default")
        lines += [f"    // nanoserde: {', '.join(attributes)}"] * bool(attributes)
        lines.append(f"    {in_line}{field}: {type},")
    return lines


def drawn_around(draw, name, formats, words, is_enum):
    """A struct that holds a type of this name, which holds it, or an enum if that is one."""
    fields = drawn_nested_fields(draw, name, draw.sample(words, draw.randrange(4)), "pub ")
    lines = [f"// nanoserde: {formats}", "#[derive(Drop)]", "#[cycle(n)]"]
    held = draw.choice(["$", *ITSELF]).replace("$", name)
    if not is_enum or draw.random() < 0.5:
        return lines + [f"pub struct R{name} {{", *fields, f"    pub root: {held},", "}"]
    inner = [f"        {field.strip().removeprefix('pub ')}" for field in fields]
    named = ["    Named {", *inner, "    },"] if fields else ["    Plain,"]
    return lines + [f"pub enum R{name} {{", *named, f"    Root({held}),", "}"]


def drawn_nested(draw, name, formats, words):
    """A struct or an enum of this name, with a part that holds it, or a struct that does."""
    levels = f', levels = "{draw.randrange(1, 129)}"' if draw.random() < 0.3 else ""
    lines = [f"// nanoserde: {formats}{levels}", "#[derive(Drop)]"]
    around, is_struct = [], draw.random() < 0.4
    if draw.random() < 0.4:
        lines.append("#[cycle(n)]")
        around = drawn_around(draw, name, formats, words, not is_struct)
    parameters = [] if around else draw.sample(["T", "Key", "V2"], draw.choice([0, 0, 1, 2]))
    name += f"<{', '.join(parameters)}>" * bool(parameters)
    held = [draw.choice(AROUND).format(parameter) for parameter in parameters]
    itself = draw.choice(ITSELF).replace("$", f"R{name}" if around else name)
    if is_struct:
        fields = drawn_nested_fields(draw, name, draw.sample(words, draw.randrange(5)), "pub ")
        fields += [f"    pub held_{place}: {type}," for place, type in enumerate(held)]
        fields.append(f"    pub itself: {itself},")
        return lines + [f"pub struct {name} {{", *fields, "}", *around]
    in_text = formats != "bin"
    lines += [f"pub enum {name} {{", f"    Itself({itself}),"]
    lines += [f"    Held{place}({type})," for place, type in enumerate(held)]
    for variant in draw.sample(["Stop", "MoveOn", "Say", "ListAll", "Wait"], draw.randrange(1, 5)):
        kind = draw.randrange(3)
        if kind == 0:
            lines.append(f"    {variant},")
        elif kind == 1:
            places = list(range(draw.randrange(1, 4 if in_text else 5)))
            parts = drawn_parts(draw, name, places)
            lines.append(f"    {variant}({', '.join(parts)}),")
        else:
            names = draw.sample(words, draw.randrange(1, 4))
            fields = drawn_nested_fields(draw, name, names, "    ")
            lines += [f"    {variant} {{", *fields, "    },"]
    return lines + ["}", *around]


def drawn_variants(draw, types, words, letters):
    """Variants of an enum, which are named, and hold nothing, parts or fields."""
    lines = []
    for name in draw.sample(["Stop", "MoveOn", "Say", "ListAll", "Wait"], draw.randrange(1, 6)):
        if draw.random() < 0.2:
            lines.append(f'    // nanoserde: rename = "{draw.choice(letters[0])}_{name}"')
        kind = draw.randrange(3)
        if kind == 0:
            lines.append(f"    {name},")
        elif kind == 1:
            parts = ", ".join(draw.choice(types) for _ in range(draw.randrange(1, 5)))
            lines.append(f"    {name}({parts}),")
        else:
            names = draw.sample(words, draw.randrange(5))
            fields = drawn_fields(draw, types, names, "    ", letters)
            lines += [f"    {name} {{", *fields, "    },"]
    return lines


def drawn_tuple(draw, types, number):
    """A tuple struct of one to eight parts."""
    parameters, end, types = drawn_head(draw, types, ";")
    parts = ", ".join("pub " + draw.choice(types) for _ in range(draw.randrange(1, 9)))
    return f"pub struct T{number}{parameters}({parts}){end}"


def drawn(draw, number):
    """A file with a newtype, a struct, a tuple struct, an enum and a type that contains itself."""
    formats = " ".join(draw.sample(["bin", "json", "ron"], draw.randrange(1, 4)))
    letters = LETTERS_OF_RON if "ron" in formats else LETTERS
    plain = TYPES + OF_BYTES * (formats == "bin")
    has_case = draw.random() < 0.5 and formats != "bin"
    case = f', rename_all = "{draw.choice(CASES)}"' if has_case else ""
    words = ["first", "second_one", "the_third", "x", "last_of_all", "y2"]
    names = draw.sample(words, draw.randrange(7))
    unknown = " deny_unknown" if "json" in formats and draw.random() < 0.3 else ""
    unknown += " allow_unknown" if "ron" in formats and draw.random() < 0.3 else ""
    is_unit = not names and draw.random() < 0.5
    parameters, end, types = drawn_head(draw, plain, ";" if is_unit else " {")
    lines = [
        "use crate::mode::Mode;",
        "use crate::map::place::{City, Place};",
        "use std::collections::{BTreeMap, BTreeSet, HashMap, HashSet, LinkedList};",
        f"// nanoserde: {formats}",
        "#[derive(Drop)]",
        "pub struct Here(pub u8);",
        f"// nanoserde: {formats}{case if names else ''}{unknown}",
        "#[derive(Drop)]",
        f"pub struct S{number}{parameters}{end}",
    ]
    lines += drawn_fields(draw, types, names, "pub ", letters) + ["}"] * (not is_unit)
    lines += [f"// nanoserde: {formats}", "#[derive(Drop)]", drawn_tuple(draw, plain, number)]
    parameters, end, types = drawn_head(draw, plain, " {")
    lines += [f"// nanoserde: {formats}{case}", "#[derive(Drop)]"]
    lines.append(f"pub enum E{number}{parameters}{end}")
    lines += [*drawn_variants(draw, types, words, letters), "}"]
    lines += drawn_nested(draw, f"N{number}", formats, words)
    return "\n".join(lines + ["", "mod derived;", ""])
