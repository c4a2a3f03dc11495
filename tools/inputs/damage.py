"""What is done to a good input: bytes taken out, put in, exchanged and repeated, and cuts; and inputs that
are no one's: tokens in any order, and bytes."""

CUT = 0.25
TOKENS = {
    "json": ["[", "]", "{", "}", ",", ":", "null", "true", "false", "1", "-1", "256", "0.5", "1e5", '"a"', '"A"',
             '"B"', '"C"', '"value"', '"note"', '"x"', '"', "\\", " ", "\n", "\0", "@", "+", "-", "nul", "e", "'"],
    "ron": ["[", "]", "(", ")", "{", "}", ",", ":", "None", "Some", "true", "1", "-1", "256", "0.5", ".5", '"a"',
            "A", "B", "C", "value", "note", "x", "'a'", "'\\n'", "'", '"', "\\", " ", "\n", "\0", "@", "+", ".",
            "/", "//", "/*", "*/", "/*/"],
    "toml": ["[", "]", "[[", "]]", "=", ",", "a", "b", "a.b", "x", '"a"', '""', '"""', '"', "\\", "1", "-1", "0.5",
             "1-1", "true", "inf", "-nan", "+", "-", "_", ".", " ", "\n", "#", "\0", "@", "é"],
}
EDGE_BYTES = bytes([0, 1, 2, 4, 8, 255, 254, 128, 127, 192, 224, 240, 237, 160, 10, 32, 34, 92])
EIGHTS = [(1 << 64) - 1, (1 << 64) - 9, 1 << 63, 1 << 32, (1 << 32) - 1, 1 << 40, 65536, 5, 1]


def soup(draw, form):
    """Tokens in any order, as many as one can see."""
    tokens = TOKENS[form]
    return "".join([draw.pick(tokens) for _ in range(1 + draw.below(12))]).encode()


def noise(draw):
    """Bytes at random, of which half are those at which something begins or ends."""
    return bytes([draw.pick(EDGE_BYTES) if draw.chance(0.5) else draw.below(256)
                  for _ in range(draw.below(24))])


def cut(draw, data):
    return data[:draw.below(len(data) + 1)]


def damaged(draw, data, form):
    """The input with one to three faults."""
    for _ in range(1 + draw.below(3)):
        data = draw.pick(FAULTS)(draw, data, draw.below(len(data) + 1), form)
    return data


def take_out(draw, data, at, _):
    return data[:at] + data[at + 1 + (draw.below(4) if draw.chance(0.3) else 0):]


def put_in(draw, data, at, form):
    if form == "bin":
        piece = bytes([draw.pick(EDGE_BYTES)])
    else:
        piece = draw.pick(TOKENS[form]).encode()
    return data[:at] + piece + data[at:]


def exchange(draw, data, at, form):
    return put_in(draw, data, at, form)[:at + 1] + data[at + 1:]


def flip(draw, data, at, _):
    if at == len(data):
        return data
    return data[:at] + bytes([data[at] ^ 1 << draw.below(8)]) + data[at + 1:]


def repeat(draw, data, at, _):
    return data[:at + draw.below(8)] + data[at:]


def move(draw, data, at, _):
    end = at + draw.below(6)
    rest = data[:at] + data[end:]
    to = draw.below(len(rest) + 1)
    return rest[:to] + data[at:end] + rest[to:]


def recount(draw, data, at, form):
    """Another count in eight bytes."""
    if form != "bin":
        return take_out(draw, data, at, form)
    at = at // 2 if draw.chance(0.5) else 0
    return data[:at] + draw.pick(EIGHTS).to_bytes(8, "little") + data[at + 8:]


FAULTS = (take_out, put_in, exchange, flip, repeat, move, recount)
