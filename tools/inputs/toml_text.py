"""TOML drawn at random: statements with gaps between their tokens, and numbers, dates, strings and
arrays in many spellings."""

GAPS = ("", "", "", " ", "\n", "\t", "\r\n", " # x\n", "#\"\n")
WORDS = ("a", "b", "k-k", "_", "x.y", "a..b", "a.", "ab", "true", "false", "inf", "nan", "T", "true.x")
NAMES = ('"a"', '"q q"', '""', '"x.y"', '"1"', '"""a"""', '"\\""')
LINES = ("\n", "\n", " ", "", "\r\n")
DATES = ("1979-05-27", "1979-05-27T07:32:00", "1-", "1--", "12-T:-", "1_0-1", "-5-", "+1-1", "1-1-1T::")


def text(draw):
    """Some statements."""
    return "".join([statement(draw) + draw.pick(LINES) for _ in range(draw.few() + draw.below(3))])


def statement(draw):
    kind = draw.random()
    if kind < 0.14:
        return f"[{draw.pick(GAPS)}{name(draw)}{draw.pick(GAPS)}]"
    if kind < 0.3:
        word = draw.pick(WORDS) if draw.chance(0.95) else draw.pick(NAMES)
        return f"[{draw.pick(GAPS)}[{word}]{draw.pick(GAPS)}]"
    return f"{name(draw)}{draw.pick(GAPS)}={draw.pick(GAPS)}{value(draw, 4)}"


def name(draw):
    return draw.pick(WORDS if draw.chance(0.7) else NAMES)


def value(draw, depth):
    kind = draw.random()
    if kind < 0.2 and depth:
        items = [draw.pick(GAPS) + value(draw, depth - 1) + draw.pick((",", ",", ", ", ",,", " "))
                 for _ in range(draw.few())]
        return "[" + "".join(items) + draw.pick(GAPS) + ("]" if draw.chance(0.98) else "")
    if kind < 0.45:
        return quoted(draw)
    if kind < 0.75:
        return number(draw)
    return draw.pick(("true", "false", "inf", "+inf", "-inf", "nan", "+nan", "-nan", "-na", "+in", "x")
                     if kind < 0.87 else DATES)


def quoted(draw):
    """A string between one quote or three."""
    content = draw.text().replace("\\", "\\\\") if draw.chance(0.9) else draw.text()
    if draw.chance(0.7):
        return '"' + content.replace('"', '\\"') + '"' if content else '""'
    content = content.replace('"', draw.pick(('\\"', '"', '""', '""""')))
    return '"""' + content + draw.pick(('"""', '"""', '\\""""', '"" """', '""""'))


def number(draw):
    """An integer or a decimal with signs and underscores anywhere, in range or nearly."""
    digits = str(abs(draw.integer(-(2**63), 2**64 - 1)))
    if draw.chance(0.3):
        place = draw.below(len(digits) + 1)
        digits = digits[:place] + draw.pick(("_", "__", ".", "._", "-", "e5")) + digits[place:]
    if draw.chance(0.1):
        digits = draw.pick((".5", "1.", "._5", "_", ".", "1.5.", "0_.0_", "007"))
    return draw.pick(("", "", "", "-", "-", "+")) + digits
