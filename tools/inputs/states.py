"""Calls in a reader's state, drawn at random, as the head of states.tsv has them: the calls and the state
before the first of them."""

HELPERS = {
    "json": "colon string block_open block_close curly_open curly_close eat_comma_block eat_comma_curly next_colon "
            "whole_field next_str is_null is_block_close is_curly_close i64_range u64_range_3 "
            "i64_range_-5_5 as_bool as_string next fail err_token".split(),
    "ron": "colon ident block_open block_close curly_open curly_close paren_open paren_close eat_comma_block "
           "eat_comma_curly eat_comma_paren next_colon whole_field next_ident is_none is_block_close is_curly_close "
           "is_paren_close i64_range u64_range_3 i64_range_-5_5 as_bool as_string next fail "
           "err_token".split(),
}
PENDING = {
    "json": "Bof Colon CurlyOpen CurlyClose BlockOpen BlockClose Comma Eof Null Bool(true) Bool(false) Str(a) Str() "
            "U64(0) U64(7) U64(18446744073709551615) I64(-1) I64(-9) F64(1.)".split(),
    "ron": "Bof Colon CurlyOpen CurlyClose ParenOpen ParenClose BlockOpen BlockClose Comma Eof Ident(a) Ident(None) "
           "Bool(true) Bool(false) Str(a) Str() U64(0) U64(7) I64(-1) F64(1.) Char('4')".split(),
}
GREATEST = (1 << 64) - 1


def calls(draw, form):
    """Some calls, of which most take a token and ask for one."""
    found = []
    for _ in range(1 + draw.below(4)):
        if draw.chance(0.6):
            found.append(".next_tok")
        if draw.chance(0.5):
            found.append("." + draw.pick(HELPERS[form]))
    return " ".join(found) or ".next_tok"


def state(draw, form, data):
    """A state before this text, which has at least the current character."""
    token = "Bof" if draw.chance(0.5) else draw.pick(PENDING[form])
    place = [draw.pick((0, 0, 1, 7, GREATEST - 1, GREATEST)) for _ in range(2)] if draw.chance(0.2) else [0, 1]
    text = data.decode(errors="ignore") or "\0"
    return f"{token} {place[0]}:{place[1]} {text}".encode()


def offset(draw, data):
    """An offset, and bytes that hold something from there on, or nearly."""
    at = draw.below(5)
    before = bytes(at if draw.chance(0.9) else draw.below(9))
    at = at if draw.chance(0.97) else draw.pick((len(before + data), len(before + data) + 1, GREATEST))
    return f"{at} ".encode() + before + data
