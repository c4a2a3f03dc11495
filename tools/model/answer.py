"""What the readers, the writers and the program answer.

    answer(format, type, input) -> Outcome      a row of the tables, without its answer
    run(words, input) -> (status, stdout, stderr)      the program nano_show, both as bytes

The formats are those of the column FORMAT in crates/conformance_run/README.md and of states.tsv. The type is the column
TYPE: a type as Rust writes it; for `run` the words; calls for a state. The input is bytes, in which no `%XX` or
`%*N(..)` is left. An Outcome has the columns VERDICT and ANSWER, with bytes outside 0x20 to 0x7e and `%` as `%XX`;
where there is no such format or type, or a type has not this format, its verdict is `unknown`.
"""
from typing import NamedTuple

from . import binary, states, type_tree, words as program
from .cases import escape, words_of


class Outcome(NamedTuple):
    """The verdict, which is `is`, `error` or `unknown`, and the answer, as the tables have them."""

    verdict: str
    answer: str


FORMATS = {"bin", "json", "ron"}
run = program.run


def answer(format, type, input):
    """The verdict and the answer of a row with these three columns."""
    try:
        return Outcome("is", escape(answered(format, type, input)))
    except type_tree.Unknown:
        return Outcome("unknown", "")
    except binary.BinFault as fault:
        return Outcome("error", fault.column())
    except program.Rejected as error:
        return Outcome("error", escape(str(error).encode()))


def answered(format, type, input):
    """The answer of a row, where there is one."""
    if format == "run":
        status, stdout, stderr = program.run(words_of(type), input)
        if status:
            raise program.Rejected(f"{status}: {stderr.decode()[:-1]}")
        return stdout
    source, _, target = format.partition("-")
    if format in states.FORMATS and (source == "toml" or type[:1] == "." or type_tree.has(type, source)):
        return states.answered(format, type, input)
    whole = target == "whole"
    target = source if target in ("", "whole") else target
    if not {source, target} <= FORMATS or not (type_tree.has(type, source) and type_tree.has(type, target)):
        raise type_tree.Unknown(format)
    known = type_tree.parse(type)
    return program.encoded(target, known, program.decoded(source, known, input, whole)).encode()
