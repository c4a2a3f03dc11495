#!/usr/bin/env python3
"""Changes tools/model in one place at a time, and prints each change that no case finds.

    python3 tools/measure/wrong_models.py [--part K/N] [--jobs J]

A change is another comparison, a number one more or less, a text with a letter less, a condition that always or
never holds, `and` for `or`, a difference for a sum. A changed model is asked each case of
crates/conformance_run/data, up to the first that it answers otherwise: a change that none finds is a rule of the
pages without a case that tells, or one that changes nothing. With --part K/N it makes every Nth change, from the
Kth on. The last line is a count; nothing fails.
"""
import argparse
import ast
import pathlib
import shutil
import subprocess
import sys
import tempfile
from concurrent.futures import ThreadPoolExecutor

TOOLS = pathlib.Path(__file__).resolve().parents[1]
MODEL = TOOLS / "model"
DATA = TOOLS.parent / "crates/conformance_run/data"
NO_RULE = {"__init__.py", "cases.py"}  # these read the tables
LONGEST = 120  # seconds; a model that takes longer is found
COMPARED = {ast.Lt: (ast.LtE, ast.GtE), ast.LtE: (ast.Lt,), ast.Gt: (ast.GtE, ast.LtE), ast.GtE: (ast.Gt,),
            ast.Eq: (ast.NotEq,), ast.NotEq: (ast.Eq,), ast.In: (ast.NotIn,), ast.NotIn: (ast.In,)}


def changes(tree):
    """The changes of a module: each is the place of a node, and what makes it another one."""
    headed = (ast.Module, ast.FunctionDef, ast.ClassDef)
    documents = {id(node.body[0].value) for node in ast.walk(tree)
                 if isinstance(node, headed) and isinstance(node.body[0], ast.Expr)}
    for place, node in enumerate(ast.walk(tree)):
        if isinstance(node, ast.Compare):
            for other in COMPARED.get(type(node.ops[0]), ()):
                yield place, lambda node, other=other: setattr(node, "ops", [other(), *node.ops[1:]])
        elif isinstance(node, ast.Constant) and id(node) not in documents:
            for value in others(node.value):
                yield place, lambda node, value=value: setattr(node, "value", value)
        elif isinstance(node, (ast.If, ast.IfExp)):
            for value in (True, False):
                yield place, lambda node, value=value: setattr(node, "test", ast.Constant(value))
        elif isinstance(node, ast.BoolOp):
            other = ast.And if isinstance(node.op, ast.Or) else ast.Or
            yield place, lambda node, other=other: setattr(node, "op", other())
        elif isinstance(node, ast.BinOp) and isinstance(node.op, (ast.Add, ast.Sub)):
            other = ast.Add if isinstance(node.op, ast.Sub) else ast.Sub
            yield place, lambda node, other=other: setattr(node, "op", other())


def others(value):
    """Other constants."""
    if isinstance(value, bool):
        return (not value,)
    if isinstance(value, int):
        return value + 1, value - 1
    return (value[:-1] or "x",) if isinstance(value, str) else ()


def is_found(path, number):
    """Whether a case finds the change of this number; and the line of the model that it is in."""
    tree = ast.parse(path.read_text(encoding="utf-8"))
    place, change = list(changes(tree))[number]
    node = list(ast.walk(tree))[place]
    line = getattr(node, "lineno", 0)
    change(node)
    with tempfile.TemporaryDirectory() as folder:
        shutil.copytree(MODEL, f"{folder}/model", ignore=shutil.ignore_patterns("__pycache__"))
        pathlib.Path(folder, "model", path.name).write_text(ast.unparse(ast.fix_missing_locations(tree)))
        try:
            asked = subprocess.run([sys.executable, "-B", __file__, "--ask", folder], capture_output=True, check=False,
                                   timeout=LONGEST)
        except subprocess.TimeoutExpired:
            return True, line
    return asked.returncode != 0, line


def ask(folder):
    """Asks the model in a folder each case, and fails at the first that it answers otherwise."""
    sys.path.insert(0, folder)
    sys.setrecursionlimit(20_000)
    from model import cases
    from model.answer import answer
    for path in sorted(DATA.glob("*.tsv"), key=lambda path: path.stat().st_size):
        for _, fields in cases.rows(path) if path.name != "wrong.tsv" else ():
            answered = cases.escape(cases.unescape(fields[4]))
            if tuple(answer(fields[0], fields[1], cases.unescape(fields[2]))) != (fields[3], answered):
                return 1
    return 0


def main():
    parser = argparse.ArgumentParser()
    parser.add_argument("--part", default="1/1")
    parser.add_argument("--jobs", type=int, default=1)
    parser.add_argument("--ask")
    given = parser.parse_args()
    if given.ask:
        return ask(given.ask)
    first, step = map(int, given.part.split("/"))
    every = [(path, number) for path in sorted(MODEL.glob("*.py")) if path.name not in NO_RULE
             for number, _ in enumerate(changes(ast.parse(path.read_text(encoding="utf-8"))))][first - 1 :: step]
    left = 0
    with ThreadPoolExecutor(given.jobs) as pool:
        for (path, _), (found, line) in zip(every, pool.map(lambda change: is_found(*change), every)):
            if not found:
                left += 1
                text = path.read_text(encoding="utf-8").splitlines()[line - 1].strip()
                print(f"{path.relative_to(TOOLS.parent)}:{line}: {text}", flush=True)
    print(f"{len(every)} changes, {left} that no case finds")
    return 0


if __name__ == "__main__":
    sys.exit(main())
