#!/usr/bin/env python3
"""Reads the impls that derive wrote, and fails where they are not those of the definitions above them.

That a written file is proved says that its impls are lawful, and not that a name is the one that was
declared. So this script reads definitions and impls, each for itself and by none of the generator's
code, and compares what they say: the formats, the names in their order with `rename` and
`rename_all`, the types, which fields are required, optional or have a default and which, what a
skipped field is made as, and that a value is taken apart and made in the same order.

Usage, at the top of the repository: python3 tools/check_impls.py [SOURCE..]
A SOURCE ends in `mod derived;`. Without one all sources in crates/ are read. Further:
python3 tools/check_impls.py --drawn N PROGRAM, where PROGRAM is derive_files as `rt ci` left it,
draws N files of definitions with a fixed seed, has derive write their impls, and compares them.
"""
import pathlib
import random
import subprocess
import sys
import tempfile

sys.path.insert(0, str(pathlib.Path(__file__).parent))
from written.compared import compare  # noqa: E402
from written.definitions import Differs  # noqa: E402
from written.drawn import drawn  # noqa: E402


def derived_path(source):
    """Where the impls of a source stand."""
    folder = source.parent if source.stem in ("lib", "main", "mod") else source.with_suffix("")
    return folder / "derived.rt"


def check(sources):
    types = faults = 0
    for source in sources:
        try:
            types += compare(source.read_text(), derived_path(source).read_text())
        except Differs as difference:
            faults += 1
            print(f"{source}: {difference}")
        except (AttributeError, IndexError, KeyError, TypeError) as error:
            faults += 1
            print(f"{source}: something stands in no form that is known here: {error!r}")
    print(f"{len(sources)} files, {types} types, {faults} whose impls are others")
    return faults


def check_drawn(count, program):
    draw = random.Random(1)
    with tempfile.TemporaryDirectory() as folder:
        crate = pathlib.Path(folder, "drawn", "src")
        crate.mkdir(parents=True)
        sources = [crate / f"m{number}.rt" for number in range(count)]
        for number, source in enumerate(sources):
            source.write_text(drawn(draw, number))
        run = subprocess.run(
            [str(pathlib.Path(program).resolve()), *map(str, sources)],
            cwd=folder,
            capture_output=True,
            text=True,
        )
        if run.returncode:
            print(run.stdout[-600:] + run.stderr[-600:])
            return 1
        return check(sources)


def main(words):
    if words[:1] == ["--drawn"]:
        return check_drawn(int(words[1]), words[2])
    sources = [pathlib.Path(word) for word in words] or sorted(
        path
        for path in pathlib.Path("crates").glob("*/src/**/*.rt")
        if path.read_text().endswith("\nmod derived;\n")
    )
    return check(sources)


if __name__ == "__main__":
    sys.exit(1 if main(sys.argv[1:]) else 0)
