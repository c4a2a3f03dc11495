#!/usr/bin/env python3
"""Lists the public functions and methods of the libraries that no test file calls by name.

The libraries are the crates of crates.txt above its tests, but for the generator. A test file is one of a crate of
tests or of `conformance`, whose calls the tables of cases make. It counts where its crate stands on the
function's, straight or through others; so do the files of an example that the crate stands on,
since its tests run them. A call counts by its name alone, whatever its type. The script fails on a
function that no test calls and that is not in UNCALLED, and on a name there that tests call. Usage,
at the top of the repository: python3 tools/list_calls.py [--all]
With --all each function is listed, with the files that call it.
"""
import pathlib
import re
import sys

ITEM = re.compile(r"^(\s*)(pub |pub\(crate\) )?(?:final )?(trait|impl|fn)\b(.*)")
COMMENT = re.compile(r"//.*")
# Public functions that no test calls, as they are printed, and why.
UNCALLED = {}


def crates():
    """Each crate with the crates straight below it, and the libraries among them."""
    below, libraries, is_library = {}, [], True
    for line in pathlib.Path("crates.txt").read_text().splitlines():
        is_library = is_library and not line.startswith("# tests")
        if line and not line.startswith("#"):
            head, _, uses = line.partition(":")
            crate = head.split()[0]
            below[crate] = uses.split()
            is_generator = crate.startswith("derive_")
            if is_library and not is_generator and pathlib.Path("crates", crate, "src/lib.rt").exists():
                libraries.append(crate)
    return below, libraries


def all_below(below, name):
    """The crate and every crate that it stands on."""
    found, left = set(), [name]
    while left:
        crate = left.pop()
        if crate not in found:
            found.add(crate)
            left += below.get(crate, [])
    return found


def public_functions(crate):
    """File, owner and name of each function that another crate can call."""
    exports = pathlib.Path("crates", crate, "src/lib.rt").read_text()
    for path in sorted(pathlib.Path("crates", crate, "src").glob("**/*.rt")):
        owner, is_open = "", False
        for line in path.read_text().splitlines():
            item = ITEM.match(line)
            if not item:
                continue
            indent, public, kind, rest = item.groups()
            if kind == "fn":
                name = re.match(r"\s*(\w+)", rest).group(1)
                holder = owner if indent else ""
                exported = rf"\b{holder or name}\b|pub mod {path.stem};"
                if (public == "pub " or indent and is_open) and re.search(exported, exports):
                    yield path, holder, name
            elif not indent:
                is_open = kind == "trait" and public == "pub "
                owner = re.sub(r"^.* for |^<[^ ]*> |[<:{ ].*$", "", rest.strip())


def calls(path):
    """The names that the file calls, with those under another name."""
    text = COMMENT.sub("", path.read_text())
    names = set(re.findall(r"(?<!fn )\b(\w+)(?:::<[^()]*>)?\(", text))
    others = re.findall(r"\b(\w+) as (\w+)", text)
    return names | {name for name, other in others if other in names}


def test_files(below, libraries):
    """Each file that tests run, with its calls and the crates that they stand on."""
    for tests in below:
        if tests.startswith(("test_", "conformance")):
            stands_on = all_below(below, tests)
            for crate in sorted(stands_on - set(libraries)):
                for path in sorted(pathlib.Path("crates", crate, "src").glob("**/*.rt")):
                    yield path, calls(path), stands_on


def main():
    below, libraries = crates()
    files = list(test_files(below, libraries))
    count, faults, untested = 0, 0, set()
    for crate in libraries:
        for path, owner, name in public_functions(crate):
            able = (file for file in files if crate in file[2])
            callers = sorted({str(file[0]) for file in able if name in file[1]})
            count += 1
            label = "::".join(part for part in (crate, owner, name) if part)
            if not callers:
                untested.add(label)
                faults += label not in UNCALLED
            if "--all" in sys.argv or not callers:
                print(f"{label} ({path.name}):", *(callers or [UNCALLED.get(label, "none")]))
    for label in sorted(set(UNCALLED) - untested):
        print(f"{label} is called, or is no public function")
        faults += 1
    print(f"{count} public functions, {len(untested)} that no test calls, {faults} faults")
    return 1 if faults else 0


sys.exit(main())
