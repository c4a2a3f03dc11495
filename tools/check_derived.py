#!/usr/bin/env python3
"""Compares the files that derive_files wrote with the copies that the gate has it check.

crates/derive_files/data/CRATE/src/FILE.txt is a copy of crates/CRATE/src/FILE, which ends in `mod derived;`, and
beside it stands one of the file of that module. So do those of the files in specs/ and proofs/ that it wrote, and of
the Lib.antt that declare them. Without arguments, prints each copy that differs or that is
missing, and fails; with --copy, makes the copies anew."""
import os
import sys

MODULE = "mod derived;\n"
WRITTEN = "-- Written by derive_files"
CRATES = os.path.join(os.path.dirname(os.path.abspath(__file__)), "..", "crates")
DATA = os.path.join(CRATES, "derive_files", "data")
OTHERS = ("derive_source", "derive_syntax", "derive_impls", "derive_text", "derive_files", "test_derive")
ROOTS = ("lib", "main", "mod")


def text_of(path):
    with open(path, encoding="utf-8") as file:
        return file.read()


def derived():
    """The files with user-defined types, below the folder of the crates."""
    for crate in sorted(os.listdir(CRATES)):
        source = os.path.join(CRATES, crate, "src")
        if crate in OTHERS or not os.path.isdir(source):
            continue
        for folder, folders, names in os.walk(source):
            folders.sort()
            for name in sorted(names):
                path = os.path.join(folder, name)
                if name.endswith(".rt") and text_of(path).endswith("\n" + MODULE):
                    yield os.path.relpath(path, CRATES)


def impls_of(name):
    """The file of the module of a file."""
    folder, file = os.path.split(name)
    stem = file.removesuffix(".rt")
    return os.path.join(folder, "" if stem in ROOTS else stem, "derived.rt")


def beside():
    """The files of definitions and proofs that derive_files wrote, and those that declare them."""
    for crate in sorted(os.listdir(CRATES)):
        written = []
        for part in ("specs", "proofs"):
            for folder, folders, names in os.walk(os.path.join(CRATES, crate, part)):
                folders.sort()
                paths = [os.path.join(folder, name) for name in sorted(names) if name.endswith(".antt")]
                written += [path for path in paths if text_of(path).startswith(WRITTEN)]
        if written:
            written += [os.path.join(CRATES, crate, part, "Lib.antt") for part in ("specs", "proofs")]
        for path in written:
            yield os.path.relpath(path, CRATES)


def faults_of(name):
    """Whether the copy of a file differs, after it was made, if it is to be."""
    copy = os.path.join(DATA, name + ".txt")
    text = text_of(os.path.join(CRATES, name))
    if "--copy" in sys.argv:
        os.makedirs(os.path.dirname(copy), exist_ok=True)
        with open(copy, "w", encoding="utf-8") as file:
            file.write(text)
    elif not os.path.exists(copy) or text_of(copy) != text:
        print(f"crates/derive_files/data/{name}.txt is no copy of crates/{name}")
        return 1
    return 0


def main():
    faults = 0
    for name in derived():
        faults += faults_of(name) + faults_of(impls_of(name))
        if name + ".txt" not in text_of(os.path.join(CRATES, "derive_files", "args")).split("\n"):
            faults += 1
            print(f"crates/derive_files/args does not name {name}.txt")
    for name in beside():
        faults += faults_of(name)
    print(f"{faults} faults")
    return faults != 0


sys.exit(main())
