#!/usr/bin/env python3
"""Measures the first `rt ci` of derived types, and prints the figures of docs/SPEED.md.

    python3 tools/measure/derived_types.py FOLDER

FOLDER must not be there yet, and may be removed afterwards. A repository over copies of the crates is made
there, with programs that only have a type each: a struct of 12 fields, one of 40, and an enum of 20
variants, each in bytes, in JSON, in RON and in all three; and a program with no type. What they stand on is
proved first, which takes an hour or more where this machine has not kept it. Then `rt ci NAME` is run of one
program after the other. What is printed is its processor seconds, with those of the programs that it starts.
"""
import pathlib
import resource
import subprocess
import sys

TOP = pathlib.Path(__file__).resolve().parent.parent.parent
FIELDS = ["u32", "String", "bool", "Option<u16>"]
FORMATS = [("bytes", "bin"), ("JSON", "json"), ("RON", "ron"), ("all three", "bin json ron")]
SCHEMAS = ["nano_bin_schema", "nano_json_schema", "nano_ron_schema"]


def struct(count):
    """A struct of so many fields: integers, texts, booleans and options in turn."""
    fields = [f"    pub field_{i:02}: {FIELDS[i % len(FIELDS)]},\n" for i in range(count)]
    return "pub struct Measured {\n" + "".join(fields) + "}\n"


def enum(count):
    """An enum of so many variants: unit, newtype and struct variants in turn."""
    shapes = ["", "({})", " {{ number: u32, text: String }}"]
    contents = [shapes[i % 3].format(FIELDS[i % len(FIELDS)]) for i in range(count)]
    variants = [f"    Variant{i:02}{content},\n" for i, content in enumerate(contents)]
    return "pub enum Measured {\n" + "".join(variants) + "}\n"


TYPES = [
    ("struct of 12 fields", struct(12)),
    ("struct of 40 fields", struct(40)),
    ("enum of 20 variants", enum(20)),
]


def program(folder, name, formats, definition):
    """Writes a program with this type, or with none."""
    source = folder / "crates" / name / "src"
    source.mkdir(parents=True)
    module = "mod measured;\n\n" if definition else ""
    body = f"{module}fn main(rt: HostRuntime) {{}}\n"
    (source / "main.rt").write_text(f"//! Measured.\n#![tactic(auto)]\n\n{body}")
    if definition:
        head = f"//! A type.\n\n// nanoserde: {formats}\n/// It.\n#[derive(Debug, Drop)]\n"
        (source / "measured.rt").write_text(f"{head}{definition}\nmod derived;\n")


def write_all(folder):
    """Writes all programs and their impls, and gives their names with the type and the format of each."""
    vendor = ["sh", TOP / "vendor", folder, *SCHEMAS]
    lines = subprocess.run(vendor, check=True, capture_output=True, text=True).stdout
    below = " ".join(line.split(":")[0] for line in lines.splitlines() if not line.startswith("#"))
    programs = [("measured_none", "no type", "all three")]
    program(folder, "measured_none", "", "")
    for at, (what, definition) in enumerate(TYPES):
        for label, formats in FORMATS:
            name = f"measured_{at}_{formats.replace(' ', '_')}"
            program(folder, name, formats, definition)
            programs.append((name, what, label))
    sources = [folder / "crates" / name / "src/measured.rt" for name, _, _ in programs[1:]]
    ours = "".join(f"{name}: {below}\n" for name, _, _ in programs)
    (folder / "crates.txt").write_text(lines + ours)
    subprocess.run(["sh", TOP / "derive", *sources], check=True, capture_output=True)
    for name, _, _ in programs:
        subprocess.run(["rt", "fmt"], cwd=folder / "crates" / name, check=True, capture_output=True)
    return programs


def seconds(folder, name):
    """Processor seconds of `rt ci` of this crate, which must pass."""
    before = resource.getrusage(resource.RUSAGE_CHILDREN)
    done = subprocess.run(["rt", "ci", name], cwd=folder, capture_output=True, text=True)
    after = resource.getrusage(resource.RUSAGE_CHILDREN)
    if done.returncode != 0:
        sys.exit(f"{name} did not pass:\n{done.stdout[-2000:]}")
    return after.ru_utime - before.ru_utime + after.ru_stime - before.ru_stime


def main():
    if len(sys.argv) != 2:
        sys.exit("usage: python3 tools/measure/derived_types.py FOLDER")
    folder = pathlib.Path(sys.argv[1]).resolve()
    folder.mkdir()
    programs = write_all(folder)
    subprocess.run(["rt", "ci", *SCHEMAS], cwd=folder, check=True, capture_output=True)
    print("| Type | Formats | Seconds |\n|---|---|---|")
    for name, what, label in programs:
        print(f"| {what} | {label} | {round(seconds(folder, name))} |", flush=True)


if __name__ == "__main__":
    main()
