#!/usr/bin/env python3
"""Draws fresh inputs, and compares what the program does with them with the model in tools/model.

    python3 tools/fuzz.py PROGRAM [--seed S] [--cases N] [--jobs J] [--oracle ORACLE]

PROGRAM is the built conformance_run, which `rt ci` and `rt run` leave at crates/conformance_run/out. The
cases S to S + N - 1 are drawn, each from its own number: `--seed 7 --cases 1` draws case 7 again. They are
rows of a table with the model's answers, 20,000 in a file, and the program runs each file as it runs any
table: it compares verdict and answer, which have the status and the text of standard output or standard
error, and asks the further questions of crates/conformance_run/README.md. Each case that differs is printed
with its number, and then what was wanted and what came.

With --oracle, the program of tools/oracle/build.sh, the model's answers are compared with the Rust crate's
too: each difference needs a name of tools/oracle/differences.py, which are counted. The last lines are
counts, and the microseconds that a case takes in each part. Anything that differs fails. The model is the
slow part: it takes longer than the drawing, and several times as long as the program.
"""
import argparse
import os
import pathlib
import random
import re
import subprocess
import sys
import tempfile
import time
from collections import Counter
from concurrent.futures import ProcessPoolExecutor

TOOLS = pathlib.Path(__file__).resolve().parent
sys.path[:0] = [str(TOOLS), str(TOOLS / "oracle")]
try:
    from model.answer import answer
except ImportError:
    sys.exit("fuzz.py: tools/model is not there")
import compare
import differences
from inputs.cases import case
from inputs.draw import Draw

IN_A_FILE = 20_000
LONGEST = 1800
UNNAMED = "otherwise, and no name says why"
PLAIN = [chr(b) if 0x20 <= b <= 0x7E and b != 0x25 else f"%{b:02X}" for b in range(256)]


def drawn(first, count):
    """The cases of these numbers."""
    rng = random.Random()
    for number in range(first, first + count):
        rng.seed(number)
        yield case(Draw(rng))


def judged(form, kind, data):
    """The model's verdict and answer. One that fails is a difference, too."""
    try:
        return answer(form, kind, data)[:2]
    except Exception as error:  # whatever it is, it is to be printed
        return "is", f"the model failed: {ascii(error)}"


def rows_of(cases):
    """Each case with the model's answer, as the fields of a row, or None where it judges none. False stands
    for bytes of a value that is too deep: that is out of memory, with which the program would end."""
    for form, kind, data in cases:
        verdict, text = judged(form, kind, data)
        if verdict == "unknown":
            yield None
        elif verdict == "error" and text.startswith("Memory "):
            yield False
        else:
            yield [form, kind, "".join([PLAIN[b] for b in data]), verdict, text]


def run_program(program, first, rows):
    """What the program prints of the rows that differ, each with the number of its case."""
    with tempfile.TemporaryDirectory() as folder:
        path = os.path.join(folder, "drawn.tsv")
        numbers = [number for number, row in enumerate(rows, first) if row]
        with open(path, "w", encoding="ascii") as file:
            file.writelines("\t".join(row) + "\n" for row in rows if row)
        try:
            done = subprocess.run([program, "tables", path], capture_output=True, text=True, check=False,
                                  timeout=LONGEST)
        except subprocess.TimeoutExpired:
            return 1, f"the program takes more than {LONGEST} s for the cases from {first} on\n"
    counts = re.search(rf"^{re.escape(path)}: (\d+) cases, (\d+) differ$", done.stdout, re.M)
    if not counts or int(counts.group(1)) != len(numbers):
        return 1, f"the program ended with {done.returncode} in the cases from {first} on\n{done.stdout[-500:]}\n"
    reports = re.split(rf"^{re.escape(path)}:(?=\d+: )", done.stdout[:counts.start()], flags=re.M)[1:]
    return sorted_out(numbers, reports)


def sorted_out(numbers, reports):
    """How many reports of a program are of a difference, and their texts; the types that it does not know
    are a difference each."""
    kept, types = [], Counter()
    for report in reports:
        line, _, text = report.partition(": ")
        if text.endswith(", got unknown \n") and text.count("\n") == 2:
            types[text.split("\t")[1]] += 1
        else:
            kept.append(f"case {numbers[int(line) - 1]}: {text}")
    kept += [f"{count} cases of the type {kind}, which the program does not know\n"
             for kind, count in types.items()]
    return len(kept), "".join(kept)


def run_oracle(oracle, first, rows):
    """The differences between the model's answers and the crate's that no name explains, and counts."""
    numbered = [(number, row + ["", ""]) for number, row in enumerate(rows, first) if row]
    counts, printed = Counter(), ""
    for (number, row), (status, text) in zip(numbered, compare.ask(oracle, [row for _, row in numbered])):
        if status == "unknown":
            counts["of a type without an oracle"] += 1
        elif compare.is_same(row, status, text):
            counts["as the Rust crate"] += 1
        else:
            names = differences.names_of(row[0], row[1], compare.unescaped(row[2]), row[3], status)
            counts[names[0] if len(names) == 1 else "otherwise, by one of several names" if names else UNNAMED] += 1
            if not names:
                printed += f"case {number}: " + "\t".join(row[:5]) + f"\n  the crate {status} {text}\n"
    return counts, printed


def run_block(program, oracle, first, count):
    """Draws, judges and runs some cases: counts, what is printed, and the seconds of each part."""
    seconds, start = Counter(), time.perf_counter()

    def took(part):
        nonlocal start
        now = time.perf_counter()
        seconds[part] += now - start
        start = now

    cases = list(drawn(first, count))
    took("drawn")
    rows = list(rows_of(cases))
    took("model")
    differ, printed = run_program(program, first, rows)
    took("program")
    counts = Counter({"differ": differ, "unknown to the model": rows.count(None), "too deep": rows.count(False)})
    counts.update(f"{row[0]} {row[3]}" for row in rows if row)
    told = Counter()
    if oracle:
        told, more = run_oracle(oracle, first, rows)
        printed += more
        took("oracle")
    return counts, told, printed, seconds


def print_counts(counts, told, seconds, cases):
    """The lines at the end."""
    forms = sorted({name.split()[0] for name in counts if name.endswith((" is", " error"))})
    print(", ".join(f"{form} {counts[form + ' is']} + {counts[form + ' error']}" for form in forms)
          + ": accepted + rejected")
    for name, count in told.most_common():
        print(f"{count:9} {name}")
    print(", ".join(f"{part} {1e6 * time_of / cases:.0f}" for part, time_of in seconds.items())
          + ": microseconds a case, each on one core")
    if counts["too deep"]:
        print(f"{counts['too deep']} too deep in bytes, which are not asked")
    print(f"{cases} cases, {counts['unknown to the model']} unknown to the model, {counts['differ']} differ")


def arguments():
    parser = argparse.ArgumentParser()
    parser.add_argument("program")
    parser.add_argument("--seed", type=int, default=0)
    parser.add_argument("--cases", type=int, default=IN_A_FILE)
    parser.add_argument("--jobs", type=int, default=1)
    parser.add_argument("--oracle")
    return parser.parse_args()


def main():
    given = arguments()
    counts, told, seconds = Counter(), Counter(), Counter()
    end = given.seed + given.cases
    firsts = range(given.seed, end, IN_A_FILE)
    with ProcessPoolExecutor(given.jobs) as pool:
        blocks = [pool.submit(run_block, given.program, given.oracle, first, min(IN_A_FILE, end - first))
                  for first in firsts]
        for block in blocks:
            some, names, printed, times = block.result()
            print(printed, end="", flush=True)
            counts += some
            told += names
            seconds += times
    print_counts(counts, told, seconds, given.cases)
    return 1 if counts["differ"] or told[UNNAMED] else 0


if __name__ == "__main__":
    sys.exit(main())
