"""Runs the cases of a table with each request for memory refused, and counts what comes.

refuse_memory.sh calls it with the built program, the built refuse_malloc.c, and the table.
"""
import os
import re
import subprocess
import sys
from collections import Counter
from concurrent.futures import ThreadPoolExecutor
from pathlib import Path

sys.path.insert(0, str(Path(__file__).resolve().parents[1]))
from model import cases  # noqa: E402

# Calls of a state that take no memory.
WITHOUT_MEMORY = (".next", ".fail", ".is_null", ".is_none", ".is_block_close", ".is_curly_close",
                  ".is_paren_close", ".next_str", ".next_ident", ".err_memory")


def run(program, library, line):
    """What the case answers, with requests refused and last with none refused; how many requests it
    makes, and how many of them were refused, which is -1 where refuse_malloc.c did not count them."""
    environment = dict(os.environ, LD_PRELOAD=library)
    # The program does not look at what is wanted, and a word of a command line is at most 128 KB.
    case = "\t".join(line.split("\t")[:3] + ["", ""])
    done = subprocess.run([program, "one", case], env=environment, capture_output=True, check=False)
    lines = done.stdout.decode().split("\n")[:-1]
    counts = re.search(rb"^(\d+) (\d+)\n\Z", done.stderr, re.M)
    requests, refused = counts.groups() if counts else (-1, -1)
    return lines[:-1], lines[-1] if lines else "stopped", int(requests), int(refused)


def is_place(line, place):
    """Whether line and column are those after some characters of the case's text."""
    text = cases.unescape(line.split("\t")[2]).decode()
    places, row, column = {(1, 1)}, 1, 1
    for character in text:
        row, column = (row + 1, 1) if character == "\n" else (row, column + 1)
        places.add((row, column))
    return place in places


def judged(line, answer, ample):
    """What an answer is beside the one with ample memory. An error of TOML that is out of memory has
    a place and no words. Of calls one after another, one that runs out of memory is the last, and
    those before it answer as with ample memory."""
    if answer == ample:
        return "ample"
    if answer == "out of memory":
        return "memory"
    toml = re.fullmatch(r"error Toml error: , line:(\d+) col:(\d+)", answer)
    if toml:
        return "memory" if is_place(line, (int(toml.group(1)), int(toml.group(2)))) else "other"
    calls = line.split("\t")[1].split(" ")
    *done, last = answer.removeprefix("is ").split(" | ")
    is_same = done == ample.removeprefix("is ").split(" | ")[: len(done)]
    takes_memory = len(done) < len(calls) and calls[len(done)] not in WITHOUT_MEMORY
    if is_same and takes_memory and last.startswith("out of memory -> "):
        return "memory"
    return "other"


def status_of(counts):
    """1 where something is other, and where no request was refused or none of them was felt."""
    of_kind = Counter()
    for (_, kind), count in counts.items():
        of_kind[kind] += count
    for kind, what in (("refused", "no request was refused"), ("memory", "nothing ran out of memory")):
        if not of_kind[kind]:
            print(what)
    return 0 if of_kind["refused"] and of_kind["memory"] and not of_kind["other"] else 1


def main():
    """Runs each case, prints what is other, and the counts by format."""
    program, library, table = sys.argv[1:]
    with open(table, encoding="ascii") as file:
        lines = [line.rstrip("\n") for line in file]
    lines = [line for line in lines if line and not line.startswith("#")]
    counts, long = Counter(), Counter()
    with ThreadPoolExecutor(2) as pool:
        results = pool.map(lambda line: run(program, library, line), lines)
        for line, (answers, ample, requests, refused) in zip(lines, results):
            form = line.split("\t")[0]
            counts[form, "cases"] += 1
            counts[form, "refused"] += max(refused, 0)
            if refused < 0:
                counts[form, "other"] += 1
                print(f"other: {line[:1000]}\n  no request was counted")
            if refused < requests:
                long.update(cases=1, requests=requests, refused=refused)
            if ample in ("out of memory", "stopped", "no case"):
                answers = answers + [ample]
                ample = "an answer"
            for answer in answers:
                kind = judged(line, answer, ample)
                counts[form, kind] += 1
                if kind == "other":
                    print(f"other: {line[:1000]}\n  wanted {ample[:1000]}\n  came {answer[:1000]}")
    print(os.path.basename(table))
    for form in sorted({form for form, _ in counts}):
        print(form, *(f"{kind} {counts[form, kind]}" for kind in ("cases", "ample", "memory", "other")))
    if long:
        print(f"{long['cases']} long cases: {long['refused']} of {long['requests']} requests refused")
    return status_of(counts)


if __name__ == "__main__":
    sys.exit(main())
