#!/usr/bin/env python3
"""Measures documents of JSON beside serde_json::Value, and prints the table of docs/SPEED.md.

    python3 tools/measure/documents.py OUT

It runs crates/example_document, as `rt ci` built it, and document_peer, which it builds in OUT over
Debian's packages librust-serde-json-dev and librust-indexmap-dev; it wants cargo, valgrind and GNU
time. Both read the same records from
standard input and write them again, and must write the same. Instructions are counted at 1 MB, by
valgrind; times are processor seconds, the median of 25 runs in which the two take turns.
"""
import json
import os
import pathlib
import random
import shutil
import statistics
import subprocess
import sys

HERE = pathlib.Path(__file__).resolve().parent
PORT = HERE.parent.parent / "crates/example_document/out/example_document"
REGISTRY = "/usr/share/cargo/registry"
COUNT = ["valgrind", "--tool=cachegrind", "--cache-sim=no", "--cachegrind-out-file=/dev/null"]
RUNS = 25


def build(out):
    """The peer's program."""
    folder = out / "document_peer"
    shutil.copytree(HERE / "document_peer", folder, dirs_exist_ok=True)
    (folder / ".cargo").mkdir(exist_ok=True)
    (folder / ".cargo/config.toml").write_text(
        f'[source.crates-io]\nreplace-with = "debian"\n[source.debian]\ndirectory = "{REGISTRY}"\n')
    subprocess.run(["cargo", "build", "--release", "--offline", "--quiet"], cwd=folder, check=True)
    return folder / "target/release/document_peer"


def record(number, draw):
    """A record with a list, an object, and a text that has an escape."""
    return {
        "id": number, "name": f"name {number}", "tags": [f"a{number % 7}", "b", f"tag {number}"],
        "at": {"x": draw.randint(-10**6, 10**6), "y": draw.randint(0, 10**12)},
        "open": number % 3 == 0, "note": None if number % 2 else 'some text with "quotes" and more',
    }


def make(path, megabytes, indent):
    """A list of records of so many megabytes, as it is on one line."""
    draw, records, size = random.Random(3), [], 0
    while size < megabytes * 10**6:
        records.append(record(len(records), draw))
        size += len(json.dumps(records[-1], separators=(",", ":"))) + 1
    separators = None if indent else (",", ":")
    path.write_text(json.dumps(records, separators=separators, indent=2 if indent else None))


def run(program, word, path):
    """Processor seconds."""
    with open(path) as text:
        child = subprocess.Popen([program, word], stdin=text, stdout=subprocess.DEVNULL)
        used = os.wait4(child.pid, 0)[2]
    return used.ru_utime + used.ru_stime


def peak(program, word, path):
    """The peak of memory in MB."""
    with open(path) as text:
        log = subprocess.run(["time", "-f", "%M", program, word], stdin=text, stdout=subprocess.DEVNULL,
                             stderr=subprocess.PIPE).stderr
    return int(log) / 1024


def counted(program, word, path):
    """Instructions of a run."""
    with open(path) as text:
        log = subprocess.run([*COUNT, program, word], stdin=text, capture_output=True, text=True).stderr
    line = next(line for line in log.splitlines() if "refs:" in line)
    return int(line.split(":")[1].replace(",", ""))


def main():
    out = pathlib.Path(sys.argv[1])
    out.mkdir(parents=True, exist_ok=True)
    programs = PORT, build(out)
    print("| Input | Output | Instructions | Speed at 1 MB | Speed at 10 MB | Peak at 10 MB |")
    print("|---|---|---|---|---|---|")
    for kind in ("one line", "indented"):
        paths = {megabytes: out / f"{kind[:3]}{megabytes}.json" for megabytes in (1, 10)}
        for megabytes, path in paths.items():
            make(path, megabytes, kind == "indented")
        for word in ("compact", "indent"):
            texts = {subprocess.run([one, word], stdin=open(paths[1]), capture_output=True).stdout
                     for one in programs}
            assert len(texts) == 1, "the two do not write the same"
            counts = [counted(one, word, paths[1]) for one in programs]
            cells = [f"{counts[0] / counts[1]:.2f}"]
            for megabytes in (1, 10):
                runs = [[run(one, word, paths[megabytes]) for one in programs] for _ in range(RUNS)]
                port, peer = (statistics.median(turn[who] for turn in runs) for who in (0, 1))
                cells.append(f"{peer / port:.2f}")
            peaks = [peak(one, word, paths[10]) for one in programs]
            cells.append(f"{peaks[0]:.0f} and {peaks[1]:.0f} MB")
            print(f"| {kind} | {word} | {' | '.join(cells)} |", flush=True)


main()
