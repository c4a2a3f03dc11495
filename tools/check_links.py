#!/usr/bin/env python3
"""Follows each link and picture of the documents, and fails on a file or a heading that is not there.

A link to another site is not followed. Usage, at the top of the repository:
python3 tools/check_links.py
"""
import pathlib
import re
import sys

LINK = re.compile(r"!?\[[^\]]*\]\(([^)\s]+)\)")


def documents():
    """The documents, at the top, in docs/ and beside the crates."""
    top = pathlib.Path(".")
    return sorted([*top.glob("*.md"), *top.glob("docs/*.md"), *top.glob("crates/*/*.md")])


def prose(text):
    """The lines of a document with their numbers, without those of fenced and indented code."""
    fenced = False
    for number, line in enumerate(text.splitlines(), 1):
        if line.startswith("```"):
            fenced = not fenced
        elif not fenced and not line.startswith("    "):
            yield number, line


def anchor(heading):
    """The anchor that a heading has: lower case, no punctuation, hyphens for spaces."""
    words = re.sub(r"[`*]|\[([^\]]*)\]\([^)]*\)", r"\1", heading).strip().lower()
    return re.sub(r"[^\w\- ]", "", words).replace(" ", "-")


def anchors(path):
    """The anchors of a document; of headings that are alike each has a number of its own."""
    seen, found = {}, set()
    for _, line in prose(path.read_text()):
        heading = re.match(r"#+ (.*)", line)
        if heading:
            name = anchor(heading.group(1))
            found.add(f"{name}-{seen[name]}" if name in seen else name)
            seen[name] = seen.get(name, 0) + 1
    return found


def fault_of(path, target):
    """What is wrong with a link of a document, if anything is."""
    if re.match(r"[a-z]+:", target):
        return None
    file, _, name = target.partition("#")
    there = path.parent / file if file else path
    if not there.exists():
        return f"no file {target}"
    if name and (there.suffix != ".md" or name not in anchors(there)):
        return f"no heading {target}"
    return None


def main():
    count, faults = 0, 0
    for path in documents():
        for number, line in prose(path.read_text()):
            for target in LINK.findall(re.sub(r"`[^`]*`", "", line) + "".join(
                    re.findall(r"!?\[`[^\]]*\]\([^)\s]+\)", line))):
                count += 1
                fault = fault_of(path, target)
                if fault:
                    print(f"{path}:{number}: {fault}")
                    faults += 1
    print(f"{count} links, {faults} that lead nowhere")
    return 1 if faults else 0


if __name__ == "__main__":
    sys.exit(main())
