#!/usr/bin/env python3
"""Numbers the decisions of docs/DECISIONS.md in the order of the page, and mends what cites them.

    docs/renumber.py           numbers them, and rewrites each citation
    docs/renumber.py --check   fails if a number is out of order, or a citation names no decision

A decision begins a line with its number. The page cites one by its number in brackets, and any other file as `DECISIONS, N`.
"""

import os
import re
import sys

TOP = os.path.dirname(os.path.dirname(os.path.abspath(__file__)))
PAGE = "docs/DECISIONS.md"
DECISION = re.compile(r"^(\d+)\. ", re.MULTILINE)
INSIDE = re.compile(r"(?<!\w)\((\d{1,3})\)")
OUTSIDE = re.compile(r"(?<=DECISIONS,)(\s+)(\d+)")
ENDINGS = (".md", ".py", ".rt", ".antt", ".txt", ".edit", ".script", ".sh")
NOT_OURS = {".git", "out"}


def text_of(path):
    with open(path, encoding="utf-8") as file:
        return file.read()


def others():
    """The other files that may cite a decision, with their texts."""
    for base, folders, names in os.walk(TOP):
        folders[:] = sorted(set(folders) - NOT_OURS)
        for name in sorted(names):
            path = os.path.join(base, name)
            if name.endswith(ENDINGS) and os.path.relpath(path, TOP) != PAGE:
                text = text_of(path)
                if "DECISIONS," in text:
                    yield path, text


def main(arguments):
    path = os.path.join(TOP, PAGE)
    page = text_of(path)
    numbers = DECISION.findall(page)
    order = {number: str(at) for at, number in enumerate(numbers, 1)}
    elsewhere = list(others())
    cited = [(PAGE, number) for number in INSIDE.findall(page)]
    cited += [(os.path.relpath(file, TOP), number) for file, text in elsewhere for _, number in OUTSIDE.findall(text)]
    twice = {number for number in numbers if numbers.count(number) > 1}
    faults = [f"{file} cites {number}, which is no decision" for file, number in cited if number not in order]
    faults += [f"{file} cites {number}, which two decisions have" for file, number in cited if number in twice]
    if arguments == ["--check"]:
        faults += [f"{PAGE}: {number} is at place {at}" for at, number in enumerate(numbers, 1) if number != str(at)][:1]
    if faults:
        sys.exit("\n".join(faults))
    if arguments == ["--check"]:
        return
    places = iter(range(1, len(numbers) + 1))
    page = INSIDE.sub(lambda found: f"({order[found[1]]})", page)
    page = DECISION.sub(lambda found: f"{next(places)}. ", page)
    with open(path, "w", encoding="utf-8") as file:
        file.write(page)
    for file, text in elsewhere:
        mended = OUTSIDE.sub(lambda found: found[1] + order[found[2]], text)
        if mended != text:
            with open(file, "w", encoding="utf-8") as output:
                output.write(mended)


if __name__ == "__main__":
    main(sys.argv[1:])
