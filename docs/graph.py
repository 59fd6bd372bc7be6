#!/usr/bin/env python3
"""Draws docs/crates.svg, the graph of the crates of the program, from crates.txt.

A crate is one row above the highest crate that it uses. An arrow leads to each crate that it uses, unless other arrows lead
there already. No arrow passes under a crate. `docs/graph.py` writes the picture, `docs/graph.py --check` fails if it is not up to date.
"""

import os
import sys

TOP = os.path.dirname(os.path.dirname(os.path.abspath(__file__)))
PICTURE = os.path.join(TOP, "docs/crates.svg")
PROGRAM = "resolver_cli"

WIDE, HIGH = 118, 26
ACROSS, DOWN = 138, 62
# The width that an arrow takes in a row that it passes.
GAP = 22
MARGIN = 16


def crates():
    """Each crate of crates.txt with those of the file that it uses."""
    uses = {}
    with open(os.path.join(TOP, "crates.txt"), encoding="utf-8") as file:
        for line in file:
            line = line.split("#")[0].strip()
            if line:
                head, _, tail = line.partition(":")
                uses[head.split()[0]] = tail.split()
    return {name: [used for used in tail if used in uses] for name, tail in uses.items()}


def below(uses, top):
    """A crate, and all crates below it."""
    found, waiting = set(), [top]
    while waiting:
        name = waiting.pop()
        if name not in found:
            found.add(name)
            waiting += uses[name]
    return found


def rows(uses):
    """The crates by rows, the lowest first, each row in the order of crates.txt."""
    row = {}

    def place(name):
        if name not in row:
            row[name] = 1 + max((place(used) for used in uses[name]), default=-1)
        return row[name]

    for name in uses:
        place(name)
    return [[name for name in uses if row[name] == at] for at in range(max(row.values()) + 1)]


def arrows(uses):
    """Pairs of a crate and one that it uses, without those that follow from others."""
    for name, direct in uses.items():
        for used in direct:
            if not any(used in below(uses, other) for other in direct if other != used):
                yield name, used


def routed(table, pairs):
    """The rows with a gap for each arrow that passes them, and the arrows as chains of crates and gaps, one row after another."""
    row = {name: at for at, names in enumerate(table) for name in names}
    table, chains = [list(names) for names in table], []
    for name, used in pairs:
        gaps = [(used, name, at) for at in range(row[name] - 1, row[used], -1)]
        for gap in gaps:
            table[gap[2]].append(gap)
        chains.append([name, *gaps, used])
    return table, chains


def width_of(thing):
    return GAP if isinstance(thing, tuple) else ACROSS


def spread(names):
    """How far each thing of a row is from the middle of the row."""
    left, found = -sum(map(width_of, names)) / 2, {}
    for name in names:
        found[name] = left + width_of(name) / 2
        left += width_of(name)
    return found


def straightened(table, chains):
    """The rows, each sorted by what its things are joined to, from below and then from above, so that few arrows cross."""
    joined = {}
    for chain in chains:
        for upper, lower in zip(chain, chain[1:]):
            joined.setdefault(upper, []).append(lower)
            joined.setdefault(lower, []).append(upper)
    across = {name: x for names in table for name, x in spread(names).items()}
    for _ in range(12):
        for names in (*table, *reversed(table)):
            wish = {name: sum(across[other] for other in joined[name]) / len(joined[name]) for name in names}
            names.sort(key=wish.get)
            across.update(spread(names))
    return table, across


def drawn(uses):
    """The picture as text."""
    table, chains = routed(rows(uses), list(arrows(uses)))
    table, across = straightened(table, chains)
    width = 2 * MARGIN + max(sum(map(width_of, names)) for names in table)
    height = 2 * MARGIN + len(table) * DOWN - (DOWN - HIGH)
    middle = {}
    for at, names in enumerate(table):
        for name in names:
            middle[name] = (width / 2 + across[name], height - MARGIN - HIGH / 2 - at * DOWN)
    boxes = [(name, *middle[name]) for name in uses]
    lines = [
        f'<svg xmlns="http://www.w3.org/2000/svg" viewBox="0 0 {width:g} {height:g}" font-family="monospace" font-size="12">',
        "<title>The crates of the resolver: each uses those to which its lines lead down</title>",
        f'<rect width="{width:g}" height="{height:g}" fill="#fff"/>',
        '<g fill="none" stroke="#888">',
    ]
    for chain in chains:
        x, y = middle[chain[0]]
        path = f"M{x:g} {y + HIGH / 2:g}"
        for thing in chain[1:]:
            to_x, to_y = middle[thing]
            bend = y + DOWN / 2
            path += f"C{x:g} {bend:g} {to_x:g} {bend:g} {to_x:g} {to_y - HIGH / 2:g}V{to_y + HIGH / 2:g}"
            x, y = to_x, to_y
        lines.append(f'<path d="{path[: path.rindex("V")]}"/>')
    lines.append('</g><g fill="#eef4fb" stroke="#36c">')
    lines += [f'<rect x="{x - WIDE / 2:g}" y="{y - HIGH / 2:g}" width="{WIDE}" height="{HIGH}" rx="4"/>' for _, x, y in boxes]
    lines.append('</g><g text-anchor="middle" fill="#123">')
    lines += [f'<text x="{x:g}" y="{y + 4:g}">{name}</text>' for name, x, y in boxes]
    return "\n".join([*lines, "</g></svg>", ""])


def main():
    uses = crates()
    product = below(uses, PROGRAM)
    picture = drawn({name: used for name, used in uses.items() if name in product})
    if sys.argv[1:] == ["--check"]:
        with open(PICTURE, encoding="utf-8") as file:
            if file.read() != picture:
                sys.exit("docs/crates.svg is not that of crates.txt: run docs/graph.py")
    else:
        with open(PICTURE, "w", encoding="utf-8") as file:
            file.write(picture)


if __name__ == "__main__":
    main()
