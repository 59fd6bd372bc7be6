"""Calls of dns_name, dns_text, dns_wire, neg_rule, harvest and dns_query: each row has a call, and what it must return."""

import os

from lib.checks import Checks, short
from lib.made_rows import made_files
from lib.programs import CALLS, run
from lib.rows import ROWS, read_rows


def compare(checks, name, rows):
    """Makes the calls of rows, and compares their results."""
    rows = list(rows)
    done = run([CALLS], b"".join(line + b"\n" for line, _ in rows))
    told = done.out.split(b"\n")[:-1]
    checks.equal(f"{name}, its end", (done.status, len(told)), (0, len(rows)))
    for (line, wanted), found in zip(rows, told):
        checks.equal(f"{name}: {short(line)}", found, wanted)


def main():
    checks = Checks()
    for file in sorted(os.listdir(ROWS)):
        compare(checks, file, read_rows(os.path.join(ROWS, file))[0])
    for name, rows in made_files().items():
        compare(checks, name, rows)
    checks.end()


main()
