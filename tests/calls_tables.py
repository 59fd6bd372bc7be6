"""Changes of local zones and of stubs, each with its way back, and under a journal. The results were worked out by hand.

A row of tests/tables:

    == what the row is about
    journal 2                  how many changes the journal keeps, if not 64
    local_zone a. deny         a line for the program
    : ok 1                     the reply to it
"""

import os

from lib.checks import Checks
from lib.programs import PLAY, TABLES, TOP, read, run
from lib.rows import rows_in

ROWS = os.path.join(TOP, "tests/tables/journal.rows")
MOST_ZONES, MOST_STUBS = 4_096, 1_024


def play_journal(checks, about, limit, lines, wanted):
    """Checks the replies to lines under a journal of a given length."""
    done = run([PLAY, "journal", str(limit)], "".join(line + "\n" for line in lines).encode())
    checks.equal(f"journal: {about}", done.out, "".join(line + "\n" for line in wanted).encode())
    checks.equal(f"journal: {about}: its end", (done.status, done.err), (0, b""))


def check_rows(checks):
    for about, lines in rows_in(ROWS)[0]:
        limits = [line.split()[1] for line in lines if line.startswith("journal ")]
        given = [line for line in lines if not line.startswith((": ", "journal "))]
        play_journal(checks, about, *(limits or [64]), given, [line[2:] for line in lines if line.startswith(": ")])


def check_full(checks, about, most, line):
    """One entry more than the limit is refused. If the last one is undone, another fits."""
    lines = [line.format(place) for place in range(most + 1)] + ["undo", line.format(most), line.format(most + 1)]
    wanted = [f"ok {place + 1}" for place in range(most)] + ["error too_many", f"undone {most}", f"ok {most + 1}", "error too_many"]
    play_journal(checks, about, 64, lines, wanted)


def main():
    checks = Checks()
    for word, (lines, wanted) in TABLES.items():
        done = run([PLAY, word], read(lines))
        checks.equal(f"{word}, the status", done.status, 0)
        checks.equal(word, done.out, read(wanted))
    check_rows(checks)
    check_full(checks, "one zone too many", MOST_ZONES, "local_zone z{}. static")
    check_full(checks, "one stub too many", MOST_STUBS, "stub_add s{}. 192.0.2.1")
    checks.end()


main()
