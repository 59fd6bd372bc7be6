"""The resolution of questions, through `play resolve`: rows play the name servers, and have the queries and the answer.

A row of tests/resolution:

    == what the row is about
    hints 127.0.0.1@5301                     lines that the program obeys
    ask a.test. A
    > 127.0.0.1@5301 udp a.test. A           the query that has to be sent, and its outcome (tests/lib/rows.py)
    < aa | answer a.test. 60 A 192.0.2.9
    = answer 0 - | a.test. 60 A 192.0.2.9    the answer
    look a.test. A
    : found 4 60 a.test. A 192.0.2.9         the reply to a line

A row need not have what a task asks the book. A line `? TEXT` before a query or an answer says that the task asked what begins
with TEXT, `! TEXT` that it did not.
"""

import os

from lib.checks import Checks
from lib.programs import PLAY, TOP, run
from lib.rows import came, query_words, rows_in

FOLDER = os.path.join(TOP, "tests/resolution")
OWN_LINES = ("port", "cells", "hints", "ask", "refuse", "confuse", "lie", "at")
BOOK_LINES = ("look ", "servers ", "admit ", "sweep ", "oldest ", "forget ", "told ")


def given(lines):
    """The input of the program for a row."""
    asked = ""
    for line in lines:
        mark, _, rest = line.partition(" ")
        if mark == ">":
            asked = rest.split(" ", 2)[2]
        elif mark == "<":
            yield came(asked, rest)
        elif mark not in ("=", ":", "?", "!"):
            yield line


def difference(lines, told):
    """The first difference between the program's output and a row, or None."""
    told, asked, identifier = list(told), [], None
    for line in lines:
        mark, _, rest = line.partition(" ")
        if mark in (">", "="):
            asked = []
            while told and told[0].startswith(BOOK_LINES):
                asked.append(told.pop(0))
            found = told.pop(0) if told else "nothing"
            if (query_words(found) if found.startswith("send ") else found) != rest:
                return f"{found}, wanted {rest}"
            if mark == ">" and found.split()[3][:4] == identifier:
                return f"{found} has the identifier of the query before"
            identifier = found.split()[3][:4] if mark == ">" else None
        elif mark == "?" and not any(line.startswith(rest) for line in asked):
            return f"no {rest} among {asked}"
        elif mark == "!" and any(line.startswith(rest) for line in asked):
            return f"{rest} among {asked}"
        elif mark == ":":
            found = told.pop(0) if told else "nothing"
            if found != rest:
                return f"{found}, wanted {rest}"
        elif mark not in ("<", "?", "!", *OWN_LINES) and (not told or told.pop(0) != "ok"):
            return f"no moment before {line}"
    return f"more: {told}" if told else None


# ---- memory

# Rows that run with each allocation refused in turn.
REFUSED = (
    "a referral, an alias inside the response, and what the book holds then",
    "a nested question",
    "no such name",
    "a set that passes",
    "local data",
    "TC over UDP asks the same server over TCP",
)
MOST = 10_000

# The replies to a line of a script if there is no memory for it, or for its reply.
LINE_WANTS = ("error no_memory", "fault no_memory", "fault reply_lost")


def fault_of_refusal(told, whole, status):
    """What is wrong with the output of a run in which an allocation was refused, compared with that of a run without a fault.

    If the task gets no memory, the program ends. If the book gets none, a lookup fails its question, and an admission is ignored.
    A line of a script reports it, and the output after it may differ.
    """
    at = next((n for n, pair in enumerate(zip(told, whole)) if pair[0] != pair[1]), min(len(told), len(whole)))
    if at == len(told):
        return None if status in (1, 3) or told == whole else f"status {status} behind {told[-1:]}"
    if told[at] in LINE_WANTS:
        return None
    if told[at] != "told fault":
        return f"{told[at]}, and with memory {whole[at]}"
    ends = [line for line in told[at:] if line.startswith("answer")]
    wanted = [line for line in whole if line.startswith("answer")]
    if not told[at - 1].startswith("admit "):
        wanted = ["answer 2 -"]
    return None if status == 3 or ends[:1] == wanted else f"{ends} behind a fault of {told[at - 1]}, wanted {wanted}"


def refuse_each(checks, about, lines):
    """Runs a row with each allocation refused in turn."""
    text = "\n".join([*given(lines), ""]).encode()
    whole = run([PLAY, "resolve"], text).out.decode().splitlines()
    for nth in range(1, MOST):
        done = run([PLAY, "resolve"], text, preload="refuse", REFUSE_NTH=nth)
        if "refused" not in done.told:
            checks.check(f"{about}: some allocations are refused", None if nth > 20 else f"{nth}")
            return
        checks.check(f"{about}: allocation {nth}", fault_of_refusal(done.out.decode().splitlines(), whole, done.status))


def main():
    checks = Checks()
    for file in sorted(os.listdir(FOLDER)):
        for about, lines in rows_in(os.path.join(FOLDER, file))[0]:
            done = run([PLAY, "resolve"], "\n".join([*given(lines), ""]).encode())
            checks.equal(f"{file}: {about}: its status", done.status, 0)
            checks.check(f"{file}: {about}", difference(lines, done.out.decode().splitlines()))
            if about in REFUSED:
                refuse_each(checks, about, lines)
    checks.end()


main()
