"""Drawn allocations are refused: with full tables, with a full cache, and in random scripts. Lines that get no memory have no effect."""

# By its whole name alone.

import random

from lib.checks import Checks, short
from lib.drawing import drawn_script
from lib.full_books import check_books, number_told
from lib.model import Model
from lib.programs import RESOLVER, run
from lib.refusing import LOST, NO_MEMORY, SHOWING, replies_to

BOOKS, SCRIPTS, ALLOCATIONS, SEED = 40, 100, 12, 20_261_126


def fault_of_run(arguments, lines, done):
    """The fault of a run by the model, or `None`, and the number of lines that got no memory or no reply."""
    replies = replies_to([line.encode() for line in lines], done.out)
    if replies is None or done.status != 0:
        return f"status {done.status}, {done.err!r}, {done.out.count(10)} lines", 0
    model, wants = fresh(arguments), 0
    for number, (line, reply) in enumerate(zip(lines, replies), 1):
        if reply in NO_MEMORY:
            wants += 1
            continue
        wanted = "\n".join(model.obey(line)).encode()
        if reply == LOST and line.encode().startswith(SHOWING):
            wants += 1
        elif reply != wanted:
            return f"line {number}, {line}, gets {short(reply)}, wanted {short(wanted)}", wants
    return None, wants


def fresh(arguments):
    """A model with the settings of a script."""
    named = dict(word[2:].split("=") for word in arguments if word.startswith("--"))
    hints = [word for word in arguments if not word.startswith("--")]
    return Model(int(named["journal"]), int(named["cells"]), hints, int(named["server-port"]))


def check_script(checks, seed):
    arguments, _, lines = drawn_script(seed)
    lines = [line for line in lines if line and not line.startswith("#")]
    command, text = [RESOLVER, "script", *arguments], "".join(line + "\n" for line in lines).encode()
    made = number_told(run(command, text, preload="refuse"), "made")
    first = number_told(run(command, b"", preload="refuse"), "made")
    draw = random.Random(seed)
    for nth in sorted(draw.sample(range(first + 1, made + 1), ALLOCATIONS)):
        done = run(command, text, preload="refuse", REFUSE_NTH=nth)
        fault, wants = fault_of_run(arguments, lines, done)
        refused = done.told.count("refused")
        checks.check(f"script {seed}, allocation {nth} of {made} refused", fault)
        checks.check(f"script {seed}, allocation {nth}, wants", None if wants <= refused == 1 else f"{wants}, {refused} refusals")


def main():
    checks = Checks()
    check_books(checks, BOOKS)
    for place in range(SCRIPTS):
        check_script(checks, SEED + place)
    checks.end()


main()
