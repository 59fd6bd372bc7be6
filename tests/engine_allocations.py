"""The number of allocations of each call, counted by a library in front of malloc, is at most that given here.

The count of a run is subtracted from that of a run with twice the calls, so that starting up does not count.
"""

from lib.checks import Checks
from lib.programs import MEASURE, run

COUNT = 1000

# A query with a short question, from its octets to the octets of the reply: the list of steps, and the reply. For local data also
# the records that the lookup returns, and the set that the task makes of them, its records and their shared block.
MOST_OF_A_QUERY = {"held": 2, "local": 5, "refused": 2}

# A task, from its beginning to its answer: the list of steps. For local data also the records that the lookup returns, and the set
# that the task makes of them, its records and their shared block.
MOST_OF_A_TASK = {"held": 1, "local": 4, "refused": 1}

# The lookup of such a task alone.
MOST_OF_A_LOOK = {"held_look": 0, "local_look": 1, "refused_look": 0}


def counted(word, call, count):
    """The allocations of a run, or None if the program did not do what it should."""
    done = run([MEASURE, word, call, str(count)], preload="count")
    name, _, answered = done.out.decode().strip().partition(" ")
    if done.status or name != call or not answered.isdigit() or int(answered) < count:
        return None
    return next((int(line.split()[1]) for line in done.told if line.startswith("allocations ")), None)


def of_a_call(word, call):
    """The allocations of one call."""
    once, twice = counted(word, call, COUNT), counted(word, call, 2 * COUNT)
    return None if once is None or twice is None else (twice - once) / COUNT


def check(checks, word, what, bounds):
    for call, most in bounds.items():
        blocks = of_a_call(word, call)
        told = "not counted" if blocks is None else f"{blocks} allocations, at most {most}"
        checks.check(f"{call}: {what}", None if blocks is not None and min(most, 1) <= blocks <= most else told)


def main():
    checks = Checks()
    check(checks, "front", "a query", MOST_OF_A_QUERY)
    check(checks, "tasks", "a task", MOST_OF_A_TASK)
    check(checks, "tasks", "a look", MOST_OF_A_LOOK)
    checks.end()


main()
