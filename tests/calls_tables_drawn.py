"""100,000 random changes of local zones and stubs, undos and redos, of the last or by ticket, through `play journal`, compared with
plain lists in Python.

A run replays the changes that can be undone, from the tables before them: `lib/model.py` computes the tables after a change, the reason
to refuse one, and what an undo or a redo moves. Most runs have few entries, which change often. Some begin with 5,000 of them.
"""

import random
from bisect import insort
from collections import Counter
from concurrent.futures import ThreadPoolExecutor
from functools import lru_cache

from lib.checks import Checks
from lib.drawing import ADDRESSES, FORMS
from lib.model import Tables, after, list_text, local, moved, reason
from lib.programs import PLAY, run
from lib.reading import ZONE_TYPES, said_by

CHANGES, SEED = 100_000, 20_261_125
SMALL, LARGE = 1_000, 500  # changes of a run
LIMITS = [1, 2, 3, 8, 64]
LISTS = ("list_local_zones", "list_local_data", "list_stubs")

# How many zones, records and stubs a large run begins with.
SIZES = [(4_096, 20, 884), (20, 4_960, 20), (20, 3_956, 1_024), (4_000, 20, 980)]

# How often each kind of change is drawn; `back` is some undos and some redos, and `by_ticket` some of tickets.
WEIGHTS = dict(
    local_zone=14, local_zone_remove=7, local_data=26, local_data_remove=5, stub_add=10, stub_remove=5, back=20, by_ticket=6, undo=1,
    redo=2,
)

KINDS = """
ok, undone, redone, error nothing_to_undo, error nothing_to_redo, error not_kept, error buried N
error below_redirect, error data_below, error cname_clash, error too_many
unknown, local data, local nodata, local noname, local refuse, local drop
""".strip().replace("\n", ", ").split(", ")


@lru_cache(10_000)
def said(line):
    """The event of a line."""
    return said_by(line, 0)


class Lists:
    """The changes that can be undone or redone, by their tickets, and the tables before the first and after each of the done ones."""

    def __init__(self, limit):
        self.limit, self.tickets = limit, 0
        self.given, self.done, self.undone = {}, [], []
        self.before, self.after_done = Tables(), []

    @property
    def tables(self):
        return self.after_done[-1] if self.after_done else self.before

    def do(self, command):
        then = after(self.tables, command)
        why = reason(self.tables, command, then)
        if why:
            return f"error {why}"
        self.tickets += 1
        self.given[self.tickets] = command
        self.done.append(self.tickets)
        self.after_done.append(then)
        self.undone = []
        if len(self.done) > self.limit:
            self.done.pop(0)
            self.before = self.after_done.pop(0)
        return f"ok {self.tickets}"

    def move(self, event):
        """An undo or a redo. The done changes are replayed from the one that moved on."""
        ticket, told = moved(self.given, event, self.done, self.undone)
        if ticket is None:
            return told
        source, target = (self.done, self.undone) if event.verb == "undo" else (self.undone, self.done)
        place = sum(other < ticket for other in self.done)
        source.remove(ticket)
        if event.verb == "undo":
            target.append(ticket)
        else:
            insort(target, ticket)
        del self.after_done[place:]
        for other in self.done[place:]:
            self.after_done.append(after(self.tables, self.given[other]))
        return told

    def reply(self, line):
        """The lines of the reply to a line."""
        if line in LISTS:
            return list_text(self.tables, line)
        event = said(line)
        if event.verb == "look":
            answer = local(self.tables, event.what[1:])
            return [f"local {answer}" if answer else "unknown"]
        return [self.do(event.what) if event.verb == "do" else self.move(event)]


# ---- lines

class Drawer:
    """Draws lines about names of up to three labels, and about the tickets that the lists have given."""

    def __init__(self, draw, names, lists):
        self.draw, self.names, self.lists = draw, names, lists

    def name(self):
        return self.draw.choice(self.names)

    def zone_type(self):
        return self.draw.choice(ZONE_TYPES[:6] * 3 + ["redirect"] * 3 + ZONE_TYPES[6:])

    def record(self):
        kind = self.draw.choice(["A"] * 5 + ["AAAA", "TXT", "MX", "CNAME"])
        return f"{self.draw.choice([0, 60, 60, 300])} {kind} {FORMS[kind](self.draw)}"

    def change(self):
        verb = self.draw.choices(list(WEIGHTS), list(WEIGHTS.values()))[0]
        if verb in ("undo", "redo"):
            return [verb]
        if verb == "back":
            undos = self.draw.choice([1, 1, 1, 2, 3, 5])
            return ["undo"] * undos + ["redo"] * self.draw.choice([0, undos, self.draw.randint(0, undos)])
        if verb == "by_ticket":
            return self.by_ticket()
        words = {"local_zone": self.zone_type, "local_data": self.record, "stub_add": self.addresses}
        return [" ".join([verb, self.name(), *([words[verb]()] if verb in words else [])])]

    def by_ticket(self):
        """Undos of tickets up to the next, and redos of some of them."""
        next_one = self.lists.tickets + 1
        first = max(1, next_one - self.draw.choice([3, 8, self.lists.limit]))
        tickets = [self.draw.randint(first, next_one) for _ in range(self.draw.choice([1, 2, 3, 5]))]
        again = self.draw.sample(tickets, self.draw.randint(0, len(tickets)))
        return [*(f"undo {ticket}" for ticket in tickets), *(f"redo {ticket}" for ticket in again)]

    def addresses(self):
        return " ".join(self.draw.choices(ADDRESSES, k=self.draw.choice([1, 1, 1, 2, 8, 9])))

    def look(self):
        return f"look {self.name()} {self.draw.choice(['A', 'A', 'TXT', 'CNAME'])}"

    def lines(self, changes, each):
        """A number of changes, with lookups after some of them, and all lists after one in `each`."""
        left = changes
        while left:
            for line in self.change()[:left]:
                left -= 1
                yield line
                if self.draw.random() < 0.4:
                    yield self.look()
                if self.draw.randrange(each) == 0 or not left:
                    yield from LISTS


def few_names():
    tops = ["test.", "other."]
    below = [f"{label}.{name}" for name in tops for label in "ab"]
    return [".", *tops, *below, *(f"{label}.{name}" for name in below for label in "ab")]


def many_names(draw, zones, records, stubs):
    """Names of which the tables have some, and some that are new."""
    there = [f"z{place}." for place in range(max(zones, stubs))] + [f"n{place}.z{place % zones}." for place in range(records)]
    return draw.sample(there, 200) + [f"new{place}.z{place}." for place in range(20)] + [f"new{place}." for place in range(40)]


def filling(zones, records, stubs):
    """Lines that fill the tables with a number of each, so that each record has a zone of its own."""
    yield from (f"local_zone z{place}. static" for place in range(zones))
    yield from (f"local_data n{place}.z{place % zones}. 60 A 192.0.2.{place % 4 + 1}" for place in range(records))
    yield from (f"stub_add z{place}. 127.0.0.1" for place in range(stubs))


def filled(lists, lines):
    """The replies to lines that fill empty tables. Only the last can be undone, so the model keeps no journal for the others."""
    events = [said_by(line, 0).what for line in lines]
    others = events[: -lists.limit]
    lists.tickets = len(others)
    lists.before = Tables(
        tuple(tuple(rest) for verb, *rest in others if verb == "local_zone"),
        tuple(tuple(rest) for verb, *rest in others if verb == "local_data"),
        tuple(tuple(rest) for verb, *rest in others if verb == "stub_add"),
    )
    return [f"ok {place + 1}" for place in range(len(others))] + [lists.do(event) for event in events[-lists.limit :]]


# ---- runs

def kind_of(line, reply):
    words = reply[0].split(" ")
    if line in LISTS:
        return None
    if words[0] == "local":
        return f"local {words[1] if len(words) == 2 else 'data'}"
    return " ".join("N" if word.isdigit() else word for word in words) if words[0] in ("error", "unknown") else words[0]


def octets(lines):
    return "".join(line + "\n" for line in lines).encode()


def drawn_run(seed, size, counts):
    """The limit of a journal, lines and their replies: about few names, or after many zones, records and stubs were made."""
    draw = random.Random(seed)
    lists = Lists(draw.choice(LIMITS))
    lines, wanted = [], []
    names, changes, each = few_names(), SMALL, 16
    if size:
        lines += filling(*size)
        wanted += filled(lists, lines)
        names, changes, each = many_names(draw, *size), LARGE, 60
    for line in Drawer(draw, names, lists).lines(changes, each):
        reply = lists.reply(line)
        lines.append(line)
        wanted += reply
        counts.update([kind_of(line, reply)])
    return lists.limit, octets(lines), octets(wanted)


def main():
    checks, counts = Checks(), Counter()
    sizes = SIZES + [None] * ((CHANGES - LARGE * len(SIZES)) // SMALL)
    with ThreadPoolExecutor(2) as pool:
        runs = []
        for place, size in enumerate(sizes):
            limit, lines, wanted = drawn_run(SEED + place, size, counts)
            about = f"run {SEED + place}, {size or 'few names'}, a journal of {limit}"
            runs.append((about, wanted, pool.submit(run, [PLAY, "journal", str(limit)], lines)))
        for about, wanted, going in runs:
            done = going.result()
            checks.equal(about, done.out, wanted)
            checks.equal(f"{about}: its end", (done.status, done.err), (0, b""))
    for kind in KINDS:
        checks.check(f"the reply {kind!r}", None if counts[kind] else "was never drawn")
    checks.equal("replies of other kinds", sorted(kind for kind in counts if kind not in (None, *KINDS)), [])
    checks.end()


main()
