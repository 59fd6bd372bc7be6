"""Draws random scripts of all lines. They stay near a few names, the questions of earlier lines, and the newest moment."""

import random

from lib.model import FLUSHED, Model
from lib.reading import ZONE_TYPES, type_text

LINES = 200

NAMES = ". test. a.test. b.a.test. ns.test. ns1.a.test. other. ns.other.".split()
TYPES = ["A"] * 6 + ["NS"] * 3 + ["AAAA"] * 3 + ["TXT", "CNAME", "MX", "SOA"]
TARGETS = "ns.test. ns.other. ns1.a.test. gone.test. gone.other.".split()
FORMS = {
    "A": lambda draw: f"192.0.2.{draw.randint(1, 4)}",
    "AAAA": lambda draw: f"2001:db8::{draw.randint(1, 3)}",
    "NS": lambda draw: draw.choice(TARGETS),
    "CNAME": lambda draw: draw.choice(NAMES),
    "MX": lambda draw: f"{draw.randint(1, 2)} {draw.choice(NAMES)}",
    "TXT": lambda draw: f'"text {draw.randint(1, 2)}"',
    "SOA": lambda draw: f"ns.test. host.test. {draw.randint(1, 2)} 2 3 4 300",
}
ADDRESSES = "127.0.0.1 127.0.0.1@5353 ::1 2001:db8::7@5300".split()
HINTS = "198.51.100.1 198.51.100.2@5301 2001:db8::9".split()
LISTS = "list_local_zones list_local_data list_stubs list_commands list_buried".split()
COMMANDS = tuple("local_zone local_data stub_ flush".split())

# Lines with faults of every kind.
WRONG = """
frob
FLUSH a.test.
flush
flush_type a.test.
stub_add a.test.
servers
nodata a.test. 60 A test.
noname a.test. 60 test.
flush a..b
servers a..b
stub_remove .a
flush_zone a..
nodata a.test. 60 A a..b a. b. 1 2 3 4 5
look a.test. NOPE
flush_type a.test. ANY
local_zone a.test. statics
nodata a.test. 60 OPT test. a. b. 1 2 3 4 5
noname a.test. 0 test. a. b. 1 2 3 4 5
noname a.test. 60 test. a. b. 1 2 3 4
undo 0
undo x
redo 1 2
redo 4611686018427387904
look_undo a.test.
look_redo
look_undo a..b A
look_redo a.test. NOPE
look_undo a.test. A A
look_without 1 a.test.
look_without x a.test. A
look_without 0 a..b A
look_without 1 a..b NOPE
look_without 1 a.test. ANY
look_without 1 a.test. A 2
what_undo 1
sweep now
list_commands all
servers a.test. b.test.
oldest a.test.
forget
forget a..b
forget a.test. A
flush a.test. A
admit 5 a.test. 1 A 192.0.2.1
admit 4 a.test. 0 A 192.0.2.1
admit 4 a.test. 9 A 192.0.2.1 |
local_data a.test. A 192.0.2
stub_add a.test. 1.2.3@53
stub_add a.test. 192.0.2.1@0
stub_add a.test. 192.0.2.1 ::1@65536
at -1
at 1 2
""".split("\n")[1:-1] + ["x" * 1_025]

# How often each kind of line is drawn: in scripts of all lines, of the cache, of servers, and of tables.
WEIGHTS = [
    dict(
        at=6, clock=1, admit=16, ns=8, denial=6, look=16, servers=8, flush=7,
        stub=4, zone=2, record=3, list=5, back=5, by_ticket=4, preview=6, sweep=1, forget=1, oldest=1, wrong=2,
    ),
    dict(at=6, clock=4, admit=20, denial=8, look=20, flush=12, flushed_type=4, list=1, back=6, by_ticket=6, preview=12, sweep=4, forget=4, oldest=4, wrong=1),
    dict(at=6, admit=4, ns=24, denial=3, servers=32, flush=4, stub=7, list=2, back=6, by_ticket=4),
    dict(at=2, admit=4, look=20, zone=12, record=24, stub=4, list=10, back=8, by_ticket=8, preview=20, wrong=1),
]
OFTEN = [3, 3, 2, 2]


class Drawer:
    def __init__(self, draw):
        self.draw = draw
        self.weights = draw.choices(WEIGHTS, OFTEN)[0]
        self.moment = 0
        self.given = 0  # the commands so far, refused ones too
        self.met = [("a.test.", "A")]
        self.next = []

    def line(self):
        if not self.next:
            self.next = getattr(self, self.draw.choices(list(self.weights), list(self.weights.values()))[0])()
        line = self.next.pop(0)
        self.given += line.startswith(COMMANDS)
        return line

    # ---- words

    def question(self):
        """A recent question, or another."""
        if self.draw.random() < 0.25:
            self.met = self.met[-3:] + [(self.draw.choice(NAMES), self.draw.choice(TYPES))]
        return self.draw.choice(self.met)

    def name(self):
        return self.draw.choice([self.draw.choice(NAMES), self.question()[0]])

    def ttl(self):
        return self.draw.choice([1, 5, 20, 20, 60, 300, 4_000, 100_000])

    def data(self, kind):
        return " | ".join(FORMS[kind](self.draw) for _ in range(self.draw.choice([1, 1, 1, 2, 3])))

    # ---- lines

    def at(self):
        """Mostly a later moment; now and then an earlier one, or one that is too late for some lines."""
        self.moment += self.draw.choice([0, 1, 1, 4, 5, 15, 20, 40])
        if self.draw.random() < 0.05:
            return [f"at {self.draw.choice([2**40, 2**64 - 1])}", *self.look(), *self.change(), f"at {self.moment}"]
        return [f"at {self.draw.choice([self.moment, self.moment, self.moment, self.moment // 2])}"]

    def admit(self):
        owner, kind = self.question()
        return [f"admit {self.draw.choice([1, 2, 3, 4, 4])} {owner} {self.ttl()} {kind} {self.data(kind)}"]

    def ns(self):
        """A set of name servers, or of addresses of one."""
        if self.draw.random() < 0.4:
            return [f"admit {self.draw.randint(1, 4)} {self.name()} {self.ttl()} NS {self.data('NS')}"]
        kind = self.draw.choice(["A", "A", "AAAA"])
        return [f"admit {self.draw.randint(1, 4)} {self.draw.choice(TARGETS[:3])} {self.ttl()} {kind} {self.data(kind)}"]

    def denial(self):
        owner, kind = self.question()
        soa = f"{self.name()} {FORMS['SOA'](self.draw)}"
        return [self.draw.choice([f"nodata {owner} {self.ttl()} {kind} {soa}", f"noname {owner} {self.ttl()} {soa}"])]

    def look(self):
        owner, kind = self.question()
        return [f"look {owner} {kind}"]

    def preview(self):
        """What an undo or a redo would show, and now and then what it shows then."""
        owner, kind = self.question()
        ticket = self.draw.randint(self.given // 2 + 1, self.given + 1)
        before, move, back = self.draw.choice([
            ("look_undo", "undo", "redo"), ("look_redo", "redo", "undo"), (f"look_without {ticket}", f"undo {ticket}", f"redo {ticket}"),
        ])
        lines = [f"{before} {owner} {kind}"]
        if self.draw.random() < 0.5:
            lines += [move, f"look {owner} {kind}", *self.draw.choice([[], [back]])]
        return [*lines, *self.draw.choice([[], [], ["what_undo"]])]

    def clock(self):
        """An event whose moment counts whatever its reply is, before the moment goes back."""
        owner, kind = self.question()
        draws = [self.change, self.change, self.admit, self.list, self.servers, self.sweep, self.forget, self.oldest, self.look]
        refused = f"stub_add {owner} {' '.join(ADDRESSES * 3)}"
        event = self.draw.choice([*(draw() for draw in draws), ["undo"], ["redo"], [*self.change(), "undo"], [refused]])
        before, later = f"at {self.moment}", f"at {self.moment + self.draw.randint(1, 9)}"
        return [before, f"admit 4 {owner} 300 {kind} {self.data(kind)}", later, *event[:2], before, f"look {owner} {kind}"]

    def servers(self):
        return [f"servers {self.name()}"]

    def flush(self):
        owner, kind = self.question()
        return [self.draw.choice([f"flush {owner}", f"flush_zone {owner}", f"flush_type {owner} {kind}"]), *self.look()]

    def flushed_type(self):
        """A name that is denied, and a flush that covers some of its types and not others."""
        owner = self.question()[0]
        kind = self.draw.choice([type_text(number) for number in sorted(FLUSHED)] + ["TXT", "TYPE731"])
        flush = self.draw.choice([f"flush {owner}", f"flush {owner}", f"flush_type {owner} {kind}"])
        return [f"noname {owner} 300 test. {FORMS['SOA'](self.draw)}", flush, f"look {owner} {kind}", *self.look()]

    def stub(self):
        addrs = self.draw.choices(ADDRESSES, k=self.draw.choice([1, 1, 2, 8, 9]))
        return [self.draw.choice([f"stub_add {self.name()} {' '.join(addrs)}"] * 2 + [f"stub_remove {self.name()}"])]

    def zone(self):
        kind = self.draw.choice(ZONE_TYPES[:6] * 2 + ["redirect"] * 4 + ZONE_TYPES[6:])
        name = self.draw.choice(NAMES[1:] + [self.question()[0]])
        return [self.draw.choice([f"local_zone {name} {kind}"] * 2 + [f"local_zone_remove {name}"])]

    def record(self):
        owner, kind = self.question()
        words = self.draw.choice(["", "60 ", "30 IN ", "in 0 "])
        record = f"local_data {owner} {words}{kind} {FORMS[kind](self.draw)}"
        return [self.draw.choice([record] * 3 + [f"local_data_remove {owner}"])]

    def change(self):
        return self.draw.choice([self.flush, self.flush, self.stub, self.zone, self.record])()

    def list(self):
        return [self.draw.choice(LISTS)]

    def back(self):
        """Some undos and some redos, with a lookup or a list after them."""
        undos = self.draw.choice([1, 1, 2, 3])
        seen = [self.draw.choice([self.look, self.look, self.list])() for _ in range(2)]
        return ["undo"] * undos + seen[0] + ["redo"] * self.draw.randint(0, undos) + seen[1]

    def by_ticket(self):
        """Undos and redos of tickets, with a lookup or a list after them. The tickets are of late commands, if few were refused."""
        tickets = [self.draw.randint(self.given // 2 + 1, self.given + 1) for _ in range(self.draw.choice([1, 2, 3, 4]))]
        seen = [self.draw.choice([self.look, self.look, self.list])() for _ in range(2)]
        again = self.draw.sample(tickets, self.draw.randint(0, len(tickets)))
        return [*(f"undo {ticket}" for ticket in tickets), *seen[0], *(f"redo {ticket}" for ticket in again), *seen[1]]

    def sweep(self):
        return ["sweep"]

    def forget(self):
        """A forget of a name, and a lookup after it."""
        return [f"forget {self.name()}", *self.look()]

    def oldest(self):
        """The name to forget first, with a flush, an undo or a forget before it now and then."""
        return [*self.draw.choice([list, list, self.flush, lambda: ["undo"], self.forget])(), "oldest"]

    def wrong(self):
        return [self.draw.choice(WRONG)]


def drawn_script(seed):
    """The arguments of a script, its model, and its lines."""
    draw = random.Random(seed)
    settings = {
        "journal": draw.choice([1, 2, 3, 5, 8, 64]),
        "cells": draw.choice([5, 12, 100_000, 100_000]),
        "port": draw.choice([53, 53, 5_302]),
    }
    hints = draw.sample(HINTS, draw.randint(0, 3))
    options = zip(("--journal", "--cells", "--server-port"), settings.values())
    arguments = [f"{option}={value}" for option, value in options] + hints
    drawer = Drawer(draw)
    return arguments, Model(hints=hints, **settings), [drawer.line() for _ in range(LINES)]
