"""A model of the replies to a script, from the meaning of its lines: each reply is computed from the events before it.

For each line the marks, what is in force, the tables and the cells are replayed from nothing, from the list of events. Only the
places of the cache are counted while the script runs, since no reply but `fault full` depends on them.
"""

from dataclasses import dataclass

from lib.reading import TYPES, Event, Fault, addr_in, name_in, name_text, said_by, type_text

MOST_ZONES, MOST_RECORDS, MOST_STUBS, MOST_ADDRS = 4_096, 65_536, 1_024, 8
FIRST_BAD_MOMENT = 2**40
FLUSHED = {TYPES[name] for name in "A NS SOA CNAME PTR MX AAAA SRV NAPTR DNAME".split()}


@dataclass(frozen=True)
class Entry:
    """An event of the history, with the greatest moment so far and the ticket that it took."""

    event: Event
    moment: int
    ticket: int | None


# ---- the replay of a history

def now(history):
    return history[-1].moment if history else 0


def tickets(history):
    return sum(entry.ticket is not None for entry in history)


def given_in(history):
    """The accepted commands by their tickets."""
    return {entry.ticket: entry.event.what for entry in history if entry.ticket is not None}


def table_of(command):
    """The table that a command changes: that of local zones and records, or that of stubs. A flush changes none."""
    word = command[0]
    return None if word.startswith("flush") else "stubs" if word.startswith("stub") else "local"


def in_the_way(given, event, done, undone):
    """The commands that have to be undone, or redone, before the one that an undo or a redo names."""
    own = table_of(given[event.what])
    later = event.verb == "undo"
    return [t for t in (done if later else undone) if (t > event.what) == later and own is not None and table_of(given[t]) == own]


def moved(given, event, done, undone):
    """The ticket that an undo or a redo moves, if any, and the reply to it."""
    reached, word = {"undo": (done, "undone"), "redo": (undone, "redone")}[event.verb]
    ticket = event.what
    if ticket is None:
        return (reached[-1], f"{word} {reached[-1]}") if reached else (None, f"error nothing_to_{event.verb}")
    if ticket not in reached:
        return None, "error not_kept"
    others = [other for other in in_the_way(given, event, done, undone) if other != ticket]
    if others:
        return None, f"error buried {max(others) if event.verb == 'undo' else min(others)}"
    return ticket, f"{word} {ticket}"


def marks(bound, history):
    """The tickets that can be undone, in their order; those that can be redone, the one undone last at the end; those that are struck."""
    given, done, undone, struck = {}, [], [], set()
    for entry in history:
        event = entry.event
        if entry.ticket is not None:
            given[entry.ticket] = event.what
            done = (done + [entry.ticket])[-bound:]
            undone = []
        elif event.verb == "undo":
            ticket = moved(given, event, done, undone)[0]
            if ticket is not None:
                done.remove(ticket)
                undone.append(ticket)
                struck.add(ticket)
        elif event.verb == "redo":
            ticket = moved(given, event, done, undone)[0]
            if ticket is not None:
                undone.remove(ticket)
                done = sorted([*done, ticket])
                struck.remove(ticket)
    return done, undone, struck


def standing(bound, history):
    """The admissions and the forgets, and the accepted commands that are not struck."""
    struck = marks(bound, history)[2]
    return [
        entry for entry in history
        if entry.event.verb in ("admit", "forget") or (entry.ticket is not None and entry.ticket not in struck)
    ]


def is_at_or_below(name, zone):
    return name[len(name) - len(zone) :] == zone if len(name) >= len(zone) else False


def touches(find, question):
    return find.owner == question[0] and find.kind in (None, question[1])


def covers(command, question):
    word, name, *rest = command
    owner, kind = question
    if word == "flush":
        return owner == name and kind in FLUSHED
    if word == "flush_type":
        return owner == name and kind == rest[0]
    return word == "flush_zone" and is_at_or_below(owner, name)


def is_alive(cell, moment):
    return cell is not None and moment < cell[1] + cell[0].ttl


def outranks(cell, find, moment):
    return is_alive(cell, moment) and cell[0].rank > find.rank


def cell_of(entries, question):
    """The find that is cached for a question, and the moment at which it came."""
    cell = None
    for entry in entries:
        what = entry.event.what
        if entry.event.verb == "do":
            if covers(what, question):
                cell = None
        elif entry.event.verb == "forget":
            if what == question[0]:
                cell = None
        elif touches(what, question) and not outranks(cell, what, entry.moment):
            cell = (what, entry.moment)
    return cell


def shown(entries, question, moment):
    """The find of a cell, if it has not expired, and the seconds left."""
    cell = cell_of(entries, question)
    return (cell[0], cell[1] + cell[0].ttl - moment) if is_alive(cell, moment) else None


# ---- the name to forget first

UNNAMED = 65_536  # a type that no find and no flush names


def versions(bound, history):
    """What is in force with none of the commands of the journal, and with each of them alone: the last flush that covers a cell decides it."""
    done, undone, struck = marks(bound, history)
    out = {*done, *undone} | struck
    return [
        [
            entry for entry in history
            if entry.event.verb in ("admit", "forget") or (entry.ticket is not None and (entry.ticket == own or entry.ticket not in out))
        ]
        for own in (None, *done, *undone)
    ]


def oldest(bound, history, moment):
    """The name whose last find ends first, whichever commands of the journal are in force. Of equals it is the first in the order of names."""
    finds = [entry.event.what for entry in history if entry.event.verb == "admit" and entry.moment + entry.event.what.ttl > moment]
    asked = {(find.owner, UNNAMED if find.kind is None else find.kind) for find in finds}
    ends = {}
    for entries in versions(bound, history):
        for question in asked:
            cell = cell_of(entries, question)
            if is_alive(cell, moment):
                ends[question[0]] = max(cell[1] + cell[0].ttl, ends.get(question[0], 0))
    return min(ends, key=lambda name: (ends[name], [label.encode() for label in reversed(name)]), default=None)


# ---- the places of the cache

# The content of a version for a type, if that is the denial of the whole name.
DENIAL = object()


class CachedName:
    """The denial of a name, and a column for each type: what is cached of it, by version."""

    def __init__(self):
        self.denial, self.upto = None, 0  # it is in the versions up to this one
        self.columns = {}

    def has_place(self, kind):
        """Whether a find of the type, or of the whole name, is cached in some version."""
        if kind is None:
            return self.denial is not None
        return any(cell not in (None, DENIAL) for cell in self.columns.get(kind, ()))

    def places(self):
        return sum(self.has_place(kind) for kind in (None, *self.columns))

    def cell(self, kind, version):
        column = self.columns.get(kind, [DENIAL] * (self.upto + 1))
        cell = column[version] if version < len(column) else None
        return self.denial if cell is DENIAL else cell

    def open(self, kind, size):
        """The column of a type. A new one has the denial, or is empty."""
        return self.columns.setdefault(kind, [None] * size if self.denial is None else [DENIAL] * (self.upto + 1))


class Places:
    """The places of a cache that keeps no history.

    A place is a name and a type, or a name that is denied. It counts while some version has a find there. Version N is what is
    cached if flush N is the last in force, and version 0 if none is. Each flush that can be undone or redone has its version.
    A sweep removes other versions.
    """

    def __init__(self):
        self.names = {}
        self.flushes = {}  # by ticket
        self.newest = 0

    def count(self):
        return sum(name.places() for name in self.names.values())

    def needs_one(self, find, moment):
        """Whether a find needs a new place: it has none, and some version does not outrank it."""
        name = self.names.get(find.owner, CachedName())
        if name.has_place(find.kind):
            return False
        asked = [0] + [number for number, flush in self.flushes.items() if covers(flush, (find.owner, find.kind))]
        return find.kind is None or any(not outranks(name.cell(find.kind, version), find, moment) for version in asked)

    def admit(self, find, moment):
        """Enters a find into each version, unless the find there outranks it. Nothing outranks a denial of a name."""
        name = self.names.setdefault(find.owner, CachedName())
        if find.kind is None:
            name.denial, name.upto, name.columns = (find, moment), self.newest, {}
        elif name.has_place(find.kind) or self.needs_one(find, moment):
            column = name.open(find.kind, self.newest + 1)
            column += [None] * (self.newest + 1 - len(column))
            new = (find, moment)
            for version, cell in enumerate(column):
                if not outranks(name.denial if cell is DENIAL else cell, find, moment):
                    column[version] = new

    def flush(self, number, flush):
        """A flush that can be undone has a column for each of its types, if the name is denied."""
        word, owner, *rest = flush
        name = self.names.get(owner)
        if word != "flush_zone" and name and name.denial:
            for kind in rest or FLUSHED:
                name.open(kind, 0)
        self.flushes[number], self.newest = flush, number

    def settle(self, number):
        """A flush can no longer be undone: removes the versions before it."""
        flush = self.flushes.pop(number)
        for owner, name in self.names.items():
            for kind, column in name.columns.items():
                if covers(flush, (owner, kind)):
                    column[:number] = [column[number] if number < len(column) else None] * len(column[:number])
            if flush[0] == "flush_zone" and covers(flush, (owner, None)) and name.upto < number:
                name.denial = None

    def sweep(self, moment):
        """Removes what has expired, and what is only in versions of flushes that can no longer be undone or redone."""
        for owner, name in self.names.items():
            if not is_alive(name.denial, moment):
                name.denial = None
            for kind, column in name.columns.items():
                asked = [0] + [number for number, flush in self.flushes.items() if covers(flush, (owner, kind))]
                seen = [column[version] for version in asked if version < len(column)]
                for version, cell in enumerate(column):
                    is_seen = any(cell is other for other in seen)
                    if cell is not DENIAL and not (is_seen and is_alive(cell, moment)):
                        column[version] = None

    def take(self, event, moment, ticket, bound, done, undone):
        """An event that got no fault, with the ticket that it took, and the tickets that could be undone and redone before it."""
        if event.verb == "admit":
            self.admit(event.what, moment)
        elif event.verb == "sweep":
            self.sweep(moment)
        elif event.verb == "forget":
            self.names.pop(event.what, None)
        elif ticket is not None:
            if event.what[0].startswith("flush"):
                self.flush(ticket, event.what)
            for dropped in undone:
                self.flushes.pop(dropped, None)
            if len(done) == bound and done[0] in self.flushes:
                self.settle(done[0])


# ---- local zones, local data and stubs

@dataclass(frozen=True)
class Tables:
    zones: tuple = ()  # (name, type)
    records: tuple = ()  # (owner, type, TTL, data)
    stubs: tuple = ()  # (name, addresses)


def put(items, new):
    """Puts an item in the place of the one of that name, or last."""
    if any(item[0] == new[0] for item in items):
        return tuple(new if item[0] == new[0] else item for item in items)
    return items + (new,)


class Types:
    """The types of the zones of a list by name, computed once for the most recent list."""

    zones, types = (), {}

    @classmethod
    def of(cls, zones):
        if cls.zones is not zones:
            cls.zones, cls.types = zones, dict(zones)
        return cls.types


def closest(zones, name):
    """The longest zone at or above a name."""
    types = Types.of(zones)
    return next(((name[at:], types[name[at:]]) for at in range(len(name) + 1) if name[at:] in types), None)


def lies_in(zones, owner, name):
    zone = closest(zones, owner)
    return zone is not None and zone[0] == name


def with_record(tables, record):
    owner, kind, ttl, data = record
    zones = tables.zones if closest(tables.zones, owner) else tables.zones + ((owner, "transparent"),)
    records = tuple((o, k, ttl if (o, k) == (owner, kind) else t, d) for o, k, t, d in tables.records)
    return Tables(zones, records if record in records else records + (record,), tables.stubs)


def after(tables, command):
    """The tables after a command."""
    zones, records, stubs = tables.zones, tables.records, tables.stubs
    word, *rest = command
    if word == "local_zone":
        return Tables(put(zones, tuple(rest)), records, stubs)
    if word == "local_zone_remove":
        kept = tuple(record for record in records if not lies_in(zones, record[0], rest[0]))
        return Tables(tuple(zone for zone in zones if zone[0] != rest[0]), kept, stubs)
    if word == "local_data":
        return with_record(tables, tuple(rest))
    if word == "local_data_remove":
        return Tables(zones, tuple(record for record in records if record[0] != rest[0]), stubs)
    if word == "stub_add":
        return Tables(zones, records, put(stubs, tuple(rest)))
    if word == "stub_remove":
        return Tables(zones, records, tuple(stub for stub in stubs if stub[0] != rest[0]))
    return tables


def tables_of(entries):
    tables = Tables()
    for entry in entries:
        if entry.event.verb == "do":
            tables = after(tables, entry.event.what)
    return tables


def reason(tables, command, then):
    """The first reason to refuse a command after which the tables would be these, if any."""
    word, *rest = command
    if word == "local_data":
        owner, kind = rest[:2]
        zone = closest(tables.zones, owner)
        if zone and zone[1] == "redirect" and zone[0] != owner:
            return "below_redirect"
        cname = TYPES["CNAME"]
        if any(r[0] == owner and (r[1] == cname) != (kind == cname) for r in tables.records):
            return "cname_clash"
    if word == "local_zone" and rest[1] == "redirect":
        if any(lies_in(then.zones, r[0], rest[0]) and r[0] != rest[0] for r in tables.records):
            return "data_below"
    if word == "stub_add" and not 1 <= len(rest[1]) <= MOST_ADDRS:
        return "too_many"
    most = ((then.zones, MOST_ZONES), (then.records, MOST_RECORDS), (then.stubs, MOST_STUBS))
    return "too_many" if any(len(items) > limit for items, limit in most) else None


def local(tables, question):
    """The answer of the tables to a question, or `None` if the cache is asked."""
    name, kind = question
    zone = closest(tables.zones, name)
    if zone is None:
        return None
    apex, zone_type = zone
    always = {"always_transparent": None, "always_refuse": "refuse", "always_nxdomain": "noname", "always_nodata": "nodata"}
    if zone_type in always:
        return always[zone_type]
    source = apex if zone_type == "redirect" else name
    sets = [[r for r in tables.records if r[0] == source and r[1] == k] for k in (TYPES["CNAME"], kind)]
    data = sets[0] or sets[1]
    if data:
        return f"{data[0][2]} {name_text(name)} {type_text(data[0][1])} " + " | ".join(r[3] for r in data)
    if zone_type == "static":
        below = any(is_at_or_below(r[0], name) and lies_in(tables.zones, r[0], apex) for r in tables.records)
        return "nodata" if below else "noname"
    if zone_type == "transparent":
        return "nodata" if any(r[0] == name for r in tables.records) else None
    return {"deny": "drop", "refuse": "refuse", "typetransparent": None, "redirect": "nodata"}[zone_type]


# ---- servers

def set_at(entries, name, kind, moment):
    """The data of a set of any rank that has not expired."""
    found = shown(entries, (name, kind), moment)
    return found[0].body if found and isinstance(found[0].body, tuple) else ()


def servers_at(settings, entries, zone, moment):
    """The addresses and the missing targets of a zone with a usable name server set, or `None`."""
    addrs, missing, is_usable = [], [], False
    for target in set_at(entries, zone, TYPES["NS"], moment):
        name = name_in(target)
        ips = [ip for kind in ("A", "AAAA") for ip in set_at(entries, name, TYPES[kind], moment)]
        addrs += [f"{ip}@{settings.port}" for ip in ips]
        missing += [] if ips else [target]
        is_usable = is_usable or bool(ips) or not is_at_or_below(name, zone)
    return (addrs, missing) if is_usable else None


def servers(settings, entries, name, moment):
    """The closest zone to a name that has a stub or a usable NS set, its source, and its servers."""
    stubs = dict(tables_of(entries).stubs)
    for start in range(len(name) + 1):
        zone = name[start:]
        if zone in stubs:
            return zone, "stub", stubs[zone], ()
        found = servers_at(settings, entries, zone, moment)
        if found:
            return zone, "cache", *found
    return (), "hints", settings.hints, ()


# ---- replies

def find_text(find, left):
    if isinstance(find.body, str):
        return f"{find.body} {left}"
    return f"found {find.rank} {left} {name_text(find.owner)} {type_text(find.kind)} " + " | ".join(find.body)


def command_text(command):
    """The words that give a command again."""
    word, name, *rest = command
    if word == "local_data":
        rest = [str(rest[1]), type_text(rest[0]), rest[2]]
    if word == "flush_type":
        rest = [type_text(rest[0])]
    if word == "stub_add":
        rest = rest[0]
    return " ".join([word, name_text(name), *rest])


def commands_text(settings, history):
    done, undone, _ = marks(settings.journal, history)
    given = given_in(history)
    told = {**{ticket: "done" for ticket in done}, **{ticket: "undone" for ticket in undone}}
    return [f"{ticket} {told[ticket]} {command_text(given[ticket])}" for ticket in sorted(told)]


def buried_text(settings, history):
    """The commands that cannot be undone, or redone, before another of their table, each with that one."""
    done, undone, _ = marks(settings.journal, history)
    given, lines = given_in(history), []
    for ticket in sorted([*done, *undone]):
        event = Event("undo" if ticket in done else "redo", 0, ticket)
        reply = moved(given, event, done, undone)[1].split()
        lines += [f"{ticket} by {reply[2]}"] if reply[:2] == ["error", "buried"] else []
    return lines


def list_text(tables, word):
    """The lines of a list of the tables."""
    if word == "list_local_zones":
        lines = [f"{name_text(name)} {kind}" for name, kind in tables.zones]
    elif word == "list_local_data":
        lines = [f"{name_text(o)} {ttl} {type_text(k)} {data}" for o, k, ttl, data in tables.records]
    else:
        lines = [" ".join([name_text(name), *addrs]) for name, addrs in tables.stubs]
    return lines + ["end"]


def seen_after(settings, history, event, question):
    """The reply to a lookup of a question right after an undo or a redo, or why that is refused."""
    ticket, told = moved(given_in(history), event, *marks(settings.journal, history)[:2])
    if ticket is None:
        return [told]
    then = [*history, Entry(event, max(now(history), event.moment), None)]
    return seen_text(settings, then, standing(settings.journal, then), ("look", *question), then[-1].moment)


def seen_text(settings, history, entries, ask, moment):
    """The lines of the reply to a lookup."""
    word, *rest = ask
    tables = tables_of(entries)
    if word in ("look_undo", "look_redo", "look_without"):
        event = Event("redo" if word == "look_redo" else "undo", moment, rest[2] if rest[2:] else None)
        return seen_after(settings, history, event, rest[:2])
    if word == "what_undo":
        done = marks(settings.journal, history)[0]
        return [f"{done[-1]} done {command_text(given_in(history)[done[-1]])}"] if done else ["error nothing_to_undo"]
    if word == "look":
        answer = local(tables, rest)
        if answer is not None:
            return [f"local {answer}"]
        found = shown(entries, rest, moment)
        return [find_text(*found) if found and found[0].rank >= 2 else "unknown"]
    if word == "servers":
        zone, source, addrs, missing = servers(settings, entries, rest[0], moment)
        return [" ".join(["servers", name_text(zone), source, *addrs, *(["|", *missing] if missing else [])])]
    if word == "list_commands":
        return commands_text(settings, history) + ["end"]
    if word == "list_buried":
        return buried_text(settings, history) + ["end"]
    if word == "oldest":
        name = oldest(settings.journal, history, moment)
        return ["unknown" if name is None else f"oldest {name_text(name)}"]
    return list_text(tables, word)


def reply_text(settings, history, event):
    """The lines of the reply to an event, and the ticket that it takes."""
    moment = max(now(history), event.moment)
    if event.verb == "sweep":
        return ["swept"], None
    if event.verb == "forget":
        return ["forgotten"], None
    if event.verb in ("undo", "redo"):
        return [moved(given_in(history), event, *marks(settings.journal, history)[:2])[1]], None
    entries = standing(settings.journal, history)
    if event.verb == "look":
        return seen_text(settings, history, entries, event.what, moment), None
    if event.verb == "do":
        tables = tables_of(entries)
        why = reason(tables, event.what, after(tables, event.what))
        return ([f"error {why}"], None) if why else ([f"ok {tickets(history) + 1}"], tickets(history) + 1)
    find = event.what
    cell = cell_of(entries, (find.owner, find.kind)) if isinstance(find.body, tuple) else None
    return ["outranked" if outranks(cell, find, moment) else "taken"], None


class Model:
    """A script, line by line."""

    def __init__(self, journal=64, cells=100_000, hints=(), port=53):
        self.journal, self.cells, self.port = journal, cells, port
        self.hints = [addr_in(hint) for hint in hints]
        self.moment = 0
        self.history = []
        self.places = Places()

    def take(self, event):
        """The fault of an event; or its reply, and then the event is in the history."""
        if event.moment >= FIRST_BAD_MOMENT:
            return ["fault bad_moment"]
        moment = max(now(self.history), event.moment)
        if event.verb == "admit" and self.places.count() == self.cells and self.places.needs_one(event.what, moment):
            return [f"fault full {self.cells}"]
        told, ticket = reply_text(self, self.history, event)
        self.places.take(event, moment, ticket, self.journal, *marks(self.journal, self.history)[:2])
        self.history.append(Entry(event, moment, ticket))
        return told

    def obey(self, line):
        """The lines of the reply to a line."""
        if not line or line.startswith("#"):
            return []
        try:
            said = said_by(line, self.moment)
        except Fault as fault:
            return [f"error {fault}"]
        if isinstance(said, Event):
            return self.take(said)
        self.moment = said
        return ["ok"]
