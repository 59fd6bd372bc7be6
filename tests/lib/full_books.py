"""Full tables and a full cache: lines that fill them, what the lines mean, and runs in which allocations are refused."""

import random

from lib.checks import short
from lib.programs import RESOLVER, run
from lib.refusing import LOST, NO_MEMORY

SEED = 20_261_126
LEAST_SIZE = 4_096
ONE_IN = (7, 1_009)


def address(place):
    return f"192.{place // 65536}.{place // 256 % 256}.{place % 256}"


# ---- what the lines mean

class Undoable:
    """Commands that can be undone: each is a function that makes it and returns one that takes it back."""

    def __init__(self, journal=64):
        self.journal, self.tickets, self.done, self.undone = journal, 0, [], []

    def do(self, make):
        self.tickets += 1
        self.done = (self.done + [(self.tickets, make, make())])[-self.journal :]
        self.undone = []
        return f"ok {self.tickets}"

    def undo(self):
        if not self.done:
            return "error nothing_to_undo"
        ticket, make, back = self.done.pop()
        back()
        self.undone.append((ticket, make))
        return f"undone {ticket}"

    def redo(self):
        if not self.undone:
            return "error nothing_to_redo"
        ticket, make = self.undone.pop()
        self.done.append((ticket, make, make()))
        return f"redone {ticket}"


class Tables(Undoable):
    """Zones, records and stubs, by the lines that list them. Each record has an owner of its own and lies in the zone `z.`."""

    MOST = {"zones": 4_096, "records": 65_536, "stubs": 1_024}

    def __init__(self, journal=64):
        super().__init__(journal)
        self.lists = {"zones": {}, "records": {}, "stubs": {}}

    def _is_full(self, name, key):
        return key not in self.lists[name] and len(self.lists[name]) == self.MOST[name]

    def _put(self, *puts):
        """A command that puts items into lists, each by its key: in the place of the item of that key, or last."""
        if any(self._is_full(name, key) for name, key, _ in puts):
            return "error too_many"

        def make():
            old = [(name, key, self.lists[name].get(key)) for name, key, _ in puts]
            for name, key, item in puts:
                self.lists[name][key] = item
            return lambda: [self._restore(*one) for one in old]

        return self.do(make)

    def _restore(self, name, key, old):
        if old is None:
            del self.lists[name][key]
        else:
            self.lists[name][key] = old

    def _put_record(self, owner, record):
        """A record outside all zones makes a zone of its own."""
        has_zone = owner in self.lists["zones"] or (owner.endswith(".z.") and "z." in self.lists["zones"])
        zone = [] if has_zone else [("zones", owner, f"{owner} transparent")]
        return self._put(*zone, ("records", owner, record))

    def _without(self, name, is_gone):
        """A command that removes some of a list; if it is undone each is back in its place."""
        def make():
            before = self.lists[name]
            self.lists[name] = {key: item for key, item in before.items() if not is_gone(key)}
            return lambda: self.lists.update({name: before})

        return make

    def _remove_zone(self, zone):
        makers = [self._without("zones", lambda key: key == zone)]
        if zone == "z.":
            makers.append(self._without("records", lambda key: key.endswith(".z.")))

        def make():
            ways_back = [maker() for maker in makers]
            return lambda: [back() for back in ways_back]

        return self.do(make)

    def reply(self, line):
        verb, *words = line.split(" ")
        if verb in ("undo", "redo"):
            return getattr(self, verb)()
        if verb.startswith("list_"):
            name = {"list_local_zones": "zones", "list_local_data": "records", "list_stubs": "stubs"}[verb]
            return "\n".join([*self.lists[name].values(), "end"])
        if verb == "local_zone":
            return self._put(("zones", words[0], " ".join(words)))
        if verb == "local_data":
            return self._put_record(words[0], " ".join(words))
        if verb == "stub_add":
            return self._put(("stubs", words[0], " ".join([words[0], *(f"{word}@53" for word in words[1:])])))
        if verb == "local_zone_remove":
            return self._remove_zone(words[0])
        if verb == "local_data_remove":
            return self.do(self._without("records", lambda key: key == words[0]))
        if verb == "stub_remove":
            return self.do(self._without("stubs", lambda key: key == words[0]))
        record = self.lists["records"].get(words[0])
        if record is not None:
            _, ttl, kind, data = record.split(" ")
            return f"local {ttl} {words[0]} {kind} {data}"
        return "local noname" if "z." in self.lists["zones"] else "unknown"


class Cache(Undoable):
    """Names of which each has one address or a negative answer, all of rank 4. Nothing is admitted while a flush is in force."""

    def __init__(self, cells, journal=64):
        super().__init__(journal)
        self.cells, self.moment = cells, 0
        self.held, self.hidden = {}, {}

    def _admit(self, name, reply, lives):
        if name not in self.held and len(self.held) == self.cells:
            return f"fault full {self.cells}"
        self.held[name] = (reply, self.moment + lives)
        return "taken"

    def _flush(self, is_flushed):
        ticket = self.tickets + 1

        def make():
            self.hidden[ticket] = is_flushed
            return lambda: self.hidden.pop(ticket)

        return self.do(make)

    def _look(self, name):
        reply, end = self.held.get(name, ("unknown", 0))
        if end <= self.moment or any(is_flushed(name) for is_flushed in self.hidden.values()):
            return "unknown"
        return reply.replace("LEFT", str(end - self.moment))

    def reply(self, line):
        verb, *words = line.split(" ")
        if verb in ("undo", "redo"):
            return getattr(self, verb)()
        if verb == "at":
            self.moment = int(words[0])
            return "ok"
        if verb == "sweep":
            self.held = {name: (reply, end) for name, (reply, end) in self.held.items() if end > self.moment}
            return "swept"
        if verb == "admit":
            _, name, lives, kind, data = words
            return self._admit(name, f"found 4 LEFT {name} {kind} {data}", int(lives))
        if verb in ("nodata", "noname"):
            return self._admit(words[0], f"{verb} LEFT", int(words[1]))
        if verb == "flush_zone":
            return self._flush(lambda name: name.endswith("." + words[0]))
        if verb in ("flush", "flush_type"):
            return self._flush(lambda name: name == words[0])
        return self._look(words[0])


# ---- lines

def lines_of_tables(zones=4_096, records=65_536, stubs=1_024):
    """Tables that are filled, listed, emptied and filled again by undo."""
    yield "local_zone z. static"
    yield from (f"local_zone z{place}. deny" for place in range(zones + 100))
    yield from (f"stub_add s{place}. 127.0.0.1" for place in range(stubs + 100))
    for place in range(records + 100):
        yield f"local_data n{place}.z. 60 A {address(place)}"
    yield from ["list_local_data"] * 6
    yield from (f"look n{place}.z. A" for place in range(0, records, records // 200))
    for place in range(0, records, records // 16):
        yield from (f"local_data_remove n{place}.z.", f"look n{place}.z. A", "undo", f"look n{place}.z. A", "redo")
    yield from ["local_zone_remove z.", "list_local_data", "local_data n1.y. 60 A 192.0.2.1"] * 3
    yield from ["undo", "undo", "undo", "list_local_data", "redo", "list_local_data", "undo"] * 3
    yield from ["list_local_zones", "list_stubs", "list_local_data"] * 8


def lines_of_cache(names=100_000):
    """A cache that is filled with more names than it takes, flushed, swept and filled again."""
    for place in range(names + names // 16):
        yield f"admit 4 n{place}.test. 60 A {address(place)}"
        if place % 64 == 0:
            yield f"noname d{place}.test. 60 test. ns. host. 1 2 3 4 300"
    for place in range(0, names, names // 40):
        yield from (f"flush d{place // 64 * 64}.test.", f"flush n{place}.test.", "undo", "redo", f"look n{place}.test. A")
    yield from ["flush_zone test.", "look n1.test. A", "undo", "sweep"] * 3
    yield from (f"look n{place}.test. A" for place in range(0, names, names // 400))
    yield from ["undo"] * 70
    yield from (f"look {front}{place}.test. A" for place in range(0, names, names // 1_600 * 64) for front in "nd")
    yield from ["at 61", "sweep"]
    yield from (f"admit 4 m{place}.test. 60 A {address(place)}" for place in range(2_000))
    yield from (f"look {front}{place}.test. A" for place in range(1_000) for front in "nm")


# ---- runs

def told_in_turn(lines, out):
    """Each line with its reply."""
    at = 0
    for line in lines:
        end = out.find(b"\n", at)
        first = out[at:end]
        if line.startswith("list_") and not first.startswith((b"error", b"fault")) and first != b"end":
            end = out.find(b"\nend\n", at) + 4
        yield line, out[at:end]
        at = end + 1


def fault_of_run(lines, done, model):
    """The fault of a run, or `None`, and the number of lines that got no memory or no reply."""
    wants = 0
    for number, (line, told) in enumerate(told_in_turn(lines, done.out), 1):
        if told in NO_MEMORY:
            wants += 1
            continue
        wanted = model.reply(line).encode()
        if told == LOST and line.startswith(("look", "list")):
            wants += 1
        elif told != wanted:
            return f"line {number}, {line}, gets {short(told)}, wanted {short(wanted)}", wants
    if done.status != 0 or done.err:
        return f"status {done.status}, {done.err!r}", wants
    return None, wants


def number_told(done, word):
    return next((int(line.split()[1]) for line in done.told if line.startswith(word + " ")), None)


def check_run(checks, name, lines, model, least, arguments, **refuse):
    """A run in which at least so many allocations are refused. Returns how many there were."""
    done = run([RESOLVER, "script", *arguments], "".join(line + "\n" for line in lines).encode(), preload="refuse", **refuse)
    what = " ".join([name, *(f"{key} {value}" for key, value in refuse.items())])
    fault, wants = fault_of_run(lines, done, model())
    refused = number_told(done, "refusals")
    checks.check(what, fault)
    checks.check(f"{what}, refusals", None if refused is not None and refused >= least else f"{refused}, wanted {least}")
    checks.check(f"{what}, wants", None if refused is not None and wants <= refused else f"{wants} lines, {refused} refusals")
    print(f"{what}: {refused} of {number_told(done, 'made')} allocations refused, {wants} lines found no memory")
    return number_told(done, "made")


def check_book(checks, name, lines, model, arguments, drawn):
    """Runs of these lines. In the first no allocation is refused, then the first of each size, then one in so many, then a drawn one
    in each run."""
    lines = list(lines)
    made = check_run(checks, name, lines, model, 0, arguments)
    check_run(checks, name, lines, model, 10, arguments, REFUSE_SIZES=LEAST_SIZE)
    for count in ONE_IN:
        check_run(checks, name, lines, model, made // count // 2, arguments, REFUSE_EVERY=count)
    draw = random.Random(SEED)
    for _ in range(drawn):
        check_run(checks, name, lines, model, 1, arguments, REFUSE_NTH=draw.randrange(made // 100, made))


def check_books(checks, drawn):
    """Full tables and a full cache, each with so many drawn allocations."""
    check_book(checks, "tables", lines_of_tables(), Tables, [], drawn)
    check_book(checks, "cache", lines_of_cache(), lambda: Cache(100_000), ["--cells", "100000"], drawn)
