"""Every kind of call at the largest sizes, in one program that has memory. The replies are computed here from the meaning of the
lines."""

import re

from lib.checks import short
from lib.full_books import Cache, Tables, address, number_told
from lib.long_lines import escaped_names, longest_lines, many_data, many_strings
from lib.messages import name_octets, number, question_octets
from lib.programs import PLAY, run
from lib.replies import AA, QR, RA, RD, TC
from lib.rows import query_words

CELLS, JOURNAL, MOST, WORKERS = 1_000_000, 256, 65_535, 16
ZONES, RECORDS, STUBS = 4_096, 65_536, 1_024
HINTS = [f"198.51.100.{place}@53" for place in range(1, 17)]


# ---- what the lines mean

class Listed(Tables):
    """Tables whose commands are listed, and whose stubs are looked up."""

    def __init__(self, tickets=0):
        super().__init__(JOURNAL)
        self.tickets, self.texts = tickets, {}

    def reply(self, line):
        if line == "list_commands":
            states = [(ticket, "done") for ticket, *_ in self.done] + [(ticket, "undone") for ticket, *_ in self.undone]
            return "\n".join([*(f"{ticket} {state} {self.texts[ticket]}" for ticket, state in sorted(states)), "end"])
        if line.startswith("servers "):
            stub, addresses = self.lists["stubs"][line.split()[1]].split(" ", 1)
            return f"servers {stub} stub {addresses}"
        told = super().reply(line)
        if told.startswith("ok "):
            self.texts[int(told[3:])] = re.sub(r"( [0-9.]+)(?= |$)", r"\1@53", line) if line.startswith("stub_add") else line
        return told


class Expected:
    """The lines that the program gets, and what it must write."""

    def __init__(self):
        self.lines, self.wanted = [], []

    def script(self, pairs):
        """A script, with the reply to each line."""
        lines, replies = zip(*pairs)
        self.lines += ["script", *lines, "."]
        self.wanted += replies

    def add(self, line, *wanted):
        self.lines.append(line)
        self.wanted += wanted


# ---- scripts

def long_lines(expected):
    """The longest lines and names. Three commands, of which none is in force at the end; then what was cached expires."""
    pairs = [*many_strings(), *longest_lines(), *many_data()]
    shifted = {"ok 1": "ok 2", "undone 1": "undone 2"}
    pairs += [(line, shifted.get(told, told)) for line, told in escaped_names()]
    expected.script([*pairs, ("undo", "undone 1"), ("at 70", "ok"), ("sweep", "swept")])
    return 2


def stub(place, front="s"):
    return " ".join([f"stub_add {front}{place}.", *(f"127.0.{place % 256}.{last}" for last in range(1, 9))])


def table_lines():
    """Full tables, and one of each too many. The 256 newest commands are undone and redone, and the records removed and restored."""
    yield "local_zone z. static"
    yield from (f"local_zone z{place}. deny" for place in range(1, ZONES + 1))
    yield from (f"local_data n{place}.z. 60 A {address(place)}" for place in range(RECORDS + 1))
    yield from (stub(place) for place in range(STUBS + 1))
    yield "local_data more. 60 A 192.0.2.1"
    lists = ["list_commands", "list_local_zones", "list_local_data", "list_stubs"]
    yield from [*lists, *["undo"] * (JOURNAL + 1), *lists, *["redo"] * (JOURNAL + 1), *lists]
    yield from (f"look n{place}.z. A" for place in range(0, RECORDS, 997))
    yield from (f"servers s{place}." for place in range(0, STUBS, 11))
    yield from ["local_zone_remove z.", "list_local_data", "undo", "list_local_data", "look n1.z. A"]
    yield from ["local_data_remove n7.z.", "undo", "stub_remove s7.", "list_stubs", "undo", "list_stubs"]


def full_tables(expected, tickets):
    model = Listed(tickets)
    expected.script([("at 70", "ok"), *((line, model.reply(line)) for line in table_lines())])
    return model.tickets


def cached(place):
    """A cached name, the line that adds it, and the reply to a lookup. One in three has an address, the others have none."""
    name, soa = f"n{place}.test.", "test. ns. host. 1 2 3 4 300"
    if place % 3 == 0:
        return name, f"admit 4 {name} 60 A {address(place)}", f"found 4 LEFT {name} A {address(place)}"
    if place % 3 == 1:
        return name, f"nodata {name} 60 A {soa}", "nodata LEFT"
    return name, f"noname {name} 60 {soa}", "noname LEFT"


def cache_lines(names):
    """After so many names: one more, and flushes of all and of 256 names that are undone and redone."""
    yield "admit 4 more.test. 60 A 192.0.2.1"
    sample = [f"look n{place}.test. A" for place in range(8, names, 997)]
    for line in ("flush_zone test.", "undo", "redo", "undo"):
        yield from [line, *sample, "sweep"]
    flushed = range(0, names, names // JOURNAL + 1)
    assert len(flushed) == JOURNAL
    looks = [f"look n{place}.test. A" for place in flushed]
    yield from (f"flush n{place}.test." if place % 3 else f"flush_type n{place}.test. A" for place in flushed)
    for line in ("undo", "redo", "undo"):
        yield from [*looks, *[line] * JOURNAL, *looks]


def cached_names(expected, tickets, names):
    """A script that adds so many names to the cache, which needs no model, and goes on with them. Returns what the cache has then."""
    model = Cache(CELLS, JOURNAL)
    model.tickets, model.moment = tickets, 70
    pairs = [("at 70", "ok")]
    for place in range(names):
        name, line, reply = cached(place)
        pairs.append((line, "taken"))
        model.held[name] = (reply, 130)
    pairs += ((line, model.reply(line)) for line in cache_lines(names))
    expected.script(pairs)
    return model


def expired_names(expected, model):
    """One name more still has no room where the cache is full. All expire, and it has."""
    more = "admit 4 more.test. 60 A 192.0.2.1"
    lines = ["at 70", more, "at 130", "sweep", "look n8.test. A", more, "look more.test. A", "at 190", "sweep"]
    expected.script((line, model.reply(line)) for line in lines)


# ---- messages

def header(flags, *counts):
    return number(0x1234) + number(flags) + b"".join(number(count) for count in (*counts, 0, 0, 0)[:4])


def record(owner, kind, data, ttl=60):
    return owner + number(kind) + number(1) + number(ttl, 4) + number(len(data)) + data


def packed(text):
    return bytes(int(part) for part in text.split("."))


# The most sets that one response brings to the cache, and the most servers of a list there, of 16 KiB.
MOST_SETS, MOST_SERVERS = 64, 170

# A question and as many addresses of its name make a message of 65,535 octets.
NAME = "messages.test."
QUESTION = question_octets(NAME, "A")
ADDRESSES = [address(place) for place in range((MOST - 12 - len(QUESTION)) // 16)]
ANSWERS = b"".join(record(b"\xc0\x0c", 1, packed(text)) for text in ADDRESSES)


def framed(octets):
    return (number(len(octets)) + octets).hex()


def asked(flags, counts, records=b""):
    """What a name server says, but for the identifier and the question, which the program puts in."""
    return "asked " + (number(0) + number(flags) + b"".join(number(count) for count in counts) + records).hex()


def exchange(name, flags, text):
    """A query for an address over UDP, and the reply with it."""
    question = question_octets(name, "A")
    reply = header(flags, 1, 1) + question + record(b"\xc0\x0c", 1, packed(text))
    return f"udp {(header(RD, 1) + question).hex()}", f"reply {reply.hex()}"


def queries_when_full(expected):
    """Queries for a record and for a cached name; and twice for a new name, which is cached even if the cache is full."""
    expected.add("at 70")
    expected.add(*exchange("n7.z.", QR | AA | RD | RA, address(7)))
    expected.add(*exchange("n9.test.", QR | RD | RA, address(9)))
    query, reply = exchange("new.", QR | RD | RA, "192.0.2.3")
    for is_cached in (False, True):
        if not is_cached:
            expected.add(asked(QR | AA, (1, 1, 0, 0), record(b"\xc0\x0c", 1, packed("192.0.2.3"))))
        expected.add(query, *([] if is_cached else [f"{HINTS[0]} udp new. A"]), reply)


def largest_messages(expected):
    """A set whose message is the largest comes over TCP, and is asked for by a query that is as large. It is too large to be cached."""
    query = header(RD, 1) + QUESTION
    large = header(RD, 1, 0, 0, len(ADDRESSES)) + QUESTION + ANSWERS
    whole = header(QR | RD | RA, 1, len(ADDRESSES)) + QUESTION + ANSWERS
    assert len(large) == len(whole) == MOST
    expected.add("at 190")
    sent = [f"{HINTS[0]} {over} {NAME} A" for over in ("udp", "tcp")]
    over_tcp, over_udp = [f"wrote {framed(whole)}", "ended"], [f"reply {(header(QR | TC | RD | RA, 1) + QUESTION).hex()}"]
    for octets in query, large:
        for line, told in (f"stream {framed(octets)}", over_tcp), (f"udp {octets.hex()}", over_udp):
            expected.add(asked(QR | TC, (1, 0, 0, 0)))
            expected.add(asked(QR | AA, (1, len(ADDRESSES), 0, 0), ANSWERS))
            expected.add(line, *sent, *told)
    expected.add(f"message {whole.hex()}", f"octets {whole.hex()}")
    expected.script([("at 190", "ok"), (f"look {NAME} A", "unknown")])


def largest_names(expected):
    """A message of 65,535 octets whose owners are pointers to the longest name. Written whole, the names need more."""
    longest = name_octets(".".join(["x" * 63] * 3 + ["x" * 61]) + ".")
    asks = longest + number(1) + number(1)
    assert len(longest) == 255
    plain = b"".join(record(b"\xc0\x0c", 1, packed(text)) for text in ADDRESSES[:4_000])
    same = header(QR, 1, 4_000) + asks + plain
    expected.add(f"message {same.hex()}", f"octets {same.hex()}")
    pointed = b"".join(record(b"\xc0" + number(76, 1), 1, packed(text)) for text in ADDRESSES[:4_000])
    expected.add(f"message {(header(QR, 1, 4_000) + asks + pointed).hex()}", "not written")


def largest_referral(expected, zone, most, is_cached):
    """A referral to so many servers, or to as many as fit into a message. One of them answers."""
    octets, servers = name_octets(zone), []
    room = MOST - 12 - len(question_octets(f"deep.{zone}", "A"))
    for place in range(10_000, 10_000 + most):
        name = name_octets(f"ns{place}.{zone}")
        pair = record(octets, 2, name), record(name, 1, packed(address(place)))
        room -= len(b"".join(pair))
        if room < 0:
            break
        servers.append((place, *pair))
    records = b"".join(pair[1] for pair in servers) + b"".join(pair[2] for pair in servers)
    places = [f"{address(place)}@53" for place, *_ in servers]
    expected.add(asked(QR, (1, 0, len(servers), len(servers)), records))
    answer = record(b"\xc0\x0c", 1, packed("192.0.2.9"))
    expected.add(asked(QR | AA, (1, 1, 0, 0), answer))
    question = question_octets(f"deep.{zone}", "A")
    sent = [f"{HINTS[0]} udp deep.{zone} A", f"{places[0]} udp deep.{zone} A"]
    reply = header(QR | RD | RA, 1, 1) + question + answer
    expected.add(f"udp {(header(RD, 1) + question).hex()}", *sent, f"reply {reply.hex()}")
    # The cache has the names of all, and the addresses of the first ones.
    kept = MOST_SETS - 1
    cached = [f"{zone} cache", *places[:kept], "|", *(f"ns{place}.{zone}" for place, *_ in servers[kept:])]
    expected.script([("at 190", "ok"), (f"servers deep.{zone}", f"servers {' '.join(cached if is_cached else ['. hints', *HINTS])}")])


# ---- workers

def worker_lines(worker):
    """A sixteenth of the full tables. All set the zone of the records, and the first has its place."""
    zones = ZONES // WORKERS - 1 if worker else ZONES // WORKERS + WORKERS - 2
    yield "local_zone z. static"
    yield from (f"local_zone z{place}.w{worker}. deny" for place in range(zones))
    yield from (f"local_data n{place}.w{worker}.z. 60 A {address(place)}" for place in range(RECORDS // WORKERS))
    yield from (stub(place, f"w{worker}s") for place in range(STUBS // WORKERS))


def operator_lines():
    """What the operator sends after all workers."""
    lists = ["list_commands", "list_local_zones", "list_local_data", "list_stubs"]
    yield from lists
    yield from ["local_zone more. deny", "local_data more.0.z. 60 A 192.0.2.1", stub(0, "more")]
    yield from [*["undo"] * (JOURNAL + 1), *lists, *["redo"] * (JOURNAL + 1), *lists]
    yield "x" * 1_024
    yield "x" * 1_025


def fault_of_workers(lines, told):
    """What is wrong with the replies to 16 workers and then to an operator. The tickets say in which order the lines were obeyed."""
    tickets = {}
    for worker, replies in zip(lines[:-1], told[:-1]):
        mine = [int(reply.removeprefix("ok ")) for reply in replies.splitlines()]
        if len(mine) != len(worker) or mine != sorted(mine):
            return f"{len(worker)} lines get {len(mine)} replies, or not in order"
        tickets.update(zip(mine, worker))
    count = sum(len(worker) for worker in lines[:-1])
    if sorted(tickets) != list(range(1, count + 1)):
        return f"{count} lines get {len(tickets)} tickets"
    model = Listed()
    for ticket in range(1, count + 1):
        reply = model.reply(tickets[ticket])
        if reply != f"ok {ticket}":
            return f"{tickets[ticket]} gets ticket {ticket}, wanted {reply}"
    faults = {"x" * 1_024: "error unknown", "x" * 1_025: "error too_long"}
    wanted = [faults.get(line) or model.reply(line) for line in lines[-1]]
    return None if told[-1].splitlines() == "\n".join(wanted).splitlines() else "the operator gets other replies"


# ---- the run

def first_difference(found, wanted):
    """The first line that differs, or `None`."""
    for place, (line, want) in enumerate(zip(found, wanted)):
        if line != want:
            return f"line {place + 1} is {short(line)}, wanted {short(want)}"
    return None if len(found) == len(wanted) else f"{len(found)} lines, wanted {len(wanted)}"


def in_words(line):
    return query_words(line) if line.startswith("send ") else line


def expected_of(names):
    """All lines but those of the workers, with so many cached names."""
    expected = Expected()
    tickets = full_tables(expected, long_lines(expected))
    cache = cached_names(expected, tickets, names)
    queries_when_full(expected)
    expired_names(expected, cache)
    largest_messages(expected)
    largest_names(expected)
    largest_referral(expected, "far.", 10_000, False)
    largest_referral(expected, "near.", MOST_SERVERS, True)
    return expected


def check_largest(checks, names):
    """One run at the largest sizes, but with so many cached names. No reply says that there is no memory."""
    expected = expected_of(names)
    workers = [list(worker_lines(worker)) for worker in range(WORKERS)] + [list(operator_lines())]
    texts = ["".join(line + "\n" for line in lines).encode().hex() for lines in workers]
    text = "".join(line + "\n" for line in [*expected.lines, "workers " + " ".join(texts)]).encode()
    done = run([PLAY, "largest", *HINTS], text, preload="refuse")
    wanted = "\n".join(expected.wanted).split("\n")
    found = done.out.decode().split("\n")[:-1]
    checks.check("the replies", first_difference([in_words(line) for line in found[: len(wanted)]], wanted))
    told = [bytes.fromhex(line.removeprefix("wrote ")).decode() for line in found[len(wanted) :]]
    checks.equal("how many workers there are", len(told), WORKERS + 1)
    checks.check("the replies to workers", fault_of_workers(workers, told))
    checks.equal("the end", (done.status, done.err), (0, b""))
    made = number_told(done, "made") or 0
    checks.equal("allocations that were refused", number_told(done, "refusals"), 0)
    checks.check("allocations", None if made > names else f"are {made}")
    print(f"{len(wanted)} lines of replies, {made} allocations, the largest of {number_told(done, 'largest')} octets")
