"""The answers of `resolver serve`: questions that it resolves, local zones, lines of control, undo while it serves, workers that
overlap, and `stop`."""

import re
import threading
import time

from lib.checks import Checks
from lib.messages import number, question_octets
from lib.nameserver import REFUSED, NameServers
from lib.replies import reply_in
from lib.service import STOPPED, Service, query, until

ROOT, TEST = "127.0.0.1", "127.0.0.2"
# The root's response for every name at or below test.
REFERRAL = f"| authority test. 100 NS ns.test. | additional ns.test. 100 A {TEST}"
WORKED = {
    ROOT: {"*": REFERRAL, "www.bank. A": REFUSED},
    TEST: {"a.test. A": "aa | answer a.test. 60 CNAME b.test. | answer b.test. 60 A 192.0.2.7 | additional www.bank. 60 A 192.0.2.66"},
}
ALIAS = "- | answer a.test. CNAME b.test. | answer b.test. A 192.0.2.7"


def serving(servers, *options):
    """A service whose only hint is the first of the name servers."""
    return Service([f"{ROOT}@{servers.port}"], "--server-port", str(servers.port), *options)


def without_left(text):
    """The reply to a lookup, without the seconds left."""
    return re.sub(r"^(found \d|nodata|noname) \d+", r"\1", text)


def times_fault(reply, most, since):
    """What is wrong with the TTLs of a reply whose data came with a TTL at a moment, or later."""
    least = most - int(time.monotonic() - since) - 1
    wrong = [record for record in reply.records if not least <= record.ttl <= most]
    return f"{wrong} are not within {least} and {most} seconds" if wrong else None


def check_resolved(checks, over):
    """A referral, an alias in the response, and data outside the server's zone."""
    with NameServers(WORKED) as servers, serving(servers) as service:
        began = time.monotonic()
        for time_asked in ("first", "again"):
            reply = service.ask("a.test.", "A", over)
            checks.equal(f"{over}: {time_asked}", reply.words(), ALIAS)
            checks.check(f"{over}: {time_asked}, times", times_fault(reply, 60, began))
        asked = [(ROOT, "udp", "a.test. A"), (TEST, "udp", "a.test. A")]
        checks.equal(f"{over}: what was asked", servers.asked, asked)
        told = [without_left(line) for line in service.obey("look a.test. CNAME", "look b.test. A", "look www.bank. A", "servers c.test.")]
        held = ["found 4 a.test. CNAME b.test.", "found 2 b.test. A 192.0.2.7", "unknown"]
        checks.equal(f"{over}: what is held", told, [*held, f"servers test. cache {TEST}@{servers.port}"])
        checks.equal(f"{over}: an address that another zone gave", service.ask("www.bank.", "A", over).words(), "rcode 2")
        checks.equal(f"{over}: stopped", service.stop(), STOPPED)
        check_log(checks, over, service.log())


def check_log(checks, name, log, may_fault=False):
    """The log of a service: its start and its end, and between them only device faults, if clients came and went."""
    first, *between, last = log.splitlines()
    are_faults = all(may_fault and b"resolver: device fault" in line for line in between)
    is_right = b"resolver: started" in first and b"resolver: stopped" in last and are_faults
    checks.check(f"{name}: the log", None if is_right else repr(log))


# Each zone has data at its name and at a.b below it; a redirect zone only at its name. Each question gets the data, NODATA,
# NXDOMAIN, REFUSED, no reply, or the answer of the name servers.
ZONE_TYPES = {
    "deny": "data drop drop drop",
    "refuse": "data refused refused refused",
    "static": "data nodata nodata noname",
    "transparent": "data nodata asked asked",
    "typetransparent": "data asked asked asked",
    "redirect": "apex nodata apex apex",
    "always_transparent": "asked asked asked asked",
    "always_refuse": "refused refused refused refused",
    "always_nxdomain": "noname noname noname noname",
    "always_nodata": "nodata nodata nodata nodata",
}
ASKED = [("a.b.", "A"), ("a.b.", "TXT"), ("b.", "A"), ("c.", "A")]
DENIAL = "authority . SOA ns. host. 1 2 3 4 60"
MEANT = {"refused": "aa rcode 5", "nodata": "aa", "noname": "aa rcode 3", "asked": f"rcode 3 | {DENIAL}"}


def reply_or_drop(service, over, name, kind, is_asked):
    """The words of the reply, or `drop` if the next question is answered instead. That one is cached, and a cached answer does not
    wait for name servers."""
    with service.client(over) as client:
        client.send(query(name, kind, 1))
        client.send(query("marker.", "A", 2))
        reply = reply_in(client.octets())
        if is_asked and reply.id == 2:
            reply = reply_in(client.octets())
        return "drop" if reply.id == 2 else reply.words()


def check_delegation_signer(checks, over):
    """DS (type 43) is asked of the zone above, though the servers of the name are cached; all else of the zone itself."""
    below = "127.0.0.3"
    zones = {
        ROOT: {"*": REFERRAL},
        TEST: {"*": f"| authority a.test. 100 NS ns.a.test. | additional ns.a.test. 100 A {below}", "a.test. TYPE43": "aa | answer a.test. 60 TYPE43 0001"},
        below: {"a.test. A": "aa | answer a.test. 60 A 192.0.2.7", "*": "aa"},
    }
    with NameServers(zones) as servers, serving(servers) as service:
        checks.equal(f"below the cut, over {over}", service.ask("a.test.", "A", over).words(), "- | answer a.test. A 192.0.2.7")
        checks.equal(f"another type, over {over}", service.ask("a.test.", "TYPE48", over).words(), "-")
        reply = service.ask("a.test.", "TYPE43", over)
        checks.equal(f"DS, over {over}: records", [(record.owner, record.kind) for record in reply.records], [("a.test.", "TYPE43")])
        asked = [(TEST, "udp", "a.test. TYPE43")]
        checks.equal(f"DS, over {over}: who was asked", [query for query in servers.asked if query[2].endswith("TYPE43")], asked)
        checks.equal(f"the other type, over {over}: who was asked", servers.asked[-2], (below, "udp", "a.test. TYPE48"))


def check_zone_types(checks, over):
    """The ten types of zones, over the wire."""
    nothing = {ROOT: {"*": "aa rcode 3 | authority . 60 SOA ns. host. 1 2 3 4 60"}}
    with NameServers(nothing) as servers, serving(servers) as service:
        service.obey("local_data marker. 60 A 192.0.2.9")
        for zone, meanings in ZONE_TYPES.items():
            lines = [f"local_zone {zone}. {zone}", f"local_data {zone}. 60 A 192.0.2.1", f"local_data a.b.{zone}. 60 A 192.0.2.2"]
            service.obey(*lines)
            for (front, kind), meaning in zip(ASKED, meanings.split()):
                name = f"{front}{zone}."
                data = {"data": "192.0.2.2", "apex": "192.0.2.1"}.get(meaning)
                wanted = f"aa | answer {name} A {data}" if data else MEANT.get(meaning, meaning)
                found = reply_or_drop(service, over, name, kind, meaning == "asked")
                checks.equal(f"{over}: {name} {kind}", found, wanted)


def fault_reply(asked, rcode):
    """A header alone, the fault of a query with RD."""
    opcode = asked[2] & 0x78
    return asked[:2] + bytes([0x80 | opcode | (asked[2] & 1), 0x80 | rcode]) + bytes(8)


def with_octets(asked, at, octets):
    return asked[:at] + octets + asked[at + len(octets) :]


def padded(asked, size):
    """A query of a given size, with a record after its question."""
    record = b"\0" + number(65_280) + number(1) + number(0, 4)
    left = size - len(asked) - len(record) - 2
    return with_octets(asked, 10, number(1)) + record + number(left) + bytes(left)


def wrong_queries():
    """Octets that came, and the RCODE of the reply; None if there is no reply."""
    good = query("a.test.", "A", 0x1234)
    return [
        ("11 octets", good[:11], None),
        ("a response", with_octets(good, 2, b"\x81"), None),
        ("a status query", with_octets(good, 2, b"\x11"), 4),
        ("two questions", with_octets(good, 4, number(2)) + good[12:], 1),
        ("no question", with_octets(good, 4, number(0)), 1),
        ("an octet too many", good + b"\0", 1),
        ("a question cut short", good[:-1], 1),
        ("a pointer in the name", good[:12] + b"\xc0\x0c" + good[-4:], 1),
        ("class CH", good[:-1] + b"\3", 4),
        ("type ANY", query("a.test.", "TYPE255", 0x1234), 4),
        ("type AXFR", query("a.test.", "TYPE252", 0x1234), 4),
    ]


def check_wrong_queries(checks, over):
    """A malformed query gets a header with its fault, or no reply. The next question is answered."""
    with Service(["192.0.2.1"]) as service:
        service.obey("local_data marker. 60 A 192.0.2.9", "local_data a.test. 60 A 192.0.2.7")
        rows = wrong_queries() + [("no octets", b"", None)]
        if over == "udp":
            rows += [("4,097 octets", padded(query("a.test.", "A", 0x1234), 4_097), 1)]
        for name, octets, rcode in rows:
            wanted = [] if rcode is None else [fault_reply(octets, rcode)]
            with service.client(over) as client:
                client.send(octets)
                client.send(query("marker.", "A", 0x4321))
                replies = [client.octets() for _ in range(len(wanted) + 1)]
            checks.equal(f"{over}: {name}", replies[:-1], wanted)
            checks.equal(f"{over}: after {name}", replies[-1][:2], number(0x4321))
        most = 4_096 if over == "udp" else 65_535
        with service.client(over) as client:
            client.send(padded(query("a.test.", "A", 0x1234), most))
            checks.equal(f"{over}: a query of {most} octets", reply_in(client.octets()).words(), "aa | answer a.test. A 192.0.2.7")
        with service.client(over) as client:
            client.send(query("A.tEst.", "A", 0x1234))
            checks.equal(f"{over}: letters as they were asked", client.octets()[12:24], question_octets("A.tEst.", "A"))
        with service.client(over) as client:
            client.send(with_octets(query("a.test.", "A"), 2, b"\0"))
            checks.equal(f"{over}: a question without RD", client.octets()[2:8], b"\x84\x80\0\1\0\1")


def check_long_replies(checks):
    """Over UDP a reply above 512 octets is cut to its header, with TC, and the question. Over TCP it is whole."""
    with Service(["192.0.2.1"]) as service:
        for zone, last in (("fits.", 221), ("long.", 222)):
            words = ['"' + "x" * 255 + '"', '"' + "y" * last + '"']
            told = service.obey(f"local_zone {zone} static", f"local_data {zone} 60 TXT {' '.join(words)}")
            checks.equal(f"{zone}: its data", [line[:3] for line in told], ["ok ", "ok "])
            whole = f"aa | answer {zone} TXT {' '.join(words)}"
            for over in ("udp", "tcp"):
                wanted = "aa tc" if (zone, over) == ("long.", "udp") else whole
                checks.equal(f"{zone} over {over}", service.ask(zone, "TXT", over).words(), wanted)


# Lines of an operator with their replies. The last line has no line feed.
DIALOGUE = [
    ("look c. A", "unknown"),
    ("local_zone c. static", "ok 1"),
    ("list_local_zones", "c. static / end"),
    ("undo", "undone 1"),
    ("list_local_zones", "end"),
    ("redo", "redone 1"),
    ("undo", "undone 1"),
    ("undo", "error nothing_to_undo"),
    ("at 5", "error unknown"),
    ("admit 4 b.test. 60 A 192.0.2.1", "error unknown"),
    ("nodata", "error unknown"),
    ("noname", "error unknown"),
    ("stop now", "error bad_data"),
    ("frob", "error unknown"),
    ("local_zone", "error missing"),
    ("flush a..b", "error bad_name"),
    ("look a. NOPE", "error bad_type"),
    ("stub_add a. 1.2.3@53", "error bad_address"),
    ("x" * 1_025, "error too_long"),
    ("x" * 1_024, "error unknown"),
    ("local_data x.new. 30 A 192.0.2.1", "ok 2"),
    ("local_zone new. redirect", "ok 3"),
    ("local_data y.new. A 192.0.2.1", "error below_redirect"),
    ("local_data x.new. CNAME b.", "error cname_clash"),
    ("list_local_data", "x.new. 30 A 192.0.2.1 / end"),
    ("local_data_remove x.new.", "ok 4"),
    ("local_zone_remove x.new.", "ok 5"),
    ("stub_add test. 127.0.0.1@5353 ::1", "ok 6"),
    ("list_stubs", "test. 127.0.0.1@5353 0:0:0:0:0:0:0:1@53 / end"),
    ("servers a.test.", "servers test. stub 127.0.0.1@5353 0:0:0:0:0:0:0:1@53"),
    ("stub_remove test.", "ok 7"),
    ("servers a.test.", "servers . hints 192.0.2.1@53"),
    ("flush a.", "ok 8"),
    ("flush_type a. A", "ok 9"),
    ("flush_zone a.", "ok 10"),
    ("sweep", "swept"),
    ("undo", "undone 10"),
    ("list_commands", "2 done local_data x.new. 30 A 192.0.2.1 / 3 done local_zone new. redirect / 4 done local_data_remove x.new. / "
     "5 done local_zone_remove x.new. / 6 done stub_add test. 127.0.0.1@5353 0:0:0:0:0:0:0:1@53 / 7 done stub_remove test. / "
     "8 done flush a. / 9 done flush_type a. A / 10 undone flush_zone a. / end"),
    ("flush b.", "ok 11"),
    ("redo", "error nothing_to_redo"),
]


def check_control(checks):
    """Every line, over one connection, and over others after it."""
    with Service(["192.0.2.1"]) as service:
        with service.control() as control:
            for line, wanted in DIALOGUE:
                checks.equal(f"control: {line[:60]}", control.tell(line), wanted)
            control.sock.sendall(b"# a comment\n\r\n\nundo\r\nredo")
            control.sock.shutdown(1)
            checks.equal("control: comments, and a last line with no end", control.file.read(), b"undone 11\nredone 11\n")
        with service.control() as control:
            control.sock.sendall(b"und")
        checks.equal("control: after an operator who goes in a line", service.obey("undo"), ["undone 11"])
        with service.control() as control:
            control.sock.sendall(b"stop\nlist_local_zones\n")
            checks.equal("control: after stop", control.file.read(), b"ok stopping\n")
        checks.equal("control: stopped", service.wait(), (0, b""))
        check_log(checks, "control", service.log())


def check_journal(checks):
    """With a journal of two commands the third undo finds none."""
    lines = ["local_zone a. deny", "local_zone b. refuse", "local_zone c. static", "undo", "undo", "undo", "redo", "redo", "redo"]
    told = ["ok 1", "ok 2", "ok 3", "undone 3", "undone 2", "error nothing_to_undo", "redone 2", "redone 3", "error nothing_to_redo"]
    with Service(["192.0.2.1"], "--journal", "2", "--record", "1") as service:
        checks.equal("a journal of two", service.obey(*lines), told)
        checks.equal("a journal of two: stopped", service.stop(), STOPPED)


def check_short_log(checks):
    """A call log of four calls moves on past 100 queries, and past two commands and their undos."""
    with NameServers(WORKED) as servers, serving(servers, "--record", "4") as service:
        for number in range(50):
            checks.equal(f"a log of four: query {number}", service.ask("a.test.", "A").words(), ALIAS)
            if number == 25:
                told = service.obey("local_zone ads.test. refuse", "flush_zone test.", "undo", "undo")
                checks.equal("a log of four: commands and their undos", told, ["ok 1", "ok 2", "undone 2", "undone 1"])
            checks.equal(f"a log of four: query {number} of another name", service.ask("b.test.", "A").words(), "- | answer b.test. A 192.0.2.7")
        asked = [(ROOT, "udp", "a.test. A"), (TEST, "udp", "a.test. A")]
        checks.equal("a log of four: each name is resolved once", servers.asked, asked)
        checks.equal("a log of four: stopped", service.stop(), STOPPED)
        check_log(checks, "a log of four", service.log())


LISTS = {"list_local_zones": "local_zone", "list_local_data": "local_data", "list_stubs": "stub_add"}


def check_given_again(checks):
    """The lines of the lists, with the word of the command before each, give another service the same lists."""
    commands = [
        "local_zone ads.test. always_nxdomain", "local_zone home.test. redirect", "local_data home.test. 60 A 192.0.2.1",
        'local_data x.new. 30 TXT "a b" c', "local_data x.new. SRV 1 2 53 ns.new.", "stub_add corp.test. 10.0.0.53 ::1@5353",
    ]
    with Service(["192.0.2.1"]) as one, Service(["192.0.2.1"]) as other:
        one.obey(*commands)
        shown = one.obey(*LISTS)
        given = [f"{word} {line}" for word, lines in zip(LISTS.values(), shown) for line in lines.split(" / ")[:-1]]
        told = other.obey(*given)
        checks.equal("given again: each is obeyed", [line.split()[0] for line in told], ["ok"] * 7)
        checks.equal("given again: the same lists", other.obey(*LISTS), shown)


def check_full(checks):
    """With a full cache all questions are answered. Names for which it has no room are asked for each time."""
    with NameServers(WORKED) as servers, serving(servers, "--cells", "1") as service:
        for count in (1, 2):
            checks.equal(f"full: question {count}", service.ask("a.test.").words(), ALIAS)
            checks.equal(f"full: asked {count}", servers.count("a.test. A"), 2 * count)


def is_cached(servers, service, name):
    """Whether a question is answered without a name server."""
    before = servers.count(f"{name} A")
    service.ask(name)
    return servers.count(f"{name} A") == before


def check_swept(checks):
    """The service sweeps by itself: once the data in a full cache has expired, new names are cached without an operator's line."""
    short, long = ["one.", "two."], ["three.", "four."]
    says = {f"{name} A": f"aa | answer {name} {ttl} A 192.0.2.7" for names, ttl in ((short, 1), (long, 3600)) for name in names}
    with NameServers({ROOT: says}) as servers, serving(servers, "--cells", "2") as service:
        for name in short:
            service.ask(name)
        for name in long:
            checks.equal(f"swept: {name} is cached", until(lambda name=name: is_cached(servers, service, name)), True)


def check_undone(checks, over):
    """A block and a flush, undone while the service answers: as if neither had been given."""
    with NameServers(WORKED) as servers, serving(servers) as service:
        rows = [
            (None, None, ALIAS, 1),
            ("local_zone test. always_nxdomain", "ok 1", "aa rcode 3", 1),
            ("undo", "undone 1", ALIAS, 1),
            ("redo", "redone 1", "aa rcode 3", 1),
            ("undo", "undone 1", ALIAS, 1),
            ("local_data a.test. 30 A 192.0.2.8", "ok 2", "aa | answer a.test. A 192.0.2.8", 1),
            ("undo", "undone 2", ALIAS, 1),
            ("flush_zone test.", "ok 3", None, 1),
            ("undo", "undone 3", ALIAS, 1),
            ("flush a.test.", "ok 4", ALIAS, 2),
            ("undo", "undone 4", ALIAS, 2),
            ("stub_add test. 127.0.0.1@1", "ok 5", ALIAS, 2),
            ("undo", "undone 5", ALIAS, 2),
        ]
        for line, told, words, count in rows:
            if line:
                checks.equal(f"undone over {over}: {line}", service.obey(line), [told])
            if words:
                checks.equal(f"undone over {over}: after {line}", service.ask("a.test.", "A", over).words(), words)
            checks.equal(f"undone over {over}: asked after {line}", servers.count("a.test. A") - 1, count)


def check_previews(checks):
    """What an undo would show while the service answers, and of how many names a flush hides data: the zone, its server, and both names."""
    rows = [
        ("what_undo", "error nothing_to_undo"),
        ("local_zone test. refuse", "ok 1"),
        ("look b.test. A", "local refuse"),
        ("look_undo b.test. A", "found 2 b.test. A 192.0.2.7"),
        ("what_undo", "1 done local_zone test. refuse"),
        ("what_undo x", "error bad_data"),
        ("flush_zone test.", "ok 2"),
        ("look_without 1 b.test. A", "unknown"),
        ("look_undo b.test. A", "local refuse"),
        ("look_redo b.test. A", "error nothing_to_redo"),
        ("what_undo", "2 done flush_zone test."),
    ]
    with NameServers(WORKED) as servers, serving(servers) as service:
        checks.equal("previews: the first answer", service.ask("a.test.").words(), ALIAS)
        with service.control() as control:
            for line, wanted in rows:
                checks.equal(f"previews: {line}", without_left(control.tell(line)), wanted)
            checks.equal("previews: the second line of what_undo", control.line(), "hides 4 names, counted over 1 turns")
            checks.equal("previews: the undo", [control.tell(line) for line in ("undo", "undo")], ["undone 2", "undone 1"])
        checks.equal("previews: the last answer", service.ask("a.test.").words(), ALIAS)
        checks.equal("previews: stopped", service.stop(), STOPPED)


def check_overlap(checks, over):
    """The first question's exchange is held up until a second question and a command were answered, by one worker."""
    gate = threading.Event()

    def held(asked):
        asked.wait(gate)
        yield asked.response("aa | answer slow.test. 60 A 192.0.2.1")

    # Eight servers hold it up, one after another, so that the timeouts add up.
    addresses = [f"127.0.0.{place}" for place in range(2, 10)]
    zone = {"slow.test. A": held, "quick.test. A": "aa | answer quick.test. 60 A 192.0.2.2"}
    hints = {address: zone for address in addresses}
    with NameServers(hints) as servers:
        ports = [f"{address}@{servers.port}" for address in addresses]
        with Service(ports) as service, service.client(over) as first:
            first.send(query("slow.test.", "A", 7))
            checks.check(f"overlap over {over}: it is asked", None if servers.wait_for("slow.test. A") else "it is not")
            checks.equal(f"overlap over {over}: the second", service.ask("quick.test.", "A", over).words(), "- | answer quick.test. A 192.0.2.2")
            checks.equal(f"overlap over {over}: the command", service.obey("local_zone a. static"), ["ok 1"])
            checks.equal(f"overlap over {over}: the first waits", first.has_reply(), False)
            gate.set()
            checks.equal(f"overlap over {over}: the first", reply_in(first.octets()).words(), "- | answer slow.test. A 192.0.2.1")


def check_row_of_calls(checks):
    """The replies to two callers: an operator who sets and undoes, and a client whose question is resolved and then cached."""
    with NameServers(WORKED) as servers, serving(servers, "--udp", "2") as service, service.control() as control:
        told = []
        client = threading.Thread(target=lambda: told.extend(service.ask("a.test.").words() for _ in range(2)))
        client.start()
        lines = ["local_zone c. static", "list_local_zones", "undo", "list_local_zones"]
        checks.equal("two callers: the operator", [control.tell(line) for line in lines], ["ok 1", "c. static / end", "undone 1", "end"])
        client.join()
        checks.equal("two callers: the client", told, [ALIAS, ALIAS])
        checks.equal("two callers: asked", servers.count("a.test. A"), 2)


class Load:
    """Clients that go on asking until the service ends or the load is taken off."""

    def __init__(self, service, servers):
        self.service, self.servers = service, servers
        self.ending = threading.Event()
        self.answered = 0
        self.threads = [threading.Thread(target=self._ask, args=(over, place)) for over in ("udp", "tcp") for place in range(3)]
        for thread in self.threads:
            thread.start()

    def _ask(self, over, place):
        """Asks for names that are cached, and for others."""
        number_asked = 0
        try:
            with self.service.client(over) as client:
                client.sock.settimeout(5)
                while not self.ending.is_set():
                    number_asked += 1
                    client.ask("a.test." if number_asked % 4 else f"{over}-{place}-{number_asked}.test.", "A")
                    self.answered += 1
        except (OSError, EOFError):
            pass

    def end(self):
        self.ending.set()
        for thread in self.threads:
            thread.join()


def check_stop_under_load(checks):
    """`stop` while clients ask over UDP and TCP: status 0, both lines of the log, and the ports are free again."""
    with NameServers(WORKED | {TEST: WORKED[TEST] | {"*": "aa rcode 3 | authority test. 60 SOA ns. host. 1 2 3 4 60"}}) as servers:
        with serving(servers, "--udp", "2", "--tcp", "3") as service:
            load = Load(service, servers)
            checks.check("stop under load: it is loaded", None if until(lambda: load.answered > 200) else "it is not")
            checks.equal("stop under load", service.stop(), STOPPED)
            load.end()
            check_log(checks, "stop under load", service.log(), may_fault=True)
            again = Service(["192.0.2.1"])
            with again:
                checks.equal("a service after it", again.stop(), STOPPED)


def check_nothing_left(checks):
    """After a load the service has as many threads and descriptors as before it."""
    with NameServers(WORKED | {TEST: WORKED[TEST] | {"*": "aa rcode 3 | authority test. 60 SOA ns. host. 1 2 3 4 60"}}) as servers:
        with serving(servers, "--udp", "2", "--tcp", "3") as service:
            until(lambda: service.threads() == 8)
            before = (service.threads(), service.idle_descriptors())
            load = Load(service, servers)
            until(lambda: load.answered > 200)
            load.end()
            is_as_before = until(lambda: (service.threads(), service.descriptors()) == before)
            checks.check("nothing is left after a load", None if is_as_before else f"{before} became {(service.threads(), service.descriptors())}")
            checks.equal("threads: one for each worker, those of the sweeper, the log and the operator", before[0], 8)
            checks.equal("nothing is left: stopped", service.stop(), STOPPED)


def check_stop_while_asking(checks):
    """`stop` while exchanges wait for silent servers: the service drops them, ends, and logs its end."""
    with NameServers({ROOT: {"*": None}}) as servers, serving(servers, "--udp", "2") as service:
        with service.client() as client, service.client("tcp") as other:
            for place in range(2):
                client.send(query(f"silent{place}.test.", "A"))
            other.send(query("silent2.test.", "A"))
            for place in range(3):
                checks.check("stop while it asks: asked", None if servers.wait_for(f"silent{place}.test. A") else "it is not")
            checks.equal("stop while it asks", service.stop(), STOPPED)


def main():
    checks = Checks()
    for over in ("udp", "tcp"):
        checks.make(check_resolved, over)
        checks.make(check_delegation_signer, over)
        checks.make(check_zone_types, over)
        checks.make(check_wrong_queries, over)
        checks.make(check_undone, over)
        checks.make(check_overlap, over)
    checks.make(check_long_replies)
    checks.make(check_control)
    checks.make(check_journal)
    checks.make(check_previews)
    checks.make(check_short_log)
    checks.make(check_given_again)
    checks.make(check_full)
    checks.make(check_swept)
    checks.make(check_row_of_calls)
    checks.make(check_nothing_left)
    checks.make(check_stop_under_load)
    checks.make(check_stop_while_asking)
    checks.end()


main()
