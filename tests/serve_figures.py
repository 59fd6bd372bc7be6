"""`status` and `stats` of a service: each figure is compared with what the test did. They keep nobody waiting, and no book sees them."""

import hashlib
import random
import re
import socket
import threading

from lib.checks import Checks
from lib.crowds import Crowd, LateServer
from lib.behaviours import at_once, never
from lib.nameserver import NameServers
from lib.programs import RESOLVER, run
from lib.service import HOST, STOPPED, Service, query, until

RCODES = ("NOERROR", "FORMERR", "SERVFAIL", "NXDOMAIN", "NOTIMPL", "REFUSED")

# What is at zero in a service that has done nothing.
COUNTERS = [
    "total.num.queries", "total.num.cachehits", "total.num.cachemiss", "total.num.dropped", "total.requestlist.exceeded",
    "total.requestlist.current.all", "num.query.tcp", *(f"num.answer.rcode.{word}" for word in RCODES), "num.query.udpout",
    "num.query.tcpout", "num.exchange.answered", "num.exchange.unanswered", "num.exchange.current", "cache.cells", "cache.full",
    "cache.forgotten", "local.zones", "local.records", "stubs", "commands.done", "commands.undone",
]


def risen(before, after):
    """The counters that rose, and by how much."""
    return {name: after[name] - before[name] for name in COUNTERS if after[name] != before[name]}


def is_quiet(service):
    """Whether no query waits, and each is counted once: as a hit or a miss, and by its reply or the want of one."""
    told = service.figures()
    replies = sum(told[f"num.answer.rcode.{word}"] for word in RCODES)
    return (
        told["total.num.queries"] == told["total.num.cachehits"] + told["total.num.cachemiss"] == replies + told["total.num.dropped"]
        and told["total.requestlist.current.all"] == told["num.exchange.current"] == 0
        and told["num.query.udpout"] + told["num.query.tcpout"] == told["num.exchange.answered"] + told["num.exchange.unanswered"]
    )


def check_fresh(checks):
    """A service that has done nothing, with its limits, and the names of all figures in their order."""
    options = ("--udp", "2", "--tcp", "3", "--cells", "77", "--journal", "5")
    with Service(["192.0.2.1"], *options) as service:
        told = service.figures()
        others = {"cache.cells.max": 77, "commands.digest": 0, "control.lines": 1, "time.up": told["time.up"]}
        checks.equal("fresh: stats", told, {**dict.fromkeys(COUNTERS, 0), **others})
        status = service.obey("status")[0]
        wanted = (
            r"version: \d+\.\d+\.\d+ / uptime: \d seconds / workers: 2 over UDP, 3 over TCP / cells: 0 of 77 / forgotten: 0 / zones: 0 / records: 0"
            r" / stubs: 0 / commands: 0 done, 0 undone, 5 at most / ticket: 0 / digest: 0 / queries: 0 under way / end"
        )
        checks.check("fresh: status", None if re.fullmatch(wanted, status) else status)
        version = run([RESOLVER, "--version"]).out.decode().split()[-1]
        checks.equal("fresh: the version", status.split(" / ")[0], f"version: {version}")
        checks.equal("fresh: stopped", service.stop(), STOPPED)


def check_queries(checks, over, workers):
    """Each kind of query, and the counters that it raises."""
    zone = {
        "there.test. A": "aa | answer there.test. 60 A 192.0.2.1",
        "none.test. A": "aa rcode 3 | authority test. 60 SOA ns.test. host.test. 1 2 3 4 60",
        "refused.test. A": "rcode 5",
        "cut.test. A": lambda asked: [asked.response("aa tc" if asked.over == "udp" else "aa | answer cut.test. 60 A 192.0.2.2")],
        "silent.test. A": None,
    }
    name = f"queries over {over}, {workers} workers"
    answered, failed = {"num.exchange.answered": 1}, {"num.exchange.unanswered": 1}
    hit, miss, out = {"total.num.cachehits": 1}, {"total.num.cachemiss": 1}, {"num.query.udpout": 1}
    cases = [
        ("a local record", "held.local.", {**hit, "num.answer.rcode.NOERROR": 1}),
        ("a local zone", "other.local.", {**hit, "num.answer.rcode.NXDOMAIN": 1}),
        ("a refused zone", "a.refuse.", {**hit, "num.answer.rcode.REFUSED": 1}),
        ("a miss", "there.test.", {**miss, **out, **answered, "num.answer.rcode.NOERROR": 1, "cache.cells": 1}),
        ("the hit after it", "there.test.", {**hit, "num.answer.rcode.NOERROR": 1}),
        ("a name that is not there", "none.test.", {**miss, **out, **answered, "num.answer.rcode.NXDOMAIN": 1, "cache.cells": 2}),
        ("a server that refuses", "refused.test.", {**miss, **out, **answered, "num.answer.rcode.SERVFAIL": 1}),
        ("a truncated response", "cut.test.", {
            **miss, **out, "num.query.tcpout": 1, "num.exchange.answered": 2, "num.answer.rcode.NOERROR": 1, "cache.cells": 1,
        }),
        ("a silent server", "silent.test.", {**miss, **out, **failed, "num.answer.rcode.SERVFAIL": 1}),
    ]
    with NameServers({HOST: zone}) as servers, Service([f"{HOST}@{servers.port}"], f"--{over}", str(workers)) as service:
        service.obey("local_zone local. static", "local_data held.local. A 192.0.2.3", "local_zone refuse. refuse", "local_zone deny. deny")
        taken = {"total.num.queries": 1, **({"num.query.tcp": 1} if over == "tcp" else {})}
        for words, asked, wanted in cases:
            before = service.figures()
            service.ask(asked, "A", over)
            checks.equal(f"{name}: {words}", risen(before, service.figures()), {**taken, **wanted})
        for words, octets, rcode in [
            ("no query", query("a.test.", "A")[:-1], "FORMERR"),
            ("another opcode", b"ab\x10\0" + bytes(8), "NOTIMPL"),
        ]:
            before = service.figures()
            with service.client(over) as client:
                client.send(octets)
                client.octets()
            checks.equal(f"{name}: {words}", risen(before, service.figures()), {**taken, **hit, f"num.answer.rcode.{rcode}": 1})
        for words, octets in [("a denied zone", query("a.deny.", "A")), ("a response", b"ab\x80\0" + bytes(8))]:
            before = service.figures()
            with service.client(over) as client:
                client.send(octets)
                client.send(query("held.local.", "A"))
                client.octets()
            both = {"total.num.queries": 2, "total.num.cachehits": 2, "total.num.dropped": 1, "num.answer.rcode.NOERROR": 1}
            rose = risen(before, service.figures())
            rose.pop("num.query.tcp", None)
            checks.equal(f"{name}: {words}", rose, both)
        checks.equal(f"{name}: each once", is_quiet(service), True)
        checks.equal(f"{name}: stopped", service.stop(), STOPPED)


def check_long_datagrams(checks):
    """A datagram of more than 4,096 octets is a query that is malformed, or it is a response and no query."""
    with Service(["192.0.2.1"]) as service, service.client() as client:
        before = service.figures()
        client.send(query("a.test.", "A") + bytes(5_000))
        client.octets()
        client.send(b"ab\x80\0" + bytes(5_000))
        wanted = {"total.num.queries": 1, "total.num.cachehits": 1, "num.answer.rcode.FORMERR": 1}
        checks.equal("long datagrams", risen(before, service.figures()), wanted)


def check_under_way(checks):
    """600 questions at once of one network, which may have 497 of a worker's 512 exchanges, 32 times the free ones and one more: those
    under way, those refused, and later all those in vain."""
    with LateServer(never) as server, Service([server.hint]) as service, Crowd(service) as crowd:
        crowd.send_all(f"n{place}.test." for place in range(600))
        until(lambda: service.figures()["total.num.queries"] == 600)
        told = service.figures()
        found = [told[word] for word in ("total.num.cachemiss", "total.requestlist.exceeded", "num.answer.rcode.SERVFAIL")]
        # The first exchanges may have ended by now, if the machine is slow.
        in_vain = told["num.exchange.unanswered"]
        checks.equal("under way: misses, refused, failed", found, [600, 600 - told["num.query.udpout"], found[1] + in_vain])
        checks.check("under way: room", None if 497 <= told["num.query.udpout"] <= 497 + in_vain else str(told["num.query.udpout"]))
        under_way = told["num.query.udpout"] - in_vain
        checks.equal("under way: now", (told["total.requestlist.current.all"], told["num.exchange.current"]), (under_way, under_way))
        checks.check("under way: status", None if re.search(r"/ queries: \d+ under way /", service.obey("status")[0]) else "no line")
        checks.equal("under way: at the end", until(lambda: is_quiet(service)), True)
        crowd.wait()
        checks.equal("under way: stopped", service.stop(), STOPPED)


def check_while_busy(checks):
    """Figures that are read without a pause while a crowd is answered never fall, and do not add up to more than was asked."""
    with LateServer(at_once) as server, Service([server.hint], "--udp", "3") as service, Crowd(service) as crowd:
        read, over = [], threading.Event()

        def watch():
            while not over.is_set():
                read.append(service.figures())

        watcher = threading.Thread(target=watch)
        watcher.start()
        crowd.ask([f"n{place}.test." for place in range(2_000)], 100)
        over.set()
        watcher.join()
        falls = [name for name in COUNTERS if "current" not in name for old, new in zip(read, read[1:]) if new[name] < old[name]]
        checks.equal("while busy: none falls", falls, [])
        checks.check("while busy: read often", None if len(read) > 10 else f"{len(read)} times")
        told = service.figures()
        found = [told[name] for name in ("total.num.queries", "total.num.cachemiss", "num.exchange.answered", "num.answer.rcode.NOERROR")]
        checks.equal("while busy: at the end", found, [2_000] * 4)
        checks.equal("while busy: each once", is_quiet(service), True)


def digest_with(digest, change):
    """The digest after a change with this text: the first eight octets of the SHA-256 of the digest before and of the text."""
    octets = digest.to_bytes(8, "big") + change.encode()
    return int.from_bytes(hashlib.sha256(octets).digest()[:8], "big")


def change_of(control, line, told):
    """The text of the change that a line made, if it was accepted: that of a command as `list_commands` shows it."""
    word, _, ticket = told.partition(" ")
    if word == "ok":
        listed = (listed.split(" ", 2) for listed in control.tell("list_commands").split(" / ")[:-1])
        return next(words for number, _, words in listed if number == ticket)
    return line if word in ("undone", "redone") else None


def check_book(checks):
    """Commands, undos and redos in a random order: the figures are those of the lists, and the digest is that of the changes."""
    drawn = random.Random(34)
    with Service(["192.0.2.1"], "--journal", "7") as service, service.control() as control:
        tickets = digest = 0
        for turn in range(120):
            place = drawn.randrange(6)
            line = drawn.choice([
                f"local_zone z{place}. static", f"local_zone_remove z{place}.", f"local_data a.z{place}. A 192.0.2.{turn}",
                f"local_data_remove a.z{place}.", f"stub_add s{place}. 192.0.2.1", f"stub_remove s{place}.", "flush_zone .",
                "undo", "undo", "undo", "redo", "redo", "local_zone z. redirect", "look a.z1. A", "sweep",
                *(f"{word} {max(1, tickets - drawn.randrange(5))}" for word in ("undo", "undo", "redo", "redo")),
            ])
            told = control.tell(line)
            tickets += told.startswith("ok ")
            change = change_of(control, line, told)
            if change:
                digest = digest_with(digest, change)
            if turn % 4:
                continue
            lists = {word: control.tell(f"list_{word}").split(" / ")[:-1] for word in ("local_zones", "local_data", "stubs", "commands")}
            figures = dict(line.split("=") for line in control.tell("stats").split(" / ")[:-1])
            states = [line.split()[1] for line in lists["commands"]]
            wanted = [len(lists["local_zones"]), len(lists["local_data"]), len(lists["stubs"]), states.count("done"), states.count("undone")]
            found = [int(figures[word]) for word in ("local.zones", "local.records", "stubs", "commands.done", "commands.undone")]
            checks.equal(f"the book, turn {turn}", found, wanted)
            status = control.tell("status")
            zones, records, stubs, done, undone = wanted
            words = f"/ zones: {zones} / records: {records} / stubs: {stubs} / commands: {done} done, {undone} undone, 7 at most / ticket: {tickets} / digest: {digest} /"
            checks.check(f"the book, turn {turn}: status", None if words in status else f"{status}, wanted {words}")


def check_cells(checks):
    """A cache with room for two: for each name more, the one that ends first is forgotten, and each admission that found no room counts."""
    zone = {f"n{place}.test. A": f"aa | answer n{place}.test. {20 - 4 * place} A 192.0.2.1" for place in range(5)}
    with NameServers({HOST: zone}) as servers, Service([f"{HOST}@{servers.port}"], "--cells", "2") as service:
        for place in range(5):
            service.ask(f"n{place}.test.")
        told = service.figures()
        words = ("cache.cells", "cache.cells.max", "cache.full", "cache.forgotten")
        # A new name is admitted in vain before the sweep, and again after it.
        checks.equal("cells", [told[word] for word in words], [2, 2, 6, 3])
        checks.equal("cells: status", "/ cells: 2 of 2 / forgotten: 3 /" in service.obey("status")[0], True)
        held = [service.obey(f"look n{place}.test. A")[0].split()[0] for place in range(5)]
        checks.equal("cells: the names that end first are gone", held, ["found", "unknown", "unknown", "unknown", "found"])
        checks.equal("cells: a sweep removes what expired", until(lambda: service.figures()["cache.cells"] == 1), True)


def check_lines(checks):
    """How the two lines are read: among other lines, in pieces, with blanks, without an end, and with a word too many."""
    with Service(["192.0.2.1"]) as service:
        for line, wanted in [
            ("status x", "error bad_data"), ("stats status", "error bad_data"), (" \tstatus  x\t", "error bad_data"),
            ("sTATUS", "error unknown"), ("statu", "error unknown"), ("statuss", "error unknown"), ("stats\"x\"", "error unknown"),
            ("status" + " " * 1_018 + " ", "error too_long"),
        ]:
            checks.equal(f"line {line[:20]!r}", service.obey(line), [wanted])
        lines = len(service.obey("status" + " " * 1_018)[0].split(" / "))
        checks.equal("the longest line", lines, 13)
        for text in (b"\tstatus \r\n", b"status", b"#status\n\nstatus\n", b"status\r\n\r\n"):
            checks.equal(f"alone: {text}", told_at_once(service, text).count(b"\n"), 13)
        text = b"list_stubs\nstats\nlook a. A\nstatus\nstatus\nat 5\nstats x\nundo"
        told = told_at_once(service, text).split(b"\n")
        marks = [line.partition(b"=")[0].partition(b":")[0] for line in told]
        wanted = ["end", *COUNTERS[:7]]
        checks.equal("in order: the first", marks[:8], [word.encode() for word in wanted])
        checks.equal("in order: the last", told[-4:], [b"error unknown", b"error bad_data", b"error nothing_to_undo", b""])
        checks.equal("in order: how many", (marks.count(b"version"), told.count(b"end"), told.count(b"unknown")), (2, 4, 1))
        with socket.create_connection((HOST, service.control_port), timeout=60) as sock:
            for octet in b"look a. A\nstats\n":
                sock.sendall(bytes([octet]))
            sock.shutdown(socket.SHUT_WR)
            with sock.makefile("rb") as file:
                told = file.read().split(b"\n")
        checks.equal("octet by octet", (told[0], told[-2]), (b"unknown", b"end"))
        before = service.figures()["control.lines"]
        service.obey("status", "stats", "undo")
        checks.equal("lines: counted", service.figures()["control.lines"], before + 4)
        done = run([RESOLVER, "control", f"{HOST}@{service.control_port}", "status"])
        checks.equal("resolver control", (done.status, done.out.count(b"\n"), done.err), (0, 13, b""))
        done = run([RESOLVER, "control", f"{HOST}@{service.control_port}"], b"stats\nstatus x\nundo\n")
        checks.equal("resolver control, three lines", (done.status, done.out.split(b"\n")[-3:-1]), (1, [b"error bad_data", b"error nothing_to_undo"]))
        checks.equal("lines: stopped", told_at_once(service, b"status\nstop\nstatus\n").split(b"\n")[-3:], [b"end", b"ok stopping", b""])
    done = run([RESOLVER, "script"], b"status\nstats\nstatus x\n")
    checks.equal("in a script", (done.status, done.out), (0, b"error unknown\n" * 3))


def told_at_once(service, text):
    """The replies to a text that is sent in one piece, and then nothing more."""
    with socket.create_connection((HOST, service.control_port), timeout=60) as sock:
        sock.sendall(text)
        sock.shutdown(socket.SHUT_WR)
        with sock.makefile("rb") as file:
            return file.read()


def main():
    checks = Checks()
    checks.make(check_fresh)
    for over in ("udp", "tcp"):
        for workers in (1, 2):
            checks.make(check_queries, over, workers)
    checks.make(check_long_datagrams)
    checks.make(check_under_way)
    checks.make(check_while_busy)
    checks.make(check_book)
    checks.make(check_cells)
    checks.make(check_lines)
    checks.end()


main()
