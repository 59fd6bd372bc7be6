"""Addresses that strangers name as servers: a zone may name 64 addresses that are somebody else's. One question sends few packets
there, and addresses that the operator sets apart get none."""

import time

from lib.checks import Checks
from lib.nameserver import REFUSED, NameServers
from lib.service import HOST, STOPPED, Service, query

# The addresses that a hostile zone names.
VICTIMS = [f"127.0.9.{place}" for place in range(1, 65)]

# The most addresses of one list that are asked for one question.
MOST_LISTED = 16

# The seconds for which a server that refused a zone is not asked about it.
PAUSE = 1

FAILED = "rcode 2"
RANGE = ("--do-not-query", "127.0.9.0/24")


def good(asked):
    yield asked.response(f"aa | answer {asked.question.split()[0]} 60 A 192.0.2.1")


def answered(name):
    return f"- | answer {name} A 192.0.2.1"


def refers(addresses, kind="A"):
    """The root's zone: a name `WORD.ZONE.` is in the zone `ZONE.`, whose server has these addresses."""

    def does(asked):
        zone = asked.question.split()[0].partition(".")[2]
        glue = " ".join(f"| additional ns.{zone} 60 {kind} {address}" for address in addresses)
        yield asked.response(f"| authority {zone} 60 NS ns.{zone} {glue}")

    return does


def served(servers, *options):
    """A service whose root server is at `HOST`."""
    return Service([f"{HOST}@{servers.port}"], "--server-port", str(servers.port), *options)


def packets(servers, since=0):
    """How many queries came to the victims, without the first few queries of all."""
    return sum(address in VICTIMS for address, _, _ in list(servers.asked)[since:])


def ask(checks, what, service, servers, name, most, least=0, over="udp"):
    """Asks about a name in vain. The victims get so many queries."""
    since = len(servers.asked)
    with service.client(over) as client:
        client.send(query(name, "A"))
        # SERVFAIL, by the header alone if the question's time was up.
        checks.equal(f"{what}: {name}", client.octets()[3] & 15, 2)
    count = packets(servers, since)
    checks.check(f"{what}: queries for {name}", None if least <= count <= most else f"{count}, wanted {least} to {most}")


def check_closed(checks):
    """64 closed ports: at most 16 packets for one question, and none for the next one at once."""
    with NameServers({HOST: {"*": refers(VICTIMS)}}) as servers, served(servers) as service:
        for name, most in (("a.evil.test.", MOST_LISTED), ("b.evil.test.", 0)):
            before, asked = service.figures()["num.query.udpout"], len(servers.asked)
            checks.equal(f"closed ports: {name}", service.ask(name).words(), FAILED)
            count = service.figures()["num.query.udpout"] - before - (len(servers.asked) - asked)
            checks.check(f"closed ports: packets for {name}", None if count <= most else f"{count}, wanted {most} at most")
        checks.equal("closed ports: stopped", service.stop(), STOPPED)


def check_refusing(checks, over):
    """64 servers that refuse: 16 queries for one question. Over UDP there are none for the next one about the zone at once. About
    another zone they are asked, and about the first one after a second."""
    what = f"they refuse, over {over}"
    zones = {HOST: {"*": refers(VICTIMS)}, **{address: {"*": REFUSED} for address in VICTIMS}}
    with NameServers(zones) as servers, served(servers) as service:
        ask(checks, what, service, servers, "a.evil.test.", MOST_LISTED, MOST_LISTED, over)
        if over == "udp":
            ask(checks, what, service, servers, "c.evil.test.", 0)
        ask(checks, what, service, servers, "a.other.test.", MOST_LISTED, MOST_LISTED, over)
        time.sleep(PAUSE + 0.2)
        ask(checks, what, service, servers, "b.evil.test.", MOST_LISTED, MOST_LISTED, over)
        checks.equal(f"{what}: stopped", service.stop(), STOPPED)


def check_refusing_one(checks):
    """A server refuses one of its zones: that passes it over for no other zone, and for no stub."""

    def does(asked):
        if asked.question.split()[0].endswith("lame.test."):
            yield asked.response(REFUSED)
        else:
            yield from good(asked)

    with NameServers({HOST: {"*": refers(VICTIMS[:1])}, VICTIMS[0]: {"*": does}}) as servers, served(servers) as service:
        ask(checks, "it refuses one zone", service, servers, "a.lame.test.", 1, 1)
        checks.equal("it refuses one zone: the other one", service.ask("a.well.test.").words(), answered("a.well.test."))
        checks.equal("it refuses one zone: a stub", service.obey(f"stub_add lame.test. {VICTIMS[0]}@{servers.port}"), ["ok 1"])
        for name in ("b.lame.test.", "c.lame.test."):
            ask(checks, "it refuses a stub's zone", service, servers, name, 1, 1)
        checks.equal("it refuses one zone: stopped", service.stop(), STOPPED)


def check_silent(checks):
    """64 silent servers: at most 16 queries for each question."""
    zones = {HOST: {"*": refers(VICTIMS)}, **{address: {"*": None} for address in VICTIMS}}
    with NameServers(zones) as servers, served(servers) as service:
        ask(checks, "they are silent", service, servers, "a.evil.test.", MOST_LISTED, 1)
        ask(checks, "they are silent", service, servers, "a.evil.test.", MOST_LISTED)
        checks.equal("they are silent: stopped", service.stop(), STOPPED)


def check_first_many(checks):
    """The sixteenth address of a zone is asked, the seventeenth is not. All addresses of a stub are."""
    zones = {HOST: {"*": refers(VICTIMS)}, **{address: {"*": REFUSED} for address in VICTIMS}}
    zones[VICTIMS[MOST_LISTED - 1]] = {"*": lambda asked: good(asked) if "last" in asked.question else iter([asked.response(REFUSED)])}
    zones[VICTIMS[MOST_LISTED]] = {"*": good}
    with NameServers(zones) as servers, served(servers) as service:
        checks.equal("the sixteenth address", service.ask("last.evil.test.").words(), answered("last.evil.test."))
        ask(checks, "the seventeenth address", service, servers, "a.other.test.", MOST_LISTED, MOST_LISTED)
        checks.equal("addresses of a zone: stopped", service.stop(), STOPPED)


def check_set_apart(checks):
    """Addresses that the operator sets apart: no server of a response is asked there. A stub and a hint are."""
    zones = {HOST: {"*": refers(VICTIMS[:1])}, VICTIMS[0]: {"*": good}}
    with NameServers(zones) as servers, served(servers, *RANGE) as service:
        for over in ("udp", "tcp"):
            ask(checks, f"set apart, over {over}", service, servers, f"{over}.inner.test.", 0, over=over)
        checks.equal("set apart: a stub", service.obey(f"stub_add stub.test. {VICTIMS[0]}@{servers.port}"), ["ok 1"])
        for over in ("udp", "tcp"):
            name = f"{over}.stub.test."
            checks.equal(f"set apart: a stub, over {over}", service.ask(name, over=over).words(), answered(name))
        checks.equal("set apart: stopped", service.stop(), STOPPED)
    with NameServers({VICTIMS[0]: {"*": good}}) as servers, Service([f"{VICTIMS[0]}@{servers.port}"], *RANGE) as service:
        checks.equal("set apart: a hint", service.ask("a.test.").words(), answered("a.test."))
        checks.equal("set apart, and a hint: stopped", service.stop(), STOPPED)


def check_mapped(checks):
    """An IPv6 address that stands for an IPv4 address set apart is not asked either. Without the option it is."""
    zones = {HOST: {"*": refers([f"::ffff:{VICTIMS[0]}"], "AAAA")}, VICTIMS[0]: {"*": good}}
    for options, words in (((), answered("a.inner.test.")), (RANGE, FAILED), (("--do-not-query", "::ffff:7f00:901"), FAILED)):
        with NameServers(zones) as servers, served(servers, *options) as service:
            checks.equal(f"a mapped address, {options}", service.ask("a.inner.test.").words(), words)
            checks.equal(f"a mapped address, {options}: queries", packets(servers), 0 if options else 1)
            checks.equal(f"a mapped address, {options}: stopped", service.stop(), STOPPED)


def check_others(checks):
    """Several ranges may be set apart. Addresses beside them are asked."""
    zones = {HOST: {"*": refers(VICTIMS[:1])}, VICTIMS[0]: {"*": good}}
    for options, is_asked in (
        (("--do-not-query", "127.0.8.0/24", "--do-not-query", "10.0.0.0/8", "--do-not-query", "fc00::/7"), True),
        (("--do-not-query", "127.0.9.2"), True),
        (("--do-not-query", "127.0.9.2/31"), True),
        (("--do-not-query", "10.0.0.0/8", "--do-not-query", VICTIMS[0]), False),
        (("--do-not-query", "127.0.9.0/31"), False),
        (("--do-not-query", "0.0.0.0/0"), False),
        (("--do-not-query", "::/0"), True),
    ):
        with NameServers(zones) as servers, served(servers, *options) as service:
            words = answered("a.inner.test.") if is_asked else FAILED
            checks.equal(f"beside ranges: {options}", service.ask("a.inner.test.").words(), words)
            checks.equal(f"beside ranges: {options}: stopped", service.stop(), STOPPED)


def main():
    checks = Checks()
    checks.make(check_closed)
    for over in ("udp", "tcp"):
        checks.make(check_refusing, over)
    checks.make(check_refusing_one)
    checks.make(check_silent)
    checks.make(check_first_many)
    checks.make(check_set_apart)
    checks.make(check_mapped)
    checks.make(check_others)
    checks.end()


main()
