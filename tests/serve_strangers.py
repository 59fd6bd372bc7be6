"""What strangers can take from others: name servers that answer late at very many addresses hold no question for longer than ten
seconds, and their names take no place from the names of others, nor one network from another. What their responses fill of the memory
is bounded."""

import itertools
import socket
import time

from lib.behaviours import answered, count_answered, right
from lib.checks import Checks
from lib.crowds import Crowd, LateServer, flooded
from lib.long_messages import QUESTION, Response, label, pointer
from lib.nameserver import Piece, framed
from lib.replies import reply_in
from lib.service import HOST, STOPPED, Service, query

FAILED = "rcode 2"
HELD = "aa | answer held.test. A 192.0.2.1"

# The seconds for which a question may hold a place, and what a busy machine adds.
MOST_SECONDS = 10
MORE_SECONDS = 1

# The 64 addresses of a server that answers each question with SERVFAIL, so late that the exchange still counts as answered.
LATE = [f"127.0.9.{place}" for place in range(1, 65)]
LATE_SECONDS = 1.9

# Questions a second for names of late servers, and seconds before and while names of others are asked.
A_SECOND = 50
FILLING_SECONDS, ASKING_SECONDS = 14, 20

# The most octets of memory that a service may have more than at its start, whatever its questions keep.
MOST_MORE = 64 << 20

# The labels of a name below which servers refer from each to the next.
DEPTH = 60


def late(asked):
    """The root's zone: names at or below `evil.test.` are at the late servers, in the zone that the name begins with, all others here."""
    name = asked.question.split()[0]
    if asked.server != HOST:
        yield LATE_SECONDS, asked.response(FAILED)
    elif name.endswith("evil.test."):
        zone = name.partition(".")[2]
        glue = " ".join(f"| additional ns.{zone} 60 A {address}" for address in LATE)
        yield 0, asked.response(f"| authority {zone} 60 NS ns.{zone} {glue}")
    else:
        yield 0.02, right(asked)


def flood(service, zones, ended):
    """Asks for new names of late servers all the time, in so many zones."""
    with Crowd(service) as crowd:
        began = time.monotonic()
        for place in itertools.count():
            crowd.send(f"a{place}.z{place % zones}.evil.test.")
            crowd.take()
            if ended.wait(max(0, began + place / A_SECOND - time.monotonic())):
                return


def check_one(checks):
    """One question whose servers all answer late ends after ten seconds."""
    with LateServer(late, [HOST, *LATE]) as server, Service([server.hint], "--server-port", str(server.port)) as service:
        began = time.monotonic()
        with service.client() as client:
            client.send(query("a.z.evil.test.", "A"))
            # SERVFAIL by the header alone.
            checks.equal("one late name", client.octets()[3] & 15, 2)
        took = time.monotonic() - began
        print(f"one late name: {took:.1f} s")
        checks.check("one late name: how long", None if took < MOST_SECONDS + MORE_SECONDS else f"{took:.1f} s")
        checks.equal("one late name: it is logged", service.logged(b"resolver: a question took too long"), True)
        checks.equal("one late name: stopped", service.stop(), STOPPED)


def ask_fourth(moments):
    """The words of the reply where three servers are silent and the fourth answers, and how the service ended. Notes when each was asked."""
    began = time.monotonic()

    def does(asked):
        moments.append(f"{asked.server} at {time.monotonic() - began:.1f} s")
        if asked.server == "127.0.0.5":
            yield 0, right(asked)

    addresses = ["127.0.0.2", "127.0.0.3", "127.0.0.4", "127.0.0.5"]
    with LateServer(does, addresses) as server, Service([f"{address}@{server.port}" for address in addresses]) as service:
        with service.client() as client:
            client.send(query("n1.test.", "A"))
            octets = client.octets()
        words = f"rcode {octets[3] & 15}" if octets[3] & 15 else reply_in(octets).words()
        if words != answered("n1.test."):
            moments.append(service.log().decode())
        return words, service.stop()


def check_fourth(checks):
    """Three servers are silent, and the fourth answers. A machine that stands still for two seconds may lose its response: so it may be
    asked twice."""
    moments = []
    words, ended = ask_fourth(moments)
    checks.equal("the fourth server: stopped", ended, STOPPED)
    if words != answered("n1.test."):
        words, _ = ask_fourth(moments)
        print("the fourth server:", *moments)
    checks.equal("the fourth server", words, answered("n1.test."))


def check_crowd(checks, zones):
    """Late names in so many zones below one name, fifty a second, from the client that asks for other new names: of these 95 in 100 are
    answered, and cached names all."""
    name = f"late names in {zones} zones"
    with LateServer(late, [HOST, *LATE]) as server:
        with Service([server.hint], "--server-port", str(server.port)) as service, Crowd(service) as crowd:
            service.obey("local_data held.test. 60 A 192.0.2.1")
            with flooded(flood, service, zones):
                time.sleep(FILLING_SECONDS)
                held, began = [], time.monotonic()
                for place in range(ASKING_SECONDS * 5):
                    crowd.send(f"new{place}.test.")
                    held.append(service.ask("held.test.").words())
                    crowd.take()
                    time.sleep(max(0, began + place / 5 - time.monotonic()))
                crowd.wait()
                told = service.figures()
            count = count_answered(crowd)
            print(f"{name}: {count} of {len(crowd.names)}, {told['num.exchange.current']} exchanges")
            checks.check(f"{name}: new names", None if count >= 0.95 * len(crowd.names) else f"{count} of {len(crowd.names)}")
            checks.equal(f"{name}: cached names", set(held), {HELD})
            checks.check(f"{name}: exchanges", None if told["num.exchange.current"] > 300 else f"{told['num.exchange.current']}")
            checks.equal(f"{name}: stopped", service.stop(), STOPPED)


def check_network(checks):
    """A stranger of another network asks for 500 names a second in 1,000 zones whose servers are silent. Of the new names of others 95
    in 100 are answered."""

    def does(asked):
        if ".z" not in asked.question:
            yield 0.02, right(asked)

    def floods(port, ended):
        with socket.socket(socket.AF_INET, socket.SOCK_DGRAM) as sock:
            sock.bind(("127.0.7.1", 0))
            for place in itertools.count():
                sock.sendto(query(f"a{place}.z{place % 1_000}.test.", "A"), (HOST, port))
                if ended.wait(0.002):
                    return

    with LateServer(does) as server, Service([server.hint]) as service, Crowd(service) as crowd:
        with flooded(floods, service.port):
            time.sleep(3)
            for place in range(50):
                crowd.send(f"new{place}.test.")
                crowd.take(0.2)
            crowd.wait()
            told = service.figures()
        count = count_answered(crowd)
        print(f"another network: {count} of {len(crowd.names)}, {told['num.exchange.current']} exchanges")
        checks.check("another network: new names", None if count >= 0.95 * len(crowd.names) else f"{count} of {len(crowd.names)}")
        checks.check("another network: exchanges", None if told["num.exchange.current"] > 450 else f"{told['num.exchange.current']}")
        checks.equal("another network: stopped", service.stop(), STOPPED)


def large(asked):
    """A response of 60 KiB that reports a fault: strings of 255 octets."""
    response = Response(asked.query)
    response.octets[3] |= 2
    for _ in range(60):
        response.add(b"\0", "TXT", 4 * (b"\xff" + 255 * b"x"), section=10)
    return response.whole()


def large_responses(asked):
    """Over TCP each address has a large response at once, and the question goes on to the next address. From the fourth on they stop
    before the end of it."""
    if asked.over == "udp":
        yield 0, asked.response("tc")
    elif asked.server in LATE[:3]:
        yield 0, large(asked)
    else:
        yield 0, Piece(framed(large(asked))[:60_000])


def referrals(asked):
    """Each server refers to eight servers one label below it, until none is left. The last one is silent."""
    name = asked.question.split()[0]
    below = name.removesuffix("evil.test.").split(".")[1:-1]
    asked_at = next((place for place, address in enumerate(LATE) if address == asked.server), 0)
    if asked_at >= len(below) - 1:
        return
    # Where the next zone begins in the question's name.
    at = QUESTION + sum(len(word) + 1 for word in name.split(".")[: len(below) - 1 - asked_at])
    response = Response(asked.query)
    response.octets[2] &= 0xFB
    for place in range(8):
        response.add(pointer(at), "NS", label(f"n{place}") + pointer(at), section=8)
    for place in range(8):
        response.add(label(f"n{place}") + pointer(at), "A", bytes(int(word) for word in LATE[asked_at + 1].split(".")), section=10)
    yield 0, response.whole()


# How strangers fill the memory: what their servers do, and the labels of a name before its zone.
FILLINGS = {"large responses": (large_responses, ""), "referrals": (referrals, "".join(f"{place}." for place in range(DEPTH)))}


def resident(service, what):
    """The octets of memory that a service has (`VmRSS`), or had at most (`VmHWM`)."""
    with open(f"/proc/{service.process.pid}/status", encoding="ascii") as file:
        return next(1024 * int(line.split()[1]) for line in file if line.startswith(what))


def check_kept(checks, filling):
    """1,000 questions whose servers fill the memory, and 50 more a second. New names of others are answered meanwhile."""
    does, words = FILLINGS[filling]

    def fills(asked):
        name = asked.question.split()[0]
        if not name.endswith("evil.test."):
            yield 0.02, right(asked)
        elif asked.server == HOST:
            zone = ".".join(name.split(".")[-4:])
            glue = " ".join(f"| additional ns.{zone} 60 A {address}" for address in LATE[: 1 if words else 16])
            yield 0, asked.response(f"| authority {zone} 60 NS ns.{zone} {glue}")
        else:
            yield from does(asked)

    with LateServer(fills, [HOST, *LATE]) as server:
        with Service([server.hint], "--server-port", str(server.port), "--cells", "2000") as service, Crowd(service) as crowd:
            with Crowd(service) as strangers:
                service.ask("new1000.test.")
                before = resident(service, "VmRSS")
                names = (f"a{place}.{words}z{place % 200}.evil.test." for place in itertools.count())
                strangers.send_all(itertools.islice(names, 1_000))
                for place in range(100):
                    strangers.send_all(itertools.islice(names, 10))
                    crowd.send(f"new{place}.test.")
                    strangers.take(0.1)
                    crowd.take(0.1)
                crowd.wait()
            more = resident(service, "VmHWM") - before
            count = count_answered(crowd)
            print(f"{filling}: {more / 1e6:.0f} MB more than {before / 1e6:.0f}, {count} of {len(crowd.names)}")
            checks.check(f"{filling}: memory", None if more <= MOST_MORE else f"{more / 1e6:.0f} MB")
            checks.check(f"{filling}: new names", None if count >= 0.95 * len(crowd.names) else f"{count} of {len(crowd.names)}")
            checks.equal(f"{filling}: stopped", service.stop(), STOPPED)


def main():
    checks = Checks()
    for filling in FILLINGS:
        checks.make(check_kept, filling)
    checks.make(check_one)
    checks.make(check_fourth)
    for zones in (16, 1_000):
        checks.make(check_crowd, zones)
    checks.make(check_network)
    checks.end()


main()
