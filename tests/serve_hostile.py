"""`resolver serve` with name servers and clients that lie, stay silent, are slow or go away; without descriptors; and with calls of
sockets that are interrupted or move little."""

import re
import select
import shutil
import socket
import subprocess
import sys
import threading
import time
from concurrent.futures import ThreadPoolExecutor

from lib.checks import Checks
from lib.long_messages import DEAR, HONEST
from lib.messages import number, question_of
from lib.nameserver import Asked, NameServers, Piece, framed, receive
from lib.replies import reply_in
from lib.service import STOPPED, Service, disturbed, query, until

HOST = "127.0.0.1"
# The argument with which this file runs again, within `unshare`.
OWN_NETWORK = "own-network"
GOOD = "aa | answer {name} 60 A 192.0.2.1"


def good(asked):
    return asked.response(GOOD.format(name=asked.question.split()[0]))


def other_identifier(asked):
    return asked.response(f"id 1 aa | answer {asked.question.split()[0]} 60 A 192.0.2.66")


def other_question(asked):
    return asked.response(f"aa asks other.test. A | answer {asked.question.split()[0]} 60 A 192.0.2.66")


def two_questions(asked):
    return asked.response(f"aa questions 2 | answer {asked.question.split()[0]} 60 A 192.0.2.66")


def lies_first(*lies):
    """Datagrams that fit another query or are no message, before the response."""

    def does(asked):
        for lie in lies:
            yield lie if isinstance(lie, bytes) else lie(asked)
        yield good(asked)

    return does


def lies_on(asked):
    """A wrong datagram each 100 ms until the servers close, far longer than an exchange may take."""
    while True:
        yield asked.response("id 1 aa | answer lies-on.test. 60 A 192.0.2.66")
        asked.pause(0.1)


def in_capitals(asked):
    yield asked.response("aa asks CAPITALS.tEst. A | answer capitals.test. 60 A 192.0.2.1")


def cut(does_over_tcp):
    """A response that is truncated over UDP, and over TCP is sent in a given way."""

    def does(asked):
        if asked.over == "udp":
            yield asked.response("aa tc")
        else:
            yield from does_over_tcp(asked)

    return does


def drips(asked):
    """The length and the first octets of the header, each octet sent by itself, and then the rest."""
    octets = framed(good(asked))
    for octet in octets[:6]:
        yield Piece([octet])
        asked.pause(0.01)
    yield Piece(octets[6:])


def breaks_off(asked):
    yield Piece(framed(good(asked))[:20])


def is_silent(asked):
    asked.wait(threading.Event())
    yield b""


def is_another(asked):
    octets = good(asked)
    yield bytes([octets[0] ^ 1]) + octets[1:]


LONG = " | ".join(f"answer big.test. 60 TXT {place:03}{'x' * 250}" for place in range(230))

# What the only name server does with a question, and the reply to the client.
SERVED = {
    "good.test. A": (GOOD.format(name="good.test."), "good"),
    "lies-first.test. A": (lies_first(other_identifier), "good"),
    "asks-another.test. A": (lies_first(other_question), "good"),
    "asks-twice.test. A": (lies_first(two_questions), "good"),
    "short-first.test. A": (lies_first(b"x"), "good"),
    "empty-first.test. A": (lies_first(b""), "good"),
    "lies-twice.test. A": (lies_first(other_identifier, b"x"), "failed"),
    "lies-on.test. A": (lies_on, "failed"),
    "capitals.test. A": (in_capitals, "good"),
    "silent.test. A": (None, "failed"),
    "cut.test. A": (cut(lambda asked: [good(asked)]), "good"),
    "cut-twice.test. A": (cut(lambda asked: [asked.response("aa tc")]), "failed"),
    "cut-drips.test. A": (cut(drips), "good"),
    "cut-breaks.test. A": (cut(breaks_off), "failed"),
    "cut-silent.test. A": (cut(is_silent), "failed"),
    "cut-another.test. A": (cut(is_another), "failed"),
    "refuses.test. A": ("rcode 5", "failed"),
    "fails.test. A": ("rcode 2", "failed"),
    "nothing.test. A": ("aa", "nothing"),
    "nobody.test. A": ("aa rcode 3", "nobody"),
}
MEANT = {"good": "- | answer {name} A 192.0.2.1", "failed": "rcode 2", "nothing": "-", "nobody": "rcode 3"}


def check_servers(checks):
    """All at once, over UDP and TCP: the reply comes before the liars have finished."""
    zone = {question: does for question, (does, _) in SERVED.items()}
    with NameServers({HOST: zone}) as servers, Service([f"{HOST}@{servers.port}"], "--udp", "8", "--tcp", "8") as service:
        for over in ("udp", "tcp"):
            with ThreadPoolExecutor(len(SERVED)) as pool:
                asking = {question: pool.submit(service.ask, *question.split(), over) for question in SERVED}
                for question, (_, meaning) in SERVED.items():
                    wanted = MEANT[meaning].format(name=question.split()[0])
                    checks.equal(f"{question} over {over}", asking[question].result().words(), wanted)
        for question in ("cut.test. A", "cut-drips.test. A"):
            counts = servers.count(question, "udp"), servers.count(question, "tcp")
            checks.equal(f"{question}: asked over UDP, then over TCP, then held", counts, (1, 1))
        for question in ("refuses.test. A", "silent.test. A"):
            checks.equal(f"{question}: a failure is not held", servers.count(question), 2)
        checks.equal("after liars: stopped", service.stop(), STOPPED)


def check_servers_of_tcp_clients(checks):
    """Questions that nobody asked over UDP before: from the cache, TCP workers would answer without a name server."""
    zone = {"lies-first.test. A": lies_first(other_identifier), "cut-drips.test. A": cut(drips)}
    with NameServers({HOST: zone}) as servers, Service([f"{HOST}@{servers.port}"]) as service:
        for question in zone:
            name = question.split()[0]
            checks.equal(f"{question}, first over tcp", service.ask(name, "A", "tcp").words(), MEANT["good"].format(name=name))


def check_large(checks, settings):
    """A response of 59 KiB, over TCP on both sides. A client over UDP gets it cut. The cache does not keep so large a set."""
    does, sockets = cut(lambda asked: [asked.response(f"aa | {LONG}")]), disturbed(**settings)
    with NameServers({HOST: {"big.test. TXT": does}}) as servers, Service([f"{HOST}@{servers.port}"], environment=sockets) as service:
        checks.equal(f"59 KiB over UDP, {settings}", service.ask("big.test.", "TXT").words(), "tc")
        reply = service.ask("big.test.", "TXT", "tcp")
        wanted = [f'"{place:03}{"x" * 250}"' for place in range(230)]
        checks.equal(f"59 KiB over TCP, {settings}", [record.data for record in reply.records], wanted)
        checks.equal(f"59 KiB: asked over UDP and over TCP for each client, {settings}", len(servers.asked), 4)


def check_kept(checks, over):
    """A question that keeps too much of a response ends, with a line in the log. Others are answered, and none waits then."""
    referral = "| 1700 authority c.test. 60 NS n%.c.test. | additional n0.c.test. 60 A 192.0.2.1"
    zone = {"a.c.test. A": cut(lambda asked: [asked.response(referral)]), "good.test. A": lambda asked: [good(asked)]}
    with NameServers({HOST: zone}) as servers, Service([f"{HOST}@{servers.port}"]) as service:
        with service.client(over) as client:
            client.send(query("a.c.test.", "A"))
            # SERVFAIL by the header alone.
            checks.equal(f"1,700 servers over {over}", client.octets()[3] & 15, 2)
        checks.equal(f"1,700 servers over {over}: logged", service.logged(b"resolver: a question kept too much"), True)
        checks.equal(f"1,700 servers over {over}: others", service.ask("good.test.", "A", over).words(), MEANT["good"].format(name="good.test."))
        checks.equal(f"1,700 servers over {over}: none waits", service.figures()["num.exchange.current"], 0)
        checks.equal(f"1,700 servers over {over}: stopped", service.stop(), STOPPED)


def check_dear(checks, over):
    """A response that would take too long to read fails its exchange, and no other. Long responses of honest servers are read."""
    dear = {f"{how}.test. A": cut(lambda asked, makes=makes: [makes(asked.query)]) for how, makes in DEAR.items()}
    honest = {f"{how}.test. {kind}": cut(lambda asked, makes=makes: [makes(asked.query)]) for how, (kind, makes) in HONEST.items()}
    with NameServers({HOST: dear | honest | {"good.test. A": lambda asked: [good(asked)]}}) as servers, Service([f"{HOST}@{servers.port}"]) as service:
        for question in dear:
            checks.equal(f"{question} over {over}", service.ask(*question.split(), over).words(), "rcode 2")
            cause = f"too dear to read, server {HOST}@{servers.port}".encode()
            checks.equal(f"{question} over {over}: logged", service.logged(cause), True)
        for question in honest:
            # The mail exchanges fit no reply, since names in data are written whole. Then it is a header alone.
            with service.client(over) as client:
                client.send(query(*question.split()))
                client.octets()
            checks.equal(f"{question} over {over}: is read", servers.count(question, "tcp"), 1)
        too_long = service.logged(b"no message holds the reply, set exchanges.test. MX")
        checks.equal(f"exchanges.test. MX over {over}: is logged", too_long, True)
        checks.equal(f"dear responses over {over}: others", service.ask("good.test.", "A", over).words(), MEANT["good"].format(name="good.test."))
        checks.equal(f"dear responses over {over}: stopped", service.stop(), STOPPED)
        checks.equal(f"dear responses over {over}: faults, theirs alone", service.times(b"device fault"), len(dear))


# The ways in which the calls of a service's sockets are disturbed.
DISTURBED = [{"SIGNALS": 1}, {"PIECE": 1}, {"SIGNALS": 1, "PIECE": 1}]


def check_disturbed(checks, over, settings):
    """The service repeats calls of sockets that a signal interrupts or that move one octet: each server is asked once, each
    client gets its reply, and no fault is logged."""
    how = f"over {over}, {settings}"
    zone = {question: SERVED[question][0] for question in ("good.test. A", "lies-first.test. A", "cut.test. A", "cut-drips.test. A")}
    with NameServers({HOST: zone}) as servers, Service([f"{HOST}@{servers.port}"], environment=disturbed(**settings)) as service:
        for question in zone:
            wanted = MEANT["good"].format(name=question.split()[0])
            told = [service.ask(*question.split(), over).words() for _ in range(2)]
            checks.equal(f"{question} {how}", told, [wanted, wanted])
            counts = servers.count(question, "udp"), servers.count(question, "tcp")
            checks.equal(f"{question} {how}: asked", counts, (1, int(question.startswith("cut"))))
        checks.equal(f"{how}: stopped", service.stop(), STOPPED)
        wanted = [did for did, setting in (("interrupted", "SIGNALS"), ("cut", "PIECE")) if setting in settings]
        checks.equal(f"{how}: what was done", [did for did, count in service.disturbances().items() if count], wanted)
        checks.equal(f"{how}: faults", service.log().count(b"fault"), 0)


class Early(NameServers):
    """Servers that answer over TCP once a query's length and identifier have come, and then send octets until the rest comes."""

    FRONT = 4

    def __init__(self, question):
        self.whole = []
        self.early = question
        super().__init__({HOST: {question: cut(None)}})

    def _follow(self, connection, address):
        try:
            with connection:
                front = receive(connection, self.FRONT)
                connection.sendall(framed(good(Asked(self, address, "tcp", front[2:], self.early))))
                while not select.select([connection], [], [], 0.05)[0] and not self.closing.is_set():
                    connection.sendall(b"\0")
                rest = receive(connection, 2 + int.from_bytes(front[:2], "big") - self.FRONT)
                self.whole.append(question_of(front[2:] + rest) if rest else "the connection ended")
        except Exception as fault:  # whatever happened, the query has not left
            self.whole.append(fault)


def check_early(checks):
    """A response that comes before the whole query has left is read once the query has."""
    question = "early.test. A"
    with Early(question) as servers, Service([f"{HOST}@{servers.port}"], environment=disturbed(HOLD=Early.FRONT)) as service:
        checks.equal("an early reply", service.ask(*question.split()).words(), MEANT["good"].format(name="early.test."))
        checks.equal("an early reply: stopped", service.stop(), STOPPED)
        checks.equal("an early reply: held", service.disturbances().get("held", 0) > 0, True)
        checks.equal("an early reply: faults", service.log().count(b"fault"), 0)
        checks.equal("an early reply: the query has left", until(lambda: servers.whole) and servers.whole, [question])


# The only name server that lives in the checks below. It answers every name but those of `SINKS`.
ALIVE = "127.0.0.9"

# Addresses that belong to no host. Linux sends what goes to the first of them, and to `::`, to this machine.
NO_HOSTS = ["0.0.0.0", "0.1.2.3", "224.0.0.1", "240.0.0.1", "255.255.255.255", "::", "::ffff:0.0.0.0", "::ffff:255.255.255.255", "ff02::1"]


def own_address():
    """The address from which this machine sends to others, or None if it knows no way to them."""
    with socket.socket(socket.AF_INET, socket.SOCK_DGRAM) as sock:
        try:
            sock.connect(("203.0.113.1", 53))
        except OSError:
            return None
        return sock.getsockname()[0]


def refers_to(targets):
    """Refers each name of `sinkN.test.` to a server at the Nth target, and answers every other name."""

    def does(asked):
        zone = asked.question.split()[0].partition(".")[2]
        place = zone.removeprefix("sink").removesuffix(".test.")
        if not place.isdecimal():
            yield good(asked)
            return
        target = targets[int(place)]
        kind = "AAAA" if ":" in target else "A"
        yield asked.response(f"| authority {zone} 60 NS ns.{zone} | additional ns.{zone} 60 {kind} {target}")

    return does


def check_never_asked(checks, how, targets, over, listens=HOST):
    """Questions below servers that the service must not ask are SERVFAIL at once, cost few lines, and cost others nothing."""
    how = f"{how}, over {over}"
    hints = {ALIVE: {"*": refers_to(targets)}}
    with NameServers(hints) as servers, Service([f"{ALIVE}@{servers.port}"], "--server-port", "{port}", listens=listens) as service:
        with ThreadPoolExecutor(8) as pool:
            names = [f"new{place}.test." for place in range(50)]
            healthy = [pool.submit(service.ask, name) for name in names]
            for place, target in enumerate(targets):
                began = time.monotonic()
                reply = service.ask(f"a.sink{place}.test.", "A", over).words()
                took = time.monotonic() - began
                checks.equal(f"a server at {target}, {how}", reply, "rcode 2")
                checks.check(f"a server at {target}, {how}: at once", None if took < 1 else f"it took {took:.1f} s")
            wanted = [MEANT["good"].format(name=name) for name in names]
            checks.equal(f"new names beside, {how}", [reply.result().words() for reply in healthy], wanted)
        checks.equal(f"{how}: stopped", service.stop(), STOPPED)
        lines = service.log().count(b"\n")
        most = 2 + 4 * len(targets)
        checks.check(f"{how}: few lines in the log", None if lines <= most else f"{lines} lines, wanted {most} at most")


def check_no_hosts(checks, over):
    """Name servers at addresses that belong to no host."""
    check_never_asked(checks, "of no host", NO_HOSTS, over)


def check_itself(checks, over):
    """Name servers at the service's own address and port, whether it listens at one address or at all of them."""
    check_never_asked(checks, "its own address", [HOST, f"::ffff:{HOST}"], over)
    check_never_asked(checks, "loopback, of all addresses", [HOST, "127.0.0.2", "::1"], over, "0.0.0.0")
    own = own_address()
    if own is None:
        return checks.skip("the machine's own address", "this machine has no other than loopback")
    check_never_asked(checks, "the machine's address, of all addresses", [own], over, "0.0.0.0")


# In a network of its own this machine has two addresses of one subnet. What goes from it to the second leaves from the first.
FIRST, SECOND = "192.0.2.10", "192.0.2.11"


def in_own_network(checks):
    """Runs within `unshare`, on an empty network."""
    for words in (["link", "set", "lo", "up"], *(["addr", "add", f"{address}/24", "dev", "lo"] for address in (FIRST, SECOND))):
        subprocess.run(["ip", *words], check=True)
    with socket.socket(socket.AF_INET, socket.SOCK_DGRAM) as sock:
        sock.connect((SECOND, 53))
        checks.equal("the address from which the machine asks itself", sock.getsockname()[0], FIRST)
    for over in ("udp", "tcp"):
        check_never_asked(checks, "a second address, of all addresses", [FIRST, SECOND, f"::ffff:{SECOND}"], over, "0.0.0.0")


def check_second_address(checks):
    """A name server at another address of this machine than that from which the machine asks there."""
    if not shutil.which("unshare") or not shutil.which("ip"):
        return checks.skip("a second address of the machine", "unshare or ip is not installed")
    apart = ["unshare", "--map-root-user", "--net"]
    if subprocess.run([*apart, "true"], capture_output=True).returncode:
        return checks.skip("a second address of the machine", "this user may make no network")
    done = subprocess.run([*apart, sys.executable, __file__, OWN_NETWORK], capture_output=True, text=True)
    checks.equal("a second address of the machine", (done.returncode, done.stdout, done.stderr), (0, "19 passed, 0 failed\n", ""))


def check_many_targets(checks):
    """A referral to 50 names of a victim: the service asks the victim for the first five (NXNSAttack)."""
    names = [f"n{place}.victim." for place in range(50)]
    referral = " ".join(f"| authority attack. 60 NS {name}" for name in names)
    zone = {"a.attack. A": referral, "*": "| authority victim. 60 NS ns.victim. | additional ns.victim. 60 A 127.0.0.2"}
    with NameServers({HOST: zone, "127.0.0.2": {"*": "aa rcode 3"}}) as servers:
        with Service([f"{HOST}@{servers.port}"], "--server-port", str(servers.port)) as service:
            checks.equal("a referral to 50 names", service.ask("a.attack.").words(), "rcode 2")
            asked = [question for _, _, question in servers.asked]
            wanted = ["a.attack. A", *(f"{name} A" for name in names[:5])]
            checks.equal("a referral to 50 names: what is asked", sorted(set(asked)), wanted)
            most = 12
            checks.check("a referral to 50 names: few queries", None if len(asked) <= most else f"{len(asked)}, wanted {most} at most")


def check_dead_ports(checks):
    """Hints at which nobody listens are skipped. If there are no others, the question fails."""
    zone = {"good.test. A": GOOD.format(name="good.test.")}
    with NameServers({HOST: zone}) as servers:
        dead = [f"127.0.0.{place}@{servers.port}" for place in (2, 3)]
        with Service([*dead, f"{HOST}@{servers.port}"]) as service:
            checks.equal("two dead ports, and a server", service.ask("good.test.").words(), "- | answer good.test. A 192.0.2.1")
        with Service(dead) as service:
            checks.equal("two dead ports", service.ask("good.test.").words(), "rcode 2")


def check_pipelined(checks, settings):
    """300 queries in one write, five of them for names that are not cached: 300 replies, each to its own question."""
    zone, sockets = {"*": lambda asked: [good(asked)]}, disturbed(**settings)
    with NameServers({HOST: zone}) as servers, Service([f"{HOST}@{servers.port}"], environment=sockets) as service:
        service.obey("local_data held.test. 60 A 192.0.2.1")
        names = [f"asked{place}.test." if place % 60 == 0 else "held.test." for place in range(300)]
        with service.client("tcp") as client:
            client.sock.sendall(b"".join(framed(query(name, "A", place)) for place, name in enumerate(names)))
            replies = sorted((reply_in(client.octets()) for _ in names), key=lambda reply: reply.id)
        checks.equal(f"300 queries: identifiers, {settings}", [reply.id for reply in replies], list(range(300)))
        checks.equal(f"300 queries: questions, {settings}", [reply.question for reply in replies], [f"{name} A" for name in names])
        checks.equal(f"300 queries: addresses, {settings}", {record.data for reply in replies for record in reply.records}, {"192.0.2.1"})
        with service.client("tcp") as client:
            for octet in framed(query("held.test.", "A", 9)):
                client.sock.sendall(bytes([octet]))
            checks.equal(f"octet by octet, {settings}", reply_in(client.octets()).words(), "aa | answer held.test. A 192.0.2.1")
            client.sock.sendall(framed(query("held.test.", "A", 9)) + framed(query("held.test.", "A", 10))[:9])
            client.sock.shutdown(socket.SHUT_WR)
            checks.equal(f"a message, and the front of one, {settings}", (client.octets() or b"")[:2], number(9))
            checks.equal(f"a message, and the front of one: the end, {settings}", client.ended(), True)


def never_reads(client):
    """Sends queries and reads nothing until the service ends the connection. Returns whether it did."""
    many = b"".join(framed(query("held.test.", "TXT", place)) for place in range(100))
    try:
        for _ in range(100_000):
            client.sock.sendall(many)
    except ConnectionError:
        return True
    return False


def check_slow_clients(checks):
    """Clients that do nothing more. The only TCP worker serves another one meanwhile, and drops these by itself."""
    with Service(["192.0.2.1"]) as service:
        service.obey(*(f"local_data held.test. 60 TXT {'x' * 240} {'y' * 240} {'z' * 240} {place}" for place in range(20)))
        service.obey("local_data held.test. 60 A 192.0.2.1")
        for name, does in [
            ("an idle client", lambda client: client.ended()),
            ("half a length", lambda client: client.sock.sendall(b"\0") or client.ended()),
            ("half a message", lambda client: client.sock.sendall(framed(query("held.test.", "A"))[:9]) or client.ended()),
            ("a client that never reads", never_reads),
        ]:
            with service.client("tcp", room=4_096) as client:
                for when in ("beside", "after"):
                    reply = service.ask("held.test.", "A", "tcp").words()
                    checks.equal(f"{when} {name}", reply, "aa | answer held.test. A 192.0.2.1")
                    if when == "beside":
                        checks.equal(name, does(client), True)
        checks.equal("after slow clients: stopped", service.stop(), STOPPED)


def check_gone_clients(checks):
    """Clients that go before their reply comes do not end a worker, not even more of them than sixteen failures."""
    with NameServers({HOST: {"*": lambda asked: [good(asked)]}}) as servers, Service([f"{HOST}@{servers.port}"]) as service:
        for over in ("udp", "tcp"):
            for place in range(40):
                with service.client(over) as client:
                    client.send(query(f"gone{place}-{over}.test.", "A"))
            checks.equal(f"after clients that went, over {over}", service.ask("stays.test.", "A", over).words(), "- | answer stays.test. A 192.0.2.1")
        checks.equal("after clients that went: stopped", service.stop(), STOPPED)


def check_no_port(checks):
    """Queries from port 0, to which no reply can go, do not end a worker, not even more of them than sixteen failures."""
    try:
        sender = socket.socket(socket.AF_INET, socket.SOCK_RAW, socket.IPPROTO_UDP)
    except PermissionError:
        return checks.skip("queries from port 0", "they want a raw socket")
    with sender, Service(["192.0.2.1"]) as service:
        service.obey("local_data held.test. 60 A 192.0.2.1")
        for place in range(40):
            octets = query("held.test.", "A", place)
            sender.sendto(number(0) + number(service.port) + number(8 + len(octets)) + number(0) + octets, (HOST, service.port))
        checks.equal("after queries from port 0", service.ask("held.test.").words(), "aa | answer held.test. A 192.0.2.1")
        checks.equal("after queries from port 0: stopped", service.stop(), STOPPED)


def check_crowd(checks):
    """Fifty clients at once over TCP with two workers: each is served."""
    with Service(["192.0.2.1"], "--tcp", "2") as service, ThreadPoolExecutor(50) as pool:
        service.obey("local_data held.test. 60 A 192.0.2.1")
        replies = list(pool.map(lambda _: service.ask("held.test.", "A", "tcp").words(), range(50)))
        checks.equal("a crowd", replies, ["aa | answer held.test. A 192.0.2.1"] * 50)


def check_ipv6_servers(checks):
    """A name server at an IPv6 address, over UDP and then over TCP."""
    try:
        servers = NameServers({"::1": {"cut.test. A": cut(lambda asked: [good(asked)])}})
    except OSError:
        return checks.skip("a name server at ::1", "this machine has no ::1")
    with servers, Service([f"::1@{servers.port}"]) as service:
        checks.equal("a name server at ::1", service.ask("cut.test.").words(), "- | answer cut.test. A 192.0.2.1")
        checks.equal("a name server at ::1: asked", [over for _, over, _ in servers.asked], ["udp", "tcp"])


def check_burst(checks):
    """200 datagrams at once are all answered, while the first waits for its name server."""
    gate = threading.Event()

    def held(asked):
        asked.wait(gate)
        yield good(asked)

    names = ["slow.test.", *["held.test."] * 200]
    with NameServers({HOST: {"slow.test. A": held}}) as servers, Service([f"{HOST}@{servers.port}"] * 8) as service:
        service.obey("local_data held.test. 60 A 192.0.2.1")
        with service.client() as client:
            client.sock.setsockopt(socket.SOL_SOCKET, socket.SO_RCVBUF, 1 << 20)
            for place, name in enumerate(names):
                client.send(query(name, "A", place))
            gate.set()
            found = sorted(reply_in(client.octets()).id for _ in names)
        checks.equal("a burst", found, list(range(201)))


def check_descriptors(checks):
    """Without free descriptors questions fail and connections wait. Once there are some again, all goes on."""
    with NameServers({HOST: {"*": lambda asked: [good(asked)]}}) as servers, Service([f"{HOST}@{servers.port}"]) as service:
        service.obey("local_data held.test. 60 A 192.0.2.1")
        until(lambda: service.threads() == 5)
        service.idle_descriptors()
        service.limit(service.first_free())
        replies = {service.ask(f"asked{place}.test.").words() for place in range(40)}
        checks.equal("no descriptors: 40 questions", replies, {"rcode 2"})
        checks.equal("no descriptors: what is held", service.ask("held.test.").words(), "aa | answer held.test. A 192.0.2.1")
        began = time.monotonic()
        with service.client("tcp") as client:
            text = b"resolver: device fault: no connection is accepted: no descriptors"
            checks.equal("no descriptors: a failed accept is logged", service.logged(text + b", at "), True)
            # It is tried again each second, and the repeats are counted for ten seconds.
            counted = re.compile(b"^" + text + rb", (\d+) more in 10 s, at ", re.MULTILINE)
            checks.equal("no descriptors: repeats are counted", until(lambda: counted.search(service.log())), True)
            repeats = int(counted.search(service.log())[1])
            checks.check("no descriptors: a failed accept waits a second", None if 5 <= repeats <= 10 else f"{repeats} in ten seconds")
            service.limit(1_024)
            # The connection that waited may have been closed by now. The next one is served.
            client.sock.close()
        for over in ("udp", "tcp"):
            reply = service.ask(f"later-{over}.test.", "A", over).words()
            checks.equal(f"descriptors again, over {over}", reply, f"- | answer later-{over}.test. A 192.0.2.1")
        checks.equal("descriptors again: stopped", service.stop(), STOPPED)


def main():
    checks = Checks()
    if sys.argv[1:] == [OWN_NETWORK]:
        checks.make(in_own_network)
        checks.end()
    checks.make(check_second_address)
    checks.make(check_servers)
    checks.make(check_servers_of_tcp_clients)
    for over in ("udp", "tcp"):
        for settings in DISTURBED:
            checks.make(check_disturbed, over, settings)
    checks.make(check_early)
    checks.make(check_large, {})
    checks.make(check_large, {"SIGNALS": 1, "PIECE": 10_000})
    for over in ("udp", "tcp"):
        checks.make(check_dear, over)
        checks.make(check_kept, over)
    checks.make(check_many_targets)
    checks.make(check_dead_ports)
    for over in ("udp", "tcp"):
        checks.make(check_no_hosts, over)
        checks.make(check_itself, over)
    checks.make(check_pipelined, {})
    checks.make(check_pipelined, {"SIGNALS": 1, "PIECE": 100})
    checks.make(check_slow_clients)
    checks.make(check_gone_clients)
    checks.make(check_no_port)
    checks.make(check_crowd)
    checks.make(check_ipv6_servers)
    checks.make(check_burst)
    checks.make(check_descriptors)
    checks.end()


main()
