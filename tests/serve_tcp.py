"""Clients over TCP: a worker serves many connections, and answers the questions of one as their answers come (RFC 7766, sections 6.2.1.1
and 7). No client keeps another waiting, whether it holds its connection, sends or reads slowly, or goes. What clients hold is bounded:
connections, questions that wait, and memory.

While questions of one connection are in flight together, `serve_memory.py` refuses each allocation, and `serve_failing.py` has each call
fail, as if the client had gone."""

import contextlib
import os
import resource
import select
import signal
import socket
import statistics
import time

from lib.behaviours import EXCHANGE, answered, at_once, right
from lib.checks import Checks
from lib.crowds import LateServer
from lib.nameserver import PATIENCE, framed, receive
from lib.replies import reply_in
from lib.service import HOST, STOPPED, Service, query, until

# The seconds after which an idle connection is closed, and after which a message that does not come whole, or a reply that is not read,
# closes its connection.
IDLE, STUCK = 10, 2

# A connection that is due is closed within so many seconds.
LOOK = 1

# The most questions of one connection that wait, and the most connections of a worker.
MOST_WAITING, MOST_CONNECTIONS = 32, 4_096

# The most exchanges with equal questions over all workers.
MOST_EQUAL = 4

# The replies to a crowd's questions come within so many seconds, though others hold connections. So does `stop`.
SOON = 1

# The seconds after which late names are answered, and slow ones.
LATE, SLOW = 0.5, 1.5

# The answer to the one question that needs no name server.
HELD = "aa | answer held.test. A 192.0.2.1"
FAILED = "rcode 2"

# The descriptors that the service sets aside. A worker over TCP counts twice: for its exchanges and for its connections.
SPARE, SHARES = 96, 3

# An address in another network than that of most clients, which is 127.0.0.0/24.
ELSEWHERE = "127.0.1.1"

# A record set whose reply has some 63,000 octets.
BIG = [f"local_data big.test. 60 TXT {place:03}{'x' * 250}" for place in range(237)]

# The connections that fill the memory, and the most octets of memory that a service may have more than before. Without a bound they
# would take twice as much.
CROWD, MOST_MORE = 3_000, 96_000_000

# A connection that does not come about within so many seconds found too many waiting. Its system tries again after one.
BEGUN = 0.5


def does(asked):
    """Names that begin with `late` or `slow` are answered late, those that begin with `mute` never."""
    name = asked.question.split()[0]
    if name.startswith(("late", "slow")):
        return [(LATE if name.startswith("late") else SLOW, right(asked))]
    if name.startswith("mute"):
        return []
    return at_once(asked)


@contextlib.contextmanager
def serving(*options, **settings):
    """A service with some local data, and the name server that it asks."""
    with LateServer(does) as server, Service([server.hint], *options, **settings) as service:
        service.obey("local_data held.test. 60 A 192.0.2.1")
        yield server, service


def held(service, count):
    """Connections that say nothing."""
    return [service.client("tcp") for _ in range(count)]


def served(service, count, source=HOST):
    """Connections that have asked once and say nothing from then on, each later than the one before."""
    clients = []
    for _ in range(count):
        clients.append(service.client("tcp", source=source))
        clients[-1].ask("held.test.", "A")
        time.sleep(0.003)
    return clients


def let_go(clients):
    for client in clients:
        client.sock.close()


def may_open(count):
    """Whether this process may have so many descriptors. From here on it does."""
    _, hard = resource.getrlimit(resource.RLIMIT_NOFILE)
    if hard < count:
        return False
    resource.setrlimit(resource.RLIMIT_NOFILE, (hard, hard))
    return True


def closed_within(client, least, most):
    """Whether the service closes a connection, and when: None if it does so in time."""
    began = time.monotonic()
    client.sock.settimeout(most + PATIENCE)
    ended = client.ended()
    took = time.monotonic() - began
    return None if ended and least <= took <= most else f"ended: {ended}, after {took:.2f} s"


def reply_of(client):
    """The next reply in words, or None if the connection has ended."""
    try:
        octets = client.octets()
    except ConnectionError:
        return None
    return octets and reply_in(octets).words()


def seconds_of(does):
    """The seconds that a call takes, and its result."""
    began = time.monotonic()
    done = does()
    return time.monotonic() - began, done


def check_stopped(checks, name, service):
    """`stop` ends the service soon."""
    took, ended = seconds_of(service.stop)
    checks.equal(f"{name}: stopped", ended, STOPPED)
    checks.check(f"{name}: how soon it stops", None if took < SOON else f"{took:.2f} s")


def check_soon(checks, name, service, over="udp", count=100):
    """So many questions of another client are answered soon."""
    took, words = seconds_of(lambda: {service.ask("held.test.", "A", over).words() for _ in range(count)})
    checks.equal(f"{name}: over {over}", words, {HELD})
    checks.check(f"{name}: how soon over {over}", None if took < SOON else f"{took:.2f} s")


def median_of(service, count=50):
    """The median of the seconds that a question takes over a connection of its own, and the answers."""
    asked = [seconds_of(lambda: service.ask("held.test.", "A", "tcp").words()) for _ in range(count)]
    return statistics.median(took for took, _ in asked), {words for _, words in asked}


def check_held(checks):
    """Eight held connections, and eight more that stopped inside a length or a message, cost another client nothing, at one worker."""
    with serving() as (_, service):
        before, words = median_of(service)
        clients = held(service, 16)
        for place, client in enumerate(clients[8:]):
            client.sock.sendall(framed(query("held.test.", "A"))[: place + 1])
        beside, others = median_of(service)
        checks.equal("held: the answers", words | others, {HELD})
        # A worker that served one connection after another would take seconds.
        checks.check("held: what they cost", None if beside < 2 * before + 0.005 else f"{before * 1e3:.2f} ms, then {beside * 1e3:.2f} ms")
        check_stopped(checks, "held", service)
        let_go(clients)


def check_order(checks):
    """Questions of one connection are in flight together: a quick answer overtakes a late one, and all late ones come together."""
    with serving() as (_, service), service.client("tcp") as client:
        names = [f"late{place}.test." for place in range(10)] + ["quick1.test.", "held.test."]
        asked = {octets[:2]: (name, octets) for place, name in enumerate(names) for octets in [query(name, "A", place)]}
        began = time.monotonic()
        client.sock.sendall(b"".join(framed(octets) for _, octets in asked.values()))
        came = []
        for _ in names:
            octets = client.octets()
            name, sent = asked[octets[:2]]
            came.append((name, octets[12 : len(sent)] == sent[12:], reply_in(octets).words()))
        took = time.monotonic() - began
        checks.equal("order: the quick ones come first", {name for name, _, _ in came[:2]}, {"quick1.test.", "held.test."})
        checks.equal("order: each once", sorted(name for name, _, _ in came), sorted(names))
        checks.equal("order: each has its own question", [is_own for _, is_own, _ in came], [True] * len(names))
        wanted = [HELD if name == "held.test." else answered(name) for name, _, _ in came]
        checks.equal("order: the answers", [words for _, _, words in came], wanted)
        checks.check("order: together", None if took < 3 * LATE else f"{took:.2f} s")


def check_pieces(checks):
    """A message that comes octet by octet, and one that comes in one piece with others."""
    with serving() as (_, service), service.client("tcp") as client:
        octets = framed(query("held.test.", "A", 1))
        for place in range(len(octets)):
            client.sock.sendall(octets[place : place + 1])
        checks.equal("pieces: octet by octet", reply_in(client.octets()).words(), HELD)
        client.sock.sendall(b"".join(framed(query("held.test.", "A", place)) for place in range(300)))
        found = [int.from_bytes(client.octets()[:2], "big") for _ in range(300)]
        checks.equal("pieces: 300 at once", sorted(found), list(range(300)))
        # A message of no octets, and a response, get nothing.
        client.sock.sendall(framed(b"") + framed(b"\0\1\x80" + bytes(9)) + framed(query("held.test.", "A", 7)))
        checks.equal("pieces: what gets no reply", client.octets()[:2], b"\0\7")


def check_half_closed(checks):
    """A client that sends no more gets its replies, and then the end."""
    with serving() as (_, service), service.client("tcp") as client:
        client.sock.sendall(b"".join(framed(query(name, "A")) for name in ("late1.test.", "held.test.")))
        client.sock.shutdown(socket.SHUT_WR)
        words = sorted(reply_in(client.octets()).words() for _ in range(2))
        checks.equal("half closed: the replies", words, sorted([answered("late1.test."), HELD]))
        checks.check("half closed: the end", closed_within(client, 0, LOOK))


def check_times(checks):
    """Connections that are idle, that begin a message and do not end it, or that drip, are closed in time."""
    with serving() as (_, service):
        began = time.monotonic()
        idle, begun, drips, waits = held(service, 4)
        begun.sock.sendall(b"\0")
        waits.send(query("mute.test.", "A"))
        octets, place, started = framed(bytes(200)), 0, time.monotonic()
        with contextlib.suppress(OSError):
            while time.monotonic() < started + STUCK + LOOK + 1:
                drips.sock.sendall(octets[place : place + 1])
                place += 1
                time.sleep(0.1)
        took = time.monotonic() - started
        checks.check("times: a dripper", None if STUCK - 0.1 <= took <= STUCK + LOOK + 0.5 else f"{took:.2f} s")
        checks.check("times: a begun message", closed_within(begun, 0, LOOK))
        # A question that waits keeps its connection, and gets SERVFAIL when no server has answered.
        checks.equal("times: a question that waits", reply_of(waits), FAILED)
        left = began + IDLE - time.monotonic()
        checks.check("times: an idle one", closed_within(idle, max(0, left - 0.1), left + 2 * LOOK))
        let_go([begun, drips, waits, idle])


def check_unread(checks):
    """A client that asks on and does not read is not read either, and is closed. Others are served."""
    with serving() as (_, service):
        told = service.obey(*BIG)
        checks.equal("unread: the records", [line for line in told if not line.startswith("ok")], [])
        before = service.idle_descriptors()
        with service.client("tcp", room=4_096) as client:
            client.sock.setsockopt(socket.SOL_SOCKET, socket.SO_SNDBUF, 4_096)
            client.sock.settimeout(0.2)
            sent, octets = 0, framed(query("big.test.", "TXT"))
            with contextlib.suppress(OSError):
                for _ in range(200_000):
                    sent += client.sock.send(octets)
            checks.check("unread: it is not read further", None if 0 < sent < 50_000 * len(octets) else f"{sent} octets")
            checks.equal("unread: others", service.ask("held.test.", "A", "tcp").words(), HELD)
            # The client still holds its end.
            checks.equal("unread: closed", until(lambda: service.descriptors() <= before), True)
        check_stopped(checks, "unread", service)


def resident(service, word):
    """The octets of memory that a service has (`VmRSS`), or had at most (`VmHWM`)."""
    with open(f"/proc/{service.process.pid}/status", encoding="ascii") as file:
        return 1_024 * next(int(line.split()[1]) for line in file if line.startswith(f"{word}:"))


def try_to_ask(service):
    """The answer to a question over a connection of its own, or None if that has ended."""
    try:
        return service.ask("held.test.", "A", "tcp").words()
    except (ConnectionError, EOFError):
        return None


def unread(service):
    """A connection whose client asks for four large replies and reads none. The system takes little of them for it."""
    client = service.client("tcp", room=1_024, segment=1_400)
    client.sock.sendall(framed(query("big.test.", "TXT")) * 4)
    return client


def begun(service):
    """A connection whose client has sent most of the longest message."""
    client = service.client("tcp")
    client.sock.sendall(b"\xff\xff" + bytes(60_000))
    return client


def check_memory(checks):
    """Very many connections that keep as much as one may. The memory of the service is bounded, and others are served meanwhile."""
    if not may_open(CROWD + 500):
        return checks.skip("memory", "a process may not have so many descriptors")
    check_memory_of(checks, "replies that nobody reads", unread)
    check_memory_of(checks, "messages that do not come whole", begun)


def check_memory_of(checks, name, opened):
    """The memory of a service with connections that are opened so."""
    with serving(most_descriptors=SPARE + 2 * 512 + MOST_CONNECTIONS) as (_, service), contextlib.ExitStack() as stack:
        service.obey(*BIG)
        service.ask("big.test.", "TXT", "tcp")
        before = resident(service, "VmRSS")
        for place in range(CROWD):
            # The service may end a connection while its client sends.
            with contextlib.suppress(ConnectionError):
                stack.enter_context(opened(service))
            if place % 500 == 0:
                checks.equal(f"memory, {name}: over UDP, {place}", service.ask("held.test.").words(), HELD)
        more = resident(service, "VmHWM") - before
        print(f"memory, {name}: {more / 1e6:.0f} MB")
        checks.check(f"memory, {name}", None if more <= MOST_MORE else f"{more / 1e6:.0f} MB")
        check_soon(checks, f"memory, {name}", service)
        # The clients still hold their ends. A connection that begins while the memory is full may be ended.
        checks.equal(f"memory, {name}: over TCP", until(lambda: try_to_ask(service) == HELD), True)
        check_stopped(checks, f"memory, {name}", service)


def check_gone(checks):
    """Clients that go with 2,000 questions under way, or in mid-reply, leave nothing behind."""
    with serving() as (_, service):
        service.obey(*BIG)
        before = service.idle_descriptors()
        for _ in range(5):
            with service.client("tcp") as client, contextlib.suppress(OSError):
                client.sock.sendall(b"".join(framed(query(f"late{place}.test.", "A")) for place in range(2_000)))
        with service.client("tcp", room=4_096) as client:
            client.sock.sendall(framed(query("big.test.", "TXT")) * 20)
            client.sock.recv(100)
        checks.equal("gone: others", service.ask("held.test.", "A", "tcp").words(), HELD)
        checks.equal("gone: nothing is left", until(lambda: service.descriptors() <= before), True)
        checks.equal("gone: none waits", until(lambda: service.figures()["num.exchange.current"] == 0), True)
        check_stopped(checks, "gone", service)


def check_stop_behind(checks):
    """`stop` does not wait for 58,890 octets of questions for silent servers, whether their client has gone or waits."""
    octets = b"".join(framed(query(f"mute{place}.test.", "A")) for place in range(2_000))
    for name, goes in (("a client that has gone", True), ("a client that waits", False)):
        with serving() as (server, service), service.client("tcp") as client:
            client.sock.sendall(octets[:58_890])
            checks.equal(f"{name}: asked", server.wait_for(MOST_WAITING), True)
            if goes:
                client.sock.close()
            check_stopped(checks, name, service)


def check_waiting(checks):
    """A connection has a limit of questions that wait: then it is not read, and is read on when they have their replies."""
    with serving() as (server, service), service.client("tcp") as client:
        names = [f"slow{place}.test." for place in range(2 * MOST_WAITING)]
        client.sock.sendall(b"".join(framed(query(name, "A", place)) for place, name in enumerate(names)))
        checks.equal("waiting: they are asked", server.wait_for(MOST_WAITING), True)
        # More would be asked by now.
        time.sleep(LATE / 2)
        most = len(server.asked)
        # Another connection has places of its own.
        took, words = seconds_of(lambda: service.ask("quick2.test.", "A", "tcp").words())
        checks.equal("waiting: another connection", words, answered("quick2.test."))
        checks.check("waiting: how soon", None if took < SOON else f"{took:.2f} s")
        found = sorted(int.from_bytes(client.octets()[:2], "big") for _ in names)
        checks.equal("waiting: each has its reply", found, list(range(len(names))))
        checks.equal("waiting: the limit", most, MOST_WAITING)


def check_equal(checks):
    """Of equal questions four at most are asked at once, though they come over one connection, over eight others, and over UDP. Each is
    answered."""
    with serving() as (server, service), service.client("tcp") as one, service.client() as other:
        clients = held(service, 8)
        one.sock.sendall(b"".join(framed(query("late7.test.", "A", place)) for place in range(16)))
        for client in (*clients, other):
            client.send(query("late7.test.", "A"))
        words = {reply_of(client) for client in (*[one] * 16, *clients, other)}
        checks.equal("equal: the answers", words, {answered("late7.test.")})
        checks.check("equal: queries", None if 1 <= len(server.asked) <= MOST_EQUAL else f"{len(server.asked)}")
        check_stopped(checks, "equal", service)
        let_go(clients)


def check_pauses(checks):
    """A silent server is passed over by a worker over TCP too: the second time its question fails at once, without a query. The log names
    cause, server and question, and so it does if nobody listens at the server."""
    with serving() as (server, service):
        service.obey(f"stub_add away.test. 127.0.0.2@{server.port}")
        for turn, least, most in (("first", EXCHANGE - 0.1, EXCHANGE + 1), ("second", 0, EXCHANGE / 2)):
            took, words = seconds_of(lambda: service.ask("mute1.test.", "A", "tcp").words())
            checks.equal(f"pauses: the {turn} time", words, FAILED)
            checks.check(f"pauses: the {turn} time, how soon", None if least <= took <= most else f"{took:.2f} s")
        checks.equal("pauses: queries", [question for _, question in server.asked], ["mute1.test. A"])
        checks.equal("pauses: another question is asked", service.ask("n1.test.", "A", "tcp").words(), answered("n1.test."))
        service.ask("a.away.test.", "A", "tcp")
        check_stopped(checks, "pauses", service)
        silent = f"timed out, server {server.hint}, question mute1.test. A"
        absent = f"unreachable, server 127.0.0.2@{server.port}, question a.away.test. A"
        for cause in (silent, absent):
            checks.equal(f"pauses: logged, {cause}", service.times(f"resolver: device fault: {cause}".encode()), 1)


def check_places(checks):
    """Questions over TCP share the exchanges of a worker as those over UDP do: one too many is SERVFAIL at once, and is logged. What needs
    no exchange is answered."""
    places = 20
    with serving(most_descriptors=SPARE + SHARES * places) as (server, service), service.client("tcp") as client:
        client.sock.sendall(b"".join(framed(query(f"mute{place}.test.", "A", place)) for place in range(MOST_WAITING)))
        took, words = seconds_of(lambda: [reply_of(client) for _ in range(MOST_WAITING - places)])
        checks.equal("places: those that are too many", words, [FAILED] * (MOST_WAITING - places))
        checks.check("places: how soon", None if took < SOON else f"{took:.2f} s")
        checks.equal("places: questions that wait", server.wait_for(places) and len(server.asked), places)
        checks.equal("places: another", service.ask("held.test.", "A", "tcp").words(), HELD)
        checks.equal("places: it is logged", service.logged(b"resolver: too many exchanges"), True)
        check_stopped(checks, "places", service)


def check_full(checks):
    """With more connections than places the ones that have been quiet longest are closed, and new ones are served."""
    places = 20
    with serving(most_descriptors=SPARE + SHARES * places) as (_, service):
        clients = served(service, 3 * places)
        faults = [closed_within(client, 0, LOOK) for client in clients[: 2 * places]]
        checks.equal("full: the first are closed", [fault for fault in faults if fault], [])
        # One that was quiet for longer than others is not, once it has asked.
        checks.equal("full: one that asks", clients[2 * places].ask("held.test.", "A").words(), HELD)
        clients += served(service, places - 1)
        checks.equal("full: it is served", clients[2 * places].ask("held.test.", "A").words(), HELD)
        checks.check("full: one that has not asked", closed_within(clients[2 * places + 1], 0, LOOK))
        checks.equal("full: over UDP", service.ask("held.test.").words(), HELD)
        check_stopped(checks, "full", service)
        let_go(clients)


def check_networks(checks):
    """If all places are taken, a network that holds a quarter of them or more makes room for its own newcomers. So connections of another
    network stay, though they have been quiet for longer."""
    places = 20
    with serving(most_descriptors=SPARE + SHARES * places) as (_, service):
        many = served(service, 2 * places)
        few = served(service, places // 4, ELSEWHERE)
        # The newcomers of the other network took places of the first.
        left = places - len(few)
        faults = [closed_within(client, 0, LOOK) for client in many[:-left]]
        checks.equal("networks: the many make room", [fault for fault in faults if fault], [])
        many += served(service, 3 * places)
        checks.equal("networks: each of the few", [client.ask("held.test.", "A").words() for client in few], [HELD] * len(few))
        # The few hold a quarter now, so one more takes the place of one of them, and of none of the many.
        few += served(service, 1, ELSEWHERE)
        gone = [place for place, client in enumerate(few[:-1]) if client.has_reply(LOOK / 4)]
        checks.equal("networks: one more of the few closes one of them", len(gone), 1)
        kept = [client.ask("held.test.", "A").words() for client in many[-left:]]
        checks.equal("networks: the many that are left", kept, [HELD] * left)
        check_stopped(checks, "networks", service)
        let_go(many + few)


def check_many(checks):
    """A thousand connections at once are each served. Eight thousand are more than there are places: those that are left are served. Neither
    costs clients over UDP anything."""
    for count in (1_000, 8_000):
        if may_open(count + 500):
            check_count(checks, count)
        else:
            checks.skip(f"{count} connections", "a process may not have so many descriptors")


def check_count(checks, count):
    """So many connections at once."""
    name = f"{count} connections"
    with serving(most_descriptors=SPARE + 2 * 512 + MOST_CONNECTIONS) as (_, service):
        clients = held(service, count)
        left = clients[-min(count, MOST_CONNECTIONS // 2) :]
        for client in left:
            client.send(query("held.test.", "A", 1))
        checks.equal(f"{name}: each that is left is served", {reply_of(client) for client in left}, {HELD})
        for over in ("udp", "tcp"):
            check_soon(checks, name, service, over)
        check_stopped(checks, name, service)
        let_go(clients)


@contextlib.contextmanager
def suspended(service):
    """Nothing of the service runs meanwhile: it accepts no connection."""
    service.process.send_signal(signal.SIGSTOP)
    os.waitpid(service.process.pid, os.WUNTRACED)
    try:
        yield
    finally:
        service.process.send_signal(signal.SIGCONT)


def queued(service, most):
    """Connections that begin one after another, until one does not come about, or until there are `most`. Also returns how many did."""
    socks = []
    for count in range(most):
        sock = socket.socket()
        socks.append(sock)
        sock.setblocking(False)
        sock.connect_ex((HOST, service.port))
        if not select.select([], [sock], [], BEGUN)[1]:
            return socks, count
    return socks, most


def check_backlog(checks):
    """As many connections wait to be accepted as the option says, or one more, as Linux counts them. Each gets its answer later, and so
    does one that came too late: its system tries again."""
    with open("/proc/sys/net/core/somaxconn", encoding="ascii") as file:
        allowed = int(file.read())
    for options, backlog in (([], 256), (["--backlog", "1"], 1), (["--backlog=40"], 40), (["--tcp", "3", "--backlog", "300"], 300)):
        name, wanted = " ".join(options) or "no --backlog", min(backlog, allowed)
        with serving(*options) as (_, service), contextlib.ExitStack() as stack:
            with suspended(service):
                socks, waiting = queued(service, wanted + 3)
            for sock in map(stack.enter_context, socks):
                sock.settimeout(PATIENCE)
                sock.sendall(framed(query("held.test.", "A", 1)))
            checks.check(f"backlog, {name}", None if wanted <= waiting <= wanted + 1 else f"{waiting} wait")
            checks.equal(f"backlog, {name}: answered", {receive(sock, 4)[2:] for sock in socks}, {b"\0\1"})
            checks.equal(f"backlog, {name}: stopped", service.stop(), STOPPED)


CHECKS = (
    check_held, check_order, check_pieces, check_half_closed, check_times, check_unread, check_memory, check_gone, check_stop_behind,
    check_waiting, check_equal, check_pauses, check_places, check_full, check_networks, check_many, check_backlog,
)


def main():
    checks = Checks()
    for check in CHECKS:
        checks.make(check)
    checks.end()


main()
