"""`resolver serve` with very many questions at once over UDP. None is lost or answered twice, whatever name servers do. Cached
answers wait for none of them, and `stop` ends the service at once."""

import contextlib
import re
import resource
import signal
import socket
import subprocess
import threading
import time

from lib.behaviours import EXCHANGE, REPLIED, RIGHT, WRONG, Lies, address, answered, at_once, count_answered, never, right
from lib.checks import Checks
from lib.crowds import Crowd, LateServer, flooded, waiting_at
from lib.programs import RESOLVER, library
from lib.service import CANNOT_LISTEN, HOST, IN_USE, STOPPED, Service, free_port, query, until

HELD = "aa | answer held.test. A 192.0.2.1"
STARTED = b"resolver: started"
TOO_MANY = b"resolver: too many exchanges"
FAULT = b"resolver: device fault"
FAILED = "rcode 2"

# The descriptors that the service sets aside. Those that are left it shares out: one part for each UDP worker, and two for each TCP
# worker, which has connections beside its exchanges.
SPARE = 96


def serving(server, *options, **settings):
    service = Service([server.hint], *options, **settings)
    service.obey("local_data held.test. 60 A 192.0.2.1")
    return service


def has_ended(checks, name, service, crowd):
    """Stops a service, and checks that a crowd got one reply for each name."""
    checks.equal(f"{name}: stopped", service.stop(), STOPPED)
    crowd.take()
    checks.check(f"{name}: one reply each", crowd.once_each())


def all_answered(checks, name, crowd, answer=answered):
    """Each name of a crowd got its answer."""
    strange = [(asked, words) for asked, words in zip(crowd.names, crowd.words()) if words != answer(asked)]
    checks.equal(name, strange, [])


def names_of(word, count):
    return [f"{word}{place}.test." for place in range(count)]


def check_quick(checks):
    """3,000 questions, 100 in flight, with a name server that replies at once."""
    with LateServer(at_once) as server, serving(server) as service, Crowd(service) as crowd:
        before = service.idle_descriptors()
        crowd.ask(names_of("n", 3_000), 100)
        all_answered(checks, "quick replies", crowd)
        checks.equal("quick replies: descriptors", until(lambda: service.descriptors() <= before), True)
        has_ended(checks, "quick replies", service, crowd)


def check_cut(checks):
    """The same with responses that are truncated, so that each is asked for again over TCP."""

    def cut(asked):
        yield 0, asked.response("aa tc") if asked.over == "udp" else right(asked)

    with LateServer(cut) as server, serving(server) as service, Crowd(service) as crowd:
        before = service.idle_descriptors()
        crowd.ask(names_of("n", 3_000), 100)
        all_answered(checks, "cut replies", crowd)
        checks.equal("cut replies: asked", [server.count(over) for over in ("udp", "tcp")], [3_000, 3_000])
        checks.equal("cut replies: descriptors", until(lambda: service.descriptors() <= before), True)
        has_ended(checks, "cut replies", service, crowd)
        checks.equal("cut replies: faults", service.log().count(b"fault"), 0)


def check_passed_limit(checks, count, workers, most_descriptors, room):
    """More questions at once than there may be exchanges: those above the limit get SERVFAIL. One worker over TCP has two shares.

    On a slow machine the first exchanges end before the last question is asked, and get SERVFAIL too."""
    name = f"{count} at once, {workers} workers, {most_descriptors} descriptors"
    if resource.getrlimit(resource.RLIMIT_NOFILE)[1] < most_descriptors:
        return checks.skip(name, "a process may not have so many")
    held_back, gate = [], threading.Event()

    def late(asked):
        if gate.is_set():
            return at_once(asked)
        held_back.append(asked)
        return ()

    with LateServer(late) as server, Service([server.hint], "--udp", str(workers), most_descriptors=most_descriptors) as service:
        before, most = service.idle_descriptors(), 0
        with Crowd(service, 20) as crowd:
            began = time.monotonic()
            for start in range(0, count, 100):
                crowd.send_all(f"n{place}.test." for place in range(start, start + 100))
                until(lambda: waiting_at(service.port) == 0)
                most = max(most, service.descriptors() - before)
            gate.set()
            for asked in held_back:
                asked.send(right(asked))
            crowd.wait()
            took = time.monotonic() - began
            strange = [words for asked, words in zip(crowd.names, crowd.words()) if words not in (answered(asked), FAILED)]
            checks.equal(f"{name}: the replies", strange, [])
            checks.check(f"{name}: exchanges at once", None if room // 2 < most <= room else f"{most}, where there is room for {room}")
            told = service.figures()
            refused = told["total.requestlist.exceeded"]
            checks.equal(f"{name}: it is logged", TOO_MANY in service.log(), refused > 0)
            checks.check(f"{name}: too many", None if refused else "none is logged")
            in_vain = told["num.exchange.unanswered"]
            checks.equal(f"{name}: asked or refused", len(server.asked) + refused, count)
            checks.equal(f"{name}: refused or in vain", crowd.words().count(FAILED), refused + in_vain)
            checks.check(f"{name}: in vain", f"{in_vain} in {took:.2f} seconds" if in_vain and took < EXCHANGE else None)
            others = [line for line in service.log().splitlines() if not line.startswith((STARTED, TOO_MANY, FAULT))]
            checks.equal(f"{name}: other lines", others, [])
            checks.equal(f"{name}: descriptors", until(lambda: service.descriptors() <= before), True)
            with Crowd(service) as later:
                # If a worker is slow, all questions in flight may be at it.
                later.ask(names_of("later", 100), min(10, room // workers))
                all_answered(checks, f"{name}: later", later)
            has_ended(checks, name, service, crowd)


def check_table(checks, workers, most_descriptors, size):
    """The system's table of descriptors has room for all exchanges before threads share it, so it need not grow under them."""
    name = f"{workers} workers, {most_descriptors} descriptors"
    if resource.getrlimit(resource.RLIMIT_NOFILE)[1] < most_descriptors:
        checks.skip(name, "a process may not have so many")
        return
    with Service(["192.0.2.1"], "--udp", str(workers), most_descriptors=most_descriptors) as service:
        with open(f"/proc/{service.process.pid}/status", encoding="ascii") as file:
            found = int(re.search(r"FDSize:\s*(\d+)", file.read())[1])
        held = service.descriptors()
        checks.check(f"{name}: the table", found < size and f"{found} places")
        checks.check(f"{name}: what is held", held > 64 and f"{held} descriptors")


def rcode_of(client):
    """The RCODE of the next reply, or None if the service ends the connection."""
    try:
        octets = client.octets()
    except ConnectionError:
        return None
    return octets and octets[3] & 15


def check_spare(checks, most_descriptors):
    """Eight workers over UDP have all their exchanges under way, 33 operators wait, and over TCP as many clients as eight workers have
    places for ask for new names: nobody lacks a descriptor. The names are in sixteen zones, each with a server of its own, since none of
    them has all exchanges of a worker. A TCP worker that accepts more clients than others ends some."""
    name = f"all in use, {most_descriptors} descriptors"
    share = (most_descriptors - SPARE) // 24
    room, places = 8 * share, 8 * ((most_descriptors - SPARE - 16 * share) // 8)
    addresses = [f"127.0.0.{place}" for place in range(2, 18)]
    with LateServer(never, addresses) as server, contextlib.ExitStack() as stack:
        service = stack.enter_context(Service([server.hint], "--udp", "8", "--tcp", "8", most_descriptors=most_descriptors))
        service.obey(*(f"stub_add z{place}.test. {address}@{server.port}" for place, address in enumerate(addresses)))
        crowd = stack.enter_context(Crowd(service, 64))
        crowd.send_all(f"n{place}.z{place % 16}.test." for place in range(3 * room))
        operators = [stack.enter_context(service.control()) for _ in range(33)]
        clients = [stack.enter_context(service.client("tcp")) for _ in range(places)]
        for place, client in enumerate(clients):
            with contextlib.suppress(ConnectionError):
                client.send(query(f"tcp{place}.z{place % 16}.test.", "A"))
        most = 0
        for place in range(20):
            crowd.send_all(f"m{place}.n{more}.z{more % 16}.test." for more in range(room // 2))
            most = max(most, service.descriptors())
            time.sleep(0.1)
        least = room + 33 + places // 2
        wanted = least <= most < most_descriptors
        checks.check(f"{name}: in use", None if wanted else f"{most}, wanted {least} and more, and some left")
        checks.equal(f"{name}: over TCP", {rcode_of(client) for client in clients} - {None}, {2})
        crowd.wait()
        for operator in operators:
            operator.sock.close()
        checks.equal(f"{name}: stopped", service.stop(), STOPPED)
        checks.equal(f"{name}: no descriptors", service.times(b"no descriptors"), 0)


def check_liars(checks):
    """Sixteen questions for each way of lying, all at once. In `as_it_ends` the reply or the timeout may come first."""
    words = [*RIGHT, *WRONG, "as_it_ends"]
    names = [f"{word}{place}.test." for place in range(16) for word in words]
    with LateServer(Lies()) as server, serving(server, "--udp", "2") as service, Crowd(service, 16) as crowd:
        before = service.idle_descriptors()
        crowd.ask(names, len(names))
        for word in words:
            told = {name: reply for name, reply in zip(names, crowd.words()) if name.startswith(word)}
            wanted = {name: {answered(name)} if word in RIGHT else {FAILED} for name in told}
            if word == "as_it_ends":
                wanted = {name: {answered(name), FAILED} for name in told}
            strange = [(name, reply) for name, reply in told.items() if reply not in wanted[name]]
            checks.equal(f"liars: {word}", strange, [])
        checks.equal("liars: descriptors", until(lambda: service.descriptors() <= before), True)
        has_ended(checks, "liars", service, crowd)
        late = sum(name.startswith("as_it_ends") and reply == FAILED for name, reply in zip(names, crowd.words()))
        checks.equal("liars: exchanges that came to nothing", service.times(FAULT), 16 * (len(WRONG) - len(REPLIED)) + late)


def check_no_tcp(checks):
    """Truncated responses of a server that accepts no connections."""
    with LateServer(lambda asked: [(0, asked.response("aa tc"))], has_tcp=False) as server, serving(server) as service:
        with Crowd(service) as crowd:
            before = service.idle_descriptors()
            crowd.ask(names_of("n", 200), 200)
            checks.equal("no TCP", set(crowd.words()), {FAILED})
            checks.equal("no TCP: descriptors", until(lambda: service.descriptors() <= before), True)
            has_ended(checks, "no TCP", service, crowd)
            checks.equal("no TCP: exchanges that came to nothing", service.times(FAULT), 200)


def check_dead_first(checks):
    """A port at which nobody listens, a silent server, and one that answers, in this order."""
    with LateServer(never) as silent, LateServer(at_once) as server:
        hints = [f"127.0.0.2@{server.port}", silent.hint, server.hint]
        with Service(hints) as service, Crowd(service) as crowd:
            crowd.ask(names_of("n", 200), 200)
            all_answered(checks, "dead servers first", crowd)
            checks.equal("dead servers first: asked", (len(silent.asked), len(server.asked)), (200, 200))
            has_ended(checks, "dead servers first", service, crowd)
            # Once its host has refused a query, the first server is passed over for a second.
            refused = service.times(FAULT) - 200
            checks.check("dead servers first: exchanges that came to nothing", None if 0 < refused <= 200 else f"{refused} were refused")


def check_referred(checks):
    """Each name in a zone of its own: a referral, an alias and its address, while 99 other questions do the same."""

    def does(asked):
        name = asked.question.split()[0]
        label, zone = name.split(".", 1)
        if asked.server == HOST:
            yield 0, asked.response(f"| authority {zone} 60 NS ns.{zone} | additional ns.{zone} 60 A 127.0.0.2")
        elif label == "a":
            yield 0, asked.response(f"aa | answer {name} 60 CNAME b.{zone}")
        else:
            yield 0, right(asked)

    with LateServer(does, [HOST, "127.0.0.2"]) as server:
        with Service([server.hint], "--server-port", str(server.port)) as service, Crowd(service) as crowd:
            crowd.ask([f"a.z{place}.test." for place in range(400)], 100)
            all_answered(checks, "referrals", crowd, lambda name: f"- | answer {name} CNAME b{name[1:]} | answer b{name[1:]} A {address(name)}")
            has_ended(checks, "referrals", service, crowd)


# The address of a service, the address at which it is asked, that of a name server that is the service itself, and whether
# replies leave from there.
OWN = [
    (HOST, HOST, HOST, True),
    (HOST, HOST, "::ffff:7f00:1", True),
    ("0.0.0.0", HOST, HOST, True),
    ("0.0.0.0", HOST, "127.0.0.9", False),
    ("::", "::1", "::1", True),
    ("::", "::1", "127.0.0.9", False),
]


def check_own(checks, listens, host, own, replies):
    """A name server that is the service itself is not asked: a question about its zone gets SERVFAIL at once, and keeps no exchange.

    A TCP client's worker asks the service, which does not ask itself. If exchanges were kept, they would end one after another in
    six groups, since 100 questions wait at once. Half of that time is enough for a slow machine."""
    name = f"own address {own}, listening at {listens}"
    try:
        service = Service([f"{HOST}@1"], host=host, listens=listens)
    except (OSError, RuntimeError):
        return checks.skip(name, f"this machine has no {host}")
    with service, LateServer(at_once) as server, Crowd(service) as crowd:
        service.obey(f"stub_add test. {server.hint}", f"stub_add own.test. {own}@{service.port}")
        began = time.monotonic()
        crowd.ask([f"n{place}.own.test." for place in range(600)], 100)
        if replies:
            checks.equal(f"{name}: over TCP", service.ask("n600.own.test.", over="tcp").words(), FAILED)
        took = time.monotonic() - began
        checks.equal(name, set(crowd.words()), {FAILED})
        checks.check(f"{name}: at once", None if took < 3 * EXCHANGE else f"{took:.2f} seconds")
        checks.equal(f"{name}: others", service.ask("n7.test.").words(), answered("n7.test."))
        has_ended(checks, name, service, crowd)
        checks.equal(f"{name}: each is logged", service.times(FAULT), 600 + replies)


def check_held(checks):
    """Local and cached answers come before those of 200 questions that wait, and so does the reply to an operator."""
    gate = threading.Event()

    def dead_but_one(asked):
        return at_once(asked) if asked.question.startswith("kept") else never(asked)

    with LateServer(dead_but_one) as server, serving(server) as service, Crowd(service) as crowd:
        service.ask("kept7.test.")
        crowd.send_all(names_of("n", 200))
        checks.equal("held: 200 questions wait", server.wait_for(201), True)
        replies = {service.ask(name).words() for name in ["held.test.", "kept7.test."] * 25}
        told = service.obey("local_zone a. static", "undo")
        checks.equal("held: none of 200 has ended", crowd.take(), 0)
        checks.equal("held: the replies", replies, {HELD, answered("kept7.test.")})
        checks.equal("held: the operator", told, ["ok 2", "undone 2"])
        crowd.wait()
        checks.equal("held: those that waited", set(crowd.words()), {FAILED})
        has_ended(checks, "held", service, crowd)


def check_stop(checks, over, workers):
    """`stop` while 200 questions wait for a silent server: the service ends well before their exchanges do."""
    name = f"stop over {over} with {workers} workers"

    def silent(asked):
        return [(0, asked.response("aa tc"))] if asked.over != over else never(asked)

    with LateServer(silent) as server, serving(server, "--udp", str(workers)) as service, Crowd(service, 20) as crowd:
        crowd.send_all(names_of("n", 200))
        checks.equal(f"{name}: 200 questions wait", until(lambda: server.count(over) == 200), True)
        began = time.monotonic()
        checks.equal(name, service.stop(), STOPPED)
        took = time.monotonic() - began
        checks.check(f"{name}: at once", None if took < EXCHANGE - 0.5 else f"after {took:.2f} seconds")
        checks.equal(f"{name}: no reply comes", crowd.take(), 0)
        with Service([server.hint], "--udp", str(workers)) as again:
            checks.equal(f"{name}: a service after it", again.stop(), STOPPED)


def check_bursts(checks):
    """400 datagrams that are all there when the service receives, and no more after them."""
    with LateServer(at_once) as server, serving(server) as service, Crowd(service, 20) as crowd:
        for kind, names in (("held", ["held.test."] * 400), ("not held", names_of("n", 400))):
            service.process.send_signal(signal.SIGSTOP)
            for name in names:
                crowd.send(name)
            service.process.send_signal(signal.SIGCONT)
            crowd.wait()
            wanted = [HELD if kind == "held" else answered(name) for name in names]
            checks.equal(f"a burst, {kind}", crowd.words()[-400:], wanted)
        has_ended(checks, "a burst", service, crowd)


def check_stopped_clock(checks):
    """Responses come and exchanges time out while the service is suspended: each question gets its answer or SERVFAIL."""
    with LateServer(lambda asked: [(0.3, right(asked))]) as server, serving(server) as service, Crowd(service) as crowd:
        before = service.idle_descriptors()
        crowd.send_all(names_of("n", 300))
        checks.equal("held up: asked", server.wait_for(300), True)
        service.process.send_signal(signal.SIGSTOP)
        time.sleep(EXCHANGE + 0.2)
        service.process.send_signal(signal.SIGCONT)
        crowd.wait()
        told = {words == FAILED or words == answered(name) for name, words in zip(crowd.names, crowd.words())}
        checks.equal("held up", told, {True})
        checks.equal("held up: descriptors", until(lambda: service.descriptors() <= before), True)
        with Crowd(service) as later:
            later.ask(names_of("later", 100), 10)
            all_answered(checks, "held up: later", later)
        has_ended(checks, "held up", service, crowd)


def check_interrupted(checks):
    """A wait that a debugger interrupts is no failure of the worker, however often that happens."""
    with LateServer(at_once) as server, serving(server) as service:
        service.idle_descriptors()
        for _ in range(20):
            service.process.send_signal(signal.SIGSTOP)
            until(lambda: is_stopped(service))
            service.process.send_signal(signal.SIGCONT)
            until(lambda: not is_stopped(service))
            time.sleep(0.02)
        checks.equal("interrupted: held", service.ask("held.test.").words(), HELD)
        checks.equal("interrupted: asked", service.ask("n1.test.").words(), answered("n1.test."))
        checks.equal("interrupted: stopped", service.stop(), STOPPED)
        checks.equal("interrupted: faults", service.log().count(b"fault"), 0)


def floods(service, ended):
    """Asks for 1,000 new names below a zone each second, until an event. It takes no replies."""
    with service.client() as client:
        client.sock.setblocking(False)
        began, sent = time.monotonic(), 0
        while not ended.wait(0.01):
            while sent < 1_000 * (time.monotonic() - began):
                with contextlib.suppress(OSError):
                    client.send(query(f"flood{sent}.mute.test.", "A", sent % 65_536))
                sent += 1


def check_mute_zone(checks):
    """1,000 new names a second of a zone whose server answers hardly any: of 200 new names elsewhere 95 in 100 are answered.

    The server answers some, so it is not passed over."""

    def does(asked):
        name = asked.question.split()[0]
        if asked.server == HOST and name.endswith(".mute.test."):
            yield 0, asked.response("| authority mute.test. 60 NS ns.mute.test. | additional ns.mute.test. 60 A 127.0.0.3")
        elif asked.server == HOST:
            yield 0.02, right(asked)
        elif int(re.search(r"\d+", name).group()) % 20 == 0:
            yield 0, right(asked)

    with LateServer(does, [HOST, "127.0.0.3"]) as server:
        with Service([server.hint], "--server-port", str(server.port)) as service, Crowd(service) as crowd:
            with flooded(floods, service):
                full = until(lambda: service.figures()["total.requestlist.exceeded"] > 100)
                checks.equal("a mute zone: it has all the exchanges that it may have", full, True)
                for name in names_of("new", 200):
                    crowd.send(name)
                    crowd.take(0.02)
                crowd.wait()
                told = service.figures()
            count = count_answered(crowd)
            checks.check("a mute zone: new names elsewhere", None if count >= 190 else f"{count} of 200 are answered")
            checks.check("a mute zone: exchanges", None if told["num.exchange.current"] > 400 else f"{told['num.exchange.current']} at the end")
            checks.equal("a mute zone: it is logged", TOO_MANY in service.log(), True)
            checks.equal("a mute zone: stopped", service.stop(), STOPPED)


def check_rest(checks):
    """The service uses no processor while it waits: neither after a crowd, nor while 200 questions are in flight."""
    with LateServer(lambda asked: at_once(asked) if asked.question.startswith("n") else never(asked)) as server:
        with serving(server, "--udp", "2") as service, Crowd(service) as crowd:
            crowd.ask(names_of("n", 1_000), 100)
            for name in ("behind a crowd", "in flight"):
                if name == "in flight":
                    crowd.send_all(names_of("dead", 200))
                    server.wait_for(1_200)
                before, began = service.processor(), time.monotonic()
                time.sleep(1)
                took, passed = service.processor() - before, time.monotonic() - began
                checks.check(f"rest, {name}", None if took < passed / 2 else f"{took:.2f} seconds of a processor in {passed:.2f}")
            crowd.wait()
            has_ended(checks, "rest", service, crowd)


def check_memory(checks):
    """A hit takes no memory, for its entry in the call log neither. A larger batch takes more buffers, so 1,000 hits more may allocate some."""
    once, twice = blocks_of_hits(1_000), blocks_of_hits(2_000)
    few = None not in (once, twice) and 0 < once and twice - once < 100
    checks.check("hits: memory", None if few else f"asked for {once} and {twice} times")


def blocks_of_hits(count):
    """The allocations of a service for a number of cached answers, after 1,000 others; None if it reported none."""
    environment = {"LD_PRELOAD": library("count"), "TELL": "2"}
    with LateServer(at_once) as server, serving(server, "--record", "100", environment=environment) as service, Crowd(service) as crowd:
        crowd.ask(["n1.test."], 1)
        crowd.ask(["n1.test."] * (1_000 + count), 20)
        all_told = set(crowd.words()) == {answered("n1.test.")} and service.stop() == STOPPED
        told = [int(line.split()[1]) for line in service.log().splitlines() if line.startswith(b"allocations ")]
        return told[0] if all_told and told else None


def is_stopped(service):
    with open(f"/proc/{service.process.pid}/stat", encoding="ascii") as file:
        return file.read().rpartition(")")[2].split()[0] == "T"


def check_ipv6(checks):
    """At an IPv6 address, with two workers."""
    try:
        service = Service(["127.0.0.1@1"], "--udp", "2", host="::1")
    except (OSError, RuntimeError):
        return checks.skip("a crowd over IPv6", "this machine has no ::1")
    with service, LateServer(at_once) as server, Crowd(service) as crowd:
        service.obey(f"stub_add test. {server.hint}")
        crowd.ask(names_of("n", 200), 100)
        all_answered(checks, "a crowd over IPv6", crowd)
        has_ended(checks, "a crowd over IPv6", service, crowd)


def start_at(place, workers):
    """A service at an address and port that may be in use."""
    command = [RESOLVER, "serve", "--listen", place, "--control", f"{HOST}@{free_port()}", "--udp", workers, "192.0.2.1"]
    return subprocess.Popen(command, stdin=subprocess.DEVNULL, stdout=subprocess.PIPE, stderr=subprocess.PIPE, env={})


def ends_of(processes):
    """Whether each service began to serve, and its output. Then they are ended."""
    begun = [process.stdout.readline() == b"ready\n" for process in processes]
    ends = []
    for has_begun, process in zip(begun, processes):
        with process:
            process.kill()
            ends.append((has_begun, process.stderr.read()))
    return ends


def check_second(checks):
    """A second service cannot listen at the same address, though each worker has a socket of its own at the port."""
    with Service(["192.0.2.1"], "--udp", "4") as service:
        used = f"{HOST}@{service.port}"
        refused = (False, CANNOT_LISTEN + used.encode() + IN_USE)
        for workers in ("1", "4"):
            checks.equal(f"a second service of {workers} workers", ends_of([start_at(used, workers)]), [refused])
        checks.equal("with a second service: stopped", service.stop(), STOPPED)
        ends = ends_of([start_at(used, "4") for _ in range(6)])
        begun = [has_begun for has_begun, _ in ends].count(True)
        checks.equal("six services at once: those that do not listen", ends.count(refused), 6 - begun)
        checks.check("six services at once: those that listen", None if begun <= 1 else f"{begun}")
    used = f"{HOST}@{free_port()}"
    with socket.socket(socket.AF_INET, socket.SOCK_DGRAM) as sock:
        sock.setsockopt(socket.SOL_SOCKET, socket.SO_REUSEPORT, 1)
        sock.bind((HOST, int(used.split("@")[1])))
        refused = (False, CANNOT_LISTEN + used.encode() + IN_USE)
        checks.equal("a port that another would share", ends_of([start_at(used, "2")]), [refused])


def main():
    checks = Checks()
    checks.make(check_quick)
    checks.make(check_cut)
    checks.make(check_passed_limit, 1_500, 1, 1_024, 309)
    checks.make(check_passed_limit, 1_500, 1, 1_632, 512)
    checks.make(check_passed_limit, 300, 1, 132, 12)
    checks.make(check_passed_limit, 300, 4, 132, 24)
    checks.make(check_table, 1, 1_024, 512)
    checks.make(check_table, 4, 4_096, 2_048)
    checks.make(check_spare, 256)
    checks.make(check_spare, 1_024)
    checks.make(check_liars)
    checks.make(check_no_tcp)
    checks.make(check_dead_first)
    checks.make(check_referred)
    for places in OWN:
        checks.make(check_own, *places)
    checks.make(check_held)
    checks.make(check_stop, "udp", 1)
    checks.make(check_stop, "udp", 4)
    checks.make(check_stop, "tcp", 1)
    checks.make(check_bursts)
    checks.make(check_stopped_clock)
    checks.make(check_interrupted)
    checks.make(check_mute_zone)
    checks.make(check_rest)
    checks.make(check_memory)
    checks.make(check_ipv6)
    checks.make(check_second)
    checks.end()


main()
