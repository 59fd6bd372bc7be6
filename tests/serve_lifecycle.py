"""The start and the end of `resolver serve` and `resolver control`, with their statuses and messages: arguments, binding, refused
memory, the log, how soon `stop` ends the service, and the lines that `resolver control` sends."""

import signal
import socket
import threading
import time
from concurrent.futures import ThreadPoolExecutor

from lib.checks import Checks
from lib.nameserver import NameServers, bound
from lib.programs import RESOLVER, library, run
from lib.service import CANNOT_LISTEN, HOST, IN_USE, STOPPED, TIME, NotReady, Service, free_port, query, until

FORM = "not an IP address; the form is IP@PORT, or IP for port 53"
RANGE = "not a range of addresses; the form is IP/BITS, or IP for one address; the most bits are 32, for IPv6 128"
MANY = "too many workers; the most are 16 together"
PORT = "the port is not a number from 1 to 65535"
NOT_LOOPBACK = b"resolver: control must be loopback\n"


def bad(why):
    """What is told of bad arguments: the fixed line, and why."""
    return f"resolver: bad arguments\nresolver: {why}\n".encode()


def serve(*arguments):
    return run([RESOLVER, "serve", *arguments])


def check_usage(checks):
    """If `clap` rejects an argument, the first line of the error names it."""
    both = ["--listen", "127.0.0.1@1", "--control", "127.0.0.1@2"]
    for arguments, word in [
        (["--control", "127.0.0.1@2", "192.0.2.1"], b"--listen"),
        (["--listen", "127.0.0.1@1", "192.0.2.1"], b"--control"),
        ([*both, "--udp", "0", "192.0.2.1"], b"--udp"),
        ([*both, "--udp", "17", "192.0.2.1"], b"--udp"),
        ([*both, "--tcp", "0", "192.0.2.1"], b"--tcp"),
        ([*both, "--tcp", "x", "192.0.2.1"], b"--tcp"),
        ([*both, "--backlog", "0", "192.0.2.1"], b"--backlog"),
        ([*both, "--backlog", "65536", "192.0.2.1"], b"--backlog"),
        ([*both, "--backlog", "4294967297", "192.0.2.1"], b"--backlog"),
        ([*both, "--backlog", "x", "192.0.2.1"], b"--backlog"),
        ([*both, "--journal", "0", "192.0.2.1"], b"--journal"),
        ([*both, "--journal", "257", "192.0.2.1"], b"--journal"),
        ([*both, "--cells", "1000001", "192.0.2.1"], b"--cells"),
        ([*both, "--record", "0", "192.0.2.1"], b"--record"),
        ([*both, "--record", "1000001", "192.0.2.1"], b"--record"),
        ([*both, "--server-port", "0", "192.0.2.1"], b"--server-port"),
        ([*both, "--server-port", "65536", "192.0.2.1"], b"--server-port"),
        ([*both, "--seed", "4294967296", "192.0.2.1"], b"--seed"),
        ([*both, "--seed", "-1", "192.0.2.1"], b""),
        ([*both, "--frob", "192.0.2.1"], b"--frob"),
        ([*both, "--listen", "127.0.0.1@3", "192.0.2.1"], b"--listen"),
    ]:
        done = serve(*arguments)
        told = done.err.partition(b"\nUsage:")[0]
        is_told = told.startswith(b"error: ") and word in told
        checks.check(f"serve {' '.join(arguments)}", None if (done.status, done.out, is_told) == (2, b"", True) else f"{done}")


def check_addresses(checks):
    """Addresses and counts, and then the control address: the first fault is reported, with the argument and the reason."""
    listen, control, hint = "127.0.0.1@1", "127.0.0.1@2", "192.0.2.1"
    for listen_at, control_at, rest, wanted in [
        ("127.0.0.1:1", control, [hint], bad(f"--listen 127.0.0.1:1: {FORM}")),
        ("localhost", control, [hint], bad(f"--listen localhost: {FORM}")),
        ("example.org@5300", control, [hint], bad(f"--listen example.org@5300: {FORM}")),
        ("127.0.0.1@0", control, [hint], bad(f"--listen 127.0.0.1@0: {PORT}")),
        (listen, "127.0.0.1@65536", [hint], bad(f"--control 127.0.0.1@65536: {PORT}")),
        (listen, "[::1]@53", [hint], bad(f"--control [::1]@53: {FORM}")),
        ("localhost", "localhost", [hint], bad(f"--listen localhost: {FORM}")),
        ("localhost", control, ["ns.test."], bad(f"HINT ns.test.: {FORM}")),
        (listen, control, ["ns.test."], bad(f"HINT ns.test.: {FORM}")),
        *(
            (listen, control, ["--do-not-query", "10.0.0.0/8", "--do-not-query", word, hint], bad(f"--do-not-query {word}: {RANGE}"))
            for word in (
                "10.0.0.0/33", "::/129", "10.0.0.0/", "10.0.0.0/-1", "10.0.0.0/8/8", "10.0.0.0/255.0.0.0", "10/8", "/8", "", "inner.test",
                "10.0.0.0@53", "10.0.0.0@53/8", "10.0.0.0/8@53", "10.0.0.0/4294967304",
            )
        ),
        (listen, control, [], bad("HINT: missing; a service needs the address of a root server")),
        (listen, control, [hint] * 17, bad("HINT: 17 addresses; the most are 16")),
        (listen, control, ["--udp", "16", hint], bad(f"--udp 16 and --tcp 1: {MANY}")),
        (listen, control, ["--udp", "8", "--tcp", "9", hint], bad(f"--udp 8 and --tcp 9: {MANY}")),
        (listen, "192.0.2.1@2", ["--udp", "16", hint], bad(f"--udp 16 and --tcp 1: {MANY}")),
        (listen, "192.0.2.1@2", [], bad("HINT: missing; a service needs the address of a root server")),
        (listen, "192.0.2.1@2", [hint], NOT_LOOPBACK),
        (listen, "0.0.0.0@2", [hint], NOT_LOOPBACK),
        (listen, "128.0.0.1@2", [hint], NOT_LOOPBACK),
        (listen, "::2@2", [hint], NOT_LOOPBACK),
        (listen, "::@2", [hint], NOT_LOOPBACK),
    ]:
        done = serve("--listen", listen_at, "--control", control_at, *rest)
        checks.equal(f"serve {listen_at} {control_at} {' '.join(rest)}", (done.status, done.out, done.err), (2, b"", wanted))


def check_binding(checks):
    """A port in use, over UDP or TCP, for questions or for control; and an address of another machine. Each says why."""
    free = f"{HOST}@{free_port()}"
    for kind, name in ((socket.SOCK_DGRAM, "UDP"), (socket.SOCK_STREAM, "TCP")):
        port = free_port()
        with bound(kind, HOST, port) as sock:
            if kind == socket.SOCK_STREAM:
                sock.listen()
            used = f"{HOST}@{port}"
            done = serve("--listen", used, "--control", free, "192.0.2.1")
            wanted = (1, b"", CANNOT_LISTEN + used.encode() + IN_USE)
            checks.equal(f"listen in use over {name}", (done.status, done.out, done.err), wanted)
            if kind == socket.SOCK_STREAM:
                done = serve("--listen", free, "--control", used, "192.0.2.1")
                checks.equal("control in use", (done.status, done.out, done.err), wanted)
    elsewhere = b"\nresolver: Cannot assign requested address (os error 99)\n"
    done = serve("--listen", "192.0.2.1@5300", "--control", free, "192.0.2.1")
    checks.equal("another's address", (done.status, done.out, done.err), (1, b"", CANNOT_LISTEN + b"192.0.2.1@5300" + elsewhere))
    with Service(["192.0.2.1"]) as service:
        used = f"{HOST}@{service.port}"
        done = serve("--listen", used, "--control", free, "192.0.2.1")
        checks.equal("a second service", (done.status, done.err), (1, CANNOT_LISTEN + used.encode() + IN_USE))
        checks.equal("with a second service: stopped", service.stop(), STOPPED)


def has_ipv6():
    try:
        bound(socket.SOCK_DGRAM, "::1", 0).close()
    except OSError:
        return False
    return True


def check_ranges(checks):
    """A service with numbers at the ends of their ranges."""
    for options in (
        ["--udp", "15", "--tcp", "1"],
        ["--udp=1", "--tcp=15", "--journal", "256", "--cells", "1000000", "--record", "1000000"],
        ["--journal", "1", "--cells", "1", "--record", "1", "--server-port", "1", "--seed", "0"],
        ["--server-port", "65535", "--seed", "4294967295"],
        ["--backlog", "1"],
        ["--backlog=65535"],
        ["--do-not-query", "0.0.0.0/0", "--do-not-query=::/0", "--do-not-query", "10.0.0.0/32", "--do-not-query", "fe80::1/128"],
    ):
        with Service(["192.0.2.1"], *options) as service:
            service.obey("local_data a. 60 A 192.0.2.1")
            checks.equal(f"serve {' '.join(options)}", service.ask("a.").words(), "aa | answer a. A 192.0.2.1")
            checks.equal(f"serve {' '.join(options)}: stopped", service.stop(), STOPPED)
    with Service([f"192.0.2.{place}" for place in range(16)]) as service:
        checks.equal("16 hints", len(service.obey("servers a.")[0].split()), 3 + 16)
    if not has_ipv6():
        return checks.skip("IPv6", "this machine has no ::1")
    with Service(["192.0.2.1"], host="::1") as service:
        service.obey("local_data a. 60 A 192.0.2.1")
        for over in ("udp", "tcp"):
            checks.equal(f"IPv6 over {over}", service.ask("a.", "A", over).words(), "aa | answer a. A 192.0.2.1")
        checks.equal("IPv6: stopped", service.stop(), STOPPED)


def identifiers(*options):
    """The identifiers of the first queries that a service sends."""
    queries = []

    def notes(asked):
        queries.append(asked.query[:2])
        yield asked.response("aa rcode 3")

    with NameServers({HOST: {"*": notes}}) as servers, Service([f"{HOST}@{servers.port}"], *options) as service:
        for place in range(4):
            service.ask(f"a{place}.test.")
    return queries


def check_seed(checks):
    """A seed fixes the identifiers of queries; without one no two runs have the same four."""
    checks.equal("one seed", identifiers("--seed", "7"), identifiers("--seed", "7"))
    for name, one, other in (("two seeds", ["--seed", "7"], ["--seed", "8"]), ("no seed", [], [])):
        checks.check(name, "the same identifiers twice" if identifiers(*one) == identifiers(*other) else None)


def control(port, *words, text=b""):
    return run([RESOLVER, "control", f"{HOST}@{port}", *words], text)


def check_control_program(checks):
    """A line among the arguments, or each line of standard input. The status is 1 if a reply is an error or a fault."""
    with Service(["192.0.2.1"]) as service:
        port = service.control_port
        for words, text, wanted, status in [
            (["local_zone a. deny"], b"", b"ok 1\n", 0),
            (["local_data", "x.", "60", "A", "192.0.2.1"], b"", b"ok 2\n", 0),
            (["list_local_zones"], b"", b"a. deny\nx. transparent\nend\n", 0),
            (["frob"], b"", b"error unknown\n", 1),
            ([], b"undo\nundo\n# a comment\n\nlist_local_zones\n", b"undone 2\nundone 1\nend\n", 0),
            ([], b"undo\nredo\nlist_local_zones", b"error nothing_to_undo\nredone 1\na. deny\nend\n", 1),
            ([], b"", b"", 0),
            # A line of a list is no error, whatever it begins with.
            (["local_zone error. static"], b"", b"ok 3\n", 0),
            (["list_local_zones"], b"", b"a. deny\nerror. static\nend\n", 0),
            (["stop"], b"", b"ok stopping\n", 0),
        ]:
            done = control(port, *words, text=text)
            name = f"control {' '.join(words)} {text!r}"
            checks.equal(name, (done.out, done.err, done.status), (wanted, b"", status))
        checks.equal("control: stopped", service.wait(), (0, b""))
        done = control(port, "undo")
        checks.equal("control with no service", (done.out, done.status), (b"", 1))
        checks.check("control with no service: the message", None if done.err.startswith(b"resolver: ") else repr(done.err))
    done = run([RESOLVER, "control"])
    checks.equal("control with no address", (done.out, done.status), (b"", 2))
    done = run([RESOLVER, "control", "nowhere", "undo"])
    checks.equal("control with no address of a service", (done.out, done.err, done.status), (b"", bad(f"ADDR nowhere: {FORM}"), 2))


def words_of(log):
    """The lines of a log, each without the time at its end."""
    return [TIME.sub(b"", line) for line in log.splitlines()]


def check_silent_server(checks):
    """A name server that is not there: between its start and its end the log has a line for the exchange that failed."""
    for over in ("udp", "tcp"):
        with NameServers({"127.0.0.1": {}}) as servers, Service([f"127.0.0.2@{servers.port}"]) as service:
            checks.equal(f"a dead server, over {over}", service.ask("a.test.", "A", over).words(), "rcode 2")
            checks.equal(f"a dead server, over {over}: stopped", service.stop(), STOPPED)
            fault = f"resolver: device fault: unreachable, server 127.0.0.2@{servers.port}, question a.test. A"
            wanted = [b"resolver: started", fault.encode(), b"resolver: stopped"]
            checks.equal(f"a dead server, over {over}: the log", words_of(service.log()), wanted)


def check_signal(checks):
    """SIGTERM, SIGINT and SIGHUP end the service by the signal, and the log has no last line. Under `nohup` a SIGHUP does nothing."""
    for number in (signal.SIGTERM, signal.SIGINT, signal.SIGHUP):
        with Service(["192.0.2.1"]) as service:
            service.logged(b"resolver: started")
            service.process.send_signal(number)
            checks.equal(number.name, service.wait(), (-number, b""))
            checks.equal(f"{number.name}: the log", words_of(service.log()), [b"resolver: started"])
    with Service(["192.0.2.1"], prefix=["nohup"]) as service:
        service.process.send_signal(signal.SIGHUP)
        service.obey("local_data a. 60 A 192.0.2.1")
        checks.equal("SIGHUP under nohup", service.ask("a.").words(), "aa | answer a. A 192.0.2.1")
        checks.equal("SIGHUP under nohup: stopped", service.stop(), STOPPED)


NO_MEMORY = b"resolver: no memory\n"

# The service makes fewer allocations than this before it is ready.
MOST_GROWTHS = 1_000


def refused_start(nth, *options):
    """Starts a service of which the Nth allocation is refused. Returns whether it was, and what is wrong with the outcome.

    Either the service ends and reports why, or it asks again for less, and serves as ever.
    """
    environment = {"LD_PRELOAD": library("refuse"), "REFUSE_NTH": str(nth), "TELL": "2"}
    try:
        with Service(["192.0.2.1"], *options, environment=environment) as service:
            # An allocation after `ready` may be refused too; that is not at the start.
            was_refused = b"refused\n" in service.log()
            if not was_refused:
                return False, None
            service.obey("local_data a. 60 A 192.0.2.1")
            answer = service.ask("a.").words()
            ended = service.stop()
            is_right = (answer, ended) == ("aa | answer a. A 192.0.2.1", STOPPED)
            return True, None if is_right else f"it is ready, and answers {answer!r}, {ended}"
    except NotReady as fault:
        is_right = fault.status == 1 and b"refused\n" + NO_MEMORY in fault.told
        return True, None if is_right else str(fault)


def check_refused_start(checks):
    """Each allocation up to `ready` is refused in turn."""
    for options in ([], ["--udp", "3", "--tcp", "2", "--seed", "1"]):
        name = " ".join(["serve", *options])
        for nth in range(1, MOST_GROWTHS):
            was_refused, fault = refused_start(nth, *options)
            if not was_refused:
                break
            checks.check(f"{name}, allocation {nth} refused", fault)
        checks.check(f"{name}, allocations refused", None if 50 < nth < MOST_GROWTHS - 1 else f"{nth - 1} were")


# `stop` ends a service in a tenth of a second; on a busy machine, within this.
STOP_SECONDS = 0.5


def seconds_to_stop(service):
    """The seconds from `stop` to the end of the program, with status 0."""
    with service.control() as control:
        began = time.monotonic()
        told = control.tell("stop")
        status, rest = service.wait()
        took = time.monotonic() - began
    return took, (told, status, rest)


def ask_on(service, over, ending):
    """Asks for cached names until the service ends."""
    try:
        with service.client(over) as client:
            client.sock.settimeout(5)
            while not ending.is_set():
                client.ask("held.test.", "A")
    except (OSError, EOFError):
        pass


def check_stop(checks, name, is_asked, is_loaded):
    """How soon `stop` ends a service: an idle one, one whose questions wait for a silent name server, and one that is asked all the time."""
    silent = {HOST: {"*": None}}
    with NameServers(silent) as servers, Service([f"{HOST}@{servers.port}"], "--udp", "2", "--tcp", "2") as service:
        service.obey("local_data held.test. 60 A 192.0.2.1")
        ending = threading.Event()
        threads = [threading.Thread(target=ask_on, args=(service, over, ending)) for over in ("udp", "tcp") for _ in range(2)]
        if is_loaded:
            for thread in threads:
                thread.start()
        with service.client() as client:
            if is_asked:
                for place in range(100):
                    client.send(query(f"silent{place}.test.", "A"))
                checks.check(f"stop {name}: asked", None if servers.wait_for("silent99.test. A") else "it is not")
            if is_loaded:
                time.sleep(0.5)
            took, ended = seconds_to_stop(service)
        ending.set()
        if is_loaded:
            for thread in threads:
                thread.join()
        checks.equal(f"stop {name}", ended, STOPPED)
        print(f"stop {name}: {took * 1000:.0f} ms")
        checks.check(f"stop {name}: how soon", None if took < STOP_SECONDS else f"{took:.3f} s")


def outlive_want():
    """A worker that cannot accept for twenty-two seconds, while a connection waits for it. Returns whether the faults are in the log,
    whether the worker ended, its answer afterwards, and the end of the service."""
    with Service(["192.0.2.1"]) as service:
        service.obey("local_data held.test. 60 A 192.0.2.1")
        until(lambda: service.threads() == 5)
        service.idle_descriptors()
        service.limit(service.first_free())
        with service.client("tcp"):
            time.sleep(22.5)
        faults = service.times(b"resolver: device fault: no connection is accepted: no descriptors")
        has_ended = b"ended by failures" in service.log()
        service.limit(1_024)
        return faults >= 16, has_ended, service.ask("held.test.", "A", "tcp").words(), service.stop()


def make_all(checks):
    checks.make(check_usage)
    checks.make(check_addresses)
    checks.make(check_binding)
    checks.make(check_ranges)
    checks.make(check_seed)
    checks.make(check_control_program)
    checks.make(check_silent_server)
    checks.make(check_refused_start)
    checks.make(check_stop, "at rest", False, False)
    checks.make(check_stop, "with questions that wait", True, False)
    checks.make(check_stop, "under load", False, True)
    checks.make(check_stop, "under load, with questions that wait", True, True)
    checks.make(check_signal)


def main():
    checks = Checks()
    with ThreadPoolExecutor(1) as pool:
        waiting = pool.submit(outlive_want)
        make_all(checks)
        wanted = True, False, "aa | answer held.test. A 192.0.2.1", STOPPED
        checks.equal("no descriptors for twenty-two seconds", waiting.result(), wanted)
    checks.end()


main()
