"""`resolver serve` while calls of its sockets fail: each call by itself, one run for each. A query may get SERVFAIL or no reply then, or
its connection may end. But the service goes on: right after that, or a second later if a port seemed closed, it answers every
question, also those in flight together over one connection, and obeys every line. `stop` ends it. `tests/run` tries every call;
`python3 tests/serve_failing.py CALL..` tries some."""

import contextlib
import errno
import re
import sys
import time
from concurrent.futures import ThreadPoolExecutor

from lib.checks import Checks
from lib.nameserver import NameServers, framed
from lib.programs import library
from lib.replies import reply_in
from lib.service import HOST, STOPPED, Service, query, until

# The errors of each call: no descriptors, no memory, no room, no port, a peer that is gone.
ERRORS = {
    "socket": (errno.EMFILE, errno.ENOBUFS),
    "bind": (errno.EADDRINUSE,),
    "connect": (errno.ENETUNREACH, errno.EADDRNOTAVAIL),
    "accept4": (errno.EMFILE, errno.ECONNABORTED),
    "setsockopt": (errno.ENOMEM,),
    "epoll_ctl": (errno.ENOSPC,),
    "recv_udp": (errno.ENOMEM, errno.ECONNREFUSED),
    "recv_tcp": (errno.ECONNRESET,),
    "send_udp": (errno.ENOBUFS, errno.EPERM),
    "send_tcp": (errno.EPIPE, errno.ENOBUFS),
}

# The seconds for which a client waits for a reply that may never come, and the runs at once.
PATIENCE, AT_ONCE = 3.0, 8

# The seconds for which a name server is passed over if its port seems to be closed, and a little more.
CLOSED_PAUSE = 1.1

# The questions while a call fails. The name server cuts those of `t` over UDP.
QUESTIONS = (("udp", "a"), ("tcp", "b"), ("udp", "t"), ("tcp", "tt"), ("udp", "c"), ("tcp", "d"))


# The questions of each of two connections that are in flight together.
TOGETHER = (("ready", "u", "t1", "v"), ("w", "ready", "x", "t2"))

# The reply to the one question that needs no name server.
LOCAL = "aa | answer ready.test. A 192.0.2.9"


def zone(asked):
    name = asked.question.split()[0]
    cut = name.startswith("t") and asked.over == "udp"
    yield asked.response("tc" if cut else f"aa | answer {name} 60 A 192.0.2.1")


def wanted(name):
    return LOCAL if name == "ready.test." else f"- | answer {name} A 192.0.2.1"


def try_to_ask(service, over, name):
    """The reply in words, or None if none came."""
    asked = query(name, "A")
    try:
        with service.client(over) as client:
            client.sock.settimeout(PATIENCE)
            client.send(asked)
            octets = client.octets()
    except OSError:
        return None
    if octets is None:
        return None
    return reply_in(octets).words() if octets[:2] == asked[:2] else octets.hex()


def try_together(service):
    """Asks over two connections, of which each has all its questions in flight at once. They bring replies in any order, or end. Returns
    how many replies were right, and what is wrong with another: it may be SERVFAIL."""
    right = 0
    with contextlib.ExitStack() as stack:
        clients = []
        for labels in TOGETHER:
            with contextlib.suppress(OSError):
                clients.append((stack.enter_context(service.client("tcp")), labels))
        for client, labels in clients:
            client.sock.settimeout(PATIENCE)
            with contextlib.suppress(OSError):
                client.sock.sendall(b"".join(framed(query(f"{label}.test.", "A", place)) for place, label in enumerate(labels)))
        for client, labels in clients:
            left = dict(enumerate(labels))
            with contextlib.suppress(OSError):
                while left and (octets := client.octets()):
                    label = left.pop(int.from_bytes(octets[:2], "big"), None)
                    words = reply_in(octets).words()
                    if label is None or words not in ("rcode 2", wanted(f"{label}.test.")):
                        return right, f"{label} is answered {words}"
                    right += words != "rcode 2"
    return right, None


def try_to_obey(service, line):
    """The reply to a line, or None if the connection ended before."""
    try:
        return service.obey(line)[0]
    except (OSError, EOFError):
        return None


def settle(service):
    """From here on no call fails."""
    with service.client() as client:
        client.send(b"end")
    until(lambda: try_to_ask(service, "udp", "ready.test.") == LOCAL)


def fault_of(service, pause):
    """What is wrong while a call fails, or right after it."""
    service.obey("local_data ready.test. 60 A 192.0.2.9")
    for over, label in QUESTIONS:
        name = f"{label}.test."
        found = try_to_ask(service, over, name)
        if found not in (None, "rcode 2", wanted(name)):
            return f"{name} over {over} is answered {found}"
    _, fault = try_together(service)
    if fault:
        return f"together {fault}"
    told = try_to_obey(service, "flush a.test.")
    if told not in (None, "ok 2"):
        return f"`flush` is answered {told}"
    settle(service)
    time.sleep(pause)
    for over in ("udp", "tcp"):
        for label in ("a", "t", f"later-{over}"):
            found = try_to_ask(service, over, f"{label}.test.")
            if found != wanted(f"{label}.test."):
                return f"afterwards {label}.test. over {over} is answered {found}"
    count, fault = try_together(service)
    if fault or count != sum(map(len, TOGETHER)):
        return f"afterwards {count} are answered together, {fault}"
    told = service.obey("local_zone x.test. static", "undo")
    if not told[0].startswith("ok ") or told[1] != told[0].replace("ok", "undone"):
        return f"afterwards a command and its undo are answered {told}"
    stopped = service.stop()
    return None if stopped == STOPPED else f"`stop` ends with {stopped}"


def failing(call, error, at):
    """A run in which one call fails, or none: how often the call was made since the first datagram, and the fault."""
    settings = {"LD_PRELOAD": library("failing"), "TELL": "2", "CALL": call, "ERROR": str(error), "AT": str(at)}
    with NameServers({HOST: {"*": zone}}) as servers:
        with Service([f"{HOST}@{servers.port}"], "--server-port", str(servers.port), environment=settings) as service:
            # What fails on the socket of an exchange looks like a closed port.
            fault = fault_of(service, CLOSED_PAUSE if call in ("recv_udp", "epoll_ctl") else 0)
            count = re.search(rb"^called (\d+)$", service.log(), re.MULTILINE)
            return int(count[1]) if count else 0, fault


def check_call(checks, call):
    """Each call fails by itself, in a run of its own."""
    library("failing")
    count, fault = failing(call, 0, 0)
    checks.check(f"{call}: none fails", fault or (None if count else "it is never called"))
    runs = [(error, at) for error in ERRORS[call] for at in range(1, count + 1)]
    with ThreadPoolExecutor(AT_ONCE) as pool:
        for (error, at), (_, fault) in zip(runs, pool.map(lambda run: failing(call, *run), runs)):
            checks.check(f"{call} {at} of {count} fails with {errno.errorcode[error]}", fault)


def check_stop(checks):
    """`stop` ends the service even if no descriptor is left."""
    with NameServers({HOST: {"*": zone}}) as servers, Service([f"{HOST}@{servers.port}"]) as service:
        service.idle_descriptors()
        with service.control() as control:
            told = control.tell("flush a.")
            service.limit(service.first_free())
            checks.equal("no descriptors: a command", told, "ok 1")
            checks.equal("no descriptors: `stop`", control.tell("stop"), "ok stopping")
            checks.equal("no descriptors: the end", service.wait(), (0, b""))


def main():
    checks = Checks()
    if not sys.argv[1:]:
        checks.make(check_stop)
    for call in sys.argv[1:] or ERRORS:
        checks.make(check_call, call)
    checks.end()


main()
