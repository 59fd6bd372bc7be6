"""The log of a service: what a line says, when it is written, and what becomes of a text that comes again."""

import fcntl
import os
import re
import socket
import time
from datetime import datetime, timezone

from lib.behaviours import never
from lib.checks import Checks
from lib.crowds import Crowd, LateServer
from lib.nameserver import NameServers
from lib.service import HOST, MORE, STOPPED, TIME, Service, until

FAULT = b"resolver: device fault"

NO_ROOM = re.compile(rb"resolver: standard error took no lines: \d+ found no room, at ")


def texts(service):
    """The lines of a log without their times. Each has to end in a time, in UTC, that is not far from now."""
    told = []
    for line in service.log().splitlines():
        found = TIME.search(line)
        when = found and datetime.strptime(found[1].decode(), "%Y-%m-%dT%H:%M:%SZ").replace(tzinfo=timezone.utc)
        if not when or abs((datetime.now(timezone.utc) - when).total_seconds()) > 120:
            raise ValueError(f"no time at the end of {line!r}")
        told.append(TIME.sub(b"", line))
    return told


def check_lines(checks):
    """What a line says of an exchange that failed: cause, server and question. A server may be silent, or not be there at all. The
    silent one is passed over when the question is asked again, and that has no line."""
    with NameServers({HOST: {"*": None}}) as servers, Service([f"{HOST}@{servers.port}"]) as service:
        service.obey(
            f"stub_add away.test. 127.0.0.2@{servers.port}", f"stub_add six.test. 127.0.0.3@{servers.port}",
            "stub_add none.test. 0.0.0.0@53", f"stub_add own.test. {HOST}@{service.port}",
        )
        for name in ("a.away.test.", "B.Six.test.", "c.none.test.", "d.own.test.", "e.test."):
            service.ask(name, "TXT")
        service.ask("e.test.", "TXT")
        checks.equal("lines: stopped", service.stop(), STOPPED)
        silent = f"timed out, server {HOST}@{servers.port}"
        wanted = [
            "resolver: started",
            f"resolver: device fault: unreachable, server 127.0.0.2@{servers.port}, question a.away.test. TXT",
            f"resolver: device fault: unreachable, server 127.0.0.3@{servers.port}, question b.six.test. TXT",
            "resolver: device fault: its address is never asked, server 0.0.0.0@53, question c.none.test. TXT",
            f"resolver: device fault: its address is never asked, server {HOST}@{service.port}, question d.own.test. TXT",
            f"resolver: device fault: {silent}, question e.test. TXT",
            "resolver: stopped",
        ]
        checks.equal("lines", [line.decode() for line in texts(service)], wanted)


def check_repeats(checks):
    """300 questions for a silent server are one line, and ten seconds later one with their number."""
    with LateServer(never) as server, Service([server.hint]) as service, Crowd(service) as crowd:
        crowd.ask([f"n{place}.test." for place in range(300)], 300)
        in_vain = service.figures()["num.exchange.unanswered"]
        checks.equal("repeats: in vain", in_vain, 300)
        lines = [line for line in texts(service) if line.startswith(FAULT)]
        checks.check("repeats: at first", None if len(lines) == 1 and b", question n" in lines[0] else repr(lines))
        began = time.monotonic()
        checks.equal("repeats: then", until(lambda: MORE.search(service.log())), True)
        checks.check("repeats: in time", None if time.monotonic() - began < 13 else "it took longer than ten seconds")
        lines = [line for line in texts(service) if line.startswith(FAULT)]
        server_text = f"timed out, server {server.hint}".encode()
        checks.equal("repeats: the second line", lines[1:], [FAULT + b": " + server_text + b", 299 more in 10 s"])
        checks.equal("repeats: stopped", service.stop(), STOPPED)
        checks.equal("repeats: no third line", service.times(FAULT), 300)


def check_many_texts(checks):
    """Names whose servers are all different: eight servers are named beside one cause, the others are counted, and another cause still
    shows, as does what an operator does."""
    with Service(["192.0.2.1"], "--udp", "2") as service:
        service.obey(*(f"stub_add z{place}.test. 127.0.1.{place}@9" for place in range(1, 151)), "stub_add none.test. 0.0.0.0@53")
        for place in range(1, 151):
            service.ask(f"a.z{place}.test.")
        service.ask("a.none.test.")
        lines = [line for line in texts(service) if line.startswith(FAULT)]
        named = [line for line in lines if b"unreachable" in line]
        checks.equal("many texts: servers that are named", len(named), 8)
        checks.equal("many texts: another cause", sum(b"its address is never asked" in line for line in lines), 1)
        checks.equal("many texts: stopped", service.stop(), STOPPED)
        others = [line for line in service.log().splitlines() if line.startswith(FAULT + b": unreachable, other servers, ")]
        checks.equal("many texts: none is lost", [int(MORE.search(line)[1]) for line in others], [142])
        checks.equal("many texts: the last line", texts(service)[-1], b"resolver: stopped")


def read_all(pipe):
    """What a pipe holds."""
    octets = b""
    while True:
        try:
            piece = os.read(pipe, 65_536)
        except BlockingIOError:
            return octets
        if not piece:
            return octets
        octets += piece


def unread():
    """A pipe that is full, and its other end. It takes 4,096 octets."""
    reads, writes = os.pipe()
    fcntl.fcntl(writes, fcntl.F_SETPIPE_SZ, 4096)
    os.set_blocking(reads, False)
    os.write(writes, b"x" * 4095 + b"\n")
    return reads, open(writes, "wb", buffering=0)


def fail_each(service, port, turn):
    """Questions whose exchanges fail for two causes, at nine servers each, and one whose server is silent."""
    for place in range(1, 10):
        service.obey(f"stub_add x{place}.test. 127.0.1.{place}@9", f"stub_add y{place}.test. 0.0.0.{place}@53")
        service.ask(f"a{turn}.x{place}.test.")
        service.ask(f"a{turn}.y{place}.test.")
    service.obey(f"stub_add silent.test. {HOST}@{port}")
    service.ask(f"a{turn}.silent.test.")
    with socket.create_connection((HOST, service.control_port), timeout=10) as sock:
        sock.sendall(b"POST / HTTP/1.1\r\n\r\n")


def check_unread(checks):
    """Nobody reads standard error, and it takes no line. Names in the cache are answered over UDP and TCP all the time, operators are
    obeyed, also behind a stranger whose connection is logged, and `stop` ends the service. Once somebody reads, the lines come that found
    room, and the number of those that did not."""
    reads, errors = unread()
    with NameServers({HOST: {"*": None}}) as servers, Service(["192.0.2.1"], "--udp", "2", errors=errors) as service:
        service.obey("local_data held.test. 60 A 192.0.2.1")
        answers = []
        for turn in range(3):
            fail_each(service, servers.port, turn)
            for over in ("udp", "tcp"):
                answers.append(service.ask("held.test.", "A", over).words())
            answers.append(service.obey("undo")[0].split()[0])
            time.sleep(10.2)
        checks.equal("unread: answers", sorted(set(answers)), ["aa | answer held.test. A 192.0.2.1", "undone"])
        told = bytearray()

        def is_said():
            told.extend(read_all(reads))
            return NO_ROOM.search(told) is not None

        checks.equal("unread: said once it is read", until(is_said), True)
        checks.check("unread: lines that found room", None if told.count(b"\n") > 40 else repr(told))
        checks.equal("unread: stopped", service.stop(), STOPPED)
    os.close(reads)


def check_full(checks):
    """One line when the cells are full, however often they are found full, and one when they are not any more."""
    zone = {f"n{place}.test. A": f"aa | answer n{place}.test. 4 A 192.0.2.1" for place in range(40)}
    full = b"resolver: the cache is full: 3 cells are in use, and for new names others are forgotten"
    free = re.compile(rb"resolver: the cache is not full any more: [0-2] of 3 cells are in use")
    with NameServers({HOST: zone}) as servers, Service([f"{HOST}@{servers.port}"], "--cells", "3") as service:
        for place in range(3):
            service.ask(f"n{place}.test.")
        time.sleep(1.2)
        checks.equal("full: three of three are not too many", texts(service), [b"resolver: started"])
        for place in range(40):
            service.ask(f"n{place}.test.")
        checks.equal("full: logged", service.logged(full), True)
        checks.equal("full: not any more", until(lambda: free.search(service.log())), True)
        checks.equal("full: once", (service.times(full), len(free.findall(service.log()))), (1, 1))
        checks.equal("full: stopped", service.stop(), STOPPED)


def main():
    checks = Checks()
    checks.make(check_lines)
    checks.make(check_repeats)
    checks.make(check_many_texts)
    checks.make(check_unread)
    checks.make(check_full)
    checks.end()


main()
