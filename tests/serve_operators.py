"""Who comes to the control socket, and `resolver control`: strangers that speak something else, operators that hold it or go on
sending lines, and lines of standard input over one connection."""

import contextlib
import socket
import subprocess
import threading
import time
from concurrent.futures import ThreadPoolExecutor

from lib.checks import Checks
from lib.programs import RESOLVER, run
from lib.service import HOST, STOPPED, Service

CLOSED = b"resolver: control connection closed: it begins as no command does"
NO_REPLY = "resolver: no reply from {}\n"

# How long an operator waits behind whoever holds the socket: a second of the one whose turn it is, and what a loaded machine adds.
# Of two hundred idle ones, 32 wait in the service, and give up their places a second later.
WAIT_SECONDS = 3
CROWD_SECONDS = 12

# How long an operator waits behind one that goes on sending lines: its turn of five seconds, and what a loaded machine adds.
TURN_SECONDS = 10

LINES = b"local_zone a. static\nstop\n"
STRANGERS = {
    "a form of a browser": b"POST / HTTP/1.1\r\nHost: 127.0.0.1\r\nContent-Length: 26\r\n\r\n" + LINES,
    "a request with lines as headers": b"POST / HTTP/1.1\r\n" + LINES + b"\r\n\r\n",
    "a request whose path is a line": b"GET /\nlocal_zone a. static\nstop HTTP/1.1\r\n\r\n",
    "HTTP/2": b"PRI * HTTP/2.0\r\n\r\nSM\r\n\r\n" + LINES,
    "TLS": bytes.fromhex("160301003a010000360303") + bytes(32) + b"\n" + LINES,
    "TLS with no line feed": bytes.fromhex("160301003a010000360303") + bytes(32),
    "WebRTC": bytes.fromhex("000300002112a442") + bytes(12) + b"\n" + LINES,
    "a digit": b"1\n" + LINES,
}


# A list of these has 800,000 octets.
RECORDS = b"".join(b'local_data n%d.test. 60 TXT "%s" "%s" "%s"\n' % (place, b"a" * 255, b"b" * 255, b"c" * 255) for place in range(1_000))


def ended(sock):
    """Whether the service ends the connection before it says more."""
    try:
        return sock.recv(1) == b""
    except ConnectionError:
        return True


def check_strangers(checks):
    """What begins as no line does is closed and logged, and none of its lines is obeyed."""
    with Service(["192.0.2.1"]) as service:
        for name, octets in STRANGERS.items():
            with socket.create_connection((HOST, service.control_port), timeout=10) as sock:
                sock.sendall(octets)
                checks.equal(f"{name}: closed", ended(sock), True)
            checks.equal(f"{name}: obeyed", service.obey("list_local_zones"), ["end"])
        # Blanks, comments and ends of lines may come first.
        for begin in (b" ", b"\t", b"#\n", b"\n", b"\r\n"):
            with service.control() as control:
                control.sock.sendall(begin + b"undo\n")
                checks.equal(f"{begin!r} first", control.line(), "error nothing_to_undo")
        checks.equal("behind strangers: stopped", service.stop(), STOPPED)
        checks.equal("strangers: each is logged", service.times(CLOSED), len(STRANGERS))


def connections(service, count, octets=b""):
    """So many operators that send these octets and then nothing."""
    held = [socket.create_connection((HOST, service.control_port), timeout=10) for _ in range(count)]
    for sock in held:
        sock.sendall(octets)
    return held


def drip(held, ending):
    """Sends an octet to each now and then, and no line feed."""
    while not ending.wait(0.3):
        for sock in held:
            try:
                sock.sendall(b"u")
            except OSError:
                pass


def held_by(service, kind):
    """Connections of this kind that came first."""
    if kind == "ten idle":
        return connections(service, 10)
    if kind == "two hundred idle":
        return connections(service, 200)
    if kind == "one behind its line":
        return connections(service, 1, b"look a. A\nun")
    if kind == "one that does not read":
        return connections(service, 1, b"list_local_data\n" * 20)
    return connections(service, 10, b"u")


def settle(service):
    """Waits until the service does nothing."""
    before = None
    while before != service.processor():
        before = service.processor()
        time.sleep(0.3)


def check_held(checks, kind):
    """A command and `stop` get through in time, past those that hold the socket."""
    with Service(["192.0.2.1"]) as service, ThreadPoolExecutor(1) as pool:
        if kind == "one that does not read":
            checks.equal(f"{kind}: records", control(f"{HOST}@{service.control_port}", text=RECORDS).status, 0)
        held, ending = held_by(service, kind), threading.Event()
        dripping = pool.submit(drip, held, ending) if kind == "ten that drip" else None
        # The one that does not read is served until both buffers are full.
        settle(service)
        for line, wanted in (("look nothing.test. A", "unknown"), ("stop", "ok stopping")):
            began = time.monotonic()
            checks.equal(f"{kind}: {line}", service.obey(line), [wanted])
            took = time.monotonic() - began
            print(f"{line} behind {kind}: {took:.1f} s")
            most = CROWD_SECONDS if kind == "two hundred idle" else WAIT_SECONDS
            checks.check(f"{kind}: {line}, how soon", None if took < most else f"{took:.1f} s")
        checks.equal(f"{kind}: stopped", service.wait(), (0, b""))
        ending.set()
        if dripping:
            dripping.result()
        for sock in held:
            sock.close()


# Operators that go on sending lines: what each sends at once, and the seconds between two times. A refused line begins as no command
# does, which shows no stranger once the connection has begun.
TALKERS = {
    "empty lines": (b"\n", 0.5),
    "polls": (b"status\n", 0.5),
    "refused lines": (b"FROB\n", 0.5),
    "a script": (b"flush a.\n" * 1_000, 0.001),
}

# The replies that a script leaves unread at most, so that it ends soon after its last line.
MOST_BEHIND = 20_000


class Talker:
    """An operator that sends a comment, and then the same octets again and again. It keeps the replies."""

    def __init__(self, service, octets, pause):
        self.sock = socket.create_connection((HOST, service.control_port), timeout=60)
        self.octets, self.pause = octets, pause
        self.sent, self.replies, self.told = 0, 0, []
        self.ending = threading.Event()
        self.threads = [threading.Thread(target=work, daemon=True) for work in (self._send, self._receive)]
        for thread in self.threads:
            thread.start()

    def _send(self):
        with contextlib.suppress(OSError):
            self.sock.sendall(b"#\n")
            while not self.ending.wait(self.pause):
                if self.sent - self.replies < MOST_BEHIND:
                    self.sock.sendall(self.octets)
                    self.sent += self.octets.count(b"\n")

    def _receive(self):
        with contextlib.suppress(OSError):
            while octets := self.sock.recv(65_536):
                self.told.append(octets)
                self.replies += octets.count(b"\n")

    def end(self):
        """Sends a last line. Returns how many came before it, and the replies up to the end of the connection."""
        self.ending.set()
        self.threads[0].join()
        with contextlib.suppress(OSError):
            self.sock.sendall(b"redo\n")
            self.sock.shutdown(socket.SHUT_WR)
        self.threads[1].join()
        self.sock.close()
        return self.sent, b"".join(self.told)


def replies_to(kind, first, count):
    """The replies to so many lines of a talker, where the first accepted command gets this ticket."""
    if kind == "a script":
        return b"".join(b"ok %d\n" % ticket for ticket in range(first, first + count))
    return {"empty lines": b"", "polls": b"end\n", "refused lines": b"error unknown\n"}[kind] * count


def check_soon(checks, kind, service, line, wanted):
    """A line beside a talker gets its reply in time."""
    began = time.monotonic()
    checks.equal(f"beside {kind}: {line}", service.obey(line)[0].split(" / ")[-1], wanted)
    took = time.monotonic() - began
    print(f"{line} beside {kind}: {took:.1f} s")
    checks.check(f"beside {kind}: {line}, how soon", None if took < TURN_SECONDS else f"{took:.1f} s")


def check_talker(checks, kind):
    """Beside one that goes on sending lines others get through in time. It loses no line, and none is obeyed twice."""
    with Service(["192.0.2.1"]) as service:
        talker = Talker(service, *TALKERS[kind])
        time.sleep(1)
        check_soon(checks, kind, service, "status", "end")
        time.sleep(1)
        sent, told = talker.end()
        if kind == "polls":
            told = b"".join(line + b"\n" for line in told.splitlines() if line == b"end" or line.startswith(b"error "))
        checks.equal(f"{kind}: replies", told, replies_to(kind, 1, sent) + b"error nothing_to_redo\n")
        checks.check(f"{kind}: how many lines", None if sent > 1 else f"{sent}")
        talker, first = Talker(service, *TALKERS[kind]), sent + 1
        time.sleep(1)
        check_soon(checks, kind, service, "stop", "ok stopping")
        checks.equal(f"{kind}: stopped", service.wait(), (0, b""))
        sent, told = talker.end()
        if kind == "a script":
            checks.check(f"{kind}: replies before the end", None if told else "none came")
            checks.equal(f"{kind}: replies up to the end", told, replies_to(kind, first, told.count(b"\n")))


def check_begun_line(checks):
    """Who is closed in the middle of a line has not given that line."""
    with Service(["192.0.2.1"]) as service:
        with service.control() as first:
            first.sock.sendall(b"look a. A\nlocal_zone a. static")
            checks.equal("a begun line: the line before it", first.line(), "unknown")
            checks.equal("a begun line: another operator", service.obey("list_local_zones"), ["end"])
            checks.equal("a begun line: closed", ended(first.sock), True)
        checks.equal("a begun line: obeyed", service.obey("list_local_zones", "undo"), ["end", "error nothing_to_undo"])
        # At an end of the input that the operator made it is the last line, as it always was.
        with service.control() as control:
            control.sock.sendall(b"local_zone a. static")
            control.sock.shutdown(socket.SHUT_WR)
            checks.equal("a last line with no end", control.file.read(), b"ok 1\n")
        checks.equal("begun lines: stopped", service.stop(), STOPPED)


def think_alone():
    """What an operator gets who is alone and thinks for ten seconds, in a line and between lines; and how the service ends."""
    with Service(["192.0.2.1"]) as service, service.control() as control:
        told = []
        for begun, rest in (("und", "o"), ("", "undo"), ("", "stop")):
            control.sock.sendall(begun.encode())
            time.sleep(0 if rest == "stop" else 10)
            told.append(control.tell(rest))
        return told, service.wait()


def check_operators_at_once(checks):
    """Fifty operators at once are all obeyed, each line once. Then each gives a flush, and takes back its own."""
    with Service(["192.0.2.1"]) as service, ThreadPoolExecutor(50) as pool:
        told = list(pool.map(lambda place: service.obey(f"local_zone z{place}. static")[0], range(50)))
        checks.equal("fifty operators", sorted(told), sorted(f"ok {ticket}" for ticket in range(1, 51)))
        tickets = [words[0].split()[1] for words in pool.map(lambda place: service.obey(f"flush n{place}."), range(50))]
        undone = list(pool.map(lambda ticket: service.obey(f"undo {ticket}")[0], tickets))
        checks.equal("fifty operators: each takes back its own", undone, [f"undone {ticket}" for ticket in tickets])
        checks.equal("fifty operators: stopped", service.stop(), STOPPED)


class FakeService:
    """A control socket that answers each line with its number, or as it is told to, and counts the connections."""

    def __init__(self, serve):
        self.listener = socket.create_server((HOST, 0))
        self.addr = f"{HOST}@{self.listener.getsockname()[1]}"
        self.accepted = 0
        self.lines = 0
        self.serve = serve
        self.released = threading.Semaphore(0)
        self.thread = threading.Thread(target=self._run, daemon=True)
        self.thread.start()

    def _run(self):
        while True:
            try:
                sock, _ = self.listener.accept()
            except OSError:
                return
            self.accepted += 1
            with sock, sock.makefile("rb") as file:
                try:
                    self.serve(self, sock, file)
                except OSError:
                    pass

    def answer(self, sock):
        self.lines += 1
        sock.sendall(b"ok %d\n" % self.lines)

    def __enter__(self):
        return self

    def __exit__(self, *_):
        self.listener.shutdown(socket.SHUT_RDWR)
        self.listener.close()
        self.thread.join()


def answer_all(service, sock, file):
    for _ in file:
        service.answer(sock)


def answer_one(service, sock, file):
    if file.readline():
        service.answer(sock)


def answer_late(service, sock, file):
    """It answers the first line once the client has sent all."""
    if file.readline():
        time.sleep(0.5)
        service.answer(sock)


def answer_none(service, _sock, file):
    file.read()
    service.released.acquire(timeout=10)


def control(addr, *words, text=b""):
    return run([RESOLVER, "control", addr, *words], text)


def numbered(count):
    return b"".join(b"ok %d\n" % number for number in range(1, count + 1))


def check_one_connection(checks):
    """A thousand lines go over one connection, and the replies come in order."""
    with FakeService(answer_all) as service:
        done = control(service.addr, text=b"undo\n" * 1_000)
        checks.equal("a thousand lines", (done.out, done.err, done.status), (numbered(1_000), b"", 0))
        checks.equal("a thousand lines: connections", service.accepted, 1)
    with Service(["192.0.2.1"]) as service:
        addr = f"{HOST}@{service.control_port}"
        done = control(addr, text=RECORDS)
        checks.equal("a thousand records", (done.out, done.err, done.status), (numbered(1_000), b"", 0))
        # More than the buffers of both ends take.
        done = control(addr, text=b"list_local_data\n" * 8)
        checks.equal("long replies", (done.out.count(b"\n"), done.err, done.status), (1_001 * 8, b"", 0))
        done = control(addr, text=b"stop\nundo\n")
        checks.equal("behind stop", (done.out, done.status), (b"ok stopping\n", 1))
        checks.equal("a thousand lines: stopped", service.wait(), (0, b""))


class Typist:
    """`resolver control` at whose standard input lines come one by one."""

    def __init__(self, addr, *options):
        command = [RESOLVER, "control", *options, addr]
        self.process = subprocess.Popen(command, stdin=subprocess.PIPE, stdout=subprocess.PIPE, stderr=subprocess.PIPE)

    def type(self, line):
        self.process.stdin.write(line + b"\n")
        self.process.stdin.flush()
        return self.process.stdout.readline()

    def end(self):
        out, err = self.process.communicate(timeout=20)
        return out, err, self.process.returncode


def check_typed(checks):
    """Lines that come one by one: each reply comes before the next line, and a connection that the service ended is made anew."""
    with FakeService(answer_one) as service:
        typist = Typist(service.addr)
        for number in range(1, 4):
            checks.equal(f"ended behind each line: line {number}", typist.type(b"undo"), b"ok %d\n" % number)
            time.sleep(0.3)
        checks.equal("ended behind each line", typist.end(), (b"", b"", 0))
        checks.equal("ended behind each line: connections", service.accepted, 3)
    # Of lines that were sent and not replied to nobody knows whether they were obeyed.
    with FakeService(answer_late) as service:
        done = control(service.addr, text=b"undo\nundo\n")
        checks.equal("ended behind the first of two lines", (done.out, done.err, done.status), (b"ok 1\n", b"resolver: read failed\n", 1))
    with Service(["192.0.2.1"]) as service:
        typist = Typist(f"{HOST}@{service.control_port}", "--seconds", "5")
        checks.equal("an idle client", typist.type(b"local_zone a. static"), b"ok 1\n")
        began = time.monotonic()
        checks.equal("behind an idle client", service.obey("undo"), ["undone 1"])
        took = time.monotonic() - began
        checks.check("behind an idle client: how soon", None if took < WAIT_SECONDS else f"{took:.1f} s")
        time.sleep(0.3)
        checks.equal("an idle client goes on", typist.type(b"redo"), b"redone 1\n")
        checks.equal("an idle client: refused", typist.type(b"frob"), b"error unknown\n")
        checks.equal("an idle client: its end", typist.end(), (b"", b"", 1))
        checks.equal("behind an idle client: stopped", service.stop(), STOPPED)


def check_seconds(checks):
    """A service that does not reply, or to which no connection comes about: a text and a status of its own, in time."""
    with FakeService(answer_none) as service:
        told = (b"", NO_REPLY.format(service.addr).encode(), 3)
        for words, text in ((["undo"], b""), ([], b"undo\n"), ([], b"# a comment\n"), ([], b"list_stubs\n" * 1_000)):
            began = time.monotonic()
            done = control("--seconds", "1", service.addr, *words, text=text)
            took = time.monotonic() - began
            name = f"no reply to {words} {text[:20]!r}"
            checks.equal(name, (done.out, done.err, done.status), told)
            checks.check(f"{name}: how soon", None if 0.9 < took < 2 else f"{took:.1f} s")
            service.released.release()
    with socket.create_server((HOST, 0), backlog=0) as listener:
        addr = f"{HOST}@{listener.getsockname()[1]}"
        waiting = []
        for _ in range(4):
            sock = socket.socket()
            sock.setblocking(False)
            sock.connect_ex(listener.getsockname())
            waiting.append(sock)
        time.sleep(0.2)
        done = control("--seconds", "1", addr, "undo")
        checks.equal("a full queue", (done.out, done.err, done.status), (b"", NO_REPLY.format(addr).encode(), 3))
        for sock in waiting:
            sock.close()
    for seconds in ("0", "86401", "x"):
        done = control("--seconds", seconds, "127.0.0.1@1", "undo")
        checks.equal(f"--seconds {seconds}", (done.out, done.status, b"--seconds" in done.err.split(b"\n")[0]), (b"", 2, True))
    done = control("127.0.0.1@1", "--seconds", "1", "undo")
    checks.equal("--seconds behind the address", (done.err, done.status), (b"resolver: no service at 127.0.0.1@1\n", 1))


def main():
    checks = Checks()
    with ThreadPoolExecutor(1) as pool:
        alone = pool.submit(think_alone)
        checks.make(check_strangers)
        for kind in ("ten idle", "two hundred idle", "ten that drip", "one behind its line", "one that does not read"):
            checks.make(check_held, kind)
        for kind in TALKERS:
            checks.make(check_talker, kind)
        checks.make(check_begun_line)
        checks.make(check_operators_at_once)
        checks.make(check_one_connection)
        checks.make(check_typed)
        checks.make(check_seconds)
        nothing = "error nothing_to_undo"
        checks.equal("an operator alone", alone.result(), ([nothing, nothing, "ok stopping"], (0, b"")))
    checks.end()


main()
