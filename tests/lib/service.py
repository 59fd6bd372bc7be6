"""Starts `resolver serve` on loopback, at free ports, and sends it queries and lines."""

import os
import random
import re
import resource
import select
import socket
import subprocess
import tempfile
import time

from lib.messages import number, question_octets
from lib.nameserver import PATIENCE, bound_at, framed, receive, PORTS
from lib.programs import RESOLVER, library
from lib.replies import reply_in

HOST = "127.0.0.1"
CANNOT_LISTEN = b"resolver: cannot listen on "
IN_USE = b"\nresolver: Address already in use (os error 98)\n"

# The seconds after which a line of the log has been written, on a busy machine too.
LOG_SECONDS = 0.25

# A service has all its exchanges only if it may have so many descriptors. This process may, and so what it starts, as far as the system
# allows it.
DESCRIPTORS = 8_192
SOFT, HARD = resource.getrlimit(resource.RLIMIT_NOFILE)
resource.setrlimit(resource.RLIMIT_NOFILE, (max(SOFT, min(HARD, DESCRIPTORS)), HARD))


def free_port(host=HOST):
    """A port that is free over UDP and TCP."""
    for port in random.sample(PORTS, 1_000):
        sockets = bound_at([host], port)
        if sockets is not None:
            for sock, _ in sockets:
                sock.close()
            return port
    raise OSError("no port is free")


def query(name, kind, identifier=None):
    """A query in octets, with RD."""
    identifier = random.randrange(0x10000) if identifier is None else identifier
    return number(identifier) + number(0x0100) + number(1) + bytes(6) + question_octets(name, kind)


def disturbed(**settings):
    """The environment in which calls of sockets are interrupted or move little; tests/lib/sockets.c says how."""
    return {"LD_PRELOAD": library("sockets"), "TELL": "2", **{name: str(value) for name, value in settings.items()}}


class Client:
    """A client of the service, over one socket."""

    def __init__(self, over, port, host=HOST, room=None, segment=None, source=None):
        """If they are given, the socket has `room` for so many octets that are not read yet, TCP carries at most `segment` octets in a
        piece, and the client has the address `source`."""
        self.over = over
        kind = socket.SOCK_DGRAM if over == "udp" else socket.SOCK_STREAM
        self.sock = socket.socket(socket.AF_INET6 if ":" in host else socket.AF_INET, kind)
        self.sock.settimeout(PATIENCE)
        if room:
            self.sock.setsockopt(socket.SOL_SOCKET, socket.SO_RCVBUF, room)
        if segment:
            self.sock.setsockopt(socket.IPPROTO_TCP, socket.TCP_MAXSEG, segment)
        try:
            if source:
                self.sock.bind((source, 0))
            self.sock.connect((host, port))
        except OSError:
            self.sock.close()
            raise

    def __enter__(self):
        return self

    def __exit__(self, *_):
        self.sock.close()

    def send(self, octets):
        if self.over == "udp":
            self.sock.send(octets)
        else:
            self.sock.sendall(framed(octets))

    def octets(self):
        """The next reply as octets, or None if the service has closed the connection."""
        if self.over == "udp":
            return self.sock.recv(65_535)
        length = receive(self.sock, 2)
        return length and receive(self.sock, int.from_bytes(length, "big"))

    def has_reply(self, seconds=0):
        """Whether a reply, or the end of the connection, has come or comes within some seconds."""
        return bool(select.select([self.sock], [], [], seconds)[0])

    def ask(self, name, kind):
        """The reply to a question. Its identifier and its question have to be those of the query."""
        asked = query(name, kind)
        self.send(asked)
        octets = self.octets()
        if octets is None:
            raise EOFError("the service ended the connection")
        if octets[:2] != asked[:2] or octets[12 : len(asked)] != asked[12:]:
            raise ValueError(f"{octets.hex()} is no reply to {asked.hex()}")
        return reply_in(octets)

    def ended(self):
        """Whether the service closes the connection before it sends more."""
        try:
            return self.sock.recv(1) == b""
        except ConnectionError:
            return True


class Control:
    """An operator's connection."""

    def __init__(self, port, host=HOST):
        self.sock = socket.create_connection((host, port), timeout=PATIENCE)
        self.file = self.sock.makefile("rb")

    def __enter__(self):
        return self

    def __exit__(self, *_):
        self.file.close()
        self.sock.close()

    def tell(self, line):
        """The reply to a line, without its end; lists have their lines joined by ` / `."""
        self.sock.sendall(line.encode() + b"\n")
        told = [self.line()]
        has_end = line.startswith(("list_", "stat"))
        while has_end and told[-1] != "end" and not told[-1].startswith(("error", "fault")):
            told.append(self.line())
        return " / ".join(told)

    def line(self):
        line = self.file.readline()
        if not line.endswith(b"\n"):
            raise EOFError(f"control ended with {line!r}")
        return line[:-1].decode()


class NotReady(RuntimeError):
    """A service ended before it was ready, with this status and these octets on standard error."""

    def __init__(self, status, told):
        super().__init__(f"the service is not ready: status {status}, {told!r}")
        self.status, self.told = status, told


class Service:
    """A service that is ready, until it is stopped. At the end of a `with` it is killed if it still runs."""

    def __init__(
        self, hints, *options, host=HOST, listens=None, environment=None, most_descriptors=None, program=RESOLVER, prefix=(), ports=None,
        errors=None,
    ):
        """It gets queries and lines at `host`, and listens there, or at `listens`; its two ports are given, or free ones. In the options
        `{port}` is the port of queries. A prefix is a command that starts it. Its standard error is a file of its own, or `errors`."""
        self.host, self.listens = host, listens or host
        self.command = [*prefix, program, "serve"]
        if most_descriptors:
            self.command = ["prlimit", f"--nofile={most_descriptors}", *self.command]
        for _ in range(20):
            self.port, self.control_port = ports or (free_port(host), free_port(host))
            self.errors = errors or tempfile.TemporaryFile()
            self._start([*(word.format(port=self.port) for word in options), *hints], environment or {})
            if self._is_ready():
                return
            self._end()
            told = self.log()
            self.errors.close()
            if CANNOT_LISTEN not in told:
                break
        raise NotReady(self.process.returncode, told)

    def _start(self, arguments, environment):
        places = ["--listen", f"{self.listens}@{self.port}", "--control", f"{self.host}@{self.control_port}"]
        self.process = subprocess.Popen(
            self.command + places + arguments, stdin=subprocess.DEVNULL, stdout=subprocess.PIPE, stderr=self.errors, env=environment,
        )

    def _is_ready(self):
        """Whether it says that it is ready, before it ends. If it does neither, it is killed."""
        came, _, _ = select.select([self.process.stdout], [], [], PATIENCE)
        line = self.process.stdout.readline() if came else None
        if line == b"":
            self.process.wait(PATIENCE)
        return line == b"ready\n"

    def _end(self):
        if self.process.poll() is None:
            self.process.kill()
        self.process.wait(PATIENCE)
        self.process.stdout.close()

    def __enter__(self):
        return self

    def __exit__(self, *_):
        self._end()
        self.errors.close()

    def client(self, over="udp", **settings):
        return Client(over, self.port, self.host, **settings)

    def control(self):
        return Control(self.control_port, self.host)

    def ask(self, name, kind="A", over="udp"):
        """The reply to one question over a socket of its own."""
        with self.client(over) as client:
            return client.ask(name, kind)

    def obey(self, *lines):
        """The replies to the lines, over a connection of their own."""
        with self.control() as control:
            return [control.tell(line) for line in lines]

    def figures(self):
        """The reply to `stats`, as numbers by name."""
        *lines, end = self.obey("stats")[0].split(" / ")
        if end != "end":
            raise ValueError(f"the reply to stats ends with {end!r}")
        return {name: int(value) for name, _, value in (line.partition("=") for line in lines)}

    def log(self):
        """The text on standard error so far. A thread of the service writes a line some fifty milliseconds after it came."""
        if self.process.poll() is None:
            time.sleep(LOG_SECONDS)
        size = os.fstat(self.errors.fileno()).st_size
        return os.pread(self.errors.fileno(), size, 0)

    def disturbances(self):
        """How often calls of a `disturbed` service were interrupted or moved little, by kind, once it has ended."""
        return {did.decode(): int(count) for did, count in re.findall(rb"(interrupted|cut|held) (\d+)", self.log())}

    def logged(self, words, count=1):
        """Waits until a number of lines on standard error have the words. Returns whether they came."""
        return until(lambda: sum(words in line for line in self.log().splitlines()) >= count)

    def times(self, words):
        """How often a text with these words was logged, whether it was written or counted. Those that are counted are known once the
        service has ended, or ten seconds after the text was written."""
        lines = [line for line in self.log().splitlines() if words in line]
        return sum(int(more[1]) if (more := MORE.search(line)) else 1 for line in lines)

    def wait(self):
        """The end of a service that ends by itself: the status, and its standard output after `ready`."""
        status = self.process.wait(PATIENCE)
        return status, self.process.stdout.read()

    def stop(self):
        """Stops it by control. Returns the reply to `stop`, and its end."""
        return self.obey("stop")[0], *self.wait()

    def threads(self):
        return len(os.listdir(f"/proc/{self.process.pid}/task"))

    def processor(self):
        """The seconds of a processor that it has used."""
        with open(f"/proc/{self.process.pid}/stat", encoding="ascii") as file:
            fields = file.read().rpartition(")")[2].split()
        return (int(fields[11]) + int(fields[12])) / os.sysconf("SC_CLK_TCK")

    def descriptors(self):
        return len(os.listdir(f"/proc/{self.process.pid}/fd"))

    def first_free(self):
        """The descriptor that it would get next."""
        used = {int(name) for name in os.listdir(f"/proc/{self.process.pid}/fd")}
        return next(place for place in range(len(used) + 1) if place not in used)

    def limit(self, most):
        """Limits its descriptors to those below this one."""
        _, hard = resource.prlimit(self.process.pid, resource.RLIMIT_NOFILE)
        resource.prlimit(self.process.pid, resource.RLIMIT_NOFILE, (most, hard))

    def idle_descriptors(self):
        """The number of its descriptors, once it has not changed for a while."""
        found, since = self.descriptors(), time.monotonic()
        while time.monotonic() < since + 0.3:
            time.sleep(0.02)
            if self.descriptors() != found:
                found, since = self.descriptors(), time.monotonic()
        return found


STOPPED = ("ok stopping", 0, b"")

# The part of a line of the log that says how often its text came again.
MORE = re.compile(rb", (\d+) more in 10 s, at ")

# The time at the end of a line of the log.
TIME = re.compile(rb", at (\d{4}-\d\d-\d\dT\d\d:\d\d:\d\dZ)$")


def until(holds):
    """Whether a condition becomes true in time."""
    end = time.monotonic() + PATIENCE
    while not holds():
        if time.monotonic() > end:
            return False
        time.sleep(0.02)
    return True
