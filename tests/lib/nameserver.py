"""Name servers on loopback that behave as a test says: each at an address of its own, all at one port, over UDP and TCP.

The zone of a server is a dictionary from `NAME TYPE` (or `*`, for every other question) to its behaviour:

- a text, the response in the words of tests/lib/messages.py;
- None: it stays silent;
- a function of the question (`Asked`), which yields one response after another as octets, and may wait between them. Over TCP
  a `Piece` is sent as it is, without a length before it.
"""

import random
import selectors
import socket
import threading
from dataclasses import dataclass

from lib.messages import question_of, response

# Ports that no system gives to a socket by itself, so that only another test can be in the way.
PORTS = range(20_000, 32_000)

# The seconds for which a test waits; what it waits for comes in far fewer.
PATIENCE = 60

REFUSED = "rcode 5"


class Closed(Exception):
    """The servers are closing."""


class Piece(bytes):
    """Octets for a TCP connection that are no whole message."""


@dataclass
class Asked:
    """A question that came to a server."""

    servers: "NameServers"
    server: str
    over: str
    query: bytes
    question: str

    def response(self, text):
        """The response in words. Its identifier is that of the query, unless the words change it."""
        octets = response(self.question, text)
        identifier = int.from_bytes(octets[:2], "big") ^ int.from_bytes(self.query[:2], "big")
        return identifier.to_bytes(2, "big") + octets[2:]

    def pause(self, seconds):
        if self.servers.closing.wait(seconds):
            raise Closed

    def wait(self, gate):
        """Waits until a gate, an event, is open."""
        while not gate.wait(0.05):
            if self.servers.closing.is_set():
                raise Closed


def framed(octets):
    return octets if isinstance(octets, Piece) else len(octets).to_bytes(2, "big") + octets


def receive(connection, count):
    """A number of octets, or None if the connection ends before."""
    octets = b""
    while len(octets) < count:
        piece = connection.recv(count - len(octets))
        if not piece:
            return None
        octets += piece
    return octets


def bound(kind, address, port):
    sock = socket.socket(socket.AF_INET6 if ":" in address else socket.AF_INET, kind)
    try:
        if kind == socket.SOCK_STREAM:
            sock.setsockopt(socket.SOL_SOCKET, socket.SO_REUSEADDR, 1)
        else:
            sock.setsockopt(socket.SOL_SOCKET, socket.SO_RCVBUF, 1 << 20)
        sock.bind((address, port))
    except OSError:
        sock.close()
        raise
    return sock


def bound_at(addresses, port):
    """A UDP and a TCP socket at each of the addresses, or None if one of them is in use."""
    made = []
    try:
        for address in addresses:
            for kind in (socket.SOCK_DGRAM, socket.SOCK_STREAM):
                made.append((bound(kind, address, port), address))
    except OSError:
        for sock, _ in made:
            sock.close()
        return None
    return made


def bound_together(addresses):
    """The same at a port that is free at all of them, and that port."""
    for port in random.sample(PORTS, 1_000):
        made = bound_at(addresses, port)
        if made is not None:
            return made, port
    raise OSError("no port is free")


class NameServers:
    """Servers at the addresses of some zones, until they are closed."""

    def __init__(self, zones):
        self.zones = zones
        self.asked = []
        self.closing = threading.Event()
        self._changed = threading.Condition()
        self._connections = set()
        self._sockets, self.port = bound_together(list(zones))
        self._threads = [threading.Thread(target=self._serve, daemon=True)]
        self._threads[0].start()

    def __enter__(self):
        return self

    def __exit__(self, *_):
        self.closing.set()
        self._threads[0].join(PATIENCE)
        with self._changed:
            connections = list(self._connections)
        for connection in connections:
            try:
                connection.shutdown(socket.SHUT_RDWR)
            except OSError:
                pass
        for thread in self._threads[1:]:
            thread.join(PATIENCE)
        for sock, _ in self._sockets:
            sock.close()

    def count(self, question, over=None):
        """How often a question came."""
        with self._changed:
            return sum(q == question and over in (None, o) for _, o, q in self.asked)

    def wait_for(self, question, count=1, over=None):
        """Waits until a question came a number of times. Returns whether it did."""
        with self._changed:
            enough = lambda: sum(q == question and over in (None, o) for _, o, q in self.asked) >= count
            return self._changed.wait_for(enough, PATIENCE)

    def _serve(self):
        """Receives datagrams and accepts connections at every address."""
        with selectors.DefaultSelector() as selector:
            for sock, address in self._sockets:
                if sock.type == socket.SOCK_STREAM:
                    sock.listen(512)
                sock.setblocking(False)
                selector.register(sock, selectors.EVENT_READ, address)
            while not self.closing.is_set():
                for key, _ in selector.select(0.1):
                    self._take(key.fileobj, key.data)

    def _take(self, sock, address):
        try:
            if sock.type == socket.SOCK_STREAM:
                connection, _ = sock.accept()
                connection.settimeout(PATIENCE)
                connection.setsockopt(socket.IPPROTO_TCP, socket.TCP_NODELAY, 1)
                with self._changed:
                    self._connections.add(connection)
                self._start(self._follow, connection, address)
                return
            query, peer = sock.recvfrom(65_535)
        except OSError:
            return
        asked = self._note(address, "udp", query)
        does = self._does(asked)
        if isinstance(does, str):
            self._send(sock, peer, asked.response(does))
        elif does:
            self._start(self._play, sock, peer, asked, does)

    def _start(self, target, *arguments):
        thread = threading.Thread(target=target, args=arguments, daemon=True)
        self._threads = [t for t in self._threads if t.is_alive()] + [thread]
        thread.start()

    def _note(self, address, over, query):
        question = question_of(query)
        with self._changed:
            self.asked.append((address, over, question))
            self._changed.notify_all()
        return Asked(self, address, over, query, question)

    def _does(self, asked):
        zone = self.zones[asked.server]
        return zone.get(asked.question, zone.get("*", REFUSED))

    def _send(self, sock, peer, octets):
        try:
            sock.sendto(octets, peer)
        except OSError:
            pass  # the client has gone

    def _play(self, sock, peer, asked, does):
        try:
            for octets in does(asked):
                self._send(sock, peer, octets)
        except Closed:
            pass

    def _follow(self, connection, address):
        """Answers one message after another of a connection."""
        try:
            with connection:
                while not self.closing.is_set():
                    length = receive(connection, 2)
                    query = length and receive(connection, int.from_bytes(length, "big"))
                    if not query or not self._answer(connection, self._note(address, "tcp", query)):
                        return
        except (OSError, Closed):
            pass
        finally:
            with self._changed:
                self._connections.discard(connection)

    def _answer(self, connection, asked):
        """Sends what is to be sent. Returns whether the connection is still open."""
        does = self._does(asked)
        responses = [asked.response(does)] if isinstance(does, str) else does(asked) if does else []
        is_whole = True
        for octets in responses:
            connection.sendall(framed(octets))
            is_whole = not isinstance(octets, Piece)
        if not does:
            self.closing.wait(PATIENCE)
        return is_whole
