"""Very many questions at once: a name server that answers each in its own time, and clients that have many in flight."""

import contextlib
import heapq
import itertools
import os
import selectors
import socket
import threading
import time
from functools import partial

from lib.messages import question_of
from lib.nameserver import PATIENCE, Asked, bound_together, framed
from lib.replies import reply_in
from lib.service import HOST, query, until

# Ends a TCP connection, in place of octets.
END = object()

# The datagrams for which any UDP socket has room, if nobody enlarged its receive buffer.
SLICE = 200


class LateServer:
    """Name servers at some addresses, over UDP and TCP, in one thread.

    Their behaviour is a function of the question, an `Asked`. It yields pairs: the seconds since the question came, and the octets
    that are then sent, or `END`.
    """

    def __init__(self, does, addresses=(HOST,), has_tcp=True):
        """Without TCP their ports refuse connections."""
        self.does = does
        self.asked = []
        self.closing = threading.Event()
        self._changed = threading.Condition()
        self._selector = selectors.DefaultSelector()
        self._due, self._serial = [], itertools.count()
        self._sockets, self.port = bound_together(addresses)
        for sock, address in self._sockets:
            sock.setblocking(False)
            if sock.type == socket.SOCK_DGRAM:
                self._selector.register(sock, selectors.EVENT_READ, partial(self._take, address))
            elif has_tcp:
                sock.listen(1_024)
                self._selector.register(sock, selectors.EVENT_READ, partial(self._accept, address))
        self._thread = threading.Thread(target=self._serve, daemon=True)
        self._thread.start()

    def __enter__(self):
        return self

    def __exit__(self, *_):
        self.closing.set()
        self._thread.join(PATIENCE)
        for key in list(self._selector.get_map().values()):
            key.fileobj.close()
        for sock, _ in self._sockets:
            sock.close()
        self._selector.close()

    @property
    def hint(self):
        return f"{self._sockets[0][1]}@{self.port}"

    def count(self, over):
        with self._changed:
            return sum(way == over for way, _ in self.asked)

    def wait_for(self, count):
        """Waits until a number of questions came. Returns whether they did."""
        with self._changed:
            return self._changed.wait_for(lambda: len(self.asked) >= count, PATIENCE)

    def send_at(self, moment, send, octets):
        heapq.heappush(self._due, (moment, next(self._serial), send, octets))

    def _serve(self):
        while not self.closing.is_set():
            wait = min(0.1, max(0, self._due[0][0] - time.monotonic())) if self._due else 0.1
            for key, _ in self._selector.select(wait):
                key.data(key.fileobj)
            while self._due and self._due[0][0] <= time.monotonic():
                _, _, send, octets = heapq.heappop(self._due)
                try:
                    send(octets)
                except OSError:
                    pass  # the client has gone

    def _do(self, address, over, octets, send, peer=None):
        """Notes a question, and what is to be sent and when. It gets the function that sends, and over UDP the address."""
        now = time.monotonic()
        asked = Asked(self, address, over, octets, question_of(octets))
        asked.send, asked.peer = send, peer
        with self._changed:
            self.asked.append((over, asked.question))
            self._changed.notify_all()
        for seconds, item in self.does(asked):
            self.send_at(now + seconds, send, item)

    def _take(self, address, sock):
        for _ in range(SLICE):
            try:
                octets, peer = sock.recvfrom(65_535)
            except OSError:
                return
            self._do(address, "udp", octets, lambda octets, peer=peer: sock.sendto(octets, peer), peer)

    def _accept(self, address, sock):
        try:
            connection, _ = sock.accept()
        except OSError:
            return
        connection.setblocking(False)
        connection.setsockopt(socket.IPPROTO_TCP, socket.TCP_NODELAY, 1)
        # Room for a message of any length: a send that would wait is lost.
        connection.setsockopt(socket.SOL_SOCKET, socket.SO_SNDBUF, 1 << 17)
        came = bytearray()
        self._selector.register(connection, selectors.EVENT_READ, partial(self._follow, address, came))

    def _follow(self, address, came, connection):
        try:
            octets = connection.recv(65_535)
        except BlockingIOError:
            return
        except OSError:
            octets = b""
        came += octets
        while len(came) >= 2 and len(came) >= 2 + int.from_bytes(came[:2], "big"):
            end = 2 + int.from_bytes(came[:2], "big")
            message = bytes(came[2:end])
            del came[:end]
            self._do(address, "tcp", message, lambda item: self._send(connection, item))
        if not octets:
            self._end(connection)

    def _send(self, connection, item):
        if item is END:
            self._end(connection)
        else:
            connection.sendall(framed(item))

    def _end(self, connection):
        if connection.fileno() >= 0:
            self._selector.unregister(connection)
            connection.close()


class Crowd:
    """Clients of a service over UDP, who ask for the addresses of names. The identifier of a query is the place of its name."""

    def __init__(self, service, count=8):
        self.service = service
        self.clients = [service.client() for _ in range(count)]
        self.names = []
        self.replies = {}
        self._selector = selectors.DefaultSelector()
        for client in self.clients:
            client.sock.setblocking(False)
            self._selector.register(client.sock, selectors.EVENT_READ)

    def __enter__(self):
        return self

    def __exit__(self, *_):
        self._selector.close()
        for client in self.clients:
            client.sock.close()

    def send(self, name):
        """Sends a query for a name."""
        place = len(self.names)
        self.names.append(name)
        self.clients[place % len(self.clients)].send(query(name, "A", place))

    def send_all(self, names):
        """Sends a query for each name, no faster than the service receives them."""
        for name in names:
            self.send(name)
            if len(self.names) % SLICE == 0:
                until(lambda: waiting_at(self.service.port) == 0)

    def ask(self, names, most):
        """Asks for each of the names, with a number of them in flight, until each has a reply or time is up."""
        left = iter(list(names))
        end = time.monotonic() + PATIENCE
        while time.monotonic() < end:
            free = max(0, most - (len(self.names) - len(self.replies)))
            self.send_all(itertools.islice(left, free))
            if len(self.replies) == len(self.names):
                return
            self.take(0.1)

    def wait(self):
        """Receives replies until each name has one or time is up."""
        end = time.monotonic() + PATIENCE
        while len(self.replies) < len(self.names) and time.monotonic() < end:
            self.take(0.1)

    def take(self, seconds=0):
        """Receives the replies that are there, after some seconds of waiting for the first. Returns how many came."""
        ready = self._selector.select(seconds)
        return sum(self._take_all(key.fileobj) for key, _ in ready)

    def _take_all(self, sock):
        for taken in itertools.count():
            try:
                octets = sock.recv(65_535)
            except OSError:
                return taken
            self.replies.setdefault(int.from_bytes(octets[:2], "big"), []).append(octets)

    def once_each(self):
        """What is wrong, if each name has to have one reply, to its own question."""
        lost = [name for place, name in enumerate(self.names) if place not in self.replies]
        again = [self.names[place] for place, replies in self.replies.items() if len(replies) > 1]
        wrong = [replies[0].hex() for place, replies in self.replies.items() if not self._is_of(place, replies[0])]
        faults = [("no reply", lost), ("more than one", again), ("another's", wrong)]
        told = [f"{what}: {len(names)}, as {names[0]}" for what, names in faults if names]
        return "; ".join(told) or None

    def _is_of(self, place, octets):
        asked = query(self.names[place], "A", place)
        return place < len(self.names) and octets[:2] == asked[:2] and octets[12 : len(asked)] in (asked[12:], b"")

    def words(self):
        """The words of each reply, in the order of the names."""
        return [words_in(self.replies[place][0]) if place in self.replies else None for place in range(len(self.names))]


@contextlib.contextmanager
def flooded(floods, *arguments):
    """A flood beside a block: `floods` gets its arguments and an event, and returns when that is set, at the block's end."""
    ended = threading.Event()
    thread = threading.Thread(target=floods, args=(*arguments, ended))
    thread.start()
    try:
        yield
    finally:
        ended.set()
        thread.join()


def words_in(octets):
    """The words of a reply. If it is a header alone, as from a service without memory or room, those of its fault."""
    return f"rcode {octets[3] & 15}" if octets[4:] == bytes(8) else reply_in(octets).words()


def waiting_at(port):
    """The octets that wait to be received at a UDP port."""
    rows = []
    for path in filter(os.path.exists, ("/proc/net/udp", "/proc/net/udp6")):
        with open(path, encoding="ascii") as file:
            rows += [line.split() for line in file.readlines()[1:]]
    return sum(int(row[4].split(":")[1], 16) for row in rows if int(row[1].split(":")[1], 16) == port)
