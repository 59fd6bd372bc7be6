"""The behaviours of name servers: to reply at once or never, and every way of lying."""

import random
import re
import socket
import time

from lib.crowds import END
from lib.nameserver import Piece, framed

SEED = 17
# The seconds after which an exchange ends.
EXCHANGE = 2


def address(name):
    """The address of a name here, from the number in the name."""
    number = int(re.search(r"\d+", name).group())
    return f"10.{number >> 16}.{number >> 8 & 255}.{number & 255}"


def right(asked):
    name = asked.question.split()[0]
    return asked.response(f"aa | answer {name} 60 A {address(name)}")


def answered(name):
    return f"- | answer {name} A {address(name)}"


def count_answered(crowd):
    """The number of a crowd's names that got their addresses."""
    return sum(words == answered(name) for name, words in zip(crowd.names, crowd.words()))


def at_once(asked):
    yield 0, right(asked)


def never(asked):
    return ()


class Lies:
    """The behaviour of a server for a question: the method of the word before the number in its name."""

    def __init__(self):
        self.random = random.Random(SEED)
        self.waiting = None
        self.stray = socket.socket(socket.AF_INET, socket.SOCK_DGRAM)

    def __call__(self, asked):
        return getattr(self, re.match(r"[a-z_]+", asked.question).group())(asked)

    def other_id(self, asked):
        octets = right(asked)
        return bytes([octets[0] ^ 1]) + octets[1:]

    def other_question(self, asked):
        return asked.response("aa asks other1.test. A | answer other1.test. 60 A 192.0.2.66")

    def junk(self):
        return self.random.randbytes(self.random.randrange(100))

    def right(self, asked):
        yield self.random.random(), right(asked)

    def thrice(self, asked):
        for _ in range(3):
            yield 0.1, right(asked)

    def id_first(self, asked):
        yield 0, self.other_id(asked)
        yield 0.1, right(asked)

    def question_first(self, asked):
        yield 0, self.other_question(asked)
        yield 0.1, right(asked)

    def junk_first(self, asked):
        yield 0, self.junk()
        yield 0.1, right(asked)

    def junk_twice(self, asked):
        for _ in range(2):
            yield 0, self.junk()
        yield 0.1, right(asked)

    def flooded(self, asked):
        for _ in range(100):
            yield 0, self.junk()
        yield 0, right(asked)

    def swapped(self, asked):
        """Of two questions each first gets the reply to the other."""
        if self.waiting is None:
            self.waiting = asked
            return
        first, self.waiting = self.waiting, None
        now = time.monotonic()
        asked.servers.send_at(now, first.send, right(asked))
        asked.servers.send_at(now + 0.1, first.send, right(first))
        yield 0, right(first)
        yield 0.1, right(asked)

    def id_alone(self, asked):
        yield 0, self.other_id(asked)

    def question_alone(self, asked):
        yield 0, self.other_question(asked)

    def junk_on(self, asked):
        for tenth in range(30):
            yield tenth / 10, self.junk()

    def dead(self, asked):
        return never(asked)

    def refuses(self, asked):
        yield 0, asked.response("rcode 5")

    def echoes(self, asked):
        yield 0, asked.query

    def from_elsewhere(self, asked):
        """The right reply, from a port that was not asked."""
        asked.servers.send_at(0, lambda octets: self.stray.sendto(octets, asked.peer), right(asked))
        return ()

    def as_it_ends(self, asked):
        """A reply at about the time at which the exchange ends."""
        yield self.random.uniform(EXCHANGE - 0.1, EXCHANGE + 0.1), right(asked)

    def cut(self, asked, *over_tcp):
        yield from [(0, asked.response("aa tc"))] if asked.over == "udp" else over_tcp

    def cut_right(self, asked):
        return self.cut(asked, (0.1, right(asked)))

    def cut_drips(self, asked):
        octets = framed(right(asked))
        return self.cut(asked, *((place / 100, Piece([octet])) for place, octet in enumerate(octets)))

    def cut_slow(self, asked):
        """A reply octet by octet: each comes in time, and the whole far too late."""
        octets = framed(right(asked))
        return self.cut(asked, *((place / 5, Piece([octet])) for place, octet in enumerate(octets)))

    def cut_right_ends(self, asked):
        return self.cut(asked, (0, right(asked)), (0, END))

    def cut_twice(self, asked):
        return self.cut(asked, (0, asked.response("aa tc")))

    def cut_other_id(self, asked):
        return self.cut(asked, (0, self.other_id(asked)))

    def cut_breaks(self, asked):
        return self.cut(asked, (0, Piece(framed(right(asked))[:20])), (0.1, END))

    def cut_ends(self, asked):
        return self.cut(asked, (0, END))

    def cut_silent(self, asked):
        return self.cut(asked)

    def cut_long(self, asked):
        return self.cut(asked, (0, Piece(b"\xff\xff" + right(asked))))

    def cut_more(self, asked):
        """A message with more octets after it."""
        return self.cut(asked, (0, Piece(2 * framed(right(asked)))))


RIGHT = "right thrice id_first question_first junk_first swapped cut_right cut_drips cut_more cut_right_ends".split()
# An exchange over UDP ends after two datagrams that are no reply to its query.
WRONG = "id_alone question_alone junk_twice flooded junk_on dead refuses echoes from_elsewhere".split()
WRONG += "cut_twice cut_other_id cut_breaks cut_ends cut_silent cut_long cut_slow".split()
# These are wrong, but replies to the query, so their exchanges do not fail.
REPLIED = "refuses cut_twice".split()
