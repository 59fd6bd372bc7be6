"""A minute of questions, commands and undos at once, each reply checked against the script program.

The service does not show the number of a call, so the order of all calls is not known here. What is known is who waited for whom:

- An operator sends commands one after another, and asks about a zone about which nobody else asks. Each line waits for the reply
  to the one before. A script gets the same lines in the same order, and the data that the name servers then sent. Every reply must
  be that of the script. The name servers of that zone must have been asked exactly if the script had nothing cached.
- Meanwhile clients ask about names that the commands block and answer. A client's reply must be that of the script after some
  command. That command was sent before the reply came, and no later command was acknowledged before the question was sent. These
  places must not go back: if the first of two questions was answered before the second was sent, the place of the second is not
  before that of the first.

So each name's replies could be in one order with the commands. That the cache had its data in that order is checked for the
operator's own zone.
"""

import itertools
import random
import re
import socket
import subprocess
import sys
import threading
import time
from bisect import bisect_left
from dataclasses import dataclass

from lib.checks import Checks
from lib.nameserver import NameServers
from lib.programs import RESOLVER
from lib.reading import ZONE_TYPES
from lib.replies import reply_in
from lib.service import STOPPED, Service, query

SECONDS = 60
SEED = 20_261_123
ROOT, OWN, OTHERS, STUB = "127.0.0.1", "127.0.0.2", "127.0.0.3", "127.0.0.4"
# Names about which only the operator asks; the last one is denied. And those about which clients ask; the last two may be dropped,
# so they are asked only over TCP.
OWN_NAMES = [f"s{place}.own." for place in range(5)] + ["n.own."]
NAMES = [f"p{place}.others." for place in range(8)]
DROPPED = NAMES[6:]
SOA = "ns.own. host.own. 1 2 3 4 3600"
# The types of zones that answer something.
TYPES = [kind for kind in ZONE_TYPES if kind != "deny"]


def zones():
    """Each answer of the operator's zone has an address that no other has."""
    fresh = itertools.count(1)

    def own(asked):
        name = asked.question.split()[0]
        place = next(fresh)
        data = f"aa | answer {name} 3600 A 10.0.{place >> 8}.{place & 255}"
        yield asked.response(f"aa rcode 3 | authority own. 3600 SOA {SOA}" if name == "n.own." else data)

    def root(asked):
        zone = asked.question.split()[0].split(".", 1)[1]
        yield asked.response(f"| authority {zone} 3600 NS ns.{zone} | additional ns.{zone} 3600 A {OWN if zone == 'own.' else OTHERS}")

    others = {f"{name} A": f"aa | answer {name} 3600 A 192.0.2.{place}" for place, name in enumerate(NAMES)}
    return {ROOT: {"*": root}, OWN: {"*": own}, STUB: {"*": own}, OTHERS: others}


class Script:
    """The script program, line by line."""

    def __init__(self, *arguments):
        self.process = subprocess.Popen([RESOLVER, "script", *arguments], stdin=subprocess.PIPE, stdout=subprocess.PIPE, env={})

    def tell(self, line):
        self.process.stdin.write(line.encode() + b"\n")
        self.process.stdin.flush()
        told = [self._line()]
        while line.startswith("list_") and told[-1] != "end":
            told.append(self._line())
        return " / ".join(told)

    def _line(self):
        return self.process.stdout.readline().decode().rstrip("\n")

    def end(self):
        self.process.stdin.close()
        self.process.stdout.close()
        return self.process.wait()


def without_left(told):
    return re.sub(r"^(found \d|nodata|noname) \d+", r"\1", told)


def meant(told, name):
    """The reply over the wire for a lookup's reply; None if name servers would be asked."""
    word, *rest = told.split()
    fixed = {"local nodata": "aa", "local noname": "aa rcode 3", "local refuse": "aa rcode 5", "local drop": "drop"}
    if told in fixed or word == "unknown":
        return fixed.get(told)
    if word == "noname":
        return f"rcode 3 | authority own. SOA {SOA}"
    head, rest = ("aa", rest[3:]) if word == "local" else ("-", rest[4:])
    time_left = f"{told.split()[1]} " if word == "local" else ""
    return " | ".join([head, *(f"answer {name} {time_left}A {data}" for data in " ".join(rest).split(" | "))])


def shown(reply):
    """A reply in the same words. A local one has its TTL."""
    return reply.with_times() if reply.head()[:1] == ["aa"] else reply.words()


def ask_or_drop(service, name):
    """The reply to a question over a connection of its own, or `drop` if there is none. The client sends no more, so the service ends the
    connection once it has sent what it owes."""
    with service.client("tcp") as client:
        client.send(query(name, "A", 1))
        client.sock.shutdown(socket.SHUT_WR)
        octets = client.octets()
        return "drop" if octets is None else shown(reply_in(octets))


@dataclass
class Told:
    """A reply to a client, between two ticks."""

    name: str
    words: str
    began: int
    ended: int


class Client(threading.Thread):
    """Asks one question after another until the load ends, and notes each reply."""

    def __init__(self, service, over, seed, clock, ending):
        super().__init__(daemon=True)
        self.service, self.over, self.clock, self.ending = service, over, clock, ending
        self.random = random.Random(seed)
        self.told, self.fault = [], None

    def run(self):
        try:
            while not self.ending.is_set():
                with self.service.client(self.over) as client:
                    for _ in range(20):
                        self._ask(client)
                        self.ending.wait(0.02)
        except Exception as fault:  # becomes a check that failed
            self.fault = f"{type(fault).__name__}: {fault}"

    def _ask(self, client):
        name = self.random.choice(NAMES if self.over == "tcp" else [name for name in NAMES if name not in DROPPED])
        began = next(self.clock)
        words = ask_or_drop(self.service, name) if name in DROPPED else shown(client.ask(name, "A"))
        self.told.append(Told(name, words, began, next(self.clock)))


class Operator:
    """Sends random commands and questions to the service and to the script."""

    def __init__(self, checks, service, servers, clock):
        self.checks, self.service, self.servers, self.clock = checks, service, servers, clock
        self.random = random.Random(SEED)
        self.script = Script("--journal", "16", "--server-port", str(servers.port), f"{ROOT}@{servers.port}")
        self.control = service.control()
        self.given = []  # the ticks before and after each command, and the answer for each name after it
        self.questions = 0
        # A command that changes nothing: its answers are those before all others.
        self.obey("flush nobody.")

    def obey(self, line):
        """A line, to both."""
        began = next(self.clock)
        told = self.control.tell(line)
        ended = next(self.clock)
        wanted = self.script.tell(line)
        if without_left(told) != without_left(wanted):
            self.checks.equal(f"line {len(self.given)}, {line}", told, wanted)
        self.given.append((began, ended, self._answers()))

    def _answers(self):
        """The answer for each name of the clients now."""
        wanted = {}
        for place, name in enumerate(NAMES):
            wanted[name] = meant(self.script.tell(f"look {name} A"), name) or f"- | answer {name} A 192.0.2.{place}"
        return wanted

    def ask(self, name):
        """A question about the operator's zone. If the script has nothing cached, name servers have to be asked, and it gets what they sent."""
        before = len(self.own_asked())
        words = self._reply(name)
        asked = self.own_asked()[before:]
        wanted = meant(self.script.tell(f"look {name} A"), name)
        route = []
        if wanted is None:
            route = self._route(name)
            wanted = self._learnt(name, words)
        self.questions += 1
        if (words, asked) != (wanted, route):
            self.checks.equal(f"question {self.questions} of {name} after line {len(self.given)}", (words, asked), (wanted, route))

    def own_asked(self):
        """The servers that were asked about the operator's zone so far."""
        return [server for server, _, question in list(self.servers.asked) if question.endswith("own. A")]

    def _reply(self, name):
        over = self.random.choice(["udp", "tcp"])
        if over == "tcp" or self.script.tell(f"look {name} A") == "local drop":
            return ask_or_drop(self.service, name)
        return shown(self.service.ask(name, "A"))

    def _route(self, name):
        """The servers that have to be asked. The script gets the root's referral."""
        _, zone, source, addr = self.script.tell(f"servers {name}").split()
        if source != "hints":
            return [addr.split("@")[0]]
        self.script.tell("admit 1 own. 3600 NS ns.own.")
        self.script.tell(f"admit 1 ns.own. 3600 A {OWN}")
        return [ROOT, OWN]

    def _learnt(self, name, words):
        """Gives the script the data of a server of the zone, which the reply shows."""
        if name == "n.own.":
            self.script.tell(f"noname {name} 3600 own. {SOA}")
            return f"rcode 3 | authority own. SOA {SOA}"
        address = words.rpartition(" ")[2]
        self.script.tell(f"admit 4 {name} 3600 A {address}")
        return f"- | answer {name} A {address}"

    def drawn(self):
        """A line, or a question."""
        draw = self.random
        own, other = draw.choice(OWN_NAMES), draw.choice(NAMES)
        name = draw.choice([own, other, other, other, "own.", "others."])
        types = TYPES + ["deny"] if name in DROPPED or name in OWN_NAMES else TYPES
        port = self.servers.port
        lines = {
            f"?{own}": 30,
            "undo": 22,
            "redo": 10,
            f"local_zone {name} {draw.choice(types)}": 12,
            f"local_zone_remove {name}": 4,
            f"local_data {name} {draw.choice([30, 60])} A 192.0.2.{draw.randrange(100, 110)}": 10,
            f"local_data_remove {name}": 3,
            f"stub_add own. {STUB}@{port}": 2,
            "stub_remove own.": 2,
            f"flush {own}": 4,
            f"flush_type {own} A": 4,
            f"flush_zone {draw.choice(['own.', 'own.', '.'])}": 3,
            f"look {own} A": 4,
            f"servers {own}": 3,
            draw.choice(["list_commands", "list_local_zones", "list_local_data", "list_stubs", "sweep", "frob"]): 6,
        }
        return draw.choices(list(lines), list(lines.values()))[0]

    def go_on(self):
        """One line or question more."""
        line = self.drawn()
        if line.startswith("?"):
            self.ask(line[1:])
        else:
            self.obey(line)

    def end(self):
        self.control.__exit__()
        return self.script.end()


def misplaced(given, told):
    """The first reply that has no place between the commands, or None. Each gets the earliest place that is left."""
    begun, ended = [began for began, _, _ in given], [end for _, end, _ in given]
    settled = []  # the ticks at which earlier replies ended, each with the latest place so far
    for one in sorted(told, key=lambda one: one.began):
        first = max([bisect_left(ended, one.began) - 1, *(place for end, place in settled if end < one.began)])
        answers = [given[at][2][one.name] for at in range(first, bisect_left(begun, one.ended))]
        if one.words not in answers:
            return f"{one} has no place behind line {first}, where the script answers {answers}"
        place = first + answers.index(one.words)
        settled.append((one.ended, place))
        settled = pruned(settled, one.began)
    return None


def pruned(settled, now):
    """Of the replies that ended before now, only the latest place matters to those that begin later."""
    past = [place for end, place in settled if end < now]
    return ([(0, max(past))] if past else []) + [pair for pair in settled if pair[0] >= now]


def main():
    checks = Checks()
    seconds = int(sys.argv[1]) if sys.argv[1:] else SECONDS
    clock, ending = itertools.count(1), threading.Event()
    with NameServers(zones()) as servers:
        hint = f"{ROOT}@{servers.port}"
        options = ["--server-port", str(servers.port), "--udp", "2", "--tcp", "4", "--journal", "16", "--record", "1000"]
        with Service([hint], *options) as service:
            operator = Operator(checks, service, servers, clock)
            clients = [Client(service, over, seed, clock, ending) for seed, over in enumerate(["udp", "udp", "tcp", "tcp"])]
            for client in clients:
                client.start()
            end = time.monotonic() + seconds
            while time.monotonic() < end and not checks.failed:
                operator.go_on()
            ending.set()
            for client in clients:
                client.join()
                checks.check(f"a client over {client.over}", client.fault)
            checks.equal("the script's end", operator.end(), 0)
            checks.equal("stopped", service.stop(), STOPPED)
            told = [one for client in clients for one in client.told]
            checks.check("the replies to clients, between the commands", misplaced(operator.given, told))
            print(f"{len(operator.given)} lines, {operator.questions} questions of the operator, {len(told)} of clients")
            is_enough = len(operator.given) > 100 and operator.questions > 30 and len(told) > 300
            checks.check("that enough was asked", None if is_enough else "too little")
    checks.end()


main()
