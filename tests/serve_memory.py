"""`resolver serve` while allocations are refused. It goes on, what it replied still holds, it reports want of memory no more often than
an allocation was refused, and `stop` ends it. And a service that is killed leaves nothing behind."""

import itertools
import os
import random
import signal
import subprocess
import tempfile
import threading
import time

from lib.checks import Checks, short
from lib.nameserver import NameServers, framed
from lib.programs import RESOLVER, run
from lib.refusing import LOST, NO_MEMORY, SHOWING, Refusing, Replay
from lib.replies import reply_in
from lib.service import HOST, STOPPED, Service, free_port, query

ROOT, BELOW = "127.0.0.1", "127.0.0.2"
SOA = "ns. host. 1 2 3 4 3600"
SEED = 20_261_126

# A round has fewer allocations than this.
MOST = 2_000

# The answer to a client that got SERVFAIL, or over TCP the end of its connection.
WANT = "no memory"

# `stop` ends a service in a tenth of a second; on a machine that does other things beside, no later than this.
STOP_SECONDS = 0.5


# ---- names: each zone has a number, and the same names

def address(number, last):
    return f"10.{number // 256}.{number % 256}.{last}"


def data_of(label, number):
    """The records of a name."""
    zone = f"z{number}."
    if label == "c":
        return [f"c.{zone} CNAME a.{zone}", *data_of("a", number)]
    if label == "t":
        return [f't.{zone} TXT "text" "{number}"']
    return [f"{label}.{zone} A {address(number, ord(label))}"]


def answer_of(label, number):
    """What a client is answered."""
    if label == "x":
        return f"rcode 3 | authority z{number}. SOA {SOA}"
    return " | ".join(["-", *(f"answer {record}" for record in data_of(label, number))])


class Root(dict):
    """Refers each zone to the server below."""

    def get(self, question, default=None):
        if question == "*":
            return default
        zone = question.split(" ")[0].split(".")[-2] + "."
        return f"| authority {zone} 3600 NS ns.{zone} | additional ns.{zone} 3600 A {BELOW}"


class Below(dict):
    """Has the names of each zone. `x` does not exist, and `t` is truncated over UDP."""

    def get(self, question, default=None):
        if question == "*":
            return default
        label, zone = question.split(" ")[0].split(".")[:2]
        if label == "x":
            return f"aa rcode 3 | authority {zone}. 3600 SOA {SOA}"
        records = [record.replace(". ", ". 3600 ", 1).replace('"', "") for record in data_of(label, int(zone[1:]))]
        whole = " | ".join(["aa", *(f"answer {record}" for record in records)])
        if label == "t":
            return lambda asked: [asked.response("tc" if asked.over == "udp" else whole)]
        return whole


ZONES = {ROOT: Root(), BELOW: Below()}


def serving(servers, *options, **settings):
    return Service([f"{ROOT}@{servers.port}"], "--server-port", str(servers.port), *options, **settings)


def replaying(servers, *options):
    """The script program with memory, with the settings of such a service."""
    return Replay([RESOLVER, "script", "--server-port", str(servers.port), *options, f"{ROOT}@{servers.port}"])


# ---- clients

def ask(service, over, name, kind="A"):
    """The reply in words, or `WANT`: SERVFAIL, or over TCP the end of the connection."""
    asked = query(name, kind)
    try:
        with service.client(over) as client:
            client.send(asked)
            octets = client.octets()
    except ConnectionError:
        octets = None
    if octets is None:
        return WANT
    if octets[:2] != asked[:2]:
        return f"{octets.hex()} is no reply to {asked.hex()}"
    words = reply_in(octets).words()
    return WANT if words == "rcode 2" else words


# The questions for each zone, some for the first time and some again.
QUESTIONS = (
    ("udp", "a"), ("udp", "a"), ("tcp", "a"), ("tcp", "b"), ("udp", "b"), ("udp", "c"), ("tcp", "c"),
    ("udp", "x"), ("tcp", "x"), ("udp", "t"), ("tcp", "t"), ("tcp", "d"), ("udp", "e"),
)


# The questions for each zone that are in flight together over one connection.
TOGETHER = ("a", "f", "c", "g", "x", "h")


def ask_together(service, number):
    """The same for questions of one connection, all in flight at once. If it ends, that counts once, however many replies are lost."""
    left, wants = dict(enumerate(TOGETHER)), 0
    try:
        with service.client("tcp") as client:
            client.sock.sendall(b"".join(framed(query(f"{label}.z{number}.", "A", place)) for place, label in left.items()))
            while left:
                octets = client.octets()
                if octets is None:
                    return wants + 1, None
                label = left.pop(int.from_bytes(octets[:2], "big"), None)
                words = reply_in(octets).words()
                if words == "rcode 2":
                    wants += 1
                elif label is None or words != answer_of(label, number):
                    return wants, f"{label}.z{number}. in flight beside others is answered {short(words)}"
    except ConnectionError:
        return wants + 1, None
    return wants, None


def ask_zone(service, number, questions=QUESTIONS):
    """How many questions of a zone get no memory, and the fault of another answer, or `None`."""
    wants = 0
    for over, label in questions:
        found = ask(service, over, f"{label}.z{number}.", "TXT" if label == "t" else "A")
        if found == WANT:
            wants += 1
        elif found != answer_of(label, number):
            return wants, f"{label}.z{number}. over {over} is answered {short(found)}, wanted {answer_of(label, number)}"
    return wants, None


# ---- operators

def lines_of(number):
    """Lines of every kind whose replies do not depend on the time. They leave few entries."""
    return f"""
flush_type a.z{number}. A
undo
redo
flush c.z{number}.
flush_zone z{number}.
undo
local_zone k{number}. static
local_data h.k{number}. 60 A 192.0.2.1
local_data h.k{number}. 60 A 192.0.2.2
local_data m{number}. 60 TXT "text"
look h.k{number}. A
look i.k{number}. A
undo
redo
local_zone k{number}. refuse
undo
undo
list_local_data
stub_add s{number}. 127.0.0.9 127.0.0.8@5300
servers a.s{number}.
servers nobody{number}.
list_stubs
local_data_remove h.k{number}.
local_zone_remove k{number}.
list_local_zones
undo
undo
redo
redo
stub_remove s{number}.
local_data_remove m{number}.
local_zone_remove m{number}.
list_commands
sweep
""".split("\n")[1:-1]


class Operator:
    """An operator, with the lines so far and their replies."""

    def __init__(self, service):
        """Its turn has begun: a connection that waits for its turn is closed if there is no memory for its place."""
        self.control = service.control()
        self.told = []
        self.obey("list_stubs")

    def obey(self, line):
        """Whether a line gets no memory, or no reply."""
        reply = self.control.tell(line).encode()
        self.told.append((line.encode(), reply))
        return reply in NO_MEMORY or reply == LOST

    def end(self, replay):
        """Ends the connection. The fault of the replies, or `None`: they are those of a replay without the lines that got no memory."""
        self.control.__exit__()
        kept = [(line, reply) for line, reply in self.told if reply not in NO_MEMORY]
        wanted = replay([line for line, _ in kept])
        if wanted is None:
            return f"the replay of {len(kept)} lines breaks off"
        for place, ((line, reply), want) in enumerate(zip(kept, wanted)):
            want = want.replace(b"\n", b" / ")
            if reply != want and not (reply == LOST and line.startswith(SHOWING)):
                return f"line {place} of {len(kept)}, {line!r}, is answered {short(reply)}, wanted {short(want)}"
        return None


# ---- each allocation in turn

def play_round(service, operator, number):
    """How many questions and lines get no memory, and the fault of an answer, or `None`."""
    wants, fault = ask_zone(service, number)
    more, other = ask_together(service, number)
    wants += more + sum(operator.obey(line) for line in lines_of(number))
    return wants, fault or other


def check_each_allocation(checks):
    """Each round refuses the next allocation, until two rounds have fewer. All rounds use one service."""
    options = ["--udp", "2", "--tcp", "2", "--record", "5000"]
    with Refusing() as refusing, NameServers(ZONES) as servers:
        with serving(servers, *options, environment=refusing.environment) as service:
            operator = Operator(service)
            last = missed = 0
            for nth in range(1, MOST):
                before = refusing.refused
                refusing.one(nth)
                wants, fault = play_round(service, operator, nth)
                refusing.none()
                refused = refusing.refused - before
                if wants > refused:
                    fault = fault or f"{wants} replies want memory, {refused} allocations were refused"
                checks.check(f"allocation {nth} of a round refused", fault)
                last, missed = (nth, 0) if refused else (last, missed + 1)
                if missed == 2:
                    break
            checks.check("allocations of a round refused", None if last > 100 else f"{last} were")
            checks.check("each allocation refused in turn: the operator's lines", operator.end(replaying(servers)))
            checks.equal("each allocation refused in turn: with memory", ask_zone(service, 0), (0, None))
            checks.equal("each allocation refused in turn: with memory, together", ask_together(service, 0), (0, None))
            checks.equal("each allocation refused in turn: stopped", service.stop(), STOPPED)
            print(f"{refusing.refused} allocations of a service refused, one in a round; the last was number {last}")


# ---- one allocation in so many, under load

class Load(threading.Thread):
    """A client that asks until the load ends."""

    def __init__(self, service, seed, ending):
        super().__init__(daemon=True)
        self.service, self.draw, self.ending = service, random.Random(seed), ending
        self.asked = self.wants = 0
        self.fault = None

    def run(self):
        try:
            while not self.ending.is_set() and not self.fault:
                number = self.draw.choice([self.draw.randrange(8), 1_000 + self.asked + 10_000 * (self.draw.random() < 0.5)])
                questions = self.draw.sample(QUESTIONS, 4)
                wants, self.fault = ask_zone(self.service, number, questions)
                more, other = ask_together(self.service, number)
                self.fault = self.fault or other
                self.asked += len(questions) + len(TOGETHER)
                self.wants += wants + more
        except Exception as fault:  # told as a check that failed
            self.fault = self.fault or f"{type(fault).__name__}: {fault}"


def under_load(service, operator, seed, count=4, seconds=1.0):
    """Lets clients ask for so many seconds, while an operator gives lines. Returns the clients."""
    ending, numbers = threading.Event(), itertools.count(20_000)
    clients = [Load(service, seed + place, ending) for place in range(count)]
    for client in clients:
        client.start()
    end = time.monotonic() + seconds
    while time.monotonic() < end:
        for line in lines_of(next(numbers)):
            operator.obey(line)
    ending.set()
    for client in clients:
        client.join()
    return clients


def wants_of(clients, operator):
    """How many questions and lines got no memory, or no reply."""
    return sum(client.wants for client in clients) + sum(reply in NO_MEMORY or reply == LOST for _, reply in operator.told)


def check_load(checks, one_in):
    """Clients and an operator, while one allocation in so many is refused. Then there is memory, and all get their answers."""
    name = f"under load, one allocation in {one_in} refused"
    options = ["--udp", "2", "--tcp", "2", "--record", "2000"]
    with Refusing() as refusing, NameServers(ZONES) as servers:
        with serving(servers, *options, environment=refusing.environment) as service:
            operator = Operator(service)
            refusing.one_in(one_in)
            clients = under_load(service, operator, SEED + one_in)
            refusing.none()
            wants = wants_of(clients, operator)
            for client in clients:
                checks.check(f"{name}: a client", client.fault)
            checks.check(f"{name}: wants", None if wants <= refusing.refused else f"{wants}, {refusing.refused} refusals")
            checks.check(f"{name}: refusals", None if refusing.refused > 20 else f"{refusing.refused} were")
            for number in range(4):
                checks.equal(f"{name}: with memory again, {number}", ask_zone(service, 30_000 + number), (0, None))
                checks.equal(f"{name}: with memory again, together, {number}", ask_together(service, 30_000 + number), (0, None))
            for line in lines_of(40_000):
                operator.obey(line)
            checks.check(f"{name}: the operator's lines", operator.end(replaying(servers)))
            checks.equal(f"{name}: stopped", service.stop(), STOPPED)
            asked = sum(client.asked for client in clients)
            print(f"{name}: {refusing.refused} were, {wants} of {asked} questions and {len(operator.told)} lines found no memory")


def check_ample(checks):
    """The largest settings, 16 workers and 16 clients, with memory: no reply says that there is none."""
    sizes = ["--journal", "256", "--cells", "1000000"]
    options = ["--udp", "8", "--tcp", "8", "--record", "1000000", *sizes]
    with NameServers(ZONES) as servers, serving(servers, *options) as service:
        operator = Operator(service)
        clients = under_load(service, operator, SEED, count=16)
        for client in clients:
            checks.check("with memory: a client", client.fault)
        checks.equal("with memory: questions and lines that got none", wants_of(clients, operator), 0)
        checks.check("with memory: the operator's lines", operator.end(replaying(servers, *sizes)))
        checks.equal("with memory: stopped", service.stop(), STOPPED)
        print(f"with memory: {sum(client.asked for client in clients)} questions and {len(operator.told)} lines")


def check_stop(checks, one_in):
    """`stop` under load, while one allocation in so many is refused."""
    name = f"stop, one allocation in {one_in} refused"
    with Refusing() as refusing, NameServers(ZONES) as servers:
        with serving(servers, "--udp", "2", "--tcp", "2", environment=refusing.environment) as service:
            ending = threading.Event()
            clients = [threading.Thread(target=ask_on, args=(service, seed, ending), daemon=True) for seed in range(4)]
            for client in clients:
                client.start()
            refusing.one_in(one_in)
            time.sleep(0.3)
            with service.control() as control:
                began = time.monotonic()
                told = control.tell("stop")
                ended = (told, *service.wait())
                took = time.monotonic() - began
            ending.set()
            for client in clients:
                client.join()
            checks.equal(name, ended, STOPPED)
            checks.check(f"{name}: how soon", None if took < STOP_SECONDS else f"{took:.3f} s")
            checks.check(f"{name}: refusals", None if refusing.refused > 20 else f"{refusing.refused} were")
            print(f"{name}: {took * 1000:.0f} ms")


def ask_on(service, seed, ending):
    """Asks until the service ends."""
    numbers = itertools.count(seed * 1_000)
    while not ending.is_set():
        try:
            for over in ("udp", "tcp"):
                with service.client(over) as client:
                    client.sock.settimeout(0.2)
                    client.send(query(f"a.z{next(numbers) % 50_000}.", "A"))
                    client.octets()
        except OSError:
            ending.wait(0.01)


# ---- the program that sends an operator's lines

# Lines that change nothing, and their replies.
SHOWN = (("list_local_zones", "a. static\nb. deny\nend\n"), ("look x.a. A", "local 60 x.a. A 192.0.2.1\n"), ("undo x", "error bad_data\n"))


def check_client(checks):
    """`resolver control` with each of its allocations refused: it writes the whole reply, or the reason after what it wrote."""
    with Service(["192.0.2.1"]) as service:
        service.obey("local_zone a. static", "local_zone b. deny", "local_data x.a. 60 A 192.0.2.1")
        command = [RESOLVER, "control", f"{HOST}@{service.control_port}"]
        for line, reply in SHOWN:
            wanted = int(reply.startswith("error")), reply.encode(), b""
            for words, text in (([line], b""), ([], line.encode() + b"\n")):
                name = f"control {' '.join(words)} {text.decode()}".rstrip()
                for nth in range(1, MOST):
                    done = run(command + words, text, preload="refuse", REFUSE_NTH=nth)
                    if "refused" not in done.told:
                        break
                    is_told = done.status == 1 and wanted[1].startswith(done.out) and done.err.startswith(b"resolver: ")
                    found = done.status, done.out, done.err
                    checks.check(f"{name}, allocation {nth} refused", None if is_told or found == wanted else f"{found}")
                checks.check(f"{name}, allocations refused", None if nth > 10 else f"{nth - 1} were")
        checks.equal("control: stopped", service.stop(), STOPPED)


# ---- a service that is killed

KILLS = 12


def files_of(process):
    """The files that a process has open, except sockets, polls and its standard streams."""
    found = []
    for name in os.listdir(f"/proc/{process}/fd"):
        try:
            link = os.readlink(f"/proc/{process}/fd/{name}")
        except OSError:
            continue  # it was closed meanwhile
        if int(name) > 2 and not link.startswith(("socket:", "anon_inode:", "pipe:")):
            found.append(link)
    return found


def mapped_for_writing(process):
    """The files that a process writes to through a mapping."""
    with open(f"/proc/{process}/maps", encoding="ascii") as maps:
        rows = [line.split() for line in maps]
    return [row[-1] for row in rows if row[1][1] == "w" and row[1][3] == "s" and len(row) > 5]


def check_killed(checks):
    """A service that is killed at a drawn moment leaves no file. The next one starts at the same ports, with an empty book."""
    draw = random.Random(SEED)
    ports = free_port(), free_port()
    with NameServers(ZONES) as servers, tempfile.TemporaryDirectory() as folder:
        for kill in range(KILLS):
            name = f"killed, {kill}"
            with serving(servers, "--udp", "2", "--tcp", "2", ports=ports, prefix=("env", "-C", folder)) as service:
                wanted = "end", "end", "unknown", "ok 1"
                lines = "list_local_zones", "list_commands", "look a.z1. A", "local_zone k. static"
                checks.equal(f"{name}: an empty book", tuple(service.obey(*lines)), wanted)
                ending = threading.Event()
                clients = [threading.Thread(target=ask_on, args=(service, seed, ending), daemon=True) for seed in range(4)]
                for client in clients:
                    client.start()
                checks.equal(f"{name}: an answer", ask(service, "tcp", "a.z1."), answer_of("a", 1))
                for number in range(draw.randrange(3)):
                    service.obey(*lines_of(number))
                time.sleep(draw.uniform(0, 0.1))
                process = service.process.pid
                checks.equal(f"{name}: its folder while it runs", os.readlink(f"/proc/{process}/cwd"), os.path.realpath(folder))
                checks.equal(f"{name}: its files", (files_of(process), mapped_for_writing(process)), ([], []))
                service.process.send_signal(signal.SIGKILL)
                checks.equal(f"{name}: its end", service.wait(), (-signal.SIGKILL, b""))
                ending.set()
                for client in clients:
                    client.join()
            checks.equal(f"{name}: its folder", os.listdir(folder), [])
        check_killed_early(checks, servers, ports, folder, draw)
        with serving(servers, ports=ports, prefix=("env", "-C", folder)) as service:
            checks.equal("after the killed", ask(service, "udp", "a.z1."), answer_of("a", 1))
            checks.equal("after the killed: stopped", service.stop(), STOPPED)


def check_killed_early(checks, servers, ports, folder, draw):
    """A service that is killed before it is ready, or soon after."""
    nothing = subprocess.DEVNULL
    for kill in range(KILLS):
        places = ["--listen", f"{HOST}@{ports[0]}", "--control", f"{HOST}@{ports[1]}", f"{ROOT}@{servers.port}"]
        with subprocess.Popen(
            [RESOLVER, "serve", *places], stdin=nothing, stdout=nothing, stderr=nothing, env={}, cwd=folder,
        ) as process:
            time.sleep(draw.uniform(0, 0.02))
            process.kill()
            checks.equal(f"killed early, {kill}", process.wait(), -signal.SIGKILL)
        checks.equal(f"killed early, {kill}: its folder", os.listdir(folder), [])


def main():
    checks = Checks()
    checks.make(check_ample)
    checks.make(check_each_allocation)
    for one_in in (1, 2, 5, 50):
        checks.make(check_load, one_in)
    for one_in in (1, 3):
        checks.make(check_stop, one_in)
    checks.make(check_client)
    checks.make(check_killed)
    checks.end()


main()
