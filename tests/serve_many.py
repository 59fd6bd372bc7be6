"""Two services behind the load balancer dnsdist, where it is installed: both answer; a command that both get, and its undo, show in
each reply; a command that one refuses is taken back on the other; `status` and the lists show whether the two agree; a zone whose server
is the balancer makes no loop, if the operator prevents it; and no question is lost if one service stops under load."""

import os
import shutil
import socket
import subprocess
import tempfile
import threading
import time

from lib.checks import Checks
from lib.nameserver import PATIENCE, NameServers
from lib.service import HOST, STOPPED, Client, Service, free_port, query, until

ROOT, TEST = "127.0.0.1", "127.0.0.2"
BLOCK = "local_zone shop.test. always_nxdomain"

# dnsdist sends questions to each service in turn. Each second it asks a service for a name that the service answers by itself.
BALANCER = """setLocal("{host}:{port}")
setACL({{"127.0.0.0/8"}})
setServerPolicy(roundrobin)
setUDPTimeout(3)
"""
MEMBER = """newServer({{address="{host}:{port}", checkName="health.home.", checkType="A", checkInterval=1, maxCheckFailures=1}})
"""
HEALTH = "local_data health.home. 60 A 127.0.0.1"

# The lines of `status` that are equal if two services obeyed the same commands, and the lists that decide.
AGREEING = ("zones: ", "records: ", "stubs: ", "commands: ", "ticket: ")
LISTS = ("list_commands", "list_local_zones", "list_local_data", "list_stubs")

# A command that a service refuses if it has a record below the zone, such a record, and a command that changes nothing.
REDIRECT, BELOW, NO_EFFECT = "local_zone health.home. redirect", "local_data a.health.home. 60 A 192.0.2.9", "local_data_remove none.invalid."

# The address of a balancer that a zone names as its server, and a client that is no service of its fleet.
SHARED, STRANGER = "127.0.0.5", "127.0.0.9"
LOOP = {"*": f"| authority loop.test. 60 NS ns.loop.test. | additional ns.loop.test. 60 A {SHARED}"}

# What keeps a query from the loop: the services' option, or the balancer's rule. Then how many queries both services send: to the
# root, and one to the balancer if that drops it.
STOPS = [(["--do-not-query", SHARED], "", 1), ([], f'addAction({{"{HOST}"}}, DropAction())\n', 2)]

# A client asks again after so many seconds, at most so often.
PAUSE, MOST_TRIES = 0.5, 10


def answered(asked):
    """A name server that has one address for every name."""
    yield asked.response(f"aa | answer {asked.question.split()[0]} 60 A 192.0.2.7")


ZONES = {
    ROOT: {"*": f"| authority test. 3600 NS ns.test. | additional ns.test. 3600 A {TEST}"},
    TEST: {"*": answered},
}


class Balancer:
    """dnsdist in front of services, at a port of its own or at a given place, with a rule if one is given."""

    def __init__(self, services, place=None, rule=""):
        self.host, self.port = place or (HOST, free_port())
        self.folder = tempfile.TemporaryDirectory()
        config = os.path.join(self.folder.name, "dnsdist.conf")
        with open(config, "w", encoding="utf-8") as file:
            file.write(BALANCER.format(host=self.host, port=self.port) + rule)
            file.writelines(MEMBER.format(host=HOST, port=service.port) for service in services)
        command = ["dnsdist", "-C", config, "--supervised", "--disable-syslog"]
        self.process = subprocess.Popen(command, stdin=subprocess.DEVNULL, stdout=subprocess.DEVNULL, stderr=subprocess.DEVNULL)

    def __enter__(self):
        return self

    def __exit__(self, *_):
        self.process.kill()
        self.process.wait()
        self.folder.cleanup()

    def is_answered(self, name, seconds):
        """Whether a question gets a reply within so many seconds."""
        with Client("udp", self.port, self.host) as client:
            try:
                client.send(query(name, "A"))
                return client.has_reply(seconds) and bool(client.octets())
            except ConnectionRefusedError:
                return False

    def words(self, name):
        """The reply to a question."""
        with Client("udp", self.port) as client:
            return client.ask(name, "A").words()


def obey(services, line):
    """The replies of the services to a line."""
    return [service.obey(line)[0] for service in services]


def check_commands(checks, balancer, services):
    """A block, its undo and its redo on both; then an undo on one alone."""
    names = [f"n{place}.shop.test." for place in range(20)]
    resolved = {f"- | answer {name} A 192.0.2.7" for name in names}
    checks.equal("answers", {balancer.words(name) for name in names}, resolved)
    shares = [sum(reply.startswith("found") for reply in service.obey(*(f"look {name} A" for name in names))) for service in services]
    checks.equal("the questions of each service", shares, [10, 10])
    for line, reply in [(BLOCK, "ok 2"), ("undo", "undone 2"), ("redo", "redone 2")]:
        checks.equal(f"{line}, on both", obey(services, line), [reply] * 2)
        blocked = {services[0].ask("www.shop.test.").words()}
        replies = {balancer.words(name) for name in names}
        checks.equal(f"{line}: the replies", replies, resolved if line == "undo" else blocked)
    one, two = obey(services, "list_commands")
    checks.equal("the commands of both", one, two)
    services[0].obey("undo")
    one, two = obey(services, "list_commands")
    checks.check("an undo on one alone", None if one != two else f"both list {one}")
    checks.equal("the same undo on the other", services[1].obey("undo", "list_commands")[1], one)


def agreeing(services):
    """The lines of `status` that show whether services agree, and the lists, of each service."""
    status = [[line for line in service.obey("status")[0].split(" / ") if line.startswith(AGREEING)] for service in services]
    return status, [service.obey(*LISTS) for service in services]


def check_refusal(checks, services):
    """One service refuses a command, since it alone has a record. The command is taken back on the other, and the record on this one.
    Then the lines of `status` are equal by chance, since the commands that can be redone differ. So they are after a gap in the tickets is
    closed. After one more command all is equal."""
    def is_equal():
        status, lists = agreeing(services)
        return len(status[0]) == len(AGREEING) and status[0] == status[1], lists[0] == lists[1]

    checks.equal("both agree", is_equal(), (True, True))
    checks.equal("a record of one alone", obey(services[1:], BELOW), ["ok 3"])
    checks.equal("one refuses", obey(services, REDIRECT), ["ok 3", "error data_below"])
    checks.equal("one refuses: equal", is_equal(), (False, False))
    checks.equal("each takes back its own", obey(services, "undo"), ["undone 3"] * 2)
    checks.equal("each takes back its own: equal", is_equal(), (True, False))
    checks.equal("a command of one, taken back", services[0].obey(REDIRECT, "undo"), ["ok 4", "undone 4"])
    checks.equal("a gap: equal", is_equal(), (False, False))
    checks.equal("the gap is closed", services[1].obey(NO_EFFECT, "undo"), ["ok 4", "undone 4"])
    checks.equal("the gap is closed: equal", is_equal(), (True, False))
    checks.equal("a command on both", obey(services, BLOCK), ["ok 5"] * 2)
    checks.equal("a command on both: equal", is_equal(), (True, True))


def rcode_of(name, balancer, seconds=PATIENCE):
    """The RCODE of the reply that a stranger gets, who has an address of his own. None if there is no reply in time."""
    with socket.socket(socket.AF_INET, socket.SOCK_DGRAM) as client:
        client.settimeout(seconds)
        client.bind((STRANGER, 0))
        client.connect((balancer.host, balancer.port))
        try:
            client.send(query(name, "A"))
            return client.recv(512)[3] & 15
        except (TimeoutError, ConnectionRefusedError):
            return None


def check_loop(checks, options, rule, wanted):
    """A zone names the balancer as its server. One question about it makes both services send so few queries, and it fails."""
    what, port = f"a loop, {options or 'a rule'}", free_port(SHARED)
    with NameServers({ROOT: LOOP}) as servers:
        place = [f"{ROOT}@{servers.port}"], "--server-port", str(port), *options
        with Service(*place) as one, Service(*place) as two, Balancer([one, two], (SHARED, port), rule) as balancer:
            obey([one, two], HEALTH)
            checks.equal(f"{what}: ready", until(lambda: rcode_of("health.home.", balancer, 0.2) == 0), True)
            checks.equal(f"{what}: the reply", rcode_of("a.loop.test.", balancer), 2)
            sent = [service.figures()["num.query.udpout"] for service in (one, two)]
            checks.equal(f"{what}: queries", sum(sent), wanted)
            text = b"withheld" if options else b"timed out"
            faults = [service.times(text + f", server {SHARED}@{port}".encode()) for service in (one, two)]
            checks.equal(f"{what}: faults", sorted(faults), [0, 1])
            checks.equal(f"{what}: stopped", [one.stop(), two.stop()], [STOPPED] * 2)


def check_stop(checks, balancer, services):
    """One service stops while clients ask for new names. Each question is answered, some when the client asks again."""
    stopped = threading.Event()
    tries = []

    def ask(client):
        place = 0
        while not stopped.is_set():
            name = f"n{place}-{client}.load.test."
            tries.append(next((count for count in range(1, MOST_TRIES + 1) if balancer.is_answered(name, PAUSE)), None))
            place += 1

    clients = [threading.Thread(target=ask, args=(client,)) for client in range(8)]
    for client in clients:
        client.start()
    time.sleep(1)
    before = len(tries)
    checks.equal("one service stops under load", services[0].stop(), STOPPED)
    time.sleep(4)
    stopped.set()
    for client in clients:
        client.join()
    checks.check("questions before and after", None if before > 100 and len(tries) > before + 100 else f"{before} and {len(tries) - before}")
    checks.equal("questions lost", tries.count(None), 0)


def check_two(checks):
    with NameServers(ZONES) as servers:
        place = [f"{ROOT}@{servers.port}"], "--server-port", str(servers.port)
        with Service(*place) as one, Service(*place) as two:
            checks.equal("the name of the health check", obey([one, two], HEALTH), ["ok 1"] * 2)
            with Balancer([one, two]) as balancer:
                ready = until(lambda: balancer.is_answered("health.home.", 0.2))
                checks.check("dnsdist", None if ready else "it does not answer")
                checks.make(check_commands, balancer, [one, two])
                checks.make(check_refusal, [one, two])
                checks.make(check_stop, balancer, [one, two])
            checks.equal("the other service stops", two.stop(), STOPPED)


def main():
    checks = Checks()
    if shutil.which("dnsdist"):
        checks.make(check_two)
        for stop in STOPS:
            checks.make(check_loop, *stop)
    else:
        checks.skip("dnsdist", "it is not installed")
    checks.end()


main()
