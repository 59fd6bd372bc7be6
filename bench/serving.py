"""What `bench/service`, `bench/tcp` and `bench/endurance` share: `resolver serve`, unbound and a bare echo on loopback, who asks them,
and the table of a comparison."""

import contextlib
import json
import os
import resource
import shutil
import socket
import statistics
import subprocess
import sys
import time

HERE = os.path.dirname(os.path.abspath(__file__))
sys.path.insert(0, os.path.join(HERE, "..", "tests"))
sys.dont_write_bytecode = True
from lib.programs import RESOLVER
from lib.service import HOST, Service, free_port
from unbound import configured

# The descriptors that unbound needs for its questions in flight. Each program gets as many, or as many as it may have.
DESCRIPTORS = min(8_192, resource.getrlimit(resource.RLIMIT_NOFILE)[1])

# What a program of ours gets of the environment: the settings of the C library's heap, which packages set.
SETTINGS = {name: value for name, value in os.environ.items() if name == "GLIBC_TUNABLES"}

# The builds of the resolver: the one that is measured, and an earlier one.
OURS = ("ours", "before")

# The options of unbound, and its upstream server.
OPTIONS = """
  access-control: 127.0.0.0/8 allow
  do-not-query-localhost: no
  qname-minimisation: no
  minimal-responses: yes
  outgoing-range: 4096
  num-queries-per-thread: 2048
  so-rcvbuf: 1m
  rrset-cache-size: 256m
  msg-cache-size: 256m
  local-zone: "test." transparent
  local-data: "ready0.test. A 192.0.2.1"
"""
FORWARD = """
forward-zone:
  name: "."
  forward-addr: 127.0.0.1@{late}
"""


def built(folder, name):
    program = os.path.join(folder, name)
    compiler = os.environ.get("CC", "cc").split()
    subprocess.run([*compiler, "-O2", "-o", program, os.path.join(HERE, "network", name + ".c")], check=True)
    return program


def library(folder, name):
    """A library to put in front of the C library."""
    made = os.path.join(folder, name + ".so")
    compiler = os.environ.get("CC", "cc").split()
    subprocess.run([*compiler, "-O2", "-shared", "-fPIC", "-o", made, os.path.join(HERE, "network", name + ".c"), "-ldl"], check=True)
    return made


def begun(command):
    """A program, once it has said that it is ready."""
    process = subprocess.Popen(command, stdout=subprocess.PIPE)
    if process.stdout.readline() != b"ready\n":
        sys.exit(f"bench/service: {command} does not begin")
    return process


def ended(*processes):
    for process in processes:
        process.kill()
        process.wait()


def cpu(pids):
    """The microseconds of a processor that all threads of processes have had."""
    threads = [f"/proc/{pid}/task/{task}/schedstat" for pid in pids for task in os.listdir(f"/proc/{pid}/task")]
    total = 0
    for thread in threads:
        with open(thread, encoding="ascii") as file:
            total += int(file.read().split()[0])
    return total / 1_000


@contextlib.contextmanager
def operator(who, place):
    """A function that gives a line to a program and returns the reply. Ours get all lines over one connection."""
    if who in OURS:
        with socket.create_connection((HOST, place)) as connection, connection.makefile("rb") as file:
            def obey(line):
                connection.sendall(line.encode() + b"\n")
                return expected(line, file.readline(), (b"ok ", b"undone ", b"redone ", b"swept"))

            yield obey
    else:
        def obey(line):
            with socket.socket(socket.AF_UNIX) as connection, connection.makefile("rb") as file:
                connection.connect(place)
                connection.sendall(b"UBCT1 " + line.encode() + b"\n")
                return expected(line, file.readline(), (b"ok",))

        yield obey


def expected(line, told, starts):
    """The reply, which has to begin with one of these."""
    if not told.startswith(starts):
        sys.exit(f"bench: the reply to {line} is {told}")
    return told


def figures(place):
    """The reply to `stats`, as numbers by name."""
    with socket.create_connection((HOST, place)) as connection, connection.makefile("r", encoding="ascii") as file:
        connection.sendall(b"stats\n")
        lines = iter(file.readline, "end\n")
        return {name: int(value) for name, _, value in (line.partition("=") for line in lines)}


def common_end(late, place, seconds):
    """Has the name server say of each address that it ends in so many seconds, all in one of the service's seconds. Returns when."""
    first = figures(place)["time.up"]
    while figures(place)["time.up"] == first:
        time.sleep(0.001)
    with socket.socket(socket.AF_INET, socket.SOCK_DGRAM) as sock:
        sock.sendto(str(seconds).encode(), (HOST, late))
    return time.monotonic() + seconds


class Programs:
    """The programs that are measured, and those that measure."""

    def __init__(self, folder, program, before=None):
        """`before` is an earlier build of the program, which is measured beside it."""
        self.folder, self.builds = folder, {"ours": program, "before": before}
        self.ask_program, self.echo, self.late = (built(folder, name) for name in ("ask", "echo", "late"))
        self.unbound = shutil.which("unbound", path=os.environ.get("PATH", "") + ":/usr/sbin")
        self.who = [who for who, program in self.builds.items() if program] + (["unbound", "echo"] if self.unbound else ["echo"])

    def asking(self, port, sockets, each, names, prefix, seconds=60, most=0, pause=0, zone="test"):
        """A driver with `sockets` times `each` questions in flight, until its seconds are over or `most` were asked."""
        words = [port, sockets, each, pause, seconds, most, names, prefix, zone]
        return subprocess.Popen([self.ask_program, *map(str, words)], stdout=subprocess.PIPE)

    def ask(self, *words, **more):
        return json.loads(self.asking(*words, **more).communicate()[0])

    @contextlib.contextmanager
    def late_by(self, milliseconds, *ttl):
        port = free_port()
        process = begun([self.late, str(port), str(milliseconds), *map(str, ttl)])
        self.late_process = process.pid
        try:
            yield port
        finally:
            ended(process)

    @contextlib.contextmanager
    def serving(self, who, late, workers=1, options=(), more="", environment=None):
        """The port of a program that serves, its processes, and where it takes commands. `options` and `environment` are for ours, `more` is
        for the configuration of unbound."""
        if who in OURS:
            hint = f"{HOST}@{late}"
            given = ["--udp", str(workers), *options]
            environment = {**SETTINGS, **(environment or {})}
            with Service([hint], *given, environment=environment, most_descriptors=DESCRIPTORS, program=self.builds[who]) as service:
                yield service.port, [service.process.pid], service.control_port
            return
        port = free_port()
        if who == "echo":
            processes = [begun([self.echo, str(port)]) for _ in range(workers)]
        else:
            path = configured(self.folder, port, workers, OPTIONS + more, FORWARD.format(late=late))
            command = ["prlimit", f"--nofile={DESCRIPTORS}", self.unbound, "-d", "-p", "-c", path]
            processes = [subprocess.Popen(command, stdout=subprocess.DEVNULL, stderr=subprocess.DEVNULL)]
        try:
            while who == "unbound" and not self.ask(port, 1, 1, 1, "ready", seconds=0.1, most=1)["answered"]:
                pass
            yield port, [process.pid for process in processes], os.path.join(self.folder, "control")
        finally:
            ended(*processes)


def losses(told):
    """What the drivers lost, in all their runs."""
    return {word: sum(one[word] for one in told) for word in ("lost", "failed", "strange")}


def span(values, form):
    """The median, the least and the greatest."""
    return f"{statistics.median(values):{form}} ({min(values):{form}} to {max(values):{form}})"


def has_stalled(rounds, who):
    """The most connections of a program that stalled in a round."""
    return max(one[who].get("stalled", 0) for one in rounds)


def cell(rounds, who, figure, is_first):
    """The median of a program's figure; or, in the first row of a measure, how many connections stalled."""
    if who not in rounds[0]:
        return ""
    if has_stalled(rounds, who):
        return f"stalled: {has_stalled(rounds, who)} of {rounds[0][who]['connections']}" if is_first else ""
    form = ",.0f" if figure == "rate" else ".1f"
    return f"{statistics.median(one[who][figure] for one in rounds):{form}}"


def ratio(rounds, who, figure):
    """Ours relative to a peer, in each round."""
    if "ours" not in rounds[0] or who not in rounds[0] or has_stalled(rounds, "ours") or has_stalled(rounds, who):
        return ""
    if not all(one[who][figure] for one in rounds):
        return ""
    return span([one["ours"][figure] / one[who][figure] for one in rounds], ".2f")


def rows(measure, rounds, peers, others):
    """The row of a measure in the table, and then a row for each further figure that it has."""
    name, key, _, _, aim = measure
    some, what = next(iter(rounds[0].values())), name.removesuffix(f": {others.get(key)}")
    for figure in [key, *(other for other in others if other in some and other != key)]:
        words = [name if figure == key else f"{what}: {others[figure]}"]
        words += [cell(rounds, who, figure, figure == key) for who in ("ours", *peers)]
        words += [ratio(rounds, who, figure) for who in peers]
        yield "| " + " | ".join([*words, aim if figure == key else ""]) + " |"


def compare(bench, measures, count, others):
    """Measures all programs by turns, for a number of rounds, and prints the table. A measure is its name, the key of its first figure, the
    programs, how it is measured, and its aim; `others` has the names of further figures."""
    if not bench.unbound:
        print("unbound: not measured, it is not installed", file=sys.stderr)
    peers = [who for who in bench.who if who != "ours"]
    found = {name: [] for name, *_ in measures}
    for turn in range(count):
        # Who goes first changes with each round.
        order = bench.who if turn % 2 == 0 else bench.who[::-1]
        for name, _, part, measured, _ in measures:
            found[name].append({who: measured(bench, who) for who in order if part == "all" or who != "echo"})
    print(f"{count} rounds on {os.cpu_count()} cores, load {os.getloadavg()[0]:.0f}; medians, and of ratios the least and greatest\n")
    print("| | ours | " + " | ".join(peers) + " | " + " | ".join(f"ours/{who}" for who in peers) + " | aim |")
    print("|---" * (3 + 2 * len(peers)) + "|")
    for measure in measures:
        print("\n".join(rows(measure, found[measure[0]], peers, others)))
    for name, rounds in found.items():
        for who in bench.who:
            for word in ("lost", "failed", "strange", "closed"):
                total = sum(one[who].get(word, 0) for one in rounds if who in one)
                if total:
                    print(f"\n{name}: {who}: {total} {word}")
