"""20,000 random responses. Most are to the question that was asked. Some are no messages, have another identifier, opcode or
question, or are queries themselves.

No task sends more than 64 queries, admits a find whose owner is outside the zone asked, asks a server that nothing named, or
answers with a record that neither a response nor a lookup gave. Nothing is admitted of a response that does not fit its query.
"""

import random
from collections import Counter
from dataclasses import dataclass, field

from lib.checks import Checks
from lib.messages import name_octets, number, question_octets, question_of, record_data, type_number
from lib.programs import PLAY, run

WANTED = 20_000
NAMES = ["test.", "a.test.", "b.test.", "c.a.test.", "ns.test.", "ns.a.test.", "bank.", "www.bank.", "ns.bank."]
STUBS = [f"10.0.0.{n}" for n in range(1, 9)]
TYPES = ("A", "A", "AAAA", "CNAME", "MX")
ASKED = "@"  # the name that is asked for
UNFIT = ("identifier", "opcode", "query", "question")


@dataclass
class Line:
    """The outcome of a query."""

    text: str
    # The records in it, each with its section and the flags, if the response was left as it was drawn.
    records: list = field(default_factory=list)
    is_exact: bool = True
    # In what it does not fit the query, and its question if that is another one.
    unfit: str = ""
    question: str = ""

    def strikes(self, asked):
        """Whether it does not fit a query for NAME TYPE."""
        return bool(self.unfit) and self.question != asked


class Drawing:
    """Tasks and the outcomes of their queries, from one seed."""

    def __init__(self, seed):
        self.random = random.Random(seed)

    def name(self):
        return ASKED if self.random.random() < 0.5 else self.random.choice(NAMES)

    def data(self, kind):
        if kind == "A":
            return f"10.0.{self.random.randrange(2)}.{self.random.randrange(1, 9)}"
        if kind == "AAAA":
            return f"2001:db8:0:0:0:0:0:{self.random.randrange(1, 9):x}"
        target = self.random.choice(NAMES)
        if kind == "MX":
            return f"{self.random.randrange(9)} {target}"
        if kind == "SOA":
            return f"{target} host.{target} 1 2 3 4 {self.random.choice((0, 60, 900))}"
        return target

    def records(self, kinds, most):
        for _ in range(self.random.randrange(most + 1)):
            kind = self.random.choice(kinds)
            yield self.name(), self.random.choice((0, 60, 300)), kind, self.data(kind)

    def response(self):
        """A response: its flags, and the records of its sections."""
        bits = (0x0400 if self.random.random() < 0.15 else 0) | (0x0200 if self.random.random() < 0.05 else 0)
        rcode = self.random.choices((0, 3, 2, 5), (20, 3, 1, 1))[0]
        sections = [
            list(self.records(("A", "CNAME", "AAAA", "MX"), self.random.choice((0, 0, 0, 2)))),
            list(self.records(("NS", "NS", "NS", "SOA"), self.random.choice((0, 2)))),
            list(self.records(("A", "A", "AAAA"), self.random.choice((0, 3)))),
        ]
        return 0x8000 | bits | rcode, sections

    def question(self):
        return f"{self.random.choice(NAMES[:4])} {self.random.choice(TYPES)}"

    def task(self):
        """A question, and the outcomes of its queries."""
        return self.question(), [self.line() for _ in range(66)]

    def line(self):
        if self.random.random() < 0.1:
            return Line("failed")
        flags, sections = self.response()
        unfit = self.random.choice(UNFIT) if self.random.random() < 0.2 else ""
        identifier = self.random.randrange(1, 65536) if unfit == "identifier" else 0
        flags ^= self.random.randrange(1, 16) << 11 if unfit == "opcode" else 0x8000 if unfit == "query" else 0
        header = number(identifier) + number(flags) + number(1) + b"".join(number(len(s)) for s in sections)
        rest = b"".join(record_octets(*r) for s in sections for r in s)
        records = [(n, flags, r) for n, s in enumerate(sections) for r in s]
        if unfit == "question":
            question = self.question()
            return Line("came " + (header + question_octets(*question.split()) + rest).hex(), records, True, unfit, question)
        if unfit or self.random.random() >= 0.05:
            return Line("asked " + (header + rest).hex(), records, True, unfit)
        octets = header + rest
        at = self.random.randrange(len(octets))
        return Line("asked " + (octets[:at] + number(self.random.randrange(256), 1) + octets[at + 1 :]).hex(), is_exact=False)


def record_octets(owner, ttl, kind, data):
    spelled = b"\xc0\x0c" if owner == ASKED else name_octets(owner)
    told = record_data(kind, data.split())
    return spelled + number(type_number(kind)) + number(1) + number(ttl, 4) + number(len(told)) + told


def is_in_zone(name):
    return ("." + name).endswith(".test.")


def parts(line):
    """The records of a line of the program, each after a bar: owner, type and data."""
    for part in line.split(" | ")[1:]:
        owner, _, kind, data = part.removesuffix(" soa").split(" ", 3)
        yield owner, kind, data


def shown(line):
    """The records that a lookup shows: `found RANK LEFT OWNER TYPE DATA`, with bars between the data."""
    owner, kind, data = line.split(" ", 5)[3:]
    return [(owner, kind, datum) for datum in data.split(" | ")]


def believable(asked, records):
    """The records of a response that an answer may have: neither truncated nor an error, in the zone, and not additional."""
    for section, flags, (owner, _, kind, data) in records:
        owner = asked if owner == ASKED else owner
        if section < 2 and not flags & 0x0200 and flags & 15 in (0, 3) and is_in_zone(owner):
            yield owner, kind, data


class Watched:
    """What a task has learnt so far from its inputs."""

    def __init__(self, lines):
        self.lines = lines
        # In what each response that the task took did not fit its query.
        self.taken = []
        self.known, self.addresses = set(), set(STUBS)
        self.is_exact, self.is_struck = True, False

    def sends(self, line):
        """What is wrong with a query. Afterwards its outcome is known."""
        fault = None
        if line.split()[1].partition("@")[0] not in self.addresses and self.is_exact:
            fault = f"{line} goes to a server that nothing named"
        asked = question_of(bytes.fromhex(line.split()[3]))
        came = self.lines[len(self.taken)]
        self.is_struck = came.strikes(asked)
        self.is_exact = self.is_exact and came.is_exact
        self.taken.append(came.unfit if self.is_struck else "")
        if not self.is_struck:
            self.known |= set(believable(asked.split()[0], came.records))
            self.addresses |= {data for _, _, (_, _, kind, data) in came.records if kind in ("A", "AAAA")}
        return fault

    def looked(self, line):
        """Notes what a lookup shows."""
        if line.startswith("told found"):
            found = shown(line.removeprefix("told "))
            self.known |= set(found)
            self.addresses |= {data for _, kind, data in found if kind in ("A", "AAAA")}
        elif line.startswith("told servers"):
            self.addresses |= {word.partition("@")[0] for word in line.split()[4:] if "@" in word}

    def fault_of(self, line):
        """What is wrong with a line."""
        word = line.split(" ", 1)[0]
        if word == "send":
            return self.sends(line)
        if word == "told":
            self.looked(line)
        elif word == "admit" and self.is_struck:
            return f"{line} is of a response that does not fit"
        elif word == "admit" and not is_in_zone(line.split()[2]):
            return f"{line} lies outside the zone"
        elif word == "answer" and self.is_exact and not set(parts(line)) <= self.known:
            return f"{line} has a record that nothing gave"
        return None


def fault_of(question, lines, told):
    """What is wrong with a task, and in what the responses that it took did not fit."""
    watched = Watched(lines)
    faults = [fault for fault in map(watched.fault_of, told) if fault]
    if len(watched.taken) > 64:
        faults.append(f"{len(watched.taken)} queries")
    if not told or not told[-1].startswith(("answer", "silent")):
        faults.append("no answer")
    return f"{question}: {faults[0]}" if faults else None, watched.taken


def tasks_in(out):
    """The program's output for each task."""
    found = []
    for line in out.decode().splitlines():
        if line.startswith("look ") and (not found or found[-1][-1].startswith(("answer", "silent"))):
            found.append([])
        if found and (not found[-1] or not found[-1][-1].startswith(("answer", "silent"))):
            found[-1].append(line)
    return found


def main():
    checks = Checks()
    drawing = Drawing(1)
    taken, kinds = Counter(), set()
    while taken.total() < WANTED:
        tasks = [drawing.task() for _ in range(200)]
        given = []
        for question, lines in tasks:
            given += ["hints", "stub_add test. " + " ".join(STUBS), "ask " + question, *(line.text for line in lines)]
        done = run([PLAY, "resolve"], "\n".join([*given, ""]).encode())
        told = tasks_in(done.out)
        checks.equal("how many tasks there are", (done.status, len(told)), (0, len(tasks)))
        for (question, lines), each in zip(tasks, told):
            fault, unfit = fault_of(question, lines, each)
            checks.check("a task", fault)
            taken.update(unfit)
            kinds.add(each[-1].split()[1] if each[-1].startswith("answer") else each[-1])
        if done.status or not told:
            break
    checks.equal("the RCODEs of the answers", kinds, {"0", "2", "3"})
    for unfit in UNFIT:
        checks.check(f"responses with another {unfit}", None if taken[unfit] > WANTED // 200 else f"{taken[unfit]} were taken")
    checks.end()


main()
