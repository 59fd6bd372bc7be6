"""Questions in flight, through `play flight`: rows play clients, name servers and sockets, and have the replies.

A row of tests/flight begins with a root server at 127.0.0.1@5301:

    == what the row is about
    admit 4 a.test. 60 A 192.0.2.1     lines that the program obeys
    : taken                            the reply to a line
    client 1 a.test. A                 a query comes from client 1, or `octets 1 00..`
    > 0 127.0.0.1@5301 udp a.test. A   the exchange that has to begin, after its key
    look 0 aa | answer ..              a response for that key (tests/lib/messages.py), or `nothing`, `broken`, `no_memory`
    = 1 - | answer a.test. A 192.0.2.1 the reply to client 1 (tests/lib/replies.py)
    ! 1 too_many                       it gets SERVFAIL, for this reason
    network 7                          the clients from here on are of this network
    now 2000                           the milliseconds that have passed
    kept                               what the questions that wait keep, in octets
    relieve                            ends those that keep most, if all keep too much
    - 1                                it gets no reply
"""

import os
import random
import subprocess
from collections import Counter

from lib.checks import Checks
from lib.identifiers import first_identifiers
from lib.messages import name_octets, question_octets, question_of, response
from lib.programs import PATIENCE, PLAY, TOP, run
from lib.replies import reply_in
from lib.rows import query_words, rows_in

FOLDER = os.path.join(TOP, "tests/flight")
HINTS = "hints 127.0.0.1@5301"
EXPECTED = (">", "=", "!", "-", ":")
BARE = ("nothing", "broken", "no_memory")


def query(client, question):
    """A query with the identifier of its client."""
    return (0x1000 + client).to_bytes(2, "big") + bytes.fromhex("01000001000000000000") + question_octets(*question.split())


def given(lines):
    """The input of the program for a row."""
    told, asked = [HINTS], {}
    for line in lines:
        mark, _, rest = line.partition(" ")
        if mark == ">":
            key, _, words = rest.partition(" ")
            asked[key] = words.split(" ", 2)[2]
        elif mark == "client":
            client, _, question = rest.partition(" ")
            told.append(f"client {client} {query(int(client), question).hex()}")
        elif mark == "octets":
            client, _, digits = rest.partition(" ")
            told.append(f"client {client} {digits.replace(' ', '')}")
        elif mark == "look":
            key, _, text = rest.partition(" ")
            text = text if text in BARE else f"came {response(asked.get(key, 'a.test. A'), text).hex()}"
            told.append(f"look {key} {text}")
        elif mark not in EXPECTED:
            told.append(line)
    return told


def words_of(line):
    """A line of the program's output, in the words of a row."""
    word, _, rest = line.partition(" ")
    if word == "open":
        key, _, rest = rest.partition(" ")
        return f"> {key} {query_words('send ' + rest)}"
    if word == "reply":
        client, digits = rest.split()
        octets = bytes.fromhex(digits)
        return f"= {client} {reply_in(octets).words() if len(octets) > 12 else 'rcode ' + str(octets[3] & 15)}"
    if word == "failed":
        return f"! {rest}"
    if word == "none":
        return f"- {rest.strip()}"
    return f": {line}"


def told_in(out):
    """The output of a run, in the words of a row and without the ends of lines."""
    return [words_of(line) for line in out.decode().splitlines() if line not in (".", "ok")]


def talk(lines, **settings):
    return run([PLAY, "flight"], "\n".join([*lines, ""]).encode(), **settings)


def settled(told):
    """How often each client was settled."""
    return Counter(line.split()[1] for line in told if line[0] in "=!-")


# ---- memory

MOST = 3_000
END = [line for turn in range(70) for line in (f"now {10 ** 6 + 2000 * turn}", "expire")]


def fault_of_refusal(lines, told, status):
    """What is wrong with a run in which an allocation was refused. Each client has to be settled once, unless the program ends."""
    clients = {line.split()[1] for line in lines if line.startswith("client ")}
    often = settled(told)
    if any(count > 1 for count in often.values()):
        return f"a client was settled twice: {often}"
    if status == 0 and set(often) != clients:
        return f"{sorted(clients - set(often))} were not settled"
    return None if status in (0, 1, 3) else f"status {status}"


def refuse_each(checks, about, lines):
    """Runs a row with each allocation refused in turn."""
    lines = [*given(lines), *END]
    for nth in range(1, MOST):
        done = talk(lines, preload="refuse", REFUSE_NTH=nth)
        if "refused" not in done.told:
            checks.check(f"{about}: some allocations are refused", None if nth > 5 else f"{nth}")
            return
        checks.check(f"{about}: allocation {nth}", fault_of_refusal(lines, told_in(done.out), done.status))
    checks.check(f"{about}: each allocation is refused", f"more than {MOST}")


# ---- identifiers

def check_identifiers(checks):
    """Two questions at once, each of which asks two servers: each query takes the next identifier, and no other step draws one."""
    clients = [f"client {client} {query(client, f'n{client}.test. A').hex()}" for client in (1, 2)]
    done = talk(["hints 127.0.0.1@5301 127.0.0.2@5301", *clients, *(f"look {key} broken" for key in (0, 1, 1, 0))])
    opened = [line.split() for line in done.out.decode().splitlines() if line.startswith("open ")]
    checks.equal("identifiers: the exchanges that begin", [key for _, key, *_ in opened], ["0", "1", "0", "1"])
    checks.equal("identifiers: those of four queries", [words[4][:4] for words in opened], first_identifiers(4))


# ---- a random run

DRAWN = 4_000
LIMIT = 20
NAMES = [f"n{n}.test. A" for n in range(200)]


class Talker:
    """The program, line by line."""

    def __init__(self):
        self.program = subprocess.Popen([PLAY, "flight"], stdin=subprocess.PIPE, stdout=subprocess.PIPE)

    def say(self, line):
        self.program.stdin.write(line.encode() + b"\n")
        self.program.stdin.flush()
        told = []
        for found in self.program.stdout:
            found = found.decode().rstrip("\n")
            if found == ".":
                return told
            told.append(found)
        return told

    def end(self):
        self.program.stdin.close()
        return self.program.wait(PATIENCE)


def address(question):
    return f"192.0.2.{1 + NAMES.index(question) % 250}"


def drawn_response(some, question):
    """What a name server sends for a question: mostly its answer."""
    draw = some.random()
    owner = question.split()[0]
    if draw < 0.1:
        return some.choice(BARE)
    if draw < 0.2:
        return f"came {response(question, f'aa id 1 | answer {owner} 60 A 192.0.2.255').hex()}"
    if draw < 0.3:
        return f"came {response(question, 'aa tc').hex()}"
    return f"came {response(question, f'aa | answer {owner} 60 A {address(question)}').hex()}"


class Drawn:
    """A random run: who asked what, which exchange is under way under which key, and how often each client was settled."""

    def __init__(self, checks):
        self.checks, self.some, self.talker = checks, random.Random(7), Talker()
        self.asked, self.open, self.often, self.kinds, self.now = {}, {}, Counter(), Counter(), 0
        self.say(f"limit {LIMIT}")
        self.say("hints 127.0.0.1@5301 127.0.0.2@5301")

    def say(self, line):
        for found in self.talker.say(line):
            word, *rest = found.split()
            if word == "open":
                self.open[rest[0]] = question_of(bytes.fromhex(rest[3]))
            if word in ("reply", "failed", "none"):
                self.often[int(rest[0])] += 1
                self.kinds[rest[-1] if word == "failed" else word] += 1
            if word == "reply":
                self.checks.check("a drawn reply", self.fault(int(rest[0]), bytes.fromhex(rest[1])))

    def fault(self, client, octets):
        """What is wrong with a reply. It has to be one to the client's query, with its answer or SERVFAIL."""
        question = self.asked[client]
        reply = reply_in(octets) if len(octets) > 12 else None
        if octets[:2] != query(client, question)[:2] or (reply and reply.question != question):
            return f"client {client} gets {octets.hex()}"
        words = reply.words() if reply else f"rcode {octets[3] & 15}"
        return None if words in ("rcode 2", f"- | answer {question.split()[0]} A {address(question)}") else words

    def step(self):
        draw = self.some.random()
        if draw < 0.45 or not self.open:
            client, question = len(self.asked), self.some.choice(NAMES)
            self.asked[client] = question
            self.say(f"client {client} {query(client, question).hex()}")
        elif draw < 0.9:
            key = self.some.choice([*self.open, "31"])
            # The key may begin another exchange at once.
            question = self.open.get(key, NAMES[0])
            what = drawn_response(self.some, question)
            if what != "nothing":
                self.open.pop(key, None)
            self.say(f"look {key} {what}")
        elif draw < 0.92:
            self.say(f"fails open {self.some.randrange(1, 9)}")
        else:
            self.now += self.some.randrange(600)
            self.say(f"now {self.now}")
            self.say("expire")
        if draw > 0.99:
            self.say(f"at {self.now // 10}")

    def end(self):
        for line in END:
            self.say(line)
        self.checks.equal("the status of a drawn run", self.talker.end(), 0)
        self.checks.equal("how many clients came", len(self.asked) > DRAWN // 4, True)
        wrong = {client: self.often[client] for client in self.asked if self.often[client] != 1}
        self.checks.equal("how often clients are settled that are not settled once", wrong, {})
        self.checks.equal("how they were settled", sorted(self.kinds), ["no_memory", "reply", "too_long", "too_many"])


def drawn(checks):
    run_drawn = Drawn(checks)
    for _ in range(DRAWN):
        run_drawn.step()
    run_drawn.end()


# ---- the places of a worker

# How many there are, and how many times the places that are free those of one zone may be, and those of one network.
PLACES, ZONE_TIMES, NETWORK_TIMES = 64, 16, 32

# In how many milliseconds no other network may have asked for a place, so that one may have all of them, and those from one client
# to the next.
ALONE, STEP = 60_000, 1_000

# The zones and the networks of clients. In turn, one zone has the load, most exchanges end, one network has the load, and all have.
KINDS = 4


def may_begin(taken, zone, network, alone):
    """Whether a question may begin an exchange if so many places are taken, and so many of them by its zone and by its network."""
    free = PLACES - taken
    return zone < ZONE_TIMES * free and (network < NETWORK_TIMES * free or alone and network == taken)


def places(checks):
    """Questions of four zones and of four networks: whether each begins an exchange, or gets SERVFAIL while places are free or none is."""
    some, talker, under_way, kinds, asker, asks_since = random.Random(11), Talker(), {}, Counter(), 0, 0
    for line in (f"limit {PLACES}", HINTS):
        talker.say(line)
    for client in range(3_000):
        turn = client // 150 % 4
        zone = 0 if turn == 0 else some.randrange(KINDS)
        network = 0 if turn == 2 else some.randrange(KINDS)
        taken = len(under_way)
        in_zone = sum(one == zone for one, _ in under_way.values())
        in_network = sum(one == network for _, one in under_way.values())
        if network != asker:
            asker, asks_since = network, STEP * client
        alone = STEP * client >= asks_since + ALONE
        begins = may_begin(taken, in_zone, in_network, alone)
        talker.say(f"now {STEP * client}")
        talker.say(f"network {network}")
        told = talker.say(f"client {client} {query(client, f'n{client}.z{zone}.test. A').hex()}")
        wanted = "open" if begins else f"failed {client} too_many"
        checks.equal(f"{taken} are taken, {in_zone} by zone {zone}, {in_network} by network {network}", told[0][: len(wanted)], wanted)
        if begins:
            under_way[told[0].split()[1]] = zone, network
        for kind, is_of in (
            ("begins", begins),
            ("full", taken == PLACES),
            ("its zone", taken < PLACES and not may_begin(taken, in_zone, 0, alone)),
            ("its network", taken < PLACES and may_begin(taken, in_zone, 0, alone) and not begins),
            ("alone", begins and not may_begin(taken, in_zone, in_network, False)),
        ):
            kinds[kind] += is_of
        for _ in range(some.choice((0, 0, 1)) if turn != 1 else 2):
            if under_way:
                key = some.choice([*under_way])
                talker.say(f"look {key} broken")
                del under_way[key]
    checks.equal("the places of a worker: status", talker.end(), 0)
    few = {kind: kinds[kind] for kind in ("begins", "full", "its zone", "its network", "alone") if kinds[kind] < 20}
    checks.equal("the places of a worker: cases that are rare", few, {})


# ---- what the questions that wait keep

# The octets that one may keep, all at any moment, and all after `relieve`. And what counts for a step, for a piece and for a datum, and
# in a list of servers for a name and for an address.
ONE_KEPT, ALL_KEPT, KEPT_AT_REST = 393_216, 25_165_824, 18_874_368
STEP_OCTETS, PIECE_OCTETS, DATUM_OCTETS, NAME_OCTETS, ADDRESS_OCTETS = 352, 128, 96, 384, 80

# A question has taken four steps when it sends its first query: a lookup of its name, one for an alias, one for the servers, and the
# query. After a referral it has taken two more: an admission for the set of one address, and the query. The list of servers is too long
# to be cached.
FIRST_STEPS, STEPS = 4, 6


def kept_first(asked):
    """What a question keeps that asks for the first time: its query, and the list of the root's one server."""
    return STEP_OCTETS * FIRST_STEPS + PIECE_OCTETS + len(asked) + PIECE_OCTETS + ADDRESS_OCTETS


def kept_by(asked, name, servers, referral):
    """What a question keeps that asks for the second time, after a referral to so many servers, of which one has an address."""
    zone = name.split(".", 1)[1]
    listed = NAME_OCTETS * servers + ADDRESS_OCTETS
    find = 2 * PIECE_OCTETS + len(name_octets(f"n0.{zone}")) + DATUM_OCTETS
    return kept_first(asked) + STEP_OCTETS * (STEPS - FIRST_STEPS) + PIECE_OCTETS + len(asked) + len(referral) + listed + find


def relieve(checks, talker, waiting):
    """The questions that keep most end until all keep few enough, the largest first."""
    told = talker.say("relieve")
    ended = [int(line.split()[1]) for line in told if line.startswith("failed ") and line.endswith(" too_large")]
    checks.equal("to relieve a worker ends questions alone", len(told), len(ended))
    for client in ended:
        checks.equal("they keep too much", sum(waiting.values()) > KEPT_AT_REST, True)
        most = max(waiting.values())
        checks.equal("the one that ends keeps most", waiting.pop(client), most)
    checks.equal("they keep few enough", sum(waiting.values()) <= KEPT_AT_REST, True)
    return len(ended)


def bounds(checks):
    """Questions with large referrals: what they keep, which may not wait, and which end when the worker is relieved."""
    some, talker, waiting, kinds = random.Random(13), Talker(), {}, Counter()
    for line in ("limit 200", HINTS):
        talker.say(line)
    for client in range(190):
        name, servers = f"a.z{client}.", some.randrange(520, 1_010)
        asked = query(client, f"{name} A")
        begins = sum(waiting.values()) + kept_first(asked) <= ALL_KEPT
        told = talker.say(f"client {client} {asked.hex()}")[0]
        checks.equal("a question begins an exchange", told.startswith("open "), begins)
        if begins:
            zone = name.split(".", 1)[1]
            referral = response(f"{name} A", f"| {servers} authority {zone} 60 NS n%.{zone} | additional n0.{zone} 60 A 192.0.2.53")
            kept = kept_by(asked, name, servers, referral)
            one, all_kept = kept <= ONE_KEPT, sum(waiting.values()) + kept <= ALL_KEPT
            told = talker.say(f"look {told.split()[1]} came {referral.hex()}")[0]
            wanted = "open" if one and all_kept else f"failed {client} too_large"
            checks.equal(f"{servers} servers, {kept} octets of {sum(waiting.values())}", told[: len(wanted)], wanted)
            if wanted == "open":
                waiting[client] = kept
            kinds["one" if not one else "waits" if all_kept else "all"] += 1
        checks.equal("what all keep", talker.say("kept"), [f"kept {sum(waiting.values())}"])
        if client % 95 == 94:
            kinds["ended"] += relieve(checks, talker, waiting)
    checks.equal("what questions keep: status", talker.end(), 0)
    checks.equal("what questions keep: cases", sorted(kind for kind in kinds if kinds[kind] > 3), ["all", "ended", "one", "waits"])


def main():
    checks = Checks()
    for file in sorted(os.listdir(FOLDER)):
        for about, lines in rows_in(os.path.join(FOLDER, file))[0]:
            done = talk(given(lines))
            checks.equal(f"{about}: its status", done.status, 0)
            wanted = [line for line in lines if line.split()[0] in EXPECTED]
            checks.equal(about, told_in(done.out), wanted)
            refuse_each(checks, about, lines)
    check_identifiers(checks)
    drawn(checks)
    places(checks)
    bounds(checks)
    checks.end()


main()
