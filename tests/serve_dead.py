"""`resolver serve` with name servers that are dead: each is passed over for a question that it left unanswered, and after two minutes
of silence for every question. It is tried again after a pause, and is in no other server's way. What an undo or a new stub gives back shows
at once."""

import time
from concurrent.futures import ThreadPoolExecutor

from lib.checks import Checks
from lib.nameserver import NameServers
from lib.service import STOPPED, Service, query

DEAD = ["127.0.0.2", "127.0.0.3", "127.0.0.5"]
ALIVE, OTHER = "127.0.0.4", "127.0.0.9"
GOOD = "aa | answer {name} 60 A 192.0.2.1"
FAILED = "rcode 2"

# The seconds that an exchange may take, and those for which a server is passed over at first.
EXCHANGE = 2
FIRST_PAUSE = 10

# The seconds of silence after which a server is passed over for every question.
SILENT = 120

# What takes less than this many seconds has waited for no exchange.
AT_ONCE = 1.5


def good(asked):
    yield asked.response(GOOD.format(name=asked.question.split()[0]))


def answered(name):
    return f"- | answer {name} A 192.0.2.1"


def count(servers, address, over="udp"):
    """How many queries came to a server."""
    return sum(server == address and o == over for server, o, _ in list(servers.asked))


def timed(service, name, over="udp", kind="A"):
    """The reply to a question, and the seconds that it took."""
    began = time.monotonic()
    reply = service.ask(name, kind, over).words()
    return reply, time.monotonic() - began


def takes(checks, what, took, least=0.0, most=float("inf")):
    checks.check(what, None if least <= took < most else f"it took {took:.2f} s, wanted {least} to {most}")


def check_first_of_three(checks):
    """The first of three servers is dead: the first name waits for it. Others give it a rest, for the next server answers; after ten
    seconds one name tries it again."""
    zones = {DEAD[0]: {"*": None}, ALIVE: {"*": good}, OTHER: {"*": good}}
    with NameServers(zones) as servers, Service([f"{address}@{servers.port}" for address in zones]) as service:
        reply, took = timed(service, "first.test.")
        noted = time.monotonic()
        checks.equal("one of three is dead", reply, answered("first.test."))
        takes(checks, "one of three is dead", took, EXCHANGE)
        for name in ("second.test.", "third.test.", "fourth.test."):
            reply, took = timed(service, name)
            checks.equal(f"one of three is dead: {name}", reply, answered(name))
            takes(checks, f"one of three is dead: {name}", took, 0, AT_ONCE)
        service.obey("flush_type first.test. A")
        reply, took = timed(service, "first.test.")
        checks.equal("one of three is dead: again", reply, answered("first.test."))
        takes(checks, "one of three is dead: again", took, 0, AT_ONCE)
        checks.equal("one of three is dead: queries to it", count(servers, DEAD[0]), 1)
        time.sleep(max(0, noted + FIRST_PAUSE + 0.5 - time.monotonic()))
        with ThreadPoolExecutor(1) as pool:
            trial = pool.submit(timed, service, "trial.test.")
            checks.equal("one of three is dead: it is tried", servers.wait_for("trial.test. A", 1), True)
            beside = [timed(service, f"beside{place}.test.")[1] for place in range(5)]
            takes(checks, "one of three is dead: beside the trial", max(beside), 0, AT_ONCE)
            reply, took = trial.result()
            checks.equal("one of three is dead: the trial", reply, answered("trial.test."))
            takes(checks, "one of three is dead: the trial", took, EXCHANGE)
        time.sleep(FIRST_PAUSE)
        takes(checks, "one of three is dead: its rest is twice as long", timed(service, "later.test.")[1], 0, AT_ONCE)
        checks.equal("one of three is dead: queries to it at last", count(servers, DEAD[0]), 2)
        checks.equal("one of three is dead: stopped", service.stop(), STOPPED)


def check_rest_in_vain(checks):
    """A server that rests is asked as soon as no other of its list answers, and once it answers it rests no more."""
    zones = {DEAD[0]: {"*": good, "drops.test. A": None}, ALIVE: {"*": good}}
    with NameServers(zones) as servers, Service([f"{address}@{servers.port}" for address in zones]) as service:
        checks.equal("a server rests", service.ask("drops.test.").words(), answered("drops.test."))
        before = count(servers, DEAD[0])
        checks.equal("a server rests: another name", service.ask("b.test.").words(), answered("b.test."))
        checks.equal("a server rests: it is not asked", count(servers, DEAD[0]), before)
        zones[ALIVE]["*"] = None
        # What was answered in the millisecond in which a query began counts as answered after it.
        time.sleep(0.01)
        checks.equal("the other is dead now", service.ask("c.test.").words(), FAILED)
        for name in ("d.test.", "e.test."):
            checks.equal(f"the other is dead now: {name}", service.ask(name).words(), answered(name))
        checks.equal("the other is dead now: stopped", service.stop(), STOPPED)


def check_all(checks):
    """All three servers are dead: a question takes the time of each, and takes none when it is asked again. One line is logged for each
    server. What is asked of servers that live is answered beside it, and what a stub or an undo gives back shows at once."""
    zones = {**{address: {"*": None} for address in DEAD}, ALIVE: {"*": good}}
    with NameServers(zones) as servers:
        dead = [f"{address}@{servers.port}" for address in DEAD]
        with Service([f"{ALIVE}@{servers.port}"]) as service:
            service.obey(f"stub_add dead.test. {' '.join(dead)}", f"stub_add dead-too.test. {dead[2]} {dead[0]}")
            with ThreadPoolExecutor(2) as pool:
                waits = [pool.submit(timed, service, f"{word}.dead.test.") for word in "ac"]
                beside = [timed(service, f"beside{place}.test.") for place in range(20)]
                checks.equal("all are dead: names beside", {reply == answered(f"beside{n}.test.") for n, (reply, _) in enumerate(beside)}, {True})
                takes(checks, "all are dead: names beside", max(took for _, took in beside), 0, AT_ONCE)
                for one in waits:
                    reply, took = one.result()
                    checks.equal("all are dead: the first questions", reply, FAILED)
                    takes(checks, "all are dead: the first questions", took, 3 * EXCHANGE)
            for word in "ac":
                reply, took = timed(service, f"{word}.dead.test.")
                checks.equal(f"all are dead: {word} again", reply, FAILED)
                takes(checks, f"all are dead: {word} again", took, 0, AT_ONCE)
            checks.equal("all are dead: queries to each", [count(servers, address) for address in DEAD], [2, 2, 2])
            checks.equal("all are dead: lines", service.log().count(b"device fault"), 3)
            checks.equal("another stub", service.obey(f"stub_add dead.test. {ALIVE}@{servers.port}"), ["ok 3"])
            reply, took = timed(service, "a.dead.test.")
            checks.equal("another stub: the question that failed", reply, answered("a.dead.test."))
            takes(checks, "another stub: the question that failed", took, 0, AT_ONCE)
            checks.equal("an undo of it", service.obey("undo"), ["undone 3"])
            reply, took = timed(service, "c.dead.test.")
            checks.equal("an undo of it: the dead servers again", reply, FAILED)
            takes(checks, "an undo of it: each is tried anew", took, 3 * EXCHANGE)
            checks.equal("an undo of the first stub", service.obey("undo", "undo"), ["undone 2", "undone 1"])
            reply, took = timed(service, "b.dead.test.")
            checks.equal("an undo of the first stub: answered", reply, answered("b.dead.test."))
            takes(checks, "an undo of the first stub: answered", took, 0, AT_ONCE)
            checks.equal("all are dead: stopped", service.stop(), STOPPED)


def check_tried_anew(checks, over):
    """A server that is passed over is tried by the first question after a command about its stub, and after the undo and the redo of one."""
    zone = {"*": None}
    with NameServers({DEAD[0]: zone}) as servers, Service([f"{DEAD[0]}@{servers.port}"]) as service:
        stub = f"stub_add test. {DEAD[0]}@{servers.port}"
        for name, line, told in (
            ("a.test.", stub, "ok 1"), ("b.test.", "undo", "undone 1"), ("c.test.", "redo 1", "redone 1"), ("d.test.", "undo 1", "undone 1"),
        ):
            zone["*"] = None
            checks.equal(f"{over}, before {line}", service.ask(name, "A", over).words(), FAILED)
            zone["*"] = good
            reply, took = timed(service, name, over)
            checks.equal(f"{over}, passed over before {line}", reply, FAILED)
            takes(checks, f"{over}, passed over before {line}", took, 0, AT_ONCE)
            checks.equal(f"{over}, {line}", service.obey(line), [told])
            reply, took = timed(service, name, over)
            checks.equal(f"{over}, after {line}", reply, answered(name))
            takes(checks, f"{over}, after {line}", took, 0, AT_ONCE)
        checks.equal(f"{over}, tried anew: stopped", service.stop(), STOPPED)


def check_comes_back(checks):
    """A server comes back: it is not asked a question while it is passed over for it. Then one query tries it, others pass it over until
    it answers, and from then on it is asked as before."""
    zone = {"*": None}
    with NameServers({DEAD[0]: zone}) as servers, Service([f"{DEAD[0]}@{servers.port}"]) as service:
        checks.equal("before it comes back", service.ask("a.test.").words(), FAILED)
        noted = time.monotonic()
        while time.monotonic() < noted + FIRST_PAUSE - 1:
            reply, took = timed(service, "a.test.")
            checks.equal("before its pause is over", reply, FAILED)
            takes(checks, "before its pause is over", took, 0, AT_ONCE)
            time.sleep(1)
        checks.equal("before its pause is over: queries", count(servers, DEAD[0]), 1)
        time.sleep(noted + FIRST_PAUSE + 0.5 - time.monotonic())
        with ThreadPoolExecutor(2) as pool:
            trial = pool.submit(timed, service, "a.test.")
            checks.equal("a trial: it is asked", servers.wait_for("a.test. A", 2), True)
            replies = [timed(service, "a.test.") for _ in range(10)]
            checks.equal("beside a trial", {reply for reply, _ in replies}, {FAILED})
            takes(checks, "beside a trial", max(took for _, took in replies), 0, AT_ONCE)
            reply, took = trial.result()
            checks.equal("a trial in vain", reply, FAILED)
            takes(checks, "a trial in vain", took, EXCHANGE)
        noted = time.monotonic()
        zone["*"] = good
        time.sleep(FIRST_PAUSE + 1)
        checks.equal("a pause is twice as long after a trial in vain", service.ask("a.test.").words(), FAILED)
        checks.equal("a trial in vain: queries", count(servers, DEAD[0]), 2)
        checks.equal("another name meanwhile", service.ask("b.test.").words(), answered("b.test."))
        time.sleep(noted + 2 * FIRST_PAUSE + 0.5 - time.monotonic())
        names = ["a.test.", *(f"back{place}.test." for place in range(20))]
        replies = [service.ask(name).words() for name in names]
        checks.equal("after it came back", replies, [answered(name) for name in names])
        checks.equal("after it came back: stopped", service.stop(), STOPPED)


def check_closed(checks):
    """A server whose port is closed is not asked again for a second."""
    with NameServers({ALIVE: {"*": good}}) as servers:
        with Service([f"{DEAD[0]}@{servers.port}", f"{ALIVE}@{servers.port}"]) as service:
            for name, seconds, wanted in (("a.test.", 0, 2), ("b.test.", 0, 1), ("c.test.", 1.5, 2)):
                time.sleep(seconds)
                before = service.figures()["num.query.udpout"]
                checks.equal(f"a closed port: {name}", service.ask(name).words(), answered(name))
                checks.equal(f"a closed port: queries for {name}", service.figures()["num.query.udpout"] - before, wanted)
            checks.equal("a closed port: stopped", service.stop(), STOPPED)


def check_silent(checks):
    """A dead server of four zones: for two minutes each new name waits for it, and then none does. Once it is back, so are all zones."""
    zone = {"*": None}
    with NameServers({ALIVE: {"*": good}, DEAD[0]: zone}) as servers, Service([f"{ALIVE}@{servers.port}"]) as service:
        service.obey(*(f"stub_add z{place}.test. {DEAD[0]}@{servers.port}" for place in range(4)))
        began = time.monotonic()
        for word, seconds in (("a", 0), ("b", EXCHANGE + SILENT + 1)):
            time.sleep(max(0, began + seconds - time.monotonic()))
            reply, took = timed(service, f"{word}.z0.test.")
            checks.equal(f"a dead server of four zones: {word}", reply, FAILED)
            takes(checks, f"a dead server of four zones: {word}", took, EXCHANGE)
            if word == "a":
                for place in range(1, 4):
                    takes(checks, f"a dead server of four zones: {place}", timed(service, f"a.z{place}.test.")[1], EXCHANGE)
        noted = time.monotonic()
        for place in range(4):
            reply, took = timed(service, f"c.z{place}.test.")
            checks.equal(f"a silent server: {place}", reply, FAILED)
            takes(checks, f"a silent server: {place}", took, 0, AT_ONCE)
        zone["*"] = good
        time.sleep(max(0, noted + FIRST_PAUSE + 0.5 - time.monotonic()))
        for place in range(4):
            checks.equal(f"a silent server is back: {place}", service.ask(f"d.z{place}.test.").words(), answered(f"d.z{place}.test."))
        checks.equal("a silent server: stopped", service.stop(), STOPPED)


def check_dropped_kind(checks):
    """Both servers of a zone drop one kind of question. A stranger who asks it again and again silences no other name, nor other types
    of the same name."""

    def does(asked):
        if not asked.question.endswith(" TYPE65"):
            yield from good(asked)

    zones = {ALIVE: {"*": does}, OTHER: {"*": does}}
    with NameServers(zones) as servers, Service([f"{address}@{servers.port}" for address in zones]) as service:
        with service.client() as stranger:
            for place in range(30):
                for name in ("same.test.", f"new{place}.test."):
                    stranger.send(query(name, "TYPE65"))
                if place % 5 == 4:
                    for name in (f"honest{place}.test.", f"new{place}.test."):
                        checks.equal(f"a kind that servers drop: {name}", service.ask(name).words(), answered(name))
                time.sleep(0.5)
        checks.equal("a kind that servers drop: stopped", service.stop(), STOPPED)


def check_lively(checks):
    """A server that answers other questions while one goes unanswered is not passed over."""
    zone = {"*": good, **{f"mute{place}.test. A": None for place in range(10)}}
    with NameServers({ALIVE: zone}) as servers, Service([f"{ALIVE}@{servers.port}"]) as service:
        with ThreadPoolExecutor(10) as pool:
            mute = [pool.submit(service.ask, f"mute{place}.test.") for place in range(10)]
            wrong, place = [], 0
            while not all(one.done() for one in mute):
                name = f"lively{place}.test."
                place += 1
                reply, took = timed(service, name)
                if reply != answered(name) or took > AT_ONCE:
                    wrong.append((name, reply, took))
                time.sleep(0.05)
        checks.equal("beside questions that go unanswered", wrong, [])
        checks.equal("questions that go unanswered", {one.result().words() for one in mute}, {FAILED})
        checks.equal("after questions that go unanswered", service.ask("last.test.").words(), answered("last.test."))
        checks.equal("questions that go unanswered: stopped", service.stop(), STOPPED)


def check_over_tcp(checks):
    """A server that answers over UDP alone: a truncated response costs its time once, and what fits a datagram is answered."""

    def does(asked):
        yield asked.response("aa tc") if asked.question.startswith("long") else next(good(asked))

    class Deaf(NameServers):
        """Servers that accept connections and say nothing on them."""

        def _answer(self, connection, asked):
            self.closing.wait(60)
            return False

    with Deaf({ALIVE: {"*": does}}) as servers, Service([f"{ALIVE}@{servers.port}"]) as service:
        reply, took = timed(service, "long0.test.")
        checks.equal("no answer over TCP", reply, FAILED)
        takes(checks, "no answer over TCP", took, EXCHANGE)
        for place in range(1, 5):
            reply, took = timed(service, "long0.test.")
            checks.equal("no answer over TCP, again", reply, FAILED)
            takes(checks, "no answer over TCP, again", took, 0, AT_ONCE)
            checks.equal("over UDP beside it", service.ask(f"short{place}.test.").words(), answered(f"short{place}.test."))
        checks.equal("no answer over TCP: connections", count(servers, ALIVE, "tcp"), 1)
        checks.equal("no answer over TCP: stopped", service.stop(), STOPPED)


def main():
    checks, aside = Checks(), Checks()
    with ThreadPoolExecutor(1) as pool:
        # It takes two minutes, and hardly anything else.
        silent = pool.submit(aside.make, check_silent)
        checks.make(check_first_of_three)
        checks.make(check_rest_in_vain)
        checks.make(check_all)
        checks.make(check_tried_anew, "udp")
        checks.make(check_tried_anew, "tcp")
        checks.make(check_comes_back)
        checks.make(check_closed)
        checks.make(check_lively)
        checks.make(check_dropped_kind)
        checks.make(check_over_tcp)
        silent.result()
    checks.passed += aside.passed
    checks.failed += aside.failed
    checks.end()


main()
