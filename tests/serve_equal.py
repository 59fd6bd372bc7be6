"""Equal questions at once: a few are asked over the whole service, and the others wait. Datagrams that cannot be the reply to a query:
an exchange ends after two of them, and its question is not asked again for a while."""

import time

from lib.behaviours import answered, right
from lib.checks import Checks
from lib.crowds import Crowd, LateServer
from lib.service import STOPPED, Service, until

FAILED = "rcode 2"

# The most exchanges with one question that are under way over the whole service, and the datagrams after which an exchange ends that
# cannot be its reply.
MOST_EQUAL, MOST_MISFITS = 4, 2

# The seconds that an exchange may take.
EXCHANGE = 2

# What part of the time that an exchange lasts is looked at for others: the server notes a query a moment after it came.
NEARLY = 0.5

# How long the forger goes on, in seconds, and the datagrams that it sends at each port that it learns.
FORGING_SECONDS, FORGED = 120, 200

# The most exchanges of its question meanwhile: each of four workers lets the question rest for 10, 20, 40 and 60 seconds.
MOST_FORGED = 4 * 5


class Arrivals:
    """The moments at which queries came to a server, by question."""

    def __init__(self):
        self.moments = {}

    def note(self, asked):
        self.moments.setdefault(asked.question, []).append(time.monotonic())

    def count(self, name):
        return len(self.moments.get(f"{name} A", []))

    def most(self, name, seconds):
        """The most that came within some seconds."""
        moments = self.moments.get(f"{name} A", [])
        return max((sum(0 <= other - moment < seconds for other in moments) for moment in moments), default=0)


def equal_questions(service, name, count):
    """So many equal questions at once, from clients at many ports, so that all workers get some. The crowd, and the seconds it took."""
    began = time.monotonic()
    with Crowd(service, 32) as crowd:
        crowd.send_all([name] * count)
        crowd.wait()
        return crowd, time.monotonic() - began


def check_equal(checks, what, ttl, late, count, most_asked):
    """A server that answers after some time."""
    arrivals = Arrivals()

    def does(asked):
        arrivals.note(asked)
        yield late, asked.response(f"aa | answer {asked.question.split()[0]} {ttl} A 192.0.2.1")

    with LateServer(does) as server, Service([server.hint], "--udp", "4") as service:
        crowd, took = equal_questions(service, "same.test.", count)
        replies = {words.partition("|")[2] for words in crowd.words()}
        print(f"{what}: {took:.2f} s, {arrivals.count('same.test.')} queries, {arrivals.most('same.test.', late * NEARLY)} at once")
        checks.check(f"{what}: once each", crowd.once_each())
        checks.equal(f"{what}: the replies", replies, {" answer same.test. A 192.0.2.1"})
        most = arrivals.most("same.test.", late * NEARLY)
        checks.check(f"{what}: at once", None if 1 < most <= MOST_EQUAL else f"{most} at once")
        asked = arrivals.count("same.test.")
        checks.check(f"{what}: asked", None if asked <= most_asked else f"{asked} times")
        checks.equal(f"{what}: stopped", service.stop(), STOPPED)


def check_each_by_itself(checks):
    """Answers are not joined: what may not be cached is asked for by each question, a few at once."""
    arrivals = Arrivals()

    def does(asked):
        arrivals.note(asked)
        yield 0.05, asked.response(f"aa | answer {asked.question.split()[0]} 0 A 192.0.2.1")

    with LateServer(does) as server, Service([server.hint], "--udp", "4") as service:
        crowd, took = equal_questions(service, "zero.test.", 80)
        print(f"a TTL of 0: {took:.2f} s, {arrivals.count('zero.test.')} queries")
        checks.check("a TTL of 0: once each", crowd.once_each())
        checks.equal("a TTL of 0: the replies", set(crowd.words()), {"- | answer zero.test. A 192.0.2.1"})
        checks.equal("a TTL of 0: asked", arrivals.count("zero.test."), 80)
        most = arrivals.most("zero.test.", 0.05 * NEARLY)
        checks.check("a TTL of 0: at once", None if most <= MOST_EQUAL else f"{most} at once")
        checks.equal("a TTL of 0: stopped", service.stop(), STOPPED)


def check_silent(checks):
    """A server that says nothing: all equal questions end, and others are in nobody's way."""
    arrivals = Arrivals()

    def does(asked):
        arrivals.note(asked)
        if not asked.question.startswith("silent"):
            yield 0, right(asked)

    with LateServer(does) as server, Service([server.hint], "--udp", "4") as service:
        began = time.monotonic()
        with Crowd(service, 32) as crowd:
            crowd.send_all(["silent1.test."] * 400)
            others, seconds = [], []
            for place in range(50):
                asked = time.monotonic()
                others.append(service.ask(f"other{place}.test.").words())
                seconds.append(time.monotonic() - asked)
            crowd.wait()
            took = time.monotonic() - began
        # Questions with one hash wait for one another: in one run of 300, one of these fifty has the hash of the silent one.
        among = sum(sorted(seconds)[:-1])
        print(f"a silent server: {took:.2f} s, {arrivals.count('silent1.test.')} queries, others {among:.2f} s")
        checks.check("a silent server: once each", crowd.once_each())
        checks.equal("a silent server: the replies", set(crowd.words()), {FAILED})
        most = arrivals.most("silent1.test.", EXCHANGE * NEARLY)
        checks.check("a silent server: at once", None if most <= MOST_EQUAL else f"{most} at once")
        checks.check("a silent server: it ends", None if took < 11 else f"{took:.1f} s")
        checks.equal("a silent server: others", others, [answered(f"other{place}.test.") for place in range(50)])
        checks.check("a silent server: others at once", None if among < EXCHANGE else f"{among:.1f} s")
        checks.equal("a silent server: stopped", service.stop(), STOPPED)


def check_undo(checks):
    """Who waits sees what an operator does meanwhile."""

    def does(asked):
        yield 1.5, right(asked)

    with LateServer(does) as server, Service([server.hint], "--udp", "4") as service:
        with Crowd(service, 32) as crowd:
            crowd.send_all(["slow1.test."] * 40)
            until(lambda: service.figures()["num.exchange.current"] >= MOST_EQUAL)
            service.obey("local_data slow1.test. 60 A 192.0.2.7")
            crowd.wait()
        words = crowd.words()
        asked, local = words.count(answered("slow1.test.")), words.count("aa | answer slow1.test. A 192.0.2.7")
        checks.equal("a command meanwhile", (asked <= MOST_EQUAL, asked + local), (True, 40))
        checks.equal("a command meanwhile: stopped", service.stop(), STOPPED)


def misfit(asked):
    octets = asked.response(f"aa | answer {asked.question.split()[0]} 60 A 192.0.2.66")
    return bytes([octets[0] ^ 1]) + octets[1:]


def check_misfits(checks):
    """An exchange survives one datagram that cannot be the reply, and no second one. Its question rests, and others do not."""
    arrivals = Arrivals()

    def does(asked):
        arrivals.note(asked)
        for _ in range(int(asked.question[0])):
            yield 0, misfit(asked)
        yield 0.02, right(asked)

    with LateServer(does) as server, Service([server.hint]) as service:
        checks.equal("no misfit", service.ask("0.test.").words(), answered("0.test."))
        checks.equal("one misfit", service.ask("1.test.").words(), answered("1.test."))
        checks.equal("two misfits", service.ask("2.test.").words(), FAILED)
        checks.equal("two misfits: it is logged", service.logged(b"replies that do not fit"), True)
        checks.equal("two misfits: once more at once", service.ask("2.test.").words(), FAILED)
        checks.equal("two misfits: the question rests", arrivals.count("2.test."), 1)
        checks.equal("two misfits: another question", service.ask("0b.test.").words(), answered("0b.test."))
        checks.equal("two misfits: over TCP from the client", service.ask("1b.test.", "A", "tcp").words(), answered("1b.test."))
        checks.equal("misfits: stopped", service.stop(), STOPPED)


def check_forger(checks):
    """For two minutes a forger who knows each port sends guesses to it at once. No guess is tried beyond two for each exchange, the
    exchanges of the question are few, and what the forger says is never believed."""
    arrivals = Arrivals()

    def does(asked):
        arrivals.note(asked)
        if asked.question.startswith("aim"):
            octets = asked.response(f"aa | answer {asked.question.split()[0]} 60 A 192.0.2.66")
            for guess in range(1, FORGED + 1):
                yield 0, bytes([octets[0] ^ (guess >> 8), octets[1] ^ (guess & 255)]) + octets[2:]
            yield 0.5, right(asked)
        else:
            yield 0, right(asked)

    with LateServer(does) as server, Service([server.hint], "--udp", "4") as service:
        began, seen, others, place = time.monotonic(), set(), [], 0
        while time.monotonic() < began + FORGING_SECONDS:
            seen.add(service.ask("aim1.test.").words())
            others.append(service.ask(f"n{place}.test.").words() == answered(f"n{place}.test."))
            place += 1
            time.sleep(0.2)
        asked = arrivals.count("aim1.test.")
        print(f"a forger: {asked} exchanges in {FORGING_SECONDS} s, {place} questions")
        checks.equal("a forger: what is believed", seen, {FAILED})
        checks.check("a forger: exchanges", None if 1 < asked <= MOST_FORGED else f"{asked} exchanges")
        checks.equal("a forger: other names", all(others), True)
        checks.equal("a forger: stopped", service.stop(), STOPPED)


def check_late(checks):
    """What comes after two datagrams that cannot be the reply is lost, even the right one."""

    def does(asked):
        yield 0, misfit(asked)
        yield 0.1, misfit(asked)
        yield 0.2, right(asked)

    with LateServer(does) as server, Service([server.hint]) as service:
        checks.equal("a late reply", service.ask("late1.test.").words(), FAILED)
        time.sleep(0.3)
        checks.equal("a late reply: nothing is cached", service.ask("late1.test.").words(), FAILED)
        checks.equal("a late reply: stopped", service.stop(), STOPPED)


def main():
    checks = Checks()
    checks.make(check_equal, "a slow server", 60, 0.5, 300, MOST_EQUAL)
    checks.make(check_each_by_itself)
    checks.make(check_silent)
    checks.make(check_undo)
    checks.make(check_misfits)
    checks.make(check_late)
    checks.make(check_forger)
    checks.end()


if __name__ == "__main__":
    main()
