"""A service whose cache is full: it keeps learning, it forgets the names that end first, and neither a response nor a zone fills it."""

from lib.checks import Checks
from lib.nameserver import NameServers
from lib.service import HOST, STOPPED, Service

# The most sets that one response brings to the cache, and the owners of a response that is nearly as long as a message may be.
MOST_SETS, OWNERS = 64, 2_600

# The server of a zone whose owner would fill the cache.
HOSTILE = "127.0.0.2"


# The most addresses that a set has which is kept, and one more.
LONG_SETS = (("few.test.", 170), ("more.test.", 171))


def cut(records):
    """What a server does that has these records: it sends them over TCP alone."""
    return lambda asked: iter([asked.response("aa tc" if asked.over == "udp" else f"aa{records}")])


def many(asked):
    """A response of nearly 64 KiB, with an address for each of many names below the zone."""
    if asked.over == "udp":
        yield asked.response("aa tc")
        return
    name = asked.question.split()[0]
    others = "".join(f" | additional x{place}.z. 86400 A 192.0.2.2" for place in range(OWNERS))
    yield asked.response(f"aa | answer {name} 60 A 192.0.2.1{others}")


def many_names(asked):
    """A response of one datagram, with an address that lives for a day for each of many names in the zone of the question."""
    name = asked.question.split()[0]
    zone = name.split(".", 1)[1]
    others = "".join(f" | additional {name[:-1].replace('.', '-')[:20]}-{place}.{zone} 86400 A 192.0.2.2" for place in range(MOST_SETS - 1))
    yield asked.response(f"aa | answer {name} 86400 A 192.0.2.1{others}")


def shown(service, name):
    return service.obey(f"look {name} A")[0].split()[0]


def asked_of(service):
    return service.figures()["total.num.cachemiss"]


def check_learning(checks, cells):
    """Each new name is in the cache once it was asked for, however full that is."""
    zone = {f"n{place}.test. A": f"aa | answer n{place}.test. {600 + place} A 192.0.2.1" for place in range(40)}
    with NameServers({HOST: zone}) as servers, Service([f"{HOST}@{servers.port}"], "--cells", str(cells)) as service:
        for place in range(40):
            service.ask(f"n{place}.test.")
            misses = asked_of(service)
            service.ask(f"n{place}.test.")
            checks.equal(f"{cells} cells: name {place} is kept", asked_of(service), misses)
        told = service.figures()
        checks.equal(f"{cells} cells: all in use", told["cache.cells"], cells)
        checks.equal(f"{cells} cells: so many were forgotten", told["cache.forgotten"], 40 - cells)
        held = [place for place in range(40) if shown(service, f"n{place}.test.") == "found"]
        checks.equal(f"{cells} cells: those that end last are kept", held, list(range(40 - cells, 40)))
        checks.equal(f"{cells} cells: stopped", service.stop(), STOPPED)


def check_undone(checks):
    """A flush does not hide which name ends first: a name that an undo would bring back is forgotten like any other."""
    zone = {f"n{place}.test. A": f"aa | answer n{place}.test. {600 + 60 * place} A 192.0.2.1" for place in range(4)}
    with NameServers({HOST: zone}) as servers, Service([f"{HOST}@{servers.port}"], "--cells", "2") as service:
        for place in (0, 1):
            service.ask(f"n{place}.test.")
        service.obey("flush_zone test.")
        service.ask("n2.test.")
        service.obey("undo")
        held = [shown(service, f"n{place}.test.") for place in range(3)]
        checks.equal("undone: the flushed name that ends first is gone", held, ["unknown", "found", "found"])
        service.obey("redo")
        service.ask("n3.test.")
        service.obey("undo")
        held = [shown(service, f"n{place}.test.") for place in range(4)]
        checks.equal("undone: after a redo too", held, ["unknown", "unknown", "found", "found"])
        checks.equal("undone: stopped", service.stop(), STOPPED)


def check_large_responses(checks):
    """One response brings so many sets at most, the answer among them. Further ones take the places of no name that ends later."""
    with NameServers({HOST: {"*": many}}) as servers, Service([f"{HOST}@{servers.port}"], "--cells", "100") as service:
        for turn, wanted in ((0, MOST_SETS), (1, MOST_SETS + 1), (2, MOST_SETS + 2)):
            service.ask(f"a{turn}.z.")
            checks.equal(f"large responses: cells after {turn + 1}", service.figures()["cache.cells"], wanted)
            checks.equal(f"large responses: the answer {turn + 1} is kept", shown(service, f"a{turn}.z."), "found")
        checks.equal("large responses: stopped", service.stop(), STOPPED)


def check_glue(checks):
    """Addresses of the servers that a response names are kept, whatever additional data come before them."""
    def crowded(asked):
        if asked.over == "udp":
            yield asked.response("aa tc")
            return
        others = "".join(f" | additional x{place}.z. 86400 A 192.0.2.2" for place in range(OWNERS // 2))
        yield asked.response(f"aa | answer a.z. 60 A 192.0.2.1 | authority z. 60 NS ns.z.{others} | additional ns.z. 60 A {HOST}")

    with NameServers({HOST: {"*": crowded}}) as servers, Service([f"{HOST}@{servers.port}"], "--cells", "100") as service:
        service.ask("a.z.")
        checks.equal("glue: cells", service.figures()["cache.cells"], MOST_SETS)
        checks.equal("glue: the answer is kept", shown(service, "a.z."), "found")
        # The address comes last in the response, and its set is one of 64.
        checks.equal("glue: the address is kept", service.obey("servers a.z.")[0].split(), ["servers", "z.", "cache", f"{HOST}@53"])
        checks.equal("glue: stopped", service.stop(), STOPPED)


def check_long_sets(checks):
    """A set whose data take much memory is answered, and not kept."""
    few, more = ("".join(f" | answer {name} 60 A 10.0.{place // 256}.{place % 256}" for place in range(count)) for name, count in LONG_SETS)
    strings = f" | answer strings.test. 60 TXT {' '.join(30_000 * 'x')}"
    zone = {"few.test. A": cut(few), "more.test. A": cut(more), "strings.test. TXT": cut(strings)}
    with NameServers({HOST: zone}) as servers, Service([f"{HOST}@{servers.port}"]) as service:
        for name, kind, records, kept in (("few.test.", "A", 170, True), ("more.test.", "A", 171, False), ("strings.test.", "TXT", 1, False)):
            for turn in (1, 2):
                misses = asked_of(service)
                checks.equal(f"{name} has so many records, time {turn}", len(service.ask(name, kind, "tcp").records), records)
                checks.equal(f"{name} is asked for, time {turn}", asked_of(service) - misses, int(turn == 1 or not kept))
        checks.equal("long sets: cells", service.figures()["cache.cells"], 1)
        checks.equal("long sets: stopped", service.stop(), STOPPED)


def hits(service, names):
    """How many of these names are answered from the cache."""
    misses = asked_of(service)
    for name in names:
        service.ask(name)
    return len(names) - (asked_of(service) - misses)


def check_shares(checks):
    """A zone has no more than a share of the cells, with all zones below its name. Names that end sooner stay in the cache."""
    honest = [f"n{place}.zone{place % 20}.honest.test." for place in range(200)]
    zones = {"*": lambda asked: iter([asked.response(f"aa | answer {asked.question.split()[0]} 300 A 192.0.2.1")])}
    with NameServers({HOST: zones, HOSTILE: {"*": many_names}}) as servers, Service(["192.0.2.9"], "--cells", "2000") as service:
        for place in range(20):
            service.obey(f"stub_add zone{place}.honest.test. {HOST}@{servers.port}", f"stub_add zone{place}.owner.test. {HOSTILE}@{servers.port}")
        service.obey(f"stub_add owner.test. {HOSTILE}@{servers.port}")
        checks.equal("shares: no name is in the cache yet", hits(service, honest), 0)
        for place in range(100):
            service.ask(f"a{place}.owner.test.")
            service.ask(f"b{place}.zone{place % 20}.owner.test.")
        checks.equal("shares: each name that ends sooner is still there", hits(service, honest), len(honest))
        # The zones of each name have at most an eighth of the cells that are free.
        told = service.figures()
        checks.equal("shares: a zone has no more than its share", told["cache.cells"] - len(honest) <= 2_000 // 8, True)
        checks.equal("shares: it has one", told["cache.cells"] - len(honest) >= 2_000 // 12, True)
        checks.equal("shares: nothing was forgotten", told["cache.forgotten"], 0)
        checks.equal("shares: the zone is answered all the same", service.ask("last.owner.test.").flags & 0xF, 0)
        checks.equal("shares: stopped", service.stop(), STOPPED)


def check_made_up(checks):
    """Names that nobody has, below whatever top-level zone, have one share together. A referral is still kept."""
    def answers(asked):
        name = asked.question.split()[0]
        top = name.split(".")[-2]
        yield asked.response(f"aa rcode 3 | authority {top}. 3600 SOA ns. host. 1 2 3 4 3600")

    with NameServers({HOST: {"*": answers}}) as servers, Service(["192.0.2.9"], "--cells", "1000") as service:
        for place in range(10):
            service.obey(f"stub_add top{place}. {HOST}@{servers.port}")
        for place in range(400):
            service.ask(f"made-up{place}.top{place % 10}.")
        told = service.figures()
        # A set of each zone, with its SOA record, and the denials.
        checks.equal("made up: they have no more than their share", told["cache.cells"] - 10 <= 1_000 // 8, True)
        checks.equal("made up: they have one", told["cache.cells"] - 10 >= 1_000 // 12, True)
        checks.equal("made up: stopped", service.stop(), STOPPED)


def main():
    checks = Checks()
    for cells in (1, 2, 3, 20):
        checks.make(check_learning, cells)
    checks.make(check_undone)
    checks.make(check_large_responses)
    checks.make(check_glue)
    checks.make(check_long_sets)
    checks.make(check_shares)
    checks.make(check_made_up)
    checks.end()


main()
