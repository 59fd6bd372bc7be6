"""Long responses as octets: those of honest name servers, and those that would take too long to read."""

from lib.messages import name_octets, number

TYPES = {"A": 1, "NS": 2, "CNAME": 5, "MX": 15, "TXT": 16, "AAAA": 28}
MOST = 65_535
# The place of the question's name, right after the header.
QUESTION = 12


def pointer(place):
    return number(0xC000 | place)


def record(owner, kind, data):
    return owner + number(TYPES.get(kind, kind)) + number(1) + number(60, 4) + number(len(data)) + data


class Response:
    """A response to a query, to which records are added."""

    def __init__(self, query):
        self.octets = bytearray(query[:2] + number(0x8400) + number(1) + bytes(6) + query[QUESTION:])

    def add(self, owner, kind, data, section=6):
        """Adds a record, and returns the place of its data. The sections count their records at 6, 8 and 10."""
        at = len(self.octets) + len(owner) + 10
        self.octets += record(owner, kind, data)
        self.octets[section : section + 2] = number(int.from_bytes(self.octets[section : section + 2], "big") + 1)
        return at

    def room(self, size):
        return len(self.octets) + size <= MOST

    def whole(self):
        return bytes(self.octets)


def label(text):
    return name_octets(text)[:-1]


def addresses(query):
    """4,000 addresses."""
    response = Response(query)
    for n in range(4_000):
        response.add(pointer(QUESTION), "A", number(0x0A000000 + n, 4))
    return response.whole()


def owners(query):
    """An address, and those of 2,600 names below the question's."""
    response = Response(query)
    response.add(pointer(QUESTION), "A", bytes([10, 0, 0, 1]))
    for n in range(2_600):
        response.add(label(f"h{n:04}") + pointer(QUESTION), "A", number(0x0A000000 + n, 4), section=10)
    return response.whole()


def exchanges(query):
    """400 mail exchanges below a name of 122 labels, and as many octets as the question's name leaves it."""
    response = Response(query)
    long = response.add(pointer(QUESTION), 99, 122 * label("x") + b"\0")
    for n in range(400):
        response.add(pointer(QUESTION), "MX", number(n) + label(f"m{n:04}") + pointer(long))
    return response.whole()


def aliases(query):
    """100 aliases, each of the next, with names of 120 octets, and an address."""
    response, owner = Response(query), pointer(QUESTION)
    for n in range(100):
        owner = pointer(response.add(owner, "CNAME", label(f"a{n:059}") + label(f"b{n:056}") + b"\0"))
    response.add(owner, "A", bytes([10, 0, 0, 1]))
    return response.whole()


def strings(query):
    """One text of as many octets as a message can have, in strings of 255."""
    response = Response(query)
    count = (MOST - len(response.octets) - 12) // 256
    response.add(pointer(QUESTION), "TXT", count * (b"\xff" + 255 * b"x"))
    return response.whole()


def delegation(query):
    """Thirteen name servers with two addresses each."""
    response, places = Response(query), []
    for n in range(13):
        host = label(f"ns{n:02}") + (pointer(places[0] + 5) if places else name_octets("servers.example."))
        places.append(response.add(pointer(QUESTION), "NS", host))
    for n, place in enumerate(places):
        response.add(pointer(place), "A", bytes([10, 0, 0, n]), section=10)
        response.add(pointer(place), "AAAA", number(n, 16), section=10)
    return response.whole()


def chained(query):
    """A name of 122 labels with a pointer after each of the first 120, named twice by each of as many records as there is room for."""
    response = Response(query)
    at, data, last = len(response.octets) + 12, b"", QUESTION
    for _ in range(120):
        here = at + len(data)
        data += label("x") + pointer(last)
        last = here
    response.add(pointer(QUESTION), 99, data)
    return filled(response, pointer(last), pointer(last))


def flat(query):
    """A name of 122 labels, named twice by each of as many records as there is room for."""
    response = Response(query)
    place = response.add(pointer(QUESTION), 99, 122 * label("x") + b"\0")
    return filled(response, pointer(place), pointer(place))


def wide(query):
    """A name of four long labels, named twice by each of as many records as there is room for."""
    response = Response(query)
    place = response.add(pointer(QUESTION), 99, 3 * label("x" * 63) + label("x" * 61) + b"\0")
    return filled(response, pointer(place), pointer(place))


def filled(response, owner, data):
    while response.room(len(record(owner, "CNAME", data))):
        response.add(owner, "CNAME", data)
    return response.whole()


HONEST = {"addresses": ("A", addresses), "owners": ("A", owners), "exchanges": ("MX", exchanges), "aliases": ("A", aliases), "strings": ("TXT", strings), "delegation": ("NS", delegation)}
DEAR = {"chained": chained, "flat": flat, "wide": wide}
