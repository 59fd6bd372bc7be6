"""DNS replies as text, in the words of tests/lib/messages.py."""

import ipaddress
from dataclasses import dataclass

from lib.messages import SECTIONS, TYPE_NAMES

QR, AA, TC, RD, RA = 0x8000, 0x0400, 0x0200, 0x0100, 0x0080


def number_at(octets, at, size=2):
    if at + size > len(octets):
        raise ValueError(f"octets end before {at + size}")
    return int.from_bytes(octets[at : at + size], "big")


def name_at(octets, at):
    """The name that begins at a place, as text, and the place after it."""
    labels, end = [], None
    while True:
        length = number_at(octets, at, 1)
        if length >= 0xC0:
            end = end or at + 2
            to = number_at(octets, at) & 0x3FFF
            if to >= at:
                raise ValueError(f"a pointer at {at} leads on")
            at = to
        elif length == 0:
            return "".join(label + "." for label in labels) or ".", end or at + 1
        else:
            labels.append(octets[at + 1 : at + 1 + length].decode("ascii"))
            at += 1 + length


def strings_in(data):
    at = 0
    while at < len(data):
        yield '"' + data[at + 1 : at + 1 + data[at]].decode("ascii") + '"'
        at += 1 + data[at]


def data_text(octets, kind, start, end):
    """The data of a record as the resolver's lines write it."""
    data = octets[start:end]
    if kind == "A":
        return str(ipaddress.IPv4Address(data))
    if kind == "AAAA":
        return ":".join(f"{number_at(data, at):x}" for at in range(0, 16, 2))
    if kind in ("NS", "CNAME", "PTR"):
        return name_at(octets, start)[0]
    if kind == "MX":
        return f"{number_at(octets, start)} {name_at(octets, start + 2)[0]}"
    if kind == "SRV":
        return " ".join([*(str(number_at(octets, start + at)) for at in (0, 2, 4)), name_at(octets, start + 6)[0]])
    if kind == "TXT":
        return " ".join(strings_in(data))
    if kind == "SOA":
        server, at = name_at(octets, start)
        mail, at = name_at(octets, at)
        return " ".join([server, mail, *(str(number_at(octets, at + place, 4)) for place in range(0, 20, 4))])
    return f"\\# {len(data)} {data.hex()}".rstrip()


@dataclass(frozen=True)
class Record:
    section: str
    owner: str
    ttl: int
    kind: str
    data: str


@dataclass(frozen=True)
class Reply:
    id: int
    flags: int
    question: str
    records: tuple

    def head(self):
        """The words of the header, without those of every reply to a query with RD."""
        words = [word for word, bit in (("aa", AA), ("tc", TC)) if self.flags & bit]
        if self.flags & 0xF:
            words.append(f"rcode {self.flags & 0xF}")
        if self.flags & ~(AA | TC | 0xF) != QR | RD | RA:
            words.append(f"flags {self.flags:04x}")
        return words

    def words(self):
        """The reply without TTLs: `aa | answer a.test. A 192.0.2.1`; `-` if the header has no word."""
        records = [f"{r.section} {r.owner} {r.kind} {r.data}" for r in self.records]
        return " | ".join([" ".join(self.head()) or "-", *records])

    def with_times(self):
        """The same with TTLs."""
        records = [f"{r.section} {r.owner} {r.ttl} {r.kind} {r.data}" for r in self.records]
        return " | ".join([" ".join(self.head()) or "-", *records])


def reply_in(octets):
    """The reply that octets spell, to their end."""
    counts = [number_at(octets, at) for at in (4, 6, 8, 10)]
    at, questions, records = 12, [], []
    for _ in range(counts[0]):
        name, at = name_at(octets, at)
        kind = number_at(octets, at)
        questions.append(f"{name} {TYPE_NAMES.get(kind, f'TYPE{kind}')}")
        at += 4
    for section, count in zip(SECTIONS, counts[1:]):
        for _ in range(count):
            owner, at = name_at(octets, at)
            number, ttl, length = number_at(octets, at), number_at(octets, at + 4, 4), number_at(octets, at + 8)
            kind = TYPE_NAMES.get(number, f"TYPE{number}")
            records.append(Record(section, owner, ttl, kind, data_text(octets, kind, at + 10, at + 10 + length)))
            at += 10 + length
    if at != len(octets):
        raise ValueError(f"{len(octets) - at} octets follow the message")
    return Reply(number_at(octets, 0), number_at(octets, 2), " ".join(questions), tuple(records))
