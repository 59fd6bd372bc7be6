#!/usr/bin/env python3
"""Decodes the octet strings that src/drawn/draws.rt draws, writes what they say again, and prints the last lines that stdout must hold.

Written from RFC 1035 section 4 (and RFC 3596, RFC 2782, RFC 2181 section 8) apart from the Rattle code, so that
`reference.py | diff - <(sed -n '/^drawn/,$p' stdout)` compares two decoders, two encoders and two servers' views of a query."""
import struct

QUERY = bytes.fromhex("123401000001000000000000" "0141" "0474457374" "00" "00010001")
RESPONSE = bytes.fromhex(
    "123485800001000400020003" "0161" "0474657374" "00" "00ff0001"
    "c00c00010001" "0000003c" "0004" "c0000201"
    "c00c001c0001" "80000000" "0010" "20010db8000000000000000000000001"
    "c00c000f0001" "0000003c" "0004" "000ac00c"
    "c00c00100001" "0000003c" "0007" "02616200026364"
    "c00e00020001" "0000003c" "0004" "014ec00e"
    "c00e00060001" "0000003c" "001a" "c00e016dc00e" "0000000100000002000000030000000400000005"
    "c00c00210001" "0000003c" "0008" "000100020035c00c"
    "c00c00010003" "0000003c" "0005" "c0ff404180"
    "c00c00230001" "7fffffff" "0000")
WORD = 0xFFFFFFFF


class Pcg32:
    """The generator of PCG's C code, XSH RR 64/32."""

    def __init__(self, state, stream):
        self.increment = (stream << 1) | 1
        self.state = state + self.increment
        self.step()

    def step(self):
        self.state = (self.state * 6364136223846793005 + self.increment) % 2**64

    def next(self):
        old = self.state
        self.step()
        word = (((old >> 18) ^ old) >> 27) & WORD
        turn = old >> 59
        return ((word >> turn) | (word << (-turn & 31))) & WORD


def push_octets(rng, out, count):
    for _ in range(count):
        out.append(rng.next() % 256)


def change(rng, out):
    at, octet, kind = rng.next() % 300, rng.next() % 256, rng.next() % 16
    if kind == 0:
        del out[at:]
    elif kind == 1:
        push_octets(rng, out, 3)
    elif at < len(out):
        out[at] = {2: octet % 4 + 192, 3: octet % 64}.get(kind, octet)


def drawn(rng):
    out = bytearray()
    if rng.next() % 2 == 0:
        push_octets(rng, out, rng.next() % 601)
    else:
        out += QUERY if rng.next() % 8 == 0 else RESPONSE
        for _ in range(rng.next() % 4):
            change(rng, out)
    return bytes(out)


class Fault(Exception):
    """A word, and where it has one the offset."""


class Cut(Exception):
    """The octets end too soon: those of the message, or of RDATA."""


class Reader:
    def __init__(self, octets, at, end):
        self.octets, self.at, self.end = octets, at, end

    def take(self, count):
        if self.at + count > self.end:
            raise Cut
        self.at += count
        return self.octets[self.at - count:self.at]

    def numbers(self, form):
        return list(struct.unpack(form, self.take(struct.calcsize(form))))

    def name(self):
        """The name from here on. Its own octets end where the reader does; behind a pointer the whole message is read."""
        start, labels, size = self.at, [], 1
        reader = run = None
        while True:
            here = reader or self
            run = here.at if run is None else run
            at = here.at
            try:
                octet = here.take(1)[0]
                if octet == 0:
                    break
                if octet < 64:
                    size += octet + 1
                    if size > 255:
                        raise Fault("BadName", start)
                    labels.append(bytes([octet]) + here.take(octet).lower())
                elif octet >= 192:
                    to = (octet & 63) << 8 | here.take(1)[0]
                    if to >= run:
                        raise Fault("BadPointer", at)
                    reader, run = Reader(self.octets, to, len(self.octets)), to
                else:
                    raise Fault("BadName", start)
            except Cut:
                raise Cut if reader is None else Fault("Short")
        return "name", b"".join(labels)

    def string(self):
        return "string", self.take(self.take(1)[0])

    def shorts(self, count):
        return [("short", number) for number in self.numbers(f">{count}H")]

    def longs(self, count):
        return [("long", number) for number in self.numbers(f">{count}I")]


# What a part of a question or record says, as numbers, as text and as octets: (kind, value).

def said(part):
    kind, value = part
    return [value] if kind in ("short", "long") else list(value) + [256]


def escaped(octet, specials, plain):
    """An octet in text (RFC 1035, section 5.1): a special one behind a backslash, one that is not plain by its number."""
    if octet in specials:
        return b"\\" + bytes([octet])
    return bytes([octet]) if octet in plain else b"\\%03d" % octet


def name_text(value):
    text = b""
    while value:
        label, value = value[1:value[0] + 1], value[value[0] + 1:]
        text += b"".join(escaped(octet, b'."\\;()', range(33, 127)) for octet in label) + b"."
    return text or b"."


def part_text(part):
    kind, value = part
    if kind in ("short", "long"):
        return b"%d" % value
    if kind == "name":
        return name_text(value)
    if kind == "string":
        return b'"' + b"".join(escaped(octet, b'"\\', range(32, 127)) for octet in value) + b'"'
    if kind == "address" and len(value) == 4:
        return b".".join(b"%d" % octet for octet in value)
    if kind == "address":
        return b":".join(b"%x" % group for group in struct.unpack(">8H", value))
    return b"\\# %d %s" % (len(value), value.hex().encode()) if value else b"\\# 0"


def written(part):
    kind, value = part
    if kind == "short":
        return struct.pack(">H", value)
    if kind == "long":
        return struct.pack(">I", value)
    if kind == "name":
        return value + b"\0"
    return bytes([len(value)]) + value if kind == "string" else value


def form_of(reader, kind):
    """The parts of data of a type in class IN, or None for a type without a form."""
    if kind in (1, 28):
        return [("address", reader.take(4 if kind == 1 else 16))]
    if kind in (2, 5, 12):
        return [reader.name()]
    if kind == 15:
        return reader.shorts(1) + [reader.name()]
    if kind == 6:
        return [reader.name(), reader.name()] + reader.longs(5)
    if kind == 33:
        return reader.shorts(3) + [reader.name()]
    if kind == 16:
        strings = [reader.string()]
        while reader.at < reader.end:
            strings.append(reader.string())
        return strings
    return None


def data(octets, begin, end, kind, where):
    reader = Reader(octets, begin, end)
    try:
        parts = form_of(reader, kind) if where == 1 else None
        if parts is None:
            return [("octets", octets[begin:end])]
        if reader.at != end:
            raise Fault("BadData", begin)
        return parts
    except Cut:
        raise Fault("BadData", begin)


def decode(octets):
    """What the octets say, or the first fault."""
    try:
        return parts_of(octets)
    except Cut:
        raise Fault("Short")


def parts_of(octets):
    """Identifier, flags, counts, questions (name, type, class) and records (name, type, class, TTL, data)."""
    reader = Reader(octets, 0, len(octets))
    identifier, flags, *counts = reader.numbers(">6H")
    questions = [[reader.name()] + reader.shorts(2) for _ in range(counts[0])]
    records = []
    for _ in range(sum(counts[1:])):
        owner = reader.name()
        kind, where, ttl, size = reader.numbers(">HHIH")
        begin = reader.at
        reader.take(size)
        fixed = [("short", kind), ("short", where), ("long", ttl if ttl < 2**31 else 0)]
        records.append((owner, fixed, data(octets, begin, begin + size, kind, where)))
    if reader.at != len(octets):
        raise Fault("Trailing")
    return identifier, flags, counts, questions, records


def numbers_of(message):
    """All that a message says, as numbers."""
    identifier, flags, counts, questions, records = message
    numbers = [identifier, flags >> 15] + [flags >> bit & 1 for bit in (10, 9, 8, 7)]
    numbers += [flags >> 11 & 15, flags >> 4 & 7, flags & 15]
    for parts in questions:
        for part in parts:
            numbers += said(part)
    for owner, fixed, body in records:
        for part in [owner] + fixed + [("text", b" ".join(map(part_text, body)))]:
            numbers += said(part)
    return numbers


def encode(message):
    """Names whole, but for an owner that is the first question's."""
    identifier, flags, counts, questions, records = message
    out = struct.pack(">6H", identifier, flags, *counts)
    out += b"".join(written(part) for parts in questions for part in parts)
    for owner, fixed, body in records:
        out += b"\xc0\x0c" if questions and owner == questions[0][0] else written(owner)
        body = b"".join(map(written, body))
        out += b"".join(map(written, fixed)) + struct.pack(">H", len(body)) + body
    return out


def has_pointer(octets, at):
    while octets[at] not in (0, *range(192, 256)):
        at += octets[at] + 1
    return octets[at] != 0


def asked(octets):
    """Whether there is no reply, a fault with an RCODE, or a query."""
    if len(octets) < 12 or octets[2] >> 7:
        return "no reply"
    if octets[2] >> 3 & 15:
        return "fault 4"
    if octets[4:6] != b"\0\x01":
        return "fault 1"
    try:
        (_, (_, kind), (_, where)), = decode(octets)[3]
    except Fault:
        return "fault 1"
    if has_pointer(octets, 12):
        return "fault 1"
    excluded = kind in (3, 4, 7, 8, 9, 14, 41) or 251 <= kind <= 255
    return "fault 4" if where != 1 or excluded else "query"


def main():
    rng = Pcg32(42, 54)
    tally = dict.fromkeys(("Short", "Trailing", "BadName", "BadPointer", "BadData"), 0)
    verdicts = dict.fromkeys(("no reply", "fault 1", "fault 4", "query"), 0)
    messages = items = offsets = values = size = octets = 0
    for _ in range(100_000):
        string = drawn(rng)
        verdicts[asked(string)] += 1
        try:
            message = decode(string)
            messages, items = messages + 1, items + sum(message[2])
            for number in numbers_of(message):
                values = (values * 31 + number) & WORD
            again = encode(message)
            assert encode(decode(again)) == again
            size = (size + len(again)) & WORD
            for octet in again:
                octets = (octets * 31 + octet) & WORD
        except Fault as fault:
            tally[fault.args[0]] += 1
            for at in fault.args[1:]:
                offsets = (offsets * 31 + at) & WORD
    print("drawn 100000")
    print(f"messages {messages}\nitems {items}")
    print(f"short {tally['Short']}\ntrailing {tally['Trailing']}")
    print(f"bad_names {tally['BadName']}\nbad_pointers {tally['BadPointer']}\nbad_data {tally['BadData']}")
    print(f"offsets {offsets}\nvalues {values}")
    print(f"written_again {messages}\noctets {size}\noctet_values {octets}")
    print(f"no_replies {verdicts['no reply']}\nmalformed {verdicts['fault 1']}")
    print(f"not_implemented {verdicts['fault 4']}\nqueries {verdicts['query']}")


main()
