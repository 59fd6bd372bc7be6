"""Rows that are generated, since they are too many or too long for a file. Their results are computed here from the octets."""

import os

from lib.messages import number
from lib.rows import ROWS, call, read_rows

HEAD = "ID 4660 QR 1 OPCODE 0 AA 0 TC 0 RD 0 RA 0 Z 0 RCODE 0"
ASKED = "question a.test. IN A"
QUESTION = b"\1a\4test\0\0\1\0\1"
A, NS, NULL, MX, TXT = 1, 2, 10, 15, 16


def response(*records):
    """A response to the question of a.test., type A."""
    header = number(0x1234) + number(0x8000) + number(1) + number(len(records)) + number(0) * 2
    return header + QUESTION + b"".join(records)


def record(kind, data, owner=b"\xc0\x0c"):
    """A record of the question's name, for a minute."""
    return owner + number(kind) + number(1) + number(60, 4) + number(len(data)) + data


def words(*records):
    """A response in words."""
    answers = [f"answer a.test. 60 IN {text}" for text in records]
    return " | ".join([HEAD, ASKED, *answers]).encode()


def escape(octet):
    """An octet of a label as text (RFC 1035, section 5.1)."""
    letter = chr(octet)
    if letter in '.\\";()':
        return "\\" + letter
    return letter if 33 <= octet <= 126 else f"\\{octet:03}"


def name_text(labels):
    """A name as text, with escapes for all octets that need one."""
    return "".join("".join(escape(octet) for octet in label) + "." for label in labels)


def every_octet():
    """For each octet the name with that octet as its label, and the text of the name."""
    for octet in range(256):
        small = ord(chr(octet).lower()) if octet < 128 else octet
        text = (escape(small) + ".").encode()
        yield call("from_labels", bytes([octet])), text
        yield call("name", text), text
        yield call("labels", f"\\{octet:03}".encode()), b"labels %02x" % small


def fronts():
    """Each beginning of a message, without its end, is too short."""
    _, names = read_rows(os.path.join(ROWS, "messages.rows"))
    for message in (names["QUERY"], names["RESPONSE"]):
        for end in range(len(message)):
            yield call("decode", message[:end]), b"fault Short"


def both_ways(message, told):
    """A message that is written as the octets from which it was read."""
    yield call("decode", message), told
    yield call("encode", message), message.hex().encode()
    yield call("again", message), b"true"


def many_records():
    """3,800 addresses, 60 KiB."""
    addresses = [bytes([10, 0, place // 256, place % 256]) for place in range(3_800)]
    texts = ["A " + ".".join(str(octet) for octet in address) for address in addresses]
    return both_ways(response(*(record(A, address) for address in addresses)), words(*texts))


def many_strings():
    """A TXT of 240 strings of 255 octets, 60 KiB."""
    data = b"".join(b"\xff" + bytes([97 + place % 26]) * 255 for place in range(240))
    text = "TXT " + " ".join(f'"{chr(97 + place % 26) * 255}"' for place in range(240))
    return both_ways(response(record(TXT, data)), words(text))


def long_names():
    """240 names of 255 octets, all of them escaped, 60 KiB."""
    records, texts = [], []
    for place in range(240):
        octets = [128 + (place + step) % 128 for step in range(250)]
        labels = [octets[start : start + 63] for start in range(0, 250, 63)]
        name = b"".join(bytes([len(label)]) + bytes(label) for label in labels) + b"\0"
        records.append(record(MX, number(place) + name))
        texts.append(f"MX {place} " + name_text(labels))
    return both_ways(response(*records), words(*texts))


def many_data():
    """A set of 1,900 addresses that come twice, and one of 16 strings: after the first few data, too, each counts once."""
    addresses = [bytes([10, 0, place // 256, place % 256]) for place in range(1_900)]
    told = ", ".join(".".join(str(octet) for octet in address) for address in addresses)
    message = response(*(record(A, address) for address in addresses * 2))
    yield call("harvest", message, b"a.test", b"A", b"test"), f"set 2 60 a.test. A {told}".encode()
    strings = [b"x" * place for place in range(16)]
    told = ", ".join(f'"{string.decode()}"' for string in strings)
    message = response(*(record(TXT, bytes([len(string)]) + string) for string in strings + strings[::-1]))
    yield call("harvest", message, b"a.test", b"TXT", b"test"), f"set 2 60 a.test. TXT {told}".encode()


def longest():
    """A message of 65,535 octets is written. One of 65,536 is too long, and so is one that its whole names make too long."""
    fill = 65_535 - len(response(record(NULL, b"")))
    message = response(record(NULL, b"x" * fill))
    yield call("encode", message), message.hex().encode()
    yield call("encode", response(record(NULL, b"x" * (fill + 1)))), b"fault TooLong"
    yield call("encode", response(record(NULL, b"x" * (fill - 13)), record(NULL, b"xx"))), b"fault TooLong"
    long_name = (b"\x3f" + b"x" * 63) * 3 + b"\x3d" + b"x" * 61 + b"\0"
    behind = len(response()) + 12
    names = [record(NS, long_name)] + [record(NS, number(0xC000 + behind))] * 300
    yield call("encode", response(*names)), b"fault TooLong"


def longest_lent():
    """244 strings of 255 octets, and one that fills the message to 65,535 octets, are written. With an octet more it is too long."""
    query = number(0x1234) + number(0x0100) + number(1) + number(0) * 3 + QUESTION[:-4] + number(TXT) + number(1)
    strings = [b"x" * 255] * 244

    def lent(*strings):
        return call("lent", query, b"a.test.", b"TXT", number(60, 4), *strings)

    header = query[:2] + number(0x8180) + number(1) + number(len(strings) + 1) + number(0) * 2
    front = header + query[12:] + b"".join(record(TXT, bytes([255]) + string) for string in strings)
    fill = 65_535 - len(front + record(TXT, b"\0"))
    last = record(TXT, bytes([fill]) + b"y" * fill)
    yield lent(*strings, b"y" * fill), (front + last).hex().encode()
    yield lent(*strings, b"y" * (fill + 1)), b"fault TooLong"


def pointer_chains():
    """2,900 owners, each 8,000 pointers away from its label."""
    begin = len(response()) + 12
    places = [begin + 3 + 2 * step for step in range(8_000)]
    chain = b"\1b\0" + b"".join(number(0xC000 + place) for place in [begin, *places[:-1]])
    first = record(NULL, chain)
    message = response(first, *[record(A, b"\xc0\0\2\1", number(0xC000 + places[-1]))] * 2_900)
    whole = response(first, *[record(A, b"\xc0\0\2\1", b"\1b\0")] * 2_900)
    texts = [f"a.test. 60 IN TYPE10 \\# {len(chain)} {chain.hex()}"] + ["b. 60 IN A 192.0.2.1"] * 2_900
    yield call("decode", message), " | ".join([HEAD, ASKED] + [f"answer {text}" for text in texts]).encode()
    yield call("encode", message), whole.hex().encode()
    query = message[:2] + number(0x0100) + message[4:]
    yield call("ask", query), b"query ID 4660 RD 1 a.test. IN A " + QUESTION.hex().encode()


def questions_of_many():
    """Queries with 60 KiB after the question."""
    header = number(0x1234) + number(0x0100) + number(1) + number(0) * 2
    records = [record(A, b"\xc0\0\2\1")] * 3_800
    query = header + number(len(records)) + QUESTION + b"".join(records)
    yield call("ask", query), b"query ID 4660 RD 1 a.test. IN A " + QUESTION.hex().encode()
    yield call("ask", query + b"\0"), b"rcode 1"


def made_files():
    """The generated files of rows, by name."""
    return {
        "every octet": every_octet(),
        "fronts": fronts(),
        "many records": many_records(),
        "many strings": many_strings(),
        "many data": many_data(),
        "long names": long_names(),
        "longest": longest(),
        "longest that is lent": longest_lent(),
        "pointer chains": pointer_chains(),
        "questions with much behind": questions_of_many(),
    }
