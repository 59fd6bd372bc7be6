"""DNS messages as octets (RFC 1035, section 4.1), for servers that tests play."""

import ipaddress

TYPES = {"A": 1, "NS": 2, "CNAME": 5, "SOA": 6, "MX": 15, "TXT": 16, "AAAA": 28}
TYPE_NAMES = {number: name for name, number in TYPES.items()}
CLASSES = {"IN": 1, "CH": 3}
SECTIONS = ("answer", "authority", "additional")


def number(value, size=2):
    return value.to_bytes(size, "big")


def name_octets(name):
    labels = [label for label in name.split(".") if label]
    return b"".join(number(len(label), 1) + label.encode() for label in labels) + b"\0"


def type_number(word):
    return TYPES[word] if word in TYPES else int(word.removeprefix("TYPE"))


def record_data(kind, words):
    if kind == "A":
        return ipaddress.IPv4Address(words[0]).packed
    if kind == "AAAA":
        return ipaddress.IPv6Address(words[0]).packed
    if kind in ("NS", "CNAME"):
        return name_octets(words[0])
    if kind == "MX":
        return number(int(words[0])) + name_octets(words[1])
    if kind == "SOA":
        return name_octets(words[0]) + name_octets(words[1]) + b"".join(number(int(word), 4) for word in words[2:])
    if kind == "TXT":
        return b"".join(number(len(word), 1) + word.encode() for word in words)
    return bytes.fromhex("".join(words))


def record_octets(text):
    """A record in words: NAME TTL [CLASS] TYPE DATA."""
    owner, ttl, *words = text.split()
    of_class = CLASSES[words.pop(0)] if words[0] in CLASSES else 1
    kind, *words = words
    data = record_data(kind, words)
    return name_octets(owner) + number(type_number(kind)) + number(of_class) + number(int(ttl), 4) + number(len(data)) + data


def question_octets(name, kind):
    return name_octets(name) + number(type_number(kind)) + number(1)


def question_of(octets):
    """The name and type that a query asks for, as text."""
    at, labels = 12, []
    while octets[at]:
        labels.append(octets[at + 1 : at + 1 + octets[at]].decode())
        at += 1 + octets[at]
    kind = int.from_bytes(octets[at + 1 : at + 3], "big")
    name = "".join(label + "." for label in labels) or "."
    return f"{name} {TYPE_NAMES.get(kind, f'TYPE{kind}')}"


def response(asked, text):
    """A response to a query for NAME TYPE, in words: those of its header, and its records, each after a bar and its section.

    A number before a section repeats the record, with each `%` as 0, 1, 2 and so on.

    The header has words such as `aa`, `tc`, `rcode 3`, `opcode 1`, `query`, `id 1` (the difference of the identifier), `asks NAME
    TYPE` (another question), `questions 2` (the question twice).
    """
    head, *parts = [part.strip() for part in text.split("|")]
    words = head.split()
    identifier, flags, question, questions = 0, 0x8000, question_octets(*asked.split()), 1
    while words:
        word = words.pop(0)
        if word == "aa":
            flags |= 0x0400
        elif word == "tc":
            flags |= 0x0200
        elif word == "rcode":
            flags |= int(words.pop(0))
        elif word == "opcode":
            flags |= int(words.pop(0)) << 11
        elif word == "query":
            flags &= 0x7FFF
        elif word == "id":
            identifier = int(words.pop(0))
        elif word == "asks":
            question = question_octets(words.pop(0), words.pop(0))
        elif word == "questions":
            questions = int(words.pop(0))
        else:
            raise ValueError(f"no header has {word}")
    sections = {section: [] for section in SECTIONS}
    for part in parts:
        times, section, record = part.split(" ", 2) if part[0].isdigit() else ("1", *part.split(" ", 1))
        sections[section] += [record_octets(record.replace("%", str(nth))) for nth in range(int(times))]
    header = number(identifier) + number(flags) + number(questions) + b"".join(number(len(sections[s])) for s in SECTIONS)
    return header + question * questions + b"".join(b"".join(sections[s]) for s in SECTIONS)
