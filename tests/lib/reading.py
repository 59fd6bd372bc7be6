"""The meaning of a line: an event, or its first fault. A name is the tuple of its labels, and data is its text as written.

Names with escapes, and texts that random scripts do not have, are left out.
"""

import ipaddress
import re
from dataclasses import dataclass

LONGEST_LINE = 1_024
LONGEST_TTL, LONGEST_NEGATIVE_TTL = 86_400, 3_600
GREATEST_TTL = 2**31 - 1
MOST_TICKETS = 2**62 - 1

TYPES = {
    "A": 1, "NS": 2, "CNAME": 5, "SOA": 6, "PTR": 12, "MX": 15, "TXT": 16, "AAAA": 28, "SRV": 33, "NAPTR": 35, "DNAME": 39,
}
TYPE_NAMES = {number: name for name, number in TYPES.items()}
NO_TYPES = {3, 4, 7, 8, 9, 14, 41, *range(251, 256)}
ZONE_TYPES = (
    "deny refuse static transparent typetransparent redirect"
    " always_transparent always_refuse always_nxdomain always_nodata"
).split()


# ---- words

class Fault(Exception):
    """The fault of a line."""


def words_of(text):
    """The words between blanks; a blank inside quotes belongs to its word."""
    return re.findall(r'(?:\\.|"(?:\\.|[^"\\])*(?:"|$)|[^ \t"\\])+', text)


def name_in(word, fault="bad_name"):
    """A name without escapes."""
    labels = word.lower().removesuffix(".").split(".") if word != "." else []
    if any(not 1 <= len(label) <= 63 for label in labels) or sum(len(label) + 1 for label in labels) > 254:
        raise Fault(fault)
    return tuple(labels)


def name_text(name):
    return "".join(label + "." for label in name) or "."


def number_in(word, least, most, fault="bad_data"):
    if not re.fullmatch("[0-9]+", word) or not least <= int(word) <= most:
        raise Fault(fault)
    return int(word)


def type_in(word):
    found = TYPES.get(word.upper())
    numbered = re.fullmatch("TYPE(0|[1-9][0-9]{0,4})", word.upper())
    kind = found if found is not None else int(numbered[1]) if numbered else None
    if kind is None or kind > 65_535 or kind in NO_TYPES:
        raise Fault("bad_type")
    return kind


def type_text(kind):
    return TYPE_NAMES.get(kind, f"TYPE{kind}")


def ip_in(word, fault):
    """An address, and whether it is of version 6. IPv6 text that ends in an IPv4 address is no address here."""
    try:
        if ":" in word and "." not in word and "%" not in word:
            groups = ipaddress.IPv6Address(word).exploded.split(":")
            return ":".join(f"{int(group, 16):x}" for group in groups)
        return str(ipaddress.IPv4Address(word))
    except ValueError:
        raise Fault(fault) from None


def addr_in(word):
    """`ip@port`, or `ip` for port 53."""
    ip, at, port = word.partition("@")
    ip = ip_in(ip, "bad_address")
    return f"{ip}@{number_in(port, 1, 65_535, 'bad_address') if at else 53}"


# The forms of data: a name, or the greatest value of a number, for each word.
NAME, SHORT, LONG = "name", 2**16 - 1, 2**32 - 1
FORMS = {2: [NAME], 5: [NAME], 12: [NAME], 15: [SHORT, NAME], 6: [NAME] * 2 + [LONG] * 5, 33: [SHORT] * 3 + [NAME]}


def data_in(kind, words):
    """Data of a type, as it is written."""
    if kind == TYPES["A"] and len(words) == 1 and ":" not in words[0]:
        return ip_in(words[0], "bad_data")
    if kind == TYPES["AAAA"] and len(words) == 1 and ":" in words[0]:
        return ip_in(words[0], "bad_data")
    if kind == TYPES["TXT"] and all(re.fullmatch(r'"([^"\\]|\\["\\])*"|[^"\\]+', word) for word in words) and words:
        return " ".join(word if word.startswith('"') else f'"{word}"' for word in words)
    if kind in FORMS and len(words) == len(FORMS[kind]):
        parts = zip(FORMS[kind], words)
        return " ".join(
            name_text(name_in(word, "bad_data")) if form == NAME else str(number_in(word, 0, form)) for form, word in parts
        )
    is_free = kind not in FORMS and type_text(kind) not in ("A", "AAAA", "TXT")
    opaque = re.fullmatch(r"\\# ([0-9]+)(?: ((?:[0-9a-f]{2})+))?", " ".join(words), re.IGNORECASE)
    if is_free and opaque and int(opaque[1]) * 2 == len(opaque[2] or ""):
        return f"\\# {int(opaque[1])} {(opaque[2] or '').lower()}".rstrip()
    raise Fault("bad_data")


# ---- events

@dataclass(frozen=True)
class Find:
    """What is cached for a name and a type, or, without a type, for a name."""

    owner: tuple
    kind: int | None
    rank: int
    ttl: int
    body: tuple | str


@dataclass(frozen=True)
class Event:
    """An admission of a find, a lookup with its question, `sweep`, `forget` with a name, `do` with a command, `undo` or `redo` of the last or of a ticket."""

    verb: str
    moment: int
    what: object = None


# ---- lines

# The least number of words of each line.
LEAST = {
    "at": 1, "admit": 5, "nodata": 5, "noname": 4, "forget": 1, "look": 2, "servers": 1, "oldest": 0, "sweep": 0, "undo": 0,
    "redo": 0, "look_undo": 2, "look_redo": 2, "look_without": 3, "what_undo": 0, "list_local_zones": 0, "list_local_data": 0, "list_stubs": 0, "list_commands": 0, "list_buried": 0,
    "local_zone": 2, "local_zone_remove": 1, "local_data": 3, "local_data_remove": 1,
    "stub_add": 2, "stub_remove": 1, "flush": 1, "flush_type": 2, "flush_zone": 1,
}


def none_left(words):
    if words:
        raise Fault("bad_data")


def admission_in(words):
    rank, owner = number_in(words[0], 1, 4), name_in(words[1])
    ttl, kind = number_in(words[2], 1, GREATEST_TTL), type_in(words[3])
    pieces = [[]]
    for word in words[4:]:
        if word == "|":
            pieces.append([])
        else:
            pieces[-1].append(word)
    data = tuple(dict.fromkeys(data_in(kind, piece) for piece in pieces))
    return Find(owner, kind, rank, min(ttl, LONGEST_TTL), data)


def denial_in(verb, words):
    """A name, a TTL, the type if only one is denied, and the SOA record that denies."""
    owner, ttl = name_in(words[0]), min(number_in(words[1], 1, GREATEST_TTL), LONGEST_NEGATIVE_TTL)
    kind, soa = (type_in(words[2]), words[3:]) if verb == "nodata" else (None, words[2:])
    name_in(soa[0])
    data_in(TYPES["SOA"], soa[1:])
    return Find(owner, kind, 4, ttl, verb)


def record_in(words):
    owner, rest = name_in(words[0]), words[1:]
    ttl, has_class = None, False
    while rest:
        if ttl is None and re.fullmatch("[0-9]+", rest[0]):
            ttl, rest = number_in(rest[0], 0, GREATEST_TTL), rest[1:]
        elif not has_class and rest[0].upper() == "IN":
            has_class, rest = True, rest[1:]
        else:
            break
    kind = type_in(rest[0] if rest else "")
    return owner, kind, 3_600 if ttl is None else ttl, data_in(kind, rest[1:])


def command_in(verb, words):
    if verb == "local_data":
        return verb, *record_in(words)
    name = name_in(words[0])
    if verb == "stub_add":
        return verb, name, tuple(addr_in(word) for word in words[1:])
    if verb in ("local_zone", "flush_type"):
        if verb == "local_zone" and words[1] not in ZONE_TYPES:
            raise Fault("bad_type")
        kind = words[1] if verb == "local_zone" else type_in(words[1])
        none_left(words[2:])
        return verb, name, kind
    none_left(words[1:])
    return verb, name


def event_in(verb, words, moment):
    """The event of a line that has all its words."""
    if verb == "sweep":
        none_left(words)
        return Event(verb, moment)
    if verb in ("undo", "redo"):
        none_left(words[1:])
        return Event(verb, moment, number_in(words[0], 1, MOST_TICKETS) if words else None)
    if verb == "forget":
        owner = name_in(words[0])
        none_left(words[1:])
        return Event(verb, moment, owner)
    if verb == "look":
        question = name_in(words[0]), type_in(words[1])
        none_left(words[2:])
        return Event("look", moment, ("look", *question))
    if verb in ("look_undo", "look_redo", "look_without"):
        tickets = [number_in(word, 1, MOST_TICKETS) for word in words[: LEAST[verb] - 2]]
        owner, kind, *rest = words[len(tickets) :]
        question = name_in(owner), type_in(kind)
        none_left(rest)
        return Event("look", moment, (verb, *question, *tickets))
    if verb in ("servers", "oldest", "what_undo") or verb.startswith("list_"):
        name = [name_in(word) for word in words[: LEAST[verb]]]
        none_left(words[LEAST[verb] :])
        return Event("look", moment, (verb, *name))
    if verb == "admit":
        return Event("admit", moment, admission_in(words))
    if verb in ("nodata", "noname"):
        return Event("admit", moment, denial_in(verb, words))
    return Event("do", moment, command_in(verb, words))


def said_by(line, moment):
    """The meaning of a line at a moment: the next moment, or an event."""
    if len(line) > LONGEST_LINE:
        raise Fault("too_long")
    verb, *words = words_of(line) or [""]
    if verb not in LEAST:
        raise Fault("unknown")
    if len(words) < LEAST[verb]:
        raise Fault("missing")
    if verb == "at":
        then = number_in(words[0], 0, 2**64 - 1)
        none_left(words[1:])
        return then
    return event_in(verb, words, moment)
