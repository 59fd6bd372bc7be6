"""Rows of data, in files `*.rows`. All of them are read by these rules:

    # a comment
    QUERY = 1234 0100 0001 0000 0000 0000     octets with a name
        01'A' 04'tEst' 00 0001 0001           a line that begins with a blank goes on with the line before
    == what the row is about                  a row begins, and its lines follow (not in tests/rows)

Octets are pairs of hexadecimal digits, text between ', names of octets, or one of these repeated, as 255*'x'. A - is no octet.

The meaning of a line, by its first word:

| First | In `rows` | In `resolution` | In `engines` | In `flight` |
|---|---|---|---|---|
| `>` | | a query that has to be sent: `> SERVER udp|tcp NAME TYPE` | the same | the same after its key |
| `<` | | the outcome of that query: a response in the words of messages.py, `failed`, `octets 00..` or `no_memory` | the same | |
| `=` | what the call returns | the answer | the reply, or what is written | the reply to a client |
| `==` | the same, as octets | a row | a row | a row |
| `:` | | the reply to a line | the same | the same |
| `?`, `!` | | what the book was asked before, and what it was not asked | | `!`: a client gets SERVFAIL, and why |
| `.` | | | how a stream ends | |
| `-` | | | | a client gets no reply |
| `*` | | | a line that is repeated | |
| else | a call and its arguments, separated by commas | a line for the program | a line for the program | a line for the program |

In `rows` a row is a call and its result. In `tables` a row has only lines and `:`.
"""

import os
import re

from lib.messages import question_of, response
from lib.programs import TOP

ROWS = os.path.join(TOP, "tests/rows")
PART = re.compile(r"(?:(\d+)\*)?(?:'([^']*)'|((?:[0-9a-f]{2})+)(?![0-9a-f])|([A-Z][A-Z_]+)|(-))\s*")


def octets(text, names):
    """The octets of a text, part by part."""
    found = b""
    at = 0
    while at < len(text):
        part = PART.match(text, at)
        if not part:
            raise ValueError(f"no octets: {text[at:]}")
        count, quoted, digits, name, _ = part.groups()
        if quoted is not None:
            value = quoted.encode()
        elif digits:
            value = bytes.fromhex(digits)
        else:
            value = names[name] if name else b""
        found += value * int(count or 1)
        at = part.end()
    return found


def call(word, *arguments):
    """The line of a call."""
    return b" ".join([word.encode()] + [argument.hex().encode() or b"-" for argument in arguments])


def logical_lines(text):
    """The lines without comments, each joined with those that go on with it."""
    lines = []
    for line in text.splitlines():
        if not line.strip() or line.startswith("#"):
            continue
        if line[0] in " \t":
            lines[-1] += " " + line.strip()
        else:
            lines.append(line)
    return lines


def read_rows(path):
    """The rows of a file, each the line of a call and that of its result, and the octets that have a name."""
    with open(path) as file:
        lines = logical_lines(file.read())
    names = {}
    rows = []
    asked = None
    for line in lines:
        named = re.match(r"([A-Z][A-Z_]+) = (.*)", line)
        if named:
            names[named[1]] = octets(named[2], names)
        elif line.startswith("== "):
            rows.append((asked, octets(line[3:], names).hex().encode()))
        elif line.startswith("= "):
            rows.append((asked, line[2:].encode()))
        else:
            word, _, rest = line.partition(" ")
            asked = call(word, *(octets(part.strip(), names) for part in split_arguments(rest)))
    return rows, names


def split_arguments(text):
    """The arguments in a text, separated by commas that are not between '."""
    return re.findall(r"(?:'[^']*'|[^',])+", text)


def rows_in(path):
    """The rows of a file, each with its subject and its lines, and the octets that have a name."""
    names, found = {}, []
    with open(path, encoding="utf-8") as file:
        for line in logical_lines(file.read()):
            named = re.match(r"([A-Z][A-Z_]+) = (.*)", line)
            if named:
                names[named[1]] = octets(named[2], names)
            elif line.startswith("== "):
                found.append((line[3:].strip(), []))
            else:
                found[-1][1].append(line.strip())
    return found, names


def came(asked, text):
    """The line for the outcome of a query for NAME TYPE."""
    if text in ("failed", "no_memory"):
        return text
    if text.startswith("octets"):
        return "came " + text[len("octets") :].replace(" ", "")
    return "came " + response(asked, text).hex()


def query_words(line):
    """A line `send ..` of a program, in the words of a row. If the header of the query is unusual, its octets follow."""
    _, server, over, digits = line.split()
    octets = bytes.fromhex(digits)
    words = f"{server} {over} {question_of(octets)}"
    return words if octets[2:12] == b"\0\0\0\1\0\0\0\0\0\0" else f"{words} {digits}"
