"""Queries and streams, through `play serve`: rows play the name servers, and have the replies. Then workers that serve several.

A row of tests/engines:

    NAME = 00 01'a'                          octets that have a name in the file, as tests/lib/rows.py reads them
    == what the row is about
    hints 127.0.0.1@5301                     lines that the program obeys; 255*x is so many letters x
    local_data a.test. 30 A 192.0.2.5
    : ok 1                                   the reply to a line
    * 80 local_data a.test. 60 TXT y#        80 such lines, with 1, 2 and so on for #
    udp QUERY                                octets that come as a query, or `tcp QUERY`
    > 127.0.0.1@5301 udp a.test. A           the query that has to be sent, and its outcome (tests/lib/rows.py)
    < aa | answer a.test. 60 A 192.0.2.9
    = 1234 8180 ..                           the reply; `none`, or `no_memory`
    stream 00, 18 QUERY                      pieces of a stream; `each` octet is one
    = 0028 ..                                what is written, and how the stream ends
    . ended
"""

import os
import random
import re
from collections import Counter

from lib.checks import Checks
from lib.identifiers import first_identifiers, pcg_words
from lib.programs import PLAY, TOP, run
from lib.rows import came, octets, query_words, rows_in

FOLDER = os.path.join(TOP, "tests/engines")
OWN_LINES = ("hints", "at", "most", "fails")
SERVED = ("udp", "tcp", "stream")
TRANSPORT_ENDS = ("ended", "short", "read", "write", "no_memory")


def spelled_rows(path):
    """The rows of a file: what each is about, and its lines, in which octets are digits."""
    found, names = rows_in(path)
    return [(about, [spelled(line, names) for line in lines]) for about, lines in found]


def spelled(line, names):
    """A line with its octets as digits, and repeated letters written out."""
    mark, _, rest = line.partition(" ")
    if mark in ("udp", "tcp"):
        return f"{mark} {digits(octets(rest, names))}"
    if mark == "stream":
        return " ".join([mark, *(digits(piece) for piece in pieces(rest, names))])
    if mark == "=" and rest not in ("none", "no_memory"):
        return f"= {octets(rest, names).hex()}"
    if mark in (">", "<", ":", "."):
        return line
    return re.sub(r"(\d+)\*(\w)", lambda m: m[2] * int(m[1]), line)


def digits(some):
    return some.hex() or "-"


def pieces(text, names):
    if text.startswith("each "):
        return [bytes([octet]) for octet in octets(text[len("each ") :], names)]
    return [octets(piece.strip(), names) for piece in text.split(",")] if text else []


def given(lines, before=()):
    """The input of the program for a row. The lines `before` are put before each query and stream."""
    told, asked, served = [], "", None
    for line in [*lines, ""]:
        mark, _, rest = line.partition(" ")
        if mark == ">":
            asked = rest.split(" ", 2)[2]
            continue
        if mark == "<":
            told.append(came(asked, rest))
            continue
        if served is not None:
            told += [*before, served]
            served = None
        if mark in SERVED:
            served = line
        elif mark == "*":
            count, _, rest = rest.partition(" ")
            told += [rest.replace("#", str(n)) for n in range(1, int(count) + 1)]
        elif mark not in ("=", ":", ".", ""):
            told.append(line)
    return told


def reply_words(line):
    """The reply in a line of the program's output, in the words of a row."""
    word, _, rest = line.partition(" ")
    return rest if word in ("reply", "wrote") else line


def difference(lines, told):
    """The first difference between the program's output and a row, or None."""
    told = list(told)
    for line in lines:
        mark, _, rest = line.partition(" ")
        if mark in (">", "=", ":", "."):
            found = told.pop(0) if told else "nothing"
            words = query_words(found) if mark == ">" and found.startswith("send ") else found
            if (reply_words(found) if mark == "=" else words) != rest:
                return f"{found}, wanted {rest}"
        elif mark == "*":
            for _ in range(2 * int(rest.split()[0])):
                if not told or not told.pop(0).startswith("ok"):
                    return f"no ok of {line[:30]}"
        elif mark not in ("<", *SERVED, *OWN_LINES) and (not told or told.pop(0) != "ok"):
            return f"no moment before {line}"
    return f"more: {told}" if told else None


# ---- calls that fail

# The Nth call fails, for each N to this.
MOST_CALLS = 20


def talk(lines, **settings):
    return run([PLAY, "serve"], "\n".join([*lines, ""]).encode(), **settings)


def is_failure(reply, whole):
    """Whether a reply is SERVFAIL, and has the identifier of another."""
    return reply[:4] == whole[:4] and len(reply) >= 24 and int(reply[4:8], 16) & 0x800F == 0x8002


def frames(written):
    """The messages of a stream, each of which follows its length, and the beginning of one that is not whole."""
    found = []
    while len(written) >= 4 and len(written) >= 4 + 2 * int(written[:4], 16):
        end = 4 + 2 * int(written[:4], 16)
        found.append(written[4:end])
        written = written[end:]
    return found, written


def are_served(found, whole):
    """Whether messages are the first ones of another run, or SERVFAIL."""
    return len(found) <= len(whole) and all(one == other or is_failure(one, other) for one, other in zip(found, whole))


def fault_of_asking(told, whole):
    """What is wrong with the output if a query to a name server fails: another may be asked, or the question fails."""
    found, wanted = ([line for line in lines if not line.startswith("send ")] for lines in (told, whole))
    if len(found) != len(wanted):
        return f"{found}, and else {wanted}"
    for line, want in zip(found, wanted):
        word, rest = (line.split(" ") + [""])[:2]
        if line != want and word == "wrote":
            (messages, left), (others, _) = frames(rest), frames(want.split(" ")[1])
            if left or len(messages) != len(others) or not are_served(messages, others):
                return f"{line}, and else {want}"
        elif line != want and not (word == "reply" and want.startswith("reply") and is_failure(rest, want.split(" ")[1])):
            return f"{line}, and else {want}"
    return None


def fault_of_ending(kind, nth, told, whole):
    """What is wrong with a stream of which the Nth read or write fails."""
    if told == whole:
        return None if nth > 1 or (kind == "write" and not written(whole)) else "the first call did not fail"
    if told[-1] != kind:
        return f"{told[-1]}"
    if not written(whole).startswith(written(told)):
        return f"{written(told)} is no front of {written(whole)}"
    if kind == "read" and frames(written(told))[1]:
        return f"{written(told)} ends inside a message"
    return f"{written(told)} was written" if nth == 1 and written(told) else None


def written(told):
    return next((line[len("wrote ") :] for line in reversed(told) if line.startswith("wrote ")), "")


def split_streams(lines):
    """The lines of a row, split after each of its streams."""
    found = [[]]
    for line in lines:
        found[-1].append(line)
        if line.startswith(". "):
            found.append([])
    return [sum(found[: n + 1], []) for n in range(len(found) - 1)]


def all_found(lines):
    """A row in which each name server without memory fails instead, so that a run without a fault goes to its end."""
    return ["< failed" if line == "< no_memory" else line for line in lines]


def fail_each(checks, about, lines):
    """Runs a row with the Nth call of each kind failing, for each N."""
    lines = all_found(lines)
    whole = talk(given(lines)).out.decode().splitlines()
    for nth in range(1, MOST_CALLS + 1):
        if any(line.startswith("> ") for line in lines):
            told = talk(given(lines, [f"fails ask {nth}"])).out.decode().splitlines()
            checks.check(f"{about}: query {nth} fails", fault_of_asking(told, whole))
    for front in split_streams(lines):
        whole = talk(given(front)).out.decode().splitlines()
        for kind in ("read", "write"):
            for nth in range(1, MOST_CALLS + 1):
                last = max(n for n, line in enumerate(front) if line.startswith("stream"))
                told = talk(given([*front[:last], f"fails {kind} {nth}", *front[last:]])).out.decode().splitlines()
                checks.check(f"{about}: {kind} {nth} fails", fault_of_ending(kind, nth, told, whole))


# ---- workers

# A worker ends at so many failures in a row.
MOST_FAILURES = 16


def check_workers(checks):
    """Sixteen failures in a row end a worker. Fifteen and a success do not, and want of memory at a port or listener is no failure."""
    book = ["hints", "local_data a.test. 30 A 192.0.2.5"]
    asked = octets("1234 0100 0001 0000 0000 0000 01'a' 04'test' 00 0001 0001", {})
    for over in ("udp", "tcp"):
        came = digits(asked if over == "udp" else len(asked).to_bytes(2, "big") + asked)
        reply = "gave" if over == "udp" else "wrote"
        failed, lacked = ["failed"] * (MOST_FAILURES - 1), ["no_memory"] * 100
        for about, words, wanted, ends in [
            ("nothing comes", [], ["ended 0"], 0),
            ("failures in a row", [*failed, "failed", came], ["failing 1"], 1),
            ("one less and a success", [*failed, came, *failed, came], [reply, reply, "ended 0"], 0),
            ("as many, and a success between", [*failed, came, *failed, "failed", came], [reply, "failing 1"], 1),
            ("no memory", [*lacked, came, *lacked], [reply, "ended 0"], 0),
            ("no memory between failures", [*failed, *lacked, "failed", came], ["failing 1"], 1),
        ]:
            done = talk([*book, f"work_{over} {' '.join(words)}".rstrip()])
            told = done.out.decode().splitlines()[2:]
            found = [line if line.startswith(("ended", "failing")) else line.split(" ")[0] for line in told]
            checks.equal(f"a worker over {over}: {about}", (done.status, found), (0, wanted))
            replies = {line.split(" ")[1][4 * (over == "tcp"):][:8] for line in told if line.startswith(reply)}
            checks.check(f"a worker over {over}: {about}, its replies", None if replies <= {"12348580"} else f"{replies}")
            logged = done.err.count(b"worker ended by failures"), done.err.count(b"device fault")
            checks.equal(f"a worker over {over}: {about}, its log", logged, (ends, words[: len(words) - ends].count("failed")))


# ---- identifiers

def check_identifiers(checks):
    """The identifier of a query is the lower half of the next word, and nothing else draws a word."""
    words = pcg_words(42, 54)
    checks.equal("PCG32: its published words", [next(words) for _ in range(3)], [0xA15C02B7, 0x7B47F409, 0xBA1D3330])
    asked = [octets(f"1234 0100 0001 0000 0000 0000 01'{letter}' 04'test' 00 0001 0001", {}) for letter in "ab"]
    done = talk(["hints 127.0.0.1@5301 127.0.0.2@5302", *["failed"] * 4, *(f"udp {digits(text)}" for text in asked)])
    found = [line.split()[3][:4] for line in done.out.decode().splitlines() if line.startswith("send ")]
    checks.equal("identifiers of four queries", found, first_identifiers(4))


# ---- memory

MOST = 5_000
LINE_WANTS = ("error no_memory", "fault no_memory", "fault reply_lost")
UNREFUSED = ("more octets than any message has",)  # it makes too many allocations


def fault_of_refusal(told, whole, status):
    """What is wrong with the output of a run in which an allocation was refused, compared with that of a run without a fault.

    A query or a stream ends for want of memory, or a question fails because the book had none. Data that the book did not take
    is missing later. A line of a script reports want of memory. The output after that may differ.
    """
    at = next((n for n, pair in enumerate(zip(told, whole)) if pair[0] != pair[1]), min(len(told), len(whole)))
    if at == len(told):
        return None if status in (1, 3) or told == whole else f"status {status} behind {told[-1:]}"
    line, want = told[at], whole[at] if at < len(whole) else ""
    word, rest = (line.split(" ") + [""])[:2]
    if line in LINE_WANTS or line == "no_memory" or (word == "send" and want.startswith(("reply", "wrote"))):
        return None
    if word == "reply" and want.startswith(("reply", "send")):
        identifier = next((found.split(" ")[1] for found in whole[at:] if found.startswith("reply")), "")
        return None if is_failure(rest, identifier) else f"{line}, and with memory {want}"
    if word == "wrote":
        ended = told[at + 1] if at + 1 < len(told) else ""
        (messages, left), (others, _) = frames(rest), frames(written(whole[at:]) or written(whole))
        if are_served(messages, others) and ended in ("no_memory", "write", "ended") and (not left or ended == "write"):
            return None
    return f"{line}, and with memory {want}"


def whole_lines(out):
    """The lines of a run in which an allocation was refused. If there is no memory for the line of a query, the program writes the
    beginning of the line without its end. That is left out."""
    return [re.sub(r"^send .*?(?=no_memory$|wrote )", "", line) for line in out.splitlines()]


def refuse_each(checks, about, lines):
    """Runs a row with each allocation refused in turn."""
    text = given(all_found(lines))
    whole = talk(text).out.decode().splitlines()
    for nth in range(1, MOST):
        done = talk(text, preload="refuse", REFUSE_NTH=nth)
        if "refused" not in done.told:
            checks.check(f"{about}: some allocations are refused", None if nth > 5 else f"{nth}")
            return
        checks.check(f"{about}: allocation {nth}", fault_of_refusal(whole_lines(done.out.decode()), whole, done.status))
    checks.check(f"{about}: each allocation is refused", f"more than {MOST}")


# ---- random octets

DRAWN = 100_000
AT_ONCE = 1_000


def draw(some):
    """Random octets: any, or a query in which a few octets are changed, left out or added."""
    if some.random() < 0.5:
        return some.randbytes(some.randrange(601))
    name = b"".join(bytes([len(label)]) + label for label in some.choices((b"a", b"b", b"test", b"bank"), k=some.randrange(4)))
    kind, flags = some.choice((1, 1, 1, 5, 16, 28, 255)), some.choice((0x0100, 0x0100, 0x0000, 0x8100, 0x2100))
    text = bytearray(some.randbytes(2) + flags.to_bytes(2, "big") + b"\0\1" + bytes(6) + name + b"\0" + kind.to_bytes(2, "big") + b"\0\1")
    for _ in range(some.choice((0, 0, 0, 1, 2))):
        text[some.randrange(len(text))] = some.randrange(256)
    return bytes(text[: some.randrange(len(text))] if some.random() < 0.1 else text + some.randbytes(some.choice((0, 0, 0, 0, 1, 30))))


BOOK = ("hints", "admit 4 a.test. 60 A 192.0.2.1", "local_zone bank. refuse", "local_zone b.bank. deny", "local_data b.test. 30 A 192.0.2.2")


def kind_of(line):
    """The RCODE of the reply in a line, or none."""
    word, _, rest = line.partition(" ")
    return f"rcode {int(rest[4:8], 16) & 15}" if word == "reply" else line


def fault_of_drawn(asked, line):
    """What is wrong with the reply to octets. It has to be a reply with their identifier, and to fit a datagram."""
    word, _, rest = line.partition(" ")
    if line == "none":
        return None
    if word != "reply":
        return f"{asked.hex()} gets {line}"
    reply = bytes.fromhex(rest)
    fits = 12 <= len(reply) <= 512 and reply[:2] == asked[:2] and reply[2] & 0x80 and not asked[2] & 0x80
    return None if fits else f"{asked.hex()} gets {line}"


def drawn(checks):
    some, kinds = random.Random(1), Counter()
    for _ in range(DRAWN // AT_ONCE):
        asked = [draw(some) for _ in range(AT_ONCE)]
        done = talk([*BOOK, *(f"udp {digits(text)}" for text in asked)])
        told = [line for line in done.out.decode().splitlines() if line.startswith(("reply", "none", "no_memory"))]
        checks.equal("how many queries are served", (done.status, len(told)), (0, AT_ONCE))
        for text, line in zip(asked, told):
            checks.check("drawn octets", fault_of_drawn(text, line))
            kinds[kind_of(line)] += 1
        if done.status:
            break
    checks.equal("what drawn octets get", sorted(kinds), ["none", "rcode 0", "rcode 1", "rcode 2", "rcode 4", "rcode 5"])
    for kind, count in kinds.items():
        checks.check(f"drawn octets that get {kind}", None if count > DRAWN // 1000 else f"{count}")


def main():
    checks = Checks()
    for file in sorted(os.listdir(FOLDER)):
        for about, lines in spelled_rows(os.path.join(FOLDER, file)):
            done = talk(given(lines))
            checks.equal(f"{file}: {about}: its status", done.status, 0)
            checks.check(f"{file}: {about}", difference(lines, done.out.decode().splitlines()))
            fail_each(checks, about, lines)
            if about not in UNREFUSED:
                refuse_each(checks, about, lines)
    check_workers(checks)
    check_identifiers(checks)
    drawn(checks)
    checks.end()


main()
