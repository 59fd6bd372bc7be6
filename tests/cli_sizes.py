"""Scripts that exceed every size for which a program might be made. The replies are computed here from the meaning of the lines."""

import subprocess
import tempfile
import time

from lib.checks import Checks
from lib.full_books import address
from lib.long_lines import escaped_names, longest_lines, many_data, many_strings
from lib.programs import RESOLVER, run, run_measured


def undone(last, first):
    """Undoes the commands from a ticket back to an earlier one."""
    for ticket in range(last, first - 1, -1):
        yield "undo", f"undone {ticket}"


def listed(rows):
    """The reply to a list."""
    return "\n".join([*rows, "end"])


def flushes_undone():
    """300 flushes. The newest 256 of them are undone, the newest first, and then redone; then every other one by its ticket."""
    for place in range(300):
        yield f"admit 4 n{place}.test. 60 A {address(place)}", "taken"
    for place in range(300):
        yield f"flush_type n{place}.test. A", f"ok {place + 1}"
    yield from undone(300, 45)
    for _ in range(44):
        yield "undo", "error nothing_to_undo"
    for place in range(300):
        shown = f"found 4 60 n{place}.test. A {address(place)}" if place >= 44 else "unknown"
        yield f"look n{place}.test. A", shown
    for ticket in range(45, 301):
        yield "redo", f"redone {ticket}"
    yield "redo", "error nothing_to_redo"
    for place in range(300):
        yield f"look n{place}.test. A", "unknown"
    # By ticket, every other of the 256, in an order that jumps about.
    tickets = [45 + 14 * place % 256 for place in range(128)]
    for ticket in tickets:
        yield f"undo {ticket}", f"undone {ticket}"
    for place in range(300):
        shown = f"found 4 60 n{place}.test. A {address(place)}" if place >= 44 and place % 2 == 0 else "unknown"
        yield f"look n{place}.test. A", shown
    yield "undo 44", "error not_kept"
    yield "list_buried", "end"
    for ticket in sorted(tickets):
        yield f"redo {ticket}", f"redone {ticket}"
    for place in range(300):
        yield f"look n{place}.test. A", "unknown"


def admissions():
    """4,200 sets of as many names. Flushes of 30 of them are undone."""
    for place in range(4_200):
        yield f"admit 3 n{place}.test. 60 A {address(place)}", "taken"
    for place in range(0, 4_200, 140):
        yield f"flush_type n{place}.test. A", f"ok {place // 140 + 1}"
    for place in range(4_200):
        shown = "unknown" if place % 140 == 0 else f"found 3 60 n{place}.test. A {address(place)}"
        yield f"look n{place}.test. A", shown
    yield from undone(30, 1)
    for place in range(0, 4_200, 140):
        yield f"look n{place}.test. A", f"found 3 60 n{place}.test. A {address(place)}"


def admissions_of_one_name():
    """4,200 sets of one name, each of which replaces the one before."""
    for place in range(4_200):
        yield f"admit 4 a.test. 60 A {address(place)}", "taken"
    yield "look a.test. A", f"found 4 60 a.test. A {address(4_199)}"
    yield "flush_type a.test. A", "ok 1"
    yield "look a.test. A", "unknown"
    yield "undo", "undone 1"
    yield "look a.test. A", f"found 4 60 a.test. A {address(4_199)}"


def flushed_and_undone_again():
    """One name is flushed, restored and looked up, 4,000 times."""
    yield "admit 4 a.test. 60 A 192.0.2.1", "taken"
    for ticket in range(1, 4_001):
        yield "flush_type a.test. A", f"ok {ticket}"
        yield "undo", f"undone {ticket}"
        yield "look a.test. A", "found 4 60 a.test. A 192.0.2.1"


def full_zones():
    """4,096 zones and no more, neither by a command nor with a record. The last one is undone and redone."""
    zones = [f"z{place}. static" for place in range(4_096)]
    for place, zone in enumerate(zones):
        yield f"local_zone {zone}", f"ok {place + 1}"
    yield "local_zone more. static", "error too_many"
    yield "local_data more. A 192.0.2.1", "error too_many"
    yield "list_local_data", "end"
    yield "local_data a.z0. A 192.0.2.1", "ok 4097"
    yield "local_zone z7. deny", "ok 4098"
    zones[7] = "z7. deny"
    yield "list_local_zones", listed(zones)
    yield from undone(4_098, 4_096)
    zones[7] = "z7. static"
    yield "list_local_zones", listed(zones[:-1])
    yield "redo", "redone 4096"
    yield "list_local_zones", listed(zones)
    yield "list_local_data", "end"


def full_stubs():
    """1,024 stubs and no more. One that exists gets new addresses. The last one is undone, and then another fits."""
    stubs = [f"s{place}. 127.0.0.1@53" for place in range(1_024)]
    for place in range(1_024):
        yield f"stub_add s{place}. 127.0.0.1", f"ok {place + 1}"
    yield "stub_add more. 127.0.0.1", "error too_many"
    yield "servers more.", "servers . hints"
    yield "stub_add s7. 127.0.0.2 127.0.0.3", "ok 1025"
    stubs[7] = "s7. 127.0.0.2@53 127.0.0.3@53"
    yield "list_stubs", listed(stubs)
    yield from undone(1_025, 1_024)
    stubs[7] = "s7. 127.0.0.1@53"
    yield "servers a.s1023.", "servers . hints"
    yield "list_stubs", listed(stubs[:-1])
    yield "redo", "redone 1024"
    yield "stub_add more. 127.0.0.1", "error too_many"
    yield "stub_remove s0.", "ok 1026"
    yield "stub_add more. 127.0.0.1", "ok 1027"
    yield "list_stubs", listed(stubs[1:] + ["more. 127.0.0.1@53"])


def full_records():
    """65,536 records and no more. They are removed with their zone, and that is undone. A record that exists already needs no room."""
    yield "local_zone z. static", "ok 1"
    for place in range(65_536):
        yield f"local_data n{place}.z. 60 A {address(place)}", f"ok {place + 2}"
    records = [f"n{place}.z. 60 A {address(place)}" for place in range(65_536)]
    yield "local_data more.z. 60 A 192.0.2.1", "error too_many"
    yield f"local_data n7.z. 60 A {address(7)}", "ok 65538"
    yield "local_zone_remove z.", "ok 65539"
    yield "list_local_data", "end"
    yield "undo", "undone 65539"
    yield "list_local_data", listed(records)


def records_taken_back():
    """4,096 records. Many are removed with their zone, and an undo restores each in its place."""
    yield "local_zone z. static", "ok 1"
    yield "local_zone y. static", "ok 2"
    for place in range(4_096):
        yield f"local_data n{place}.{'zy'[place % 2]}. 60 A {address(place)}", f"ok {place + 3}"
    records = [f"n{place}.{'zy'[place % 2]}. 60 A {address(place)}" for place in range(4_096)]
    yield "local_zone_remove z.", "ok 4099"
    yield "list_local_zones", "y. static\nend"
    yield "list_local_data", listed(records[1::2])
    yield "undo", "undone 4099"
    yield "list_local_zones", "z. static\ny. static\nend"
    yield "list_local_data", listed(records)
    yield "undo", "undone 4098"
    yield "list_local_data", listed(records[:-1])


MILLION = 1_000_000


def full_cells():
    """A million names and no more, in the largest cache. A flush hides them all, and the way back shows them; then they expire."""
    for place in range(MILLION):
        yield f"admit 4 n{place}.test. 60 A {address(place)}", "taken"
    yield "admit 4 more.test. 60 A 192.0.2.1", f"fault full {MILLION}"
    yield "admit 4 n7.test. 60 A 192.0.2.7", "taken"
    for verb in ("flush_zone test.", "undo", "redo", "undo"):
        yield verb, {"flush_zone test.": "ok 1", "undo": "undone 1", "redo": "redone 1"}[verb]
        for place in range(8, MILLION, 9_973):
            shown = f"found 4 60 n{place}.test. A {address(place)}" if verb == "undo" else "unknown"
            yield f"look n{place}.test. A", shown
    yield "look n7.test. A", "found 4 60 n7.test. A 192.0.2.7"
    yield "sweep", "swept"
    yield "admit 4 more.test. 60 A 192.0.2.1", f"fault full {MILLION}"
    yield "at 60", "ok"
    yield "sweep", "swept"
    yield "admit 4 more.test. 60 A 192.0.2.1", "taken"
    yield "look more.test. A", "found 4 60 more.test. A 192.0.2.1"
    yield "look n8.test. A", "unknown"


def names_swept():
    """100 times 1,000 new names, each alive for a second, in a cache of 1,000."""
    for second in range(100):
        yield f"at {second}", "ok"
        yield "sweep", "swept"
        for place in range(1_000):
            yield f"admit 4 n{place}.s{second}.test. 1 A {address(place)}", "taken"


def check_memory(checks, rows, most, *arguments):
    """Checks the replies to a script, and that the program never has more than a number of KiB."""
    lines, replies = zip(*rows())
    with tempfile.TemporaryFile() as asked, tempfile.TemporaryFile() as told:
        asked.write("".join(line + "\n" for line in lines).encode())
        asked.seek(0)
        status, peak = run_measured([RESOLVER, "script", *arguments], asked, told)
        told.seek(0)
        checks.equal(rows.__name__, told.read().decode(), "".join(reply + "\n" for reply in replies))
    checks.equal(f"{rows.__name__}, its end", status, 0)
    checks.check(f"{rows.__name__}, memory", None if peak <= most else f"{peak} KiB, of {most}")


def check(checks, rows, *arguments):
    """Checks the replies to a script."""
    lines, replies = zip(*rows())
    text = "".join(line + "\n" for line in lines).encode()
    wanted = "".join(reply + "\n" for reply in replies).encode()
    began = time.monotonic()
    try:
        done = run([RESOLVER, "script", *arguments], text)
    except subprocess.TimeoutExpired:
        checks.check(rows.__name__, f"no end within {time.monotonic() - began:.0f} s")
        return
    checks.equal(rows.__name__, done.out, wanted)
    checks.equal(f"{rows.__name__}, its end", (done.status, done.err), (0, b""))


def main():
    checks = Checks()
    check(checks, flushes_undone, "--journal", "256")
    check(checks, admissions)
    check(checks, admissions_of_one_name)
    check(checks, many_strings)
    check(checks, longest_lines)
    check(checks, many_data)
    check(checks, escaped_names)
    check(checks, flushed_and_undone_again)
    check(checks, full_zones)
    check(checks, full_stubs)
    check(checks, full_records)
    check(checks, records_taken_back)
    check(checks, full_cells, "--cells", str(MILLION))
    check_memory(checks, names_swept, 32_768, "--cells", "1000")
    checks.end()


main()
