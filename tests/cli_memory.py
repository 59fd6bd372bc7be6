"""Each allocation is refused in turn: the program reports want of memory only if an allocation was refused, and it does no harm."""

import os
import re

from lib.checks import Checks, difference, short
from lib.made_rows import every_octet
from lib.programs import BOOKS, CALLS, PLAY, RESOLVER, TABLES, read, run, scripts
from lib.refusing import LOST, NO_MEMORY, SHOWING, Replay, replies_to
from lib.rows import ROWS, call, read_rows

# No run and no call here makes more allocations than this.
MOST = 100_000

# The number of the last allocation of each script, which was refused too.
LAST = {}


def refusals(done):
    return done.told.count("refused")


# ---- scripts: one allocation of the run is refused

def replied_lines(text):
    """The lines that get a reply."""
    lines = text.split(b"\n")
    if lines[-1] == b"":
        lines.pop()
    return [line for line in lines if line.rstrip(b"\r") and not line.startswith(b"#")]


def fault_of_script(lines, done, starts, replay):
    """What is wrong with a run of a script in which an allocation was refused.

    Either it was refused at the start: then there is no reply, and the status and the message say so. Or the script ran to its
    end. Then lines that got no memory had no effect, and lines whose reply was lost took effect.
    """
    if not done.out and (done.status, done.err) in starts:
        return None
    if done.status != 0:
        return f"status {done.status}, {done.err!r}"
    replies = replies_to(lines, done.out)
    if replies is None:
        return f"{done.out!r} are not the replies to {len(lines)} lines"
    wants = sum(reply in NO_MEMORY or reply == LOST for reply in replies)
    if wants > refusals(done):
        return f"{wants} lines want memory, {refusals(done)} allocations were refused"
    kept = [(line, reply) for line, reply in zip(lines, replies) if reply not in NO_MEMORY]
    wanted = replay([line for line, _ in kept])
    if wanted is None:
        return f"the replay of {len(kept)} lines breaks off"
    for (line, reply), want in zip(kept, wanted):
        if reply == LOST and not line.startswith(SHOWING):
            return f"the reply to {line[:60]!r} is lost, and takes no memory"
        if reply not in (LOST, want):
            return f"{line[:60]!r} is answered {reply!r}, without the lines that found no memory {want!r}"
    return None


# The books, each with its program, and the status and message with which that ends if there is no memory at the start.
BOTH = (
    ("", RESOLVER, {(1, b"resolver: no memory\n")}),
    (" by replay", PLAY, {(1, b""), (3, b"")}),
)


def check_each_script(checks):
    """Each script over both books. The replies must be those of the book that replays its history."""
    for name, arguments, text, _ in scripts():
        # That book counts each admission as a cell. So a script about room is compared with its own program.
        about_room = "/room_" in name
        replay = Replay([RESOLVER if about_room else PLAY, "script", *arguments])
        for book, program, starts in BOTH[:1] if about_room else BOTH:
            check_script(checks, name + book, [program, "script", *arguments], text, starts, replay)


# Lines of control, which end at the end of the input.
CONTROL_TEXT = b"""at 5
local_zone a. static
local_data b.a. 60 A 192.0.2.1
look b.a. A
stub_add a. 192.0.2.1 192.0.2.2
servers b.a.
flush_type a. A
undo
list_commands
list_local_zones
redo
stop now
undo
list_stubs
"""


def check_script(checks, name, command, text, starts, replay):
    lines = replied_lines(text)
    for nth in range(1, MOST):
        done = run(command, text, preload="refuse", REFUSE_NTH=nth)
        if not refusals(done):
            break
        checks.check(f"{name}, allocation {nth} refused", fault_of_script(lines, done, starts, replay))
    checks.check(f"{name}, allocations refused", None if nth > 1 else "none was")
    LAST[name] = nth - 1


# ---- a flush of cached data, after which little takes memory

# A set and the denial of a name are cached and flushed. Then come sweeps, undos, redos, and newer finds of the same.
HELD_TEXT = b"""admit 4 a. 60 A 192.0.2.1
noname n. 60 . ns. host. 1 2 3 4 300
flush_type a. A
flush n.
sweep
undo
redo
undo
undo
redo
redo
undo 1
undo 1
redo 1
admit 4 a. 60 A 192.0.2.2
noname n. 60 . ns. host. 1 2 3 4 300
undo
admit 4 a. 60 A 192.0.2.3
noname n. 60 . ns. host. 1 2 3 4 300
undo
admit 4 a. 60 A 192.0.2.4
look a. A
look n. A
redo
redo
look n. TXT
admit 4 b. 60 A 192.0.2.5
look b. A
"""
FLUSHES, TURNS, NEWER, FRESH = slice(2, 4), slice(4, 14), (14, 15, 17, 18, 20), 26


def check_ways_back(checks):
    """After the two flushes every allocation is refused. Sweeps, undos and redos take none."""
    lines = HELD_TEXT.splitlines()[: TURNS.stop]
    done = run([RESOLVER, "script"], b"".join(line + b"\n" for line in lines), preload="refuse", REFUSE_AFTER=FLUSHES.stop)
    wanted = b"taken,taken,ok 1,ok 2,swept,undone 2,redone 2,undone 2,undone 1,redone 1,redone 2,undone 1,error not_kept,redone 1".split(b",")
    checks.equal("without memory after two flushes", (done.out.splitlines(), done.status), (wanted, 0))
    lost = run([RESOLVER, "script"], HELD_TEXT, preload="refuse", REFUSE_AFTER=FLUSHES.stop).out.splitlines()
    is_refused = lost[NEWER[0]] == b"error no_memory" and lost[FRESH] == b"error no_memory"
    checks.check("without memory a line with data is not read", None if is_refused else f"{lost}")


# Commands that remove nothing, and their undos by ticket.
ADDED_TEXT = b"""local_zone a. static
local_data b.a. 60 A 192.0.2.1
stub_add a. 192.0.2.1
flush z.
local_data c.d. 60 A 192.0.2.1
local_zone a. deny
"""
ADDED_UNDOS = (6, 5, 2, 1, 3)


def check_added(checks):
    """After the commands every allocation is refused. The undo of a command that removed nothing takes none."""
    undos = b"".join(b"undo %d\n" % ticket for ticket in ADDED_UNDOS)
    done = run([RESOLVER, "script"], ADDED_TEXT + undos, preload="refuse", REFUSE_AFTER=len(ADDED_TEXT.splitlines()))
    wanted = [b"ok %d" % ticket for ticket in range(1, 7)] + [b"undone %d" % ticket for ticket in ADDED_UNDOS]
    checks.equal("without memory after commands that remove nothing", (done.out.splitlines(), done.status), (wanted, 0))


# A name with many addresses, a preview of the last one's undo, its redo, and a preview of a removal's undo, each of a type that the name
# lacks and of a name below it.
MANY = b"local_zone a. static\n" + b"".join(b"local_data a. 60 A 192.0.%d.%d\n" % divmod(number, 256) for number in range(2_000))
LACKED = b"look_undo a. TXT\nlook_undo b.a. A\nundo\nlook_redo a. TXT\nlook_redo b.a. A\n"
REMOVED = b"local_data_remove a.\n"
LACKED_AFTER = b"look_undo a. TXT\nlook_undo b.a. A\n"
LACKED_AGAIN = b"look_redo a. TXT\nlook_redo b.a. A\n"


def check_previews(checks):
    """After the commands every allocation is refused. A preview takes memory for the records of its reply alone, whatever else the name has."""
    for name, commands, previews in (
        ("a record", MANY, LACKED),
        ("a removal", MANY + REMOVED, LACKED_AFTER),
        ("a removal that was undone", MANY + REMOVED + b"undo\n", LACKED_AGAIN),
    ):
        wanted = run([RESOLVER, "script"], commands + previews).out
        done = run([RESOLVER, "script"], commands + previews, preload="refuse", REFUSE_AFTER=len(commands.splitlines()))
        checks.equal(f"previews of {name} without memory", (done.out == wanted, done.status), (True, 0))
        checks.check(f"previews of {name}", None if b"error" not in wanted and b"local no" in wanted else f"{wanted[-200:]}")


def check_newer_finds(checks):
    """A newer find of a cached pair needs memory to be read, and none to be cached. A find of another name needs both."""
    lines = replied_lines(HELD_TEXT)
    wants = set()
    for nth in range(1, MOST):
        done = run([RESOLVER, "script"], HELD_TEXT, preload="refuse", REFUSE_NTH=nth)
        if not refusals(done):
            break
        replies = replies_to(lines, done.out)
        if replies:
            wants.update((place, replies[place]) for place in (*NEWER, FRESH) if replies[place] in NO_MEMORY)
    for place in NEWER:
        found = {reply for at, reply in wants if at == place}
        checks.equal(f"line {place + 1} without memory", found, {b"error no_memory"})
    checks.equal("a fresh name without memory", {reply for at, reply in wants if at == FRESH}, NO_MEMORY)


def check_held_set(checks):
    replay = Replay([PLAY, "script"])
    for book, program, starts in BOTH:
        check_script(checks, f"a flushed set{book}", [program, "script"], HELD_TEXT, starts, replay)
    check_ways_back(checks)
    check_added(checks)
    check_previews(checks)
    check_newer_finds(checks)


# ---- rows: one allocation of each call is refused in one run

def check_rows(checks, name, rows):
    """The longest call goes first and is not compared, so that the line's buffer has its size before allocations are refused."""
    longest = max((line for line, _ in rows), key=len)
    text = b"".join(line + b"\n" for line in [longest] + [line for line, _ in rows])
    for nth in range(1, MOST):
        done = run([CALLS], text, preload="refuse", REFUSE_EACH=nth)
        told = done.out.split(b"\n")[1:-1]
        wants = told.count(b"fault NoMemory")
        wrong = [
            f"{short(line)} gives {difference(found, wanted)}"
            for (line, wanted), found in zip(rows, told)
            if found not in (wanted, b"fault NoMemory")
        ]
        if done.status != 0 or len(told) != len(rows):
            wrong.append(f"status {done.status}, {len(told)} lines to {len(rows)} calls")
        if wants != refusals(done):
            wrong.append(f"{refusals(done)} allocations refused, {wants} calls want memory")
        checks.check(f"{name}, allocation {nth} of each call refused", "; ".join(wrong[:3]))
        if not refusals(done):
            break
    checks.check(f"{name}, allocations refused", None if nth > 1 else "none was")


def check_start_of_rows(checks):
    """If there is no memory for the first line, the program ends with a failure."""
    done = run([CALLS], call("name", b"a") + b"\n", preload="refuse", REFUSE_NTH=1)
    checks.equal("the first allocation of the calls", (refusals(done), done.status, done.out), (1, 1, b""))


# ---- changes of local zones and of stubs, each with its way back

def table_runs(word, lines):
    """The outputs that are allowed if one allocation is refused: all lines, or all but one that got no memory or was not read."""
    def written(some):
        return run([PLAY, word], b"".join(line + b"\n" for line in some)).out

    may = {written(lines)}
    for place in range(len(lines)):
        before = written(lines[:place])
        behind = written(lines[:place] + lines[place + 1 :])[len(before) :]
        may.update(before + told + behind for told in (b"out of memory\n", b"what?\n"))
    return may


def check_table(checks, word):
    """A refused allocation leaves the lists as they were, or ends the program after a whole line."""
    text = read(TABLES[word][0])
    lines = [line for line in text.splitlines() if not line.startswith((b"fill", b"#"))]
    text = b"".join(line + b"\n" for line in lines)
    whole = run([PLAY, word], text).out
    may = table_runs(word, lines)
    for nth in range(1, MOST):
        done = run([PLAY, word], text, preload="refuse", REFUSE_NTH=nth)
        if not refusals(done):
            break
        good = done.out in may if done.status == 0 else whole.startswith(done.out)
        checks.check(f"{word}, allocation {nth} refused", None if good else f"status {done.status}, {short(done.out)}")
    checks.check(f"{word}, allocations refused", None if nth > 1 else "none was")


# ---- calls of a book, each recorded

# Every kind of event, of command and of lookup has to occur in the call log, in which an event follows its moment.
KINDS = """
admit undo redo sweep
flush_type flush flush_zone local_zone local_data stub_add local_zone_remove local_data_remove stub_remove
look list_local_zones list_local_data list_stubs list_commands list_buried servers
""".split()

UNTOUCHED = b"0 entries, 0 calls, 0 cells, seen 0, made 0"
# The calls of a full call log, by the word for what is called: `RECORDED` and `MOVING` in `book_tests`.
MOST_CALLS = {"moving": 2}
WANT = b"out of memory"


def fault_of_steps(whole, done, most):
    """What is wrong with a run in which an allocation was refused.

    Either the program ended before its first call. Or one call got no memory and changed nothing but that a full call log, of `most` calls,
    may have lost its oldest one, and all other replies are as if it had not been made.
    """
    if done.status == 1 and not done.out:
        return None
    lines = done.out.split(b"\n")
    wants = [place for place, line in enumerate(lines) if line.endswith(b": " + WANT)]
    if done.status != 0 or len(wants) > refusals(done):
        return f"status {done.status}, {refusals(done)} allocations refused, {len(wants)} calls want memory"
    for place in wants:
        before = lines[place - 1].split(b": ")[0] if place else UNTOUCHED
        after = lines.pop(place).split(b": ")[0]
        if after not in (before, before.replace(b"%d entries," % most, b"%d entries," % (most - 1))):
            return f"after {before!r} a call finds no memory, and leaves {after!r}"
    again = b"\n".join(lines)
    return None if again == whole else difference(again, whole)


def check_steps(checks, words, kinds, least):
    """A call that gets no memory leaves the totals and the pass as they were, and the call log but for its oldest call. It is made again."""
    name = " ".join(["recorded calls", *words])
    whole = run([BOOKS, "steps", *words]).out
    for kind in kinds:
        checks.check(f"{name}, the kind {kind}", None if re.search(rb" at \d+ %s\b" % kind.encode(), whole) else "is none")
    wants = 0
    for nth in range(1, MOST):
        done = run([BOOKS, "steps", *words], preload="refuse", REFUSE_NTH=nth)
        if not refusals(done):
            break
        wants += done.out.count(b": " + WANT + b"\n")
        checks.check(f"{name}, allocation {nth} refused", fault_of_steps(whole, done, MOST_CALLS.get(" ".join(words), 60)))
    checks.check(f"{name} that find no memory", None if wants > least else f"are {wants}")


# ---- two callers of a shared book, each in a thread of its own

# The calls: the first caller sets a zone, looks, undoes that and looks again; the second brings an address and looks.
SET, LOOK, UNDO, LOOK_AGAIN, ADMIT, LOOK_ADDRESS = range(6)

# The setting that refuses the Nth allocation of each caller's thread, and those of its calls that need memory in whatever order the
# threads run.
THREADS = {"REFUSE_OTHER": {SET, LOOK}, "REFUSE_FIRST": {ADMIT}}


def replies_to_callers(wants):
    """The replies to the six calls, of which those at some places find no memory and have no effect."""
    zones = b"end" if SET in wants else b"c. static;end"
    replies = [
        b"ok 1",
        zones,
        b"error nothing_to_undo" if SET in wants else b"undone 1",
        zones if UNDO in wants else b"end",
        b"taken",
        b"unknown" if ADMIT in wants else b"found 4 60 b.test. A 192.0.2.1",
    ]
    return [WANT if place in wants else reply for place, reply in enumerate(replies)]


def check_thread(checks, book, setting, needy):
    """A call that gets no memory has no effect. The book closes, and a new book that gets the other events replies the same."""
    found = set()
    for nth in range(1, MOST):
        done = run([BOOKS, "threads", book], preload="refuse", **{setting: nth})
        if not refusals(done):
            break
        name = f"threads {book}, {setting} {nth}"
        told = [line.partition(b": ")[2] for line in done.out.splitlines()[2:8]]
        wants = {place for place, reply in enumerate(told) if reply == WANT}
        found |= wants
        replies = [b"caller %d: %s" % (place >= ADMIT, reply) for place, reply in enumerate(replies_to_callers(wants))]
        entries = 6 - len(wants)
        wanted = [b"calls", b"done", *replies, b"%d entries, %d replied alike" % (entries, entries)]
        checks.equal(name, (done.status, done.out.splitlines()), (0, wanted))
        checks.check(f"{name}, wants", None if len(wants) <= refusals(done) else f"are {len(wants)}")
    checks.check(f"threads {book}, {setting}, calls that find no memory", None if needy <= found else f"are {found}")
    return nth - 1


def check_threads(checks):
    lasts = [check_thread(checks, book, *thread) for book in ("plain", "shelf") for thread in THREADS.items()]
    print(f"{sum(lasts)} runs of two threads; the longest has {max(lasts)} allocations")


# ---- random messages

def check_drawn(checks):
    """The first allocations: either there is no memory for the first line, and the program ends with a failure; or the call reports
    want of memory and nothing else."""
    ended = 0
    for nth in range(1, 401):
        done = run([CALLS], b"drawn\n", preload="refuse", REFUSE_NTH=nth)
        ended += done.status == 1
        wanted = (1, 1, b"") if done.status else (1, 0, b"fault NoMemory\n")
        checks.equal(f"drawn messages, allocation {nth} refused", (refusals(done), done.status, done.out), wanted)
    checks.check("allocations before the first call", None if ended < 9 else f"{ended} ended the program")


# ---- how much memory is requested

def check_counts(checks):
    """A header that counts 65,535 records of each section, and has none, takes no memory for them. With bad octets behind it, it takes
    memory for 64 items at most, of up to 160 octets each."""
    header = bytes.fromhex("12340100ffffffffffffffff")
    one_question = bytes.fromhex("123401000001ffffffffffff0000010001")
    bad = bytes.fromhex("123401000000ffff00000000") + bytes([65]) * 400
    first = call("decode", bytes(40))
    for octets, most in ((header, 1_024), (one_question, 1_024), (bad, 64 * 160)):
        for line in (call(word, octets) for word in ("decode", "ask")):
            done = run([CALLS], first + b"\n" + line + b"\n", preload="refuse")
            largest = [int(told.split()[1]) for told in done.told if told.startswith("largest ")]
            checks.check(f"{line.decode()[:60]}, allocation", None if largest and largest[0] <= most else f"as much as {largest}")


def main():
    checks = Checks()
    check_each_script(checks)
    control = [PLAY, "control"]
    check_script(checks, "control", control, CONTROL_TEXT, {(3, b"")}, Replay(control))
    check_held_set(checks)
    for file in sorted(os.listdir(ROWS)):
        check_rows(checks, file, read_rows(os.path.join(ROWS, file))[0])
    check_rows(checks, "every octet", list(every_octet()))
    check_start_of_rows(checks)
    for word in TABLES:
        check_table(checks, word)
    check_steps(checks, [], KINDS, 60)
    check_steps(checks, ["two"], ["local_zone", "list_local_zones", "undo", "admit", "look"], 6)
    check_steps(checks, ["moving"], ["undo", "list_local_zones"], 2)
    check_threads(checks)
    check_drawn(checks)
    check_counts(checks)
    runs, last = sum(LAST.values()), max(LAST, key=LAST.get)
    print(f"{runs} runs of {len(LAST)} scripts; the longest has {LAST[last]} allocations: {last}")
    checks.end()


main()
