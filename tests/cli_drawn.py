"""Random scripts of all lines, compared with a model that replays the events before each line from nothing."""

from collections import Counter

from lib.checks import Checks, short
from lib.drawing import LISTS, drawn_script
from lib.model import UNNAMED, cell_of, now, servers_at, shown, standing, tables_of
from lib.programs import RESOLVER, run
from lib.reading import name_in, type_in, words_of

SCRIPTS, SEED = 200, 20_261_122

# Every kind of reply has to occur.
KINDS = """
ok, taken, outranked, swept, forgotten, ok N, ok N with a zone of its own, undone N, redone N
error nothing_to_undo, error nothing_to_redo, error not_kept, error buried N
error below_redirect, error data_below, error cname_clash, error too_many
error unknown, error missing, error bad_name, error bad_type, error bad_data, error bad_address, error too_long
fault bad_moment, fault full
found 2, found 3, found 4, found of several, nodata N, noname N, unknown, unknown of what died, unknown of rank 1
local data, local data of several, local nodata, local noname, local refuse, local drop
servers hints, servers no hints, servers stub, servers stub at a set, servers cache
servers with some missing, servers with all missing
oldest of some, oldest of none, oldest of what a command hides
list_commands done, list_commands undone
look_undo shown, look_undo refused, look_redo shown, look_redo refused, look_without shown, look_without refused
what_undo shown, what_undo refused
""".strip().replace("\n", ", ").split(", ") + [f"{word} of {size}" for word in LISTS for size in ("some", "none")]


PREVIEWS = ("look_undo", "look_redo", "look_without", "what_undo")
REFUSED = ("nothing_to_undo", "nothing_to_redo", "not_kept", "buried")


def settled(model):
    return standing(model.journal, model.history)


def has_made_zone(model):
    """Whether the last event added a zone."""
    before = standing(model.journal, model.history[:-1])
    return len(tables_of(settled(model)).zones) > len(tables_of(before).zones)


def kinds_of_nothing(model, line):
    """The reasons why a lookup gets nothing."""
    _, owner, kind = words_of(line)
    question = name_in(owner), type_in(kind)
    if shown(settled(model), question, now(model.history)):
        yield "unknown of rank 1"
    elif cell_of(settled(model), question):
        yield "unknown of what died"


def kinds_of_servers(model, words):
    if len(words) == 3:
        yield "servers no hints"
    elif "|" in words:
        yield f"servers with {'all' if words[3] == '|' else 'some'} missing"
    if words[2] == "stub" and servers_at(model, settled(model), name_in(words[1]), model.history[-1].moment):
        yield "servers stub at a set"
    yield f"servers {words[2]}"


def kinds_of_oldest(model, words):
    if words == ["unknown"]:
        yield "oldest of none"
        return
    yield "oldest of some"
    name = name_in(words[1])
    finds = [entry.event.what for entry in model.history if entry.event.verb == "admit" and entry.event.what.owner == name]
    questions = [(name, UNNAMED if find.kind is None else find.kind) for find in finds]
    if not any(shown(settled(model), question, now(model.history)) for question in questions):
        yield "oldest of what a command hides"


def kinds_of(model, line, told):
    """The kinds of a reply, by the model after it."""
    verb, words = line.split(" ")[0], told[0].split(" ")
    if told[-1] == "end":
        yield f"{verb} of {'some' if told[1:] else 'none'}"
        if verb == "list_commands":
            yield from {f"{verb} {row.split(' ')[1]}" for row in told[:-1]}
    elif verb in PREVIEWS and (words[0] != "error" or words[1] in REFUSED):
        yield f"{verb} {'refused' if words[0] == 'error' else 'shown'}"
    elif words[0] == "servers":
        yield from kinds_of_servers(model, words)
    elif words[0] in ("found", "local"):
        what = words[1] if words[0] == "found" or len(words) == 2 else "data"
        yield f"{words[0]} {what}"
        if "|" in words:
            yield "found of several" if words[0] == "found" else "local data of several"
    elif verb == "oldest" and words[0] in ("oldest", "unknown"):
        yield from kinds_of_oldest(model, words)
    elif words[:2] == ["fault", "full"]:
        yield "fault full"
    else:
        yield " ".join("N" if word.isdigit() else word for word in words)
        if told == ["unknown"]:
            yield from kinds_of_nothing(model, line)
        if verb == "local_data" and words[0] == "ok" and has_made_zone(model):
            yield "ok N with a zone of its own"


def check_script(checks, seed, counts):
    arguments, model, lines = drawn_script(seed)
    replies = []
    for line in lines:
        replies.append(model.obey(line))
        counts.update(kinds_of(model, line, replies[-1]))
    done = run([RESOLVER, "script", *arguments], "".join(line + "\n" for line in lines).encode())
    name = f"script {seed} ({' '.join(arguments)})"
    rest = done.out.decode().splitlines()
    for number, (line, told) in enumerate(zip(lines, replies), 1):
        if rest[: len(told)] != told:
            checks.check(name, f"line {number}, {short(line)}, gets {short(rest[: len(told)])}, wanted {short(told)}")
            return
        rest = rest[len(told) :]
    checks.equal(f"{name}, its end", (rest, done.status, done.err), ([], 0, b""))


def main():
    checks, counts = Checks(), Counter()
    for place in range(SCRIPTS):
        check_script(checks, SEED + place, counts)
    for kind in KINDS:
        checks.check(f"the reply {kind!r}", None if counts[kind] else "was never drawn")
    checks.equal("replies of other kinds", sorted(set(counts) - set(KINDS)), [])
    checks.end()


main()
