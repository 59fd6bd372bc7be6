"""What an undo or a redo would show, before it is given, and what it shows then: drawn states of the cache and the tables."""

import random
from collections import Counter

from lib.checks import Checks, short
from lib.drawing import Drawer
from lib.programs import RESOLVER, run

SCRIPTS, STATES, SEED = 50, 2_000, 63

# In how many states the lookup right after the move has to differ from that before it.
LEAST_MOVED = 8_000


def probe(draw, drawer):
    """A lookup, the preview of a move, the move, the lookup then, the preview of the way back, that, and the first lookup again."""
    question = " ".join(drawer.question())
    ticket = max(1, drawer.given - draw.choice([0, 1, 1, 2, 3, 5, 8]))
    before, move, back = draw.choice([
        *[("look_undo", "undo", "redo")] * 3, ("look_redo", "redo", "undo"), (f"look_without {ticket}", f"undo {ticket}", f"redo {ticket}"),
    ])
    return [f"look {question}", f"{before} {question}", move, f"look {question}", f"look_{back[:4]} {question}", back, f"look {question}"]


def given(drawer):
    """A command, which counts."""
    lines = drawer.change()[:1]
    drawer.given += 1
    return lines


def hidden(drawer):
    """A cell, and a flush that hides it, which counts. The lookups after it ask mostly for that cell."""
    owner, kind = drawer.question()
    drawer.met = [(owner, kind)]
    drawer.given += 1
    return [f"admit 4 {owner} {drawer.ttl()} {kind} {drawer.data(kind)}", f"flush {owner}"]


def drawn_states(seed):
    """Lines, of which every state is followed by a probe."""
    draw = random.Random(seed)
    drawer = Drawer(draw)
    for _ in range(STATES):
        yield draw.choice([lambda: [drawer.line()], lambda: [*drawer.admit(), *given(drawer)], lambda: hidden(drawer)])()
        yield probe(draw, drawer)


def replies_in(lines, told):
    """The reply to each line: all lines of a list, or one line."""
    rest = iter(told)
    for line in lines:
        reply = [next(rest)]
        while line.startswith("list_") and reply[-1] != "end" and not reply[0].startswith("error"):
            reply.append(next(rest))
        yield reply


def fault_in(lines, replies, kinds):
    """What is wrong with the replies to a probe."""
    shown, preview, moved, then, preview_back, back, again = (reply[0] for reply in replies)
    if moved.startswith("error"):
        kinds[moved.split(" ")[1]] += 1
        return None if preview == moved else f"{lines[1]} gets {preview!r}, and {lines[2]} {moved!r}"
    kinds["moved" if then != shown else "alike"] += 1
    if preview != then:
        return f"{lines[1]} gets {preview!r}, and after {lines[2]} the lookup {then!r}"
    if preview_back != again:
        return f"{lines[4]} gets {preview_back!r}, and after {lines[5]} the lookup {again!r}"
    # An undo by number may not reach what a redo has put back, since a later command is done: then the redo stands.
    if lines[2].startswith("undo") and (back.split(" ")[1] != moved.split(" ")[1] or again != shown):
        return f"{lines[5]} after {lines[2]} gets {back!r}, and then the lookup {again!r}, before {shown!r}"
    return None


def check_script(checks, seed, kinds):
    groups = list(drawn_states(seed))
    lines = [line for group in groups for line in group]
    journal = random.Random(seed).choice([1, 2, 4, 8, 64, 256])
    done = run([RESOLVER, "script", f"--journal={journal}"], "".join(line + "\n" for line in lines).encode())
    replies = replies_in(lines, done.out.decode().splitlines())
    for number, group in enumerate(groups):
        told = [next(replies) for _ in group]
        fault = fault_in(group, told, kinds) if number % 2 else None
        if fault:
            checks.check(f"script {seed}, state {number // 2}", short(fault))
            return
    checks.equal(f"script {seed}, its end", (list(replies), done.status, done.err), ([], 0, b""))


def main():
    checks, kinds = Checks(), Counter()
    for place in range(SCRIPTS):
        check_script(checks, SEED + place, kinds)
    for kind in ("nothing_to_undo", "nothing_to_redo", "not_kept", "buried", "alike"):
        checks.check(f"a preview of {kind}", None if kinds[kind] else "was never drawn")
    checks.check("previews of another answer", None if kinds["moved"] >= LEAST_MOVED else f"were {kinds['moved']}")
    checks.end()


if __name__ == "__main__":
    main()
