"""The documents: README fits a screen and a half; each link leads somewhere; each name of the code in docs/ exists; the picture of
the promise is true of its example; what scripts make is up to date; docs/OPERATING.md has each line that help lists, and the
program replies to its examples as it says."""

import os
import re
import subprocess
import sys

from lib.checks import Checks
from lib.programs import RESOLVER, TOP, read, run
from lib.service import Service

OPERATING = os.path.join(TOP, "docs/OPERATING.md")
SCRIPTS = ("graph.py", "renumber.py", "times.py")
# Files of specs/, and a word that each defines and no other file does.
DEFINITIONS = [("crates/history/specs/Answers", "history_after"), ("crates/world_book/specs/Removals", "IsFreeAfter"), ("crates/shared_book/specs/Closing", "IsComplete")]
MOST_OCTETS = 6_144


def documents():
    """The paths of the documents, below the top."""
    yield from ("README.md", "CHANGELOG.md", "tests/README.md", "bench/README.md", "packaging/README.md")
    yield from (f"docs/{name}" for name in sorted(os.listdir(os.path.join(TOP, "docs"))) if name.endswith(".md"))


def text_of(path):
    return read(os.path.join(TOP, path)).decode()


def anchor(heading):
    """The name by which a link reaches a heading."""
    return re.sub(r"[^\w\- ]", "", heading.strip().lower()).replace(" ", "-")


def without_code(text):
    return re.sub(r"^```.*?^```", "", text, flags=re.DOTALL | re.MULTILINE)


def check_links(checks):
    """Each link leads to a file that is there, and to a heading of it."""
    for path in documents():
        for target in re.findall(r"\]\(([^)\s]+)\)", without_code(text_of(path))):
            if "://" in target:
                continue
            file, _, place = target.partition("#")
            there = os.path.normpath(os.path.join(os.path.dirname(path), file)) if file else path
            fault = None if os.path.exists(os.path.join(TOP, there)) else "there is no such file"
            if not fault and place:
                headings = re.findall(r"^#+ (.*)$", text_of(there), re.MULTILINE)
                fault = None if place in map(anchor, headings) else "there is no such heading"
            checks.check(f"{path}: the link {target}", fault)


def sources(folder):
    """The text of each file of src/ and specs/ below a folder, with the name of the file."""
    for base, folders, names in os.walk(os.path.join(TOP, folder)):
        folders[:] = [name for name in folders if name not in ("out", "proofs", "must-fail")]
        yield from ((name, read(os.path.join(base, name)).decode()) for name in names if name.endswith((".rt", ".antt")))


def defined(folder="crates"):
    """The names that code declares in its files below a folder, with those of its clauses, and those of definitions in specs/."""
    names = set()
    for name, text in sources(folder):
        if name.endswith(".rt"):
            names |= set(re.findall(r"\b(?:fn|struct|enum|trait|type|const|mod|ensures) (\w+)", text))
            names |= set(re.findall(r"^    ([A-Z]\w*)\b", text, re.MULTILINE))
        else:
            names |= set(re.findall(r"\bpub (?:record |data )?(\w+)", text))
    return names


def methods():
    """Each pair of a type or trait and a function that some file declares in its `impl` or in the trait itself."""
    found = set()
    for name, text in sources("crates"):
        for head, body in re.findall(r"^((?:impl|pub trait|pub\(crate\) trait)\b[^{]*)\{(.*?)^\}", text, re.DOTALL | re.MULTILINE):
            functions = re.findall(r"\bfn (\w+)", body)
            found |= {(owner, function) for owner in re.findall(r"\b[A-Z]\w*", head) for function in functions}
    return found


# Words in code type that are no names of ours: of lines and messages, and of the kit's crates.
OTHER_WORDS = {"TYPE", "c00c", "no_memory", "reply_lost", "ready", "clap", "Brand", "Snapshot", "Waker"}


def check_names(checks):
    """Each name of four documents is one of a crate, of a line, or, in docs/MEANINGS.md, of a file of specs/."""
    crates = set(re.findall(r"^\w+", text_of("crates.txt"), re.MULTILINE))
    known = defined() | crates | {line.split()[0] for line in listed()} | OTHER_WORDS
    files = {name.removesuffix(".antt") for name, _ in sources("crates")} | {"Read", "Write", "Server"}
    of_types = methods()
    pages = {"PROMISE": known, "PROVED": known, "ARCHITECTURE": known, "MEANINGS": known | files}
    for path, names in ((f"docs/{name}.md", names) for name, names in pages.items()):
        for name in sorted(set(re.findall(r"`((?:\w+::)*\w+)`", text_of(path)))):
            parts = name.split("::")
            missing = [part for part in parts if part not in names]
            if not missing and len(parts) == 2 and tuple(parts) not in of_types:
                missing = [f"{parts[1]} of {parts[0]}"]
            checks.equal(f"{path}: what is missing of {name}", missing, [])
    for row in re.findall(r"^\| .*\|$", text_of("docs/PROMISE.md"), re.MULTILINE):
        for names, crate in re.findall(r"((?:`[\w:]+`,? )+)(?:in )?`(\w+)`", row):
            if crate in crates:
                there = defined(f"crates/{crate}")
                parts = [name.split("::")[-1] for name in re.findall(r"`([\w:]+)`", names)]
                checks.equal(f"docs/PROMISE.md: what {crate} has not", [part for part in parts if part not in there], [])


def check_crates(checks):
    """docs/ARCHITECTURE.md says of each crate what is in it."""
    rows = re.findall(r"^\|[^|]*\| (.*?) \|", text_of("docs/ARCHITECTURE.md"), re.MULTILINE)
    rows += re.findall(r"^\| (.*?) \|", text_of("docs/ARCHITECTURE.md"), re.MULTILINE)
    named = set(re.findall(r"`(\w+)`", " ".join(rows)))
    known = set(re.findall(r"^\w+", text_of("crates.txt"), re.MULTILINE))
    checks.equal("docs/ARCHITECTURE.md: the crates that it leaves out", sorted(known - named), [])


def check_picture(checks):
    """Each line, reply and second of the picture of the promise is one of its example. Without the flush, which is struck through,
    and its undo, the last lookup of the example gets the same reply."""
    picture, script = text_of("docs/promise.svg"), text_of("examples/wrong_zone.script").splitlines()
    for kind, file in (("line", "script"), ("reply", "out")):
        there = text_of(f"examples/wrong_zone.{file}").splitlines()
        for text in re.findall(rf'<text class="{kind}"[^>]*>([^<]*)</text>', picture):
            front = text.removesuffix(" ..")
            checks.check(f"docs/promise.svg: {text}", None if any(line.startswith(front) for line in there) else "the example has none")
    seconds = [line.removeprefix("at ") for line in script if line.startswith("at ")]
    checks.equal("docs/promise.svg: its seconds", re.findall(r">(\d+) s<", picture), ["0", *seconds])
    gone = {*re.findall(r"line-through[^>]*>([^<]*)<", picture), "undo", "list_commands"}
    done = run([RESOLVER, "script"], "".join(line + "\n" for line in script if line not in gone).encode())
    last = [line for line in text_of("examples/wrong_zone.out").splitlines() if line.startswith("found ")][-1]
    checks.equal("docs/promise.svg: a replay without the flush", done.out.decode().splitlines()[-1:], [last])


def check_made(checks):
    """What the scripts of docs/ make is what they would make now."""
    for script in SCRIPTS:
        done = subprocess.run([sys.executable, "-B", os.path.join(TOP, "docs", script), "--check"], capture_output=True)
        checks.equal(f"docs/{script} --check", (done.returncode, done.stderr), (0, b""))


def check_definitions(checks):
    """A definition is printed as it is written, with its comment, and a word without one is refused."""
    script = [sys.executable, "-B", os.path.join(TOP, "docs/definitions.py")]
    for file, word in DEFINITIONS:
        text = text_of(f"{file}.antt")
        written = re.search(rf"((?:^--.*\n)+)(^(?:abbrev )?pub (?:record )?{word} (?:.+\n)+)", text, re.MULTILINE)
        comment = " ".join(line.removeprefix("-- ") for line in written[1].splitlines())
        done = subprocess.run([*script, word], capture_output=True, text=True)
        lines = "".join(f"    {line}\n" for line in written[2].splitlines())
        wanted = f"{word} ({file}.antt): {comment[:1].upper()}{comment[1:].rstrip('.')}.\n\n{lines}"
        checks.equal(f"docs/definitions.py {word}", (done.returncode, done.stdout), (0, wanted))
    done = subprocess.run([*script, "IsNowhere"], capture_output=True, text=True)
    checks.equal("docs/definitions.py IsNowhere", (done.returncode, done.stdout), (1, ""))


def listed():
    """The lines that the help of script lists, each with its form."""
    told = run([RESOLVER, "script", "--help"]).err.decode()
    return [line.strip() for line in told.split("Lines:\n")[1].splitlines() if line.strip()]


def examples(text, kind):
    """The lines of the examples of a kind, and the replies below them, indented."""
    lines, replies = [], []
    for block in re.findall(rf"^```{kind}\n(.*?)^```", text, re.DOTALL | re.MULTILINE):
        for line in block.splitlines():
            (replies if line.startswith("    ") else lines).append(line.strip())
    return lines, replies


def check_control(checks, lines, replies):
    """The examples of the control socket, over one connection, whose last line stops the service."""
    with Service(["192.0.2.1"]) as service:
        with service.control() as control:
            told = [piece for line in lines for piece in control.tell(line).split(" / ")]
        checks.equal("the control examples of OPERATING.md", told, replies)
        checks.equal("the control examples: the end", service.wait(), (0, b""))


def check_operating(checks):
    """docs/OPERATING.md has each line, and the program replies to its examples as it says."""
    text = read(OPERATING).decode()
    headed = re.findall(r"^### `(.*)`$", text, re.MULTILINE)
    checks.equal("the lines of OPERATING.md", sorted(headed), sorted(listed()))
    lines, replies = examples(text, "text")
    done = run([RESOLVER, "script"], "".join(line + "\n" for line in lines).encode())
    checks.equal("the examples of OPERATING.md", done.out, "".join(reply + "\n" for reply in replies).encode())
    check_control(checks, *examples(text, "control"))


def main():
    checks = Checks()
    size = len(read(os.path.join(TOP, "README.md")))
    checks.check("README.md: its size", None if size <= MOST_OCTETS else f"{size} octets, and {MOST_OCTETS} are a screen and a half")
    for check in (check_links, check_names, check_crates, check_picture, check_made, check_definitions, check_operating):
        checks.make(check)
    checks.end()


main()
