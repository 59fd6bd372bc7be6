"""The first steps of a newcomer: ./resolver, built or not, and ./build, with a toolchain that the test plays; and the story of
README.md, played by a service whose name servers go away."""

import os
import re
import shutil
import subprocess
import tempfile
import time

from lib.checks import Checks
from lib.nameserver import NameServers
from lib.programs import PATIENCE, RESOLVER, TOP, read, run
from lib.service import Service

RANKS = os.path.join(TOP, "examples/ranks.script")
PROGRAM = "crates/resolver_cli/out/resolver_cli"
TOOLS = "bash awk cat cp dirname find git grep kill ls mkdir mktemp mv python3 rm sed sleep tail tar touch"

# A script in place of `rt`: it runs a program as `rt try` does, says that it proved two crates, and builds.
PLAYED = """
case "$1 $2" in
    "try --seconds")
        shift 4
        "RESOLVER" "$@"
        status=$?
        printf 'checked: ended status=%d\\nraces: not looked for\\nrun=ended status=%d proved=no\\n' $status $status >&2
        exit $status ;;
    "ci ")
        ls crates crates/*; cat crates.txt
        echo 'rt: low is kept: an earlier run proved the same'
        echo 'rt: resolver_cli REMARK'
        mkdir -p crates/resolver_cli/out && cp "RESOLVER" crates/resolver_cli/out/resolver_cli
        exit STATUS ;;
esac
"""


class Place:
    """A copy of ./resolver and ./build with three crates and a folder of tools."""

    def __init__(self, folder):
        self.folder, self.tools = folder, os.path.join(folder, "tools")
        for name in ("resolver", "build", "HANDLES"):
            shutil.copy(os.path.join(TOP, name), folder)
        for crate in ("low", "other", "resolver_cli"):
            for file in ("src/main.rt", "must-fail/bug.edit"):
                self.write(f"crates/{crate}/{file}", "")
        self.write("crates.txt", "low: arrayvec\nother: low\nresolver_cli: low clap\n")
        os.makedirs(self.tools)
        for tool in TOOLS.split():
            if found := shutil.which(tool):
                os.symlink(found, os.path.join(self.tools, tool))

    def write(self, name, text):
        path = os.path.join(self.folder, name)
        os.makedirs(os.path.dirname(path), exist_ok=True)
        with open(path, "w", encoding="utf-8") as file:
            file.write(text)
        os.utime(path, (1, 1))
        return path

    def play(self, remark="proved", status=0):
        """Makes the command `rt`, whose proof ends with a remark and a status."""
        text = PLAYED.replace("RESOLVER", RESOLVER).replace("REMARK", remark).replace("STATUS", str(status))
        os.chmod(self.write("tools/rt", f"#!{os.path.join(self.tools, 'bash')}\n{text}"), 0o755)

    def run(self, command, *arguments):
        return subprocess.run(
            [os.path.join(self.folder, command), *arguments], cwd="/",
            input=read(RANKS), capture_output=True, env={"PATH": self.tools}, timeout=PATIENCE,
        )


def lacks(text, *words):
    """What is wrong if a text lacks one of these words."""
    missing = [word for word in words if word not in text]
    return f"{text!r} does not say {missing}" if missing else None


def check_starter(checks):
    """./resolver passes on arguments, input, replies and status. It runs the source unproved if no current program is built."""
    ranks = read(RANKS[: -len("script")] + "out")
    with tempfile.TemporaryDirectory() as folder:
        place = Place(folder)
        done = place.run("resolver", "script")
        checks.equal("./resolver with no toolchain, its end", (done.returncode, done.stdout), (1, b""))
        checks.check("./resolver with no toolchain", lacks(done.stderr, b"needs Rattle's command rt"))
        place.play()
        done = place.run("resolver", "script", "--journal", "2")
        checks.equal("./resolver unproved", (done.returncode, done.stdout, done.stderr.count(b"\n")), (0, ranks, 1))
        checks.check("./resolver unproved: what it says", lacks(done.stderr, b"not built", b"unproved", b"./build"))
        done = place.run("resolver", "script", "--journal", "0")
        checks.equal("./resolver unproved, with a bad argument", (done.returncode, done.stdout), (2, b""))
        done = place.run("build")
        checks.equal("./build", done.returncode, 0)
        checks.check("./build: its progress", lacks(done.stdout, b"build: 1 of 2", b"low was proved before", b"2 of 2", b"resolver_cli proved"))
        done = place.run("resolver", "script", "--journal", "2", "--cells=5")
        checks.equal("./resolver that is built", (done.returncode, done.stdout, done.stderr), (0, ranks, b""))
        os.utime(os.path.join(folder, PROGRAM), (0, 0))
        done = place.run("resolver", "script")
        checks.equal("./resolver after an edit", (done.returncode, done.stdout), (0, ranks))
        checks.check("./resolver after an edit: what it says", lacks(done.stderr, b"newer than the built program", b"unproved"))


def check_build(checks):
    """./build proves only the crates of the program, without must-fail edits, and shows why a proof failed."""
    with tempfile.TemporaryDirectory() as folder:
        place = Place(folder)
        place.play("NOT PROVED", 1)
        done = place.run("build")
        checks.equal("./build that fails", (done.returncode, os.path.exists(os.path.join(folder, PROGRAM))), (1, False))
        checks.check("./build that fails: what it says", lacks(done.stderr, b"NOT PROVED", b"the proof failed"))
        told = done.stderr.decode()
        checks.equal("./build: what it leaves out", [word for word in ("other", "must-fail") if word in told], [])


def check_unproved_service(checks):
    """./resolver reports itself that an unproved service is up."""
    with tempfile.TemporaryDirectory() as folder, Service(["192.0.2.1"]) as free:
        port, control = free.port, free.control_port
        free.stop()
        place = Place(folder)
        place.play()
        arguments = ["serve", f"--listen=127.0.0.1@{port}", "--control", f"127.0.0.1@{control}", "192.0.2.1"]
        with subprocess.Popen(
            [os.path.join(folder, "resolver"), *arguments], stdin=subprocess.DEVNULL, stdout=subprocess.PIPE,
            stderr=subprocess.PIPE, env={"PATH": place.tools, "RESOLVER_SECONDS": "77"},
        ) as process:
            told = b""
            while line := process.stderr.readline():
                told += line
                if b"ready, unproved" in line:
                    run([RESOLVER, "control", f"127.0.0.1@{control}", "stop"])
            checks.equal("an unproved service, its end", (process.wait(PATIENCE), process.stdout.read()), (0, b"ready\n"))
        checks.check("an unproved service", lacks(told, f"it answers at 127.0.0.1@{port}".encode(), b"77 s"))


# The name servers of the story: that of the root, which refers to that of `example`.
WORLD = {
    "127.0.0.1": {"*": "| authority example. 3600 NS ns.example. | additional ns.example. 3600 A 127.0.0.2"},
    "127.0.0.2": {"www.shop.example. A": "aa | answer www.shop.example. 300 A 192.0.2.80"},
}


def story():
    """The commands of README's story, each with what it prints."""
    text = re.search(r"^```console\n(.*?)^```", read(os.path.join(TOP, "README.md")).decode(), re.DOTALL | re.MULTILINE)[1]
    for part in text.split("$ ")[1:]:
        command, _, printed = part.partition("\n")
        yield re.sub(r" +#.*", "", command), printed.split()


def told(service, command):
    """What a command of the story prints, at this service."""
    if command.startswith("./resolver control"):
        return service.obey(command.split(" ", 3)[3])[0].split()
    reply = service.ask("www.shop.example.", "A")
    if "status" in command:
        return ["status:", {0: "NOERROR", 2: "SERVFAIL"}[reply.flags & 0xF]]
    return [word for record in reply.records for word in (record.owner, str(record.ttl), "IN", record.kind, record.data)]


def without_ttl(words):
    return words[:1] + words[2:] if "IN" in words else words


def check_story(checks):
    """README's story: the name servers go away before the flush, and the answer is back after the undo."""
    steps, left = list(story()), []
    with NameServers(WORLD) as servers, Service([f"127.0.0.1@{servers.port}"], "--server-port", str(servers.port)) as service:
        began = time.monotonic()
        for command, printed in steps:
            if "flush_zone" in command:
                servers.__exit__()
                time.sleep(1.1)
            found = told(service, command)
            checks.equal(f"README: {command}", without_ttl(found), without_ttl(printed))
            if "IN" in found:
                left.append((int(found[1]), int(printed[1])))
        passed = int(time.monotonic() - began)
    checks.equal("README: how often it is answered", len(left), 2)
    (first, first_told), (last, last_told) = left
    checks.check("README: the first TTL", None if first == first_told == 300 else f"{first}, and README has {first_told}")
    checks.check("README: the TTL that is left", None if 299 - passed <= last < 300 and last_told < 300 else f"{last}, after {passed} s")


def main():
    checks = Checks()
    checks.make(check_starter)
    checks.make(check_build)
    checks.make(check_unproved_service)
    checks.make(check_story)
    checks.end()


main()
