"""Exit statuses and messages of the program: arguments, help, failed reads and writes."""

import os
import re
import subprocess

from lib.checks import Checks
from lib.programs import PATIENCE, RESOLVER, TOP, read, run

RANKS = os.path.join(TOP, "examples/ranks.script")


def check_arguments(checks):
    """Numbers at the ends of their ranges and outside them. The first line of an error names the option."""
    for arguments, word in [
        (["--journal", "0"], b"journal"),
        (["--journal", "257"], b"journal"),
        (["--journal", "1x"], b"journal"),
        (["--cells", "0"], b"cells"),
        (["--cells", "1000001"], b"cells"),
        (["--server-port", "0"], b"server-port"),
        (["--server-port", "65536"], b"server-port"),
    ]:
        done = run([RESOLVER, "script", *arguments])
        first = done.err.split(b"\n")[0]
        is_told = first.startswith(b"error: ") and word in first
        checks.check(" ".join(arguments), None if (done.status, done.out, is_told) == (2, b"", True) else f"{done}")
    for arguments in (["--journal", "256"], ["--cells", "1000000"], ["--journal=1", "--cells=1"], ["--server-port", "1"], ["--server-port=65535"]):
        done = run([RESOLVER, "script", *arguments], b"undo\n")
        checks.equal(" ".join(arguments), (done.status, done.out, done.err), (0, b"error nothing_to_undo\n", b""))


def check_hints(checks):
    """Up to 16 addresses of root servers, before and after options."""
    hints = [f"198.51.100.{place}" for place in range(17)]
    told = "".join(f" {hint}@53" for hint in hints[:16])
    for name, arguments in (("16 hints", hints[:16]), ("hints round an option", [*hints[:3], "--journal", "1", *hints[3:16]])):
        done = run([RESOLVER, "script", *arguments], b"servers a.\n")
        checks.equal(name, (done.status, done.out, done.err), (0, f"servers . hints{told}\n".encode(), b""))
    form = "not an IP address; the form is IP@PORT, or IP for port 53"
    port = "the port is not a number from 1 to 65535"
    for arguments, why in (
        (hints, "HINT: 17 addresses; the most are 16"),
        ([*hints[:2], "ns.test.", "@"], f"HINT ns.test.: {form}"),
        (["1.2.3@53"], f"HINT 1.2.3@53: {form}"),
        (["192.0.2.01"], f"HINT 192.0.2.01: {form}"),
        (["192.0.2.1:53"], f"HINT 192.0.2.1:53: {form}"),
        (["[::1]@53"], f"HINT [::1]@53: {form}"),
        ([""], f"HINT : {form}"),
        (["@53"], f"HINT @53: {form}"),
        (["::1@0"], f"HINT ::1@0: {port}"),
        (["192.0.2.1@65536"], f"HINT 192.0.2.1@65536: {port}"),
        (["192.0.2.1@"], f"HINT 192.0.2.1@: {port}"),
        (["192.0.2.1@53@53"], f"HINT 192.0.2.1@53@53: {port}"),
        # What would end the line, or move a terminal's cursor, is a question mark.
        (["a\nb\x1b[2J\x7fé"], f"HINT a?b?[2J?é: {form}"),
    ):
        done = run([RESOLVER, "script", *arguments], b"servers a.\n")
        wanted = f"resolver: bad arguments\nresolver: {why}\n".encode()
        checks.equal(f"hints {arguments}", (done.status, done.out, done.err), (2, b"", wanted))
    done = run([RESOLVER, "script", b"\xff"])
    wanted = b"resolver: bad arguments\nresolver: an argument is not UTF-8\n"
    checks.equal("an argument that is not UTF-8", (done.status, done.out, done.err), (2, b"", wanted))


def check_help(checks):
    """The whole text of help, and of errors in the mode, on standard error and with status 2."""
    for arguments, file in [
        (["--help"], "resolver.txt"),
        (["help"], "resolver.txt"),
        (["script", "--help"], "script.txt"),
        (["help", "script"], "script.txt"),
        (["serve", "--help"], "serve.txt"),
        (["help", "serve"], "serve.txt"),
        (["control", "--help"], "control.txt"),
        (["help", "control"], "control.txt"),
        ([], "no_mode.txt"),
        (["bogus"], "another_mode.txt"),
    ]:
        done = run([RESOLVER, *arguments])
        name = " ".join(["resolver", *arguments])
        checks.equal(name, done.err, read(os.path.join(TOP, "tests/help", file)))
        checks.equal(f"{name}, its end", (done.status, done.out), (2, b""))


def check_version(checks):
    """The version alone is on standard output. It is the newest one of CHANGELOG.md. Beside a mode it is none of its options."""
    newest = re.search(r"^## (\S+)", read(os.path.join(TOP, "CHANGELOG.md")).decode(), re.MULTILINE)[1]
    done = run([RESOLVER, "--version"])
    checks.equal("the version", (done.status, done.out, done.err), (0, f"resolver {newest}\n".encode(), b""))
    with open("/dev/full", "wb") as full:
        done = subprocess.run([RESOLVER, "--version"], stdout=full, stderr=subprocess.PIPE, timeout=PATIENCE)
    checks.equal("the version, and a device that is full", (done.returncode, done.stderr), (1, b"resolver: write failed\n"))
    for arguments in (["script", "--version"], ["serve", "--version"], ["--version=1"]):
        done = run([RESOLVER, *arguments])
        is_told = done.err.startswith(b"error: ") and b"--version" in done.err.split(b"\n")[0]
        checks.check(" ".join(arguments), None if (done.status, done.out, is_told) == (2, b"", True) else f"{done}")


def check_faults(checks):
    """A full device, and an input that cannot be read."""
    with open(RANKS, "rb") as text, open("/dev/full", "wb") as full:
        done = subprocess.run([RESOLVER, "script"], stdin=text, stdout=full, stderr=subprocess.PIPE, timeout=PATIENCE)
    checks.equal("a device that is full", (done.returncode, done.stderr), (1, b"resolver: write failed\n"))
    folder = os.open("/", os.O_RDONLY)
    done = subprocess.run([RESOLVER, "script"], stdin=folder, capture_output=True, timeout=PATIENCE)
    os.close(folder)
    checks.equal("an input that is a folder", (done.returncode, done.stderr), (1, b"resolver: read failed\n"))


def main():
    checks = Checks()
    check_arguments(checks)
    check_hints(checks)
    check_help(checks)
    check_version(checks)
    check_faults(checks)
    checks.end()


main()
