"""Input and output: replies are prompt and reads are few, and signals and pieces of one octet change nothing."""

import os
import select
import subprocess
import tempfile

from lib.checks import Checks
from lib.programs import RESOLVER, run, run_to_hangup, run_to_most, scripts

# The seconds that a reply may take; it takes far less.
SECONDS = 20

FIND = b"admit 4 a.test. 60 A 192.0.2.1\n"
LOOK = b"look a.test. A\n"
FOUND = b"found 4 60 a.test. A 192.0.2.1\n"


# Lines whose replies are awaited one by one: what is written, and the replies.
DIALOGUE = [
    (FIND, b"taken\n"),
    (LOOK, FOUND),
    (b"bogus\n", b"error unknown\n"),
    (b"flush_type a.test. A\n", b"ok 1\n"),
    (b"# a comment\n\nun", b""),
    (b"do\n", b"undone 1\n"),
    (LOOK, FOUND),
]


def reply_of(resolver):
    """The output up to the end of a line, or less if no more comes."""
    reply = b""
    while not reply.endswith(b"\n"):
        ready, _, _ = select.select([resolver.stdout], [], [], SECONDS)
        piece = os.read(resolver.stdout.fileno(), 4096) if ready else b""
        if not piece:
            break
        reply += piece
    return reply


def check_prompt(checks):
    """Each reply comes before the next line is written. A last line without its end gets a reply at the end."""
    resolver = subprocess.Popen([RESOLVER, "script"], stdin=subprocess.PIPE, stdout=subprocess.PIPE, bufsize=0, env={})
    try:
        for text, wanted in DIALOGUE:
            resolver.stdin.write(text)
            reply = reply_of(resolver) if wanted else b""
            checks.equal(f"prompt: {text!r}", reply, wanted)
            if reply != wanted:
                return
        resolver.stdin.write(b"undo")
        resolver.stdin.close()
        checks.equal("prompt: a last line with no end", reply_of(resolver), b"error nothing_to_undo\n")
        checks.equal("prompt: the end", (reply_of(resolver), resolver.wait(SECONDS)), (b"", 0))
    finally:
        resolver.kill()
        resolver.wait()


def check_comments(checks):
    """3 MB of comments, short ones and then one alone, and then a command."""
    short = b"# a comment, as it stands in many scripts\n" * 75_000
    long = b"#" + b"x" * 3_000_000 + b"\n"
    for name, comments in (("short comments", short), ("a long comment", long), ("empty lines", b"\r\n" * 1_500_000)):
        done = run([RESOLVER, "script"], comments + FIND + LOOK)
        checks.equal(name, (done.out, done.status), (b"taken\n" + FOUND, 0))


def check_reads(checks):
    """20 MB in a file take no more reads than one for each 1,024 octets."""
    text = (b"#" + b"x" * 998 + b"\n") * 20_000 + FIND
    with tempfile.TemporaryFile() as file:
        file.write(text)
        file.seek(0)
        done = run([RESOLVER, "script"], file, preload="interrupt")
    checks.equal("20 MB", (done.out, done.status), (b"taken\n", 0))
    reads = [int(told.split()[1]) for told in done.told if told.startswith("reads ")]
    checks.check("20 MB, its reads", None if reads and 0 < reads[0] <= len(text) // 1_024 else f"as many as {reads}")


def check_interrupted(checks):
    """Each script gets the same replies if signals interrupt calls, and if each call moves one octet."""
    for name, arguments, text, wanted in scripts():
        done = run([RESOLVER, "script"] + arguments, text, preload="interrupt", INTERRUPT=1)
        checks.equal(f"{name}, interrupted", done.out, wanted)
        checks.equal(f"{name}, interrupted, its end", (done.status, done.err), (0, b""))
    reads = [int(told.split()[1]) for told in done.told if told.startswith("reads ")]
    checks.check("interrupted reads", None if reads and reads[0] > 2 else f"{reads}: the library was not taken")


def check_refused_write(checks):
    """A file that has room for the beginning of the replies gets just that, and the program reports the failed write.

    One such file ends after the third octet of the second reply.
    """
    text = FIND + LOOK + b"flush a.test.\nlist_commands\n"
    replies = b"taken\n" + FOUND + b"ok 1\n1 done flush a.test.\nend\n"
    for most in range(len(replies)):
        told = run_to_most([RESOLVER, "script"], text, most)
        checks.equal(f"a file of at most {most} octets", told, (replies[:most], b"resolver: write failed\n", 1))


def check_failed_read(checks):
    """A terminal that hangs up: whole lines were obeyed and got their replies; a line that had only begun was ignored."""
    for text, wanted in ((b"", b""), (b"at 1\nloo", b"ok\n"), (b"at 1\nundo\n", b"ok\nerror nothing_to_undo\n")):
        told = run_to_hangup([RESOLVER, "script"], text)
        checks.equal(f"{text!r} and a failed read", told, (wanted, b"resolver: read failed\n", 1))


def main():
    checks = Checks()
    check_refused_write(checks)
    check_failed_read(checks)
    check_prompt(checks)
    check_comments(checks)
    check_reads(checks)
    check_interrupted(checks)
    checks.end()


main()
