"""Each script of examples/ and tests/scripts gets the replies of its `.out` file, with the program's book and with PlainBook."""

from lib.checks import Checks
from lib.programs import PLAY, RESOLVER, run, scripts


def books_of(name):
    """Both books; only the program's for a script about room in the cache, since PlainBook counts each admission as a cell."""
    about_room = "/room_" in name
    return (("", RESOLVER),) if about_room else (("", RESOLVER), (" by replay", PLAY))


def main():
    checks = Checks()
    for name, arguments, text, wanted in scripts():
        for book, program in books_of(name):
            done = run([program, "script"] + arguments, text)
            checks.equal(name + book, done.out, wanted)
            checks.equal(f"{name}{book}, its end", (done.status, done.err), (0, b""))
    checks.end()


main()
