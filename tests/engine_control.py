"""The replies to lines of control, and their end: with a book, and with a desk that returns the fault `behind`."""

from lib.checks import Checks
from lib.programs import PLAY, run, run_to_hangup, run_to_most

CONTROL = [PLAY, "control"]

# How the program ends.
END, READ_FAILED, WRITE_FAILED, STOP = 0, 1, 2, 4

# Input of control with a book, its output, and how it ends.
AT_A_BOOK = [
    (b"", b"", END),
    (b"# a comment\n\n\r\n", b"", END),
    (b"local_zone a. static\nat 5\n", b"ok 1\nerror unknown\n", END),
    (b"local_zone a. static\nat 5\nstop\nundo\n", b"ok 1\nerror unknown\nok stopping\n", STOP),
    (b"stop\n", b"ok stopping\n", STOP),
    (b"stop", b"ok stopping\n", STOP),
    (b"stop\r\n", b"ok stopping\n", STOP),
    (b" stop\t\nundo\n", b"ok stopping\n", STOP),
    (b"local_zone a. static\nstop\nundo\nlist_local_zones\n", b"ok 1\nok stopping\n", STOP),
    (b"stop x\nstop stop\nstopp\nSTOP\n", b"error bad_data\nerror bad_data\nerror unknown\nerror unknown\n", END),
    # Lines for scripts alone are unknown here, whatever follows their first word.
    (b"at\nat x\nat 5 5\nat 5\n", b"error unknown\n" * 4, END),
    (b"admit\nadmit 9 a..b 0 NOPE\nadmit 4 a. 60 A 192.0.2.1\n", b"error unknown\n" * 3, END),
    (b"nodata\nnodata a. 60 A . . . 1 1 1 1 1\nnodata x..\n", b"error unknown\n" * 3, END),
    (b"noname\nnoname a. 60 . . . 1 1 1 1 1\nnoname x..\n", b"error unknown\n" * 3, END),
    (b"forget\nforget a.\nforget a..b\nforget a. A\n", b"error unknown\n" * 4, END),
    # Every other line is known.
    (b"look a. A\nservers a.\nsweep\n", b"unknown\nservers . hints\nswept\n", END),
    (b"flush a.\nflush_type a. A\nflush_zone a.\n", b"ok 1\nok 2\nok 3\n", END),
    (b"local_zone a. deny\nlocal_data a. A 192.0.2.1\nlook a. A\n", b"ok 1\nok 2\nlocal 3600 a. A 192.0.2.1\n", END),
    (b"local_data_remove a.\nlocal_zone_remove a.\nlist_local_data\n", b"ok 1\nok 2\nend\n", END),
    (b"stub_add a. 192.0.2.1\nlist_stubs\nstub_remove a.\n", b"ok 1\na. 192.0.2.1@53\nend\nok 2\n", END),
    (b"flush a.\nundo\nredo\nundo\nlist_commands\n", b"ok 1\nundone 1\nredone 1\nundone 1\n1 undone flush a.\nend\n", END),
    # By ticket: a flush in any order, and of one table the later command first.
    (b"flush a.\nflush b.\nundo 1\nundo\nredo 1\nredo\n", b"ok 1\nok 2\nundone 1\nundone 2\nredone 1\nredone 2\n", END),
    (
        b"local_zone a. deny\nflush a.\nlocal_zone b. deny\nlist_buried\nundo 1\nundo 3\nundo 1\nlist_buried\nredo 3\nredo 1\nredo 1\nundo 4\n",
        b"ok 1\nok 2\nok 3\n1 by 3\nend\nerror buried 3\nundone 3\nundone 1\n3 by 1\nend\nerror buried 1\nredone 1\nerror not_kept\nerror not_kept\n",
        END,
    ),
    # What an undo or a redo would show. Nothing changes by it.
    (
        b"flush a.\nwhat_undo\nlook_undo a. A\nlook_redo a. A\nlook_without 1 a. A\nlook_without 2 a. A\nundo\nwhat_undo\nlook_redo a. A\nlook_undo a. A\n",
        b"ok 1\n1 done flush a.\nunknown\nerror nothing_to_redo\nunknown\nerror not_kept\nundone 1\nerror nothing_to_undo\nunknown\nerror nothing_to_undo\n",
        END,
    ),
    (b"look_undo\nlook_redo a..b A\nlook_without a. A\nlook_without 0 a. A\nlook_without 1 a. NOPE\nwhat_undo 1\n",
     b"error missing\nerror bad_name\nerror missing\nerror bad_data\nerror bad_type\nerror bad_data\n", END),
    (b"undo 0\nredo 0\nundo x\nundo 1 2\nredo 4611686018427387904\nredo 4611686018427387903\nlist_buried x\n",
     b"error bad_data\n" * 5 + b"error not_kept\nerror bad_data\n", END),
    (b"undo\nredo\nlook\nlook a..b A\nlook a. NOPE\n", b"error nothing_to_undo\nerror nothing_to_redo\nerror missing\nerror bad_name\nerror bad_type\n", END),
    (b"x" * 1_025 + b"\n" + b"#" * 1_025 + b"\nundo\n", b"error too_long\nerror nothing_to_undo\n", END),
]

# The same with a desk that returns `behind`, with the moment as the number. The clock begins at 7, and each reading is a second
# later. It is read once for each line that becomes an event, and for no other.
BEHIND = [
    (b"sweep\n# a comment\n\nundo\n", b"fault behind 7\nfault behind 8\n", END),
    (b"frob\nundo x\nat 3\nlook a..b A\nundo\nstop x\nredo\n", b"error unknown\nerror bad_data\nerror unknown\nerror bad_name\nfault behind 7\nerror bad_data\nfault behind 8\n", END),
    (b"look a. A\nflush a.\nlocal_zone a. deny\nlist_commands\nservers a.\nstop\nsweep\n", b"fault behind 7\nfault behind 8\nfault behind 9\nfault behind 10\nfault behind 11\nok stopping\n", STOP),
]


def check_rows(checks, name, words, rows):
    for text, wanted, status in rows:
        done = run(CONTROL + words, text)
        checks.equal(f"{name}: {text[:60]!r}", (done.out, done.status), (wanted, status))


TEXT = b"local_zone a. deny\nlist_local_zones\nstop\nundo\n"

TOLD = b"ok 1\na. deny\nend\nok stopping\n"


def check_pieces(checks):
    """Signals interrupt calls, and each call moves one octet."""
    done = run(CONTROL, TEXT, preload="interrupt", INTERRUPT=1)
    checks.equal("interrupted", (done.out, done.status), (TOLD, STOP))


def check_failed_write(checks):
    """A file with room for the beginning of the output gets just that. No line after that of the last reply is obeyed."""
    for most in range(len(TOLD)):
        told = run_to_most(CONTROL, TEXT, most)
        checks.equal(f"a file of at most {most} octets", told, (TOLD[:most], b"", WRITE_FAILED))


def check_failed_read(checks):
    """A terminal that hangs up: whole lines were obeyed and got their replies; a line that had only begun was ignored."""
    for text, wanted, status in (
        (b"", b"", READ_FAILED),
        (b"flush a.\nsto", b"ok 1\n", READ_FAILED),
        (b"flush a.\nundo\n", b"ok 1\nundone 1\n", READ_FAILED),
        (b"flush a.\nstop\nun", b"ok 1\nok stopping\n", STOP),
    ):
        told = run_to_hangup(CONTROL, text)
        checks.equal(f"{text!r} and a failed read", told, (wanted, b"", status))


def main():
    checks = Checks()
    check_rows(checks, "a book", [], AT_A_BOOK)
    check_rows(checks, "behind", ["behind"], BEHIND)
    check_pieces(checks)
    check_failed_write(checks)
    check_failed_read(checks)
    checks.end()


main()
