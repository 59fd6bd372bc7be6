"""`resolver serve --commands FILE`: the lines of a file, which the service obeys before it is ready. A line that is refused ends the
start."""

import contextlib
import os
import socket
import subprocess
import tempfile
import threading

from lib.checks import Checks
from lib.nameserver import PATIENCE, bound
from lib.programs import RESOLVER, library, run
from lib.replies import reply_in
from lib.service import CANNOT_LISTEN, HOST, STOPPED, Client, NotReady, Service, free_port, query

ZONE, RECORD = "local_zone ads.test. always_nxdomain", "local_data nas.test. 60 A 192.0.2.7"
LISTED = f"1 done {ZONE} / 2 done {RECORD} / end"
NO_ZONE = ["aa rcode 3", "aa | answer nas.test. A 192.0.2.7"]


def file_of(folder, text):
    """A file with these octets."""
    path = os.path.join(folder, "commands")
    with open(path, "wb") as file:
        file.write(text)
    return path


def places():
    """Addresses that are free."""
    return ["--listen", f"{HOST}@{free_port()}", "--control", f"{HOST}@{free_port()}"]


def start(path):
    """The end of a service that does not start: its status and both of its outputs."""
    done = run([RESOLVER, "serve", *places(), "--commands", path, "192.0.2.1"])
    return done.status, done.out, done.err


def told(words, path, reason):
    """What a start writes to standard error."""
    return b"resolver: " + words + b"\nresolver: --commands " + path.encode() + b": " + reason + b"\n"


def check_obeyed(checks, folder):
    """The lines are the first commands of the book. Silent lines do nothing, and the last line may lack its end."""
    for text, options, wanted in [
        (b"", [], "end"),
        (b"\n", [], "end"),
        (b"# none\n\n\r\n#", [], "end"),
        (f"{ZONE}\n{RECORD}\n".encode(), [], LISTED),
        (f"# two\r\n\r\n{ZONE}\r\n#\n{RECORD}".encode(), [], LISTED),
        (b" \t".join([b"", *ZONE.encode().split(), b"\n"]) + RECORD.encode(), [], LISTED),
        # Lines that change nothing, and an undo.
        (f"{ZONE}\n{RECORD}\nlist_local_zones\nlook nas.test. A\nsweep\nundo".encode(), [], f"1 done {ZONE} / 2 undone {RECORD} / end"),
        (f"{RECORD}\nundo\nredo\n{ZONE}\nundo\n".encode(), [], f"1 done {RECORD} / 2 undone {ZONE} / end"),
        (f"flush a.\n{ZONE}\nundo 1\nredo 1\nundo 1\n".encode(), [], f"1 undone flush a. / 2 done {ZONE} / end"),
        (f"{ZONE}\n{RECORD}\n".encode(), ["--journal", "1"], f"2 done {RECORD} / end"),
        # More than one read takes, and more calls than the call log has.
        (b"\n" * 10_000 + b"#" + b"x" * 100_000 + f"\n{ZONE}\n{RECORD}".encode(), ["--record", "1"], LISTED),
    ]:
        name = f"a file with {text[:60]}"
        with Service(["192.0.2.1"], "--commands", file_of(folder, text), *options) as service:
            checks.equal(name, service.obey("list_commands")[0], wanted)
            checks.equal(f"{name}: stopped", service.stop(), STOPPED)


def check_undone(checks, folder):
    """What the file says is answered, and an operator takes it back like any other command."""
    with Service(["192.0.2.1"], "--commands", file_of(folder, f"{ZONE}\n{RECORD}\n".encode())) as service:
        checks.equal("the first answers", [service.ask(name).words() for name in ("www.ads.test.", "nas.test.")], NO_ZONE)
        undone = service.obey("undo", "undo", "undo", "list_local_zones", "redo", "local_zone b.test. static")
        checks.equal("undone", undone, ["undone 2", "undone 1", "error nothing_to_undo", "end", "redone 1", "ok 3"])
        checks.equal("done again", service.ask("www.ads.test.").words(), "aa rcode 3")


def check_refused(checks, folder):
    """A line that is refused ends the start with its number, its reply and the line."""
    long = b"x" * 1_024
    for text, number, reason in [
        (b"frob", 1, b"error unknown: frob"),
        (f"{ZONE}\nundo\nundo\n{ZONE}\n".encode(), 3, b"error nothing_to_undo: undo"),
        (b"# one\n\nlocal_zone a. block\nfrob\n", 3, b"error bad_type: local_zone a. block"),
        (b"flush a..b\r\n", 1, b"error bad_name: flush a..b"),
        (b"undo x\n", 1, b"error bad_data: undo x"),
        (b"undo 3\n", 1, b"error not_kept: undo 3"),
        (f"{ZONE}\nlocal_zone b. deny\nundo 1\n".encode(), 3, b"error buried 2: undo 1"),
        (b"local_zone a. redirect\nlocal_data x.a. A 192.0.2.1\n", 2, b"error below_redirect: local_data x.a. A 192.0.2.1"),
        # What only a script has, and what would end the service.
        (b"at 5\n", 1, b"error unknown: at 5"),
        (b"stop", 1, b"error unknown: stop"),
        (f"{ZONE}\nstop\r\n{RECORD}\n".encode(), 2, b"error unknown: stop"),
        # What only a service answers, with and without a word too many.
        (b"status\n", 1, b"error unknown: status"),
        (b" status  x\t\n", 1, b"error unknown:  status  x?"),
        (b"stats stats", 1, b"error unknown: stats stats"),
        (b"statuss x", 1, b"error unknown: statuss x"),
        (b"stop x\n", 1, b"error bad_data: stop x"),
        # A line is as long as 1,024 octets at most. What is longer is shown in part.
        (long, 1, b"error unknown: " + long),
        (b"\n" + long + b"x\n", 2, b"error too_long: " + long + b"x"),
        (b"\n" + long * 3 + b"\n", 2, b"error too_long: " + long + b"xx"),
        # A carriage return that no line feed follows is an octet of the line.
        (b"undo\r", 1, b"error unknown: undo?"),
        # Octets that a terminal would obey, and others that are no UTF-8.
        (b"\x1b[2J\xc3\xa9\xff\x00\n", 1, b"error unknown: ?[2J\xc3\xa9\xff?"),
        # A number beyond one read.
        (b"\n" * 70_000 + b"frob", 70_001, b"error unknown: frob"),
    ]:
        path = file_of(folder, text)
        wanted = told(b"cannot start", path, f"line {number}: ".encode() + reason)
        checks.equal(f"a file with {text[:60]}", start(path), (1, b"", wanted))


def check_unread(checks, folder):
    """A file that is missing, or cannot be read."""
    for path, why in [
        (os.path.join(folder, "none"), b"No such file or directory (os error 2)"),
        (os.path.join(folder, "none\nresolver: ready"), b"No such file or directory (os error 2)"),
        (folder, b"Is a directory (os error 21)"),
        ("", b"No such file or directory (os error 2)"),
    ]:
        shown = path.replace("\n", "?")
        checks.equal(f"a file at {path}", start(path), (1, b"", told(b"read failed", shown, why)))


def check_elsewhere(checks, folder):
    """A second service at the same addresses fails before it reads the file."""
    with bound(socket.SOCK_STREAM, HOST, free_port()) as sock:
        sock.listen()
        used = f"{HOST}@{sock.getsockname()[1]}"
        done = run([RESOLVER, "serve", "--listen", used, "--control", f"{HOST}@{free_port()}", "--commands", folder, "192.0.2.1"])
        checks.check("a second service", None if done.status == 1 and done.err.startswith(CANNOT_LISTEN) else f"{done}")


def writer_of(service, path):
    """A FIFO to write to, once a service reads from it."""
    while service.poll() is None:
        try:
            return open(os.open(path, os.O_WRONLY | os.O_NONBLOCK), "wb", buffering=0)
        except OSError:
            continue
    raise RuntimeError("the service has ended")


def check_before_ready(checks, folder):
    """Until the file has been read to its end, no query is answered. The service answers those that waited by its lines. A FIFO keeps
    the file from its end."""
    path = os.path.join(folder, "fifo")
    os.mkfifo(path)
    port = free_port()
    command = [RESOLVER, "serve", "--listen", f"{HOST}@{port}", "--control", f"{HOST}@{free_port()}", "--commands", path, "192.0.2.1"]
    with subprocess.Popen(command, stdout=subprocess.PIPE, stderr=subprocess.DEVNULL, env={}) as service:
        try:
            # The service opens it when it listens.
            with writer_of(service, path) as lines, Client("udp", port) as over_udp, Client("tcp", port) as over_tcp:
                for client in (over_udp, over_tcp):
                    client.send(query("www.ads.test.", "A"))
                lines.write(f"{ZONE}\n{RECORD}\n".encode())
                early = [client.has_reply(0.3) for client in (over_udp, over_tcp)]
                checks.equal("before the file ends: replies", early, [False, False])
                lines.close()
                checks.equal("after the file has ended", service.stdout.readline(), b"ready\n")
                answers = [reply_in(client.octets()).words() for client in (over_udp, over_tcp)]
                checks.equal("after the file has ended: replies", answers, ["aa rcode 3"] * 2)
        finally:
            service.kill()
            service.wait(PATIENCE)


def check_kept(checks, folder):
    """Tables that are kept by the lists are in the next service, in their order, by a file that is made of them."""
    lines = [
        "local_zone z.test. static", "local_zone a.test. redirect", "local_data x.z.test. 60 A 192.0.2.1", "local_data a.test. 5 A 192.0.2.2",
        'local_data b.z.test. 60 TXT "a \\"b\\" \\255"', "stub_add s.test. 192.0.2.3 2001:db8::1@5353", "stub_add a.s.test. 192.0.2.4",
    ]
    lists = (("list_local_zones", "local_zone"), ("list_local_data", "local_data"), ("list_stubs", "stub_add"))
    with Service(["192.0.2.1"]) as service:
        service.obey(*lines)
        first = service.obey(*(word for word, _ in lists))
        made = [f"{word} {row}\n" for replies, (_, word) in zip(first, lists) for row in replies.split(" / ")[:-1]]
    checks.equal("tables that were kept: how many lines", len(made), len(lines))
    with Service(["192.0.2.1"], "--commands", file_of(folder, "".join(made).encode())) as service:
        checks.equal("tables that were kept", service.obey(*(word for word, _ in lists)), first)


# A start makes fewer allocations than this.
MOST_GROWTHS = 1_000


def refused_start(path, nth):
    """Starts a service of which the Nth allocation is refused. Returns whether it was, and what is wrong with the outcome."""
    environment = {"LD_PRELOAD": library("refuse"), "REFUSE_NTH": str(nth), "TELL": "2"}
    try:
        with Service(["192.0.2.1"], "--commands", path, environment=environment) as service:
            if b"refused\n" not in service.log():
                return False, None
            listed = service.obey("list_commands")[0]
            return True, None if listed == f"1 done {ZONE} / 2 undone {RECORD} / end" else f"it is ready with {listed}"
    except NotReady as fault:
        is_right = fault.status == 1 and b"refused\nresolver: no memory\n" in fault.told
        return True, None if is_right else str(fault)


@contextlib.contextmanager
def written(path, octets):
    """A FIFO to which octets are written once it has a reader. At the end it has one, whoever came before."""
    def write():
        with contextlib.suppress(BrokenPipeError), open(path, "wb", buffering=0) as fifo:
            fifo.write(octets)

    writer = threading.Thread(target=write)
    writer.start()
    try:
        yield path
    finally:
        reader = os.open(path, os.O_RDONLY | os.O_NONBLOCK)
        writer.join(PATIENCE)
        os.close(reader)


def check_no_memory(checks, folder, is_fifo):
    """Each allocation up to `ready` is refused in turn: the start fails, or the service has obeyed each line."""
    text = f"{ZONE}\n{RECORD}\nlist_local_data\nundo\n".encode()
    path = os.path.join(folder, "fifo") if is_fifo else file_of(folder, text)
    if is_fifo:
        os.mkfifo(path)
    for nth in range(1, MOST_GROWTHS):
        with written(path, text) if is_fifo else contextlib.nullcontext():
            was_refused, fault = refused_start(path, nth)
        if not was_refused:
            break
        checks.check(f"allocation {nth} refused", fault)
    checks.check("allocations refused", None if 50 < nth < MOST_GROWTHS - 1 else f"{nth - 1} were")


def main():
    checks = Checks()
    for check, *arguments in (
        (check_obeyed,), (check_undone,), (check_refused,), (check_unread,), (check_elsewhere,), (check_before_ready,), (check_kept,),
        (check_no_memory, False), (check_no_memory, True),
    ):
        with tempfile.TemporaryDirectory() as folder:
            checks.make(check, folder, *arguments)
    checks.end()


main()
