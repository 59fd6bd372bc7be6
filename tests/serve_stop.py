"""How soon `stop` ends a service, whatever clients, operators, whoever reads its log and whoever writes its first lines do: it is answered
within three seconds, and the process and its ports are gone within a second of the reply."""

import contextlib
import fcntl
import os
import signal
import socket
import subprocess
import tempfile
import time

from lib.checks import Checks
from lib.nameserver import PATIENCE, NameServers, framed
from lib.programs import RESOLVER
from lib.service import HOST, Control, Service, free_port, query, until

ANSWER_SECONDS = 3
END_SECONDS = 1


def is_free(port):
    """Whether a service could listen at a port again."""
    for kind in (socket.SOCK_DGRAM, socket.SOCK_STREAM):
        with socket.socket(socket.AF_INET, kind) as sock:
            if kind == socket.SOCK_STREAM:
                sock.setsockopt(socket.SOL_SOCKET, socket.SO_REUSEADDR, 1)
            try:
                sock.bind((HOST, port))
            except OSError:
                return False
    return True


def check_end(checks, name, process, port, control_port):
    """Sends `stop` over a connection of its own."""
    began = time.monotonic()
    with Control(control_port) as control:
        checks.equal(f"{name}: the reply", control.tell("stop"), "ok stopping")
    answered = time.monotonic()
    status = process.wait(PATIENCE)
    ended = time.monotonic()
    print(f"{name}: answered after {answered - began:.2f} s, ended after {ended - answered:.2f} s more")
    checks.equal(f"{name}: status", status, 0)
    checks.check(f"{name}: how soon it is answered", None if answered - began < ANSWER_SECONDS else f"{answered - began:.2f} s")
    checks.check(f"{name}: how soon it ends", None if ended - answered < END_SECONDS else f"{ended - answered:.2f} s")
    checks.equal(f"{name}: ports", [is_free(port), is_free(control_port)], [True, True])


def stop(checks, name, service):
    check_end(checks, name, service.process, service.port, service.control_port)


def fill_queue(port):
    """Connections that say nothing, until the system takes no more."""
    held = []
    while len(held) < 1_000:
        sock = socket.socket()
        sock.settimeout(0.3)
        held.append(sock)
        try:
            sock.connect((HOST, port))
        except TimeoutError:
            return held
    return held


def check_full_queue(checks, workers):
    """Very many connections that say nothing came while the service was suspended: as many as the system takes, up to a thousand."""
    with Service(["192.0.2.1"], "--tcp", str(workers)) as service:
        service.process.send_signal(signal.SIGSTOP)
        held = fill_queue(service.port)
        service.process.send_signal(signal.SIGCONT)
        stop(checks, f"a full queue, {workers} workers", service)
        for sock in held:
            sock.close()


def check_pipelined(checks):
    """A connection with two thousand questions for a silent server, 58,890 octets. The client has gone."""
    with NameServers({HOST: {"*": None}}) as servers, Service([f"{HOST}@{servers.port}"], "--tcp", "1") as service:
        with service.client("tcp") as client:
            client.sock.sendall(b"".join(framed(query(f"n{place}.test.", "A")) for place in range(2_000)))
            servers.wait_for("n0.test. A")
        stop(checks, "questions in a row", service)


def check_half(checks):
    """A connection that has sent half a message, and one that reads no reply."""
    with Service(["192.0.2.1"], "--tcp", "2") as service:
        service.obey(*(f'local_data big.test. 60 TXT "{place:03}{"x" * 250}"' for place in range(200)))
        with service.client("tcp") as half, service.client("tcp", room=2_048) as deaf:
            half.sock.sendall(framed(query("held.test.", "A"))[:9])
            deaf.sock.setblocking(False)
            asked = framed(query("big.test.", "TXT"))
            try:
                deaf.sock.sendall(asked * 1_000)
            except BlockingIOError:
                pass
            time.sleep(0.5)
            stop(checks, "half a message, and replies that nobody reads", service)


def check_operator(checks):
    """An operator in the middle of a line."""
    with Service(["192.0.2.1"]) as service, service.control() as control:
        control.sock.sendall(b"look a. A\nlocal_zone a. sta")
        control.line()
        stop(checks, "an operator in the middle of a line", service)


def check_log(checks):
    """Nobody reads standard error, and it takes no line."""
    reads, writes = os.pipe()
    fcntl.fcntl(writes, fcntl.F_SETPIPE_SZ, 4096)
    os.write(writes, b"x" * 4096)
    with Service(["192.0.2.1"], errors=open(writes, "wb", buffering=0)) as service:
        with socket.create_connection((HOST, service.control_port), timeout=PATIENCE) as sock:
            sock.sendall(b"POST / HTTP/1.1\r\n\r\n")
        service.obey("stub_add away.test. 127.0.0.2@9")
        service.ask("a.away.test.")
        stop(checks, "a log that nobody reads", service)
    os.close(reads)


@contextlib.contextmanager
def fifo():
    """The path of a FIFO."""
    with tempfile.TemporaryDirectory() as folder:
        path = os.path.join(folder, "fifo")
        os.mkfifo(path)
        yield path


def accepts(port):
    """Whether a connection is accepted at a port."""
    try:
        socket.create_connection((HOST, port), PATIENCE).close()
    except ConnectionRefusedError:
        return False
    return True


@contextlib.contextmanager
def starting(path, given=subprocess.DEVNULL):
    """A service that obeys the lines of a file first, once it accepts operators; and its two ports."""
    port, control_port = free_port(), free_port()
    places = ["--listen", f"{HOST}@{port}", "--control", f"{HOST}@{control_port}"]
    command = [RESOLVER, "serve", *places, "--commands", path, "192.0.2.1"]
    with subprocess.Popen(command, stdin=given, stdout=subprocess.PIPE, stderr=subprocess.PIPE, env={}) as process:
        try:
            until(lambda: accepts(control_port))
            yield process, port, control_port
        finally:
            process.kill()


def writer_of(path, octets):
    """The writer of a FIFO, once it has a reader and has written these octets."""
    writer = os.open(path, os.O_WRONLY)
    os.write(writer, octets)
    time.sleep(0.2)
    return open(writer, "wb", buffering=0)


def check_early_end(checks, name, started, others=1):
    """Sends `stop` to a service that is not ready, while other operators wait. It says that it has stopped, and nothing else."""
    process, port, control_port = started
    with contextlib.ExitStack() as waiting:
        for _ in range(others):
            waiting.enter_context(Control(control_port)).sock.sendall(b"list_local_zones\n")
        check_end(checks, name, process, port, control_port)
    checks.equal(f"{name}: standard output", process.stdout.read(), b"")
    lines = process.stderr.read().splitlines()
    checks.equal(f"{name}: the log", [line.partition(b", at ")[0] for line in lines], [b"resolver: stopped"])


def check_no_writer(checks, others):
    """First lines that come from a FIFO, which nobody has opened to write to it."""
    with fifo() as path, starting(path) as started:
        check_early_end(checks, f"a FIFO without a writer, {others} other operators", started, others)


def check_silent_writer(checks, name, octets):
    """First lines that come from a FIFO, whose writer has written these octets."""
    with fifo() as path, starting(path) as started, writer_of(path, octets):
        check_early_end(checks, name, started)


def check_endless_writer(checks):
    """First lines that come from a FIFO, whose writer never pauses."""
    with fifo() as path, starting(path) as started:
        with open(path, "wb") as writer, subprocess.Popen(["yes", "#"], stdout=writer):
            time.sleep(0.2)
            check_early_end(checks, "a FIFO whose writer never pauses", started)


def check_silent_pipe(checks):
    """First lines that come from a pipe, whose writer is silent."""
    reads, writes = os.pipe()
    with open(reads, "rb") as given, open(writes, "wb"), starting("/dev/stdin", given) as started:
        check_early_end(checks, "a pipe whose writer is silent", started)


def check_signal(checks):
    """A signal ends a service that waits for the writer of a FIFO."""
    with fifo() as path, starting(path) as (process, _, _):
        process.terminate()
        checks.equal("a FIFO without a writer: SIGTERM", process.wait(PATIENCE), -signal.SIGTERM)


def check_words(checks):
    """`stop` may have blanks and a carriage return around it. A line that only begins with the word, or has not come whole, waits."""
    for octets in (b"stopping\n", b"stop now\n", b"stop", b"status\nstop\n"):
        with fifo() as path, starting(path) as (process, _, control_port), Control(control_port) as control:
            control.sock.sendall(octets)
            time.sleep(0.3)
            checks.equal(f"{octets}: the process", process.poll(), None)
            with Control(control_port) as other:
                other.sock.sendall(b" \tstop \r\n")
                checks.equal(f"{octets}: another operator's stop", (other.line(), process.wait(PATIENCE)), ("ok stopping", 0))


def check_obeyed(checks):
    """A FIFO that ends is obeyed as a file is. Whoever came before gets a reply after its lines."""
    with fifo() as path, starting(path) as (process, port, control_port), Control(control_port) as waiting:
        waiting.sock.sendall(b"list_local_zones\n")
        with writer_of(path, b"local_zone a. static\nlocal_zo") as writer:
            writer.write(b"ne b. static")
        checks.equal("a FIFO that has ended: standard output", process.stdout.readline(), b"ready\n")
        replies = [waiting.line() for _ in range(3)]
        checks.equal("a FIFO that has ended: who came before", replies, ["a. static", "b. static", "end"])
        check_end(checks, "a FIFO that has ended", process, port, control_port)


def check_empty(checks):
    """A FIFO and a pipe whose writers write nothing are empty files."""
    with fifo() as path, starting(path) as (process, _, _):
        writer_of(path, b"").close()
        checks.equal("an empty FIFO: standard output", process.stdout.readline(), b"ready\n")
    reads, writes = os.pipe()
    os.close(writes)
    with open(reads, "rb") as given, starting("/dev/stdin", given) as (process, _, _):
        checks.equal("an empty pipe: standard output", process.stdout.readline(), b"ready\n")


def check_refused(checks):
    """A line of a FIFO that is refused ends the start, even if the FIFO does not end."""
    with fifo() as path, starting(path) as (process, _, _), writer_of(path, b"undo\n"):
        told = f"resolver: cannot start\nresolver: --commands {path}: line 1: error nothing_to_undo: undo\n".encode()
        checks.equal("a FIFO with a line that is refused", (process.wait(PATIENCE), process.stderr.read()), (1, told))


def main():
    checks = Checks()
    for workers in (1, 4):
        checks.make(check_full_queue, workers)
    checks.make(check_pipelined)
    checks.make(check_half)
    checks.make(check_operator)
    checks.make(check_log)
    for others in (1, 200):
        checks.make(check_no_writer, others)
    checks.make(check_silent_writer, "a FIFO whose writer is silent", b"")
    checks.make(check_silent_writer, "a FIFO whose writer stopped in the middle of a line", b"local_zone a. static\nlocal_zone b. st")
    checks.make(check_endless_writer)
    checks.make(check_silent_pipe)
    checks.make(check_signal)
    checks.make(check_words)
    checks.make(check_obeyed)
    checks.make(check_empty)
    checks.make(check_refused)
    checks.end()


main()
