"""Runs the finished programs, if wanted with a library in front of the C library."""

import os
import pty
import resource
import subprocess
import sys
import tempfile
import tty
from dataclasses import dataclass

TOP = os.path.dirname(os.path.dirname(os.path.dirname(os.path.abspath(__file__))))
RESOLVER = os.path.join(TOP, "crates/resolver_cli/out/resolver_cli")
CALLS = os.path.join(TOP, "crates/dns_calls/out/dns_calls")
BOOKS = os.path.join(TOP, "crates/book_tests/out/book_tests")
PLAY = os.path.join(TOP, "crates/play/out/play")
MEASURE = os.path.join(TOP, "crates/measure/out/measure")

# The lines for a table, and their output. Those for local zones are the input with which the gate runs the program.
TABLES = {
    "zones": (os.path.join(TOP, "crates/play/stdin"), os.path.join(TOP, "crates/play/stdout")),
    "stubs": (os.path.join(TOP, "tests/tables/stubs.lines"), os.path.join(TOP, "tests/tables/stubs.out")),
}

# No run takes longer than this many seconds.
PATIENCE = 600

_folder = tempfile.TemporaryDirectory()


@dataclass
class Run:
    status: int
    out: bytes
    err: bytes
    # The lines that the library wrote.
    told: list


def library(name):
    """The library of tests/lib/NAME.c, compiled once."""
    made = os.path.join(_folder.name, name + ".so")
    if not os.path.exists(made):
        source = os.path.join(TOP, "tests/lib", name + ".c")
        compiler = os.environ.get("CC", "cc").split()
        subprocess.run(compiler + ["-shared", "-fPIC", "-O2", "-o", made, source], check=True)
    return made


def run(command, text=b"", preload=None, **settings):
    """Runs a command with a text or a file as input. A library writes to a pipe, and takes settings from the environment."""
    given = {"input": text} if isinstance(text, bytes) else {"stdin": text}
    environment = {name: str(value) for name, value in settings.items()}
    reading, writing = os.pipe()
    if preload:
        environment.update(LD_PRELOAD=library(preload), TELL=str(writing))
    try:
        done = subprocess.run(
            command, capture_output=True, env=environment, pass_fds=(writing,), timeout=PATIENCE, **given
        )
    finally:
        os.close(writing)
        with os.fdopen(reading, "rb") as pipe:
            told = pipe.read().decode().splitlines()
    return Run(done.returncode, done.stdout, done.stderr, told)


# Runs a command and prints the most memory that it had, in KiB. The count of a process includes that of its parent at its start, so
# a small process starts it.
MEASURE_PEAK = """
import os, sys
process = os.posix_spawn(sys.argv[1], sys.argv[1:], os.environ)
_, status, used = os.wait4(process, 0)
print(used.ru_maxrss, file=sys.stderr)
sys.exit(os.waitstatus_to_exitcode(status))
"""


def run_measured(command, asked, told):
    """Runs a command from one file to another. Returns its status, and the most memory that it had, in KiB."""
    small = [sys.executable, "-S", "-c", MEASURE_PEAK]
    done = subprocess.run(small + command, stdin=asked, stdout=told, stderr=subprocess.PIPE, timeout=PATIENCE)
    return done.returncode, int(done.stderr.split()[-1])


def run_to_most(command, text, most):
    """Runs a command whose output is a file with a limited size. Returns what the file has, and how the command ended."""
    with tempfile.TemporaryFile() as file:
        done = subprocess.run(
            command, input=text, stdout=file, stderr=subprocess.PIPE, timeout=PATIENCE,
            restore_signals=False, preexec_fn=lambda: resource.setrlimit(resource.RLIMIT_FSIZE, (most, most)),
        )
        file.seek(0)
        return file.read(), done.stderr, done.returncode


def run_to_hangup(command, text):
    """Runs a command at a terminal that gives a text and then hangs up, so that the next read fails. Returns its output and status."""
    reader, terminal = pty.openpty()
    try:
        tty.setraw(terminal)
        os.write(terminal, text)
        os.close(terminal)
        done = subprocess.run(command, stdin=reader, capture_output=True, timeout=PATIENCE)
    finally:
        os.close(reader)
    return done.stdout, done.stderr, done.returncode


def scripts():
    """Each worked script: its name, arguments, text and the replies that it must get."""
    found = []
    for folder in ("examples", "tests/scripts"):
        for name in sorted(os.listdir(os.path.join(TOP, folder))):
            if name.endswith(".script"):
                base = os.path.join(TOP, folder, name[: -len(".script")])
                arguments = read(base + ".args").decode().split() if os.path.exists(base + ".args") else []
                found.append((f"{folder}/{name}", arguments, read(base + ".script"), read(base + ".out")))
    return found


def read(path):
    with open(path, "rb") as file:
        return file.read()
