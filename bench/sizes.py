"""What `bench/cells` and `bench/tables` share: a script told a line at a time, calls alone, the maps of Rust's std, tables of results."""
import os
import re
import shutil
import subprocess
import sys
import time

HERE = os.path.dirname(os.path.abspath(__file__))
RESOLVER = os.path.join(HERE, "..", "crates", "resolver_cli", "out", "resolver_cli")
MEASURE = os.path.join(HERE, "..", "crates", "measure", "out", "measure")
# How many calls alone a timed process makes.
COUNT = 1_000_000
# Lines that a script is told before its replies are read: fewer octets than a pipe takes.
AT_ONCE = 1_000


def built(folder):
    """The maps of std, where there is a compiler: a program that takes a word, a call, a size and a count."""
    programs = {}
    if shutil.which("rustc"):
        program = os.path.join(folder, "maps")
        subprocess.run(["rustc", "-O", "-o", program, os.path.join(HERE, "peers", "maps.rs")], check=True)
        programs["std"] = [program]
    else:
        print("the maps of std are not measured: there is no rustc", file=sys.stderr)
    return programs


def told(program, *words):
    """What a program prints as the result of a call."""
    done = subprocess.run([*program, *map(str, words)], capture_output=True, text=True, check=True)
    return int(done.stdout.split()[1])


def seconds(program, *words, **streams):
    """The time of a processor that a run takes."""
    started = subprocess.Popen([*program, *map(str, words)], **{"stdout": subprocess.DEVNULL, **streams})
    _, status, used = os.wait4(started.pid, 0)
    started.returncode = status
    if status:
        sys.exit(f"bench: {program} {words} ended with {status}")
    return used.ru_utime + used.ru_stime


def alone(programs, size, rounds, count=COUNT):
    """Nanoseconds a call, for each program: the least of the rounds, in which the programs run in turn. A run of N calls is subtracted
    from one of 2N, so that filling does not count."""
    sums = {who: told(program, size, count) for who, program in programs.items()}
    if len(set(sums.values())) > 1:
        print(f"the calls do not find the same: {sums}", file=sys.stderr)
    once, twice = {who: [] for who in programs}, {who: [] for who in programs}
    for _ in range(rounds):
        for who, program in programs.items():
            once[who].append(seconds(program, size, count))
            twice[who].append(seconds(program, size, 2 * count))
    return {who: (min(twice[who]) - min(once[who])) / count * 1e9 for who in programs}


def a_move(measure, word, call, rounds, count=COUNT):
    """The milliseconds of an undo or a redo, where a call of `measure` is an undo and its redo."""
    return alone({"ours": [measure, word]}, call, rounds, count)["ours"] / 2 / 1e6


def beside(took, plain):
    """The milliseconds of a move by ticket, and how often those of a plain one they are."""
    return f"{took:.5f} ({took / plain:.1f})"


class Script:
    """`resolver script`, told a line at a time."""

    def __init__(self, program, *arguments):
        self.process = subprocess.Popen([program, "script", *arguments], stdin=subprocess.PIPE, stdout=subprocess.PIPE)

    def __enter__(self):
        """It has begun, and its buffers have their sizes."""
        self.fill(["a line that it does not know, of forty octets"] * AT_ONCE, "error")
        return self

    def __exit__(self, *_):
        self.process.stdin.close()
        self.process.stdout.read()
        self.process.wait()

    def tell(self, line):
        """The reply to a line."""
        self.process.stdin.write(line.encode() + b"\n")
        self.process.stdin.flush()
        return self.process.stdout.readline().decode().strip()

    def fill(self, lines, reply):
        """Tells many lines, each with a reply that begins so."""
        lines = list(lines)
        for start in range(0, len(lines), AT_ONCE):
            some = lines[start : start + AT_ONCE]
            self.process.stdin.write("".join(line + "\n" for line in some).encode())
            self.process.stdin.flush()
            for line in some:
                answer = self.process.stdout.readline().decode()
                if not answer.startswith(reply):
                    sys.exit(f"bench: {line!r} gets {answer!r}")

    def ran(self):
        """The time for which the process has run, in milliseconds. It is told while the process waits for a line."""
        time.sleep(0.002)
        with open(f"/proc/{self.process.pid}/schedstat") as file:
            return int(file.read().split()[0]) / 1e6

    def cost(self, line, reply):
        """The milliseconds of a processor that a line takes, from its reading to its reply and all that is done after it."""
        before = self.ran()
        answer = self.tell(line)
        if not answer.startswith(reply):
            sys.exit(f"bench: {line!r} gets {answer!r}")
        return self.ran() - before

    def resident(self):
        """The octets that the process has in memory."""
        with open(f"/proc/{self.process.pid}/status") as file:
            return int(re.search(r"VmRSS:\s+(\d+)", file.read()).group(1)) * 1_024


class Table:
    """A table as README.md has it: a row for each number, and the columns that are named. A number that misses its aim is bold."""

    def __init__(self, *columns):
        self.columns, self.rows = columns, {}

    def put(self, number, column, text, missed=False):
        cells = self.rows.setdefault(number, {})
        cells[column] = f"**{text}**" if missed else text
        print(f"{number}; {column}: {cells[column]}", file=sys.stderr, flush=True)

    def show(self):
        print("| Number | " + " | ".join(self.columns) + " |")
        print("|---" * (1 + len(self.columns)) + "|")
        for number, cells in self.rows.items():
            print(f"| {number} | " + " | ".join(cells.get(column, "") for column in self.columns) + " |")
        print()


def check_programs(resolver, measure):
    if not os.path.exists(resolver):
        sys.exit(f"bench: there is no {resolver}: ./build proves and builds it")
    if not os.path.exists(measure):
        sys.exit(f"bench: there is no {measure}: in crates/measure run `rt run`, which proves and builds it")
