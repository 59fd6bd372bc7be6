"""How long threads of a service hold the lock of its book, by the system's own count: uprobes at what is done under the lock, and the switches
of its threads. It wants root, and a kernel with uprobes."""

import contextlib
import os
import re
import subprocess
import sys

TRACING, NAME = "/sys/kernel/tracing", "lock_times"
# What is done under the lock: a call of the book, and a turn of a sweep of one of the two books. The compiler puts the functions that hold
# the lock for a turn into their callers. A hold has one call, one turn, or a turn of each book; or a turn and then a call. Other holds have no probe:
# those that count some names for `what_undo`, and those that split or join passes.
CALLS = re.compile(r"\bLockHold::(call)\b|\bStoreWorld::(sweep_some)\b")
# The room for events of each processor, in KiB.
ROOM = 65_536
LINE = re.compile(r"-(\d+)\s+\[\d+\]\s+\S+\s+([\d.]+): (\w+): (.*)")
SWITCH = re.compile(r"prev_pid=(\d+) .*next_pid=(\d+)")
RAN = re.compile(r"pid=(\d+) runtime=(\d+)")
# The events beside the probes: a thread gets a processor or loses it, and how long it has run, without what the host took.
SCHEDULED = ("sched/sched_switch", "sched/sched_stat_runtime")


def write(path, text, more=0):
    """Writes to a file of the kernel, which can neither be sought in nor be made."""
    descriptor = os.open(os.path.join(TRACING, path), os.O_WRONLY | (more or os.O_TRUNC))
    try:
        os.write(descriptor, text.encode())
    finally:
        os.close(descriptor)


def calls(program):
    """The addresses of the functions of a program that run under the lock, by name."""
    told = subprocess.run(["nm", "--demangle", program], check=True, capture_output=True, text=True).stdout
    symbols = {}
    for line in told.splitlines():
        words = line.split(None, 2)
        found = CALLS.search(words[2]) if len(words) == 3 and words[1] in "tT" else None
        if found:
            symbols.setdefault(found[1] or found[2], []).append(int(words[0], 16))
    return symbols


class LockTimes:
    """The holds of a lock between two moments: for each call the longest one, in milliseconds of a processor and of the clock."""

    def __init__(self):
        self.holds, self.lost = {}, 0

    def take(self, name, ran, lasted):
        count, most, longest = self.holds.get(name, (0, 0.0, 0.0))
        self.holds[name] = count + 1, max(most, 1e3 * ran), max(longest, 1e3 * lasted)

    @property
    def longest(self):
        """The longest one, in milliseconds of a processor."""
        return max((most for _, most, _ in self.holds.values()), default=0.0)

    def read(self, lines):
        """Takes the events in order."""
        began, on, ran, counted, ended = {}, {}, {}, {}, {}
        for line in lines:
            found = LINE.search(line)
            if not found:
                continue
            thread, moment, event, rest = int(found[1]), float(found[2]), found[3], found[4]
            if event == "sched_stat_runtime":
                thread, nanoseconds = map(int, RAN.search(rest).groups())
                counted[thread] = counted.get(thread, 0) + nanoseconds
                for name, most, lasted, before in ended.pop(thread, []):
                    self.take(name, min(most, (counted[thread] - before) / 1e9), lasted)
            elif event == "sched_switch":
                before, after = map(int, SWITCH.search(rest).groups())
                if before in began:
                    ran[before] += moment - on[before]
                if after in began:
                    on[after] = moment
            else:
                name, _, way = event.rpartition("_")
                # A sweep that is a call has a turn in it.
                if way == "in" and thread not in began:
                    began[thread], on[thread], ran[thread] = (name, moment, counted.get(thread, 0)), moment, 0.0
                elif way == "out" and began.get(thread, ("",))[0] == name:
                    _, start, before = began.pop(thread)
                    lasted = moment - start
                    most = min(ran[thread] + moment - on[thread], lasted)
                    ended.setdefault(thread, []).append((name.rstrip("0123456789"), most, lasted, before))

    def told(self):
        words = [f"{name} {count:,} times, at most {most:.3f} ms of a processor and {longest:.3f} of the clock"
                 for name, (count, most, longest) in sorted(self.holds.items())]
        return "; ".join(words) + (f"; {self.lost:,} events were lost" if self.lost else "")


@contextlib.contextmanager
def lock_times(program, pid):
    """Counts the holds of a process of this program meanwhile."""
    if not os.access(os.path.join(TRACING, "uprobe_events"), os.W_OK):
        sys.exit(f"bench: no probes can be set: as root, `mount -t tracefs none {TRACING}`")
    held, here = LockTimes(), f"instances/{NAME}"
    for name, places in calls(program).items():
        for count, place in enumerate(places):
            for kind, way in (("p", "in"), ("r", "out")):
                write("uprobe_events", f"{kind}:{NAME}/{name}{count}_{way} {os.path.abspath(program)}:{offset(program, place):#x}\n", os.O_APPEND)
    os.mkdir(os.path.join(TRACING, here))
    try:
        write(f"{here}/trace_clock", "mono")
        write(f"{here}/buffer_size_kb", str(ROOM))
        write(f"{here}/set_event_pid", "\n".join(os.listdir(f"/proc/{pid}/task")))
        for event in (NAME, *SCHEDULED):
            write(f"{here}/events/{event}/enable", "1")
        yield held
        write(f"{here}/tracing_on", "0")
        with open(os.path.join(TRACING, here, "trace"), encoding="ascii", errors="replace") as file:
            held.read(file)
        held.lost = lost(here)
    finally:
        for event in (NAME, *SCHEDULED):
            write(f"{here}/events/{event}/enable", "0")
        os.rmdir(os.path.join(TRACING, here))
        write("uprobe_events", "")


def offset(program, address):
    """Where an address of a program stands in its file."""
    told = subprocess.run(["readelf", "--program-headers", "--wide", program], check=True, capture_output=True, text=True).stdout
    for line in told.splitlines():
        words = line.split()
        if words[:1] == ["LOAD"]:
            start, place, size = int(words[1], 16), int(words[2], 16), int(words[4], 16)
            if place <= address < place + size:
                return address - place + start
    raise ValueError(f"{address:#x} is in no segment of {program}")


def lost(here):
    """The events for which there was no room."""
    folder, count = os.path.join(TRACING, here, "per_cpu"), 0
    for processor in os.listdir(folder):
        with open(os.path.join(folder, processor, "stats"), encoding="ascii") as file:
            count += sum(int(line.split()[-1]) for line in file if line.startswith(("overrun", "dropped")))
    return count
