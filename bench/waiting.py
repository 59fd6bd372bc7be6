"""How long threads ran, and were ready to run and got no processor, while something else was measured."""

import os
import threading
import time

# The seconds between two readings.
BETWEEN = 0.005


class ProcessorWaits(threading.Thread):
    """Reads again and again how long each thread of some processes has run and has waited for a processor, by the system's own count."""

    def __init__(self, processes):
        """`processes` has a name for each process number."""
        super().__init__(daemon=True)
        self.threads = {f"/proc/{pid}/task/{task}/schedstat": f"{name} {place}"
                        for pid, name in processes.items() for place, task in enumerate(sorted(os.listdir(f"/proc/{pid}/task"), key=int))}
        self.readings, self.over = [], threading.Event()

    def run(self):
        while not self.over.wait(BETWEEN):
            began = time.monotonic()
            self.readings.append((began, [times(path) for path in self.threads], time.monotonic()))

    def end(self):
        self.over.set()
        self.join()

    def between(self, start, end):
        """The milliseconds that each thread waited and ran, at most, between two moments of the monotonic clock. Threads for which both are
        longest come first."""
        before = max((one for one in self.readings if one[2] <= start), default=self.readings[0])
        after = min((one for one in self.readings if one[0] >= end), default=self.readings[-1])
        found = [tuple((late - early) / 1e6 for early, late in zip(*pair)) for pair in zip(before[1], after[1])]
        return sorted(((waited, ran, name) for (ran, waited), name in zip(found, self.threads.values())), key=lambda one: -one[0] - one[1])


def times(path):
    """The nanoseconds that a thread has run and has waited, or none if it has ended."""
    try:
        with open(path, encoding="ascii") as file:
            ran, waited, _ = file.read().split()
            return int(ran), int(waited)
    except OSError:
        return 0, 0
