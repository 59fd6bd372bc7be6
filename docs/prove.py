#!/usr/bin/env python3
"""Proves crates one by one, several side by side, and says what each of them takes.

    docs/prove.py FOLDER [--slots N] [CRATE..]   proves these crates and those below them, or all

Each is proved by a whole `rt ci CRATE`, on a copy of what is committed here, without must-fail edits: the gate tries those. What passes is
kept for the gate. A crate begins once all that it uses has passed; of those that may begin, the one from which the longest way leads up
goes first. The lines of `rt ci` go to FOLDER/CRATE.log, and FOLDER/log has a line for each crate that ended. Run it again after a mend:
what has not changed takes a few seconds. `docs/times.py FOLDER/log` reads the log.
"""

import argparse
import os
import shutil
import subprocess
import sys
import tempfile
import time

sys.dont_write_bytecode = True

from graph import TOP, below, crates
from times import DOCUMENT, table_in

# The minutes of a crate that TIMES does not tell.
UNKNOWN = 3.0


def expected():
    """The minutes of a processor for each crate that TIMES tells."""
    with open(DOCUMENT, encoding="utf-8") as file:
        rows = table_in(file.read())[2]
    return {crate: float(cells[-1]) for crate, cells in rows.items() if cells[-1]}


class Proving:
    """Crates that wait, that are being proved, and that ended."""

    def __init__(self, folder, slots, chosen):
        self.folder, self.slots, self.uses = os.path.abspath(folder), slots, crates()
        self.waiting = set().union(*(below(self.uses, top) for top in chosen or self.uses))
        self.running, self.proved, self.failed = {}, set(), set()
        minutes, self.length = expected(), {}
        for crate in reversed(sorted(self.uses, key=lambda name: len(below(self.uses, name)))):
            above = (self.length[user] for user, used in self.uses.items() if crate in used and user in self.length)
            self.length[crate] = minutes.get(crate, UNKNOWN) + max(above, default=0)

    def say(self, line):
        with open(os.path.join(self.folder, "log"), "a", encoding="utf-8") as file:
            print(line, file=file)
        print(line, flush=True)

    def begin(self, copy):
        """Begins the crates that may, as far as there are slots."""
        ready = [crate for crate in self.waiting if self.proved.issuperset(self.uses[crate])]
        for crate in sorted(ready, key=lambda name: -self.length[name])[: self.slots - len(self.running)]:
            self.waiting.remove(crate)
            with open(os.path.join(self.folder, crate + ".log"), "w", encoding="utf-8") as log:
                process = subprocess.Popen(["rt", "ci", crate], cwd=copy, stdin=subprocess.DEVNULL, stdout=log, stderr=subprocess.STDOUT)
            # The process is kept: `subprocess` waits by itself for one that nobody keeps.
            self.running[process.pid] = crate, time.monotonic(), process

    def end(self):
        """Waits until a crate ends."""
        process, status, used = os.wait3(0)
        crate, began, _ = self.running.pop(process)
        with open(os.path.join(self.folder, crate + ".log"), encoding="utf-8") as log:
            last = (log.read().strip().splitlines() or ["no line"])[-1]
        (self.failed if status else self.proved).add(crate)
        minutes, passed = (used.ru_utime + used.ru_stime) / 60, (time.monotonic() - began) / 60
        self.say(f"{crate}: {'FAILED' if status else 'proved'}, {minutes:.2f} processor minutes, {passed:.1f} minutes: {last}")

    def run(self):
        with tempfile.TemporaryDirectory() as copy:
            subprocess.run(["git", "clone", "-q", TOP, copy], check=True)
            for crate in self.uses:
                shutil.rmtree(os.path.join(copy, "crates", crate, "must-fail"), ignore_errors=True)
            self.begin(copy)
            while self.running:
                self.end()
                self.begin(copy)
        if self.waiting:
            self.say(f"not begun, since a crate below failed: {', '.join(sorted(self.waiting))}")
        return 1 if self.failed or self.waiting else 0


def main():
    parser = argparse.ArgumentParser(description=__doc__, formatter_class=argparse.RawDescriptionHelpFormatter)
    parser.add_argument("folder")
    parser.add_argument("--slots", type=int, default=3, help="how many crates are proved side by side; each takes 1 to 6 GB")
    parser.add_argument("crates", nargs="*", metavar="CRATE")
    given = parser.parse_intermixed_args()
    os.makedirs(given.folder, exist_ok=True)
    sys.exit(Proving(given.folder, given.slots, given.crates).run())


main()
