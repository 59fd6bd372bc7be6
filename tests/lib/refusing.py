"""Programs without memory: the replies that say so, the replies that the other lines must get, and how a test refuses allocations of
a program while it runs."""

import mmap
import tempfile

from lib.programs import library, run

# ---- lines

NO_MEMORY = {b"error no_memory", b"fault no_memory"}
LOST = b"fault reply_lost"

# A list has one line for each item, up to this line.
LISTS = (b"list_local_zones", b"list_local_data", b"list_stubs", b"list_commands", b"list_buried")
LIST_END = b"end"

# Only the replies to these lines take memory, so no other reply is lost.
SHOWING = (b"look ", b"look_undo ", b"look_redo ", b"look_without ", b"what_undo", b"servers ", b"oldest", *LISTS)


def replies_to(lines, told):
    """The reply to each line, or `None` if their number is wrong. A list is one reply, and any other reply is one line."""
    replies = []
    rest = told.split(b"\n")[:-1]
    for line in lines:
        size = 1
        if line in LISTS and rest and not rest[0].startswith((b"error ", b"fault ")):
            size = rest.index(LIST_END) + 1 if LIST_END in rest else 0
        if not 0 < size <= len(rest):
            return None
        replies.append(b"\n".join(rest[:size]))
        rest = rest[size:]
    return None if rest else replies


class Replay:
    """The replies of a program to lines, with memory."""

    def __init__(self, command):
        self.command = command
        self.told = {}

    def __call__(self, lines):
        text = b"".join(line + b"\n" for line in lines)
        if text not in self.told:
            self.told[text] = run(self.command, text).out
        return replies_to(lines, self.told[text])


# ---- a program that runs

# The numbers of the file, in the order of `struct shared` of tests/lib/refuse.c.
LEFT, EVERY, MADE, REFUSED = range(4)
SIZE = 8 * 4


class Refusing:
    """Refuses allocations of a program while it runs, through a file that tests/lib/refuse.c maps too."""

    def __init__(self):
        self._file = tempfile.NamedTemporaryFile()
        self._file.truncate(SIZE)
        self._map = mmap.mmap(self._file.fileno(), SIZE)
        self._numbers = memoryview(self._map).cast("q")
        self.environment = {"LD_PRELOAD": library("refuse"), "REFUSE_SHARED": self._file.name}

    def __enter__(self):
        return self

    def __exit__(self, *_):
        self._numbers.release()
        self._map.close()
        self._file.close()

    def one(self, nth):
        """Refuses the Nth allocation from now on."""
        self._numbers[LEFT] = nth

    def one_in(self, count):
        """Refuses one allocation in so many from now on: with 1 every allocation."""
        self._numbers[EVERY] = count

    def none(self):
        """Refuses no allocation from now on."""
        self._numbers[LEFT] = self._numbers[EVERY] = 0

    @property
    def is_due(self):
        """Whether the allocation of `one` is still to come."""
        return self._numbers[LEFT] > 0

    @property
    def made(self):
        return self._numbers[MADE]

    @property
    def refused(self):
        return self._numbers[REFUSED]
