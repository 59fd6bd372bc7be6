"""An `unbound` whose cache is filled by `unbound-control load_cache`, for `bench/cells`."""
import contextlib
import glob
import os
import re
import subprocess
import sys
import time

from unbound import configured

OPTIONS = """
  rrset-cache-size: 1g
  msg-cache-size: 1g
  rrset-cache-slabs: 1
  msg-cache-slabs: 1
"""


class Unbound:
    """A service that runs, with what it is told over its control socket."""

    def __init__(self, folder, process):
        self.folder, self.process = folder, process

    def tell(self, *words, **streams):
        configuration = os.path.join(self.folder, "unbound.conf")
        return subprocess.run(["unbound-control", "-c", configuration, *words], capture_output=True, text=True, **streams)

    def fill(self, owners):
        """Caches an address of each name, and the message that has it."""
        dump = os.path.join(self.folder, "dump")
        with open(dump, "w") as file:
            file.write("START_RRSET_CACHE\n")
            for place, owner in enumerate(owners):
                address = f"192.{place // 65_536}.{place // 256 % 256}.{place % 256}"
                file.write(f";rrset 3600 1 0 8 0\n{owner}\t3600\tIN\tA\t{address}\n")
            file.write("END_RRSET_CACHE\nSTART_MSG_CACHE\n")
            for owner in owners:
                file.write(f"msg {owner} IN A 33152 1 3600 0 1 0 0\n{owner} IN A 0\n")
            file.write("END_MSG_CACHE\nEOF\n")
        with open(dump) as file:
            self.tell("load_cache", stdin=file)

    def ran(self):
        """The time for which it has run, in milliseconds."""
        time.sleep(0.01)
        stats = glob.glob(f"/proc/{self.process.pid}/task/*/schedstat")
        return sum(int(open(name).read().split()[0]) for name in stats) / 1e6

    def flush(self, zone):
        """The milliseconds of a processor that `flush_zone` takes, and how many sets it removes."""
        before = self.ran()
        reply = self.tell("flush_zone", zone).stdout
        return self.ran() - before, int(re.search(r"removed (\d+) rrsets", reply).group(1))

    def resident(self):
        """The octets that it has in memory."""
        with open(f"/proc/{self.process.pid}/status") as file:
            return int(re.search(r"VmRSS:\s+(\d+)", file.read()).group(1)) * 1_024


@contextlib.contextmanager
def running(folder, port=15_998):
    """An `unbound` with an empty cache."""
    configuration = configured(folder, port, 1, OPTIONS)
    process = subprocess.Popen(["unbound", "-c", configuration], stdout=subprocess.DEVNULL, stderr=subprocess.DEVNULL)
    try:
        service = Unbound(folder, process)
        for _ in range(200):
            if service.tell("status").returncode == 0:
                break
            time.sleep(0.05)
        else:
            sys.exit("bench: unbound does not begin")
        yield service
    finally:
        process.terminate()
        process.wait()
