"""Real programs that are installed: dig, kdig, drill, dnspython and dnsperf ask the service, and the service asks the name server
nsd.

tests/clients/CLIENT.rows has the output of a client: `== ARGUMENTS`, then its text without what differs from run to run. A TTL that
counts down is written `TTL`.
"""

import os
import re
import shutil
import subprocess
import tempfile

from lib.checks import Checks
from lib.nameserver import NameServers, bound_together
from lib.programs import PATIENCE, TOP
from lib.service import HOST, STOPPED, Client, Service, until

ROOT, TEST = "127.0.0.1", "127.0.0.2"
SOA = "authority test. 60 SOA ns.test. host.test. 1 2 3 4 60"
ZONES = {
    ROOT: {"*": f"| authority test. 3600 NS ns.test. | additional ns.test. 3600 A {TEST}", "dead. A": None},
    TEST: {
        "a.test. A": "aa | answer a.test. 60 CNAME b.test. | answer b.test. 60 A 192.0.2.7",
        "test. MX": "aa | answer test. 60 MX 10 mail.test. | answer test. 60 MX 20 mail.other.test.",
        "b.test. A": "aa | answer b.test. 60 A 192.0.2.7",
        "b.test. AAAA": "aa | answer b.test. 60 AAAA 2001:db8::7",
        "long.test. TXT": "aa | " + " | ".join(f"answer long.test. 60 TXT {letter * 200}" for letter in "xyz"),
        "*": f"aa rcode 3 | {SOA}",
    },
}
COMMANDS = [
    "local_data host.home. 60 A 192.0.2.1",
    "local_data host.home. 60 A 192.0.2.2",
    "local_data _dns._udp.home. 60 SRV 1 2 53 host.home.",
    "local_data 1.2.0.192.in-addr.arpa. 60 PTR host.home.",
    "local_zone ads. always_nxdomain",
    "local_zone shut. refuse",
]

# Lines of a client's text with its version, its warnings, or the time.
CHANGES = re.compile(r"; <<>> DiG|; \(\d server|;; global options|;; Got answer|;; WARNING|;; (Query time|WHEN|Time|From)")


def steady(text):
    """The text of a client without what differs from run to run, and without blank lines."""
    lines = [line.rstrip() for line in text.splitlines() if line.strip() and not CHANGES.match(line)]
    text = "\n".join(re.sub(r"[,;] id: \d+$", "", line) for line in lines)
    text = re.sub(r"SERVER: .*?(\(\w+\))?$", r"SERVER: \1", text, flags=re.MULTILINE).replace("SERVER: \n", "SERVER:\n")
    if not re.search(r"[Ff]lags: qr aa", text):
        text = re.sub(r"(?m)^([^;\s]+\s+)\d+(\s+IN)", r"\1TTL\2", text)
    return text


def rows_of(client):
    """The rows of a client's file: its arguments, and its output."""
    with open(os.path.join(TOP, "tests/clients", f"{client}.rows"), encoding="utf-8") as file:
        rows = re.findall(r"^== (.*)\n((?:(?!== ).*\n)*)", file.read(), re.MULTILINE)
    return [(arguments, "\n".join(line for line in text.splitlines() if line)) for arguments, text in rows]


def run(command):
    return subprocess.run(command, capture_output=True, text=True, timeout=PATIENCE)


def is_there(checks, client):
    if shutil.which(client):
        return True
    checks.skip(client, "it is not installed")
    return False


def check_rows(checks, client, service):
    """The output of the client, row by row."""
    if not is_there(checks, client):
        return
    for arguments, wanted in rows_of(client):
        done = run([client, f"@{HOST}", "-p", str(service.port), *arguments.split()])
        checks.equal(f"{client} {arguments}", steady(done.stdout).encode(), wanted.encode())


DNSPYTHON = """
import sys
import dns.message, dns.query, dns.rcode, dns.resolver
host, port = sys.argv[1], int(sys.argv[2])
resolver = dns.resolver.Resolver(configure=False)
resolver.nameservers, resolver.port, resolver.lifetime = [host], port, 60
print(sorted(record.address for record in resolver.resolve("host.home.", "A")))
for tcp in (False, True):
    answer = resolver.resolve("a.test.", "A", tcp=tcp)
    print(answer.canonical_name, [record.address for record in answer])
print([record.exchange.to_text() for record in resolver.resolve("test.", "MX")])
for name in ("ads.", "nobody.test."):
    try:
        resolver.resolve(name, "A")
    except dns.resolver.NXDOMAIN:
        print(name, "NXDOMAIN")
query = dns.message.make_query("long.test.", "TXT", use_edns=True)
response, over_tcp = dns.query.udp_with_fallback(query, host, port=port, timeout=60)
print(over_tcp, len(response.answer[0]), dns.rcode.to_text(response.rcode()))
response = dns.query.udp(dns.message.make_query("shut.", "A"), host, port=port, timeout=60)
print(dns.rcode.to_text(response.rcode()))
"""

DNSPYTHON_TOLD = """['192.0.2.1', '192.0.2.2']
b.test. ['192.0.2.7']
b.test. ['192.0.2.7']
['mail.test.', 'mail.other.test.']
ads. NXDOMAIN
nobody.test. NXDOMAIN
True 3 NOERROR
REFUSED
"""


def check_dnspython(checks, service):
    for python in ("python3", "/usr/bin/python3"):
        if shutil.which(python) and run([python, "-c", "import dns.resolver"]).returncode == 0:
            done = run([python, "-B", "-c", DNSPYTHON, HOST, str(service.port)])
            checks.equal("dnspython", (done.stdout + done.stderr).encode(), DNSPYTHON_TOLD.encode())
            return
    checks.skip("dnspython", "it is not installed")


def check_dnsperf(checks, service):
    """Five seconds of questions that are cached, denied, blocked and new: each is answered."""
    if not is_there(checks, "dnsperf"):
        return
    for over, options in (("udp", []), ("tcp", ["-m", "tcp", "-c", "8"])):
        with tempfile.NamedTemporaryFile("w") as questions:
            for place in range(1_000):
                questions.write(f"host.home A\nads A\na.test A\nnew{place}-{over}.test A\n")
            questions.flush()
            done = run(["dnsperf", "-s", HOST, "-p", str(service.port), "-d", questions.name, "-l", "5", "-Q", "100", "-t", "30", *options])
        found = dict(re.findall(r"Queries (sent|completed|lost): +(\d+)", done.stdout))
        told = int(found.get("sent", 0)) > 0 and found.get("sent") == found.get("completed") and found.get("lost") == "0"
        codes = re.findall(r"(\w+) \d+ \(", done.stdout.partition("Response codes:")[2])
        is_right = told and sorted(codes) == ["NOERROR", "NXDOMAIN"]
        checks.check(f"dnsperf over {over}", None if is_right else done.stdout + done.stderr)


NSD = """server:
    ip-address: {address}@{port}
    username: ""
    zonesdir: "{folder}"
    pidfile: "{folder}/pid"
    database: ""
    xfrdfile: "{folder}/xfrd"
    zonelistfile: "{folder}/zones"
    xfrdir: "{folder}"
    logfile: "{folder}/log"
remote-control:
    control-enable: no
zone:
    name: "{zone}"
    zonefile: "zone"
"""

NSD_ZONES = {
    (ROOT, "."): """$TTL 3600
. SOA ns. host. 1 2 3 4 60
. NS ns.
ns. A 127.0.0.1
test. NS ns.test.
ns.test. A 127.0.0.2
""",
    (TEST, "test."): """$TTL 3600
test. SOA ns.test. host.test. 1 2 3 4 60
test. NS ns.test.
ns.test. A 127.0.0.2
a.test. CNAME b.test.
b.test. A 192.0.2.7
b.test. AAAA 2001:db8::7
test. MX 10 mail.test.
*.wild.test. TXT "any"
"""
    + "".join(f'long.test. TXT "{letter * 250}"\n' for letter in "abcdefgh"),
}

# Questions that the service resolves at nsd, and the replies over TCP without TTLs.
OVER_NSD = [
    ("a.test.", "A", "- | answer a.test. CNAME b.test. | answer b.test. A 192.0.2.7"),
    ("b.test.", "AAAA", "- | answer b.test. AAAA 2001:db8:0:0:0:0:0:7"),
    ("test.", "MX", "- | answer test. MX 10 mail.test."),
    ("x.wild.test.", "TXT", '- | answer x.wild.test. TXT "any"'),
    ("b.test.", "MX", "- | authority test. SOA ns.test. host.test. 1 2 3 4 60"),
    ("nobody.test.", "A", "rcode 3 | authority test. SOA ns.test. host.test. 1 2 3 4 60"),
    ("nobody.", "A", "rcode 3 | authority . SOA ns. host. 1 2 3 4 60"),
]


def started_nsd(folder, address, port, zone, text):
    """nsd at an address, with one zone."""
    os.mkdir(folder)
    for name, words in (("zone", text), ("conf", NSD.format(address=address, port=port, folder=folder, zone=zone))):
        with open(os.path.join(folder, name), "w") as file:
            file.write(words)
    return subprocess.Popen(["nsd", "-d", "-c", os.path.join(folder, "conf")], stdout=subprocess.DEVNULL, stderr=subprocess.DEVNULL)


def answers(address, port):
    """Whether a name server answers there."""
    try:
        Client("tcp", port, address).__exit__()
    except ConnectionError:
        return False
    return True


def check_over_nsd(checks):
    """Questions that the service resolves at nsd: the root at one address, a zone below it at another."""
    if not is_there(checks, "nsd"):
        return
    sockets, port = bound_together([ROOT, TEST])
    for sock, _ in sockets:
        sock.close()
    with tempfile.TemporaryDirectory() as top:
        started = [
            started_nsd(os.path.join(top, address), address, port, zone, text) for (address, zone), text in NSD_ZONES.items()
        ]
        try:
            for address in (ROOT, TEST):
                checks.check(f"nsd at {address}", None if until(lambda: answers(address, port)) else "it does not answer")
            with Service([f"{ROOT}@{port}"], "--server-port", str(port)) as service:
                for name, kind, wanted in OVER_NSD:
                    checks.equal(f"over nsd: {name} {kind}", service.ask(name, kind, "tcp").words(), wanted)
                found = sorted(record.data for record in service.ask("long.test.", "TXT", "tcp").records)
                checks.equal("over nsd: long.test. TXT", found, [f'"{letter * 250}"' for letter in "abcdefgh"])
                checks.equal("over nsd: stopped", service.stop(), STOPPED)
        finally:
            for process in started:
                process.terminate()
                process.wait(PATIENCE)


def main():
    checks = Checks()
    checks.make(check_over_nsd)
    with NameServers(ZONES) as servers, Service([f"{ROOT}@{servers.port}"], "--server-port", str(servers.port), "--udp", "2") as service:
        service.obey(*COMMANDS)
        for client in ("dig", "kdig", "drill"):
            check_rows(checks, client, service)
        check_dnspython(checks, service)
        check_dnsperf(checks, service)
        checks.equal("after clients: stopped", service.stop(), STOPPED)
    checks.end()


main()
