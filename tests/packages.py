"""The files of packaging/: the manual page, and the command lines of the systemd unit and of the image."""

import json
import os
import re
import shlex
import shutil
import subprocess
import tempfile
import time

from lib.checks import Checks
from lib.programs import RESOLVER, TOP, read, run
from lib.service import HOST, free_port

FOLDER = os.path.join(TOP, "packaging")
PROGRAM = "/usr/bin/resolver"


def packaged(name):
    return read(os.path.join(FOLDER, name)).decode()


def check_manual(checks):
    """`man` shows it without a warning, and it has each option and each line that help lists."""
    if not shutil.which("man"):
        return checks.skip("the manual page", "man is not installed")
    page = os.path.join(FOLDER, "resolver.8")
    done = subprocess.run(
        ["man", "--warnings", "-E", "UTF-8", "-P", "cat", "-l", page], capture_output=True,
        env={"PATH": os.environ["PATH"], "MANWIDTH": "200", "LC_ALL": "C.UTF-8", "MAN_KEEP_FORMATTING": ""},
    )
    checks.equal("the manual page: its layout", (done.returncode, done.stderr), (0, b""))
    text = re.sub(r".\x08", "", done.stdout.decode())
    for mode in ("serve", "control", "script"):
        told = run([RESOLVER, mode, "--help"]).err.decode()
        words = set(re.findall(r"--[a-z-]+", told)) - {"--help"}
        words |= {line.split()[0] for line in told.partition("Lines:\n")[2].splitlines() if line.strip()}
        checks.equal(f"the manual page: what it leaves out of {mode}", sorted(word for word in words if word not in text), [])


def check_unit(checks):
    """systemd accepts it, with the path of the built program in it."""
    if not shutil.which("systemd-analyze"):
        return checks.skip("the systemd unit", "systemd-analyze is not installed")
    with tempfile.TemporaryDirectory() as folder:
        unit = os.path.join(folder, "resolver.service")
        with open(unit, "w") as file:
            file.write(packaged("resolver.service").replace(PROGRAM, RESOLVER))
        done = subprocess.run(["systemd-analyze", "verify", "--man=no", unit], capture_output=True)
    checks.equal("the systemd unit", (done.returncode, done.stdout, done.stderr), (0, b"", b""))


def environment_of(word, text):
    """The environment that lines which begin with a word set."""
    return dict(re.findall(rf"^{word}(\w+)=(.*)$", text, re.MULTILINE))


def check_commands(checks, name, environment, starting, stopping, waiting=None):
    """Runs the command line that starts the service and the one that stops it, at free ports. A third waits until it is ready."""
    ports = {":53": free_port(), ":8953": free_port()}

    def here(words):
        moved = [re.sub(r"\b[\d.]+@(53|8953)\b", lambda found: f"{HOST}@{ports[':' + found[1]]}", word) for word in words]
        return [word.replace(PROGRAM, RESOLVER) for word in moved]

    waiter = waiting and subprocess.Popen(here(waiting), stdout=subprocess.PIPE, stderr=subprocess.STDOUT)
    if waiter:
        time.sleep(0.5)
        checks.equal(f"{name}: before it starts it is not ready", waiter.poll(), None)
    with subprocess.Popen(here(starting), stdout=subprocess.PIPE, stderr=subprocess.PIPE, env=environment) as service:
        try:
            checks.equal(f"{name}: it starts", service.stdout.readline(), b"ready\n")
            if waiter:
                checks.equal(f"{name}: it is ready", (waiter.wait(60), waiter.stdout.read()), (0, b""))
            done = run(here(stopping))
            checks.equal(f"{name}: its stop", (done.status, done.out), (0, b"ok stopping\n"))
            checks.equal(f"{name}: its end", service.wait(60), 0)
        finally:
            service.kill()
            if waiter:
                waiter.kill()
                waiter.stdout.close()


def main():
    checks = Checks()
    check_manual(checks)
    check_unit(checks)
    unit = dict(re.findall(r"^(ExecStart|ExecStartPost|ExecStop)=(.*)$", packaged("resolver.service"), re.MULTILINE))
    words = [shlex.split(unit[name]) for name in ("ExecStart", "ExecStop", "ExecStartPost")]
    image = packaged("Containerfile")
    set_by_unit, set_by_image = environment_of("Environment=", packaged("resolver.service")), environment_of("ENV ", image)
    checks.equal("the environment of the unit and the image", set_by_unit, set_by_image)
    check_commands(checks, "the systemd unit", set_by_unit, *words)
    starting = [json.loads(re.search(rf"^{word} (.*)$", image, re.MULTILINE)[1]) for word in ("ENTRYPOINT", "CMD")]
    stopping = re.search(r"exec resolver resolver (control .* stop)$", image, re.MULTILINE)[1].split()
    check_commands(checks, "the image", set_by_image, sum(starting, []), [PROGRAM, *stopping])
    checks.end()


main()
