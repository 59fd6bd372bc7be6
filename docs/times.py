#!/usr/bin/env python3
"""Measures the gate, and writes the table of docs/TIMES.md.

    docs/times.py --run LOG COMMAND..   runs a command, as `rt ci` or ./check, and keeps in LOG each line with its second
    docs/times.py LOG..                 writes the table from logs of docs/prove.py, which has the minutes, and of `rt ci`, which has the functions
    docs/times.py --check               fails if the table has not a row for each crate of crates.txt, and for no other

A crate that no log names keeps its row.
"""

import os
import re
import resource
import subprocess
import sys
import time

sys.dont_write_bytecode = True

from graph import TOP, crates

DOCUMENT = os.path.join(TOP, "docs/TIMES.md")
HEAD = "| Crate | functions | must-fail edits | processor minutes |\n|---|---|---|---|\n"
MINUTES = "processor minutes:"


def measure(log, command):
    """Runs a command. Its lines go on, and into the log with the seconds since it began; then the minutes of a processor."""
    began = time.monotonic()
    with open(log, "w", encoding="utf-8") as file:
        with subprocess.Popen(command, stdout=subprocess.PIPE, stderr=subprocess.STDOUT, text=True) as process:
            for line in process.stdout:
                file.write(f"[{time.monotonic() - began:.0f}] {line}")
                print(line, end="", flush=True)
        used = resource.getrusage(resource.RUSAGE_CHILDREN)
        file.write(f"{MINUTES} {(used.ru_utime + used.ru_stime) / 60:.0f}\n")
    return process.returncode


def read_log(path):
    """What a log says of each crate: how many functions, and the minutes of a processor; and those of the whole gate."""
    functions, minutes, all_minutes, crate = {}, {}, None, None
    with open(path, encoding="utf-8") as file:
        for line in file:
            text = re.sub(r"^\[\d+\] ", "", line.rstrip("\n"))
            if begun := re.match(r"== (\w+)", text):
                crate = begun[1]
            elif (found := re.search(r"\bfunctions=(\d+)", text)) and crate:
                functions.setdefault(crate, int(found[1]))
            elif proved := re.match(r"(\w+): proved, ([\d.]+) processor minutes", text):
                # A crate that was kept takes no time, and says nothing of what its proof takes.
                minutes[proved[1]] = max(float(proved[2]), minutes.get(proved[1], 0))
            elif text.startswith(MINUTES):
                all_minutes = text.split()[-1]
    return functions, minutes, all_minutes


def edits(crate):
    folder = os.path.join(TOP, "crates", crate, "must-fail")
    return sum(name.endswith(".edit") for name in os.listdir(folder)) if os.path.isdir(folder) else 0


def table_in(text):
    """Where the table stands in the document, and its rows by crate."""
    begins = text.index(HEAD)
    ends = begins + len(HEAD)
    rows = {}
    while text.startswith("|", ends):
        line = text[ends : text.index("\n", ends) + 1]
        cells = [cell.strip() for cell in line.strip().strip("|").split("|")]
        rows[cells[0].strip("`")] = cells[1:]
        ends += len(line)
    return begins, ends, rows


def written(text, logs):
    """The document with what the logs say."""
    begins, ends, rows = table_in(text)
    for path in logs:
        functions, minutes, all_minutes = read_log(path)
        for crate in {*functions, *minutes}:
            count, _, took = rows.get(crate, ["", "", ""])
            rows[crate] = [str(functions.get(crate, count)), "", f"{minutes[crate]:.1f}" if crate in minutes else took]
        if all_minutes:
            text = re.sub(rf"{MINUTES} \d+", f"{MINUTES} {all_minutes}", text)
    lines = []
    for crate in crates():
        count, _, took = rows.get(crate, ["", "", ""])
        lines.append(f"| `{crate}` | {count} | {edits(crate) or ''} | {took} |\n")
    return text[:begins] + HEAD + "".join(lines) + text[ends:]


def main(arguments):
    if arguments[:1] == ["--run"]:
        sys.exit(measure(arguments[1], arguments[2:]))
    with open(DOCUMENT, encoding="utf-8") as file:
        text = file.read()
    if arguments == ["--check"]:
        told, known = set(table_in(text)[2]), set(crates())
        if told != known:
            sys.exit(f"docs/TIMES.md: rows and crates.txt differ in {', '.join(sorted(told ^ known))}: run docs/times.py LOG")
        return
    with open(DOCUMENT, "w", encoding="utf-8") as file:
        file.write(written(text, arguments))


if __name__ == "__main__":
    main(sys.argv[1:])
