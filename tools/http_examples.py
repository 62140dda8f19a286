#!/usr/bin/env python3
"""http_examples.py [PROGRAM]: tries each example of docs/HTTP.md against the host.

The page's section "By curl" has a table for each evening, behind a line that names the example file of its setup. The tool starts the
host for it, with changes of the setup that the line tells, runs the rows one after another in a shell as they stand, and compares
status and body; `..` in a body stands for anything. It ends with the number of rows that agreed, and status 1 where one did not."""

import json
import os
import re
import socket
import subprocess
import sys
import tempfile
import time

TOP = os.path.dirname(os.path.dirname(os.path.abspath(__file__)))
NAMES = """arena=http://127.0.0.1:PORT/api
alice='Authorization: Bearer alicekey00000001'
bob='Authorization: Bearer bobkey0000000001'
carol='Authorization: Bearer carolkey00000001'
curl() { command curl -s -w '\\n%{http_code}' "$@"; }
"""


def evenings():
    """For each table of the section: the setup and the rows (command, status, body)."""
    with open(os.path.join(TOP, "docs", "HTTP.md"), encoding="utf-8") as file:
        section = file.read().partition("\n## By curl\n")[2].partition("\n## ")[0]
    for part in section.split("\n### ")[1:]:
        name = re.search(r"`examples/([\w-]+\.json)`", part)[1]
        with open(os.path.join(TOP, "examples", name), encoding="utf-8") as file:
            setup = json.load(file)
        for member, value in re.findall(r"`(\w+)` (\d+)", part.partition("\n|")[0]):
            (setup["control"] if member == "initial" else setup)[member] = int(value)
        yield setup, re.findall(r"^\| `(curl .*?)` \| (\d+) \| `(.*)` \|$", part, re.MULTILINE)


def free_port():
    """A port of this machine that nobody has."""
    with socket.socket() as it:
        it.bind(("127.0.0.1", 0))
        return it.getsockname()[1]


def agrees(port, command, status, body):
    """Whether the shell's answer to the command is this status and body."""
    done = subprocess.run(["bash", "-c", NAMES.replace("PORT", str(port)) + command], capture_output=True, text=True, check=False)
    said, _, code = done.stdout.rpartition("\n")
    pattern = ".*".join(re.escape(piece) for piece in body.split(".."))
    if code == status and re.fullmatch(pattern, said):
        return True
    print(f"{command}\n  is to be {status} {body}\n  was      {code} {said}")
    return False


def try_evening(program, setup, rows):
    """How many rows agree."""
    with tempfile.TemporaryDirectory() as folder:
        path = os.path.join(folder, "setup.json")
        with open(path, "w", encoding="utf-8") as file:
            json.dump(setup, file)
        port = free_port()
        words = [program, "serve", path, str(port), "4", os.path.join(folder, "journal.txt")]
        host = subprocess.Popen(words, stdout=subprocess.DEVNULL, stderr=subprocess.PIPE, text=True)
        try:
            # It says that it listens, or why it does not.
            print(host.stderr.readline(), end="")
            good = 0
            for row in rows:
                good += agrees(port, *row)
                # A wave, or the end, comes between two connections.
                time.sleep(0.2)
            return good
        finally:
            host.terminate()
            host.wait()


def main():
    program = sys.argv[1] if len(sys.argv) > 1 else os.path.join(TOP, "arena")
    all_rows = good = 0
    for setup, rows in evenings():
        all_rows += len(rows)
        good += try_evening(program, setup, rows)
    print(f"{good} of {all_rows} examples agree")
    sys.exit(good != all_rows or not all_rows)


if __name__ == "__main__":
    main()
