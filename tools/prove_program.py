#!/usr/bin/env python3
"""prove_program.py: proves the crates that the program stands on, side by side, builds the program, and says how far it is.

`rt all check` begins a crate as soon as all crates below it are proved, as many at once as there are processors and memory
for. (A process for each crate would be slower: `rt lib` keeps all others out of the crates below its own.) On a terminal one line is
renewed; elsewhere there is a line for each crate. A failure names the crate and shows its last lines. Exit 0 where the program was
built, and 9 where it was not."""

import os
import re
import signal
import subprocess
import sys
import tempfile
import time

TOP = os.path.dirname(os.path.dirname(os.path.abspath(__file__)))
PROGRAM = "arena_main"
MEMORY_OF_A_CRATE = 4 << 30  # bytes that a proof takes at most, in the main
LAST_LINES = 20
WIDTH = 80  # of a terminal that does not tell its own


def count_crates():
    """How many crates the repository has."""
    with open(os.path.join(TOP, "crates.txt"), encoding="utf-8") as lines:
        return sum(":" in line.split("#")[0] for line in lines)


def at_once():
    """How many crates are proved side by side."""
    try:
        with open("/proc/meminfo", encoding="ascii") as lines:
            free = next(int(line.split()[1]) << 10 for line in lines if line.startswith("MemAvailable"))
    except (OSError, StopIteration):
        free = MEMORY_OF_A_CRATE
    return max(1, min(os.cpu_count() or 1, free // MEMORY_OF_A_CRATE))


class Run:
    """A command of the toolchain in a folder of the repository, and what it printed so far."""

    def __init__(self, words, folder, example=None):
        self.log = tempfile.NamedTemporaryFile(prefix="arena-", suffix=".log")
        with open(example or os.devnull, "rb") as source:
            self.process = subprocess.Popen(
                words, cwd=os.path.join(TOP, folder), stdin=source,
                stdout=self.log, stderr=subprocess.STDOUT, start_new_session=True)

    def text(self):
        with open(self.log.name, encoding="utf-8", errors="replace") as lines:
            return lines.read()

    def crates(self):
        """The crates that are done, each with what was printed of it."""
        parts = re.split(r"^== (\w+)\n", self.text(), flags=re.MULTILINE)
        return {name: text for name, text in zip(parts[1::2], parts[2::2]) if name != "summary"}

    def failed(self):
        """The name and the last lines of the first crate that is not proved; the last lines of all, where none is named."""
        named = re.search(r"^(\w+): failed", self.text(), re.MULTILINE)
        name, text = (named[1], self.crates()[named[1]]) if named else (PROGRAM, self.text())
        return name, "\n".join(text.rstrip("\n").split("\n")[-LAST_LINES:])

    def stop(self):
        try:
            os.killpg(self.process.pid, signal.SIGINT)
        except ProcessLookupError:
            pass
        self.process.wait()


class Screen:
    """One renewed line on a terminal, plain lines elsewhere."""

    def __init__(self):
        self.renews = sys.stderr.isatty()
        self.began = time.monotonic()

    def say(self, line):
        print(("\r\033[K" if self.renews else "") + f"arena: {line}", file=sys.stderr, flush=True)

    def renew(self, line):
        if self.renews:
            width = os.get_terminal_size(sys.stderr.fileno()).columns or WIDTH
            print("\r\033[K" + f"arena: {line}"[: width - 1], end="", file=sys.stderr, flush=True)

    def spent(self):
        seconds = int(time.monotonic() - self.began)
        return f"{seconds // 60}:{seconds % 60:02}"


def prove(screen, run, total):
    """Waits for the proofs, says which crate is done of how many, and answers whether all are proved."""
    told = 0
    while True:
        ended = run.process.poll() is not None
        done = list(run.crates())
        if not screen.renews:
            for count, name in enumerate(done[told:], told + 1):
                screen.say(f"{count} of {total} crates: {name}, {screen.spent()} so far")
        told = len(done)
        if ended:
            return run.process.returncode == 0
        last = f", {done[-1]} the last" if done else ""
        screen.renew(f"{told} of {total} crates done{last}, {screen.spent()} so far")
        time.sleep(0.3)


def build(screen, run):
    """Waits for the program, and answers whether it was built and replayed the example."""
    while run.process.poll() is None:
        screen.renew(f"building the program, {screen.spent()} so far")
        time.sleep(0.3)
    return run.process.returncode == 0


def main():
    screen, total, side_by_side = Screen(), count_crates(), at_once()
    screen.say(f"proving and building the program, {total} crates, {side_by_side} at a time; this takes about half an hour the first time")
    run = Run(["rt", "all", "check", "--jobs", str(side_by_side)], "crates")
    try:
        good = prove(screen, run, total)
        if good:
            run = Run(["rt", "run", "--", "replay"], f"crates/{PROGRAM}", os.path.join(TOP, "examples", "first.journal"))
            good = build(screen, run)
    except KeyboardInterrupt:
        run.stop()
        screen.say("stopped; what was proved is kept")
        return 9
    if not good:
        name, lines = run.failed()
        screen.say(f"{name} is not proved. Its last lines:")
        print(lines, file=sys.stderr)
        return 9
    screen.say(f"built in {screen.spent()}")
    return 0


if __name__ == "__main__":
    sys.exit(main())
