#!/usr/bin/env python3
"""gate_watch.py [PLACE]: what each crate takes of a run of the gate, read off the run itself.

Start it beside `.ci/run`, with the place of the checkout that the gate works in (this one if none is named). Twice a second it looks
at the toolchain's processes: one in a crate's folder there proves the crate, or its tests where its words say so, and one in a copy
of the crate tries its wrong bodies. Where no such process has been seen for a minute, or when it is told to end, it prints a row a crate, in the
form of docs/PERFORMANCE.md: processor minutes of the proof, of the proofs of its tests and of its wrong bodies, and the most memory
that one process had. What the toolchain kept from an earlier run takes nothing, so a whole table wants a run from nothing."""

import os
import signal
import sys
import time

HERE = os.path.dirname(os.path.dirname(os.path.abspath(__file__)))
TICK, PAGE = os.sysconf("SC_CLK_TCK"), os.sysconf("SC_PAGE_SIZE")
KINDS = ("proof", "tests", "bodies")


def processes():
    """Of each process of the toolchain: its number and start, folder, words, processor seconds and bytes of memory."""
    for name in os.listdir("/proc"):
        if not name.isdigit():
            continue
        try:
            with open(f"/proc/{name}/cmdline", encoding="utf-8", errors="replace") as file:
                words = file.read().split("\0")
            if not os.path.basename(words[0]).startswith(("rattle", "antt-kernel")):
                continue
            with open(f"/proc/{name}/stat", encoding="utf-8", errors="replace") as file:
                fields = file.read().rpartition(")")[2].split()
            seconds = (int(fields[11]) + int(fields[12])) / TICK
            yield (name, fields[19]), os.readlink(f"/proc/{name}/cwd"), words, seconds, int(fields[21]) * PAGE
        except OSError:
            # It has ended in the meantime.
            continue


def work_of(place, folder, words, copies):
    """The crate and the kind of work of a process, or None where it works for somebody else. copies: the crate of each copy."""
    top, name = os.path.split(folder)
    if top == os.path.join(place, "crates"):
        return name, "tests" if "--test" in words else "proof"
    if not name.startswith("rt-edit-"):
        return None
    if "--crate-name" in words:
        copies[folder] = words[words.index("--crate-name") + 1]
    return (copies[folder], "bodies") if folder in copies else None


def watch(place):
    """Processor seconds by crate and kind, and the greatest memory by crate, until the gate has been silent for a minute."""
    taken, peak, works, copies, silent = {}, {}, {}, {}, 0.0
    try:
        while silent < 60 or not taken:
            seen = False
            for number, folder, words, seconds, memory in processes():
                if not works.get(number):
                    works[number] = work_of(place, folder, words, copies)
                work = works[number]
                if work:
                    seen = True
                    taken[number] = seconds
                    peak[work[0]] = max(peak.get(work[0], 0), memory)
            silent = 0.0 if seen else silent + 0.5
            time.sleep(0.5)
    except KeyboardInterrupt:
        pass
    sums = {}
    for number, seconds in taken.items():
        sums[works[number]] = sums.get(works[number], 0) + seconds
    return sums, peak


def stop(*_):
    raise KeyboardInterrupt


def main():
    signal.signal(signal.SIGTERM, stop)
    place = os.path.abspath(sys.argv[1]) if len(sys.argv) > 1 else HERE
    sums, peak = watch(place)
    crates = sorted(peak, key=lambda crate: -sum(sums.get((crate, kind), 0) for kind in KINDS))
    print("| crate | proof | tests | wrong bodies | together | memory |\n|---|---|---|---|---|---|")
    for crate in crates:
        each = [sums.get((crate, kind), 0) / 60 for kind in KINDS]
        print(f"| `{crate}` | " + " | ".join(f"{m:.1f}" for m in [*each, sum(each)]) + f" | {peak[crate] / 1e9:.1f} GB |")
    whole = [sum(s for (_, k), s in sums.items() if k == kind) / 60 for kind in KINDS]
    print("| all | " + " | ".join(f"{m:.1f}" for m in [*whole, sum(whole)]) + " | |")


if __name__ == "__main__":
    main()
