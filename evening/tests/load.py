#!/usr/bin/python3
"""load.py [--players 200] [--screens 40] [--seconds 60] [--workers 8] [--think 3.0]

A load of pages and hall screens through nginx: requests a second, answer times, and what the processors spent."""
import argparse, asyncio, collections, os, sys

sys.dont_write_bytecode = True
from crowd import crowd, name_of  # noqa: E402
from stand import Stand, children_of, setup_of  # noqa: E402


def spent(pids):
    """Seconds of processor that these processes took."""
    ticks = 0
    for pid in pids:
        if os.path.exists(f"/proc/{pid}"):
            with open(f"/proc/{pid}/stat", encoding="ascii") as f:
                fields = f.read().rsplit(")", 1)[1].split()
            ticks += int(fields[11]) + int(fields[12])
    return ticks / os.sysconf("SC_CLK_TCK")


def main():
    p = argparse.ArgumentParser(description=__doc__)
    for word, kind, value in [("players", int, 200), ("screens", int, 40), ("seconds", int, 60), ("workers", int, 8), ("think", float, 3.0)]:
        p.add_argument("--" + word, type=kind, default=value)
    a = p.parse_args()
    setup = setup_of([(name_of(i), 1000 + i * 7 % 1200) for i in range(a.players)], minutes=a.seconds / 60 + 5, wave=5000)
    with Stand(setup, workers=a.workers) as st:
        both = [st.host.pid], [st.nginx.pid] + children_of(st.nginx.pid)
        before = [spent(pids) for pids in both]
        figures = asyncio.run(crowd(st.port, a.players, a.screens, a.seconds, a.think))
        host, nginx = (100 * (spent(pids) - b) / a.seconds for pids, b in zip(both, before))
        begun = st.api("GET", "arena")[1]["begun"]
        kept = collections.Counter(line.rsplit(" ", 1)[1] for line in st.logs().splitlines() if "/api/" in line)
    every = sorted(t for times in figures.times.values() for t in times)
    ms = lambda times, q: f"{1000 * sorted(times)[min(len(times) - 1, int(q * len(times)))]:.1f}"
    print(f"{a.players} players, {a.screens} screens, {a.seconds} s, {a.workers} workers")
    print(f"requests/s at nginx {len(every) / a.seconds:.0f}, at the host {(sum(kept.values()) - kept['HIT']) / a.seconds:.0f}; "
          f"{figures.bytes / a.seconds / 1024:.0f} KiB/s; moves {figures.moves}, games begun {begun}, errors {dict(figures.errors)}")
    print(f"answer ms: p50 {ms(every, .5)} p95 {ms(every, .95)} p99 {ms(every, .99)} max {ms(every, 1)}")
    print(f"processor, of one core: host {host:.1f} %, nginx {nginx:.1f} %")
    for kind, times in sorted(figures.times.items(), key=lambda kv: -len(kv[1])):
        print(f"  {kind:24} {len(times) / a.seconds:7.1f}/s  p50 {ms(times, .5)}  p99 {ms(times, .99)} ms")


if __name__ == "__main__":
    main()
