#!/usr/bin/env python3
"""serve_figures.py [PART ..]: what an evening over loopback takes, as rows for docs/PERFORMANCE.md. The parts are requests, answers,
memory and idle; without a word all of them, some six minutes. The program is ARENA, or else what ./arena has built; the clients are
wrk (Debian's package) and, for moves that are timed one by one, this script."""

import json
import os
import random
import re
import signal
import socket
import subprocess
import sys
import tempfile
import threading
import time

TOP = os.path.dirname(os.path.dirname(os.path.abspath(__file__)))
PROGRAM = os.environ.get("ARENA", os.path.join(TOP, "crates", "arena_main", "out", "arena_main"))
CLIENTS = (1, 2, 4, 8, 16, 32, 64)
KINDS = {"standing": "`GET /api/standing/0`", "moves": "moves", "once": "`GET /api/standing/0`, a connection each"}
SECONDS = 2  # of one measurement of requests
JOURNAL = 1_000_000  # entries


def line_of_play():
    """364 moves: each step of a pawn, and then three times two knights out and back, so that no position comes a fifth time."""
    black, white, words = ["g8f6", "g1f3", "f6g8", "f3g1"], ["g1f3", "g8f6", "f3g1", "f6g8"], []
    for f in "abcdegh":
        for steps in ((f"{f}2{f}3", f"{f}7{f}6"), (f"{f}3{f}4", f"{f}6{f}5")):
            words += [steps[0]] + 3 * black + [steps[1]] + 3 * white
    return words


def key_of(name):
    return f"key_of_player_{name:0>5}"


class Link:
    """A connection that is kept for as long as the host keeps it."""

    def __init__(self, port):
        self.port, self.link, self.seen = port, None, 0

    def ask(self, method, path, name="p0", last=False):
        """The status and the body of an answer, and after how many seconds it was there."""
        more, begun = "Connection: close\r\n" if last else "", time.perf_counter()
        if self.link is None:
            self.link = socket.create_connection(("127.0.0.1", self.port))
            self.link.setsockopt(socket.IPPROTO_TCP, socket.TCP_NODELAY, 1)
        head = f"{method} /api/{path} HTTP/1.1\r\nHost: arena\r\nAuthorization: Bearer {key_of(name)}\r\n{more}\r\n"
        self.link.sendall(head.encode())
        head, body = self.answer()
        took, self.seen = time.perf_counter() - begun, int(re.search(rb"X-Arena-Seen: (\d+)", head)[1])
        if b"\r\nConnection: close" in head:
            self.link.close()
            self.link = None
        return int(head.split()[1]), json.loads(body), took

    def answer(self):
        """The head and the body of what comes."""
        data = b""
        while b"\r\n\r\n" not in data:
            data += self.receive()
        head, _, body = data.partition(b"\r\n\r\n")
        length = int(re.search(rb"Content-Length: (\d+)", head)[1])
        while len(body) < length:
            body += self.receive()
        return head, body

    def receive(self):
        data = self.link.recv(65536)
        if not data:
            raise EOFError("the host has closed")
        return data


class Host:
    """A host of so many players whose clocks have three hours, ended when it is left."""

    def __init__(self, workers, players):
        self.workers, self.players, self.folder = workers, players, tempfile.TemporaryDirectory()
        with socket.socket() as free:
            free.bind(("127.0.0.1", 0))
            self.port = free.getsockname()[1]

    def __enter__(self):
        players = [{"name": f"p{i}", "rating": 1000 + i, "key": key_of(f"p{i}")} for i in range(self.players)]
        setup = {"control": {"initial": 10800, "increment": 0, "first": 300000}, "starts": 0, "ends": 900000000, "wave": 100, "players": players}
        with open(self.file("setup.json"), "w", encoding="ascii") as file:
            json.dump(setup, file)
        words = [PROGRAM, "serve", self.file("setup.json"), str(self.port), str(self.workers), self.file("journal.txt")]
        self.process = subprocess.Popen(words, stdout=subprocess.DEVNULL, stderr=subprocess.DEVNULL)
        while self.process.poll() is None:
            try:
                Link(self.port).ask("GET", "arena", last=True)
                return self
            except ConnectionRefusedError:
                time.sleep(0.02)
        raise RuntimeError(f"{' '.join(words)} ended with status {self.process.returncode}")

    def __exit__(self, *_):
        self.process.kill()
        self.process.wait()
        self.folder.cleanup()

    def file(self, name):
        return os.path.join(self.folder.name, name)

    def begin_games(self):
        """All players enter, and waves begin a game of each two: number, White and Black of each."""
        link = Link(self.port)
        for i in range(self.players):
            link.ask("POST", "enter", f"p{i}")
        while link.ask("GET", "arena", last=True)[1]["running"] < self.players // 2:
            time.sleep(0.05)
        games = [link.ask("GET", f"game/{i}", last=i + 1 == self.players // 2)[1] for i in range(self.players // 2)]
        return [(game["id"], game["white"], game["black"]) for game in games]

    def spent(self):
        """Seconds of processor that its threads took."""
        folder, nanos = f"/proc/{self.process.pid}/task", 0
        for task in os.listdir(folder):
            with open(f"{folder}/{task}/schedstat", encoding="ascii") as file:
                nanos += int(file.read().split()[0])
        return nanos / 1e9

    def memory(self, name):
        """So much memory in megabytes, by its name in the process's status."""
        with open(f"/proc/{self.process.pid}/status", encoding="ascii") as file:
            return int(re.search(name + r":\s+(\d+)", file.read())[1]) / 1000


def clients(host, games, kind, count, seconds):
    """So many clients at work, each a thread of wrk with one connection."""
    with open(host.file("games.txt"), "w", encoding="ascii") as file:
        print(*line_of_play(), file=file)
        for number, white, black in games:
            print(number, key_of(white), key_of(black), file=file)
    words = ["wrk", f"-t{count}", f"-c{count}", f"-d{seconds}", "-s", os.path.join(TOP, "tools", "serve_figures.lua"),
             f"http://127.0.0.1:{host.port}", "--", kind, str(count), host.file("games.txt")]
    return subprocess.Popen(words, stdout=subprocess.PIPE, text=True)


def told(work):
    """How many requests these clients had answered in a second. Says where an answer was wrong."""
    out = work.communicate()[0]
    answered, micros, wrong, lost = map(int, re.search(r"figures (\d+) (\d+) (\d+) (\d+)", out).groups())
    if wrong or lost:
        print(f"of {answered} answers {wrong} were errors, and {lost} did not come", file=sys.stderr)
    return answered * 1e6 / micros


def requests():
    """Requests in a second, by workers and clients."""
    print(f"| workers | asked | {' | '.join(map(str, CLIENTS))} |\n|---|---|{'---|' * len(CLIENTS)}")
    for workers in (1, 2, 4):
        rows = {kind: [] for kind in KINDS}
        for count in CLIENTS:
            with Host(workers, 1000) as host:
                games = host.begin_games()
                for kind, row in rows.items():
                    row.append(f"{told(clients(host, games, kind, count, SECONDS)):,.0f}")
        for kind, row in rows.items():
            print(f"| {workers} | {KINDS[kind]} | {' | '.join(row)} |", flush=True)


def play(port, game, pace, last, times):
    """A game, whose players wait for up to so many seconds before each move."""
    number, *names = game
    links = [Link(port), Link(port)]
    for ply, word in enumerate(line_of_play()):
        time.sleep(random.random() * pace)
        status, _, took = links[ply % 2].ask("POST", f"game/{number}/move/{word}", names[ply % 2], last)
        if status != 200:
            raise ValueError(f"{word} got {status}")
        times.append(took)


def answers():
    """The time from a move's request to its answer."""
    print("| players, workers | connections | moves | half within | 99 of 100 within | longest |\n|---|---|---|---|---|---|")
    for players, workers, pace, last in ((2, 2, 0, False), (40, 40, 0.1, False), (40, 8, 0.1, True)):
        times = []
        with Host(workers, players) as host:
            jobs = [threading.Thread(target=play, args=(host.port, game, pace, last, times)) for game in host.begin_games()]
            for job in jobs:
                job.start()
            for job in jobs:
                job.join()
        times = sorted(1000 * t for t in times)
        shown = " | ".join(f"{t:.2f} ms" for t in (times[len(times) // 2], times[len(times) * 99 // 100], times[-1]))
        print(f"| {players}, {workers} | {'one a move' if last else 'kept'} | {len(times):,} | {shown} |", flush=True)


def memory():
    """The memory of a host with 500 games and a long journal."""
    print("| entries | memory | at most so far |\n|---|---|---|")
    with Host(4, 1000) as host:
        games, link = host.begin_games(), Link(host.port)
        work = None
        while True:
            link.ask("GET", "arena", last=True)
            if work is None or link.seen >= JOURNAL:
                print(f"| {link.seen:,} | {host.memory('VmRSS'):.1f} MB | {host.memory('VmHWM'):.1f} MB |", flush=True)
            if link.seen >= JOURNAL:
                break
            work = work or clients(host, games, "wishes", 4, 300)
            time.sleep(0.05)
        work.send_signal(signal.SIGINT)
        told(work)


def idle():
    """What a host takes to whom nobody comes."""
    print("| workers | processor |\n|---|---|")
    for workers in (1, 2, 4, 8):
        with Host(workers, 1000) as host:
            time.sleep(1)
            before = host.spent()
            time.sleep(30)
            print(f"| {workers} | {(host.spent() - before) / 0.30:.2f} % of one |", flush=True)


PARTS = {"requests": requests, "answers": answers, "memory": memory, "idle": idle}

if __name__ == "__main__":
    chosen = sys.argv[1:] or list(PARTS)
    if not set(chosen) <= set(PARTS):
        sys.exit(__doc__)
    for part in chosen:
        print(f"{PARTS[part].__doc__} {os.cpu_count()} processors, load {os.getloadavg()[0]:.1f}.\n", flush=True)
        PARTS[part]()
        print()
