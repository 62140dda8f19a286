#!/usr/bin/env python3
"""host_load.py [--program PROGRAM] [--clients 32] [--seconds 60] [--workers 4] [--port 8080]

Clients that all ask the host at once, each for a player of its own: they enter, pause, look, move along known games, offer, resign, and
send bad requests. Each answer is held against what it may be, and when the evening is over the journal against what was answered: each
accepted command stands in it once, in the order in which its player was answered, and nothing else of the player does; X-Arena-Seen
never falls for a worker's connection; and the journal replays to the table that was printed. Ends with what was counted, and status 1
where something is wrong."""

import argparse
import collections
import http.client
import json
import os
import random
import subprocess
import sys
import tempfile
import threading
import time

TOP = os.path.dirname(os.path.dirname(os.path.abspath(__file__)))
REFUSALS = {"Closed", "NotEntered", "AlreadyIn", "AlreadyPaused", "Left", "Over", "NotYourTurn", "OfferStands", "NoOffer", "NoClaim",
            "BerserkLate", "BerserkTwice", "BerserkZero"}
BAD = [("GET", "nothing", 404, "NoRoute"), ("POST", "arena", 405, "BadMethod"), ("GET", "standing/01", 400, "BadParam"),
       ("GET", "game/999999", 404, "NoGame"), ("GET", "journal/8000001", 400, "BadParam")]


def lines():
    """Known games: the moves of each."""
    with open(os.path.join(TOP, "evening", "tests", "games.txt"), encoding="utf-8") as file:
        return [[word for word in line.split() if len(word) in (4, 5) and word[1] in "12345678"] for line in file]


LINES = lines()


class Client(threading.Thread):
    """A player who asks as fast as he is answered."""

    def __init__(self, number, port, until):
        super().__init__()
        self.number, self.port, self.until = number, port, until
        self.draw = random.Random(number)
        self.accepted, self.wrong, self.counts, self.times = [], [], collections.Counter(), []
        self.link, self.seen = None, 0

    def ask(self, method, path, key=True):
        """The status and the body of an answer, over a connection that is kept as long as the host does; None where none came."""
        if self.link is None:
            self.link, self.seen = http.client.HTTPConnection("127.0.0.1", self.port, timeout=10), 0
        begun = time.perf_counter()
        try:
            self.link.request(method, "/api/" + path, headers={"Authorization": f"Bearer key_of_player_{self.number:04}"} if key else {})
            answer = self.link.getresponse()
            body = json.loads(answer.read())
        except (OSError, http.client.HTTPException, ValueError):
            self.link = None
            self.counts["no answer"] += 1
            return None, None
        self.times.append(time.perf_counter() - begun)
        seen = int(answer.headers["X-Arena-Seen"])
        if seen < self.seen:
            self.wrong.append(f"{path}: seen {seen} after {self.seen}")
        self.seen = seen
        # Workers are fewer than clients, so nobody keeps his for long.
        if answer.headers["Connection"] == "close" or self.draw.random() < 0.2:
            self.link.close()
            self.link = None
        self.counts[answer.status] += 1
        return answer.status, body

    def command(self, path, entry):
        """Sends a command, notes it where it is accepted, and gives the body then."""
        status, body = self.ask("POST", path)
        if status == 200:
            self.accepted.append(entry)
            return body
        if status is None:
            self.accepted.append("? " + entry)
        elif body["error"] not in REFUSALS | {"NotYours", "Illegal"}:
            self.wrong.append(f"{path}: {status} {body}")
        return None

    def bad(self):
        method, path, status, name = self.draw.choice(BAD)
        found = self.ask(method, path)
        if found[0] is not None and found != (status, {"error": name}):
            self.wrong.append(f"{path}: {found}")

    def play(self, game):
        """A move of the known line of this game, where it is this side's, and now and then something else."""
        status, shown = self.ask("GET", f"game/{game}", key=False)
        if status != 200 or shown["outcome"]:
            return
        mine = "white" if shown["white"] == f"p{self.number}" else "black"
        line, act = LINES[game % len(LINES)], f"act {self.number} {game}"
        dice = self.draw.random()
        if dice < 0.02:
            self.command(f"game/{game}/draw/offer", f"{act} offer")
        elif dice < 0.03 or shown["ply"] >= len(line):
            self.command(f"game/{game}/resign", f"{act} resign")
        elif shown["turn"] == mine:
            move = line[shown["ply"]]
            self.command(f"game/{game}/move/{move}", f"{act} move {move}")

    def run(self):
        while time.time() < self.until:
            status, me = self.ask("GET", "me")
            dice = self.draw.random()
            if status != 200:
                time.sleep(0.01)
            elif dice < 0.1:
                self.bad()
            elif me["seat"] in ("absent", "paused"):
                self.command("enter", f"enter {self.number}")
            elif dice < 0.12:
                self.command("pause", f"pause {self.number}")
            elif me["game"] is not None:
                self.play(me["game"])


def compare(client, entries):
    """What the journal has of the player, beside what he was answered: a command without an answer may stand there or not."""
    words = [line.split(" ", 2)[2] for line in entries]
    own = [w for w in words if w.split()[0] in ("enter", "pause", "leave", "act") and w.split()[1] == str(client.number)]
    at = 0
    for entry in client.accepted:
        if at < len(own) and own[at] == entry.removeprefix("? "):
            at += 1
        elif not entry.startswith("? "):
            return [f"player {client.number}: {entry} was accepted and is not entry {at} of his"]
    return [f"player {client.number}: the journal has {own[at]}, which was not accepted"] if at < len(own) else []


def main():
    parser = argparse.ArgumentParser(description=__doc__)
    parser.add_argument("--program", default=os.path.join(TOP, "arena"))
    for word, value in [("clients", 32), ("seconds", 60), ("workers", 4), ("port", 8080)]:
        parser.add_argument("--" + word, type=int, default=value)
    asked = parser.parse_args()
    players = [{"name": f"p{i}", "rating": 1000 + i, "key": f"key_of_player_{i:04}"} for i in range(asked.clients)]
    setup = {"control": {"initial": 3, "increment": 0, "first": 1000}, "starts": 0, "ends": 1000 * asked.seconds + 2000, "wave": 200, "players": players}
    with tempfile.TemporaryDirectory() as folder:
        path, journal = os.path.join(folder, "setup.json"), os.path.join(folder, "journal.txt")
        with open(path, "w", encoding="utf-8") as file:
            json.dump(setup, file)
        host = subprocess.Popen([asked.program, "serve", path, str(asked.port), str(asked.workers), journal], stdout=subprocess.PIPE, text=True)
        time.sleep(1)
        clients = [Client(i, asked.port, time.time() + asked.seconds) for i in range(asked.clients)]
        for client in clients:
            client.start()
        for client in clients:
            client.join()
            if client.link:
                client.link.close()
        table = host.communicate()[0]
        with open(journal, encoding="utf-8") as file:
            text = file.read()
    again = subprocess.run([asked.program, "replay"], input=text, capture_output=True, text=True, check=False)
    entries = text.partition("begin\n")[2].splitlines()[:-1]
    wrong = [w for client in clients for w in client.wrong + compare(client, entries)]
    wrong += ["the journal replays to another table"] if again.returncode or again.stdout != table else []
    counts, times = sum((client.counts for client in clients), collections.Counter()), sorted(t for client in clients for t in client.times)
    print(f"{len(times)} answers, {len(times) / asked.seconds:.0f} a second, the middle one after {1000 * times[len(times) // 2]:.1f} ms, "
          f"99 of 100 within {1000 * times[len(times) * 99 // 100]:.1f} ms; {dict(counts)}")
    print(f"{len(entries)} entries; {table.splitlines()[-1]}; {len(wrong)} wrong answers")
    print("\n".join(wrong[:20]))
    sys.exit(bool(wrong) or host.returncode)


if __name__ == "__main__":
    main()
