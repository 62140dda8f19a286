"""The arena: seats, games, waves, the table, and the journal of all that was accepted."""
from host.pairing import Candidate, plan
from host.room import Room, other
from host.scores import Sheet

LAST_STAMP = 1_000_000_000


class Refused(Exception):
    """A command that is not allowed; the word says why."""


class Arena:
    def __init__(self, setup):
        self.setup = setup
        self.players = setup["players"]
        self.names = [p["name"] for p in self.players]
        n = len(self.players)
        self.entries, self.pairs_of = [], {}  # pairs_of: entry number -> the pairs of that wave
        self.last = 0
        self.wish = ["absent"] * n
        self.entered, self.idle_from = [], {}  # first Enter entries in order; since which length a player is idle
        self.games, self.running = [], []
        self.playing = {}
        self.sheets = [Sheet() for _ in range(n)]
        self.opponent, self.balance, self.alone = [None] * n, [0] * n, [0] * n
        self.last_wave, self.counted = None, []

    # ---- what is so

    def stamp(self, now):
        return min(LAST_STAMP, max(now, self.last))

    def seat(self, p):
        if p in self.playing:
            return "playing"
        return "idle" if self.wish[p] == "in" else self.wish[p]

    def table(self):
        """The players who ever entered, in the table's order."""
        def key(place_player):
            place, p = place_player
            s = self.sheets[p]
            return -s.points, -s.performance(), -self.players[p]["rating"], place
        return [p for _, p in sorted(enumerate(self.entered), key=key)]

    def row(self, rank, p):
        s = self.sheets[p]
        return {"rank": rank, "name": self.names[p], "rating": self.players[p]["rating"], "points": s.points,
                "performance": s.performance(), "games": len(s.games), "fire": s.fire()}

    def teams(self):
        sums = [[0, 0, 0, i, name] for i, name in enumerate(self.setup["teams"])]
        places = {name: i for i, name in enumerate(self.setup["teams"])}
        for p in self.table():
            team = places.get(self.players[p].get("team"))
            if team is not None and sums[team][2] < self.setup["leaders"]:
                sums[team][0] += self.sheets[p].points
                sums[team][1] += self.sheets[p].performance()
                sums[team][2] += 1
        sums.sort(key=lambda s: (-s[0], -s[1], s[3]))
        return [{"rank": i, "name": s[4], "points": s[0], "performance": s[1]} for i, s in enumerate(sums)]

    def candidates(self):
        places = {name: i for i, name in enumerate(self.setup["teams"])}
        return [Candidate(p, rank, self.players[p]["rating"], self.opponent[p], self.balance[p],
                          places.get(self.players[p].get("team")), self.alone[p])
                for rank, p in enumerate(self.table()) if self.seat(p) == "idle"]

    # ---- what changes it

    def note(self, number, t, words):
        self.entries.append(f"{t} {number} {words}")
        self.last = t

    def say_wish(self, number, now, p, word):
        t = self.stamp(now)
        if t >= self.setup["ends"]:
            raise Refused("Closed")
        if word != "enter" and self.wish[p] == "absent":
            raise Refused("NotEntered")
        if self.wish[p] == "left":
            raise Refused("Left")
        if (word, self.wish[p]) in (("enter", "in"), ("pause", "paused")):
            raise Refused("AlreadyIn" if word == "enter" else "AlreadyPaused")
        if word == "enter" and p not in self.entered:
            self.entered.append(p)
        self.wish[p] = {"enter": "in", "pause": "paused", "leave": "left"}[word]
        self.note(number, t, f"{word} {p}")
        self.mark_idle(p)

    def mark_idle(self, p):
        if self.seat(p) != "idle":
            self.idle_from.pop(p, None)
        else:
            self.idle_from.setdefault(p, len(self.entries))

    def act(self, number, now, p, g, what, words, move=None):
        """An act in a game: `what` names the room's call, `words` are those of the entry."""
        if g >= len(self.games):
            raise Refused("NoGame")
        room = self.games[g]
        side = room.side_of(p)
        if side is None:
            raise Refused("NotYours")
        t = self.stamp(now)
        refusal = room.act(side, t, what, move)
        if refusal:
            raise Refused(refusal)
        self.note(number, t, f"act {p} {g} {words}")
        if room.outcome:
            self.settle(g, t)

    def tick(self, number, now):
        t = self.stamp(now)
        due = [g for g in self.running if self.games[g].due(t)]
        if not due:
            raise Refused("NothingDue")
        self.note(number, t, "tick")
        for g in due:
            self.games[g].fall(t)
            self.settle(g, t)

    def settle(self, g, t):
        """A game has ended: its players get up, and it counts where it came in time."""
        room = self.games[g]
        self.running.remove(g)
        cause, winner = room.outcome
        if t < self.setup["ends"]:
            self.counted.append(g)
            for side, p in room.players.items():
                score = 1 if winner is None else 2 if winner == side else 0
                self.sheets[p].add(score, room.berserk[side], room.ply, self.players[room.players[other(side)]]["rating"])
        for side, p in room.players.items():
            del self.playing[p]
            if cause == "noshow" and winner != side and self.wish[p] == "in":
                self.wish[p] = "paused"
            self.mark_idle(p)

    def plan(self):
        """The plan of this moment: the journal's length, its pairs, who stays alone."""
        return len(self.entries), *plan(self.candidates(), self.setup["rule"])

    def start(self, planned):
        """The pairs of a plan whose players have been idle throughout."""
        n, pairs, _ = planned
        return [pair for pair in pairs if all(self.idle_from.get(p, n + 1) <= n for p in pair)]

    def commit(self, number, now, planned):
        """Makes the wave of a plan; answers how many games it began."""
        t = self.stamp(now)
        if t < self.setup["starts"] or t >= self.setup["ends"]:
            raise Refused("Early" if t < self.setup["starts"] else "Closed")
        n, _, alone = planned
        pairs = self.start(planned)
        if not pairs:
            return 0
        self.pairs_of[len(self.entries)] = pairs
        self.note(number, t, f"wave {n}")
        self.last_wave = t
        for p in alone:
            self.alone[p] += 1
        for white, black in pairs:
            g = len(self.games)
            self.games.append(Room(self.setup["control"], white, black, t))
            self.running.append(g)
            for p, foe, step in ((white, black, 1), (black, white, -1)):
                self.playing[p], self.opponent[p], self.alone[p] = g, foe, 0
                self.balance[p] += step
                self.idle_from.pop(p, None)
        return len(pairs)

    def wave_due(self, now):
        t = self.stamp(now)
        return (self.setup["starts"] <= t < self.setup["ends"] and len(self.candidates()) >= 2
                and (self.last_wave is None or self.last_wave + self.setup["wave"] <= t))

    def over(self, now):
        return self.stamp(now) >= self.setup["ends"] and not self.running
