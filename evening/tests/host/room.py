"""One game: moves, clocks, offers, claims, berserk and its end."""
from collections import Counter
from host import chess

SIDES = ("white", "black")


def other(side):
    return "black" if side == "white" else "white"


class Room:
    def __init__(self, control, white, black, start):
        self.control = control
        self.players = {"white": white, "black": black}
        self.position = chess.read_fen(chess.START)
        self.words, self.seen = [], Counter({chess.sameness(self.position): 1})
        initial, increment = 1000 * control["initial"], 1000 * control["increment"]
        self.bank = dict.fromkeys(SIDES, initial or increment)
        self.increment = dict.fromkeys(SIDES, increment)
        self.berserk = dict.fromkeys(SIDES, False)
        self.offer, self.offered = None, {}
        self.since, self.ended = start, None
        self.outcome = None  # (cause, winner or None)

    @property
    def turn(self):
        return "white" if self.position.white else "black"

    @property
    def ply(self):
        return len(self.words)

    def side_of(self, player):
        return next((s for s in SIDES if self.players[s] == player), None)

    def moved(self, side):
        return self.ply >= (1 if side == "white" else 2)

    def clock_runs(self):
        return self.moved(self.turn)

    def due(self, t):
        if self.outcome:
            return False
        limit = self.bank[self.turn] if self.clock_runs() else self.control["first"]
        return t - self.since >= limit

    def end(self, t, cause, winner):
        self.outcome, self.ended = (cause, winner), t

    def fall(self, t):
        """Ends a game that is due: by time, or since a first move did not come."""
        side = self.turn
        if not self.clock_runs():
            self.end(t, "noshow", other(side))
        elif chess.is_bare(self.position, other(side) == "white"):
            self.end(t, "flag", None)
        else:
            self.end(t, "flag", other(side))

    def act(self, side, t, what, word=None):
        """Does what a side wants at a moment; answers the refusal's name, or None where it was done."""
        if self.outcome:
            return "Over"
        if self.due(t):
            return self.fall(t)
        return getattr(self, what)(side, t, *([word] if what == "move" else []))

    def move(self, side, t, word):
        m = chess.read_move(word)
        if side != self.turn:
            return "NotYourTurn"
        if not chess.is_legal(self.position, m):
            return "Illegal"
        if self.clock_runs():
            self.bank[side] += self.increment[side] - (t - self.since)
        self.position = chess.make(self.position, m)
        self.words.append(word)
        self.seen[chess.sameness(self.position)] += 1
        self.since = t
        if self.offer == other(side):
            self.offer = None
        self.look_for_end(side, t)
        return None

    def look_for_end(self, mover, t):
        p = self.position
        if not any(True for _ in chess.legal_moves(p)):
            self.end(t, *(("mate", mover) if chess.in_check(p) else ("stalemate", None)))
        elif chess.is_dead(p):
            self.end(t, "dead", None)
        elif self.seen[chess.sameness(p)] >= 5:
            self.end(t, "fivefold", None)
        elif p.half >= 150:
            self.end(t, "seventyfive", None)

    def resign(self, side, t):
        self.end(t, "resign", other(side))

    def make_offer(self, side, t):
        if self.offer or self.offered.get(side) == self.ply:
            return "OfferStands"
        self.offer, self.offered[side] = side, self.ply
        return None

    def accept(self, side, t):
        if self.offer != other(side):
            return "NoOffer"
        return self.end(t, "agreed", None)

    def decline(self, side, t):
        if self.offer != other(side):
            return "NoOffer"
        self.offer = None
        return None

    def claim(self, side, t):
        if side != self.turn:
            return "NotYourTurn"
        if self.seen[chess.sameness(self.position)] >= 3:
            return self.end(t, "threefold", None)
        if self.position.half >= 100:
            return self.end(t, "fifty", None)
        return "NoClaim"

    def go_berserk(self, side, t):
        if self.moved(side):
            return "BerserkLate"
        if self.berserk[side]:
            return "BerserkTwice"
        if self.control["initial"] == 0:
            return "BerserkZero"
        self.berserk[side], self.increment[side] = True, 0
        if self.control["initial"] >= 40 * self.control["increment"]:
            self.bank[side] //= 2
        return None

    def shown(self, side, t):
        """What a clock shows at a moment, in milliseconds."""
        runs = side == self.turn and self.clock_runs()
        return max(0, self.bank[side] - ((self.ended if self.outcome else t) - self.since if runs else 0))

    def view(self, number, names, t):
        """The game as the API shows it."""
        out = {"id": number, "fen": chess.write_fen(self.position), "last": self.words[-1] if self.words else None,
               "offer": None if self.outcome else self.offer, "ply": self.ply, "turn": self.turn,
               "outcome": self.outcome and {"cause": self.outcome[0], "winner": self.outcome[1]}}
        for side in SIDES:
            out |= {side: names[self.players[side]], side + "Ms": self.shown(side, t), side + "Berserk": self.berserk[side]}
        return out
