"""What games are worth, and a player's performance."""


class Sheet:
    """A player's counted games in order."""

    def __init__(self):
        self.games, self.points, self.sum = [], 0, 0

    def add(self, score, berserk, plies, rating):
        """One game more: score 2, 1 or 0, and the opponent's rating."""
        fire = self.fire()
        worth = score
        if score == 1 and (plies < 20 or plies < 60 and self.drew_before()):
            worth = 0
        if score and fire:
            worth *= 2
        if score == 2 and berserk and plies >= 14:
            worth += 1
        self.games.append((score, plies))
        self.points += worth
        self.sum += rating + 500 * (score - 1)

    def drew_before(self):
        """Whether a draw of twenty plies or more comes before any win, going back."""
        for score, plies in reversed(self.games):
            if score == 2:
                return False
            if score == 1 and plies >= 20:
                return True
        return False

    def fire(self):
        return [score for score, _ in self.games[-2:]] == [2, 2]

    def performance(self):
        return self.sum // len(self.games) if self.games else 0
