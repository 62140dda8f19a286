"""Who plays whom: the least-cost pairs of a wave, by both rules."""
from dataclasses import dataclass
from functools import lru_cache

GROUP = 14
ALONE = 14  # the partner of nobody


@dataclass(frozen=True)
class Candidate:
    player: int
    rank: int
    rating: int
    last: int | None  # the last opponent
    balance: int  # whites less blacks
    team: int | None
    alone: int  # waves that left him alone since his last game


def cost(a, b, top, idle, rule):
    """What a pair costs, or None where it is forbidden."""
    rematch = a.last == b.player and b.last == a.player
    if (a.team is not None and a.team == b.team) or (rule == 2 and rematch and idle > 2):
        return None
    best = min(a.rank, b.rank)
    factor = 300 + 1700 * (top - best) // top if top else 2000
    return abs(a.rank - b.rank) * factor + abs(a.rating - b.rating) + (20_000_000 if rule == 1 and rematch else 0)


def partners(rows, top, idle, rule):
    """The list of partners' places with the fewest alone, then the least total, then the first in order."""
    n = len(rows)
    costs = [[None if i == j else cost(rows[i], rows[j], top, idle, rule) for j in range(n)] for i in range(n)]
    charge = [50_000_000 * min(r.alone, 100) if rule == 2 else 0 for r in rows]

    @lru_cache(maxsize=None)
    def best(free):
        if not free:
            return 0, 0, ()
        i = (free & -free).bit_length() - 1
        rest, found = free & ~(1 << i), None
        for j in list(range(i + 1, n)) + [ALONE]:
            if j == ALONE:
                left, total, pairs = best(rest)
                answer = left + 1, total + charge[i], pairs
            elif rest >> j & 1 and costs[i][j] is not None:
                left, total, pairs = best(rest & ~(1 << j))
                answer = left, total + costs[i][j], ((i, j),) + pairs
            else:
                continue
            if found is None or answer[:2] < found[:2]:
                found = answer
        return found

    return best((1 << n) - 1)[2]


def colours(a, b):
    """White is who had White less often, or the better placed."""
    return (a.player, b.player) if a.balance <= b.balance else (b.player, a.player)


def plan(rows, rule):
    """The pairs (white, black) of a wave over the idle players in rank order, and who is left alone."""
    top = rows[-1].rank if rows else 0
    pairs, alone = [], []
    for k in range(0, len(rows), GROUP):
        group = rows[k:k + GROUP]
        chosen = partners(group, top, len(rows), rule)
        pairs += [colours(group[i], group[j]) for i, j in chosen]
        paired = {i for pair in chosen for i in pair}
        alone += [r.player for i, r in enumerate(group) if i not in paired]
    return pairs, alone
