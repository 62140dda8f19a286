"""Chess: legal moves, what a move makes of a position, when nobody can win, FEN and SAN.

A square is a number from a1 = 0 to h8 = 63. A move is (from, to, promo), promo being '' or one of 'qrbn'."""
from dataclasses import dataclass

KNIGHT = [(1, 2), (2, 1), (2, -1), (1, -2), (-1, -2), (-2, -1), (-2, 1), (-1, 2)]
DIAGONAL = [(1, 1), (1, -1), (-1, -1), (-1, 1)]
STRAIGHT = [(1, 0), (0, -1), (-1, 0), (0, 1)]
START = "rnbqkbnr/pppppppp/8/8/8/8/PPPPPPPP/RNBQKBNR w KQkq - 0 1"
LOST = {0: "Q", 4: "KQ", 7: "K", 56: "q", 60: "kq", 63: "k"}


def rays(ways):
    """For each square and way the squares that lie on it, the nearest first."""
    out = []
    for i in range(64):
        lines = []
        for df, dr in ways:
            line, f, r = [], i % 8 + df, i // 8 + dr
            while 0 <= f < 8 and 0 <= r < 8:
                line.append(8 * r + f)
                f, r = f + df, r + dr
            lines.append(line)
        out.append(lines)
    return out


DIAGONALS, STRAIGHTS = rays(DIAGONAL), rays(STRAIGHT)
JUMPS = [[line[0] for line in lines if line] for lines in rays(KNIGHT)]
STEPS = [[line[0] for line in a + b if line] for a, b in zip(DIAGONALS, STRAIGHTS)]


def square_name(i):
    return "abcdefgh"[i % 8] + str(i // 8 + 1)


def square(name):
    return "abcdefgh".index(name[0]) + 8 * (int(name[1]) - 1)


def move_word(m):
    return square_name(m[0]) + square_name(m[1]) + m[2]


def read_move(word):
    """The move that a word names, or None where it is no move word."""
    good = (len(word) in (4, 5) and all(c in "abcdefgh" for c in word[0:4:2]) and all(c in "12345678" for c in word[1:4:2])
            and word[4:] in ("", "q", "r", "b", "n"))
    return (square(word[:2]), square(word[2:4]), word[4:]) if good else None


@dataclass(frozen=True)
class Position:
    cells: tuple
    white: bool  # White is to move
    rights: str
    ep: int  # the square that a pawn has just crossed, or -1
    half: int
    number: int


def read_fen(fen):
    board, turn, rights, ep, half, number = fen.split(" ")
    cells = [""] * 64
    for r, rank in enumerate(board.split("/")):
        f = 0
        for c in rank:
            if c.isdigit():
                f += int(c)
            else:
                cells[8 * (7 - r) + f] = c
                f += 1
    return Position(tuple(cells), turn == "w", rights.strip("-"), -1 if ep == "-" else square(ep), int(half), int(number))


def write_fen(p):
    """The FEN with the en passant square only where a capture there is legal."""
    ranks = []
    for r in range(7, -1, -1):
        text, empty = "", 0
        for piece in p.cells[8 * r:8 * r + 8]:
            if piece:
                text, empty = text + (str(empty) if empty else "") + piece, 0
            else:
                empty += 1
        ranks.append(text + (str(empty) if empty else ""))
    ep = square_name(p.ep) if ep_legal(p) else "-"
    return f"{'/'.join(ranks)} {'w' if p.white else 'b'} {p.rights or '-'} {ep} {min(p.half, 65535)} {min(p.number, 65535)}"


def is_own(piece, white):
    return piece != "" and piece.isupper() == white


def attacked(cells, at, white):
    """Whether a piece of White, or of Black, attacks the square."""
    def own(letter):
        return letter.upper() if white else letter

    f, behind = at % 8, at // 8 + (-1 if white else 1)
    if 0 <= behind < 8 and any(0 <= f + df < 8 and cells[8 * behind + f + df] == own("p") for df in (-1, 1)):
        return True
    if any(cells[j] == own("n") for j in JUMPS[at]) or any(cells[j] == own("k") for j in STEPS[at]):
        return True
    for lines, kind in ((DIAGONALS, "b"), (STRAIGHTS, "r")):
        for line in lines[at]:
            first = next((cells[j] for j in line if cells[j]), "")
            if first in (own("q"), own(kind)):
                return True
    return False


def in_check(p, white=None):
    white = p.white if white is None else white
    return attacked(p.cells, p.cells.index("K" if white else "k"), not white)


def reached(p, at):
    """Where the piece on a square goes by its way of moving, castling aside."""
    cells, kind = p.cells, p.cells[at].lower()
    if kind == "p":
        return pawn_targets(p, at)
    if kind in "nk":
        return [j for j in (JUMPS if kind == "n" else STEPS)[at] if not is_own(cells[j], p.white)]
    out = []
    for line in (DIAGONALS[at] if kind != "r" else []) + (STRAIGHTS[at] if kind != "b" else []):
        for j in line:
            if not is_own(cells[j], p.white):
                out.append(j)
            if cells[j]:
                break
    return out


def pawn_targets(p, at):
    up = 8 if p.white else -8
    out = []
    if p.cells[at + up] == "":
        out.append(at + up)
        if at // 8 == (1 if p.white else 6) and p.cells[at + 2 * up] == "":
            out.append(at + 2 * up)
    for df in (-1, 1):
        to = at + up + df
        if 0 <= at % 8 + df < 8 and (is_own(p.cells[to], not p.white) or to == p.ep):
            out.append(to)
    return out


def castlings(p):
    """Castlings of the side to move: the king's squares, from and to."""
    king = 4 if p.white else 60
    short, long_ = "KQ" if p.white else "kq"

    def safe(*squares):
        return all(p.cells[j] == "" and not attacked(p.cells, j, not p.white) for j in squares)

    out = []
    if (short in p.rights or long_ in p.rights) and not in_check(p):
        if short in p.rights and safe(king + 1, king + 2):
            out.append((king, king + 2, ""))
        if long_ in p.rights and p.cells[king - 3] == "" and safe(king - 1, king - 2):
            out.append((king, king - 2, ""))
    return out


def candidates(p):
    """All moves by the pieces' ways of moving; some may leave the own king attacked."""
    for at, piece in enumerate(p.cells):
        if not is_own(piece, p.white):
            continue
        for to in reached(p, at):
            if piece in "Pp" and to // 8 in (0, 7):
                for promo in "qrbn":
                    yield (at, to, promo)
            else:
                yield (at, to, "")
    yield from castlings(p)


def make(p, m):
    """The position after a legal move."""
    start, to, promo = m
    cells, piece = list(p.cells), p.cells[start]
    takes = cells[to] != "" or (piece in "Pp" and to == p.ep)
    cells[start] = ""
    cells[to] = (promo.upper() if p.white else promo) if promo else piece
    if piece in "Pp" and to == p.ep:
        cells[to + (-8 if p.white else 8)] = ""
    if piece in "Kk" and abs(to - start) == 2:
        rook = start + 3 if to > start else start - 4
        cells[(start + to) // 2], cells[rook] = cells[rook], ""
    gone = LOST.get(start, "") + LOST.get(to, "")
    return Position(tuple(cells), not p.white, "".join(c for c in p.rights if c not in gone),
                    (start + to) // 2 if piece in "Pp" and abs(to - start) == 16 else -1,
                    0 if piece in "Pp" or takes else p.half + 1, p.number + (0 if p.white else 1))


def legal_moves(p):
    """The legal moves, one after another."""
    return (m for m in candidates(p) if not in_check(make(p, m), p.white))


def is_legal(p, m):
    return m in candidates(p) and not in_check(make(p, m), p.white)


def ep_legal(p):
    return p.ep >= 0 and any(m[1] == p.ep and p.cells[m[0]] in "Pp" for m in legal_moves(p))


def sameness(p):
    """What two positions must share to be the same when repetitions are counted."""
    return p.cells, p.white, p.rights, p.ep if ep_legal(p) else -1


def is_dead(p):
    """Kings alone, or with one knight or bishop, or with bishops all on squares of one colour."""
    men = [(c.lower(), (i // 8 + i % 8) % 2) for i, c in enumerate(p.cells) if c and c not in "Kk"]
    return (len(men) <= 1 and all(kind in "nb" for kind, _ in men)
            or all(kind == "b" for kind, _ in men) and len({shade for _, shade in men}) == 1)


def is_bare(p, white):
    """Whether a side has its king alone."""
    return sum(is_own(c, white) for c in p.cells) == 1


def san(p, m):
    """The legal move in standard algebraic notation."""
    start, to, promo = m
    kind = p.cells[start].upper()
    takes = "x" if p.cells[to] or (kind == "P" and to == p.ep) else ""
    if kind == "K" and abs(to - start) == 2:
        text = "O-O" if to > start else "O-O-O"
    elif kind == "P":
        text = (square_name(start)[0] + takes if takes else "") + square_name(to) + ("=" + promo.upper() if promo else "")
    else:
        rivals = [a for a, b, _ in legal_moves(p) if b == to and a != start and p.cells[a] == p.cells[start]]
        f, r = square_name(start)
        apart = ("" if not rivals else f if all(a % 8 != start % 8 for a in rivals)
                 else r if all(a // 8 != start // 8 for a in rivals) else f + r)
        text = kind + apart + takes + square_name(to)
    after = make(p, m)
    if not in_check(after):
        return text
    return text + ("+" if any(True for _ in legal_moves(after)) else "#")


def perft(p, depth):
    """How many lines of legal moves of this length there are."""
    return 1 if depth == 0 else sum(perft(make(p, m), depth - 1) for m in legal_moves(p))


