"""The journal's text of both versions, the replay of one, the printed table and the games."""
from host import chess
from host.arena import Arena, Refused

ACTS = {"resign": "resign", "offer": "make_offer", "accept": "accept", "decline": "decline", "claim": "claim", "berserk": "go_berserk"}


class BadJournal(Exception):
    """A text that is no journal, or an entry that is not allowed: status, line, cause."""


def head_lines(setup, version):
    c = setup["control"]
    places = {name: i for i, name in enumerate(setup["teams"])}
    out = [f"arena {version}"] + ([f"rule {setup['rule']}"] if version == 2 else [])
    out += [f"control {c['initial']} {c['increment']} {c['first']}", f"window {setup['starts']} {setup['ends']}",
            f"wave {setup['wave']}", f"leaders {setup['leaders']}"]
    out += [f"team {name}" for name in setup["teams"]]
    out += [f"player {p['rating']} {places.get(p.get('team'), '-')} {p['name']}" for p in setup["players"]]
    return out + ["begin"]


def journal(arena, version=2):
    lines = head_lines(arena.setup, version)
    for i, entry in enumerate(arena.entries):
        pairs = arena.pairs_of.get(i, []) if version == 2 else []
        lines.append(entry + "".join(f" {w}-{b}" for w, b in pairs))
    return "".join(line + "\n" for line in lines + ["end"])


def read_head(lines):
    """The setup that the lines up to `begin` spell, the version, and how many lines these are."""
    setup, at, version = {"rule": 1, "teams": [], "players": []}, 1, int(lines[0].split(" ")[1])
    while lines[at] != "begin":
        word, *rest = lines[at].split(" ")
        at += 1
        if word == "control":
            setup["control"] = dict(zip(("initial", "increment", "first"), map(int, rest)))
        elif word == "window":
            setup["starts"], setup["ends"] = map(int, rest)
        elif word == "team":
            setup["teams"].append(rest[0])
        elif word == "player":
            team = None if rest[1] == "-" else setup["teams"][int(rest[1])]
            setup["players"].append({"rating": int(rest[0]), "team": team, "name": rest[2]})
        elif word in ("rule", "wave", "leaders"):
            setup[word] = int(rest[0])
        else:
            raise ValueError(word)
    return setup, version, at + 1


def replayed(text):
    """The arena of a journal's text."""
    lines = text.split("\n")
    line = 0
    try:
        setup, version, line = read_head(lines)
        end = len(lines) - 2
        if lines[-1] != "" or lines[end] != "end":
            raise BadJournal(2, len(lines), "Ended")
        entries = [e.split(" ") for e in lines[line:end]]
        wanted = {int(e[3]) for e in entries if e[2] == "wave"}
        arena, plans = Arena(setup), {}
        for e in entries:
            line += 1
            if len(arena.entries) in wanted:
                plans[len(arena.entries)] = arena.plan()
            replay_entry(arena, plans, version, line, e)
        return arena
    except (ValueError, IndexError, KeyError) as e:
        raise BadJournal(2, line + 1, "Form") from e


def replay_entry(arena, plans, version, line, e):
    t, number, word = int(e[0]), int(e[1]), e[2]
    if t < arena.last:
        raise BadJournal(3, line, "StampFalls")
    try:
        if word in ("enter", "pause", "leave"):
            arena.say_wish(number, t, int(e[3]), word)
        elif word == "tick":
            arena.tick(number, t)
        elif word == "act":
            move = e[6] if e[5] == "move" else None
            arena.act(number, t, int(e[3]), int(e[4]), "move" if move else ACTS[e[5]], " ".join(e[5:]), move)
        elif word == "wave":
            replay_wave(arena, plans, version, line, t, number, int(e[3]), e[4:])
        else:
            raise ValueError(word)
    except Refused as refused:
        raise BadJournal(3, line, str(refused)) from refused


def replay_wave(arena, plans, version, line, t, number, n, listed):
    if t >= arena.setup["starts"] and t < arena.setup["ends"]:
        if n > len(arena.entries):
            raise BadJournal(3, line, "WaveNumber")
        pairs = arena.start(plans[n])
        if not pairs:
            raise BadJournal(3, line, "WaveEmpty")
        if version == 2 and [f"{w}-{b}" for w, b in pairs] != listed:
            raise BadJournal(3, line, "PairsDiffer")
    arena.commit(number, t, plans.get(n))


def table(arena):
    rows = [arena.row(rank, p) for rank, p in enumerate(arena.table())]
    out = [f"{r['rank'] + 1} {r['name']} {r['rating']} {r['points']} {r['performance']} {r['games']}\n" for r in rows]
    out += [f"team {t['rank'] + 1} {t['name']} {t['points']} {t['performance']}\n" for t in arena.teams()]
    return "".join(out) + f"games {len(arena.counted)} entries {len(arena.entries)}\n"


def pgn(arena):
    return "".join(pgn_game(arena, g) for g in arena.counted)


def pgn_game(arena, g):
    room = arena.games[g]
    result = {"white": "1-0", "black": "0-1", None: "1/2-1/2"}[room.outcome[1]]
    tags = [("Event", "Arena"), ("Site", "?"), ("Date", "????.??.??"), ("Round", g), ("White", arena.names[room.players["white"]]),
            ("Black", arena.names[room.players["black"]]), ("Result", result)]
    p, tokens = chess.read_fen(chess.START), []
    for i, word in enumerate(room.words):
        m = chess.read_move(word)
        tokens += ([f"{i // 2 + 1}."] if i % 2 == 0 else []) + [chess.san(p, m)]
        p = chess.make(p, m)
    lines = [""]
    for token in tokens + [result]:
        if lines[-1] and len(lines[-1]) + 1 + len(token) > 79:
            lines.append(token)
        else:
            lines[-1] += (" " if lines[-1] else "") + token
    return "".join(f'[{name} "{value}"]\n' for name, value in tags) + "\n" + "\n".join(lines) + "\n\n"
