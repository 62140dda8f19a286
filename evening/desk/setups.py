"""The setup of an evening: what the host reads, and what a journal's text says of it in its first lines."""
import re, secrets
from desk.plain import Trouble, read_json

NAME = r"[A-Za-z0-9_-]{1,20}"
KEY = r"[A-Za-z0-9_]{16,64}"
KEY_LETTERS = "abcdefghijkmnpqrstuvwxyz23456789"  # none that is taken for another on paper
KEY_LENGTH = 20  # of 32 letters: 100 bits
LATEST = 900_000_000  # ms
DEFAULTS = {"wave": 5000, "leaders": 5, "rule": 1, "teams": []}


def new_key():
    return "".join(secrets.choice(KEY_LETTERS) for _ in range(KEY_LENGTH))


def load_setup(path):
    """The setup of a file with all its members, or the first thing that is wrong with it in one sentence."""
    setup = read_json(path)
    fault = fault_of(setup)
    if fault:
        raise Trouble(f"{path}: {fault}.")
    control = {"first": 20000} | setup["control"]
    players = [{"team": None} | p for p in setup["players"]]
    return DEFAULTS | setup | {"control": control, "players": players}


def is_number(value, least, most):
    return type(value) is int and least <= value <= most


def fault_of(setup):
    """What the host would refuse in a setup, in words; None where nothing."""
    if not isinstance(setup, dict):
        return "it is no object"
    control = setup.get("control")
    if not isinstance(control, dict):
        return "there is no control"
    ranges = [(control, "initial", 0, 10800), (control, "increment", 0, 180), (control, "first", 1000, 300000),
              (setup, "starts", 0, LATEST - 1), (setup, "ends", 1, LATEST), (setup, "wave", 100, 600000),
              (setup, "leaders", 1, 20), (setup, "rule", 1, 2)]
    missing = {"first": 20000} | DEFAULTS
    for place, member, least, most in ranges:
        if not is_number(place.get(member, missing.get(member)), least, most):
            return f"{member} is no whole number from {least} to {most}"
    if control["initial"] == control["increment"] == 0:
        return "initial and increment are both 0"
    if setup["ends"] <= setup["starts"]:
        return "ends is not after starts"
    return teams_fault(setup.get("teams", [])) or players_fault(setup.get("players"), setup.get("teams", []))


def teams_fault(teams):
    if not isinstance(teams, list) or len(teams) > 100:
        return "teams is no list of at most 100 names"
    if not all(isinstance(t, str) and re.fullmatch(NAME, t) for t in teams) or len(set(teams)) < len(teams):
        return "a team's name is not 1 to 20 letters, digits, _ and -, or stands twice"
    return None


def players_fault(players, teams):
    if not isinstance(players, list) or not 1 <= len(players) <= 1000 or not all(isinstance(p, dict) for p in players):
        return "players is no list of 1 to 1000 objects"
    names, keys = set(), set()
    for i, p in enumerate(players, 1):
        name, key = p.get("name"), p.get("key")
        if not isinstance(name, str) or not re.fullmatch(NAME, name) or name in names:
            return f"the name of player {i} is not 1 to 20 letters, digits, _ and -, or stands twice"
        if not is_number(p.get("rating"), 400, 4000):
            return f"the rating of {name} is no whole number from 400 to 4000"
        if not isinstance(key, str) or not re.fullmatch(KEY, key) or key in keys:
            return f"the key of {name} is not 16 to 64 letters, digits and _, or another player has it"
        if p.get("team") is not None and p["team"] not in teams:
            return f"the team of {name} is none of the teams"
        names.add(name)
        keys.add(key)
    return None


def head_of_journal(setup):
    """The first lines of a journal's text, up to `begin`: of version 1 for pairing rule 1, and of version 2, which names its
    rule, for rule 2."""
    c, places = setup["control"], {name: i for i, name in enumerate(setup["teams"])}
    lines = ["arena 1"] if setup["rule"] == 1 else ["arena 2", f"rule {setup['rule']}"]
    lines += [f"control {c['initial']} {c['increment']} {c['first']}", f"window {setup['starts']} {setup['ends']}",
              f"wave {setup['wave']}", f"leaders {setup['leaders']}"]
    lines += [f"team {name}" for name in setup["teams"]]
    lines += [f"player {p['rating']} {places.get(p['team'], '-')} {p['name']}" for p in setup["players"]]
    return "".join(line + "\n" for line in lines + ["begin"])


def control_in_words(control):
    """3+2, 30 s+0, 1:30+1: as players say it."""
    minutes, seconds = divmod(control["initial"], 60)
    initial = str(minutes) if seconds == 0 else f"{seconds} s" if minutes == 0 else f"{minutes}:{seconds:02}"
    return f"{initial}+{control['increment']}"


def seen_by_all(setup, title):
    """What evening.json tells the pages: nothing secret."""
    return {"title": title, "control": control_in_words(setup["control"]), "first": setup["control"]["first"]}
