"""The list of players as clubs export it: CSV with or without a header, in any order of columns."""
import csv, io, re
from desk import names
from desk.plain import Trouble, read_file

COLUMNS = {"name": ("name", "player", "full name"), "given": ("first name", "given name", "forename", "firstname"),
           "family": ("last name", "surname", "family name", "lastname"), "rating": ("rating", "elo"), "team": ("team", "club", "verein")}
MOST_PLAYERS, MOST_TEAMS = 1000, 100
LEAST_RATING, MOST_RATING = 400, 4000


def read_players(path, unrated=None):
    """The players with their names as written too, the teams in the order of their first player, and what there is to say of
    them. A list with faults is told with each fault's line, and gives nothing."""
    rows = rows_of(path, text_of(path))
    columns, rows, said = columns_of(path, rows)
    reader = Reader(path, columns, unrated)
    for line, cells in rows:
        reader.take(line, cells)
    return reader.end(said)


def text_of(path):
    data = read_file(path)
    if data[:2] in (b"\xff\xfe", b"\xfe\xff"):
        raise Trouble(f"{path} is UTF-16: please save the list as CSV in UTF-8.")
    try:
        return data.decode("utf-8-sig")
    except UnicodeDecodeError as e:
        line = data.count(b"\n", 0, e.start) + 1
        raise Trouble(f"{path}, line {line}: this is not UTF-8: please save the list as CSV in UTF-8.") from e


def rows_of(path, text):
    """The rows that are not empty, each with the line where it begins."""
    first = next((line for line in text.splitlines() if line.strip()), "")
    mark = max(",;\t", key=re.sub(r'"[^"]*"', "", first).count)
    reader = csv.reader(io.StringIO(text, newline=""), delimiter=mark, skipinitialspace=True, strict=True)
    out, line = [], 1
    try:
        for cells in reader:
            if any(cell.strip() for cell in cells):
                out.append((line, [" ".join(cell.split()) for cell in cells]))
            line = reader.line_num + 1
    except csv.Error as e:
        raise Trouble(f"{path}, line {line}: a quote stands where none can, or is not closed.") from e
    if not out:
        raise Trouble(f"{path} has no players.")
    return out


def columns_of(path, rows):
    """Which column has what, the rows of players, and what was seen."""
    line, head = rows[0]
    known = {word: what for what, words in COLUMNS.items() for word in words}
    found = {}
    for i, cell in enumerate(head):
        found.setdefault(known.get(cell.lower()), i)
    extra = [cell for cell in head if cell and cell.lower() not in known]
    found.pop(None, None)
    if "name" in found or {"given", "family"} <= found.keys():
        if "rating" not in found:
            raise Trouble(f"{path}, line {line}: no column is called rating.")
        return found, rows[1:], [f"Columns that are passed over: {', '.join(extra)}."] if extra else []
    if len(head) > 1 and re.fullmatch(r"\d+", head[1]):
        return {"name": 0, "rating": 1, "team": 2}, rows, ["No header: the columns are read as name, rating, team."]
    raise Trouble(f"{path}, line {line}: no column is called name; the header has name, rating and, where there are any, team.")


class Reader:
    """Takes row after row; says each fault with its line."""

    def __init__(self, path, columns, unrated):
        self.path, self.columns, self.unrated = path, columns, unrated
        self.players, self.said, self.faults = [], [], []
        self.lines, self.teams = {}, {}  # the line of a name as it was written; teams as written -> as allowed

    def cell(self, cells, what):
        i = self.columns.get(what)
        return cells[i] if i is not None and i < len(cells) else ""

    def fault(self, line, sentence):
        self.faults.append(f"{self.path}, line {line}: {sentence}")

    def take(self, line, cells):
        written = self.cell(cells, "name") or f"{self.cell(cells, 'given')} {self.cell(cells, 'family')}".strip()
        rating, team = self.rating_of(line, cells), self.cell(cells, "team")
        if not written:
            return self.fault(line, "there is no name.")
        if written in self.lines:
            return self.fault(line, f"{written} stands on line {self.lines[written]} already, and two people need two names.")
        self.lines[written] = line
        name = names.allowed(written)
        if not name:
            return self.fault(line, f"{written} cannot be written in the letters A to Z; please write the name in them.")
        name = names.apart(name, {p["name"] for p in self.players})
        if name != written:
            self.said.append(f"{written} plays as {name}.")
        self.players.append({"name": name, "rating": rating, "team": self.team_of(line, team), "written": written})

    def rating_of(self, line, cells):
        text = self.cell(cells, "rating")
        if text in ("", "-", "0"):
            if self.unrated is None:
                self.fault(line, "there is no rating (--unrated N sets all players without one at N).")
            return self.unrated
        if not re.fullmatch(r"\d{1,4}", text) or not LEAST_RATING <= int(text) <= MOST_RATING:
            self.fault(line, f"the rating {text} is no whole number from {LEAST_RATING} to {MOST_RATING}.")
            return None
        return int(text)

    def team_of(self, line, written):
        if written in ("", "-"):
            return None
        if written not in self.teams:
            team = names.allowed(written)
            if not team:
                return self.fault(line, f"the team {written} cannot be written in the letters A to Z.")
            self.teams[written] = names.apart(team, set(self.teams.values()))
            if self.teams[written] != written:
                self.said.append(f"The team {written} is called {self.teams[written]}.")
        return self.teams[written]

    def end(self, said):
        if len(self.players) > MOST_PLAYERS:
            self.faults.append(f"{self.path} has {len(self.players)} players; the host takes {MOST_PLAYERS}.")
        if len(self.teams) > MOST_TEAMS:
            self.faults.append(f"{self.path} has {len(self.teams)} teams; the host takes {MOST_TEAMS}.")
        if not self.players and not self.faults:
            self.faults.append(f"{self.path} has a header and no players.")
        if self.faults:
            raise Trouble(*self.faults)
        return self.players, list(self.teams.values()), said + self.said
