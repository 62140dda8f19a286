"""The journal so far, as the scribe saves it: a journal's text without its last line, `end`."""
import os, pathlib, re
from desk.plain import Trouble, read_file
from desk.setups import head_of_journal


class Another(Exception):
    """The host's journal does not go on behind what was saved."""


class Saved:
    """A file that is flushed to the disk at each step and never made shorter, but for a line that a power cut left unfinished."""

    def __init__(self, path, setup):
        self.path, head = pathlib.Path(path), head_of_journal(setup)
        there = self.path.exists()
        text = whole_lines(read_file(self.path)) if there else ""
        if there and not text.startswith(head) and not head.startswith(text):
            raise Trouble(f"{path} was saved of another setup; give the scribe another file.")
        try:
            self.out, self.size = os.open(self.path, os.O_WRONLY | os.O_CREAT, 0o600), len(text)
            os.ftruncate(self.out, self.size)
            self.write(head[len(text):])
            folder = os.open(self.path.resolve().parent, os.O_RDONLY)
            os.fsync(folder)  # so that the file's name is on the disk too
            os.close(folder)
        except OSError as e:
            raise Trouble(f"{path} could not be written: {e.strerror}.") from e
        entries = text[len(head):].splitlines()
        if entries[-1:] == ["end"]:
            raise Trouble(f"{path} is a whole journal already.")
        self.length, self.last = len(entries), plain_entry(entries[-1]) if entries else None
        self.games = sum(len(PAIR.findall(e)) for e in entries)  # whose pairs are saved, under rule 2

    def write(self, text):
        """Puts a text behind what stands and flushes it to the disk. Where this fails (a full disk) the next try begins at the
        same place."""
        data = text.encode("ascii")
        done = 0
        while done < len(data):
            done += os.pwrite(self.out, data[done:], self.size + done)
        os.fsync(self.out)
        self.size += len(data)

    def next(self):
        """From which entry on to ask: from the last saved one, so that its answer shows whether it is the same journal."""
        return max(0, self.length - 1)

    def fresh(self, start, entries, total):
        """What an answer from `next()` on has that is new."""
        if start != self.next() or total < self.length or self.last is not None and entries[:1] != [self.last]:
            raise Another
        return entries[1:] if self.last is not None else entries

    def add(self, entries):
        """Saves entries that come next, those of waves with their pairs where the journal has them."""
        if entries:
            self.write("".join(entry + "\n" for entry in entries))
            self.length, self.last = self.length + len(entries), plain_entry(entries[-1])
            self.games += sum(len(PAIR.findall(e)) for e in entries)


PAIR = re.compile(r" \d+-\d+")


def plain_entry(entry):
    """An entry as the host's API tells it: a wave without its pairs."""
    return PAIR.sub("", entry)


def with_pairs(entries, first, pairs, fits):
    """These entries with the pairs of their waves behind them. `pairs` are those of all games that they began, the first of which
    has the number `first`. It is not told which of several waves began how many: each but the last takes the fewest with which
    the entries up to it fit, and no fewer than have been acted in before the next."""
    out, given = list(entries), 0
    waves = [i for i, e in enumerate(entries) if e.split(" ")[2] == "wave"]
    for k, i in enumerate(waves, 1):
        most = len(pairs) - given - (len(waves) - k)
        least = max(1, games_acted_in(entries[:waves[k]], first) - given) if k < len(waves) else most
        lists = [" ".join([entries[i], *pairs[given:given + n]]) for n in range(least, most + 1)]
        out[i] = next((wave for wave in lists[:-1] if fits(out[:i] + [wave])), lists[-1])
        given += len(PAIR.findall(out[i]))
    return out


def games_acted_in(entries, first):
    """How many games from number `first` on have begun by the last of these entries, as far as their acts tell."""
    acts = (e.split(" ") for e in entries)
    return max((int(words[4]) + 1 - first for words in acts if words[2] == "act"), default=0)


def whole_lines(data):
    """The text up to its last line end: what comes behind was cut off by a power cut or a kill."""
    try:
        return data[:data.rfind(b"\n") + 1].decode("ascii")
    except UnicodeDecodeError as e:
        raise Trouble("This is no journal: it has bytes that no journal has.") from e


def closed(path, more=()):
    """The text of a journal from what was saved and these entries behind it, or of a journal that is whole."""
    text = whole_lines(read_file(path))
    if not text.startswith("arena "):
        raise Trouble(f"{path} is no journal: its first line is not `arena` and a version.")
    return (text if text.endswith("\nend\n") else text + "".join(e + "\n" for e in more) + "end\n").encode("ascii")


def is_whole(path):
    """Whether a journal stands there with its last line."""
    return path.exists() and read_file(path).endswith(b"\nend\n")


def entries_in(path):
    """How many entries a saved journal has."""
    lines = whole_lines(read_file(path)).splitlines()
    return len(lines) - lines.index("begin") - 1 - (lines[-1] == "end") if "begin" in lines else 0
