"""How the programs speak: plain sentences, and files that nothing overwrites unasked."""
import json, os, pathlib, signal, sys

EVENING = pathlib.Path(__file__).resolve().parent.parent


class Trouble(Exception):
    """What cannot be done, as sentences for the organiser: one a line."""

    def __init__(self, *sentences):
        super().__init__("\n".join(sentences))
        self.sentences = sentences


def say(*sentences):
    """To the organiser; where the terminal has gone, to nobody."""
    try:
        print(*sentences, sep="\n", flush=True)
    except OSError:
        pass


def counted(number, one, more=None):
    """1 player, 2 players, 2 entries."""
    return f"{number} {one if number == 1 else more or one + 's'}"


CTRL_C = "Ctrl-C"
ENDING = {signal.SIGINT: CTRL_C, signal.SIGTERM: "a request to end"}


class Asked:
    """Notes that somebody asks to end, and by what. A signal comes between any two steps of a program, also where it holds a
    lock: so nothing is locked or told at once, and the program looks at `by` from beat to beat."""

    def __init__(self):
        self.by = None
        for number in ENDING:
            signal.signal(number, self.note)

    def note(self, number, _):
        self.by = ENDING[number]


def guarded(main):
    """Runs a program's main and ends with its status; trouble is told in its sentences and is status 1."""
    name = pathlib.Path(sys.argv[0]).name
    try:
        sys.exit(main() or 0)
    except Trouble as trouble:
        for sentence in trouble.sentences:
            print(f"{name}: {sentence}", file=sys.stderr)
        sys.exit(1)
    except OSError as e:
        print(f"{name}: {e.filename or 'a file'} could not be read or written: {e.strerror}.", file=sys.stderr)
        sys.exit(1)


def read_file(path):
    """The bytes of a file."""
    try:
        return pathlib.Path(path).read_bytes()
    except OSError as e:
        raise Trouble(f"{path} could not be read: {e.strerror}.") from e


def read_json(path):
    """The value of a JSON file, with the line of what is wrong in it."""
    try:
        return json.loads(read_file(path).decode("utf-8"))
    except UnicodeDecodeError as e:
        raise Trouble(f"{path} is not UTF-8.") from e
    except json.JSONDecodeError as e:
        raise Trouble(f"{path}, line {e.lineno}: this is no JSON ({e.msg}).") from e


def write_files(folder, files, overwrite):
    """Writes all of `files`, a list of (name, text, secret), or none of them where one stands already and nobody asked for it.
    A secret file can be read by its owner alone, from its first moment on."""
    folder = pathlib.Path(folder)
    there = [name for name, _, _ in files if (folder / name).exists()]
    if there and not overwrite:
        raise Trouble(f"{' and '.join(there)} in {folder} would be overwritten: "
                      "give --overwrite if that is meant (old slips are then worth nothing), or another folder with --into.")
    try:
        folder.mkdir(parents=True, exist_ok=True)
        for name, text, secret in files:
            fresh = folder / (name + ".new")
            fresh.unlink(missing_ok=True)
            with open(os.open(fresh, os.O_WRONLY | os.O_CREAT | os.O_EXCL, 0o600 if secret else 0o644), "w", encoding="utf-8") as out:
                out.write(text)
            os.replace(fresh, folder / name)
    except OSError as e:
        raise Trouble(f"{e.filename} could not be written: {e.strerror}.") from e
