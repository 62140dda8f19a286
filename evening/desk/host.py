"""The arena host as a program: where it is, and what it says on its API."""
import http.client, json, os, subprocess
from desk.plain import EVENING, Trouble

STATUSES = {1: "did not know its words", 2: "found a line that is no journal's", 3: "found an entry that is not allowed",
            4: "was given too long a text", 5: "could not read", 6: "could not write", 7: "had not memory enough",
            8: "refused the setup", 9: "could not be built or started, or had no file or port"}


def program():
    """The program that hosts: ARENA_HOST, or the script `arena` of this repository, which builds it first where needed."""
    path = os.environ.get("ARENA_HOST") or str(EVENING.parent / "arena")
    if not os.access(path, os.X_OK) or os.path.isdir(path):
        raise Trouble(f"The host's program {path} is not there or cannot be run.")
    return path


def ended_words(status):
    """How a program of the host ended, in words."""
    return f"was ended by signal {-status}" if status < 0 else STATUSES.get(status, f"ended with status {status}")


def told_by(word, journal):
    """What the host's program answers to a journal's text: its output and status."""
    done = subprocess.run([program(), word], input=journal, stdout=subprocess.PIPE, check=False)
    return done.stdout, done.returncode


class Silent(Exception):
    """The host gave no answer."""


def ask(port, path, patience=4):
    """The body of an answer of the host itself, without a key."""
    return heard(port, path, patience)[0]


def heard(port, path, patience=4):
    """The body of an answer, and how many entries of the journal it has seen."""
    connection = http.client.HTTPConnection("127.0.0.1", port, timeout=patience)
    try:
        connection.request("GET", "/api/" + path, headers={"Connection": "close"})
        answer = connection.getresponse()
        body, seen = json.loads(answer.read()), int(answer.headers["X-Arena-Seen"])
    except (OSError, http.client.HTTPException, ValueError, TypeError) as e:
        raise Silent(str(e)) from e
    finally:
        connection.close()
    if answer.status != 200:
        raise Silent(f"status {answer.status}")
    return body, seen
