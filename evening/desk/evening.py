"""The evening as it runs: three programs, what is said of them, and how all is closed."""
import json, math, os, shlex, signal, subprocess, time
from desk import host, proxy, saved
from desk.plain import CTRL_C, EVENING, Asked, Trouble, counted, say

BEAT = 0.5  # seconds between two looks at the programs
AGAIN = 10  # seconds within which a second Ctrl-C closes
TRIES = 5  # how often nginx or the scribe is started again


def span(seconds):
    """4:05, or 1:02:03."""
    seconds = max(0, round(seconds))
    hours, minutes = divmod(seconds // 60, 60)
    return f"{hours}:{minutes:02}:{seconds % 60:02}" if hours else f"{minutes}:{seconds % 60:02}"


def new_folder(beside):
    """A folder of this start of the evening, so that nothing of an earlier one is written over."""
    name = time.strftime("played-%Y-%m-%d-%H%M")
    for word in [name] + [f"{name}-{i}" for i in range(2, 100)]:
        folder = beside / word
        try:
            folder.mkdir(mode=0o700)
            return folder
        except FileExistsError:
            continue
        except OSError as e:
            raise Trouble(f"{folder} could not be made: {e.strerror}.") from e
    raise Trouble(f"{beside} has too many folders of this minute.")


class Evening:
    def __init__(self, setup_file, setup, seen, port, workers):
        self.setup_file, self.setup, self.seen, self.port, self.workers = setup_file.resolve(), setup, seen, port, workers
        self.children = {}  # name -> process
        self.asked_at, self.tries = -math.inf, 0
        self.arena = None  # the last answer of the host on itself

    def check(self):
        """All that can be seen to be missing before anything is started."""
        proxy.nginx()
        host.program()
        proxy.must_be_free(self.port)

    # ---- starting

    def spawn(self, name, words, **files):
        """A child in a session of its own, so that a Ctrl-C of the terminal reaches this program alone."""
        self.children[name] = subprocess.Popen(words, stdin=subprocess.DEVNULL, start_new_session=True, **files)

    def run(self, certificate, certificate_key, linger):
        """The whole evening; answers the program's status."""
        self.folder = new_folder(self.setup_file.parent)
        self.so_far = self.folder / "journal-so-far.txt"
        self.host_port = proxy.free_port()
        self.asked = Asked()
        signal.signal(signal.SIGHUP, signal.SIG_IGN)  # a terminal that is closed closes no evening
        try:
            self.open(certificate, certificate_key)
            status = self.watch()
            return self.end(status, linger)
        finally:
            self.close()

    def open(self, certificate, certificate_key):
        (self.folder / "evening.json").write_text(json.dumps(self.seen, ensure_ascii=False) + "\n", encoding="utf-8")
        conf = proxy.configuration(self.port, self.host_port, self.folder, certificate and certificate.resolve(),
                                   certificate_key and certificate_key.resolve(), "root" if os.geteuid() == 0 else None)
        proxy.lay_out(self.folder / "nginx", conf)
        with open(self.folder / "table.txt", "wb") as table, open(self.folder / "host.txt", "wb") as words:
            self.spawn("host", [host.program(), "serve", str(self.setup_file), str(self.host_port), str(self.workers),
                                str(self.folder / "journal.txt")], stdout=table, stderr=words)
        self.wait_for_host()
        self.open_nginx()
        self.wait_for_nginx()
        self.open_scribe()
        self.greet()

    def open_nginx(self):
        self.spawn("nginx", proxy.command(self.folder / "nginx"), stdout=subprocess.DEVNULL, stderr=subprocess.DEVNULL)

    def open_scribe(self):
        self.spawn("scribe", [str(EVENING / "scribe"), str(self.setup_file), str(self.host_port), str(self.so_far)])

    def wait_for_host(self):
        """Until the host answers. It may be built first, which takes minutes: how far that is, is passed on now and then."""
        tell_at = time.monotonic() + 3
        while True:
            try:
                self.arena = host.ask(self.host_port, "arena")
                return
            except host.Silent:
                status = self.children["host"].poll()
            if status is not None:
                raise Trouble(f"The host did not start: it {host.ended_words(status)}.", *self.words_of_host())
            if self.asked.by:
                raise Trouble("Closed before the host answered: nothing was played.")
            if time.monotonic() > tell_at:
                say(": ".join(["Waiting for the host, which is built first where that has to be", *self.last_words()]) + ".")
                tell_at += 20
            time.sleep(0.1)

    def wait_for_nginx(self):
        """Until players can come in."""
        for _ in range(100):
            if proxy.answers(self.port):
                return
            if self.children["nginx"].poll() is not None:
                break
            time.sleep(0.1)
        raise Trouble(f"nginx does not serve port {self.port}; {self.folder / 'nginx/errors.txt'} has its words.")

    def last_words(self):
        """The last line, if any, that the host or the building of it wrote beside the table."""
        return (self.folder / "host.txt").read_text(encoding="utf-8", errors="replace").splitlines()[-1:]

    def words_of_host(self):
        return [f"It said: {line} ({self.folder / 'host.txt'} has all of it)" for line in self.last_words()]

    def greet(self):
        a = self.arena
        say(self.seen["title"], f"  players  {self.seen['address']}/", f"  hall     {self.seen['address']}/hall.html",
            f"  saved    {self.so_far}",
            f"First games in {span((a['starts'] - a['time']) / 1000)}, the end in {span((a['ends'] - a['time']) / 1000)}. "
            "Ctrl-C says what would be lost before anything is closed.")

    # ---- watching

    def watch(self):
        """Until the host has ended or is to be closed; its status, or None where it still runs."""
        while True:
            time.sleep(BEAT)
            if self.asked.by and self.closing():
                return None
            status = self.children["host"].poll()
            if status is not None:
                return status
            self.mend("nginx", self.open_nginx)
            self.mend("scribe", self.open_scribe)

    def mend(self, name, again):
        """Starts a child again that has ended, some times in an evening."""
        status = self.children[name].poll() if name in self.children else None
        if status is None:
            return
        self.tries += 1
        how = f"{time.strftime('%H:%M:%S')} {name} {host.ended_words(status) if status < 0 else f'ended with status {status}'}"
        if self.tries <= TRIES:
            say(f"{how}; it is started again.")
            try:
                again()
            except OSError as e:
                say(f"{name} could not be started: {e.strerror}.")
        else:
            del self.children[name]
            say(f"{how} once more and is left so, but the host goes on, and {self.folder} has what was written.")

    def closing(self):
        """Whether to close now: at a request to end at once, at Ctrl-C the second time, when it is known what is lost."""
        if self.asked.by != CTRL_C or time.monotonic() - self.asked_at < AGAIN:
            return True
        self.asked.by, self.asked_at = None, time.monotonic()
        try:
            self.arena = host.ask(self.host_port, "arena", 2)
            games = self.arena["running"]
            losing = f"{counted(games, 'game')} would stay unfinished" if games else "no game runs"
            more = "" if self.arena["state"] == "over" else f", and the arena goes on for {span((self.arena['ends'] - self.arena['time']) / 1000)}"
        except host.Silent:
            losing, more = "the host does not answer", ""
        say(f"Not closed: {losing}{more}.", *self.whereabouts(), f"Ctrl-C again within {AGAIN} seconds closes; otherwise the evening goes on.")
        return False

    def whereabouts(self):
        """What stands saved of a journal that the host has not written, in sentences."""
        if not self.so_far.exists():
            return ["Nothing of the journal is saved, since the host writes it at its end alone."]
        n = saved.entries_in(self.so_far)
        return [f"Of the journal, which the host writes at its end alone, {counted(n, 'entry is', 'entries are')} saved in {self.so_far}.",
                f"Their table: {shlex.join([str(EVENING / 'table'), str(self.so_far)])}"]

    # ---- the end

    def end(self, status, linger):
        """Says what is left of the evening, and keeps the pages up for the final table."""
        self.stop("scribe")
        if status == 0:
            self.write("games.pgn", "pgn", self.folder / "journal.txt")
            say("The evening is over.", *(f"  {name.split('.')[0]:8} {self.folder / name}" for name in ("journal.txt", "table.txt", "games.pgn")
                                          if (self.folder / name).exists()))
        else:
            self.end_early(status)
        if status is not None and linger != 0:
            say("The pages show the table until Ctrl-C." if linger is None else f"The pages show the table for {linger:g} seconds.")
            self.linger(math.inf if linger is None else linger)
        return 0 if status == 0 else 1

    def linger(self, seconds):
        """Keeps the pages up for so long, or until somebody wants to close. A Ctrl-C from before was meant for the evening."""
        if self.asked.by == CTRL_C:
            self.asked.by = None
        until = time.monotonic() + seconds
        while not self.asked.by and time.monotonic() < until:
            time.sleep(BEAT)
            self.mend("nginx", self.open_nginx)

    def end_early(self, status):
        """The host ended on its own, or is closed now: the table comes from what the scribe saved."""
        if status is None:
            say(f"Closed by {self.asked.by}: what ran is lost.")
            self.stop("host")
        else:
            say(f"{time.strftime('%H:%M:%S')} The host has ended too early: it {host.ended_words(status)}.", *(self.words_of_host() if status > 0 else []))
        journal = self.folder / "journal.txt"
        if journal.exists() and not journal.stat().st_size:
            journal.unlink()  # begun and never written
        if saved.is_whole(journal):
            say(f"Its journal is whole and stands in {journal}.")
        else:
            say(*self.whereabouts())
            journal = self.so_far
        if journal.exists() and self.write("table.txt", "replay", journal):
            say(f"Its table stands in {self.folder / 'table.txt'}.")
            self.write("games.pgn", "pgn", journal)

    def write(self, name, word, journal):
        """Writes what the host's program answers to a word and a journal; whether it did."""
        out, status = host.told_by(word, saved.closed(journal))
        if status:
            say(f"{name} could not be made: the host's program {host.ended_words(status)}.")
        else:
            (self.folder / name).write_bytes(out)
        return status == 0

    def stop(self, name):
        """Ends a child, with all that it started for itself as the building of the host, and waits for it."""
        child = self.children.get(name)
        if child and child.poll() is None:
            os.killpg(child.pid, signal.SIGINT)
            try:
                child.wait(10)
            except subprocess.TimeoutExpired:
                os.killpg(child.pid, signal.SIGKILL)
                child.wait()

    def close(self):
        """Ends what still runs: the scribe first, that it may save once more."""
        for name in ("scribe", "nginx", "host"):
            self.stop(name)
