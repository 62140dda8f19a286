"""A host and nginx with the shipped configuration for a test: on free ports of this machine and in a folder of their own, both
ended by their process ids. ARENA_HOST names another host than the stand-in of this folder."""
import json, os, pathlib, shutil, signal, subprocess, sys, tempfile, time, urllib.error, urllib.request

HERE = pathlib.Path(__file__).resolve().parent
sys.dont_write_bytecode = True
sys.path.insert(0, str(HERE.parent))
os.environ.setdefault("ARENA_HOST", str(HERE / "stand_in"))
from desk import host, proxy, setups  # noqa: E402


def key_of(name):
    return (name + "key0000000000000000")[:20]


def setup_of(players, minutes=10, starts=0, ends=None, control=(180, 2), first=20000, wave=1000, teams=(), leaders=2):
    """players: a list of (name, rating) or (name, rating, team)."""
    return {"control": {"initial": control[0], "increment": control[1], "first": first}, "starts": starts,
            "ends": ends or int(minutes * 60000), "wave": wave, "leaders": leaders, "rule": 1, "teams": list(teams),
            "players": [{"name": p[0], "rating": p[1], "key": key_of(p[0]), "team": p[2] if len(p) > 2 else None} for p in players]}


def children_of(pid):
    """The process ids of a process's children."""
    return [int(p) for p in pathlib.Path(f"/proc/{pid}/task/{pid}/children").read_text().split()]


class Stand:
    def __init__(self, setup, workers=8, title="Club Arena", edit=lambda text: text):
        self.dir = pathlib.Path(tempfile.mkdtemp(prefix="arena stand "))  # with blanks, as folders have
        self.setup, self.workers = setup, workers
        self.host_port, self.port = proxy.free_port(), proxy.free_port()
        self.url = f"http://127.0.0.1:{self.port}"
        self.host = self.nginx = None
        (self.dir / "setup.json").write_text(json.dumps(setup))
        (self.dir / "evening.json").write_text(json.dumps(setups.seen_by_all(setup, title)))
        user = "root" if os.geteuid() == 0 else None
        proxy.lay_out(self.dir / "nginx", edit(proxy.configuration(self.port, self.host_port, self.dir, user=user)))

    def __enter__(self):
        try:
            self.start_host()
            self.nginx = subprocess.Popen(proxy.command(self.dir / "nginx"), stderr=subprocess.DEVNULL)
            self.wait(self.url + "/api/arena")
        except BaseException:
            self.__exit__()
            raise
        return self

    def __exit__(self, *_):
        self.stop_host()
        if self.nginx:
            self.nginx.send_signal(signal.SIGTERM)
            self.nginx.wait()
        if not os.environ.get("KEEP_STAND"):
            shutil.rmtree(self.dir, ignore_errors=True)

    def start_host(self):
        with open(self.dir / "table.txt", "wb") as table, open(self.dir / "host.txt", "wb") as words:
            self.host = subprocess.Popen([host.program(), "serve", str(self.dir / "setup.json"), str(self.host_port),
                                          str(self.workers), str(self.dir / "journal.txt")], stdout=table, stderr=words)
        self.wait(f"http://127.0.0.1:{self.host_port}/api/arena")

    def stop_host(self):
        if self.host:
            self.host.send_signal(signal.SIGCONT)
            self.host.kill()
            self.host.wait()
            self.host = None

    def wait(self, url, limit=20):
        end = time.time() + limit
        while True:
            try:
                with urllib.request.urlopen(url, timeout=2) as answer:
                    return answer.read()
            except OSError:
                if self.host.poll() is not None:
                    raise RuntimeError(f"the host {host.ended_words(self.host.returncode)}") from None
                if time.time() > end:
                    raise
                time.sleep(0.05)

    def api(self, method, path, name=None):
        """Asks the host itself, past nginx; its status and body."""
        request = urllib.request.Request(f"http://127.0.0.1:{self.host_port}/api/{path}", method=method,
                                         headers={"Connection": "close"})
        if name:
            request.add_header("Authorization", "Bearer " + key_of(name))
        try:
            with urllib.request.urlopen(request, timeout=5) as answer:
                return answer.status, json.load(answer)
        except urllib.error.HTTPError as e:
            return e.code, json.load(e)

    def play(self, game, names, words):
        """Makes these moves, White's first, for two named players."""
        for i, word in enumerate(words.split()):
            status, body = self.api("POST", f"game/{game}/move/{word}", names[i % 2])
            assert status == 200, (word, body)

    def held(self):
        """How many connections to the host stand open just now."""
        port = f":{self.host_port:04X}"
        rows = [line.split() for line in pathlib.Path("/proc/net/tcp").read_text().splitlines()[1:]]
        return sum(r[1].endswith(port) and r[3] == "01" for r in rows)

    def logs(self):
        """All that nginx has written of requests and errors."""
        return "".join((self.dir / "nginx" / name).read_text() for name in ("requests.txt", "errors.txt"))
