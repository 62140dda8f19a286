"""Whole evenings by evening/start: to the end, with the host killed in mid-game, closed early, and not begun at all."""
import json, os, pathlib, re, shlex, shutil, signal, socket, ssl, subprocess, sys, tempfile, threading, time, unittest, urllib.request
from stand import HERE, Stand, children_of, key_of, setup_of
from desk import proxy, setups

START = str(HERE.parent / "start")
PAIR = [("alice", 2000), ("bob", 1900)]


def is_alive(pid):
    """Whether this process runs: one that has ended may wait to be seen by its parent."""
    try:
        return pathlib.Path(f"/proc/{pid}/stat").read_text().rsplit(")", 1)[1].split()[0] != "Z"
    except FileNotFoundError:
        return False


class Run:
    """One evening/start, whose words are read as they come."""

    def __init__(self, folder, setup, *words, env=None):
        self.port = proxy.free_port()
        folder.joinpath("setup.json").write_text(json.dumps(setup))
        seen = setups.seen_by_all(setup, "Short") | {"address": f"http://127.0.0.1:{self.port}"}
        folder.joinpath("evening.json").write_text(json.dumps(seen))
        self.folder, self.said = folder, []
        self.process = subprocess.Popen([START, str(folder / "setup.json"), *words], stdout=subprocess.PIPE, stderr=subprocess.STDOUT,
                                        text=True, env=os.environ | (env or {}))
        threading.Thread(target=lambda: self.said.extend(iter(self.process.stdout.readline, "")), daemon=True).start()

    def until(self, part, limit=30):
        end = time.time() + limit
        while part not in "".join(self.said):
            if time.time() > end:
                raise AssertionError(f"{part!r} was not said, but:\n{''.join(self.said)}")
            time.sleep(0.05)

    def ask(self, method, path, name):
        request = urllib.request.Request(f"http://127.0.0.1:{self.port}/api/{path}", method=method, headers={"Authorization": "Bearer " + key_of(name)})
        with urllib.request.urlopen(request, timeout=5) as answer:
            return json.load(answer)

    def get(self, path):
        with urllib.request.urlopen(f"http://127.0.0.1:{self.port}{path}", timeout=5) as answer:
            return answer.read().decode()

    def begin_game(self):
        for name, _ in PAIR:
            self.ask("POST", "enter", name)
        end = time.time() + 20
        while (game := self.ask("GET", "me", "alice")["game"]) is None:
            assert time.time() < end, "nobody was paired"
            time.sleep(0.2)
        return game

    @property
    def played(self):
        return next(self.folder.glob("played-*"))

    def child(self, word):
        """The process id of a child of start."""
        for pid in children_of(self.process.pid):
            if word in pathlib.Path(f"/proc/{pid}/cmdline").read_bytes().decode():
                return pid
        raise AssertionError(word)

    def end(self, limit=30):
        try:
            return self.process.wait(limit)
        finally:
            time.sleep(0.1)


class Evenings(unittest.TestCase):
    def setUp(self):
        held = tempfile.TemporaryDirectory(prefix="an evening ")
        self.addCleanup(held.cleanup)
        self.dir = pathlib.Path(held.name)

    def start(self, setup, *words, env=None):
        run = Run(self.dir, setup, *words, env=env)

        def stop():
            if run.process.poll() is None:
                run.process.terminate()
                run.process.wait(20)
        self.addCleanup(stop)
        return run

    def test_to_the_end(self):
        self.to_the_end(setup_of(PAIR, ends=9000))

    def test_to_the_end_by_the_other_pairing_rule(self):
        self.to_the_end(setup_of(PAIR, ends=9000) | {"rule": 2})

    def to_the_end(self, setup):
        run = self.start(setup)
        run.until("Ctrl-C says")
        self.assertIn("Short", run.get("/evening.json"))
        game = run.begin_game()
        moves = [("white", "f2f3"), ("black", "e7e5"), ("white", "g2g4"), ("black", "d8h4")]
        sides = run.ask("GET", f"game/{game}", "alice")
        for name, _ in PAIR:  # before the game's end, or a wave may come in between
            run.ask("POST", "pause", name)
        for side, word in moves:
            run.ask("POST", f"game/{game}/move/{word}", sides[side])
        run.until("The pages show the table until Ctrl-C.")
        self.assertNotIn("scribe", "".join(run.said), "nothing went wrong")
        table = (run.played / "table.txt").read_text()
        self.assertTrue(table.startswith(f"1 {sides['black']} "), table)
        self.assertEqual(run.get("/table.txt"), table)
        self.assertIn("Qh4# 0-1", (run.played / "games.pgn").read_text())
        self.assertTrue((run.played / "journal.txt").read_text().endswith("\nend\n"))
        so_far = (run.played / "journal-so-far.txt").read_text()
        whole = (run.played / "journal.txt").read_text()
        if setup["rule"] == 1:  # saved as version 1, whose waves have no pairs
            whole = re.sub(r"(wave \d+)( \d+-\d+)+", r"\1", whole)
        self.assertEqual(so_far[so_far.index("begin"):] + "end\n", whole[whole.index("begin"):])
        run.process.send_signal(signal.SIGINT)
        self.assertEqual(run.end(), 0)
        everything = "".join(run.said) + "".join(f.read_text() for f in run.played.rglob("*.*") if f.is_file())
        self.assertFalse(any(key_of(name) in everything for name, _ in PAIR), "no key is told anywhere")

    def test_the_host_is_silent_and_then_killed_in_mid_game(self):
        run = self.start(setup_of(PAIR, minutes=10), "--linger", "3")
        run.until("Ctrl-C says")
        game = run.begin_game()
        sides = run.ask("GET", f"game/{game}", "alice")
        run.ask("POST", f"game/{game}/move/e2e4", sides["white"])
        os.kill(run.child("serve"), signal.SIGSTOP)
        run.until("scribe: no answer from the host; ")
        os.kill(run.child("serve"), signal.SIGCONT)
        run.until("scribe: all is well again; 4 entries are saved.")
        os.kill(run.child("serve"), signal.SIGKILL)
        run.until("The host has ended too early: it was ended by signal 9.")
        run.until("Its table stands in")
        self.assertIn("games 0 entries 4", run.get("/table.txt"))
        self.assertTrue((run.played / "journal-so-far.txt").read_text().endswith("move e2e4\n"))
        self.assertFalse((run.played / "journal.txt").exists())
        self.assertEqual(run.end(), 1)

    def test_ctrl_c_asks_first(self):
        run = self.start(setup_of(PAIR, minutes=10))
        run.until("Ctrl-C says")
        run.begin_game()
        os.kill(run.child("scribe"), signal.SIGKILL)
        run.until("scribe was ended by signal 9; it is started again")
        time.sleep(2)
        run.process.send_signal(signal.SIGINT)
        run.until("Not closed: 1 game would stay unfinished")
        run.until("3 entries are saved in ")
        self.assertEqual(run.ask("GET", "me", "alice")["seat"], "playing")
        run.process.send_signal(signal.SIGINT)
        run.until("Closed by Ctrl-C")
        run.until("Its table stands in")
        self.assertEqual(run.end(), 1)
        with self.assertRaises(OSError):
            run.get("/")

    def script(self, text):
        """A program of the host's words for one test."""
        path = self.dir / "host.sh"
        path.write_text("#!/bin/sh\n" + text)
        path.chmod(0o755)
        return {"ARENA_HOST": str(path)}

    def test_a_host_that_could_not_write_its_table(self):
        """Its journal is whole: table and games come from there, and not from what the scribe saved."""
        host = shlex.quote(os.environ["ARENA_HOST"])
        run = self.start(setup_of(PAIR, ends=3000), "--linger", "0", env=self.script(
            f'if [ "$1" = serve ]; then {host} "$@" >/dev/null; exit 6; fi\nexec {host} "$@"\n'))
        run.until("Ctrl-C says")
        run.ask("POST", "enter", "alice")
        run.until("The host has ended too early: it could not write.")
        run.until(f"Its journal is whole and stands in {run.played / 'journal.txt'}.")
        self.assertEqual(run.end(), 1)
        self.assertEqual((run.played / "table.txt").read_text(), "1 alice 2000 0 0 0\ngames 0 entries 1\n")

    def test_closed_while_the_host_is_built(self):
        """What builds the host is ended too."""
        run = self.start(setup_of(PAIR), env=self.script("echo 3 of 40 crates >&2\nsleep 1000\n"))
        run.until("Waiting for the host, which is built first where that has to be: 3 of 40 crates.")
        builder = children_of(run.child("serve"))
        run.process.send_signal(signal.SIGINT)
        self.assertEqual(run.end(), 1)
        self.assertIn("Closed before the host answered: nothing was played.", "".join(run.said))
        self.assertEqual([pid for pid in builder if is_alive(pid)], [])

    def test_over_https(self):
        if not shutil.which("openssl"):
            self.skipTest("openssl is missing")
        cert, key = self.dir / "cert.pem", self.dir / "key.pem"
        subprocess.run(["openssl", "req", "-x509", "-newkey", "ec", "-pkeyopt", "ec_paramgen_curve:prime256v1", "-nodes", "-days", "1",
                        "-subj", "/CN=127.0.0.1", "-addext", "subjectAltName=IP:127.0.0.1", "-keyout", key, "-out", cert], check=True, capture_output=True)
        run = self.start(setup_of(PAIR), "--certificate", str(cert), "--certificate-key", str(key))
        run.until("Ctrl-C says")
        self.assertIn("The links of the slips begin with http:", "".join(run.said))
        trusting = ssl.create_default_context(cafile=str(cert))
        with urllib.request.urlopen(f"https://127.0.0.1:{run.port}/api/arena", timeout=5, context=trusting) as answer:
            self.assertEqual(answer.headers["Strict-Transport-Security"], "max-age=86400")
            self.assertEqual(json.load(answer)["begun"], 0)

    def test_what_cannot_start_is_said_in_a_sentence(self):
        good = setup_of(PAIR)
        with socket.create_server(("", 0)) as taken:
            cases = [(good, ["--port", str(taken.getsockname()[1])], {}, "is in use by another program"),
                     (good | {"ends": 0}, [], {}, "ends is no whole number"), (good | {"players": []}, [], {}, "players is no list"),
                     (good, [], {"ARENA_HOST": "/nowhere/arena"}, "The host's program /nowhere/arena is not there"),
                     (good, [], {"ARENA_HOST": "/bin/false"}, "The host did not start: it did not know its words"),
                     (good, ["--workers", "0"], {}, "--workers 0"), (good, ["--certificate", "x"], {}, "belong together")]
            for setup, words, env, said in cases:
                run = self.start(setup, *words, env=env)
                self.assertEqual(run.end(), 1, said)
                self.assertIn(said, "".join(run.said))
                self.assertNotIn("Traceback", "".join(run.said))

    def test_a_missing_nginx(self):
        code = ("import sys; sys.path.insert(0, sys.argv[1]); from desk import proxy; import shutil; shutil.which = lambda *a, **k: None\n"
                "from desk.plain import guarded; guarded(proxy.nginx)")
        done = subprocess.run([sys.executable, "-c", code, str(HERE.parent)], capture_output=True, text=True)
        self.assertEqual(done.returncode, 1)
        self.assertIn("nginx is missing: apt-get install nginx-light", done.stderr)


class Proxied(unittest.TestCase):
    def test_slow_clients_wait_at_nginx(self):
        """As many half requests as the host has workers, and more, do not hold up a player."""
        with Stand(setup_of(PAIR), workers=2) as st:
            slow = [socket.create_connection(("127.0.0.1", st.port)) for _ in range(40)]
            for i, s in enumerate(slow):
                s.sendall([b"GET /api/arena HTTP/1.1\r\nX-Slow: ", b"POST /api/enter HTTP/1.1\r\nHost: a\r\nContent-Length: 400\r\n\r\n"][i % 2])
            begun = time.time()
            with urllib.request.urlopen(f"{st.url}/api/arena", timeout=3) as answer:
                self.assertEqual(answer.status, 200)
            self.assertLess(time.time() - begun, 2)
            for s in slow:
                s.close()

    def test_the_configuration_with_a_certificate(self):
        text = proxy.configuration(8443, 8081, "/evening", "/c.pem", "/k.pem")
        self.assertIn("listen 8443 ssl http2;", text)
        self.assertIn('ssl_certificate "/c.pem";', text)
        self.assertNotRegex(text, r"@[A-Z]")


if __name__ == "__main__":
    unittest.main()
