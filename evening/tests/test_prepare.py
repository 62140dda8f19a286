"""From lists of players to an evening's files."""
import json, os, pathlib, re, stat, subprocess, tempfile, unittest
from stand import HERE
from desk import names, setups, slips

PREPARE = str(HERE.parent / "prepare")
GOOD = 'Name;Elo;Club;FIDE-ID\n"Müller, Anna";1850;Türme;1\nŁukasz Żółć;1700;;2\n"O\'Neil ""Bob"" J.";2010;Türme;3\n\nЮлия;1500;-;4\n'


class Folder(unittest.TestCase):
    def setUp(self):
        held = tempfile.TemporaryDirectory()
        self.addCleanup(held.cleanup)
        self.dir = pathlib.Path(held.name)

    def prepare(self, text, *words, encoding="utf-8"):
        """Runs prepare over a list; its status, output and errors."""
        (self.dir / "players.csv").write_bytes(text.encode(encoding))
        done = subprocess.run([PREPARE, "players.csv", "--address", "http://10.0.0.5:8080", *words], cwd=self.dir, capture_output=True, text=True)
        return done.returncode, done.stdout, done.stderr


class Good(Folder):
    def test_a_list_becomes_an_evening(self):
        status, out, err = self.prepare(GOOD, "--title", "Tuesday Blitz", "--control", "3+2", "--start", "5", "--length", "60")
        self.assertEqual((status, err), (0, ""))
        folder = self.dir / "tuesday_blitz"
        setup = setups.load_setup(folder / "setup.json")
        self.assertEqual([(p["name"], p["rating"], p["team"]) for p in setup["players"]],
                         [("Muller_Anna", 1850, "Turme"), ("Lukasz_Zolc", 1700, None), ("ONeil_Bob_J", 2010, "Turme"), ("Yuliya", 1500, None)])
        self.assertEqual((setup["control"], setup["starts"], setup["ends"]), ({"initial": 180, "increment": 2, "first": 20000}, 300000, 3900000))
        for said in ("Müller, Anna plays as Muller_Anna.", "Юлия plays as Yuliya.", "The team Türme is called Turme.", "FIDE-ID"):
            self.assertIn(said, out)
        seen = (folder / "evening.json").read_text()
        self.assertEqual(json.loads(seen), {"title": "Tuesday Blitz", "control": "3+2", "first": 20000, "address": "http://10.0.0.5:8080"})
        page = (folder / "slips.html").read_text()
        keys = {p["key"] for p in setup["players"]}
        self.assertEqual(len(keys), 4)
        for p in setup["players"]:
            self.assertTrue(re.fullmatch(r"[a-z0-9]{20}", p["key"]))
            self.assertIn(f"http://10.0.0.5:8080/<wbr>#key={p['key']}", page)
            self.assertNotIn(p["key"], seen + out)
        modes = {f.name: stat.S_IMODE(f.stat().st_mode) for f in folder.iterdir()}
        self.assertEqual(modes, {"setup.json": 0o600, "slips.html": 0o600, "evening.json": 0o644})

    def test_nothing_is_overwritten_unasked(self):
        self.assertEqual(self.prepare(GOOD)[0], 0)
        before = (self.dir / "club_arena/setup.json").read_bytes()
        status, _, err = self.prepare(GOOD)
        self.assertEqual(status, 1)
        self.assertIn("would be overwritten", err)
        self.assertEqual((self.dir / "club_arena/setup.json").read_bytes(), before)
        self.assertEqual(self.prepare(GOOD, "--overwrite")[0], 0)
        self.assertNotEqual((self.dir / "club_arena/setup.json").read_bytes(), before, "fresh keys")
        self.assertEqual(stat.S_IMODE((self.dir / "club_arena/setup.json").stat().st_mode), 0o600)

    def test_lists_of_several_forms(self):
        for text in ("a,1500\nb,1600\n", "\ufeffname,rating\r\na,1500\r\nb,1600\r\n", "rating\tname\n1500\ta\n1600\tb\n",
                     "First name,Last name,Elo\na,,1500\nb,,1600\n", '"Name","Rating"\n"a","1500"\n"b","1600"'):
            status, _, err = self.prepare(text, "--overwrite")
            self.assertEqual((status, err), (0, ""), text)
            setup = setups.load_setup(self.dir / "club_arena/setup.json")
            self.assertEqual([(p["name"], p["rating"]) for p in setup["players"]], [("a", 1500), ("b", 1600)])


class Bad(Folder):
    def test_each_fault_is_told_with_its_line(self):
        cases = [("name,rating\nanna,\n", "line 2: there is no rating"), ("name,rating\nanna,15OO\n", "line 2: the rating 15OO"),
                 ("name,rating\nanna,300\n", "line 2: the rating 300"), ("name,rating\n,1500\n", "line 2: there is no name"),
                 ("name,rating\n李,1500\n", "line 2: 李 cannot be written"), ("name,rating\nanna,1500\n\nanna,1600\n", "line 4: anna stands on line 2 already"),
                 ("name,rating\n\"anna,1500\n", "line 2: a quote"), ("name,club\nanna,x\n", "line 1: no column is called rating"),
                 ("player id,points\n7,3\n", "line 1: no column is called name"), ("", "has no players"), ("name,rating\n", "has a header and no players")]
        for text, said in cases:
            status, out, err = self.prepare(text)
            self.assertEqual((status, out), (1, ""), text)
            self.assertIn(said, err)
        self.assertFalse((self.dir / "club_arena").exists())
        status, _, err = self.prepare("name,rating\na,1500\nJosé,1600\n", encoding="latin-1")
        self.assertIn("line 3: this is not UTF-8", err)
        status, _, err = self.prepare("name,rating\nanna,x\nbob,y\n")
        self.assertEqual(len(err.splitlines()), 2, "all faults at once")

    def test_options_out_of_range(self):
        for words, said in [(("--control", "3"), "The control 3"), (("--control", "0+0"), "both 0"), (("--control", "999+0"), "initial"),
                            (("--start", "soon"), "--start soon"), (("--length", "0"), "--length 0"), (("--wave", "0.5"), "--wave"),
                            (("--leaders", "0"), "leaders"), (("--unrated", "9"), "--unrated"), (("--address", "http://"), "no address"),
                            (("--address", "ftp://x"), "no address"), (("--address", "http://x/path"), "no address")]:
            status, _, err = self.prepare(GOOD, *words)
            self.assertEqual(status, 1, words)
            self.assertIn(said, err)

    def test_a_player_without_a_rating_takes_the_given_one(self):
        self.assertEqual(self.prepare("name,rating\nanna,\n", "--unrated", "1200")[0], 0)
        self.assertEqual(setups.load_setup(self.dir / "club_arena/setup.json")["players"][0]["rating"], 1200)


class Parts(unittest.TestCase):
    def test_names(self):
        for written, name in [("Jean-Pierre  D.", "Jean-Pierre_D"), ("Straße", "Strasse"), ("ÅSE Ø", "ASE_O"), ("Γιώργος", "Giorgos"), ("a" * 30, "a" * 20),
                              ("x" * 19 + " y", "x" * 19), ("- -", ""), ("李", ""), ("Ĳssel", "IJssel")]:
            self.assertEqual(names.allowed(written), name)
        self.assertEqual(names.apart("a" * 20, {"a" * 20}), "a" * 18 + "_2")

    def test_both_makers_of_codes(self):
        for code in (slips.qr_maker(), slips.by_program):
            if code is None or code is slips.by_program and not any(os.access(f"{p}/qrencode", os.X_OK) for p in os.environ["PATH"].split(":")):
                self.skipTest("no QR codes on this machine")
            svg = code("http://10.0.0.5:8080/#key=abcdefghijkmnpqrstuv")
            self.assertTrue(svg.startswith("<svg") and svg.endswith("</svg>"), svg[:80])


if __name__ == "__main__":
    unittest.main()
