"""The file of the journal so far, and the table of it."""
import errno, os, pathlib, stat, subprocess, tempfile, unittest, unittest.mock
from stand import HERE, setup_of
from desk import saved, setups
from desk.plain import Trouble

ENTRIES = ["0 0 enter 0", "5 1 enter 1", "1000 0 wave 2", "1500 0 act 0 0 move f2f3", "1600 1 act 1 0 move e7e5",
           "1700 0 act 0 0 move g2g4", "1800 1 act 1 0 move d8h4"]
TABLE = b"1 bob 1900 2 2500 1\n2 alice 2000 0 1400 1\ngames 1 entries 7\n"


class Saving(unittest.TestCase):
    def setUp(self):
        held = tempfile.TemporaryDirectory()
        self.addCleanup(held.cleanup)
        self.file = pathlib.Path(held.name) / "so-far.txt"
        self.setup = setup_of([("alice", 2000), ("bob", 1900)])

    def open(self):
        file = saved.Saved(self.file, self.setup)
        self.addCleanup(os.close, file.out)
        return file

    def take(self, file, entries):
        """Saves what is new in a host's journal; how much that was."""
        start, before = file.next(), file.length
        file.add(file.fresh(start, entries[start:start + 1000], len(entries)))
        return file.length - before

    def test_entries_are_added_once(self):
        file = self.open()
        self.assertEqual([self.take(file, ENTRIES[:n]) for n in (0, 2, 2, 5, 7)], [0, 2, 0, 3, 2])
        self.assertEqual(self.file.read_text(), setups.head_of_journal(self.setup) + "".join(e + "\n" for e in ENTRIES))
        self.assertEqual(stat.S_IMODE(self.file.stat().st_mode), 0o600)
        self.assertEqual(saved.entries_in(self.file), 7)

    def test_any_beginning_of_the_file_is_gone_on_with(self):
        whole = (setups.head_of_journal(self.setup) + "".join(e + "\n" for e in ENTRIES)).encode()
        for cut in range(len(whole)):
            self.file.write_bytes(whole[:cut])
            file = saved.Saved(self.file, self.setup)
            self.take(file, ENTRIES)
            os.close(file.out)
            self.assertEqual(self.file.read_bytes(), whole, cut)

    def test_a_full_disk_loses_nothing(self):
        file, real = self.open(), os.pwrite

        def full(out, data, at):
            if len(data) > 5:
                return real(out, data[:5], at)
            raise OSError(errno.ENOSPC, "No space left on device")
        self.take(file, ENTRIES[:2])
        with unittest.mock.patch.object(os, "pwrite", full), self.assertRaises(OSError):
            self.take(file, ENTRIES)
        self.take(file, ENTRIES)
        self.assertEqual(self.file.read_text(), setups.head_of_journal(self.setup) + "".join(e + "\n" for e in ENTRIES))

    def test_another_journal_is_not_mixed_in(self):
        file = self.open()
        self.take(file, ENTRIES)
        before = self.file.read_bytes()
        for entries in (ENTRIES[:3], ["0 0 enter 1"] + ENTRIES[1:6] + ["9 9 tick", "10 0 tick"]):
            with self.assertRaises(saved.Another):
                self.take(file, entries)
        self.assertEqual(self.file.read_bytes(), before)
        self.setup["wave"] = 7000
        with self.assertRaises(Trouble):
            self.open()
        self.assertEqual(self.file.read_bytes(), before)

    def test_waves_with_their_pairs(self):
        """Under rule 2 each wave has its pairs."""
        self.setup["rule"] = 2
        file = self.open()
        new = ["0 0 wave 4", "5 1 act 2 7 resign", "9 0 wave 6", "9 0 tick"]
        file.add(saved.with_pairs(["0 0 enter 0"], 6, [], None))
        file.add(saved.with_pairs(new, 6, ["0-1", "2-3", "0-1", "3-2"], lambda entries: True))
        self.assertTrue(self.file.read_text().startswith("arena 2\nrule 2\ncontrol"))
        self.assertTrue(self.file.read_text().endswith("begin\n0 0 enter 0\n0 0 wave 4 0-1 2-3\n5 1 act 2 7 resign\n9 0 wave 6 0-1 3-2\n9 0 tick\n"))
        self.file.write_bytes(self.file.read_bytes()[:-len("9 0 tick\n")])
        again = self.open()
        self.assertEqual((again.length, again.games, again.last), (4, 4, "9 0 wave 6"))

    def test_several_waves_in_one_look(self):
        """Who began which games is settled by what fits, and each wave has one at least."""
        new, pairs = ["0 0 wave 4", "5 1 act 2 1 resign", "9 0 wave 6", "20 0 wave 8"], ["0-1", "2-3", "4-5", "0-2", "1-3", "4-6"]
        for right in [(2, 1, 3), (2, 2, 2), (2, 3, 1), (3, 1, 2), (3, 2, 1), (4, 1, 1)]:
            cuts = [0, right[0], right[0] + right[1], 6]
            waves = [" ".join([w] + pairs[a:b]) for w, a, b in zip([new[0], new[2], new[3]], cuts, cuts[1:])]
            tried = []

            def fits(entries):
                tried.append(entries[-1])
                return entries[-1] in waves
            self.assertEqual(saved.with_pairs(new, 0, pairs, fits), [waves[0], new[1], waves[1], waves[2]])
            self.assertNotIn("0 0 wave 4 0-1", tried, "game 1 was acted in before the second wave")

    def test_the_table_of_what_was_saved(self):
        self.take(self.open(), ENTRIES)
        self.file.write_bytes(self.file.read_bytes() + b"1900 0 ti")  # cut off by a power cut
        done = subprocess.run([HERE.parent / "table", self.file], capture_output=True)
        self.assertEqual((done.returncode, done.stdout, done.stderr), (0, TABLE, b""))
        done = subprocess.run([HERE.parent / "table", "--pgn", self.file], capture_output=True, text=True)
        self.assertIn("1. f3 e5 2. g4 Qh4# 0-1\n", done.stdout)
        self.file.write_bytes(self.file.read_bytes().replace(b"f2f3", b"f2f5"))
        done = subprocess.run([HERE.parent / "table", self.file], capture_output=True, text=True)
        self.assertEqual((done.returncode, done.stdout), (1, ""))
        self.assertIn("an entry that is not allowed: line 12: Illegal", done.stderr)
        done = subprocess.run([HERE.parent / "table", os.devnull], capture_output=True, text=True)
        self.assertIn("is no journal", done.stderr)


if __name__ == "__main__":
    unittest.main()
