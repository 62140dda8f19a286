"""The stand-in against what this repository says of the host."""
import subprocess, unittest
from stand import HERE
from host import chess

EXAMPLES = HERE.parent.parent / "examples"


class Replays(unittest.TestCase):
    def test_the_examples(self):
        for name, table in [("first", "1 carol 2100 0 0 0\n2 alice 2000 0 0 0\ngames 0 entries 2\n"),
                            ("teams", "1 dora 2010 0 0 0\n2 bela 1920 0 0 0\n3 ada 1850 0 0 0\n4 carl 1740 0 0 0\n5 emil 1600 0 0 0\n"
                                      "team 1 Rooks 0 0\nteam 2 Bishops 0 0\ngames 0 entries 8\n")]:
            text = (EXAMPLES / f"{name}.journal").read_bytes()
            done = subprocess.run([HERE / "stand_in", "replay"], input=text, capture_output=True)
            self.assertEqual((done.stdout.decode(), done.returncode), (table, 0))

    def test_the_moves_of_chess(self):
        for fen, depth, lines in [(chess.START, 3, 8902), ("r3k2r/p1ppqpb1/bn2pnp1/3PN3/1p2P3/2N2Q1p/PPPBBPPP/R3K2R w KQkq - 0 1", 2, 2039),
                                  ("8/2p5/3p4/KP5r/1R3p1k/8/4P1P1/8 w - - 0 1", 3, 2812)]:
            self.assertEqual(chess.perft(chess.read_fen(fen), depth), lines)


if __name__ == "__main__":
    unittest.main()
