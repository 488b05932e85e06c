"""Damaged model files, feeds and tables of moves: each is refused in words, or taken; nothing else happens. LUKHANDRO_COUNT says how many."""
import random
import shutil
import tempfile
import unittest
from pathlib import Path

from lukhandro import Model, Refused, salvage
from lukhandro.batch import read_moves
from lukhandro.board import board, printed
from lukhandro.feed import Feed, FeedProblems, day
from lukhandro.files import Fault, Usage
from lukhandro.sheet import Sheet, built
from lukhandro.text import Text, model_text
from lukhandro.windows import Choice, imported, planned
from .support import COUNT, EXAMPLES, SEED, RandomModel, mutated


class Damage(unittest.TestCase):
    def test_model_files(self):
        """A damaged model file is refused with a sentence, or its text compiles to the same bytes; what salvage saves is good."""
        rng, good = random.Random(SEED), 0
        for k in range(COUNT):
            data = bytearray(RandomModel(rng).file())
            for _ in range(rng.choice((0, 1, 1, 2, 4))):
                data[rng.randrange(len(data))] = rng.choice((0, 1, 2, 3, 255, rng.randrange(256)))
            data = bytes(data[:rng.choice((len(data), len(data), rng.randrange(len(data) + 1)))])
            with self.subTest(k=k, data=data):
                try:
                    model = built(data, "damaged")
                except Fault as why:
                    self.assertTrue(str(why).startswith("damaged: "), why)
                    self.assertEqual(" needs " in str(why), "refused 6 " in str(why) or "refused 20 " in str(why), why)
                else:
                    good += 1
                    names = [f"v{v}" for v in range(model.n)]
                    self.assertEqual(Text(model_text(model, names, data[0])).compiled(), data)
                try:
                    Model.read(salvage(data).file)
                except Refused as why:
                    self.assertEqual(why.number, 14)
        self.assertGreater(good, 0)

    def test_feeds(self):
        """A damaged feed is refused with its file, or imported to a model that builds, exported and boarded."""
        rng, good, bad = random.Random(SEED + 1), 0, 0
        with tempfile.TemporaryDirectory() as room:
            for k in range(max(COUNT // 10, 1)):
                place = Path(room) / "feed"
                shutil.rmtree(place, ignore_errors=True)
                shutil.copytree(EXAMPLES / "feed", place)
                for _ in range(rng.choice((1, 1, 3))):
                    table = rng.choice(sorted(place.iterdir()))
                    table.write_bytes(mutated(table.read_bytes().decode(), rng).encode())
                with self.subTest(k=k):
                    try:
                        text = Text(imported(Feed(str(place)), Choice("20070603")))
                        sheet = Sheet(text.build(), text.names, text.clocks, "text", text, text.version)
                        self.assertTrue(planned(Feed(str(place)), sheet)[0])
                        self.assertIn("departure", printed(board(Feed(str(place)), "STAGECOACH", day("20070603"))))
                        good += 1
                    except FeedProblems as why:
                        self.assertRegex(str(why), r"^[a-z_]+\.txt:")
                        bad += 1
                    except (Fault, Usage) as why:
                        self.assertTrue(str(why))
                        bad += 1
        self.assertGreater(good, 0)
        self.assertGreater(bad, 0)

    def test_moves(self):
        """A damaged table of moves is refused with its lines, or is a batch that can be tried."""
        rng, bad = random.Random(SEED + 2), 0
        sheet = Sheet.open(str(EXAMPLES / "sunday.lkt"))
        text = (EXAMPLES / "moves.csv").read_text(encoding="utf8")
        for k in range(COUNT):
            table = mutated(text, rng)
            with self.subTest(k=k, table=table):
                try:
                    moves = read_moves(sheet, table, "moves.csv").moves
                except Fault as why:
                    self.assertTrue(str(why).startswith("moves.csv:"), why)
                    bad += 1
                else:
                    self.assertEqual(sum(sheet.model.figures(moves, 0).by_number), len(moves))
        self.assertGreater(bad, 0)


if __name__ == "__main__":
    unittest.main()
