"""Random text models: held to the second implementation, byte by byte and value by value; there and back; and damaged ones.

LUKHANDRO_COUNT=100000 tries as many, LUKHANDRO_SEED=7 takes another seed.
"""
import random
import unittest

from lukhandro import BLANK, Model, Refused
from lukhandro.sheet import Sheet
from lukhandro.text import Problems, Text, model_text
from lukhandro.files import Fault
from lukhandro.words import circle
from .support import COUNT, SEED, RandomModel, mutated, second

SECOND = second()


class RandomTexts(unittest.TestCase):
    def test_there_and_back(self):
        """Compile, decompile, compile gives the same bytes, and they are those that the test lays out itself."""
        rng, accepted = random.Random(SEED), 0
        for k in range(COUNT):
            model = RandomModel(rng)
            source = model.text()
            with self.subTest(k=k, source=source):
                text = Text(source)
                self.assertEqual(text.names, model.names)
                try:
                    data = text.compiled()
                except Problems:
                    self.assertIsNotNone(SECOND.refusal(model.starts, *model.tables(), (list(zip(*model.bounds)))))
                    continue
                accepted += 1
                self.assertEqual(data, model.file())
                read = Model.read(data)
                plain = model_text(read, [f"v{v}" for v in range(read.n)], text.version)
                self.assertEqual(Text(plain).compiled(), data, plain)
                named = model_text(read, text.names, text.version)
                self.assertEqual(Text(named).compiled(), data, named)
        self.assertGreater(accepted, COUNT // 2)

    def test_mutated(self):
        """A damaged text gives an error with a line of it, or a model; never anything else."""
        rng, wrong = random.Random(SEED + 1), 0
        for k in range(COUNT):
            source = mutated(RandomModel(rng).text(), rng)
            with self.subTest(k=k, source=source):
                try:
                    Text(source).build()
                except Problems as problems:
                    wrong += 1
                    self.assertTrue(problems.problems)
                    for problem in problems.problems:
                        self.assertTrue(1 <= problem.line <= source.count("\n") + 1, problem)
                        self.assertTrue(problem.column >= 1 and problem.sentence)
                    self.assertIn("^", str(problems))
        self.assertGreater(wrong, COUNT // 4)


class AgainstTheSecond(unittest.TestCase):
    def test_values(self):
        """Values, reasons and refusals of what a text builds are the second implementation's."""
        rng, refused = random.Random(SEED + 2), 0
        for k in range(max(COUNT // 2, 1)):
            model = RandomModel(rng)
            source, tables = model.text(), model.tables()
            with self.subTest(k=k, source=source):
                text = Text(source)
                bad = SECOND.refusal(model.starts, *tables, list(zip(*model.bounds)))
                try:
                    built = Model.build(text.starts, text.rows, text.bounds)
                except Refused as why:
                    self.assertEqual((why.number, why.place), bad)
                    with self.assertRaises(Problems) as said:
                        text.build()
                    self.assertIn(text.names[why.place], str(said.exception))
                    self.goes_round(why, text, SECOND.worked_out(model.starts, *tables))
                    refused += 1
                    continue
                self.assertIsNone(bad)
                numbers, values = SECOND.built(model.starts, *tables)
                self.assertEqual(list(built.stored()), values)
                self.assertEqual(built.numbers(), numbers)
                self.assertEqual([built.reason(v) for v in range(built.n)], SECOND.reasons_of(*tables, values))
                self.assertEqual(built.blanks, values.count(BLANK))
        self.assertGreater(refused, 0)

    def goes_round(self, why, text, values):
        """The circle that is told leads from each variable to an input of it, and round; one of choices to what is chosen."""
        chain = circle(why, text.rows, text.starts)
        inputs = {row.makes: row.inputs for row in text.rows}
        self.assertTrue(chain)
        for v, u in zip(chain, chain[1:] + chain[:1]):
            self.assertIn(u, inputs[v])
        if why.number == 6:
            self.assertEqual(chain[0], why.place)
            chosen = [row for row in text.rows if row.makes in chain and row.kind == 4]
            indexed = any(u == inputs[v][0] for row in chosen for v, u in zip(chain, chain[1:] + chain[:1]) if v == row.makes)
            self.assertTrue(not chosen or indexed)
            return
        for v, u in zip(chain, chain[1:] + chain[:1]):
            row = next(row for row in text.rows if row.makes == v)
            index = values[row.inputs[0]]
            needed = row.inputs if row.kind != 4 else row.inputs[:1] if index is None else row.inputs[:1] + row.inputs[1 + index:2 + index]
            self.assertIn(u, needed)

    def test_moves(self):
        """Trials by each route, keeps and takings back by name: values, reasons and evaluations."""
        rng, tried = random.Random(SEED + 3), 0
        for k in range(max(COUNT // 4, 1)):
            model = RandomModel(rng)
            source = model.text()
            with self.subTest(k=k, source=source):
                try:
                    text = Text(source)
                    sheet = Sheet(text.build(), text.names, text.clocks, "text", text, text.version)
                except Problems:
                    continue
                self.moved(rng, model, sheet)
                tried += 1
        self.assertGreater(tried, 0)

    def moved(self, rng, model, sheet):
        lines, entries = model.tables()
        numbers, stored = SECOND.built(model.starts, lines, entries)
        bounds = [list(row) for row in zip(*model.bounds)]
        starts, places = SECOND.index(len(stored), lines, entries)
        readers = starts, places + [0] * (len(entries) - len(places))
        lent = SECOND.Lent(len(stored), lines, entries, numbers, SECOND.in_order(numbers, lines), stored, readers=readers, bounds=bounds)
        search = sorted(model.written)
        chosen = rng.sample(search, min(len(search), rng.randint(0, 2)))
        move = [(v, rng.choice((0, 1, 600, 7200, -5, stored[v]))) for v in chosen]
        asked = rng.sample(range(lent.n), min(lent.n, 3))
        words = [f"{sheet.names[v]}={x}" for v, x in move]
        record = (0, lent.m, stored.count(BLANK))
        for route in (1, 2, 3):
            want = SECOND.tried(lent, record, len(move), [v for v, _ in move], [x for _, x in move], len(asked), asked, route,
                                [0] * len(asked), [0] * lent.n, [0] * lent.n)
            try:
                got = sheet.tried(sheet.move(words), asked, route)
            except Fault as why:
                self.assertNotEqual(want[0][0], 0, str(why))
                continue
            self.assertEqual((want[0][0], want[0][2]), (0, got.evaluations))
            self.assertEqual(want[2], [BLANK if c.new is None else c.new for c in got.changes])
        try:
            changes = sheet.tried(sheet.move(words)).changes
            before = sheet.model.stored()
            evaluations = sheet.keep(sheet.move(words))
        except Fault:
            return
        answer, _, left, _, _ = SECOND.kept_move(lent, record, len(move), [v for v, _ in move], [x for _, x in move], [0] * lent.n,
                                                 SECOND.Log([0] * 65, [0] * 4096, [0] * 4096))
        self.assertEqual((answer, left), ((0, 0, evaluations), list(sheet.model.stored())))
        self.assertEqual([c.variable for c in changes], [v for v in range(lent.n) if before[v] != left[v]])
        self.assertEqual([c.reason for c in changes], [sheet.model.reason(c.variable) for c in changes])
        sheet.model.take_back()
        self.assertEqual(sheet.model.stored(), before)


if __name__ == "__main__":
    unittest.main()
