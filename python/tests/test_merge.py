"""Batches cut into parts: the merged figures are those of the whole, also where GNU parallel does the cutting."""
from __future__ import annotations

import json
import os
import random
import shutil
import subprocess
import sys
import tempfile
import unittest
from unittest import mock

from lukhandro import Figures

from .support import EXAMPLES, ROOT, Case


def table(rng: random.Random, moves: int) -> list[str]:
    """A table of moves for the Sunday, some of them refused, some that leave a blank."""
    lines = ["headway,end"]
    for _ in range(moves):
        lines.append(rng.choice(["0:12:00,", "60000,", ",7:00:00", f"{rng.randrange(60, 7200)},{rng.randrange(20000, 40000)}", "0:05:00,9:00:00"]))
    return lines


class Merging(Case):
    """`lukhandro merge`."""

    def setUp(self) -> None:
        self.folder = tempfile.mkdtemp()
        self.addCleanup(shutil.rmtree, self.folder)

    def figures(self, lines, name="moves.csv"):
        path = os.path.join(self.folder, name)
        with open(path, "w", encoding="utf-8") as file:
            file.write("\n".join(lines) + "\n")
        return self.typed("batch", EXAMPLES / "sunday.lkt", path, "--ask", "last", "--json")[0]

    def test_parts_merged_are_the_whole(self):
        rng = random.Random(7)
        for _ in range(5):
            lines = table(rng, 40)
            cut = rng.randrange(1, 40)
            whole = self.figures(lines)
            parts = self.figures(lines[:cut]) + self.figures(lines[:1] + lines[cut:])
            self.assertEqual(json.loads(self.typed("merge", stdin=parts)[0]), json.loads(whole))
            self.assertEqual(json.loads(self.typed("merge", stdin=whole)[0]), json.loads(whole))

    def test_a_blank_least_is_left_out(self):
        none, some = self.figures(["headway,end", ",7:00:00"]), self.figures(["headway,end", "0:12:00,"])
        self.assertIsNone(json.loads(none)["least"])
        merged = json.loads(self.typed("merge", stdin=none + some)[0])
        self.assertEqual((merged["least"], merged["blank"], merged["moves"]), (json.loads(some)["least"], 1, 2))

    def test_the_library_merges_as_numbers_without_end_do(self):
        rng = random.Random(13)
        counts = [0, 1, 7, 2 ** 31, 2 ** 31 - 1, 2 ** 32 - 1, 2 ** 32]
        totals = [0, -5, 2 ** 62 - 1, 1 - 2 ** 62, 2 ** 62, 2 ** 63 - 1, 2 ** 64]
        ends = [None, None, 0, -7, 7, 2 ** 31 - 1, 1 - 2 ** 31]

        def drawn() -> Figures:
            some = [rng.choice(counts) if edge else rng.randrange(9) for edge in [rng.random() < .04 for _ in range(26)]]
            return Figures(tuple(some[:22]), some[22], rng.choice(ends), rng.choice(ends), rng.choice(totals[:rng.choice([4, 7])]),
                           (some[23], some[24], some[25]))

        with mock.patch.object(Figures, "_added", autospec=True, side_effect=Figures._added) as added:
            for _ in range(500):
                one, other = drawn(), drawn()
                merged = one.merged(other)
                self.assertEqual(merged, one._added(other))
        self.assertTrue(550 < added.call_count < 950, added.call_count)

    def test_what_are_no_figures(self):
        whole = self.figures(["headway,end", "0:12:00,"])
        wrong = [whole.replace('"blank": 0', f'"blank": {blank}') for blank in ("-1", "0.0", "false")]
        for text in ("{}", "[1]", "nope", whole.replace('"moves": 1', '"moves": 2'), whole + "{", *wrong):
            self.assertIn("no figures", self.typed("merge", stdin=text, status=1)[1])
        self.assertIn("no figures to merge", self.typed("merge", stdin="", status=1)[1])
        other = whole.replace('"asked": "last"', '"asked": "crew"')
        self.assertIn("of crew", self.typed("merge", stdin=whole + other, status=1)[1])

    @unittest.skipUnless(shutil.which("parallel"), "GNU parallel is not there: apt install parallel")
    def test_the_page_with_gnu_parallel(self):
        lines = table(random.Random(11), 500)
        whole = self.figures(lines, "moves.csv")
        env = dict(os.environ, PYTHONPATH=str(ROOT / "python"), PYTHONDONTWRITEBYTECODE="1")
        page = (ROOT / "docs" / "MANY.md").read_text(encoding="utf-8")
        command = next(line[4:] for line in page.splitlines() if line.startswith("    parallel --pipe"))
        second = next(line[4:] for line in page.splitlines() if line.startswith("    lukhandro merge"))
        shutil.copy(EXAMPLES / "sunday.lkt", self.folder)
        script = "lukhandro() { " + f"{sys.executable} -m lukhandro" + ' "$@"; }; export -f lukhandro\n' + command.replace("crew", "last") + "\n" + second
        done = subprocess.run(["bash", "-c", script], cwd=self.folder, env=env, capture_output=True, text=True)
        self.assertEqual((done.returncode, done.stderr), (0, ""))
        self.assertEqual(json.loads(done.stdout), json.loads(whole))
