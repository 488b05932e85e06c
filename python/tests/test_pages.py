"""Every console block of the documents is run, and what happens is what it shows; and what the pages claim of doubles is so."""
import math
import unittest

from .pages import BLOCK, PAGES, happened
from .support import ROOT


class Pages(unittest.TestCase):
    maxDiff = None

    def test_what_a_page_shows_is_what_happens(self):
        for page in PAGES:
            with self.subTest(page=page):
                text = (ROOT / page).read_text(encoding="utf8")
                self.assertTrue(BLOCK.search(text), "the page has no console block")
                self.assertEqual(happened(page), text)

    def test_doubles(self):
        """The numbers of WHY.md over minutes as fractions of a day, which is how a spreadsheet keeps a typed time."""
        wrong = every = 0
        for start in range(1440):
            for headway in (5, 6, 10, 12, 15, 20, 30, 60):
                for trips in range(1, 25):
                    end = start + trips * headway
                    if end < 1440:
                        every += 1
                        shown = math.ceil((end / 1440 - start / 1440) / (headway / 1440))
                        self.assertIn(shown, (trips, trips + 1))
                        wrong += shown != trips
        text = (ROOT / "docs/WHY.md").read_text(encoding="utf8")
        self.assertIn(f"{wrong:,} of {every:,}", " ".join(text.split()))


if __name__ == "__main__":
    unittest.main()
