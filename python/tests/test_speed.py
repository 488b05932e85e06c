"""The times that are promised: a model of 4,096 variables, and a feed of 10,000 windows on 500 routes. Each is the least of some runs."""
import re
import tempfile
import unittest

from .measure import feed_figures, model_figures
from .support import ROOT


class Speed(unittest.TestCase):
    def test_the_largest_model(self):
        with tempfile.TemporaryDirectory() as room:
            figures = model_figures(room)
        self.assertLess(figures["opening"], 0.5)
        self.assertLess(figures["a try at the prompt"], 0.05)
        self.assertLess(figures["a try typed at a terminal"], 0.05)
        self.assertLess(figures["the library's part of it"], 0.001)

    def test_many_windows(self):
        with tempfile.TemporaryDirectory() as room:
            figures, foot = feed_figures(room)
        self.assertEqual(foot, "104,000 departures, the last at 24:55:00")
        for what, seconds in figures.items():
            self.assertLess(seconds, 10, what)


class Readme(unittest.TestCase):
    def test_the_example_of_the_page(self):
        """The example of python/README.md is run."""
        text = (ROOT / "python" / "README.md").read_text(encoding="utf8")
        examples = re.findall(r"^```python\n(.*?)^```$", text, re.DOTALL | re.MULTILINE)
        self.assertEqual(len(examples), 1)
        exec(examples[0], {})


if __name__ == "__main__":
    unittest.main()
