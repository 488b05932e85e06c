"""Models as text: what is taken, what is said of what is not, circles by name, and saving that changes numbers alone."""
import unittest

from lukhandro import FULL, Model, Row
from lukhandro.text import Problems, Text, model_text
from .support import EXAMPLES

SUNDAY = (EXAMPLES / "sunday.lkt").read_text(encoding="utf8")


class Taken(unittest.TestCase):
    def test_sunday(self):
        text = Text(SUNDAY)
        model = text.build()
        values = dict(zip(text.names, model.values()))
        self.assertEqual((values["trips"], values["last"], values["crew"], values["latest"], values["spare"]), (6, 28200, 26, 28200, 1))
        self.assertEqual(text.bounds[text.numbers["headway"]], (60, 7200))
        self.assertEqual([name for name, clock in zip(text.names, text.clocks) if not clock], ["trips", "crew", "spare"])

    def test_any_order(self):
        self.assertEqual(Text("b = LINEAR(1 + a)\na = 5").build().values(), [6, 5])

    def test_all_nine_formulas(self):
        source = """i = 1
a = 25200
b = 0:10:00
z = 8:00
linear = LINEAR(2 + 4*b - i + 0*a + b*3 - 1)
min = MIN(a, b)
max = MAX(a, b, a)
element = ELEMENT(i; a, b)
shared = SHARED(a, b, a)
count = COUNT(0:10:00; a, b, b)
over = OVER(a, b)
departures = DEPARTURES(a, z, b)
last = LAST(a, z, b)"""
        self.assertEqual(Text(source).build().values()[4:], [4200, 600, 25200, 600, 2, 2, 24600, 6, 28200])

    def test_values(self):
        text = Text("a = 25:10:05\nb = -0:00:01\nc = +7\nd = -2147483647\ne = 596523:14:07\nf = 7:05")
        self.assertEqual(text.starts, [90605, -1, 7, -2147483647, 2147483647, 25500])

    def test_bounds(self):
        text = Text("a = 5 in 0..9\nb = 5 in ..9\nc = 5 in -1..\nd = 5 in ..\ne = 5")
        self.assertEqual(text.bounds, [(0, 9), (FULL[0], 9), (-1, FULL[1]), FULL, FULL])
        self.assertEqual((text.version, Text("e = 5").version, Text("e = 5 in ..").version), (2, 1, 2))

    def test_marks_of_an_editor(self):
        text = Text("\ufeffa = 5\r\n\r\nb = LINEAR(a)  # so\r\n")
        self.assertEqual(text.build().values(), [5, 5])
        self.assertEqual(text.saved([6, 0]), "\ufeffa = 6\r\n\r\nb = LINEAR(a)  # so\r\n")

    def test_names(self):
        text = Text("Zürich.12.w_1 = 5\n_x = LINEAR(Zürich.12.w_1)\nMAXIMUM = MAX(_x)\ninn = 4")
        self.assertEqual(text.names, ["Zürich.12.w_1", "_x", "MAXIMUM", "inn"])

    def test_names_first(self):
        """A name alone takes its number, and its formula may follow."""
        text = Text("c\nb\na = 5\nb = LINEAR(a)\nc = LINEAR(2 + b)\n")
        self.assertEqual((text.names, [row.makes for row in text.rows]), (["c", "b", "a"], [1, 0]))
        self.assertEqual(text.build().values(), [7, 5, 5])

    def test_clocks_go_round(self):
        """Times are told through a closed chain too."""
        text = Text("i = 0\nj = 1\nopen = 7:00:00\na = ELEMENT(i; open, d)\nb = LINEAR(2400 + a)\nc = ELEMENT(j; open, b)\nd = LINEAR(1800 + c)")
        self.assertEqual(text.clocks, [False, False, True, True, True, True, True])


class Wrong(unittest.TestCase):
    def said(self, source):
        with self.assertRaises(Problems) as why:
            Text(source, "s.lkt").build()
        return why.exception

    def one(self, source, line, column, *words):
        """There is one problem, at this place, and its sentence has these words."""
        problems = self.said(source).problems
        self.assertEqual([(p.line, p.column) for p in problems], [(line, column)], problems)
        for word in words:
            self.assertIn(word, problems[0].sentence)

    def test_each(self):
        self.one("", 1, 1, "no variable")
        self.one("# only a remark\n", 1, 1, "no variable")
        self.one("a 5", 1, 3, "'=' behind a")
        self.one("5 = a", 1, 1, "begins with the name")
        self.one("MAX = 5", 1, 1, "word of the language")
        self.one("a = 5 6", 1, 7, "should end here")
        self.one("a = 5 in 9..1", 1, 7, "above the highest")
        self.one("a = 5 in 6..9", 1, 5, "outside the bounds of a")
        self.one("a = 5 in 6", 1, 11, "'..'")
        self.one("a = 5 in 6..b", 1, 13, "a value")
        self.one("a = 7:60:00", 1, 5, "minutes and seconds")
        self.one("a = 7:00:60", 1, 5, "minutes and seconds")
        self.one("a = 7:0:00", 1, 5, "no value")
        self.one("a = - 5", 1, 5, "right before its number")
        self.one("a = 2147483648", 1, 5, "value range")
        self.one("a = 99999999999999999999", 1, 5, "value range")
        self.one("a = 5.5", 1, 6, "'.'")
        self.one("a = ", 1, 4, "a value")
        self.one("a = 5 in ..\nb = LINEAR(a) in 0..9", 2, 15, "bounds are for")
        self.one("a = 5\nb = max(a)", 2, 5, "did you mean MAX")
        self.one("a = 5\nb = FOO(a)", 2, 5, "the nine are LINEAR")
        self.one("a = 5\nb = MAX a", 2, 9, "'(' behind MAX")
        self.one("a = 5\nb = MAX(a", 2, 10, "')'")
        self.one("a = 5\nb = MAX(a,)", 2, 11, "the name of a variable")
        self.one("a = 5\nb = MAX(a, 7)", 2, 12, "the name of a variable")
        self.one("a = 5\nb = MAX(a, aa)", 2, 12, "no variable aa")
        self.one("start = 5\nb = MAX(strat)", 2, 9, "did you mean start")
        self.one("a = 5\nb = OVER(a)", 2, 5, "OVER takes 2 variables", "here are 1")
        self.one("a = 5\nb = ELEMENT(a, a)", 2, 14, "';' behind the index")
        self.one("a = 5\nb = COUNT(a; a)", 2, 11, "a value")
        self.one("a = 5\nb = COUNT(1000000001; a)", 2, 11, "outside -1000000000 to 1000000000")
        self.one("a = 5\nb = LINEAR(5)", 2, 5, "LINEAR takes 1 to 256")
        self.one("a = 5\nb = LINEAR(1001*a)", 2, 12, "a factor")
        self.one("a = 5\nb = LINEAR(7:00:00*a)", 2, 12, "not a clock time")
        self.one("a = 5\nb = LINEAR(a*a)", 2, 14, "whole number to multiply")
        self.one("a = 5\nb = LINEAR(1000000000 + 1 + a)", 2, 12, "what is added")
        self.one("a = 5\nb = MIN(" + ", ".join(["a"] * 257) + ")", 2, 5, "here are 257")
        self.one("a = 5\n\na = 6", 3, 1, "there already, in line 1")
        self.one("a = 5\nb\n", 2, 1, "no value and no formula")
        self.one("a = 5\na\n", 2, 1, "there already")
        self.one("a\na\na = 5", 2, 1, "there already, in line 1")
        self.one("a = 5 \x07", 1, 7, "no meaning")

    def test_too_many(self):
        self.one("\n".join(f"a{k} = {k}" for k in range(4097)), 4097, 1, "4,096 variables", "4,097")
        source = "a = 1\n" + "".join(f"b{k} = MIN({', '.join(['a'] * 256)})\n" for k in range(65))
        self.one(source, 66, 1, "16,384", "16,640")

    def test_all_at_once(self):
        problems = self.said("a = 5 6\nb = MAX(a)\nc = MAX(x)\nd == 4\n").problems
        self.assertEqual([p.line for p in problems], [1, 3, 4])

    def test_carets(self):
        said = str(self.said("start = 7:00:00\n\ttrips = DEPARTURES(start, hedway, start)  # so\nheadway = 600"))
        self.assertEqual(said, "s.lkt:2:28: there is no variable hedway; did you mean headway?\n"
                               "    \ttrips = DEPARTURES(start, hedway, start)  # so\n"
                               "    \t                          ^^^^^^")

    def test_a_terminal_is_not_driven(self):
        self.assertNotIn("\x1b", str(self.said("a = \x1b[31m5")))

    def test_circles(self):
        self.one("a = LINEAR(b)\nb = LINEAR(1 + c)\nc = MAX(d, a)\nd = 5", 1, 1, "a needs b needs c needs a")
        self.one("d = 5\na = LINEAR(a)", 2, 1, "a needs a")
        self.one("a = ELEMENT(b; c)\nb = LINEAR(a)\nc = 0", 1, 1, "a needs b needs a")

    def test_circles_of_choices(self):
        source = "i = {}\nj = {}\nopen = 7:00:00\na = ELEMENT(i; open, d)\nb = LINEAR(2400 + a)\nc = ELEMENT(j; open, b)\nd = LINEAR(1800 + c)"
        self.assertEqual(Text(source.format(0, 1)).build().values()[3:], [25200, 27600, 27600, 29400])
        self.one(source.format(1, 1), 4, 1, "a needs d needs c needs b needs a")
        # an index that a formula makes is worked out before the circle is followed
        self.one("k = 1\n" + source.format(0, 1).replace("i = 0", "i = LINEAR(k)"), 5, 1, "a needs d needs c needs b needs a")
        # of two circles the one that is chosen is told
        self.one("i = 1\na = ELEMENT(i; b, c)\nb = LINEAR(1 + a)\nc = LINEAR(2 + a)", 2, 1, "a needs c needs a")
        # the least variable that cannot be worked out need not be on the circle itself
        self.one("top = LINEAR(b)\n" + source.format(1, 1), 1, 1, "b needs a needs d needs c needs b")


class Saved(unittest.TestCase):
    def test_only_numbers_change(self):
        text = Text(SUNDAY)
        starts = list(text.starts)
        starts[text.numbers["headway"]] = 720
        starts[text.numbers["other.end"]] = 100000
        changed = [(a, b) for a, b in zip(SUNDAY.split("\n"), text.saved(starts).split("\n")) if a != b]
        self.assertEqual(changed, [("headway       = 0:10:00   in 0:01:00..2:00:00", "headway       = 0:12:00   in 0:01:00..2:00:00"),
                                   ("other.end     = 8:00:00", "other.end     = 27:46:40")])
        self.assertEqual(Text(text.saved(starts)).starts, starts)

    def test_nothing_changes(self):
        self.assertEqual(Text(SUNDAY).saved(Text(SUNDAY).starts), SUNDAY)

    def test_columns_stay(self):
        self.assertEqual(Text("a = 5    # one\nb = 7 in 0..99").saved([12345, 8]), "a = 12345 # one\nb = 8 in 0..99")
        self.assertEqual(Text("a = 500    # one").saved([7]), "a = 7      # one")


class Decompiled(unittest.TestCase):
    def test_rows_in_another_order(self):
        rows = [Row.linear(2, 0, [(0, 1)]), Row.linear(1, 5, [(2, -1)])]
        model = Model.build([3, 0, 0], rows)
        source = model_text(model, ["v0", "v1", "v2"], 1)
        self.assertEqual(source, "v0 = 3\nv1\nv2\nv2 = LINEAR(v0)\nv1 = LINEAR(5 - v2)\n")
        self.assertEqual(Text(source).compiled(), model.write())

    def test_versions(self):
        for version in (1, 2):
            data = Model.build([0, 3], [Row.of(2, 0, [1])]).write(version)
            self.assertEqual(Text(model_text(Model.read(data), ["v0", "v1"], version)).compiled(), data)

    def test_examples(self):
        for path in sorted(EXAMPLES.glob("*.lkh")):
            data = path.read_bytes()
            model = Model.read(data)
            self.assertEqual(Text(model_text(model, [f"v{v}" for v in range(model.n)], 1)).compiled(), data, path.name)


if __name__ == "__main__":
    unittest.main()
