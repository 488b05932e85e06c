"""The binding: each of the calls, every refusal of it with number, place and sentence, and the examples of the pages."""
import doctest
import importlib
import inspect
import pkgutil
import subprocess
import tempfile
import threading
import unittest
from pathlib import Path

import lukhandro
from lukhandro import (BLANK, FULL, BoardRefused, FeedWindow, FrequenciesRefused, Model, Refused, Row, WrittenRefused, departures, read_frequencies, salvage,
                       to_version_1, to_version_2, write_frequencies)
from lukhandro.library import CALLS, Unloadable, library, places
from lukhandro.refused import BOARD_SENTENCES, REASONS, SENTENCES
from .support import EXAMPLES


def load_tests(loader, tests, pattern):
    """The examples of every page are tests too."""
    for page in pkgutil.iter_modules(lukhandro.__path__):
        if page.name != "__main__":
            tests.addTests(doctest.DocTestSuite(importlib.import_module(f"lukhandro.{page.name}")))
    return tests


def model_a(**more):
    rows = [Row.departures(3, 0, 1, 2), Row.last(4, 0, 1, 2), Row.linear(5, 2, [(3, 4)])]
    return Model.build([25200, 28800, 600, 0, 0, 0], rows, **more)


class Calls(unittest.TestCase):
    def refused(self, number, place, call, *words, kind=Refused):
        with self.assertRaises(kind) as why:
            call(*words)
        self.assertEqual((why.exception.number, why.exception.place), (number, place))
        self.assertTrue(why.exception.sentence)

    def test_all_calls_are_there(self):
        for call in CALLS:
            self.assertTrue(callable(getattr(library(), call)))

    def test_build_and_looking(self):
        model = model_a()
        self.assertEqual(model.values(), [25200, 28800, 600, 6, 28200, 26])
        self.assertEqual((model.numbers(), model.order()), ([0, 0, 0, 1, 1, 2], [0, 1, 2]))
        self.assertEqual((model.readers(0), model.readers(3), model.readers(5)), ([0, 1], [2], []))
        self.assertEqual((model.inputs(0), model.inputs(2), model.inputs(9)), ([0, 1, 2], [3], []))
        self.assertEqual((model.kept, model.evaluations, model.blanks, model.log()), (0, 3, 0, []))
        self.assertEqual(model.rows()[2], Row.linear(5, 2, [(3, 4)]))
        self.assertEqual(model.made(), {3: 0, 4: 1, 5: 2})

    def test_build_refuses(self):
        self.refused(1, 0, Model.build, [], [])
        self.refused(2, 0, Model.build, [0, 0], [Row.of(10, 1, [0])])
        self.refused(3, 0, Model.build, [0, 0], [Row.of(8, 1, [0])])
        self.refused(4, 0, Model.build, [0, 0], [Row.linear(1, 0, [(0, 1001)])])
        self.refused(4, 1, Model.build, [0, 0], [Row.linear(1, 0, [(0, 1)])], [FULL, (0, 5)])
        self.refused(5, 1, Model.build, [0, 0], [Row.linear(1, 0, [(0, 1)])] * 2)
        self.refused(6, 0, Model.build, [0], [Row.linear(0, 0, [(0, 1)])])
        self.refused(7, 0, Model.build, [BLANK], [])
        self.refused(20, 1, Model.build, [1, 0], [Row.element(1, 0, [0, 1])])

    def test_reasons(self):
        rows = [Row.linear(3, 0, [(0, 1), (0, 1)]), Row.element(4, 1, [2]), Row.departures(5, 1, 1, 2), Row.linear(6, 0, [(5, 1)]),
                Row.last(7, 1, 1, 1)]
        model = Model.build([2147483647, 1, 0, 0, 0, 0, 0, 0], rows)
        self.assertEqual([model.reason(v) for v in range(3, 8)], [1, 2, 3, 4, 5])
        self.assertEqual(model.blanks, 5)
        self.assertEqual(set(REASONS), {1, 2, 3, 4, 5})

    def test_trial_by_each_route(self):
        model = model_a()
        for route, evaluations in ((1, 3), (2, 1), (3, 1)):
            trial = model.trial([(1, 28801)], [3], route)
            self.assertEqual((trial.results, trial.reasons, trial.evaluations), ([7], [0], evaluations))
            self.assertEqual(sum(trial.flags), evaluations)
        trial = model.trial({2: 0}, [3, 5], 2)
        self.assertEqual((trial.results, trial.reasons), ([None, None], [3, 4]))
        self.assertEqual(model.value(3), 6)

    def test_trial_refuses(self):
        model = model_a(bounds=[FULL, FULL, (60, 7200), FULL, FULL, FULL])
        self.refused(1, 0, model.trial, [(0, 0)] * 65)
        self.refused(1, 0, model.trial, [], [0] * 33)
        self.refused(9, 0, model.trial, [], [], 4)
        self.refused(10, 1, model.trial, [(0, 0), (3, 1)])
        self.refused(11, 1, model.trial, [(0, 0), (0, 1)])
        self.refused(12, 0, model.trial, [(0, BLANK)])
        self.refused(13, 0, model.trial, [], [6])
        self.refused(17, 0, model.trial, [(2, 60000)])
        with self.assertRaises(ValueError):
            model.trial([(70000, 1)])
        with self.assertRaises(ValueError):
            model.trial([(0, 2 ** 40)])

    def test_keep_and_back(self):
        model = model_a()
        for k in range(70):
            model.keep([(2, 601 + k)])
        self.assertEqual((model.kept, len(model.log()), model.log()[-1]), (70, 64, [(2, 669)]))
        for _ in range(64):
            model.take_back()
        self.assertEqual((model.kept, model.value(2)), (6, 606))
        self.refused(15, 0, model.take_back)

    def test_a_copy_is_its_own(self):
        model = model_a()
        twin = model.copy()
        twin.keep([(2, 720)])
        self.assertEqual((model.value(5), twin.value(5), model.kept, twin.kept), (26, 22, 0, 1))

    def test_figures(self):
        moves = [[(1, 28801)], [(2, 0)], [], [(1, 28500)], [(2, 300), (1, 28801)], [(1, 25200)]]
        figures = model_a().figures(moves, 5)
        self.assertEqual(figures, ((6,) + (0,) * 21, 1, 2, 54, 138, (14, 12, 10)))

    def test_figures_are_cut_into_thousands(self):
        moves = [[(2, 60 + k)] for k in range(2500)] + [[(5, 1)]]
        model = model_a()
        figures = model.figures(moves, 5)
        results = [model.trial(move, [5], 1).results[0] for move in moves[:-1]]
        self.assertEqual((figures.accepted, figures.by_number[10]), (2500, 1))
        self.assertEqual((figures.least, figures.greatest, figures.total), (min(results), max(results), sum(results)))

    def test_departures(self):
        self.assertEqual(departures([(21600, 79200, 1800)])[-1], 77400)
        self.assertEqual(departures([]), [])
        self.refused(1, 0, departures, [(0, 1, 1)] * 65, kind=BoardRefused)
        self.refused(2, 1, departures, [(0, 1, 1), (5, 9, 0)], kind=BoardRefused)
        self.refused(3, 0, departures, [(0, 10, 1), (5, 9, 1)], kind=BoardRefused)
        self.refused(4, 0, departures, [(0, 2001, 1)], kind=BoardRefused)

    def test_files(self):
        data = (EXAMPLES / "model-a.lkh").read_bytes()
        self.assertEqual(Model.read(data).write(), data)
        self.assertEqual(to_version_1(to_version_2(data)), data)
        self.assertEqual(Model.read(to_version_2(data)).write(2), to_version_2(data))
        self.refused(14, 20, Model.read, data[:-1])
        self.refused(14, 3, Model.read, data[:3])
        self.refused(14, 0, to_version_1, data)
        self.refused(18, 2, to_version_1, model_a(bounds=[FULL, FULL, (0, 999), FULL, FULL, FULL]).write())

    def test_salvage(self):
        data = (EXAMPLES / "model-a.lkh").read_bytes()
        self.assertEqual(salvage(data), (data, [], []))
        saved = salvage(data[:60])
        self.assertEqual((saved.rows, saved.variables), ([0, 1, 2], []))
        self.refused(14, 0, salvage, b"\x09" + data[1:])

    def test_sentences(self):
        self.assertEqual((sorted(SENTENCES), sorted(BOARD_SENTENCES)), (list(range(1, 22)), list(range(1, 6))))

    def test_buffers_outlive_many_calls(self):
        """Models come and go, in threads too, and each has its own buffers."""
        found = []

        def work(k):
            model = model_a()
            for x in range(200):
                model.keep([(2, 60 + k + x)])
            found.append(model.value(2) == 60 + k + 199)
        threads = [threading.Thread(target=work, args=(k,)) for k in range(4)]
        for thread in threads:
            thread.start()
        for thread in threads:
            thread.join()
        self.assertEqual(found, [True] * 4)


class Pages(unittest.TestCase):
    def test_typed_and_documented(self):
        """Every public function, class and method says what it is for, and its parameters and its answer have types."""
        for page in pkgutil.iter_modules(lukhandro.__path__):
            if page.name == "__main__":
                continue
            module = importlib.import_module(f"lukhandro.{page.name}")
            self.assertTrue(module.__doc__, page.name)
            for name, what in vars(module).items():
                if name.startswith("_") or getattr(what, "__module__", None) != module.__name__:
                    continue
                found = [(name, what)] if inspect.isfunction(what) else []
                if inspect.isclass(what):
                    self.assertTrue(what.__doc__, f"{page.name}.{name}")
                    members = [(n, m.__func__ if isinstance(m, classmethod) else m.fget if isinstance(m, property) else m) for n, m in vars(what).items()]
                    found = [(f"{name}.{n}", m) for n, m in members if inspect.isfunction(m) and m.__module__ == module.__name__ and not n.startswith("_")]
                for place, function in found:
                    with self.subTest(place=f"{page.name}.{place}"):
                        self.assertIn("return", function.__annotations__)
                        wanted = [p for p in inspect.signature(function).parameters if p not in ("self", "cls")]
                        self.assertEqual([p for p in wanted if p not in function.__annotations__], [])
                        self.assertTrue(function.__doc__, "no sentence")


class Loading(unittest.TestCase):
    def test_places(self):
        import os
        before = os.environ.pop("LUKHANDRO_LIBRARY", None)
        try:
            self.assertEqual([path.name for path in places()], ["liblukhandro.so"] * 2)
            os.environ["LUKHANDRO_LIBRARY"] = "/somewhere/else.so"
            self.assertEqual([str(path) for path in places()], ["/somewhere/else.so"])
        finally:
            os.environ.pop("LUKHANDRO_LIBRARY", None)
            if before is not None:
                os.environ["LUKHANDRO_LIBRARY"] = before

    def test_unloadable_says_why(self):
        from unittest import mock
        from lukhandro import library as page
        with mock.patch.object(page, "places", lambda: []), self.assertRaisesRegex(Unloadable, "run tools/lukhandro once"):
            page._load()
        with mock.patch("platform.machine", lambda: "aarch64"), self.assertRaisesRegex(Unloadable, "this machine is aarch64"):
            page._load()
        with mock.patch.object(page, "places", lambda: [Path(__file__)]), self.assertRaisesRegex(Unloadable, "cannot be used"):
            page._load()

    def test_a_library_of_another_interface(self):
        from unittest import mock
        from lukhandro import library as page
        with tempfile.TemporaryDirectory() as room:
            place = Path(room) / "other.so"
            source = b"unsigned lukhandro_interface(void) { return 99; }"
            subprocess.run(["cc", "-shared", "-fPIC", "-x", "c", "-", "-o", str(place)], input=source, check=True)
            with mock.patch.object(page, "places", lambda: [place]), self.assertRaisesRegex(Unloadable, "has the interface 99, and this package is for 1"):
                page._load()


class Frequencies(unittest.TestCase):
    HEAD = b"trip_id,start_time,end_time,headway_secs\n"

    def test_there_and_back(self):
        windows = [FeedWindow(b'say "hi", you', 0, 2147483647, 1, 1, 2), FeedWindow(b"\n", 360000, 59, 2147483647, 0, 3), FeedWindow(b"A", 1, 2, 3, 0, 5)]
        data = write_frequencies(windows)
        self.assertEqual(read_frequencies(data), windows)
        self.assertEqual(write_frequencies(read_frequencies(data)), data)
        self.assertEqual(read_frequencies(write_frequencies([])), [])

    def refused(self, kind, number, place, call, given):
        with self.assertRaises(kind) as why:
            call(given)
        self.assertEqual((why.exception.number, why.exception.place), (number, place))
        self.assertTrue(why.exception.sentence)

    def test_refused(self):
        for number, rows in ((3, b"A\n"), (4, b'A",6:00:00,7:00:00,60\n'), (5, b"A,6:00,7:00:00,60\n"), (6, b"A,6:00:00,7:00:00,0"), (8, b",6:00:00,7:00:00,60")):
            self.refused(FrequenciesRefused, number, 2, read_frequencies, self.HEAD + rows)
        self.refused(FrequenciesRefused, 2, 1, read_frequencies, b"")
        self.refused(FrequenciesRefused, 7, 2, read_frequencies, b"exact_times," + self.HEAD + b"2,A,6:00:00,7:00:00,60")
        good = FeedWindow(b"A", 0, 1, 1)
        for number, other in ((5, {"start": -1}), (5, {"end": -1}), (6, {"headway": 0}), (7, {"exact": 2}), (8, {"trip": b""})):
            self.refused(WrittenRefused, number, 1, write_frequencies, [good, good._replace(**other)])


if __name__ == "__main__":
    unittest.main()
