"""The command as users type it: what each prints, its exit status, and its manners."""
import json
import os
import re
import stat
import subprocess
import sys
import tempfile
import unittest
from pathlib import Path

from lukhandro import FULL, Model, to_version_2
from lukhandro.command import parser
from .support import EXAMPLES, ROOT, Case

SUNDAY = EXAMPLES / "sunday.lkt"
MODEL_A = EXAMPLES / "model-a.lkh"


class Room(Case):
    """Each test has a folder of its own."""

    def setUp(self):
        self.room = Path(tempfile.mkdtemp())
        self.addCleanup(lambda: subprocess.run(["rm", "-rf", str(self.room)]))

    def file(self, name, data):
        place = self.room / name
        place.write_bytes(data if isinstance(data, bytes) else data.encode())
        return place


class Looking(Room):
    def test_sheet(self):
        out, _ = self.typed("sheet", SUNDAY, "*last*", "trips")
        self.assertEqual(out, "trips             6\nlast        7:50:00\nother.last  7:30:00\n12 values, none of them blank\n")

    def test_sheet_of_blanks(self):
        place = self.file("b.lkt", "s = 7:00:00\ne = 6:00:00\nh = 0\nt = DEPARTURES(s, e, h)\nl = LAST(s, e, s)\nx = LINEAR(t)\n")
        out, _ = self.typed("sheet", place)
        self.assertEqual(out.splitlines()[3:], ["t        -  the headway is 0 or less", "l        -  the window has no departures",
                                                "x        -  a blank input stops it", "6 values, 3 of them blank"])

    def test_sheet_of_a_model_file(self):
        out, _ = self.typed("sheet", MODEL_A)
        self.assertEqual(out.splitlines()[3:], ["v3      6", "v4  28200", "v5     26", "6 values, none of them blank"])
        names = self.file("n.lkt", "start = 7:00:00\nend = 8:00:00\nheadway = 600\ntrips = DEPARTURES(start, end, headway)\n"
                                   "last = LAST(start, end, headway)\ncrew = LINEAR(trips)\n")
        out, _ = self.typed("sheet", MODEL_A, "--names", names, "last", "crew")
        self.assertEqual(out, "last  7:50:00\ncrew       26\n6 values, none of them blank\n")
        self.assertIn("names 12 variables, and the model file has 6", self.typed("sheet", MODEL_A, "--names", SUNDAY, status=1)[1])

    def test_sheet_for_machines(self):
        found = json.loads(self.typed("sheet", SUNDAY, "--json", "headway", "crew")[0])
        self.assertEqual((found["variables"], found["blanks"]), (12, 0))
        self.assertEqual(found["values"], [{"name": "headway", "value": 600, "shown": "0:10:00", "lowest": 60, "highest": 7200},
                                           {"name": "crew", "value": 26, "shown": "26", "formula": "LINEAR(2 + 4*trips)"}])

    def test_standard_input(self):
        self.assertEqual(self.typed("sheet", "-", stdin="a = 7:00:00")[0], "a  7:00:00\n1 value, none of them blank\n")
        self.assertEqual(self.typed("sheet", "-", stdin=MODEL_A.read_bytes()), self.typed("sheet", MODEL_A))

    def test_try(self):
        out, _ = self.typed("try", SUNDAY, "headway=0:12:00")
        self.assertEqual(out.splitlines(), ["             now    tried", "headway  0:10:00  0:12:00", "trips          6        5",
                                            "last     7:50:00  7:48:00", "crew          26       22", "latest   7:50:00  7:48:00",
                                            "5 values change; route 1, 5 evaluations"])

    def test_try_asks(self):
        for route, evaluations in (("1", 5), ("2", 2), ("3", 2)):
            out, _ = self.typed("try", SUNDAY, "headway=0:12:00", "--ask", "crew", "--route", route)
            self.assertEqual(out, f"      now  tried\ncrew   26     22\n1 value changes; route {route}, {evaluations} evaluations\n")
        for words in (("headway=0:12:00", "--ask", "crew", "last"), ("--ask", "crew", "last", "headway=0:12:00"),
                      ("--ask", "crew", "--ask", "last", "--", "headway=0:12:00")):
            self.assertIn("2 values change; route 3, 3 evaluations", self.typed("try", SUNDAY, *words)[0])
        self.assertIn("what should be moved?", self.typed("try", SUNDAY, "--ask", "crew", status=2)[1])
        out, _ = self.typed("try", SUNDAY, "headway=0:12:00", "--ask", "spare", "--json")
        self.assertEqual(json.loads(out), {"route": 3, "evaluations": 1, "changes": [
            {"name": "spare", "old": 1, "old_shown": "1", "new": {"value": 1, "shown": "1"}}]})

    def test_try_blank(self):
        out, _ = self.typed("try", SUNDAY, "end=7:00:00", "other.end=7:00:00")
        self.assertIn("last        7:50:00        -  the window has no departures", out)
        self.assertIn("latest      7:50:00        -  a blank input stops it", out)

    def test_try_refused(self):
        for move, sentence in (("headway=60000", "headway = 16:40:00 lies outside its bounds 0:01:00..2:00:00"),
                               ("crew=5", "crew is made by a formula"), ("hedway=5", "no variable hedway; did you mean headway?"),
                               ("headway=7:61", "headway: 7:61 is no clock time"), ("headway=", "nothing is no value")):
            out, err = self.typed("try", SUNDAY, move, status=1)
            self.assertEqual(out, "")
            self.assertIn(sentence, err)
        self.assertIn("headway is moved twice", self.typed("try", SUNDAY, "headway=61", "headway=62", status=1)[1])
        self.assertIn("has no '='", self.typed("try", SUNDAY, "headway", status=2)[1])
        self.assertIn("name it with --ask", self.typed("try", SUNDAY, "headway=61", "--route", "2", status=2)[1])

    def test_try_round_in_a_circle(self):
        place = self.file("c.lkt", "i = 0\nj = 1\nopen = 7:00:00\na = ELEMENT(i; open, c)\nc = ELEMENT(j; open, a)\n")
        self.assertIn("goes round in a circle: a needs c needs a", self.typed("try", place, "i=1", status=1)[1])

    def test_why(self):
        place = self.file("w.lkt", "s = 7:00:00\ne = 8:00:00\nk = 0\nh = LINEAR(600*k)\nt = DEPARTURES(s, e, h)\nx = LINEAR(2 + t)\ny = MAX(x)\n"
                                   "i = 5\nz = ELEMENT(i; s, e)\nzz = ELEMENT(k; z, s)\n")
        self.assertEqual(self.typed("why", place, "y")[0].splitlines(), [
            "y is blank: a blank input stops it: MAX(x)", "x is blank: a blank input stops it: LINEAR(2 + t)",
            "t is blank: the headway is 0 or less: DEPARTURES(s, e, h)", "  s = 7:00:00", "  e = 8:00:00", "  h = 0", "  which comes from k = 0"])
        self.assertEqual(self.typed("why", place, "zz")[0].splitlines(), [
            "zz is blank: a blank input stops it: ELEMENT(k; z, s)", "z is blank: the index lies outside: ELEMENT(i; s, e)",
            "  i = 5", "  s = 7:00:00", "  e = 8:00:00"])
        self.assertEqual(self.typed("why", place, "h")[0], "h = 0 = LINEAR(600*k)\n  k = 0\n")
        place = self.file("e.lkt", "k = 1\ns = 7:00\none = LAST(s, s, s)\ntwo = ELEMENT(s; s)\nboth = ELEMENT(k; one, two)\nnone = ELEMENT(one; two, s)\n")
        self.assertEqual(self.typed("why", place, "both")[0].splitlines()[1], "two is blank: the index lies outside: ELEMENT(s; s)")
        self.assertEqual(self.typed("why", place, "none")[0].splitlines()[1], "one is blank: the window has no departures: LAST(s, s, s)")
        self.assertEqual(self.typed("why", place, "k")[0], "k = 1: a value that you set\n")


class Files(Room):
    def test_compile_and_decompile(self):
        out = self.room / "s.lkh"
        self.typed("compile", SUNDAY, "-o", out)
        text, _ = self.typed("decompile", out)
        again = self.room / "again.lkh"
        self.typed("compile", "-", "-o", again, stdin=text)
        self.assertEqual(again.read_bytes(), out.read_bytes())
        named, _ = self.typed("decompile", out, "--names", SUNDAY)
        self.assertIn("crew          = LINEAR(2 + 4*trips)", named)

    def test_compile_beside(self):
        place = self.file("m.lkt", "a = 5\n")
        _, err = self.typed("compile", place)
        self.assertIn("wrote", err)
        self.assertEqual((self.room / "m.lkh").read_bytes(), Model.build([5], []).write())
        self.assertIn("over what it is made from", self.typed("compile", place, "-o", place, status=2)[1])
        self.assertEqual(place.read_text(), "a = 5\n")

    def test_compile_versions(self):
        place = self.file("m.lkt", "a = 5 in 0..9\n")
        self.typed("compile", place, "--version", "2")
        self.assertIn("a has bounds, which a file of version 1 cannot hold", self.typed("compile", place, "--version", "1", status=1)[1])

    def test_compile_to_a_pipe(self):
        done = subprocess.run([sys.executable, "-m", "lukhandro", "compile", "-"], input=b"a = 5", capture_output=True,
                              env=dict(os.environ, PYTHONPATH=str(ROOT / "python")))
        self.assertEqual(done.stdout, Model.build([5], []).write())

    def test_wrong_text(self):
        place = self.file("m.lkt", "a = 5\nb = MAX(c)\nd = \n")
        for command in ("sheet", "compile", "check"):
            out, err = self.typed(command, place, status=1)
            self.assertEqual((out, len(re.findall(r"m\.lkt:\d+:\d+: ", err))), ("", 2))

    def test_no_text(self):
        place = self.file("m.lkt", b"a = 5\nb = \xff\n")
        self.assertIn("m.lkt:2:5: this is no text in UTF-8", self.typed("sheet", place, status=1)[1])

    def test_check(self):
        self.assertIn("is good: a model file of version 1; 6 variables, 3 formulas, 7 inputs, 0 blanks", self.typed("check", MODEL_A)[0])
        self.assertEqual(json.loads(self.typed("check", SUNDAY, "--json")[0])["version"], 2)
        found = json.loads(self.typed("check", "-", "--json", stdin="a = 5\nb = MAX(c)", status=1)[0])
        self.assertEqual(found["problems"], [{"line": 2, "column": 9, "length": 1, "sentence": "there is no variable c"}])
        found = json.loads(self.typed("check", "-", "--json", stdin=b"\x01\x00", status=1)[0])
        self.assertEqual((found["good"], len(found["problems"])), (False, 1))

    def test_check_refused(self):
        data = bytearray(MODEL_A.read_bytes())
        for at, value, sentence in ((48, 77, "refused 2 0: row 0, which makes v3, has the kind 77"), (0, 9, "its version is 9"),
                                    (50, 9, "row 0, which makes a variable that is not there"), (62, 3, "row 1, which makes v3, makes it a second time"),
                                    (84, 5, "v3 cannot be worked out: the formulas go round in a circle: v3 needs v5 needs v3"),
                                    (24 + 12, 1, "refused 7 3: v3 is made by a formula and has a start value"),
                                    (76, 255, "refused 4 2: row 2, which makes v5, has a factor or a number outside")):
            with self.subTest(at=at):
                bad = data[:]
                bad[at] = value
                if at == 76:
                    bad[76:80] = (2 * 10 ** 9).to_bytes(4, "little")
                self.assertIn(sentence, self.typed("check", self.file("bad.lkh", bytes(bad)), status=1)[1])
        self.assertIn("it has 5 bytes, fewer than a header", self.typed("check", self.file("bad.lkh", bytes(data[:5])), status=1)[1])
        self.assertIn("its length is not the one", self.typed("check", self.file("bad.lkh", bytes(data[:99])), status=1)[1])

    def test_convert(self):
        up, back = self.room / "up.lkh", self.room / "back.lkh"
        self.typed("convert", MODEL_A, "--to", "2", "-o", up)
        self.assertEqual(up.read_bytes(), to_version_2(MODEL_A.read_bytes()))
        self.typed("convert", up, "--to", "1", "-o", back)
        self.assertEqual(back.read_bytes(), MODEL_A.read_bytes())
        self.assertIn("of version 1 already", self.typed("convert", back, "--to", "1", "-o", up, status=1)[1])
        bounded = self.file("b.lkh", Model.build([5, 6], [], [FULL, (0, 9)]).write())
        self.assertIn("v1 has bounds", self.typed("convert", bounded, "--to", "1", "-o", up, status=1)[1])
        self.assertIn("is no model file", self.typed("convert", SUNDAY, "--to", "1", "-o", up, status=1)[1])

    def test_salvage(self):
        out, damaged = self.room / "saved.lkh", self.file("d.lkh", MODEL_A.read_bytes()[:-4])
        names = self.file("n.lkt", "start = 1\nend = 2\nheadway = 3\ntrips = MAX(start)\nlast = MAX(end)\ncrew = MAX(trips)\n")
        _, err = self.typed("salvage", damaged, "-o", out, "--names", names)
        self.assertIn("row 2, which made crew, is dropped", err)
        self.assertIn("saved: 6 variables, 2 formulas; 1 formula dropped, 0 values set to 0", err)
        self.assertEqual(self.typed("sheet", out)[0].splitlines()[3:5], ["v3      6", "v4  28200"])
        found = json.loads(self.typed("salvage", self.file("d.lkh", MODEL_A.read_bytes()[:30]), "-o", out, "--json")[0])
        self.assertEqual(found["reset"], ["v1", "v2", "v3", "v4", "v5"])
        self.assertIn("fewer than a header", self.typed("salvage", self.file("d.lkh", b"\x01\x00"), "-o", out, status=1)[1])
        self.assertIn("its version is not 1", self.typed("salvage", self.file("d.lkh", b"\x07\x00" + bytes(30)), "-o", out, status=1)[1])


class Batches(Room):
    def test_batch(self):
        out, _ = self.typed("batch", SUNDAY, EXAMPLES / "moves.csv", "--ask", "crew")
        self.assertIn("refused          1  17: a value outside its bounds\n", out)
        self.assertIn("greatest        98\n", out)
        each = self.room / "each.csv"
        out, _ = self.typed("batch", SUNDAY, EXAMPLES / "moves.csv", "--ask", "crew", "--each", each, "--json", "--route", "1")
        self.assertEqual(json.loads(out), {"asked": "crew", "moves": 5, "accepted": 4, "refused": {"17": 1}, "blank": 0, "least": 2,
                                           "greatest": 98, "sum": 152, "evaluations": [18, 8, 8]})
        self.assertEqual(each.read_text(), "line,number,crew,reason,evaluations\n2,0,22,,5\n3,0,30,,4\n4,0,2,,4\n5,0,98,,5\n6,17,,,0\n")

    def test_many(self):
        """More than a thousand moves, and figures and single results agree."""
        moves = "headway\n" + "".join(f"{30 + k}\n" for k in range(3333))
        each = self.room / "each.csv"
        found = json.loads(self.typed("batch", SUNDAY, "-", "--ask", "crew", "--each", each, "--json", stdin=moves)[0])
        lines = [line.split(",") for line in each.read_text().splitlines()[1:]]
        values = [int(line[2]) for line in lines if line[1] == "0"]
        self.assertEqual((found["moves"], found["refused"]), (3333, {"17": 30}))
        self.assertEqual((found["accepted"], found["sum"], found["least"], found["greatest"]), (len(values), sum(values), min(values), max(values)))
        self.assertEqual(found["evaluations"][2], sum(int(line[4]) for line in lines))

    def test_blanks(self):
        found = json.loads(self.typed("batch", SUNDAY, "-", "--ask", "last", "--json", stdin="end\n7:00:00\n6:00:00\n")[0])
        self.assertEqual((found["blank"], found["least"], found["greatest"], found["sum"]), (2, None, None, 0))

    def test_wrong(self):
        for moves, sentence in (("", ":1: the first line should name variables"), ("hedway\n1\n", ":1: there is no variable hedway"),
                                ("headway,headway\n", ":1: headway is named twice"), ("headway\n1,2\n", ":2: the line has 2 fields"),
                                ("headway\n\n7:99\n", ":3: headway: 7:99 is no clock time"), ('headway\n"1\n', ":2: the fields cannot be told apart")):
            with self.subTest(moves=moves):
                self.assertIn("-" + sentence, self.typed("batch", SUNDAY, "-", "--ask", "crew", stdin=moves, status=1)[1])
        self.assertIn("not both", self.typed("batch", "-", "-", "--ask", "crew", status=2)[1])
        err = self.typed("batch", SUNDAY, "-", "--ask", "crew", stdin="headway\n" + "x\n" * 30, status=1)[1]
        self.assertEqual((err.count("x is no value"), err.splitlines()[-1]), (20, "and 10 more"))


class Manners(Room):
    def test_help_has_an_example_that_works(self):
        commands = next(action for action in parser()._actions if action.dest == "command").choices
        self.typed("--help")
        for name in commands:
            out, _ = self.typed(name, "--help")
            said = " ".join(out.split())
            example = said[said.index("Example: lukhandro ") + len("Example: lukhandro "):]
            if name == "serve":  # it serves until it is interrupted: test_serve types it
                continue
            with self.subTest(example=example):
                import shlex
                for part in ("part1.json", "part2.json"):
                    (self.room / part).write_text(self.typed("batch", SUNDAY, "examples/moves.csv", "--ask", "crew", "--json")[0])
                words = [word.replace("planned.lkt", str(self.room / "planned.lkt")) for word in shlex.split(example)]
                (self.room / "planned.lkt").write_bytes(self.typed("import", "examples/feed")[0].encode())
                words = [str(self.room / word) if "/" not in word and word.endswith((".lkh", ".zip", ".json")) else word for word in words]
                self.typed(*words, stdin="")

    def test_usage(self):
        for words in ((), ("nosuch",), ("sheet",), ("board", "examples/feed"), ("try", SUNDAY, "a=1", "--route", "4")):
            out, err = self.typed(*words, status=2)
            self.assertEqual(out, "")
            self.assertIn("usage: lukhandro", err)
        self.assertIn("cannot read nosuch: no such file", self.typed("sheet", "nosuch", status=2)[1])
        self.assertIn("cannot read /: is a directory", self.typed("sheet", "/", status=2)[1])

    def test_a_closed_pipe_is_no_error(self):
        place = self.file("many.lkt", "".join(f"a{k} = {k}\n" for k in range(4000)))
        command = f"{sys.executable} -m lukhandro sheet {place} | head -n 1; exit ${{PIPESTATUS[0]}}"
        done = subprocess.run(["bash", "-c", command], capture_output=True, env=dict(os.environ, PYTHONPATH=str(ROOT / "python")))
        self.assertEqual((done.returncode, done.stdout, done.stderr), (0, b"a0        0\n", b""))

    @unittest.skipUnless(os.path.exists("/dev/full"), "there is no /dev/full here")
    def test_a_full_disk(self):
        with open("/dev/full", "w") as full:
            done = subprocess.run([sys.executable, "-m", "lukhandro", "sheet", str(SUNDAY)], stdout=full, stderr=subprocess.PIPE,
                                  env=dict(os.environ, PYTHONPATH=str(ROOT / "python")))
        self.assertEqual(done.returncode, 2)
        self.assertIn(b"no space left", done.stderr)
        self.assertNotIn(b"Traceback", done.stderr)

    def test_a_file_that_cannot_be_written_loses_nothing(self):
        """The old file stays where the new one has no room, and nothing is left beside it."""
        out = self.file("out.lkh", b"old")
        limited = f"ulimit -f 0; {sys.executable} -m lukhandro compile {SUNDAY} -o {out}"
        done = subprocess.run(["bash", "-c", "trap '' XFSZ; " + limited], capture_output=True, env=dict(os.environ, PYTHONPATH=str(ROOT / "python")))
        self.assertEqual(done.returncode, 2, done.stderr)
        self.assertIn(b"cannot write", done.stderr)
        self.assertEqual((out.read_bytes(), os.listdir(self.room)), (b"old", ["out.lkh"]))

    def test_a_file_is_renamed_into_its_place(self):
        """Whoever has the old file open, here by another name, still has it whole."""
        out = self.file("out.lkh", b"old")
        os.link(out, self.room / "open")
        self.typed("compile", SUNDAY, "-o", out)
        self.assertEqual((self.room / "open").read_bytes(), b"old")
        self.assertGreater(out.stat().st_size, 100)

    def test_the_mode_of_a_file_stays(self):
        out = self.file("out.lkh", b"old")
        out.chmod(0o640)
        self.typed("compile", SUNDAY, "-o", out)
        self.assertEqual(stat.S_IMODE(out.stat().st_mode), 0o640)

    def test_no_colour_for_machines(self):
        self.assertNotIn("\033", "".join(self.typed("sheet", SUNDAY)) + "".join(self.typed("try", SUNDAY, "crew=1", status=1)))

    def test_a_library_that_is_not_there(self):
        out, err = self.typed("sheet", SUNDAY, status=2, LUKHANDRO_LIBRARY="/nowhere/lib.so")
        self.assertEqual(out, "")
        self.assertIn("the proved library is not there: /nowhere/lib.so", err)


class Installing(Room):
    def test_pip_installs_without_a_network(self):
        """pip makes and installs the package from the checkout alone, and the command that it installs works."""
        if subprocess.run([sys.executable, "-m", "pip", "--version"], capture_output=True).returncode:
            self.skipTest("there is no pip here")
        env = {**os.environ, "PIP_NO_INDEX": "1", "PIP_DISABLE_PIP_VERSION_CHECK": "1", "PIP_ROOT_USER_ACTION": "ignore"}
        done = subprocess.run([sys.executable, "-m", "pip", "install", "--quiet", "--target", str(self.room), str(ROOT / "python")],
                              capture_output=True, text=True, env=env)
        self.assertEqual(done.returncode, 0, done.stderr)
        done = subprocess.run([sys.executable, str(self.room / "bin" / "lukhandro"), "sheet", str(SUNDAY), "crew"], capture_output=True, text=True,
                              env=dict(os.environ, PYTHONPATH=str(self.room)), cwd=self.room)
        self.assertEqual((done.stdout, done.returncode), ("crew  26\n12 values, none of them blank\n", 0), done.stderr)


if __name__ == "__main__":
    unittest.main()
