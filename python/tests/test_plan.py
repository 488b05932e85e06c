"""The prompt: from a script, and through a pseudo-terminal as a planner sits at it."""
import fcntl
import os
import pty
import re
import select
import subprocess
import sys
import termios
import time
import unittest

from .support import EXAMPLES, ROOT
from .test_command import Room

SUNDAY = EXAMPLES / "sunday.lkt"


class Scripted(Room):
    def plan(self, script, status=0, name="p.lkt"):
        place = self.file(name, SUNDAY.read_bytes())
        out, err = self.typed("plan", place, stdin=script, status=status)
        return place, out, err

    def test_a_sitting(self):
        _, out, err = self.plan("try headway=0:12:00\nkeep\nsheet crew\nback\nsheet crew\nlog\n")
        self.assertIn("kept: headway 0:10:00 -> 0:12:00\ncrew  22\n12 values, none of them blank\n"
                      "taken back: headway 0:10:00 -> 0:12:00\ncrew  26\n12 values, none of them blank\nno move is kept or on trial\n", out)
        self.assertEqual(err, "")

    def test_save_changes_numbers_alone(self):
        place, out, err = self.plan("try headway=0:12:00 end=9:00\nkeep\nsave\n")
        self.assertIn("saved ", out)
        self.assertEqual(err, "")
        want = SUNDAY.read_text().replace("headway       = 0:10:00", "headway       = 0:12:00").replace("end           = 8:00:00", "end           = 9:00:00", 1)
        self.assertEqual(place.read_text(), want)

    def test_save_of_a_model_file(self):
        place = self.file("m.lkh", (EXAMPLES / "model-a.lkh").read_bytes())
        self.typed("plan", place, stdin="try v2=720\nkeep\nsave\n")
        self.assertIn("v5     22", self.typed("sheet", place)[0])

    def test_save_elsewhere(self):
        place, _, _ = self.plan(f"try headway=0:12:00\nkeep\nsave {self.room}/q.lkt\nquit\n")
        self.assertEqual(place.read_text(), SUNDAY.read_text())
        self.assertIn("0:12:00", (self.room / "q.lkt").read_text())

    def test_unsaved_is_said(self):
        for script in ("try headway=0:12:00\nkeep\nquit\n", "try headway=0:12:00\nkeep\n"):
            self.assertEqual(self.plan(script)[2], "1 kept move is not saved\n")
        self.assertEqual(self.plan("try headway=0:12:00\nkeep\nback\nquit\n")[2], "")

    def test_a_refused_move_is_not_on_trial(self):
        _, out, err = self.plan("try headway=0:12:00\ntry headway=60000\nkeep\nsheet headway\n", status=1)
        self.assertIn("line 2: headway = 16:40:00 lies outside its bounds", err)
        self.assertIn("line 3: no move is on trial", err)
        self.assertIn("headway  0:10:00", out)

    def test_drop(self):
        _, out, err = self.plan("try headway=0:12:00\ndrop\nkeep\ndrop\n", status=1)
        self.assertIn("dropped\n", out)
        self.assertIn("line 3: no move is on trial: try one first", err)
        self.assertIn("line 4: no move is on trial\n", err)

    def test_back_and_log(self):
        script = "".join(f"try headway={600 + k}\nkeep\n" for k in range(1, 67)) + "log\n" + "back\n" * 65 + "sheet headway\n"
        _, out, err = self.plan(script, status=1)
        self.assertIn(" 66  headway 0:11:05 -> 0:11:06\n", out)
        self.assertIn("headway  0:10:02", out)
        self.assertIn("no kept move is left to take back (only the latest 64 can be)", err)
        self.assertIn("no kept move is left to take back\n", self.plan("back\n", status=1)[2])

    def test_ask(self):
        _, out, err = self.plan("ask\nask crew last\ntry headway=0:12:00\ntry headway=0:12:00 --route 2\nask none\n")
        self.assertIn("asked: last, crew\n", out)
        self.assertIn("2 values change; route 3, 3 evaluations\n", out)
        self.assertIn("2 values change; route 2, 3 evaluations\n", out)
        self.assertEqual(out.count("nothing is asked: try shows all that changes\n"), 2)

    def test_why_and_help(self):
        _, out, err = self.plan("try end=7:00:00 other.end=7:00:00\nkeep\nwhy latest\nhelp\nhelp try\n")
        self.assertIn("latest is blank: a blank input stops it: MAX(last, other.last)\nlast is blank: the window has no departures: "
                      "LAST(start, end, headway)\n  start = 7:00:00\n  end = 7:00:00\n  headway = 0:10:00\n", out)
        self.assertIn("quit: leaves; asks first if kept moves are not saved.\n", out)
        self.assertIn("Example: try headway=0:12:00 end=8:30:00\n", out)

    def test_what_is_wrong(self):
        script = "tyr headway=1\ntry\ntry headway\nwhy\nwhy nosuch\nkeep it\nask *\nsave a b\ntry headway=61 --route 5\ntry 'a\nhelp nosuch\nsheet nosuch*\n"
        _, _, err = self.plan("# a remark\n\n" + script.replace("ask *", "ask *\n"), status=1)
        for sentence in ("line 3: there is no command tyr; did you mean try?", "what should be moved?", "has no '='", "why takes one name",
                         "no variable nosuch", "keep takes nothing behind it", "save takes one file", "a route is 1, 2 or 3", "no closing quotation",
                         "there is no command nosuch", "no name fits nosuch*"):
            self.assertIn(sentence, err)

    def test_too_many_asked(self):
        place = self.file("many.lkt", "".join(f"a{k} = {k}\n" for k in range(40)))
        self.assertIn("at most 32", self.typed("plan", place, stdin="ask *\n", status=1)[1])

    def test_script(self):
        commands = self.file("commands", "try headway=0:12:00\nkeep\nsheet crew\n")
        self.assertIn("crew  22", self.typed("plan", SUNDAY, "--script", commands)[0])
        self.assertIn("crew  22", self.typed("plan", "-", "--script", commands, stdin=SUNDAY.read_text())[0])
        self.assertIn("--script FILE", self.typed("plan", "-", status=2)[1])
        save = self.file("save", "save\n")
        self.assertIn("came from standard input", self.typed("plan", "-", "--script", save, stdin="a = 5", status=1)[1])


class Terminal:
    """A planner at a pseudo-terminal: types lines, and sees what is shown."""

    def __init__(self, *words, cwd, state):
        self.ours, theirs = pty.openpty()
        env = dict(os.environ, PYTHONPATH=str(ROOT / "python"), PYTHONDONTWRITEBYTECODE="1", TERM="dumb", XDG_STATE_HOME=str(state), COLUMNS="200")

        def owns_the_terminal():
            os.setsid()
            fcntl.ioctl(0, termios.TIOCSCTTY, 0)
        self.process = subprocess.Popen([sys.executable, "-m", "lukhandro", *map(str, words)], stdin=theirs, stdout=theirs, stderr=theirs, cwd=cwd,
                                        env=env, preexec_fn=owns_the_terminal)
        os.close(theirs)
        self.ahead = ""

    def until(self, text, seconds=20):
        """Reads until a text is shown; answers what was shown since the last time."""
        end = time.monotonic() + seconds
        while text not in self.ahead:
            ready, _, _ = select.select([self.ours], [], [], max(end - time.monotonic(), 0))
            try:
                more = os.read(self.ours, 4096).decode() if ready else ""
            except OSError:
                more = ""
            if not more:
                raise AssertionError(f"{text!r} did not come: {self.ahead!r}")
            self.ahead += re.sub("\x1b\\[[?0-9]*[a-zA-Z]", "", more).replace("\r\n", "\n").replace("\r", "")
        at = self.ahead.index(text) + len(text)
        shown, self.ahead = self.ahead[:at], self.ahead[at:]
        return shown

    def type(self, text):
        os.write(self.ours, text.encode())

    def end(self):
        status = self.process.wait(20)
        os.close(self.ours)
        return status


class AtTheTerminal(Room):
    def open(self):
        place = self.file("sunday.lkt", SUNDAY.read_bytes())
        terminal = Terminal("plan", place.name, cwd=self.room, state=self.room / "state")
        self.addCleanup(lambda: terminal.process.poll() is None and terminal.process.kill())
        self.assertIn("sunday.lkt: 12 values, none of them blank. help lists the commands, quit leaves.", terminal.until("sunday> "))
        return place, terminal

    def test_a_sitting(self):
        place, terminal = self.open()
        terminal.type("try headway=0:12:00\n")
        self.assertIn("crew          26       22", terminal.until("sunday> "))
        terminal.type("keep\n")
        terminal.until("sunday> ")
        terminal.type("quit\n")
        terminal.until("1 kept move is not saved. Leave all the same? (yes or no) ")
        terminal.type("no\n")
        terminal.until("sunday> ")
        terminal.type("save\n")
        terminal.until("saved sunday.lkt")
        terminal.until("sunday> ")
        terminal.type("quit\n")
        self.assertEqual(terminal.end(), 0)
        self.assertIn("headway       = 0:12:00", place.read_text())

    def test_leaving_all_the_same(self):
        place, terminal = self.open()
        terminal.type("try headway=0:12:00\n")
        terminal.until("sunday> ")
        terminal.type("keep\n")
        terminal.until("sunday> ")
        terminal.type("\x04")
        terminal.until("(yes or no) ")
        terminal.type("yes\n")
        self.assertEqual(terminal.end(), 0)
        self.assertEqual(place.read_text(), SUNDAY.read_text())

    def test_completion_and_history(self):
        _, terminal = self.open()
        terminal.type("why cr\t\n")
        self.assertIn("crew = 26 = LINEAR(2 + 4*trips)", terminal.until("sunday> "))
        terminal.type("try other.h\t")
        terminal.until("other.headway=")
        terminal.type("0:20:00\n")
        self.assertIn("1:00:00  0:20:00", terminal.until("sunday> "))
        terminal.type("try headway=\t\t0:12:00\n")
        self.assertNotIn("other.start", terminal.until("5 values change"))  # a value is not completed to a name
        terminal.until("sunday> ")
        terminal.type("\x10\x10\x10\n")  # three lines back, as the arrow key goes
        self.assertIn("crew = 26 = LINEAR(2 + 4*trips)", terminal.until("  trips = 6"))
        terminal.until("sunday> ")
        terminal.type("quit\n")
        self.assertEqual(terminal.end(), 0)
        self.assertIn("why crew", (self.room / "state" / "lukhandro" / "history").read_text())

    def test_a_line_given_up(self):
        _, terminal = self.open()
        terminal.type("try head")
        terminal.until("try head")
        terminal.type("\x03")
        time.sleep(0.5)  # an interrupt makes the terminal throw away what is shown at that moment, a prompt too
        terminal.type("\n")
        terminal.until("sunday> ")
        terminal.type("sheet crew\n")
        self.assertIn("crew  26", terminal.until("none of them blank"))
        terminal.type("quit\n")
        self.assertEqual(terminal.end(), 0)

    def test_a_bar_shows_how_far_a_batch_is(self):
        moves = self.file("many.csv", "headway\n" + "".join(f"{60 + k}\n" for k in range(3000)))
        terminal = Terminal("batch", SUNDAY, moves, "--ask", "crew", cwd=self.room, state=self.room)
        terminal.until("trying moves [##########....................] 1,000 of 3,000")
        terminal.until("[##############################] 3,000 of 3,000")
        terminal.until("accepted      3,000\n")
        self.assertEqual(terminal.end(), 0)

    def test_a_model_file_is_not_for_a_terminal(self):
        terminal = Terminal("compile", SUNDAY, "-o", "-", cwd=self.room, state=self.room)
        terminal.until("a model file is not for a terminal")
        self.assertEqual(terminal.end(), 2)

    def test_colour_is_for_terminals(self):
        place = self.file("b.lkt", "a = 0\nb = ELEMENT(a; c)\nc = LAST(a, a, a)\n")
        for term, coloured in (("xterm", True), ("dumb", False)):
            ours, theirs = pty.openpty()
            subprocess.run([sys.executable, "-m", "lukhandro", "sheet", str(place)], stdin=theirs, stdout=theirs, stderr=theirs, check=True,
                           env={**{k: v for k, v in os.environ.items() if k != "NO_COLOR"}, "PYTHONPATH": str(ROOT / "python"), "TERM": term})
            os.close(theirs)
            shown = b""
            try:
                while chunk := os.read(ours, 4096):
                    shown += chunk
            except OSError:
                pass
            os.close(ours)
            self.assertEqual(bool(re.search(rb"\x1b\[33m", shown)), coloured, shown)


if __name__ == "__main__":
    unittest.main()
