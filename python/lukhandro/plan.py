"""The prompt: a planner's sitting, command by command, at a terminal or from a script."""
from __future__ import annotations

import cmd
import os
import shlex
import sys
from pathlib import Path
from typing import TextIO

from . import show
from .desk import Desk
from .files import Fault, Usage
from .sheet import Sheet

INTRO = "{name}: {sheet}. help lists the commands, quit leaves."


class Prompt(cmd.Cmd):
    """Commands over a desk. What is refused is said on standard error and counted, and the sitting goes on."""

    doc_header = "commands (help COMMAND says more)"

    def __init__(self, sheet: Sheet, script: TextIO) -> None:
        self.terminal = script.isatty()
        super().__init__(stdin=script)
        self.desk, self.sheet = Desk(sheet), sheet
        self.use_rawinput = self.terminal
        self.prompt = Path(sheet.source).stem + "> " if self.terminal else ""
        self.line_number = self.refused = 0

    # ── the loop ──
    def run(self) -> int:
        """Reads commands to the end; answers the exit status."""
        if self.terminal:
            print(INTRO.format(name=self.sheet.source, sheet=show.sheet_foot(self.sheet)))
            self.with_history()
        while True:
            try:
                self.cmdloop()
                return 1 if self.refused and not self.terminal else 0
            except KeyboardInterrupt:  # the line is given up, not the sitting
                if not self.terminal:
                    raise
                print()

    def with_history(self) -> None:
        """Lines typed before come back with the arrow keys, in later sittings too."""
        try:
            import atexit
            import readline
        except ImportError:
            return
        readline.set_completer_delims(" \t\n")
        state = os.environ.get("XDG_STATE_HOME") or os.path.expanduser("~/.local/state")
        place = Path(state) / "lukhandro" / "history"
        try:
            place.parent.mkdir(parents=True, exist_ok=True)
            if place.exists():
                readline.read_history_file(str(place))
        except OSError:
            return
        readline.set_history_length(1000)

        def remember() -> None:
            try:
                readline.write_history_file(str(place))
            except OSError:
                pass
        atexit.register(remember)

    def onecmd(self, line: str) -> bool:
        """One command; what is refused is said, with its line in a script."""
        self.line_number += 1
        try:
            return bool(super().onecmd(line.split("#")[0].strip() if line != "EOF" else line))
        except (Fault, Usage) as why:
            self.refused += 1
            where = "" if self.terminal else f"line {self.line_number}: "
            sys.stdout.flush()
            print(show.marked(f"{where}{why}", "31", sys.stderr), file=sys.stderr)
            return False

    def emptyline(self) -> bool:
        """An empty line does nothing."""
        return False

    def default(self, line: str) -> bool:
        """A command that is not there."""
        from .text import meant
        word = line.split()[0]
        commands = [name[3:] for name in self.get_names() if name.startswith("do_") and name != "do_EOF"]
        raise Fault(f"there is no command {word}" + (meant(word, commands) or f"; there are {', '.join(commands)}"))

    def words(self, line: str) -> list[str]:
        """The words of a line, quoted ones whole."""
        try:
            return shlex.split(line)
        except ValueError as why:
            raise Fault(str(why).lower()) from None

    # ── commands ──
    def do_try(self, line: str) -> None:
        """try NAME=VALUE.. [--route 1|2|3]: puts a move on trial and shows what it would change.
        Example: try headway=0:12:00 end=8:30:00"""
        words, route = self.words(line), None
        if "--route" in words:
            at = words.index("--route")
            if words[at + 1:at + 2] not in (["1"], ["2"], ["3"]):
                raise Fault("a route is 1, 2 or 3")
            route = int(words[at + 1])
            del words[at:at + 2]
        if not words:
            raise Fault("what should be moved? as try headway=0:12:00")
        show.print_tried(self.sheet, self.desk.attempt(words, route))

    def do_keep(self, line: str) -> None:
        """keep: keeps the move on trial. back takes it back.
        Example: keep"""
        self.alone(line, "keep")
        print("kept: " + self.desk.said(self.desk.keep()))

    def do_drop(self, line: str) -> None:
        """drop: drops the move on trial; the sheet is as it was.
        Example: drop"""
        self.alone(line, "drop")
        self.desk.drop()
        print("dropped")

    def do_back(self, line: str) -> None:
        """back: takes the latest kept move back, again and again, up to 64.
        Example: back"""
        self.alone(line, "back")
        print("taken back: " + self.desk.said(self.desk.back()))

    def do_sheet(self, line: str) -> None:
        """sheet [NAME-PATTERN..]: the values as they stand, without the move on trial.
        Example: sheet *.last"""
        show.print_sheet(self.sheet, self.sheet.matching(self.words(line)))

    def do_why(self, line: str) -> None:
        """why NAME: what a value is made from; of a blank the way down to what causes it.
        Example: why latest"""
        words = self.words(line)
        if len(words) != 1:
            raise Fault("why takes one name, as why latest")
        for said in self.sheet.why(self.sheet.number(words[0])):
            print(said)

    def do_ask(self, line: str) -> None:
        """ask [NAME-PATTERN..]: from now on try answers these, and nothing else; ask none lifts it, ask alone tells.
        Example: ask crew *.last"""
        words = self.words(line)
        if words == ["none"] and "none" not in self.sheet.numbers:
            self.desk.asked = []
        elif words:
            asked = self.sheet.matching(words)
            if len(asked) > 32:
                raise Fault(f"at most 32 variables can be asked at once, and these are {len(asked)}")
            self.desk.asked = asked
        names = ", ".join(self.sheet.names[v] for v in self.desk.asked)
        print(f"asked: {names}" if names else "nothing is asked: try shows all that changes")

    def do_log(self, line: str) -> None:
        """log: the kept moves, the oldest first, and the move on trial.
        Example: log"""
        self.alone(line, "log")
        for number, move in enumerate(self.desk.kept, 1):
            print(f"{number:3}  {self.desk.said(move)}")
        if self.desk.on_trial is not None:
            was = [(v, self.sheet.model.value(v) or 0, x) for v, x in self.desk.on_trial]
            print(f"on trial: {self.desk.said(was)}")
        elif not self.desk.kept:
            print("no move is kept or on trial")

    def do_save(self, line: str) -> None:
        """save [FILE]: writes the values as they stand; of a text only the numbers change, comments and layout stay.
        Example: save sunday.lkt"""
        words = self.words(line)
        if len(words) > 1:
            raise Fault("save takes one file")
        print(f"saved {self.desk.save(words[0] if words else None)}")

    def do_quit(self, line: str) -> bool:
        """quit: leaves; asks first if kept moves are not saved.
        Example: quit"""
        self.alone(line, "quit")
        return self.leave()

    def do_EOF(self, line: str) -> bool:
        """The end of what is typed."""
        if self.terminal:
            print()
        return self.leave()

    def do_help(self, line: str) -> None:
        """help [COMMAND]: the commands, or more about one.
        Example: help try"""
        names = sorted(name for name in self.get_names() if name.startswith("do_") and name != "do_EOF")
        if line and "do_" + line not in names:
            raise Fault(f"there is no command {line}")
        for name in ["do_" + line] if line else names:
            text = [part.strip() for part in (getattr(self, name).__doc__ or "").split("\n")]
            print("\n".join(text) if line else text[0])

    def alone(self, line: str, command: str) -> None:
        """Refuses words behind a command that takes none."""
        if line:
            raise Fault(f"{command} takes nothing behind it")

    def leave(self) -> bool:
        """Asks before kept moves are lost; a script is only told."""
        if not self.desk.unsaved():
            return True
        kept = show.count(len(self.desk.kept), "kept move is", "kept moves are")
        if not self.terminal:
            print(f"{kept} not saved", file=sys.stderr)
            return True
        try:
            return input(f"{kept} not saved. Leave all the same? (yes or no) ").strip().lower() in ("y", "yes")
        except EOFError:
            print()
            return True

    # ── completion ──
    def completedefault(self, text: str, *ignored: object) -> list[str]:
        """Names that begin so."""
        return [name for name in self.sheet.names if name.startswith(text)]

    def complete_try(self, text: str, *ignored: object) -> list[str]:
        """Names of what can be moved."""
        return [name + "=" for v, name in enumerate(self.sheet.names) if name.startswith(text) and v not in self.sheet.row_of]
