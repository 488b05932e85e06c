"""A planner's sitting over one sheet: a move on trial, kept moves with what each was, what is asked, and saving."""
from __future__ import annotations

from typing import Sequence

from . import files
from .files import Fault
from .refused import Refused
from .sheet import Sheet, Tried


class Desk:
    """A sheet with a move on trial and the moves kept, the latest 64 of which can be taken back."""

    def __init__(self, sheet: Sheet) -> None:
        self.sheet = sheet
        self.on_trial: list[tuple[int, int]] | None = None
        self.kept: list[list[tuple[int, int, int]]] = []
        self.asked: list[int] = []
        self._saved = sheet.model.starts()

    def attempt(self, words: Sequence[str], route: int | None = None) -> Tried:
        """Puts a move on trial in place of the one before; a move that is refused leaves none on trial."""
        self.on_trial = None
        move = self.sheet.move(words)
        tried = self.sheet.tried(move, self.asked, route)
        self.on_trial = move
        return tried

    def keep(self) -> list[tuple[int, int, int]]:
        """Keeps the move on trial; answers what it was: variables with their values before and after."""
        if self.on_trial is None:
            raise Fault("no move is on trial: try one first, as try headway=0:12:00")
        move = self.on_trial
        was = [(v, self.sheet.model.value(v) or 0, x) for v, x in move]
        self.sheet.keep(move)
        self.on_trial = None
        self.kept.append(was)
        return was

    def drop(self) -> None:
        """Drops the move on trial; the sheet is as it was."""
        if self.on_trial is None:
            raise Fault("no move is on trial")
        self.on_trial = None

    def back(self) -> list[tuple[int, int, int]]:
        """Takes the latest kept move back; answers what it was."""
        try:
            self.sheet.model.take_back()
        except Refused as refused:
            more = " (only the latest 64 can be)" if self.kept else ""
            raise Fault(refused.sentence + more if refused.number == 15 else refused.sentence) from None
        self.on_trial = None
        return self.kept.pop()

    def said(self, move: Sequence[tuple[int, int, int]]) -> str:
        """A kept move in words."""
        sheet = self.sheet
        return ", ".join(f"{sheet.names[v]} {sheet.shown(v, old)} -> {sheet.shown(v, new)}" for v, old, new in move) or "nothing moved"

    def unsaved(self) -> bool:
        """Some value differs from what the file has."""
        return self.sheet.model.starts() != self._saved

    def save(self, path: str | None = None) -> str:
        """Writes the values as they are now, to the file that was opened if no other is named; answers where."""
        path = path or self.sheet.source
        if path in ("-", "standard input"):
            raise Fault("the sheet came from standard input: name a file to save to")
        files.write(path, self.sheet.saved())
        self._saved = self.sheet.model.starts()
        return path
