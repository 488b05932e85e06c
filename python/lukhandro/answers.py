"""The answers of the sheet in a browser, apart from the protocol: one model, many pages, every answer a value for JSON."""
from __future__ import annotations

import threading
import time
from typing import Any, Callable, Mapping, Sequence

from . import files, pictures
from .clock import NoValue, seconds
from .files import Fault, Usage
from .model import BLANK, FULL, MOST_ASKED, MOST_LOGGED
from .refused import REASONS, Refused
from .sheet import Sheet
from .words import move_refused

FIRST_PINS = 8


class Wrong(Exception):
    """A request that is not carried out: a sentence, the name it is about if there is one, and the status of the answer. What
    a planner may type is answered with 200: a refusal is an answer, and browsers note every other status as an error."""

    def __init__(self, sentence: str, name: str | None = None, status: int = 200, stale: bool = False) -> None:
        super().__init__(sentence)
        self.sentence, self.name, self.status, self.stale = sentence, name, status, stale

    def answer(self) -> dict[str, Any]:
        """The answer for JSON."""
        return {"error": {"sentence": self.sentence, "name": self.name, "stale": self.stale}}


class Answers:
    """A sheet that pages look at. Every answer is made under one lock, so that pages never see half a move."""

    def __init__(self, sheet: Sheet, path: str) -> None:
        self.sheet, self.path = sheet, path
        self.state, self._saved = 0, sheet.model.starts()
        self._lock = threading.Lock()
        read = {u for row in sheet.model.rows() for u in row.inputs}
        self._windows = pictures.windows(sheet)
        self._ends = [v for v in sheet.row_of if v not in read] or list(sheet.row_of)

    def answer(self, what: str, asked: Mapping[str, Any]) -> dict[str, Any]:
        """The answer to a request: `sheet`, `state`, `try`, `keep`, `back`, `save`, `why` or `around`."""
        answers: dict[str, Callable[[Mapping[str, Any]], dict[str, Any]]] = {
            "sheet": self._sheet, "state": self._state, "try": self._try, "keep": self._keep, "back": self._back,
            "save": self._save, "why": self._why, "around": self._around}
        if what not in answers:
            raise Wrong(f"there is no request {what}", status=404)
        with self._lock:
            return answers[what](asked)

    @property
    def unsaved(self) -> bool:
        """The values are not those of the file."""
        return self.sheet.model.starts() != self._saved

    # ── looking ──
    def _state(self, _: Mapping[str, Any]) -> dict[str, Any]:
        return {"state": self.state}

    def _standing(self) -> dict[str, Any]:
        """What changes with every kept move: the state's number, the blanks, the log and whether it is saved."""
        return {"state": self.state, "blanks": self.sheet.model.blanks, "log": self._log(), "unsaved": self.unsaved}

    def _sheet(self, _: Mapping[str, Any]) -> dict[str, Any]:
        sheet = self.sheet
        return {"source": sheet.source, "variables": [self._variable(v) for v in range(sheet.model.n)],
                "pins": [sheet.names[v] for v in sorted(self._ends)[:FIRST_PINS]], "most_pins": MOST_ASKED,
                "most_log": MOST_LOGGED, **self._standing()}

    def _variable(self, v: int) -> dict[str, Any]:
        sheet = self.sheet
        said: dict[str, Any] = {"name": sheet.names[v], **self._value(v, sheet.model.value(v), sheet.model.reason(v))}
        if v in sheet.row_of:
            said["formula"] = sheet.formula(v)
        else:
            low, high = (sheet.shown(v, x) if x != full else "" for x, full in zip(sheet.model.bounds(v), FULL))
            said |= {"low": low, "high": high, "clock": sheet.clocks[v]}
        return said

    def _value(self, v: int, value: int | None, reason: int) -> dict[str, Any]:
        """A value as the page shows it, with the reason of a blank in words."""
        return {"shown": self.sheet.shown(v, value), **({"blank": REASONS[reason]} if value is None else {})}

    def _log(self) -> list[list[str]]:
        """The kept moves that can be taken back, the latest first: what each did, in words."""
        sheet, now = self.sheet, self.sheet.model.stored()
        after, said = dict(enumerate(now)), []
        for move in reversed(sheet.model.log()):
            said.append([f"{sheet.names[v]}: {sheet.shown(v, x)} to {sheet.shown(v, after[v])}" for v, x in move])
            after |= dict(move)
        return said

    def _why(self, asked: Mapping[str, Any]) -> dict[str, Any]:
        return {"lines": self.sheet.why(self._number(asked.get("name")))}

    def _around(self, asked: Mapping[str, Any]) -> dict[str, Any]:
        return pictures.around(self.sheet, self._number(asked.get("name")))

    # ── moving ──
    def _try(self, asked: Mapping[str, Any]) -> dict[str, Any]:
        """What a move would change: of the pinned variables by the route asked for, of all others by route 1; and the day
        that it would make."""
        sheet, model = self.sheet, self.sheet.model
        move, route = self._move(asked.get("move")), asked.get("route", 3)
        pins = asked.get("pins", [])
        if not isinstance(pins, list) or len(pins) > MOST_ASKED:
            raise Wrong(f"pins are a list of at most {MOST_ASKED} names", status=400)
        pinned = [self._number(name) for name in pins]
        if route not in (1, 2, 3) or isinstance(route, bool):
            raise Wrong("a route is 1, 2 or 3", status=400)
        trial, microseconds = self._called(move, lambda: model.trial(move, pinned, route))
        changes = {c.variable: c for c in self._called(move, lambda: sheet.tried(move))[0].changes} if move else {}
        said = [{"name": sheet.names[v], **self._value(v, c.new, c.reason)} for v, c in changes.items()]
        results = [{"name": sheet.names[v], **self._value(v, x, reason)}
                   for v, x, reason in zip(pinned, trial.results, trial.reasons)]
        row = pictures.moved_row(sheet, {v: BLANK if c.new is None else c.new for v, c in changes.items()}) if changes else None
        return {"state": self.state, "changes": said, "pinned": results, "route": route, "evaluations": trial.evaluations,
                "microseconds": microseconds, "day": pictures.timeline(sheet, self._windows, row, self._holds(asked))}

    def _keep(self, asked: Mapping[str, Any]) -> dict[str, Any]:
        self._current(asked)
        move = self._move(asked.get("move"))
        if not move:
            raise Wrong("there is nothing to keep: no value was changed")
        return self._stored(move, lambda: self.sheet.model.keep(move))

    def _back(self, asked: Mapping[str, Any]) -> dict[str, Any]:
        self._current(asked)
        if not self.sheet.model.log():
            raise Wrong("there is no kept move to take back")
        return self._stored([], self.sheet.model.take_back)

    def _stored(self, move: Sequence[tuple[int, int]], call: Callable[[], int]) -> dict[str, Any]:
        """A call that stores values, and what it changed."""
        sheet, model = self.sheet, self.sheet.model
        before, reasons = model.stored(), [model.reason(v) for v in range(model.n)]
        evaluations, microseconds = self._called(move, call)
        self.state += 1
        after = model.stored()
        changed = [self._variable(v) for v in range(model.n) if before[v] != after[v] or reasons[v] != model.reason(v)]
        return {**self._standing(), "changed": changed, "evaluations": evaluations, "microseconds": microseconds}

    def _save(self, asked: Mapping[str, Any]) -> dict[str, Any]:
        self._current(asked)
        if self.path == "-":
            raise Wrong("this sheet was read from standard input: there is no file to save it to")
        try:
            files.write(self.path, self.sheet.saved())
        except (Usage, Fault) as wrong:
            raise Wrong(str(wrong)) from None
        self._saved = self.sheet.model.starts()
        return self._standing()

    # ── what is asked ──
    def _current(self, asked: Mapping[str, Any]) -> None:
        """A page may store only over what it shows."""
        if asked.get("state") != self.state:
            raise Wrong("another page has changed the sheet: look at it again, and then keep, take back or save", stale=True)

    def _number(self, name: Any) -> int:
        if not isinstance(name, str):
            raise Wrong("a name is a text", status=400)
        try:
            return self.sheet.number(name)
        except Fault as fault:
            raise Wrong(str(fault), name, status=404) from None

    def _holds(self, asked: Mapping[str, Any]) -> str:
        holds = asked.get("holds", "")
        if not isinstance(holds, str):
            raise Wrong("what names hold is a text", status=400)
        return holds

    def _move(self, move: Any) -> list[tuple[int, int]]:
        """A move: names with their new values as they were typed."""
        if not isinstance(move, dict):
            raise Wrong("a move is an object of names and values", status=400)
        pairs = []
        for name, text in move.items():
            v = self._number(name)
            if not isinstance(text, str):
                raise Wrong(f"{name}: a value is a text, as 600 or 7:00:00", name, status=400)
            try:
                pairs.append((v, seconds(text.strip())))
            except NoValue as wrong:
                raise Wrong(str(wrong), name) from None
        return pairs

    def _called(self, move: Sequence[tuple[int, int]], call: Callable[[], Any]) -> tuple[Any, int]:
        """What a call of the engine gives, and its microseconds; a refusal is said of the variable that it is about."""
        sheet = self.sheet
        started = time.perf_counter_ns()
        try:
            given = call()
        except Refused as refused:
            sentence = move_refused(refused, move, sheet.names, sheet.clocks, sheet.model)
            name = None
            if refused.number in (10, 11, 12, 17):
                name = sheet.names[move[refused.place][0]]
            raise Wrong(sentence, name) from None
        except Fault as fault:
            raise Wrong(str(fault)) from None
        return given, (time.perf_counter_ns() - started) // 1000
