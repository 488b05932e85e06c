"""A model with names: values as a planner reads them, moves by name, and why a value is blank."""
from __future__ import annotations

import fnmatch
from typing import Iterable, NamedTuple, Sequence

from . import files
from .clock import NoValue, seconds, shown
from .files import Fault, Usage
from .model import BLANK, ELEMENT, FULL, Model, Row, Trial, read_tables, version_of
from .refused import REASONS, Refused
from .text import Text, formula_text, meant
from .words import below, explained, move_refused


class Change(NamedTuple):
    """A variable whose value a move changes: what it is now, what it becomes, and why that is blank if it is."""

    variable: int
    old: int | None
    new: int | None
    reason: int


class Tried(NamedTuple):
    """What a move would change: the changes, those asked (all of them, changed or not), the route and what it cost."""

    changes: list[Change]
    route: int
    evaluations: int


class Sheet:
    """A model with the names of its variables, opened from a text or a model file."""

    def __init__(self, model: Model, names: Sequence[str], is_clock: Sequence[bool], source: str, text: Text | None,
                 version: int) -> None:
        self.model, self.names, self.clocks = model, list(names), list(is_clock)
        self.source, self.text, self.version = source, text, version
        self.numbers = {name: v for v, name in enumerate(self.names)}
        self.row_of: dict[int, Row] = {row.makes: row for row in model.rows()}

    @classmethod
    def open(cls, path: str, names_from: str | None = None) -> Sheet:
        """Opens a text or a model file; a model file has the names v0, v1, .. or those of a text of as many variables."""
        data = files.read(path)
        source = "standard input" if path == "-" else path
        if not files.is_model_file(data):
            text = Text(files.decoded(data, source), source)
            return cls(text.build(), text.names, text.clocks, source, text, text.version)
        model = built(data, source)
        names, is_clock = names_of(model, names_from)
        return cls(model, names, is_clock, source, None, version_of(data))

    # ── names and values ──
    def number(self, name: str) -> int:
        """The variable of a name."""
        if name not in self.numbers:
            raise Fault(f"there is no variable {name}{meant(name, self.names)}")
        return self.numbers[name]

    def matching(self, patterns: Iterable[str]) -> list[int]:
        """The variables whose names fit one of the patterns, in their order; all without a pattern."""
        patterns = list(patterns)
        if not patterns:
            return list(range(self.model.n))
        found: set[int] = set()
        for pattern in patterns:
            fits = [v for v, name in enumerate(self.names) if fnmatch.fnmatchcase(name, pattern)]
            if not fits:
                raise Fault(f"no name fits {pattern}{meant(pattern, self.names)}")
            found.update(fits)
        return sorted(found)

    def shown(self, v: int, value: int | None) -> str:
        """A value of a variable as the sheet has it."""
        return shown(value, self.clocks[v])

    def bounds_shown(self, v: int) -> str:
        """The bounds of a variable as a text has them, empty where they are full."""
        bounds = self.model.bounds(v)
        low, high = (self.shown(v, x) if x != full else "" for x, full in zip(bounds, FULL))
        return "" if bounds == FULL else f"in {low}..{high}"

    def formula(self, v: int) -> str:
        """The formula of a made variable as a text has it."""
        return formula_text(self.row_of[v], self.names)

    # ── moves ──
    def move(self, words: Sequence[str]) -> list[tuple[int, int]]:
        """A move from words as headway=0:12:00."""
        pairs = []
        for word in words:
            name, equals, value = word.partition("=")
            if not equals:
                raise Usage(f"a move is written as NAME=VALUE, and {word} has no '='")
            v = self.number(name.strip())
            try:
                pairs.append((v, seconds(value.strip())))
            except NoValue as wrong:
                raise Fault(f"{name.strip()}: {wrong}") from None
        return pairs

    def tried(self, move: Sequence[tuple[int, int]], asked: Sequence[int] = (), route: int | None = None) -> Tried:
        """What a move would change. With asked variables these are answered, by route 3 if none is named; otherwise all that
        changes, by route 1."""
        route = route or (3 if asked else 1)
        if route != 1 and not asked:
            raise Usage(f"route {route} works out what is asked and nothing else: name it with --ask")
        model = self.model
        try:
            trial = model.trial(move, asked, route)
        except Refused as refused:
            raise Fault(move_refused(refused, move, self.names, self.clocks, model)) from None
        if asked:
            changes = [Change(v, model.value(v), new, reason) for v, new, reason in zip(asked, trial.results, trial.reasons)]
        else:
            changes = self._changes(move, trial)
        return Tried(changes, route, trial.evaluations)

    def _changes(self, move: Sequence[tuple[int, int]], trial: Trial) -> list[Change]:
        """All that a trial by route 1 changes. Why a new value is blank is told by keeping the move on a copy."""
        old, new = self.model.stored(), trial.row
        changed = [v for v in range(self.model.n) if old[v] != new[v]]
        after = None
        if any(new[v] == BLANK for v in changed):
            after = self.model.copy()
            after.keep(move)
        return [Change(v, None if old[v] == BLANK else old[v], None if new[v] == BLANK else new[v], after.reason(v) if after else 0)
                for v in changed]

    def keep(self, move: Sequence[tuple[int, int]]) -> int:
        """Keeps a move; answers the evaluations."""
        try:
            return self.model.keep(move)
        except Refused as refused:
            raise Fault(move_refused(refused, move, self.names, self.clocks, self.model)) from None

    # ── why ──
    def why(self, v: int) -> list[str]:
        """How a value came about; for a blank the way down to the search variables that cause it, line by line."""
        said, value, at = [], self.model.value(v), v
        if v not in self.row_of:
            return [f"{self.names[v]} = {self.shown(v, value)}: a value that you set"]
        if value is not None:
            return [f"{self.names[v]} = {self.shown(v, value)} = {self.formula(v)}", *self._inputs(v)]
        while self.model.reason(at) == 4:
            said.append(f"{self.names[at]} is blank: {REASONS[4]}: {self.formula(at)}")
            at = self._blank_input(at)
        said.append(f"{self.names[at]} is blank: {REASONS[self.model.reason(at)]}: {self.formula(at)}")
        said += self._inputs(at)
        culprits = self._culprits(at)
        causes = [u for u in below(culprits, self.row_of) if u not in self.row_of]
        if causes != culprits:
            named = ", ".join(f"{self.names[u]} = {self.shown(u, self.model.value(u))}" for u in causes[:8])
            said.append(f"  which comes from {named}" + (f" and {len(causes) - 8} more" if len(causes) > 8 else ""))
        return said

    def _inputs(self, v: int) -> list[str]:
        """The values that a formula is made from, a line each; of many inputs the first eight."""
        inputs = list(dict.fromkeys(self.row_of[v].inputs))
        said = [f"  {self.names[u]} = {self.shown(u, self.model.value(u))}" for u in inputs[:8]]
        return said + [f"  and {len(inputs) - 8} more"] if len(inputs) > 8 else said

    def _blank_input(self, v: int) -> int:
        """The input whose blank stops a formula."""
        row = self.row_of[v]
        if row.kind == ELEMENT:
            index = self.model.value(row.inputs[0])
            return row.inputs[0] if index is None else row.inputs[1 + index]
        return next(u for u in row.inputs if self.model.value(u) is None)

    def _culprits(self, v: int) -> list[int]:
        """The inputs that a blank of another reason than 4 is about: the headway, the index, the window, or all."""
        row, reason = self.row_of[v], self.model.reason(v)
        found = {3: row.inputs[2:3], 2: row.inputs[:1], 5: row.inputs[:2]}.get(reason, row.inputs)
        return list(dict.fromkeys(found))

    # ── saving ──
    def saved(self) -> bytes:
        """The file with the values as they are now: of a text only the numbers change."""
        if self.text is None:
            return self.model.write(self.version)
        return self.text.saved(self.model.starts()).encode("utf-8")


def built(data: bytes, source: str) -> Model:
    """The model of a model file; a refusal is said with the names v0, v1, .."""
    try:
        starts, tables, bounds, (n, m, e) = read_tables(data)
    except Refused as refused:
        raise Fault(f"{source}: {header_words(data, refused)}") from None
    try:
        return Model(starts, tables, bounds, n, m, e)
    except Refused as refused:
        names, rows = [f"v{v}" for v in range(n)], _rows(tables, m)
        raise Fault(f"{source}: refused {refused.number} {refused.place}: "
                    f"{explained(refused, names, rows, starts, bounds)}") from None


def _rows(tables, m: int) -> list[Row]:
    """The rows of tables that build may refuse: of each what is there."""
    found = []
    for r in range(m):
        part = slice(tables["firsts"][r], tables["firsts"][r] + tables["counts"][r])
        found.append(Row(tables["kinds"][r], tables["makes"][r], tuple(tables["vars"][part]), tuple(tables["coefs"][part]),
                         tables["params"][r]))
    return found


def header_words(data: bytes, refused: Refused) -> str:
    """What is wrong with the header of a model file."""
    version, place = version_of(data), refused.place
    if len(data) < (28 if version == 2 else 24):
        return f"this is no whole model file: it has {len(data)} bytes, fewer than a header"
    what = {0: f"its version is {version}, and there are 1 and 2", 2: "its number of variables is not 1 to 4,096",
            4: "it has more formulas than variables", 6: "it has more than 16,384 inputs",
            20: f"its length is not the one that its header gives; it has {len(data)} bytes"}
    return (f"this is no whole model file: {what.get(place, 'its header does not fit its counts')} (refused 14 {place}); "
            "lukhandro salvage saves what is whole in a damaged file")


def names_of(model: Model, names_from: str | None) -> tuple[list[str], list[bool]]:
    """Names for a model file and which of them are clock times: v0, v1, .., or those of a text of as many variables."""
    if names_from is None:
        return [f"v{v}" for v in range(model.n)], [False] * model.n
    text = Text(files.decoded(files.read(names_from), names_from), names_from)
    if len(text.names) != model.n:
        raise Fault(f"{names_from} names {len(text.names)} variables, and the model file has {model.n}")
    return text.names, text.clocks
