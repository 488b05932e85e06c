"""What the command prints: tables, colour on a terminal, and JSON for machines."""
from __future__ import annotations

import json
import os
import sys
from typing import Any, Iterable, Sequence, TextIO

from .refused import REASONS
from .sheet import Change, Sheet, Tried


def coloured(stream: TextIO) -> bool:
    """Colour is for terminals, and for those who did not ask for none."""
    return stream.isatty() and "NO_COLOR" not in os.environ and os.environ.get("TERM") != "dumb"


def marked(text: str, code: str, stream: TextIO | None = None) -> str:
    """A text in colour where that is wanted: `1` is bold, `31` red, `33` yellow."""
    return f"\033[{code}m{text}\033[0m" if coloured(stream or sys.stdout) else text


def as_json(what: Any) -> None:
    """Prints JSON."""
    print(json.dumps(what, indent=2, ensure_ascii=False))


def count(number: int, one: str, more: str | None = None) -> str:
    """A number with its noun.

    >>> count(1, "value"), count(2, "value"), count(0, "blank", "blank")
    ('1 value', '2 values', '0 blank')
    """
    return f"{number:,} {one if number == 1 else more or one + 's'}"


def table(rows: Iterable[Sequence[str]], right: Sequence[int] = (), marks: Sequence[str] = ()) -> None:
    """Prints rows in columns; those of `right` are set to the right, and a row has the mark of its place if it has one."""
    rows = [list(row) for row in rows]
    if not rows:
        return
    widths = [max(len(row[k]) for row in rows) for k in range(len(rows[0]))]
    for at, row in enumerate(rows):
        cells = [f"{cell:>{width}}" if k in right else f"{cell:<{width}}" for k, (cell, width) in enumerate(zip(row, widths))]
        line = "  ".join(cells).rstrip()
        print(marked(line, marks[at]) if at < len(marks) and marks[at] else line)


def sheet_lines(sheet: Sheet, variables: Sequence[int]) -> list[list[str]]:
    """The lines of the sheet: name, value, and bounds or why it is blank."""
    lines = []
    for v in variables:
        value = sheet.model.value(v)
        beside = sheet.bounds_shown(v) if value is not None else REASONS[sheet.model.reason(v)]
        lines.append([sheet.names[v], sheet.shown(v, value), beside])
    return lines


def sheet_foot(sheet: Sheet) -> str:
    """How many values there are, and how many of them are blank."""
    blanks = sheet.model.blanks
    said = count(sheet.model.n, "value")
    return f"{said}, {'none' if blanks == 0 else f'{blanks:,}'} of them blank"


def print_sheet(sheet: Sheet, variables: Sequence[int]) -> None:
    """Prints the sheet."""
    marks = ["33" if sheet.model.value(v) is None else "" for v in variables]
    table(sheet_lines(sheet, variables), right=[1], marks=marks)
    print(sheet_foot(sheet))


def value_json(sheet: Sheet, v: int, value: int | None, reason: int) -> dict[str, Any]:
    """A value for machines: the number, how it is shown, and the reason of a blank."""
    said: dict[str, Any] = {"value": value, "shown": sheet.shown(v, value)}
    if value is None:
        said |= {"reason": reason, "why": REASONS[reason]}
    return said


def sheet_json(sheet: Sheet, variables: Sequence[int]) -> dict[str, Any]:
    """The sheet for machines."""
    values = []
    for v in variables:
        low, high = sheet.model.bounds(v)
        about = {"formula": sheet.formula(v)} if v in sheet.row_of else {"lowest": low, "highest": high}
        values.append({"name": sheet.names[v], **value_json(sheet, v, sheet.model.value(v), sheet.model.reason(v)), **about})
    return {"source": sheet.source, "variables": sheet.model.n, "blanks": sheet.model.blanks, "values": values}


def change_line(sheet: Sheet, change: Change) -> list[str]:
    """A change: name, old, new, and why the new value is blank or that it stays."""
    v, old, new, reason = change
    beside = REASONS[reason] if new is None else "unchanged" if old == new else ""
    return [sheet.names[v], sheet.shown(v, old), sheet.shown(v, new), beside]


def print_tried(sheet: Sheet, tried: Tried) -> None:
    """Prints old beside new, and what it cost."""
    marks = [""] + ["1" if change.old != change.new else "" for change in tried.changes]
    if tried.changes:
        table([["", "now", "tried", ""]] + [change_line(sheet, change) for change in tried.changes], right=[1, 2], marks=marks)
    changed = sum(change.old != change.new for change in tried.changes)
    print(f"{count(changed, 'value changes', 'values change')}; route {tried.route}, {count(tried.evaluations, 'evaluation')}")


def tried_json(sheet: Sheet, tried: Tried) -> dict[str, Any]:
    """A trial for machines."""
    return {"route": tried.route, "evaluations": tried.evaluations,
            "changes": [{"name": sheet.names[c.variable], "old": c.old, "old_shown": sheet.shown(c.variable, c.old),
                         "new": value_json(sheet, c.variable, c.new, c.reason)} for c in tried.changes]}
