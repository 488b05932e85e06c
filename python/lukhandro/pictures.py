"""What the pictures of a sheet are drawn from: the departures of each trip, and the variables around one."""
from __future__ import annotations

import re
from typing import Any, Mapping, Sequence

from .model import BLANK, DEPARTURES, LAST, departures
from .refused import BoardRefused
from .sheet import Sheet

MOST_LANES = 40
MOST_BESIDE = 10

Window = tuple[int, int, int]

_WINDOW = re.compile(r"(?:w|window)?_?\d+")


def lane_of(name: str) -> str:
    """The trip that a variable of departures belongs to: its name without the last part and without the number of a window.

    >>> lane_of("line12.t1.w2.trips"), lane_of("line12.trips"), lane_of("trips"), lane_of("a.7.trips")
    ('line12.t1', 'line12', 'trips', 'a')
    """
    parts = name.split(".")
    if len(parts) > 1:
        parts.pop()
    if len(parts) > 1 and _WINDOW.fullmatch(parts[-1]):
        parts.pop()
    return ".".join(parts)


def windows(sheet: Sheet) -> dict[Window, str]:
    """The windows of a model, each start, end and headway that is counted or whose last trip is asked, with the name of what
    is made from it."""
    found: dict[Window, str] = {}
    for kind in (DEPARTURES, LAST):
        for row in sheet.model.rows():
            if row.kind == kind:
                found.setdefault((row.inputs[0], row.inputs[1], row.inputs[2]), sheet.names[row.makes])
    return found


def timeline(sheet: Sheet, found: Mapping[Window, str], tried: Sequence[int] | None, holds: str = "") -> dict[str, Any]:
    """The lanes of a day: of each trip whose name holds a text its windows, among those found, and all their departures, as
    they are and as they are tried. At most forty are given, and how many there are."""
    lanes: dict[str, list[Window]] = {}
    for window, name in found.items():
        if holds in name:
            lanes.setdefault(lane_of(name), []).append(window)
    now = sheet.model.stored()
    shown = []
    for name, inputs in list(lanes.items())[:MOST_LANES]:
        lane = {"name": name, "now": _listed(inputs, now)}
        if tried is not None and any(tried[v] != now[v] for window in inputs for v in window):
            lane["tried"] = _listed(inputs, tried)
        shown.append(lane)
    return {"lanes": shown, "trips": len(lanes)}


def _listed(inputs: Sequence[Window], values: Sequence[int]) -> dict[str, Any]:
    """The windows of a trip and the board's list of its departures, or why there is no list."""
    windows = [(values[s], values[e], values[h]) for s, e, h in inputs]
    said: dict[str, Any] = {"windows": [list(window) for window in windows if BLANK not in window]}
    try:
        said["departures"] = departures(windows)
    except BoardRefused as refused:
        said |= {"departures": [], "refused": refused.sentence}
    return said


def around(sheet: Sheet, v: int) -> dict[str, Any]:
    """What a variable is made from and what reads it, two steps each way; of each step the first ten and how many more."""
    steps: dict[int, list[int]] = {0: [v]}
    more: dict[int, int] = {}
    links: list[tuple[int, int]] = []
    seen = {v}
    for way, beside in ((-1, _inputs), (1, _readers)):
        for step in (way, 2 * way):
            found = list(dict.fromkeys(u for w in steps[step - way] for u in beside(sheet, w) if u not in seen))
            steps[step], more[step] = found[:MOST_BESIDE], max(0, len(found) - MOST_BESIDE)
            seen.update(steps[step])
    for w in seen:
        links += [(u, w) for u in dict.fromkeys(_inputs(sheet, w)) if u in seen]
    at = {w: step for step, found in steps.items() for w in found}
    nodes = [{"name": sheet.names[w], "step": at[w], "shown": sheet.shown(w, sheet.model.value(w)),
              "formula": sheet.formula(w) if w in sheet.row_of else ""} for w in sorted(seen, key=lambda w: (at[w], w))]
    return {"name": sheet.names[v], "nodes": nodes, "more": {str(step): number for step, number in more.items() if number},
            "links": [[sheet.names[u], sheet.names[w]] for u, w in links]}


def _inputs(sheet: Sheet, v: int) -> Sequence[int]:
    return sheet.row_of[v].inputs if v in sheet.row_of else ()


def _readers(sheet: Sheet, v: int) -> Sequence[int]:
    return [sheet.model.row(r).makes for r in sheet.model.readers(v)]


def moved_row(sheet: Sheet, changes: Mapping[int, int]) -> list[int]:
    """The row of values with some of them changed."""
    row = list(sheet.model.stored())
    for v, x in changes.items():
        row[v] = x
    return row
