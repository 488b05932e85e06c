"""Refusals in a planner's words: with names, values and the circle that a chain of formulas makes."""
from __future__ import annotations

from typing import Iterable, Sequence

from .clock import shown
from .model import ELEMENT, FORMULAS, FULL, Model, Row
from .refused import Refused


def explained(refused: Refused, names: Sequence[str], rows: Sequence[Row], starts: Sequence[int],
              bounds: Sequence[tuple[int, int]] | None) -> str:
    """Why build refuses a model, with names."""
    number, place = refused.number, refused.place
    if number in (2, 3, 5):
        row = rows[place] if place < len(rows) else None
        name = names[row.makes] if row and row.makes < len(names) else "a variable that is not there"
        what = {2: f"has the kind {row.kind if row else '?'}, which is none of the nine formulas",
                3: "has inputs that are not there, or a number of inputs that its formula does not take",
                5: "makes it a second time"}[number]
        return f"row {place}, which makes {name}, {what}"
    if number == 4:
        if place < len(rows) and _bad_numbers(rows[place]):
            return f"row {place}, which makes {names[rows[place].makes]}, has a factor or a number outside its bounds"
        return f"{names[place]} has bounds that are not in order, or bounds though a formula makes it"
    if number in (6, 20):
        chain = [names[v] for v in circle(refused, rows, starts)]
        said = " needs ".join(chain + chain[:1])
        if number == 6:
            return f"{names[place]} cannot be worked out: the formulas go round in a circle: {said}"
        return f"{names[place]} cannot be worked out: what the indices choose goes round in a circle: {said}"
    if number == 7:
        if any(row.makes == place for row in rows):
            return f"{names[place]} is made by a formula and has a start value other than 0"
        low, high = bounds[place] if bounds else FULL
        return f"{names[place]} has no value, or {starts[place]} lies outside its bounds {low}..{high}"
    return refused.sentence


def _bad_numbers(row: Row) -> bool:
    """Check 4 of a row: a coefficient or a parameter outside its bound."""
    linear = FORMULAS[row.kind] == "LINEAR"
    counted = linear or FORMULAS[row.kind] == "COUNT"
    return (any(abs(c) > 1000 if linear else c != 1 for c in row.coefs)
            or (abs(row.param) > 1000000000 if counted else row.param != 0))


def circle(refused: Refused, rows: Sequence[Row], starts: Sequence[int]) -> list[int]:
    """The variables on the circle that a refusal 6 or 20 is about, each needing the next and the last the first."""
    row_of = {row.makes: row for row in rows}
    if refused.number == 6:
        return _barred(refused.place, row_of)
    if refused.number == 20:
        return _led_round(refused.place, row_of, starts)
    return []


def _barred(place: int, row_of: dict[int, Row]) -> list[int]:
    """A shortest closed chain through a variable that is not permitted: it passes no ELEMENT, or the index of one."""
    plain = _walk(place, lambda v: [(u, False) for u in _inputs(row_of, v)] if not _chooses(row_of, v) else [], False)
    return plain or _walk(place, lambda v: [(u, k == 0 and _chooses(row_of, v)) for k, u in enumerate(_inputs(row_of, v))], True)


def _inputs(row_of: dict[int, Row], v: int) -> tuple[int, ...]:
    """What a variable is made from."""
    return row_of[v].inputs if v in row_of else ()


def _chooses(row_of: dict[int, Row], v: int) -> bool:
    """An ELEMENT makes the variable."""
    return v in row_of and row_of[v].kind == ELEMENT


def _walk(place: int, links, by_index: bool) -> list[int]:
    """A shortest walk from a variable back to itself, which passes an index if it has to; without its end."""
    before: dict[tuple[int, bool], tuple[int, bool]] = {}
    waiting = [(place, False)]
    for state in waiting:
        v, passed = state
        for u, index in links(v):
            after = (u, passed or index)
            if u == place and after[1] == by_index:
                path = [state]
                while path[-1] != (place, False):
                    path.append(before[path[-1]])
                return [w for w, _ in reversed(path)]
            if after not in before and after != (place, False):
                before[after] = state
                waiting.append(after)
    return []


def _led_round(place: int, row_of: dict[int, Row], starts: Sequence[int]) -> list[int]:
    """A circle of what is needed: all inputs, but of an ELEMENT the index and the candidate that it chooses."""
    path, on_path, done = [place], {place}, set()
    waiting = [iter(_needed(place, row_of, starts))]
    while waiting:
        u = next(waiting[-1], None)
        if u is None:
            waiting.pop()
            gone = path.pop()
            on_path.discard(gone)
            done.add(gone)
        elif u in on_path:
            return path[path.index(u):]
        elif u not in done:
            path.append(u)
            on_path.add(u)
            waiting.append(iter(_needed(u, row_of, starts)))
    return []


def _needed(v: int, row_of: dict[int, Row], starts: Sequence[int]) -> list[int]:
    """What working a variable out looks at. The value of an index is asked of the engine, by a model of what it needs."""
    if not _chooses(row_of, v):
        return list(_inputs(row_of, v))
    index, *candidates = row_of[v].inputs
    value = value_below(index, row_of, starts)
    chosen = [candidates[value]] if value is not None and 0 <= value < len(candidates) else []
    return [index] + chosen


def below(variables: Iterable[int], row_of: dict[int, Row]) -> list[int]:
    """The variables that some variables lead to, these among them, in the order in which they are met."""
    found = list(dict.fromkeys(variables))
    seen = set(found)
    for v in found:
        for u in _inputs(row_of, v):
            if u not in seen:
                seen.add(u)
                found.append(u)
    return found


def value_below(v: int, row_of: dict[int, Row], starts: Sequence[int]) -> int | None:
    """The value of a variable, by a model of nothing but what it leads to; None if it is blank or cannot be worked out."""
    found = below([v], row_of)
    place = {u: k for k, u in enumerate(found)}
    rows = [row_of[u]._replace(makes=place[u], inputs=tuple(place[w] for w in row_of[u].inputs)) for u in found if u in row_of]
    try:
        return Model.build([0 if u in row_of else starts[u] for u in found], rows).value(0)
    except Refused:
        return None


def move_refused(refused: Refused, move: Sequence[tuple[int, int]], names: Sequence[str], clocks: Sequence[bool], model: Model) -> str:
    """Why a move is refused, with names."""
    number, place = refused.number, refused.place
    if number == 1:
        return "a move has at most 64 variables, and at most 32 can be asked at once"
    if number in (10, 11, 17):
        v, x = move[place]
        low, high = model.bounds(v)
        return {10: f"{names[v]} is made by a formula: move what it is made from",
                11: f"{names[v]} is moved twice",
                17: f"{names[v]} = {shown(x, clocks[v])} lies outside its bounds {shown(low, clocks[v])}..{shown(high, clocks[v])}"}[number]
    if number == 20:
        starts = model.starts()
        for v, x in move:
            starts[v] = x
        return explained(refused, names, model.rows(), starts, None)
    return refused.sentence
