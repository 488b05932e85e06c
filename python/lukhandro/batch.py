"""A batch of moves from a table, in figures and move by move.

The figures are the library's, a thousand moves at a time, and parts are added up by `Figures.merged`; each move's own
result is what the library gives it among many, a thousand at a time too.
"""
from __future__ import annotations

import csv
import io
import json
import sys
import time
from typing import Any, Iterator, NamedTuple, Sequence

from .clock import NoValue, seconds
from .files import Fault
from .model import MOST_MOVES, NUMBERS, Figures
from .sheet import Sheet

SHOWN_PROBLEMS = 20


class Moves(NamedTuple):
    """The moves of a table, each with its line."""

    moves: list[list[tuple[int, int]]]
    lines: list[int]


class Result(NamedTuple):
    """What became of a move: 0 or the number of its refusal, the value asked, why it is blank, and evaluations."""

    line: int
    number: int
    result: int | None
    reason: int
    evaluations: int


def read_moves(sheet: Sheet, text: str, source: str) -> Moves:
    """The moves of a table: the first line names variables, and every other line is a move of those that it fills in."""
    reader = csv.reader(io.StringIO(text.removeprefix("\ufeff"), newline=""), strict=True)
    moves, lines, problems, names, before = [], [], [], None, 0
    try:
        for fields in reader:
            line, before = before + 1, reader.line_num
            if names is None:
                names = [sheet.number(field.strip()) for field in fields]
                twice = [sheet.names[v] for v in dict.fromkeys(names) if names.count(v) > 1]
                if twice:
                    raise Fault(f"{source}:1: {twice[0]} is named twice")
            elif not fields:
                continue
            elif len(fields) != len(names):
                problems.append(f"{source}:{line}: the line has {len(fields)} fields, and the first line names {len(names)}")
            else:
                move = []
                for v, field in zip(names, fields):
                    try:
                        if field.strip():
                            move.append((v, seconds(field.strip())))
                    except NoValue as wrong:
                        problems.append(f"{source}:{line}: {sheet.names[v]}: {wrong}")
                moves.append(move)
                lines.append(line)
    except csv.Error as error:
        problems.append(f"{source}:{before + 1}: the fields cannot be told apart: {error}")
    except Fault as why:
        raise Fault(str(why) if str(why).startswith(source) else f"{source}:1: {why}") from None
    if names is None:
        problems.append(f"{source}:1: the first line should name variables, as headway,end")
    if problems:
        more = [f"and {len(problems) - SHOWN_PROBLEMS} more"] if len(problems) > SHOWN_PROBLEMS else []
        raise Fault("\n".join(problems[:SHOWN_PROBLEMS] + more))
    return Moves(moves, lines)


def figures_of(sheet: Sheet, moves: Sequence[Sequence[tuple[int, int]]], asked: int, bar: "Bar") -> Figures:
    """The figures of all moves, a thousand at a time."""
    figures = Figures.none()
    for at in range(0, len(moves), MOST_MOVES):
        part = moves[at:at + MOST_MOVES]
        figures = figures.merged(sheet.model.figures(part, asked))
        bar.on(len(part))
    return figures


def results_of(sheet: Sheet, moves: Moves, asked: int, route: int, bar: "Bar") -> Iterator[Result]:
    """Each move's own result, as a trial would give it."""
    for at in range(0, len(moves.moves), MOST_MOVES):
        part = moves.moves[at:at + MOST_MOVES]
        for line, given in zip(moves.lines[at:], sheet.model.trials(part, [asked], route)):
            result, reason = (given.results[0], given.reasons[0]) if given.number == 0 else (None, 0)
            yield Result(line, given.number, result, reason, given.evaluations)
        bar.on(len(part))


def each_csv(results: Iterator[Result], sheet: Sheet, asked: int) -> bytes:
    """Each move's result as a table: line of the move, number, value, reason of a blank, evaluations."""
    room = io.StringIO(newline="")
    writer = csv.writer(room, lineterminator="\n")
    writer.writerow(["line", "number", sheet.names[asked], "reason", "evaluations"])
    for r in results:
        writer.writerow([r.line, r.number, "" if r.result is None else sheet.shown(asked, r.result), r.reason or "", r.evaluations])
    return room.getvalue().encode("utf-8")


def figures_json(asked: str, figures: Figures) -> dict[str, Any]:
    """Figures for machines; `figures_in` reads them again."""
    return {"asked": asked, "moves": sum(figures.by_number), "accepted": figures.accepted,
            "refused": {str(k): x for k, x in enumerate(figures.by_number) if k and x}, "blank": figures.blank,
            "least": figures.least, "greatest": figures.greatest, "sum": figures.total, "evaluations": list(figures.evaluations)}


def figures_in(text: str, source: str) -> Iterator[tuple[str, Figures]]:
    """The figures of a text of JSON objects one behind the other, each with what was asked.

    >>> two = json.dumps(figures_json("crew", Figures.none())) * 2
    >>> [(asked, figures == Figures.none()) for asked, figures in figures_in(two, "a pipe")]
    [('crew', True), ('crew', True)]
    >>> list(figures_in("{}", "a pipe"))
    Traceback (most recent call last):
    lukhandro.files.Fault: a pipe: these are no figures as lukhandro batch --json prints them
    """
    decoder, at = json.JSONDecoder(), 0
    while text[at:].strip():
        at += len(text[at:]) - len(text[at:].lstrip())
        try:
            said, at = decoder.raw_decode(text, at)
            by_number = [said["accepted"]] + [said["refused"].get(str(k), 0) for k in range(1, NUMBERS)]
            first, second, third = said["evaluations"]
            found = Figures(tuple(by_number), said["blank"], said["least"], said["greatest"], said["sum"], (first, second, third))
            counts = [*by_number, found.blank, first, second, third]
            numbers = [*counts, found.total, *(x for x in (found.least, found.greatest) if x is not None)]
            if any(type(x) is not int for x in numbers) or min(counts) < 0 or not isinstance(said["asked"], str):
                raise ValueError
            if said != figures_json(said["asked"], found):
                raise ValueError
        except (ValueError, KeyError, TypeError, AttributeError, RecursionError):
            raise Fault(f"{source}: these are no figures as lukhandro batch --json prints them") from None
        yield said["asked"], found


class Bar:
    """How far a long piece of work is, on a terminal; elsewhere nothing."""

    def __init__(self, total: int, what: str) -> None:
        self.total, self.what, self.done = max(total, 1), what, 0
        self.seen = sys.stderr.isatty()
        self.next = 0.0

    def on(self, steps: int) -> None:
        """Some steps more are done."""
        self.done += steps
        now = time.monotonic()
        if self.seen and (now >= self.next or self.done >= self.total):
            self.next = now + 0.1
            filled = 30 * self.done // self.total
            sys.stderr.write(f"\r{self.what} [{'#' * filled}{'.' * (30 - filled)}] {self.done:,} of {self.total:,}")
            sys.stderr.flush()

    def end(self) -> None:
        """Clears the line."""
        if self.seen:
            sys.stderr.write("\r\033[K")
            sys.stderr.flush()
