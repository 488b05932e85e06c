"""The engine's calls for Python: a model owns its buffers and lends them to the proved library.

    >>> sheet = Model.build([25200, 28800, 600, 0, 0, 0],
    ...                     [Row.departures(3, 0, 1, 2), Row.last(4, 0, 1, 2), Row.linear(5, 2, [(3, 4)])])
    >>> sheet.values()
    [25200, 28800, 600, 6, 28200, 26]
    >>> sheet.trial([(2, 720)], asked=[5]).results
    [22]
    >>> sheet.keep([(2, 720)]), sheet.value(5)
    (3, 22)
    >>> sheet.take_back(), sheet.value(5)
    (3, 26)
    >>> sheet.keep([(5, 1)])
    Traceback (most recent call last):
    lukhandro.refused.Refused: refused 10 0: pair 0 of the move names a variable that a row makes, or one that is not there
"""
from __future__ import annotations

import ctypes
import itertools
from array import array
from typing import Any, Iterable, Mapping, NamedTuple, Sequence, Union

from .clock import HIGHEST, LOWEST
from .library import FiguresOutcome, Session, library
from .refused import BoardRefused, FrequenciesRefused, Refused, WrittenRefused

BLANK = -2147483648
LINEAR, MIN, MAX, ELEMENT, SHARED, COUNT, OVER, DEPARTURES, LAST = range(1, 10)
FORMULAS = ("", "LINEAR", "MIN", "MAX", "ELEMENT", "SHARED", "COUNT", "OVER", "DEPARTURES", "LAST")
FULL = (LOWEST, HIGHEST)
MOST_VARIABLES, MOST_ENTRIES, MOST_INPUTS = 4096, 16384, 256
MOST_PAIRS, MOST_ASKED, MOST_LOGGED, MOST_MOVES, NUMBERS = 64, 32, 64, 1000, 22
MOST_WINDOWS, MOST_DEPARTURES = 64, 2000
LONGEST_1, LONGEST_2 = 131096, 163868

Move = Union[Iterable[tuple[int, int]], Mapping[int, int]]

_TYPES = {"B": ctypes.c_uint8, "H": ctypes.c_uint16, "h": ctypes.c_int16, "i": ctypes.c_int32, "I": ctypes.c_uint32}
# the rows of a model, in the order in which the calls are lent them
_TABLES = (("kinds", "H"), ("makes", "H"), ("params", "i"), ("firsts", "H"), ("counts", "H"), ("vars", "H"), ("coefs", "h"))
_BOUNDS = (("lows", "i"), ("highs", "i"))
_BUILT = (("numbers", "H"), ("order", "H"), ("stored", "i"), ("reader_starts", "H"), ("reader_places", "H"), ("reasons", "B"))
_LOG = (("log_sizes", "H"), ("log_vars", "H"), ("log_values", "i"))


class Row(NamedTuple):
    """A formula: its kind, the variable that it makes, its inputs with a coefficient each, and a parameter."""

    kind: int
    makes: int
    inputs: tuple[int, ...]
    coefs: tuple[int, ...]
    param: int = 0

    @classmethod
    def of(cls, kind: int, makes: int, inputs: Iterable[int], param: int = 0) -> Row:
        """A row of any kind whose coefficients are all 1."""
        inputs = tuple(inputs)
        return cls(kind, makes, inputs, (1,) * len(inputs), param)

    @classmethod
    def linear(cls, makes: int, param: int, terms: Iterable[tuple[int, int]]) -> Row:
        """The parameter plus the sum of coefficient times input; terms are pairs of variable and coefficient."""
        terms = list(terms)
        return cls(LINEAR, makes, tuple(v for v, _ in terms), tuple(c for _, c in terms), param)

    @classmethod
    def element(cls, makes: int, index: int, candidates: Iterable[int]) -> Row:
        """The candidate that the index chooses, from 0."""
        return cls.of(ELEMENT, makes, (index, *candidates))

    @classmethod
    def departures(cls, makes: int, start: int, end: int, headway: int) -> Row:
        """How many departures a window has."""
        return cls.of(DEPARTURES, makes, (start, end, headway))

    @classmethod
    def last(cls, makes: int, start: int, end: int, headway: int) -> Row:
        """The latest departure of a window."""
        return cls.of(LAST, makes, (start, end, headway))


class Trial(NamedTuple):
    """What a trial leaves: results and reasons of what was asked, every value as it would be, and what was evaluated."""

    evaluations: int
    results: list[int | None]
    reasons: list[int]
    row: array[int]
    flags: bytes


class Figures(NamedTuple):
    """A batch of moves in figures: moves by number (accepted at 0), blank results, the least, the greatest and the sum of
    the others, and the evaluations by each route.

    >>> none = Figures.none()
    >>> one = Figures((1,) + (0,) * 21, 0, 5, 5, 5, (3, 1, 1))
    >>> none.merged(one) == one, one.merged(one).total
    (True, 10)
    """

    by_number: tuple[int, ...]
    blank: int
    least: int | None
    greatest: int | None
    total: int
    evaluations: tuple[int, int, int]

    @classmethod
    def none(cls) -> Figures:
        """The figures of no moves."""
        return cls((0,) * NUMBERS, 0, None, None, 0, (0, 0, 0))

    @property
    def accepted(self) -> int:
        """How many moves were accepted."""
        return self.by_number[0]

    @classmethod
    def _of(cls, by_number: Iterable[int], got: FiguresOutcome) -> Figures:
        """The figures that a call gave."""
        return cls(tuple(by_number), got.blank, _or_none(got.least), _or_none(got.greatest), got.sum,
                   (got.first, got.second, got.third))

    def _outcome(self) -> FiguresOutcome:
        """The outcome that has these figures; a ValueError where one is too large for its place."""
        ends = _filled("i", (BLANK if x is None else x for x in (self.least, self.greatest)))
        blank, *evaluations = _filled("I", (self.blank, *self.evaluations))
        return FiguresOutcome(0, 0, blank, *ends, *_filled("q", [self.total]), *evaluations)

    def merged(self, other: Figures) -> Figures:
        """The figures of both batches together, by the library's merge; where that refuses, since a count leaves 32 bits or
        a sum half of 64, by Python's numbers, which have no end.

        >>> large = Figures.none()._replace(blank=2 ** 32 - 1, total=2 ** 63)
        >>> large.merged(large)._replace(by_number=())
        Figures(by_number=(), blank=8589934590, least=None, greatest=None, total=18446744073709551616, evaluations=(0, 0, 0))
        """
        by_number = array("I", [0]) * NUMBERS
        try:
            rows = _lent(_filled("I", self.by_number), _filled("I", other.by_number), by_number)
            got = _accepted(library().lukhandro_merge(self._outcome(), other._outcome(), *rows))
        except (ValueError, Refused):
            return self._added(other)
        return Figures._of(by_number, got)

    def _added(self, other: Figures) -> Figures:
        """The figures of both batches together, however large."""
        least = [x for x in (self.least, other.least) if x is not None]
        greatest = [x for x in (self.greatest, other.greatest) if x is not None]
        first, second, third = (a + b for a, b in zip(self.evaluations, other.evaluations))
        return Figures(tuple(a + b for a, b in zip(self.by_number, other.by_number)), self.blank + other.blank,
                       min(least, default=None), max(greatest, default=None), self.total + other.total,
                       (first, second, third))


class Given(NamedTuple):
    """What one of many moves is given: 0 or the number of its refusal, the place, the evaluations, and the results and reasons
    of what was asked, none of a refused move."""

    number: int
    place: int
    evaluations: int
    results: list[int | None]
    reasons: list[int]


class Salvaged(NamedTuple):
    """What salvage saved: the file, the rows dropped, and the variables whose start value is missing or was reset."""

    file: bytes
    rows: list[int]
    variables: list[int]


def _filled(code: str, values: Iterable[int]) -> array[int]:
    """A row of numbers; one that does not fit is an error of the caller's."""
    try:
        return array(code, values)
    except OverflowError:
        raise ValueError("a number is too large for the place where it stands") from None


def _lent(*rows: array[int]) -> list[Any]:
    """Rows as C is lent them: pointer and length, one after the other."""
    lent: list[Any] = []
    for row in rows:
        lent += [(_TYPES[row.typecode] * len(row)).from_buffer(row), len(row)]
    return lent


def _bytes(data: bytes) -> list[Any]:
    """Bytes that are read, as C is lent them."""
    return [(ctypes.c_uint8 * len(data)).from_buffer_copy(data), len(data)]


def _accepted(outcome: Any, kind: type[Refused] = Refused) -> Any:
    """An answer that is no refusal."""
    if outcome.number:
        raise kind(outcome.number, outcome.place)
    return outcome


def _or_none(x: int) -> int | None:
    """A value, None where it is blank."""
    return None if x == BLANK else x


class Model:
    """A model that build has accepted, with its stored values, its record and its log.

    Variables and rows are numbers, from 0; names are the business of `lukhandro.text`.
    """

    def __init__(self, starts: Sequence[int], tables: Mapping[str, array[int]], bounds: Sequence[tuple[int, int]] | None,
                 n: int, m: int, e: int) -> None:
        """Use `Model.build` or `Model.read`."""
        self.n, self.m, self.e = n, m, e
        self._rows: dict[str, array[int]] = dict(tables)
        self._rows["lows"] = _filled("i", (b[0] for b in bounds)) if bounds else array("i", [LOWEST]) * n
        self._rows["highs"] = _filled("i", (b[1] for b in bounds)) if bounds else array("i", [HIGHEST]) * n
        for (name, code), places in zip(_BUILT, (n, m, n, n + 1, e, n)):
            self._rows[name] = array(code, [0]) * places
        for (name, code), places in zip(_LOG, (MOST_LOGGED + 1, 4096, 4096)):
            self._rows[name] = array(code, [0]) * places
        self._trial, self._flags = array("i", [0]) * n, array("B", [0]) * n
        self._results, self._why = array("i", [0]) * MOST_ASKED, array("B", [0]) * MOST_ASKED
        self._session = Session()
        self._lend()
        starts_row = _filled("i", starts)
        _accepted(library().lukhandro_build(
            self._record, *self._counts, *self._tables, *_lent(starts_row), *self._built, *self._log[:2]))

    def _lend(self) -> None:
        """Makes the lists of arguments that stay the same from call to call."""
        rows = self._rows
        self._record = ctypes.pointer(self._session)
        self._counts = (self.n, self.m, self.e)
        self._tables = _lent(*(rows[name] for name, _ in _TABLES + _BOUNDS))
        self._built = _lent(*(rows[name] for name, _ in _BUILT))
        self._log = _lent(*(rows[name] for name, _ in _LOG))
        self._filled = _lent(self._results, self._trial, self._flags, self._why)
        self._flags_lent = _lent(self._flags)

    # ── making one ──
    @classmethod
    def build(cls, starts: Sequence[int], rows: Iterable[Row], bounds: Sequence[tuple[int, int]] | None = None) -> Model:
        """Builds a model over as many variables as there are start values; a variable that a row makes starts at 0.

        >>> Model.build([5, 0], [Row.linear(1, 0, [(0, 1)])], bounds=[(0, 9), FULL]).bounds(0)
        (0, 9)
        >>> Model.build([5], [], bounds=[(6, 9)])
        Traceback (most recent call last):
        lukhandro.refused.Refused: refused 7 0: variable 0 has no value or one outside its bounds and no row makes it, or \
a row makes it and it starts at another value than 0
        """
        rows = list(rows)
        columns: dict[str, list[int]] = {name: [] for name, _ in _TABLES}
        for row in rows:
            columns["kinds"].append(row.kind)
            columns["makes"].append(row.makes)
            columns["params"].append(row.param)
            columns["firsts"].append(len(columns["vars"]))
            columns["counts"].append(len(row.inputs))
            columns["vars"] += row.inputs
            columns["coefs"] += row.coefs
        tables = {name: _filled(code, columns[name]) for name, code in _TABLES}
        return cls(starts, tables, bounds, len(starts), len(rows), len(columns["vars"]))

    @classmethod
    def read(cls, data: bytes) -> Model:
        """Reads a model file of either version and builds it; one of version 1 has full bounds.

        >>> Model.read(Model.build([7], []).write()).values()
        [7]
        """
        starts, tables, bounds, counts = read_tables(data)
        return cls(starts, tables, bounds, *counts)

    def copy(self) -> Model:
        """A model of its own with the same tables, values, record and log."""
        twin = object.__new__(Model)
        twin.__dict__.update(self.__dict__)
        twin._rows = {name: row[:] for name, row in self._rows.items()}
        twin._trial, twin._flags, twin._results, twin._why = self._trial[:], self._flags[:], self._results[:], self._why[:]
        twin._session = Session(self.kept, self.evaluations, self.blanks)
        twin._lend()
        return twin

    # ── calls ──
    def trial(self, move: Move, asked: Sequence[int] = (), route: int = 3) -> Trial:
        """Tries a move by a route: 1 from input to output, 2 from output to input, 3 guided by marks."""
        pairs = list(move.items() if isinstance(move, Mapping) else move)
        outcome = _accepted(library().lukhandro_trial(
            self._record, *self._counts, *self._tables, *self._built, *self._pairs(pairs),
            len(asked), *_lent(_filled("H", asked)), route, *self._filled))
        return Trial(outcome.evaluations, [_or_none(x) for x in self._results[:len(asked)]],
                     self._why[:len(asked)].tolist(), self._trial[:], self._flags.tobytes())

    def keep(self, move: Move) -> int:
        """Keeps a move, by route 1; answers the evaluations."""
        pairs = list(move.items() if isinstance(move, Mapping) else move)
        return _accepted(library().lukhandro_keep(
            self._record, *self._counts, *self._tables, *self._built, *self._pairs(pairs), *self._flags_lent,
            *self._log)).evaluations

    def take_back(self) -> int:
        """Takes the latest kept move back, by route 1; answers the evaluations."""
        return _accepted(library().lukhandro_take_back(
            self._record, *self._counts, *self._tables, *self._built, *self._flags_lent, *self._log)).evaluations

    def figures(self, moves: Iterable[Move], asked: int) -> Figures:
        """The figures of a batch of any number of moves, none of them kept; thousands are handed over at a time.

        >>> model = Model.build([25200, 28800, 600, 0], [Row.departures(3, 0, 1, 2)])
        >>> model.figures([[(2, 0)], [(2, 720)], [(3, 1)]], asked=3)._replace(by_number=())
        Figures(by_number=(), blank=1, least=5, greatest=5, total=5, evaluations=(2, 2, 2))
        """
        figures, part = Figures.none(), []
        for move in moves:
            part.append(list(move.items() if isinstance(move, Mapping) else move))
            if len(part) == MOST_MOVES:
                figures, part = figures.merged(self._figures(part, asked)), []
        return figures.merged(self._figures(part, asked)) if part else figures

    def _figures(self, moves: list[list[tuple[int, int]]], asked: int) -> Figures:
        """The figures of at most a thousand moves."""
        by_number = array("I", [0]) * NUMBERS
        every = [pair for move in moves for pair in move]
        got = _accepted(library().lukhandro_figures(
            self._record, *self._counts, *self._tables, *self._built[:-2], len(moves),
            *_lent(_filled("H", map(len, moves)), _filled("H", (v for v, _ in every)), _filled("i", (x for _, x in every))),
            asked, *_lent(by_number)))
        return Figures._of(by_number, got)

    def trials(self, moves: Iterable[Move], asked: Sequence[int] = (), route: int = 3) -> list[Given]:
        """What each of any number of moves is given, all tried on the values as they are and none kept; thousands are handed
        over at a time, and the model is judged once for each thousand.

        >>> model = Model.build([25200, 28800, 600, 0], [Row.departures(3, 0, 1, 2)])
        >>> model.trials([[(2, 720)], [(2, 0)], [(3, 1)]], asked=[3])
        [Given(number=0, place=0, evaluations=1, results=[5], reasons=[0]), \
Given(number=0, place=0, evaluations=1, results=[None], reasons=[3]), \
Given(number=10, place=0, evaluations=0, results=[], reasons=[])]
        """
        every = [move if isinstance(move, list) else list(move.items() if isinstance(move, Mapping) else move) for move in moves]
        given: list[Given] = []
        for at in range(0, len(every), MOST_MOVES):
            given += self._trials(every[at:at + MOST_MOVES], asked, route)
        return given

    def _trials(self, moves: list[list[tuple[int, int]]], asked: Sequence[int], route: int) -> list[Given]:
        every = [pair for move in moves for pair in move]
        numbers, places, counts = (array("I", [0]) * len(moves) for _ in range(3))
        results, why = array("i", [0]) * (len(moves) * len(asked)), array("B", [0]) * (len(moves) * len(asked))
        _accepted(library().lukhandro_trials(
            self._record, *self._counts, *self._tables, *self._built, len(moves),
            *_lent(_filled("H", map(len, moves)), _filled("H", (v for v, _ in every)), _filled("i", (x for _, x in every))),
            len(asked), *_lent(_filled("H", asked)), route, *_lent(numbers, places, counts, results, why)))
        found, reasons, given, at = [_or_none(x) for x in results], why.tolist(), [], 0
        for number, place, count in zip(numbers, places, counts):
            own = slice(at, at if number else at + len(asked))
            given.append(Given(number, place, count, found[own], reasons[own]))
            at += len(asked)
        return given

    def _pairs(self, pairs: Sequence[tuple[int, int]]) -> list[Any]:
        """A move as C is lent it."""
        return [len(pairs), *_lent(_filled("H", (v for v, _ in pairs)), _filled("i", (x for _, x in pairs)))]

    # ── looking ──
    def value(self, variable: int) -> int | None:
        """The stored value of a variable, None where it is blank."""
        return _or_none(self._rows["stored"][variable])

    def values(self) -> list[int | None]:
        """All stored values."""
        return [_or_none(x) for x in self._rows["stored"]]

    def stored(self) -> array[int]:
        """A copy of the row of stored values, with `BLANK` where there is none."""
        return self._rows["stored"][:]

    def reason(self, variable: int) -> int:
        """Why the stored value is blank, 0 where it is not: a key of `lukhandro.REASONS`."""
        return self._rows["reasons"][variable]

    def bounds(self, variable: int) -> tuple[int, int]:
        """The lowest and the highest number that a variable may have."""
        return self._rows["lows"][variable], self._rows["highs"][variable]

    def numbers(self) -> list[int]:
        """The topological number of each variable."""
        return self._rows["numbers"].tolist()

    def order(self) -> list[int]:
        """The rows by number."""
        return self._rows["order"].tolist()

    def readers(self, variable: int) -> list[int]:
        """The rows that read a variable, ascending."""
        first, end = self._rows["reader_starts"][variable:variable + 2]
        return self._rows["reader_places"][first:end].tolist()

    def inputs(self, row: int) -> list[int]:
        """The variables that a row reads, empty where there is no such row."""
        rows = self._rows
        part = library().lukhandro_inputs_of_row(
            self.m, self.e, *_lent(rows["firsts"], rows["counts"], rows["vars"]), row)
        return rows["vars"][part.first:part.first + part.count].tolist()

    def row(self, row: int) -> Row:
        """A row of the tables."""
        rows = self._rows
        first, count = rows["firsts"][row], rows["counts"][row]
        return Row(rows["kinds"][row], rows["makes"][row], tuple(rows["vars"][first:first + count]),
                   tuple(rows["coefs"][first:first + count]), rows["params"][row])

    def rows(self) -> list[Row]:
        """All rows of the tables."""
        return [self.row(r) for r in range(self.m)]

    def made(self) -> dict[int, int]:
        """The variables that a row makes, each with its row."""
        return {v: r for r, v in enumerate(self._rows["makes"])}

    @property
    def kept(self) -> int:
        """Moves kept and not taken back."""
        return self._session.kept

    @property
    def evaluations(self) -> int:
        """Evaluations of the last accepted call."""
        return self._session.evaluations

    @property
    def blanks(self) -> int:
        """How many stored values are blank."""
        return self._session.blanks

    def log(self) -> list[list[tuple[int, int]]]:
        """The kept moves that can be taken back, the oldest first: pairs of a variable and its value before the move."""
        sizes, rows = self._rows["log_sizes"], self._rows
        return [list(zip(rows["log_vars"][64 * k:64 * k + sizes[k + 1]], rows["log_values"][64 * k:64 * k + sizes[k + 1]]))
                for k in range(sizes[0])]

    # ── writing ──
    def starts(self) -> array[int]:
        """The values that the search variables have now, 0 where a row makes the variable: start values of a file."""
        starts = self._rows["stored"][:]
        for v in self._rows["makes"]:
            starts[v] = 0
        return starts

    def has_bounds(self) -> bool:
        """Some variable has bounds that are not full, so that only a file of version 2 holds the model."""
        return any(x != LOWEST for x in self._rows["lows"]) or any(x != HIGHEST for x in self._rows["highs"])

    def write(self, version: int | None = None) -> bytes:
        """The model file of the values as they are now; without a version of 2 if the model has bounds, else of 1.

        >>> len(Model.build([7], []).write()), len(Model.build([7], []).write(2))
        (28, 40)
        >>> Model.build([7], [], bounds=[(0, 9)]).write(1)
        Traceback (most recent call last):
        lukhandro.refused.Refused: refused 18 0: variable 0 has bounds that a file of version 1 cannot hold
        """
        bounded = version == 2 or self.has_bounds()
        file = array("B", [0]) * (LONGEST_2 if bounded else LONGEST_1)
        if bounded:
            length = 28 + 12 * self.n + 12 * self.m + 4 * self.e
            _accepted(library().lukhandro_write_bounded(*self._counts, *_lent(self.starts()), *self._tables, *_lent(file)))
        else:
            length = 24 + 4 * self.n + 12 * self.m + 4 * self.e
            _accepted(library().lukhandro_write(
                *self._counts, *_lent(self.starts()), *self._tables[:2 * len(_TABLES)], *_lent(file)))
        data = file[:length].tobytes()
        return to_version_1(data) if version == 1 and bounded else data


def version_of(data: bytes) -> int:
    """The version that a model file's first two bytes give; 1 where there are none."""
    return int.from_bytes(data[:2], "little") if len(data) >= 2 else 1


def read_tables(data: bytes) -> tuple[array[int], dict[str, array[int]], list[tuple[int, int]] | None, tuple[int, int, int]]:
    """What a model file of either version holds, not yet judged by build: start values, tables, bounds if it has them, and
    the counts n, m, e."""
    rows = {"starts": array("i", [0]) * MOST_VARIABLES}
    for name, code in _TABLES + _BOUNDS:
        entries = name in ("vars", "coefs")
        rows[name] = array(code, [0]) * (MOST_ENTRIES if entries else MOST_VARIABLES)
    bounded = version_of(data) == 2
    names = ["starts"] + [name for name, _ in (_TABLES + _BOUNDS if bounded else _TABLES)]
    call = library().lukhandro_read_bounded if bounded else library().lukhandro_read
    got = _accepted(call(*_bytes(data), *_lent(*(rows[name] for name in names))))
    n, m, e = got.n, got.m, got.e
    tables = {name: rows[name][:e if name in ("vars", "coefs") else m] for name, _ in _TABLES}
    bounds = list(zip(rows["lows"][:n], rows["highs"][:n])) if bounded else None
    return rows["starts"][:n], tables, bounds, (n, m, e)


def departures(windows: Iterable[tuple[int, int, int]]) -> list[int]:
    """All departures of one trip's windows (start, end, headway), in time order: at most 64 windows and 2,000 departures.

    >>> departures([(25200, 28800, 1200), (21600, 25200, 1800)])
    [21600, 23400, 25200, 26400, 27600]
    >>> departures([(0, 10, 0)])
    Traceback (most recent call last):
    lukhandro.refused.BoardRefused: refused 2 0: window 0 has a blank number, or a headway of 0 or less
    """
    windows = list(windows)
    row = array("i", [0]) * MOST_DEPARTURES
    columns = [_filled("i", (window[k] for window in windows)) for k in range(3)]
    got = _accepted(library().lukhandro_departures(len(windows), *_lent(*columns, row)), BoardRefused)
    return row[:got.length].tolist()


class FeedWindow(NamedTuple):
    """A window of frequencies.txt: the bytes of its trip's name, its times and headway in seconds, exact_times, and the line
    on which it was read."""

    trip: bytes
    start: int
    end: int
    headway: int
    exact: int = 0
    line: int = 0


_WINDOWS = "IIBiiiBI"  # the rows of windows, in the order in which the calls are lent them


def read_frequencies(data: bytes) -> list[FeedWindow]:
    """The windows of the bytes of frequencies.txt, in the order of its lines.

    >>> read_frequencies(b'trip_id,start_time,end_time,headway_secs\\n"a, b",6:00:00,25:10:00,600\\n')
    [FeedWindow(trip=b'a, b', start=21600, end=90600, headway=600, exact=0, line=2)]
    >>> read_frequencies(b"trip_id,start_time,end_time,headway_secs\\nA,6:00:00,6:60:00,600\\n")
    Traceback (most recent call last):
    lukhandro.refused.FrequenciesRefused: refused 5 2: line 2 has a time that is none, or beyond 596523:14:07: it is written as 6:00:00
    """
    rows = [array(code, [0]) * data.count(b"\n") for code in _WINDOWS]
    got = _accepted(library().lukhandro_frequencies(*_bytes(data), *_lent(*rows)), FrequenciesRefused)
    found = []
    for place, length, doubled, start, end, headway, exact, line in zip(*(row[:got.length] for row in rows)):
        name = data[place:place + length]
        found.append(FeedWindow(name.replace(b'""', b'"') if doubled else name, start, end, headway, exact, line))
    return found


def write_frequencies(windows: Iterable[FeedWindow]) -> bytes:
    """The bytes of frequencies.txt of windows, which are read back to the same; their lines are not looked at.

    >>> write_frequencies([FeedWindow(b"a, b", 21600, 90600, 600)]).split(b"\\n")[1]
    b'"a, b",06:00:00,25:10:00,600,0'
    """
    windows = list(windows)
    text = b"".join(window.trip for window in windows)
    ends = list(itertools.accumulate(len(window.trip) for window in windows))
    columns = [[end - len(window.trip) for end, window in zip(ends, windows)], [len(window.trip) for window in windows], [0] * len(windows)]
    columns += [[window[k] for window in windows] for k in range(1, 5)]
    rows = [_filled(code, column) for code, column in zip(_WINDOWS, columns)]
    file = array("B", [0]) * (53 + 2 * len(text) + 42 * len(windows))
    call = library().lukhandro_write_frequencies
    return file[:_accepted(call(len(windows), *_bytes(text), *_lent(*rows), *_lent(file)), WrittenRefused).length].tobytes()


def _moved(call: Any, data: bytes, room: int) -> bytes:
    """A file of one version as the other, by one of the two calls."""
    file = array("B", [0]) * room
    return file[:_accepted(call(*_bytes(data), *_lent(file))).length].tobytes()


def to_version_2(data: bytes) -> bytes:
    """A model file of version 1 as one of version 2, whose bounds are all full."""
    return _moved(library().lukhandro_to_version_2, data, LONGEST_2)


def to_version_1(data: bytes) -> bytes:
    """A model file of version 2 as one of version 1, which has no bounds: refused with 18 where some are not full.

    >>> file = Model.build([7], []).write(1)
    >>> to_version_1(to_version_2(file)) == file
    True
    """
    return _moved(library().lukhandro_to_version_1, data, LONGEST_1)


def salvage(data: bytes) -> Salvaged:
    """What is whole and good in a damaged model file of version 1.

    >>> salvage(Model.build([7], []).write() + b"surplus").file == Model.build([7], []).write()
    True
    """
    file, listed = array("B", [0]) * LONGEST_1, array("H", [0]) * (2 * MOST_VARIABLES)
    got = _accepted(library().lukhandro_salvage(*_bytes(data), *_lent(file, listed)))
    return Salvaged(file[:got.length].tobytes(), listed[:got.rows].tolist(),
                    listed[got.rows:got.rows + got.values].tolist())
