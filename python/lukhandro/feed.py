"""GTFS feeds: the tables that windows, days and stops come from, a folder or a .zip. What is wrong has file, line, sentence.

`frequencies` is the one place where frequencies.txt is read, by the library's proved reader. What that refuses is said by
Python's csv, which finds everything that is wrong at once; where there is no library, csv also reads what is right.
"""
from __future__ import annotations

import csv
import datetime
import io
import os
import re
import zipfile
import zlib
from pathlib import Path
from typing import Iterator, NamedTuple, Sequence

from .clock import HIGHEST
from .files import Fault, Usage, why
from .library import Unloadable
from .model import read_frequencies
from .refused import FrequenciesRefused
from .text import printable

DAYS = ("monday", "tuesday", "wednesday", "thursday", "friday", "saturday", "sunday")
SHOWN_PROBLEMS = 20
_TIME = re.compile(r"([0-9]+):([0-5][0-9]):([0-5][0-9])")
_DATE = re.compile(r"([0-9]{4})-?([0-9]{2})-?([0-9]{2})")


class FeedProblem(NamedTuple):
    """What is wrong in a feed: the file, its line (0 for the file as a whole) and a sentence."""

    file: str
    line: int
    sentence: str

    def __str__(self) -> str:
        return printable(f"{self.file}:{self.line}: {self.sentence}" if self.line else f"{self.file}: {self.sentence}")


class FeedProblems(Fault):
    """All that was found wrong with a file of a feed."""

    def __init__(self, problems: Sequence[FeedProblem]) -> None:
        self.problems = list(problems)
        said = [str(problem) for problem in self.problems[:SHOWN_PROBLEMS]]
        if len(self.problems) > SHOWN_PROBLEMS:
            said.append(f"and {len(self.problems) - SHOWN_PROBLEMS} more")
        super().__init__("\n".join(said))


class Window(NamedTuple):
    """A line of frequencies.txt."""

    trip: str
    start: int
    end: int
    headway: int
    line: int


class Trip(NamedTuple):
    """A line of trips.txt."""

    trip: str
    route: str
    service: str
    headsign: str
    line: int


class Visit(NamedTuple):
    """A trip's call at a stop, a line of stop_times.txt: its time if it has one, and whether one can get on."""

    sequence: int
    stop: str
    departure: int | None
    boards: bool
    line: int


def gtfs_time(text: str) -> int | None:
    """A Time of the reference in seconds, None if it is none or leaves the value range.

    >>> gtfs_time("6:00:00"), gtfs_time("25:10:00"), gtfs_time("6:60:00"), gtfs_time(" 6:00:00")
    (21600, 90600, None, None)
    """
    found = _TIME.fullmatch(text)
    if not found or len(found.group(1)) > 9:
        return None
    hour, minute, second = map(int, found.groups())
    number = hour * 3600 + minute * 60 + second
    return number if number <= HIGHEST else None


def gtfs_date(text: str) -> datetime.date | None:
    """A date, written 20070603 or 2007-06-03."""
    found = _DATE.fullmatch(text)
    try:
        return datetime.date(*map(int, found.groups())) if found else None
    except ValueError:
        return None


def table(file: str, data: bytes, required: Sequence[str], optional: Sequence[str] = (),
          problems: list[FeedProblem] | None = None) -> Iterator[tuple[int, list[str]]]:
    """The lines of a table with their numbers: of each the fields asked for, in this order, empty where an optional one is
    not there. Lines that are wrong are passed over, and at the end all that is wrong is said at once: what was found here,
    and what the caller put among the problems."""
    try:
        text = data.decode("utf-8-sig")
    except UnicodeDecodeError as error:
        raise FeedProblems([FeedProblem(file, data.count(b"\n", 0, error.start) + 1, "this is no text in UTF-8")]) from None
    reader = csv.reader(io.StringIO(text, newline=""), strict=True)
    problems = [] if problems is None else problems
    empty, before = 0, 0
    places: list[int] = []
    width = 0
    try:
        for fields in reader:
            line, before = before + 1, reader.line_num
            if not places:
                places, width = _header(file, fields, required, optional), len(fields)
            elif not fields:
                empty = empty or line
            else:
                if empty:
                    problems.append(FeedProblem(file, empty, "the line is empty"))
                    empty = 0
                if len(fields) != width:
                    problems.append(FeedProblem(file, line, f"the line has {len(fields)} fields, and the first line names {width}"))
                else:
                    yield line, [fields[at] if at >= 0 else "" for at in places]
    except csv.Error as error:
        problems.append(FeedProblem(file, before + 1, f"the fields cannot be told apart: {error}"))
    if not places:
        problems.append(FeedProblem(file, 1, "the file is empty"))
    if problems:
        raise FeedProblems(sorted(problems))


def _header(file: str, fields: list[str], required: Sequence[str], optional: Sequence[str]) -> list[int]:
    """Where the fields asked for stand in the lines, -1 where an optional one does not."""
    problems = [FeedProblem(file, 1, f"there is no field {name}") for name in required if name not in fields]
    problems += [FeedProblem(file, 1, f"the field {name} is there twice") for name in (*required, *optional) if fields.count(name) > 1]
    if problems:
        raise FeedProblems(problems)
    return [fields.index(name) if name in fields else -1 for name in (*required, *optional)]


def frequencies(data: bytes) -> list[Window]:
    """The windows of frequencies.txt, in the order of its lines.

    >>> frequencies(b"trip_id,start_time,end_time,headway_secs\\nSTBA,6:00:00,22:00:00,1800\\n")
    [Window(trip='STBA', start=21600, end=79200, headway=1800, line=2)]
    """
    file = "frequencies.txt"
    try:
        data.decode("utf-8-sig")
        return [Window(found.trip.decode(), found.start, found.end, found.headway, found.line) for found in read_frequencies(data)]
    except (UnicodeDecodeError, Unloadable):
        return _by_csv(data)
    except FrequenciesRefused as refused:
        said: list[FeedProblem] = []
        try:
            _by_csv(data)
        except FeedProblems as found:
            said = found.problems
        if all(problem.line != refused.place for problem in said):  # csv takes some quotes and lone returns otherwise
            said = [FeedProblem(file, refused.place, refused.sentence), *said]
        raise FeedProblems(said) from None


def _by_csv(data: bytes) -> list[Window]:
    """The same with Python's csv."""
    file, windows = "frequencies.txt", []
    problems: list[FeedProblem] = []
    for line, (trip, start, end, headway, exact) in table(
            file, data, ("trip_id", "start_time", "end_time", "headway_secs"), ("exact_times",), problems):
        begins, ends = gtfs_time(start), gtfs_time(end)
        every = int(headway) if re.fullmatch(r"[0-9]{1,12}", headway) else 0
        wrong = [(not trip, "the line names no trip"),
                 (begins is None, f"start_time {start!r} is no time: it is written as 6:00:00"),
                 (ends is None, f"end_time {end!r} is no time: it is written as 22:00:00"),
                 (not 0 < every <= HIGHEST, f"headway_secs {headway!r} is no positive whole number of seconds"),
                 (exact not in ("", "0", "1"), f"exact_times {exact!r} is neither empty nor 0 nor 1")]
        problems += [FeedProblem(file, line, sentence) for is_wrong, sentence in wrong if is_wrong]
        if begins is not None and ends is not None:
            windows.append(Window(trip, begins, ends, every, line))
    return windows


class Feed:
    """A feed, opened; each table is read when it is asked for."""

    def __init__(self, path: str) -> None:
        self.path, self._prefix = path, ""
        self._zip: zipfile.ZipFile | None = None
        self._routes: dict[str, str] | None = None
        if os.path.isdir(path):
            return
        try:
            self._zip = zipfile.ZipFile(path)
        except OSError as error:
            raise Usage(f"cannot read {path}: {why(error)}") from None
        except zipfile.BadZipFile:
            raise Usage(f"{path} is no feed: it is neither a folder nor a .zip") from None
        inside = [name for name in self._zip.namelist() if name.endswith("/frequencies.txt") or name.endswith("/trips.txt")]
        if inside and "trips.txt" not in self._zip.namelist():  # the tables lie in a folder of the .zip
            self._prefix = min(inside, key=len).rpartition("/")[0] + "/"

    @property
    def name(self) -> str:
        """The name of the feed's folder or file."""
        return Path(self.path).resolve().name

    def member(self, file: str) -> str:
        """The name of a table inside the .zip."""
        return self._prefix + file

    def data(self, file: str) -> bytes | None:
        """The bytes of a table, None where the feed has none."""
        try:
            if self._zip is None:
                place = Path(self.path) / file
                return place.read_bytes() if place.exists() else None
            return self.whole(self.member(file)) if self.member(file) in self._zip.namelist() else None
        except OSError as error:
            raise Usage(f"cannot read {file} of {self.path}: {why(error)}") from None

    def whole(self, name: str) -> bytes:
        """The bytes of any file of the feed, by the name that `files` has for it."""
        if self._zip is None:
            return (Path(self.path) / name).read_bytes()
        try:
            return self._zip.read(name)
        except (zipfile.BadZipFile, zlib.error, RuntimeError, NotImplementedError, EOFError, ValueError) as error:
            raise Fault(f"{name}: it cannot be taken out of {self.path}: {error}") from None

    def wanted(self, file: str) -> bytes:
        """The bytes of a table that has to be there."""
        data = self.data(file)
        if data is None:
            raise FeedProblems([FeedProblem(file, 0, f"the feed {self.path} has no such file")])
        return data

    def files(self) -> list[str]:
        """The names of all files of the feed."""
        if self._zip is not None:
            return self._zip.namelist()
        return sorted(str(path.relative_to(self.path)) for path in Path(self.path).rglob("*") if path.is_file())

    @property
    def zip(self) -> zipfile.ZipFile | None:
        """The feed as a .zip, None if it is a folder."""
        return self._zip

    # ── tables ──
    def windows(self, needed: bool = True) -> list[Window]:
        """The windows of frequencies.txt; none where the file need not be there and is not."""
        if not needed and self.data("frequencies.txt") is None:
            return []
        return frequencies(self.wanted("frequencies.txt"))

    def trips(self) -> dict[str, Trip]:
        """The trips by name."""
        found: dict[str, Trip] = {}
        problems: list[FeedProblem] = []
        for line, (route, service, trip, headsign) in table(
                "trips.txt", self.wanted("trips.txt"), ("route_id", "service_id", "trip_id"), ("trip_headsign",), problems):
            if trip in found:
                problems.append(FeedProblem("trips.txt", line, f"the trip {trip} is there already, in line {found[trip].line}"))
            else:
                found[trip] = Trip(trip, route, service, headsign, line)
        return found

    def routes(self) -> dict[str, str]:
        """What each route is called: its short and its long name."""
        if self._routes is not None:
            return self._routes
        found = {}
        for _, (route, short, long) in table("routes.txt", self.wanted("routes.txt"), ("route_id",), ("route_short_name", "route_long_name")):
            found[route] = " ".join(part for part in (short, long) if part) or route
        self._routes = found
        return found

    def short_names(self) -> dict[str, list[str]]:
        """The routes of each short name."""
        found: dict[str, list[str]] = {}
        for _, (route, short) in table("routes.txt", self.wanted("routes.txt"), ("route_id",), ("route_short_name",)):
            if short:
                found.setdefault(short, []).append(route)
        return found

    def services(self, date: datetime.date) -> set[str]:
        """The services that run on a day, by calendar.txt and calendar_dates.txt."""
        weekly, exceptions = self.data("calendar.txt"), self.data("calendar_dates.txt")
        if weekly is None and exceptions is None:
            raise FeedProblems([FeedProblem("calendar.txt", 0, f"the feed {self.path} has neither calendar.txt nor calendar_dates.txt")])
        running = self._weekly(weekly, date) if weekly is not None else set()
        if exceptions is not None:
            problems: list[FeedProblem] = []
            file = "calendar_dates.txt"
            for line, (service, day, kind) in table(file, exceptions, ("service_id", "date", "exception_type"), (), problems):
                if gtfs_date(day) is None:
                    problems.append(FeedProblem(file, line, f"{day!r} is no date: it is written as 20070603"))
                if kind not in ("1", "2"):
                    problems.append(FeedProblem(file, line, f"exception_type is {kind!r}, and should be 1 or 2"))
                if gtfs_date(day) == date:
                    (running.add if kind == "1" else running.discard)(service)
        return running

    def _weekly(self, data: bytes, date: datetime.date) -> set[str]:
        """The services that run on a day by calendar.txt alone."""
        running, file = set(), "calendar.txt"
        problems: list[FeedProblem] = []
        for line, (service, first, last, *days) in table(file, data, ("service_id", "start_date", "end_date", *DAYS), (), problems):
            begins, ends = gtfs_date(first), gtfs_date(last)
            problems += [FeedProblem(file, line, f"{text!r} is no date: it is written as 20070603")
                         for text, found in ((first, begins), (last, ends)) if found is None]
            problems += [FeedProblem(file, line, f"{name} is {flag!r}, and should be 0 or 1")
                         for name, flag in zip(DAYS, days) if flag not in ("0", "1")]
            if begins and ends and begins <= date <= ends and days[date.weekday()] == "1":
                running.add(service)
        return running

    def stops(self) -> dict[str, tuple[str, str]]:
        """Each stop's name, and the station that it is part of."""
        return {stop: (name or stop, parent) for _, (stop, name, parent) in table(
            "stops.txt", self.wanted("stops.txt"), ("stop_id",), ("stop_name", "parent_station"))}

    def visits(self, trips: set[str]) -> dict[str, list[Visit]]:
        """The calls of some trips at stops, in their order."""
        found: dict[str, list[Visit]] = {}
        problems: list[FeedProblem] = []
        file, fields = "stop_times.txt", ("trip_id", "stop_id", "stop_sequence")
        for line, (trip, stop, sequence, departs, arrives, pickup) in table(
                file, self.wanted(file), fields, ("departure_time", "arrival_time", "pickup_type"), problems):
            if trip not in trips:
                continue
            written = departs or arrives
            at = gtfs_time(written)
            if written and at is None:
                problems.append(FeedProblem(file, line, f"{written!r} is no time: it is written as 6:00:00"))
            if not re.fullmatch(r"[0-9]{1,9}", sequence):
                problems.append(FeedProblem(file, line, f"stop_sequence {sequence!r} is no whole number"))
                continue
            found.setdefault(trip, []).append(Visit(int(sequence), stop, at, pickup != "1", line))
        for trip, visits in found.items():
            visits.sort(key=lambda visit: visit.sequence)
            problems += [FeedProblem(file, after.line, f"the trip {trip} has the stop_sequence {after.sequence} twice")
                         for before, after in zip(visits, visits[1:]) if before.sequence == after.sequence]
        if problems:
            raise FeedProblems(problems)
        return found


def day(text: str) -> datetime.date:
    """A date that was typed."""
    found = gtfs_date(text)
    if found is None:
        raise Usage(f"{text} is no date: write it as 2007-06-03 or 20070603")
    return found
