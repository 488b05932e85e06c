"""The departures at a stop on a day: each trip's windows moved by the stop's time, listed by the proved board, merged."""
from __future__ import annotations

import datetime
from typing import Iterable, NamedTuple, Sequence

from .clock import HIGHEST, clock
from .feed import DAYS, Feed, FeedProblem, FeedProblems, Trip, Visit, Window
from .files import Fault
from .model import MOST_WINDOWS, departures
from .refused import BoardRefused
from .text import printable
from .windows import route_ids


class Departure(NamedTuple):
    """A departure at the stop: its time in seconds of the service day, and whose it is."""

    time: int
    route: str
    trip: str
    headsign: str


class Board(NamedTuple):
    """All departures of a stop on a day, in time order."""

    stop: str
    name: str
    date: datetime.date
    departures: list[Departure]
    routes: dict[str, str]


def listed(windows: Sequence[tuple[int, int, int]]) -> list[int]:
    """The departures of any number of windows of one trip: more than the board takes at once are handed over in parts, in
    order of their starts, each part beginning with the window that ended the one before, so that overlaps are still seen.

    >>> len(listed([(3600 * k, 3600 * k + 3600, 600) for k in range(100)]))
    600
    """
    if len(windows) <= MOST_WINDOWS:
        return departures(windows)
    windows = sorted(window for window in windows if window[0] < window[1]) or list(windows[:1])
    found: set[int] = set()
    for at in range(0, max(len(windows) - 1, 1), MOST_WINDOWS - 1):
        found.update(departures(windows[at:at + MOST_WINDOWS]))
    return sorted(found)


def board(feed: Feed, stop: str, date: datetime.date, routes: Sequence[str] = ()) -> Board:
    """The board of a stop. A trip without windows departs once, at its own time; where a trip ends, or nobody may get on,
    nothing departs."""
    stops = feed.stops()
    wanted, name = _stops(stops, stop)
    services, called = feed.services(date), feed.routes()
    only = route_ids(feed, routes, called) if routes else None
    trips = {trip.trip: trip for trip in feed.trips().values()
             if trip.service in services and (only is None or trip.route in only)}
    windows: dict[str, list[Window]] = {}
    for window in feed.windows(needed=False):
        windows.setdefault(window.trip, []).append(window)
    found: list[Departure] = []
    problems: list[FeedProblem] = []
    for trip, visits in feed.visits(set(trips)).items():
        for visit in visits[:-1]:
            if visit.stop in wanted and visit.boards:
                try:
                    found += _of_trip(trips[trip], visits[0], visit, windows.get(trip))
                except FeedProblems as why:
                    problems += why.problems
    if problems:
        raise FeedProblems(problems)
    return Board(stop, name, date, sorted(found), called)


def _stops(stops: dict[str, tuple[str, str]], stop: str) -> tuple[set[str], str]:
    """The stops that a word stands for, a station's among them, and its name."""
    if stop not in stops:
        alike = [key for key, (name, _) in stops.items() if name == stop]
        if len(alike) != 1:
            raise Fault(f"stops.txt: there is no stop {stop}" if not alike
                        else f"stops.txt: {len(alike)} stops are called {stop}: name one of {', '.join(alike[:5])}")
        stop = alike[0]
    return {stop} | {key for key, (_, parent) in stops.items() if parent == stop}, stops[stop][0]


def _of_trip(trip: Trip, first: Visit, visit: Visit, windows: list[Window] | None) -> Iterable[Departure]:
    """The departures of one trip at one of its calls."""
    for call in (first, visit) if windows else (visit,):
        if call.departure is None:
            raise FeedProblems([FeedProblem("stop_times.txt", call.line, f"the trip {trip.trip} has no time here")])
    if windows is None:
        moved = [(visit.departure, visit.departure + 1, 1)]
    else:
        by = visit.departure - first.departure
        if by < 0:
            raise FeedProblems([FeedProblem("stop_times.txt", visit.line, f"the trip {trip.trip} is here before it has begun")])
        moved = [(window.start + by, window.end + by, window.headway) for window in windows]
    if any(end > HIGHEST for _, end, _ in moved):
        raise FeedProblems([FeedProblem("stop_times.txt", visit.line, f"the trip {trip.trip} leaves the value range here")])
    try:
        times = listed(moved)
    except BoardRefused as refused:
        line = windows[refused.place].line if refused.number == 3 and windows and len(windows) <= MOST_WINDOWS else windows[0].line
        what = "overlaps another window of its trip" if refused.number == 3 else refused.sentence
        raise FeedProblems([FeedProblem("frequencies.txt", line, f"trip {trip.trip}: {what}")]) from None
    return [Departure(time, trip.route, trip.trip, trip.headsign) for time in times]


# ── as a table ──
def letters(number: int) -> str:
    """A mark for a route: a, b, .. z, aa, ab and so on.

    >>> letters(0), letters(25), letters(26), letters(702)
    ('a', 'z', 'aa', 'aaa')
    """
    mark = ""
    while number >= 0:
        mark, number = chr(ord("a") + number % 26) + mark, number // 26 - 1
    return mark


def hours(departures: Sequence[Departure], marks: dict[str, str]) -> list[str]:
    """The table at a bus stop: a line for each hour from the first to the last, and in it the minutes, each with the mark of
    its route."""
    minutes: dict[int, list[str]] = {hour: [] for hour in range(departures[0].time // 3600, departures[-1].time // 3600 + 1)}
    for departure in departures:
        minutes[departure.time // 3600].append(f"{departure.time // 60 % 60:02}{marks[departure.route]}")
    return [f"{hour % 24:2}{'*' if hour >= 24 else ' '} {' '.join(own)}".rstrip() for hour, own in minutes.items()]


def printed(board: Board) -> str:
    """The board as it hangs at the stop, with a letter for each route where there are several."""
    lines = [f"{board.name}, {DAYS[board.date.weekday()].capitalize()} {board.date}"]
    if not board.departures:
        return "\n".join([printable(lines[0]), "no departures"])
    signs: dict[str, set[str]] = {}
    for departure in board.departures:
        signs.setdefault(departure.route, set()).add(departure.headsign)
    routes = sorted(signs)
    marks = {route: letters(k) if len(routes) > 1 else "" for k, route in enumerate(routes)}
    lines += hours(board.departures, marks)
    for route in routes:
        to = ", ".join(sorted(filter(None, signs[route])))
        lines.append(f"{marks[route]} {board.routes.get(route, route)}{': ' + to if to else ''}".strip())
    last = board.departures[-1].time
    if last >= 86400:
        lines.append("* on the day after")
    count = len(board.departures)
    lines.append(f"{count:,} departure{'' if count == 1 else 's'}, the last at {clock(last)}")
    return "\n".join(map(printable, lines))
