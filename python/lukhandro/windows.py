"""From a feed to a model text, and the way back: names for the windows of frequencies.txt, import and export."""
from __future__ import annotations

import os
import re
from pathlib import Path
from typing import Iterable, NamedTuple, Sequence

from . import files
from .clock import clock
from .feed import DAYS, Feed, FeedProblem, FeedProblems, Trip, Window, day
from .files import Fault, Usage
from .model import MOST_INPUTS, MOST_VARIABLES, MOST_WINDOWS, departures
from .refused import BoardRefused
from .sheet import Sheet
from .text import printable

LONGEST_HEADWAY = 4 * 3600
PARTS = ("start", "end", "headway")


class Named(NamedTuple):
    """A window with its trip and its name, ROUTE.TRIP.wK: K counts the trip's lines in frequencies.txt."""

    name: str
    route: str
    trip: str
    window: Window
    about: Trip


def identifier(text: str, first: str = "") -> str:
    """A part of a name for an id of a feed: what is no letter, digit or underscore becomes an underscore.

    >>> identifier("AAMV-WE 1"), identifier("12", "r"), identifier("é.x")
    ('AAMV_WE_1', 'r12', 'é_x')
    """
    part = re.sub(r"\W+", "_", text) or "_"
    return first + part if first and not re.match(r"[^\W\d]", part) else part


def _unique(ids: Iterable[str], first: str = "") -> dict[str, str]:
    """A part of a name for each id, no two alike."""
    found: dict[str, str] = {}
    used: set[str] = set()
    for text in ids:
        if text in found:
            continue
        part, k = identifier(text, first), 2
        while part in used:
            part, k = f"{identifier(text, first)}_{k}", k + 1
        used.add(part)
        found[text] = part
    return found


def named_windows(feed: Feed) -> list[Named]:
    """All windows of a feed, named; the names do not depend on what is then chosen, so that export finds them again."""
    windows, trips = feed.windows(), feed.trips()
    problems = [FeedProblem("frequencies.txt", window.line, f"there is no trip {window.trip} in trips.txt")
                for window in windows if window.trip not in trips]
    if problems:
        raise FeedProblems(problems)
    route_names = _unique((trips[window.trip].route for window in windows), "r")
    trip_names = _unique(window.trip for window in windows)
    count: dict[str, int] = {}
    found = []
    for window in windows:
        count[window.trip] = count.get(window.trip, 0) + 1
        about = trips[window.trip]
        route, trip = route_names[about.route], trip_names[window.trip]
        found.append(Named(f"{route}.{trip}.w{count[window.trip]}", route, trip, window, about))
    return found


class Choice(NamedTuple):
    """What of a feed is wanted: a day, services, routes, trips; empty is all."""

    date: str | None = None
    services: Sequence[str] = ()
    routes: Sequence[str] = ()
    trips: Sequence[str] = ()

    def said(self) -> str:
        """The choice in words."""
        parts = []
        if self.date:
            date = day(self.date)
            parts.append(f"{DAYS[date.weekday()].capitalize()} {date}")
        for word, chosen in (("service", self.services), ("route", self.routes), ("trip", self.trips)):
            if chosen:
                parts.append(f"{word} {', '.join(chosen)}")
        return ", ".join(parts) or "all windows"


def route_ids(feed: Feed, wanted: Sequence[str], known: Iterable[str]) -> set[str]:
    """The routes of words that are ids, or else short names."""
    known, short, found = set(known), None, set()
    for word in wanted:
        if word in known:
            found.add(word)
            continue
        short = short if short is not None else feed.short_names()
        if word not in short:
            raise Fault(f"routes.txt: there is no route {word}")
        found.update(short[word])
    return found


def chosen(feed: Feed, windows: Sequence[Named], choice: Choice) -> list[Named]:
    """The windows of a choice; it is said if there are none."""
    services = feed.services(day(choice.date)) if choice.date else None
    routes = route_ids(feed, choice.routes, feed.routes()) if choice.routes else None
    for trip in choice.trips:
        if all(named.window.trip != trip for named in windows):
            raise Fault(f"frequencies.txt: there is no window of a trip {trip}")
    for service in choice.services:
        if all(named.about.service != service for named in windows):
            raise Fault(f"trips.txt: no trip with a window has the service {service}")
    found = [named for named in windows
             if (services is None or named.about.service in services) and (routes is None or named.about.route in routes)
             and (not choice.services or named.about.service in choice.services)
             and (not choice.trips or named.window.trip in choice.trips)]
    if not found:
        raise Fault(f"frequencies.txt: no window is of {choice.said()}")
    return found


# ── import ──
class _Writer:
    """The lines of a model text, with the variables counted."""

    def __init__(self) -> None:
        self.lines: list[tuple[str, str]] = []
        self.variables = 0

    def remark(self, text: str) -> None:
        """Adds a comment."""
        self.lines.append(("", "# " + printable(" ".join(text.split()))))

    def space(self) -> None:
        """Adds an empty line."""
        self.lines.append(("", ""))

    def variable(self, name: str, what: str) -> str:
        """Adds a variable; answers its name."""
        self.lines.append((name, what))
        self.variables += 1
        return name

    def text(self) -> str:
        """The text, with the values of each trip, route and the whole set in a column."""
        said, block = [], []
        for name, what in self.lines + [("", "")]:
            if name:
                block.append((name, what))
                continue
            width = max((len(name) for name, _ in block), default=0)
            said += [f"{name:<{width}} = {what}" for name, what in block]
            said.append(what)
            block = []
        return "\n".join(said[:-1]) + "\n"

    def tree(self, name: str, formula: str, between: str, inputs: Sequence[str]) -> str:
        """A formula that may be taken in parts, over any number of inputs: of more than 256 each part first."""
        k = 0
        while len(inputs) > MOST_INPUTS:
            parts = []
            for at in range(0, len(inputs), MOST_INPUTS):
                k += 1
                parts.append(self.variable(f"{name}.part{k}", f"{formula}({between.join(inputs[at:at + MOST_INPUTS])})"))
            inputs = parts
        return self.variable(name, f"{formula}({between.join(inputs)})")


def model_of(feed: Feed, windows: Sequence[Named], choice: Choice) -> tuple[str, int]:
    """The text of a model of windows, and how many variables it has."""
    writer, called = _Writer(), feed.routes()
    writer.remark(f"Imported from {feed.name}: {choice.said()}")
    routes = list(dict.fromkeys(named.route for named in windows))
    totals, lasts = [], []
    for route in routes:
        own = [named for named in windows if named.route == route]
        route_id = own[0].about.route
        if route_id not in called:
            raise FeedProblems([FeedProblem("trips.txt", own[0].about.line, f"there is no route {route_id} in routes.txt")])
        writer.space()
        writer.remark(f"route {route_id}: {called[route_id]}")
        total, last = _route(writer, route, own)
        totals.append(total)
        lasts.append(last)
    writer.space()
    writer.remark("all routes")
    writer.tree("departures", "LINEAR", " + ", totals)
    writer.tree("last", "MAX", ", ", lasts)
    _clashes(writer, "clashes", windows)
    return writer.text(), writer.variables


def _route(writer: _Writer, route: str, windows: Sequence[Named]) -> tuple[str, str]:
    """The windows of a route trip by trip, then its total, its latest trip and its clashes."""
    totals, lasts = [], []
    for trip in dict.fromkeys(named.trip for named in windows):
        own = [named for named in windows if named.trip == trip]
        about = own[0].about
        writer.remark(f"trip {about.trip}{' to ' + about.headsign if about.headsign else ''}, service {about.service}")
        counts, ends = [], []
        for name, _, _, window, _ in own:
            longest = max(window.headway, LONGEST_HEADWAY)
            writer.variable(f"{name}.start", clock(window.start))
            writer.variable(f"{name}.end", clock(window.end))
            writer.variable(f"{name}.headway", f"{clock(window.headway)}  in 0:00:01..{clock(longest)}")
            inputs = ", ".join(f"{name}.{part}" for part in PARTS)
            counts.append(writer.variable(f"{name}.departures", f"DEPARTURES({inputs})"))
            ends.append(writer.variable(f"{name}.last", f"LAST({inputs})"))
        totals.append(writer.tree(f"{route}.{trip}.departures", "LINEAR", " + ", counts))
        lasts.append(writer.tree(f"{route}.{trip}.last", "MAX", ", ", ends))
    total = writer.tree(f"{route}.departures", "LINEAR", " + ", totals)
    last = writer.tree(f"{route}.last", "MAX", ", ", lasts)
    _clashes(writer, f"{route}.clashes", windows)
    return total, last


def _clashes(writer: _Writer, name: str, windows: Sequence[Named]) -> None:
    """How many windows start when another does; SHARED compares at most 256 and cannot be taken in parts."""
    if len(windows) > MOST_INPUTS:
        writer.remark(f"{name} is left out: {len(windows)} starts, and at most {MOST_INPUTS} can be compared")
    else:
        writer.variable(name, f"SHARED({', '.join(named.name + '.start' for named in windows)})")


def imported(feed: Feed, choice: Choice) -> str:
    """The model text of a choice; of more than 4,096 variables it is said how many and by which route to cut."""
    windows = chosen(feed, named_windows(feed), choice)
    text, variables = model_of(feed, windows, choice)
    if variables <= MOST_VARIABLES:
        return text
    count: dict[str, int] = {}
    by = (lambda named: named.about.route) if len({named.about.route for named in windows}) > 1 else (lambda named: named.window.trip)
    for named in windows:
        count[by(named)] = count.get(by(named), 0) + 1
    word = "route" if len({named.about.route for named in windows}) > 1 else "trip"
    largest = sorted(count.items(), key=lambda item: -item[1])
    said = ", ".join(f"{name} ({number} windows)" for name, number in largest[:5])
    raise Fault(f"the model would have {variables:,} variables, and {MOST_VARIABLES:,} are the most: {len(windows):,} windows of "
                f"{len(count):,} {word}s. Cut it with --{word}, as --{word} {largest[0][0]}; the largest are {said}."
                + (" --by-route FOLDER writes a model for each route." if word == "route" else ""))


def by_route(feed: Feed, choice: Choice, folder: str) -> list[tuple[str, str, int]]:
    """Writes a model for each route into a folder; answers route, file and number of variables of each."""
    windows = chosen(feed, named_windows(feed), choice)
    grouped: dict[str, list[Named]] = {}
    for named in windows:
        grouped.setdefault(named.route, []).append(named)
    written, too_long = [], []
    for route, own in grouped.items():
        text, variables = model_of(feed, own, choice._replace(routes=[own[0].about.route]))
        if variables > MOST_VARIABLES:
            too_long.append(f"route {own[0].about.route} would have {variables:,} variables, and {MOST_VARIABLES:,} are the most: "
                            "cut it with --trip")
        written.append((own[0].about.route, os.path.join(folder, route + ".lkt"), variables, text))
    if too_long:
        raise Fault("\n".join(too_long))
    _make(folder)
    for _, place, _, text in written:
        files.write(place, text.encode("utf-8"))
    return [(route, place, variables) for route, place, variables, _ in written]


# ── export ──
def spans(text: str) -> list[list[tuple[int, int]]]:
    """Where the fields of each line of a table stand in its text, quotes among them.

    >>> [[text[a:b] for a, b in row] for text in ['a,"b,c"\\r\\n1,2\\n'] for row in spans(text)]
    [['a', '"b,c"'], ['1', '2']]
    """
    rows: list[list[tuple[int, int]]] = [[]]
    start, quoted = 0, False
    for at, c in enumerate(text):
        if c == '"':
            quoted = not quoted
        elif quoted:
            continue
        elif c == ",":
            rows[-1].append((start, at))
            start = at + 1
        elif c == "\n":
            rows[-1].append((start, at - (text[at - 1:at] == "\r")))
            rows.append([])
            start = at + 1
    rows[-1].append((start, len(text)))
    return [row for row in rows if len(row) > 1]


def planned(feed: Feed, sheet: Sheet) -> tuple[bytes, int, int]:
    """The bytes of frequencies.txt with the windows of a model: how many windows the model has, and how many differ. Only
    the fields that differ change."""
    data = feed.wanted("frequencies.txt")
    windows = named_windows(feed)
    known = {named.name for named in windows}
    of_model = {name.rpartition(".")[0] for name in sheet.names if re.fullmatch(r".+\.w[0-9]+\.(start|end|headway)", name)}
    strange = sorted(of_model - known)
    if strange:
        raise Fault(f"{sheet.source} has {strange[0]}.start, and the feed has no such window")
    if not of_model:
        raise Fault(f"{sheet.source} has no window of the feed: names as ROUTE.TRIP.w1.start, which import gives")
    text = data.decode("utf-8-sig")
    rows = spans(text)
    header = [text[a:b].strip('"') for a, b in rows[0]]
    edits, after, moved = [], [], 0
    for named, row in zip(windows, rows[1:]):
        values = [_planned(sheet, named, part) for part in PARTS]
        after.append((named, values))
        moved += values != list(named.window[1:4])
        for field, old, new in zip(("start_time", "end_time", "headway_secs"), named.window[1:4], values):
            if old != new:
                a, b = row[header.index(field)]
                edits.append((a, b, str(new) if field == "headway_secs" else _as_time(new, text[a:b])))
    _judge(after, of_model)
    for a, b, new in sorted(edits, reverse=True):
        text = text[:a] + new + text[b:]
    mark = b"\xef\xbb\xbf" if data.startswith(b"\xef\xbb\xbf") else b""
    return mark + text.encode("utf-8"), len(of_model), moved


def _planned(sheet: Sheet, named: Named, part: str) -> int:
    """What a model has for a part of a window, or what the feed has if the model says nothing."""
    name = f"{named.name}.{part}"
    value = sheet.model.value(sheet.numbers[name]) if name in sheet.numbers else getattr(named.window, part)
    least = 1 if part == "headway" else 0
    if value is None or value < least:
        shown = "blank" if value is None else clock(value)
        raise Fault(f"{name} is {shown}, which frequencies.txt cannot hold")
    return value


def _as_time(number: int, before: str) -> str:
    """A time as its field was written: hours of two digits where they were, quoted where it was."""
    bare, text = before.strip('"'), clock(number)
    text = "0" + text if bare[1:2] != ":" and text[1] == ":" else text
    return f'"{text}"' if before.startswith('"') else text


def _judge(after: Sequence[tuple[Named, Sequence[int]]], of_model: set[str]) -> None:
    """The windows of each trip that the model has may not overlap: the board is asked."""
    trips: dict[str, list[tuple[Named, Sequence[int]]]] = {}
    for named, values in after:
        trips.setdefault(named.trip, []).append((named, values))
    for own in trips.values():
        if not any(named.name in of_model for named, _ in own) or len(own) > MOST_WINDOWS:
            continue
        try:
            departures([(values[0], values[1], values[2]) for _, values in own])
        except BoardRefused as refused:
            if refused.number == 3:
                raise Fault(f"{own[refused.place][0].name} overlaps another window of its trip") from None


def export(feed: Feed, data: bytes, out: str) -> None:
    """Writes the feed with another frequencies.txt: to a folder or a .zip, or with `-` that file alone."""
    if out == "-":
        files.write("-", data)
    elif out.lower().endswith(".zip"):
        files.write(out, _zipped(feed, data))
    else:
        within = Path(out).resolve()
        for name in feed.files():
            place = within / name.removeprefix(feed.member(""))
            if not place.is_relative_to(within) or ".." in Path(name).parts:
                raise Fault(f"{name} of {feed.path} would lie outside {out}")
            if not name.endswith("/") and within != Path(feed.path).resolve():
                _make(place.parent)
                files.write(str(place), feed.whole(name))
        _make(within)
        files.write(str(within / "frequencies.txt"), data)


def _make(folder: Path | str) -> None:
    """Makes a folder, if it is not there."""
    try:
        os.makedirs(folder, exist_ok=True)
    except OSError as error:
        raise Usage(f"cannot make {folder}: {files.why(error)}") from None


def _zipped(feed: Feed, data: bytes) -> bytes:
    """The feed as a .zip with another frequencies.txt."""
    import io
    import zipfile
    room = io.BytesIO()
    with zipfile.ZipFile(room, "w", zipfile.ZIP_DEFLATED) as target:
        for name in feed.files():
            own = name == feed.member("frequencies.txt")
            target.writestr(feed.zip.getinfo(name) if feed.zip else name, data if own else feed.whole(name))
    return room.getvalue()
