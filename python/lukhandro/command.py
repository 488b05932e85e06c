"""The command `lukhandro`: one subcommand for each thing that a planner does."""
from __future__ import annotations

import argparse
import os
import sys
from typing import Any, Callable, NoReturn, Sequence

from . import __version__, files
from .files import Fault, Usage
from .library import Unloadable
from .refused import Refused
from .text import Problems

EPILOG = "Exit status: 0 done, 1 refused or wrong, 2 wrong usage. `-` is standard input; a file is written whole or not at all."


class _Parser(argparse.ArgumentParser):
    """A parser whose complaint ends with how to get help."""

    def error(self, message: str) -> NoReturn:
        """Raises what is wrong with the command as it was typed."""
        raise Usage(f"{message}\n{self.format_usage().strip()}\n{self.prog} --help says more")


class _Command(_Parser):
    """The parser of one subcommand, in which options may stand between names."""

    _between = False

    def parse_known_args(self, args: Any = None, namespace: Any = None) -> Any:
        """Parses names first and options then, or both at once while that is done."""
        if self._between:
            return super().parse_known_args(args, namespace)
        self._between = True
        try:
            return self.parse_known_intermixed_args(args, namespace)
        finally:
            self._between = False


# ── looking ──
def sheet(args: argparse.Namespace) -> int:
    """Prints the values by name."""
    from . import show
    from .sheet import Sheet
    found = Sheet.open(args.file, args.names)
    variables = found.matching(args.pattern)
    if args.json:
        show.as_json(show.sheet_json(found, variables))
    else:
        show.print_sheet(found, variables)
    return 0


def attempt(args: argparse.Namespace) -> int:
    """Prints what a move would change."""
    from . import show
    from .sheet import Sheet
    moves = args.move + [word for word in args.ask if "=" in word]  # what follows --ask may be a move again
    if not moves:
        raise Usage("what should be moved? as lukhandro try FILE headway=0:12:00")
    found = Sheet.open(args.file, args.names)
    asked = [v for name in args.ask if "=" not in name for v in found.matching([name])]
    tried = found.tried(found.move(moves), list(dict.fromkeys(asked)), args.route)
    if args.json:
        show.as_json(show.tried_json(found, tried))
    else:
        show.print_tried(found, tried)
    return 0


def why(args: argparse.Namespace) -> int:
    """Prints what a value is made from, and why it is blank."""
    from . import show
    from .sheet import Sheet
    found = Sheet.open(args.file, args.names)
    said = found.why(found.number(args.name))
    show.as_json({"name": args.name, "why": said}) if args.json else print("\n".join(said))
    return 0


def plan(args: argparse.Namespace) -> int:
    """Opens a sitting."""
    from .plan import Prompt
    from .sheet import Sheet
    if args.file == "-" and not args.script:
        raise Usage("the model comes from standard input: name a file with the commands, --script FILE")
    found = Sheet.open(args.file, args.names)
    if not args.script:
        return Prompt(found, sys.stdin).run()
    import io
    return Prompt(found, io.StringIO(files.decoded(files.read(args.script), args.script))).run()


def serve_sheet(args: argparse.Namespace) -> int:
    """Serves the sheet to a browser on this machine."""
    from .serve import serve
    serve(args.file, args.port, args.open, args.names)
    return 0


# ── files ──
def compile_text(args: argparse.Namespace) -> int:
    """Writes the model file of a text."""
    from .text import Text
    data = files.read(args.file)
    source = "standard input" if args.file == "-" else args.file
    if files.is_model_file(data):
        raise Fault(f"{source} is a model file already; lukhandro decompile makes a text of it")
    text = Text(files.decoded(data, source), source)
    try:
        compiled = text.compiled(args.version)
    except Refused as refused:
        raise Fault(f"{source}: {text.names[refused.place]} has bounds, which a file of version 1 cannot hold"
                    if refused.number == 18 else f"{source}: {refused}") from None
    _write_model(args.output or _ending(args.file, ".lkh"), compiled, args.file)
    return 0


def decompile(args: argparse.Namespace) -> int:
    """Writes the text of a model file."""
    from .model import version_of
    from .sheet import built, names_of
    from .text import model_text
    data = files.read(args.file)
    source = "standard input" if args.file == "-" else args.file
    if not files.is_model_file(data):
        raise Fault(f"{source} is no model file")
    model = built(data, source)
    names, _ = names_of(model, args.names)
    files.write(args.output or "-", model_text(model, names, version_of(data)).encode("utf-8"))
    return 0


def check(args: argparse.Namespace) -> int:
    """Says whether a model is good."""
    from . import show
    from .sheet import Sheet
    try:
        found = Sheet.open(args.file, args.names)
    except (Fault, Problems) as wrong:
        if not args.json:
            raise
        places = [problem._asdict() for problem in wrong.problems] if isinstance(wrong, Problems) else [{"sentence": str(wrong)}]
        show.as_json({"source": args.file, "good": False, "problems": places})
        return 1
    model = found.model
    kind = f"a text, which compiles to version {found.version}" if found.text else f"a model file of version {found.version}"
    if args.json:
        show.as_json({"source": found.source, "good": True, "text": bool(found.text), "version": found.version, "variables": model.n,
                      "formulas": model.m, "inputs": model.e, "blanks": model.blanks})
    else:
        print(f"{found.source} is good: {kind}; {show.count(model.n, 'variable')}, {show.count(model.m, 'formula')}, "
              f"{show.count(model.e, 'input')}, {show.count(model.blanks, 'blank')}")
    return 0


def convert(args: argparse.Namespace) -> int:
    """Writes a model file of one version as one of the other."""
    from .model import to_version_1, to_version_2, version_of
    from .sheet import built, header_words, names_of
    data = files.read(args.file)
    source = "standard input" if args.file == "-" else args.file
    if not files.is_model_file(data):
        raise Fault(f"{source} is no model file; lukhandro compile --version {args.to} makes one of a text")
    if version_of(data) == args.to:
        raise Fault(f"{source} is of version {args.to} already")
    try:
        moved = (to_version_2 if args.to == 2 else to_version_1)(data)
    except Refused as refused:
        if refused.number != 18:
            raise Fault(f"{source}: {header_words(data, refused)}") from None
        name = names_of(built(data, source), args.names)[0][refused.place]
        raise Fault(f"{source}: {name} has bounds, which a file of version 1 cannot hold") from None
    _write_model(args.output, moved, args.file)
    return 0


def salvage(args: argparse.Namespace) -> int:
    """Writes what is whole in a damaged model file, and says what is lost."""
    from . import show
    from .model import Model, salvage as saved_of
    from .sheet import names_of
    data = files.read(args.file)
    source = "standard input" if args.file == "-" else args.file
    try:
        saved = saved_of(data)
    except Refused as refused:
        what = {0: "its version is not 1" if len(data) >= 24 else "it is empty", 2: "its number of variables is not 1 to 4,096",
                4: "it has more formulas than variables", 6: "it has more than 16,384 inputs"}
        raise Fault(f"{source} cannot be saved: " + (what.get(refused.place) if len(data) >= 24 else
                    f"it has {len(data)} bytes, fewer than a header of 24") + f" (refused 14 {refused.place})") from None
    model = Model.read(saved.file)
    names, _ = names_of(model, args.names)
    dropped = [{"row": r, "makes": _made_by(data, r, names, model.n)} for r in saved.rows]
    reset = [names[v] for v in saved.variables]
    _write_model(args.output, saved.file, args.file)
    if args.json:
        stream = sys.stdout if args.output != "-" else sys.stderr
        import json
        print(json.dumps({"dropped": dropped, "reset": reset, "variables": model.n, "formulas": model.m}, indent=2), file=stream)
        return 0
    for row in dropped:
        made = f", which made {row['makes']}" if row["makes"] else ""
        print(f"row {row['row']}{made}, is dropped: it is damaged, a second one for its variable, or part of a circle", file=sys.stderr)
    for name in reset:
        print(f"{name} has no start value of its own any more: it is 0", file=sys.stderr)
    print(f"saved: {show.count(model.n, 'variable')}, {show.count(model.m, 'formula')}; {show.count(len(dropped), 'formula')} dropped, "
          f"{show.count(len(reset), 'value')} set to 0", file=sys.stderr)
    return 0


def _made_by(data: bytes, row: int, names: Sequence[str], n: int) -> str | None:
    """The variable that a row of a damaged file made, if that can still be read."""
    at = 24 + 4 * n + 12 * row + 2
    made = int.from_bytes(data[at:at + 2], "little") if len(data) >= at + 2 else n
    return names[made] if made < n else None


def _ending(path: str, ending: str) -> str:
    """A path with another ending; standard input goes to standard output."""
    return "-" if path == "-" else os.path.splitext(path)[0] + ending


def _write_model(path: str, data: bytes, source: str) -> None:
    """Writes a model file; a terminal is no place for one, and neither is the file that it was made from."""
    if path == "-" and sys.stdout.isatty():
        raise Usage("a model file is not for a terminal: name a file with -o, or send it on")
    if path != "-" and source != "-" and os.path.exists(path) and os.path.exists(source) and os.path.samefile(path, source):
        raise Usage(f"{path} would be written over what it is made from: name another file with -o")
    files.write(path, data)
    if path != "-":
        print(f"wrote {path}, {len(data):,} bytes", file=sys.stderr)


# ── feeds ──
def import_feed(args: argparse.Namespace) -> int:
    """Writes the model text of a feed's windows."""
    from .feed import Feed
    from .windows import Choice, by_route, imported
    feed = Feed(args.feed)
    choice = Choice(args.date, args.service, args.route, args.trip)
    if args.by_route:
        written = by_route(feed, choice, args.by_route)
        print(f"wrote {len(written):,} models into {args.by_route}, {sum(n for _, _, n in written):,} variables together", file=sys.stderr)
        return 0
    text = imported(feed, choice)
    files.write(args.output or "-", text.encode("utf-8"))
    return 0


def export_feed(args: argparse.Namespace) -> int:
    """Writes a feed with the windows of a planned model."""
    from .feed import Feed
    from .sheet import Sheet
    from .windows import export, planned
    feed = Feed(args.feed)
    data, windows, moved = planned(feed, Sheet.open(args.file))
    export(feed, data, args.out)
    print(f"{windows:,} windows of the model, {moved:,} of them other than in {args.feed}"
          + ("" if args.out == "-" else f"; wrote {args.out}"), file=sys.stderr)
    return 0


def board(args: argparse.Namespace) -> int:
    """Prints the departures at a stop."""
    import csv
    from . import show
    from .board import board as board_of, printed
    from .clock import clock
    from .feed import Feed, day
    found = board_of(Feed(args.feed), args.stop, day(args.date), args.route)
    if args.csv:
        writer = csv.writer(sys.stdout, lineterminator="\n")
        writer.writerow(["time", "route_id", "trip_id", "trip_headsign"])
        writer.writerows([clock(d.time), d.route, d.trip, d.headsign] for d in found.departures)
    elif args.json:
        show.as_json({"stop": found.stop, "name": found.name, "date": str(found.date),
                      "departures": [{"time": clock(d.time), "seconds": d.time, "route": d.route, "trip": d.trip, "headsign": d.headsign}
                                     for d in found.departures]})
    else:
        print(printed(found))
    return 0


def batch(args: argparse.Namespace) -> int:
    """Prints a batch of moves in figures."""
    from . import show
    from .batch import Bar, each_csv, figures_json, figures_of, read_moves, results_of
    from .sheet import Sheet
    if args.file == "-" and args.moves == "-":
        raise Usage("standard input can be the model or the moves, not both")
    found = Sheet.open(args.file, args.names)
    asked = found.number(args.ask)
    moves = read_moves(found, files.decoded(files.read(args.moves), args.moves), args.moves)
    bar = Bar(len(moves.moves) * (2 if args.each else 1), "trying moves")
    figures = figures_of(found, moves.moves, asked, bar)
    each = each_csv(results_of(found, moves, asked, args.route, bar), found, asked) if args.each else None
    bar.end()
    if each is not None:
        files.write(args.each, each)
    if args.json:
        show.as_json(figures_json(args.ask, figures))
    else:
        _print_figures(found, figures, asked)
    return 0


def merge(args: argparse.Namespace) -> int:
    """Prints the figures of batches merged, as `batch --json` printed them."""
    from . import show
    from .batch import figures_in, figures_json
    from .model import Figures
    asked, merged = "", Figures.none()
    for path in args.file or ["-"]:
        source = "standard input" if path == "-" else path
        for name, figures in figures_in(files.decoded(files.read(path), source), source):
            if asked and name != asked:
                raise Fault(f"{source}: these are the figures of {name}, and those before are of {asked}")
            asked, merged = name, merged.merged(figures)
    if not asked:
        raise Fault("there are no figures to merge")
    show.as_json(figures_json(asked, merged))
    return 0


def _print_figures(sheet: Any, figures: Any, asked: int) -> None:
    """Prints the figures of a batch, a line each."""
    from . import show
    valued = figures.accepted - figures.blank
    said = [["moves", f"{sum(figures.by_number):,}", ""], ["accepted", f"{figures.accepted:,}", ""]]
    for number, count in enumerate(figures.by_number):
        if number and count:
            said.append(["refused", f"{count:,}", f"{number}: {MOVE_WORDS.get(number, Refused(number, 0).sentence)}"])
    said += [["blank", f"{figures.blank:,}", ""], ["least", sheet.shown(asked, figures.least), ""],
             ["greatest", sheet.shown(asked, figures.greatest), ""], ["sum", sheet.shown(asked, figures.total), ""]]
    if valued:
        said.append(["mean", f"{figures.total / valued:.2f}" if not sheet.clocks[asked] else sheet.shown(asked, round(figures.total / valued)), ""])
    said.append(["evaluations", f"{figures.evaluations[0]:,}", "by route 1, {:,} by route 2, {:,} by route 3".format(*figures.evaluations[1:])])
    print(f"{sheet.names[asked]} over the moves")
    show.table(said, right=[1])


MOVE_WORDS = {1: "more than 64 variables in one move", 10: "a variable that a formula makes", 17: "a value outside its bounds",
              20: "choices that lead round in a circle"}


# ── the parser ──
class _Commands:
    """Adds subcommands, each with an example that works from a checkout."""

    def __init__(self, main: argparse.ArgumentParser) -> None:
        self.all = main.add_subparsers(dest="command", metavar="COMMAND", required=True, parser_class=_Command)

    def add(self, name: str, run: Callable[[argparse.Namespace], int], what: str, example: str) -> argparse.ArgumentParser:
        """A subcommand over nothing yet."""
        one = self.all.add_parser(name, help=what, description=what[0].upper() + what[1:] + ".", epilog="Example: lukhandro " + example)
        one.set_defaults(run=run)
        return one

    def on_model(self, name: str, run: Callable[[argparse.Namespace], int], what: str, example: str, json: bool = True) -> argparse.ArgumentParser:
        """A subcommand over a model."""
        one = self.add(name, run, what, example)
        one.add_argument("file", metavar="FILE", help="a model: a text (.lkt) or a model file (.lkh); - is standard input")
        one.add_argument("--names", metavar="TEXT", help="a text whose names are those of the model file")
        if json:
            one.add_argument("--json", action="store_true", help="for machines")
        return one

    def on_feed(self, name: str, run: Callable[[argparse.Namespace], int], what: str, example: str) -> argparse.ArgumentParser:
        """A subcommand over a feed."""
        one = self.add(name, run, what, example)
        one.add_argument("feed", metavar="FEED", help="a GTFS feed: a folder or a .zip")
        return one


def parser() -> argparse.ArgumentParser:
    """The parser of the whole command."""
    main = _Parser(prog="lukhandro", description="The planner's desk over the proved timetable engine.", epilog=EPILOG)
    main.add_argument("--version", action="version", version=f"lukhandro {__version__}")
    commands = _Commands(main)
    _add_planning(commands)
    _add_files(commands)
    _add_feeds(commands)
    return main


def _add_planning(commands: _Commands) -> None:
    """sheet, try, why, plan, serve, batch, merge."""
    routes = "1 from input to output, 2 from output to input, 3 guided by marks"
    one = commands.on_model("sheet", sheet, "the values by name", "sheet examples/sunday.lkt '*last'")
    one.add_argument("pattern", metavar="NAME-PATTERN", nargs="*", help="only names that fit, as '*.last'")
    one = commands.on_model("try", attempt, "what a move would change", "try examples/sunday.lkt headway=0:12:00 --ask crew")
    one.add_argument("move", metavar="NAME=VALUE", nargs="*", help="a variable and its new value")
    one.add_argument("--ask", metavar="NAME", nargs="+", action="extend", default=[], help="answer these (names or patterns) and nothing else")
    one.add_argument("--route", type=int, choices=(1, 2, 3), help=routes + "; without it 3 if something is asked, else 1")
    one = commands.on_model("why", why, "what a value is made from, and why it is blank", "why examples/sunday.lkt crew")
    one.add_argument("name", metavar="NAME", help="a variable")
    one = commands.on_model("plan", plan, "a sitting at a prompt, or from a script", "plan examples/sunday.lkt", json=False)
    one.add_argument("--script", metavar="COMMANDS", help="a file with the commands; without it they come from standard input")
    one = commands.on_model("serve", serve_sheet, "the sheet in a browser, on this machine alone", "serve examples/sunday.lkt --open", json=False)
    one.add_argument("--port", type=int, default=0, help="the port; without it a free one")
    one.add_argument("--open", action="store_true", help="opens the browser")
    one = commands.on_model("batch", batch, "a batch of moves in figures", "batch examples/sunday.lkt examples/moves.csv --ask crew")
    one.add_argument("moves", metavar="MOVES.csv", help="the first line names variables, every other line is a move; - is standard input")
    one.add_argument("--ask", metavar="NAME", required=True, help="the variable that is judged")
    one.add_argument("--each", metavar="OUT.csv", help="writes each move's result, number and evaluations")
    one.add_argument("--route", type=int, choices=(1, 2, 3), default=3, help="the route of --each: " + routes)
    one = commands.add("merge", merge, "the figures of batches that were cut into parts", "merge part1.json part2.json")
    one.add_argument("file", metavar="FIGURES.json", nargs="*", help="what batch --json printed, one behind the other; without it standard input")


def _add_files(commands: _Commands) -> None:
    """compile, decompile, check, convert, salvage."""
    one = commands.add("compile", compile_text, "a model file of a text", "compile examples/sunday.lkt -o sunday.lkh")
    one.add_argument("file", metavar="FILE", help="a text; - is standard input")
    one.add_argument("-o", "--output", metavar="OUT", help="where to; without it FILE with the ending .lkh")
    one.add_argument("--version", type=int, choices=(1, 2), help="the version; without it 2 if some line has bounds, else 1")
    one = commands.on_model("decompile", decompile, "the text of a model file", "decompile examples/model-a.lkh", json=False)
    one.add_argument("-o", "--output", metavar="OUT", help="where to; without it standard output")
    commands.on_model("check", check, "whether a model is good, and what it holds", "check examples/sunday.lkt")
    one = commands.on_model("convert", convert, "a model file of one version as one of the other",
                            "convert examples/model-a.lkh --to 2 -o model-a-2.lkh", json=False)
    one.add_argument("--to", type=int, choices=(1, 2), required=True, help="the version wanted")
    one.add_argument("-o", "--output", metavar="OUT", required=True, help="where to")
    one = commands.on_model("salvage", salvage, "what is whole and good in a damaged model file", "salvage examples/model-a.lkh -o saved.lkh")
    one.add_argument("-o", "--output", metavar="OUT", required=True, help="where to")


def _add_feeds(commands: _Commands) -> None:
    """import, export, board."""
    one = commands.on_feed("import", import_feed, "a model text of a feed's windows", "import examples/feed --date 2007-06-03 --route CITY")
    one.add_argument("--date", metavar="DAY", help="only what runs on this day, as 2007-06-03")
    one.add_argument("--service", metavar="S", action="append", default=[], help="only this service")
    one.add_argument("--route", metavar="R", action="append", default=[], help="only this route, by its id or its short name")
    one.add_argument("--trip", metavar="T", action="append", default=[], help="only this trip")
    one.add_argument("-o", "--output", metavar="OUT", help="where to; without it standard output")
    one.add_argument("--by-route", metavar="FOLDER", help="a model for each route, into this folder")
    one = commands.on_feed("export", export_feed, "the feed with the windows of a planned model", "export examples/feed planned.lkt planned.zip")
    one.add_argument("file", metavar="MODEL", help="a model that import made and planning changed")
    one.add_argument("out", metavar="OUT", help="a folder, a .zip, or - for frequencies.txt alone")
    one = commands.on_feed("board", board, "the departures at a stop on a day", "board examples/feed --stop STAGECOACH --date 2007-06-03")
    one.add_argument("--stop", metavar="S", required=True, help="a stop or station, by its id or its name")
    one.add_argument("--date", metavar="DAY", required=True, help="the service day, as 2007-06-03")
    one.add_argument("--route", metavar="R", action="append", default=[], help="only this route")
    one.add_argument("--csv", action="store_true", help="a table for spreadsheets")
    one.add_argument("--json", action="store_true", help="for machines")


def main(words: Sequence[str] | None = None) -> int:
    """Runs the command; what is wrong is said on standard error, and no traceback is shown."""
    try:
        args = parser().parse_args(words)
        status = args.run(args)
        sys.stdout.flush()
        return status
    except (Usage, Unloadable) as why_not:
        return _said(why_not, 2)
    except (Fault, Problems, Refused) as why_not:
        return _said(why_not, 1)
    except BrokenPipeError:  # who reads has had enough
        _silenced()
        return 0
    except OSError as error:  # reading and writing of files says so itself: this is standard output
        _silenced()
        return _said(Usage(f"cannot write: {files.why(error)}"), 2)
    except KeyboardInterrupt:
        print(file=sys.stderr)
        return 130
    except Exception as error:
        if os.environ.get("LUKHANDRO_TRACEBACK"):
            raise
        return _said(Fault(f"this is a fault of the program, not of what you typed: {type(error).__name__}: {error}; "
                           "LUKHANDRO_TRACEBACK=1 shows where"), 1)


def _silenced() -> None:
    """Nothing more can be written to standard output, and Python is not to try when it ends."""
    os.dup2(os.open(os.devnull, os.O_WRONLY), sys.stdout.fileno())


def _said(what: Exception, status: int) -> int:
    """Says what is wrong on standard error; answers the exit status."""
    from .show import marked
    try:
        sys.stdout.flush()
    except OSError:
        _silenced()
    head = marked("lukhandro:", "31", sys.stderr)
    print(f"{head} {what}" if not isinstance(what, Problems) else str(what), file=sys.stderr)
    return status
