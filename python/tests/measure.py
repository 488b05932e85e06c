"""What docs/FIGURES.md says of the desk, measured: `python3 -m tests.measure` in python/, with the library made. Each figure is the
least of some runs, and processor time but for what is typed at a terminal, since others may use the machine."""
import os
import tempfile
import time
from pathlib import Path

from lukhandro.desk import Desk
from lukhandro.sheet import Sheet
from .support import run
from .test_plan import Terminal


def largest():
    """A model of 4,096 variables: windows with departures, last trips, their sums and their latest."""
    lines, n = [], 0
    for k in range(815):
        lines += [f"t{k}.start = {6 + k % 12}:00:00", f"t{k}.end = {8 + k % 12}:00:00", f"t{k}.headway = 0:10:00  in 0:01:00..2:00:00",
                  f"t{k}.trips = DEPARTURES(t{k}.start, t{k}.end, t{k}.headway)", f"t{k}.last = LAST(t{k}.start, t{k}.end, t{k}.headway)"]
        n += 5
    for p in range(4):
        part = range(204 * p, min(204 * p + 204, 815))
        lines += [f"part{p}.trips = LINEAR({' + '.join(f't{k}.trips' for k in part)})", f"part{p}.last = MAX({', '.join(f't{k}.last' for k in part)})"]
        n += 2
    lines += ["trips = LINEAR(part0.trips + part1.trips + part2.trips + part3.trips)", "last = MAX(part0.last, part1.last, part2.last, part3.last)"]
    n += 2
    lines += [f"spare{k} = {k}" for k in range(4096 - n)]
    return "\n".join(lines) + "\n"


def many_windows(folder, routes=500, trips=2, windows=10, stops=10):
    """A feed of 10,000 windows on 500 routes, 1,000 trips with ten stops each; all trips call at the stop CENTRAL."""
    tables = {
        "routes.txt": ["route_id,route_short_name"] + [f"R{r},{r}" for r in range(routes)],
        "trips.txt": ["route_id,service_id,trip_id"] + [f"R{r},ALL,R{r}-{t}" for r in range(routes) for t in range(trips)],
        "calendar.txt": ["service_id,monday,tuesday,wednesday,thursday,friday,saturday,sunday,start_date,end_date", "ALL,1,1,1,1,1,1,1,20260101,20261231"],
        "stops.txt": ["stop_id,stop_name", "CENTRAL,Central"] + [f"S{s},Stop {s}" for s in range(stops)],
        "frequencies.txt": ["trip_id,start_time,end_time,headway_secs"] + [
            f"R{r}-{t},{5 + 2 * w}:00:00,{7 + 2 * w}:00:00,{600 + 60 * (w % 5)}" for r in range(routes) for t in range(trips) for w in range(windows)],
        "stop_times.txt": ["trip_id,arrival_time,departure_time,stop_id,stop_sequence"] + [
            f"R{r}-{t},5:{3 * s:02}:00,5:{3 * s:02}:00,{'CENTRAL' if s == 1 else f'S{s}'},{s}" for r in range(routes) for t in range(trips) for s in range(stops)],
    }
    for file, lines in tables.items():
        (Path(folder) / file).write_text("\n".join(lines) + "\n")


def least(runs, work, clock=time.process_time):
    """The shortest time of some runs, in seconds."""
    times = []
    for _ in range(runs):
        begun = clock()
        work()
        times.append(clock() - begun)
    return min(times)


def of_children():
    """The processor time of the commands that were run."""
    return sum(os.times()[2:4])


def command(*words):
    status, out, err = run(*words)
    assert status == 0, err
    return out


def model_figures(room):
    """Opening and trying on a model of 4,096 variables: the command, opening, a try at the prompt, the library's part of it."""
    place = Path(room) / "largest.lkt"
    place.write_text(largest())
    opened = least(5, lambda: Sheet.open(str(place)))
    whole = least(5, lambda: command("sheet", place, "trips"), of_children)
    desk = Desk(Sheet.open(str(place)))
    assert desk.sheet.model.n == 4096
    steps = iter(range(601, 7000))

    def tried():
        desk.attempt([f"t7.headway={next(steps)}"])
    at_prompt = least(50, tried)
    v, model = desk.sheet.number("t7.headway"), desk.sheet.model
    library = least(200, lambda: model.trial([(v, 700)], (), 1))
    return {"the command `sheet`, whole": whole, "opening": opened, "a try at the prompt": at_prompt, "the library's part of it": library,
            "a try typed at a terminal": typed(place)}


def typed(place):
    """From the return key to the next prompt, at a pseudo-terminal."""
    terminal = Terminal("plan", place.name, cwd=place.parent, state=place.parent)
    prompt = place.stem + "> "
    terminal.until(prompt)
    times = []
    for k in range(20):
        terminal.type(f"try t7.headway={700 + k}")
        terminal.until(f"={700 + k}")
        begun = time.perf_counter()
        terminal.type("\n")
        terminal.until(prompt)
        times.append(time.perf_counter() - begun)
    terminal.type("quit\n")
    assert terminal.end() == 0
    return min(times)


def feed_figures(room):
    """A feed of 10,000 windows on 500 routes: one route imported, all route by route, a board of a stop that all trips call at."""
    many_windows(room)
    models = Path(room) / "models"
    one = least(3, lambda: command("import", room, "--route", "R77"), of_children)
    all_routes = least(3, lambda: command("import", room, "--by-route", models), of_children)
    assert len(list(models.iterdir())) == 500
    out = []
    board = least(3, lambda: out.append(command("board", room, "--stop", "CENTRAL", "--date", "2026-11-15")), of_children)
    return {"one route imported": one, "all 500 routes imported": all_routes, "the board of a stop with all trips": board}, out[0].splitlines()[-1]


def main():
    with tempfile.TemporaryDirectory() as room:
        print("a model of 4,096 variables")
        for what, seconds in model_figures(room).items():
            print(f"  {what:38} {seconds * 1000:10.2f} ms")
    with tempfile.TemporaryDirectory() as room:
        figures, foot = feed_figures(room)
        print("a feed of 10,000 windows on 500 routes")
        for what, seconds in figures.items():
            print(f"  {what:38} {seconds * 1000:10.2f} ms")
        print(f"  {foot}")


if __name__ == "__main__":
    main()
