#!/usr/bin/python3
"""The day's sheet of 900 windows, 1,000 moves at once: by numpy over 1,000 copies of it, and by `trials` of the Python binding, in
one run and with the same results. Prints microseconds a move; `bench batches` runs it behind its table. It needs Debian's
python3-numpy, which is for /usr/bin/python3, and the library that tools/lukhandro makes."""
import sys
import time
from pathlib import Path

try:
    import numpy as np
except ImportError:
    sys.exit("numpy is not there, so nothing is measured beside it: apt install python3-numpy")

sys.path.insert(0, str(Path(__file__).resolve().parents[5] / "python"))
from lukhandro import BLANK, Model, Row, Unloadable  # noqa: E402
from lukhandro.model import LINEAR, MAX, SHARED  # noqa: E402

WINDOWS, COPIES, ROUNDS = 900, 1000, 30
STARTS = np.array([18000 + 60 * (k % 600) for k in range(WINDOWS)], dtype=np.int32)
ENDS = np.array([36000 + 60 * (k % 500) for k in range(WINDOWS)], dtype=np.int32)
HEADWAYS = np.array([300 + 60 * (k % 20) for k in range(WINDOWS)], dtype=np.int32)
# move k gives another headway to window 7k, and so each window has its turn
MOVED = np.array([7 * k % WINDOWS for k in range(COPIES)])
GIVEN = np.array([420 + 60 * (k % 3) for k in range(COPIES)], dtype=np.int32)
SOME_BLANK = np.where(np.arange(COPIES) % 50 == 0, 0, GIVEN)  # a headway of 0 has no departures to count


def model():
    """The sheet as graphs.rs lays it out: the model, the crews of the day, and how many groups share their latest departure."""
    starts = [int(x) for k in range(WINDOWS) for x in (STARTS[k], ENDS[k], HEADWAYS[k])]
    rows = []

    def make(row):
        starts.append(0)
        rows.append(row(len(starts) - 1))
        return len(starts) - 1

    def all_of(kind, inputs, size):
        return [make(lambda v, part=inputs[at:at + size]: Row.of(kind, v, part)) for at in range(0, len(inputs), size)]

    trips = [make(lambda v, k=k: Row.departures(v, 3 * k, 3 * k + 1, 3 * k + 2)) for k in range(WINDOWS)]
    lasts = [make(lambda v, k=k: Row.last(v, 3 * k, 3 * k + 1, 3 * k + 2)) for k in range(0, WINDOWS, 3)]
    shared, = all_of(SHARED, all_of(MAX, lasts, 10), WINDOWS)
    crews, = all_of(LINEAR, all_of(LINEAR, trips, 15), WINDOWS)
    return Model.build(starts, rows), crews, shared


# a copy of the sheet for each move, whichever of its variables that moves
STARTS_OF, ENDS_OF, HEADWAYS_OF = (np.tile(row, (COPIES, 1)) for row in (STARTS, ENDS, HEADWAYS))


def numpy_trips(given, blanks):
    """The departures of every window of every copy, each with its move."""
    HEADWAYS_OF[np.arange(COPIES), MOVED] = given
    trips = ENDS_OF - STARTS_OF
    np.maximum(trips, 0, out=trips)
    trips += HEADWAYS_OF
    trips -= 1
    if not blanks:
        trips //= HEADWAYS_OF
        return trips
    usable = HEADWAYS_OF > 0
    np.floor_divide(trips, HEADWAYS_OF, out=trips, where=usable)
    trips[~usable] = BLANK
    return trips


def numpy_crews(trips, blanks):
    """The crews of the day, of every copy."""
    crews = trips.reshape(COPIES, 60, 15).sum(axis=2, dtype=np.int32).sum(axis=1)
    return np.where((trips == BLANK).any(axis=1), BLANK, crews) if blanks else crews


def numpy_shared(trips):
    """How many groups of ten windows share their latest departure with another, of every copy."""
    some = trips[:, ::3]
    lasts = np.where(some > 0, STARTS_OF[:, ::3] + (some - 1) * HEADWAYS_OF[:, ::3], BLANK)
    latest = np.sort(lasts.reshape(COPIES, 30, 10).max(axis=2), axis=1)
    same = latest[:, 1:] == latest[:, :-1]
    shared = np.zeros(latest.shape, dtype=bool)
    shared[:, 1:] |= same
    shared[:, :-1] |= same
    return np.where(latest[:, 0] == BLANK, BLANK, shared.sum(axis=1))


def numpy_asked(given, blanks, all_asked):
    """What is asked of every copy, each with its move."""
    trips = numpy_trips(given, blanks)
    crews = numpy_crews(trips, blanks)
    return np.stack([crews, numpy_shared(trips)] if all_asked else [crews], axis=1).tolist()


def least(work):
    """The least processor time of some rounds in microseconds a move, and what came."""
    times = []
    for _ in range(ROUNDS):
        begun = time.process_time()
        came = work()
        times.append(time.process_time() - begun)
    return 1e6 * min(times) / COPIES, came


def line(what, work):
    """Measures by both questions, and prints a line; gives what came."""
    measured = [least(lambda: work(all_asked)) for all_asked in (False, True)]
    print(f"  {what:<46}" + "".join(f"{micros:12.3f}" for micros, _ in measured), flush=True)
    return [came for _, came in measured]


def main():
    print("the day's sheet of 900 windows, 1,000 moves at once from Python, microseconds a move")
    print(f"  {'':<46}{'crews':>12}{'and latest':>12}")
    plain = line("numpy, 1,000 copies, no blank looked for", lambda all_asked: numpy_asked(GIVEN, False, all_asked))
    blank = line("numpy, 1,000 copies, some headways 0", lambda all_asked: numpy_asked(SOME_BLANK, True, all_asked))
    try:
        sheet, *asked = model()
    except Unloadable as why:
        sys.exit(f"trials is not measured: {why}")
    for what, given, came in (("no headway 0", GIVEN, plain), ("some headways 0", SOME_BLANK, blank)):
        moves = [[(3 * int(window) + 2, int(headway))] for window, headway in zip(MOVED, given)]
        tried = line(f"trials of the Python binding, {what}", lambda all_asked: sheet.trials(moves, asked if all_asked else asked[:1]))
        if came != [[[BLANK if x is None else x for x in one.results] for one in every] for every in tried]:
            sys.exit("numpy and the library differ")


if __name__ == "__main__":
    main()
