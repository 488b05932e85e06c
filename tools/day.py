"""A day of the GTFS sample feed as a model: the eleven windows of its frequencies.txt, what each runs, and what a planner asks of the day."""
from model import *

# trip, start, end and headway, as in the feed
WINDOWS = (('STBA', 21600, 79200, 1800),
           ('CITY1', 21600, 28799, 1800), ('CITY1', 28800, 35999, 600), ('CITY1', 36000, 57599, 1800), ('CITY1', 57600, 68399, 600), ('CITY1', 68400, 79200, 1800),
           ('CITY2', 21600, 28799, 1800), ('CITY2', 28800, 35999, 600), ('CITY2', 36000, 57599, 1800), ('CITY2', 57600, 68399, 600), ('CITY2', 68400, 79200, 1800))
TRIPS = ('STBA', 'CITY1', 'CITY2')
MINUTES = (20, 30, 30)  # what a trip takes of a driver, an assumption of the example


def clock(seconds):
    return '%d:%02d:%02d' % (seconds // 3600, seconds // 60 % 60, seconds % 60)


class Day:
    """Variables in the order in which they are named, and the rows that make some of them."""

    def __init__(self):
        self.starts, self.rows, self.words, self.times = [], [], [], set()

    def search(self, words, value, time=False):
        return self.named(words, value, time)

    def made(self, words, kind, inputs, coefs=None, param=0, time=False):
        v = self.named(words, 0, time)
        self.rows.append(Row(kind, v, inputs, coefs, param))
        return v

    def named(self, words, value, time):
        self.starts.append(value)
        self.words.append(words)
        v = len(self.starts) - 1
        if time:
            self.times.add(v)
        return v


def day():
    d = Day()
    windows = []
    for trip, start, end, headway in WINDOWS:
        about = '%s from %s' % (trip, clock(start))
        windows.append([d.search(about + ': start', start, True), d.search(about + ': end', end, True), d.search(about + ': headway in seconds', headway)])
    drivers = d.search('minutes of drivers on duty', 2400)
    view = d.search('the line in view: 0 for STBA, 1 for CITY1, 2 for CITY2', 1)
    departures, lasts = [], []
    for (trip, start, _, _), window in zip(WINDOWS, windows):
        about = '%s from %s' % (trip, clock(start))
        departures.append(d.made(about + ': departures', DEPARTURES, window))
        lasts.append(d.made(about + ': last departure', LAST, window, time=True))
    of = {trip: [i for i, w in enumerate(WINDOWS) if w[0] == trip] for trip in TRIPS}
    totals = [d.made('%s: departures of the day' % trip, LINEAR, [departures[i] for i in of[trip]]) for trip in TRIPS]
    ends = [d.made('%s: last departure of the day' % trip, MAX, [lasts[i] for i in of[trip]], time=True) for trip in TRIPS]
    d.made('first start of the day', MIN, [w[0] for w in windows], time=True)
    need = d.made('crew need in minutes: 20 a trip of STBA, else 30', LINEAR, totals, MINUTES)
    d.made('minutes that drivers are short of', OVER, [need, drivers])
    d.made('clashes: lines that depart last when another line does', SHARED, ends)
    d.made('empty windows', COUNT, departures)
    d.made('departures of the line in view', ELEMENT, [view] + totals)
    return d


def model():
    d = day()
    return d.starts, d.rows
