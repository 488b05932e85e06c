#!/usr/bin/env python3
"""test_replay: the recorded sessions of rust/vectors/replay, whose answers rust/second gave, answered by model.py. rust/compare/src/vectors/replay.rs says
how they are laid out."""
import os
import struct
import sys
import unittest

sys.dont_write_bytecode = True
sys.path.insert(0, os.path.dirname(os.path.abspath(__file__)))
from model import *

REPLAY = os.path.join(os.path.dirname(os.path.dirname(os.path.abspath(__file__))), 'rust', 'vectors', 'replay')
ROWS, ENTRIES = 16, 64  # the room that a session has
WIDE, NARROW = {3, 10, 15, 16, 17}, {7}  # rows of signed fields of 32 bits and of 16


def bars(*rows):
    return ''.join(' |' + ''.join(' -' if x == BLANK else ' %d' % x for x in row) for row in rows)


def longer(row, length):
    return list(row) + [0] * (length - len(row))


class Session:
    """What a session has lent: the columns of the tables, bounds, what build fills, the log and the record."""

    def __init__(self, bounds, data):
        self.bounds, self.lines = (list(bounds[:16]), list(bounds[16:])), []
        wrong = wrong_field(data)
        n, m, e = (0, 0, 0) if wrong is not None else struct.unpack('<3H', data[2:8])
        short = max(n, m) > ROWS or e > ENTRIES
        self.good = wrong is None and not short
        self.counts = n, m, e = (n, m, e) if self.good else (0, 0, 0)
        self.lines.append('read %d %d %d %d %d' % (14 if wrong is not None else int(short), wrong or 0, n, m, e))
        if self.good:
            self.build(*unpacked(data))

    def build(self, starts, lines, entries):
        n, m, e = self.counts
        self.columns = [longer(column, room) for table, width, room in ((lines, 5, ROWS), (entries, 2, ENTRIES)) for column in (zip(*table) if table else [()] * width)]
        rows = [[0] * room for room in (ROWS, ROWS, ROWS, ROWS + 1, ENTRIES)]
        answer, self.record, self.numbers, self.order, self.stored, self.starts, self.places, sizes = build_left(
            self.counts, self.columns, self.bounds, longer(starts, ROWS), (7, 9, 11), *rows, [7] * 65)
        self.log, self.good = Log(sizes, [0] * 4096, [0] * 4096), answer[0] == 0
        self.told('build', answer, self.numbers[:n], self.order[:m], self.stored[:n], self.starts[:n + 1], self.places[:e])

    def told(self, name, answer, *rows):
        self.lines.append('%s %d %d %d %d %d %d' % ((name,) + tuple(answer) + tuple(self.record)) + (bars(*rows) if answer[0] == 0 else ''))

    def change(self, row, place, field):
        self.lines.append('change %d %d %d' % (row, place, field))
        rows = [None] + self.columns + [self.numbers, self.order, self.stored, self.starts, self.places, self.log.sizes, self.log.vars, self.log.values, *self.bounds]
        if row == 0:
            record = list(self.record)
            record[2 * place] = field  # moves kept, or the number of blanks
            self.record = tuple(record)
        elif row in WIDE:
            rows[row][place] = field - (field >> 31 << 32)
        else:
            rows[row][place] = field - (field >> 15 << 16) if row in NARROW else field

    def call(self, call, route, pairs, asked, move_vars, move_values, asked_vars):
        n, m, e = self.counts
        table = lambda columns, count: list(zip(*columns))[:count]
        lent = Lent(n, table(self.columns[:5], m), table(self.columns[5:], e), self.numbers, self.order, self.stored, e, (self.starts, self.places), self.bounds)
        zeros = [0] * ROWS
        if call == 1:
            answer, self.record, results, trial, flags = tried(lent, self.record, pairs, move_vars, move_values, asked, asked_vars, route, [0] * 4, zeros, zeros)
            self.told('trial', answer, results[:asked], trial[:n], flags[:n])
            return
        left = kept_move(lent, self.record, pairs, move_vars, move_values, zeros, self.log) if call == 2 else taken_back(lent, self.record, zeros, self.log)
        answer, self.record, self.stored, flags, self.log = left
        moves = self.log.sizes[0]
        latest = self.log.move(moves - 1) if answer[0] == 0 and moves else ([], [])
        self.told('keep' if call == 2 else 'back', answer, self.stored[:n], flags[:n], self.log.sizes[:moves + 1], *latest)


def replayed(data):
    """The lines of a file of sessions."""
    (count,), at, lines = struct.unpack('<I', data[:4]), 4, []
    for _ in range(count):
        length, calls = struct.unpack('<2I', data[at:at + 8])
        session = Session(struct.unpack('<32i', data[at + 8:at + 136]), data[at + 136:at + 136 + length])
        at += 136 + length
        for call in (data[at + 48 * i:at + 48 * i + 48] for i in range(calls)):
            numbers = struct.unpack('<4I', call[:16])
            if numbers[0] == 3:
                session.change(*numbers[1:])
            else:
                session.call(*numbers, *(list(struct.unpack(code, part)) for code, part in (('<4H', call[16:24]), ('<4i', call[24:40]), ('<4H', call[40:]))))
        at += 48 * calls
        lines += session.lines
    return lines


class Replay(unittest.TestCase):
    def test_sessions(self):
        names = sorted(os.listdir(os.path.join(REPLAY, 'data')))
        self.assertTrue(names)
        for name in names:
            with open(os.path.join(REPLAY, 'data', name), 'rb') as f:
                lines = replayed(f.read())
            with open(os.path.join(REPLAY, 'expected', name)) as f:
                for i, (mine, recorded) in enumerate(zip(lines, f.read().splitlines(), strict=True)):
                    self.assertEqual(mine, recorded, '%s, line %d' % (name, i + 1))


if __name__ == '__main__':
    unittest.main()
