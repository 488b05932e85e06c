#!/usr/bin/env python3
"""test_model: the reasons of model.py, one by one, and over random inputs; its closed chains, by listing every chain and by following choices a number of steps."""
import os
import random
import sys
import unittest

sys.dont_write_bytecode = True
sys.path.insert(0, os.path.dirname(os.path.abspath(__file__)))
from model import *

# kind, inputs and the reason; parameter and coefficients are 1
EXAMPLES = [
    (LINEAR, [5], 0), (LINEAR, [HIGH], 1), (LINEAR, [BLANK], 4),
    (MIN, [BLANK, 5], 0), (MIN, [BLANK, BLANK], 4), (MAX, [5, BLANK], 0), (MAX, [BLANK], 4),
    (ELEMENT, [0, 7, BLANK], 0), (ELEMENT, [1, 7, BLANK], 4), (ELEMENT, [BLANK, 7], 4),
    (ELEMENT, [2, 7, BLANK], 2), (ELEMENT, [-1, 7, BLANK], 2), (ELEMENT, [LOW, 7], 2),
    (SHARED, [4, BLANK], 4), (SHARED, [4, 4], 0), (COUNT, [BLANK, 1], 4), (COUNT, [2, 3], 0),
    (OVER, [HIGH, -1], 1), (OVER, [HIGH, 0], 0), (OVER, [LOW, HIGH], 0), (OVER, [5, BLANK], 4),
    (DEPARTURES, [BLANK, 9, 0], 4), (DEPARTURES, [1, 9, 0], 3), (DEPARTURES, [1, 9, -5], 3), (DEPARTURES, [9, 9, 2], 0),
    (DEPARTURES, [LOW, HIGH, 1], 1), (DEPARTURES, [LOW, HIGH, 2], 0),
    (LAST, [LOW, HIGH, 1], 0), (LAST, [9, 9, 2], 5), (LAST, [9, 1, 2], 5), (LAST, [9, 9, 0], 3), (LAST, [9, BLANK, 0], 4), (LAST, [1, 9, BLANK], 4),
]


class Reasons(unittest.TestCase):
    def test_examples(self):
        for kind, inputs, number in EXAMPLES:
            self.assertEqual(reason(kind, 1, [1] * len(inputs), inputs), number, (kind, inputs))

    def test_kinds(self):
        """Each kind has only the reasons that belong to it, and each of these comes up."""
        belong = {LINEAR: {1, 4}, MIN: {4}, MAX: {4}, ELEMENT: {2, 4}, SHARED: {4}, COUNT: {4}, OVER: {1, 4}, DEPARTURES: {1, 3, 4}, LAST: {3, 4, 5}}
        seen, rng = {kind: set() for kind in belong}, random.Random(105)
        for _ in range(60000):
            kind = rng.randrange(1, 10)
            count = {OVER: 2, DEPARTURES: 3, LAST: 3}.get(kind) or rng.randrange(2, 5)
            pool = [BLANK, LOW, HIGH, -1, 0, 1, 2, 3, rng.randrange(LOW, HIGH + 1)]
            xs, coefs = [rng.choice(pool) for _ in range(count)], [rng.choice((1, 1, -1, 1000)) if kind == LINEAR else 1 for _ in range(count)]
            seen[kind].add(reason(kind, rng.choice((0, 1, -1)) if kind in (LINEAR, COUNT) else 0, coefs, xs))
        self.assertEqual(seen, {kind: numbers | {0} for kind, numbers in belong.items()})

    def test_list(self):
        starts, rows = MODEL_A
        lines = [(0, 0, 25200), (1, 0, 28800), (2, 0, 0), (3, 1, 'blank:3'), (4, 1, 'blank:3'), (5, 2, 'blank:4')]
        self.assertEqual(printed_with_reasons(file_of([25200, 28800, 0, 0, 0, 0], rows)), ''.join('%d %d %s\n' % line for line in lines))
        self.assertEqual(printed_with_reasons(file_of(starts, rows)), printed(file_of(starts, rows)))


def listed_bar(n, lines, entries):
    """The least variable on a closed chain that is not permitted: every chain of up to 2n links is listed, with the kinds of its links."""
    links = {makes: [(v, 'plain' if kind != ELEMENT else 'candidate' if i else 'index') for i, (v, _) in enumerate(entries[first:first + count])]
             for kind, makes, _, first, count in lines}
    for v in range(n):
        chains = {(v, frozenset())}
        for _ in range(2 * n):
            chains = {(end, passed | {kind}) for at, passed in chains for end, kind in links.get(at, ())}
            if any(end == v and ('index' in passed or 'candidate' not in passed) for end, passed in chains):
                return v
    return None


def followed(v, search, lines, entries, steps):
    """The value of a variable by following the choices, None if more than so many steps lead on from it."""
    line = next((line for line in lines if line[1] == v), None)
    if line is None:
        return search[v]
    if steps == 0:
        return None
    kind, _, param, first, count = line
    part, xs = entries[first:first + count], []
    for i, (u, _) in enumerate(part):
        needed = kind != ELEMENT or i == 0 or i - 1 == xs[0]
        xs.append(followed(u, search, lines, entries, steps - 1) if needed else BLANK)
        if xs[-1] is None:
            return None
    return formula(kind, param, [c for _, c in part], xs)


def some_chain(rng):
    """A random model with a closed chain, permitted or not."""
    while True:
        n = rng.randint(2, 6)
        made = rng.sample(range(n), rng.randint(1, n - 1))
        search = [v for v in range(n) if v not in made]
        rows = []
        for v in made:
            anything = [rng.randrange(n) for _ in range(rng.randint(1, 3))]
            rows.append(Row(ELEMENT, v, [rng.choice(search)] + anything) if rng.random() < 0.6 else Row(rng.choice((MAX, ELEMENT)), v, [rng.randrange(n)] + anything[:2])
                        if rng.random() < 0.5 else Row(LINEAR, v, [rng.randrange(n)], None, 1))
        if chained(n, *tables(rows)):
            return [rng.randint(-1, 3) if v in search else 0 for v in range(n)], rows


class Chains(unittest.TestCase):
    def test_bars(self):
        """What bars a chain is found as by listing all of them; what is permitted has numbers that its links bear out."""
        rng, barring = random.Random(110), 0
        for _ in range(3000):
            starts, rows = some_chain(rng)
            n, (lines, entries) = len(starts), tables(rows)
            place = barred(n, lines, entries)
            self.assertEqual(place, listed_bar(n, lines, entries))
            barring += place is not None
            if place is None:
                known, reach = numbers(n, lines, entries), led_to(n, lines, entries)
                for v, bits in enumerate(reach):
                    group = [u for u in range(n) if u == v or bits >> u & 1 and reach[u] >> v & 1]
                    outside = [known[u] for row in rows if row.makes in group for u in row.inputs if u not in group]
                    self.assertEqual(known[v], 1 + max(outside) if outside else 0)
        self.assertTrue(500 < barring < 2500, barring)

    def test_choices(self):
        """What is determined, and its value, is found as by following the choices step by step."""
        rng, left = random.Random(111), 0
        for _ in range(3000):
            starts, rows = some_chain(rng)
            n, (lines, entries) = len(starts), tables(rows)
            if barred(n, lines, entries) is None:
                values = worked_out(starts, lines, entries)
                self.assertEqual(values, [followed(v, starts, lines, entries, n) for v in range(n)])
                self.assertEqual(undetermined(starts, lines, entries), values.index(None) if None in values else None)
                left += None in values
        self.assertTrue(left > 200, left)

    def test_trips(self):
        """Document 01's run on ELEMENT that closes a chain through a candidate."""
        rows = [Row(ELEMENT, 2, [0, 1, 3]), Row(LINEAR, 3, [2])]
        text = lambda index: printed(file_of([index, 7, 0, 0], rows))
        self.assertEqual(text(0), '0 0 0\n1 0 7\n2 1 7\n3 1 7\n')
        self.assertEqual(text(1), 'refused 20 2\n')
        self.assertEqual(text(2), '0 0 2\n1 0 7\n2 1 -\n3 1 -\n')


if __name__ == '__main__':
    unittest.main()
