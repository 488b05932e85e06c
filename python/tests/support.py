"""What the tests share: where things are, the command as users type it, the second implementation, random models as text."""
from __future__ import annotations

import importlib.util
import os
import random
import struct
import subprocess
import sys
import unittest
from pathlib import Path

ROOT = Path(__file__).resolve().parent.parent.parent
EXAMPLES = ROOT / "examples"
SEED = int(os.environ.get("LUKHANDRO_SEED", "1"))
COUNT = int(os.environ.get("LUKHANDRO_COUNT", "1000"))
LOW, HIGH = -2147483647, 2147483647
LINEAR, MIN, MAX, ELEMENT, SHARED, COUNTED, OVER, DEPARTURES, LAST = range(1, 10)


def second():
    """tools/model.py: the model file and the calls from the specification alone, which shares nothing with the engine."""
    spec = importlib.util.spec_from_file_location("second", ROOT / "tools" / "model.py")
    module = importlib.util.module_from_spec(spec)
    spec.loader.exec_module(module)
    return module


def run(*words, stdin="", cwd=ROOT, **environment):
    """The command as users type it: status, standard output, standard error."""
    env = dict(os.environ, PYTHONPATH=str(ROOT / "python"), PYTHONDONTWRITEBYTECODE="1", PYTHONIOENCODING="utf-8", **environment)
    data = stdin if isinstance(stdin, bytes) else stdin.encode()
    done = subprocess.run([sys.executable, "-m", "lukhandro", *map(str, words)], input=data, capture_output=True, cwd=cwd, env=env)
    return done.returncode, done.stdout.decode(), done.stderr.decode()


class Case(unittest.TestCase):
    """A test case that can also type commands."""

    maxDiff = None

    def typed(self, *words, status=0, stdin="", cwd=ROOT, **environment):
        """Types a command, holds its status and that no traceback is shown, and answers what it prints and says."""
        got, out, err = run(*words, stdin=stdin, cwd=cwd, **environment)
        self.assertEqual(got, status, f"lukhandro {' '.join(map(str, words))}\n{out}\n{err}")
        self.assertNotIn("Traceback", out + err)
        self.assertNotIn("fault of the program", err)
        return out, err


class RandomModel:
    """A random model: variables in the order of their numbers, rows in theirs, and the text that a planner might write."""

    def __init__(self, rng: random.Random) -> None:
        self.rng = rng
        n = rng.choice((1, 2, 3, 5, 8, 13, 20))
        made = {v for v in range(1, n) if rng.random() < 0.6}
        ranks = list(range(n))  # rank r has number ranks[r]; a formula reads lower ranks
        rng.shuffle(ranks)
        self.starts, self.bounds, rows = [0] * n, [(LOW, HIGH)] * n, []
        self.written = {}
        for rank, v in enumerate(ranks):
            if rank in made:
                rows.append(self._row(v, ranks[:rank], ranks))
            else:
                self._search(v)
        rng.shuffle(rows)
        if rng.random() < 0.6:
            rows.sort(key=lambda row: row[1])
        self.rows = rows
        self.names = self._names(n)
        self.bounded = any(v in self.written and self.written[v][1] is not None for v in range(n))

    def _search(self, v):
        rng = self.rng
        value = rng.choice((0, 1, 2, 3, -1, 600, 3600, 25200, 28800, rng.randint(-50, 50), rng.randint(LOW, HIGH), LOW, HIGH))
        bounds = None
        if rng.random() < 0.3:
            low, high = rng.choice((LOW, min(value, 0), value)), rng.choice((HIGH, max(value, 7200), value))
            bounds = (low, high)
            self.bounds[v] = bounds
        self.starts[v] = value
        self.written[v] = (value, bounds)

    def _row(self, v, lower, every):
        rng = self.rng
        kind = rng.randint(1, 9)
        count = {ELEMENT: rng.randint(2, 5), OVER: 2, DEPARTURES: 3, LAST: 3}.get(kind, rng.randint(1, 5))
        inputs = [rng.choice(lower) for _ in range(count)]
        if kind == ELEMENT and rng.random() < 0.5:  # candidates may close a chain
            inputs[1:] = [rng.choice(every) for _ in inputs[1:]]
        if rng.random() < 0.02:
            inputs[0] = rng.choice(every)
        coefs = [rng.choice((1, 1, -1, 4, 0, 1000, -1000, rng.randint(-9, 9))) if kind == LINEAR else 1 for _ in inputs]
        param = rng.choice((0, 2, -5, 3600, 10 ** 9, -10 ** 9)) if kind in (LINEAR, COUNTED) else 0
        return kind, v, inputs, coefs, param

    def _names(self, n):
        rng, found = self.rng, []
        while len(found) < n:
            parts = [rng.choice(("a", "trip", "Line_12", "w1", "x", "über", "v", "in_", "MAXI")) + rng.choice(("", str(rng.randint(0, 30))))
                     for _ in range(rng.choice((1, 1, 2, 3)))]
            if rng.random() < 0.3 and len(parts) > 1:
                parts[1] = str(rng.randint(0, 99))
            name = ".".join(parts)
            if name not in found:
                found.append(name)
        return found

    # ── the text, written without the package ──
    def _number(self, x):
        if self.rng.random() < 0.4:
            sign, rest = ("-", -x) if x < 0 else (self.rng.choice(("", "", "+")), x)
            return f"{sign}{rest // 3600}:{rest // 60 % 60:02}:{rest % 60:02}"
        return str(x)

    def _formula(self, row):
        kind, _, inputs, coefs, param = row
        names = [self.names[v] for v in inputs]
        word = ("", "LINEAR", "MIN", "MAX", "ELEMENT", "SHARED", "COUNT", "OVER", "DEPARTURES", "LAST")[kind]
        if kind == LINEAR:
            said = [self._number(param)] if param or self.rng.random() < 0.3 else []
            text = "".join(said)
            for name, coef in zip(names, coefs):
                term = name if abs(coef) == 1 and self.rng.random() < 0.8 else self.rng.choice((f"{abs(coef)}*{name}", f"{name} * {abs(coef)}"))
                text += (" - " if coef < 0 else " + " if text else "") + term
            return f"LINEAR({text})"
        if kind == COUNTED:
            return f"COUNT({self._number(param)}; {', '.join(names)})"
        if kind == ELEMENT:
            return f"ELEMENT({names[0]}; {', '.join(names[1:])})"
        return f"{word}({','.join(names)})"

    def _value_line(self, v):
        value, bounds = self.written[v]
        if bounds is None:
            return f"{self.names[v]} = {self._number(value)}"
        low, high = bounds
        lowest = "" if low == LOW and self.rng.random() < 0.5 else self._number(low)
        highest = "" if high == HIGH and self.rng.random() < 0.5 else self._number(high)
        return f"{self.names[v]}={self._number(value)}   in {lowest}..{highest}"

    def text(self):
        """The lines: in the order of the variables where the rows' order allows it, otherwise names first."""
        rng, row_of = self.rng, {row[1]: row for row in self.rows}
        in_order = all(a[1] < b[1] for a, b in zip(self.rows, self.rows[1:]))
        lines = []
        for v in range(len(self.names)):
            if v not in row_of:
                lines.append(self._value_line(v))
            else:
                lines.append(f"{self.names[v]} = {self._formula(row_of[v])}" if in_order else self.names[v])
        if not in_order:
            lines += [f"{self.names[row[1]]} = {self._formula(row)}" for row in self.rows]
        said = []
        for line in lines:
            if rng.random() < 0.1:
                said.append(rng.choice(("", "# a remark, = 5", "   ")))
            said.append(rng.choice(("", "", "  ", "\t")) + line + rng.choice(("", "", "  # why", " ")))
        return rng.choice(("\n", "\n", "\r\n")).join(said) + rng.choice(("\n", ""))

    # ── the file, written without the package ──
    def tables(self):
        """Rows and entries as the second implementation has them."""
        lines, entries = [], []
        for kind, makes, inputs, coefs, param in self.rows:
            lines.append([kind, makes, param, len(entries), len(inputs)])
            entries += [list(pair) for pair in zip(inputs, coefs)]
        return lines, entries

    def file(self):
        """The model file: of version 2 if some line has bounds."""
        lines, entries = self.tables()
        n, m, e = len(self.starts), len(lines), len(entries)
        head = 28 if self.bounded else 24
        at = [head, head + 4 * n, head + 4 * n + 12 * m, head + 4 * n + 12 * m + 4 * e + (8 * n if self.bounded else 0)]
        data = struct.pack("<4H4I", 2 if self.bounded else 1, n, m, e, *at)
        if self.bounded:
            data += struct.pack("<I", head + 4 * n + 12 * m + 4 * e)
        data += b"".join(struct.pack("<i", x) for x in self.starts)
        data += b"".join(struct.pack("<HHiHH", *line) for line in lines)
        data += b"".join(struct.pack("<Hh", *entry) for entry in entries)
        return data + (b"".join(struct.pack("<ii", *pair) for pair in self.bounds) if self.bounded else b"")


def mutated(text: str, rng: random.Random) -> str:
    """A text with some damage."""
    pieces = ("=", "..", "in", "(", ")", ",", ";", "*", "+", "-", "7:00:00", "7:61", "99999999999", "MAX", "LINEAR(", "#", "\n", "\t", "é", "\x00",
              "\ufeff", ".", ":", "a", "v1", "COUNT(0; ", "\r", "\u2028", "in ..", "ELEMENT")
    for _ in range(rng.choice((1, 1, 2, 3, 8))):
        at, kind = rng.randrange(len(text) + 1), rng.randrange(5)
        if kind == 0:
            text = text[:at] + rng.choice(pieces) + text[at:]
        elif kind == 1:
            text = text[:at] + text[at + rng.choice((1, 1, 2, 5, 20)):]
        elif kind == 2:
            lines = text.split("\n")
            lines.insert(rng.randrange(len(lines) + 1), rng.choice(lines))
            text = "\n".join(lines)
        elif kind == 3:
            lines = text.split("\n")
            del lines[rng.randrange(len(lines))]
            text = "\n".join(lines)
        else:
            words = text.split(" ")
            i, j = rng.randrange(len(words)), rng.randrange(len(words))
            words[i], words[j] = words[j], words[i]
            text = " ".join(words)
    return text
