"""Models as text (.lkt): a line for each variable, its value with bounds or its formula. docs/TEXT.md has the grammar."""
from __future__ import annotations

import re
from typing import Iterable, NamedTuple, NoReturn, Sequence

from . import model as engine
from .clock import HIGHEST, LOWEST, NoValue, like, seconds
from .model import COUNT, DEPARTURES, ELEMENT, FORMULAS, FULL, LAST, LINEAR, MAX, MIN, OVER, Model, Row
from .refused import Refused

_TOKEN = re.compile(r"[ \t]+|(?P<number>[0-9]+(?::[0-9]*)*)|(?P<name>[^\W\d]\w*(?:\.\w+)*)|(?P<mark>\.\.|[-+*=(),;])"
                    r"|(?P<comment>#.*)|(?P<other>.)", re.DOTALL)
KINDS = {name: kind for kind, name in enumerate(FORMULAS) if name}
# how many inputs a formula takes, and how it is written
INPUTS = {LINEAR: (1, 256), MIN: (1, 256), MAX: (1, 256), ELEMENT: (2, 256), engine.SHARED: (1, 256), COUNT: (1, 256),
          OVER: (2, 2), DEPARTURES: (3, 3), LAST: (3, 3)}
WRITTEN = {LINEAR: "LINEAR(2 + 4*trips)", MIN: "MIN(a, b)", MAX: "MAX(a, b)", ELEMENT: "ELEMENT(index; a, b)",
           engine.SHARED: "SHARED(a, b)", COUNT: "COUNT(0; a, b)", OVER: "OVER(a, b)",
           DEPARTURES: "DEPARTURES(start, end, headway)", LAST: "LAST(start, end, headway)"}
MOST_COEFFICIENT, MOST_PARAMETER = 1000, 1000000000
SHOWN_PROBLEMS = 50


class Problem(NamedTuple):
    """What is wrong at a place of a text: line and column from 1, how many characters, and a sentence."""

    line: int
    column: int
    length: int
    sentence: str


class Problems(Exception):
    """All that is wrong with a text, in the order of its lines."""

    def __init__(self, source: str, lines: Sequence[str], problems: Iterable[Problem]) -> None:
        self.source, self.lines = source, lines
        self.problems = sorted(set(problems))
        super().__init__(source, self.problems)

    def __str__(self) -> str:
        said = [self._said(problem) for problem in self.problems[:SHOWN_PROBLEMS]]
        if len(self.problems) > SHOWN_PROBLEMS:
            said.append(f"{self.source}: and {len(self.problems) - SHOWN_PROBLEMS} more")
        return "\n".join(said)

    def _said(self, problem: Problem) -> str:
        """A problem with its line and a mark under it."""
        line = self.lines[problem.line - 1] if problem.line <= len(self.lines) else ""
        before = "".join("\t" if c == "\t" else " " for c in line[:problem.column - 1])
        return (f"{self.source}:{problem.line}:{problem.column}: {problem.sentence}\n"
                f"    {printable(line)}\n    {before}{'^' * max(problem.length, 1)}")


def printable(line: str) -> str:
    """A line without characters that would drive a terminal."""
    return "".join(c if c == "\t" or c.isprintable() else "\ufffd" for c in line)


class _Wrong(Exception):
    """What is wrong in a line: a column from 0, how many characters, and a sentence."""
    def __init__(self, column: int, length: int, sentence: str) -> None:
        self.column, self.length, self.sentence = column, length, sentence


class Token(NamedTuple):
    """A word of a line: its kind (number, name, mark or end), its text, and its column from 0."""

    kind: str
    text: str
    column: int


class Entry(NamedTuple):
    """A line that says what a variable is: a value with bounds, or a formula, or (kind 0 and no value) only its name."""

    name: Token
    line: int
    value: int | None = None
    written: Token | None = None
    bounds: tuple[int, int] | None = None
    kind: int = 0
    inputs: tuple[Token, ...] = ()
    coefs: tuple[int, ...] = ()
    param: int = 0
    as_clock: bool = False


class _Reader:
    """Reads the words of one line."""

    def __init__(self, line: str, number: int) -> None:
        self.line, self.number, self.at = line, number, 0
        self.tokens: list[Token] = []
        for found in _TOKEN.finditer(line):
            kind = found.lastgroup
            if kind is None:
                continue
            if kind == "comment":
                break
            if kind == "other":
                raise _Wrong(found.start(), 1, f"{found.group()!r} has no meaning here")
            self.tokens.append(Token(kind, found.group(), found.start()))
        else:
            found = None
        self.end = Token("end", "", found.start() if found else len(line.rstrip()))

    def peek(self) -> Token:
        """The next word, which stays."""
        return self.tokens[self.at] if self.at < len(self.tokens) else self.end

    def next(self) -> Token:
        """The next word, which is passed over."""
        token = self.peek()
        self.at += token is not self.end
        return token

    def takes(self, mark: str) -> bool:
        """Passes over a mark if it is the next word."""
        found = self.at < len(self.tokens) and self.tokens[self.at].text == mark
        self.at += found
        return found

    def wants(self, mark: str, where: str) -> None:
        """Passes over a mark that has to be there."""
        if not self.takes(mark):
            self.fail(f"there should be {mark!r} {where}")

    def fail(self, sentence: str) -> NoReturn:
        """Something is wrong at the next word."""
        token = self.peek()
        raise _Wrong(token.column, len(token.text), sentence)

    def entry(self) -> Entry:
        """The whole line."""
        name = self.name("a line begins with the name of a variable")
        if self.peek() is self.end:
            return Entry(name, self.number)
        self.wants("=", f"behind {name.text}")
        token = self.peek()
        if token.kind == "name":
            entry = self.formula(name)
            if self.takes("in"):
                raise _Wrong(self.tokens[self.at - 1].column, 2, "bounds are for a variable with a value: a formula gives what it gives")
        else:
            entry = self.valued(name)
        if self.peek() is not self.end:
            self.fail(f"the line should end here; a comment begins with '#'")
        return entry

    def name(self, wanted: str) -> Token:
        """The name of a variable."""
        token = self.peek()
        if token.kind != "name":
            self.fail(wanted)
        if token.text in KINDS or token.text == "in":
            self.fail(f"{token.text} is a word of the language and names no variable")
        return self.next()

    def number_token(self) -> Token:
        """A value with its sign, as one word."""
        sign = self.next() if self.peek().text in ("+", "-") else None
        token = self.peek()
        if token.kind != "number":
            self.fail("there should be a value: a whole number or a clock time, as 600 or 7:00:00")
        self.next()
        if sign and sign.column + 1 != token.column:
            raise _Wrong(sign.column, 1, "a sign stands right before its number")
        return Token("number", sign.text + token.text, sign.column) if sign else token

    def value(self) -> tuple[int, Token]:
        """A value, and how it is written."""
        token = self.number_token()
        return self.worth(token), token

    def worth(self, token: Token) -> int:
        """The number that a word stands for."""
        try:
            return seconds(token.text)
        except NoValue as why:
            raise _Wrong(token.column, len(token.text), str(why)) from None

    def valued(self, name: Token) -> Entry:
        """A value with the bounds that may follow."""
        value, written = self.value()
        bounds = None
        where = self.peek()
        if self.takes("in"):
            low, high = LOWEST, HIGHEST
            if self.peek().text != "..":
                low = self.value()[0]
            self.wants("..", "between the lowest and the highest allowed value")
            if self.peek() is not self.end:
                high = self.value()[0]
            bounds, length = (low, high), self.tokens[self.at - 1].column + len(self.tokens[self.at - 1].text) - where.column
            if low > high:
                raise _Wrong(where.column, length, "the lowest allowed value is above the highest")
            if not low <= value <= high:
                raise _Wrong(written.column, len(written.text), f"{written.text} lies outside the bounds of {name.text}")
        return Entry(name, self.number, value, written, bounds)

    def formula(self, name: Token) -> Entry:
        """A formula with its inputs."""
        word = self.next()
        kind = KINDS.get(word.text)
        if kind is None:
            raise _Wrong(word.column, len(word.text), f"there is no formula {word.text}" + meant(word.text.upper(), KINDS, "; the "
                         "nine are " + ", ".join(KINDS)))
        self.wants("(", f"behind {word.text}, as in {WRITTEN[kind]}")
        param, coefs, as_clock = 0, [], False
        inputs: list[Token] = []
        if kind == LINEAR:
            param, as_clock = self.terms(inputs, coefs)
        else:
            if kind == COUNT:
                param, written = self.value()
                self.within(param, MOST_PARAMETER, written, "the number that COUNT looks for")
                self.wants(";", f"behind the number that COUNT looks for, as in {WRITTEN[kind]}")
            inputs.append(self.input(kind))
            if kind == ELEMENT:
                self.wants(";", f"behind the index, as in {WRITTEN[kind]}")
                inputs.append(self.input(kind))
            while self.takes(","):
                inputs.append(self.input(kind))
            coefs = [1] * len(inputs)
        self.wants(")", "at the end of the formula" if kind == LINEAR else "or a comma here")
        least, most = INPUTS[kind]
        if not least <= len(inputs) <= most:
            length = self.tokens[self.at - 1].column + 1 - word.column
            count = f"{least}" if least == most else f"{least} to {most}"
            raise _Wrong(word.column, length, f"{word.text} takes {count} variables, as in {WRITTEN[kind]}; here are {len(inputs)}")
        return Entry(name, self.number, None, None, None, kind, tuple(inputs), tuple(coefs), param, as_clock)

    def input(self, kind: int) -> Token:
        """An input of a formula."""
        return self.name(f"there should be the name of a variable, as in {WRITTEN[kind]}")

    def within(self, number: int, most: int, token: Token, what: str) -> None:
        """A number of a formula lies in its bounds."""
        if abs(number) > most:
            raise _Wrong(token.column, len(token.text), f"{what} lies outside {-most} to {most}")

    def terms(self, inputs: list[Token], coefs: list[int]) -> tuple[int, bool]:
        """The sum of LINEAR: fills inputs and coefficients, and gives the parameter and whether it is written as a time."""
        param, as_clock, first = 0, False, True
        opened = self.peek()
        while True:
            sign = 1
            if self.peek().text in ("+", "-"):
                sign = -1 if self.next().text == "-" else 1
            elif not first:
                break
            first = False
            token = self.peek()
            if token.kind == "number":
                self.next()
                number = sign * self.worth(token)
                if self.takes("*"):
                    inputs.append(self.input(LINEAR))
                    self.factor(number, token, coefs)
                else:
                    param, as_clock = param + number, as_clock or ":" in token.text
            else:
                inputs.append(self.input(LINEAR))
                if self.takes("*"):
                    token = self.peek()
                    if token.kind != "number":
                        self.fail("there should be a whole number to multiply with")
                    self.next()
                    self.factor(sign * self.worth(token), token, coefs)
                else:
                    coefs.append(sign)
        self.within(param, MOST_PARAMETER, opened, "what is added")
        return param, as_clock

    def factor(self, number: int, token: Token, coefs: list[int]) -> None:
        """A coefficient."""
        if ":" in token.text:
            raise _Wrong(token.column, len(token.text), "a factor is a whole number, not a clock time")
        self.within(number, MOST_COEFFICIENT, token, "a factor")
        coefs.append(number)


def meant(name: str, names: Iterable[str], otherwise: str = "") -> str:
    """`; did you mean ..?` where a name is nearly right."""
    import difflib
    close = difflib.get_close_matches(name, list(names), 1)
    return f"; did you mean {close[0]}?" if close else otherwise


class Text:
    """A model text that has been read: names, values, bounds and formulas, and the lines as they were.

    >>> text = Text("start = 7:00:00\\nend = 8:00:00\\nheadway = 0:10:00\\ntrips = DEPARTURES(start, end, headway)\\n")
    >>> text.build().values()
    [25200, 28800, 600, 6]
    >>> print(text.saved([25200, 28800, 720, 0]), end="")
    start = 7:00:00
    end = 8:00:00
    headway = 0:12:00
    trips = DEPARTURES(start, end, headway)
    >>> Text("trips = DEPARTURES(start, end)", "sunday.lkt")
    Traceback (most recent call last):
    lukhandro.text.Problems: sunday.lkt:1:9: DEPARTURES takes 3 variables, as in DEPARTURES(start, end, headway); here are 2
        trips = DEPARTURES(start, end)
                ^^^^^^^^^^^^^^^^^^^^^^
    """

    def __init__(self, text: str, source: str = "text") -> None:
        self.source, self.raw = source, text
        self.lines = [line[:-1] if line.endswith("\r") else line for line in text.removeprefix("\ufeff").split("\n")]
        self.problems: list[Problem] = []
        entries = self._entries()
        self._number(entries)
        self.rows = [row for row in map(self._row, entries) if row]
        self._limits()
        if self.problems:
            raise Problems(self.source, self.lines, self.problems)
        entry_of = [self.defined[v] for v in range(len(self.names))]
        self.starts = [entry.value or 0 for entry in entry_of]
        self.bounds = [entry.bounds or FULL for entry in entry_of]
        self.version = 2 if any(entry.bounds for entry in entry_of) else 1
        self.clocks = clocks([entry.written is not None and ":" in entry.written.text for entry in entry_of],
                             self.rows, {self.numbers[e.name.text] for e in entries if e.as_clock})

    # ── reading ──
    def _problem(self, line: int, column: int, length: int, sentence: str) -> None:
        """Notes what is wrong, at a column from 0."""
        self.problems.append(Problem(line, column + 1, length, sentence))

    def _entries(self) -> list[Entry]:
        """The lines that say something; of a line that is wrong only its first word is remembered, so that nobody is told
        twice."""
        entries, self.unsure = [], set()
        for number, line in enumerate(self.lines, 1):
            if not line or line.isspace():
                continue
            try:
                reader = _Reader(line, number)
                if reader.tokens:
                    entries.append(reader.entry())
            except _Wrong as why:
                self._problem(number, why.column, why.length, why.sentence)
                first = _TOKEN.match(line.lstrip())
                self.unsure.add(first.group() if first else "")
        return entries

    def _number(self, entries: list[Entry]) -> None:
        """Numbers the variables in the order in which their names first begin a line."""
        self.numbers: dict[str, int] = {}
        self.line_of: list[int] = []
        self.defined: dict[int, Entry] = {}
        for entry in entries:
            name = entry.name.text
            bare = not entry.kind and entry.written is None
            v = self.numbers.get(name)
            if v is None:
                v = self.numbers[name] = len(self.line_of)
                self.line_of.append(entry.line)
            elif bare or v in self.defined:
                self._problem(entry.line, entry.name.column, len(name), f"{name} is there already, in line {self.line_of[v]}")
                continue
            if not bare:
                self.defined[v] = entry
                self.line_of[v] = entry.line
        self.names = list(self.numbers)
        for v, name in enumerate(self.names):
            if v not in self.defined and name not in self.unsure:
                column = self.lines[self.line_of[v] - 1].index(name)
                self._problem(self.line_of[v], column, len(name), f"{name} has no value and no formula: write {name} = ..")

    def _row(self, entry: Entry) -> Row | None:
        """The row of a line with a formula; inputs that are not there are noted."""
        if not entry.kind:
            return None
        for token in entry.inputs:
            if token.text not in self.numbers and token.text not in self.unsure:
                self._problem(entry.line, token.column, len(token.text),
                              f"there is no variable {token.text}" + meant(token.text, self.numbers))
        return Row(entry.kind, self.numbers[entry.name.text], tuple(self.numbers.get(token.text, 0) for token in entry.inputs),
                   entry.coefs, entry.param)

    def _limits(self) -> None:
        """Notes that there is no variable, or that there are too many of something."""
        if not self.names and not self.problems:
            self._problem(1, 0, 1, "there is no variable in this text")
        if len(self.names) > engine.MOST_VARIABLES:
            self._problem(self.line_of[engine.MOST_VARIABLES], 0, 1,
                          f"a model has at most {engine.MOST_VARIABLES:,} variables, and here are {len(self.names):,}")
        entries = sum(len(row.inputs) for row in self.rows)
        if entries > engine.MOST_ENTRIES:
            self._problem(self.line_of[-1], 0, 1,
                          f"the formulas of a model name at most {engine.MOST_ENTRIES:,} variables, and here are {entries:,}")

    # ── building and saving ──
    def build(self) -> Model:
        """The model; a refusal of the engine comes back as the line that it is about."""
        try:
            return Model.build(self.starts, self.rows, self.bounds)
        except Refused as refused:
            from .words import explained
            sentence = explained(refused, self.names, self.rows, self.starts, self.bounds)
            raise Problems(self.source, self.lines, [self._whole(self.line_of[refused.place], sentence)]) from None

    def _whole(self, line: int, sentence: str) -> Problem:
        """A problem with a line as a whole, without its comment."""
        text = self.lines[line - 1].split("#")[0].rstrip()
        column = len(text) - len(text.lstrip())
        return Problem(line, column + 1, len(text) - column, sentence)

    def compiled(self, version: int | None = None) -> bytes:
        """The bytes of the model file: of version 2 if some line has bounds, else of version 1."""
        return self.build().write(version or self.version)

    def saved(self, starts: Sequence[int]) -> str:
        """The text with other values of the search variables: only these numbers change, comments and layout stay."""
        lines = self.raw.split("\n")
        shift = 1 if self.raw.startswith("\ufeff") else 0
        for v, entry in self.defined.items():
            if entry.written is None or entry.value == starts[v]:
                continue
            line, old = lines[entry.line - 1], entry.written
            at = old.column + (shift if entry.line == 1 else 0)
            new, rest = like(starts[v], old.text), line[at + len(old.text):]
            spaces, behind = len(rest) - len(rest.lstrip(" ")), len(new) - len(old.text)
            if spaces > 1 and rest.strip():  # columns that were aligned stay so where there is room
                rest = " " * max(spaces - behind, 1) + rest[spaces:]
            lines[entry.line - 1] = line[:at] + new + rest
        return "\n".join(lines)


def clocks(written: Sequence[bool], rows: Sequence[Row], params: set[int]) -> list[bool]:
    """Which variables are clock times: values that are written so, and what formulas make of them. MIN, MAX and ELEMENT are
    times if one of what they choose from is; LAST if its start is; LINEAR if its number is written as a time, or it and OVER
    if all their inputs are; the others count."""
    known = list(written)
    waiting, before = [row for row in rows if row.kind in (LINEAR, MIN, MAX, ELEMENT, OVER, LAST)], -1
    while len(waiting) != before:
        before, left = len(waiting), []
        for row in waiting:
            if row.kind in (MIN, MAX):
                found = any(known[v] for v in row.inputs)
            elif row.kind == ELEMENT:
                found = any(known[v] for v in row.inputs[1:])
            elif row.kind == LAST:
                found = known[row.inputs[0]]
            else:
                found = row.makes in params or all(known[v] for v in row.inputs)
            if found:
                known[row.makes] = True
            else:
                left.append(row)
        waiting = left
    return known


def formula_text(row: Row, names: Sequence[str]) -> str:
    """A row as a formula of the text.

    >>> formula_text(Row.linear(2, -5, [(0, 1), (1, -3), (0, 0)]), ["a", "b", "c"])
    'LINEAR(-5 + a - 3*b + 0*a)'
    """
    inputs = [names[v] for v in row.inputs]
    if row.kind == LINEAR:
        said = str(row.param) if row.param else ""
        for name, coef in zip(inputs, row.coefs):
            term = name if abs(coef) == 1 else f"{abs(coef)}*{name}"
            if said:
                said += f" {'-' if coef < 0 else '+'} {term}"
            else:
                said = f"-{term}" if coef < 0 else term
        return f"LINEAR({said})"
    if row.kind == COUNT:
        return f"COUNT({row.param}; {', '.join(inputs)})"
    if row.kind == ELEMENT:
        return f"ELEMENT({inputs[0]}; {', '.join(inputs[1:])})"
    return f"{FORMULAS[row.kind]}({', '.join(inputs)})"


def model_text(model: Model, names: Sequence[str], version: int) -> str:
    """The text of a model: compiled, it gives the same file. Where the rows stand in another order than the variables that
    they make, these are named first and the formulas follow in the order of the rows.

    >>> print(model_text(Model.build([5, 0], [Row.linear(1, 2, [(0, 1)])]), ["a", "b"], 2), end="")
    a = 5  in ..
    b = LINEAR(2 + a)
    """
    rows, starts, width = model.rows(), model.starts(), max(map(len, names))
    in_order = all(a.makes < b.makes for a, b in zip(rows, rows[1:]))
    row_of = {row.makes: row for row in rows}
    valued = [v for v in range(model.n) if v not in row_of]
    digits = max((len(str(starts[v])) for v in valued), default=0)
    explicit = version == 2 and not model.has_bounds()
    lines = []
    for v, name in enumerate(names):
        if v not in row_of:
            low, high = model.bounds(v)
            bounds = f"  in {low if low != LOWEST else ''}..{high if high != HIGHEST else ''}"
            wanted = (low, high) != FULL or explicit and v == valued[0]
            lines.append(f"{name:<{width}} = {starts[v]!s:<{digits}}{bounds}" if wanted else f"{name:<{width}} = {starts[v]}")
        else:
            lines.append(f"{name:<{width}} = {formula_text(row_of[v], names)}" if in_order else name)
    if not in_order:
        lines += [f"{names[row.makes]:<{width}} = {formula_text(row, names)}" for row in rows]
    return "".join(line + "\n" for line in lines)
