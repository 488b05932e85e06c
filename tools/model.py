"""The model file, what `values` and `reasons` print for it, what build, trial, keep and taking back leave, and a batch of moves in figures, from the specification
alone: a second implementation, which shares nothing with the engine. It is slow and plain on purpose: numbers in rounds, formulas over whole numbers of any size, a place found by
looking at every index."""
import struct

LOW, HIGH = -2147483647, 2147483647
BLANK = -2147483648
LINEAR, MIN, MAX, ELEMENT, SHARED, COUNT, OVER, DEPARTURES, LAST = range(1, 10)
LONGEST = 65536


class Row:
    """An invariant: kind, variable made, and its inputs, with coefficients (1 where none are given) and a parameter."""

    def __init__(self, kind, makes, inputs, coefs=None, param=0):
        self.kind, self.makes, self.param = kind, makes, param
        self.inputs, self.coefs = list(inputs), list(coefs or [1] * len(inputs))


def tables(rows):
    """The row table and the entry table, the parts one behind the other."""
    lines, entries = [], []
    for row in rows:
        lines.append([row.kind, row.makes, row.param, len(entries), len(row.inputs)])
        entries += [list(pair) for pair in zip(row.inputs, row.coefs)]
    return lines, entries


def packed(starts, lines, entries):
    """The bytes of a model file."""
    n, m, e = len(starts), len(lines), len(entries)
    at = [24, 24 + 4 * n, 24 + 4 * n + 12 * m, 24 + 4 * n + 12 * m + 4 * e]
    return (struct.pack('<4H4I', 1, n, m, e, *at) + b''.join(struct.pack('<i', x) for x in starts)
            + b''.join(struct.pack('<HHiHH', *line) for line in lines) + b''.join(struct.pack('<Hh', *entry) for entry in entries))


def file_of(starts, rows):
    return packed(starts, *tables(rows))


# ── reading ──
def wrong_field(data):
    """Where the header is wrong, or None."""
    if len(data) < 24:
        return len(data)
    version, n, m, e, *at = struct.unpack('<4H4I', data[:24])
    if version != 1:
        return 0
    if not 1 <= n <= 4096:
        return 2
    if not m <= n:
        return 4
    if not e <= 16384:
        return 6
    for place, have, want in zip((8, 12, 16), at, (24, 24 + 4 * n, 24 + 4 * n + 12 * m)):
        if have != want:
            return place
    total = 24 + 4 * n + 12 * m + 4 * e
    return None if at[3] == total == len(data) else 20


def unpacked(data):
    _, n, m, e = struct.unpack('<4H', data[:8])
    starts = [x for x, in struct.iter_unpack('<i', data[24:24 + 4 * n])]
    lines = list(struct.iter_unpack('<HHiHH', data[24 + 4 * n:24 + 4 * n + 12 * m]))
    entries = list(struct.iter_unpack('<Hh', data[24 + 4 * n + 12 * m:]))
    return starts, lines, entries


# ── checks 2 to 7 and 20: the number and the place of the first that fails, or None ──
def suits(kind, count):
    if kind == ELEMENT:
        return 2 <= count <= 256
    if kind == OVER:
        return count == 2
    if kind in (DEPARTURES, LAST):
        return count == 3
    return 1 <= count <= 256


def unsound(n, lines, entries):
    """Checks 2 to 4."""
    m, e = len(lines), len(entries)
    for r, line in enumerate(lines):
        if not 1 <= line[0] <= 9:
            return 2, r
    before = 0
    for r, (kind, makes, _, first, count) in enumerate(lines):
        named = [v for v, _ in entries[first:first + count]]
        if makes >= n or any(v >= n for v in named) or not suits(kind, count) or first != before or first + count > e:
            return 3, r
        before += count
    if before != e:
        return 3, max(m - 1, 0)
    for r, (kind, _, param, first, count) in enumerate(lines):
        coefs = [c for _, c in entries[first:first + count]]
        if any(abs(c) > 1000 if kind == LINEAR else c != 1 for c in coefs):
            return 4, r
        if abs(param) > 1000000000 if kind in (LINEAR, COUNT) else param != 0:
            return 4, r
    return None


def full(n):
    """The bounds that allow every number: the lowest and the highest of n variables."""
    return [LOW] * n, [HIGH] * n


def allowed(bounds, v, x):
    """A number that a variable may have."""
    return bounds[0][v] <= x <= bounds[1][v]


def bad_bounds(n, lines, bounds):
    """Check 4 of the bounds: those of a variable that some row makes are full, any other's are in the range and in order. The least variable, or None."""
    made = {line[1] for line in lines}
    for v, (low, high) in enumerate(list(zip(*bounds))[:n]):
        if (low, high) != (LOW, HIGH) if v in made else not LOW <= low <= high <= HIGH:
            return v
    return None


def refusal(starts, lines, entries, bounds=None):
    """Checks 2 to 7 and 20; without bounds, over full ones."""
    n, bad = len(starts), unsound(len(starts), lines, entries)
    bounds = bounds or full(n)
    if bad:
        return bad
    v = bad_bounds(n, lines, bounds)
    if v is not None:
        return 4, v
    seen = set()
    for r, line in enumerate(lines):
        if line[1] in seen:
            return 5, r
        seen.add(line[1])
    if chained(n, lines, entries):
        v = barred(n, lines, entries)
        if v is not None:
            return 6, v
    for v in range(n):
        if starts[v] != 0 if v in seen else not allowed(bounds, v, starts[v]):
            return 7, v
    v = undetermined(starts, lines, entries)
    return None if v is None else (20, v)


# ── numbers, and closed chains ──
def first_numbers(n, lines, entries):
    """Topological numbers, round by round, with every closed chain counted as circular; None where there can be none."""
    made = {line[1] for line in lines}
    known = [None if v in made else 0 for v in range(n)]
    left, more = list(lines), True
    while more:
        waiting = []
        for line in left:
            inputs = [known[v] for v, _ in entries[line[3]:line[3] + line[4]]]
            if None in inputs:
                waiting.append(line)
            else:
                known[line[1]] = 1 + max(inputs)
        left, more = waiting, len(waiting) < len(left)
    return known


def chained(n, lines, entries):
    """There is a closed chain of links, each from a made variable to an input of its row."""
    return None in first_numbers(n, lines, entries)


def led_to(n, lines, entries):
    """The variables that each variable leads to by one link or more, as bits of a number: all that its inputs lead to, until nothing is new."""
    reach, more = [0] * n, True
    while more:
        more = False
        for _, makes, _, first, count in lines:
            new = reach[makes]
            for v, _ in entries[first:first + count]:
                new |= 1 << v | reach[v]
            more, reach[makes] = more or new != reach[makes], new
    return reach


def barred(n, lines, entries):
    """The least variable on a closed chain that is not permitted, or None: one that passes an index of ELEMENT, or no candidate. A chain may pass a
    variable more than once, so it is enough that a variable leads to an ELEMENT, whose index leads to the variable."""
    reach = [bits | 1 << v for v, bits in enumerate(led_to(n, lines, entries))]  # a variable is where it starts, too
    without = led_to(n, [line for line in lines if line[0] != ELEMENT], entries)
    indices = [(makes, entries[first][0]) for kind, makes, _, first, _ in lines if kind == ELEMENT]
    for v in range(n):
        if without[v] >> v & 1 or any(reach[v] >> makes & 1 and reach[index] >> v & 1 for makes, index in indices):
            return v
    return None


def numbers(n, lines, entries):
    """Topological numbers of a model whose closed chains are permitted: variables that lead to each other have one, 1 plus the greatest among the inputs of
    all of them that are not of them."""
    known = first_numbers(n, lines, entries)
    if None not in known:
        return known
    reach, inputs = led_to(n, lines, entries), {line[1]: [v for v, _ in entries[line[3]:line[3] + line[4]]] for line in lines}
    together = lambda v: {v} | {u for u in range(n) if reach[v] >> u & 1 and reach[u] >> v & 1}
    while None in known:
        for v in [v for v in range(n) if known[v] is None]:
            group = together(v)
            outside = [known[u] for member in group for u in inputs[member] if u not in group]
            if None not in outside:
                known[v] = 1 + max(outside, default=0)
    return known


def worked_out(search, lines, entries):
    """Every value as far as it is determined by the search variables' values, None where it is not: round by round whatever has all that it needs, of ELEMENT the index
    and the chosen candidate."""
    values = list(search)
    for line in lines:
        values[line[1]] = None
    more = True
    while more:
        more = False
        for kind, makes, param, first, count in lines:
            part = entries[first:first + count]
            xs = [values[v] for v, _ in part]
            if kind == ELEMENT and xs[0] is not None:
                xs = [xs[0]] + [x if i == xs[0] else BLANK for i, x in enumerate(xs[1:])]
            if values[makes] is None and None not in xs:
                values[makes], more = formula(kind, param, [c for _, c in part], xs), True
    return values


def undetermined(search, lines, entries):
    """The least variable that is not determined, or None. Without a closed chain all are."""
    if not chained(len(search), lines, entries):
        return None
    values = worked_out(search, lines, entries)
    return values.index(None) if None in values else None


# ── values ──
def in_range(x):
    return x if LOW <= x <= HIGH else BLANK


def formula(kind, param, coefs, xs):
    if kind == ELEMENT:
        index, candidates = xs[0], xs[1:]
        return candidates[index] if 0 <= index < len(candidates) else BLANK
    if kind in (MIN, MAX):
        return (min if kind == MIN else max)([x for x in xs if x != BLANK], default=BLANK)
    if BLANK in xs:
        return BLANK
    if kind == LINEAR:
        return in_range(param + sum(c * x for c, x in zip(coefs, xs)))
    if kind == SHARED:
        return sum(1 for x in xs if xs.count(x) > 1)
    if kind == COUNT:
        return xs.count(param)
    if kind == OVER:
        return in_range(max(xs[0] - xs[1], 0))
    start, end, headway = xs
    if headway <= 0:
        return BLANK
    times = max(-((start - end) // headway), 0)  # start + k * headway < end for k below this
    if kind == DEPARTURES:
        return in_range(times)
    return start + (times - 1) * headway if times else BLANK


# ── why a value is blank ──
def applying(kind, param, coefs, xs):
    """Every reason that applies to a formula over these inputs: 1 its result left the range, 2 index outside, 3 headway 0 or less, 4 a blank input
    stopped it, 5 no departures."""
    if kind == ELEMENT:
        index, candidates = xs[0], xs[1:]
        if not 0 <= index < len(candidates):
            return {2, 4} if index == BLANK else {2}
        return {4} if candidates[index] == BLANK else set()
    if kind in (MIN, MAX):
        return {4} if set(xs) == {BLANK} else set()
    found, exact = {4} if BLANK in xs else set(), 0
    if kind == LINEAR:
        exact = param + sum(c * x for c, x in zip(coefs, xs))
    elif kind == OVER:
        exact = max(xs[0] - xs[1], 0)
    elif kind in (DEPARTURES, LAST):
        start, end, headway = xs
        times = range(start, end, headway) if headway > 0 else None  # the times themselves
        found |= {3} if times is None else {5} if kind == LAST and not times else set()
        exact = len(times) if kind == DEPARTURES and times else 0
    return found if LOW <= exact <= HIGH else found | {1}


def reason(kind, param, coefs, xs):
    """Why a formula has no value over these inputs, 0 if it has one: of several reasons the first of 4, 3, 2, 5, 1."""
    found = applying(kind, param, coefs, xs)
    assert bool(found) == (formula(kind, param, coefs, xs) == BLANK)
    return next((number for number in (4, 3, 2, 5, 1) if number in found), 0)


def reasons_of(lines, entries, values):
    """The reason of every variable over a row of values, 0 for a search variable."""
    row = [0] * len(values)
    for kind, makes, param, first, count in lines:
        part = entries[first:first + count]
        row[makes] = reason(kind, param, [c for _, c in part], [values[v] for v, _ in part])
    return row


def built(starts, lines, entries):
    """Numbers and values of a model that is not refused."""
    known, values = numbers(len(starts), lines, entries), list(starts)
    if chained(len(starts), lines, entries):
        return known, worked_out(starts, lines, entries)
    for kind, makes, param, first, count in sorted(lines, key=lambda line: known[line[1]]):
        part = entries[first:first + count]
        values[makes] = formula(kind, param, [c for _, c in part], [values[v] for v, _ in part])
    return known, values


# ── build, trial, keep and taking back, over what they are lent ──
def build_left(counts, columns, bounds, starts, record, numbered, order, stored, reader_starts, reader_places, log_sizes):
    """What a build leaves: answer (number, place, evaluations), record (moves kept, evaluations, blanks), numbers, order, stored values, the starts and
    the places of the index of readers, and the sizes of the log. The columns of the tables are lent one by one, each of its own length: kinds, made variables, parameters,
    firsts, counts; entry variables, coefficients. So are the two rows of the bounds."""
    n, m, e = counts
    rooms = [(columns[:5], m), (columns[5:], e), (bounds, n), ((starts, numbered, stored), n), ((order,), m), ((reader_starts,), n + 1), ((reader_places,), e),
             ((log_sizes,), 65)]
    before = record, numbered, order, stored, reader_starts, reader_places, log_sizes
    if not (1 <= n <= 4096 and m <= n and e <= 16384) or any(len(row) < least for rows, least in rooms for row in rows):
        return ((1, 0, 0),) + before
    model = starts[:n], list(zip(*columns[:5]))[:m], list(zip(*columns[5:]))[:e]
    bad = refusal(*model, bounds)
    if bad:
        return (bad + (0,),) + before
    known, values = built(*model)
    first, rows = index(n, *model[1:])
    return ((0, 0, m), (0, m, values.count(BLANK)), filled(known, numbered), filled(in_order(known, model[1]), order), filled(values, stored), filled(first, reader_starts),
            filled(rows, reader_places), filled([0], log_sizes))


def in_order(known, lines):
    """The rows by the numbers of the variables that they make, those of equal number as they stand."""
    return sorted(range(len(lines)), key=lambda r: (known[lines[r][1]], r))


def index(n, lines, entries):
    """Where the readers of each variable start, and the readers of one variable after another: the rows that name it, each once."""
    readers = [[] for _ in range(n)]
    for r, (_, _, _, first, count) in enumerate(lines):
        for v in {v for v, _ in entries[first:first + count]}:
            readers[v].append(r)
    places = [r for rows in readers for r in rows]
    starts = [0]
    for rows in readers:
        starts.append(starts[-1] + len(rows))
    return starts, places


class Lent:
    """What trial, keep and taking back are lent of a model: counts, tables, numbers, order, stored values, the index of readers (build's where none is given)
    and the bounds (full where none are given), each of the length lent."""

    def __init__(self, n, lines, entries, numbers, order, stored, e=None, readers=None, bounds=None):
        self.n, self.m, self.e = n, len(lines), len(entries) if e is None else e
        self.lines, self.entries = lines, entries
        self.numbers, self.order, self.stored = numbers, order, stored
        self.starts, self.places = readers or index(n, lines, entries)
        self.bounds = bounds or full(n)


def table_refusal(n, lines, entries, bounds):
    """Checks 2 to 5."""
    bad = refusal([0] * n, lines, entries, bounds)
    return bad if bad and bad[0] <= 5 else None


def rightly_numbered(lent):
    """The lent numbers and order are those that build gives."""
    model = lent.n, lent.lines, lent.entries
    if chained(*model) and barred(*model) is not None:
        return False
    known = numbers(*model)
    return lent.numbers[:lent.n] == known and lent.order[:lent.m] == in_order(known, lent.lines)


def rightly_indexed(lent):
    """The lent index is the one that build gives, as far as build fills it."""
    starts, places = index(lent.n, lent.lines, lent.entries)
    return lent.starts[:lent.n + 1] == starts and lent.places[:len(places)] == places


def blank_values(lent):
    """How many of the stored values of a model are blank."""
    return lent.stored[:lent.n].count(BLANK)


def lent_refusal(lent, record, pairs, move_vars, move_values, asked=0, asked_vars=(), route=1, rooms=()):
    """Checks 1 to 5, 8, 19, 7, 9 to 12, 17 and 13. A keep asks nothing, by route 1, and a taking back moves nothing either. `rooms` has (length, least length) of the rows to be filled."""
    n, m, e = lent.n, lent.m, lent.e
    if not (1 <= n <= 4096 and m <= n and e <= 16384 and pairs <= 64 and asked <= 32):
        return 1, 0
    if len(lent.entries) < e or len(lent.numbers) < n or len(lent.order) < m or len(lent.stored) < n:
        return 1, 0
    if len(lent.starts) < n + 1 or len(lent.places) < e or any(len(row) < n for row in lent.bounds):
        return 1, 0
    if min(len(move_vars), len(move_values)) < pairs or len(asked_vars) < asked or any(have < least for have, least in rooms):
        return 1, 0
    bad = table_refusal(n, lent.lines, lent.entries[:e], lent.bounds)
    if bad:
        return bad
    if not (rightly_numbered(lent) and rightly_indexed(lent)):
        return 8, 0
    if record[2] != blank_values(lent):
        return 19, 0
    made = {line[1] for line in lent.lines}
    for v in range(n):
        if v not in made and not allowed(lent.bounds, v, lent.stored[v]):
            return 7, v
    if route not in (1, 2, 3):
        return 9, 0
    for i in range(pairs):
        if move_vars[i] in made or move_vars[i] >= n:
            return 10, i
    for i in range(pairs):
        if move_vars[i] in move_vars[:i]:
            return 11, i
    for i in range(pairs):
        if move_values[i] == BLANK:
            return 12, i
    for i in range(pairs):
        if not allowed(lent.bounds, move_vars[i], move_values[i]):
            return 17, i
    for i in range(asked):
        if asked_vars[i] >= n:
            return 13, i
    return None


def round_refusal(lent, move):
    """Checks 21 and 20 of a move (a dictionary), once all others have passed."""
    if not chained(lent.n, lent.lines, lent.entries):
        return None
    old = lent.stored[:lent.n]
    fresh = worked_out(old, lent.lines, lent.entries)
    for v in range(lent.n):
        if fresh[v] != old[v]:
            return 21, v
    v = undetermined([move.get(v, old[v]) for v in range(lent.n)], lent.lines, lent.entries)
    return None if v is None else (20, v)


def worth(lent, v, line_of, value_of):
    """The formula of the row that makes v, over the values that value_of gives."""
    kind, _, param, first, count = line_of[v]
    part = lent.entries[first:first + count]
    return formula(kind, param, [c for _, c in part], [value_of(u) for u, _ in part])


def routed(lent, route, move, asked):
    """The new values of a move (a dictionary) by a route, and the variables that the route evaluates. With a closed chain the new values are the fresh ones."""
    old, line_of = lent.stored, {line[1]: line for line in lent.lines}
    inputs = {v: [u for u, _ in lent.entries[line[3]:line[3] + line[4]]] for v, line in line_of.items()}
    first = [move.get(v, old[v]) for v in range(lent.n)]
    fresh = worked_out(first, lent.lines, lent.entries) if chained(lent.n, lent.lines, lent.entries) else None
    if fresh and route == 1:
        return fresh, {v for v in line_of if any(fresh[u] != old[u] for u in inputs[v])}
    if route == 1:
        row, evaluated = list(first), set()
        for v in sorted(line_of, key=lambda v: lent.numbers[v]):
            if any(row[u] != old[u] for u in inputs[v]):
                row[v] = worth(lent, v, line_of, lambda u: row[u])
                evaluated.add(v)
        return row, evaluated
    worked = set(line_of)
    if route == 3:
        marked = {v for v in range(lent.n) if v not in line_of and first[v] != old[v]}
        for _ in range(lent.n):
            marked |= {v for v in line_of if marked & set(inputs[v])}
        worked &= marked
    row = list(first)  # every value that this route could come to, needed or not
    for v in sorted(worked, key=lambda v: lent.numbers[v]):
        row[v] = fresh[v] if fresh else worth(lent, v, line_of, lambda u: row[u])
    needed, waiting = set(), list(asked)
    while waiting:
        v = waiting.pop()
        if v in needed:
            continue
        needed.add(v)
        if v not in worked:
            continue
        if line_of[v][0] == ELEMENT:
            index, candidates = inputs[v][0], inputs[v][1:]
            waiting.append(index)
            if 0 <= row[index] < len(candidates):
                waiting.append(candidates[row[index]])
        else:
            waiting += inputs[v]
    return row, needed & worked


def filled(front, row):
    """A lent row with its front filled; beyond it as it was."""
    return list(front) + list(row[len(front):])


def tried(lent, record, pairs, move_vars, move_values, asked, asked_vars, route, results, trial, flags):
    """What a trial leaves: answer (number, place, evaluations), record (moves kept, evaluations, blanks), results, trial row, flags."""
    bad = lent_refusal(lent, record, pairs, move_vars, move_values, asked, asked_vars, route,
                       [(len(results), asked), (len(trial), lent.n), (len(flags), lent.n)])
    move, wanted = dict(zip(move_vars[:pairs], move_values[:pairs])), asked_vars[:asked]
    bad = bad or round_refusal(lent, move)
    if bad:
        return bad + (0,), record, results, trial, flags
    row, evaluated = routed(lent, route, move, wanted)
    count, old = len(evaluated), lent.stored
    left = [row[v] if v in move or v in evaluated else old[v] for v in range(lent.n)]
    return ((0, 0, count), (record[0], count, record[2]), filled([row[v] for v in wanted], results), filled(left, trial),
            filled([int(v in evaluated) for v in range(lent.n)], flags))


class Log:
    """The log of kept moves in three rows, each of the length lent: how many moves there are and then how many pairs each has, the oldest first;
    variables; values. The pairs of move k stand from place 64 k on."""

    def __init__(self, sizes, vars, values):
        self.sizes, self.vars, self.values = list(sizes), list(vars), list(values)

    def rooms(self):
        return [(len(self.sizes), 65), (len(self.vars), 4096), (len(self.values), 4096)]

    def move(self, k):
        """Variables and values of move k."""
        pairs = slice(64 * k, 64 * k + self.sizes[k + 1])
        return self.vars[pairs], self.values[pairs]

    def unfit(self, lent, kept):
        """Check 16."""
        held, made = self.sizes[0], {line[1] for line in lent.lines}
        if held > 64 or held > kept or any(pairs > 64 for pairs in self.sizes[1:held + 1]):
            return True
        moves = [self.move(k) for k in range(held)]
        if any(BLANK in xs or len(set(vs)) < len(vs) or any(v in made or v >= lent.n for v in vs) for vs, xs in moves):
            return True
        return any(not allowed(lent.bounds, v, x) for vs, xs in moves for v, x in zip(vs, xs))

    def noted(self, old, move_vars):
        """The log with one more move, over the values before it."""
        sizes, vars, values = self.sizes, self.vars, self.values
        if sizes[0] == 64:  # the oldest goes, and all behind it moves up; the last places stay as they are
            sizes, vars, values = sizes[1:65] + sizes[64:], vars[64:4096] + vars[4032:], values[64:4096] + values[4032:]
        k, pairs = min(self.sizes[0], 63), len(move_vars)
        sizes = [k + 1] + sizes[1:k + 1] + [pairs] + sizes[k + 2:]
        at, end = 64 * k, 64 * k + pairs
        return Log(sizes, vars[:at] + list(move_vars) + vars[end:], values[:at] + [old[v] for v in move_vars] + values[end:])

    def dropped(self):
        """The log without its latest move."""
        return Log([self.sizes[0] - 1] + self.sizes[1:], self.vars, self.values)


def changed(lent, kept, move, flags, log):
    """What a move leaves by route 1, with that number kept and that log: answer, record, stored values, flags, log."""
    row, evaluated = routed(lent, 1, move, [])
    count = len(evaluated)
    return (0, 0, count), (kept, count, row.count(BLANK)), filled(row, lent.stored), filled([int(v in evaluated) for v in range(lent.n)], flags), log


def kept_move(lent, record, pairs, move_vars, move_values, flags, log):
    """What a keep leaves: answer, record, stored values, flags, log."""
    bad = lent_refusal(lent, record, pairs, move_vars, move_values, rooms=[(len(flags), lent.n)] + log.rooms())
    if not bad and log.unfit(lent, record[0]):
        bad = 16, 0
    move_vars = move_vars[:pairs]
    move = dict(zip(move_vars, move_values))
    bad = bad or round_refusal(lent, move)
    if bad:
        return bad + (0,), record, lent.stored, flags, log
    return changed(lent, min(record[0] + 1, 4294967295), move, flags, log.noted(lent.stored, move_vars))


def taken_back(lent, record, flags, log):
    """What taking back the latest kept move leaves: answer, record, stored values, flags, log."""
    bad = lent_refusal(lent, record, 0, [], [], rooms=[(len(flags), lent.n)] + log.rooms())
    if not bad and log.unfit(lent, record[0]):
        bad = 16, 0
    if not bad and log.sizes[0] == 0:
        bad = 15, 0
    move = {} if bad else dict(zip(*log.move(log.sizes[0] - 1)))
    bad = bad or round_refusal(lent, move)
    if bad:
        return bad + (0,), record, lent.stored, flags, log
    kept = record[0] if record[0] == 4294967295 else record[0] - 1
    return changed(lent, kept, move, flags, log.dropped())


# ── a batch of moves in figures ──
def moves_of(move_pairs, move_vars, move_values):
    """The moves one after another: how many pairs each has, and those of its variables and new values that are lent."""
    ends = [sum(move_pairs[:i + 1]) for i in range(len(move_pairs))]
    return [(pairs, move_vars[end - pairs:end], move_values[end - pairs:end]) for pairs, end in zip(move_pairs, ends)]


def figured(lent, record, moves, move_pairs, move_vars, move_values, asked, by_number):
    """The figures of a batch over a record, None if it is refused, and the row of counts by number that is left. The figures are blank results; least, greatest and
    sum of those that have a value; evaluations by each route."""
    if moves > 1000 or len(move_pairs) < moves or len(by_number) < 22:
        return None, by_number
    answers, results = [], []
    for move in moves_of(move_pairs[:moves], move_vars, move_values):
        left = [tried(lent, record, *move, 1, [asked], route, [0], [0] * lent.n, [0] * lent.n) for route in (1, 2, 3)]
        answers.append([answer for answer, *_ in left])
        results += left[0][2] if left[0][0][0] == 0 else []
    values, numbers = [x for x in results if x != BLANK], [first[0] for first, *_ in answers]
    figures = (len(results) - len(values), min(values, default=BLANK), max(values, default=BLANK), sum(values),
               *[sum(by_route[i][2] for by_route in answers) for i in range(3)])
    return figures, filled([numbers.count(k) for k in range(22)], by_number)


# ── what `values` and `reasons` print ──
def printed(data, blank=lambda why: '-'):
    """The text for a file; a blank with the reason `why` stands in the list as `blank` has it."""
    if len(data) > LONGEST:
        return 'refused 1 0\n'
    wrong = wrong_field(data)
    if wrong is not None:
        return 'refused 14 %d\n' % wrong
    model = unpacked(data)
    bad = refusal(*model)
    if bad:
        return 'refused %d %d\n' % bad
    known, values = built(*model)
    whys = reasons_of(*model[1:], values)
    return ''.join('%d %d %s\n' % (v, known[v], blank(whys[v]) if x == BLANK else x) for v, x in enumerate(values))


def printed_with_reasons(data):
    """What `reasons` prints: the list of `values`, a blank as `blank:` followed by its reason."""
    return printed(data, lambda why: 'blank:%d' % why)


# ── files that a tool writes ──
def kept(root, want, check, tool):
    """Writes the files that are not as they should be; with check it writes none, and says which are not. True if all is well."""
    import os
    good = True
    for path, data in sorted(want.items()):
        full = os.path.join(root, path)
        have = None
        if os.path.exists(full):
            with open(full, 'rb') as f:
                have = f.read()
        if have == data:
            continue
        good = False
        if check:
            print('%s is %s: run %s' % (path, 'missing' if have is None else 'out of date', tool))
            continue
        os.makedirs(os.path.dirname(full), exist_ok=True)
        with open(full, 'wb') as f:
            f.write(data)
        print('wrote', path)
    return good


MODEL_A = ([25200, 28800, 600, 0, 0, 0],
           [Row(DEPARTURES, 3, [0, 1, 2]), Row(LAST, 4, [0, 1, 2]), Row(LINEAR, 5, [3], [4], 2)])
# two trips of one bus, 40 and 30 minutes long: each begins when the depot opens or where the other ends, as its index says
INTERLINED = ([0, 1, 25200, 0, 0, 0, 0, 0],
              [Row(ELEMENT, 3, [0, 2, 6]), Row(LINEAR, 4, [3], None, 2400), Row(ELEMENT, 5, [1, 2, 4]), Row(LINEAR, 6, [5], None, 1800), Row(MAX, 7, [4, 6])])
