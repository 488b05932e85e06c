"""What the tools share that write vectors: rows that stand in a pool, what is shown of a row, and the files that are written."""
import os
import struct
import sys

from model import BLANK, kept


class Pool:
    """Numbers of which rows are parts. The zeros at its end are not written: a pool that is read has zeros past its end."""

    def __init__(self, code, most):
        self.code, self.most, self.numbers = code, most, []

    def place(self, row):
        """Where a row starts and how long it is; one that does not stand in the pool yet goes to its end."""
        row = list(row)
        starts = range(len(self.numbers) - len(row) + 1)
        start = next((i for i in starts if self.numbers[i:i + len(row)] == row), len(self.numbers))
        self.numbers[start:start + len(row)] = row
        assert len(self.numbers) <= self.most
        return [start, len(row)]

    def data(self):
        return packed_bare(self.code, self.numbers)


def packed_bare(code, numbers):
    """The bytes of numbers, without the zeros at their end."""
    last = max((i for i, x in enumerate(numbers) if x), default=-1)
    return struct.pack('<%d%s' % (last + 1, code), *numbers[:last + 1])


def signed(x):
    return '(%d)' % -x if x < 0 else '%d' % x


def value(x):
    return '-' if x == BLANK else signed(x)


def row(name, xs):
    return '; ' + ' '.join([name] + [value(x) for x in xs])


def written(name, parts, File, files, shown):
    """Writes the vectors of a name: for each part a file of cases in rust/vectors/NAME/data, and the lines that must come out in rust/vectors/NAME/expected;
    with --check it writes nothing, and fails if what stands there is out of date. A part makes its cases in the last of `files`, and puts their lines
    into `shown`."""
    tool, folder = 'tools/' + name, 'rust/vectors/' + name
    if sys.argv[1:] not in ([], ['--check']):
        sys.exit('usage: %s [--check]' % tool)
    want = {}
    for part in parts:
        files.append(File())
        before = len(shown)
        part()
        want['%s/data/%s' % (folder, part.__name__)] = files[-1].data()
        want['%s/expected/%s' % (folder, part.__name__)] = ''.join(line + '\n' for line in shown[before:]).encode()
    check = '--check' in sys.argv
    root = os.path.dirname(os.path.dirname(os.path.abspath(__file__)))
    good = kept(root, want, check, tool) & none_more(root, folder, want, check, tool)
    sys.exit(1 if check and not good else 0)


def none_more(root, folder, want, check, tool):
    """Removes the files of a folder that are not wanted; with check it removes none, and says which they are. True if there is none."""
    have = [os.path.relpath(os.path.join(place, name), root) for place, _, names in os.walk(os.path.join(root, folder)) for name in names]
    more = sorted(set(have) - set(want))
    for path in more:
        if check:
            print('%s is one too many: run %s' % (path, tool))
        else:
            os.remove(os.path.join(root, path))
            print('removed', path)
    return not more
