"""Condensed cube archives from Python, 3.8 or later, with the standard library alone.

An archive has the exact sum and count for every grouping of the codes of bench records. Every answer comes from the calls of
the proved library; this module passes bytes to them, decodes theirs, and reads CSV and legends.

>>> bench = Archive.build([
...     {'chip': 'TC37', 'port': 'P10', 'late': 12},
...     {'chip': 'TC37', 'port': 'P02', 'late': 9},
...     {'chip': 'TC39', 'port': 'P10', 'late': -3}], legend=True)
>>> bench.cell(chip='TC37')
Cell(sum=21, count=2, entry=4)
>>> bench.cell(chip='TC39', port='P02') is None
True
>>> bench.cuboid('port')
[{'port': 'P02', 'sum': 9, 'count': 1}, {'port': 'P10', 'sum': 9, 'count': 2}]

The shared library is the file that the environment variable CUBE_SO names; or libcube_archive.so beside this module; or the one
in ../target, where ./build puts it. A call needs 1 MiB of stack, which threads have unless they are given less.
"""
import array
import codecs
import collections
import ctypes
import os
import re
import struct
import unicodedata

__all__ = ['Archive', 'Cell', 'Counts', 'CubeError', 'Legend', 'RecordError', 'Seen', 'Stop']

ALL = 65535
ROWS = 1024
RECORDS = 1048576
RECORD_BYTES = 1048576

# The characters that are passed over round a field: those that Unicode calls white space.
SPACE = '\t\n\x0b\x0c\r \x85\xa0\u1680\u2028\u2029\u202f\u205f\u3000' + ''.join(map(chr, range(0x2000, 0x200B)))

STOPS = {
    1: 'the first four bytes are missing or are not the opening of such a file',
    2: 'the file ends before the last byte of a field that its earlier fields demand',
    3: 'the number of dimensions is not 1 to 8',
    4: "a dimension's size is not 1 to 65,535",
    5: 'there are more than 1,024 rows or base entries',
    6: "a code in a row or base entry is not below its dimension's size",
    7: 'a base entry does not come strictly after the one before',
    8: 'a base entry has count 0, or a sum that this many readings cannot make, or brings the total count above 1,048,576',
    9: 'a base entry lists more than 70 sets',
    10: 'bytes follow the check word',
    11: 'the check word is wrong',
    12: 'a list, the normal count or a normal entry is not what the base entries require',
    13: "the question, record or window has not one code for each of its dimensions, or a code that is not below its dimension's size",
    14: 'the set has a dimension that the archive has not',
    15: 'the result is longer than the output',
    16: "the dimension is not one of the archive's, which are counted from 1",
    17: 'the two archives have not the same dimensions and sizes',
    18: 'the result has over 1,024 base rows, or a total count over 1,048,576',
    20: "the question has another code than the window at the window's dimension",
    23: 'the fee is above 1,000,000,000 cents',
    24: 'the archive has no base row',
}

Cell = collections.namedtuple('Cell', 'sum count entry')
Counts = collections.namedtuple('Counts', 'bases normals')
Seen = collections.namedtuple('Seen', 'sum count')


class CubeError(Exception):
    """What is wrong, in plain words."""


class Stop(CubeError):
    """A call's refusal, with its number in the documents.

    >>> try:
    ...     Archive(b'FACT')
    ... except Stop as stop:
    ...     print(stop.number, '-', stop)
    1 - stop 1: the first four bytes are missing or are not the opening of such a file
    """

    def __init__(self, number):
        self.number, self.words = number, STOPS[number]
        super().__init__('stop %d: %s' % (number, self.words))


class RecordError(CubeError):
    """What is wrong with records, and where: the line of a file, or the number of a row, both counted from 1."""

    def __init__(self, place, words, unit='line'):
        self.place, self.words = place, words
        super().__init__('%s %d: %s' % (unit, place, words))


# ---- the calls on bytes

def _load():
    here, name = os.path.dirname(os.path.abspath(__file__)), 'libcube_archive.so'
    named = os.environ.get('CUBE_SO')
    places = [named] if named else [os.path.join(here, name), os.path.join(here, '..', 'target', name)]
    found = [place for place in places if os.path.exists(place)]
    if not found:
        raise ImportError('no file %s: run ./build, or name the file in CUBE_SO' % ' or '.join(places))
    return ctypes.CDLL(found[0])


_IN, _OUT = [ctypes.c_char_p, ctypes.c_size_t], [ctypes.c_void_p, ctypes.c_size_t]
_library = _load()
for _name, _arguments in {
        'build': _IN + _OUT, 'check': _IN, 'list_cuboid': _IN + [ctypes.c_uint32] + _OUT, 'expand': _IN + _OUT,
        'look_up': _IN + [ctypes.c_void_p, ctypes.c_size_t] + 3 * [ctypes.c_void_p], 'smallest_keys': _IN + _OUT,
        'fixes': _IN + 2 * [ctypes.c_uint32], 'share_fee': _IN + 2 * [ctypes.c_uint32] + _OUT, 'join': _IN + _IN + _OUT,
        'add': _IN + [ctypes.c_void_p, ctypes.c_size_t, ctypes.c_int32] + _OUT,
        'window': _IN + 2 * [ctypes.c_uint32] + [ctypes.c_void_p, ctypes.c_size_t] + 2 * [ctypes.c_void_p]}.items():
    _function = getattr(_library, 'cube_' + _name)
    _function.argtypes, _function.restype = _arguments, ctypes.c_uint64


def _call(name, *arguments):
    """The number that a call answers; each argument of bytes is followed by its length."""
    words = [word for one in arguments for word in ((one, len(one)) if isinstance(one, bytes) else (one,))]
    answer = getattr(_library, 'cube_' + name)(*words)
    if answer >> 63:
        raise Stop(answer - (1 << 63))
    return answer


def _written(room, name, *arguments):
    """The bytes that a call writes into so much room."""
    out = bytearray(room)
    length = _call(name, *arguments, (ctypes.c_char * room).from_buffer(out), room)
    return bytes(memoryview(out)[:length])


def _archive_room(dims, rows):
    return 20 + 4 * dims + max(rows, 1) * (4 * dims + 16 + ((1 << dims) - 1) * (2 * dims + 6))


def _cuboid_room(dims, rows):
    return 4 + max(rows, 1) * (4 * dims + 12)


def _head(data):
    """The sizes and the base count, or the row count, of a file that a call accepts."""
    dims = struct.unpack_from('<I', data, 4)[0]
    return struct.unpack_from('<%dI' % dims, data, 8), struct.unpack_from('<I', data, 8 + 4 * dims)[0]


def _build(table):
    sizes, rows = _head(table)
    return _written(_archive_room(len(sizes), rows), 'build', table)


def _join(first, second):
    (sizes, rows), (_, others) = _head(first), _head(second)
    return _written(_archive_room(len(sizes), min(rows + others, ROWS)), 'join', first, second)


def _joined(tables):
    """The archive of all rows of tables: two archives of as many tables are joined, so that most are small."""
    stack = []
    for table in tables:
        level, archive = 0, _build(table)
        while stack and stack[-1][0] == level:
            archive, level = _join(stack.pop()[1], archive), level + 1
        stack.append((level, archive))
    archive = stack.pop()[1]
    while stack:
        archive = _join(stack.pop()[1], archive)
    return archive


# ---- archives

class Archive:
    """An archive that was accepted, and its legend if it has one.

    Without a legend dimensions are numbers, counted from 1, and labels are codes:

    >>> five = Archive.build([('chip:7', 'port:6', 'task:3', 'reading'), (0, 1, 1, 50), (1, 1, 1, 100), (2, 3, 1, 60),
    ...                       (4, 5, 1, 70), (6, 5, 2, 80)])
    >>> five
    <Archive of dimensions 1, 2, 3 with sizes 7, 6, 3: 5 base entries, 5 normal entries>
    >>> five.cell({2: 5, 3: 1})
    Cell(sum=70, count=1, entry=3)
    """

    def __init__(self, data, legend=None):
        self._bytes, self.legend = bytes(data), legend
        _call('check', self._bytes)
        self.sizes, self._rows = _head(self._bytes)
        if legend is not None:
            legend.check(self)

    @classmethod
    def open(cls, path, legend=None):
        """The archive of a file, with the legend of this path; or else the one beside it, 'x.legend' for 'x.cube', if there is
        one. With legend=False it has none.

        >>> import os, tempfile
        >>> folder = tempfile.TemporaryDirectory()
        >>> path = os.path.join(folder.name, 'one.cube')
        >>> Archive.build([('chip', 'late'), ('TC37', 5)], legend=True).save(path)
        >>> Archive.open(path).cell(chip='TC37').sum
        5
        >>> Archive.open(path, legend=False).cell({1: 0}).sum
        5
        >>> folder.cleanup()
        """
        if legend is None:
            legend = _beside(path) if os.path.exists(_beside(path)) and _beside(path) != os.fspath(path) else False
        with open(path, 'rb') as file:
            return cls(file.read(), Legend.open(legend) if legend is not False else None)

    @classmethod
    def build(cls, records, legend=None, reading=None, sizes=None):
        """The archive of records, as many as it holds: 1,048,576 with 1,024 different combinations of codes.

        The records are a CSV file, by its path or open for reading, by the rules of docs/COMMAND.md; or dicts; or sequences, of
        which the first is the header. The last column is the reading, or the one that `reading` names. The others
        are dimensions, of sizes that the header ('chip:7') or the dict `sizes` may give.

        Without a legend their fields are codes. With legend=True they are labels and the archive gets a new legend; with the
        path of a legend, or a Legend, that one is extended: a file changes only when `save` writes it.

        >>> import io
        >>> a = Archive.build(io.StringIO('chip,late\\n0,12\\n4,9\\n'))
        >>> b = Archive.build([('chip', 'late'), (4, 9), (0, 12)])
        >>> c = Archive.build([{'chip': 0, 'late': 12}, {'chip': 4, 'late': 9}])
        >>> a == b == c, a.sizes
        (True, (5,))
        >>> Archive.build([{'chip': 'TC37', 'late': 12}])
        Traceback (most recent call last):
            ...
        cube_archive.RecordError: row 1: 'TC37' is no code: a code is a number from 0 to 65534; legend=True keeps labels
        """
        from_file = isinstance(records, (str, os.PathLike))
        with open(records, 'rb') if from_file else _as_it_is(records) as source:
            csv = hasattr(source, 'read')
            table = _Records(_csv_rows(source) if csv else _rows(source), 'line' if csv else 'row', reading, sizes or {})
            if legend is None or legend is False:
                return cls(table.archive(table.codes()))
            legend = Legend.open(legend) if isinstance(legend, (str, os.PathLike)) else None if legend is True else legend
            new, coded = table.labels(legend)
            return cls(table.archive(coded), new)

    def save(self, path):
        """Writes the archive to a file and its legend, if it has one, beside it. Both are written whole before the first of them
        takes its place. There is no lock as in `cube build`: programs that extend one legend must take turns."""
        legend, whole = _beside(path), []
        if self.legend is not None:
            if os.path.exists(legend) and not Legend.open(legend).agrees(self.legend):
                raise CubeError('%s: it stands beside the new archive, but has other labels' % legend)
            whole.append((legend, self.legend.text().encode()))
        elif os.path.exists(legend):
            raise CubeError('%s: it would be taken for the legend of the new archive' % legend)
        _put(whole + [(os.fspath(path), self._bytes)])

    def check(self):
        """Checks every field once more: the numbers of base and of normal entries.

        >>> Archive.build([('a', 'r'), (0, 5), (1, 6)]).check()
        Counts(bases=2, normals=1)
        """
        answer = _call('check', self._bytes)
        return Counts(answer & 0xFFFFFFFF, answer >> 32)

    def cell(self, question=None, /, **labels):
        """One cell: its sum, its count and the entry that carries them; None for 'no record'. A dimension that is not named is
        ALL, and so is one that is None or '*'. Behind a dimension's name comes a label, behind its number a code.

        >>> one = Archive.build([('chip', 'port', 'late'), ('TC37', 'P00', 5)], legend=True)
        >>> one.cell(chip='TC37', port='P00') == one.cell({1: 0, 'port': 'P00'}) == one.cell()
        True
        """
        words = self._words(self._named(question, labels))
        total, count, entry = ctypes.c_int64(), ctypes.c_uint32(), ctypes.c_uint32()
        found = _call('look_up', self._bytes, words, len(words), *map(ctypes.byref, (total, count, entry)))
        return Cell(total.value, count.value, entry.value) if found else None

    def window(self, dimension, label, question=None, /, **labels):
        """One cell through the window of a dimension and a label or code: its sum and count, or None for 'no record', and nothing
        of records outside the window. The question is as in `cell`; one that names the window's dimension must have its code there.

        >>> shared = Archive.build([
        ...     ('chip', 'port', 'late'), ('TC37', 'P00', 5), ('TC37', 'P02', 6), ('TC39', 'P02', 7)], legend=True)
        >>> shared.window('chip', 'TC37', port='P02')
        Seen(sum=6, count=1)
        >>> shared.window('chip', 'TC37') == shared.window('chip', 'TC37', chip='TC37') == (11, 2)
        True
        """
        place = self._place(dimension)
        code = self._code(dimension, place, label)
        words = self._words({place: code, **self._named(question, labels)})
        total, count = ctypes.c_int64(), ctypes.c_uint32()
        found = _call('window', self._bytes, place + 1, code, words, len(words), *map(ctypes.byref, (total, count)))
        return Seen(total.value, count.value) if found else None

    def cuboid(self, *dimensions):
        """The cells of a set of dimensions, by codes: a dict of each one's labels, 'sum' and 'count'. Dimensions are keys by
        their names; one that is called 'sum' or 'count', by its number. Without any, the cell of all records.

        >>> Archive.build([('a', 'b', 'r'), (0, 5, 1), (1, 5, 2)]).cuboid(2)
        [{2: 5, 'sum': 3, 'count': 2}]
        """
        places = sorted({self._place(dimension) for dimension in dimensions})
        return [self._dict(places, cell) for cell in self._cells(places)]

    def expand(self):
        """Every cell of the complete cube, each a dict as in `cuboid`, with None for ALL. Sets of fewer dimensions come first.

        >>> for cell in Archive.build([('a', 'r'), (0, 5), (1, 6)]).expand():
        ...     print(cell)
        {1: None, 'sum': 11, 'count': 2}
        {1: 0, 'sum': 5, 'count': 1}
        {1: 1, 'sum': 6, 'count': 1}
        """
        dims = len(self.sizes)
        data = _written(_cuboid_room(dims, self._rows) << dims, 'expand', self._bytes)
        cells, at, every = [], 0, range(dims)
        for _ in range(1 << dims):
            listed, at = _listed(data, at, dims)
            cells.extend(self._dict(every, cell) for cell in listed)
        return cells

    def keys(self):
        """The smallest keys, each a tuple of dimensions: no two base rows agree on it, and it holds no other key.

        >>> Archive.build([('a', 'b', 'r'), (0, 5, 1), (1, 5, 2)]).keys()
        [(1,)]
        """
        data = _written(4 + 4 * 70, 'smallest_keys', self._bytes)
        names = self.names
        return [tuple(names[place] for place in _places(key)) for key, in struct.iter_unpack('<I', data[4:])]

    def fixes(self, dimensions, dimension):
        """Whether base rows that agree on some dimensions, one or a list of them, agree on another one too.

        >>> archive = Archive.build([('a', 'b', 'r'), (0, 5, 1), (1, 5, 2)])
        >>> archive.fixes([1], 2), archive.fixes(2, 1)
        (True, False)
        """
        one = isinstance(dimensions, (str, int))
        return _call('fixes', self._bytes, self._set([dimensions] if one else dimensions), self._place(dimension) + 1) == 1

    def fee(self, cents, *dimensions):
        """A fee in cents, shared over the cells of a set by their counts: a dict of each cell's labels, 'count' and 'cents'.

        >>> Archive.build([('a', 'r'), (0, 5), (0, 6), (1, 7)]).fee(100, 1)
        [{1: 0, 'count': 2, 'cents': 67}, {1: 1, 'count': 1, 'cents': 33}]
        """
        places = sorted({self._place(dimension) for dimension in dimensions})
        fee = cents if 0 <= cents < 1 << 32 else (1 << 32) - 1
        data = _written(4 + 4 * self._rows, 'share_fee', self._bytes, fee, sum(1 << place for place in places))
        shares = [share for share, in struct.iter_unpack('<I', data[4:])]
        cells = []
        for cell, share in zip(self._cells(places), shares):
            cells.append(self._dict(places, cell))
            del cells[-1]['sum']
            cells[-1]['cents'] = share
        return cells

    def join(self, *others):
        """This archive and others of the same dimensions and sizes as one. If one has a legend all have, and they agree.

        >>> a, b = (Archive.build([('chip:3', 'late'), (0, n)]) for n in (5, 6))
        >>> a.join(b).cell({1: 0})
        Cell(sum=11, count=2, entry=0)
        """
        data, legend = self._bytes, self.legend
        for other in others:
            if (legend is None) != (other.legend is None):
                raise CubeError('one of the archives has a legend, and another has none')
            if legend is not None:
                legend = legend.longer(other.legend)
            data = _join(data, other._bytes)
        return Archive(data, legend)

    def add(self, reading, record=None, /, **labels):
        """This archive with one late record added: its reading, and as in `cell` a label or a code for each dimension.

        >>> closed = Archive.build([('chip', 'port', 'late'), ('TC37', 'P00', 5), ('TC39', 'P02', 7)], legend=True)
        >>> closed.add(-8, chip='TC37', port='P02').cell(port='P02')
        Cell(sum=-1, count=2, entry=5)
        """
        number = _reading(reading)
        if number is None:
            raise CubeError(NO_READING % _quoted(reading))
        words = self._words(self._named(record, labels))
        if ALL in words:
            raise CubeError('dimension %s is missing: a record has a code for each' % _quoted(self.names[list(words).index(ALL)]))
        room = _archive_room(len(self.sizes), min(self._rows + 1, ROWS))
        return Archive(_written(room, 'add', self._bytes, words, len(words), number), self.legend)

    def totals(self, *dimensions):
        """The cells of each dimension added up, beside the grand total: a record that was lost or counted twice makes them differ.

        >>> Archive.build([('a', 'r'), (0, 5), (1, 6)]).totals()
        [{'dimension': 1, 'cells': 2, 'sum': 11, 'count': 2, 'sum in all': 11, 'count in all': 2, 'equal': True}]
        """
        everything = self.cell()
        lines = []
        for place in map(self._place, dimensions or self.names):
            cells = self._cells([place])
            total, count = sum(cell[-2] for cell in cells), sum(cell[-1] for cell in cells)
            lines.append({
                'dimension': self.names[place], 'cells': len(cells), 'sum': total, 'count': count, 'sum in all': everything.sum,
                'count in all': everything.count, 'equal': (total, count) == everything[:2]})
        return lines

    @property
    def names(self):
        """The dimensions: names, or without a legend numbers counted from 1."""
        return [dimension.name for dimension in self.legend.dimensions] if self.legend else list(range(1, len(self.sizes) + 1))

    def __bytes__(self):
        return self._bytes

    def __eq__(self, other):
        return isinstance(other, Archive) and self._bytes == other._bytes

    def __hash__(self):
        return hash(self._bytes)

    def __repr__(self):
        bases, normals = self.check()
        names, sizes = (', '.join(map(str, words)) for words in (self.names, self.sizes))
        return '<Archive of dimensions %s with sizes %s: %d base entries, %d normal entries>' % (names, sizes, bases, normals)

    def _place(self, dimension):
        """The place of a dimension, counted from 0, by its name or by its number counted from 1."""
        if isinstance(dimension, int) and 1 <= dimension <= len(self.sizes):
            return dimension - 1
        if isinstance(dimension, str) and self.legend and dimension in self.names:
            return self.names.index(dimension)
        known = ', '.join(map(str, self.names)) + (', or 1 to %d' % len(self.sizes) if self.legend else '; names are in a legend')
        raise CubeError('there is no dimension %s: the dimensions are %s' % (_quoted(dimension), known))

    def _set(self, dimensions):
        return sum(1 << place for place in {self._place(dimension) for dimension in dimensions})

    def _named(self, question, labels):
        """The code of each dimension that is named, or ALL, by the dimension's place."""
        named = {}
        for dimension, label in [*(question or {}).items(), *labels.items()]:
            place = self._place(dimension)
            if place in named:
                raise CubeError('dimension %s is asked for twice' % _quoted(dimension))
            named[place] = ALL if label is None or label == '*' else self._code(dimension, place, label)
        return named

    def _words(self, named):
        """A question as the calls take it: the code of each dimension, ALL where it has none."""
        return (ctypes.c_uint32 * len(self.sizes))(*(named.get(place, ALL) for place in range(len(self.sizes))))

    def _code(self, dimension, place, label):
        """The code in a question. One that no dimension has is passed on as a value that the call refuses."""
        if isinstance(dimension, int):
            if not isinstance(label, int):
                raise CubeError('%s is no code: behind a number comes a number, behind a name a label' % _quoted(label))
            return label if 0 <= label < ALL else (1 << 32) - 1
        code = self.legend.dimensions[place].codes.get(label)
        if code is None:
            raise CubeError('dimension %s has no label %s' % (_quoted(dimension), _quoted(label)))
        if code >= self.sizes[place]:
            raise CubeError('label %s is newer than this archive, which has no record of it' % _quoted(label))
        return code

    def _cells(self, places):
        """The cells of a set: each its codes or ALL, its sum and its count."""
        dims, chosen = len(self.sizes), sum(1 << place for place in places)
        return _listed(_written(_cuboid_room(dims, self._rows), 'list_cuboid', self._bytes, chosen), 0, dims)[0]

    def _dict(self, places, cell):
        names = self.names
        key = [place + 1 if names[place] in ('sum', 'count') else names[place] for place in range(len(names))]
        labels = {key[place]: self._label(place, cell[place]) for place in places}
        labels.update(sum=cell[-2], count=cell[-1])
        return labels

    def _label(self, place, code):
        return None if code == ALL else self.legend.dimensions[place].labels[code] if self.legend else code


def _put(files):
    """Writes files whole, each beside its name, and then gives them their names, in this order. A failure leaves no part behind."""
    parts = []
    try:
        for name, data in files:
            with open('%s.%d.part' % (name, os.getpid()), 'xb') as file:
                parts.append(file.name)
                file.write(data)
                file.flush()
                os.fsync(file.fileno())
        for part, (name, _) in zip(parts, files):
            os.replace(part, name)
    finally:
        for part in filter(os.path.exists, parts):
            os.remove(part)


def _listed(data, at, dims):
    """The cells that are listed there, and where they end."""
    form = struct.Struct('<%dIqI' % dims)
    count = struct.unpack_from('<I', data, at)[0]
    end = at + 4 + count * form.size
    return list(form.iter_unpack(data[at + 4:end])), end


def _places(number):
    return [place for place in range(8) if number >> place & 1]


# ---- records

class _as_it_is:
    """A source that whoever opened it closes."""

    def __init__(self, source):
        self.source = source

    def __enter__(self):
        return self.source

    def __exit__(self, *_):
        pass


def _rows(source):
    """Rows with their numbers, of which the first is the header. A dict is a row by its header's order."""
    header = None
    for place, row in enumerate(source, 1):
        if isinstance(row, dict):
            if header is None:
                header = list(row)
                yield 1, header
            if set(row) != set(header):
                raise RecordError(place, 'its keys are not those of the first row', 'row')
            row = [row[name] for name in header]
        yield place, list(row)


def _csv_rows(file):
    """The lines of a file, of bytes or of text, that are not blank, each with the number of its first line, as fields. A field in
    quotes goes on to further lines as long as the quotes so far are odd in number. What is too long is read no further."""
    line, record, quotes = 1, bytearray(), 0
    while True:
        piece = file.readline(RECORD_BYTES + 1 - len(record))
        piece = piece.encode() if isinstance(piece, str) else piece
        record += piece
        quotes += piece.count(b'"')
        if len(record) > RECORD_BYTES:
            # One byte more may be the second of two quotes.
            more = record.count(b'"', 0, RECORD_BYTES + 1) % 2
            yield from _fields(line, record[:RECORD_BYTES + more], cut=True)
        if not piece or piece.endswith(b'\n') and quotes % 2 == 0:
            yield from _fields(line, record)
            line, record, quotes = line + record.count(b'\n'), bytearray(), 0
        if not piece:
            return


def _fields(line, record, cut=False):
    """The fields of a line, if it is not blank; a field in quotes may go on to further lines. Of a record that is too long this is
    the beginning, cut, and the error is the first fault there, or its length."""
    try:
        text = codecs.utf_8_decode(record, 'strict', not cut)[0]
    except UnicodeDecodeError as error:
        raise RecordError(line + record.count(b'\n', 0, error.start), 'this is no UTF-8 text') from None
    if line == 1 and text.startswith('\ufeff'):
        text = text[1:]
    bare = text.strip(SPACE)
    plain = '"' not in bare and '\r' not in bare
    fields = [field.strip(SPACE) for field in text.split(',')] if plain else _parted(line, text, cut)
    if cut:
        raise RecordError(line, 'this record has more than the %d bytes that a record may have' % RECORD_BYTES)
    if bare:
        yield line, fields


_QUOTE, _PLAIN = re.compile('[ \t]*"'), re.compile('[^,\n]*')


def _parted(line, text, cut):
    """The fields of a text that begins in this line and may have some in quotes."""
    fields, end = [], -1
    while not fields or text[end:end + 1] == ',':
        start = end + 1
        quote = _QUOTE.match(text, start)
        quoted, at = _unquoted(text, quote.end()) if quote else (None, start)
        if quote and quoted is None:
            within = ' within the %d bytes that a record may have' % RECORD_BYTES if cut else ''
            raise RecordError(line, 'a quoted field has no closing quote' + within)
        end = _PLAIN.match(text, at).end()
        field = text[at:end].strip(SPACE)
        line += text.count('\n', start, end)
        if quote and field or '"' in field:
            advice = 'put the whole field in quotes, and write each quote in it twice'
            raise RecordError(line, 'a quote or text beside one, %s: %s' % (_quoted(field), advice))
        if '\r' in field:
            raise RecordError(line, 'a carriage return within a line: lines end with LF or CRLF')
        fields.append(quoted if quote else field)
    return fields


def _unquoted(text, start):
    """The text of a quoted field from there on and where its closing quote ends, or None if there is none."""
    end = text.find('"', start)
    while text[end:end + 2] == '""':
        end = text.find('"', end + 2)
    return (text[start:end].replace('""', '"'), end + 1) if end >= 0 else (None, start)


def _number(field, least, most, form='[0-9]+'):
    """The number that a field is, if it is one from least to most. It may have any number of zeros in front."""
    if isinstance(field, str):
        digits = field.lstrip('+-0') or '0'
        if len(digits) > 10 or not re.fullmatch(form, field):
            return None
        field = int(field[0] + digits if field[0] in '+-' else digits)
    return field if isinstance(field, int) and least <= field <= most else None


NO_READING = '%s is no reading: a reading is a number from -2147483648 to 2147483647'


def _reading(field):
    """The reading that a field is, if it is one."""
    return _number(field, -1 << 31, (1 << 31) - 1, '[+-]?[0-9]+')


def _quoted(value):
    """A value as messages quote it: of a long text the first 60 characters, and '..' behind the quotes."""
    if isinstance(value, int) and abs(value) >= 10 ** 60:
        return 'a number of more than 60 digits'
    return repr(value[:60]) + '..' if isinstance(value, str) and len(value) > 60 else repr(value)


def _is_name(name):
    control = any(unicodedata.category(sign) == 'Cc' for sign in name)
    return bool(name) and name[0] not in '0123456789+-' and not control and '=' not in name and ',' not in name


class _Records:
    """The columns of records, and the records as they are asked for."""

    def __init__(self, rows, unit, reading, sizes):
        self.rows, self.unit = rows, unit
        self.line, header = next(rows, (1, None))
        if header is None:
            raise self.error(1, 'there is no header: the first one names the columns')
        self.names, self.sizes = [], []
        for heading in header:
            self.add_column(*str(heading).rpartition(':'))
        if reading is not None and reading not in self.names:
            raise self.error(self.line, 'no column is named %s, which was to be the reading' % _quoted(reading))
        self.reading = len(self.names) - 1 if reading is None else self.names.index(reading)
        if self.sizes.pop(self.reading) is not None or self.names.pop(self.reading) in sizes:
            raise self.error(self.line, "the reading's column has no size: only dimensions have one")
        self.give_sizes(sizes)
        if not 1 <= len(self.names) <= 8:
            raise self.error(self.line, '%d dimensions: there are 1 to 8' % len(self.names))

    def add_column(self, name, colon, size):
        """Takes in the column of a heading, `name` or `name:size`."""
        name, size = (name.strip(SPACE), size.strip(SPACE)) if colon else (size.strip(SPACE), None)
        if not _is_name(name) or name in self.names:
            raise self.error(self.line, '%s is no column name, or a second one' % _quoted(name))
        given = _number(size, 1, ALL) if colon else None
        if colon and given is None:
            raise self.error(self.line, '%s is no size: a size is a number from 1 to 65535' % _quoted(size))
        self.names.append(name)
        self.sizes.append(given)

    def give_sizes(self, sizes):
        """Gives dimensions the sizes of a dict, in place of the header's."""
        self.sizes = [sizes.get(name, size) for name, size in zip(self.names, self.sizes)]
        if any(name not in self.names for name in sizes) or any(size is not None and not 1 <= size <= ALL for size in self.sizes):
            raise self.error(self.line, 'sizes are numbers from 1 to 65535 for columns that there are')

    def error(self, place, words):
        return RecordError(place, words, self.unit)

    def grouped(self, coded):
        """The readings of each combination of codes; `coded` makes the codes of a record's place and fields. Fields of a file are
        text, and what they were coded as is remembered."""
        groups, count, known = {}, 0, {}
        for place, fields in self.rows:
            if len(fields) != len(self.names) + 1:
                raise self.error(place, 'expected %d fields, found %d' % (len(self.names) + 1, len(fields)))
            field = fields.pop(self.reading)
            reading = _reading(field)
            if reading is None:
                raise self.error(place, NO_READING % _quoted(field))
            count += 1
            key = tuple(fields) if self.unit == 'line' else None
            codes = known.get(key)
            if codes is None:
                codes = coded(place, fields)
                if key:
                    known[key] = codes
            if count > RECORDS:
                more = 'those before it have %d different combinations of codes' % len(groups)
                raise self.error(place, 'one record more than the %d that an archive holds; %s' % (RECORDS, more))
            if codes not in groups and len(groups) == ROWS:
                raise self.error(place, 'one different combination of codes more than the %d that an archive holds' % ROWS)
            groups.setdefault(codes, array.array('i')).append(reading)
        return groups

    def codes(self):
        """The readings by codes; sizes that are not given are the least that the codes allow."""
        def coded(place, fields):
            codes = tuple([_number(field, 0, ALL - 1) for field in fields])
            for field, code, size in zip(fields, codes, self.sizes):
                if code is None:
                    what = 'is no code: a code is a number from 0 to 65534; legend=True keeps labels'
                    raise self.error(place, '%s %s' % (_quoted(field), what))
                if size is not None and code >= size:
                    raise self.error(place, 'code %d is not below its size %d' % (code, size))
            return codes
        groups = self.grouped(coded)
        largest = [max(codes) for codes in zip(*groups)] or [0] * len(self.sizes)
        self.sizes = [size or code + 1 for size, code in zip(self.sizes, largest)]
        return groups

    def labels(self, legend):
        """A legend with the labels of the records, and their readings by its codes."""
        def coded(place, fields):
            for field in fields:
                if not isinstance(field, (str, int)) or field == '*':
                    raise self.error(place, '%s is no label: a label is any text but *' % _quoted(field))
            return tuple(map(str, fields))
        groups = self.grouped(coded)
        legend = Legend(HEAD, [Dimension(name) for name in self.names]) if legend is None else legend.copy()
        if sorted(dimension.name for dimension in legend.dimensions) != sorted(self.names):
            names = self.names, [dimension.name for dimension in legend.dimensions]
            listed = tuple(', '.join(map(_quoted, each)) for each in names)
            raise self.error(self.line, "the columns are %s, but the legend's dimensions are %s" % listed)
        places = [self.names.index(dimension.name) for dimension in legend.dimensions]
        for dimension, place in zip(legend.dimensions, places):
            dimension.take_in({labels[place] for labels in groups}, self.sizes[place])
        self.sizes = [dimension.sizes[-1] for dimension in legend.dimensions]
        pairs = list(zip(legend.dimensions, places))
        by_code = (tuple(dimension.codes[labels[place]] for dimension, place in pairs) for labels in groups)
        return legend, dict(zip(by_code, groups.values()))

    def archive(self, groups):
        """The archive of readings by codes, in tables of 1,024 records."""
        rows = ((codes, reading) for codes in sorted(groups) for reading in groups[codes])
        return _joined(self.tables(rows))

    def tables(self, rows):
        part = []
        for row in rows:
            if len(part) == ROWS:
                yield self.table(part)
                part = []
            part.append(row)
        yield self.table(part)

    def table(self, rows):
        words = [0x54434146, len(self.sizes), *self.sizes, len(rows)]
        for codes, reading in rows:
            words.extend(codes)
            words.append(reading & 0xFFFFFFFF)
        words.append(sum(words) & 0xFFFFFFFF)
        return struct.pack('<%dI' % len(words), *words)


# ---- legends

TITLE = 'Legend of condensed cube archives, form 1'
HEAD = TITLE + r'''

The dimensions follow in the order that the archives have them. Each has its name, its sizes (the size it has now is the
last, those before it are sizes it had), and a line for each code: the code and its label. A code keeps its label for ever;
new labels come behind the others. Signs in labels: \\ is a backslash, \t a tab, \n and \r line ends, \s a space at the
beginning or end, \u{1b} the character with that hexadecimal number. Notes may be written here, above the first dimension.
'''


def _beside(path):
    return os.path.splitext(os.fspath(path))[0] + '.legend'


_SIGNS = {'\\': '\\\\', '\t': '\\t', '\n': '\\n', '\r': '\\r'}
_LETTERS = {'\\': '\\', 't': '\t', 'n': '\n', 'r': '\r', 's': ' '}


def _escaped(label):
    def sign(i, c):
        if c == ' ':
            return '\\s' if i in (0, len(label) - 1) else c
        return _SIGNS.get(c) or ('\\u{%x}' % ord(c) if c in SPACE or unicodedata.category(c) == 'Cc' else c)
    return ''.join(sign(i, c) for i, c in enumerate(label))


def _unescaped(text):
    def sign(match):
        return chr(int(match.group(1), 16)) if match.group(1) else _LETTERS[match.group(2)]
    try:
        label = re.sub(r'\\(?:u\{([0-9a-fA-F]+)\}|(.?))', sign, text, flags=re.S)
        label.encode()
        return label
    except (KeyError, ValueError, OverflowError):
        raise CubeError(r'a backslash that begins none of the signs \\ \t \n \r \s \u{..}') from None


class Dimension:
    """A dimension of a legend: its name, the sizes it has had, and its labels in the order of their codes."""

    def __init__(self, name, sizes=(), labels=()):
        self.name, self.sizes, self.labels = name, list(sizes), list(labels)
        self.codes = {label: code for code, label in enumerate(self.labels)}

    def take_in(self, labels, given):
        """Takes in labels, new ones in the order of their bytes. The size grows as far as it must, or to the one that is given."""
        new = sorted(labels - self.codes.keys(), key=str.encode)
        if len(self.labels) + len(new) > ALL:
            raise CubeError('dimension %s has no code left for %s' % (_quoted(self.name), _quoted(new[ALL - len(self.labels)])))
        for label in new:
            self.codes[label] = len(self.labels)
            self.labels.append(label)
        needed = max(self.sizes[-1] if self.sizes else 1, len(self.labels))
        if given is not None and given < needed:
            what = 'is given the size %d, but its labels and its size so far need %d' % (given, needed)
            raise CubeError('dimension %s %s' % (_quoted(self.name), what))
        if not self.sizes or self.sizes[-1] != (given or needed):
            self.sizes.append(given or needed)

    def add(self, line):
        """Takes in a line of the legend: its sizes, or the next code and its label."""
        if line.startswith('sizes ') and not self.sizes:
            self.sizes = [_number(size, 1, ALL) for size in re.split('[%s]+' % SPACE, line[6:].strip(SPACE))]
            if None in self.sizes or sorted(set(self.sizes)) != self.sizes:
                raise CubeError('sizes are rising numbers from 1 to 65535')
            return
        code, label = re.fullmatch('([^ \t]*)[ \t]?(.*)', line, re.S).groups()
        if code != str(len(self.labels)):
            raise CubeError('expected code %d and its label, found %s' % (len(self.labels), _quoted(line)))
        if not self.sizes or len(self.labels) >= self.sizes[-1]:
            raise CubeError('code %s is not below the size of dimension %s' % (code, _quoted(self.name)))
        label = _unescaped(label.strip(SPACE))
        if label == '*' or label in self.codes:
            raise CubeError('label %s stands for ALL, or is that of another code too' % _quoted(label))
        self.codes[label] = len(self.labels)
        self.labels.append(label)

    def text(self):
        lines = ['%d\t%s' % (code, _escaped(label)) for code, label in enumerate(self.labels)]
        head = ['', 'dimension ' + _escaped(self.name), 'sizes ' + ' '.join(map(str, self.sizes))]
        return ''.join(line.rstrip(SPACE) + '\n' for line in head + lines)


class Legend:
    """The names of dimensions and the labels of codes; docs/LEGEND.md has its form.

    >>> legend = Archive.build([('chip', 'late'), ('TC37', 5), ('TC27', 6)], legend=True).legend
    >>> legend.dimensions[0].name, legend.dimensions[0].labels
    ('chip', ['TC27', 'TC37'])
    >>> Legend.parse(legend.text()).agrees(legend)
    True
    """

    def __init__(self, head, dimensions):
        self.head, self.dimensions = head, dimensions

    @classmethod
    def open(cls, path):
        with open(path, 'rb') as file:
            data = file.read()
        try:
            return cls.parse(data.decode('utf-8-sig'))
        except (CubeError, UnicodeDecodeError) as error:
            raise CubeError('%s: %s' % (path, error)) from None

    @classmethod
    def parse(cls, text):
        """The legend that a text is. The error says what is wrong, and in which line."""
        lines = [line[:-1] if line.endswith('\r') else line for line in text.split('\n')]
        if lines[0].rstrip(SPACE) != TITLE:
            raise CubeError('line 1: a legend begins with the line %r' % TITLE)
        above = next((i for i, line in enumerate(lines) if line.startswith('dimension ')), len(lines))
        legend = cls('\n'.join(lines[:above]).rstrip(SPACE) + '\n', [])
        for number, line in enumerate(lines[above:], above + 1):
            try:
                legend.add(line.strip(SPACE))
            except CubeError as error:
                raise CubeError('line %d: %s' % (number, error)) from None
        if not legend.dimensions or not all(dimension.sizes for dimension in legend.dimensions):
            raise CubeError('there is no dimension, or one has no line with its sizes')
        return legend

    def add(self, line):
        if line.startswith('dimension '):
            name = _unescaped(line[10:].strip(SPACE))
            if not _is_name(name) or name != name.strip(SPACE) or any(dimension.name == name for dimension in self.dimensions):
                raise CubeError('%s is no name of a dimension, or a second one' % _quoted(name))
            self.dimensions.append(Dimension(name))
        elif line:
            self.dimensions[-1].add(line)

    def text(self):
        return self.head + ''.join(dimension.text() for dimension in self.dimensions)

    def copy(self):
        return Legend(self.head, [Dimension(one.name, one.sizes, one.labels) for one in self.dimensions])

    def check(self, archive):
        """Refuses an archive that the legend does not fit: of other dimensions, sizes it never had, or codes without a label."""
        if len(archive.sizes) != len(self.dimensions):
            raise CubeError('the legend has %d dimensions, the archive %d' % (len(self.dimensions), len(archive.sizes)))
        cells = archive._cells(range(len(archive.sizes)))
        for place, (dimension, size) in enumerate(zip(self.dimensions, archive.sizes)):
            if size not in dimension.sizes:
                raise CubeError("dimension %s has never had the archive's size %d" % (_quoted(dimension.name), size))
            for cell in cells:
                if cell[place] != ALL and cell[place] >= len(dimension.labels):
                    raise CubeError('dimension %s has no label for code %d' % (_quoted(dimension.name), cell[place]))

    def agrees(self, other):
        """Whether each gives every code that both have the same label, in dimensions of the same names."""
        pairs = list(zip(self.dimensions, other.dimensions))
        alike = all(a.name == b.name and all(x == y for x, y in zip(a.labels, b.labels)) for a, b in pairs)
        return alike and len(self.dimensions) == len(other.dimensions)

    def longer(self, other):
        """The legend that has the labels of both."""
        if not self.agrees(other):
            raise CubeError('the legends of the archives give a code different labels')
        longest = [max(pair, key=lambda one: (len(one.labels), len(one.sizes))) for pair in zip(self.dimensions, other.dimensions)]
        sizes = [sorted({*a.sizes, *b.sizes}) for a, b in zip(self.dimensions, other.dimensions)]
        return Legend(self.head, [Dimension(one.name, had, one.labels) for one, had in zip(longest, sizes)])
