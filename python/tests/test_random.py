"""The module held to `cube --csv` on random tables, with codes and with labels."""
import random
import re
import unittest

import command
from cube_archive import Archive, CubeError, Legend, RecordError

LABELS = [
    '', ' ', 'a', 'B', 'a b', ' c', 'd ', 'x,y', '"', 'say "no"', 'line\nend', '\t', '\\', '\\n', 'ä', 'Ä', '日本', '\U0001f980', '0',
    '00', '-1', 'sizes 3', 'dimension x', '\x1b[31m', '\u2028', '\xa0', '\x1f', '**', '1 \t\n']


def quoted(field):
    return '"%s"' % field.replace('"', '""')


class Table:
    """Random records, with few codes or many, few rows or many."""

    def __init__(self, seed, rows=40, labels=False):
        draw = random.Random(seed)
        self.dims = 1 + seed % 8
        self.names = ['d%d' % i for i in range(self.dims)]
        if labels and seed % 3 == 0:
            self.names[0] = draw.choice(['sum', 'count', 'wide name', 'ä'])
        choices = [draw.choice([1, 2, 3, 9]) for _ in self.names]
        code = lambda: str(draw.randrange(draw.choice([9, 65535])))
        fields = [draw.sample(LABELS, n) if labels else [code() for _ in range(n)] for n in choices]
        reading = lambda: draw.choice([0, -1, 2**31 - 1, -2**31, draw.randrange(-100, 100)])
        combinations = [[draw.choice(kinds) for kinds in fields] for _ in range(1000)]
        self.rows = [draw.choice(combinations) + [str(reading())] for _ in range(draw.randrange(rows + 1))]
        self.draw = draw

    def csv(self):
        header = self.names + ['reading']
        return ''.join(','.join(map(quoted, row)) + '\n' for row in [header] + self.rows)


def text(value):
    return '*' if value is None else str(value)


class Held(unittest.TestCase):
    def hold(self, folder, archive, draw, legend):
        """Every answer is that of the command."""
        ask = lambda command, *words: folder.answer(command, 'x.cube', *words, *legend)
        names, dims = archive.names, len(archive.sizes)
        self.assertEqual([list(map(str, archive.check()))], ask('check'))
        self.assertEqual([[text(value) for value in cell.values()] for cell in archive.expand()], ask('expand'))
        self.assertEqual([','.join(map(str, key)) for key in archive.keys()], [''.join(line) for line in ask('keys')])
        wanted = [[str(line[key]) for key in line if key != 'equal'] + ['yes'] for line in archive.totals() if line['equal']]
        self.assertEqual(wanted, ask('totals'))
        for _ in range(3):
            chosen = sorted(draw.sample(range(dims), draw.randrange(dims + 1)))
            word = ','.join(str(place + 1) for place in chosen)
            dimensions = [draw.choice([place + 1, names[place]]) for place in chosen]
            self.assertEqual([[text(value) for value in cell.values()] for cell in archive.cuboid(*dimensions)], ask('cuboid', word))
            one = draw.randrange(dims)
            self.assertEqual('yes' if archive.fixes(dimensions, one + 1) else 'no', ask('fixes', word, one + 1)[0][2])
            if archive.check().bases:
                self.assertEqual([list(map(text, cell.values())) for cell in archive.fee(12345, *dimensions)], ask('fee', 12345, word))
            codes = {place + 1: draw.randrange(min(archive.sizes[place], 4)) for place in chosen}
            cell = archive.cell(codes)
            words = ['%d=%d' % pair for pair in codes.items()]
            self.assertEqual(['', '', ''] if cell is None else list(map(str, cell)), ask('cell', *words)[0][dims:])
            code = draw.randrange(min(archive.sizes[one], 4))
            seen = archive.window(one + 1, code, {**codes, one + 1: code})
            self.assertEqual(seen, archive.window(one + 1, code, {place: codes[place] for place in codes if place != one + 1}))
            words = ['%d=%d' % pair for pair in {**codes, one + 1: code}.items()]
            self.assertEqual(['', ''] if seen is None else list(map(str, seen)), ask('window', '%d=%d' % (one + 1, code), *words)[0][dims:])
        self.hold_late_record(folder, archive, draw, legend)
        for cell in draw.sample(archive.expand(), min(20, len(archive.expand()))):
            question = dict(zip(names, cell.values()))
            self.assertEqual(archive.cell(question)[:2], (cell['sum'], cell['count']))

    def hold_late_record(self, folder, archive, draw, legend):
        """A record added is that of the command; one with a code that has no label is refused by both."""
        record = {place: draw.randrange(min(size, 4)) for place, size in enumerate(archive.sizes, 1)}
        reading = draw.choice([-2**31, 2**31 - 1, draw.randrange(-9, 9)])
        status, _, error = folder.run('add', 'x.cube', reading, *('%d=%d' % pair for pair in record.items()), *legend, '-o', 'late')
        if archive.legend and any(code >= len(archive.legend.dimensions[place - 1].labels) for place, code in record.items()):
            self.assertEqual(status, 1)
            self.assertRaisesRegex(CubeError, 'has no label for code', archive.add, reading, record)
        else:
            self.assertEqual((status, error), (0, ''))
            self.assertEqual(bytes(archive.add(reading, record)), folder.read('late'))

    def test_codes(self):
        for seed in range(32):
            with self.subTest(seed=seed), command.Folder() as folder:
                table = Table(seed)
                path = folder.write('x.csv', table.csv())
                self.assertEqual(folder.run('build', 'x.csv', '-o', 'x.cube'), (0, '', ''))
                archive = Archive.open(folder.path('x.cube'))
                self.assertEqual(bytes(Archive.build(path)), folder.read('x.cube'))
                rows = [table.names + ['reading']] + [list(map(int, row)) for row in table.rows]
                self.assertEqual(Archive.build(rows), archive)
                if table.rows:
                    self.assertEqual(Archive.build(dict(zip(rows[0], row)) for row in rows[1:]), archive)
                self.hold(folder, archive, table.draw, [])

    def test_labels(self):
        for seed in range(32):
            with self.subTest(seed=seed), command.Folder() as folder:
                table = Table(seed, labels=True)
                path = folder.write('x.csv', table.csv())
                self.assertEqual(folder.run('build', 'x.csv', '--legend', 'l', '-o', 'x.cube'), (0, '', ''))
                archive = Archive.build(path, legend=True)
                self.assertEqual(bytes(archive), folder.read('x.cube'))
                self.assertEqual(archive.legend.text().encode(), folder.read('l'))
                self.assertEqual(Legend.open(folder.path('l')).text().encode(), folder.read('l'))
                self.hold(folder, Archive.open(folder.path('x.cube'), folder.path('l')), table.draw, ['--legend', 'l'])

    def test_a_legend_that_grows(self):
        for seed in range(8):
            with self.subTest(seed=seed), command.Folder() as folder:
                legend = None
                for part in range(3):
                    table = Table(seed + 100 * part, labels=True)
                    table.names = ['d%d' % i for i in range(table.dims)]
                    path = folder.write('x.csv', table.csv())
                    status, _, error = folder.run('build', 'x.csv', '--legend', 'l', '-o', 'x.cube')
                    if seed % 8 + 1 != table.dims:
                        self.assertEqual(status, 1)
                        self.assertRaisesRegex(RecordError, "but the legend's dimensions are", Archive.build, path, legend)
                        continue
                    self.assertEqual(status, 0, error)
                    archive = Archive.build(path, legend=legend or True)
                    legend = archive.legend
                    self.assertEqual((bytes(archive), legend.text().encode()), (folder.read('x.cube'), folder.read('l')))

    def test_joined(self):
        for seed in range(16):
            with self.subTest(seed=seed), command.Folder() as folder:
                archives = []
                for part in range(4):
                    table = Table(seed)
                    rows = [table.names + ['reading']] + table.rows[part::4]
                    archives.append(Archive.build(rows, sizes={name: 65535 for name in table.names}))
                    folder.write('%d.cube' % part, bytes(archives[part]))
                self.assertEqual(folder.run('join', '0.cube', '1.cube', '2.cube', '3.cube', '-o', 'x.cube'), (0, '', ''))
                a, b, c, d = archives
                self.assertEqual(bytes(a.join(b, c, d)), folder.read('x.cube'))
                self.assertEqual(d.join(b).join(c.join(a)), a.join(b, c, d))
                whole = Archive.build([table.names + ['reading']] + table.rows, sizes={name: 65535 for name in table.names})
                self.assertEqual(a.join(b, c, d), whole)

    def test_text_of_any_kind(self):
        """What the command takes is the same archive, and what it refuses is refused at the same line."""
        parts = {
            b'0,1\n': 30, b'"1",5\n': 20, b'0,"2"\r\n': 20, b',': 10, b'0': 16, b'\n': 8, b'\r\n': 3, b'\n\n': 2, b'"0"': 3,
            b' ': 2, b'"': 1, b'""': 1, b'\t': 1, b'x': .5, b'-': .5, b'\r': .3, b'\xef\xbb\xbf': .2, b'\xff': .1,
            b'\xc3\xa4': .2, b'\xe2\x80\xa8': .2, b'\xc2\xa0': .2, b'\x1f': .1}
        headers = [b'a,r\n', b'"a" ,r\r\n', b' a:9 , r\n', b'"a\n",r\n']
        draw = random.Random(5)
        with command.Folder() as folder:
            for _ in range(300):
                header = draw.choice([b'', b'\xef\xbb\xbf', b'\n \r\n']) + draw.choice(headers)
                path = folder.write('x.csv', header + b''.join(draw.choices(list(parts), parts.values(), k=draw.randrange(12))))
                status, _, error = folder.run('build', 'x.csv', '-o', 'x.cube')
                with self.subTest(text=folder.read('x.csv'), error=error):
                    if status == 0:
                        self.assertEqual(bytes(Archive.build(path)), folder.read('x.cube'))
                    else:
                        self.assertRaisesRegex(RecordError, '^%s: ' % re.search('line [0-9]+', error).group(), Archive.build, path)

    def test_many_records(self):
        for seed, rows in [(7, 5000), (2, 1025), (5, 40000)]:
            with self.subTest(seed=seed), command.Folder() as folder:
                table = Table(seed, rows=1)
                draw = random.Random(seed)
                table.rows = [[str(draw.randrange(3)) for _ in table.names] + [str(draw.randrange(-9, 9))] for _ in range(rows)]
                if table.dims > 6:
                    table.rows = [['0'] * (table.dims - 6) + row[table.dims - 6:] for row in table.rows]
                path = folder.write('x.csv', table.csv())
                self.assertEqual(folder.run('build', 'x.csv', '-o', 'x.cube'), (0, '', ''))
                self.assertEqual(bytes(Archive.build(path)), folder.read('x.cube'))


if __name__ == '__main__':
    unittest.main()
