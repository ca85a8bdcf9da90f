"""Stops, wrong records, wrong legends and wrong words, held to `cube` where it says the same."""
import os
import re
import subprocess
import sys
import unittest

import command
import cube_archive
from cube_archive import Archive, CubeError, Legend, RecordError, Stop

FIVE = [('chip:7', 'port:6', 'task:3', 'reading'), (0, 1, 1, 50), (1, 1, 1, 100), (2, 3, 1, 60), (4, 5, 1, 70), (6, 5, 2, 80)]


class Refused(unittest.TestCase):
    def stops(self, number, call, *words, **named):
        with self.assertRaises(Stop) as raised:
            call(*words, **named)
        self.assertEqual(raised.exception.number, number)
        self.assertEqual(str(raised.exception), 'stop %d: %s' % (number, raised.exception.words))

    def test_the_words_are_those_of_the_crate(self):
        with open(os.path.join(command.ROOT, 'rust/src/stop.rs')) as file:
            source = file.read()
        numbers = {name: int(number) for name, number in re.findall(r'^    (\w+) = (\d+),', source, re.M)}
        words = {numbers[name]: words for name, words in re.findall(r'Stop::(\w+) => \{?\s*"(.*?)"', source)}
        self.assertEqual(cube_archive.STOPS, words)

    def test_damaged_files(self):
        good = bytes(Archive.build(FIVE))
        with command.Folder() as folder:
            for at in range(0, len(good), 3):
                for damaged in (good[:at], good[:at] + bytes([good[at] ^ 1]) + good[at + 1:], good + good[:at + 1]):
                    folder.write('x.cube', damaged)
                    error = folder.run('check', 'x.cube')[2]
                    self.stops(int(re.search('refused ([0-9]+)', error).group(1)), Archive, damaged)

    def test_questions(self):
        five = Archive.build(FIVE)
        for code in (7, 65534, 65535, 65536, 2**32 - 1, 2**32, -1):
            self.stops(13, five.cell, {1: code})
        self.assertEqual(five.cell({1: None, 2: '*'}), five.cell())
        self.assertEqual(Archive.build(FIVE, legend=False), five)
        for words in ({0: 1}, {4: 1}, {'chip': 0}, {'1': 1}, {1: '1'}, {True: 'x'}):
            self.assertRaises(CubeError, five.cell, words)
        self.assertRaises(CubeError, five.cuboid, 4)
        self.assertRaises(CubeError, five.fixes, [1], 'port')
        self.stops(20, five.window, 1, 4, {1: 6})
        self.stops(20, five.window, 1, 4, {1: '*'})
        self.stops(13, five.window, 1, 7)
        self.stops(13, five.window, 1, 4, {2: 6})
        self.assertRaises(CubeError, five.window, 4, 0)
        self.stops(23, five.fee, 1000000001, 1)
        self.stops(23, five.fee, 2**40, 1)
        self.stops(24, Archive.build(FIVE[:1]).fee, 5, 1)
        self.stops(17, five.join, Archive.build([('a', 'r')]))
        for codes in ({1: 7, 2: 1, 3: 1}, {1: 0, 2: 1, 3: -1}):
            self.stops(13, five.add, 5, codes)
        for reading in (2**31, '', '1.5', 1.5, None):
            self.assertRaisesRegex(CubeError, 'is no reading: a reading is a number from', five.add, reading, {1: 0, 2: 1, 3: 1})
        for codes in ({1: 0, 3: 1}, {1: 0, 2: '*', 3: 1}):
            self.assertRaisesRegex(CubeError, 'dimension 2 is missing: a record has a code for each', five.add, 5, codes)
        names = Archive.build([('chip', 'late'), ('TC37', 1)], legend=True)
        self.assertRaisesRegex(CubeError, 'twice', names.cell, {1: 0}, chip='TC37')
        self.assertRaisesRegex(CubeError, "no label 'TC99'", names.cell, chip='TC99')
        self.assertRaisesRegex(CubeError, 'has a legend, and another has none', names.join, five)

    def test_limits(self):
        rows = [('a', 'b', 'r')] + [(i // 32, i % 32, 1) for i in range(1025)]
        self.assertEqual(Archive.build(rows[:1025]).check().bases, 1024)
        self.assertRaisesRegex(RecordError, '^row 1026: one different combination', Archive.build, rows)
        self.stops(18, Archive.build(rows[:1025], sizes={'a': 33}).join, Archive.build([rows[0], rows[1025]], sizes={'b': 32}))
        full = Archive.build([('a', 'r')] + [(0, 2**31 - 1)] * 1048576)
        self.assertEqual(full.cell(), (1048576 * (2**31 - 1), 1048576, 0))
        self.stops(18, full.join, Archive.build([('a', 'r'), (0, 1)]))
        self.stops(18, full.add, 5, {1: 0})
        what = '^row 1048578: one record more than the 1048576 that an archive holds; those before it have 1 different'
        self.assertRaisesRegex(RecordError, what, Archive.build, [('a', 'r')] + [(0, 1)] * 1048577)

    def test_wrong_records_are_told_with_the_line_of_the_command(self):
        headers = [
            '', '\n \n', '0,1\n', 'a,-5\n', 'a,,r\n', 'a,a,r\n', 'r\n5\n', 'a,b,c,d,e,f,g,h,i,r\n', 'a:0,r\n', 'a:65536,r\n',
            'a:x,r\n', 'a,r:5\n', 'a=b,r\n', 'a,r\r0,1\r', 'a,"r\n', 'a:7,r\n6,1\n7,1\n', '\ufeffa,r\n0,x']
        records = [
            '\n0\n', '0,1,\n', '0,1\n\nx,1\n', '65535,1\n', '-1,1\n', '+1,1\n', '1' * 5000 + ',1\n', '\u0663,1\n', '0,\n', '0,1.0\n',
            '0,2147483648\n', '0,-2147483649\n', '"0\n",1\n0,x\n', '0,1\n"0,1\n0,1\n', '0,1\na"b,1\n', '"a"b,1\n', '"a" "b",1\n',
            '0,1\n"0,1\n""0,1\n', '0\r1,1\n']
        bytes_alone = [b'a,r\n0,1\n\xff,1\n', b'a,r\n"0\n\xff",1\n']
        texts = headers + ['a,r\n' + record for record in records] + bytes_alone
        with command.Folder() as folder:
            for text in texts:
                path = folder.write('x.csv', text)
                status, _, error = folder.run('build', 'x.csv')
                with self.subTest(text=text), self.assertRaises(RecordError) as raised:
                    Archive.build(path)
                self.assertEqual((status, int(re.search('line ([0-9]+)', error).group(1))), (1, raised.exception.place), error)

    def test_zeros_in_front_of_numbers(self):
        with command.Folder() as folder:
            for count in (1, 999, 1000, 5000, 100000):
                zeros = '0' * count
                path = folder.write('x.csv', 'a:%s9,r\n%s8,%s7\n8,-%s2147483648\n%s,+%s\n' % (6 * (zeros,)))
                self.assertEqual(folder.run('build', 'x.csv', '-o', 'x.cube'), (0, '', ''))
                self.assertEqual(bytes(Archive.build(path)), folder.read('x.cube'))
                self.assertEqual(Archive.build(path).cuboid(1), [{1: 0, 'sum': 0, 'count': 1}, {1: 8, 'sum': 7 - 2**31, 'count': 2}])

    def test_long_fields_are_quoted_in_part(self):
        """The words are those of the command, but for the quotes and the name of the option."""
        forms = ['a,r\n%s,1\n', 'a,r\n0,%s\n', 'a,r\n"0"%s,1\n', 'a:%s,r\n']
        with command.Folder() as folder:
            for length in (60, 61, 1000000):
                field = 'x' * length
                quoted = "'%s'%s" % ('x' * 60, '..' if length > 60 else '')
                for form in forms:
                    path = folder.write('x.csv', form % field)
                    error = folder.run('build', 'x.csv')[2].strip().replace('"', "'").replace('--legend FILE', 'legend=True')
                    with self.subTest(form=form, length=length), self.assertRaises(RecordError) as raised:
                        Archive.build(path)
                    self.assertEqual('cube: x.csv: %s' % raised.exception, error)
                    self.assertIn(quoted, error)
                legend = Archive.build([('a', 'r'), ('A', 5)], legend=True).legend.text()
                wanted = 'line %d: expected code 1 and its label, found %s' % (legend.count('\n') + 1, quoted)
                path = folder.write('l', legend + field)
                self.assertRaisesRegex(CubeError, '%s$' % re.escape(wanted), Legend.open, path)
                folder.write('x.csv', 'a,r\nA,5\n')
                error = folder.run('build', 'x.csv', '--legend', 'l', '-o', 'x.cube')[2]
                self.assertEqual(error.replace('"', "'"), 'cube: l: %s\n' % wanted)
        what = '^row 2: a number of more than 60 digits is no reading'
        self.assertRaisesRegex(RecordError, what, Archive.build, [('a', 'r'), (0, 10**5000)])

    def test_wrong_legends(self):
        with command.Folder() as folder:
            folder.write('x.csv', 'chip,port,late\nA,x,1\nB,y,2\nC,z,3\n')
            folder.run('build', 'x.csv', '--legend', 'x.legend', '-o', 'x.cube')
            text = folder.read('x.legend').decode()
            wrong = [text.replace(*pair, 1) for pair in [
                ('form 1', 'form 2'), ('1\tB', '2\tB'), ('1\tB', '01\tB'), ('1\tB', '1\tA'), ('1\tB', '1\t*'), ('1\tB', '1\t\\q'),
                ('1\tB', '1\t\\u{110000}'), ('1\tB', '1\t\\u{d800}'), ('1\tB', '1\t\\u{}'), ('1\tB', '1\t\\u{+41}'), ('1\tB', '1\tB\\'),
                ('sizes 3', 'sizes 2\x1f3'), ('2\tC\n', ''), ('sizes 3', 'sizes 2'), ('sizes 3', 'sizes 3 3'), ('sizes 3', 'sizes 4'),
                ('sizes 3\n', ''), ('dimension port', 'dimension chip'), ('dimension port', 'dimension 7')]]
            for legend in wrong + ['', text + '\ndimension task\n', text + '\ndimension task\nsizes 3\n']:
                folder.write('x.legend', legend)
                with self.subTest(legend=legend):
                    self.assertEqual(folder.run('check', 'x.cube')[0], 1)
                    self.assertRaises(CubeError, Archive.open, folder.path('x.cube'))
                    self.assertEqual(Archive.open(folder.path('x.cube'), legend=False).check().bases, 3)
            for legend in (text, '\ufeff' + text.replace('\n', '\r\n'), text.replace('\t', '   ')):
                folder.write('x.legend', legend)
                self.assertEqual(Archive.open(folder.path('x.cube')).cell(chip='B').sum, 2)

    def test_legends_of_joined_archives(self):
        build = lambda *labels: Archive.build([('chip:9', 'late')] + [(label, 1) for label in labels], legend=True)
        a, b, c = build('A', 'B'), build('A', 'C'), build('A')
        self.assertRaisesRegex(CubeError, 'different labels', a.join, b)
        self.assertRaisesRegex(CubeError, 'different labels', c.join, a, b)
        self.assertEqual(c.join(a).cuboid('chip'), a.join(c).cuboid('chip'))
        self.assertEqual(c.join(a).cell(chip='B').count, 1)

    def test_saved_files(self):
        with command.Folder() as folder:
            path = folder.path('x.cube')
            bench = Archive.build([('chip', 'late'), ('TC37', 5), ('a\tb ', 7)], legend=True)
            bench.save(path)
            self.assertEqual(sorted(os.listdir(folder.name)), ['x.cube', 'x.legend'])
            self.assertEqual(Archive.open(path).cuboid('chip'), bench.cuboid('chip'))
            self.assertEqual(folder.answer('cell', 'x.cube', 'chip=TC37'), [['TC37', '5', '1', '0']])
            self.assertRaisesRegex(CubeError, 'taken for the legend', Archive.build(FIVE).save, path)
            self.assertRaisesRegex(CubeError, 'other labels', Archive.build([('chip', 'late'), ('TC27', 5)], legend=True).save, path)
            Archive.build([('chip', 'late'), ('TC27', 5)], legend=folder.path('x.legend')).save(path)
            self.assertEqual(Legend.open(folder.path('x.legend')).dimensions[0].labels, ['TC37', 'a\tb ', 'TC27'])
            self.assertEqual(Archive.open(path).cell(chip='TC37'), None)
            before = folder.read('x.cube'), folder.read('x.legend')
            os.mkdir(folder.path('x.cube.%d.part' % os.getpid()))
            self.assertRaises(OSError, Archive.build([('chip', 'late'), ('new', 5)], legend=folder.path('x.legend')).save, path)
            self.assertEqual((folder.read('x.cube'), folder.read('x.legend')), before)
            self.assertEqual(sorted(os.listdir(folder.name)), ['x.cube', 'x.cube.%d.part' % os.getpid(), 'x.legend'])

    def test_an_open_quote_takes_in_neither_a_long_file_nor_one_without_end(self):
        script = '''import cube_archive, sys
try:
    cube_archive.Archive.build(eval(sys.argv[1]))
except cube_archive.RecordError as error:
    print(error)'''
        quote = 'line 2: a quoted field has no closing quote within the 1048576 bytes that a record may have\n'
        long = 'line 1: this record has more than the 1048576 bytes that a record may have\n'
        endless = 'printf \'a,r\\n"0,1\\n\'; yes 0,1'
        with command.Folder() as folder:
            folder.write('x.csv', b'a,r\n"0,1\n' + b'0,1\n' * 25000000)
            for text, source, words in [
                    ('', '"x.csv"', quote), ('', 'open("x.csv", newline="")', quote), (endless, 'sys.stdin.buffer', quote),
                    (endless, 'sys.stdin', quote), ("yes | tr -d '\\n'", 'sys.stdin.buffer', long)]:
                line = '{ %s; } | { ulimit -v 100000; exec "$0" -c "$1" "$2"; }' % (text or ':')
                environment = {**os.environ, 'PYTHONPATH': os.path.abspath(os.path.join(command.HERE, '..'))}
                started = ['sh', '-c', line, sys.executable, script, source]
                ended = subprocess.run(started, cwd=folder.name, env=environment, stdout=subprocess.PIPE)
                self.assertEqual((ended.returncode, ended.stdout.decode()), (0, words), source)

    def test_records_as_long_as_they_may_be_and_longer(self):
        """What the command takes is the same archive, and what it refuses is refused in the same words."""
        most = cube_archive.RECORD_BYTES
        filled = lambda beginning, fill, length: (beginning + fill * (length // len(fill) + 1))[:length]
        # A line or a field of one byte each, a million of them, would take seconds.
        spaces = b' ' * 60
        parts = [
            (b'"', b'x', b'",5\n'), (b'"', b'x', b'",5'), (b'"', b'\n' + spaces, b'",5\r\n'), (b'', b'x', b',5\n'),
            (b'"', spaces + b'0,1\n', b'",5\n'), (b'x\xc3\xa4,"', b'\n' + spaces, b'"\n'), (b'"\n\n","', spaces + b'0,1\n', b''),
            (b'"', b'""', b''), (b'  "', b'\xc3\xa4', b''), (b'"', b'\xc3\xa4', b''), (b'', b' ', b''), (b'', b',', b''),
            (b'"",', spaces + b'x,', b''), (b'"x', b'""', b'')]
        with command.Folder() as folder:
            for beginning, fill, end in parts:
                for length in (most, most + 1, most + 2):
                    record = filled(beginning, fill, length - len(end)) + end
                    path = folder.write('x.csv', b'a,r\n' + record)
                    status, _, error = folder.run('build', 'x.csv', '--legend', 'l', '-o', 'x.cube')
                    with self.subTest(beginning=beginning, fill=fill, end=end, length=length, error=error[:200]):
                        self.assertEqual(status, 0 if length == most and (b',5' in end or fill == b' ') else 1)
                        if status == 0:
                            archive = Archive.build(path, legend=True)
                            labels = Legend.open(folder.path('l')).dimensions[0].labels
                            self.assertTrue((bytes(archive), archive.legend.dimensions[0].labels) == (folder.read('x.cube'), labels))
                            os.remove(folder.path('l'))
                            continue
                        with self.assertRaises(RecordError) as raised:
                            Archive.build(path, legend=True)
                        self.assertEqual(length > most, 'that a record may have' in error)
                        words = error if length > most or 'closing quote' in error else error[:error.index(': ', 15)]
                        self.assertIn(words.strip(), 'cube: x.csv: ' + str(raised.exception))

    def test_where_the_library_is(self):
        script = 'import cube_archive; print(cube_archive.Archive.build([("a", "r"), (0, 5)]).cell().sum)'
        folder = os.path.join(command.HERE, '..')
        pipes = dict(stdout=subprocess.PIPE, stderr=subprocess.PIPE)
        run = lambda file: subprocess.run([sys.executable, '-c', script], cwd=folder, env={**os.environ, 'CUBE_SO': file}, **pipes)
        self.assertEqual(run(cube_archive._library._name).stdout, b'5\n')
        what = b'ImportError: no file /none/x.so: run ./build, or name the file in CUBE_SO'
        self.assertIn(what, run('/none/x.so').stderr)


if __name__ == '__main__':
    unittest.main()
