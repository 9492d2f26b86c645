"""Tests of `quote`: python3 -m unittest discover -s tests -p '*_test.py'. Those of whole runs need the library (built.py)."""
import io
import os
import random
import tempfile
import time
import unittest
from contextlib import redirect_stderr, redirect_stdout

import built
import nosingcatnip
import wire

quote = built.program('quote')

# the last time that a header may have, 2 to the 52nd
LAST = '144683-05-23T16:29:30.496Z'


class Queries(unittest.TestCase):
    def test_operators_are_numbered_in_order(self):
        self.assertEqual(nosingcatnip.encode_query('+'), bytes([0, 0, 0, 0, 0, 0, 2]))
        self.assertEqual(nosingcatnip.encode_query('unless'), bytes([18, 0, 0, 0, 0, 0, 2]))
        self.assertEqual(nosingcatnip.encode_query('ifnot'), bytes([13, 0, 0, 0, 0, 0, 2]))

    def test_modifiers(self):
        self.assertEqual(nosingcatnip.encode_query('/ on(press) group_left(form)'), b'\x04\x01\x01\x00\x01\x05press\x01\x04form\x02')
        self.assertEqual(nosingcatnip.encode_query('== bool ignoring(a, b)'), b'\x05\x02\x00\x02\x02\x01a\x01b\x00\x02')
        self.assertEqual(nosingcatnip.encode_query('* group_right(*) keep_metric_names'), b'\x07\x00\x02\x01\x00\x01\x01*\x02')

    def test_overlap(self):
        for allowed in range(9):
            self.assertEqual(nosingcatnip.encode_query(f'+ overlap({allowed})'), bytes([0, 0, 0, 0, 0, 0, allowed]))
        whole = b'\x05\x01\x01\x02\x01\x07overlap\x00\x04'
        for text in ['overlap(4) bool on(overlap) group_left', 'bool overlap ( 4 ) on(overlap) group_left()',
                     'bool on(overlap) overlap(4) group_left', 'bool on(overlap) group_left overlap(4)']:
            with self.subTest(text):
                self.assertEqual(nosingcatnip.encode_query('== ' + text), whole)

    def test_mistakes_of_overlap(self):
        for text in ['9', '10', '255', '1.5', '-1', 'four', '', '2, 3', '0 4', '(4', '.', '1e0', '9' * 5000]:
            with self.subTest(text[:9]), self.assertRaisesRegex(ValueError, '^query: overlap takes a whole number from 0 to 8, not '):
                nosingcatnip.encode_query(f'+ overlap({text})')
        for text, what in [('overlap', r'\( is missing after overlap'), ('overlap 4', r'\( is missing after overlap'),
                           ('overlap on(a)', r'\( is missing after overlap'), ('overlap(4', r'\) is missing after overlap'),
                           ('overlap(4) overlap(4)', "did not expect 'overlap'"), ('4', "did not expect '4'")]:
            with self.subTest(text), self.assertRaisesRegex(ValueError, f'^query: {what}'):
                nosingcatnip.encode_query('+ ' + text)

    def test_mistakes(self):
        for text in ['', 'plus', '+ on', '+ on(a', '+ on(a b)', '+ on(a) on(b)', '+ group_left(a) group_right(a)', '+ $']:
            with self.subTest(text), self.assertRaisesRegex(ValueError, '^query: '):
                nosingcatnip.encode_query(text)


class Texts(unittest.TestCase):
    def test_series(self):
        for line, labels in [
            ('fed{press="A",form="1"} 10 6', {'__name__': 'fed', 'press': 'A', 'form': '1'}),
            (r'x{a="}",b="\"q\"",c="1,2 =3"} 10 6', {'__name__': 'x', 'a': '}', 'b': '"q"', 'c': '1,2 =3'}),
            (r'x{"press no."="A","a\"}"="",b="1"} 10 6', {'__name__': 'x', 'press no.': 'A', 'a"}': '', 'b': '1'}),
            ('fed 10 6', {'__name__': 'fed'}),
            ('{a="1"} 10 6', {'a': '1'}),
            ('{} 10 6', {}),
        ]:
            self.assertEqual(quote.series_of(line), (labels, [10, 6]))

    def test_readings(self):
        row = quote.series_of('a 1 -2.5 1e3 inf - .5')[1]
        self.assertEqual([wire.bits(x) for x in row], [wire.bits(x) for x in (1, -2.5, 1000, float('inf'), None, 0.5)])
        for word in '1_000', '1,5', 'x', '--', '0x10':
            with self.subTest(word), self.assertRaisesRegex(quote.Mistake, f"'{word}' is neither a number nor -"):
                quote.series_of(f'a 1 {word}')

    def test_bytes(self):
        for header, grid in ('', (0, 3600000)), ('from 1970-01-01T00:00:00.258Z every 1d\n', (258, 86400000)):
            lent = quote.read_text('x', header + 'fed{press="A"} 10 - 6\n').lent(None)
            self.assertEqual(lent.part, wire.label_part(1, 3, [wire.record(b'fed', [(b'press', b'A')])], *grid))
            self.assertEqual(lent.readings.tobytes(), wire.readings([wire.bits(10), wire.MISSING, wire.bits(6)]))

    def test_mistakes_name_their_line(self):
        for text, line in [('a 1\nb 1 2\n', 2), ('# note\n\na{x=1} 1\n', 3), ('a{x="1" 2\n', 1), ('a x\n', 1),
                           ('a{x="1",x="2"} 1\n', 1), ('a{__name__="b"} 1\n', 1), ('a 1\na{k="' + 'v' * 256 + '"} 1\n', 2)]:
            with self.subTest(text[:20]), self.assertRaisesRegex(quote.Mistake, f'^v.txt:{line}: '):
                quote.read_text('v.txt', text)


class Times(unittest.TestCase):
    def test_headers(self):
        for text, grid in [
            ('from 2026-03-02T06:00Z every 1h', (1772431200000, 3600000)),
            ('from   2026-03-02  every\t15m ', (1772409600000, 900000)),
            ('from 2026-03-02T06:00:30Z every 90s', (1772431230000, 90000)),
            ('from 2026-03-02T06:00:30.500Z every 500ms', (1772431230500, 500)),
            ('from 1970-01-01 every 1ms', (0, 1)),
            ('from 1970-01-01T00:00Z every 24h', (0, 86400000)),
            ('from 2000-02-29T23:59Z every 86400s', (951868740000, 86400000)),
            ('from 9999-12-31T23:59:59.999Z every 1d', (253402300799999, 86400000)),
            ('from 10000-01-01 every 1d', (253402300800000, 86400000)),
            (f'from {LAST} every 1440m', (2**52, 86400000)),
        ]:
            with self.subTest(text):
                self.assertEqual(quote.read_text('x', f'# note\n\n{text}\na 1\n').header, grid)
                self.assertEqual(quote.header_of(quote.grid_text(grid)), grid)

    def test_the_calendar(self):
        for days in [0, 58, 59, 364, 365, 11015, 11016, 11017, 20000, 2932896, 2932897, 3000000, 52124995]:
            text = quote.time_text(days * quote.DAY)
            with self.subTest(text):
                self.assertEqual(quote.time_of(text), days * quote.DAY)
        self.assertEqual(quote.day_text(11016 * quote.DAY), '2000-02-29')
        self.assertEqual(quote.time_text(2**52), LAST)

    def test_steps_are_told_in_the_largest_unit(self):
        for step, text in [(1, '1ms'), (500, '500ms'), (1000, '1s'), (90000, '90s'), (900000, '15m'), (5400000, '90m'), (3600000, '1h'),
                           (43200000, '12h'), (86400000, '1d'), (86399999, '86399999ms')]:
            self.assertEqual(quote.grid_text((0, step)), f'from 1970-01-01T00:00Z every {text}')

    def test_without_a_header(self):
        vector = quote.read_text('x', 'a 1\n')
        self.assertEqual((vector.header, vector.grid()), (None, (0, 3600000)))

    def test_series_named_as_a_header_begins(self):
        vector = quote.read_text('x', 'from{} 1\nevery{a="1"} 2\nfromage 3\n')
        self.assertEqual([labels['__name__'] for labels in vector.labels], ['from', 'every', 'fromage'])

    def test_mistakes_name_their_line_and_what_is_wrong(self):
        good = 'from 2026-03-02T06:00Z every 1h\n'
        for text, line, what in [
            ('from 2026-03-02T06:00Z\n', 1, 'cannot read the header .* it is written from 2026-03-02T06:00Z every 1h'),
            ('# note\nevery 1h\n', 2, 'cannot read the header'),
            ('from\n', 1, 'cannot read the header'),
            ('from 1 2 3\n', 1, r'a series of this name from\{\}'),
            ('every 1h from 2026-03-02\n', 1, 'cannot read the header'),
            ('from 2026-03-02T06:00Z every 1h now\n', 1, 'cannot read the header'),
            ('from 2026-3-2 every 1h\n', 1, "cannot read the time '2026-3-2'"),
            ('from 2026-03-02T06:00 every 1h\n', 1, 'cannot read the time .* in UTC'),
            ('from 2026-03-02T06:00+01:00 every 1h\n', 1, 'cannot read the time'),
            ('from 2026-03-02Z every 1h\n', 1, 'cannot read the time'),
            ('from today every 1h\n', 1, 'cannot read the time'),
            ('from 2026-02-29 every 1h\n', 1, 'there is no day 2026-02-29'),
            ('from 2026-13-01T06:00Z every 1h\n', 1, 'there is no day 2026-13-01'),
            ('from 2026-03-02T24:00Z every 1h\n', 1, 'there is no time of day 24:00Z'),
            ('from 2026-03-02T23:60Z every 1h\n', 1, 'there is no time of day 23:60Z'),
            ('from 2026-03-02T23:59:60Z every 1h\n', 1, 'there is no time of day 23:59:60Z'),
            ('from 1969-12-31T23:59:59.999Z every 1h\n', 1, 'is before 1970'),
            ('from 0000-01-01 every 1h\n', 1, 'is before 1970'),
            ('from 144683-05-23T16:29:30.497Z every 1h\n', 1, f'is past {LAST}'),
            ('from 999999999-01-01 every 1h\n', 1, f'is past {LAST}'),
            ('from 2026-03-02 every 0h\n', 1, 'a step of 0h is nothing'),
            ('from 2026-03-02 every 25h\n', 1, 'a step of 25h is more than a day'),
            ('from 2026-03-02 every 86400001ms\n', 1, 'more than a day'),
            ('from 2026-03-02 every hour\n', 1, "cannot read the step 'hour'"),
            ('from 2026-03-02 every 1.5h\n', 1, 'cannot read the step'),
            ('from 2026-03-02 every -1h\n', 1, 'cannot read the step'),
            ('from 2026-03-02 every 1w\n', 1, 'cannot read the step'),
            (good + '# note\n' + good, 3, 'a second header; the first stands in line 1'),
            (good + 'a 1\n' + good, 3, 'a second header; the first stands in line 1'),
            ('a 1\n' + good, 2, 'a header behind a series'),
        ]:
            with self.subTest(text), self.assertRaisesRegex(quote.Mistake, f'^v.txt:{line}: .*{what}'):
                quote.read_text('v.txt', text)


class Sheets(unittest.TestCase):
    """Files as spreadsheets write them."""
    HEAD = 'press,form,2026-03-02 06:00,2026-03-02 07:00\n'

    def read(self, text):
        vector = quote.read_csv('v.csv', text)
        return vector.header, [(labels, [None if x != x else x for x in row]) for labels, row in zip(vector.labels, vector.rows)]

    def test_a_file(self):
        grid = (1772431200000, 3600000)
        series = [({'press': 'A', 'form': '1'}, [1000, None]), ({'press': 'A'}, [None, 2.5])]
        for text in [
            self.HEAD + 'A,1,1000,\nA,,-,2.5\n',
            (self.HEAD + 'A,1,1000,\nA,,-,2.5\n').replace('\n', '\r\n'),
            self.HEAD + '"A","1","1000",""\n\n,,,\nA, ,,2.5',
            (self.HEAD + 'A,1,1000,\nA,,,2.5\n').replace(',', '\t'),
            (self.HEAD + 'A,1,1000,\nA,,,2.5\n').replace(',', ';').replace('2.5', '2,5'),
            'sep=;\n' + (self.HEAD + 'A,1,1000,\nA,,,2.5\n').replace(',', ';').replace('2.5', '2,5'),
            self.HEAD.replace('\n', ',,\n') + 'A,1,1000,,,\nA,,,2.5,,\n',
            'press,2026-03-02T06:00Z,2026-03-02 7:00:00,form\nA,1000,,1\nA,,2.5,\n',
            'press,form,2026/03/02 06:00,2026/3/2 7:00\nA,1,1e3,\nA,,,+2.50\n',
        ]:
            with self.subTest(text):
                self.assertEqual(self.read(text), (grid, series))

    def test_names_quotes_and_days(self):
        text = '__name__,"press, no.",2026-03-02,2026-03-03\nfed,"say ""A""\nand B",1,2\n'
        self.assertEqual(self.read(text), ((1772409600000, 86400000), [({'__name__': 'fed', 'press, no.': 'say "A"\nand B'}, [1, 2])]))

    def test_one_time_has_an_hour(self):
        self.assertEqual(self.read('2026-03-02 06:15\n7\n'), ((1772432100000, 3600000), [({}, [7])]))

    def test_headings_alone(self):
        vector = quote.read_csv('v.csv', self.HEAD)
        self.assertEqual((vector.header, vector.points, vector.rows), ((1772431200000, 3600000), 2, []))
        self.assertEqual(vector.lent(7).part, wire.label_part(0, 2, [], 1772431200000, 3600000))

    def test_columns_as_spreadsheets_name_them(self):
        self.assertEqual([quote.column(place) for place in (0, 25, 26, 51, 52, 701, 702, 1023, 18278)],
                         ['A', 'Z', 'AA', 'AZ', 'BA', 'ZZ', 'AAA', 'AMJ', 'AAAA'])

    def test_mistakes_name_their_line_and_column(self):
        for text, line, what in [
            ('press,6,7\nA,1,2\n', 1, "column B: '6' is neither a time, as 2026-03-02 06:00, nor the name of a tag"),
            ('press,06:00,07:00\n', 1, "column B: '06:00' is neither a time"),
            ('press,02.03.2026 06:00\n', 1, "column B: '02.03.2026 06:00' is neither a time"),
            ('press,2026-02-30 06:00\n', 1, 'there is no day 2026-02-30'),
            ('press,2026-03-02 24:00\n', 1, 'there is no time of day 24:00Z'),
            ('press,form\nA,1\n', 1, 'no heading is a time'),
            ('press,press,2026-03-02\n', 1, 'column B: the tag press has a column before'),
            ('p,2026-03-02 06:00,2026-03-02 07:00,2026-03-02 09:00\n', 1, 'column D: 2026-03-02T09:00Z does not follow .*07:00Z evenly'),
            ('p,2026-03-02 07:00,2026-03-02 06:00\n', 1, 'column C: 2026-03-02T06:00Z does not follow'),
            ('p,2026-03-02 07:00,2026-03-02 07:00\n', 1, 'column C: 2026-03-02T07:00Z does not follow'),
            ('p,2026-03-02,2026-03-04\n', 1, 'the times are more than a day apart'),
            (self.HEAD + 'A,1,1000\n', 2, '3 cells, where the headings have 4'),
            (self.HEAD + 'A,1,1,2\nA,2,1,2,3\n', 3, 'column E has no heading'),
            (self.HEAD + 'A,1,#N/A,2\n', 2, "'#N/A' is neither a number nor -"),
            (self.HEAD + 'A,1,"1,5",2\n', 2, "'1,5' is neither a number nor -"),
            (self.HEAD.replace(',', ';') + 'A;1;1.234;2\n', 2, 'a point in a number; where ; parts the cells'),
            (self.HEAD.replace(',', ';') + 'A;1;1,234,5;2\n', 2, "'1.234.5' is neither a number"),
            (self.HEAD + 'A,1,"1"x,2\n', 2, "expected after"),
            (self.HEAD + 'A,' + 'v' * 256 + ',1,2\n', 2, 'is longer than 255 bytes'),
            ('sep=;\n' + self.HEAD.replace(',', ';') + 'A;1;x;2\n', 3, "'x' is neither a number"),
        ]:
            with self.subTest(text), self.assertRaisesRegex(quote.Mistake, f'^v.csv:{line}: .*{what}'):
                quote.read_csv('v.csv', text)
        with self.assertRaisesRegex(quote.Mistake, '^v.csv: there are no headings'):
            quote.read_csv('v.csv', '\n,,\n')

    def test_answers_are_read_again(self):
        series = [({'__name__': 'fed', 'a b': 'x,"y"\nz', 'c': '1'}, [0.1 + 0.2, None]), ({'c': '2'}, [1e300, -2])]
        labels, rows = zip(*series)
        for start, step in (1772431200000, 3600000), (1772431230500, 500), (1772409600000, 86400000):
            text = quote.csv_text(nosingcatnip.Vector(labels, rows, start, step), False, [start, start + step])
            self.assertEqual(self.read(text), ((start, step), series))
        self.assertEqual(text.splitlines()[0], '__name__,a b,c,2026-03-02 00:00,2026-03-03 00:00')

    @built.needs_library
    def test_a_total_is_a_series(self):
        answer = nosingcatnip.Vector([{'c': '1'}, {'c': '2'}], [[1, None], [2, None]])
        self.assertEqual(quote.csv_text(answer, True, [0, 3600000]),
                         '__name__,c,1970-01-01 00:00,1970-01-01 01:00\n,1,1,\n,2,2,\ntotal,,3,\n')

    def test_files(self):
        with tempfile.TemporaryDirectory() as folder:
            path = os.path.join(folder, 'FED.CSV')
            with open(path, 'wb') as file:
                file.write(('\ufeff' + self.HEAD).encode() + 'Ä,1,1,2\n'.encode())
            self.assertEqual(quote.read_file(path).labels, [{'press': 'Ä', 'form': '1'}])
            with open(path, 'wb') as file:
                file.write(self.HEAD.encode() + 'Ä,1,1,2\n'.encode('latin-1'))
            with self.assertRaisesRegex(quote.Mistake, 'FED.CSV: byte 45 is not of UTF-8'):
                quote.read_file(path)


class Answers(unittest.TestCase):
    @built.needs_library
    def test_table(self):
        answer = nosingcatnip.Vector([{'__name__': 'fed', 'press': 'A b'}, {}], [[5, None], [0.1, 10]])
        self.assertEqual(quote.table(answer, True), 'fed{press="A b"}    5   -\n{}                0.1  10\ntotal             5.1  10\n')

    def timed(self, row, start, step):
        """The table of a series x of such readings."""
        return quote.table(nosingcatnip.Vector([{'__name__': 'x'}], [row]), False, [start + i * step for i in range(len(row))])

    def test_columns_have_their_times(self):
        self.assertEqual(self.timed([1, 2, None], 1772431200000, 3600000),
                         '     2026-03-02\n'
                         'UTC  06:00  07:00  08:00\n'
                         'x{}      1      2      -\n')

    def test_a_day_stands_above_its_first_column(self):
        days, clocks, row = self.timed([1] * 24, 1772431200000, 3600000).splitlines()
        self.assertEqual(days.split(), ['2026-03-02', '2026-03-03'])
        self.assertEqual((days.index('2026-03-02'), days.index('2026-03-03')), (clocks.index('06:00'), clocks.index('00:00')))
        self.assertEqual(clocks.split(), ['UTC', *(f'{(6 + i) % 24:02}:00' for i in range(24))])
        self.assertEqual((len(row), len(clocks)), (3 + 24 * 7, 3 + 24 * 7))

    def test_a_day_of_one_column_has_room(self):
        self.assertEqual(self.timed([1] * 4, 1772431200000, 64800000),
                         '     2026-03-02  2026-03-03    2026-03-04\n'
                         'UTC       06:00  00:00  18:00       12:00\n'
                         'x{}           1      1      1           1\n')

    def test_days_alone(self):
        self.assertEqual(self.timed([1, 1], 1772409600000, 86400000), '     2026-03-02  2026-03-03\nx{}           1           1\n')
        self.assertEqual(self.timed([1], 0, 3600000), '     1970-01-01\nx{}           1\n')

    def test_seconds_and_less(self):
        self.assertEqual(self.timed([1, 1], 1772431200000, 90000).splitlines()[1], 'UTC  06:00:00  06:01:30')
        self.assertEqual(self.timed([1, 1], 1772431200000, 500).splitlines()[1], 'UTC  06:00:00.000  06:00:00.500')

    def test_wide_readings(self):
        self.assertEqual(self.timed([123456.789, 1], 1772431200000, 3600000),
                         '     2026-03-02\n'
                         'UTC       06:00  07:00\n'
                         'x{}  123456.789      1\n')

    def test_no_series(self):
        nothing = nosingcatnip.Vector([], [], points=2)
        self.assertEqual(quote.table(nothing, True), 'no series\n')
        self.assertEqual(quote.table(nothing, True, [0, 1]), 'no series\n')

    def test_no_points(self):
        self.assertEqual(quote.table(nosingcatnip.Vector([{'__name__': 'x'}], [[]]), False, []), 'x{}\n')

    def test_refusals_name_grids(self):
        hourly, quarters = 'from 2026-03-02T06:00Z every 1h\na 1\n', 'from 2026-03-02T06:00Z every 15m\na 1\n'
        text = quote.unlike_grids([quote.read_text('l.txt', hourly), quote.read_text('r.txt', quarters)])
        self.assertTrue(text.endswith('l.txt has from 2026-03-02T06:00Z every 1h; r.txt has from 2026-03-02T06:00Z every 15m'), text)
        for paths in ('l.txt', 'r.txt'), ('r.txt', 'l.txt'):
            sides = [quote.read_text(path, hourly if path == 'l.txt' else 'a 1\n') for path in paths]
            text = quote.unlike_grids(sides)
            self.assertIn('l.txt has from 2026-03-02T06:00Z every 1h', text)
            self.assertIn('r.txt has no header, which stands for from 1970-01-01T00:00Z every 1h', text)
            self.assertTrue(text.endswith('put the line from 2026-03-02T06:00Z every 1h into r.txt too'), text)


@built.needs_library
class Runs(unittest.TestCase):
    def run_on(self, before, files, *more):
        """The status, the output and the errors of a run with these words, files by name and text, and words."""
        out, errors = built.Printed(), io.StringIO()
        with tempfile.TemporaryDirectory() as folder, redirect_stdout(out), redirect_stderr(errors):
            paths = [os.path.join(folder, name) for name in files]
            for path, text in zip(paths, files.values()):
                with open(path, 'w', encoding='utf-8') as file:
                    file.write(text)
            status = quote.main([*before, *paths, *more])
        return status, out.getvalue(), errors.getvalue()

    def quoted(self, query, left, right, *more, form='txt'):
        return self.run_on([query], {f'left.{form}': left, f'right.{form}': right}, *more)

    def test_the_scope_document_s_example(self):
        self.assertEqual(self.quoted('/', 'fed{press="A"} 10 - 6\n', 'waste{press="A"} 2 1 3\n'), (0, '{press="A"}  5  -  2\n', ''))

    def test_every_form_gets_the_shared_rate(self):
        left = ''.join(f'fed{{press="A",form="{i}"}} {i}\n' for i in range(1, 7))
        status, text, _ = self.quoted('* on(press) group_left()', left, 'rate{press="A"} 0.5\n', '--total')
        self.assertEqual((status, len(text.splitlines()), text.splitlines()[-1].split()), (0, 7, ['total', '10.5']))

    def test_refusals(self):
        points = 'refused: the two sides have different numbers of points: the left 2, the right 1\n'
        self.assertEqual(self.quoted('+', 'a 1 2\n', 'a 1\n')[:2], (1, points))
        self.assertEqual(self.quoted('^', 'a 1\n', 'a 1\n')[:2], (1, 'refused: ^ is no operator that is carried\n'))
        self.assertIn('cannot be merged', self.quoted('+ on()', 'a{f="1"} 1 1 1\na{f="2"} 1 1 1\n', 'b 1 1 1\n')[1])

    def test_overlap(self):
        left, right = 'a{f="1"} 1 1 1 1 -\na{f="2"} 2 2 2 2 2\n', 'b 0 0 0 0 0\n'
        self.assertEqual(self.quoted('+ on() overlap(4)', left, right), (0, '{}  1  1  1  1  2\n', ''))
        self.assertEqual(self.quoted('+ overlap(4) on() group_right()', left, right), (0, '{}  2  2  2  2  2\n', ''))
        for query, allowed in ('+ on() overlap(3)', 3), ('+ on()', 2), ('+ on() overlap(0)', 0):
            self.assertIn(f'at more points than the {allowed} allowed', self.quoted(query, left, right)[1])
        self.assertIn('series of two points or fewer are never merged', self.quoted('+ on() overlap(8)', 'a 1 -\nb - 1\n', 'c 1 1\n')[1])
        with tempfile.TemporaryDirectory() as folder, redirect_stderr(io.StringIO()) as errors:
            nothing = os.path.join(folder, 'none')
            self.assertEqual(quote.main(['+ overlap(9)', nothing, nothing]), 2)
        self.assertIn('a whole number from 0 to 8', errors.getvalue())

    def test_times(self):
        header = 'from 2026-03-02T22:00Z every 1h\n'
        self.assertEqual(
            self.quoted('/', header + 'fed{press="A"} 10 - 6\n', header + 'waste{press="A"} 2 1 3\n'),
            (0,
             '             2026-03-02    2026-03-03\n'
             'UTC          22:00  23:00       00:00\n'
             '{press="A"}      5      -           2\n',
             ''))
        self.assertEqual(self.quoted('and', header + 'a 1\n', header, '--points', '1')[:2], (0, 'no series\n'))
        # what no header stands for, written out
        self.assertEqual(self.quoted('+', 'a 1\n', 'from 1970-01-01 every 1h\na 1\n')[:2], (0, '    1970-01-01\n{}           2\n'))

    def test_unlike_times(self):
        header = 'from 2026-03-02T22:00Z every 1h\n'
        for left, right in (header, ''), ('', header), (header, header.replace('1h', '2h')), (header, header.replace('22', '23')):
            status, text, _ = self.quoted('+', left + 'a 1\n', right + 'a 1\n')
            self.assertEqual(status, 1)
            self.assertRegex(text, '^refused: the two sides are not of the same times: ')
        status, text, _ = self.quoted('+', header + 'a 1 2\n', 'a 1\n')
        self.assertEqual((status, text), (1, 'refused: the two sides have different numbers of points: the left 2, the right 1\n'))

    def test_sheets(self):
        left = 'press,form,2026-03-02 06:00,2026-03-02 07:00\nA,1,1000,1200\nA,2,800,\n'
        right = 'press,2026-03-02 06:00,2026-03-02 07:00\nA,0.5,0.25\n'
        self.assertEqual(self.quoted('* on(press) group_left()', left, right, '--csv', form='csv'), (
            0, 'form,press,2026-03-02 06:00,2026-03-02 07:00\n1,A,500,300\n2,A,400,\n', ''))
        self.assertEqual(self.quoted('* on("press") group_left()', left, right, '--total', form='csv'), (
            0,
            '                      2026-03-02\n'
            'UTC                   06:00  07:00\n'
            '{form="1",press="A"}    500    300\n'
            '{form="2",press="A"}    400      -\n'
            'total                   900    300\n',
            ''))
        status, text, _ = self.quoted('+', left, right.replace('2026-03-02', '2026-03-03'), form='csv')
        self.assertEqual(status, 1)
        self.assertIn('left.csv has from 2026-03-02T06:00Z every 1h', text)

    def test_aggregates(self):
        def quoted(query, text, *more):
            return self.run_on([query], {'paper.txt': text}, *more)
        text = 'a{s="1",f="1"} 1 -\na{s="2",f="2"} 2 -\na{s="1",f="3"} 4 8\n'
        self.assertEqual(quoted('sum by (s)', text, '--total'), (0, '{s="1"}  5  8\n{s="2"}  2  -\ntotal    7  8\n', ''))
        self.assertEqual(quoted('Avg without (f)', text), (0, '{s="1"}  2.5  8\n{s="2"}    2  -\n', ''))
        self.assertEqual(quoted('count', text), (0, '{}  3  1\n', ''))
        many = ''.join(f'a{{f="{i}"}} 1\n' for i in range(513))
        self.assertEqual(quoted('sum', many), (1, 'refused: the vector has 513 series; a vector has at most 512\n', ''))
        self.assertEqual(quoted('/', text), (2, '', 'quote: a query needs two files, left and right\n'))
        self.assertEqual(quoted('sum by s', text), (2, '', 'quote: query: ( is missing after by\n'))
        self.assertEqual(self.quoted('sum', text, text), (2, '', 'quote: an aggregate is of one file\n'))

    def test_a_file_as_it_is(self):
        text = 'from 2026-03-02T06:00Z every 1h\nfed{press="A",form="1"} 10 -\n{} 1 2\n'
        self.assertEqual(self.run_on([], {'fed.txt': text}, '--total'), (
            0,
            '                         2026-03-02\n'
            'UTC                      06:00  07:00\n'
            'fed{form="1",press="A"}     10      -\n'
            '{}                           1      2\n'
            'total                       11      2\n',
            ''))
        sheet = '__name__,form,press,2026-03-02 06:00,2026-03-02 07:00\nfed,1,A,10,\n,,,1,2\n'
        for before, files, more in ([], {'fed.txt': text}, ['--csv']), (['--csv'], {'fed.csv': sheet}, []):
            self.assertEqual(self.run_on(before, files, *more), (0, sheet, ''))
        many = 'a 1\n' * 513
        self.assertEqual(self.run_on([], {'a.txt': many})[:2], (0, 'a{}  1\n' * 513))
        self.assertEqual(self.run_on([], {'a.txt': many}, '--total'), (1, 'refused: the vector has 513 series; a vector has at most 512\n', ''))
        for word in 'sum by (stock)', '+':
            told = f'quote: there is no file {word!r}; behind a query or an aggregate stand its files\n'
            self.assertEqual(self.run_on([word], {}), (2, '', told))

    def test_options_stand_anywhere(self):
        sides = {'left.txt': 'a 1\n', 'right.txt': 'a 2\n'}
        for before, more in (['+', '--name', 'b'], []), (['--name', 'b', '+'], []), (['+'], ['--name', 'b']):
            self.assertEqual(self.run_on(before, sides, *more), (0, 'b{}  3\n', ''))

    def test_names(self):
        self.assertEqual(self.quoted('*', 'a{f="1"} 2\nb{f="2"} 3\n', 'c{f="1"} 2\nc{f="2"} 2\n', '--name', 'good', '--total'),
                         (0, 'good{f="1"}   4\ngood{f="2"}   6\ntotal        10\n', ''))
        self.assertEqual(self.quoted('*', 'a 2\n', 'a 2\n', '--name', 'x' * 256)[::2],
                         (2, f"quote: series 1: b'{'x' * 20}'... is longer than 255 bytes\n"))

    def test_exports(self):
        fed = 'from 2026-03-02T06:00Z every 1h\nfed{press="A",form="é \\"1\\""} 1000 - 0.0625\nidle - - -\nrate -0.0004 2 1e12\n'
        lines = ('fed{form="é \\"1\\"",press="A"} 1000.000 1772431200000\nfed{form="é \\"1\\"",press="A"} 0.063 1772438400000\n'
                 'rate 0.000 1772431200000\nrate 2.000 1772434800000\nrate 1000000000000.000 1772438400000\n')
        self.assertEqual(self.run_on(['--export'], {'fed.txt': fed}), (0, lines, ''))
        self.assertEqual(self.run_on([], {'fed.txt': fed}, '--export'), (0, lines, ''))
        self.assertEqual(self.run_on([], {'fed.txt': '# nothing\n'}, '--export'), (0, '', ''))
        sheet = '__name__,press,2026-03-02 06:00,2026-03-02 07:00\nfed,A,1.5,\n'
        self.assertEqual(self.run_on([], {'fed.csv': sheet}, '--export'), (0, 'fed{press="A"} 1.500 1772431200000\n', ''))
        text = 'a{s="1",f="1"} 1 -\na{s="2",f="2"} 2 -\na{s="1",f="3"} 4 8\n'
        self.assertEqual(self.run_on(['sum by (s)'], {'a.txt': text}, '--export', '--name', 'b:c', '--total'), (
            0, 'b:c{s="1"} 5.000 0\nb:c{s="1"} 8.000 3600000\nb:c{s="2"} 2.000 0\ntotal 7.000 0\ntotal 8.000 3600000\n', ''))
        self.assertEqual(self.quoted('*', 'a{f="1"} 2.5\n', 'b{f="1"} 2\n', '--export', '--name', 'good'), (0, 'good{f="1"} 5.000 0\n', ''))
        many = ''.join(f'a{{f="{i}"}} 1\n' for i in range(512))
        self.assertTrue(self.run_on([], {'a.txt': many}, '--export', '--total')[1].endswith('\na{f="511"} 1.000 0\ntotal 512.000 0\n'))

    def test_exports_that_are_refused(self):
        """A refusal names the series, and the byte or the reading; nothing is printed then."""
        header = 'from 2026-03-02T06:00Z every 1h\n'
        name = 'a name has ASCII letters, digits, _ and :, and no digit first'
        key = 'a key has ASCII letters, digits and _, and no digit first'
        size = 'an exported reading is below 1099511627776, 2 to the 40th, in size'
        for text, words in [
            ('a 1\n{f="1"} 1\n', 'series 2, {f="1"}, cannot be exported: it has no name; --name gives it one'),
            ('fed-rate 1\n', f"series 1, fed-rate{{}}, cannot be exported: byte 4 of its name is '-'; {name}"),
            ('9 1\n', f"series 1, 9{{}}, cannot be exported: byte 1 of its name is '9'; {name}"),
            ('fedé 1\n', f"series 1, fedé{{}}, cannot be exported: byte 4 of its name is hexadecimal c3, the first of 'é'; {name}"),
            ('a{"press no."="A"} 1\n', 'series 1, a{"press no."="A"}, cannot be exported: '
             f"byte 6 of its key \"press no.\" is ' '; {key}"),
            ('a{b:c="A"} 1\n', f"series 1, a{{b:c=\"A\"}}, cannot be exported: byte 2 of its key \"b:c\" is ':'; {key}"),
            (header + 'a 1 2 3\nb 1 - 2e12\n',
             f'series 2, b{{}}, cannot be exported: its reading 3, of 2026-03-02T08:00Z, is 2000000000000; {size}'),
            ('a 1 -1099511627776 1e300\n', f'series 1, a{{}}, cannot be exported: its reading 2 is -1099511627776; {size}'),
            ('a inf\n', f'series 1, a{{}}, cannot be exported: its reading 1 is inf; {size}'),
            ('a 1\n' * 513, 'the vector has 513 series; a vector has at most 512'),
        ]:
            with self.subTest(text[-20:]):
                self.assertEqual(self.run_on([], {'a.txt': text}, '--export'), (1, '', f'refused: {words}\n'))
        self.assertEqual(self.run_on([], {'a.txt': 'a 6e11\nb 6e11\n'}, '--export', '--total'), (
            1, '', f'refused: series 1, total{{}}, cannot be exported: its reading 1 is 1200000000000; {size}\n'))
        self.assertEqual(self.quoted('+', header + 'a 1\n', 'a 1\n', '--export')[:2], (1, ''))

    def test_refusals_in_words(self):
        """Each refusal that a file and a query as people write them can get."""
        bare = 'a{f="1"} 1 1 1\na{f="2"} 1 1 1\n'
        many = ''.join(f'a{{f="{i}"}} 1\n' for i in range(513))
        tags = 'a{' + ','.join(f't{i:02}="1"' for i in range(33)) + '} 1\n'
        for query, left, right, words in [
            ('^', 'a 1\n', 'a 1\n', '^ is no operator that is carried'),
            ('+', many, 'a 1\n', 'the left vector has 513 series; a vector has at most 512'),
            ('+', 'a 1\n', 'a' + ' 1' * 1025 + '\n', 'the right vector has 1025 points; a vector has at most 1024'),
            ('+', 'b 1\n' + tags, 'a 1\n', 'left series 2, ' + tags[:-3] + ', has more than 32 tags'),
            ('+ on()', bare, 'b 1 1 1\n', 'left series 1, a{f="1"}, cannot be merged into left series 2, a{f="2"}: '
             'they have the same key, and its readings overlap those merged so far at more points than the 2 allowed; '
             'overlap(N) in the query allows N, up to 8'),
            ('+ on() overlap(1)', 'b 1 1 1\n', bare, 'right series 1, a{f="1"}, cannot be merged into right series 2, a{f="2"}: '
             'they have the same key, and its readings overlap those merged so far at more points than the 1 allowed; '
             'overlap(N) in the query allows N, up to 8'),
            ('or', many.partition('\n')[2], 'b 1\n', 'the answer has over 512 series, 32 tags in a series or 65,535 label bytes'),
        ]:
            with self.subTest(words[:40]):
                self.assertEqual(self.quoted(query, left, right), (1, f'refused: {words}\n', ''))

    def test_a_year_is_priced_in_seconds(self):
        """256 series of 1,024 points on both sides, far beyond what vecop takes. It takes some 0.4 s; the bound is for slower machines."""
        random.seed(3)
        files = []
        for name in 'fed', 'waste':
            rows = ([f'{random.uniform(1, 2000):.2f}' if random.random() < .8 else '-' for _ in range(1024)] for _ in range(256))
            lines = (f'{name}{{press="{i // 8}",form="{i % 8}"}} {" ".join(row)}\n' for i, row in enumerate(rows))
            files.append('from 2026-01-01 every 8h\n' + ''.join(lines))
        begun = time.process_time()
        status, text, _ = self.quoted('/ on(press, form)', *files)
        self.assertLess(time.process_time() - begun, 3)
        self.assertEqual((status, len(text.splitlines())), (0, 258))
        left, right = (line.split()[1:] for line in (files[0].splitlines()[77], files[1].splitlines()[77]))
        by_hand = ['-' if '-' in pair else format(float(pair[0]) / float(pair[1]), '.12g') for pair in zip(left, right)]
        self.assertEqual(text.splitlines()[78].split()[1:], by_hand)

    def test_mistakes_end_in_2(self):
        status, _, errors = self.quoted('+', 'a 1\nb x\n', 'a 1\n')
        self.assertEqual(status, 2)
        self.assertIn("left.txt:2: 'x' is neither a number nor -", errors)


if __name__ == '__main__':
    unittest.main()
