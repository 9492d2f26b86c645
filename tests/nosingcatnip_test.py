"""Tests of the Python module, over the shared library: what it encodes is held against the encoder of the test data, what it answers
against the scope document's examples and plain arithmetic."""
import _ctypes
import doctest
import functools
import math
import operator
import os
import random
import shutil
import struct
import subprocess
import sys
import tempfile
import unittest
from array import array

import built
import nosingcatnip
import wire
from nosingcatnip import Refusal, Vector, encode_aggregation, encode_query, exec_aggregate, exec_binop, export_text

HOUR = nosingcatnip.HOUR


def bits(readings):
    return [wire.bits(x) for x in readings]


class Bytes(unittest.TestCase):
    def test_vectors(self):
        labels = [{'__name__': 'fed', 'press': 'A', 'form': '1'}, {}, {b'b': b'\xff', 'a': ''}, {'é': 'ü', '__name__': ''}]
        records = [wire.record(b'fed', [(b'form', b'1'), (b'press', b'A')]), wire.record(b''),
                   wire.record(b'', [(b'a', b''), (b'b', b'\xff')]), wire.record(b'', [('é'.encode(), 'ü'.encode())])]
        vector = Vector(labels, [[1, None]] * 4, 1772431200000, 900000)
        self.assertEqual(vector.part, wire.label_part(4, 2, records, 1772431200000, 900000))
        self.assertEqual(vector.readings.tobytes(), 4 * wire.readings([wire.bits(1), wire.MISSING]))
        self.assertEqual(vector.labels, [{'__name__': 'fed', 'form': '1', 'press': 'A'}, {}, {'a': '', 'b': '\udcff'}, {'é': 'ü'}])
        self.assertEqual(Vector(vector.labels, vector.rows, vector.start, vector.step).part, vector.part)

    def test_tags_are_in_the_order_of_their_bytes(self):
        keys = ['\U00010000', '\uffff', 'Z', 'a', 'aa', '\udcff']
        vector = Vector([dict.fromkeys(keys, '')], [[]])
        in_order = sorted(key.encode('utf-8', 'surrogateescape') for key in keys)
        self.assertEqual(vector.part, wire.label_part(1, 0, [wire.record(b'', [(key, b'') for key in in_order])]))

    def test_the_longest_fields(self):
        long = 'x' * 255
        vector = Vector([{'__name__': long, long: long}], [[]])
        self.assertEqual(vector.part[wire.SIZES:], wire.record(long.encode(), [(long.encode(), long.encode())]))
        for labels in {'__name__': 'x' * 256}, {'x' * 256: ''}, {'a': 'x' * 256}, {'a': 'é' * 128}:
            with self.assertRaisesRegex(ValueError, '^series 2: .* is longer than 255 bytes'):
                Vector([{}, labels], [[], []])

    def test_what_no_label_part_can_say(self):
        for what, arguments in {
            'a tag stands twice': ([{'a': '1', b'a': '2'}], [[]]),
            'more than 255 tags': ([{f'{i:03}': '' for i in range(256)}], [[]]),
            '65536 series': ([{}] * 65536, [[]] * 65536),
            'with 65536 label bytes': ([{}] * 32768, [[]] * 32768),
            'of 65536 points': ([{}], [[1] * 65536]),
            'from -1 ': ([], [], -1),
            'from 18446744073709551616 ': ([], [], 2**64),
            'every 4294967296:': ([], [], 0, 2**32),
            'row 2 has 1 readings, not 2': ([{}, {}], [[1, 2], [3]]),
        }.items():
            with self.subTest(what), self.assertRaisesRegex(ValueError, what):
                Vector(*arguments)

    def test_rows_of_the_points_that_are_told(self):
        with self.assertRaisesRegex(ValueError, 'row 1 has 2 readings, not 3'):
            Vector([{}], [[1, 2]], points=3)
        self.assertEqual(Vector([], [], points=3).part, wire.label_part(0, 3, []))

    def test_queries_in_the_encoder_s_words(self):
        for number, operator in enumerate(wire.OPERATORS):
            self.assertEqual(encode_query(operator), wire.query(number))
            self.assertEqual(encode_query(operator.upper()), wire.query(number))
        whole = wire.query(wire.SUB, wire.IGNORING, wire.GROUP_RIGHT, wire.KEEP_NAMES | wire.BOOL, [b'a', b'press no.'], [b'*'], 0)
        self.assertEqual(encode_query('- ignoring(a, "press no.") group_right(*) bool keep_metric_names overlap(0)'), whole)
        self.assertEqual(encode_query(r'+ on("a\"b\\c\nd", "é")'), wire.query(wire.ADD, wire.ON, 0, 0, [b'a"b\\c\nd', 'é'.encode()]))
        listed = [f'l{i}' for i in range(32)]
        self.assertEqual(encode_query(f'+ on({",".join(listed)})'), wire.query(wire.ADD, wire.ON, 0, 0, [x.encode() for x in listed]))
        for text, what in [('+ on(' + ','.join(listed) + ',x)', 'more than 32 labels'), (f'+ on({"x" * 256})', 'longer than 255 bytes'),
                           ('+ on("")', 'a label is empty'), ('+ on("a)', 'cannot read'), ('+ on(a)(b)', r"did not expect '\('")]:
            with self.subTest(text[:9]), self.assertRaisesRegex(ValueError, what):
                encode_query(text)


    def test_aggregations_in_the_encoder_s_words(self):
        for number, name in enumerate(wire.AGGREGATES):
            self.assertEqual(encode_aggregation(name), wire.aggregation(number))
            by = wire.aggregation(number, wire.BY, [b'a', b'press no.'])
            self.assertEqual(encode_aggregation(f'{name.upper()} by (a, "press no.")'), by)
            self.assertEqual(encode_aggregation(f'{name} without(__name__)'), wire.aggregation(number, wire.WITHOUT, [b'__name__']))
        for text, what in [('', "'' is no aggregate"), ('median', "'median' is no aggregate"), ('sum over (a)', "did not expect 'over'"),
                           ('sum by', r'\( is missing after by'), ('sum by (a', r'\) is missing after by'),
                           ('sum by (a) b', "did not expect 'b'"), ('sum (a)', r"did not expect '\('"),
                           ('sum by ("")', 'a label is empty'), (f'sum by ({"x" * 256})', 'longer than 255')]:
            with self.subTest(text[:9]), self.assertRaisesRegex(ValueError, f'^query: .*{what}'):
                encode_aggregation(text)


class Buffers(unittest.TestCase):
    """Rows that lie in buffers are lent as they are."""

    def test_buffers_are_not_copied(self):
        for rows in array('d', range(6)), memoryview(array('d', range(6))), memoryview(bytes(48)).cast('d'):
            with self.subTest(type(rows)):
                vector = Vector([{}, {}], rows)
                self.assertEqual((len(vector), vector.points), (2, 3))
                with nosingcatnip._Lent() as lent:
                    self.assertEqual(lent.part(vector.readings, 8), lent.part(rows, 8))

    def test_two_dimensions(self):
        grid = memoryview(bytearray(struct.pack('6d', *range(6)))).cast('B').cast('d', (2, 3))
        vector = Vector([{}, {}], grid)
        self.assertEqual((vector.points, [row.tolist() for row in vector.rows]), (3, [[0, 1, 2], [3, 4, 5]]))
        with nosingcatnip._Lent() as lent:
            self.assertEqual(lent.part(vector.readings, 8), lent.part(grid, 8))

    def test_other_formats_are_no_readings(self):
        for rows in array('f', [1]), array('q', [1]), array('Q', [1]), b'12345678':
            with self.subTest(rows), self.assertRaisesRegex(TypeError, 'readings are 64-bit floats'):
                Vector([{}], rows)
        with self.assertRaisesRegex(ValueError, 'do not lie one behind the other'):
            Vector([{}], memoryview(array('d', range(6)))[::2])

    def test_numpy(self):
        try:
            import numpy
        except ImportError:
            self.skipTest('numpy is not there')
        rows = numpy.arange(6.0).reshape(2, 3)
        rows.flags.writeable = False
        vector = Vector([{}, {}], rows)
        with nosingcatnip._Lent() as lent:
            self.assertEqual(lent.part(vector.readings, 8), (rows.ctypes.data, 6, 8))
        with self.assertRaises(ValueError):
            Vector([{}] * 3, rows.T)
        with self.assertRaises(TypeError):
            Vector([{}, {}], rows.astype('f'))
        self.assertEqual(Vector([], numpy.zeros((0, 3))).points, 3)
        self.assertEqual(numpy.asarray(vector.rows[1]).tolist(), [3, 4, 5])


FED, WASTE = Vector([{'__name__': 'fed', 'press': 'A'}], [[10, None, 6]]), Vector([{'__name__': 'waste', 'press': 'A'}], [[2, 1, 3]])


@built.needs_library
class Calls(unittest.TestCase):
    def test_docstrings(self):
        failed, tried = doctest.testmod(nosingcatnip)
        self.assertEqual(failed, 0)
        self.assertGreater(tried, 12)

    def test_the_scope_document_s_example(self):
        answer = exec_binop('/', FED, WASTE)
        self.assertEqual((answer.part, bits(answer.readings)), (
            wire.label_part(1, 3, [wire.record(b'', [(b'press', b'A')])]), [0x4014000000000000, wire.MISSING, 0x4000000000000000]))
        self.assertEqual((str(answer), repr(answer)), ('{press="A"} 5 - 2', '<Vector of 1 series, 3 points from 0 every 3600000 ms>'))

    def test_an_answer_is_a_vector(self):
        half = exec_binop('/', FED, Vector([{'press': 'A'}], array('d', [2, 2, 2])))
        self.assertEqual([(labels, bits(row)) for labels, row in exec_binop('*', half, WASTE)], [({'press': 'A'}, bits([10, None, 9]))])

    def test_labels_that_are_no_utf_8(self):
        odd = Vector([{b'\xff': b'\xc3\x28', 'a': '\x00'}], [[1]])
        answer = exec_binop('+', odd, odd)
        self.assertEqual(answer.labels, odd.labels)
        self.assertEqual(answer.part, odd.part)
        self.assertEqual(nosingcatnip.label_text(answer.labels[0]), r'{a="' + '\x00' + r'","\\xff"="\\xc3("}')

    def test_changes_of_a_buffer_are_seen(self):
        rows = array('d', [1, 2])
        vector = Vector([{}], rows)
        rows[1] = 7
        self.assertEqual(list(exec_binop('+', vector, vector).readings), [2, 14])

    def test_the_answer_may_lie_in_lent_buffers(self):
        labels, out = bytearray(b'\xbb' * 14), array('d', [9] * 5)
        answer = exec_binop('/', FED, WASTE, labels, out)
        self.assertEqual((bytes(labels), bits(out)), (wire.record(b'', [(b'press', b'A')]) + b'\xbb' * 4, bits([5, None, 2, 9, 9])))
        out[0] = 8
        self.assertEqual(answer.rows[0][0], 8)
        for labels, out in (bytearray(b'\xbb' * 9), array('d', [9] * 3)), (bytearray(b'\xbb' * 10), array('d', [9] * 2)):
            before = bytes(labels), bits(out)
            with self.assertRaises(Refusal) as told:
                exec_binop('/', FED, WASTE, labels, out)
            self.assertEqual((told.exception.number, bytes(labels), bits(out)), (10, *before))
        labels, out = bytearray(10), array('d', [0] * 3)
        self.assertEqual(str(exec_binop('/', FED, WASTE, labels, out)), '{press="A"} 5 - 2')

    def test_lent_buffers_lie_apart(self):
        rows = array('d', [10, 5, 6])
        fed = Vector(FED.labels, rows)
        both = bytearray(128)
        for labels, out in (None, rows), (None, memoryview(rows)[2:]), (memoryview(both)[:80], memoryview(both)[64:].cast('d')):
            with self.assertRaisesRegex(ValueError, 'lies over another part'):
                exec_binop('/', fed, WASTE, labels, out)
        answer = exec_binop('/', fed, WASTE, memoryview(both)[:64], memoryview(both)[64:].cast('d'))
        self.assertEqual(str(answer), '{press="A"} 5 5 2')
        with self.assertRaises(BufferError):
            exec_binop('/', FED, WASTE, bytes(64))
        with self.assertRaisesRegex(ValueError, 'no multiple of 8'):
            exec_binop('/', FED, WASTE, None, memoryview(bytearray(64))[4:44].cast('d'))

    def test_vectors_without_series_or_points(self):
        nothing = Vector([], [], points=2)
        some = Vector([{'a': '1'}], [[1, 2]])
        self.assertEqual((len(exec_binop('+', nothing, some)), str(exec_binop('or', nothing, some))), (0, '{a="1"} 1 2'))
        empty = Vector([{'a': '1'}], [[]])
        self.assertEqual([(labels, list(row)) for labels, row in exec_binop('or', empty, empty)], [({'a': '1'}, [])])

    def test_every_form_gets_the_shared_rate(self):
        forms = Vector([{'press': 'A', 'form': str(i)} for i in range(1, 7)], [[i, None] for i in range(1, 7)])
        answer = exec_binop('* on(press) group_left()', forms, Vector([{'press': 'A'}], [[0.5, 1]]))
        self.assertEqual([(labels['form'], row[0]) for labels, row in answer], [(str(i), i / 2) for i in range(1, 7)])

    def test_a_join_writes_its_records_bytes_and_no_others(self):
        forms = Vector([{'press': 'A', 'form': '1', 'stock': 'x'}, {'press': 'A', 'form': '2'}], [[1], [2]])
        rates = Vector([{'press': 'A', 'size': '9', 'stock': 'gloss'}], [[3]])
        for query, tags in {'* on(press) group_left(stock)': [(b'press', b'A'), (b'stock', b'gloss')],
                            '* on(press) group_left(*)': [(b'press', b'A'), (b'size', b'9'), (b'stock', b'gloss')]}.items():
            records = b''.join(wire.record(b'', [(b'form', form), *tags]) for form in (b'1', b'2'))
            for behind in 0, 1, 7:
                labels, out = bytearray(b'\xbb' * (len(records) + behind)), array('d', [9] * 3)
                exec_binop(query, forms, rates, labels, out)
                self.assertEqual((bytes(labels), list(out)), (records + b'\xbb' * behind, [3, 6, 9]))
            for room, points in (len(records) - 1, 2), (len(records), 1), (0, 2):
                labels, out = bytearray(b'\xbb' * room), array('d', [9] * points)
                with self.assertRaises(Refusal) as told:
                    exec_binop(query, forms, rates, labels, out)
                self.assertEqual((told.exception.number, bytes(labels), list(out)), (10, b'\xbb' * room, [9] * points))

    def test_tags_are_compared_as_they_are_edited(self):
        form = Vector([{'x': '1'}], [[2, 2, 2]])
        rates = Vector([{'x': '1'}, {}], [[1, None, None], [None, 3, None]])
        self.assertEqual(str(exec_binop('* on() group_left(*)', form, rates)), '{x="1"} 2 6 -')
        self.assertEqual(str(exec_binop('* on() group_left(x)', form, rates)), '{x="1"} 2 - -\n{} - 6 -')

    def test_aggregates(self):
        vector = Vector([{'__name__': 'a', 'p': 'A', 'f': '1'}, {'p': 'B'}, {'__name__': 'b', 'p': 'A', 'f': '2'}],
                        [[1, None, -0.0, math.inf], [2, 3, None, 1], [4, None, None, -math.inf]], 60000, 1000)
        for request, series in {
            'sum by (p)': [({'p': 'A'}, [5, None, -0.0, None]), ({'p': 'B'}, [2, 3, None, 1])],
            'min by (p)': [({'p': 'A'}, [1, None, -0.0, -math.inf]), ({'p': 'B'}, [2, 3, None, 1])],
            'max without (f)': [({'p': 'A'}, [4, None, -0.0, math.inf]), ({'p': 'B'}, [2, 3, None, 1])],
            'count': [({}, [3, 1, 1, 3])],
            'avg by (__name__)': [({'__name__': 'a'}, [1, None, -0.0, math.inf]), ({}, [2, 3, None, 1]),
                                  ({'__name__': 'b'}, [4, None, None, -math.inf])],
            'sum by (*)': [({}, [7, 3, -0.0, None])],
        }.items():
            with self.subTest(request):
                answer = exec_aggregate(request, vector)
                self.assertEqual([(labels, bits(row)) for labels, row in answer], [(labels, bits(row)) for labels, row in series])
                self.assertEqual((answer.start, answer.step), (60000, 1000))
        self.assertEqual(len(exec_aggregate('sum', Vector([], [], points=4))), 0)

    def test_texts(self):
        labels = [{'__name__': 'fed', 'press': 'A', 'form': 'é "1"\\\n'}, {'__name__': ':idle'}, {'__name__': 'x', 'a': ''}]
        rows = [[1000, None, 0.0625], [None] * 3, [-0.0625, -0.0, 2**40 - 0.5]]
        text = ('fed{form="é \\"1\\"\\\\\\n",press="A"} 1000.000 7\nfed{form="é \\"1\\"\\\\\\n",press="A"} 0.063 11\n'
                'x{a=""} -0.063 7\nx{a=""} 0.000 9\nx{a=""} 1099511627775.500 11\n').encode()
        vector = Vector(labels, rows, 7, 2)
        self.assertEqual(export_text(vector), text)
        for more in 0, 1, 9:
            out = bytearray(b'\xbb' * (len(text) + more))
            self.assertEqual((bytes(export_text(vector, out)), bytes(out)), (text, text + b'\xbb' * more))
        for room in 0, 1, len(text) - 1:
            out = bytearray(b'\xbb' * room)
            with self.assertRaises(Refusal) as told:
                export_text(vector, out)
            self.assertEqual((told.exception.number, told.exception.fields, bytes(out)), (10, (0, 0), b'\xbb' * room))
        for nothing in Vector([], [], points=3), Vector([{'__name__': 'x'}], [[]]), Vector([{'__name__': 'x'}], [[None, math.nan]]):
            self.assertEqual((export_text(nothing), bytes(export_text(nothing, bytearray()))), (b'', b''))
        answer = exec_binop('/ keep_metric_names', FED, WASTE)
        self.assertEqual(export_text(answer), b'fed{press="A"} 5.000 0\nfed{press="A"} 2.000 7200000\n')
        rows = array('d', range(3))
        with self.assertRaisesRegex(ValueError, 'lies over another part'):
            export_text(Vector([{'__name__': 'x'}], rows), memoryview(rows).cast('B'))

    def test_the_longest_texts_have_room(self):
        """The longest name, tags, values and times, each byte of a value escaped; 512 series; and 1,024 points."""
        tags = {'k' * 255: '\\' * 255, 'l': '\n' * 255, **{f'm{i}': '"' for i in range(30)}}
        grid = nosingcatnip.MAX_START, nosingcatnip.MAX_STEP
        most = -math.nextafter(2**40, 0)
        tagged, bare = {'__name__': 'n' * 255, **tags}, [{'__name__': 'n'}] * 512
        for labels, points in ([tagged], 1024), ([tagged] * 50, 3), (bare, 2), ([{'__name__': 'n', 'k': ''}] * 512, 1):
            lines = export_text(Vector(labels, [[most] * points] * len(labels), *grid)).splitlines()
            self.assertEqual(len(lines), len(labels) * points)
            self.assertEqual(lines[points - 1].split()[-2:], [b'-1099511627776.000', str(grid[0] + (points - 1) * grid[1]).encode()])

    def test_the_largest_aggregate(self):
        """512 series of 1,024 points in 8 groups, against a plain reading."""
        random.seed(8)
        rows = [[None if random.random() < .25 else random.uniform(-1e6, 1e6) for _ in range(1024)] for _ in range(512)]
        vector = Vector([{'group': str(i % 8), 'n': str(i)} for i in range(512)], rows)
        columns = [[[x for x in column if x is not None] for column in zip(*rows[group::8])] for group in range(8)]
        for request, plain in ('sum', functools.partial(functools.reduce, operator.add)), ('min', min), ('max', max), ('count', len):
            answer = exec_aggregate(f'{request} by (group)', vector)
            self.assertEqual([bits(row) for row in answer.rows], [bits(map(plain, group)) for group in columns])

    def test_the_largest_vectors(self):
        """512 series of 1,024 points on both sides, 65,535 label bytes on each."""
        random.seed(7)
        # a record has 127 bytes and one 638: 511 times 127 and 638 are 65,535
        labels = [{'n': f'{i:03}', 'x' * 117: ''} for i in range(511)] + [{'n': '511', 'x' * 255: 'y' * 255, 'z': 'w' * 115}]
        rows = [array('d', (math.nan if random.random() < .25 else random.uniform(-1e6, 1e6) for _ in range(512 * 1024))) for _ in range(2)]
        left, right = (Vector(order, row) for order, row in zip((labels, labels[::-1]), rows))
        self.assertEqual((len(left), left.points, len(left.part)), (512, 1024, wire.SIZES + 65535))
        answer = exec_binop('-', left, right)
        self.assertEqual(answer.part, left.part)
        for place in 0, 1, 255, 511:
            theirs = right.rows[511 - place]
            self.assertEqual(bits(answer.rows[place]), bits(x - y for x, y in zip(left.rows[place], theirs)))
        again = exec_binop('or', left, right)
        self.assertEqual(again.part, left.part)
        self.assertEqual(bits(again.rows[511]), bits(y if x != x else x for x, y in zip(left.rows[511], right.rows[0])))
        halves = [Vector(labels[:256], memoryview(rows[0])[:256 * 1024]), Vector(labels[256:], memoryview(rows[0])[256 * 1024:])]
        self.assertEqual(exec_binop('or', *halves).readings.tobytes(), rows[0].tobytes())

    def test_without_the_library(self):
        code = 'import nosingcatnip as n; v = n.Vector([], []); n.exec_binop("+", v, v)'

        def said(library):
            path = {**os.environ, 'PYTHONPATH': folder, 'NOSINGCATNIP_LIBRARY': library}
            return subprocess.run([sys.executable, '-B', '-c', code], env=path, capture_output=True, text=True, check=False).stderr
        with tempfile.TemporaryDirectory() as top:
            folder, beside = os.path.join(top, 'a', 'b'), os.path.join(top, 'a', 'b', 'libnosingcatnip.so')
            os.makedirs(folder)
            shutil.copy(nosingcatnip.__file__, folder)
            self.assertIn('bindings/build makes it', said('').splitlines()[-1])
            self.assertIn('has no nosingcatnip_exec_binop; bindings/build makes', said(_ctypes.__file__).splitlines()[-1])
            os.symlink(built.LIBRARY, beside)
            self.assertEqual(said(''), '')
            os.rename(beside, os.path.join(top, 'other.so'))
            self.assertEqual(said(os.path.join(top, 'other.so')), '')


def bare(rows, **grid):
    return Vector([{'f': str(place)} for place in range(len(rows))], rows, **grid)


@built.needs_library
class Refusals(unittest.TestCase):
    """Each number of the scope document, with its fields and its words."""

    def told(self, number, fields, words, query, left, right, **lent):
        with self.assertRaises(Refusal) as told:
            exec_binop(query, left, right, **lent)
        self.assertEqual((told.exception.number, told.exception.fields, str(told.exception)), (number, fields, words))

    def test_queries(self):
        one = bare([[1]])
        self.told(1, (0, 0), '^ is no operator that is carried', '^', one, one)
        self.told(1, (0, 0), 'atan2 is no operator that is carried', 'atan2 on(f)', one, one)
        self.told(1, (0, 0), '19 is no operator that is carried', wire.query(19), one, one)
        for query in b'', wire.query(wire.ADD)[:-1], wire.query(wire.ADD) + b'\0', wire.query(wire.ADD, 3), wire.query(wire.ADD, 0, 0, 4):
            self.told(2, (0, 0), 'the query is malformed', query, one, one)
        for allowance in 9, 255:
            words = f'the query allows {allowance} overlapping points; 8 are the most'
            self.told(13, (0, 0), words, wire.query(wire.ADD, allowance=allowance), one, one)

    def test_vectors(self):
        one = bare([[1]])
        many = bare([[1]] * 513)
        long = bare([[1] * 1025])
        tagged = Vector([{'f': '0'}, {str(i): '' for i in range(33)}], [[1], [2]])
        unkeyed = Vector([{'f': '0'}, {'__name__': 'fed', '': 'x'}], [[1], [2]])
        cut = Vector([{'f': '0'}, {'f': '1'}], array('d', range(5)), points=2)
        early = Vector([], [], start=2**52 + 1)
        shown = '{' + ','.join(f'{i}=""' for i in sorted(map(str, range(33)))) + '}'
        for number, place, what, side in [
            (3, 0, 'the {} vector has 513 series; a vector has at most 512', many),
            (3, 0, 'the {} vector has 1025 points; a vector has at most 1024', long),
            (3, 1, '{} series 2, ' + shown.replace('{', '{{').replace('}', '}}') + ', has more than 32 tags', tagged),
            (4, 1, '{} series 2, fed{{""="x"}}, has a tag with an empty key', unkeyed),
            (5, 0, 'the {} vector has 5 readings; 2 series of 2 points have 4', cut),
            (11, 0, 'the {} vector starts at 4503599627370497; a start is 0 to 4503599627370496, in milliseconds', early),
            (11, 0, 'the {} vector has the step 0; a step is 1 to 86400000, in milliseconds', Vector([], [], step=0)),
            (11, 0, 'the {} vector has the step 86400001; a step is 1 to 86400000, in milliseconds', Vector([], [], step=86400001)),
        ]:
            self.told(number, (0, place), what.format('left'), '+', side, one)
            self.told(number, (1, place), what.format('right'), '+', one, side)

    def test_sides(self):
        self.told(6, (0, 0), 'the two sides have different numbers of points: the left 1, the right 2', '+', bare([[1]]), bare([[1, 2]]))
        self.told(12, (0, 0), 'the two sides have different times: the left from 0 every 3600000 ms, the right from 5 every 3600000 ms',
                  '+', bare([[1]]), bare([[1]], start=5))

    def test_duplicates(self):
        twice, one = bare([[1, 2, 3], [4, 5, 6]]), Vector([{}], [[0, 0, 0]])
        key = '{0} series 1, {{f="0"}}, cannot be merged into {0} series 2, {{f="1"}}: they have the same key, and '
        over = 'its readings overlap those merged so far at more points than the {} allowed'
        more = '; overlap(N) in the query allows N, up to 8'
        self.told(7, (1, 0), key.format('left') + over.format(2) + more, '+ on()', twice, one)
        self.told(8, (1, 0), key.format('right') + over.format(0) + more, '+ on() overlap(0)', one, twice)
        nine = Vector([{'f': '0'}, {'f': '1'}], [[1] * 9] * 2)
        self.told(7, (1, 0), key.format('left') + over.format(8), '+ on() overlap(8)', nine, Vector([{}], [[1] * 9]))
        short = bare([[1, None], [None, 1]])
        never = 'series of two points or fewer are never merged'
        self.told(7, (1, 0), key.format('left') + never, '+ on()', short, Vector([{}], [[1, 1]]))

    def test_aggregates(self):
        def told(number, fields, words, request, vector, **lent):
            with self.assertRaises(Refusal) as told:
                exec_aggregate(request, vector, **lent)
            self.assertEqual((told.exception.number, told.exception.fields, str(told.exception)), (number, fields, words))
        one = bare([[1]])
        for byte in 5, 255:
            told(14, (0, 0), f'{byte} is the number of no aggregate', bytes([byte]), one)
        for request in b'', b'\0', b'\0\2\0', b'\0\0\0\0', b'\0\0\1':
            told(2, (0, 0), 'the query is malformed', request, one)
        told(3, (0, 0), 'the vector has 513 series; a vector has at most 512', 'sum', bare([[1]] * 513))
        told(4, (0, 1), 'series 2, {""="x"}, has a tag with an empty key', 'sum', Vector([{}, {'': 'x'}], [[1], [2]]))
        told(5, (0, 0), 'the vector has 3 readings; 1 series of 2 points have 2', 'sum', Vector([{}], array('d', [1, 2, 3]), points=2))
        told(11, (0, 0), 'the vector has the step 0; a step is 1 to 86400000, in milliseconds', 'sum', Vector([], [], step=0))
        told(10, (0, 0), 'the answer is longer than what was lent for it', 'sum', one, out=array('d'))

    def test_texts(self):
        def told(number, place, words, labels, rows, *grid, **lent):
            with self.assertRaises(Refusal) as told:
                export_text(Vector(labels, rows, *grid), **lent)
            self.assertEqual((told.exception.number, told.exception.fields, str(told.exception)), (number, (0, place), words))
        name = 'a name has ASCII letters, digits, _ and :, and no digit first'
        key = 'a key has ASCII letters, digits and _, and no digit first'
        for labels, shown, words in [
            ({}, '{}', 'it has no name'),
            ({'__name__': '', 'a': '1'}, '{a="1"}', 'it has no name'),
            ({'__name__': '0x'}, '0x{}', f"byte 1 of its name is '0'; {name}"),
            ({'__name__': 'a b'}, 'a b{}', f"byte 2 of its name is ' '; {name}"),
            ({'__name__': 'aé€'}, 'aé€{}', f"byte 2 of its name is hexadecimal c3, the first of 'é'; {name}"),
            ({'__name__': b'a\xe9b'}, 'a\\xe9b{}', f'byte 2 of its name is hexadecimal e9; {name}'),
            ({'__name__': 'a\0'}, 'a\0{}', f'byte 2 of its name is hexadecimal 00; {name}'),
            ({'__name__': 'a', 'b': '', 'c:d': ''}, 'a{b="",c:d=""}', f'byte 2 of its key "c:d" is \':\'; {key}'),
            ({'__name__': 'a', '1': ''}, 'a{1=""}', f'byte 1 of its key "1" is \'1\'; {key}'),
            ({'__name__': 'a', 'b': b'\xff', 'c.': ''}, r'a{b="\\xff",c.=""}',
             'the value of its tag b is not UTF-8 from byte 1 on, hexadecimal ff'),
            ({'__name__': 'a', 'b': b'x\xed\xa0\x80'}, r'a{b="x\\xed\\xa0\\x80"}',
             'the value of its tag b is not UTF-8 from byte 2 on, hexadecimal ed'),
        ]:
            with self.subTest(shown):
                told(15, 1, f'series 2, {shown}, cannot be exported: {words}', [{'__name__': 'x'}, labels, {}], [[1], [2**41], [1]])
                told(15, 0, f'series 1, {shown}, cannot be exported: {words}', [labels], [[None]], out=bytearray())
        for reading, shown in (2**40, '1099511627776'), (-math.inf, '-inf'), (-2.5e300, '-2.5e+300'):
            words = f'its reading 3, at 11 ms, is {shown}; an exported reading is below 1099511627776, 2 to the 40th, in size'
            told(16, 1, 'series 2, b{}, cannot be exported: ' + words, [{'__name__': 'a'}, {'__name__': 'b'}, {}],
                 [[1, 2, 3], [1, None, reading], [1, 2, 3]], 7, 2)
        told(10, 0, 'the text is longer than what was lent for it', [{'__name__': 'a'}], [[1]], out=bytearray(9))
        told(3, 0, 'the vector has 513 series; a vector has at most 512', [{}] * 513, [[]] * 513)
        told(4, 1, 'series 2, {""="x"}, has a tag with an empty key', [{}, {'': 'x'}], [[1], [2]])
        told(11, 0, 'the vector has the step 0; a step is 1 to 86400000, in milliseconds', [{}], [[]], 0, 0)
        with self.assertRaises(Refusal) as cut:
            export_text(Vector([{}], array('d', [1, 2, 3]), points=2))
        self.assertEqual((cut.exception.number, str(cut.exception)), (5, 'the vector has 3 readings; 1 series of 2 points have 2'))

    def test_answers(self):
        over = 'the answer has over 512 series, 32 tags in a series or 65,535 label bytes'
        self.told(9, (0, 0), over, 'or', bare([[1]] * 512), Vector([{'f': 'x'}], [[1]]))
        lent = 'the answer is longer than what was lent for it'
        self.told(10, (0, 0), lent, 'or', bare([[1]]), bare([[1]]), out=array('d'))
        self.told(10, (0, 0), lent, 'or', bare([[1]]), bare([[1]]), out_labels=bytearray(5))

    def test_a_refusal_is_a_value_error(self):
        with self.assertRaises(ValueError):
            exec_binop('^', FED, WASTE)


if __name__ == '__main__':
    unittest.main()
