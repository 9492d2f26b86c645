"""Labelled vector operators over series with gaps: the proved library, from Python.

A vector has a mapping of labels and a row of readings for each of its series; None or NaN is a missing reading. A query
is written as people write it:

>>> import nosingcatnip
>>> fed = nosingcatnip.Vector([{'__name__': 'fed', 'press': 'A'}], [[10, None, 6]])
>>> waste = nosingcatnip.Vector([{'__name__': 'waste', 'press': 'A'}], [[2, 1, 3]])
>>> answer = nosingcatnip.exec_binop('/ on(press)', fed, waste)
>>> print(answer)
{press="A"} 5 - 2
>>> answer.labels
[{'press': 'A'}]
>>> [row.tolist() for row in answer.rows]
[[5.0, nan, 2.0]]

Where there is no answer there is one refusal, with the scope document's number and fields (docs/SCOPE.md, "Numbers"), in words:

>>> twice = nosingcatnip.Vector([{'form': '1'}, {'form': '2'}], [[1, 2, 3], [4, 5, 6]])
>>> nosingcatnip.exec_binop('+ on()', twice, waste)
Traceback (most recent call last):
    ...
nosingcatnip.Refusal: left series 1, {form="1"}, cannot be merged into left series 2, {form="2"}: they have the same \
key, and its readings overlap those merged so far at more points than the 2 allowed; overlap(N) in the query allows N, \
up to 8

An aggregate is taken over one vector, by labels that are kept or without labels that are removed:

>>> print(nosingcatnip.exec_aggregate('sum without (form)', twice))
{} 5 7 9

Rows may lie in any buffer of 64-bit floats, an array or a numpy array: they are read where they lie, not copied.

>>> from array import array
>>> rate = nosingcatnip.Vector([{}], array('d', [0.5, 0.5, 0.25]))
>>> print(nosingcatnip.exec_binop('* on() group_left()', twice, rate))
{form="1"} 0.5 1 0.75
{form="2"} 2 2.5 1.5

A vector can be written as the text that Prometheus reads, in bytes:

>>> print(nosingcatnip.export_text(fed).decode(), end='')
fed{press="A"} 10.000 0
fed{press="A"} 6.000 7200000

The module is this one file, over a shared library that `bindings/build` makes: the file that NOSINGCATNIP_LIBRARY names,
else libnosingcatnip.so beside this file, else in target/sharedlib of the repository. It is loaded at the first call.
"""
import contextlib
import ctypes
import functools
import math
import os
import re
import struct
from array import array

__all__ = ['Refusal', 'Vector', 'encode_aggregation', 'encode_query', 'encode_record', 'exec_aggregate', 'exec_binop',
           'export_text', 'label_text', 'number_text']

NAME = '__name__'
HOUR = 3600000
OPERATORS = (
    '+', 'and', 'atan2', 'default', '/', '==', '%', '*', '^', '-', '>', '>=', 'if', 'ifnot', '<', '<=', '!=', 'or', 'unless')
AGGREGATES = ('sum', 'min', 'max', 'count', 'avg')

# The scope document's limits. What a call is given is held to them by the library, not here.
MAX_SERIES, MAX_POINTS, MAX_TAGS, MAX_LABEL_BYTES, MAX_ALLOWANCE = 512, 1024, 32, 65535, 8
MAX_START, MAX_STEP = 2**52, 24 * HOUR
# An exported reading is below this in size.
MAX_SIZE = 2**40
# The overlap allowed by a query that does not say.
ALLOWANCE = 2

SIZES = struct.Struct('<HHHQI')


class Refusal(ValueError):
    """The library's refusal of a call: its number, 1 to 16, its two fields, and as text what it means, with the series
    that it is about by side, place and labels."""

    def __init__(self, number, fields, words):
        super().__init__(words)
        self.number, self.fields = number, fields


# queries

WORD = re.compile(r'\s*(==|!=|>=|<=|[-+*/%^<>]|[A-Za-z_][A-Za-z0-9_]*|[0-9.]+|[(),]|"(?:[^"\\]|\\.)*")')
ESCAPES = {'n': '\n', '"': '"', '\\': '\\'}


def unescaped(text):
    """What stands between quotation marks, with its escapes \\" \\\\ and \\n resolved."""
    return re.sub(r'\\(.)', lambda e: ESCAPES.get(e.group(1), e.group(1)), text)


def _words(text):
    at, found = 0, []
    text = text.rstrip()
    while at < len(text):
        m = WORD.match(text, at)
        if not m:
            raise ValueError(f'query: cannot read {text[at:].strip()!r}')
        found.append(m.group(1))
        at = m.end()
    return found


def _label_list(found, after):
    """The labels in parentheses at the front of the words, which are used up."""
    if not found or found.pop(0) != '(':
        raise ValueError(f'query: ( is missing after {after}')
    labels = []
    while found and found[0] != ')':
        label = found.pop(0)
        if label in '(,' or not (label == '*' or re.match(r'[A-Za-z_"]', label)):
            raise ValueError(f'query: {label!r} is no label')
        labels.append(unescaped(label[1:-1]) if label[0] == '"' else label)
        if found and found[0] == ',':
            found.pop(0)
        elif found and found[0] != ')':
            raise ValueError(f'query: a comma is missing before {found[0]!r}')
    if not found:
        raise ValueError(f'query: ) is missing after {after}')
    found.pop(0)
    return labels


def _allowance(found):
    """The number of points in parentheses at the front of the words, which are used up."""
    if found[:1] != ['(']:
        raise ValueError('query: ( is missing after overlap')
    if ')' not in found:
        raise ValueError('query: ) is missing after overlap')
    end = found.index(')')
    number = ' '.join(found[1:end])
    del found[:end + 1]
    if number not in map(str, range(MAX_ALLOWANCE + 1)):
        raise ValueError(f'query: overlap takes a whole number from 0 to {MAX_ALLOWANCE}, not {number!r}')
    return int(number)


def _field(content):
    """A length byte and so many bytes."""
    if len(content) > 255:
        raise ValueError(f'{content[:20]!r}... is longer than 255 bytes')
    return bytes([len(content)]) + content


def _listed(labels):
    """A list of a query, encoded."""
    if len(labels) > MAX_TAGS:
        raise ValueError(f'query: a list has more than {MAX_TAGS} labels')
    if '' in labels:
        raise ValueError('query: a label is empty')
    try:
        return bytes([len(labels)]) + b''.join(_field(_data(label)) for label in labels)
    except ValueError as problem:
        raise ValueError(f'query: {problem}') from None


def encode_query(text):
    """The bytes of a query written as people write it: an operator, then modifiers in any order, each at most once.

    on(a, b)  ignoring(a, b)            the labels that make the key; at most one of the two
    group_left(a)  group_right(a)       a join, with the labels that it copies, or * for all; at most one of the two
    bool  keep_metric_names  overlap(4)

    A label that is no plain word is written in quotation marks, as on("press no.").

    >>> encode_query('/ on(press) group_left(form)').hex(' ')
    '04 01 01 00 01 05 70 72 65 73 73 01 04 66 6f 72 6d 02'
    """
    found = _words(text)
    if not found:
        raise ValueError('query: an operator is missing')
    name = found.pop(0)
    if name.lower() not in OPERATORS:
        raise ValueError(f'query: {name!r} is no operator; there are {" ".join(OPERATORS)}')
    matching, matched, join, joined, flags, overlap = 0, [], 0, [], 0, None
    while found:
        word = found.pop(0)
        if word == 'bool' and not flags & 2:
            flags |= 2
        elif word == 'keep_metric_names' and not flags & 1:
            flags |= 1
        elif word in ('on', 'ignoring') and not matching:
            matching, matched = (1 if word == 'on' else 2), _label_list(found, word)
        elif word in ('group_left', 'group_right') and not join:
            join = 1 if word == 'group_left' else 2
            joined = _label_list(found, word) if found[:1] == ['('] else []
        elif word == 'overlap' and overlap is None:
            overlap = _allowance(found)
        else:
            raise ValueError(f'query: did not expect {word!r}')
    head = bytes([OPERATORS.index(name.lower()), matching, join, flags])
    return head + _listed(matched) + _listed(joined) + bytes([ALLOWANCE if overlap is None else overlap])


def encode_aggregation(text):
    """The bytes of a request for an aggregate: sum, min, max, count or avg, then by or without and a list of labels. Without
    either all series are one group.

    >>> encode_aggregation('avg without (form)').hex(' ')
    '04 01 01 04 66 6f 72 6d'
    """
    found = _words(text)
    name = found.pop(0) if found else ''
    if name.lower() not in AGGREGATES:
        raise ValueError(f'query: {name!r} is no aggregate; there are {" ".join(AGGREGATES)}')
    grouping = found.pop(0) if found else None
    if grouping not in (None, 'by', 'without'):
        raise ValueError(f'query: did not expect {grouping!r}; an aggregate is by or without labels')
    labels = _label_list(found, grouping) if grouping else []
    if found:
        raise ValueError(f'query: did not expect {found[0]!r}')
    return bytes([AGGREGATES.index(name.lower()), int(grouping == 'without')]) + _listed(labels)


# vectors

def _data(text):
    """A label's bytes, of text or of bytes. Text that was read from bytes which are no UTF-8 gives these again."""
    return text.encode('utf-8', 'surrogateescape') if isinstance(text, str) else bytes(text)


def _text(data):
    return data.decode('utf-8', 'surrogateescape')


def _shown(data):
    """A label's bytes as text that can be printed."""
    return data.decode('utf-8', 'backslashreplace')


PLAIN = re.compile(r'[^\s{}",=\\]+')


def label_text(labels):
    """The labels of a series as people write them; a key that is no plain word is in quotation marks too.

    >>> label_text({'__name__': 'fed', 'press': 'A', 'paper stock': '120 g'})
    'fed{press="A","paper stock"="120 g"}'
    """
    def quoted(text):
        return '"' + text.replace('\\', r'\\').replace('"', r'\"').replace('\n', r'\n') + '"'
    fields = {_shown(_data(key)): _shown(_data(value)) for key, value in labels.items()}
    name = fields.pop(NAME, '')
    tags = (f'{key if PLAIN.fullmatch(key) else quoted(key)}={quoted(value)}' for key, value in fields.items())
    return f'{name}{{{",".join(tags)}}}'


def number_text(x):
    """A reading in the fewest digits that give it again; - where it is missing."""
    text = repr(float(x))
    return '-' if text == 'nan' else text[:-2] if text.endswith('.0') else text


def encode_record(labels):
    """The label record of a series. ValueError where no record can say it."""
    fields = {_data(key): _data(value) for key, value in labels.items()}
    if len(fields) < len(labels):
        raise ValueError('a tag stands twice')
    name = fields.pop(NAME.encode(), b'')
    if len(fields) > 255:
        raise ValueError('there are more than 255 tags')
    return _field(name) + bytes([len(fields)]) + b''.join(_field(key) + _field(fields[key]) for key in sorted(fields))


def _label_array(labels):
    records = []
    for number, each in enumerate(labels, 1):
        try:
            records.append(encode_record(each))
        except ValueError as problem:
            raise ValueError(f'series {number}: {problem}') from None
    return b''.join(records)


def _decoded(records):
    """The labels of the records, one after another."""
    at, found = 0, []

    def field():
        nonlocal at
        end = at + 1 + records[at]
        content, at = _text(records[at + 1:end]), end
        return content
    while at < len(records):
        name = field()
        labels, at, count = ({NAME: name} if name else {}), at + 1, records[at]
        for _ in range(count):
            key = field()
            labels[key] = field()
        found.append(labels)
    return found


def _flat(view):
    """The readings of a buffer, one after another, where they lie."""
    if view.format not in ('d', '@d'):
        raise TypeError(f'readings are 64-bit floats, format d; this buffer has format {view.format}')
    if not view.c_contiguous:
        raise ValueError('the rows do not lie one behind the other in memory')
    return view if view.ndim == 1 else view.cast('B').cast('d') if view.nbytes else memoryview(array('d'))


def _copied(rows, points):
    """The readings of rows of numbers, None for a missing one, one after another; and how many a row has."""
    flat = array('d')
    for number, row in enumerate(rows, 1):
        row = list(row)
        if points is None:
            points = len(row)
        if len(row) != points:
            raise ValueError(f'row {number} has {len(row)} readings, not {points}')
        flat.extend(math.nan if x is None else x for x in row)
    return memoryview(flat), points or 0


class Vector:
    """Series with readings at the same times.

    labels  a mapping for each series: its tags, and under __name__ its name where it has one; str, or bytes
    rows    a row for each series, of numbers, with None or NaN where a reading is missing; or one buffer of 64-bit
            floats (array, numpy), row by row in one or two dimensions, which is read where it lies at each call
    start   the time of the first reading in a row, in milliseconds
    step    the time from a reading to the next, in milliseconds
    points  the number of readings in a row; to be given where there is no series to tell it

    An answer is one too. Of any vector `labels` is a list of dicts of str, `readings` one buffer of 64-bit floats, where
    missing ones are NaN, `rows` a list of its parts, and `part` the label part in the bytes of the scope document.
    ValueError is raised for what no label part can say; all else that is wrong is for a call to refuse.
    """

    def __init__(self, labels, rows, start=0, step=HOUR, points=None):
        labels = list(labels)
        try:
            view = memoryview(rows)
        except TypeError:
            self.readings, self.points = _copied(rows, points)
        else:
            self.readings, self.points = _flat(view), points
            if points is None:
                self.points = view.shape[1] if view.ndim == 2 else len(self.readings) // (len(labels) or 1)
        self._set(len(labels), start, step, _label_array(labels))

    def _set(self, series, start, step, records):
        try:
            self.part = SIZES.pack(series, self.points, len(records), start, step) + records
        except struct.error:
            raise ValueError(f'{series} series of {self.points} points with {len(records)} label bytes, from {start} '
                             f'every {step}: one of these is no number that the sizes of a vector can say') from None
        self.start, self.step, self._series, self._labels = start, step, series, None

    @classmethod
    def _answered(cls, series, points, start, step, records, readings):
        vector = cls.__new__(cls)
        vector.readings, vector.points = readings, points
        vector._set(series, start, step, records)
        return vector

    @property
    def labels(self):
        if self._labels is None:
            self._labels = _decoded(self.part[SIZES.size:])
        return self._labels

    @property
    def rows(self):
        return [self.readings[place * self.points:(place + 1) * self.points] for place in range(self._series)]

    def __len__(self):
        return self._series

    def __iter__(self):
        """The series, each as its labels and its row."""
        return zip(self.labels, self.rows)

    def __repr__(self):
        return f'<Vector of {self._series} series, {self.points} points from {self.start} every {self.step} ms>'

    def __str__(self):
        return '\n'.join(' '.join([label_text(labels), *map(number_text, row)]) for labels, row in self)


# refusals in words

def _series(vector, side, place):
    """A series by its place; the side is left or right, or empty where a call has one vector."""
    return f'{side} series {place + 1}, {label_text(vector.labels[place])}'.lstrip()


def _unmerged(points, allowed):
    """Why two series of a key are a duplicate, of so many points and under such an allowance."""
    if points <= 2:
        return 'series of two points or fewer are never merged'
    text = f'its readings overlap those merged so far at more points than the {allowed} allowed'
    return text if allowed == MAX_ALLOWANCE else f'{text}; overlap(N) in the query allows N, up to {MAX_ALLOWANCE}'


def _duplicate(vector, side, kept, other, allowed):
    """Numbers 7 and 8."""
    return (f'{_series(vector, side, other)}, cannot be merged into {_series(vector, side, kept)}: '
            f'they have the same key, and {_unmerged(vector.points, allowed)}')


def _fault(number, vector, side, place):
    """Numbers 3, 4, 5 and 11: what is wrong with a vector, or with one of its series."""
    name = f'the {side} vector' if side else 'the vector'
    if number == 4:
        return f'{_series(vector, side, place)}, has a tag with an empty key'
    if number == 5:
        return (f'{name} has {len(vector.readings)} readings; {len(vector)} series of {vector.points} points have '
                f'{len(vector) * vector.points}')
    if number == 11 and vector.start > MAX_START:
        return f'{name} starts at {vector.start}; a start is 0 to {MAX_START}, in milliseconds'
    if number == 11:
        return f'{name} has the step {vector.step}; a step is 1 to {MAX_STEP}, in milliseconds'
    if len(vector) > MAX_SERIES:
        return f'{name} has {len(vector)} series; a vector has at most {MAX_SERIES}'
    if vector.points > MAX_POINTS:
        return f'{name} has {vector.points} points; a vector has at most {MAX_POINTS}'
    return f'{_series(vector, side, place)}, has more than {MAX_TAGS} tags'


# What of a name, or of a key, a text can have, from its first byte on.
TEXT_NAME, TEXT_KEY = re.compile(rb'(?:[A-Za-z_:][A-Za-z0-9_:]*)?'), re.compile(rb'(?:[A-Za-z_][A-Za-z0-9_]*)?')


def _byte(data, at):
    """A byte in words; where it is the first of a character outside ASCII, that too."""
    if 32 <= data[at] < 127:
        return f"'{chr(data[at])}'"
    character = data[at:].decode('utf-8', 'replace')[0]
    first_of = f", the first of '{character}'" if character.isprintable() and character != '\ufffd' else ''
    return f'hexadecimal {data[at]:02x}{first_of}'


def _bad_label(labels):
    """Number 15: what a text cannot have of these labels; the first such thing, by the name, then each key and its value."""
    fields = {_data(key): _data(value) for key, value in labels.items()}
    name = fields.pop(NAME.encode(), b'')
    if not name:
        return 'it has no name'
    bad = TEXT_NAME.match(name).end()
    if bad < len(name):
        return f'byte {bad + 1} of its name is {_byte(name, bad)}; a name has ASCII letters, digits, _ and :, and no digit first'
    for key, value in fields.items():
        bad, shown = TEXT_KEY.match(key).end(), _shown(key)
        if bad < len(key):
            return f'byte {bad + 1} of its key "{shown}" is {_byte(key, bad)}; a key has ASCII letters, digits and _, and no digit first'
        try:
            value.decode()
        except UnicodeDecodeError as problem:
            bad = problem.start
            return f'the value of its tag {shown} is not UTF-8 from byte {bad + 1} on, {_byte(value, bad)}'
    return 'the format has no such labels'


def large_reading(vector, place, when=', at {} ms,'.format):
    """Number 16: the first reading of a series that is too large for a text; `when` tells its time."""
    at, reading = next((at, x) for at, x in enumerate(vector.rows[place]) if abs(x) >= MAX_SIZE)
    return (f'{_series(vector, "", place)}, cannot be exported: its reading {at + 1}{when(vector.start + at * vector.step)} is '
            f'{number_text(reading)}; an exported reading is below {MAX_SIZE}, 2 to the 40th, in size')


def _unexported(number, vector, place):
    """A refusal of an export in words."""
    if number == 10:
        return 'the text is longer than what was lent for it'
    if number == 15:
        return f'{_series(vector, "", place)}, cannot be exported: {_bad_label(vector.labels[place])}'
    return large_reading(vector, place) if number == 16 else _fault(number, vector, '', place)


def _meaning(number, first, second, query, sides):
    """A refusal in words. Fields are a side and a place, or two places on the side that the number says. Sides are vectors
    by their names."""
    names, vectors = list(sides), list(sides.values())
    if number in (3, 4, 5, 11):
        return _fault(number, vectors[first], names[first], second)
    if number in (7, 8):
        return _duplicate(vectors[number - 7], names[number - 7], first, second, query[-1])
    if number == 1:
        return f'{OPERATORS[query[0]] if query[0] < len(OPERATORS) else query[0]} is no operator that is carried'
    if number == 13:
        return f'the query allows {query[-1]} overlapping points; {MAX_ALLOWANCE} are the most'
    if number == 14:
        return f'{query[0]} is the number of no aggregate'
    left, right = vectors[0], vectors[-1]
    return {
        2: 'the query is malformed',
        6: f'the two sides have different numbers of points: the left {left.points}, the right {right.points}',
        9: f'the answer has over {MAX_SERIES} series, {MAX_TAGS} tags in a series or {MAX_LABEL_BYTES:,} label bytes',
        10: 'the answer is longer than what was lent for it',
        12: f'the two sides have different times: the left from {left.start} every {left.step} ms, '
            f'the right from {right.start} every {right.step} ms',
    }[number]


# calls

class _Buffer(ctypes.Structure):
    """Py_buffer of Python's C interface: where a buffer lies, a read-only one too, which ctypes' from_buffer does not take."""
    _fields_ = [('buf', ctypes.c_void_p), ('obj', ctypes.py_object), ('len', ctypes.c_ssize_t),
                ('itemsize', ctypes.c_ssize_t), ('readonly', ctypes.c_int), ('ndim', ctypes.c_int),
                ('format', ctypes.c_char_p), ('shape', ctypes.c_void_p), ('strides', ctypes.c_void_p),
                ('suboffsets', ctypes.c_void_p), ('internal', ctypes.c_void_p)]


_get_buffer, _release_buffer = ctypes.pythonapi.PyObject_GetBuffer, ctypes.pythonapi.PyBuffer_Release
_get_buffer.argtypes = [ctypes.py_object, ctypes.POINTER(_Buffer), ctypes.c_int]
_release_buffer.argtypes, _release_buffer.restype = [ctypes.POINTER(_Buffer)], None
# Where a part of no bytes lies: the library takes no null pointer and no address between two readings.
_NOWHERE = ctypes.c_uint64()


class _Lent(contextlib.ExitStack):
    """The buffers lent to a call, until it is over."""

    def part(self, owner, item, writable=False):
        """Where a buffer lies, how many items it has of so many bytes, and how many these are."""
        buffer = _Buffer()
        _get_buffer(owner, buffer, int(writable))
        self.callback(_release_buffer, buffer)
        where = buffer.buf if buffer.len else ctypes.addressof(_NOWHERE)
        if where % item:
            raise ValueError(f'the readings lie at an address that is no multiple of {item}')
        return where, buffer.len // item, item


@functools.lru_cache(maxsize=None)
def _library():
    here = os.path.dirname(os.path.realpath(__file__))
    name = 'libnosingcatnip.so'
    built = os.path.normpath(os.path.join(here, '..', '..', 'target', 'sharedlib', name))
    paths = [os.environ.get('NOSINGCATNIP_LIBRARY'), os.path.join(here, name), built]
    path = next((path for path in paths if path and os.path.exists(path)), None)
    if path is None:
        raise OSError(f'{built} is not there; bindings/build makes it')
    library = ctypes.CDLL(path)
    for name, parts in ('nosingcatnip_exec_binop', 7), ('nosingcatnip_exec_aggregate', 5), ('nosingcatnip_export_text', 3):
        if not hasattr(library, name):
            raise OSError(f'{path} has no {name}; bindings/build makes the library that this module needs')
        function = getattr(library, name)
        function.argtypes, function.restype = [ctypes.c_void_p, ctypes.c_size_t] * parts + [ctypes.c_void_p], None
    return library


def _apart(outputs, inputs):
    """No output part lies over another part. A part is where it lies, how many items it has, and how long one is."""
    for i, (where, count, item) in enumerate(outputs):
        for other, others, length in outputs[:i] + inputs:
            if where < other + others * length and other < where + count * item:
                raise ValueError('a part that is lent for the answer lies over another part of the call')


def _reported(name, numbers, inputs, outputs):
    """The numbers that a function of the library reports. Inputs and outputs are buffers, each with the length of an item."""
    result = (ctypes.c_uint64 * numbers)()
    with _Lent() as lent:
        taken = [lent.part(owner, item) for owner, item in inputs]
        given = [lent.part(owner, item, writable=True) for owner, item in outputs]
        _apart(given, taken)
        getattr(_library(), name)(*(number for part in taken + given for number in part[:2]), result)
    return result


def _parts(vector):
    return [(vector.part, 1), (vector.readings, 8)]


def _called(name, query, sides, most, out_labels, out):
    """The answer of a function of the library, of at most so many series, over sides, vectors by their names."""
    vectors = list(sides.values())
    if out_labels is None:
        out_labels = bytearray(MAX_LABEL_BYTES)
    if out is None:
        points = min(max(vector.points for vector in vectors), MAX_POINTS)
        out = memoryview(bytearray(8 * min(most, MAX_SERIES) * points)).cast('d')
    out_labels, out = memoryview(out_labels).cast('B'), _flat(memoryview(out))
    inputs = [(query, 1), *(part for vector in vectors for part in _parts(vector))]
    number, first, second, series, points, start, step, label_bytes = _reported(name, 8, inputs, [(out_labels, 1), (out, 8)])
    if number:
        raise Refusal(number, (first, second), _meaning(number, first, second, query, sides))
    return Vector._answered(series, points, start, step, bytes(out_labels[:label_bytes]), out[:series * points])


def exec_binop(query, left, right, out_labels=None, out=None):
    """The answer of a query over two vectors, a Vector; or Refusal.

    The query is text, as encode_query takes it, or the bytes of the scope document. An answer lies in memory of its own,
    or in two buffers that are lent for it, of bytes and of 64-bit floats: then it changes its own length at the start of
    each, and a refusal changes neither. Calls may run at the same time in several threads, on buffers that nobody changes
    meanwhile.

    >>> exec_binop('/', Vector([{}], [[6]]), Vector([{}], [[3, 4]]))
    Traceback (most recent call last):
        ...
    nosingcatnip.Refusal: the two sides have different numbers of points: the left 1, the right 2
    """
    query = encode_query(query) if isinstance(query, str) else bytes(query)
    return _called('nosingcatnip_exec_binop', query, {'left': left, 'right': right}, len(left) + len(right), out_labels, out)


def exec_aggregate(request, vector, out_labels=None, out=None):
    """The aggregate of a vector's series, group by group, a Vector; or Refusal. Missing readings are skipped; a point where
    a group has none is missing.

    The request is text, as encode_aggregation takes it, or the bytes of the scope document; for the rest see exec_binop.

    >>> counts = Vector([{'press': 'A'}, {'press': 'B'}, {'press': 'A'}], [[1, None], [2, None], [4, 8]])
    >>> print(exec_aggregate('max by (press)', counts))
    {press="A"} 4 8
    {press="B"} 2 -
    """
    request = encode_aggregation(request) if isinstance(request, str) else bytes(request)
    return _called('nosingcatnip_exec_aggregate', request, {'': vector}, len(vector), out_labels, out)


# What a line of a text has behind its labels, at the most.
LINE_END = len(f' -{MAX_SIZE}.000 {MAX_START + MAX_POINTS * MAX_STEP}\n')


def export_text(vector, out=None):
    """The text of a vector in the Prometheus text exposition format, version 0.0.4, bytes in UTF-8; or Refusal.

    Each present reading is a line, series by series: name, tags in braces if there are any, the value with three decimals,
    a half rounded away from zero, and the time in milliseconds. A missing reading has none. Each series has to have a name;
    names and keys are words of ASCII, values UTF-8, and readings below 2 to the 40th in size.

    The text lies in memory of its own, or in a buffer of bytes that is lent for it: then the part of it that the text takes
    is given, a memoryview, and nothing else of it is changed.

    >>> rate = Vector([{'__name__': 'rate', 'press': 'A'}], [[0.95, None, -0.0625]], start=1772431200000)
    >>> print(export_text(rate).decode(), end='')
    rate{press="A"} 0.950 1772431200000
    rate{press="A"} -0.063 1772438400000
    >>> export_text(Vector([{'__name__': 'waste rate'}], [[0.5]]))
    Traceback (most recent call last):
        ...
    nosingcatnip.Refusal: series 1, waste rate{}, cannot be exported: byte 6 of its name is ' '; a name has ASCII \
letters, digits, _ and :, and no digit first
    """
    text = out
    if text is None:
        # A line's labels have at most twice the bytes of their record: two signs and a comma stand for two lengths, and each
        # byte of a value may be escaped.
        records = len(vector.part) - SIZES.size
        text = bytearray(min(vector.points, MAX_POINTS) * (2 * records + LINE_END * min(len(vector), MAX_SERIES)))
    text = memoryview(text).cast('B')
    number, first, place, length = _reported('nosingcatnip_export_text', 4, _parts(vector), [(text, 1)])
    if number:
        raise Refusal(number, (first, place), _unexported(number, vector, place))
    return bytes(text[:length]) if out is None else text[:length]
