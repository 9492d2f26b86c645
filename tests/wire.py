"""The bytes of the scope document (docs/SCOPE.md), encoded: fields, lists, queries, records, sizes, vectors, and the input of `vecop`.

One place for all test data that is written in Python: the generators of tests/expected, the tests, and oracle/promtool.py. The
module `nosingcatnip` encodes by itself, and its tests hold it against this. Nothing is checked here but that a number fits its
bytes, so that what a call refuses can be encoded too. Integers are little-endian. A vector whose grid is not told has a reading an
hour, from 0 on; a query whose allowance is not told has that of 01's examples."""
import struct

METRIC_GROUP = b'__name__'
MISSING = 0x7ff8000000000000

OPERATORS = ('+', 'and', 'atan2', 'default', '/', '==', '%', '*', '^', '-', '>', '>=', 'if', 'ifnot', '<', '<=', '!=', 'or', 'unless')
ADD, AND, ATAN2, DEFAULT, DIV, EQL, MOD, MUL, POW, SUB, GT, GTE, IF, IF_NOT, LT, LTE, NOT_EQ, OR, UNLESS = range(19)
AGGREGATES = ('sum', 'min', 'max', 'count', 'avg')
SUM, MIN, MAX, COUNT, AVG = range(5)
BY, WITHOUT = range(2)
ALL, ON, IGNORING = range(3)
ONE_TO_ONE, GROUP_LEFT, GROUP_RIGHT, MANY_TO_MANY = range(4)
KEEP_NAMES, BOOL = 1, 2
START, STEP = 0, 3600000
MAX_START, MAX_STEP = 2**52, 86400000
ALLOWANCE, MAX_ALLOWANCE = 2, 8


def field(content):
    """A length byte and so many bytes."""
    return bytes([len(content)]) + content


def label_list(labels):
    """A count byte and the labels."""
    return bytes([len(labels)]) + b''.join(map(field, labels))


def query(operator, matching=ALL, join=ONE_TO_ONE, flags=0, matching_list=(), join_list=(), allowance=ALLOWANCE):
    lists = label_list(matching_list) + label_list(join_list)
    return bytes([operator, matching, join, flags]) + lists + bytes([allowance])


def aggregation(aggregate, grouping=BY, labels=()):
    """A request for an aggregate."""
    return bytes([aggregate, grouping]) + label_list(labels)


def tag_fields(tags):
    """Tags, each a key and a value, in the order given."""
    return b''.join(field(key) + field(value) for key, value in tags)


def record(name, tags=()):
    """The label record of a series."""
    return field(name) + bytes([len(tags)]) + tag_fields(tags)


def sizes(series, points, label_bytes, start=START, step=STEP):
    """What a vector begins with; start and step are in milliseconds."""
    return struct.pack('<HHHQI', series, points, label_bytes, start, step)


SIZES = len(sizes(0, 0, 0))


def label_part(series, points, records, start=START, step=STEP):
    """The sizes and the label array of a vector; as many series are stated as the first number says."""
    array = b''.join(records)
    return sizes(series, points, len(array), start, step) + array


def bits(value):
    """The bits of a number; those of the missing reading that rules write for None and for each NaN."""
    return MISSING if value is None or value != value else struct.unpack('<Q', struct.pack('<d', value))[0]


def value(pattern):
    """The number whose bits these are."""
    return struct.unpack('<d', struct.pack('<Q', pattern))[0]


def readings(row):
    """Readings, each given by its bits."""
    return struct.pack(f'<{len(row)}Q', *row)


def vector(points, series, start=START, step=STEP):
    """A whole vector of series, each given by its record and the bits of its row."""
    rows = b''.join(readings(row) for _, row in series)
    return label_part(len(series), points, [labels for labels, _ in series], start, step) + rows


def frame(*parts):
    """The input of `vecop`: each part after its length, 4 bytes."""
    return b''.join(struct.pack('<I', len(part)) + part for part in parts)


def number(n):
    """A number of a stored case, 2 bytes."""
    return struct.pack('<H', n)


def part(content):
    """A part of a stored case: its length, a number, and its bytes."""
    return number(len(content)) + content
