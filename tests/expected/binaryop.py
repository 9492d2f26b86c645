"""crates/test_binaryop: cases, and what 01 and 02 say of them, worked out here by the host's binary64 and fmod, apart from the program."""
import math
import random
import struct

from wire import MISSING as N
from wire import bits, readings, value

random.seed(7)
cases, lines = [], []


def missing(x):
    return (x & (2**63 - 1)) > 0x7ff0000000000000


def quotient(x, y):
    if y != 0:
        return x / y
    return math.nan if x == 0 else math.copysign(math.inf, math.copysign(1, x) * math.copysign(1, y))


def remainder(x, y):
    return math.nan if math.isinf(x) or y == 0 else math.fmod(x, y)


ARITHMETIC = {0: lambda x, y: x + y, 9: lambda x, y: x - y, 7: lambda x, y: x * y, 4: quotient, 6: remainder}
COMPARISON = {5: lambda x, y: x == y, 16: lambda x, y: x != y, 10: lambda x, y: x > y, 11: lambda x, y: x >= y,
              14: lambda x, y: x < y, 15: lambda x, y: x <= y}


def scalar(op, as_bool, l, r):
    if op in ARITHMETIC:
        return N if missing(l) or missing(r) else bits(ARITHMETIC[op](value(l), value(r)))
    if op not in COMPARISON or missing(r):
        return N
    holds = COMPARISON[op](value(l), value(r))
    if as_bool:
        return N if missing(l) else (0x3ff0000000000000 if holds else 0)
    return l if holds else N


def case(what, op, as_bool, l, r, *answers):
    cases.append(struct.pack('<BBBBHH', what, op, as_bool, 0, len(l), len(r)) + readings(l + r))
    lines.extend(answers)


def line(word, row):
    return word + ''.join(' %016x' % x for x in row)


def operator(op, as_bool, l, r):
    row = [scalar(op, as_bool, x, y) for x, y in zip(l, r)]
    case(0, op, as_bool, l, r, line('rows', row))


def merge(allowance, d, s):
    overlaps = sum(not missing(x) and not missing(y) for x, y in zip(d, s))
    if allowance > 8:
        answer = line('refused 13', d)
    elif len(d) != len(s):
        answer = line('refused 6', d)
    elif len(d) <= 2 or overlaps > allowance:
        answer = line('overlapping', d)
    else:
        answer = line('done', [x if missing(y) else y for x, y in zip(d, s)])
    case(1, allowance, 0, d, s, answer)


def row(*xs):
    return [bits(x) for x in xs]


# 01's examples
operator(4, 0, row(10, None, 6), row(2, 1, 3))
operator(5, 1, [N], row(3))
operator(16, 1, row(3), [N])  # N by 02
operator(6, 0, row(-6), row(3))
operator(6, 0, row(5), [0x7ff0000000000000])

# signed zeros, infinities, subnormals, the ends of the normal numbers, NaN payloads
special = [0, 1 << 63, bits(1.0), bits(-1.0), bits(3.0), bits(-6.0), bits(0.1), 0x7ff0000000000000, 0xfff0000000000000,
           1, 0x8000000000000001, 0x000fffffffffffff, 0x0010000000000000, 0x7fefffffffffffff, 0xffefffffffffffff,
           N, 0xfff8000000000000, 0x7ff8000000000123, 0x7ff0000000000001, 0xfff0000000abcdef]
pairs = [(x, y) for x in special for y in special]
for op in list(ARITHMETIC) + list(COMPARISON):
    for as_bool in (0, 1) if op in COMPARISON else (0,):
        some = pairs if op == 6 else random.sample(pairs, 44)
        operator(op, as_bool, [x for x, _ in some], [y for _, y in some])
# comparisons with a missing reading on the right, on the left, on both sides
gaps = [0x7ff8000000000123, 0xfff0000000abcdef]
for op in COMPARISON:
    for as_bool in 0, 1:
        operator(op, as_bool, row(3, 3) + gaps + gaps, gaps + row(3, 3) + gaps[::-1])
for op in (1, 2, 3, 8, 12, 13, 17, 18):
    operator(op, op % 2, row(1, None, 2), row(3, 4, None))


def anything():
    return random.choice(special) if random.random() < .3 else random.getrandbits(64)


operator(9, 0, [anything() for _ in range(120)], [anything() for _ in range(120)])
operator(7, 0, [], [])

# merging: 01's examples, p of 0, 1, 2 and 3, unequal lengths
merge(2, row(1, None, 3, None), row(None, 2, None, 4))
merge(2, row(1, 2, 3), row(9, 8, None))
merge(2, row(1, 2, 3), row(9, 8, 7))
merge(2, row(1, None), row(None, 2))
merge(2, row(1, None, None), row(None, 2, None))
merge(2, [], [])
merge(2, row(1), row(2))
merge(2, row(1, None, 2), row(None, 2))
merge(2, [], row(1))
merge(2, [N, 0xfff0000000abcdef, bits(1.0), 1 << 63], [0x7ff8000000000123, N, 0x7ff0000000000001, N])


def sharing(points, places):
    """Two rows that take turns at the points, with any bits there, and that both have a reading at these places."""
    d = [bits(1.0 + i) if i in places else N if i % 2 else anything() for i in range(points)]
    return d, [bits(-1.0 - i) if i in places else anything() if i % 2 else N for i in range(points)]


# each allowance: one overlap fewer, as many, and one more; p of 0 to 3
for allowance in range(9):
    for overlaps in range(max(allowance - 1, 0), allowance + 2):
        merge(allowance, *sharing(10, random.sample(range(10), overlaps)))
    merge(allowance, [], [])
    merge(allowance, row(1), row(None))
    merge(allowance, row(1, None), row(None, 2))
    merge(allowance, row(1, None, None), row(None, 2, None))
    merge(allowance, row(1, 2, 3), row(9, None, None))
    merge(allowance, row(1, 2, 3), row(9, 8, 7))

# an allowance above 8: 13, where the rows could be merged, overlap, are too short, or are of unequal length
for allowance in 9, 10, 127, 128, 255:
    merge(allowance, row(1, None, 3), row(None, 2, None))
    merge(allowance, *sharing(10, range(10)))
    merge(allowance, row(1, None), row(None, 2))
    merge(allowance, [], [])
    merge(allowance, row(1, None, 2), row(None, 2))

# more points than a vector has, the overlaps behind the 1,024th: as many as the allowance has, and one more
merge(4, *sharing(1100, range(1090, 1094)))
merge(4, *sharing(1100, range(1090, 1095)))

GIVEN = b''.join(cases)
assert len(GIVEN) <= 65536, 'the program reads no more'
FILES = {'crates/test_binaryop/stdin': GIVEN, 'crates/test_binaryop/stdout': '\n'.join(lines) + '\n'}
