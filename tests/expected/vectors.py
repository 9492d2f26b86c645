"""crates/test_vectors: vectors, and what 01 and 02 say of taking them, worked out here apart from the program."""
import random
import struct

from wire import MAX_START, MAX_STEP, METRIC_GROUP, SIZES, label_part, number, part, record, sizes


def field_at(s, i):
    """The field at i and the place behind it, or None."""
    if i >= len(s) or i + 1 + s[i] > len(s):
        return None
    return s[i + 1:i + 1 + s[i]], i + 1 + s[i]


def record_at(s, i):
    """0 and the place behind the record at i, or its fault: a record is walked whole before its keys are judged."""
    name = field_at(s, i)
    if name is None or name[1] >= len(s) or s[name[1]] > 32:
        return 3, 0
    keys, j = [], name[1] + 1
    for _ in range(s[name[1]]):
        key = field_at(s, j)
        value = key and field_at(s, key[1])
        if value is None:
            return 3, 0
        keys.append(key[0])
        j = value[1]
    if any(k in (b'', METRIC_GROUP) for k in keys) or any(a >= b for a, b in zip(keys, keys[1:])):
        return 4, 0
    return 0, j


def taken(labels, readings):
    """What taking comes to, and the positions noted by then."""
    if len(labels) < SIZES:
        return '3 0', []
    series, points, size, start, step = struct.unpack_from('<HHHQI', labels)
    array = labels[SIZES:]
    if series > 512 or points > 1024:
        return '3 0', []
    if start > 2**52 or not 1 <= step <= 86400000:
        return '11 0', []
    if len(array) != size:
        return '3 0', []
    at, i = [], 0
    for place in range(series):
        at.append(i)
        fault, i = record_at(array, i)
        if fault:
            return f'{fault} {place}', at
    at.append(i)
    if i != len(array):
        return f'3 {series}', at
    if readings != series * points:
        return '5 0', at
    return f'vector {series} {points} {start} {step}', at


BARE = record(b'')
FED = record(b'fed', [(b'press', b'A')])
WASTE = record(b'waste', [(b'form', b''), (b'press', b'B'), (b'pressed', b'x')])
TAGS_32 = record(b'n', [(b'k%02d' % i, b'v') for i in range(32)])
TAGS_33 = record(b'n', [(b'k%02d' % i, b'v') for i in range(33)])
LONG = record(b'x' * 255, [(b'k' * 255, b'v' * 255)])
EMPTY_KEY = record(b'm', [(b'', b'v')])
NAME_AS_KEY = record(b'm', [(METRIC_GROUP, b'v')])
KEY_TWICE = record(b'm', [(b'a', b'1'), (b'a', b'2')])
KEYS_DOWN = record(b'm', [(b'b', b'1'), (b'a', b'2')])
KEYS_UP = record(b'm', [(b'a', b''), (b'aa', b''), (b'ab', b'')])
PREFIX_LAST = record(b'm', [(b'aa', b''), (b'a', b'')])


def limits():
    yield label_part(0, 0, []), 0
    yield label_part(0, 1024, []), 0
    yield label_part(1, 3, [FED]), 3
    yield label_part(2, 2, [FED, WASTE]), 4
    yield label_part(3, 1, [FED, WASTE, BARE]), 3
    yield label_part(1, 0, [TAGS_32]), 0
    yield label_part(1, 1, [TAGS_33]), 1
    yield label_part(2, 1, [LONG, FED]), 2
    yield label_part(512, 2, [BARE] * 512), 1024
    yield label_part(513, 1, [BARE] * 513), 513
    yield label_part(512, 8, [BARE] * 512), 4096
    yield label_part(1, 1024, [FED]), 1024
    yield label_part(1, 1025, [FED]), 1025
    yield label_part(65535, 0, []), 0
    yield label_part(0, 65535, []), 0


def lengths():
    good = label_part(2, 2, [FED, WASTE])
    array = good[SIZES:]
    for i in range(len(good)):  # the array is shorter than stated
        yield good[:i], 4
    for i in range(len(array) + 1):  # every prefix, its length stated
        yield label_part(2, 2, [array[:i]]), 4
    yield good + b'\0', 4
    yield sizes(2, 2, len(array) + 1) + array, 4
    yield label_part(2, 2, [array, b'\0']), 4
    yield label_part(2, 2, [array, FED[:4]]), 4
    for readings in (3, 5, 0):
        yield good, readings
    yield label_part(0, 3, []), 1


def keys():
    for second in (EMPTY_KEY, NAME_AS_KEY, KEY_TWICE, KEYS_DOWN, KEYS_UP, PREFIX_LAST):
        yield label_part(2, 1, [FED, second]), 2


def several_faults():
    yield label_part(2, 1, [EMPTY_KEY, EMPTY_KEY]), 2
    yield label_part(2, 1, [EMPTY_KEY]), 2
    yield label_part(2, 1, [FED, EMPTY_KEY[:-1]]), 2
    yield label_part(2, 1, [EMPTY_KEY, FED[:3]]), 9
    yield label_part(1, 1, [FED, FED]), 9
    yield label_part(1, 1, [EMPTY_KEY, FED]), 9
    yield label_part(513, 1025, [EMPTY_KEY]), 0
    yield label_part(2, 1, [FED]), 9
    yield label_part(1, 1, []), 1
    yield label_part(1, 2000, [EMPTY_KEY]), 7
    yield label_part(3, 1, [FED, TAGS_33, EMPTY_KEY]), 3
    yield label_part(3, 1, [FED, EMPTY_KEY, TAGS_33]), 3


# starts and steps outside their ranges; each alone is 11
BAD_GRIDS = [(MAX_START + 1, 1), (2**53, 1), (2**63, 1), (2**64 - 1, 1), (0, 0), (0, MAX_STEP + 1), (0, 2**31), (0, 2**32 - 1),
             (MAX_START + 1, 0), (2**64 - 1, 2**32 - 1)]


def grids():
    starts = [0, 1, 255, 256, 65536, 2**32 - 1, 2**32, 1772431200000, MAX_START - 1, MAX_START]
    steps = [1, 2, 255, 256, 65535, 65536, 900000, 3600000, 2**24, MAX_STEP - 1, MAX_STEP]
    for start, step in [*((start, MAX_STEP) for start in starts), *((MAX_START, step) for step in steps), (0, 1)]:
        yield label_part(1, 2, [FED], start, step), 2
        yield label_part(0, 0, [], start, step), 0
    for start, step in BAD_GRIDS:
        yield label_part(1, 2, [FED], start, step), 2
        yield label_part(0, 0, [], start, step), 0  # no series and no points need a good grid too
        yield label_part(513, 2, [FED], start, step), 2  # 3 by a limit comes first
        yield label_part(1, 1025, [FED], start, step), 2
        yield sizes(1, 2, len(FED) + 1, start, step) + FED, 2  # and 3 by the array's length after it, as all the others
        yield sizes(1, 2, 0, start, step) + FED, 2
        yield label_part(1, 2, [EMPTY_KEY], start, step), 2
        yield label_part(1, 2, [FED[:3]], start, step), 2
        yield label_part(1, 2, [FED], start, step), 1
    bad = label_part(1, 2, [FED], MAX_START + 1, 0)
    for i in range(SIZES):  # cut before byte 18 is 3, whatever the grid
        yield bad[:i], 2
    yield bad[:SIZES], 2


def damaged_bytes():
    rng = random.Random(7)
    good = label_part(3, 2, [FED, WASTE, KEYS_UP])
    for _ in range(120):
        x = bytearray(good)
        x[rng.randrange(len(x))] = rng.choice([0, 1, 2, 3, 32, 33, 97, 255])
        yield bytes(x), rng.choice([6, 6, 6, 5, 7])


def shown(outcome, at):
    return outcome + ' at' + ''.join(f' {i}' for i in at) + '\n'


cases = [*limits(), *lengths(), *keys(), *several_faults(), *grids(), *damaged_bytes()]
FILES = {
    'crates/test_vectors/stdin': b''.join(part(labels) + number(readings) for labels, readings in cases),
    'crates/test_vectors/stdout': ''.join(shown(*taken(*case)) for case in cases),
}
