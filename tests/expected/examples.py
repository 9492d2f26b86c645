"""tests/replayed.cases: the stored sample, and examples with what 01 and 02 say of them, each outcome written out here by hand."""
import wire
from expected import allowances, read
from wire import ADD, AND, ATAN2, DIV, GROUP_LEFT, GROUP_RIGHT, KEEP_NAMES, MUL, ON, OR, POW, SIZES, UNLESS, number, part, query
from wire import MAX_START, MAX_STEP, START, STEP
from wire import MISSING as N

ROOM = (65535, 8192)


def record(name, **tags):
    return wire.record(name, [(key.encode(), value.encode()) for key, value in tags.items()])


def reading(x):
    """The bits of a float; a whole number is bits already."""
    return x if isinstance(x, int) else wire.bits(x)


def vector(points, *series, **grid):
    """A label part and its readings, of series given as record and row."""
    labels = wire.label_part(len(series), points, [labels for labels, _ in series], **grid)
    return labels, [x for _, row in series for x in row]


def refused(number, first=0, second=0):
    return (number, first, second, 0, 0, 0, 0, 0), (b'', [])


def answer(points, *series, start=START, step=STEP):
    labels, readings = vector(points, *series)
    return (0, 0, 0, len(series), points, start, step, len(labels) - SIZES), (labels[SIZES:], readings)


BARE = record(b'')
A = record(b'', press='A')
PLUS = query(ADD)
FED = vector(3, (record(b'fed', press='A'), [10., N, 6.]))
WASTE = vector(3, (record(b'waste', press='A'), [2., 1., 3.]))
QUOTIENT = answer(3, (A, [0x4014000000000000, 0x7ff8000000000000, 0x4000000000000000]))
ONE = vector(1, (BARE, [1.]))
TWICE = vector(1, (BARE, [1.]), (BARE, [1.]))


def tags(n):
    return record(b'', **{'k%02d' % i: 'v' for i in range(n)})


def numbered(n, x):
    return [(record(b'', k='%03d' % i), [x]) for i in range(n)]


def valued(lengths):
    """Series that differ in one tag's value, of such lengths."""
    return vector(1, *[(record(b'', a='%02d' % i + '.' * (n - 2)), [1.]) for i, n in enumerate(lengths)])


def settled():
    yield ('two forms and one waste rate under group_left', query(MUL, ON, GROUP_LEFT, 0, [b'press']),
           vector(2, (record(b'fed', form='1', press='A'), [100., 200.]),
                  (record(b'fed', form='2', press='A'), [300., N])),
           vector(2, (record(b'waste', press='A'), [0.5, 0.25])), ROOM,
           answer(2, (record(b'', form='1', press='A'), [50., 50.]), (record(b'', form='2', press='A'), [150., N])))
    yield ('[1,N,N] and [N,2,N] merge at p = 3, into the last', query(ADD, flags=KEEP_NAMES),
           vector(3, (record(b'u', press='A'), [N, 2., N]), (record(b'v', press='A'), [1., N, N])),
           vector(3, (A, [0., 0., 0.])), ROOM, answer(3, (record(b'v', press='A'), [1., 2., N])))
    yield 'the quotient of vecop', query(DIV), FED, WASTE, ROOM, QUOTIENT
    yield ('512 series', PLUS, vector(1, *numbered(512, 1.)), vector(1, *numbered(512, 2.)), ROOM,
           answer(1, *numbered(512, 3.)))
    yield '513 series', PLUS, vector(0, *[(BARE, [])] * 513), vector(0), ROOM, refused(3, 0, 0)
    yield '513 series on the right', PLUS, vector(0), vector(0, *[(BARE, [])] * 513), ROOM, refused(3, 1, 0)
    yield ('32 tags', PLUS, vector(1, (tags(32), [1.])), vector(1, (tags(32), [2.])), ROOM,
           answer(1, (tags(32), [3.])))
    yield '33 tags', PLUS, vector(1, (tags(33), [1.])), vector(1, (tags(33), [2.])), ROOM, refused(3, 0, 0)
    yield '33 tags, second on the right', PLUS, ONE, vector(1, (BARE, [1.]), (tags(33), [2.])), ROOM, refused(3, 1, 1)
    yield ('1,024 points', PLUS, vector(1024, (A, [1.] * 1024)), vector(1024, (A, [2.] * 1024)), ROOM,
           answer(1024, (A, [3.] * 1024)))
    yield '1,025 points', PLUS, vector(1025, (A, [1.] * 1025)), vector(1025), ROOM, refused(3, 0, 0)
    yield '1,025 points on the right', PLUS, ONE, vector(1025), ROOM, refused(3, 1, 0)


def misreadings():
    seven = vector(1, (BARE, [7.]))
    yield 'and has no fallback', query(AND), vector(1, (A, [1.])), seven, ROOM, answer(1)
    yield 'unless has no fallback', query(UNLESS), vector(1, (A, [1.])), seven, ROOM, answer(1, (A, [1.]))
    yield ('* does not copy the name', query(ADD, ON, GROUP_LEFT, KEEP_NAMES, [], [b'*']),
           vector(1, (record(b'm'), [1.])), vector(1, (record(b'n', b='y'), [2.])), ROOM,
           answer(1, (record(b'm', b='y'), [3.])))
    yield ('group_right divides the left by the right', query(DIV, ON, GROUP_RIGHT), vector(1, (BARE, [6.])),
           vector(1, (A, [2.])), ROOM, answer(1, (A, [3.])))


def faults():
    """Each number of a vector, a vector with that fault, and its second field."""
    good = (BARE, [1.])
    yield 3, vector(1, good, (tags(33), [1.])), 1
    yield 4, vector(1, good, (record(b'', __name__='m'), [1.])), 1
    yield 5, vector(1, good, (A, [])), 0
    yield 11, vector(1, good, start=MAX_START + 1), 0


def both_sides():
    for number, left, place in faults():
        for other, right, _ in faults():
            name = f'{number} on the left before {other} on the right'
            yield name, PLUS, left, right, ROOM, refused(number, 0, place)
    for number, right, place in faults():
        yield f'{number} on the right alone', PLUS, ONE, right, ROOM, refused(number, 1, place)
        yield f'{number} on the right before 6', PLUS, vector(2, (A, [1., 1.])), right, ROOM, refused(number, 1, place)


def query_faults():
    for number, left, place in faults():
        yield f'1 before {number}', query(19), left, ONE, ROOM, refused(1)
        yield f'2 before {number}', query(ADD, matching=3), left, ONE, ROOM, refused(2)
    yield '1 before 2', query(19, matching=3), ONE, ONE, ROOM, refused(1)
    yield 'atan2', query(ATAN2), ONE, ONE, ROOM, refused(1)
    yield 'a power', query(POW), ONE, ONE, ROOM, refused(1)
    yield 'a byte behind the query', PLUS + b'\0', ONE, ONE, ROOM, refused(2)
    yield 'no allowance', PLUS[:-1], ONE, ONE, ROOM, refused(2)
    for allowance in 9, 255:
        above = query(ADD, allowance=allowance)
        for number, left, _ in faults():
            yield f'13 before {number}, {allowance} allowed', above, left, ONE, ROOM, refused(13)
        yield f'13 before 6, {allowance} allowed', above, ONE, vector(2), ROOM, refused(13)
        yield f'13 before 7, {allowance} allowed', above, TWICE, ONE, ROOM, refused(13)
        yield f'13 before 10, {allowance} allowed', above, ONE, ONE, (0, 0), refused(13)
        yield f'13 of a set rule, {allowance} allowed', query(OR, allowance=allowance), ONE, ONE, ROOM, refused(13)
        yield f'13 of a join, {allowance} allowed', query(ADD, ON, GROUP_LEFT, 0, [b'a'], [b'b'], allowance), ONE, ONE, ROOM, refused(13)
        yield f'1 before 13, {allowance} allowed', query(POW, allowance=allowance), ONE, ONE, ROOM, refused(1)
        yield f'2 before 13, {allowance} allowed', query(ADD, matching=3, allowance=allowance), ONE, ONE, ROOM, refused(2)
        yield f'2 before 13 by a list, {allowance} allowed', query(ADD, join_list=[b'a'], allowance=allowance), ONE, ONE, ROOM, refused(2)
        yield f'2 before 13 by a byte behind it, {allowance} allowed', above + b'\0', ONE, ONE, ROOM, refused(2)


def running():
    yield '6 before 7', PLUS, TWICE, vector(2, (BARE, [1., 1.])), ROOM, refused(6)
    yield '6 with both sides empty', PLUS, vector(0), vector(1), ROOM, refused(6)
    yield ('7: p = 2 does not merge', PLUS, vector(2, (A, [1., N]), (A, [N, 2.])), vector(2, (A, [1., 1.])), ROOM,
           refused(7, 1, 0))
    yield '7 before 8 of one key', PLUS, TWICE, TWICE, ROOM, refused(7, 1, 0)
    x, y = (record(b'', a='x'), [1.]), (record(b'', a='y'), [1.])
    yield '8 of an earlier key before 7', PLUS, vector(1, x, y, y), vector(1, x, x, y), ROOM, refused(8, 1, 0)
    # what a many-side series of 32 tags takes from z is a 33rd
    group_left, group_right = (query(ADD, ON, join, 0, [], [b'*']) for join in (GROUP_LEFT, GROUP_RIGHT))
    wide = vector(1, (tags(32), [1.]))
    z = (record(b'', z='1'), [1.])
    yield '7 before 9', group_right, vector(1, z, z), wide, (0, 0), refused(7, 0, 1)
    yield '8 before 9', group_left, wide, vector(1, z, z), (0, 0), refused(8, 0, 1)
    yield '9: 33 tags, before 10', group_left, wide, vector(1, z), (0, 0), refused(9)
    many = vector(0, *[(BARE, [])] * 512)
    yield '9: 513 series, before 10', query(OR), many, vector(0, (A, [])), (0, 0), refused(9)
    yield ('511 series and one', query(OR), vector(0, *[(BARE, [])] * 511), vector(0, (A, [])), ROOM,
           answer(0, *[(BARE, [])] * 511, (A, [])))
    # a record {a=...} takes 5 bytes and its value
    join = query(ADD, ON, GROUP_LEFT, 0, [], [b'a'])
    yield ('9: 65,536 label bytes, before 10', join, vector(1, *[(BARE, [1.])] * 16), valued([255] * 15 + [191]),
           (0, 0), refused(9))
    yield ('10: 65,535 label bytes', join, vector(1, *[(BARE, [1.])] * 15), valued([255] * 16 + [204]),
           (65534, 8192), refused(10))
    yield '10: one label byte short', query(DIV), FED, WASTE, (9, 8192), refused(10)
    yield '10: one reading short', query(DIV), FED, WASTE, (65535, 2), refused(10)
    yield 'an answer that just fits', query(DIV), FED, WASTE, (10, 3), QUOTIENT


def grids():
    """Sides of one series, and of none, on every grid at the ends of the ranges and beyond them."""
    one = (A, [1.])
    for start, step in (0, 1), (0, MAX_STEP), (MAX_START, 1), (MAX_START, MAX_STEP), (1772431200000, 3600000):
        at = {'start': start, 'step': step}
        name = f'from {start} every {step}'
        yield f'a sum {name}', PLUS, vector(1, one, **at), vector(1, one, **at), ROOM, answer(1, (A, [2.]), **at)
        yield f'no series {name}', query(AND), vector(1, one, **at), vector(1, **at), ROOM, answer(1, **at)
        yield f'no points {name}', query(OR), vector(0, **at), vector(0, (A, []), **at), ROOM, answer(0, (A, []), **at)
    for start, step in (MAX_START + 1, 1), (2**64 - 1, 1), (0, 0), (0, MAX_STEP + 1), (0, 2**32 - 1):
        at = {'start': start, 'step': step}
        name = f'from {start} every {step}'
        yield f'11 {name}', PLUS, vector(1, one, **at), ONE, ROOM, refused(11, 0, 0)
        yield f'11 {name} on the right', PLUS, ONE, vector(1, one, **at), ROOM, refused(11, 1, 0)
        yield f'11 {name}, no series', PLUS, vector(0, **at), vector(0), ROOM, refused(11, 0, 0)
        yield f'513 series before 11 {name}', PLUS, vector(0, *[(BARE, [])] * 513, **at), ONE, ROOM, refused(3, 0, 0)
        yield f'1,025 points before 11 {name}', PLUS, ONE, vector(1025, **at), ROOM, refused(3, 1, 0)
        long = wire.sizes(1, 1, len(A) + 1, **at) + A
        yield f'11 {name} before the array\'s length', PLUS, (long, [1.]), ONE, ROOM, refused(11, 0, 0)
    bad = wire.label_part(0, 0, [], MAX_START + 1, 0)
    for i in range(SIZES):
        yield f'sizes cut at {i} before 11', PLUS, (bad[:i], []), ONE, ROOM, refused(3, 0, 0)
        yield f'sizes cut at {i} before 11 on the right', PLUS, ONE, (bad[:i], []), ROOM, refused(3, 1, 0)


def unequal_grids():
    twice = [(BARE, [1.]), (BARE, [1.])]
    for name, at in ('start', {'start': 1}), ('step', {'step': 1}), ('start and step', {'start': MAX_START, 'step': MAX_STEP}):
        yield f'12 by {name}', PLUS, ONE, vector(1, (BARE, [1.]), **at), ROOM, refused(12)
        yield f'12 by {name}, exchanged', PLUS, vector(1, (BARE, [1.]), **at), ONE, ROOM, refused(12)
        yield f'12 by {name} with both sides empty', query(OR), vector(0), vector(0, **at), ROOM, refused(12)
        yield f'12 by {name} with the left side empty', query(OR), vector(1, **at), ONE, ROOM, refused(12)
        yield f'12 by {name} with the right side empty', query(AND), ONE, vector(1, **at), ROOM, refused(12)
        yield f'6 before 12 by {name}', PLUS, ONE, vector(2, (BARE, [1., 1.]), **at), ROOM, refused(6)
        yield f'6 before 12 by {name} with both sides empty', PLUS, vector(0, **at), vector(1), ROOM, refused(6)
        yield f'12 by {name} before 7', PLUS, vector(1, *twice, **at), ONE, ROOM, refused(12)
        yield f'12 by {name} before 8', PLUS, ONE, vector(1, *twice, **at), ROOM, refused(12)
        yield f'12 by {name} before 10', PLUS, ONE, vector(1, (BARE, [1.]), **at), (0, 0), refused(12)
        for number, right, place in faults():
            yield f'{number} on the right before 12 by {name}', PLUS, vector(1, **at), right, ROOM, refused(number, 1, place)


def merges():
    def side(rows):
        return [(BARE, [wire.bits(x) for x in row]) for row in rows]
    for name, asked, left, right, outcome in allowances.calls():
        points = len(left[0])
        result = refused(*outcome) if isinstance(outcome, tuple) else answer(points, *side(outcome))
        yield name, asked, vector(points, *side(left)), vector(points, *side(right)), ROOM, result


def missing_right():
    """02: every comparison with a missing right reading gives missing; a missing left one against a present one is as in 01."""
    payload = 0xfff0000000000001
    left, right = [3., payload, 3., payload], [N, N, 2., 2.]
    fed, waste = record(b'fed', form='1', press='A'), record(b'waste', press='A')
    # What 3 gives against 2; a missing left reading passes `!=` alone.
    for spelling, holds in ('==', False), ('!=', True), ('>', True), ('>=', True), ('<', False), ('<=', False):
        op = wire.OPERATORS.index(spelling)
        plain = [N, N, 3. if holds else N, payload if spelling == '!=' else N]
        for flags, row in (0, plain), (wire.BOOL, [N, N, 1. if holds else 0., N]):
            name = f'{spelling} bool' if flags else spelling
            yield (f'{name} with gaps', query(op, flags=flags), vector(4, (A, left)), vector(4, (A, right)), ROOM, answer(4, (A, row)))
            # The many side has the left readings in group_left, the right ones in group_right. Its name stays without bool.
            kept = record(b'' if flags else b'fed', form='1', press='A')
            yield (f'{name} with gaps under group_left', query(op, ON, GROUP_LEFT, flags, [b'press']),
                   vector(4, (fed, left)), vector(4, (waste, right)), ROOM, answer(4, (kept, row)))
            yield (f'{name} with gaps under group_right', query(op, ON, GROUP_RIGHT, flags, [b'press']),
                   vector(4, (waste, left)), vector(4, (fed, right)), ROOM, answer(4, (kept, row)))
            yield (f'{name} with nothing on the right', query(op, flags=flags), vector(1, (A, [3.])), vector(1, (A, [N])), ROOM,
                   answer(1, (A, [N])))


def rows(readings):
    return part(wire.readings([reading(x) for x in readings]))


def case(asked, left, right, room, outcome):
    """A case as oracle/README.md has it."""
    numbers, (labels, readings) = outcome
    return (b''.join(map(number, room)) + rows(numbers) + part(asked) + part(left[0]) + rows(left[1]) + part(right[0])
            + rows(right[1]) + part(labels) + rows(readings))


examples = [*settled(), *misreadings(), *both_sides(), *query_faults(), *running(), *grids(), *unequal_grids(), *merges(), *missing_right()]
sample = read('oracle/sample/cases.bin')
FILES = {'tests/replayed.cases': sample + b''.join(part(name.encode()) + part(case(*called)) for name, *called in examples)}
