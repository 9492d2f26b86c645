"""crates/vecop and crates/test_vecop: inputs of `vecop` (in the second each after its length, 4 bytes), and what 01 and 02 say that it
prints for each, worked out by hand here."""
import struct

import wire
from expected import allowances
from wire import ADD, AND, DIV, MAX_START, MAX_STEP, OR, UNLESS, frame, label_part, query, record


def vector(points, *series, **grid):
    """A vector of series, each a name, tags and a row of numbers, None for missing."""
    return wire.vector(points, [(record(name, tags), [wire.bits(x) for x in row]) for name, tags, row in series], **grid)


CASES = []


def case(given, text):
    CASES.append((given, text if isinstance(text, bytes) else text.encode()))


def refused(given, number, first=0, second=0):
    case(given, f'refused {number} {first} {second}\n')


def unreadable(given):
    case(given, 'unreadable\n')


FED = vector(3, (b'fed', [(b'press', b'A')], [10, None, 6]))
WASTE = vector(3, (b'waste', [(b'press', b'A')], [2, 1, 3]))
ONE = '3ff0000000000000'
TWO = '4000000000000000'
GAP = '7ff8000000000000'
NOTHING = vector(1)
SINGLE = vector(1, (b'', [], [1]))

# 01's example, which is the input of crates/vecop too
case(frame(query(DIV), FED, WASTE), 'answer 1 3 0 3600000\n{press="A"} 4014000000000000 7ff8000000000000 4000000000000000\n')

# several series: left places, then right; set rules edit no labels. Names and tags with every byte that is escaped, and those beside the
# ends of 21 to 7e; an empty value; a series without name and tags
case(
    frame(
        query(OR),
        vector(
            2,
            (b'a"\\{},=%z', [(b'\x1f \xff', b''), (b' !', b'~\x7f')], [1, None]),
            (b'', [(b'k', b'caf\xc3\xa9\n')], [2, 1]),
        ),
        vector(2, (b'right', [(b'k', b'0')], [None, None]), (b'', [], [1, 1]), (b'm', [(b'k', b'caf\xc3\xa9\n')], [1, 1])),
    ),
    'answer 4 2 0 3600000\n'
    f'a%22%5c%7b%7d%2c%3d%25z{{%1f%20%ff="",%20!="~%7f"}} {ONE} {GAP}\n'
    f'{{k="caf%c3%a9%0a"}} {TWO} {ONE}\n'
    f'right{{k="0"}} {GAP} {GAP}\n'
    f'{{}} {ONE} {ONE}\n',
)

# no series; no points
case(frame(query(AND), SINGLE, NOTHING), 'answer 0 1 0 3600000\n')
case(frame(query(OR), vector(0, (b'x', [], [])), vector(0)), 'answer 1 0 0 3600000\nx{}\n')

# a reading passed through keeps its bits, N too
case(
    frame(query(OR), wire.vector(2, [(record(b'x'), [0xfff0123456789abc, 0x8000000000000000])]), vector(2)),
    'answer 1 2 0 3600000\nx{} fff0123456789abc 8000000000000000\n',
)

# the answer has its sides' grid, at both ends of the ranges, and without series or points too
for start, step in (0, 1), (1, 999), (1772431200000, 900000), (MAX_START - 1, 10), (MAX_START, MAX_STEP):
    GRID = {'start': start, 'step': step}
    case(
        frame(query(ADD), vector(2, (b'x', [], [1, None]), **GRID), vector(2, (b'y', [], [1, 1]), **GRID)),
        f'answer 1 2 {start} {step}\n{{}} {TWO} {GAP}\n',
    )
    case(frame(query(AND), vector(1, (b'', [], [1]), **GRID), vector(1, **GRID)), f'answer 0 1 {start} {step}\n')
    case(frame(query(OR), vector(0, **GRID), vector(0, (b'y', [], []), **GRID)), f'answer 1 0 {start} {step}\ny{{}}\n')

# numbers 1 and 2
refused(frame(query(19), SINGLE, SINGLE), 1)
refused(frame(query(2), b'', b''), 1)
refused(frame(b'', SINGLE, SINGLE), 2)
refused(frame(query(ADD) + b'\0', b'', b''), 2)

# the allowance: missing, or with a byte behind it; number 13, after 1 and 2 and before all faults of a vector, for set rules too
refused(frame(query(ADD)[:-1], SINGLE, SINGLE), 2)
for allowance in 9, 10, 255:
    refused(frame(query(ADD, allowance=allowance), SINGLE, SINGLE), 13)
    refused(frame(query(UNLESS, allowance=allowance), SINGLE, SINGLE), 13)
    refused(frame(query(ADD, 1, 2, 0, (b'a',), (b'b',), allowance), SINGLE, SINGLE), 13)
    refused(frame(query(ADD, allowance=allowance), b'', b''), 13)
    refused(frame(query(ADD, allowance=allowance), SINGLE + b'\0', SINGLE), 13)
    refused(frame(query(ADD, allowance=allowance), SINGLE, FED), 13)
    refused(frame(query(19, allowance=allowance), SINGLE, SINGLE), 1)
    refused(frame(query(ADD, allowance=allowance) + b'\0', SINGLE, SINGLE), 2)
    refused(frame(query(ADD, 0, 0, 0, (b'a',), allowance=allowance), SINGLE, SINGLE), 2)
    unreadable(frame(query(ADD, allowance=allowance), SINGLE, SINGLE) + b'\0')

# number 3: sizes cut, 513 series, 1,025 points, a label array shorter than stated, a record cut, 33 tags, label bytes left over
refused(frame(query(ADD), b'', b''), 3)
refused(frame(query(ADD), SINGLE[:wire.SIZES - 1], b''), 3)
refused(frame(query(ADD), SINGLE, SINGLE[:wire.SIZES - 1]), 3, 1)
refused(frame(query(ADD), label_part(513, 0, [record(b'')] * 513), NOTHING), 3)
refused(frame(query(ADD), NOTHING, label_part(0, 1025, [])), 3, 1)
refused(frame(query(ADD), wire.sizes(1, 0, 3) + record(b''), NOTHING), 3)
refused(frame(query(ADD), NOTHING, label_part(2, 1, [record(b''), b'\1'])), 3, 1, 1)
refused(frame(query(ADD), label_part(1, 0, [record(b'', [(b'k%02d' % i, b'') for i in range(33)])]), NOTHING), 3)
refused(frame(query(ADD), label_part(2, 0, [record(b'')] * 3), NOTHING), 3, 0, 2)

# number 11: a start or step outside its range, left and right, of empty sides too; 3 by cut sizes and by a limit comes before it, 3 by
# the array's length, the records and 5 after it; the left side's 5 before the right side's 11
for bad in {'start': MAX_START + 1}, {'start': 2**64 - 1}, {'step': 0}, {'step': MAX_STEP + 1}, {'step': 2**32 - 1}:
    refused(frame(query(ADD), vector(1, (b'', [], [1]), **bad), SINGLE), 11)
    refused(frame(query(ADD), SINGLE, vector(1, (b'', [], [1]), **bad)), 11, 1)
    refused(frame(query(ADD), vector(0, **bad), vector(0)), 11)
    refused(frame(query(ADD), vector(0), vector(0, **bad)), 11, 1)
    refused(frame(query(ADD), vector(0, **bad)[:-1], NOTHING), 3)
    refused(frame(query(ADD), label_part(513, 0, [record(b'')] * 513, **bad), NOTHING), 3)
    refused(frame(query(ADD), NOTHING, label_part(0, 1025, [], **bad)), 3, 1)
    refused(frame(query(ADD), wire.sizes(1, 0, 3, **bad) + record(b''), NOTHING), 11)
    refused(frame(query(ADD), label_part(1, 0, [b'\1'], **bad), NOTHING), 11)
    refused(frame(query(ADD), vector(1, (b'', [], [1]), **bad) + b'\0', NOTHING), 11)
    refused(frame(query(ADD), SINGLE + b'\0', vector(0, **bad)), 5)
    refused(frame(query(19), vector(0, **bad), NOTHING), 1)
    refused(frame(query(ADD), vector(0, **bad), vector(0, **bad)), 11)

# number 4, and 3 before it in another record
refused(frame(query(ADD), NOTHING, label_part(1, 0, [record(b'', [(b'', b'v')])])), 4, 1)
refused(frame(query(ADD), label_part(2, 0, [record(b''), record(b'', [(b'b', b''), (b'a', b'')])]), b''), 4, 0, 1)
refused(frame(query(ADD), label_part(1, 0, [record(b'', [(b'__name__', b'')])]), b''), 4)

# number 5: bytes not 8 times n times p, by whole readings and by single bytes, where that is 0 too; after 3 and 4 of the side, before
# the right side's
refused(frame(query(ADD), SINGLE + b'\0', SINGLE), 5)
refused(frame(query(ADD), SINGLE[:-1], SINGLE), 5)
refused(frame(query(ADD), SINGLE + bytes(8), SINGLE), 5)
refused(frame(query(ADD), SINGLE[:-8], SINGLE), 5)
refused(frame(query(ADD), SINGLE, SINGLE + bytes(9)), 5, 1)
refused(frame(query(ADD), SINGLE, SINGLE[:-3]), 5, 1)
refused(frame(query(ADD), NOTHING + b'\0\0\0', NOTHING), 5)
refused(frame(query(ADD), NOTHING + bytes(8), NOTHING), 5)
refused(frame(query(ADD), NOTHING, vector(0, (b'x', [], [])) + b'\0'), 5, 1)
refused(frame(query(ADD), label_part(1, 1, [record(b'', [(b'', b'v')])]) + b'\0', b''), 4)
refused(frame(query(ADD), SINGLE + b'\0', b''), 5)

# number 6, empty sides included
refused(frame(query(ADD), SINGLE, FED), 6)
refused(frame(query(OR), vector(1), vector(2)), 6)

# number 12: by start and by step, whatever the sides hold; 6 comes before it and 7 after it
for other in {'start': 1}, {'start': 3600000}, {'start': MAX_START}, {'step': 1}, {'step': 3600001}, {'start': 1, 'step': 1}:
    OTHER = vector(1, (b'', [], [1]), **other)
    refused(frame(query(ADD), SINGLE, OTHER), 12)
    refused(frame(query(ADD), OTHER, SINGLE), 12)
    refused(frame(query(OR), vector(0), vector(0, **other)), 12)
    refused(frame(query(OR), OTHER, NOTHING), 12)
    refused(frame(query(AND), NOTHING, OTHER), 12)
    refused(frame(query(ADD), vector(2, **other), NOTHING), 6)
    refused(frame(query(ADD), OTHER, OTHER + b'\0'), 5, 1)
    DOUBLED = [(b'a', [], [1, None]), (b'b', [], [None, 1])]
    refused(frame(query(ADD), vector(2, *DOUBLED, **other), vector(2, (b'', [], [1, 1]))), 12)
    refused(frame(query(ADD), vector(2, *DOUBLED, **other), vector(2, (b'', [], [1, 1]), **other)), 7, 1)

# 7 and 8: p is at most 2, so a merge is refused; the last is kept
TWICE = vector(2, (b'a', [], [1, None]), (b'b', [], [None, 1]))
refused(frame(query(ADD), TWICE, vector(2, (b'', [], [1, 1]))), 7, 1)
refused(frame(query(ADD), vector(2, (b'', [], [1, 1])), TWICE), 8, 1)

# merges under every allowance
for _, asked, left, right, outcome in allowances.calls():
    POINTS = len(left[0])
    GIVEN = frame(asked, *(vector(POINTS, *((b'', [], row) for row in rows)) for rows in (left, right)))
    if isinstance(outcome, tuple):
        refused(GIVEN, *outcome)
    else:
        ROWS = ''.join('{}' + ''.join(' %016x' % wire.bits(x) for x in row) + '\n' for row in outcome)
        case(GIVEN, f'answer {len(outcome)} {POINTS} 0 3600000\n{ROWS}')

# 9: 600 series
MANY = [(b'', [(b'k', b'%03d' % i)], []) for i in range(600)]
refused(frame(query(OR), vector(0, *MANY[:300]), vector(0, *MANY[300:])), 9)
case(
    frame(query(OR), vector(0, *MANY[:256]), vector(0, *MANY[256:512])),
    'answer 512 0 0 3600000\n' + ''.join('{k="%03d"}\n' % i for i in range(512)),
)

# 10: each of 3 many-side series with each of 3 one-side series, 9 rows of 1,024
JOINED = query(ADD, 1, 1, 0, (b'none',), (b'r',))
WIDE = [1] * 1024
refused(
    frame(
        JOINED,
        vector(1024, *[(b'', [(b'l', b'%d' % i)], WIDE) for i in range(3)]),
        vector(1024, *[(b'', [(b'r', b'%d' % i)], WIDE) for i in range(3)]),
    ),
    10,
)

# nothing, lengths cut, parts cut, a byte after the third part
unreadable(b'')
unreadable(b'\0\0\0')
unreadable(frame(query(ADD)))
unreadable(frame(query(ADD), SINGLE))
unreadable(frame(query(ADD), SINGLE, SINGLE)[:-1])
unreadable(frame(query(ADD), SINGLE) + b'\0\0\0')
unreadable(frame(query(ADD), SINGLE) + b'\1\0\0\0')
unreadable(frame(query(ADD), SINGLE) + b'\xff\xff\xff\xff')
unreadable(struct.pack('<I', len(query(ADD)) + 1) + query(ADD))
unreadable(frame(query(ADD), SINGLE, SINGLE) + b'\0')

# `unreadable` before any refusal
unreadable(frame(query(19), b'', b'') + b'\0')


def largest(size):
    """An input of so many bytes: six left series that the right one meets, and one that it does not."""
    def made(name):
        met = [(b'', [(b'k', b'a')], [2] * 1000)] * 6
        return frame(
            query(UNLESS, 1, 0, 0, (b'k',)),
            vector(1000, *met, (name, [(b'k', b'b')], [1] * 1000)),
            vector(1000, (b'', [(b'k', b'a'), *((b'x%d' % i, b'v' * 250) for i in range(5))], [1] * 1000)),
        )
    need = size - len(made(b''))
    assert 0 <= need <= 255, need
    given = made(b'n' * need)
    assert len(given) == size
    return given, b'n' * need


GIVEN, NAME = largest(65536)
case(GIVEN, 'answer 1 1000 0 3600000\n' + NAME.decode() + '{k="b"}' + f' {ONE}' * 1000 + '\n')
unreadable(largest(65537)[0])

FILES = {
    'crates/vecop/stdin': CASES[0][0],
    'crates/vecop/stdout': CASES[0][1],
    'crates/test_vecop/stdin': frame(*(given for given, _ in CASES)),
    'crates/test_vecop/stdout': b''.join(text for _, text in CASES),
}
