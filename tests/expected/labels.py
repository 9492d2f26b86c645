"""crates/test_labels: records, lists, keys and edits asked about, and what 01 says of them, worked out here apart from the program. The
hash alone is this library's own."""
from expected.keys import hash_of, key_of
from expected.vectors import field_at
from wire import ALL, IGNORING, METRIC_GROUP, ON, field, label_list, part, record


def record_of(s):
    """The name and tags at the start of s, as far as they can be read, and the fault or the place behind them."""
    name = field_at(s, 0)
    if name is None or name[1] >= len(s):
        return (name[0] if name else b''), [], '3', 0
    count, i, tags = s[name[1]], name[1] + 1, []
    for _ in range(count):
        key = field_at(s, i)
        value = key and field_at(s, key[1])
        if value is None:
            return name[0], tags, '3', 0
        tags.append((key[0], value[0]))
        i = value[1]
    keys = [k for k, _ in tags]
    if count > 32:
        fault = '3'
    elif any(k in (b'', METRIC_GROUP) for k in keys) or any(a >= b for a, b in zip(keys, keys[1:])):
        fault = '4'
    else:
        fault = ''
    return name[0], tags, fault, i


def names_of(s):
    names, i = [], 1
    for _ in range(s[0] if s else 0):
        label = field_at(s, i)
        if label is None:
            break
        names.append(label[0])
        i = label[1]
    return names


def look_up(s, label):
    name, tags, fault, _ = record_of(s)
    if fault:
        return fault + ' '
    found = {**dict(tags), METRIC_GROUP: name}
    return 'present ' + found[label].hex() if label in found else 'absent '


def yes(b):
    return 'yes ' if b else 'no '


def written(name, tags):
    """Tags, bytes, and the record in a buffer of 187s behind two others, with the byte behind it."""
    rec = record(name, tags)
    front = b'\xbb\xbb' + rec + b'\xbb' if len(rec) <= 19000 else b''
    return f'{len(tags)} {len(rec)} {front.hex()}'


def answer(asked, a, b, c):
    names, (name, tags, fault, behind) = names_of(c), record_of(a)
    if asked == 0:
        return look_up(a, b)
    if asked == 1:
        return fault or f'ok {behind}'
    if asked == 2:
        return yes(b in names) + yes(names == [b'*'])
    if asked in (3, 4, 5):
        matching = {3: ALL, 4: ON, 5: IGNORING}[asked]
        key = key_of(matching, names, tags)
        return yes(key == key_of(matching, names, record_of(b)[1])) + f'{hash_of(key):016x}'
    if asked == 6:
        return written(name, tags)
    if asked == 7:
        return written(b'', key_of(ON, names, tags))
    if asked == 8:
        return written(name, key_of(IGNORING, names, tags))
    if asked == 9:
        return written(name if METRIC_GROUP in names else b'', key_of(ON, names, tags))
    return written(b'' if METRIC_GROUP in names else name, key_of(IGNORING, names, tags))


PLAIN = record(b'fed', [(b'form', b'3'), (b'press', b'A')])
BARE = record(b'')
PREFIXES = record(b'waste', [(b'a', b'1'), (b'ab', b''), (b'abc', b'3'), (b'b', b'\x00\xff')])
MANY = [(b'k%02d' % i, b'v%d' % i) for i in range(33)]
FULL = record(b'x', MANY[:32])
LONG = bytes(range(1, 256))
LONGEST = record(LONG, [(bytes([i]) + LONG[1:], LONG) for i in range(100, 132)])
SERIES = [
    PLAIN,
    record(b'waste', [(b'form', b'3'), (b'press', b'A')]),
    record(b'fed', [(b'form', b'4'), (b'press', b'A')]),
    record(b'fed', [(b'press', b'A')]),
    record(b'fed', [(b'form', b''), (b'press', b'A')]),
    record(b'', [(b'a', b'x'), (b'b', b'')]),
    record(b'', [(b'a', b''), (b'xb', b'')]),
    BARE,
    record(b'press'),
]
LISTS = [[], [b'press'], [b'form', b'press'], [METRIC_GROUP], [b'a', b'b'], [b'press', METRIC_GROUP, b'none']]


def looked(s, *keys):
    """A record read, and keys looked up in it."""
    yield 1, s, b'', b''
    for key in keys:
        yield 0, s, key, b''


def prefixes():
    """Every prefix of good records, and bytes behind them."""
    for s in PLAIN, BARE, PREFIXES:
        for n in range(len(s) + 1):
            yield from looked(s[:n], b'press', b'ab', METRIC_GROUP)
        for behind in b'\x00', b'\xff\xff', s:
            yield from looked(s + behind, b'press', b'abc', METRIC_GROUP)


def damaged_bytes():
    for s in PLAIN, PREFIXES:
        for i, byte in enumerate(s):
            for b in {0, 255, byte ^ 1, (byte + 1) % 256, (byte - 1) % 256, 33} - {byte}:
                yield from looked(s[:i] + bytes([b]) + s[i + 1:], b'press', b'a')


def lookups():
    """Absent keys, keys that begin others, the empty key, empty values, the name."""
    for key in b'', b'a', b'ab', b'abc', b'abcd', b'b', b'c', METRIC_GROUP, b'__name_', b'__name__ ':
        for s in PREFIXES, PLAIN, BARE:
            yield from looked(s, key)


def bad_keys():
    """Keys out of order, repeated, empty, `__name__`; and the same where the record is cut behind them: 3 before 4."""
    for tags in (
        [(b'b', b''), (b'a', b'')], [(b'a', b''), (b'a', b'')], [(b'', b'x')], [(METRIC_GROUP, b'x')], [(b'a', b''), (METRIC_GROUP, b'')],
        [(b'aa', b'x'), (b'a', b'y')], [(b'\xff', b''), (b'a', b'')],
    ):
        s = record(b'n', tags)
        yield from looked(s, b'a', METRIC_GROUP)
        yield from looked(s[:-1], b'a')
        yield from looked(field(b'n') + bytes([len(tags) + 1]) + s[3:], b'a')


def limits():
    """32 and 33 tags, fields of 255 bytes, and the longest record."""
    yield from looked(FULL, b'k00', b'k31', b'k32')
    yield from looked(record(b'x', MANY), b'k00')
    yield from looked(b'\x00\x21', b'k00')
    yield from looked(b'\x00\xff', b'k00')
    yield from looked(record(LONG, [(LONG, LONG)]), LONG, LONG[:-1], METRIC_GROUP)
    yield from looked(record(LONG, [(LONG[:254], b''), (LONG, LONG)]), LONG, LONG[:254])
    yield from looked(LONGEST, bytes([131]) + LONG[1:])
    yield from looked(LONGEST[:-1], METRIC_GROUP)


def lists():
    for labels in (
        [], [b'*'], [b'*', b'a'], [b'a', b'*'], [b'**'], [b'a'], [b'a', b'a'], [b'press', b'form', METRIC_GROUP],
        [b'l%d' % i for i in range(32)], [LONG],
    ):
        for x in b'', b'*', b'a', b'press', METRIC_GROUP, b'l31', LONG:
            yield 2, b'', x, label_list(labels)


def keys():
    """The name aside, borders between values and keys, tags that only one has."""
    every, on, ignoring = 3, 4, 5
    for a in SERIES:
        for b in SERIES:
            yield every, a, b, label_list([])
            for labels in LISTS:
                yield on, a, b, label_list(labels)
                yield ignoring, a, b, label_list(labels)
    yield every, FULL, FULL, label_list([])
    yield on, FULL, record(b'', MANY[:1]), label_list([b'k00'])
    yield ignoring, FULL, record(b'', MANY[1:32]), label_list([b'k00'])
    yield every, LONGEST, LONGEST, label_list([])


def edits():
    edited = [(s, labels) for s in SERIES + [PREFIXES] for labels in LISTS + [[b'ab', b'a', METRIC_GROUP]]]
    edited += [(FULL, labels) for labels in ([], [b'k00', b'k31'], [METRIC_GROUP, b'k16'])]
    edited += [(record(LONG, [(LONG, LONG)]), labels) for labels in ([LONG], [METRIC_GROUP])]
    for s, labels in edited:
        for asked in range(6, 11):
            yield asked, s, b'', label_list(labels)
    yield 6, LONGEST, b'', label_list([])
    yield 10, LONGEST, b'', label_list([bytes([100]) + LONG[1:]])


cases = [*prefixes(), *damaged_bytes(), *lookups(), *bad_keys(), *limits(), *lists(), *keys(), *edits()]
FILES = {
    'crates/test_labels/stdin': b''.join(bytes([asked]) + part(a) + part(b) + part(labels) for asked, a, b, labels in cases),
    'crates/test_labels/stdout': ''.join(answer(*case) + '\n' for case in cases),
}
