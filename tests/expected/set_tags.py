"""crates/test_set_tags: many-side records edited from a source, and what 01 says they become, worked out here apart from the program.
The hash alone is this library's own."""
from expected.keys import hash_of
from wire import METRIC_GROUP, field, label_list, part, record

MAX_TAGS = 32


def encoded(series):
    """The record of a name and tags, in order of their keys."""
    name, tags = series
    return record(name, sorted(tags.items()))


def set_tags(join, skip, many, source):
    """Label after label, as 01 has it: set from the source, or removed if absent there."""
    name, tags = many[0], dict(many[1])
    if join == [b'*']:
        tags.update({k: v for k, v in source[1].items() if k not in skip})
        return name, tags
    for label in join:
        if label in skip:
            continue
        if label == METRIC_GROUP:
            name = source[0]
        elif label in source[1]:
            tags[label] = source[1][label]
        else:
            tags.pop(label, None)
    return name, tags


def answer(reset, join, skip, many, source, other):
    """The record stands in a buffer of 187s behind two others, and is shown with the byte behind it."""
    base = (b'' if reset else many[0]), many[1]
    edited = set_tags(join, skip, base, source)
    alike = edited[1] == set_tags(join, skip, base, other)[1]
    size = f'{len(edited[1])} {len(encoded(edited))}'
    shown = (b'\xbb\xbb' + encoded(edited) + b'\xbb').hex() if len(edited[1]) <= MAX_TAGS else ''
    return f'{"yes" if alike else "no"} {hash_of(sorted(edited[1].items())):016x} {size} {shown}\n'


def series(name='', **tags):
    return name.encode(), {k.encode(): v.encode() for k, v in tags.items()}


def numbered(count, first=0):
    return {b'k%02d' % i: b'%d' % i for i in range(first, first + count)}


BARE = series()
MANY = series('many', host='a', job='x', zone='z')
SOURCE = series('source', host='b', kind='k', zone='y')
OTHER = series('other', host='b', kind='l')


def listings():
    """Every list against every other, with the name reset and kept."""
    joins = [
        [], [b'host'], [b'kind'], [b'job'], [b'none'], [b'host', b'job', b'kind'], [b'kind', b'zone', b'host'],
        [b'host', b'host'], [b'job', b'kind', b'job', b'kind'], [METRIC_GROUP], [METRIC_GROUP, METRIC_GROUP],
        [b'zone', METRIC_GROUP, b'job'], [b'*'], [b'*', b'*'], [b'*', b'host'], [b'kind', b'*'], [b'*', METRIC_GROUP], [b'**'],
    ]
    skips = [[], [b'host'], [b'kind', b'zone'], [b'zone', b'zone', b'job'], [METRIC_GROUP], [METRIC_GROUP, b'host'], [b'*']]
    for join in joins:
        for skip in skips:
            yield False, join, skip, MANY, SOURCE, OTHER
            yield True, join, skip, MANY, SOURCE, OTHER


def places():
    """A source's tag before, between and behind the many side's, in the stead of each, and with no tags on a side."""
    many = series('m', b='1', d='2', f='3')
    for label in 'abcdefg':
        source = series('s', **{label: 'new'})
        for join in [label.encode()], [b'*']:
            yield False, join, [], many, source, many
            yield False, join, [], BARE, source, source
            yield False, join, [label.encode()], many, source, BARE
        yield False, [label.encode()], [], many, BARE, source
    every = series('s', **{label: 'new' for label in 'aceg'})
    yield False, [b'*'], [], many, every, many
    yield False, [b'g', b'e', b'c', b'a'], [], many, every, every
    yield False, [b'b', b'd', b'f'], [], many, every, BARE
    yield False, [b'*'], [], BARE, BARE, BARE
    yield True, [METRIC_GROUP], [], BARE, BARE, MANY


def stars():
    """A tag whose key is `*` is copied with all others, and is set by its own label beside others."""
    many, source = (b'm', {b'*': b'old', b'a': b'1'}), (b's', {b'*': b'new', b'b': b'2'})
    for join in [b'*'], [b'*', b'*'], [b'*', b'a'], [b'b', b'*'], [b'a'], [b'**']:
        for skip in [], [b'*'], [b'b']:
            yield False, join, skip, many, source, BARE


def empty_values():
    """An empty value is present: it is set, it is kept, and it differs from none."""
    full, empty = series('m', a='1', b='2'), series('s', a='', b='')
    for join in [b'a'], [b'*'], [b'a', b'b']:
        yield False, join, [], full, empty, BARE
        yield False, join, [], empty, full, empty
        yield False, join, [], empty, BARE, full
        yield False, join, [], BARE, empty, BARE
        yield False, join, [b'a'], full, empty, BARE


def prefixes():
    """Keys, labels and values that begin one another, and tags that are parted elsewhere."""
    many, source = series('m', a='1', ab='2', abcd='4'), series('s', ab='x', abc='3', b='y')
    for join in [b'a'], [b'ab'], [b'abc'], [b'abcd'], [b'abcde'], [b'a', b'abc'], [b'abcd', b'ab', b'a'], [b'*']:
        for skip in [], [b'ab'], [b'abc'], [b'a', b'abcde']:
            yield False, join, skip, many, source, many
    yield False, [b'*'], [], BARE, series(ab='c'), series(a='bc')
    yield False, [b'*'], [], BARE, series(a='1'), series(a='12')
    yield False, [b'*'], [], BARE, series(a='12'), series(a='1')
    yield False, [b'*'], [], BARE, series(a='1'), series(a='1', b='2')
    yield False, [b'__name_', b'__name__x'], [], (b'm', {b'__name_': b'1'}), (b's', {b'__name__x': b'2'}), BARE
    yield False, [METRIC_GROUP], [b'__name_', b'__name__x'], (b'm', {b'__name_': b'1'}), (b's', {b'__name__x': b'2'}), BARE


def alike():
    """Sources that give the same tags: the name aside, what is not set aside, and what the many side has anyway."""
    many = series('many', a='1', b='2')
    for join in [b'a'], [b'*'], [METRIC_GROUP, b'a'], [METRIC_GROUP]:
        for skip in [], [b'a']:
            yield False, join, skip, many, series('one', a='3'), series('two', a='3')
            yield False, join, skip, many, series('one', a='3'), series('one', a='4')
            yield False, join, skip, many, series('one', a='3', c='5'), series('one', a='3')
            yield False, join, skip, many, series('one', a='1'), series('two')
            yield False, join, skip, many, BARE, series('one', a='1')
            yield False, join, skip, series('many', b='2'), series('one', b='2'), BARE


def limits():
    """32 tags that become 33 or stay 32, twice 32, names of 0 and 255 bytes, and fields and lists as long as may be."""
    full = b'full', numbered(32)
    for source in (b's', numbered(1, 32)), (b's', {b'a': b''}), (b's', {b'k15x': b'between'}):
        label = [*source[1]]
        for join, skip in (label, []), ([b'*'], []), (label, label), (label + [b'k00'], []), (label + [b'k31', b'k00'], []):
            yield False, join, skip, full, source, full
    yield False, [b'*'], [], full, (b's', numbered(32)), full
    yield False, [b'*'], [], full, (b's', numbered(32, 32)), full
    yield False, [b'*'], [b'k32'], (b'm', numbered(31)), (b's', numbered(3, 30)), full
    yield False, [*numbered(32)], [], full, BARE, full
    yield False, [*numbered(32)], [*numbered(32)], full, BARE, full
    yield False, [b'*'], [*numbered(32)], full, (b's', numbered(2, 31)), full
    yield False, [*numbered(32, 16)], [*numbered(32, 8)], full, (b's', numbered(32, 4)), full
    long = bytes(range(1, 256))
    for many, source in (b'', b'one'), (b'one', b''), (long, b''), (b'', long), (long, long[::-1]):
        for reset in False, True:
            yield reset, [METRIC_GROUP], [], (many, {}), (source, {b'a': b'1'}), BARE
            yield reset, [METRIC_GROUP], [METRIC_GROUP], (many, {}), (source, {b'a': b'1'}), BARE
            yield reset, [b'*'], [], (many, {}), (source, {b'a': b'1'}), BARE
    yield False, [long], [], (long, {long: b'1'}), (long, {long: long, long[:254]: long}), (b'', {long: long})
    yield False, [long[:254], long], [long], (long, {long: b'1'}), (long, {long: long, long[:254]: long}), (b'', {long: long})
    longest = long, {bytes([i]) + long[1:]: long for i in range(100, 132)}
    yield False, [b'*'], [], BARE, longest, BARE


def refused():
    """Three records of which one is cut, is missing, or has keys out of order or the key `__name__`."""
    good = encoded(MANY)
    for bad in b'', good[:-1], b'\1m\2\1b\1x\1a\1y', b'\1m\1' + field(METRIC_GROUP) + b'\1x', b'\0\x21':
        yield good + good + bad
        yield good + bad
        yield bad + bad


def given(reset, join, skip, records):
    return part(bytes([reset]) + part(label_list(join)) + part(label_list(skip)) + records)


cases = [*listings(), *places(), *stars(), *empty_values(), *prefixes(), *alike(), *limits()]
FILES = {
    'crates/test_set_tags/stdin': b''.join(
        [given(reset, join, skip, b''.join(map(encoded, series))) for reset, join, skip, *series in cases]
        + [given(False, [], [], records) for records in refused()]),
    'crates/test_set_tags/stdout': ''.join([answer(*case) for case in cases] + ['refused\n' for _ in refused()]),
}
