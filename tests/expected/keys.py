"""crates/test_keys: two sides of label records under a matching, and the key numbers that 01 says they have, worked out here apart from
the program. The hash alone is this library's own; only cases are chosen by it."""
import random

from wire import ALL, IGNORING, ON, label_list, label_part, part, record, tag_fields

BUCKETS = 16384
# added to the matching: the name is in the key
NAMED = 3


def side_part(side):
    return label_part(len(side), 0, [record(*series) for series in side])


def key_of(matching, names, tags):
    """The tags of the key."""
    if matching == ON:
        return [t for t in tags if t[0] in names]
    if matching == IGNORING:
        return [t for t in tags if t[0] not in names]
    return tags


def numbers(choice, names, left, right):
    """The first place, over left and then right, of each series' key, with its name where the choice says so."""
    named, matching = divmod(choice, NAMED)
    keys = [(named and name, key_of(matching, names, tags)) for name, tags in left + right]
    places = [keys.index(k) for k in keys]
    return places[:len(left)], places[len(left):]


def hash_of(tags, name=b''):
    h = 0
    for b in tag_fields(tags) + name:
        h = h % 2**39 * 16777619 + b
    return h


def series(name=b'', **tags):
    """A series with tags in order of their keys."""
    return name, sorted((k.encode(), v.encode()) for k, v in tags.items())


HOST_A, HOST_B, HOST_C = series(host='a'), series(host='b'), series(host='c')
# two values that leave one hash behind them, found by trying 518,839 values of eight letters chosen by chance
ALIKE = 'haeanplh', 'rswqvdyo'


def equal_keys():
    yield ALL, [], [], []
    yield ALL, [], [HOST_A], []
    yield ALL, [], [], [HOST_A, HOST_A]
    yield ALL, [], [HOST_A, HOST_B], [HOST_B, HOST_A]
    yield ALL, [], [HOST_A, HOST_A, HOST_B], [HOST_C, HOST_B, HOST_C, HOST_A]
    yield ALL, [], [HOST_B, HOST_A, HOST_B], [HOST_A, HOST_B]
    yield ON, [b'host'], [series(host='a', job='x'), series(host='a', job='y')], [series(host='a'), series(job='x')]
    yield IGNORING, [b'job'], [series(host='a', job='x'), series(host='a', job='y')], [series(host='a'), series(job='x')]


def prefixes():
    """Keys that begin other keys, and tags that are parted elsewhere."""
    short, long = series(a='1'), series(a='1', b='2')
    yield ALL, [], [short, long], [long, short, series(b='2')]
    yield ALL, [], [series(a='1'), series(a='12'), series(a='')], [series(a='12'), series(a='1'), series(a='123')]
    yield ALL, [], [series(ab='c'), series(a='bc')], [series(abc=''), series(a='bc'), series(ab='c')]
    yield ON, [b'a'], [short, long], [long, short]
    yield IGNORING, [b'b', b'c'], [short, long], [series(a='1', c='3'), series(b='2')]


def empty_values():
    """A tag with no bytes is present."""
    yield ALL, [], [series(), series(a='')], [series(a=''), series(), series(b='')]
    yield ON, [b'a'], [series(b='1'), series(a='', b='1')], [series(a=''), series(b='2')]
    yield IGNORING, [b'b'], [series(a=''), series()], [series(b=''), series(a='', b='')]


def names():
    """The name is in no key, listed or not, unless it is asked for."""
    one, two = series(b'one', a='1'), series(b'two', a='1')
    for matching, listing in (ALL, []), (ON, [b'a']), (ON, [b'__name__']), (ON, [b'__name__', b'a']), (IGNORING, [b'__name__']):
        yield matching, listing, [one, two, series(b'one', a='2')], [two, series(a='1'), series(b'one')]


def named():
    """Keys with the name in them: names that begin other names, no name, and the bytes of a tag as a name."""
    one, two = series(b'one', a='1'), series(b'two', a='1')
    lists = (ALL, []), (ON, [b'a']), (ON, []), (ON, [b'__name__']), (IGNORING, [b'a']), (IGNORING, [b'b'])
    for matching, listing in lists:
        yield NAMED + matching, listing, [one, two, series(b'one', a='2')], [two, series(a='1'), series(b'one'), one]
    short, long, none = series(b'on'), series(b'one'), series()
    yield NAMED + ALL, [], [short, long, none], [long, none, series(b'o'), short]
    yield NAMED + ALL, [], [series(a='1'), series(tag_fields([(b'a', b'1')]))], [series(b'a1'), series(a='1')]
    every = [series(b'name-%d' % (i % 90), zone=f'z{i % 4}') for i in range(400)]
    yield NAMED + ALL, [], every[:200], every[200:]
    yield NAMED + ON, [], every[:200], every[200:]
    like, other = (series(v.encode() + b'.', a='1') for v in ALIKE)
    assert hash_of(like[1], like[0]) == hash_of(other[1], other[0])
    yield NAMED + ALL, [], [like, other], [other, like, like]


def nothing_left():
    sides = [series(a='1', b='2'), series(a='3')], [series(b='4'), series()]
    yield ON, [], *sides
    yield ON, [b'c'], *sides
    yield IGNORING, [b'a', b'b'], *sides
    yield IGNORING, [b'a', b'b', b'c'], *sides


def full_sides():
    every = [series(b'm', host=f'host-{i}', zone=f'z{i % 7}') for i in range(1024)]
    yield ALL, [], every[:512], every[512:]
    yield ALL, [], every[:512], every[511::-1]
    yield ON, [b'zone'], every[:512], every[512:]
    yield IGNORING, [b'zone'], every[:512], every[256:768]
    rng = random.Random(9)
    some = every[:300]
    yield ALL, [], rng.choices(some, k=512), rng.choices(some, k=512)


def one_bucket(count):
    """Series whose keys' hashes fall in one bucket, by trying one value after another."""
    bucket = hash_of(series(n='0')[1]) % BUCKETS
    found, i = [], 0
    while len(found) < count:
        if hash_of(series(n=str(i))[1]) % BUCKETS == bucket:
            found.append(series(n=str(i)))
        i += 1
    return found


def buckets():
    a, b, c, d = one_bucket(4)
    yield ALL, [], [a], [b]
    yield ALL, [], [a, b, a, b], [b, a, c, c, d]
    yield ALL, [], [b, c], [a, d, a, d, c, b]
    yield ALL, [], [], [c, b, a, c, b, a]
    like, other = (series(a=v, b='') for v in ALIKE)
    assert hash_of(like[1]) == hash_of(other[1])
    yield ALL, [], [like], [other]
    yield ALL, [], [other, like, like], [like, other]


def given(choice, listing, left, right):
    return bytes([choice]) + part(label_list(listing)) + part(side_part(left)) + part(side_part(right))


def shown(left, right):
    return ''.join(f' {k}' for k in left) + ' |' + ''.join(f' {k}' for k in right) + '\n'


cases = [*equal_keys(), *prefixes(), *empty_values(), *names(), *named(), *nothing_left(), *full_sides(), *buckets()]
FILES = {
    'crates/test_keys/stdin': b''.join(given(*case) for case in cases),
    'crates/test_keys/stdout': ''.join(shown(*numbers(*case)) for case in cases),
}
