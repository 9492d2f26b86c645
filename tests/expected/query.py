"""crates/test_query: queries, and what 01 and 02 say of them, worked out here apart from the program."""
from wire import part, query

COMPARISON = {5, 10, 11, 14, 15, 16}
LOGICAL = {1, 3, 12, 13, 17, 18}
REFUSED = {1: 'refused 1 0 0', 2: 'refused 2 0 0', 13: 'refused 13 0 0'}


def list_at(b, p):
    """The labels of the list at p and where it ends, or None."""
    if p >= len(b) or b[p] > 32:
        return None
    names, count, p = [], b[p], p + 1
    for _ in range(count):
        if p >= len(b):
            return None
        size, p = b[p], p + 1
        if size == 0 or p + size > len(b):
            return None
        names.append(b[p:p + size])
        p += size
    return names, p


def taken(b):
    if not b:
        return REFUSED[2]
    if b[0] > 18 or b[0] in (2, 8):
        return REFUSED[1]
    if len(b) < 4 or b[1] > 2 or b[2] > 3 or b[3] > 3:
        return REFUSED[2]
    first = list_at(b, 4)
    second = first and list_at(b, first[1])
    if not second or second[1] + 1 != len(b):
        return REFUSED[2]
    if b[1] == 0 and first[0] or b[2] in (0, 3) and second[0]:
        return REFUSED[2]
    if b[-1] > 8:
        return REFUSED[13]
    keep, as_bool = b[3] in (1, 3), b[3] in (2, 3)
    resets = not keep and (as_bool if b[0] in COMPARISON else b[0] not in LOGICAL)
    words = [b[0] in COMPARISON, b[0] in LOGICAL, ('all', 'on', 'ignoring')[b[1]], ('one', 'left', 'right', 'one')[b[2]],
             keep, as_bool, resets, first[1], b[-1]]
    return ' '.join(['asked'] + [w if isinstance(w, str) else str(int(w)) for w in words])


good = [
    query(0),
    query(4, 1, 1, 1, [b'press', b'shift'], [b'form', b'__name__']),
    query(10, 2, 2, 3, [b'press'], [b'*']),
    query(18, 1, 0, 2, [b'a', b'a']),
]
cases = [query(op) for op in range(21)]
cases += [b'', bytes([255])] + [bytes([op]) for op in (0, 2, 8, 19)]
cases += [query(op, flags=flags) for op in (5, 9, 12) for flags in range(5)]
cases += [query(7, m, j, 0, ms, js) for m in range(4) for j in range(5) for ms in ([], [b'a']) for js in ([], [b'*'], [b'*', b'b'])]
for g in good:  # every prefix, bytes left over, single damaged bytes
    cases += [g[:k] for k in range(len(g) + 1)] + [g + b'\0', g + b'\1\1a']
    cases += [g[:k] + bytes([(g[k] + d) % 256]) + g[k + 1:] for k in range(len(g)) for d in (1, 0x80, 0xff)]
many = [b'%02d' % i for i in range(33)]
long = query(0, 1, 1, 0, [b'x' * 255], [b'y' * 255])
cases += [query(0, 1, 1, 0, *lists) for lists in ((many[:32], many[:32]), (many, []), ([], many))]
cases += [long, long[:260], query(0, 1, 1, 0, [b''], []), query(0, 1, 1, 0, [], [b''])]

# the allowance: every one, above 8, missing, with bytes behind it; 1 and 2 come before 13
for g in good:
    cases += [g[:-1] + bytes([allowance]) for allowance in (*range(11), 16, 127, 128, 255)]
    cases += [g[:-1] + bytes([allowance, *behind]) for allowance in (0, 8, 9, 255) for behind in ((0,), (2,), (9,), (9, 9))]
    cases += [g[:k] + b'\x09' for k in range(len(g))]  # the lists cut
cases += [query(op, allowance=9) for op in range(21)] + [bytes([2, 9]), bytes([19, 9])]
cases += [query(7, m, j, f, ms, js, 9) for m in range(4) for j in range(5) for f in (0, 4) for ms in ([], [b'a']) for js in ([], [b'*'])]
cases += [query(0, 1, 1, 0, *lists, 9) for lists in ((many[:32], many[:32]), (many, []), ([], many), ([b''], []), ([], [b'']))]

FILES = {'crates/test_query/stdin': b''.join(map(part, cases)), 'crates/test_query/stdout': ''.join(taken(q) + '\n' for q in cases)}
