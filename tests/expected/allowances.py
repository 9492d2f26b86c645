"""Calls that turn on the allowance of their query, and what 02 says of them: test_vecop and the cases of replay_test.py have them in
common. Every series is without name and tags: a side is its rows, None for missing, and so is an answer. A refusal is its number and
fields."""
from wire import ADD, AND, GROUP_LEFT, GROUP_RIGHT, ONE_TO_ONE, OR, query

N = None


def merges(name, allowance, kept, sources, merged=None, failed=0):
    """The sources merged in their order into the row kept: on the left, on the right, and on the one side of either join. Without a merged
    row the source of this number fails."""
    last, first, other = [*sources, kept], [kept, *sources], [[0] * len(kept)]
    for where, join, left, right, number in (
        ('on the left', ONE_TO_ONE, last, other, 7),
        ('on the right', ONE_TO_ONE, other, last, 8),
        ('on the one side of group_left', GROUP_LEFT, other, first, 8),
        ('on the one side of group_right', GROUP_RIGHT, first, other, 7),
    ):
        fields = (len(sources), failed) if join == ONE_TO_ONE else (0, 1 + failed)
        outcome = [merged] if merged else (number, *fields)
        yield f'{name}, {allowance} allowed, {where}', query(ADD, join=join, allowance=allowance), left, right, outcome


def calls():
    """Name, query, left side, right side, outcome."""
    for allowance in range(9):
        for shared in range(max(allowance - 1, 0), allowance + 2):
            source, merged = [1] * shared + [N] * (10 - shared), [1] * shared + [2] * (10 - shared)
            yield from merges(f'{shared} shared', allowance, [2] * 10, [source], merged if shared <= allowance else None)
        yield from merges('p = 2', allowance, [2, N], [[N, 1]])
    yield from merges('p = 1', 8, [2], [[1]])
    # each merge has the whole allowance: 3 shared in each of two and of three; the second shares readings of the first
    kept, first, second, third = [2, 2, 2, 2, N, N, N, N], [1, 1, 1, N, 1, 1, 1, N], [N, N, N, N, 3, 3, 3, 3], [N, 4, N, N, N, N, 4, 4]
    yield from merges('3 and 3 shared', 3, kept, [first, second], [1, 1, 1, 2, 3, 3, 3, 3])
    yield from merges('3, 3 and 3 shared', 3, kept, [first, second, third], [1, 4, 1, 2, 3, 3, 4, 4])
    yield from merges('3 and 4 shared', 3, kept, [first, [N, N, N, 3, 3, 3, 3, N]], failed=1)
    yield from merges('4 and 0 shared', 3, kept, [[1] * 8, [N] * 7 + [3]], failed=0)
    yield from merges('3, 3 and 4 shared', 3, kept, [first, second, [4, 4, N, N, N, N, 4, 4]], failed=2)
    # set rules pay no heed to it
    for allowance in 0, 8:
        for name, op, rows in ('and', AND, [[1, 1, N], [2, 2, 2]]), ('or', OR, [[1, 1, 5], [2, 2, 2]]):
            yield f'{name}, {allowance} allowed', query(op, allowance=allowance), [[1, 1, N], [2, 2, 2]], [[5, 5, 5], [6, 6, 6]], rows
