"""The lines of the program gate_script's script about the short way, request N9, and what has to hold of their answers by the papers.

Of the registers, chunk k is the first k % span bytes of bytes_of(k). Of each number that is asked for both answers stand: the quick way's, a stroke,
and the short way's.
"""

from released import BITFIELD, INDEX, LAST, SIGNATURES, TREE, bytes_in, lend, register
from sleep_model import ENTRY, HEADER, MOST_CHUNKS, audit

LENGTH = 32  # where an entry's length begins, behind its hash


def cases(script):
    accepted(script)
    longest_leaf(script)
    damaged(script)
    any_leaves(script)
    searches(script)
    refusals(script)
    pairs(script)


def asked(script, word, several):
    """All numbers of several ranges; a number alone is a range of one."""
    answers = ''
    for part in several:
        first, count = part if isinstance(part, tuple) else (part, 1)
        answers += script.run('%s %d %d' % (word, first, count))
    return [tuple(both.split('|')) for both in answers.split(';')[:-1]]


def both_ways(script, chunks, offsets):
    return asked(script, 'splace', chunks) + asked(script, 'sbyte', offsets) + asked(script, 'ssearch', chunks)


# ---- Accepted registers ----
def accepted(script):
    """With all pieces and without some; empty chunks at the start, at the end, and alone."""
    script.run('# both ways over accepted registers')
    for n, span, gone in ((0, 7, ()), (1, 7, ()), (2, 7, ()), (3, 7, ()), (7, 7, ()), (8, 7, (7,)), (13, 5, ()), (13, 5, (3, 12, 0)), (16, 1, ()),
                          (17, 3, tuple(range(17))), (20, 7, (15, 16))):
        register(script, n, span, gone)
        assert script.run('audit') == 'done'
        answers = both_ways(script, ((0, n + 2), LAST), ((0, bytes_in(n, span) + 2), LAST))
        assert all(quick == short for quick, short in answers)
    for n, gone in ((8193, (8191, 8192)), (16385, (8192, 16384))):
        register(script, n, 2, gone)
        answers = both_ways(script, ((0, 2), (8190, 4), (n - 1, 2)), ((0, 2), (4094, 4), (n // 2 - 1, 3)))
        assert all(quick == short for quick, short in answers)


def longest_leaf(script):
    """A leaf of just 65,536 bytes, and of one more; its hash is another, which no lookup looks at."""
    script.run('# both ways at a leaf of 65,536 bytes, and of one more')
    for length in (65536, 65537):
        register(script, 2, 1)
        lend(script, 2, length)
        for index in (1, 2):
            script.run('put %d %d %d' % (TREE, HEADER + ENTRY * index + LENGTH, length))
        script.run('told 2 2 %d' % length)
        both_ways(script, ((0, 3),), ((0, 2), (65535, 4)))


# ---- Registers that no audit would accept: 13 chunks, lengths 0 1 2 3 4 0 1 2 3 4 0 1 2, roots 7, 19 and 24 ----
def damaged(script):
    """Each length one more or less, and some longer by 65,536 or 2^63. Then several together, so that the sums hold above: a longer leaf, two longer
    leaves, one byte from a leaf to the next; a root that is a leaf; leaves that are too short for their sum."""
    script.run('# both ways over damaged registers')
    register(script, 13, 5)
    for index in range(25):
        changed(script, [index], 39, 1)
    for part, by in ((37, 1), (32, 128)):
        for index in (0, 1, 4, 7, 10, 18, 19, 21, 24):
            changed(script, [index], part, by)
    for entries, more in (((0, 1, 3, 7), 65536), ((6, 5, 3, 7), 65536), ((24,), 65536), ((16, 17, 19), 65536), ((2, 1, 3, 7, 18, 17, 19), 131072),
                          ((3, 7), 65536), ((7,), 65536), ((19,), 65536)):
        changed(script, entries, 37, 1, more)
    for entries in ((4, 6), (6, 8), (22, 24), (0, 2), (2, 4, 6, 8), (2, 6)):
        changed(script, entries, 39, 1)
    changed(script, (7, 19), 32, 128)
    changed(script, (8, 18), 38, 255)


def changed(script, entries, part, by, more=0):
    """The entries' bytes turned, and a data size that is this much more; then all as it was."""
    size = 23 + more
    lend(script, 13, size)
    script.run('told 13 13 %d' % size)
    turn(script, entries, part, by)
    assert audit(script.register())[0] == 'refused'
    asked(script, 'splace', ((0, 14),))
    asked(script, 'sbyte', ((0, 25), *(((65553, 1), (65558, 2), (131093, 3)) if more else ())))
    turn(script, entries, part, by)


def turn(script, entries, part, by):
    for index in entries:
        script.run('flip %d %d %d' % (TREE, HEADER + ENTRY * index + part, by))


# ---- Leaves that say anything ----
def any_leaves(script):
    """Four empty chunks, leaves of any lengths under a root that says 8: the first leaf above 65,536 refuses all behind it, and the last an offset that
    no leaf contains."""
    script.run('# both ways over leaves that say anything')
    for lengths in ((0, 3, 1, 2), (1, 1, 1, 1), (0, 0, 0, 0), (0, 65536, 0, 9), (2, 65537, 1, 1), (3, 1, 65537, 99999), (1, 2, 3, LAST)):
        register(script, 4, 1)
        lend(script, 4, 8)
        for index, length in zip((0, 2, 4, 6, 3), (*lengths, 8)):
            script.run('put %d %d %d' % (TREE, HEADER + ENTRY * index + LENGTH, length))
        script.run('told 4 4 8')
        long = next((k for k in range(4) if lengths[k] > 65536), 4)
        places = [short for _, short in asked(script, 'splace', ((0, 5),))]
        assert places == ['%d %d' % (sum(lengths[:k]), lengths[k]) if k < long else 'refused 10 tree %d' % (2 * long) for k in range(4)] + ['refused 9']
        order = ['%d %d' % (k, p) for k in range(long) for p in range(lengths[k])][:8]
        none = 'refused 10 tree %d' % (2 * min(long, 3))
        offsets = [short for _, short in asked(script, 'sbyte', ((0, 10),))]
        assert offsets == order + [none] * (8 - len(order)) + ['4 0', 'refused 9']


# ---- Searches beside an Index that doesn't follow ----
FROM = (0, 2), (15, 3), (31, 2), (40, 2), 48, (98, 3), LAST


def searches(script):
    script.run('# both searches')
    for gone in ((), (0,), (15, 16), (17, 40, 98), (99,), tuple(range(100))):
        register(script, 100, 7, gone)
        assert all(quick == short for quick, short in asked(script, 'ssearch', FROM))
    register(script, 100, 7, (17, 40, 98))
    for at in range(INDEX, INDEX + 4):
        kept = script.register().bitfield[at]
        for byte in (0x00, 0x55, 0xaa, 0xff):
            script.run('flip %d %d %d' % (BITFIELD, at, byte ^ kept))
            asked(script, 'ssearch', FROM)
            script.run('flip %d %d %d' % (BITFIELD, at, byte ^ kept))
    script.run('flip %d %d 255' % (BITFIELD, HEADER + 12))  # the last 4 chunks, and 4 bits behind n; the Index stays
    asked(script, 'ssearch', FROM)


# ---- Each way to be refused ----
def one_each(script, chunk=3, offset=5):
    return both_ways(script, (chunk,), (offset,))


def refusals(script):
    run = script.run
    run('# both ways refused')
    register(script, 13, 5)
    for numbers in ((MOST_CHUNKS + 1, 13, 23), (LAST, LAST, 23), (MOST_CHUNKS, 13, 23), (MOST_CHUNKS, MOST_CHUNKS, 23), (13, 12, 23), (13, 11, 23),
                    (13, 14, 23), (13, 13, 33), (13, 13, 22), (13, 13, 24), (12, 12, 21), (3, 3, 3), (0, 0, 0), (0, 1, 0), (0, 0, 1)):
        run('told %d %d %d' % numbers)
        one_each(script)
    run('told 13 13 23')
    for image in range(4):
        cut = [0, 0, 0, 0]
        cut[image] = 10
        lend(script, 13, 23, cut=cut)
        one_each(script)
    lend(script, 13, 23)
    for image in (TREE, SIGNATURES, BITFIELD):
        for change in ('flip %d %d 1' % (image, HEADER - 1),) * 2:
            run(change)
            one_each(script)


FAULTS = 2, 3, 4, 5, 6, 9, 10


def faulty(script, *faults):
    """What each of these numbers refuses: n is 1,048,577; s is two more; the tree is a byte shorter than used; the last byte of the signatures' header
    is another; the data size is one more; the chunk and the offset are far behind; leaf 0 says 2^63."""
    changes = ['flip %d %d 1' % (SIGNATURES, HEADER - 1)] * (5 in faults) + ['flip %d %d 128' % (TREE, HEADER + LENGTH)] * (10 in faults)
    lend(script, 13, 23, cut=(10 * (4 in faults), 0, 0, 0))
    n = MOST_CHUNKS + 1 if 2 in faults else 13
    script.run('told %d %d %d' % (n, n + 2 * (3 in faults), 23 + (6 in faults)))
    for change in changes:
        script.run(change)
    answers = one_each(script, *((LAST, LAST) if 9 in faults else (3, 5)))
    expected = 'refused 10 tree 0' if faults[0] == 10 else 'refused %d' % faults[0]
    assert {short for _, short in answers[:2]} == {expected}
    for change in changes:
        script.run(change)


def pairs(script):
    script.run('# both ways refused, two numbers at once')
    register(script, 13, 5)
    for at, fault in enumerate(FAULTS):
        faulty(script, fault)
        for second in FAULTS[at + 1:]:
            faulty(script, fault, second)
    lend(script, 13, 23)  # the first leaf is too long, and yet the end of the data is found
    script.run('told 13 13 23')
    script.run('flip %d %d 128' % (TREE, HEADER + LENGTH))
    assert [short for _, short in asked(script, 'sbyte', ((22, 3),))] == ['refused 10 tree 0', '13 0', 'refused 9']
