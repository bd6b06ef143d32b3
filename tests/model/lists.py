"""The lines of the program gate_script's script about lists that are appended.

Of the register before, chunk k is the first k % 7 bytes of bytes_of(k), or the first k % 2 where there are 8,190 chunks or more, and its
signature is bytes_of(k + 101). Byte p of the bytes lent is (7p + n) mod 256. The buffers have room for the result and a few bytes more.
"""

from samples import BITFIELD, DATA, FIRST, LAST, SIGNATURES, TEXT, TREE, bytes_of
from sleep_model import BITFIELD_ENTRY, ENTRY, HEADER, MOST_CHUNKS, SIGNATURE, used_sizes

FILL, SPARE = b'\xa5' * 4, 9
MOST_LENGTHS = 12  # that stand in a line; those of more chunks follow from their places


def cases(script):
    script.run('# lists')
    for n in (0, 1, 7, 8, 1000):
        for k in (0, 1, 2, 40, 255, 256, 257):
            by_rule(script, n, k)
    for k in (1, 2, 3, 40):
        by_rule(script, 8190, k)
    by_rule(script, 16380, 40)
    again(script)
    numbers(script)
    images(script)
    added_up(script)
    longest(script)
    pairs(script)
    unaccepted(script)


def ruled(n, k):
    return [(j * 5 + n) % 23 for j in range(k)]


def register(script, n, k, count, cut=None):
    """A register of n chunks with room for k more, of `count` bytes together; a file is cut afterwards."""
    span = 7 if n < 8190 else 2
    size = sum(j % span for j in range(n))
    sizes = [end + SPARE for end in used_sizes(n + k, n + max(k, 1) - 1, size + count)]
    sizes = [max(room, used) for room, used in zip(sizes, used_sizes(n, n, size))]
    script.begun(FIRST, sizes, FILL)
    script.run('grow %d %d' % (n, span))
    if cut:
        sizes[cut[0]] = cut[1]
        script.lend_from(FIRST, sizes)


def listed(script, lengths, count, seed):
    """Calls with `count` bytes lent, and looks that a refused call has left all as it was."""
    script.run('fill %d 0 %d %d 7' % (TEXT, count, seed % 256))
    before = script.register()
    several = lengths if len(lengths) <= MOST_LENGTHS else [seed]
    answer = script.run(' '.join(map(str, ('list', 0, count, len(lengths), *several))))
    after = script.register()
    if answer.startswith('done'):
        assert len(lengths) <= MOST_LENGTHS or lengths == ruled(seed, len(lengths))
        assert (after.n, after.s) == (before.n + len(lengths), before.n + len(lengths) - 1)
    else:
        assert after == before
    return answer


def by_rule(script, n, k):
    lengths = ruled(n, k)
    register(script, n, k, sum(lengths))
    listed(script, lengths, sum(lengths), n)


def again(script):
    """A second list finds the first one's last signature owed, and is taken once that is stored."""
    register(script, 7, 42, sum(ruled(7, 2)) + sum(ruled(9, 40)))
    for k in (2, 40):
        next_list(script, k)
    script.sign(bytes_of(109))
    next_list(script, 40)


def next_list(script, k):
    n = script.register().n
    listed(script, ruled(n, k), sum(ruled(n, k)), n)


# ---- Each way to be refused, or not to be, at 8 chunks and with the lengths 8, 13 and 18 ----
LENGTHS = [8, 13, 18]


def told(script, n, s, size, lengths=LENGTHS):
    """The register of 8 chunks, of 21 bytes, with other numbers told of it."""
    register(script, 8, 3, sum(LENGTHS))
    script.told(n, s, size)
    listed(script, lengths, sum(lengths), 8)


def numbers(script):
    for n, k in ((1048577, 3), (1048576, 3), (1048576, 0), (1048574, 3), (1048573, 3), (1048320, 257), (1048319, 257), (LAST, 3), (LAST, 0)):
        told(script, n, n, 21, ruled(8, k))
    for n, s, size in ((8, 9, 21), (8, 10, 21), (8, 6, 21), (0, 1, 0), (0, LAST, 0), (8, 8, 22), (8, 8, 20), (0, 0, 1), (8, 7, 21)):
        told(script, n, s, size)


def cut(script, n, lengths, file, end):
    """A register of n chunks with room for the list, and one file cut."""
    register(script, n, len(lengths), sum(lengths), (file, end))
    listed(script, lengths, sum(lengths), n)


def images(script):
    """A file a byte shorter than it is used, a byte shorter than the result, and just as long as that; a header with another last byte."""
    for file in range(4):
        used, result = (used_sizes(*three)[file] for three in ((8, 8, 21), (11, 10, 60)))
        for end in sorted({used - 1, result - 1, result}):
            cut(script, 8, LENGTHS, file, end)
    for n, lengths, end in ((0, [0], 3359), (0, [0], 3360), (8190, [2, 7], 3360), (8190, [2, 7, 12], 6687), (8190, [2, 7, 12], 6688)):
        cut(script, n, lengths, BITFIELD, end)
    for lengths in ([8], [8, 13]):  # one chunk has no signature stored before it
        cut(script, 8, lengths, SIGNATURES, HEADER + SIGNATURE * 8)
    for file in (TREE, SIGNATURES, BITFIELD):
        register(script, 8, 3, sum(LENGTHS))
        script.turn((file, HEADER - 1, 1))
        listed(script, LENGTHS, sum(LENGTHS), 8)


def added_up(script):
    """Lengths beside another number of bytes lent: whole numbers, so that none adds up by wrapping."""
    rows = [([], 0), ([], 1), (LENGTHS, 38), (LENGTHS, 40), (LENGTHS, 0), ([LAST, 6], 5), ([2 ** 63, 2 ** 63], 0), ([LAST], 0), ([0], 1),
            ([0], 0), ([0, 0, 0], 0), ([65537], 65536), ([65536], 65537)]
    for lengths, count in rows:
        register(script, 8, 3, count)
        listed(script, lengths, count, 8)


def longest(script):
    for lengths in ([65536, 0], [65537], [1, 65537], [65537, 1, 1]):
        register(script, 8, 3, sum(lengths))
        listed(script, lengths, sum(lengths), 8)


# ---- Two at once ----
FAULTS = 2, 3, 4, 5, 6, 16, 7, 8, 14


def faulty(script, *faults):
    """The register of 8 chunks and a list of three, with what each of these numbers refuses: n is 1,048,576; s is two more; the tree is a byte
    shorter than used; the last byte of the signatures' header is another; the data size is one more; a byte more is
    lent; the second length is 65,537; s is one less; the data has room for a byte less than the result."""
    lengths = [8, 65537, 18] if 7 in faults else LENGTHS
    register(script, 8, 3, sum(lengths))
    (_, tree), *others, (_, data) = script.parts[0]
    tree = HEADER + ENTRY * 15 - 1 if 4 in faults else tree
    data = 21 + sum(lengths) - 1 if 14 in faults else data
    script.lend_from(FIRST, (tree, *(end for _, end in others), data))
    if 5 in faults:
        script.turn((SIGNATURES, HEADER - 1, 1))
    n = MOST_CHUNKS if 2 in faults else 8
    script.told(n, n + 2 * (3 in faults) - (8 in faults), 21 + (6 in faults))
    assert listed(script, lengths, sum(lengths) + (16 in faults), 8).startswith('refused %d:' % faults[0])


def pairs(script):
    for fault in FAULTS:
        faulty(script, fault)
    for at, first in enumerate(FAULTS):
        for second in FAULTS[at + 1:]:
            if (first, second) != (3, 8):  # s is n - 1, or it is not
                faulty(script, first, second)


# ---- Registers that no audit would accept ----
def spoilt(script, n, k, *changes):
    """Bytes of the register changed before: a file, an offset in it, and what is turned there."""
    lengths = ruled(n, k)
    register(script, n, k, sum(lengths))
    script.turn(*changes)
    listed(script, lengths, sum(lengths), n)


def unaccepted(script):
    """A root's hash, a hole, a data bit and a tree bit behind n, a data bit below n, an Index byte. Across the border of
    bitfield entries: the Index of the first entry, where that entry gets a chunk, and where it gets a parent alone."""
    entry = [HEADER + ENTRY * index for index in range(14)]
    spoilt(script, 7, 2, (TREE, entry[12], 1))
    spoilt(script, 7, 2, (TREE, entry[7] + 39, 1), (TREE, entry[4] + 39, 2))
    spoilt(script, 7, 40, (BITFIELD, 32 + 10, 16), (BITFIELD, 1056 + 3, 255), (BITFIELD, 32, 64), (BITFIELD, 3104 + 9, 5), (DATA, 2, 1))
    spoilt(script, 8, 1, (TREE, entry[11], 1), (SIGNATURES, 40, 1))
    first_index = HEADER + BITFIELD_ENTRY - 256
    spoilt(script, 8190, 3, (BITFIELD, first_index + 4, 1), (BITFIELD, 32 + 100, 1))
    spoilt(script, 8190, 3, (BITFIELD, HEADER + BITFIELD_ENTRY + 7, 1))
    spoilt(script, 16380, 40, (BITFIELD, first_index + 4, 1), (BITFIELD, 32 + 100, 1), (BITFIELD, first_index + BITFIELD_ENTRY + 4, 1))
