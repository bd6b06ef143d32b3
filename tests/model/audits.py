"""The lines of the program gate_script's script about audits and comparisons."""

from samples import BITFIELD, DATA, FIRST, LAST, SECOND, SIGNATURES, TEXT, TREE, bytes_of
from sleep_model import ENTRY, HEADER, SIGNATURE, be, entry_bytes, leaf_node, node_hash, used_sizes

PARTS = 0, 31, 32, 37, 39  # of an entry: both ends of the hash, and the length's bytes for 2^56, 65,536 and 1
SIZES = 1152, 960, 3392, 40
FILLS = b'\xaa\xbb\xcc\xdd', b'\x11\x22\x33\x44'


def cases(script):
    script.run('# audits and comparisons')
    damaged(script, 10, 7, 1)
    damaged(script, 13, 5, 128)
    two_bitfield_entries(script)
    doubly_damaged(script)
    register(script, 10, 7)
    told_wrong(script)
    lent_short(script)
    longest(script)
    wrapping(script)
    for pair in EQUAL + OTHER_CUTS + OTHER_COUNTS:
        walked(script, *pair)
    for changes in SPOILT:
        walked(script, EVEN, EVEN, changes)
    for pair in TOLD_WRONG:
        walked(script, *pair)


def register(script, n, span, sizes=SIZES):
    script.begun(FIRST, sizes)
    script.run('grow %d %d' % (n, span))


# ---- One byte changed, or two ----
def places(n):
    """The places of each file; one entry, signature or byte past the used ones is among them."""
    header = list(range(HEADER))
    entries = [HEADER + ENTRY * index + part for index in range(2 * n) for part in PARTS]
    signatures = [HEADER + SIGNATURE * k + SIGNATURE - 1 for k in range(n + 1)]
    bitfield = [*range(32, 40), *range(1056, 1064), *range(3104, 3120), 1055, 3103, *range(3352, 3362)]
    return header + entries, header + signatures, header + bitfield, list(range(32))


def damaged(script, n, span, mask):
    register(script, n, span)
    for file, several in enumerate(places(n)):
        for at in several:
            changed(script, (file, at, mask))


def two_bitfield_entries(script):
    """8,193 empty chunks: entries at both ends, and the borders between the parts of the bitfield entries."""
    register(script, 8193, 1, (655552, 524480, 6720, 8))
    for part, index in enumerate((8191, 16382, 16383, 16384, 16385)):
        changed(script, entry(index, part, 1))
    for border in (1056, 3104, 3360, 4384, 6432, 6688):
        for at in range(border - 2, border + 2):
            changed(script, (BITFIELD, at, 1))


def changed(script, *changes):
    with script.turned(*changes):
        script.run('audit')


def entry(index, part, mask):
    return TREE, HEADER + ENTRY * index + PARTS[part], mask


def doubly_damaged(script):
    pairs = [
        ((BITFIELD, 0, 1), (TREE, 31, 1)),
        ((BITFIELD, 4, 1), entry(7, 4, 1)),
        (entry(7, 2, 128), entry(19, 2, 128)),
        (entry(7, 4, 1), entry(19, 4, 1)),
        (entry(19, 4, 1), entry(24, 4, 1)),
        (entry(0, 4, 1), entry(2, 4, 1)),
        (entry(4, 2, 128), entry(6, 2, 128)),
        (entry(8, 0, 1), entry(3, 1, 1)),
        (entry(23, 0, 1), entry(15, 4, 1)),
        ((DATA, 22, 1), entry(21, 0, 1)),
        ((BITFIELD, 32, 1), entry(24, 0, 1)),
        ((BITFIELD, 33, 4), (BITFIELD, 1056, 1)),
        ((BITFIELD, 33, 8), (BITFIELD, 3104, 64)),
        ((SIGNATURES, 32, 1), (BITFIELD, 3359, 1)),
        ((SIGNATURES, 863, 1), (TREE, 1032, 1)),
    ]
    register(script, 13, 5)
    for pair in pairs:
        changed(script, *pair)


# ---- Told wrong, or lent short ----
def told_wrong(script):
    for numbers in ((10, 10, 24), (10, 9, 24), (10, 8, 24), (10, 11, 24), (0, 0, 0), (0, 1, 0), (0, LAST, 0), (0, 0, 24), (1048576, 10, 24),
                    (1048576, 1048576, 24), (1048577, 1048577, 24), (LAST, 10, 24), (10, 10, 23), (10, 10, 25), (10, 10, 40), (10, 10, 41),
                    (10, 10, LAST), (8, 8, 21), (9, 9, 22), (9, 9, 24), (11, 10, 24), (12, 12, 24)):
        script.told(*numbers)
        script.run('audit')
    script.told(10, 10, 24)


def lent_short(script):
    """The used sizes, and then a file after the other lent a byte shorter, or not at all."""
    used = list(used_sizes(10, 10, 24))
    shorter = [used[:k] + [used[k] - 1] + used[k + 1:] for k in range(4)]
    without = [used[:k] + [0] + used[k + 1:] for k in range(4)]
    for sizes in [used] + shorter + without + [[0] * 4]:
        script.lend_from(FIRST, sizes)
        script.run('audit')


# ---- Entries that no append writes, with hashes that follow from what they say ----
def longest(script):
    script.begun(FIRST, (72, 96, 3360, 65537), b'\xaa\xbb\xcc\x5a')
    script.run('fill %d 0 65537 90 0' % TEXT)
    script.run('append 0 65536')
    script.run('audit')
    script.written(TREE, HEADER, entry_bytes(leaf_node(b'\x5a' * 65537, node_hash)))
    script.told(1, 0, 65537)
    script.run('audit')


def wrapping(script):
    """The second leaf says 2^64 - 1, so that the sum at the parent is 3 modulo 2^64; the roots still say 8 together."""
    laid(script, FIRST, (7, 3, 3, 4, 0), 101, FILLS[0])
    left, right = script.register().node(0)[0], b'\7' * 32
    for index, node in ((1, (node_hash(b'\1' + be(8, 3) + left + right), 3)), (2, (right, LAST)), (4, (right, 5))):
        script.written(TREE, HEADER + ENTRY * index, entry_bytes(node))
    script.run('audit')


# ---- Pairs ----
def laid(script, at, cut, mark, fill):
    """The first 24 bytes of bytes_of(text) as n chunks of `even` and `odd` bytes in turn, fewer at the end."""
    text, n, s, even, odd = cut
    script.begun(at, (1952, 1600, 3392, 32), fill)
    script.written(TEXT, 0, bytes_of(text))
    size = 0
    for k in range(n):
        end = min(24, size + (odd if k % 2 else even))
        script.run('append %d %d' % (size, end))
        script.sign(bytes_of(mark))
        size = end
    script.told(n, s, size)


def walked(script, first, second, changes=(None, None)):
    laid(script, SECOND, second, 201, FILLS[1])
    turned(script, changes[1])
    script.run('swap')
    laid(script, FIRST, first, 101, FILLS[0])
    turned(script, changes[0])
    script.run('compare')


def turned(script, change):
    if change:
        script.turn(change)


EVEN = 7, 6, 6, 4, 4

EQUAL = [((7, 0, 0, 0, 0), (7, 0, 0, 0, 0)), ((7, 1, 1, 0, 0), (7, 1, 1, 0, 0)), (EVEN, EVEN), (EVEN, (7, 6, 5, 4, 4)),
         ((7, 13, 12, 0, 4), (7, 13, 13, 0, 4))]

OTHER_CUTS = [(EVEN, (7, 6, 6, 3, 5)), (EVEN, (7, 12, 12, 2, 2)), ((7, 1, 1, 24, 0), (7, 24, 24, 1, 1)),
              ((7, 12, 12, 0, 4), (7, 12, 12, 4, 0)), ((7, 2, 2, 0, 24), (7, 2, 2, 24, 0)), (EVEN, (8, 6, 6, 4, 4))]

OTHER_COUNTS = [((7, 0, 0, 0, 0), (7, 1, 1, 0, 0)), ((7, 0, 0, 0, 0), (7, 1, 1, 24, 0)),
                ((7, 1, 1, 0, 0), (7, 2, 2, 0, 0)), ((7, 1, 1, 24, 0), (7, 2, 2, 24, 0)), (EVEN, (7, 7, 7, 4, 4)),
                ((7, 7, 7, 4, 4), (7, 8, 8, 4, 4)), ((7, 5, 5, 4, 4), EVEN), ((7, 4, 4, 3, 3), (7, 8, 8, 3, 3))]

SPOILT = [((TREE, 40, 1), None), (None, (TREE, 40, 1)), ((TREE, 240, 1), (TREE, 40, 1)),
          ((BITFIELD, 32, 1), (TREE, 40, 1)), ((BITFIELD, 3104, 1), (BITFIELD, 32, 1)), (None, (BITFIELD, 3104, 1)),
          ((SIGNATURES, 31, 1), (DATA, 0, 1)), ((DATA, 0, 1), (SIGNATURES, 31, 1)), ((TREE, 191, 1), None),
          (None, (TREE, 191, 1)), ((SIGNATURES, 32, 1), (DATA, 24, 1))]

TOLD_WRONG = [((7, 6, 7, 4, 4), EVEN), (EVEN, (7, 6, 4, 4, 4)), ((7, 0, 1, 0, 0), (7, 6, 4, 4, 4))]
