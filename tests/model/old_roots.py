"""The lines of the program gate_script's script about the root hashes of the first m chunks, beside those that the appends answered at the time, and
about walks along two packets."""

from samples import BITFIELD, DATA, FIRST, LAST, ROOT_AT, SIGNATURES, TEXT, TREE
from sleep_model import ENTRY, HEADER, SIGNATURE, make_packet, root_hash

MOST = 1048576
SIZES = 1592, 1312, 3360, 57


def cases(script):
    script.run('# old root hashes, and walks along packets')
    then = twenty(script)
    each_count(script, then)
    thirteen(script)
    numbers(script)
    walks(script)
    damaged(script)
    order(script)
    far(script)


# ---- Root hashes of earlier years ----
def twenty(script):
    """What each append answered at the time: chunk k is the first k % 7 bytes of a text."""
    script.begun(FIRST, SIZES)
    then = [script.run('root')]
    for k in range(20):
        then.append(script.append(b'abcdef'[:k % 7]).split(' ')[0])
        script.sign(bytes([7]) * SIGNATURE)
    return then


def first(script, n):
    script.told(n, n, sum(k % 7 for k in range(n)))


def old(script, m):
    return script.run('old %d' % m)


def each_count(script, then):
    for n in range(21):
        first(script, n)
        for m in range(n + 2):
            assert old(script, m) == (then[m] if m <= n else 'refused 9:' + '0' * 64)


def far(script):
    script.begun(FIRST, (655552, 524480, 6720, 8192))
    script.run('grow 8193 2')
    for m in (0, 1, 4095, 4096, 8190, 8191, 8192, 8193, 8194, LAST):
        old(script, m)


def thirteen(script):
    first(script, 13)
    for m in range(15):
        old(script, m)


def numbers(script):
    for told in ((MOST + 1, 13, 36), (LAST, LAST, 36), (MOST, MOST, 36), (13, 12, 36), (13, 11, 36), (13, 14, 36), (13, 13, 35), (13, 13, 37),
                 (13, 13, 58), (12, 12, 31), (12, 11, 31), (0, 0, 0), (0, 1, 0), (0, 0, 1)):
        script.told(*told)
        for m in (0, 12, 13, 14):
            old(script, m)


# ---- Registers that no audit would accept, and the order of the checks ----
def damaged(script):
    """A byte of an entry changes the root hashes that have the entry as a root, and no others; a length of a root of n gives 6. Leaves, parents
    and roots are changed in their hash or in their length; then a header, and at last a byte of each other file."""
    for at in [HEADER + ENTRY * index + part for index, part in
               ((0, 0), (1, 39), (3, 32), (7, 0), (8, 31), (9, 39), (15, 5), (19, 0), (22, 36), (24, 39))] + [31]:
        with script.turned((TREE, at, 1)):
            thirteen(script)
    script.turn((SIGNATURES, 40, 1), (BITFIELD, 32, 1), (DATA, 3, 1))
    thirteen(script)


def order(script):
    """From each fault on, all that come behind it in the order of the checks: n is 1,048,577; s is two more; the tree is a byte shorter than
    used; the last byte of the signatures' header is another; the data size is one more; m is one more than n."""
    for fault, number in enumerate((2, 3, 4, 5, 6, 9)):
        n = MOST + 1 if fault == 0 else 13
        script.told(n, n + 2 if fault <= 1 else n, 37 if fault <= 4 else 36)
        script.lend_from(FIRST, (1031 if fault <= 2 else SIZES[0], *SIZES[1:]))
        with script.turned(*[(SIGNATURES, 31, 1)] * (fault <= 3)):
            assert old(script, n + 1) == 'refused %d:%s' % (number, '0' * 64)


# ---- Walks along two packets ----
def packet_of(r, chunk, size):
    out = bytearray(size)
    assert make_packet(r, chunk, out) == ('done', size)
    return bytes(out)


WHOLE, OTHER, EIGHT = (0, 212), (216, 428), (432, 599)  # where packets lie


def walk(script, one, two, n, chunk):
    return script.run('walk %d %d %d %d %d %d %d' % (n, chunk, ROOT_AT, *one, *two))


def walks(script):
    """The packet of chunk 6 of 13, of six bytes: 3 siblings and 2 other roots behind it, each byte changed in turn, of the first packet, of the
    second and of both. Then whole and damaged packets and those of two chunks, in both orders, numbers told wrong, and another root hash."""
    first(script, 13)
    r = script.register()
    for (start, end), chunk in ((WHOLE, 6), (OTHER, 6), (EIGHT, 8)):
        script.written(TEXT, start, packet_of(r, chunk, end - start))
        script.run('packet %d %d' % (chunk, end - start))
    script.written(TEXT, ROOT_AT, root_hash(r)[1])
    for at in range(212):
        with script.turned((TEXT, OTHER[0] + at, 1)):
            for both in ((OTHER, WHOLE), (WHOLE, OTHER), (OTHER, OTHER)):
                walk(script, *both, 13, 6)
    script.turn((TEXT, OTHER[0] + 50, 1))
    for words in ((WHOLE, WHOLE, 13, 6), (EIGHT, EIGHT, 13, 8), (WHOLE, EIGHT, 13, 6), (WHOLE, EIGHT, 13, 8), (OTHER, EIGHT, 13, 6),
                  (EIGHT, OTHER, 13, 6), (WHOLE, WHOLE, 13, 13), (WHOLE, WHOLE, 12, 6), (WHOLE, WHOLE, MOST + 1, 6)):
        walk(script, *words)
    script.written(TEXT, ROOT_AT, b'an old root hash of 32 bytes ...')
    walk(script, WHOLE, WHOLE, 13, 6)
