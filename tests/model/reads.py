"""The lines of the program gate_script's script about lookups, reads and packets."""

from samples import BITFIELD, DATA, FIRST, LAST, ROOT_AT, SECOND, SIGNATURES, TEXT, TREE, bytes_of
from sleep_model import ENTRY, HEADER, be, leaf_message, make_packet, node_hash, root_hash, root_message

SIZES = 1032, 864, 3360, 65600  # of the content register
APART = 1100000, 1040000, 3400, 66000  # where a file lies that is lent in another's place


def cases(script):
    """Two registers: the content register is the first, and the metadata register the second."""
    script.run('# lookups, reads and packets')
    metadata_register(script)
    line(script)
    script.run('swap')
    content_register(script)
    lookups(script)
    all_reads(script)
    packets(script)
    checks(script)
    sums(script)


def metadata_register(script):
    script.begun(SECOND, (232, 224, 3360, 5))
    for k, chunk in enumerate((b'AB', b'', b'CDE')):
        script.append(chunk)
        script.sign(bytes_of(k))


def content_register(script):
    """Chunk k has k % 4 bytes."""
    script.begun(FIRST, SIZES)
    script.run('grow 13 4')


def first(n):
    """What is told of the first n chunks of the content register."""
    return n, n, sum(k % 4 for k in range(n))


WRONG = [(LAST, 13, 18), (1048577, 13, 18), (1048576, 13, 18), (1048576, 1048576, 18), (0, LAST, 18), (0, 0, 0), (0, 0, 1),
         (14, 13, 18), (11, 11, 18), (12, 12, 18), (13, 11, 18), (13, 14, 18), (13, 12, 18), (13, 13, 17), (13, 13, 19),
         (13, 13, 65601), (13, 13, LAST), (13, 13, 18)]

# Entries whose lengths are changed together, the byte of the entry, by what it is changed, and what is told then.
CHANGES = [((7, 19), 32, 0x80, first(13)), ((0, 2), 32, 0x80, first(13)), ((1, 5), 32, 0x80, first(13)),
           ((24,), 37, 1, (13, 13, 65554)), ((0, 1, 3, 7), 37, 1, (13, 13, 65554)), ((2, 1, 3, 7), 37, 1, (13, 13, 65554)),
           ((20,), 37, 1, (11, 11, 65551)), ((4, 6), 39, 1, first(13))]

# The last root's children don't add up: no lookup at the data size goes down to them.
LAST_ROOT = ((21,), 39, 1, first(12))


def in_entries(entries, byte, by):
    return [(TREE, HEADER + ENTRY * entry + byte, by) for entry in entries]


# ---- Lookups ----
def looked(script, chunks, offsets):
    for chunk in chunks:
        script.run('place %d' % chunk)
    for offset in offsets:
        script.run('byte %d' % offset)


def line(script):
    looked(script, [*range(15), LAST], [*range(20), 65535, 65536, 65537, 65553, 65554, LAST])


def brief(script):
    looked(script, [3], [5])


def lent_wrong(script):
    """Buffers that are one byte too short, data that just suffices, and buffers in each other's place."""
    for file, size in ((TREE, 1031), (SIGNATURES, 863), (BITFIELD, 3359), (DATA, 17), (DATA, 18)):
        script.lend_from(FIRST, [size if k == file else whole for k, whole in enumerate(SIZES)])
        brief(script)
    script.lend_from(FIRST, SIZES)
    r = script.register()
    for file, image in ((TREE, r.bitfield), (SIGNATURES, r.bitfield), (BITFIELD, r.data[:5600])):
        at, sizes = list(FIRST), list(SIZES)
        at[file], sizes[file] = APART[file], len(image)
        script.lend_from(at, sizes)
        script.run('fill %d 0 %d %d 0' % (file, len(image), image[-1]))
        script.written(file, 0, bytes(image))
        brief(script)
    script.lend_from(FIRST, SIZES)


def lookups(script):
    lent_wrong(script)
    for n in range(14):
        script.told(*first(n))
        line(script)
    for numbers in WRONG:
        script.told(*numbers)
        brief(script)
    for entry in range(25):
        for byte in (39, 32):
            with script.turned(*in_entries([entry], byte, 1)):
                line(script)
    for entries, byte, by, numbers in [*CHANGES, LAST_ROOT]:
        with script.turned(*in_entries(entries, byte, by)):
            script.told(*numbers)
            line(script)
    script.told(*first(13))


# ---- Reads ----
def reads(script):
    script.run('swap')
    for chunk in range(4):
        script.run('get 0 %d' % chunk)
    script.run('swap')
    for chunk in (*range(15), LAST):
        script.run('get 1 %d' % chunk)


def all_reads(script):
    """With bytes changed in the content register; beside a register of which no call could use what is told; and with bytes changed in the metadata
    register."""
    for at in range(18):
        with script.turned((DATA, at, 1)):
            reads(script)
    for entry in range(25):
        for byte in (0, 31):
            with script.turned(*in_entries([entry], byte, 1)):
                reads(script)
    for entries, byte, by, numbers in CHANGES:
        with script.turned(*in_entries(entries, byte, by)):
            script.told(*numbers)
            reads(script)
            script.told(*first(13))
    reads(script)
    script.run('swap')
    script.told(LAST, 5, 7)
    script.run('swap')
    reads(script)
    script.run('swap')
    script.told(3, 3, 5)
    script.run('swap')
    script.told(LAST, 5, 7)
    reads(script)
    script.told(*first(13))
    script.run('swap')
    for at in range(5):
        with script.turned((DATA, at, 1)):
            script.run('swap')
            reads(script)
            script.run('swap')
    script.run('swap')


# ---- Packets ----
def packets(script):
    for n in range(1, 14):
        script.told(*first(n))
        for chunk in range(n + 1):
            script.run('packet %d 300' % chunk)
    for room in (0, 1, 207, 208, 209):
        script.run('packet 6 %d' % room)
    for numbers in WRONG:
        script.told(*numbers)
        script.run('packet 3 300')
    with script.turned((DATA, 12, 1)):
        for room in (0, 300):
            for chunk in range(8, 12):
                script.run('packet %d %d' % (chunk, room))


def checks(script):
    """The packet of the chunk 6 of 13: each byte changed, the counts, each length, root hash, i and n."""
    out = bytearray(300)
    r = script.register()
    length = make_packet(r, 6, out)[1]
    script.written(TEXT, 0, bytes(out))
    script.written(TEXT, ROOT_AT, root_hash(r)[1])
    turns = [(at, by) for by in (1, 0x80) for at in range(length)] + [(6, 7), (127, 3), (6, 3), (127, 2)] + [(ROOT_AT + k, 1) for k in range(32)]
    for at, by in turns:
        with script.turned((TEXT, at, by)):
            check(script, length)
    for count in range(length + 4):
        check(script, count)
    for chunk in (*range(15), LAST):
        check(script, length, chunk=chunk)
    for n in (*range(27), 1048576, 1048577, LAST):
        check(script, length, n=n)


def check(script, length, n=13, chunk=6):
    script.run('check %d %d %d 0 %d' % (n, chunk, ROOT_AT, length))


# ---- Sums ----
def forged(script, first_length, second_length):
    """The packet of the chunk 0 of 3, the byte Q, and the root hash of its entries, with sums modulo 2^64."""
    beside, size = b'\x77' * 32, (1 + first_length) % 2 ** 64
    packet = be(4, 1) + b'Q' + be(1, 1) + beside + be(8, first_length) + be(1, 1) + beside + be(8, second_length)
    above = node_hash(b'\1' + be(8, size) + node_hash(leaf_message(b'Q')) + beside)
    root = node_hash(root_message([(1, (above, size)), (4, (beside, second_length))]))
    script.written(TEXT, 0, packet)
    script.written(TEXT, ROOT_AT, root)
    check(script, len(packet), 3, 0)


def sums(script):
    most, half = 2 ** 36, 2 ** 35
    for lengths in ((0, 0), (most - 1, 0), (most, 0), (0, most - 1), (0, most), (half, half - 1), (half, half), (LAST - 1, 0), (LAST, 0),
                    (2 ** 63, 2 ** 63 - 1), (1, LAST), (LAST, 1)):
        forged(script, *lengths)
    script.run('fill %d 0 65543 0 0' % TEXT)
    script.written(TEXT, ROOT_AT, bytes(32))
    for length in (65536, 65537):
        script.written(TEXT, 0, be(4, length))
        check(script, length + 6, 1, 0)
