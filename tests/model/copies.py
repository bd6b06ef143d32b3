"""The lines of the program gate_script's script about partial copies, request N10: what they hold after packets were taken in, what their audit
answers, and what every other call answers on them.

Of the registers, chunk k is the first k % span bytes of bytes_of(k), or of bytes_of(k + 1) in the other register; the buffers of a copy are 9 bytes
longer than used and held a5 before. The register that packets come from is the second one, and the copy the first; a case begins by putting the
copy's bytes where others stand.
"""

import copy
import itertools

from copy_model import Copy, copy_sizes, make_copy, take_in
from record_model import Node, header_bytes, node_bytes
from released import register
from samples import BITFIELD, DATA, FIRST, LAST, ROOT_AT, SECOND, TEXT, TREE, bytes_of, sampled
from sleep_model import (CHUNKS_PER_ENTRY, DATA_BYTES, ENTRY, HASH, HEADER, NODES_PER_ENTRY, TREE_BYTES, be, bit_at, entry_bytes, leaf_node,
                         make_packet, node_hash, put_index, register_of, release, root_hash, used_sizes)

INDEX = HEADER + DATA_BYTES + TREE_BYTES
MOST = 1048576
FAR = 660000, 520000, 9000, 70000  # a second register that is long
PACKET_ROOM = 2000
LONE_PACKET = 4000  # where in the text a packet is put that no register makes


def cases(script):
    script.run('# partial copies')
    makes(script)
    for count in range(1, 18):
        grown(script, count)
    large(script)
    orders(script)
    elsewhere(script)
    contradicted(script)
    packet_faults(script)
    audits(script)
    unknown_roots(script)
    wrong_ways(script)
    past_the_data(script)
    unknown_entries(script)
    partly_known(script)
    call_faults(script)
    come_back(script)
    named(script)


# ---- Copies and the register that packets come from ----
def room(*sizes, n, size):
    return Copy(*(bytearray(b'\xa5' * count) for count in sizes), n, size)


def made(n, size):
    c = room(*(used + 9 for used in copy_sizes(n, size)), n=n, size=size)
    answer = make_copy(c)
    assert answer == ('done',)
    return c


def packet_of(r, chunk):
    out = bytearray(PACKET_ROOM)
    return bytes(out[:make_packet(r, chunk, out)[1]])


def copied(r, *chunks):
    """A copy that has taken in these chunks."""
    c = made(r.n, r.size)
    for chunk in chunks:
        answer = take_in(c, packet_of(r, chunk), chunk, root_hash(r)[1])
        assert answer == ('done',)
    return c


def office(script, n, span, at=SECOND):
    """A register of the samples as the second, and its root hash in the text."""
    register(script, n, span, at=at)
    return second(script)


def other_office(script, *chunks):
    script.lend_from(SECOND, [used + 9 for used in used_sizes(len(chunks), len(chunks), sum(map(len, chunks)))])
    script.told(0, 0, 0)
    script.run('start')
    for k, chunk in enumerate(chunks):
        script.append(chunk)
        script.sign(bytes_of(k + 101))
    return second(script)


def other_chunks(n, span):
    return [bytes_of(k + 1)[:k % span] for k in range(n)]


def second(script):
    r = script.register()
    script.written(TEXT, ROOT_AT, root_hash(r)[1])
    script.run('swap')
    return r


def stands(script, c):
    """The copy's bytes, where others stood."""
    images = c.tree, b'', c.bitfield, c.data
    if script.parts[0] != [(a, a + len(image)) for a, image in zip(FIRST, images)]:
        script.lend_from(FIRST, map(len, images))
    if script.numbers[0] != (c.n, 0, c.size):
        script.told(c.n, 0, c.size)
    for file, image in ((TREE, c.tree), (BITFIELD, c.bitfield), (DATA, c.data)):
        script.written(file, 0, image)


def made_here(script, n, size):
    """A copy that the program makes."""
    script.lend_from(FIRST, [used + 9 for used in used_sizes(n, 0, size)])
    script.told(n, 0, size)
    for file, used in zip((TREE, BITFIELD, DATA), copy_sizes(n, size)):
        script.run('fill %d 0 %d 165 0' % (file, used + 9))
    assert answered(script, 'Make') == 'done'


def answered(script, line):
    """An answer without the sums behind it."""
    return ' '.join(script.run(line).split(' ')[:-4])


def sent(script, chunk, named=None):
    """The second register's packet of a chunk is taken in, as that chunk or as another."""
    length = int(script.run('bring %d 0 %d' % (chunk, PACKET_ROOM)))
    return answered(script, 'Take 0 %d %d %d' % (length, chunk if named is None else named, ROOT_AT))


def lone(script, packet, chunk, root):
    """A packet that is in the text, under a root hash that is put there."""
    script.written(TEXT, LONE_PACKET, packet)
    script.written(TEXT, LONE_PACKET + PACKET_ROOM, root)
    return answered(script, 'Take %d %d %d %d' % (LONE_PACKET, LONE_PACKET + len(packet), chunk, LONE_PACKET + PACKET_ROOM))


def audited(script):
    return script.run('Audit')


# ---- Making ----
def makes(script):
    """With just the room, with a byte less in each buffer, and with numbers that are refused."""
    for n, size in ((0, 0), (0, 2), (1, 0), (1, 60000), (3, 5), (13, 23), (8192, 0), (8193, 1)):
        sizes = copy_sizes(n, size)
        for short in (None, 0, 1, 2):
            tree, bitfield, data = (max(used - (k == short), 0) for k, used in enumerate(sizes))
            script.lend_from(FIRST, (tree, 0, bitfield, data))
            script.told(n, 0, size)
            for file, count in ((TREE, tree), (BITFIELD, bitfield), (DATA, data)):
                script.run('fill %d 0 %d 165 0' % (file, count))
            answer = answered(script, 'Make')
            assert answer == ('refused 14' if short is not None and sizes[short] > 0 else 'done')
        made_here(script, n, size)
        assert audited(script) == ('refused 6' if (n, size) == (0, 2) else 'done')
    script.lend_from(FIRST, (100, 0, 100, 100))
    for n, size in ((MOST + 1, 0), (LAST, LAST), (MOST, 0), (1, LAST), (0, LAST)):
        script.told(n, 0, size)
        assert answered(script, 'Make') == ('refused 2' if n > MOST else 'refused 14')
    stands(script, made(0, 2))
    calls(script, 0, 0)
    lone(script, b'', 0, bytes(HASH))
    audited(script)


# ---- Taking in ----
def in_turn(n):
    """The even chunks from the last down, then the odd ones."""
    return [k for k in reversed(range(n)) if k % 2 == 0] + [k for k in range(n) if k % 2 == 1]


def grown(script, n):
    """Each chunk in turn, until the copy is the register."""
    r = office(script, n, 5)
    made_here(script, n, r.size)
    for chunk in in_turn(n):
        assert sent(script, chunk) == audited(script) == 'done'
    for file, image in ((TREE, r.tree), (BITFIELD, r.bitfield), (DATA, r.data)):
        used = len(image) - 9
        buffer, a, b = script.place(file, 0, used)
        assert buffer[a:b] == image[:used]


def large(script):
    r = office(script, 8193, 2, FAR)
    made_here(script, 8193, r.size)
    for chunk in (8192, 8191, 0, 4097):
        assert sent(script, chunk) == 'done'
    assert audited(script) == 'done'
    for number in (0, 1, 8191, 8192):
        script.run('Ssearch %d 1' % number)


def orders(script):
    """Packets in every order leave the same images."""
    for n in (2, 3, 4):
        r = office(script, n, 3)
        last = set()
        for order in itertools.permutations(range(n)):
            made_here(script, n, r.size)
            for chunk in order:
                assert sent(script, chunk) == 'done'
            last.add(script.answers[-1].split(': ')[1])
        assert len(last) == 1


def elsewhere(script):
    """Packets of another register with the same lengths, of one chunk less, of another chunk; a total that isn't the data size; bytes that are held and
    others, and those of a chunk that is not held."""
    r = sampled(13, 5)
    other_office(script, *other_chunks(13, 5))
    for chunk in range(13):
        stands(script, copied(r, 6))
        sent(script, chunk)
    stands(script, made(13, 23))
    assert sent(script, 9) == 'done'
    stands(script, copied(r, 6))
    script.written(TEXT, ROOT_AT, root_hash(r)[1])
    assert sent(script, 9) == 'refused 13'
    office(script, 12, 5)
    stands(script, copied(r, 6))
    sent(script, 9)
    office(script, 13, 5)
    stands(script, copied(r, 6))
    sent(script, 8, 9)
    for size in (22, 24, 0, 100):
        stands(script, made(13, size))
        assert sent(script, 9) == 'refused 6'
    bytes_changed(script, copied(r, 6, 9))
    come_again(script, copied(r, 6, 9))


def bytes_changed(script, c):
    """Of a copy that holds the chunks 6 and 9."""
    for at in range(24):
        c.data[at] ^= 1
        for chunk in (6, 9, 8, 3):
            stands(script, c)
            sent(script, chunk)
        c.data[at] ^= 1


def come_again(script, c):
    stands(script, c)
    for chunk in (6, 9):
        assert answered(script, 'Release %d' % chunk) == audited(script) == 'done'
        assert sent(script, chunk) == audited(script) == 'done'


def contradicted(script):
    """A copy that holds chunk 6 knows the entries 3, 7, 9, 11 to 14, 19 and 24: changed each, or two at once; the others are overwritten."""
    r = sampled(13, 5)
    office(script, 13, 5)
    changes = [[(index, part)] for index in range(25) for part in (0, 39)]
    changes += [[(index, 0), (other, 0)] for index in (3, 11, 12) for other in (7, 9, 13, 19)]
    for several in changes:
        for chunk in (6, 7, 9):
            c = copied(r, 6)
            for index, part in several:
                c.tree[HEADER + ENTRY * index + part] ^= 1
            stands(script, c)
            sent(script, chunk)


# ---- Each way for a packet to be refused ----
KNOWN_FAULTS = 2, 4, 5, 6, 9, 12, 13, 19
FRESH_FAULTS = 2, 4, 5, 9, 12, 13, 6, 19


def faulty_packet(script, r, fresh, *faults):
    """What each number refuses of taking in chunk 9: n is 1,048,577; the tree is a byte shorter than used; the bitfield's header is another; the data
    size is one more; chunk 2^64 - 1 is named; the packet is a byte shorter; the root hash is another; the entry 3 that is known is another. The roots
    are known, or they are not, and then 6 is the packet's."""
    c = copied(r, 6)
    if fresh:
        for index in (7, 19, 24):
            forget(c, index)
    if 19 in faults:
        c.tree[HEADER + ENTRY * 3] ^= 1
        c.tree[HEADER + ENTRY * 19] ^= 1  # the packet of chunk 9 leads to it
    if 19 in faults and fresh:
        turn(c, 18, known=True)
        c.put(18, entry_bytes((b'\7' * 32, 4)))
    if 4 in faults:
        del c.tree[HEADER + ENTRY * 25 - 1:]
    if 5 in faults:
        c.bitfield[HEADER - 1] ^= 1
    c.size, c.n = c.size + (6 in faults), MOST + 1 if 2 in faults else 13
    packet, root = packet_of(r, 9), root_hash(r)[1]
    stands(script, c)
    answer = lone(script, packet[:-1] if 12 in faults else packet, LAST if 9 in faults else 9, bytes(HASH) if 13 in faults else root)
    assert answer.split(' ')[:2] == ['refused', str(faults[0])]


def packet_faults(script):
    r = sampled(13, 5)
    for fresh, several in ((False, KNOWN_FAULTS), (True, FRESH_FAULTS)):
        for at, fault in enumerate(several):
            faulty_packet(script, r, fresh, fault)
            for second_fault in several[at + 1:]:
                faulty_packet(script, r, fresh, fault, second_fault)


# ---- What is known, and what is held ----
def turn(c, index, known):
    """The tree bit alone."""
    at, alone = bit_at(index, NODES_PER_ENTRY, DATA_BYTES)
    c.bitfield[at] = c.bitfield[at] | alone if known else c.bitfield[at] & ~alone


def forget(c, index):
    """The tree bit and the entry."""
    turn(c, index, known=False)
    c.put(index, bytes(ENTRY))


def hold(c, chunk, is_held):
    """The data bit and its Index."""
    at, alone = bit_at(chunk, CHUNKS_PER_ENTRY, 0)
    c.bitfield[at] = c.bitfield[at] | alone if is_held else c.bitfield[at] & ~alone
    put_index(c, chunk)


# ---- The audit ----
def partial():
    """13 chunks, lengths 0 1 2 3 4 0 1 2 3 4 0 1 2: chunks 6, 9 and 12 taken in, 9 released. Known are 3, 7, 9, 11 to 14, 16 to 19, 21 and 24."""
    c = copied(sampled(13, 5), 6, 9, 12)
    answer = release(c, 9)
    assert answer == ('done',)
    return c


def judged(script, c):
    stands(script, c)
    return audited(script)


def audits(script):
    """Each entry with another hash, another length, a much longer one, its tree bit turned, or forgotten with its bit and more; each data bit with and
    without its Index; each byte of the data; bytes of the bitfield."""
    start = partial()
    assert judged(script, start) == 'done'
    for index in range(25):
        for part in (0, 31, 32, 37, 39):
            changed(script, start, TREE, HEADER + ENTRY * index + part)
        c = copy.deepcopy(start)
        turn(c, index, not c.known(index))
        judged(script, c)
        c = copy.deepcopy(start)
        forget(c, index)
        judged(script, c)
        c = copy.deepcopy(start)
        turn(c, index, known=True)
        c.put(index, entry_bytes((b'\7' * 32, 1)))
        judged(script, c)
    for chunk in range(16):
        for is_held in (True, False):
            c = copy.deepcopy(start)
            hold(c, chunk, is_held)
            judged(script, c)
        changed(script, start, BITFIELD, HEADER + chunk // 8, 0x80 >> chunk % 8)
    for at in range(24):
        changed(script, start, DATA, at)
    for at in (*range(HEADER + DATA_BYTES + 3, HEADER + DATA_BYTES + 6), *range(INDEX, INDEX + 4), INDEX + 255, HEADER - 1, HEADER + 3328):
        changed(script, start, BITFIELD, at)


def changed(script, start, file, at, by=1):
    stands(script, start)
    with script.turned((file, at, by)):
        audited(script)


def unknown_roots(script):
    """A root forgotten, with and without its chunks: 6 is passed over. The leaves below it and to its right lose their way."""
    for gone in ((24,), (19,), (7,), (7, 19), (7, 19, 24)):
        for size in (23, 24, 21, 12, 10):
            c = partial()
            for index in gone:
                forget(c, index)
            if 24 in gone:
                hold(c, 12, False)
            c.size = size
            judged(script, c)
    for size in (22, 24):
        c = partial()
        c.size = size
        assert judged(script, c) == 'refused 6'


def wrong_ways(script):
    """Several things wrong at once, and stops on the way to known leaves."""
    rows = [((11,), 39), ((9,), 39), ((14, 13), 39), ((14, 13, 11), 39), ((14, 13, 11, 7), 37), ((24,), 37), ((3, 11), 39), ((16, 18), 39),
            ((16, 21), 0), ((21, 24), 0), ((3,), 39), ((3, 7), 37), ((12, 14), 39), ((18, 17, 19), 37)]
    for entries, part in rows:
        for more in (0, 65536):
            c = partial()
            c.data = c.data[:c.size] + bytes(65536)
            c.size += more
            for index in entries:
                c.tree[HEADER + ENTRY * index + part] ^= 1
            lend_long(script, c)
            judged(script, c)
    for several in ((3, 9), (9, 14), (11,), (3, 14), (13,), (17,), (21, 18), (12,), (14,)):
        c = partial()
        for index in several:
            forget(c, index)
        judged(script, c)
        c.tree[HEADER + ENTRY * 24] ^= 1
        judged(script, c)


def lend_long(script, c):
    """The data of a long copy are zero behind its first bytes."""
    script.lend_from(FIRST, (len(c.tree), 0, len(c.bitfield), len(c.data)))
    script.run('fill %d 64 %d 0 0' % (DATA, len(c.data) - 64))


def past_the_data(script):
    """Two chunks and a third: the root 1 says more than the data size while the root 4 is unknown."""
    c = copied(register_of([b'AB', b'CD', b'E']), 0, 1)
    forget(c, 4)
    for size in (5, 4, 3, 2, 1):
        c.size = size
        judged(script, c)
    for length in (65536, 65537):  # a sibling leaf that a packet may bring, with its root hash
        sibling = entry_bytes((b'\7' * 32, length))
        packet = be(4, 1) + b'A' + be(1, 1) + sibling + be(1, 0)
        above = node_hash(b'\1' + be(8, length + 1) + leaf_node(b'A', node_hash)[0] + b'\7' * 32)
        made_here(script, 2, length + 1)
        assert lone(script, packet, 0, node_hash(b'\2' + above + be(8, 1) + be(8, length + 1))) == 'done'
        assert audited(script) == ('done' if length == 65536 else 'refused 10 tree 2')


# ---- Every other call ----
CALLS = 'Splace %d 1', 'Get %d', 'Packet %d 300', 'Packet %d 3', 'Ssearch %d 1', 'Old %d', 'Release %d'


def calls(script, chunk, offset):
    script.run('Root')
    script.run('Sbyte %d 1' % offset)
    for line in CALLS:
        script.run(line % chunk)


STARTS = 0, 0, 1, 3, 6, 10, 10, 11, 13, 16, 20, 20, 21


def unknown_entries(script):
    """All of 13 chunks known, and then each entry unknown in turn; two children unknown; and a wrong sum beside an unknown child, and above it."""
    whole = copied(sampled(13, 5), *range(13))
    for chunk, offset in ((3, 3), (9, 16), (12, 21), (12, 23), (13, 24), (LAST, LAST)):
        stands(script, whole)
        calls(script, chunk, offset)
    for index in range(25):
        c = copy.deepcopy(whole)
        turn(c, index, known=False)
        for chunk in (3, 9):
            stands(script, c)
            calls(script, chunk, STARTS[chunk])
        stands(script, c)
        for m in range(15):
            script.run('Old %d' % m)
    for unknown, wrong in (((4, 6), ()), ((1, 5), ()), ((6,), (5,)), ((6,), (4,)), ((4,), (6,)), ((5,), (1,)), ((6,), (1,)), ((6, 4), (3,)),
                           ((3, 11), (24,)), ((19, 24), ()), ((24, 6), ()), ((6,), (7,)), ((19,), (7,)), ((0,), (2,)), ((2,), (0,))):
        c = copy.deepcopy(whole)
        for index in unknown:
            turn(c, index, known=False)
        for index in wrong:
            c.tree[HEADER + ENTRY * index + 37] ^= 1
        stands(script, c)
        calls(script, 3, 3)


def partly_known(script):
    """What a copy answers that holds three chunks, one of them released; and one that knows nothing."""
    c = partial()
    for chunk in range(13):
        stands(script, c)
        calls(script, chunk, STARTS[chunk])
    stands(script, c)
    script.run('Sbyte 0 25')
    script.run('Ssearch 0 14')
    stands(script, made(13, 23))
    calls(script, 3, 3)


# The last two are told apart by their places: entry 6 is unknown; the sum at its parent 5 is wrong.
CALL_FAULTS = 2, 4, 5, 20, 6, 9, 18, 'inside', 10


def faulty_call(script, whole, *faults):
    """What each number refuses of chunk 3: n is 1,048,577; the tree is a byte shorter than used; the bitfield's header is another; the root 19 is
    unknown; the data size is one more; chunk 2^64 - 1 is asked for; chunk 3 is not held; its leaf is unknown; the leaf beside it is longer by
    65,536."""
    c = copy.deepcopy(whole)
    if 18 in faults:
        hold(c, 3, False)
    for index, fault in ((19, 20), (6, 'inside')):
        turn(c, index, fault not in faults)
    if 10 in faults:
        c.tree[HEADER + ENTRY * 4 + 37] ^= 1
    if 4 in faults:
        del c.tree[HEADER + ENTRY * 25 - 1:]
    if 5 in faults:
        c.bitfield[HEADER - 1] ^= 1
    c.size, c.n = c.size + (6 in faults), MOST + 1 if 2 in faults else 13
    stands(script, c)
    calls(script, *((LAST, LAST) if 9 in faults else (3, 3)))


def call_faults(script):
    whole = copied(sampled(13, 5), *range(13))
    for at, fault in enumerate(CALL_FAULTS):
        faulty_call(script, whole, fault)
        for second_fault in CALL_FAULTS[at + 1:]:
            faulty_call(script, whole, fault, second_fault)


# ---- A register lent as a copy ----
def come_back(script):
    """Pieces of a register are released and come back; what a packet of another register with the same lengths would bring is refused. The same bytes
    with an entry that is not known, lent as a copy and as a register."""
    r = sampled(13, 5)
    root, packets = root_hash(r)[1], [packet_of(r, chunk) for chunk in range(13)]
    other_office(script, *other_chunks(13, 5))
    register(script, 13, 5, (3, 7, 12, 0))
    told = script.numbers[0]
    for chunk in (7, 0, 12, 3):
        assert sent(script, chunk).startswith('refused 19')
        assert lone(script, packets[chunk], chunk, root) == 'done'
        assert audited(script) == script.run('audit') == 'done'
    assert script.numbers[0] == told
    at, alone = bit_at(3, NODES_PER_ENTRY, DATA_BYTES)
    with script.turned((BITFIELD, at, alone)):
        for line in ('Splace 3 1', 'splace 3 1', 'Audit', 'audit'):
            script.run(line)


# ---- Records in a copy ----
PATHS = b'/coat', b'/coat/sleeve', b'/coat', b'/coat/collar'
PATHS_AT = 30000


def found(script):
    """Every path that is there, and one that is not."""
    at = PATHS_AT
    for path in (b'/coat/collar', b'/coat', b'/coat/sleeve', b'/'):
        script.written(TEXT, at, path)
        script.run('Find %d %d' % (at, at + len(path)))
        at += 64


def named(script):
    r = other_office(script, header_bytes(bytes_of(7)[:32]), *(node_bytes(Node(path)) for path in PATHS))
    made_here(script, r.n, r.size)
    for chunk in (None, 0, 4, 3, 1, 2):
        if chunk is not None:
            assert sent(script, chunk) == 'done'
        found(script)
        for number in range(6):
            script.run('Node %d' % number)
    for index in range(9):
        at, alone = bit_at(index, NODES_PER_ENTRY, DATA_BYTES)
        with script.turned((BITFIELD, at, alone)):
            found(script)
            script.run('Node 2')
