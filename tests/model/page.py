"""Prints, from the reference model alone, the lines of FORMAT.md's section "More answers", and with --journal those of its example of a journal.
The calls among them that the gate's script has words for are run there too (`cases`), so the proved program prints the same answers."""

import sys

from copy_model import Copy, audit_copy, copy_sizes, make_copy, take_in
from dumps import chunks_of, given, register
from needs import needs
from record_model import Node, find, header_bytes, node_bytes
from samples import BITFIELD, DATA, FIRST, ROOT_AT, SECOND, SIGNATURE_AT, TEXT, TREE, said
from sleep_model import (HASH, append_list, be, byte_lookup, compare, first_not_held, images_of, keyed_hash, label, leaf_node, make_packet, node_hash,
                         number_in, old_root, parent_node, place_lookup, read, register_of, release, root_hash, root_message, short_place, stored_leaf, used_sizes)

FILES = 'tree', 'signatures', 'bitfield', 'data'
NAMES = [header_bytes(bytes(range(32))), *(node_bytes(Node(path)) for path in (b'/a', b'/b', b'/a'))]
OTHER = [b'XY', b'', b'CDE']
ROOM = (1000, 1000, 3360, 1000)
TOO_LONG = bytes(32), 200000  # the entry of a leaf that no chunk has


def line(*words):
    print('    ' + ' '.join(map(str, words)))


def hexed(data):
    return data.hex() or '-'


def joined(numbers):
    return ','.join(map(str, numbers)) or '-'


# ---- Hashes and root hashes ----
def hashes():
    for output, key, message in ((64, 64, 0), (32, 1, 3), (32, 64, 128)):
        line('keyed', output, key, message, keyed_hash(output, bytes(range(message)), bytes(range(key))).hex())
    line('label', 3, 32, label(root_hash(register(3))[1], bytes(range(32)))[1].hex())


def rooted(answer):
    return answer[1].hex() if answer[0] == 'done' else said(answer)


def first_roots():
    for m in (0, 8, 10, 11):
        line('first', 10, m, rooted(old_root(register(10), m)))


def leaves():
    for name, k in (('10', 2), ('10~2', 2), ('10', 10)):
        answer = stored_leaf(named(name), k)
        line('leaf', name, k, said(answer) if answer[0] == 'refused' else '%d %s' % (answer[2], answer[1].hex()))


# ---- Lists and needs ----
LISTS = [(3, [], b''), (3, [2, 0, 2], b'FGH'), (3, [2, 0, 1], b'FGH'), (7, [1], b'F')]


def lists():
    for n, lengths, lent in LISTS:
        r = register(n)
        answer = append_list(r, lengths, lent)
        told = 'done %d %d %d %s' % (r.n, r.s, r.size, answer[1].hex()) if answer[0] == 'done' else said(answer)
        line('list', n, joined(lengths), hexed(lent), told)
    for n, size, lengths in ((3, 5, [2, 0, 1]), (0, 0, [119, 120]), (3, 5, []), (3, 196609, [1])):
        answer = needs(n, size, lengths)
        line('needs', n, size, joined(lengths), given(answer))


# ---- Searches and comparisons ----
def sought(answer):
    return said(answer) if answer[0] == 'refused' else 'none' if answer[1] is None else answer[1]


def searches():
    r = register_of(chunks_of(40))
    for gone in (20, 21):
        release(r, gone)
    for number in (0, 21, 22, 40):
        line('search', 40, '20,21', number, sought(first_not_held(r, number)))


def named(name):
    """A register by its n; ~ and a number: that chunk released; a file, an offset and a byte: changed."""
    n, _, gone = name.partition('~')
    n, *change = n.split('/')
    r = register(int(n))
    if gone:
        release(r, int(gone))
    if change:
        images_of(r)[FILES.index(change[0])][int(change[1])] = int(change[2], 16)
    return r


COMPARED = [('3', '3'), ('3', '10'), ('3', '3/signatures/32/ff'), ('3~1', '10'), ('3', '3/tree/112/50'), ('3~1', '3/tree/112/50')]


def outcome(answer):
    if answer[0] == 'refused':
        return '%s %s' % (answer[3], said(answer))
    if answer[0] == 'collision':
        return 'collision ' + (answer[1] if isinstance(answer[1], str) else '%s %d' % answer[1])
    return answer[0]


def zeros(message):
    return bytes(HASH)


def comparisons():
    for one, other in COMPARED:
        line('compare', one, other, outcome(compare(named(one), named(other))))
    for one, other in (([b'AB'], [b'CD']), ([b'AB'], [b'CDE']), ([b'AB', b'C'], [b'AB', b'D'])):
        pair = [register_of(chunks, zeros) for chunks in (one, other)]
        line('zeros', *(','.join(map(hexed, chunks)) for chunks in (one, other)), outcome(compare(*pair, zeros)))


# ---- Paths ----
FOUND = [(b'/a', None), (b'/b', None), (b'/c', None), (b'a', None), (b'/a', 52), (b'/b', 52), (b'/b', 0)]


def paths():
    for path, at in FOUND:
        r = register_of(NAMES)
        if at is not None:
            r.data[at] ^= 1
        line('find', hexed(path), '-' if at is None else at, sought(find(r, path)))


# ---- Copies ----
def copied(n, size):
    c = Copy(*(bytearray(used) for used in copy_sizes(n, size)), n, size)
    line('copy', n, size, said(make_copy(c)))
    return c


def taken(c, chunks, k):
    r, out = register_of(chunks), bytearray(2000)
    length = make_packet(r, k, out)[1]
    line('take', ','.join(map(hexed, chunks)), k, said(take_in(c, bytes(out[:length]), k, root_hash(r)[1])))


def judged(c, file, at, byte):
    """The audit of the copy with a byte changed."""
    image = dict(zip(('tree', 'bitfield', 'data'), c.images()))[file]
    before, image[at] = image[at], byte
    line('audit', file, at, '%02x' % byte, said(audit_copy(c)))
    image[at] = before


def copies():
    c = copied(3, 5)
    taken(c, chunks_of(3), 2)
    line('audit', said(audit_copy(c)))
    line('root', rooted(root_hash(c)))
    for word, call, numbers in (('place', place_lookup, (2, 0, 3)), ('short', short_place, (2,)), ('byte', byte_lookup, (4, 1, 5))):
        for number in numbers:
            line(word, number, given(call(c, number)))
    for k in (2, 0):
        answer = read(c, c, 'content', k)
        line('read', k, answer[1].hex() if answer[0] == 'done' else said(answer))
    for change in (('tree', 32, 1), ('data', 2, 0x44), ('bitfield', 32, 0xa0), ('bitfield', 1056, 0x68), ('bitfield', 3104, 0), ('data', 0, 1)):
        judged(c, *change)
    taken(c, OTHER, 0)
    taken(c, chunks_of(3), 2)
    taken(copied(3, 6), chunks_of(3), 2)
    c, (packet, root) = copied(2, TOO_LONG[1]), too_long()
    line('packet', packet.hex(), 0, root.hex(), said(take_in(c, packet, 0, root)))
    line('audit', said(audit_copy(c)))


def too_long():
    """A packet of an empty chunk 0 of two, whose sibling is a leaf that no chunk has."""
    root = parent_node(leaf_node(b'', node_hash), TOO_LONG, node_hash)
    return bytes(4) + b'\1' + TOO_LONG[0] + be(8, TOO_LONG[1]) + b'\0', node_hash(root_message([(1, root)]))


# ---- Two bitfield entries ----
BITS = {8193: (32, 1055, 1056, 3103, 3104, 3358, 3359, 3360, 3361, 4384, 6432, 6433), 16384: (3103, 3360, 4384, 6431)}


def long_registers():
    for n, places in BITS.items():
        r = register_of([b''] * n)
        line('empty', n, root_hash(r)[1].hex())
        for at in places:
            line('bitfield', n, at, '%02x' % r.bitfield[at])


# ---- A journal ----
STATES = [(0, 0)] * 7 + [(6, 6), (0, 0), (0, 33)]
RANGES = [(7, 1, 0, 2, b'AB\0\0'), (7, 4, 2, 3, b'CDE'), (9, 2, 0, 32, bytes(range(32)))]
MOST_JOURNAL = 2 ** 28
RUNS = {1: 2, 2: 1, 3: 0, 4: 1}  # how often a range has its bytes
CHANGED = [None, (0, 0x53), (23, 0x34), (151, 7), (183, 0x22), (184, 8), (185, 5), (193, 5), (215, 1), (236, 1), (276, 0), (308, 0)]  # a byte, and what it becomes


def encoded(states, ranges):
    body = b''.join(be(8, old) + be(8, new) for old, new in states)
    body += b''.join(bytes([file, kind]) + be(8, at) + be(8, length) + data for file, kind, at, length, data in ranges)
    whole = b'sleep-archive 2\n' + be(8, 24 + len(body) + HASH) + body
    return whole + node_hash(whole)


def journal_check(data):
    """0 and the length of a journal as it should be, or the number of what is wrong first and its place."""
    if not 216 <= len(data) <= MOST_JOURNAL:
        return 1, 0
    if data[:16] != b'sleep-archive 2\n':
        return 2, 0
    if number_in(data[16:24]) != len(data):
        return 3, 0
    states = [(number_in(data[at:at + 8]), number_in(data[at + 8:at + 16])) for at in range(24, 184, 16)]
    for file, (old, new) in enumerate(states):
        if old > new or new > 0 and not length_fits(file, new - 1):
            return 4, file
    lengths = [(max(old, 1) - 1, max(new, 1) - 1) for old, new in states]
    at, before, reached = 184, (0, 0), [old for old, _ in lengths]
    while at < len(data) - HASH:
        size = range_size(data[at:len(data) - HASH])
        if size is None or not range_right(data[at:], before, lengths, reached):
            return 5, at
        file, end = data[at], number_in(data[at + 2:at + 10]) + number_in(data[at + 10:at + 18])
        at, before, reached[file] = at + size, (file, end), max(reached[file], end)
    for file, (_, new) in enumerate(lengths):
        if reached[file] != new:
            return 6, file
    return (0, len(data)) if node_hash(data[:-HASH]) == data[-HASH:] else (7, 0)


def length_fits(file, length):
    if file in (0, 4):
        return length == 32 or length % 80 == 72 and length <= 80 * 1048576 - 8
    if file in (1, 5):
        return length % 64 == 32 and length <= 32 + 64 * 1048576
    if file in (2, 6):
        return length % 3328 == 32 and length <= 32 + 3328 * 128
    return length <= 2 ** 36 if file in (3, 7) else length == 32


def range_size(data):
    """Of the range that these bytes begin with, or None where it is cut off or no range."""
    if len(data) < 18 or data[0] > 9 or data[1] not in RUNS or number_in(data[10:18]) == 0:
        return None
    size = 18 + RUNS[data[1]] * number_in(data[10:18])
    return size if size <= len(data) else None


def range_right(data, before, lengths, reached):
    """In its place behind the range before, within its file; and of kinds 2 and 3 without a gap in front of it."""
    file, kind, start, length = data[0], data[1], number_in(data[2:10]), number_in(data[10:18])
    old, new = lengths[file]
    follows = file > before[0] or file == before[0] and start >= before[1]
    return follows and (start + length <= new and start <= reached[file] if kind in (2, 3) else start + length <= old)


def journal():
    whole = encoded(STATES, RANGES)
    for at in range(0, len(whole), 64):
        line('journal', at, whole[at:at + 64].hex())
    for change in CHANGED:
        data = bytearray(whole)
        if change:
            data[change[0]] = change[1]
        line('journal', *(('changed', change[0], '%02x' % change[1]) if change else ('as it is',)), 'gives', *journal_check(bytes(data)))


# ---- The same calls in the gate's script ----
def begun(script, chunks):
    """The chunks appended and signed as the page's registers are; the bytes of each are all the same, or are put one by one."""
    used = used_sizes(len(chunks), len(chunks), sum(map(len, chunks)))
    script.begun(FIRST, [max(sizes) for sizes in zip(ROOM, used)])
    for k, chunk in enumerate(chunks):
        if len(set(chunk)) == 1:
            script.run('fill %d 0 %d %d 0' % (TEXT, len(chunk), chunk[0]))
            script.run('append 0 %d' % len(chunk))
        else:
            script.append(chunk)
        script.run('fill %d %d 64 %d 0' % (TEXT, SIGNATURE_AT, k + 1))
        script.run('sign %d' % SIGNATURE_AT)


def cases(script):
    script.run('# the answers of the format\'s page')
    begun(script, chunks_of(10))
    for m in (0, 8, 10, 11):
        script.run('old %d' % m)
    begun(script, chunks_of(3))
    for _, lengths, lent in LISTS[:3]:  # of the register of three chunks: the last of them is done
        script.written(TEXT, 0, lent)
        script.run(' '.join(map(str, ('list', 0, len(lent), len(lengths), *lengths))))
    script_searches(script)
    script_comparisons(script)
    script_paths(script)
    script_copies(script)
    for n in BITS:
        script.begun(FIRST, used_sizes(n, n, 0))
        script.run('grow %d 1' % n)
        script.run('root')


def script_searches(script):
    begun(script, chunks_of(40))
    for gone in (20, 21):
        script.run('release %d' % gone)
    assert [script.run('search %d' % number) for number in (0, 21, 22, 40)] == ['20', '21', 'none', 'none']


def script_comparisons(script):
    for one, other in COMPARED:
        for name, at in ((one, SECOND), (other, FIRST)):
            script.lend_from(at, ROOM)
            r = named(name)
            for file, (image, used) in enumerate(zip(images_of(r), used_sizes(r.n, r.s, r.size))):
                script.written(file, 0, bytes(image[:used]))
            script.told(r.n, r.s, r.size)
            if at == SECOND:
                script.run('swap')
        script.run('swap')
        script.run('compare')


def script_paths(script):
    begun(script, NAMES)
    for path, at in FOUND:
        turned = () if at is None else ((DATA, at, 1),)
        with script.turned(*turned):
            script.written(TEXT, 0, path)
            script.run('Find 0 %d' % len(path))


def script_copies(script):
    """The packets' registers stand second; the copy is the first."""
    for chunks, k, size, fresh in ((chunks_of(3), 2, 5, True), (OTHER, 0, 5, False), (chunks_of(3), 2, 5, False), (chunks_of(3), 2, 6, True)):
        r = register_of(chunks)
        script.run('swap')
        script.lend_from(SECOND, ROOM)
        for file, image in enumerate(images_of(r)):
            script.written(file, 0, bytes(image))
        script.told(r.n, r.s, r.size)
        script.run('swap')
        if fresh:
            script.lend_from(FIRST, ROOM)
            script.told(3, 0, size)
            script.run('Make')
        length = int(script.run('bring %d 0 2000' % k))
        script.written(TEXT, ROOT_AT, root_hash(r)[1])
        answer = script.run('Take 0 %d %d %d' % (length, k, ROOT_AT))
        assert answer.startswith('refused 19 tree 1 ' if chunks == OTHER else 'refused 6 ' if size == 6 else 'done ')
        assert script.run('Audit') == 'done'
        if (size, chunks) == (5, OTHER):
            asked_of_copy(script)


def asked_of_copy(script):
    for line in ('Root', 'Splace 0 4', 'Sbyte 0 6', 'Get 2', 'Get 0'):
        script.run(line)
    for file, at, mask in ((TREE, 32, 1), (DATA, 2, 7), (BITFIELD, 32, 0x80), (BITFIELD, 1056, 0x20), (BITFIELD, 3104, 0x80), (DATA, 0, 1)):
        with script.turned((file, at, mask)):
            script.run('Audit')


if __name__ == '__main__':
    if sys.argv[1:] == ['--journal']:
        journal()
    else:
        for part in (hashes, first_roots, leaves, lists, searches, comparisons, paths, copies, long_registers):
            part()
