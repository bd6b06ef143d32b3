"""From the reference model alone: how records are written and read and how paths are found, after request N3. Prints the text that the program
`gate_records` is to print, or with the word `script` what that program is given on standard input.

A step of the script is a letter, a length of two bytes, and so many bytes: T a text to print; W and w a Node's and a Header's fields to write, N
and H bytes to read, B and V bytes of which each beginning and each byte turned are judged; S, A and X begin a register, append a chunk to it and
turn a byte of an image; F seeks a path in it, and R reads the record of a chunk. Numbers have 8 bytes, the highest first.

A part of more than 40 bytes is shown by its length and the first 8 bytes of its hash, an absent field by a stroke. Keys are the first
32 bytes of bytes_of(k), and longer parts are made of such bytes again and again.
"""

import copy
import sys

from record_model import (Node, Stat, Writer, find, header_bytes, node_bytes, read_header, read_node, read_record, stat_bytes, varint,
                          write_header, write_node, writer_bytes, written)
from samples import bytes_of, said, told
from sleep_model import ENTRY, HEADER, images_of, node_hash, register_of, used_sizes

TREE, SIGNATURES, BITFIELD, DATA = range(4)
NAMES = 'tree', 'signatures', 'bitfield', 'data'
MOST, LAST = 1048576, 2 ** 64 - 1
CONTENT = bytes_of(77)[:32]
FULL = Node(b'/coat/sleeve', Stat(33188, 1000, 1001, 300, 2, 16384, 70000, 1500000000, 1500000001), b'\1\0\3',
            [Writer(bytes_of(1)[:32], b'rw'), Writer(bytes_of(2)[:32])], 128)


TEXT, SCRIPT = [], []


def asked(letter, given, words):
    """A step of the script, and what is printed at it."""
    SCRIPT.append(letter.encode() + len(given).to_bytes(2, 'big') + given)
    TEXT.append(words)


def text(words):
    asked('T', words.encode(), words)


def line(words, *step):
    """A line: words, and what a step prints behind them."""
    text(words)
    asked(*step)
    text('\n')


def eights(*several):
    return b''.join(number.to_bytes(8, 'big') for number in several)


def run_of(count, k=0):
    return (bytes_of(k) * (count // 64 + 1))[:count]


# ---- How things are shown ----
def part(data):
    if data is None:
        return '-'
    if len(data) > 40:
        return '%d:%s' % (len(data), node_hash(bytes(data)).hex()[:16])
    return bytes(data).hex() or 'empty'


def numbers(*several):
    return ','.join('-' if number is None else str(number) for number in several)


def fields(node):
    stat = '-' if node.stat is None else numbers(*vars(node.stat).values())
    writers = ';'.join('%s/%s' % (part(writer.key), part(writer.permission)) for writer in node.writers) or '-'
    return 'path %s stat %s trie %s writers %s sequence %s' % (part(node.path), stat, part(node.trie), writers, numbers(node.sequence))


def shown(answer):
    if answer[0] == 'refused':
        return said(answer)
    return 'content ' + part(answer[1]) if isinstance(answer[1], bytes) else fields(answer[1])


# ---- What a step gives ----
def flat(node):
    """A Node as 67 numbers, and the bytes that its parts lie in: of an optional field whether it is there comes first."""
    parts = bytearray()

    def placed(data):
        at = len(parts)
        parts.extend(data)
        return at, len(data)

    def number(value):
        return (0, 0) if value is None else (1, value)

    def optional(data):
        return (0, 0, 0) if data is None else (1, *placed(data))

    stat = [0] * 19 if node.stat is None else [1, *(x for value in vars(node.stat).values() for x in number(value))]
    first = [*placed(node.path), *stat, *optional(node.trie), *number(node.sequence), len(node.writers)]
    writers = [x for writer in node.writers[:8] for x in (*placed(writer.key), *optional(writer.permission))]
    return first + writers + [0] * (67 - len(first + writers)), bytes(parts)


# ---- Writing ----
def wrote(name, call, given, reader, room=2000):
    """Writes into a buffer of a5 with this room: the number and the bytes written, and the whole buffer; what was read again is written again."""
    out = bytearray(b'\xa5' * room)
    answer = call(given, out)
    count = answer[1] if answer[0] == 'done' else 0
    assert out[count:] == b'\xa5' * (room - count)
    if count:
        assert reader(out[:count]) == ('done', given)
    words = '%s %s' % ('%d %s' % (count, part(out[:count])) if count else said(answer), part(out))
    if isinstance(given, Node):
        numbers_of, parts = flat(given)
        step = 'W', eights(*numbers_of, room) + parts
    else:
        step = 'w', eights(room) + given
    line('write %s: ' % name, *step, words)


def node(name, room=2000, path=b'/a', **others):
    wrote('node ' + name, write_node, Node(path, **others), read_node, room)


def varints():
    for k in range(1, 10):
        for number in (2 ** (7 * k) - 1, 2 ** (7 * k)):
            node('sequence %d' % number, sequence=number)
    for number in (0, 1, 2 ** 32 - 1, 2 ** 32, LAST):
        node('sequence %d' % number, sequence=number)


def present():
    """Each field alone, and all but one; present and empty, or 0, is not absent."""
    names = list(vars(Stat()))
    wrote('node full', write_node, FULL, read_node)
    for name in ('stat', 'trie', 'writers', 'sequence'):
        node('without ' + name, **{**vars(FULL), name: [] if name == 'writers' else None})
    for name in names[1:]:
        node('mode and ' + name, stat=Stat(1, **{name: 5}))
        node('mode and %s 0' % name, stat=Stat(0, **{name: 0}))
        node('all but ' + name, stat=Stat(**{**vars(FULL.stat), name: None}))
    node('mode alone', stat=Stat(7))
    node('mode 0', stat=Stat(0))
    node('no mode', stat=Stat(uid=7))
    node('nothing in stat', stat=Stat())
    node('path alone')
    for trie in (b'', b'\0'):
        node('trie ' + part(trie), trie=trie)
    for permission in (None, b'', b'r'):
        node('permission ' + part(permission), writers=[Writer(bytes_of(3)[:32], permission)])
    wrote('header', write_header, CONTENT, read_header)


def bounds():
    for path in (b'', b'/', b'a', b'a/', b'\0/', b'/\0\xff\x80', b'//'):
        node('path ' + part(path), path=path)
    for count in (126, 127, 254, 255, 256, 300):
        node('path of %d' % count, path=b'/' + run_of(count - 1))
    for count in (127, 128, 1023, 1024, 1025):
        node('trie of %d' % count, trie=run_of(count))
    for count in (1, 7, 8, 9):
        node('%d writers' % count, writers=[Writer(bytes_of(k)[:32], run_of(2 * k, k)) for k in range(count)])
    for count in (0, 31, 33):
        node('key of %d' % count, writers=[Writer(bytes_of(1)[:32]), Writer(run_of(count, 2))])
    for count in (15, 16, 17):
        node('permission of %d' % count, writers=[Writer(bytes_of(1)[:32], run_of(count)), Writer(bytes_of(2)[:32])])
    for name in list(vars(Stat()))[:3]:
        for number in (2 ** 32 - 1, 2 ** 32, LAST):
            node('%s %d' % (name, number), stat=Stat(**{'mode': 1, name: number}))
    node('largest', path=b'/' + run_of(254), stat=Stat(*[2 ** 32 - 1] * 3, *[LAST] * 6), trie=run_of(1024),
         writers=[Writer(bytes_of(k)[:32], run_of(16, k)) for k in range(8)], sequence=LAST)
    for count in (0, 31, 32, 33):
        wrote('header of %d' % count, write_header, run_of(count), read_header)


def rooms():
    """15 comes before 14."""
    for room in (0, 45, 46, 47):
        wrote('header into %d' % room, write_header, CONTENT, read_header, room)
        wrote('header of 31 into %d' % room, write_header, CONTENT[:31], read_header, room)
    for room in (0, 1, 3, 4, 5):
        node('path into %d' % room, room)
        node('no slash into %d' % room, room, path=b'a')


# ---- Bytes that are a record, and bytes that are none ----
P = written(1, b'/a')
KEY = written(1, bytes_of(1)[:32])
W = written(4, KEY)


def raw(*parts):
    return b''.join(bytes.fromhex(one) if isinstance(one, str) else one for one in parts)


def in_stat(*parts):
    return P + written(2, raw(*parts))


def in_writer(*parts):
    return P + written(4, raw(*parts))


def orders():
    stat, trie, sequence = written(2, stat_bytes(Stat(1))), written(3, b'x'), written(5, 1)
    yield from (('nothing', b''), ('path', P), ('no path', trie), ('empty stat', in_stat()))
    yield 'all', P + stat + trie + W + W + sequence
    for name, one in (('path', P), ('stat', stat), ('trie', trie), ('writer', W), ('sequence', sequence)):
        yield name + ' twice', (P if name != 'path' else b'') + one + one
    yield from (('stat, path', stat + P), ('trie, stat', P + trie + stat), ('writer, trie', P + W + trie), ('sequence, writer', P + sequence + W),
                ('sequence, path', sequence + P), ('writer, trie, writer', P + W + trie + W), ('writer, sequence, writer', P + W + sequence + W))
    yield from (('mode twice', in_stat('08010801')), ('uid, mode', in_stat('10010801')), ('uid alone', in_stat('1001')),
                ('ctime', in_stat('08014801')), ('ctime, mtime', in_stat('080148014001')), ('ctime twice', in_stat('080148014801')))
    yield from (('empty writer', in_writer()), ('permission alone', in_writer('120172')), ('permission, key', in_writer('120172', KEY)),
                ('key twice', in_writer(KEY, KEY)), ('permission twice', in_writer(KEY, '120172120172')))


def overlong():
    yield from (('tag', raw('8a00022f61')), ('length', raw('0a82002f61')), ('sequence', raw(P, '288100')), ('sequence 0', raw(P, '288000')),
                ('long sequence', raw(P, '28', 'ff' * 8, '7f')), ('longer sequence', raw(P, '28', 'ff' * 8, 'ff00')),
                ('empty trie', raw(P, '1a8000')), ('stat tag', in_stat('880001')), ('mode', in_stat('088100')), ('key length', in_writer('0aa000', KEY[2:])))
    for name, digits in (('2^63', '80' * 9 + '01'), ('2^64 - 1', 'ff' * 9 + '01'), ('2^64', '80' * 9 + '02'), ('2^65 - 1', 'ff' * 9 + '03'),
                         ('2^70 - 1', 'ff' * 9 + '7f'), ('11 bytes', '80' * 10 + '01'), ('0 in 10 bytes', '80' * 9 + '00'),
                         ('20 bytes', 'ff' * 19 + '01')):
        yield name, raw(P, '28', digits)
        yield name + ' as tag', raw(P, digits)
        yield name + ' as length', raw(P, '1a', digits, '78')
    for name, tag in (('mode', '08'), ('uid', '10'), ('gid', '18'), ('size', '20')):
        for words, digits in (('2^32 - 1', 'ffffffff0f'), ('2^32', '8080808010'), ('2^64 - 1', 'ff' * 9 + '01')):
            yield '%s %s' % (name, words), in_stat(*(['0801'] if name != 'mode' else []), tag, digits)


# What follows a tag of each wire type: a varint, 8 bytes, a length and bytes, the end of a group, nothing, 4 bytes, nothing.
BODIES = '01', '2f' * 8, '022f61', '0c', '', '2f' * 4, '', ''


def types():
    """Fields that are unknown, and every wire type of those that are known."""
    for number in (0, 6, 7, 15, 16, 2 ** 29 - 1, 2 ** 61 - 1):
        yield 'field %d' % number, P + varint(8 * number + 2) + b'\0'
        yield 'field %d, a number' % number, P + varint(8 * number) + b'\0'
    for number in range(1, 6):
        for wire_type in range(8):
            yield 'field %d of type %d' % (number, wire_type), raw(P if number > 1 else '', varint(8 * number + wire_type), BODIES[wire_type])
    for number in (0, 1, 2, 9, 10, 16):
        yield 'stat field %d' % number, in_stat('0801' if number != 1 else '', varint(8 * number) + b'\1')
        yield 'stat field %d, a part' % number, in_stat('0801' if number != 1 else '', varint(8 * number + 2) + b'\1a')
    for number in (0, 2, 3):
        yield 'writer field %d' % number, in_writer(KEY, varint(8 * number + 2) + b'\1a')
        yield 'writer field %d, a number' % number, in_writer(KEY, varint(8 * number) + b'\1')
    yield 'key as a number', in_writer('0801')


def lengths():
    """What passes the end of the record, of the stat or of the writer, also where bytes follow; bytes behind a record."""
    for digits in ('03', '80', 'ffffffff0f', '80' * 9 + '01', 'ff' * 9 + '01'):
        yield 'path length ' + digits, raw('0a', digits, '2f61')
        yield 'trie length ' + digits, raw(P, '1a', digits, '7878')
    yield from (('tag alone', raw(P, '1a')), ('number alone', raw(P, '28')), ('number cut', raw(P, '2880')), ('mode cut', in_stat('08')),
                ('mode cut, bytes follow', raw(in_stat('0880'), '1a0101')), ('key past the writer', raw(P, '2221', KEY[:-1], 'ff')),
                ('key past the writer, bytes follow', raw(P, '2221', KEY, '2801')), ('stat past the record', raw(P, '12020801')[:-1]))
    yield from (('zero behind', P + b'\0'), ('byte behind', P + b'\1'), ('zero behind the stat', in_stat('080100')), ('zero in front', b'\0' + P))
    yield from (('path of 255', written(1, b'/' + run_of(254))), ('path of 256', written(1, b'/' + run_of(255))), ('path of none', written(1, b'')),
                ('path a', written(1, b'a')), ('path of any bytes', written(1, b'/\0\xff')), ('trie of 1024', P + written(3, run_of(1024))),
                ('trie of 1025', P + written(3, run_of(1025))), ('8 writers', P + 8 * W), ('9 writers', P + 9 * W))
    for count in (31, 33):
        yield 'key of %d' % count, in_writer(written(1, run_of(count)))
    for count in (0, 16, 17):
        yield 'permission of %d' % count, in_writer(KEY, written(2, run_of(count)))


def judged(kind, reader, writer, name, data):
    answer = reader(data)
    if answer[0] == 'done':
        assert writer(answer[1]) == data
    line('read %s %s %s: ' % (kind, name, part(data)), 'H' if kind == 'header' else 'N', data, shown(answer))


def nodes():
    for group in (orders, overlong, types, lengths):
        for name, data in group():
            judged('node', read_node, node_bytes, name, data)


def headers():
    whole, content = header_bytes(CONTENT), written(2, CONTENT)
    kind = written(1, b'hyperdrive')
    for name, data in (('whole', whole), ('nothing', b''), ('type alone', kind), ('content alone', content), ('content, type', content + kind),
                       ('type twice', kind + whole), ('content twice', whole + content), ('zero behind', whole + b'\0'),
                       ('third field', whole + b'\x1a\0'), ('content of 31', kind + written(2, CONTENT[:31])), ('content of 33', kind + written(2, CONTENT + b'x')),
                       ('content of none', kind + b'\x12\0'), ('type hyperdrivf', written(1, b'hyperdrivf') + content),
                       ('type hyperdriv', written(1, b'hyperdriv') + content), ('type hyperdrives', written(1, b'hyperdrives') + content),
                       ('type of none', b'\x0a\0' + content), ('type Hyperdrive', written(1, b'Hyperdrive') + content),
                       ('overlong tag', b'\x8a\0' + whole[1:]), ('overlong length', b'\x0a\x8a\0' + whole[2:]),
                       ('type as a number', b'\x08\x01' + content), ('content as a number', kind + b'\x10\x01'), ('a node', P)):
        judged('header', read_header, header_bytes, name, data)
    judged('node', read_node, node_bytes, 'that is a header', whole)


def rows():
    """Of a record, each beginning, and each byte with a bit turned: 1 where it is read, 0 where not."""
    small = node_bytes(Node(b'/ab', Stat(5, uid=300), b'x', [], 7))
    for name, reader, data in (('full', read_node, node_bytes(FULL)), ('small', read_node, small), ('header', read_header, header_bytes(CONTENT))):
        kind = 0 if name == 'header' else 1
        read = lambda data: '1' if reader(data)[0] == 'done' else '0'
        line('beginnings of %s ' % name, 'B', eights(kind) + data, ''.join(read(data[:end]) for end in range(len(data) + 1)))
        for mask in (1, 2, 4, 8, 16, 32, 64, 128):
            turned = (data[:at] + bytes([data[at] ^ mask]) + data[at + 1:] for at in range(len(data)))
            line('turned %d in %s ' % (mask, name), 'V', eights(kind, mask) + data, ''.join(map(read, turned)))


# ---- Paths in a register ----
PATHS = b'/coat/sleeve', b'/coat/collar', b'/coat', b'/coat/collar', b'/coat/sleeve/left'
SOUGHT = b'/coat/sleeve', b'/coat/collar', b'/coat', b'/coat/sleeve/left', b'/coat/', b'', b'coat', b'/' * 256


def made(chunks):
    """The register that the next steps are about."""
    asked('S', b'', '')
    for chunk in chunks:
        asked('A', chunk, '')
    return register_of(chunks)


def turn(r, image, at, bits=1):
    images_of(r)[image][at] ^= bits
    asked('X', eights(image, at, bits), '')


def named(*others):
    """Chunk 0 is a header, the chunks 1 to 5 have the paths, chunk 4 a trie and writers; `others` are chunks in the place of these."""
    chunks = [header_bytes(CONTENT)] + [node_bytes(Node(path, Stat(k, size=k))) for k, path in enumerate(PATHS, 1)]
    chunks[4] = node_bytes(Node(PATHS[3], Stat(4, size=4), b'\4', FULL.writers, 4))
    for chunk, data in others:
        chunks[chunk] = data
    return made(chunks)


def lent(r):
    """How long the images are, n, s and the data size."""
    return eights(*map(len, images_of(r)), r.n, r.s, r.size)


def sought(words, r):
    text('find %s:' % words)
    for path in SOUGHT:
        answer = find(r, path)
        text(' ')
        asked('F', lent(r) + path, said(answer) if answer[0] == 'refused' else 'none' if answer[1] is None else str(answer[1]))
        text(',')
    text('\n')


def handed(node):
    """The parts that are handed back: nothing of an absent field, of a Writer that isn't there, and after a refusal."""
    writers = ([] if node is None else node.writers) + 2 * [Writer(b'')]
    several = node and node.path, node and node.trie, writers[0].key, writers[0].permission, writers[1].key
    return ' parts' + ''.join(' ' + part(data or b'') for data in several)


def records(words, r, chunks):
    for chunk in chunks:
        answer = read_record(r, chunk)
        found = answer[1] if answer[0] == 'done' else None
        if chunk == 0:
            shows = '%s %s' % (said(answer) if found is None else 'content', part(found or b''))
        else:
            shows = shown(answer) + handed(found)
        line('record %d %s: ' % (chunk, words), 'R', lent(r) + eights(chunk), shows)


def finds():
    whole = named()
    records('named', whole, (*range(7), LAST))
    sought('named', whole)
    for count in range(6):  # the first chunks alone
        size = sum(whole.node(2 * k)[1] for k in range(count))
        sought('first %d' % count, told(whole, count, count, size))
    sought('header alone, spoilt', made([b'x']))


# What is wrong with a chunk, by its number: it is no record; its bytes have another hash.
KINDS = 15, 10


def spoilt(*faults):
    """Chunks with what is wrong with them."""
    r = named(*((chunk, b'\x0a\1a' if chunk else b'x') for chunk, kind in faults if kind == 15))
    for chunk, kind in faults:
        if kind == 10:
            turn(r, TREE, HEADER + ENTRY * 2 * chunk)
    words = ' '.join('%d at %d' % (kind, chunk) for chunk, kind in faults)
    sought(words, r)
    if len({chunk for chunk, _ in faults}) == 1:
        records(words, r, [faults[0][0]])


def spoils():
    """Above and below the one that is sought, and in chunk 0; two kinds in one chunk, and in two."""
    for chunk in range(6):
        for kind in KINDS:
            spoilt((chunk, kind))
    for chunk in (0, 4):
        for first, second in ((15, 10),):
            spoilt((chunk, first), (chunk, second))
    for chunk, other in ((0, 5), (0, 1), (5, 4), (4, 2), (2, 1)):
        for first in KINDS:
            for second in KINDS:
                spoilt((chunk, first), (other, second))
    for words, others in (('node at 0', (0, P)), ('header at 5', (5, header_bytes(CONTENT))), ('header at 1', (1, header_bytes(CONTENT))),
                          ('nothing at 3', (3, b'')), ('bytes behind at 2', (2, P + b'\0'))):
        sought(words, named(others))
        records(words, named(others), [others[0]])
    for index in (1, 3, 5, 6, 9):
        r = named()
        turn(r, TREE, HEADER + ENTRY * index + 39)
        sought('length at %d' % index, r)


# ---- Each way to be refused ----
FAULTS = 2, 3, 4, 5, 6, 9, 10, 15


def faulty(*faults):
    """What each of these numbers refuses of chunk 4: n is 1,048,577; s is two more; the tree is a byte shorter than used; the
    last byte of the signatures' header is another; the data size is one more; chunk 6 is asked for; chunk 4 has
    another hash, is no record."""
    r = named(*([(4, b'\x0a\1a')] if 15 in faults else []))
    if 10 in faults:
        turn(r, TREE, HEADER + ENTRY * 8)
    if 4 in faults:
        del r.tree[HEADER + ENTRY * 11 - 1:]
    if 5 in faults:
        turn(r, SIGNATURES, HEADER - 1)
    r.data.extend(bytes(1))
    r.n = r.s = MOST + 1 if 2 in faults else 6
    r.s, r.size = r.s + 2 * (3 in faults), r.size + (6 in faults)
    words, chunk = 'faults ' + ' '.join(map(str, faults)), LAST if 9 in faults else 4
    records(words, r, [chunk])
    sought(words, r)
    assert read_record(r, chunk)[:2] == ('refused', faults[0])


def refusals():
    for at, fault in enumerate(FAULTS):
        faulty(fault)
        for second in FAULTS[at + 1:]:
            faulty(fault, second)
    none = made([])
    for words, r in (('nothing', none), ('nothing, s 1', told(none, 0, 1, 0)), ('nothing, size 1', told(none, 0, 0, 1))):
        sought(words, r)
    whole = named()
    for image in range(4):
        short = copy.deepcopy(whole)
        del images_of(short)[image][used_sizes(6, 6, whole.size)[image] - 1:]
        sought('short ' + NAMES[image], short)


if __name__ == '__main__':
    varints()
    present()
    bounds()
    rooms()
    nodes()
    headers()
    rows()
    finds()
    spoils()
    refusals()
    assert len(SCRIPT) < 10000
    if sys.argv[1:] == ['script']:
        sys.stdout.buffer.write(b''.join(SCRIPT))
    else:
        print(''.join(TEXT), end='')
