"""Cases of the model beyond the scope's [T] rows: the calls agree with the images, every refusal has its order and
place, and the comparing walk and the walk along two packets find the collisions of a weak hash.  Prints one line."""

import copy
import sys

sys.dont_write_bytecode = True  # nothing generated lies beside the sources
from copy_model import Copy, audit_copy, copy_sizes, lent_as_copy, make_copy, take_in
from needs import completed, needs
from record_model import *
from rfc7693 import blocks_of
from samples import grow, sampled
from sleep_model import *
from stations import (LAST, MOST_WAITING, NUMBERS, STATIONS, Numbers, Table, enter, enter_numbers, fresh, fresh_numbers, serve, serve_numbers,
                      table_of)


def weak(message):
    """A hash of few values, so that collisions are at hand."""
    return bytes([sum(message) % 3] * 32)


def chunk_list(n):
    return [bytes([k % 256]) * (k * 5 % 7) for k in range(n)]


def built(chunks, F=node_hash):
    """A register made by the calls, in buffers that are longer than they need be and not clear."""
    n, size = len(chunks), sum(map(len, chunks))
    r = Register(*(bytearray(b'\xa5' * (used + 7)) for used in used_sizes(n, n, size)))
    answers = [start(r)]
    for chunk in chunks:
        answers += [append(r, chunk, F)[:1], store_signature(r, bytes(SIGNATURE))]
    check('calls', answers, [('done',)] * (2 * n + 1))
    return r


def spoilt(r, image, at, byte=None):
    """A copy of the register with one byte changed."""
    other = Register(*map(bytearray, images_of(r)), r.n, r.s, r.size)
    buffer = getattr(other, image)
    buffer[at] = buffer[at] ^ 1 if byte is None else byte
    return other


def told(r, **numbers):
    """The same images, and other numbers told."""
    known = dict(n=r.n, s=r.s, size=r.size)
    return Register(*map(bytearray, images_of(r)), **{**known, **numbers})


def agreement():
    for n in (0, 1, 2, 3, 5, 8, 13, 21):
        chunks = chunk_list(n)
        r, image = built(chunks), register_of(chunks)
        used = used_sizes(r.n, r.s, r.size)
        yield 'images of %d' % n, [x[:u] for x, u in zip(images_of(r), used)], list(images_of(image))
        yield 'bytes past the images', [bytes(x[u:]) for x, u in zip(images_of(r), used)], [b'\xa5' * 7] * 4
        yield 'audit of %d' % n, (audit(r), compare(r, image)), (('done',), ('equal',))
        yield 'end of %d' % n, byte_lookup(r, r.size), ('done', n, 0)
        starts = [sum(map(len, chunks[:k])) for k in range(n)]
        for k in range(n):
            yield 'place', place_lookup(r, k), ('done', starts[k], len(chunks[k]))
            yield 'read', read(None, r, 'content', k), ('done', chunks[k])
            for b in range(len(chunks[k])):
                yield 'byte', byte_lookup(r, starts[k] + b), ('done', k, b)
            yield 'behind the end', byte_lookup(r, r.size + 1 + k), refused(9)
            packet = bytearray(2000)
            length = make_packet(r, k, packet)[1]
            yield 'packet', check_packet(packet[:length], n, k, root_hash(r)[1]), ('done', chunks[k])
            yield 'packet cut', check_packet(packet[:length - 1], n, k, root_hash(r)[1]), refused(12)
            yield 'packet longer', check_packet(packet[:length + 1], n, k, root_hash(r)[1]), refused(12)
            yield 'packet, other root', check_packet(packet[:length], n, k, bytes(32)), refused(13)
            yield 'no room', make_packet(r, k, bytearray(length - 1)), refused(14)


def borders():
    """Appends around the border of a bitfield entry, from the images of n chunks."""
    for n in (8191, 8192, 16383):
        chunks = [b''] * n
        r, after = register_of(chunks), register_of(chunks + [b'x'])
        for image, full in zip(images_of(r), images_of(after)):
            image.extend(b'\xa5' * (len(full) - len(image)))
        yield 'append to %d' % n, append(r, b'x'), ('done', root_hash(after)[1])
        yield 'append to %d' % n, (r.tree, r.bitfield, r.data), (after.tree, after.bitfield, after.data)


def refusals():
    room = Register(*(bytearray(70_000) for _ in range(4)))
    yield 'start', start(room), ('done',)
    yield 'chunk of 65,537', append(room, bytes(65_537)), refused(7)
    yield 'chunk of 65,536', append(room, bytes(65_536))[0], 'done'
    yield 'unsigned', append(room, b''), refused(8)
    yield 'unsigned and too long', append(room, bytes(65_537)), refused(7)
    for size, expected in ((31, refused(14)), (32, ('done',))):
        yield 'start', start(Register(bytearray(32), bytearray(size), bytearray(32), bytearray())), expected
    none = register_of([])
    yield 'signature of nothing', store_signature(none, bytes(64)), refused(8)
    yield 'empty', (audit(none), root_hash(none)), (('done',), ('done', node_hash(b'\2')))
    yield 'empty', (place_lookup(none, 0), byte_lookup(none, 0), byte_lookup(none, 1)), (refused(9), ('done', 0, 0), refused(9))
    yield 's', audit(told(none, s=2 ** 64 - 1)), refused(3)
    yield 'size without chunks', (audit(told(none, size=1)), audit(spoilt_size(none))), (refused(4), refused(6))
    r = register_of(chunk_list(6))  # lengths 0 5 3 1 6 4, roots 3 and 9
    yield 'n', audit(told(r, n=MOST_CHUNKS + 1)), refused(2)
    yield 'full', append(told(r, n=MOST_CHUNKS), b''), refused(2)
    yield 's', [audit(told(r, s=s)) for s in (4, 5, 6, 7)], [refused(3), ('done',), ('done',), refused(3)]
    for image in ('tree', 'signatures', 'bitfield', 'data'):
        short = told(r)
        getattr(short, image).pop()
        yield 'short ' + image, place_lookup(short, 0), refused(4)
    for image in ('tree', 'signatures', 'bitfield'):
        yield 'header of ' + image, byte_lookup(spoilt(r, image, 31), 0), refused(5)
    yield 'no room', append(r, b''), refused(14)
    yield 'root length', root_hash(spoilt(r, 'tree', HEADER + ENTRY * 9 + 39)), refused(6)
    yield 'audit of a root', audit(spoilt(r, 'tree', HEADER + ENTRY * 9)), refused(10, ('tree', 9))
    yield 'audit of a leaf', audit(spoilt(r, 'tree', HEADER + ENTRY * 4)), refused(10, ('tree', 4))
    yield 'audit of a hole', audit(spoilt(r, 'tree', HEADER + ENTRY * 7)), refused(10, ('tree', 7))
    yield 'audit of data', audit(spoilt(r, 'data', 3)), refused(10, ('tree', 2))
    yield 'audit of bits', audit(spoilt(r, 'bitfield', 3000)), refused(11, ('bitfield', 3000))
    inner = spoilt(r, 'tree', HEADER + ENTRY * 5 + 39)
    yield 'lookup stops', [place_lookup(inner, k)[1:] for k in (0, 3)], [(10, ('tree', 3))] * 2
    yield 'lookup elsewhere', place_lookup(inner, 4), ('done', 9, 6)
    last = spoilt(r, 'tree', HEADER + ENTRY * 10 + 39)
    yield 'no walk to the end', [byte_lookup(last, r.size - k) for k in (1, 0)], [refused(10, ('tree', 9)), ('done', 6, 0)]
    yield 'end of a register that is refused', byte_lookup(spoilt(r, 'bitfield', 31), r.size), refused(5)
    yield 'long leaf', long_leaf(), refused(10, ('tree', 0))
    yield 'read of other bytes', read(spoilt(r, 'data', 3), None, 'metadata', 1), refused(10, ('tree', 2))
    for data in (b'', b'\0\0\0', be(4, 65), be(4, 0) + b'x', be(4, 1), be(4, 1) + be(4, 4097) + bytes(4097)):
        yield 'listing', listing(data), b'refused input\n'
    yield 'listing of nothing', listing(be(4, 0)), b'chunks 0 bytes 0 roots\n'


def jobs():
    """What a job needs is what the calls take that append and sign its chunks singly, with the last root hash alone."""
    for n in (0, 1, 2, 3, 7, 8, 13):
        for lengths in ([], [0], [119, 120], [1] * 9, [246, 247, 248, 0, 65536]):
            r, hashed = register_of(chunk_list(n)), []
            def F(message):
                hashed.append(message)
                return node_hash(message)
            answer = needs(n, r.size, lengths)
            for length in lengths:
                for image, room in zip(images_of(r), (80, 64, 3328, length)):
                    image.extend(bytes(room))
                yield 'append', append(r, bytes(length), F)[0], 'done'
                yield 'signature', store_signature(r, bytes(SIGNATURE)), ('done',)
            last = r.root_message()
            kinds = [[message for message in hashed if message[0] == kind] for kind in (0, 1)] + [[last]]
            counts = [sum(len(blocks_of(message)) for message in several) for several in kinds]
            yield 'needs at %d' % n, answer, ('done', *used_sizes(r.n, r.s, r.size), *counts, sum(counts))
    for n in range(70):
        new = [index for index in range(1, 2 * n + 1, 2) if filled(n + 1, index) and not filled(n, index)]
        yield 'completed by %d' % n, (sorted(completed(n)), len(completed(n))), (new, depth(n))


def lists():
    """A list leaves the images of all chunks, and its own signatures as zeros, in buffers that are just as long."""
    for n, several in ((0, (1, 2, 40)), (3, (1, 5, 13)), (8, (8, 256)), (8190, (1, 2, 3)), (16382, (2,))):
        chunks = chunk_list(n) if n < 8190 else [b''] * n
        for k in several:
            r, more = register_of(chunks), chunk_list(k + 4)[4:]
            whole = register_of(chunks + more)
            used = used_sizes(n + k, n + k - 1, whole.size)
            for image, end in zip(images_of(r), used):
                image.extend(b'\xa5' * (end - len(image)))
            lengths = list(map(len, more))
            yield 'list of %d at %d' % (k, n), append_list(r, lengths, b''.join(more)), ('done', root_hash(whole)[1])
            yield 'images', list(images_of(r)), [image[:end] for image, end in zip(images_of(whole), used)]
            yield 'numbers', (r.n, r.s, r.size), (n + k, n + k - 1, whole.size)
            yield 'owed', append_list(r, [0], b''), refused(8)
            yield 'no room for it', append_list(told(r, s=r.n - 1), [0] * 257, b''), refused(16)
    r = register_of([])
    yield 'more than all', append_list(r, [0] * (MOST_CHUNKS + 1), b''), refused(2)
    yield 'all and too many', append_list(r, [0] * MOST_CHUNKS, b''), refused(16)
    grown = Register(*(bytearray(size) for size in used_sizes(20, 20, 57)))
    start(grown)
    grow(grown, 20, 7)
    yield 'samples', (grown, grown.size), (sampled(20, 7), 57)


def old_roots():
    """Of the first m chunks: what the append answered when m were there, and the root hash of these chunks alone."""
    for F in (node_hash, weak):
        for n in (0, 1, 6, 13, 21):
            chunks, r = chunk_list(n), Register(*(bytearray(4000) for _ in range(4)))
            start(r)
            then = [root_hash(r, F)]
            for chunk in chunks:
                then.append(append(r, chunk, F))
                store_signature(r, bytes(SIGNATURE))
            yield 'old roots of %d' % n, [old_root(r, m, F) for m in range(n + 1)], then
            yield 'first chunks', [root_hash(register_of(chunks[:m], F), F) for m in range(n + 1)], then
            yield 'above n', [old_root(r, m, F) for m in (n + 1, 2 ** 64 - 1)], [refused(9)] * 2


def made_packet(r, chunk, F):
    out = bytearray(2000)
    return bytes(out[:make_packet(r, chunk, out, F)[1]])


def places_up(n, chunk):
    index, places = 2 * chunk, [('tree', 2 * chunk)]
    while index not in roots(n):
        index = parent(index)
        places.append(('tree', index))
    return places + ['at the roots']


def colliding(first, second, chunk):
    """The places upward from a chunk where the messages of two registers differ and have one weak hash."""
    said = [{('tree', index): message for index, message in enumerate(messages(r))} for r in (first, second)]
    one, other = ({**places, 'at the roots': r.root_message()} for places, r in zip(said, (first, second)))
    return [place for place in places_up(first.n, chunk) if one[place] != other[place] and weak(one[place]) == weak(other[place])]


def packet_walks():
    """Of packets that two registers with one root hash give for a chunk number: what is named are the first messages of
    both registers, from the leaf upward, that differ and have one hash."""
    seen = set()
    for n in (1, 2, 3, 4, 7):
        lists = [[bytes([1 + v * (j + 1) % 5]) * (v * (j + 2) % 3) for j in range(n)] for v in range(15)]
        registers = [register_of(chunks, weak) for chunks in lists]
        for a, b, chunk in [(a, b, chunk) for a in range(15) for b in range(15) for chunk in range(n)]:
            packets = [made_packet(registers[v], chunk, weak) for v in (a, b)]
            root, other = (root_hash(registers[v], weak)[1] for v in (a, b))
            if root != other:
                expected = refused(13) + ('second',)
            elif lists[a][chunk] == lists[b][chunk]:
                expected = ('same chunk',)
            else:
                places = colliding(registers[a], registers[b], chunk)
                expected = ('collision', places[0])
                seen.add(('roots' if places[0] == 'at the roots' else depth(places[0][1]), len(places) > 1))
            yield 'packets of %d of %d' % (chunk, n), compare_packets(*packets, n, chunk, root, weak), expected
    kinds = {(0, True), (1, True), (0, False), (2, False), ('roots', False)}  # at which depth, and whether others are above
    yield 'kinds of collisions', kinds <= seen, True


def two_bits(message):
    return bytes([sum(message) % 4] * HASH)


def row_packet(chunk, siblings, others):
    """A packet with these entries, each 32 times a byte and a length."""
    sections = [be(1, len(entries)) + b''.join(bytes([byte] * HASH) + be(8, length) for byte, length in entries) for entries in (siblings, others)]
    return be(4, len(chunk)) + chunk + b''.join(sections)


def weak_rows():
    """The rows of packet_compare/specs/WeakHash, on which the checker runs the definition."""
    leaf, parent, upper, top = ('collision', ('tree', 0)), ('collision', ('tree', 1)), ('collision', ('tree', 3)), ('collision', 'at the roots')
    for n, i, first, second, root, expected in (
            (1, 0, (b'\1', [], []), (b'\5', [], []), 3, leaf),
            (1, 0, (b'\1', [], []), (b'\2', [], []), 3, top),
            (2, 0, (b'\1', [(1, 1)], []), (b'\2', [(1, 1)], []), 1, parent),
            (2, 1, (b'\1', [(1, 1)], []), (b'\5', [(1, 1)], []), 1, ('collision', ('tree', 2))),
            (2, 0, (b'\1', [(1, 1)], []), (b'\5', [(2, 1)], []), 1, leaf),
            (4, 1, (b'\1', [(1, 1), (2, 2)], []), (b'\1\0', [(1, 1), (2, 1)], []), 1, upper),
            (3, 0, (b'\1', [(1, 1)], [(2, 2)]), (b'\1\0', [(1, 1)], [(2, 1)]), 3, top),
            (2, 0, (b'\1', [(1, 1)], []), (b'\1', [(2, 1)], []), 1, ('same chunk',)),
            (2, 0, (b'\1', [(1, 1)], []), (b'\1\0', [(1, 1)], []), 1, refused(13) + ('second',)),
            (2, 0, (b'\1', [], []), (b'\1', [], []), 1, refused(12) + ('first',))):
        yield 'weak row', compare_packets(row_packet(*first), row_packet(*second), n, i, bytes([root] * HASH), two_bits), expected


def round_from(last):
    """The stations in the order in which they come after the one last served."""
    return sorted(range(STATIONS), key=lambda station: (station - last - 1) % STATIONS)


def tables():
    """Runs on tables beside a plain list of the reads that wait, in the order in which they came, and beside the numbers of a lent table."""
    metadata, content = sampled(7, 4), spoilt(sampled(13, 5), 'data', 13)
    for seed in range(12):
        numbers, table, lent, waiting, last = Numbers(seed), fresh(), fresh_numbers(), [], STATIONS - 1
        for _ in range(150):
            before = copy.deepcopy(table)
            if numbers.below(7) < 2 + seed % 4:
                station, name, chunk = numbers.below(18), ('metadata', 'content')[numbers.below(2)], numbers.below(15)
                full = sum(one == station for one, _ in waiting) == MOST_WAITING
                expected = refused(21) if station >= STATIONS else refused(22) if full else ('done',)
                yield 'enter', (enter(table, station, name, chunk), enter_numbers(lent, station, name, chunk)), (expected, expected)
                waiting += [(station, (name, chunk))] if expected == ('done',) else []
                yield 'refused and changed', expected != ('done',) and table != before, False
            elif not waiting:
                yield 'none', (serve(table, metadata, content), table), (('none',), before)
                yield 'none', serve_numbers(lent, metadata, content), (('none',), None)
            else:
                last = next(station for station in round_from(last) if any(one == station for one, _ in waiting))
                oldest = next(one for one in waiting if one[0] == last)
                expected = 'served', last, read(metadata, content, *oldest[1])
                yield 'serve', serve(table, metadata, content), expected
                yield 'serve', serve_numbers(lent, metadata, content), (expected, oldest[1])
                waiting.remove(oldest)
            expected = Table([[one for s, one in waiting if s == station] for station in range(STATIONS)], last)
            yield 'table', (table, table_of(lent)), (expected, expected)
    for lent in ([LAST] * NUMBERS, [4] * NUMBERS, [k % 23 for k in range(NUMBERS)]):
        count = sum(map(len, table_of(lent).waiting))
        yield 'spoilt', [serve_numbers(lent, metadata, content)[0][0] for _ in range(count + 1)], ['served'] * count + ['none']


def fairness():
    """However the others flood a table, a station that waits is served after at most 15 servings of others."""
    none = register_of([])
    for last in range(STATIONS):
        for station in range(STATIONS):
            table, count = fresh(), 0
            enter(table, last, 'content', 0)
            serve(table, none, none)
            enter(table, station, 'content', 0)
            while True:
                for other in range(STATIONS):
                    while enter(table, other, 'metadata', 0) == ('done',):
                        pass
                if serve(table, none, none)[1] == station:
                    break
                count += 1
            yield 'servings of others', (count, count <= STATIONS - 1), ((station - last - 1) % STATIONS, True)


def pieces_of(r):
    """The pieces that the stored entries and data bits tell of, or None where their lengths can't be right."""
    nodes = [r.node(2 * k) for k in range(r.n)]
    lengths = [length for _, length in nodes]
    if max(lengths, default=0) > LONGEST_CHUNK or sum(lengths) != r.size:
        return None
    chunks = cut(r.data, lengths)
    return [chunk if held(r, k) else node for k, (chunk, node) in enumerate(zip(chunks, nodes))]


def pieces():
    """A release takes the image of pieces to that of pieces, and the audit accepts exactly these images."""
    for F in (node_hash, weak):
        for n, order in ((1, (0,)), (6, (4, 0, 5, 1)), (17, (16, 3, 15))):
            several = chunk_list(n)
            r = register_of(several, F)
            for chunk in order:
                several[chunk] = leaf_node(several[chunk], F)
                yield 'release', (release(r, chunk), r), (('done',), register_of(several, F))
                yield 'audit', audit(r, F), ('done',)
                yield 'not held', read(r, None, 'metadata', chunk, F), refused(18, ('tree', 2 * chunk))
        other = bytes(31) + b'\5', 3
        for several in ([b'AB', b'', b'CDE'], [b'AB', other, b''], [other, b'', b'\0\0'], [b'\0', other], [other]):
            r = register_of(several, F)
            yield 'pieces', (audit(r, F), pieces_of(r)), (('done',), several)
            bits = [*range(HEADER, HEADER + 2), *range(1056, 1058), *range(3104, 3108)]
            places = {'tree': range(HEADER, len(r.tree)), 'bitfield': bits, 'data': range(len(r.data))}
            for image, at, mask in [(image, at, mask) for image in places for at in places[image] for mask in (1, 64, 128)]:
                changed = spoilt(r, image, at, getattr(r, image)[at] ^ mask)
                found = pieces_of(changed)
                imaged = found is not None and images_of(register_of(found, F)) == images_of(changed)
                yield '%s %d of pieces' % (image, at), audit(changed, F) == ('done',), imaged


def searches():
    """By the Index and without it, on accepted registers."""
    for n in (0, 1, 15, 16, 17, 50):
        for step in (1, 5, 16, 17, 100):
            gone = set(range(3, n, step))
            r = register_of([(bytes(32), 0) if k in gone else b'' for k in range(n)])
            for number in (*range(n + 2), 2 ** 64 - 1):
                plain = next((k for k in sorted(gone) if k >= number), None)
                yield 'search of %d from %d' % (n, number), first_not_held(r, number), ('done', plain)


def both_ways(r):
    """Of every chunk number, offset and number to search from: the quick answers and the short ones."""
    far = 2 ** 64 - 1
    chunks, offsets = (*range(r.n + 2), far), (*range(r.size + 2), far)
    quick = [place_lookup(r, k) for k in chunks], [byte_lookup(r, p) for p in offsets], [first_not_held(r, k) for k in chunks]
    short = [short_place(r, k) for k in chunks], [short_byte(r, p) for p in offsets], [short_search(r, k) for k in chunks]
    return quick, short


def short_ways():
    """They agree on accepted registers, also on those with pieces gone; the searches wherever the Index follows."""
    any_hash = b'\7' * HASH
    for F in (node_hash, weak):
        for n in (0, 1, 2, 3, 6, 13, 21):
            r = register_of(chunk_list(n), F)
            yield 'both ways at %d' % n, *both_ways(r)
            for chunk in range(n % 2, n, 3):
                release(r, chunk)
            yield 'audit', audit(r, F), ('done',)
            yield 'both ways without pieces', *both_ways(r)
        r = register_of([b'', (any_hash, 3), b'AB', (any_hash, 0), b'', b'C', (any_hash, 2), b''], F)
        yield 'audit', audit(r, F), ('done',)
        yield 'both ways with entries handed in', *both_ways(r)
    for step in range(40):
        r = register_of([b''] * 40)
        r.bitfield[HEADER:HEADER + 6] = keyed_hash(6, be(4, step), b'') if step % 2 else bytes([255] * (step % 7) + [0] * (6 - step % 7))
        put_index(r, 0)
        numbers = range(42)
        yield 'searches', [first_not_held(r, k) for k in numbers], [short_search(r, k) for k in numbers]


def short_refusals():
    """Of leaves that say anything, under a root that says the data size: the first leaf above 65,536 refuses all behind it,
    and an offset that no leaf before contains."""
    for lengths in ([0, 3, 1, 2], [1, 1, 1, 1], [0, 0, 0, 0], [0, 65536, 0, 9], [2, 65537, 1, 1], [3, 1, 65537, 99999], [1, 2, 3, 2 ** 64 - 1]):
        r = register_of([b''] * 4)
        r.data, r.size = bytearray(8), 8
        for index, length in zip((0, 2, 4, 6, 3), lengths + [8]):
            r.put(index, entry_bytes((bytes(HASH), length)))
        long = next((k for k in range(4) if lengths[k] > LONGEST_CHUNK), 4)
        for k in range(4):
            expected = ('done', sum(lengths[:k]), lengths[k]) if k < long else refused(10, ('tree', 2 * long))
            yield 'short place of %d' % k, short_place(r, k), expected
        order = [(k, p) for k in range(long) for p in range(lengths[k])]
        for offset in range(8):
            none = refused(10, ('tree', 2 * min(long, 3)))
            yield 'short byte of %d' % offset, short_byte(r, offset), ('done', *order[offset]) if offset < len(order) else none
        yield 'short ends', (short_byte(r, 8), short_byte(r, 9), short_place(r, 4)), (('done', 4, 0), refused(9), refused(9))


def made_copy(n, size):
    c = Copy(*(bytearray(b'\xa5' * (used + 3)) for used in copy_sizes(n, size)), n, size)
    check('make a copy', make_copy(c), ('done',))
    return c


def used_images(c):
    return [bytes(image[:used]) for image, used, _ in c.lent()]


def spoilt_copy(c, numbers):
    """Some bytes of entries, tree bits, data bits and data turned."""
    for _ in range(numbers.below(4)):
        c.tree[HEADER + numbers.below(len(c.tree) - HEADER)] ^= 1
        c.bitfield[HEADER + DATA_BYTES + numbers.below(2 * c.n) // 8] ^= 1 << numbers.below(8)
        c.bitfield[HEADER + numbers.below(c.n) // 8] ^= 1 << numbers.below(8)
        if c.size:
            c.data[numbers.below(c.size)] ^= 1
    return c


def both_taken(c, *packets):
    """What is left of the copy where all these are taken in, one right after the other, or None."""
    taker, F = copy.deepcopy(c), packets[0][-1]
    for packet, chunk, root, _ in packets:
        before = used_images(taker)
        if take_in(taker, packet, chunk, root, F)[0] == 'refused':
            check('refused and changed', used_images(taker), before)
            return None
    return used_images(taker)


def packets_both_ways():
    """Two packets taken in are taken in the other way round too, with the same images, whatever the copy held."""
    numbers, taken = Numbers(1), 0
    for F in (node_hash, weak):
        for n, span in ((1, 3), (2, 3), (3, 3), (5, 4), (6, 2)):
            lists = [[bytes([k * v % 5 + 1]) * (k % span) for k in range(n)] for v in range(4)]
            registers = [register_of(chunks, F) for chunks in lists]
            packets = [(made_packet(r, chunk, F), chunk, root_hash(r, F)[1], F) for r in registers for chunk in range(n)]
            for step in range(80):
                first, second = packets[numbers.below(len(packets))], packets[numbers.below(len(packets))]
                c = made_copy(n, registers[0].size)
                for _ in range(step % 3):
                    take_in(c, *packets[numbers.below(len(packets))])
                if step % 2:
                    spoilt_copy(c, numbers)
                one, other = both_taken(c, first, second), both_taken(c, second, first)
                yield 'packets both ways', one, other
                taken += one is not None
    yield 'enough of them taken in', taken > 150, True


def any_packet(c, chunk, numbers):
    """A packet of no register, of entries that a copy knows and of others, with lengths that add up to its size, and the weak root hash
    under which the packet is accepted."""
    indexes, rest, entries = packet_indexes(c.n, chunk), c.size, []
    for index in sum(indexes, []):
        known = c.known(index) and numbers.below(8) > 0 and c.node(index)[1] <= rest
        entries.append(c.node(index) if known else (bytes([numbers.below(3)] * HASH), numbers.below(min(rest, 3) + 1)))
        rest -= entries[-1][1]
    found, parts = bytes(numbers.below(3) for _ in range(rest)), list(map(entry_bytes, entries))
    sections = parts[:len(indexes[0])], parts[len(indexes[0]):]
    packet = be(4, rest) + found + b''.join(be(1, len(section)) + b''.join(section) for section in sections)
    roots_tried = ((packet, chunk, bytes([v] * HASH), weak) for v in range(3))
    return next(tried for tried in roots_tried if check_packet(packet, c.n, *tried[1:]) == ('done', found))


def grown_copies():
    """A copy that was made and grew by packets, of registers or of none, and by releases stays accepted; each packet that a copy gives
    is accepted."""
    numbers, taken = Numbers(2), 0
    yield 'audit of nothing', audit_copy(made_copy(0, 0)), ('done',)
    for n, size in [(n, size) for n in (1, 2, 3, 4, 6, 7) for size in (0, 1, 4, 7)]:
        c = made_copy(n, size)
        yield 'audit of a new copy', audit_copy(c, weak), ('done',)
        for _ in range(25):
            chunk = numbers.below(n)
            if numbers.below(5) == 0:
                release(c, chunk)
            else:
                taken += take_in(c, *any_packet(c, chunk, numbers))[0] == 'done'
            yield 'audit of a copy', audit_copy(c, weak), ('done',)
        for chunk in range(n):
            if read(c, c, 'content', chunk, weak)[0] == 'done':
                packet, root = made_packet(c, chunk, weak), root_hash(c, weak)[1]
                yield 'packet of a copy', check_packet(packet, n, chunk, root, weak), read(c, c, 'content', chunk, weak)
    yield 'enough of them taken in', taken > 100, True


def full_copies():
    """A copy that took in all of a sequence, in any order and with releases between, has its images; where every entry but the holes is
    known, the short ways agree."""
    numbers = Numbers(3)
    for F in (node_hash, weak):
        for n in (1, 2, 3, 6, 13):
            r = register_of(chunk_list(n), F)
            c, root = made_copy(n, r.size), root_hash(r, F)[1]
            while not all(held(c, chunk) for chunk in range(n)):
                chunk = numbers.below(n)
                if held(c, chunk) and numbers.below(4) == 0:
                    yield 'release', release(c, chunk), ('done',)
                else:
                    yield 'take in', take_in(c, made_packet(r, chunk, F), chunk, root, F), ('done',)
            yield 'images of a full copy', used_images(c), [r.tree, r.bitfield, r.data]
            release(c, n // 2)
            yield 'audit', audit_copy(c, F), ('done',)
            yield 'both ways', *both_ways(c)


def lent_registers():
    """A packet taken in on an accepted register that is lent as a copy leaves an accepted register, with that piece held."""
    numbers, other = Numbers(4), 0
    for step in range(150):
        n = 1 + step % 6
        r = register_of([bytes([1 + k % 2] * (k % 3)) for k in range(n)], weak)
        for _ in range(numbers.below(4)):
            release(r, numbers.below(n))
        check('audit', audit(r, weak), ('done',))
        chunk = numbers.below(n)
        packet = any_packet(lent_as_copy(r), chunk, numbers)
        if take_in(lent_as_copy(r), *packet)[0] == 'done':
            found = check_packet(packet[0], n, *packet[1:])[1]
            other += found != bytes([1 + chunk % 2] * (chunk % 3))
            yield 'a piece that came back', (audit(r, weak), read(r, r, 'content', chunk, weak)), (('done',), ('done', found))
    yield 'other pieces than were released', other > 0, True


def copy_calls(c):
    for chunk in range(c.n + 1):
        yield from (place_lookup(c, chunk), read(c, c, 'content', chunk), make_packet(c, chunk, bytearray(300)), release(copy.deepcopy(c), chunk),
                    first_not_held(c, chunk), short_place(c, chunk), short_search(c, chunk), old_root(c, chunk))
    yield root_hash(c)
    for offset in range(c.size + 2):
        yield from (byte_lookup(c, offset), short_byte(c, offset))


def calls_on_copies():
    """A call on a copy answers 20, or what it answers on a register with these very bytes; 20 alone where something is unknown."""
    numbers = Numbers(5)
    for step in range(60):
        n = 1 + step % 7
        r = register_of(chunk_list(n))
        if step % 3 == 0:
            r.tree[HEADER + ENTRY * numbers.below(2 * n - 1) + 39] ^= 1
        release(r, numbers.below(n))
        c = Copy(bytearray(r.tree), bytearray(r.bitfield), bytearray(r.data), n, r.size)
        unknown = {numbers.below(2 * n - 1) for _ in range(step % 4)}
        for index in unknown:
            at, alone = bit_at(index, NODES_PER_ENTRY, DATA_BYTES)
            c.bitfield[at] &= ~alone
        for answer, as_register in zip(copy_calls(c), copy_calls(r)):
            if answer[:2] == ('refused', 20):
                yield 'unknown', (answer[2][1] in unknown, filled(n, answer[2][1])), (True, True)
            else:
                yield 'call on a copy', answer, as_register
        if not unknown:
            yield 'accepted both ways', audit_copy(c) == ('done',), audit(r) == ('done',)


def descent_events(n, chunk):
    """What the place lookup's descent looks at, in its order: an entry that has to be known, a sum, and the leaf's length."""
    root = root_above(n, chunk)
    yield from (('known', left) for left in roots(n) if left <= root)
    index = root
    while index != 2 * chunk:
        left, right = children(index)
        yield from (('known', left), ('known', right), ('sum', index))
        index = left if 2 * chunk < index else right
    yield 'length', 2 * chunk


def wrong_leaf(c, chunk, F):
    """The index that a known leaf makes wrong, or None."""
    length = lambda index: c.node(index)[1]
    for kind, index in descent_events(c.n, chunk):
        if kind == 'known' and not c.known(index):
            return 2 * chunk
        if kind == 'sum' and length(index) != sum(map(length, children(index))) or kind == 'length' and length(index) > LONGEST_CHUNK:
            return index
    siblings, others = packet_indexes(c.n, chunk)
    at = sum(length(index) for index in siblings + others if index < 2 * chunk)
    found = bytes(c.data[at:at + length(2 * chunk)])
    right = F(leaf_message(found)) == c.node(2 * chunk)[0] if held(c, chunk) else not any(found)
    return None if right and at + len(found) <= c.size and len(found) == length(2 * chunk) else 2 * chunk


def wrong_indexes(c, F):
    for index in range(2 * c.n - 1):
        zero, leaf = not any(c.entry(index)), index % 2 == 0
        if not filled(c.n, index) or not c.known(index):
            if not zero or leaf and held(c, index // 2):
                yield index
        elif leaf:
            yield from (wrong for wrong in [wrong_leaf(c, index // 2, F)] if wrong is not None)
        elif all(map(c.known, children(index))):
            left, right = map(c.node, children(index))
            total = left[1] + right[1]
            if total >= 2 ** 64 or c.entry(index) != F(b'\1' + be(8, total) + left[0] + right[0]) + be(8, total):
                yield index


def copy_audits():
    """Of copies that took in a few packets, with bytes turned and entries forgotten: the lowest wrong index, or a wrong byte, or done."""
    numbers, seen = Numbers(6), {}
    for step in range(400):
        n, F = 1 + step % 9, (node_hash, weak)[step % 2]
        r = register_of(chunk_list(n), F)
        c = made_copy(n, r.size)
        for _ in range(1 + step % 4):
            chunk = numbers.below(n)
            check('take in', take_in(c, made_packet(r, chunk, F), chunk, root_hash(r, F)[1], F), ('done',))
        if step % 5:
            spoilt_copy(c, numbers)
        for _ in range(step % 3):
            index = numbers.below(2 * n - 1)
            at, alone = bit_at(index, NODES_PER_ENTRY, DATA_BYTES)
            c.bitfield[at] &= ~alone
            c.put(index, bytes(ENTRY))
        answer = audit_copy(c, F)
        kind = answer[0] if answer == ('done',) else answer[1]
        seen[kind] = seen.get(kind, 0) + 1
        if kind != 6:
            wrong = min(wrong_indexes(c, F), default=None)
            yield 'audit of a copy', answer[2] if kind == 10 else None, None if wrong is None else ('tree', wrong)
    yield 'kinds of answers', {'done', 6, 10, 11} <= set(seen), True


def spoilt_size(none):
    r = told(none, size=1)
    r.data.append(0)
    return r


def long_leaf():
    """A register of one leaf whose stored length fits the data and is above 65,536."""
    r = register_of([b''])
    r.data, r.size = bytearray(65_537), 65_537
    r.put(0, entry_bytes(leaf_node(bytes(r.data), node_hash)))
    return place_lookup(r, 0)


def walks():
    lists = [[], [b''], [b'\1'], [b'\2'], [b'\4'], [b'\1', b''], [b'', b'\1'], [b'\1', b'\2'], [b'\2', b'\1']]
    seen = set()
    for a in lists:
        for b in lists:
            answer = compare(register_of(a, weak), register_of(b, weak), weak)
            seen.add(answer[0] if answer[0] != 'collision' else answer)
            yield 'walk', answer == ('equal',), a == b
            expected = ('equal',) if a == b else ('roots differ',)
            yield 'walk', compare(register_of(a), register_of(b)), expected
    kinds = {'equal', 'roots differ', ('collision', 'at the roots'), ('collision', ('tree', 0))}
    yield 'kinds of answers', kinds <= seen, True
    bad = spoilt(register_of([b'a']), 'data', 0)
    yield 'second refused', compare(register_of([]), bad), refused(10, ('tree', 0)) + ('second',)


def loose_varint(data, at):
    """A number of at most 10 bytes modulo 2^64, in any form, and where it ends."""
    number = 0
    for k in range(10):
        number += data[at + k] % 128 << 7 * k
        if data[at + k] < 128:
            return number % 2 ** 64, at + k + 1
    raise IndexError


def loose_fields(data):
    """Protocol buffers without the bounds: field numbers and values, those of an unknown wire type left out."""
    at = 0
    while at < len(data):
        tag, at = loose_varint(data, at)
        value, end = loose_varint(data, at) if tag % 8 in (NUMBER, PART) else (None, at + {1: 8, 5: 4}.get(tag % 8, 0))
        if tag % 8 == PART:
            end, value = end + value, data[end:end + value]
        if end > len(data):
            raise IndexError
        yield tag // 8, value
        at = end


def loose_node(data):
    """The node that a reader makes of the bytes who takes fields in any order and form, the last of each, or None."""
    try:
        found = list(loose_fields(data))
        last = dict(found)
        stat = None if 2 not in last else Stat(*map(dict(loose_fields(last[2])).get, range(1, 10)))
        writers = [Writer(one.get(1), one.get(2)) for one in (dict(loose_fields(value)) for number, value in found if number == 4)]
        node = Node(last.get(1), stat, last.get(3), writers, last.get(5))
        return node if node_fits(node) else None
    except (IndexError, TypeError):
        return None


def some_nodes():
    """Every field absent, present and empty or 0, and present with something in it."""
    key, other = bytes(range(32)), bytes(range(100, 132))
    for path in (b'/', b'/a', b'/' * 255):
        for stat in (None, Stat(0), Stat(1, 2, 3, 4, 5, 6, 7, 8, 9)):
            for trie in (None, b'', b'\1\0'):
                for writers in ([], [Writer(key)], [Writer(key, b''), Writer(other, b'r' * 16)], [Writer(other), Writer(key)]):
                    for sequence in (None, 0, 127, 2 ** 64 - 1):
                        yield Node(path, stat, trie, writers, sequence)
    for mask in range(256):
        yield Node(b'/a', Stat(2 ** 32 - 1, *((300 >> 9 * (k < 2)) * (k + 1) if mask >> k & 1 else None for k in range(8))))


def records():
    """What was written is read again, and no two nodes have the same bytes."""
    seen = {}
    for node in some_nodes():
        out = bytearray(b'\xa5' * 700)
        count = write_node(node, out)[1]
        yield 'write', (bytes(out[:count]), out[count:]), (node_bytes(node), b'\xa5' * (700 - count))
        yield 'read what was written', read_node(out[:count]), ('done', node)
        yield 'no room', write_node(node, bytearray(count - 1)), refused(14)
        yield 'one node to these bytes', seen.setdefault(bytes(out[:count]), node), node
    for content in (bytes(32), bytes(range(32))):
        yield 'header', read_header(header_bytes(content)), ('done', content)


def spoilt_bytes(data):
    for at in range(len(data)):
        before, byte, behind = data[:at], data[at], data[at + 1:]
        yield from (before + bytes([byte ^ 1 << k]) + behind for k in range(8))
        yield from (before, before + behind, before + bytes([byte, byte]) + behind, before + b'\0' + data[at:], before + b'\x80' + data[at:])


def pieced_together():
    """Up to three fields in every order, good ones and others."""
    key = written(1, bytes(32))
    parts = [written(1, b'/a'), written(1, b'b'), written(2, b'\x08\1'), written(2, b'\x08\1\x48\0'), written(2, b'\x10\1'), written(3, b''),
             written(4, key), written(4, key + written(2, b'')), written(4, b''), written(5, 0), b'\x28\x80\0', written(6, 1), b'\x0d/aaa', b'\0']
    for first in parts:
        for second in parts:
            yield from (first, first + second)
            yield from (first + second + third for third in parts)


def accepted_records():
    """Bytes are read exactly where a loose reader's node is within the bounds and is written with these very bytes."""
    key = bytes(range(32))
    nodes = Node(b'/ab'), Node(b'/a', Stat(5, uid=300, ctime=2 ** 64 - 1), b'xy', [Writer(key, b'r'), Writer(key)], 128)
    spoilt = [data for node in nodes for data in spoilt_bytes(node_bytes(node))]
    for data in [*map(node_bytes, nodes), *spoilt, *pieced_together()]:
        node = loose_node(data)
        expected = ('done', node) if node is not None and node_bytes(node) == data else refused(15)
        yield 'read ' + data.hex(), read_node(data), expected
    whole = header_bytes(key)
    for data in [whole, *spoilt_bytes(whole)]:
        yield 'read header', read_header(data), ('done', data[14:]) if len(data) == 46 and data[:14] == whole[:14] else refused(15)


def paths():
    """On accepted registers of such records the highest number with the path is found."""
    names = b'/a', b'/a/b', b'/b'
    for F in (node_hash, weak):
        for k in range(60):
            chosen = [names[k // 3 ** j % 3] for j in range(k % 6)]
            r = register_of([header_bytes(bytes(32))] + [node_bytes(Node(name, sequence=j)) for j, name in enumerate(chosen)], F)
            yield 'audit', audit(r, F), ('done',)
            for name in (*names, b'/c', b''):
                highest = max((j + 1 for j, one in enumerate(chosen) if one == name), default=None)
                yield 'find', find(r, name, F), ('done', highest)
    yield 'find in nothing', find(register_of([]), b'/a'), ('done', None)


if __name__ == '__main__':
    groups = (agreement, borders, refusals, jobs, lists, tables, fairness, pieces, searches, short_ways, short_refusals, records, accepted_records, paths,
              walks, old_roots, packet_walks, weak_rows, packets_both_ways, grown_copies, full_copies, lent_registers, calls_on_copies, copy_audits)
    print('model: %d more cases agree' % sum(check(*case) for cases in groups for case in cases()))
