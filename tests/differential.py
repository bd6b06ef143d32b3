"""Random calls, on the compiled library and on the model: every answer, refusal, place and lent buffer is compared.

usage: python3 tests/differential.py LIBRARY [CALLS [SEED]]

LIBRARY is the archive linked as a shared object. Registers grow by valid calls; between those, calls are made on damaged copies: bytes changed in a
buffer, wrong n, s or size, shortened buffers, numbers at their bound and out of range. Packets are made and checked, whole and damaged, two of them
are walked along, root hashes and packets of the first chunks and stored leaf entries are asked for, and registers compared with copies, with other
cuts of the same bytes, with one more empty chunk and with damaged ones. On every register that is made, damaged or not, a preview is compared with
the append on a copy. Lists are appended, and where one is done its chunks are appended singly on a copy, with stored zero signatures between them:
every buffer is the same. Bytes of any length about the limits are grouped and ungrouped, with and without room, and the needs of jobs are asked about
all of their limits. Chunks are released, some registers are left with few chunks or none, and chunks that are not held are searched for, by an Index
that is right or changed and by the bits alone. Lookups go by the tree, and by the leaves alone. Reads of sixteen stations are entered in tables,
grown from a fresh one or holding anything, and served from two registers, as direct reads made then. One in fifty calls is on registers of 16,383 to
16,386 chunks, where the third bitfield entry begins and the tree gets its deepest hole. No pair of chunk sequences that collide under BLAKE2b is
known, so those two answers of the comparing walk and of the walk along two packets stand in no call here. Audits and comparisons, of registers as
they are and damaged, are cut at random: each part is compared with the model's, and together they give what the whole call gives; a part of the walk
on a damaged register may name a collision.
"""

import copy
import os
import random
import sys

sys.dont_write_bytecode = True  # nothing generated lies beside the sources
sys.path.insert(0, os.path.join(os.path.dirname(os.path.abspath(__file__)), 'model'))
import coordinates
import needs
import parts
import sleep_model as model
import stations
from lent import NUMBER, Answer, Buffer, Comparison, Library, Serving, answer_of, comparison_of, numbers, serving_of

IMAGES = ('tree', 'signatures', 'bitfield', 'data')
COPIED = ('tree', 'bitfield', 'data')
EXPECTED = {Answer: answer_of, Comparison: comparison_of, Serving: serving_of, NUMBER: lambda answer: answer_of(answer)[:8]}


def pieces_of(r):
    """The pieces of a register that belongs to some: chunks, and the leaf entries of released ones."""
    pieces, start = [], 0
    for k in range(r.n):
        node = r.node(2 * k)
        pieces.append(r.part(start, node[1]) if model.held(r, k) else node)
        start += node[1]
    return pieces


def lent_as(r):
    """The images and the numbers that a call is lent: a copy has no signatures and no s."""
    return (COPIED, (r.n, r.size)) if r.signatures is None else (IMAGES, (r.n, r.s, r.size))


def root_shown(packet, n, chunk):
    """The root hash that a packet of the right shape gives, whatever its lengths add up to."""
    hashed = [bytes(32)]
    def F(message):
        hashed.append(model.node_hash(message))
        return hashed[-1]
    most, model.MOST_BYTES = model.MOST_BYTES, 2 ** 64
    try:
        model.check_packet(packet, n, chunk, b'', F)
    finally:
        model.MOST_BYTES = most
    return hashed[-1]


class Calls:
    """Each call of the library beside the model's."""

    def __init__(self, library, seed):
        self.library, self.random, self.calls, self.refusals = library, random.Random(seed), {}, {}
        self.ends = self.agreed = self.listed = self.direct = self.earlier_packets = self.cut = 0

    def total(self):
        return sum(self.calls.values())

    def same(self, what, name, told, held, expected):
        if held != expected:
            raise SystemExit('%s of n, s, size %r: %s is %s, expected %s' % (name, told, what, held.hex(), expected.hex()))

    def call(self, name, registers, others, expect, gives=Answer):
        """`expect` calls the model, which changes the registers as the library is to change the lent copies of them."""
        images, told = [lent_as(r)[0] for r in registers], [lent_as(r)[1] for r in registers]
        lent = [[Buffer(getattr(r, image)) for image in names] for r, names in zip(registers, images)]
        words = [word for buffers, three in zip(lent, told) for word in buffers + ([] if name == 'start' else list(three))]
        answered = self.library.call(name, words + others, gives)
        expected = expect()
        self.calls[name] = self.calls.get(name, 0) + 1
        if expected[0] == 'refused':
            self.refusals[expected[1]] = self.refusals.get(expected[1], 0) + 1
        self.same('the answer', name, told, answered, EXPECTED[gives](expected))
        for number, buffer in enumerate(one for one in others if isinstance(one, Buffer)):
            self.same('buffer %d' % number, name, told, buffer.held(), buffer.expected(expected))
        for r, names, buffers in zip(registers, images, lent):
            for image, buffer in zip(names, buffers):
                self.same(image, name, told, buffer.held(), bytes(getattr(r, image)))

    def result(self, length, after):
        """A lent result, which holds anything before."""
        return Buffer(self.random.randbytes(length), array=True, after=after)

    def start(self, r):
        self.call('start', [r], [], lambda: model.start(r))

    def preview(self, r, chunk):
        self.call('preview', [r], [Buffer(chunk), self.result(32, lambda root: root)], lambda: model.preview(r, chunk))

    def append(self, r, chunk):
        """Every append is previewed first, on the same buffers."""
        self.preview(r, chunk)
        self.call('append', [r], [Buffer(chunk), self.result(32, lambda root: root)], lambda: model.append(r, chunk))

    def agree(self, r, chunk):
        """A preview and an append on copies of one register: the same answer and result, and the preview changes no image."""
        told, before = (r.n, r.s, r.size), self.random.randbytes(32)
        def called(name):
            lent, root = [Buffer(getattr(r, image)) for image in IMAGES], Buffer(before, array=True)
            return lent, self.library.call(name, lent + list(told) + [Buffer(chunk), root]) + root.held()
        lent, seen = called('preview')
        for image, buffer in zip(IMAGES, lent):
            self.same(image, 'preview', told, buffer.held(), buffer.before)
        self.same('what the append gives', 'preview', told, seen, called('append')[1])
        self.agreed += 1

    def append_list(self, r, lengths, data):
        """Where the list is done, its single appends with zero signatures between them leave every buffer so, and give that root hash."""
        before = copy.deepcopy(r)
        others = [Buffer(numbers(*lengths), unit=8), Buffer(data), self.result(32, lambda root: root)]
        self.call('append_list', [r], others, lambda: model.append_list(r, lengths, data))
        if r != before:
            self.singly(before, lengths, data, r)

    def singly(self, r, lengths, data, after):
        lent, root = [Buffer(getattr(r, image)) for image in IMAGES], Buffer(bytes(32), array=True)
        n, size, answers = r.n, r.size, []
        for k, length in enumerate(lengths):
            answers.append(self.library.call('append', lent + [n, n, size, Buffer(data[:length]), root]))
            n, size, data = n + 1, size + length, data[length:]
            if k + 1 < len(lengths):
                answers.append(self.library.call('store_signature', lent + [n, n - 1, size, Buffer(bytes(64), array=True)]))
        told = n, n - 1, size
        self.same('an answer', 'append_list', told, b''.join(answers), numbers(0, 0, 0) * len(answers))
        self.same('the root hash', 'append_list', told, root.held(), model.root_hash(after)[1])
        for image, buffer in zip(IMAGES, lent):
            self.same(image, 'append_list', told, buffer.held(), bytes(getattr(after, image)))
        self.listed += 1

    def sign(self, r):
        signature = self.random.randbytes(64)
        self.call('store_signature', [r], [Buffer(signature, array=True)], lambda: model.store_signature(r, signature))

    def root_hash(self, r):
        self.call('root_hash', [r], [self.result(32, lambda root: root)], lambda: model.root_hash(r))

    def old_root(self, r, m):
        self.call('old_root', [r], [m, self.result(32, lambda root: root)], lambda: model.old_root(r, m))

    def stored_leaf(self, r, chunk):
        others = [chunk, self.result(32, lambda given, length: given), self.result(8, lambda given, length: numbers(length))]
        self.call('stored_leaf', [r], others, lambda: model.stored_leaf(r, chunk))

    def release(self, r, chunk):
        self.call('release', [r], [chunk], lambda: model.release(r, chunk))

    def search(self, r, number):
        """Two numbers: 1 and the chunk, or 0 and 0 where there is none."""
        given = self.result(16, lambda found: numbers(0, 0) if found is None else numbers(1, found))
        self.call('search', [r], [number, given], lambda: model.first_not_held(r, number))

    def audit(self, r):
        whole = model.audit(r)
        self.call('audit', [r], [], lambda: whole)
        self.audit_parts(r, whole)

    def part(self, name, registers, words, gives=Answer):
        """A part of a whole call, and the model's answer, which the library gave too."""
        said = []
        def expect():
            said.append(self.judge(name, registers)(*registers, *words))
            return said[0]
        self.call(name, registers, list(words), expect, gives)
        return said[0]

    def judge(self, name, registers):
        return getattr(parts, name)

    def audit_parts(self, r, whole):
        """Ranges that cover both files, in any order, give together what the whole audit gives."""
        if self.random.random() > (0.3 if r.n < 1000 else 0.05) or r.n > model.MOST_CHUNKS:
            return
        answers = [self.part('audit_tree_part', [r], ab) for ab in parts.cuts(self.random, model.tree_entries(r.n))]
        answers += [self.part('audit_bitfield_part', [r], ab) for ab in parts.cuts(self.random, model.bitfield_entries(r.n))]
        self.same('together', 'audit in parts', r.n, answer_of(parts.together(answers)), answer_of(whole))
        self.cut += 1

    def compare_parts(self, first, second):
        """Step by step, as a comparison goes through its parts, with each of them called on the pair."""
        if self.random.random() > 0.4:
            return
        held = [self.part('compare_held_part', [r], []) for r in (first, second)]
        roots = self.part('compare_roots_part', [first, second], [], Comparison)
        count = model.tree_entries(min(first.n, model.MOST_CHUNKS)) if first.n <= 1000 else 0
        walked = [self.part('compare_walk_part', [first, second], ab, Comparison) for ab in parts.cuts(self.random, count)]
        if count == 0 and first.n > 0:
            return
        answer = roots
        for r, one, which in ((second, held[1], 'second'), (first, held[0], 'first')):
            one = model.audit(r) if one[0] == 'done' else one
            answer = answer if one[0] == 'done' else one + (which,)
        if answer == ('equal',):
            found = [one[1][1] for one in walked if one[0] == 'collision']
            answer = ('collision', ('tree', min(found))) if found else answer
        self.same('together', 'compare in parts', first.n, comparison_of(answer), comparison_of(model.compare(first, second)))
        self.cut += 1

    def place(self, r, chunk):
        self.call('place', [r], [chunk, self.result(16, numbers)], lambda: model.place_lookup(r, chunk))

    def byte(self, r, offset):
        self.ends += offset == r.size
        self.call('byte', [r], [offset, self.result(16, numbers)], lambda: model.byte_lookup(r, offset))

    def read(self, r, chunk):
        place = lambda found: numbers(*model.place_of(r, chunk))
        name = self.random.choice(('metadata', 'content'))
        self.call('read', [r], [chunk, self.result(16, place)], lambda: model.read(r, r, name, chunk))

    def short_place(self, r, chunk):
        self.call('short_place', [r], [chunk, self.result(16, numbers)], lambda: model.short_place(r, chunk))

    def short_byte(self, r, offset):
        self.call('short_byte', [r], [offset, self.result(16, numbers)], lambda: model.short_byte(r, offset))

    def short_search(self, r, number):
        found = lambda chunk: numbers(0, 0) if chunk is None else numbers(1, chunk)
        self.call('short_search', [r], [number, self.result(16, found)], lambda: model.short_search(r, number))

    def hash(self, length, key, message):
        digest = self.result(64, lambda digest: digest)
        self.call('hash', [], [length, Buffer(key), Buffer(message), digest], lambda: model.blake2b(length, message, key), NUMBER)

    def hash_parts(self, key, prefix, body):
        digest = self.result(32, lambda digest: digest[:32])
        others = [Buffer(key), Buffer(prefix), Buffer(body), digest]
        self.call('hash_parts', [], others, lambda: model.blake2b(32, prefix + body, key), NUMBER)

    def label(self, root, key):
        others = [Buffer(root, array=True), Buffer(key), self.result(32, lambda label: label)]
        self.call('label', [], others, lambda: model.label(root, key), NUMBER)

    def make_packet(self, r, chunk, room):
        out = bytearray(self.random.randbytes(room))
        others = [chunk, Buffer(out, after=lambda length: bytes(out)), self.result(8, numbers)]
        self.call('make_packet', [r], others, lambda: model.make_packet(r, chunk, out))

    def check_packet(self, packet, n, chunk, root):
        out = self.result(16, lambda found: numbers(4, len(found)))
        others = [Buffer(packet), n, chunk, Buffer(root, array=True), out]
        self.call('check_packet', [], others, lambda: model.check_packet(packet, n, chunk, root))

    def compare_packets(self, first, second, n, chunk, root):
        others = [Buffer(first), Buffer(second), n, chunk, Buffer(root, array=True)]
        self.call('compare_packets', [], others, lambda: model.compare_packets(first, second, n, chunk, root), Comparison)

    def group(self, name, data, room):
        out = bytearray(self.random.randbytes(room))
        others = [Buffer(data), Buffer(out, after=lambda: bytes(out))]
        self.call(name, [], others, lambda: coordinates.CALLS[name](data, out))

    def needs(self, n, size, lengths):
        listed = Buffer(numbers(*lengths), unit=8)
        self.call('needs', [], [n, size, listed, self.result(64, numbers)], lambda: needs.needs(n, size, lengths))

    # ---- tables of waiting reads
    def table(self, held):
        """A table lent, of which `held` are the model's numbers; no call is told its length."""
        return Buffer(numbers(*held), array=True, after=lambda *given: numbers(*held))

    def fresh(self, held):
        def begun():
            held[:] = stations.fresh_numbers()
            return ('done',)
        self.call('fresh', [], [self.table(held)], begun)

    def enter(self, held, station, name, chunk):
        others = [self.table(held), station, stations.NAMES.index(name), chunk]
        self.call('enter', [], others, lambda: stations.enter_numbers(held, station, name, chunk))

    def serve(self, held, metadata, content):
        """The answer, the table and the part; and the direct read of the library gives the same answer and part."""
        told, lent = [(r.n, r.s, r.size) for r in (metadata, content)], self.table(held)
        out, images = self.random.randbytes(16), [[Buffer(getattr(r, image)) for image in IMAGES] for r in (metadata, content)]
        part = Buffer(out, array=True)
        registers = [word for one, three in zip(images, told) for word in one + list(three)]
        answered = self.library.call('serve', [lent] + registers + [part], Serving)
        answer, read = stations.serve_numbers(held, metadata, content)
        expected = answer if read is None else ('served', answer[1], *read, answer[2])
        self.calls['serve'] = self.calls.get('serve', 0) + 1
        self.same('the answer', 'serve', told, answered, serving_of(expected))
        self.same('the table', 'serve', told, lent.held(), numbers(*held))
        if read is None:
            self.same('the part', 'serve', told, part.held(), out)
        else:
            named = content if read[0] == 'content' else metadata
            if answer[2][0] == 'refused':
                self.refusals[answer[2][1]] = self.refusals.get(answer[2][1], 0) + 1
            direct, again = Buffer(out, array=True), [Buffer(getattr(named, image)) for image in IMAGES]
            said = self.library.call('read', again + [named.n, named.s, named.size, read[1], direct])
            self.same('what the direct read answers', 'serve', told, answered[32:], said)
            self.same('the part of the direct read', 'serve', told, part.held(), direct.held())
            place = numbers(*model.place_of(named, read[1])) if answer[2][0] == 'done' else out
            self.same('the part', 'serve', told, part.held(), place)
            self.direct += 1
        for r, one in zip((metadata, content), images):
            for image, buffer in zip(IMAGES, one):
                self.same(image, 'serve', told, buffer.held(), bytes(getattr(r, image)))

    def compare(self, first, second):
        self.call('compare', [first, second], [], lambda: model.compare(first, second), Comparison)
        self.compare_parts(first, second)


class Run(Calls):
    """What is called with what."""

    def number(self, below):
        """Mostly below the bound, at it and just above it, at times anywhere."""
        pick = self.random.randrange(12)
        return (2 ** 64 - 1, self.random.getrandbits(64), below, below + 1)[pick] if pick < 4 else self.random.randrange(max(below, 1))

    def chunk(self):
        pick = self.random.randrange(400)
        length = {0: 65536, 1: 65537}.get(pick, 0 if pick < 80 else self.random.randrange(200))
        return self.random.randbytes(length)

    def listing(self, r):
        """Mostly a few chunks; at times none, the most, one more, or lengths that don't add up, by wrapping at 2^64 too."""
        count = self.random.choice((0, 1, 1, 2, 3, 5, 40, 255, 256, 257, self.random.randrange(1, 12), self.random.randrange(1, 12)))
        lengths = [self.random.choice((0, 0, 1, self.random.randrange(9), self.random.randrange(60))) for _ in range(count)]
        if lengths and self.random.random() < 0.03:
            lengths[self.random.randrange(count)] = self.random.choice((65536, 65537))
        data = self.random.randbytes(sum(lengths))
        pick = self.random.randrange(30)
        if pick < 2:
            data = data[:-1] if pick else data + b'\0'
        elif pick == 2 and count > 1:
            at = self.random.sample(range(count), 2)
            lengths[at[0]], lengths[at[1]] = 2 ** 64 - 1, (lengths[at[0]] + lengths[at[1]] + 1) % 2 ** 64
        self.append_list(r, lengths, data)

    def message(self):
        return self.random.randbytes(self.random.choice((0, 1, 9, 119, 120, 127, 128, 129, 256, self.random.randrange(600))))

    def key(self):
        return self.random.randbytes(self.random.choice((0, 0, 1, 63, 64, 65, self.random.randrange(70), self.random.randrange(300))))

    def hashing(self):
        pick = self.random.randrange(5)
        if pick < 2:
            self.hash_parts(self.key(), self.message(), self.message())
        elif pick < 4:
            self.hash(self.random.choice((0, 1, 32, 64, 65, 2 ** 64 - 1, self.random.randrange(70))), self.key(), self.message())
        else:
            self.label(self.random.randbytes(32), self.key())

    def grouping(self):
        """Lengths with and without words and remaining bytes, at times about the longest; room for them, a byte less or more, or any."""
        pick = self.random.randrange(40)
        length = 65533 + pick if pick < 5 else self.random.randrange(self.random.choice((20, 600)))
        room = self.random.choice((length, length, length + 1, max(length - 1, 0), self.random.randrange(700), 65540))
        self.group(self.random.choice(('group', 'ungroup')), self.random.randbytes(length), room)

    def length(self):
        pick = self.random.randrange(2000)
        return {0: 65537, 1: 2 ** 64 - 1, 2: 65536}.get(pick, self.random.randrange(65537 if pick < 40 else self.random.choice((1, 300))))

    def asking(self):
        """Lists about 0 and 256 lengths, at any count and about the highest, and sizes about the largest that the count can have."""
        k = self.random.choice((0, 1, 255, 256, 257, 300, self.random.randrange(9), self.random.randrange(60)))
        edge = self.random.choice((1048576 - k, 1048577 - k, 1048576, 1048577, 2 ** 64 - 1))
        n = edge if self.random.random() < 0.3 else self.random.randrange(1 << self.random.randrange(21))
        sizes = 65536 * n + 1, 2 ** 64 - 1, 0, 65536 * n, self.random.randrange(65536 * n + 1), self.random.randrange(65536 * n + 1)
        size = self.random.choice(sizes[0 if self.random.random() < 0.3 else 2:]) % 2 ** 64
        one = self.random.choice((0, 119, 120, 65536, 65537)) if self.random.random() < 0.1 else None
        self.needs(n, size, [self.length() if one is None else one for _ in range(k)])

    def waiting(self, r):
        """A short run on a table, fresh or spoilt, with a station that floods it at times."""
        other = self.damage(r) if self.random.random() < 0.4 else r
        archive = [r, other] if self.random.random() < 0.5 else [other, r]
        held = [self.number(self.random.choice((2, 5, 17))) for _ in range(stations.NUMBERS)]
        if self.random.random() < 0.7:
            self.fresh(held)
        flooding = self.random.choice((None, None, self.random.randrange(16)))
        for _ in range(self.random.choice((3, 12, 30))):
            if self.random.random() < 0.6:
                station = self.number(16) if flooding is None or self.random.random() < 0.5 else flooding
                self.enter(held, station, self.random.choice(stations.NAMES), self.number(r.n) % 2 ** 64)
            else:
                self.serve(held, *archive)

    # ---- packets
    def packing(self, r):
        """Room for the packet, a byte less or more, or any."""
        chunk, out = self.number(r.n), bytearray(67062)
        made = model.make_packet(r, chunk, out)
        length = made[1] if made[0] == 'done' else 100
        self.make_packet(r, chunk, max(0, self.random.choice((length, length, length - 1, length + 1, self.random.randrange(300), 0))))

    def walking(self, r):
        """A packet of the register and the same, or another, in both orders."""
        packet, n, chunk, root = self.packet(r)
        other = self.random.choice((packet, self.spoilt(packet), self.spoilt(packet), self.packet(r)[0]))
        for both in ((packet, other), (other, packet)):
            self.compare_packets(*both, n, chunk, root)

    def earlier(self, r):
        """A packet of the first m chunks, made from a register that belongs to more: the one that a register of those chunks gives, and it passes under their root hash."""
        if r.n == 0:
            return
        m = self.random.randint(1, r.n)
        chunk, first, told = self.random.randrange(m), model.register_of(pieces_of(r)[:m]), copy.copy(r)
        told.n, told.s, told.size = m, min(m, r.s), first.size
        packets = [bytearray(67062), bytearray(67062)]
        answers = [model.make_packet(one, chunk, out) for one, out in zip((told, first), packets)]
        self.same('the packet of the first %d' % m, 'make_packet', (r.n, r.s, r.size), bytes(packets[0]) + repr(answers[0]).encode(), bytes(packets[1]) + repr(answers[1]).encode())
        self.make_packet(told, chunk, answers[0][1] if answers[0][0] == 'done' else 100)
        if answers[0][0] == 'done':
            self.check_packet(bytes(packets[0][:answers[0][1]]), m, chunk, model.root_hash(first)[1])
        self.earlier_packets += 1

    def checking(self, r):
        self.check_packet(*self.packet(r))

    def packet(self, r):
        """A packet of the register, or any bytes, with the root hash and the numbers of the register, or with others."""
        chunk, out = self.random.randrange(max(r.n, 1)), bytearray(67062)
        made, rooted = model.make_packet(r, chunk, out), model.root_hash(r)
        packet = bytes(out[:made[1]]) if made[0] == 'done' else self.message()
        n, root = r.n, rooted[1] if rooted[0] == 'done' else bytes(32)
        pick = self.random.randrange(12)
        if pick < 3 and n > 0 and made[0] == 'done':
            packet, root = self.other_length(packet, n, chunk, root)
        elif pick < 5:
            packet = self.spoilt(packet)
        elif pick == 5:
            n = self.random.choice((n + 1, max(n - 1, 0), 2 * n, 0, 1, 1048576, 1048577, 2 ** 64 - 1))
        elif pick == 6:
            chunk = self.number(n)
        elif pick == 7:
            root = self.random.choice((self.random.randbytes(32), root[:31] + bytes([root[31] ^ 1])))
        return packet, n, chunk, root

    def spoilt(self, packet):
        """Bytes lacking, surplus or changed."""
        pick, packet = self.random.randrange(6), bytearray(packet)
        if pick == 0:
            del packet[self.random.randrange(len(packet) + 1):]
        elif pick == 1:
            packet += self.random.randbytes(self.random.choice((1, 40, self.random.randrange(100))))
        elif packet:
            at = self.random.randrange(min(len(packet), self.random.choice((4, len(packet), len(packet)))))
            packet[at] = self.random.choice((packet[at] ^ 1 << self.random.randrange(8), self.random.randrange(256)))
        return bytes(packet)

    def other_length(self, packet, n, chunk, root):
        """Another length in one of the entries, at times with the root hash that follows from it: at the bound it passes, above it not."""
        siblings, others = map(len, model.packet_indexes(n, chunk))
        if siblings + others == 0:
            return packet, root
        first = model.number_in(packet[:4])
        places = [4 + first + 1 + 40 * k + (k >= siblings) + 32 for k in range(siblings + others)]
        at = self.random.choice(places)
        rest = first + sum(model.number_in(packet[place:place + 8]) for place in places if place != at)
        length = self.random.choice((model.MOST_BYTES - rest, model.MOST_BYTES - rest + 1, model.MOST_BYTES, 2 ** 63, 2 ** 64 - 1, 0))
        packet = packet[:at] + model.be(8, length) + packet[at + 8:]
        forged = length + rest < 2 ** 64 and self.random.random() < 0.8
        return packet, root_shown(packet, n, chunk) if forged else root

    # ---- pairs
    def recut(self, r):
        """The same bytes in as many chunks, cut at another place, where there are two chunks to cut."""
        chunks = pieces_of(r)
        pairs = [k for k in range(r.n - 1) if not any(map(model.is_released, chunks[k:k + 2])) and chunks[k] + chunks[k + 1]]
        if pairs:
            k = self.random.choice(pairs)
            both = chunks[k] + chunks[k + 1]
            at = self.random.choice([at for at in range(len(both) + 1) if at != len(chunks[k])])
            chunks[k:k + 2] = [both[:at], both[at:]]
        return model.register_of(chunks)

    def comparing(self, r, pick=None):
        """A register that belongs to chunks, with one that is like it in some way."""
        pick = self.random.randrange(6) if pick is None else pick
        if pick == 0:
            pair = [r, r]
        elif pick == 1:
            pair = [r, model.register_of(pieces_of(r))]
        elif pick == 2:
            pair = [r, self.recut(r)]
        elif pick == 3:
            pair = [r, model.register_of(pieces_of(r) + [b''])]
        else:
            pair = [r, self.damage(r)]
        self.agree(pair[1], self.chunk())
        if self.random.random() < 0.5:
            pair.reverse()
        self.compare(*pair)

    # ---- any call
    def looking(self, r):
        pick = self.random.randrange(100)
        if pick < 6:
            self.root_hash(r)
        elif pick < 12:
            self.old_root(r, self.number(r.n))
        elif pick < 15:
            self.stored_leaf(r, self.number(r.n))
        elif pick < 18:
            self.search(r, self.number(r.n))
        elif pick < 20:
            self.short_search(r, self.number(r.n))
        elif pick < 30:
            self.place(r, self.number(r.n))
        elif pick < 35:
            self.short_place(r, self.number(r.n))
        elif pick < 46:
            self.byte(r, self.number(r.size))
        elif pick < 52:
            self.short_byte(r, self.number(r.size))
        elif pick < 70:
            self.read(r, self.number(r.n))
        elif pick < 80:
            self.packing(r)
        elif pick < 93:
            self.checking(r)
        else:
            self.walking(r)

    def reading(self, r):
        pick = self.random.randrange(100)
        if pick < 8:
            self.hashing()
        elif pick < 14:
            self.grouping()
        elif pick < 17:
            self.asking()
        elif pick < 19:
            self.waiting(r)
        elif pick < 26:
            self.audit(r)
        else:
            self.looking(r)

    def any_call(self, r):
        pick = self.random.randrange(20)
        if pick == 0:
            self.start(r)
        elif pick < 4:
            self.append(r, self.chunk())
        elif pick < 6:
            self.sign(r)
        elif pick < 8:
            self.listing(r)
        elif pick < 10:
            self.release(r, self.number(r.n))
        else:
            self.reading(r)

    # ---- damage
    def damage(self, r):
        """A copy of a register with something changed."""
        r = copy.deepcopy(r)
        for _ in range(self.random.choice((1, 1, 2))):
            pick, image = self.random.randrange(16), getattr(r, self.random.choice(IMAGES))
            if pick < 5 and len(image) > 0:
                within = self.random.choice((32, 200, len(image), len(image)))
                image[self.random.randrange(min(within, len(image)))] = self.random.randrange(256)
            elif pick < 9 and r.n > 0:
                self.damage_entry(r)
            elif pick == 9 and r.n > 0:
                self.damage_bits(r)
            elif pick < 11:
                del image[self.random.randrange(len(image) + 1):]
            else:
                name = self.random.choice(('n', 's', 'size'))
                near = (getattr(r, name) + self.random.choice((-2, -1, 1, 2))) % 2 ** 64
                setattr(r, name, self.random.choice((near, near, near, 0, 1048576, 1048577, 2 ** 64 - 1)))
        self.agree(r, self.chunk())
        return r

    def damage_bits(self, r):
        """A data bit of a chunk below n or just behind turned, or the Index byte that has its tuple, and at times the Index made to follow."""
        chunk = self.random.randrange(min(r.n + 2, 8192 * model.bitfield_entries(r.n)))
        at, alone = model.bit_at(chunk, model.CHUNKS_PER_ENTRY, 0)
        index = model.HEADER + model.BITFIELD_ENTRY * (chunk // 8192 + 1) - 256 + 2 * (chunk % 8192 // 64)
        if index < len(r.bitfield):
            pick = self.random.randrange(4)
            r.bitfield[index if pick == 0 else at] ^= self.random.randrange(256) if pick == 0 else alone
            if pick > 1 and model.HEADER + model.BITFIELD_ENTRY * (chunk // 8192 + 1) <= len(r.bitfield):
                model.put_index(r, chunk)

    def damage_entry(self, r):
        """Moves a length from one entry to another, or writes one, small or so large that a sum would wrap."""
        entries = min(model.tree_entries(r.n), (len(r.tree) - 32) // 40)
        if entries <= 0:
            return
        at = [32 + 40 * self.random.randrange(entries) + 32 for _ in range(2)]
        by = self.random.choice((1, self.random.randrange(100), 65536, 2 ** 63, 2 ** 64 - 1))
        r.tree[at[0]:at[0] + 8] = ((model.number_in(r.tree[at[0]:at[0] + 8]) + by) % 2 ** 64).to_bytes(8, 'big')
        if self.random.random() < 0.7:
            r.tree[at[1]:at[1] + 8] = ((model.number_in(r.tree[at[1]:at[1] + 8]) - by) % 2 ** 64).to_bytes(8, 'big')

    # ---- small registers
    def register(self):
        """Dirty buffers, for up to `most` chunks, at times too short for them."""
        most = self.random.choice((0, 1, 3, 8, 17, 40))
        sizes = (32 + 80 * most, 32 + 64 * most, 32 + 3328, 100 * most + self.random.choice((0, 0, 70000)))
        sizes = [max(0, size - self.random.choice((0, 0, 0, 0, 0, 1, 40))) for size in sizes]
        return model.Register(*(bytearray(self.random.randbytes(size)) for size in sizes)), most

    def life(self, calls):
        r, most = self.register()
        self.start(r)
        for _ in range(6 * most + 6):
            if self.total() >= calls:
                return
            self.agree(r, self.chunk())
            pick = self.random.randrange(41)
            owed = r.s < r.n if pick > 3 else self.random.random() < 0.5
            if pick < 16 and owed:
                self.sign(r)
            elif pick < 13:
                self.append(r, self.chunk())
            elif pick < 16:
                self.listing(r)
            elif pick < 24:
                self.reading(r)
            elif pick < 26:
                self.comparing(r)
                self.earlier(r)
            elif pick < 28:
                self.letting_go(r)
            else:
                self.any_call(self.damage(r))

    def letting_go(self, r):
        """One chunk released, or at times many."""
        for _ in range(self.random.choice((1, 1, 1, r.n // 2 + 1, 2 * r.n))):
            self.release(r, self.number(r.n))
        self.search(r, self.number(r.n))

    # ---- large registers
    def built(self, chunks):
        """A register that the library builds by its own calls in dirty buffers, and that the model has to give for these chunks."""
        n = len(chunks)
        room = [used + 40 for used in model.used_sizes(n, n, sum(map(len, chunks)))]
        lent = [Buffer(self.random.randbytes(length)) for length in room]
        signatures, root, told = self.random.randbytes(64 * n), Buffer(bytes(32), array=True), 0
        answers = [self.library.call('start', lent)]
        for k, chunk in enumerate(chunks):
            seen = Buffer(bytes(32), array=True)
            answers.append(self.library.call('preview', lent + [k, k, told, Buffer(chunk), seen]))
            answers.append(self.library.call('append', lent + [k, k, told, Buffer(chunk), root]))
            self.same('the root hash previewed', 'building', k, seen.held(), root.held())
            told += len(chunk)
            answers.append(self.library.call('store_signature', lent + [k + 1, k, told, Buffer(signatures[64 * k:64 * k + 64], array=True)]))
        self.same('an answer', 'building', n, b''.join(answers), numbers(0, 0, 0) * len(answers))
        r = model.register_of(chunks)
        r.signatures[32:] = signatures
        for image, buffer in zip(IMAGES, lent):
            used = getattr(r, image)
            self.same(image, 'building', n, buffer.held(), bytes(used) + buffer.before[len(used):])
        return r

    def large(self, calls):
        """Registers about the border between bitfield entries, with chunks of a few bytes."""
        r = self.built([self.random.randbytes(self.random.randrange(4)) for _ in range(16383)])
        for name, more in zip(IMAGES, (400, 400, 3328, 400)):
            setattr(r, name, getattr(r, name) + self.random.randbytes(more))
        for _ in range(4):
            self.agree(r, self.chunk())
            for _ in range(calls // 4):
                damaged = self.random.random() < 0.3
                self.looking(self.damage(r) if damaged else r)
            for kind in range(1, 5):
                self.comparing(r, kind)
                self.earlier(r)
            for lent in [r] + [self.damage(r) for _ in range(4)]:
                self.audit(lent)
            gone = copy.deepcopy(r)
            for chunk in (8191, 8192, r.n - 1, self.number(r.n)):
                self.release(gone, chunk)
                self.search(gone, self.number(r.n))
                self.short_search(gone, self.number(r.n))
            for lent in [gone, self.damage(gone)]:
                self.audit(lent)
                self.looking(lent)
                self.compare(lent, r)
            for lent in [self.damage(r), copy.deepcopy(r)]:
                self.listing(lent)
            for lent in [self.damage(r), r]:
                self.append(lent, self.random.randbytes(5))
            for lent in [self.damage(r), r]:
                self.sign(lent)


def main(path, calls=100000, seed=20170901):
    calls, seed = int(calls), int(seed)
    print('differential: seed %d, %d calls' % (seed, calls))
    run = Run(Library(path), seed)
    run.large(calls // 50)
    while run.total() < calls:
        run.life(calls)
    print('calls: ' + ', '.join('%s %d' % pair for pair in sorted(run.calls.items())))
    print('byte lookups at the data size: %d' % run.ends)
    print('refusals: ' + ', '.join('%d: %d' % pair for pair in sorted(run.refusals.items())))
    print('differential: %d calls agree with the model, preview and append on %d registers, %d lists with their single appends, %d servings with direct reads, '
          '%d packets of first chunks with those of registers of theirs, %d whole calls with their parts'
          % (run.total(), run.agreed, run.listed, run.direct, run.earlier_packets, run.cut))


if __name__ == '__main__':
    main(*sys.argv[1:])
