"""Random calls on partial copies, on the compiled library and on the model: every answer, refusal, place, field and lent buffer is compared.

usage: python3 tests/differential_copies.py LIBRARY [CALLS [SEED]]

Copies are made in dirty buffers, at times too short, and take in packets of a register: whole ones and spoilt ones, of another chunk, of a register with other
bytes, with the root hash that follows and with another. Chunks are released and come back. Between those, every call that a copy takes is made on
copies as they are and damaged: entries forgotten, known without reason or changed, bits turned, bytes changed, wrong n or size, shortened buffers.
Registers are lent as copies, whole and with chunks released. Two packets taken in one way round are taken in the other way round too. Some
registers hold records, which are read and sought by their paths.
"""

import copy
import sys

import differential  # it finds the model's folder
import copy_model
import sleep_model as model
from copy_model import Copy
from differential_records import NAMES, Records
from lent import Answer, Buffer, Library

OWN = 'make_copy', 'take_in'


def packet_of(r, chunk):
    out = bytearray(67062)
    return bytes(out[:model.make_packet(r, chunk, out)[1]])


class Copies(Records):
    def __init__(self, library, seed):
        super().__init__(library, seed)
        self.orders = self.returned = 0

    # ---- the calls: those of a register, by their names for a copy
    def call(self, name, registers, others, expect, gives=Answer):
        of_copy = any(isinstance(r, Copy) for r in registers) and name not in OWN
        super().call('copy_' * of_copy + name, registers, others, expect, gives)

    def on_register(self, name, r, others, gives):
        return super().on_register('copy_' * isinstance(r, Copy) + name, r, others, gives)

    def counted(self, name, expected):
        super().counted('copy_' + name, expected)

    def audit(self, r):
        whole = (copy_model.audit_copy if isinstance(r, Copy) else model.audit)(r)
        self.call('audit', [r], [], lambda: whole)
        self.audit_parts(r, whole)

    def judge(self, name, registers):
        return super().judge('copy_' * isinstance(registers[0], Copy) + name, registers)

    def make_copy(self, c):
        self.call('make_copy', [c], [], lambda: copy_model.make_copy(c))

    def take_in(self, c, packet, chunk, root):
        self.call('take_in', [c], [Buffer(packet), chunk, Buffer(root, array=True)], lambda: copy_model.take_in(c, packet, chunk, root))

    # ---- what they are given
    def pieces(self):
        """Those of a register with records, or any."""
        if self.random.random() < 0.3:
            return differential.pieces_of(self.named())
        most = self.random.choice((1, 2, 3, 8, 17, 40))
        return [self.random.randbytes(self.random.choice((0, 1, self.random.randrange(60)))) for _ in range(self.random.randrange(most + 1))]

    def alike(self, chunks):
        """Other bytes, mostly in chunks of the same lengths."""
        if self.random.random() < 0.2:
            return self.random.sample(chunks, len(chunks))
        some = {k for k in range(len(chunks)) if self.random.random() < 0.3}
        return [self.random.randbytes(len(chunk)) if k in some else chunk for k, chunk in enumerate(chunks)]

    def made(self, r):
        """A copy for the register, in dirty buffers; at times one before it for other numbers, or in buffers that may be too short."""
        if self.random.random() < 0.3:
            n, size = self.random.choice(((r.n, r.size), (r.n + 1, r.size), (r.n, r.size + 1), (1048577, 0), (r.n, 2 ** 64 - 1), (2 ** 64 - 1, 0)))
            odd = self.dirty(n, size, [self.random.choice((0, 0, -1, -40)) for _ in range(3)])
            self.make_copy(odd)
            self.looking_at(odd)
        c = self.dirty(r.n, r.size, [self.random.choice((0, 0, 9, 400)) for _ in range(3)])
        self.make_copy(c)
        return c

    def dirty(self, n, size, more):
        """Buffers of the used sizes, or of those that 2,000 chunks of a few bytes have, and more bytes or less."""
        used = copy_model.copy_sizes(min(n, 2000), min(size, 100000))
        return Copy(*(bytearray(self.random.randbytes(max(0, one + by))) for one, by in zip(used, more)), n, size)

    def taking(self, c, r, other):
        """A packet of the register or of the other one, whole or not, under its root hash or not."""
        given = other if self.random.random() < 0.15 else r
        if given.n == 0:
            return self.take_in(c, self.message(), self.number(c.n), self.random.randbytes(32))
        chunk, root = self.random.randrange(given.n), model.root_hash(given)[1]
        packet = packet_of(given, chunk)
        pick = self.random.randrange(30)
        if pick < 2:
            packet, root = self.other_length(packet, given.n, chunk, root)
        elif pick < 4:
            packet = self.spoilt(packet)
        elif pick == 4:
            chunk = self.number(given.n)
        elif pick == 5:
            root = self.random.randbytes(32)
        self.take_in(c, packet, chunk, root)

    def in_two_orders(self, c, r):
        """Two packets that are taken in one right after the other are taken in the other way round too, with the same images."""
        chunks, root = [self.random.randrange(r.n) for _ in range(2)], model.root_hash(r)[1]
        left = []
        for order in (chunks, chunks[::-1]):
            left.append(copy.deepcopy(c))
            before = dict(self.refusals)
            for chunk in order:
                self.take_in(left[-1], packet_of(r, chunk), chunk, root)
            left[-1] = (left[-1], before == self.refusals)
        if left[0][1] and left[0] != left[1]:
            raise SystemExit('two packets in the other order: n = %d, chunks %r' % (r.n, chunks))
        self.orders += left[0][1]

    def coming_back(self, r):
        """A register's chunk, released, and taken in again on its images lent as a copy."""
        whole, chunk, root = copy.deepcopy(r), self.random.randrange(r.n), model.root_hash(r)[1]
        packet, lent = packet_of(r, chunk), copy_model.lent_as_copy(r)
        self.release(lent if self.random.random() < 0.5 else r, chunk)
        self.take_in(lent, packet, chunk, root)
        if r != whole:
            raise SystemExit('a released chunk came back as another: n = %d, chunk %d' % (r.n, chunk))
        self.returned += 1

    # ---- damage
    def turned(self, c, index):
        at, alone = model.bit_at(index, model.NODES_PER_ENTRY, model.DATA_BYTES)
        if at < len(c.bitfield):
            c.bitfield[at] ^= alone

    def damage_known(self, c):
        """A tree bit turned, an entry forgotten with its bit or without, or zeros known."""
        entries = min(model.tree_entries(c.n), max(len(c.tree) - 32, 0) // 40)
        if entries == 0:
            return
        index, pick = self.random.randrange(entries), self.random.randrange(4)
        if pick < 3:
            self.turned(c, index)
        if pick > 1:
            c.tree[32 + 40 * index:72 + 40 * index] = bytes(40)

    def damaged(self, c):
        c = copy.deepcopy(c)
        for _ in range(self.random.choice((1, 1, 2))):
            pick, image = self.random.randrange(18), getattr(c, self.random.choice(differential.COPIED))
            if pick < 4 and len(image) > 0:
                within = self.random.choice((32, 200, len(image), len(image)))
                image[self.random.randrange(min(within, len(image)))] = self.random.randrange(256)
            elif pick < 7 and 0 < c.n < 100000:
                self.damage_entry(c)
            elif pick < 9 and 0 < c.n < 100000:
                self.damage_bits(c)
            elif pick < 14 and 0 < c.n < 100000:
                self.damage_known(c)
            elif pick == 14:
                del image[self.random.randrange(len(image) + 1):]
            else:
                name = self.random.choice(('n', 'size'))
                near = (getattr(c, name) + self.random.choice((-2, -1, 1, 2))) % 2 ** 64
                setattr(c, name, self.random.choice((near, near, near, 0, 1048576, 1048577, 2 ** 64 - 1)))
        return c

    # ---- any call
    def looking_at(self, c):
        pick = self.random.randrange(10)
        if pick < 2:
            self.audit(c)
        elif pick == 2:
            self.find(c, self.random.choice((*NAMES, b'', b'a')))
        elif pick == 3:
            self.node_of(c, self.number(c.n))
        elif pick == 4:
            self.header_of(c, self.random.choice((0, self.number(c.n))))
        else:
            self.looking(c)

    def any_of(self, c, r, other):
        pick = self.random.randrange(8)
        if pick < 2:
            self.taking(c, r, other)
        elif pick == 2:
            self.release(c, self.number(c.n))
        else:
            self.looking_at(c)

    def walking(self, r):
        """Two packets need no copy."""

    checking = walking

    def life(self):
        chunks = self.pieces()
        r, other = model.register_of(chunks), model.register_of(self.alike(chunks))
        c = self.made(r)
        for _ in range(6 + 4 * r.n):
            pick = self.random.randrange(32)
            if pick < 6:
                self.taking(c, r, other)
            elif pick == 6:
                self.release(c, self.number(c.n))
            elif pick == 7 and r.n > 0:
                self.in_two_orders(c, r)
            elif pick == 8 and r.n > 0:
                self.coming_back(r)
            elif pick < 12:
                whole = copy_model.lent_as_copy(copy.deepcopy(r))
                self.any_of(self.random.choice((whole, self.damaged(whole), self.damaged(whole))), r, other)
            elif pick < 18:
                self.looking_at(c)
            else:
                self.any_of(self.damaged(c), r, other)

    def large(self):
        """A copy about the border between bitfield entries, with few chunks."""
        r = model.register_of([self.random.randbytes(self.random.randrange(4)) for _ in range(16385)])
        c, root = Copy(*(bytearray(used + 9) for used in copy_model.copy_sizes(r.n, r.size)), r.n, r.size), model.root_hash(r)[1]
        self.make_copy(c)
        for chunk in (16384, 8191, 8192, 0, 16383, *(self.random.randrange(r.n) for _ in range(20))):
            self.take_in(c, packet_of(r, chunk), chunk, root)
            for one in (c, self.damaged(c)):
                self.place(one, self.random.choice((chunk, self.number(r.n))))
                self.read(one, chunk)
                self.search(one, self.number(r.n))
        for one in (c, *(self.damaged(c) for _ in range(6))):
            self.audit(one)
            for _ in range(20):
                self.looking(one)
        for chunk in (8191, 16384):
            self.release(c, chunk)
            self.audit(c)


def main(path, calls=20000, seed=20170901):
    calls, seed = int(calls), int(seed)
    run = Copies(Library(path), seed)
    run.large()
    while run.total() < calls:
        run.life()
    print('calls: ' + ', '.join('%s %d' % pair for pair in sorted(run.calls.items())))
    print('refusals: ' + ', '.join('%d: %d' % pair for pair in sorted(run.refusals.items())))
    print('differential of copies: %d calls agree with the model, %d pairs of packets in both orders, %d chunks released came back, %d audits with their parts'
          % (run.total(), run.orders, run.returned, run.cut))


if __name__ == '__main__':
    main(*sys.argv[1:])
