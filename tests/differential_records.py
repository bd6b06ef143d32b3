"""Random calls on records, on the compiled library and on the model: every answer, refusal, place, field and lent buffer is compared.

usage: python3 tests/differential_records.py LIBRARY [CALLS [SEED]]

Nodes have any of their fields, at their bounds and past them, and parts that overlap or pass the bytes lent. What is written is read, whole and
spoilt, and what is read is written again. Registers hold a Header and Nodes whose names come again, at times with a chunk that is no record, and
damaged; the record of any chunk is asked for, and paths are sought that are there and that aren't.
"""

import ctypes
import sys

import differential
import record_model as model
import sleep_model
from lent import Answer, Buffer, Fields, Found, Library, NodeRead, answer_of, numbers
from record_model import Node, Stat, Writer

STATS = list(vars(Stat()))
NAMES = b'/a', b'/a/b', b'/coat/sleeve', b'/', b'/\xff\x80'


def flat(node):
    """A Node as a sleep_node, and the bytes that its parts lie in."""
    parts = bytearray()

    def placed(data):
        at = len(parts)
        parts.extend(data)
        return [at, len(data)]

    def number(value):
        return [0, 0] if value is None else [1, value]

    def optional(data):
        return [0, 0, 0] if data is None else [1] + placed(data)

    path = placed(node.path)
    stat = [0] * 19 if node.stat is None else [1] + [word for name in STATS for word in number(getattr(node.stat, name))]
    several = [word for writer in node.writers[:8] for word in placed(writer.key) + optional(writer.permission)]
    words = path + stat + optional(node.trie) + [len(node.writers)] + several + [0] * (40 - len(several)) + number(node.sequence)
    return words, bytes(parts)


def node_of(words, data):
    """The Node that a sleep_node stands for, and whether each number beside an absent field is 0."""
    words = list(words)
    zeros = []

    def part(at):
        if words[at] + words[at + 1] > len(data):
            raise SystemExit('a part does not lie in the bytes')
        return data[words[at]:words[at] + words[at + 1]]

    def number(at):
        if words[at] == 0:
            zeros.append(words[at + 1])
        return None if words[at] == 0 else words[at + 1]

    def optional(at):
        if words[at] == 0:
            zeros.extend(words[at + 1:at + 3])
        return None if words[at] == 0 else part(at + 1)

    values = [number(3 + 2 * k) for k in range(9)]
    stat = None if words[2] == 0 else Stat(*values)
    if stat is None:
        zeros.extend(words[3:21])
    writers = [Writer(part(25 + 5 * k), optional(27 + 5 * k)) for k in range(words[24])]
    zeros.extend(words[25 + 5 * words[24]:65])
    return Node(part(0), stat, optional(21), writers, number(65)), not any(zeros)


class Records(differential.Run):
    def counted(self, name, expected):
        self.calls[name] = self.calls.get(name, 0) + 1
        if expected[0] == 'refused':
            self.refusals[expected[1]] = self.refusals.get(expected[1], 0) + 1

    # ---- the calls
    def write(self, name, fields, lent, expect, room):
        out = bytearray(self.random.randbytes(room))
        others = [Buffer(lent)] + fields + [Buffer(out, after=lambda length: bytes(out)), self.result(8, numbers)]
        self.call(name, [], others, lambda: expect(out))

    def write_header(self, content, room):
        self.write('write_header', [], content, lambda out: model.write_header(content, out), room)

    def write_node(self, node, room):
        words, data = flat(node)
        self.write('write_node', [Fields((ctypes.c_uint64 * 67)(*words))], data, lambda out: model.write_node(node, out), room)

    def read_header(self, data):
        self.call('read_header', [], [Buffer(data), self.result(16, lambda content: numbers(14, 32))], lambda: model.read_header(data))

    def header_of(self, r, chunk):
        others = [chunk, self.result(16, lambda content: numbers(14, 32))]
        self.call('header_of', [r], others, lambda: model.read_as(r, chunk, model.header_in))

    def judged(self, name, told, answered, expected, data):
        """The answer of a call that gives a Node, its fields, and zeros for what is absent and after a refusal."""
        self.counted(name, expected)
        self.same('the answer', name, told, answered[:24], answer_of(expected))
        words = [int.from_bytes(answered[at:at + 8], sys.byteorder) for at in range(24, len(answered), 8)]
        if expected[0] == 'refused':
            self.same('the Node', name, told, answered[24:], numbers(*[0] * 67))
        elif node_of(words, data) != (expected[1], True):
            raise SystemExit('%s of %s: the Node is %s, expected %s' % (name, data.hex(), node_of(words, data), expected[1]))
        return words

    def read_node(self, data):
        lent = Buffer(data)
        answered, expected = self.library.call('read_node', [lent], NodeRead), model.read_node(data)
        words = self.judged('read_node', None, answered, expected, data)
        self.same('the bytes', 'read_node', None, lent.held(), lent.before)
        if expected[0] == 'done':
            out, length = Buffer(bytes(len(data))), Buffer(bytes(8), array=True)
            said = self.library.call('write_node', [Buffer(data), Fields((ctypes.c_uint64 * 67)(*words)), out, length])
            self.same('what was read, written again', 'write_node', None, said + length.held() + out.held(), numbers(0, 0, 0, len(data)) + data)

    def on_register(self, name, r, others, gives):
        """The answer by value of a call on a register that is only read."""
        images, told = differential.lent_as(r)
        lent = [Buffer(getattr(r, image)) for image in images]
        answered = self.library.call(name, lent + list(told) + others, gives)
        for image, buffer in zip(images, lent):
            self.same(image, name, told, buffer.held(), buffer.before)
        return answered

    def node_of(self, r, chunk):
        answered, expected = self.on_register('node_of', r, [chunk], NodeRead), model.read_as(r, chunk, model.node_in)
        data = model.chunk_bytes(r, chunk, sleep_model.node_hash) if expected[0] == 'done' else b''
        self.judged('node_of', (r.n, r.s, r.size), answered, expected, bytes(data))

    def find(self, r, path):
        answered, expected = self.on_register('find', r, [Buffer(path)], Found), model.find(r, path)
        found = None if expected[0] == 'refused' else expected[1]
        self.counted('find', expected)
        words = numbers(*(0, 0) if found is None else (1, found)) + answer_of(expected)
        self.same('the answer', 'find', (r.n, r.s, r.size), answered, words)

    # ---- what they are given
    def bytes_about(self, *bounds):
        length = self.random.choice((*bounds, *(bound + 1 for bound in bounds), self.random.randrange(40), self.random.randrange(40)))
        return self.random.randbytes(length)

    def about(self, bits):
        """A number about a power of 2^7, or about the bound."""
        power = 1 << 7 * self.random.randrange(1 + bits // 7)
        return min(self.random.choice((0, 1, power - 1, power, power + 1, 2 ** bits - 1, self.random.getrandbits(bits))), 2 ** 64 - 1)

    def node(self):
        """Mostly within the bounds."""
        some = lambda value: value if self.random.random() < 0.6 else None
        past = self.random.random() < 0.15
        path = self.random.choice(NAMES) if not past else self.random.choice((b'', b'a', b'/' + self.bytes_about(254)))
        stat = Stat(*(some(self.about(32 + past if k < 3 else 64)) for k in range(9)))
        if not past or self.random.random() < 0.5:
            stat.mode = stat.mode or 0
        trie = some(self.random.randbytes(self.random.choice((0, 1, 9, 127, 128, 1023, 1024)) + past))
        writers = [Writer(self.random.randbytes(32 + past * self.random.randrange(-1, 2)), some(self.random.randbytes(self.random.randrange(17 + past))))
                   for _ in range(self.random.choice((0, 0, 1, 2, 8)) + past)]
        return Node(path, some(stat), trie, writers, some(self.about(64)))

    def spoiled(self, data):
        """A byte changed, lacking, or twice; a stretch again; other bytes behind."""
        at, data = self.random.randrange(len(data) + 1), bytearray(data)
        end = min(len(data), at + self.random.randrange(5))
        pick = self.random.randrange(6)
        if pick < 2 and at < len(data):
            data[at] = self.random.choice((data[at] ^ 1 << self.random.randrange(8), data[at] ^ 128, self.random.randrange(256)))
        elif pick == 2:
            del data[at:end]
        elif pick == 3:
            data[at:at] = data[at:end]
        elif pick == 4:
            data[at:at] = b'\x80' if self.random.random() < 0.5 else b'\0'
        else:
            data += data[at:end] or b'\0'
        return bytes(data)

    def lent_bytes(self):
        node = self.node()
        length = len(model.node_bytes(node))
        self.write_node(node, max(0, self.random.choice((length, length, length - 1, length + 1, 2000, 0))))
        data = model.node_bytes(node)
        for given in (data, self.spoiled(data), self.spoiled(self.spoiled(data)), self.message()):
            self.read_node(given)
        content = self.random.randbytes(self.random.choice((32, 32, 31, 33, 0)))
        self.write_header(content, self.random.choice((46, 46, 45, 47, 0, 100)))
        data = model.header_bytes(content)
        for given in (data, self.spoiled(data), self.message()):
            self.read_header(given)

    def named(self):
        """A Header and Nodes, at times one that is none."""
        chunks = [model.header_bytes(self.random.randbytes(32))]
        for _ in range(self.random.randrange(9)):
            node = self.node()
            node.path = self.random.choice(NAMES)
            chunks.append(model.node_bytes(node if model.node_fits(node) else Node(node.path)))
        for _ in range(self.random.choice((0, 0, 1, 2))):
            k = self.random.randrange(len(chunks))
            chunks[k] = self.random.choice((self.spoiled(chunks[k]), b'', chunks[0], chunks[-1]))
        return sleep_model.register_of(chunks[:self.random.choice((len(chunks),) * 9 + (0,))])

    def in_register(self):
        r = self.named()
        for one in (r, r, self.damage(r)):
            self.find(one, self.random.choice((*NAMES, b'', b'a', b'/' * 256)))
            chunk = self.number(r.n)
            self.node_of(one, chunk)
            self.header_of(one, self.random.choice((0, chunk)))


def main(path, calls=20000, seed=20170901):
    calls, seed = int(calls), int(seed)
    run = Records(Library(path), seed)
    while run.total() < calls:
        run.lent_bytes()
        run.in_register()
    print('calls: ' + ', '.join('%s %d' % pair for pair in sorted(run.calls.items())))
    print('refusals: ' + ', '.join('%d: %d' % pair for pair in sorted(run.refusals.items())))
    print('differential of records: %d calls agree with the model' % run.total())


if __name__ == '__main__':
    main(*sys.argv[1:])
