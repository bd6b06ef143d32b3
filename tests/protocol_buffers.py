"""Records beside an outside implementation of protocol buffers, Debian's python3-protobuf: what the library writes is read there, with the same
fields and the same absent ones, and is written there with the same bytes; and what is written there the library reads.

usage: python3 tests/protocol_buffers.py LIBRARY [RECORDS [SEED]], of a Python that has google.protobuf

The schema is the paper's, tests/records.proto. Paths and permissions are UTF-8 here, since a `string` there may refuse other bytes.
"""

import ctypes
import os
import random
import re
import sys

from google.protobuf import descriptor_pb2, descriptor_pool, message_factory

import differential_records
from lent import Answer, Buffer, Fields, Library, NodeRead, numbers
from record_model import Node, Stat, Writer

TYPES = {'string': 9, 'bytes': 12, 'uint32': 13, 'uint64': 4}
LABELS = {'optional': 1, 'required': 2, 'repeated': 3}
NAMES = {'byte_offset': 'byteOffset'}
LETTERS = 'abcxyz/._- \u00e9\u00df\u20ac\U0001f9e5'


def messages(path):
    """The classes of the schema's messages."""
    text = open(path).read()
    file = descriptor_pb2.FileDescriptorProto(name='records.proto', package='sleep', syntax='proto2')
    for name, body in re.findall(r'message (\w+) \{(.*?)\}', text, re.S):
        message = file.message_type.add(name=name)
        for label, kind, field, number in re.findall(r'(\w+) (\w+) (\w+) = (\d+);', body):
            one = message.field.add(name=field, number=int(number), label=LABELS[label], type=TYPES.get(kind, 11))
            if kind not in TYPES:
                one.type_name = '.sleep.' + kind
    pool = descriptor_pool.DescriptorPool()
    pool.Add(file)
    made = message_factory.MessageFactory(pool)
    return {one.name: made.GetPrototype(pool.FindMessageTypeByName('sleep.' + one.name)) for one in file.message_type}


def there(message, field):
    return getattr(message, field) if message.HasField(field) else None


def encoded(text):
    return None if text is None else text.encode()


def stat_of(message):
    return Stat(*(there(message, NAMES.get(name, name)) for name in vars(Stat())))


def node_of(message):
    """The Node that a message says."""
    writers = [Writer(writer.publicKey, encoded(there(writer, 'permission'))) for writer in message.writers]
    value = stat_of(message.value) if message.HasField('value') else None
    return Node(message.path.encode(), value, there(message, 'trie'), writers, there(message, 'writersSequence'))


def said(node, kinds):
    """The message that says a Node."""
    message = kinds['Node'](path=node.path.decode())
    if node.stat is not None:
        message.value.SetInParent()
        for name, value in vars(node.stat).items():
            if value is not None:
                setattr(message.value, NAMES.get(name, name), value)
    for field, value in (('trie', node.trie), ('writersSequence', node.sequence)):
        if value is not None:
            setattr(message, field, value)
    for writer in node.writers:
        one = message.writers.add(publicKey=writer.key)
        if writer.permission is not None:
            one.permission = writer.permission.decode()
    return message


class Outside:
    def __init__(self, library, kinds, seed):
        self.library, self.kinds, self.random = library, kinds, random.Random(seed)

    def text(self, most):
        """UTF-8 of at most so many bytes."""
        letters = ''.join(self.random.choice(LETTERS) for _ in range(self.random.choice((0, 1, 5, most))))
        while len(letters.encode()) > most:
            letters = letters[:-1]
        return letters.encode()

    def number(self, bits):
        power = 1 << 7 * self.random.randrange(1 + bits // 7)
        return self.random.choice((0, 1, power - 1, min(power, 2 ** bits - 1), 2 ** bits - 1, self.random.getrandbits(bits)))

    def node(self):
        some = lambda value: value if self.random.random() < 0.6 else None
        stat = Stat(*(some(self.number(32 if k < 3 else 64)) for k in range(9)))
        stat.mode = stat.mode or 0
        writers = [Writer(self.random.randbytes(32), some(self.text(16))) for _ in range(self.random.choice((0, 1, 2, 8)))]
        return Node(b'/' + self.text(254), some(stat), some(self.random.randbytes(self.random.choice((0, 1, 127, 128, 1024)))), writers, some(self.number(64)))

    def written(self, name, fields, lent):
        out, length = Buffer(bytes(2070)), Buffer(bytes(8), array=True)
        assert self.library.call(name, [Buffer(lent)] + fields + [out, length], Answer) == numbers(0, 0, 0)
        return out.held()[:int.from_bytes(length.held(), sys.byteorder)]

    def read(self, data):
        answered = self.library.call('read_node', [Buffer(data)], NodeRead)
        words = [int.from_bytes(answered[at:at + 8], sys.byteorder) for at in range(0, len(answered), 8)]
        assert words[:3] == [0, 0, 0]
        return differential_records.node_of(words[3:], data)[0]

    def both_ways(self, node):
        words, lent = differential_records.flat(node)
        data = self.written('write_node', [Fields((ctypes.c_uint64 * 67)(*words))], lent)
        message = self.kinds['Node'].FromString(data)
        assert node_of(message) == node
        assert message.SerializeToString(deterministic=True) == data
        outside = said(node, self.kinds).SerializeToString(deterministic=True)
        assert outside == data and self.read(outside) == node

    def header(self, content):
        data = self.written('write_header', [], content)
        message = self.kinds['Header'].FromString(data)
        assert (message.type, message.content) == ('hyperdrive', content)
        outside = self.kinds['Header'](type='hyperdrive', content=content).SerializeToString(deterministic=True)
        part = Buffer(bytes(16), array=True)
        assert self.library.call('read_header', [Buffer(outside), part], Answer) == numbers(0, 0, 0)
        assert outside == data and part.held() == numbers(14, 32) and outside[14:] == content


def main(path, records=3000, seed=20170901):
    schema = os.path.join(os.path.dirname(os.path.abspath(__file__)), 'records.proto')
    outside = Outside(Library(path), messages(schema), int(seed))
    for _ in range(int(records)):
        outside.both_ways(outside.node())
        outside.header(outside.random.randbytes(32))
    print('protocol buffers: %d Nodes and Headers written here and read outside, and back' % int(records))


if __name__ == '__main__':
    main(*sys.argv[1:])
