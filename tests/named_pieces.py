"""Reads the records that docs/FORMAT.md dumps, as its section on records says and from nothing else.

usage: python3 tests/named_pieces.py docs/FORMAT.md
"""

import re
import sys


def dumps(text):
    """The dumped records: indented lines of hexadecimal pairs, with words behind them."""
    section, found = re.search(r'^## Records$(.*?)(?=^## |\Z)', text, re.M | re.S).group(1), [b'']
    for line in section.split('\n'):
        pairs = re.match(r'    ((?: *[0-9a-f]{2}\b)+)', line)
        if pairs:
            found[-1] += bytes.fromhex(pairs.group(1))
        elif found[-1]:
            found.append(b'')
    return [data for data in found if data]


def varint(data):
    """A number and what follows it: seven bits to a byte, the lowest first; no last byte is 0 but that of the number 0."""
    number = 0
    for k, byte in enumerate(data):
        number += byte % 128 * 128 ** k
        if byte < 128:
            assert k == 0 or byte > 0
            return number, data[k + 1:]
    raise AssertionError('a number without an end')


def fields(data, repeated=None):
    """The fields by their numbers, which rise; parts as bytes."""
    found, last = [], 0
    while data:
        tag, data = varint(data)
        number, part = divmod(tag, 8)
        value, data = varint(data)
        if part == 2:
            assert value <= len(data)
            value, data = data[:value], data[value:]
        else:
            assert part == 0
        assert number > last or number == last == repeated
        found.append((number, value))
        last = number
    return found


def main(path):
    header, node = dumps(open(path).read())
    assert len(header) == 46 and fields(header) == [(1, b'hyperdrive'), (2, bytes(range(32)))]
    (_, name), (_, stat), (_, trie), (_, writer), (_, sequence) = read = fields(node, repeated=4)
    assert [number for number, _ in read] == [1, 2, 3, 4, 5]
    assert (len(node), name, trie, sequence) == (76, b'/coat/sleeve', b'', 128)
    assert fields(stat) == [(1, 33188), (4, 300), (8, 1500000000), (9, 0)]
    assert fields(writer) == [(1, b'\7' * 32), (2, b'rw')]
    print('the format: both records are read as it says')


main(*sys.argv[1:])
