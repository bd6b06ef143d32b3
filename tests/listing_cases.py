"""The listing program on standard input: what it prints is compared with the model's listing.

usage: python3 tests/listing_cases.py [PROGRAM [CASES [SEED]]]

PROGRAM is target/bin/listing_program unless it is named. The named cases come first: the scope's example with its lines, the limits on both sides,
input that is cut short, and surplus bytes. Then CASES random inputs, half of them one change away from an input of chunks. The exit status is 1
where anything differs.
"""

import os
import random
import subprocess
import sys

HERE = os.path.dirname(os.path.abspath(__file__))
sys.path.insert(0, os.path.join(HERE, 'model'))
import sleep_model as model

MOST_CHUNKS, MOST_BYTES = 64, 4096
EXAMPLE = [b'AB', b'', b'CDE']
EXAMPLE_LINES = b'chunks 3 bytes 5 roots 1 4\n0 leaf 0 2\n1 parent 0 2\n2 leaf 2 0\n3 hole 0 0\n4 leaf 2 3\n'
REFUSED = b'refused input\n'


def written(chunks):
    """The input of a chunk sequence."""
    return model.be(4, len(chunks)) + b''.join(model.be(4, len(chunk)) + chunk for chunk in chunks)


def named():
    """What is listed, the input, and whether it is refused."""
    yield 'the example', written(EXAMPLE), False
    yield '0 chunks', written([]), False
    for count in range(1, 66):
        yield '%d chunks' % count, written([bytes([count]) * (count % 7)] * count), count > MOST_CHUNKS
        yield '%d empty chunks' % count, written([b''] * count), count > MOST_CHUNKS
    for size in (1, 4095, 4096, 4097, 65_536):
        yield 'a chunk of %d bytes' % size, written([b'x' * size]), size > MOST_BYTES
        yield 'chunks of %d bytes together' % size, written([b'x' * (size // 64)] * 63 + [b'x' * (size - 63 * (size // 64))]), size > MOST_BYTES
        yield '%d bytes and an empty chunk' % size, written([b'x' * size, b'']), size > MOST_BYTES
    yield '64 chunks of 64 bytes and a surplus byte', written([b'x' * 64] * 64) + b'x', True
    yield '0 chunks and a surplus byte', written([]) + b'\0', True
    yield 'the example and a surplus byte', written(EXAMPLE) + b'\0', True
    yield 'the example and surplus bytes past every buffer', written(EXAMPLE) + b'x' * 100_000, True
    for length in range(len(written(EXAMPLE))):
        yield 'the first %d bytes of the example' % length, written(EXAMPLE)[:length], True
    for count in (65, 256, 2 ** 16, 2 ** 24, 2 ** 31, 2 ** 32 - 1):
        yield 'a count of %d alone' % count, model.be(4, count), True
        yield 'a length of %d alone' % count, model.be(4, 1) + model.be(4, count), True


def any_input(chance):
    """Chunks, and in half of the cases one change of their input."""
    most = chance.choice((0, 1, 5, 64, 130))
    chunks = [chance.randbytes(chance.randint(0, most)) for _ in range(chance.randint(0, 66))]
    data = bytearray(written(chunks))
    change = chance.randrange(8)
    if change == 1:
        del data[chance.randint(0, len(data)):]
    elif change == 2:
        data += chance.randbytes(chance.randint(1, 5))
    elif change == 3:
        data[chance.randrange(len(data))] ^= 1 << chance.randrange(8)
    elif change == 4:
        data[3] = chance.randrange(256)
    return bytes(data)


def differs(program, what, data, expected):
    answer = subprocess.run([program], input=data, capture_output=True, timeout=60)
    if (answer.returncode, answer.stdout, answer.stderr) == (0, expected, b''):
        return 0
    print('%s: status %d, printed %r, expected %r' % (what, answer.returncode, answer.stdout[:200], expected[:200]))
    return 1


def main(program=os.path.join(HERE, '..', 'target', 'bin', 'listing_program'), cases='400', seed='7693'):
    wrong = differs(program, "the scope's lines", written(EXAMPLE), EXAMPLE_LINES)
    count = 1
    for what, data, refused in named():
        expected = model.listing(data)
        if (expected == REFUSED) != refused:
            print('%s: the model answers %r' % (what, expected[:200]))
            wrong += 1
        wrong += differs(program, what, data, expected)
        count += 1
    chance = random.Random(int(seed))
    refusals = 0
    for case in range(int(cases)):
        data = any_input(chance)
        expected = model.listing(data)
        refusals += expected == REFUSED
        wrong += differs(program, 'random input %d' % case, data, expected)
    print('listing: %d named cases, %s random ones (%d refused) with seed %s, %d differ' % (count, cases, refusals, seed, wrong))
    return 1 if wrong else 0


if __name__ == '__main__':
    sys.exit(main(*sys.argv[1:]))
