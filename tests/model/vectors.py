"""Prints the text that the program `gate_vectors` is to print, one vector or more a line. The values are hashlib's, and the model's own hash,
written from RFC 7693, has to give the same; the refusals are the model's."""

import hashlib

import rfc7693
import sleep_model
from samples import said

LENGTHS = (0, 1, 127, 128, 129, 255, 256, 257)
OUTPUTS = (1, 20, 32, 63, 64)
PARTS = ((0, 0), (1, 0), (9, 0), (9, 119), (9, 120), (9, 1000), (65, 63), (200, 300))

KEYED_KEYS = (0, 1, 63, 64)
KEYED_LENGTHS = (0, 1, 127, 128, 129, 255, 256)
KEYED_OUTPUTS = (1, 20, 32, 48, 64)
LABEL_KEYS = (0, 1, 32, 64, 65)

# What the standard prints in its Appendix E.
WHOLE_SELF_TEST = 'c23a7800d98123bd10f506c61e29da5603d763b8bbad2e737f5e765a7bccd475'


def same(what, value, expected):
    if value != expected:
        raise SystemExit('%s: %s, expected %s' % (what, value, expected))
    return value


def blake2b(length, message, key=b''):
    value = hashlib.blake2b(message, digest_size=length, key=key).digest()
    same('the model\'s own hash', rfc7693.blake2b(length, message, key).hex(), value.hex())
    same('the model\'s call', sleep_model.blake2b(length, message, key), ('done', value.ljust(64, b'\0')))
    return value


def message(length):
    return bytes((i * 7 + length) % 256 for i in range(length))


def keyed_message(length):
    return bytes((j * 13 + 5) % 256 for j in range(length))


def key(length):
    return bytes((j * 7 + 1) % 256 for j in range(length))


def self_test_bytes(length, seed):
    """RFC 7693, Appendix E: each byte is the highest of the next number of the sequence."""
    a, b = 0xDEAD4BAD * seed % 2 ** 32, 1
    out = bytearray()
    for _ in range(length):
        a, b = b, (a + b) % 2 ** 32
        out.append(b >> 24)
    return bytes(out)


def self_test(keyed):
    """Appendix E: all results, in order, into one hash of 32 bytes. Each message is hashed without a key and then, where
    `keyed` says so, with one of as many bytes as the output has."""
    results = b''
    for output in (20, 32, 48, 64):
        for length in (0, 3, 128, 129, 255, 1024):
            data = self_test_bytes(length, length)
            results += blake2b(output, data)
            if keyed:
                results += blake2b(output, data, self_test_bytes(output, output))
    return blake2b(32, results)


def label(length):
    """Of one root hash, under a key of this length."""
    root = bytes((j * 3 + 2) % 256 for j in range(32))
    answer = sleep_model.label(root, key(length))
    if answer[0] == 'refused':
        return said(answer)
    return same('label', answer[1].hex(), blake2b(32, root, key(length)).hex())


def refused(output, key_length):
    return said(sleep_model.blake2b(output, b'', key(key_length)))


def keyed_lines():
    yield 'selftest whole ' + same('self-test', self_test(True).hex(), WHOLE_SELF_TEST)
    for k in KEYED_KEYS:
        for m in KEYED_LENGTHS:
            digests = [blake2b(output, keyed_message(m), key(k)).hex() for output in KEYED_OUTPUTS]
            yield 'key %d message %d: %s' % (k, m, ' '.join(digests))
    yield 'key 65 message 0: ' + refused(32, 65)
    for output, k in ((0, 65), (65, 65), (65, 64)):
        yield 'output %d key %d: %s' % (output, k, refused(output, k))
    for k in LABEL_KEYS:
        yield 'label key %d: %s' % (k, label(k))


def lines():
    yield 'abc 64 ' + blake2b(64, b'abc').hex()
    yield 'selftest ' + self_test(False).hex()
    for length in LENGTHS:
        for output in OUTPUTS:
            yield '%d %d %s' % (length, output, blake2b(output, message(length)).hex())
    for prefix, body in PARTS:
        yield 'parts %d %d %s' % (prefix, body, blake2b(32, message(prefix + body)).hex())
    for output in (0, 65):
        yield 'refused %d %d' % (output, sleep_model.blake2b(output, b'')[1])
    yield from keyed_lines()


if __name__ == '__main__':
    print('\n'.join(lines()))
