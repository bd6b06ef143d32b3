"""Registers for the model scripts to work on, and how an answer is printed."""

from sleep_model import HEADER, Register, append, register_of, store_signature

LAST = 2 ** 64 - 1

# Of the script of gate_script: the files of a register and the text, where two registers lie that aren't long, and in the text a root hash and a
# signature; chunks and packets lie before them.
TREE, SIGNATURES, BITFIELD, DATA, TEXT = range(5)
FIRST, SECOND = (0, 0, 0, 0), (700000, 600000, 9000, 70000)
ROOT_AT, SIGNATURE_AT = 65664, 65728


def bytes_of(k):
    return bytes((k % 251 + 3 * i) % 256 for i in range(64))


def said(answer):
    if answer[0] == 'done':
        return 'done'
    place = '' if answer[2] is None else ' %s %d' % answer[2]
    return 'refused %d%s' % (answer[1], place)


def told(r, n, s, size):
    return Register(r.tree, r.signatures, r.bitfield, r.data, n, s, size)


def grow(r, upto, span):
    """Chunk k is the first k % span bytes of bytes_of(k), and its signature is bytes_of(k + 101)."""
    while r.n < upto:
        append(r, bytes_of(r.n)[:r.n % span])
        store_signature(r, bytes_of(r.n + 100))


def sampled(n, span):
    """What `grow` leaves of n chunks, taken from the images, with no byte behind the used ones."""
    r = register_of([bytes_of(k)[:k % span] for k in range(n)])
    r.signatures[HEADER:] = b''.join(bytes_of(k + 101) for k in range(n))
    return r
