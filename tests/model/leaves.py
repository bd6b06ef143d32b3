"""The lines of the program gate_script's script about the stored entries of leaves: of a register, with chunks released and bytes changed, and of copies. The
assertions are the paper's: a leaf's hash is that of 00, the length and the chunk."""

import copy

from copies import copied, stands, turn
from released import register
from samples import BITFIELD, DATA, LAST, SIGNATURES, TREE, bytes_of, sampled
from sleep_model import ENTRY, HEADER, be, node_hash

MOST = 1048576


def cases(script):
    script.run('# stored leaf entries')
    of_register(script)
    numbers(script)
    of_copies(script)


def leaf(k):
    """Of chunk k of the samples."""
    chunk = bytes_of(k)[:k % 5]
    return '%d:%s' % (len(chunk), node_hash(b'\0' + be(8, len(chunk)) + chunk).hex())


def none(answer):
    return '%s:%s' % (answer, 'ee' * 32)


def each(script):
    for k in range(15):
        assert script.run('entry %d' % k) == (leaf(k) if k < 13 else none('refused 9'))


def of_register(script):
    """Thirteen chunks, then some of them released, then all; a changed byte of a leaf's entry is told, one elsewhere is not."""
    register(script, 13, 5)
    each(script)
    for chunk in (0, 6, 9, 12):
        script.run('release %d' % chunk)
    each(script)
    with script.turned((SIGNATURES, 40, 1), (BITFIELD, 32, 64), (BITFIELD, 1056, 128), (DATA, 3, 1), (TREE, HEADER + ENTRY, 1)):
        each(script)
    for part in (0, 31, 32, 39):
        with script.turned((TREE, HEADER + ENTRY * 18 + part, 1)):
            for k in (8, 9, 10):
                assert (script.run('entry %d' % k) == leaf(k)) == (k != 9)
    for at in (31, HEADER + ENTRY * 7 + 39):
        with script.turned((TREE, at, 1)):
            script.run('entry 2')
    script.run('entry %d' % LAST)


def numbers(script):
    for told in ((MOST + 1, 13, 23), (LAST, LAST, 23), (MOST, MOST, 23), (13, 12, 23), (13, 11, 23), (13, 13, 22), (12, 12, 21), (8, 8, 13), (0, 0, 0)):
        script.told(*told)
        for k in (0, 7, 8, 12, 13):
            script.run('entry %d' % k)


def of_copies(script):
    """A copy of which nothing is known, one that took in three chunks, and all known but one entry in turn."""
    whole = sampled(13, 5)
    for chunks in ((), (9,), (9, 2, 12)):
        stands(script, copied(whole, *chunks))
        for k in range(14):
            script.run('Entry %d' % k)
    everything = copied(whole, *range(13))
    for index in (0, 1, 4, 7, 18, 19, 24):
        c = copy.deepcopy(everything)
        turn(c, index, known=False)
        stands(script, c)
        for k in (0, 2, 9, 12, 13):
            script.run('Entry %d' % k)
