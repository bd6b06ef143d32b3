"""What a job will need, after request N7: the chunks are gone through as single appends would take them, and what each
of those would hash is counted. Prints the text that the program `gate_needs` is to print."""

from rfc7693 import starts
from samples import said
from sleep_model import (HASH, LONGEST_CHUNK, MOST_CHUNKS, MOST_LISTED, call, filled, leaf_message, parent, parent_message, refuse_if,
                         root_message, roots, used_sizes)

NODE = bytes(HASH), 0  # stands for any: a message is as long whatever its nodes hold


@call
def needs(n, size, lengths):
    """The sizes of tree, signatures, bitfield and data afterwards, each signature counted; then the compression runs for
    the new leaves, for the completed parents and for the root hash at the end, and their sum."""
    refuse_if(n + len(lengths) > MOST_CHUNKS, 2)
    refuse_if(len(lengths) > MOST_LISTED, 16)
    refuse_if(any(length > LONGEST_CHUNK for length in lengths), 7)
    refuse_if(size > LONGEST_CHUNK * n, 9)
    leaves = parents = 0
    for length in lengths:
        leaves += runs(leaf_message(bytes(length)))
        parents += sum(runs(parent_message(NODE, NODE)) for index in completed(n))
        n, size = n + 1, size + length
    root = runs(root_message([(index, NODE) for index in roots(n)]))
    return *used_sizes(n, n, size), leaves, parents, root, leaves + parents + root


def runs(message):
    """One for each block of the message."""
    return len(starts(len(message)))


def completed(n):
    """The parents whose last leaf is that of chunk n, from the leaf upward."""
    found, index = [], parent(2 * n)
    while filled(n + 1, index):
        found.append(index)
        index = parent(index)
    return found


# ---- the program's lines

COUNTS = (0, 1, 2, 3, 7, 8, 9, 1023, 1024, 1025, 8191, 8192, 8193, 16383, 16384, 65535, 65536, 524287, 524288)
LISTED = (0, 1, 40, 256)
LAST = 2 ** 64 - 1
NAMES = 'tree', 'signatures', 'bitfield', 'data', 'leaves', 'parents', 'root', 'runs'


def listed(n, k):
    return [(j * 577 + n) % 65537 for j in range(k)]


JOBS = [(n, 1000 * n, listed(n, k)) for k in LISTED for n in COUNTS]
JOBS += [(1048576, 68719476736, [])]
JOBS += [(5, 100, [length]) for length in (0, 119, 120, 65536)]

# 2, 16, 7 and 9, each alone.
REFUSED = [(1048577, 0, []), (1048576, 0, [1]), (10, 0, [1] * 257), (10, 0, [65537]), (10, 0, [LAST]), (10, 655361, [1]), (0, 1, [])]

# 2 and 16, 2 and 7, 2 and 9, 16 and 7, 16 and 9, 7 and 9.
TWICE_REFUSED = [(1048570, 0, [1] * 257), (1048576, 0, [65537]), (1048577, LAST, []), (10, 0, [65537] * 257), (10, 655361, [1] * 257),
                 (10, 655361, [1, 65537])]


def line(n, size, lengths):
    answer = needs(n, size, lengths)
    told = said(answer) if answer[0] == 'refused' else ' '.join('%s %d' % pair for pair in zip(NAMES, answer[1:]))
    return 'needs n=%d size=%d k=%d: %s' % (n, size, len(lengths), told)


if __name__ == '__main__':
    for job in JOBS + REFUSED + TWICE_REFUSED:
        print(line(*job))
