"""Partial copies, after request N10: making one, taking in packets, and their audit.

A copy is lent as tree, bitfield and data, with n and the data size; an entry whose tree bit is 1 is known.  Every other
call that a copy takes is the register's own: `check_register` has no 3 for it, and `need` refuses with 20 what it doesn't know.
"""

import functools

from sleep_model import (BITFIELD_ENTRY, BITFIELD_HEADER, CHUNKS_PER_ENTRY, DATA_BYTES, HEADER, HOLE, MOST_CHUNKS, NODES_PER_ENTRY, TREE_BYTES,
                         TREE_HEADER, Refused, Register, bit_at, bitfield_entries, bits_where, call, check_lent, children, descent_to, entry_bytes,
                         filled, held, index_bytes, leaf_right, node_hash, opened, packet_indexes, parent_right, put_filled, put_index, refuse_if,
                         roots, set_bit, tree_bits, tree_entries, used_sizes)

class Copy(Register):
    """It has no signatures file and no s."""
    def __init__(self, tree, bitfield, data, n, size):
        super().__init__(tree, None, bitfield, data, n, None, size)

    def signed_right(self):
        return True

    def images(self):
        return self.tree, self.bitfield, self.data

    def lent(self):
        return zip(self.images(), copy_sizes(self.n, self.size), (TREE_HEADER, BITFIELD_HEADER, b''))

    def known(self, index):
        at, alone = bit_at(index, NODES_PER_ENTRY, DATA_BYTES)
        return self.bitfield[at] & alone != 0

    def need(self, index):
        refuse_if(not self.known(index), 20, ('tree', index))

def copy_sizes(n, size):
    """The used sizes of tree, bitfield and data."""
    tree, _, bitfield, data = used_sizes(n, 0, size)
    return tree, bitfield, data

def lent_as_copy(r):
    """A register's tree, bitfield and data; what is written into the copy is written into the register."""
    return Copy(r.tree, r.bitfield, r.data, r.n, r.size)

# ---- Making one ----
@call
def make_copy(c):
    """Headers, zero entries, zero bits and zero data; bytes behind the used sizes stay."""
    refuse_if(c.n > MOST_CHUNKS, 2)
    refuse_if(any(len(image) < used for image, used, _ in c.lent()), 14)
    for image, used, header in c.lent():
        image[:used] = header.ljust(used, b'\0')
    return ()

# ---- Taking in a packet ----
def check_known_size(c):
    """6, which is passed over while a root is unknown."""
    if all(map(c.known, roots(c.n))):
        refuse_if(sum(c.node(root)[1] for root in roots(c.n)) != c.size, 6)

@call
def take_in(c, packet, chunk, root, F=node_hash):
    """Checks the packet against the root hash, and writes every entry that it gives or leads to, with its tree bit, and the chunk."""
    check_lent(c)
    check_known_size(c)
    found, nodes = opened(packet, c.n, chunk, root, F)
    siblings, others = packet_indexes(c.n, chunk)
    refuse_if(len(found) + sum(nodes[index][1] for index in siblings + others) != c.size, 6)
    start_of_chunk = sum(nodes[index][1] for index in siblings + others if index < 2 * chunk)
    contradicted = contradictions(c, chunk, start_of_chunk, found, nodes)
    refuse_if(contradicted, 19, ('tree', min(contradicted, default=None)))
    for index, node in nodes.items():
        put_filled(c, index, node)
    c.data[start_of_chunk:start_of_chunk + len(found)] = found
    set_bit(c, chunk, CHUNKS_PER_ENTRY, 0)
    put_index(c, chunk)
    return ()

def contradictions(c, chunk, start_of_chunk, found, nodes):
    """The known entries that are others, and the leaf where the chunk is held with other bytes."""
    places = {index for index, node in nodes.items() if c.known(index) and c.entry(index) != entry_bytes(node)}
    other_bytes = held(c, chunk) and c.part(start_of_chunk, len(found)) != found
    return places | ({2 * chunk} if other_bytes else set())

# ---- The audit ----
@call
def audit_copy(c, F=node_hash):
    check_lent(c)
    check_known_size(c)
    wrong = set().union(*(wrong_entries(c, index, F) for index in range(tree_entries(c.n))))
    refuse_if(wrong, 10, ('tree', min(wrong, default=None)))
    judge_copy_bits(c)
    return ()

def wrong_entries(c, index, F):
    """The entries that are wrong by what the audit sees when it judges this one: itself, or the one where the descent to it stops."""
    if not filled(c.n, index):
        right = c.entry(index) == HOLE
    elif not c.known(index):
        right = c.entry(index) == HOLE and not (index % 2 == 0 and held(c, index // 2))
    elif index % 2 == 0:
        return wrong_by_leaf(c, index // 2, F)
    else:
        right = not all(map(c.known, children(index))) or parent_right(c, index, F)
    return set() if right else {index}

def wrong_by_leaf(c, chunk, F):
    """A known leaf, by its data where the descent finds them: a stop is wrong itself, and a leaf whose descent meets an
    unknown entry before."""
    try:
        start_of_leaf, _ = descent_to(c, chunk)
    except Refused as refusal:
        number, (_, index) = refusal.args
        return {index} if number == 10 else {2 * chunk}
    return set() if leaf_right(c, chunk, start_of_leaf, F) else {2 * chunk}

@functools.lru_cache(maxsize=64)
def chunk_bits(n, e):
    """Those of a bitfield entry: 1 for each chunk below n."""
    return bits_where(8 * DATA_BYTES, lambda k: CHUNKS_PER_ENTRY * e + k < n)

def judge_copy_bits(c):
    for e in range(bitfield_entries(c.n)):
        judge_copy_entry(c, e)

def judge_copy_entry(c, e):
    """Data bits below n and tree bits of entries that are no holes may be either; all other bits are 0, and the Index follows."""
    at = HEADER + BITFIELD_ENTRY * e
    allowed = chunk_bits(c.n, e) + tree_bits(c.n, e)
    bits = bytes(stored & may for stored, may in zip(c.bitfield[at:], allowed))
    for offset, byte in enumerate(bits + index_bytes(bits[:DATA_BYTES]), at):
        refuse_if(c.bitfield[offset] != byte, 11, ('bitfield', offset))
