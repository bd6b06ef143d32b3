"""A reference model of the SLEEP register calls, to hold beside the scope sentence by sentence.

A register is four bytearrays (tree, signatures, bitfield, data) and three numbers (n chunks, s signatures, data size).
A call answers a tuple: ('done', ..) with what it gives, or ('refused', number, place), where the place is None,
('tree', index) or ('bitfield', byte offset).  A refused call changes no byte.  The zeros or the empty part that an
interface puts beside a refusal are no part of the model.

F, from bytes to 32 bytes, is the hash of every leaf, parent and root message.  It is BLAKE2b with 32 bytes of output
unless a caller puts another function in.  Numbers are whole numbers: no sum wraps.
"""

import copy
import functools
import hashlib
from dataclasses import dataclass

MOST_CHUNKS, LONGEST_CHUNK = 1_048_576, 65_536
LONGEST_OUTPUT, LONGEST_KEY = 64, 64
MOST_BYTES = 68_719_476_736  # MOST_CHUNKS chunks, each the longest
MOST_LISTED = 256  # chunks in a list

HEADER, ENTRY, SIGNATURE, HASH = 32, 40, 64, 32
BITFIELD_ENTRY, DATA_BYTES, TREE_BYTES, INDEX_BYTES = 3328, 1024, 2048, 256
CHUNKS_PER_ENTRY, NODES_PER_ENTRY = 8192, 16384
CHUNKS_PER_TUPLE, TUPLES_PER_BYTE = 16, 4
HOLE = bytes(ENTRY)

# ---- Refusals ----
class Refused(Exception):
    """args are the number and the place."""

def refused(number, place=None):
    return ('refused', number, place)

def refuse_if(holds, number, place=None):
    if holds:
        raise Refused(number, place)

def call(function):
    """A public call: ('done', ..) with what the function gives, or the first refusal that it meets."""
    def answer(*args, **named):
        try:
            return ('done',) + function(*args, **named)
        except Refused as refusal:
            return refused(*refusal.args)
    return answer

# ---- Hash and headers ----
def keyed_hash(length, message, key):
    """BLAKE2b of RFC 7693 under a key; the empty key is the hash without a key."""
    return hashlib.blake2b(message, digest_size=length, key=key).digest()

def node_hash(message):
    """BLAKE2b with output length 32, which is a parameter of the hash, and the empty key."""
    return keyed_hash(HASH, message, b'')

@call
def blake2b(length, message, key=b''):
    """`length` bytes of hash, then zeros up to 64."""
    refuse_if(not 1 <= length <= LONGEST_OUTPUT, 1)
    refuse_if(len(key) > LONGEST_KEY, 17)
    return (keyed_hash(length, message, key).ljust(LONGEST_OUTPUT, b'\0'),)

@call
def label(root, key):
    """The shelf label that a maker's key gives for a root hash of 32 bytes."""
    refuse_if(len(key) > LONGEST_KEY, 17)
    return (keyed_hash(HASH, root, key),)

def header(magic, entry_size, name):
    """4 bytes magic, 1 version (0), 2 entry size, 1 name length, name, zeros to the end."""
    return (be(4, magic) + b'\0' + be(2, entry_size) + be(1, len(name)) + name).ljust(HEADER, b'\0')

def be(width, number):
    return number.to_bytes(width, 'big')

def number_in(data):
    return int.from_bytes(data, 'big')

BITFIELD_HEADER = header(0x05025700, BITFIELD_ENTRY, b'')
SIGNATURES_HEADER = header(0x05025701, SIGNATURE, b'Ed25519')
TREE_HEADER = header(0x05025702, ENTRY, b'BLAKE2b')

# ---- The in-order tree ----
def depth(index):
    """The number of trailing one bits."""
    return 0 if index % 2 == 0 else 1 + depth(index // 2)

def index_of(d, block):
    """The node of depth d over chunks block * 2^d to (block + 1) * 2^d - 1."""
    return (2 * block + 1) * 2 ** d - 1

def block_of(index):
    return index // 2 ** (depth(index) + 1)

def chunks_below(index):
    d, block = depth(index), block_of(index)
    return range(block * 2 ** d, (block + 1) * 2 ** d)

def parent(index):
    return index_of(depth(index) + 1, block_of(index) // 2)

def children(index):
    half = 2 ** (depth(index) - 1)
    return index - half, index + half

def roots(n):
    """One root for each one bit of n, largest first from the left."""
    sizes = [d for d in reversed(range(n.bit_length())) if n >> d & 1]
    return [index_of(d, (n >> d) - 1) for d in sizes]

def root_above(n, chunk):
    return next(root for root in roots(n) if chunk in chunks_below(root))

def tree_entries(n):
    return 2 * n - 1 if n > 0 else 0

def filled(n, index):
    """A parent whose last leaf isn't there yet is a hole; every other entry is filled."""
    return chunks_below(index).stop <= n

# ---- Messages and entries ----
def leaf_message(chunk):
    return b'\0' + be(8, len(chunk)) + chunk

def parent_message(left, right):
    """`left` and `right` are (hash, length)."""
    return b'\1' + be(8, left[1] + right[1]) + left[0] + right[0]

def root_message(items):
    """`items` are (tree index, (hash, length)) from the left."""
    return b'\2' + b''.join(node[0] + be(8, index) + be(8, node[1]) for index, node in items)

def leaf_node(chunk, F):
    return F(leaf_message(chunk)), len(chunk)

def parent_node(left, right, F):
    return F(parent_message(left, right)), left[1] + right[1]

def entry_bytes(node):
    return node[0] + be(8, node[1])

def entry_node(entry):
    return bytes(entry[:HASH]), number_in(entry[HASH:])

# ---- Bitfield ----
def bit(k):
    """The first bit of a byte is its highest."""
    return 0x80 >> k % 8

def bits_where(count, holds):
    """`count` bits as bytes: bit k is 1 where holds(k)."""
    out = bytearray(count // 8)
    for k in filter(holds, range(count)):
        out[k // 8] |= bit(k)
    return bytes(out)

def pair_tuple(pair):
    """2 data bytes: 11 if all ones, 00 if all zeros, else 10."""
    return {b'\xff\xff': 0b11, b'\0\0': 0b00}.get(bytes(pair), 0b10)

def combine(left, right):
    """Tuple by tuple at the same position: equal 11 or equal 00 is kept, all else is 10."""
    pairs = [(left >> shift & 3, right >> shift & 3) for shift in (6, 4, 2, 0)]
    a, b, c, d = ({(0b11, 0b11): 0b11, (0b00, 0b00): 0b00}.get(pair, 0b10) for pair in pairs)
    return a << 6 | b << 4 | c << 2 | d

@functools.lru_cache(maxsize=256)
def index_bytes(data_bits):
    """The 256 Index bytes of 1024 data bytes; byte 255 is 0."""
    index = bytearray(INDEX_BYTES)
    for k in range(0, DATA_BYTES, 8):
        for j in range(k, k + 8, 2):
            index[k // 4] = index[k // 4] << 2 | pair_tuple(data_bits[j:j + 2])
    for d in range(1, 8):
        for block in range(128 >> d):
            left, right = children(index_of(d, block))
            index[index_of(d, block)] = combine(index[left], index[right])
    return bytes(index)

def bitfield_entries(n):
    return -(-n // CHUNKS_PER_ENTRY)

@functools.cache
def tree_bits(n, e):
    """Those of an entry: 1 for each tree entry that is no hole."""
    return bits_where(8 * TREE_BYTES, lambda k: filled(n, NODES_PER_ENTRY * e + k))

@functools.lru_cache(maxsize=64)
def bitfield_image(n, released=frozenset()):
    """A data bit is 1 for each chunk below n that is not among the released ones."""
    image = bytearray(BITFIELD_HEADER)
    for e in range(bitfield_entries(n)):
        first = CHUNKS_PER_ENTRY * e
        data_bits = bits_where(8 * DATA_BYTES, lambda k: first + k < n and first + k not in released)
        image += data_bits + tree_bits(n, e) + index_bytes(data_bits)
    return bytes(image)

# ---- Registers ----
@dataclass
class Register:
    tree: bytearray
    signatures: bytearray
    bitfield: bytearray
    data: bytearray
    n: int = 0
    s: int = 0
    size: int = 0

    def entry(self, index):
        at = HEADER + ENTRY * index
        return bytes(self.tree[at:at + ENTRY])

    def node(self, index):
        return entry_node(self.entry(index))

    def put(self, index, entry):
        at = HEADER + ENTRY * index
        self.tree[at:at + ENTRY] = entry

    def part(self, start, length):
        return bytes(self.data[start:start + length])

    def root_message(self, m=None):
        """Of the stored roots of the first m chunks, or of all."""
        return root_message([(index, self.node(index)) for index in roots(self.n if m is None else m)])

    def signed_right(self):
        return self.s == 0 if self.n == 0 else self.s in (self.n, self.n - 1)

    def lent(self):
        """Each image with its used size and its header."""
        return zip(images_of(self), used_sizes(self.n, self.s, self.size), (TREE_HEADER, SIGNATURES_HEADER, BITFIELD_HEADER, b''))

    def need(self, index):
        """Called where a call comes to an entry that it reads; a partial copy may not know it."""

def is_released(piece):
    """A piece is a chunk that is held, its bytes, or one that is released: then its leaf's (hash, length) is handed in."""
    return isinstance(piece, tuple)

def tree_image(pieces, F=node_hash):
    """The tree file that this document gives for a sequence of pieces."""
    n, nodes = len(pieces), {}
    for index in sorted(range(tree_entries(n)), key=depth):
        if filled(n, index):
            if index % 2 == 0:
                piece = pieces[index // 2]
                nodes[index] = piece if is_released(piece) else leaf_node(piece, F)
            else:
                nodes[index] = parent_node(*map(nodes.get, children(index)), F)
    entries = [entry_bytes(nodes[i]) if i in nodes else HOLE for i in range(tree_entries(n))]
    return TREE_HEADER + b''.join(entries)

def register_of(pieces, F=node_hash):
    """A register that belongs to the pieces, with as many signatures, all zero; the data of a released one are zeros."""
    data, n = b''.join(bytes(piece[1]) if is_released(piece) else piece for piece in pieces), len(pieces)
    released = frozenset(k for k, piece in enumerate(pieces) if is_released(piece))
    images = (tree_image(pieces, F), SIGNATURES_HEADER + bytes(SIGNATURE * n), bitfield_image(n, released), data)
    return Register(*map(bytearray, images), n, n, len(data))

# ---- What every call on a register checks ----
def used_sizes(n, s, size):
    """Of tree, signatures, bitfield and data."""
    return (HEADER + ENTRY * tree_entries(n), HEADER + SIGNATURE * s,
            HEADER + BITFIELD_ENTRY * bitfield_entries(n), size)

def images_of(r):
    return r.tree, r.signatures, r.bitfield, r.data

def check_lent(r, most=MOST_CHUNKS):
    """Refusals 2 to 5, of what is told and lent; a partial copy has no 3."""
    refuse_if(r.n > most, 2)
    refuse_if(not r.signed_right(), 3)
    refuse_if(any(len(image) < used for image, used, _ in r.lent()), 4)
    refuse_if(any(image[:len(right)] != right for image, _, right in r.lent()), 5)

def check_register(r, most=MOST_CHUNKS):
    """Refusals 2 to 6, with which every call on a register begins; on a partial copy, 20 for an unknown root just before 6."""
    check_lent(r, most)
    need_all(r, roots(r.n))
    refuse_if(sum(r.node(root)[1] for root in roots(r.n)) != r.size, 6)

def need_all(r, indexes):
    for index in indexes:
        r.need(index)

# ---- The calls that write ----
@call
def start(r):
    """Writes the three headers; every other byte keeps its content."""
    refuse_if(any(len(image) < HEADER for image in (r.tree, r.signatures, r.bitfield)), 14)
    r.tree[:HEADER], r.signatures[:HEADER], r.bitfield[:HEADER] = TREE_HEADER, SIGNATURES_HEADER, BITFIELD_HEADER
    r.n = r.s = r.size = 0
    return ()

@call
def append(r, chunk, F=node_hash):
    """Adds one chunk and gives the new root hash.  n and the data size, which the caller tells next, are raised too."""
    check_register(r, MOST_CHUNKS - 1)
    refuse_if(len(chunk) > LONGEST_CHUNK, 7)
    refuse_if(r.s == r.n - 1, 8)
    tree, _, bitfield, data = used_sizes(r.n + 1, r.s, r.size + len(chunk))
    refuse_if(len(r.tree) < tree or len(r.bitfield) < bitfield or len(r.data) < data, 14)
    r.data[r.size:data] = chunk
    at = HEADER + BITFIELD_ENTRY * (r.n // CHUNKS_PER_ENTRY)
    if r.n % CHUNKS_PER_ENTRY == 0:
        r.bitfield[at:at + BITFIELD_ENTRY] = bytes(BITFIELD_ENTRY)
    if r.n > 0:
        r.put(2 * r.n - 1, HOLE)  # a parent takes its place below where the new chunk completes it
    index = 2 * r.n
    put_filled(r, index, leaf_node(chunk, F))
    while filled(r.n + 1, parent(index)):
        index = parent(index)
        put_filled(r, index, parent_node(*map(r.node, children(index)), F))
    set_bit(r, r.n, CHUNKS_PER_ENTRY, 0)
    put_index(r, r.n)
    r.n, r.size = r.n + 1, data
    return (F(r.root_message()),)

def preview(r, chunk, F=node_hash):
    """What an append would answer on a copy of the lent buffers, length for length; nothing is written."""
    return append(copy.deepcopy(r), chunk, F)

@call
def append_list(r, lengths, lent, F=node_hash):
    """Adds chunks of these lengths, which the lent bytes hold one behind the other, and gives the new root hash.  All is as
    single appends would leave it, with 64 zero bytes stored as the signature of each chunk but the last."""
    count = len(lengths)
    check_register(r, MOST_CHUNKS - max(count, 1))
    refuse_if(not 1 <= count <= MOST_LISTED or sum(lengths) != len(lent), 16)
    refuse_if(any(length > LONGEST_CHUNK for length in lengths), 7)
    refuse_if(r.s == r.n - 1, 8)
    room = used_sizes(r.n + count, r.n + count - 1, r.size + len(lent))
    refuse_if(any(len(image) < used for image, used in zip(images_of(r), room)), 14)
    for k, chunk in enumerate(cut(lent, lengths)):
        answers = [store_signature(r, bytes(SIGNATURE))] if k > 0 else []
        answers.append(append(r, chunk, F))
        assert all(answer[0] == 'done' for answer in answers)  # the checks above are those of every step
    return answers[-1][1:]

def put_filled(r, index, node):
    r.put(index, entry_bytes(node))
    set_bit(r, index, NODES_PER_ENTRY, DATA_BYTES)

def bit_at(number, per_entry, section):
    """The bit of a chunk number or a tree index, in its bitfield entry and from the start of its section on: the byte's
    offset and the byte with that bit alone."""
    e, k = divmod(number, per_entry)
    return HEADER + BITFIELD_ENTRY * e + section + k // 8, bit(k)

def set_bit(r, number, per_entry, section):
    at, alone = bit_at(number, per_entry, section)
    r.bitfield[at] |= alone

def put_index(r, chunk):
    """Regenerates the Index of the chunk's bitfield entry from the data bits as they are."""
    at = HEADER + BITFIELD_ENTRY * (chunk // CHUNKS_PER_ENTRY)
    r.bitfield[at + DATA_BYTES + TREE_BYTES:at + BITFIELD_ENTRY] = index_bytes(bytes(r.bitfield[at:at + DATA_BYTES]))

@call
def store_signature(r, signature):
    """Stores the 64 bytes unread; s, which the caller tells next, is raised too."""
    check_register(r)
    refuse_if(r.s == r.n, 8)
    at = HEADER + SIGNATURE * r.s
    refuse_if(len(r.signatures) < at + SIGNATURE, 14)
    r.signatures[at:at + SIGNATURE] = signature
    r.s += 1
    return ()

# ---- Audit and root hash ----
@call
def audit(r, F=node_hash):
    check_register(r)
    judge_entries(r, F)
    judge_bits(r)
    return ()

def judge_entries(r, F):
    start_of_leaf = 0
    for index in range(tree_entries(r.n)):
        refuse_if(not entry_right(r, index, start_of_leaf, F), 10, ('tree', index))
        start_of_leaf += r.node(index)[1] if index % 2 == 0 else 0

def judge_bits(r):
    """Data bits below n may be either; all other bytes follow from n and from them."""
    released = frozenset(chunk for chunk in range(r.n) if not held(r, chunk))
    for at, byte in enumerate(bitfield_image(r.n, released)):
        refuse_if(r.bitfield[at] != byte, 11, ('bitfield', at))

def entry_right(r, index, start_of_leaf, F):
    """By the leaf's place in the data, from the parent's stored children, or as a hole."""
    if not filled(r.n, index):
        return r.entry(index) == HOLE
    return leaf_right(r, index // 2, start_of_leaf, F) if index % 2 == 0 else parent_right(r, index, F)

def parent_right(r, index, F):
    node, left, right = map(r.node, (index, *children(index)))
    return node[1] == left[1] + right[1] and node == parent_node(left, right, F)

def leaf_right(r, chunk, start_of_leaf, F):
    """A chunk that is held has this hash; of a released one all bytes are zero, and the hash may be any."""
    node = r.node(2 * chunk)
    if node[1] > LONGEST_CHUNK or start_of_leaf + node[1] > r.size:
        return False
    found = r.part(start_of_leaf, node[1])
    return node == leaf_node(found, F) if held(r, chunk) else not any(found)

# ---- What is held ----
def held(r, chunk):
    """What the stored data bit says, whether an audit would take it or not."""
    at, alone = bit_at(chunk, CHUNKS_PER_ENTRY, 0)
    return r.bitfield[at] & alone != 0

@call
def release(r, chunk):
    """Clears the data bit of a chunk that is held, regenerates the Index and writes zeros over its bytes; the tree stays."""
    start_of_chunk, length = place_of(r, chunk, to_be_held=True)
    at, alone = bit_at(chunk, CHUNKS_PER_ENTRY, 0)
    r.bitfield[at] ^= alone
    put_index(r, chunk)
    r.data[start_of_chunk:start_of_chunk + length] = bytes(length)
    return ()

@call
def first_not_held(r, number):
    """The first chunk from the given number on, below n, that isn't held, or None.  A group of 16 chunks whose stored tuple
    is 11 is passed over, and of the other groups the data bits are read."""
    check_register(r)
    for group in range(number // CHUNKS_PER_TUPLE, -(-r.n // CHUNKS_PER_TUPLE)):
        if stored_tuple(r, group) != 0b11:
            first = CHUNKS_PER_TUPLE * group
            for chunk in range(max(number, first), min(first + CHUNKS_PER_TUPLE, r.n)):
                if not held(r, chunk):
                    return (chunk,)
    return (None,)

def stored_tuple(r, group):
    """Of a group of 16 chunks: four to each even Index byte, the first one highest."""
    e, k = divmod(group, CHUNKS_PER_ENTRY // CHUNKS_PER_TUPLE)
    at = HEADER + BITFIELD_ENTRY * e + DATA_BYTES + TREE_BYTES + 2 * (k // TUPLES_PER_BYTE)
    return r.bitfield[at] >> 6 - 2 * (k % TUPLES_PER_BYTE) & 0b11

@call
def root_hash(r, F=node_hash):
    check_register(r)
    return (F(r.root_message()),)

@call
def old_root(r, m, F=node_hash):
    """The root hash of the first m chunks from the stored entries, whether an audit would take them or not."""
    check_register(r)
    refuse_if(m > r.n, 9)
    need_all(r, roots(m))
    return (F(r.root_message(m)),)

@call
def stored_leaf(r, chunk):
    """Hash and length of the stored entry of a chunk's leaf, held or released, whether an audit would take them or not."""
    check_register(r)
    refuse_if(chunk >= r.n, 9)
    need_all(r, [2 * chunk])
    return r.node(2 * chunk)

# ---- Lookups ----
def place_of(r, chunk, to_be_held=False):
    """Start and length of a chunk."""
    check_register(r)
    refuse_if(chunk >= r.n, 9)
    refuse_if(to_be_held and not held(r, chunk), 18, ('tree', 2 * chunk))
    return descent_to(r, chunk)

def descent_to(r, chunk):
    """By the lengths of the roots to its left, and then from the root above it down."""
    root = root_above(r.n, chunk)
    need_all(r, [other for other in roots(r.n) if other <= root])
    start_of_root = sum(r.node(other)[1] for other in roots(r.n) if other < root)
    return descend(r, root, start_of_root, lambda right, start_of_right: chunk >= chunks_below(right).start)[1:]

place_lookup = call(place_of)

@call
def byte_lookup(r, offset):
    """The chunk whose bytes contain the offset, and the offset less the chunk's start; never an empty chunk.  At the
    data size it is n and 0, without a walk, also in an empty register."""
    check_register(r)
    refuse_if(offset > r.size, 9)
    if offset == r.size:
        return r.n, 0
    start_of_root = 0
    for root in roots(r.n):
        if offset < start_of_root + r.node(root)[1]:
            break
        start_of_root += r.node(root)[1]
    found, start_of_leaf, _ = descend(r, root, start_of_root, lambda right, start_of_right: offset >= start_of_right)
    return found, offset - start_of_leaf

def descend(r, index, start_of_node, goes_right):
    """From a visited node down to a leaf through stored lengths: chunk number, start and length."""
    length = r.node(index)[1]
    if index % 2 == 0:
        refuse_if(length > LONGEST_CHUNK, 10, ('tree', index))
        return index // 2, start_of_node, length
    left, right = children(index)
    need_all(r, (left, right))
    refuse_if(length != r.node(left)[1] + r.node(right)[1], 10, ('tree', index))
    start_of_right = start_of_node + r.node(left)[1]
    if goes_right(right, start_of_right):
        return descend(r, right, start_of_right, goes_right)
    return descend(r, left, start_of_node, goes_right)

# ---- The short way ----
def leaf_length(r, chunk):
    """Of a leaf that a short lookup comes to."""
    r.need(2 * chunk)
    length = r.node(2 * chunk)[1]
    refuse_if(length > LONGEST_CHUNK, 10, ('tree', 2 * chunk))
    return length

@call
def short_place(r, chunk):
    """Start and length of a chunk, by adding up leaf lengths from chunk 0."""
    check_register(r)
    refuse_if(chunk >= r.n, 9)
    lengths = [leaf_length(r, k) for k in range(chunk + 1)]
    return sum(lengths[:-1]), lengths[-1]

@call
def short_byte(r, offset):
    """The chunk whose bytes contain the offset, and the offset less its start, by the leaf lengths in order; n and 0 at the
    data size, where no leaf is read."""
    check_register(r)
    refuse_if(offset > r.size, 9)
    if offset == r.size:
        return r.n, 0
    start_of_leaf = 0
    for chunk in range(r.n):
        length = leaf_length(r, chunk)
        if offset < start_of_leaf + length:
            return chunk, offset - start_of_leaf
        start_of_leaf += length
    raise Refused(10, ('tree', 2 * r.n - 2))  # no leaf's bytes contain it

@call
def short_search(r, number):
    """The first chunk from the given number on, below n, that isn't held, or None, by the data bits in order."""
    check_register(r)
    return (next((chunk for chunk in range(number, r.n) if not held(r, chunk)), None),)

# ---- Reads ----
@call
def read(metadata, content, name, chunk, F=node_hash):
    """The bytes of a chunk of the register named 'metadata' or 'content'; the other register is not checked."""
    return (chunk_bytes({'metadata': metadata, 'content': content}[name], chunk, F),)

def chunk_bytes(r, chunk, F):
    found = r.part(*place_of(r, chunk, to_be_held=True))
    refuse_if(F(leaf_message(found)) != r.node(2 * chunk)[0], 10, ('tree', 2 * chunk))
    return found

# ---- Packets ----
@call
def make_packet(r, chunk, buffer, F=node_hash):
    """Writes the packet at the front of the buffer and gives its length."""
    found = chunk_bytes(r, chunk, F)
    packet = be(4, len(found)) + found
    for section in packet_indexes(r.n, chunk):
        packet += be(1, len(section)) + b''.join(map(r.entry, section))
    refuse_if(len(buffer) < len(packet), 14)
    buffer[:len(packet)] = packet
    return (len(packet),)

def packet_indexes(n, chunk):
    """The siblings from the leaf upward, and the roots that aren't above the chunk, from the left."""
    siblings, index, root = [], 2 * chunk, root_above(n, chunk)
    while index != root:
        left, right = children(parent(index))
        siblings.append(right if index == left else left)
        index = parent(index)
    return siblings, [other for other in roots(n) if other != root]

@call
def check_packet(packet, n, chunk, root, F=node_hash):
    """The chunk's part of the packet, where the packet shows the chunk to stand under the root hash."""
    return (opened(packet, n, chunk, root, F)[0],)

def opened(packet, n, chunk, root, F):
    """Of an accepted packet: the chunk, and the nodes at all tree indexes that the packet gives or leads to."""
    refuse_if(n > MOST_CHUNKS, 2)
    refuse_if(chunk >= n, 9)
    siblings, others = packet_indexes(n, chunk)
    length = number_in(packet[:4])
    sizes = [4, length, 1, ENTRY * len(siblings), 1, ENTRY * len(others)]
    refuse_if(length > LONGEST_CHUNK or len(packet) != sum(sizes), 12)
    _, found, sibling_count, sibling_part, other_count, other_part = cut(packet, sizes)
    refuse_if((sibling_count[0], other_count[0]) != (len(siblings), len(others)), 12)
    entries = cut(sibling_part + other_part, [ENTRY] * len(siblings + others))
    nodes = dict(zip(siblings + others, map(entry_node, entries)))
    refuse_if(length + sum(node[1] for node in nodes.values()) > MOST_BYTES, 13)
    index = 2 * chunk
    nodes[index] = leaf_node(found, F)
    for _ in siblings:
        index = parent(index)
        nodes[index] = parent_node(*map(nodes.get, children(index)), F)
    refuse_if(F(root_message([(top, nodes[top]) for top in roots(n)])) != root, 13)
    return found, nodes

def cut(data, sizes):
    """Consecutive parts of these sizes."""
    parts, at = [], 0
    for size in sizes:
        parts.append(bytes(data[at:at + size]))
        at += size
    return parts

# ---- The comparing walk ----
@call
def audit_whole(r, F):
    """The audit of a register that is to be compared, which has to hold all its chunks."""
    check_register(r)
    for chunk in range(r.n):
        refuse_if(not held(r, chunk), 18, ('tree', 2 * chunk))
    judge_entries(r, F)
    judge_bits(r)
    return ()

def compare(first, second, F=node_hash):
    """('equal',), ('roots differ',), ('collision', 'at the roots'), ('collision', ('tree', index)), or a refusal with
    'first' or 'second' after its place."""
    for r, which in ((first, 'first'), (second, 'second')):
        answer = audit_whole(r, F)
        if answer[0] == 'refused':
            return answer + (which,)
    if F(first.root_message()) != F(second.root_message()):
        return ('roots differ',)
    if first.root_message() != second.root_message():
        return ('collision', 'at the roots')
    for index, (one, other) in enumerate(zip(messages(first), messages(second))):  # equal root messages have equal n
        if one != other and F(one) == F(other):
            return ('collision', ('tree', index))
    return ('equal',)

def messages(r):
    """The messages of an accepted register in the order of its tree indexes, None at a hole."""
    start_of_leaf = 0
    for index in range(tree_entries(r.n)):
        if index % 2 == 0:
            chunk = r.part(start_of_leaf, r.node(index)[1])
            start_of_leaf += len(chunk)
            yield leaf_message(chunk)
        else:
            yield parent_message(*map(r.node, children(index))) if filled(r.n, index) else None

# ---- The walk along two packets ----
def compare_packets(first, second, n, chunk, root, F=node_hash):
    """('same chunk',), ('collision', ('tree', index)), ('collision', 'at the roots'), or a refusal with 'first' or
    'second' after its place."""
    answers = []
    for packet, which in ((first, 'first'), (second, 'second')):
        answers.append(call(opened)(packet, n, chunk, root, F))
        if answers[-1][0] == 'refused':
            return answers[-1] + (which,)
    (_, one, nodes), (_, other, other_nodes) = answers
    if one == other:
        return ('same chunk',)
    for (place, ours), (_, theirs) in zip(messages_up(n, chunk, one, nodes), messages_up(n, chunk, other, other_nodes)):
        if ours != theirs and F(ours) == F(theirs):
            return ('collision', place)
    raise AssertionError('different chunks, and no collision')  # unequal all the way up, and yet one root hash

def messages_up(n, chunk, found, nodes):
    """The messages along an accepted packet with their places, from the leaf upward to the roots."""
    index = 2 * chunk
    yield ('tree', index), leaf_message(found)
    while index not in roots(n):
        index = parent(index)
        yield ('tree', index), parent_message(*map(nodes.get, children(index)))
    yield 'at the roots', root_message([(top, nodes[top]) for top in roots(n)])

# ---- The listing ----
def listing(data):
    """Bytes of standard input to bytes of standard output."""
    chunks = listing_chunks(data)
    if chunks is None:
        return b'refused input\n'
    r = register_of(chunks)
    lines = [' '.join(['chunks %d bytes %d roots' % (r.n, r.size)] + [str(root) for root in roots(r.n)])]
    for index in range(tree_entries(r.n)):
        kind = 'leaf' if index % 2 == 0 else 'parent' if filled(r.n, index) else 'hole'
        start_of_node = sum(map(len, chunks[:chunks_below(index).start])) if kind != 'hole' else 0
        lines.append('%d %s %d %d' % (index, kind, start_of_node, r.node(index)[1]))
    return ('\n'.join(lines) + '\n').encode()

def listing_chunks(data):
    """The chunks of a 4-byte count (at most 64) and for each a 4-byte length and its bytes (at most 4,096 together)."""
    count, at, chunks = number_in(data[:4]), 4, []
    if len(data) < 4 or count > 64:
        return None
    for _ in range(count):
        length = number_in(data[at:at + 4])
        if len(data) < at + 4 + length:
            return None
        chunks.append(data[at + 4:at + 4 + length])
        at += 4 + length
    return chunks if at == len(data) and sum(map(len, chunks)) <= 4096 else None

# ---- Self-check ----
def check(what, answer, expected):
    if answer != expected:
        raise SystemExit('%s: %r, expected %r' % (what, answer, expected))
    return 1

def table():
    """The cases of the scope that are marked [T]: what is asked, the model's answer, the scope's."""
    for n, expected in ((0, []), (1, [0]), (2, [1]), (3, [1, 4]), (6, [3, 9]), (7, [3, 9, 12]), (8, [7])):
        yield 'roots of %d' % n, roots(n), expected
    yield 'parents of 2 and 5, children of 3', (parent(2), parent(5), children(3)), (1, 3, (1, 5))
    yield 'filled by the fourth chunk', [i for i in range(7) if filled(4, i) and not filled(3, i)], [3, 5, 6]
    for n, expected in ((10, '80800080'), (16, 'c080'), (64, 'ffaa'), (128, 'ffffffaa')):
        index = bitfield_image(n)[HEADER + DATA_BYTES + TREE_BYTES:]
        yield 'Index of %d' % n, index[:len(expected) // 2].hex(), expected
    for n, expected in ((0, 32), (8192, 3360), (8193, 6688)):
        yield 'bitfield size of %d' % n, (used_sizes(n, n, 0)[2], len(bitfield_image(n))), (expected, expected)
    r = register_of([b'AB', b'', b'CDE'])
    for offset, expected in ((1, ('done', 0, 1)), (2, ('done', 2, 0)), (5, ('done', 3, 0)), (6, refused(9))):
        yield 'byte lookup of %d' % offset, byte_lookup(r, offset), expected
    yield 'end of no chunks', byte_lookup(register_of([]), 0), ('done', 0, 0)
    yield 'end behind empty chunks', byte_lookup(register_of([b'A', b'', b'']), 1), ('done', 3, 0)
    listed = b'chunks 3 bytes 5 roots 1 4\n0 leaf 0 2\n1 parent 0 2\n2 leaf 2 0\n3 hole 0 0\n4 leaf 2 3\n'
    yield 'listing', listing(be(4, 3) + be(4, 2) + b'AB' + be(4, 0) + be(4, 3) + b'CDE'), listed

if __name__ == '__main__':
    cases = sum(check(*case) for case in table())
    print('model: %d cases marked [T] agree' % cases)
