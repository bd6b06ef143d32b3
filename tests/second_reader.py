"""A second reader, auditor and writer of registers, written from the format's description alone.
`python3 second_reader.py FORMAT.md` reads the description's examples out of it, fails if one is missing, and holds each to this program."""

import functools
import hashlib
import re
import sys

MAX_CHUNKS = 1048576
MAX_CHUNK = 65536
MAX_DATA = 68719476736
HEADER, ENTRY, SIGNATURE, BITS = 32, 40, 64, 3328
FILES = ("tree", "signatures", "bitfield", "data")
HEADERS = {
    "tree": (bytes.fromhex("05025702 00 0028 07") + b"BLAKE2b").ljust(HEADER, b"\0"),
    "signatures": (bytes.fromhex("05025701 00 0040 07") + b"Ed25519").ljust(HEADER, b"\0"),
    "bitfield": bytes.fromhex("05025700 00 0d00 00").ljust(HEADER, b"\0"),
}


# --- answers

class Refused(Exception):
    """What is wrong: its number, and the words of its place."""
    def __str__(self):
        return " ".join(["refused"] + [str(part) for part in self.args])

def refuse_unless(good, number, *place):
    if not good:
        raise Refused(number, *place)

def answer(call, *args):
    """What a call answers, in the words of the description's examples."""
    try:
        given = call(*args)
    except Refused as refused:
        return str(refused)
    if isinstance(given, bytes):
        given = (given.hex(),)
    return " ".join(["done"] + [str(part) for part in given or ()])


# --- numbers and hashes

def H(message):
    return hashlib.blake2b(message, digest_size=32).digest()

def u64(x):
    return x.to_bytes(8, "big")

def leaf_of(chunk):
    """The tree entry of a chunk, as the pair (hash, length)."""
    return H(b"\0" + u64(len(chunk)) + chunk), len(chunk)

def parent_of(left, right):
    length = left[1] + right[1]
    return H(b"\1" + u64(length) + left[0] + right[0]), length

def hash_of_roots(nodes, n):
    """The root hash from the pairs (hash, length) of all roots, from the left."""
    return H(b"\2" + b"".join(h + u64(i) + u64(length) for i, (h, length) in zip(roots(n), nodes)))


# --- the in-order tree

def depth(i):
    """The number of trailing one bits."""
    return (i ^ (i + 1)).bit_length() - 1

def index_of(d, q):
    return (1 << d) * (2 * q + 1) - 1

def behind(i):
    """The number of the first chunk behind those that an entry stands for."""
    d = depth(i)
    return ((i >> (d + 1)) + 1) << d

def filled(i, n):
    return behind(i) <= n

def children(i):
    half = 1 << (depth(i) - 1)
    return i - half, i + half

def roots(n):
    """The tree indexes of the roots, from the left."""
    found, first = [], 0
    for d in reversed(range(n.bit_length())):
        if n >> d & 1:
            found.append(index_of(d, first >> d))
            first += 1 << d
    return found

def root_above(n, k):
    return next(root for root in roots(n) if k < behind(root))

def used_sizes(n, s, size):
    return {
        "tree": HEADER + ENTRY * max(0, 2 * n - 1),
        "signatures": HEADER + SIGNATURE * s,
        "bitfield": HEADER + BITS * ((n + 8191) // 8192),
        "data": size,
    }


# --- the bitfield

def pack(bits):
    """Bits to bytes, the first bit of a byte in its highest place."""
    bits = "".join("1" if bit else "0" for bit in bits)
    return int(bits, 2).to_bytes(len(bits) // 8, "big")

def combine(left, right):
    """Two Index bytes, tuple by tuple: equal 11 or 00 stay, everything else is 10."""
    result = 0
    for shift in (6, 4, 2, 0):
        a, b = left >> shift & 3, right >> shift & 3
        result |= (a if a == b else 2) << shift
    return result

def index_part(data_bits):
    index = bytearray(256)
    for j in range(0, 256, 2):
        for t in range(4):
            two = bytes(data_bits[4 * j + 2 * t:4 * j + 2 * t + 2])
            value = {b"\xff\xff": 3, b"\0\0": 0}.get(two, 2)
            index[j] |= value << (6 - 2 * t)
    for j in sorted(range(1, 255, 2), key=depth):
        left, right = children(j)
        index[j] = combine(index[left], index[right])
    return bytes(index)

@functools.lru_cache(maxsize=16)
def bitfield_of(n, released=frozenset()):
    """The used part of the bitfield of n chunks, of which some were released, with its header."""
    out = bytearray(HEADERS["bitfield"])
    for e in range((n + 8191) // 8192):
        data_bits = pack(k < n and k not in released for k in range(8192 * e, 8192 * (e + 1)))
        out += data_bits + tree_bits_of(n, e) + index_part(data_bits)
    return bytes(out)

@functools.lru_cache(maxsize=64)
def tree_bits_of(n, e):
    return pack(filled(i, n) for i in range(16384 * e, 16384 * (e + 1)))


# --- registers

class Register:
    """Four files, by name, and n, s and the data size."""
    def __init__(self, files, n, s, size):
        self.files, self.n, self.s, self.size = dict(files), n, s, size

    def raw(self, i):
        return bytes(self.files["tree"][HEADER + ENTRY * i:HEADER + ENTRY * (i + 1)])

    def entry(self, i):
        return pair(self.raw(i))

    def length(self, i):
        return self.entry(i)[1]

    def held(self, k):
        return self.files["bitfield"][HEADER + 3328 * (k // 8192) + k % 8192 // 8] >> 7 - k % 8 & 1 == 1

    def bytes_at(self, start, length):
        return bytes(self.files["data"][start:start + length])

def pair(raw):
    return raw[:32], int.from_bytes(raw[32:], "big")

def changed(register, name, at, byte):
    file = register.files[name]
    return Register(dict(register.files, **{name: file[:at] + bytes([byte]) + file[at + 1:]}), register.n, register.s, register.size)

def told(register, n, s, size):
    return Register(register.files, n, s, size)

def root_hash(register):
    return hash_of_roots([register.entry(root) for root in roots(register.n)], register.n)


# --- the first checks, and the audit

def first_checks(register):
    n, s, size, files = register.n, register.s, register.size, register.files
    refuse_unless(n <= MAX_CHUNKS, 2)
    refuse_unless(s == 0 if n == 0 else s in (n, n - 1), 3)
    refuse_unless(all(len(files[name]) >= used for name, used in used_sizes(n, s, size).items()), 4)
    refuse_unless(all(files[name][:HEADER] == header for name, header in HEADERS.items()), 5)
    refuse_unless(sum(register.length(root) for root in roots(n)) == size, 6)

def audit(register):
    first_checks(register)
    start = 0                                       # of the next leaf
    for i in range(2 * register.n - 1):             # step 6
        if depth(i) == 0:
            refuse_unless(right_leaf(register, i, start), 10, "tree", i)
            start += register.length(i)
        elif filled(i, register.n):
            refuse_unless(right_parent(register, i), 10, "tree", i)
        else:
            refuse_unless(register.raw(i) == bytes(ENTRY), 10, "tree", i)
    bitfield = register.files["bitfield"]
    released = frozenset(k for k in range(register.n) if not register.held(k))
    for at, byte in enumerate(bitfield_of(register.n, released)):   # step 7
        refuse_unless(bitfield[at] == byte, 11, "bitfield", at)

def right_leaf(register, i, start):
    length = register.length(i)
    there = register.bytes_at(start, length)
    fits = length <= MAX_CHUNK and start + length <= register.size
    return fits and (register.entry(i) == leaf_of(there) if register.held(i // 2) else there == bytes(length))

def right_parent(register, i):
    left, right = (register.entry(child) for child in children(i))
    return register.length(i) == left[1] + right[1] and register.entry(i) == parent_of(left, right)


# --- finding and reading

def find(register, k, to_read=False):
    """Where chunk k begins, and its length."""
    first_checks(register)                          # step 1
    refuse_unless(k < register.n, 9)                # step 2
    refuse_unless(not to_read or register.held(k), 18, "tree", 2 * k)
    start, above = 0, iter(roots(register.n))       # step 3
    i = next(above)
    while k >= behind(i):
        start += register.length(i)
        i = next(above)
    while i % 2:                                    # step 4
        left, right = children(i)
        refuse_unless(register.length(i) == register.length(left) + register.length(right), 10, "tree", i)
        if 2 * k < i:
            i = left
        else:
            start += register.length(left)
            i = right
    assert i == 2 * k                               # step 5
    refuse_unless(register.length(i) <= MAX_CHUNK, 10, "tree", i)
    return start, register.length(i)                # step 6

def read(register, k):
    chunk = register.bytes_at(*find(register, k, to_read=True))
    refuse_unless(leaf_of(chunk)[0] == register.entry(2 * k)[0], 10, "tree", 2 * k)     # step 7
    return chunk

def find_byte(register, p):
    """The chunk that has the byte at p, and the offset within it; at the data size n and 0."""
    first_checks(register)                          # step 1
    refuse_unless(p <= register.size, 9)            # step 2
    if p == register.size:                          # step 3
        return register.n, 0
    rest, above = p, iter(roots(register.n))        # step 4
    i = next(above)
    while rest >= register.length(i):
        rest -= register.length(i)
        i = next(above)
    while i % 2:                                    # step 5
        left, right = children(i)
        refuse_unless(register.length(i) == register.length(left) + register.length(right), 10, "tree", i)
        if rest < register.length(left):
            i = left
        else:
            rest -= register.length(left)
            i = right
    refuse_unless(register.length(i) <= MAX_CHUNK, 10, "tree", i)   # step 6
    return i // 2, rest                             # step 7


# --- the short way

def leaf_lengths(register, numbers):
    """The number, start and length of these chunks' leaves, one after the other; step 2 of both."""
    start = 0
    for j in numbers:
        length = register.length(2 * j)
        refuse_unless(length <= MAX_CHUNK, 10, "tree", 2 * j)
        yield j, start, length
        start += length

def short_find(register, k):
    first_checks(register)
    refuse_unless(k < register.n, 9)
    *_, (_, start, length) = leaf_lengths(register, range(k + 1))
    return start, length

def short_find_byte(register, p):
    first_checks(register)
    refuse_unless(p <= register.size, 9)
    if p == register.size:
        return register.n, 0
    for j, start, length in leaf_lengths(register, range(register.n)):
        if p < start + length:
            return j, p - start
    refuse_unless(False, 10, "tree", 2 * register.n - 2)    # step 3

def short_first_not_held(register, k):
    first_checks(register)
    return next((j for j in range(k, register.n) if not register.held(j)), "none"),


# --- what is not held

def first_not_held(register, k):
    """The first chunk from k on that is not held, or none."""
    first_checks(register)                          # step 1
    while k < register.n:                           # step 2
        group = k // 16
        index = register.files["bitfield"][HEADER + BITS * (group // 512) + 3072 + 2 * (group % 512 // 4)]
        if index >> (6 - 2 * (group % 4)) & 3 != 3:     # step 3
            for one in range(k, min(16 * (group + 1), register.n)):     # step 4
                if not register.held(one):
                    return (one,)
        k = 16 * (group + 1)                        # step 5
    return ("none",)


# --- packets

def siblings_of(n, k):
    """The tree indexes of the siblings, from the leaf upward."""
    rows = [(d, k >> d) for d in range(depth(root_above(n, k)))]
    return [index_of(d, q + 1 if q % 2 == 0 else q - 1) for d, q in rows]

def others_of(n, k):
    return [root for root in roots(n) if root != root_above(n, k)]

def packet_parts(register, k):
    """The parts of the packet of chunk k, with their names in the examples."""
    chunk = read(register, k)
    siblings, others = siblings_of(register.n, k), others_of(register.n, k)
    return ([("length", len(chunk).to_bytes(4, "big")), ("chunk", chunk), ("siblings", bytes([len(siblings)]))]
            + [(f"entry {i}", register.raw(i)) for i in siblings]
            + [("roots", bytes([len(others)]))]
            + [(f"entry {i}", register.raw(i)) for i in others])

def check_packet(packet, n, k, root):
    """The chunk, if the packet proves it to be chunk k of n under this root hash."""
    refuse_unless(n <= MAX_CHUNKS, 2)               # step 1
    refuse_unless(k < n, 9)                         # step 2
    chunk, siblings, others = taken_apart(packet, len(siblings_of(n, k)), len(others_of(n, k)))    # step 3
    refuse_unless(len(chunk) + sum(length for _, length in siblings + others) <= MAX_DATA, 13)     # step 4
    node, q = leaf_of(chunk), k                     # step 5
    for sibling in siblings:                        # step 6
        node = parent_of(node, sibling) if q % 2 == 0 else parent_of(sibling, node)
        q //= 2
    nodes, rest = [], iter(others)                  # step 7
    for i in roots(n):
        nodes.append(node if i == root_above(n, k) else next(rest))
    refuse_unless(hash_of_roots(nodes, n) == root, 13)
    return chunk                                    # step 8

def taken_apart(packet, sibling_count, other_count):
    """The chunk, the siblings and the other roots, these as pairs (hash, length)."""
    length = int.from_bytes(packet[:4], "big")
    siblings_at = 4 + length + 1
    others_at = siblings_at + ENTRY * sibling_count + 1
    refuse_unless(length <= MAX_CHUNK and len(packet) == others_at + ENTRY * other_count, 12)
    refuse_unless((packet[siblings_at - 1], packet[others_at - 1]) == (sibling_count, other_count), 12)
    siblings = [pair(packet[at:at + ENTRY]) for at in range(siblings_at, others_at - 1, ENTRY)]
    others = [pair(packet[at:at + ENTRY]) for at in range(others_at, len(packet), ENTRY)]
    return packet[4:4 + length], siblings, others


# --- writing, on files that grow

def started():
    files = {name: bytearray(HEADERS.get(name, b"")) for name in FILES}
    return Register(files, 0, 0, 0)

def append(register, chunk):
    n = register.n
    refuse_unless(n < MAX_CHUNKS, 2)
    first_checks(register)
    refuse_unless(len(chunk) <= MAX_CHUNK, 7)
    refuse_unless(register.s == n, 8)
    register.files["data"] += chunk                 # step 1
    register.files["tree"] += bytes(ENTRY if n == 0 else 2 * ENTRY)     # step 2
    write_entry(register, 2 * n, leaf_of(chunk))
    written, d = [2 * n], 1
    while (n + 1) % (1 << d) == 0:                  # step 3
        i = index_of(d, (n + 1) // (1 << d) - 1)
        write_entry(register, i, parent_of(*(register.entry(child) for child in children(i))))
        written.append(i)
        d += 1
    write_bits(register, n, written)                # step 4
    register.n, register.size = n + 1, register.size + len(chunk)       # step 5
    return root_hash(register)

def write_entry(register, i, node):
    register.files["tree"][HEADER + ENTRY * i:HEADER + ENTRY * (i + 1)] = node[0] + u64(node[1])

def write_bits(register, n, written):
    bitfield = register.files["bitfield"]
    if n % 8192 == 0:
        bitfield += bytes(BITS)
    set_bit(bitfield, HEADER + BITS * (n // 8192), n % 8192)
    for i in written:
        set_bit(bitfield, HEADER + BITS * (i // 16384) + 1024, i % 16384)
    at = HEADER + BITS * (n // 8192)
    bitfield[at + 3072:at + BITS] = index_part(bitfield[at:at + 1024])

def set_bit(file, at, bit):
    file[at + bit // 8] |= 0x80 >> bit % 8

def release(register, k):
    start, length = find(register, k, to_read=True)
    bitfield, at = register.files["bitfield"], HEADER + BITS * (k // 8192)
    bitfield[at + k % 8192 // 8] ^= 0x80 >> k % 8
    bitfield[at + 3072:at + BITS] = index_part(bitfield[at:at + 1024])
    register.files["data"][start:start + length] = bytes(length)

def store_signature(register, signature):
    first_checks(register)
    refuse_unless(register.s != register.n, 8)
    register.files["signatures"] += signature
    register.s += 1


# --- the description's hash

def section(text, title):
    """The text under a heading, to the next one that is as high or higher."""
    marks = title.split(" ")[0]
    rest = text.split(f"\n{title}\n", 1)[1]
    return re.split(rf"\n#{{1,{len(marks)}}} ", rest)[0]

def described_hash(text, message, length=32, key=b""):
    """The hash by the description's own sections on BLAKE2b and on keys, with the constants that stand in them."""
    part = section(text, "## BLAKE2b")
    iv = [int(word, 16) for word in part.split("(hex): ")[1].split(".")[0].split()]
    table = [[int(x) for x in row[1].split()] for row in rows_of(part, "Line")]
    mask = 2 ** 64 - 1
    state = [iv[0] ^ 0x01010000 + length + 256 * len(key)] + iv[1:]
    blocks = ([key.ljust(128, b"\0")] if key else []) + [message[at:at + 128] for at in range(0, len(message), 128)] or [b""]
    for number, block in enumerate(blocks):
        words = [int.from_bytes(block.ljust(128, b"\0")[8 * x:8 * x + 8], "little") for x in range(16)]
        work = state + iv
        work[12] ^= 128 * number + len(block)
        work[14] ^= mask if number == len(blocks) - 1 else 0
        for turn in range(12):
            mix_round(work, words, table[turn % 10], mask)
        state = [word ^ work[x] ^ work[x + 8] for x, word in enumerate(state)]
    return b"".join(word.to_bytes(8, "little") for word in state)[:length]

def mix_round(work, block, row, mask):
    places = [(0, 4, 8, 12), (1, 5, 9, 13), (2, 6, 10, 14), (3, 7, 11, 15), (0, 5, 10, 15), (1, 6, 11, 12), (2, 7, 8, 13), (3, 4, 9, 14)]
    for x, (a, b, c, d) in enumerate(places):
        for word, (first, second) in ((block[row[2 * x]], (32, 24)), (block[row[2 * x + 1]], (16, 63))):
            work[a] = work[a] + work[b] + word & mask
            work[d] = turned(work[d] ^ work[a], first, mask)
            work[c] = work[c] + work[d] & mask
            work[b] = turned(work[b] ^ work[c], second, mask)

def turned(word, by, mask):
    return (word >> by | word << 64 - by) & mask


# --- the description's examples: each function says what differs, or None

def rows_of(text, first):
    """The cells of each line of the table whose heading begins with this word."""
    lines = text.split("\n")
    at = next(number for number, line in enumerate(lines) if line.startswith(f"| {first} |"))
    found = []
    for line in lines[at + 2:]:
        if not line.startswith("|"):
            return found
        found.append([cell.strip() for cell in line.strip("|").split("|")])
    return found

def example_lines(text, title):
    """The lines of the block under a heading of the worked examples, each as a list of words."""
    return [line.split() for line in section(text, title).split("```")[1].strip("\n").split("\n")]

def tables_differ(text):
    sizes = rows_of(text, "n")
    if [row[0] for row in sizes] != ["0", "1", "10", "8192", "8193"]:
        return "the used sizes: other rows"
    for n, *row in sizes:
        if [int(cell) for cell in row] != list(used_sizes(int(n), int(n), 0).values())[:3]:
            return f"the used sizes of {n} chunks"
    of_roots = rows_of(section(text, "## Tree"), "n")
    if [row[0] for row in of_roots] != ["0", "1", "2", "3", "6", "7", "8", "10", "13"]:
        return "the roots: other rows"
    for n, row in of_roots:
        if row != (", ".join(str(i) for i in roots(int(n))) or "none"):
            return f"the roots of {n} chunks"
    of_index = rows_of(section(text, "## Bitfield"), "n")
    if [row[0] for row in of_index] != ["10", "16", "64", "128"]:
        return "the Index: other rows"
    for n, row in of_index:
        if bytes.fromhex(row) != bitfield_of(int(n))[3104:3108]:
            return f"the Index of {n} chunks"
    numbers = [row[0] for row in rows_of(section(text, "## The numbers"), "Number")]
    return None if numbers == [str(number) for number in range(1, 23)] else "the numbers of what can be wrong"

def drawing_differs(text):
    """The tree of ten chunks: each entry stands at its depth, from left to right in the order of the file, above both children; holes in brackets."""
    lines = section(text, "## Tree").split("\n")
    at = {}
    for line in lines:
        row = re.match(r"    depth (\d)", line)
        for mark in re.finditer(r"\(?\d+\)?", line[row.end():]) if row else ():
            i = int(mark.group().strip("()"))
            at[i] = row.end() + mark.start() + mark.group().startswith("(")
            if int(row.group(1)) != depth(i) or mark.group().startswith("(") != (not filled(i, 10)):
                return f"the drawing at tree index {i}"
    if sorted(at, key=at.get) != list(range(19)):
        return "the drawing's order"
    for number, line in enumerate(lines):
        for mark in re.finditer(r"\.-+\+-+\.", line):
            i = next((i for i, place in at.items() if place == mark.start() + mark.group().index("+")), None)
            if i is None or (at[children(i)[0]], at[children(i)[1]]) != (mark.start(), mark.end() - 1):
                return f"the drawing's lines at {i}"
    joined = sum(len(re.findall(r"\.-+\+-+\.", line)) for line in lines)
    chunks = next(line for line in lines if line.startswith("    chunk "))
    below = {mark.start(): int(mark.group()) for mark in re.finditer(r"\d+", chunks)}
    if below != {at[2 * k]: k for k in range(10)} or joined != sum(i % 2 and filled(i, 10) for i in range(19)):
        return "the drawing's chunks or lines"
    return None

def hashes_differ(text):
    lines = example_lines(text, "### Hashes")
    wanted = [("abc", 32), ("abc", 64), ("abc", 20), ("0", 32), ("128", 32), ("129", 32), ("256", 32)]
    if [(name, int(length)) for _, name, length, _ in lines] != wanted:
        return "the hashes: other lines"
    for _, name, length, digits in lines:
        message = b"abc" if name == "abc" else bytes(range(int(name)))
        if described_hash(text, message, int(length)) != bytes.fromhex(digits):
            return f"the hash of {name}, {length} bytes of output"
    for count in (0, 1, 3, 127, 128, 129, 145, 256, 257, 1000):
        for length in (1, 32, 63, 64):
            message = bytes(x % 251 for x in range(count))
            for key in (b"", b"k", bytes(range(64))):
                if described_hash(text, message, length, key) != hashlib.blake2b(message, digest_size=length, key=key).digest():
                    return f"the hash of {count} bytes, {length} bytes of output, {len(key)} bytes of key, beside Python's"
    return None

def chunks_described(n):
    """The chunks of the register of n chunks, as the table above the registers says."""
    if n == 7:
        lengths = (119, 120, 0, 247, 248, 120, 119)
        return [bytes(p % 251 for p in range(sum(lengths[:k]), sum(lengths[:k + 1]))) for k in range(7)]
    few = {1: [b"coat"], 2: [b"hello world"] * 2, 3: [b"AB", b"", b"CDE"]}
    return few[n] if n in few else [bytes([97 + k]) * k for k in range(n)]

@functools.lru_cache(maxsize=None)
def written(n):
    """That register, written by this program."""
    register = started()
    for k, chunk in enumerate(chunks_described(n)):
        append(register, chunk)
        if (n, k) != (7, 6):
            store_signature(register, bytes([k + 1]) * SIGNATURE)
    return register

def registers_in(text):
    """The registers, each with its root hash and its lines (file, offset, number of bytes)."""
    found = []
    for word, *rest in example_lines(text, "### Registers"):
        if word == "register":
            numbers = [int(number) for number in rest]
            found.append([Register({name: bytes(used) for name, used in used_sizes(*numbers).items()}, *numbers), None, []])
        elif word == "root":
            found[-1][1] = bytes.fromhex(rest[0])
        else:
            register, _, lines = found[-1]
            at, content = int(rest[0]), bytes.fromhex(rest[1])
            file = register.files[word]
            if at + len(content) > len(file):
                raise ValueError(f"a line runs past the used size: {word} {at}")
            register.files[word] = file[:at] + content + file[at + len(content):]
            lines.append((word, at, len(content)))
    return found

def registers_differ(text):
    registers = registers_in(text)
    if [(register.n, register.s) for register, _, _ in registers] != [(0, 0), (1, 1), (2, 2), (3, 3), (7, 6), (10, 10)]:
        return "the registers: others"
    for register, root, lines in registers:
        wrong = register_differs(register, root) or unseen_damage(register, root, lines)
        if wrong:
            return f"the register of {register.n} chunks: {wrong}"
    return None

def register_differs(register, root):
    n, described = register.n, chunks_described(register.n)
    if answer(audit, register) != "done":
        return "audit: " + answer(audit, register)
    if root_hash(register) != root:
        return "root hash"
    if register.size != len(b"".join(described)) or [read(register, k) for k in range(n)] != described:
        return "chunks"
    for p in range(register.size):
        k, rest = find_byte(register, p)
        if find(register, k)[0] + rest != p or rest >= len(described[k]):
            return f"the chunk of byte {p}"
    if find_byte(register, register.size) != (n, 0) or answer(find_byte, register, register.size + 1) != "refused 9":
        return "the end of the data"
    for name in FILES:
        if register.files[name] != bytes(written(n).files[name]):
            return f"{name}: not what the writer leaves"
    return None

def damaged(file, at):
    return file[:at] + bytes([file[at] ^ 1]) + file[at + 1:]

def unseen_damage(register, root, lines):
    """Damages one byte of each line. An audit doesn't look at the bytes of a signature: there it
    must stay good, and only the comparison with the description sees the damage."""
    for count, (name, at, length) in enumerate(lines):
        place = at + 7 * count % length
        spoilt = changed(register, name, place, register.files[name][place] ^ 1)
        if (answer(audit, spoilt) == "done") != (name == "signatures" and at > 0):
            return f"damage in the line {name} {at}: the audit doesn't answer as it should"
        if register_differs(spoilt, root) is None:
            return f"damage in the line {name} {at} isn't seen"
    n, s, size = register.n, register.s, register.size
    for numbers in ((n + 1, s, size), (n, s + 2, size), (n, s, size + 1)):
        if answer(audit, told(register, *numbers)) == "done":
            return f"{numbers} isn't seen to be wrong"
    return "damage in the root hash isn't seen" if register_differs(register, damaged(root, 0)) is None else None

def outside_differs(text):
    """The hash from outside is that of a parent of two leaves `hello world`, and stands in the register of two chunks."""
    outside = re.search(r"Hypercore[^`]*`([0-9a-f]{64})`", text)
    if outside is None:
        return "no hash from outside"
    leaf = leaf_of(b"hello world")
    register = next(register for register, _, _ in registers_in(text) if register.n == 2)
    here = {parent_of(leaf, leaf)[0].hex(), register.entry(1)[0].hex(), register.files["tree"][72:104].hex()}
    return None if here == {outside.group(1)} else "the hash from outside"

def packets_differ(text):
    """Each packet is the one of its register, and its check gives the chunk, for this n, k and root hash and for no damaged byte."""
    packets, checks = [], []
    for word, *rest in example_lines(text, "### Packets of two registers"):
        if word == "packet":
            packets.append([int(rest[0]), int(rest[1]), None, []])
        elif word == "root":
            packets[-1][2] = bytes.fromhex(rest[0])
        elif word == "check":
            checks.append((int(rest[0]), int(rest[1]), " ".join(rest[2:])))
        else:
            packets[-1][3].append((" ".join([word] + rest[:-1]), bytes.fromhex(rest[-1])))
    if [packet[:2] for packet in packets] != [[3, 0], [13, 9]]:
        return "the packets: others"
    for n, k, root, parts in packets:
        packet = b"".join(part for _, part in parts)
        if parts != packet_parts(written(n), k) or root != root_hash(written(n)):
            return f"the packet of chunk {k} of {n}"
        if check_packet(packet, n, k, root) != chunks_described(n)[k]:
            return f"the check of the packet of chunk {k} of {n}"
        if any(answer(check_packet, damaged(packet, at), n, k, root).startswith("done") for at in range(len(packet))):
            return f"the packet of chunk {k} of {n}: damage isn't seen"
        if {answer(check_packet, other, n, k, root) for other in (packet[:-1], packet + b"\0", b"")} != {"refused 12"}:
            return f"the packet of chunk {k} of {n}: missing bytes aren't seen"
    if [check[:2] for check in checks] != [(13, 9), (13, 8), (14, 9), (13, 12), (12, 9), (13, 13), (1048577, 9)]:
        return "the checks of the packet: others"
    for n, k, said in checks:
        given = answer(check_packet, packet, n, k, root)
        if said != ("done" if given.startswith("done") else given):
            return f"the check of the packet for {n} and {k}"
    return None

def all_packets_differ():
    """The packets of every chunk of the registers with up to 13 chunks of the rule for ten."""
    for n in range(4, 14):
        register = written(n)
        for k in range(n):
            packet = b"".join(part for _, part in packet_parts(register, k))
            if check_packet(packet, n, k, root_hash(register)) != chunks_described(n)[k]:
                return f"the packet of chunk {k} of {n}"
    return None

ASKED = [["3"], ["3", "tree", "112", "50"], ["3", "tree", "231", "04"], ["3", "signatures", "31", "01"], ["7", "signatures", "415", "00"],
         ["10", "tree", "191", "07"], ["10", "tree", "791", "0a"], ["10", "tree", "632", "01"], ["10", "bitfield", "33", "e0"]]
QUESTIONS = {"audit": 9, "told": 5, "place": 6, "byte": 8, "read": 4}

def answers_differ(text):
    registers = {register.n: register for register, _, _ in registers_in(text)}
    asked, counts = [], dict.fromkeys(QUESTIONS, 0)
    for word, *rest in example_lines(text, "### Answers"):
        if word == "asked":
            asked.append(rest)
            register = registers[int(rest[0])]
            if rest[1:]:
                register = changed(register, rest[1], int(rest[2]), int(rest[3], 16))
            continue
        counts[word] += 1
        inputs = [int(number) for number in rest[:{"audit": 0, "told": 3}.get(word, 1)]]
        if word == "told":
            given = answer(audit, told(register, *inputs))
        else:
            given = answer({"audit": audit, "place": find, "byte": find_byte, "read": read}[word], register, *inputs)
        if given.split() != rest[len(inputs):]:
            return f"asked {' '.join(asked[-1])}: {word} {' '.join(rest)}, and here {given}"
    if asked != ASKED or counts != QUESTIONS:
        return "the answers: others"
    return None

def released_differ(text):
    """The example of a cleared data bit, in the register of three chunks."""
    register, root = next((register, root) for register, root, _ in registers_in(text) if register.n == 3)
    kept = changed(register, "bitfield", 32, 0x60)
    gone = changed(changed(kept, "data", 0, 0), "data", 1, 0)
    given = [answer(audit, gone), answer(root_hash, gone), answer(find, gone, 2), answer(read, gone, 0), answer(audit, kept)]
    expected = ["done", answer(root_hash, register), answer(find, register, 2), "refused 18 tree 0", "refused 10 tree 0"]
    return given != expected and f"a cleared data bit: {given}"

def short_way_differs(text):
    """Both ways agree on each register of the page, with all chunks and with some released; and the example where they don't."""
    for register, _, _ in registers_in(text):
        for gone in (None, *range(min(register.n, 4))):
            r = register if gone is None else released(register, gone)
            if answer(audit, r) != "done":
                return f"chunk {gone} of {r.n}, released"
            for k in range(max(r.n, r.size) + 2):
                both = [[answer(find, r, k), answer(find_byte, r, k), answer(first_not_held, r, k)],
                        [answer(short_find, r, k), answer(short_find_byte, r, k), answer(short_first_not_held, r, k)]]
                if both[0] != both[1]:
                    return f"the short way at {k} of {r.n}: {both}"
    register = changed(next(register for register, _, _ in registers_in(text) if register.n == 3), "tree", 151, 1)
    given = [answer(call, register, number) for call, number in (
        (find, 0), (find, 2), (find_byte, 4), (find_byte, 5), (short_find, 0), (short_find, 2), (short_find_byte, 4), (short_find_byte, 5))]
    expected = ["refused 10 tree 1", "done 2 3", "done 2 2", "done 3 0", "done 0 2", "done 3 3", "done 2 1", "done 3 0"]
    return (answer(audit, register), given) != ("refused 10 tree 1", expected) and f"the short way: {given}"

def copied(register):
    """The same register in files that can be written."""
    return Register({name: bytearray(file) for name, file in register.files.items()}, register.n, register.s, register.size)

def released(register, k):
    """The register without chunk k."""
    register = copied(register)
    release(register, k)
    return register

def releases_differ():
    """All chunks of the registers that this program wrote, released one after the other: what the page says stays the same does."""
    for n in (1, 2, 3, 7, 10, 13, 40):
        whole, gone = written(n), []
        register = copied(whole)
        for k in (6, 0, 2, 5, 1, 3, 4) if n == 7 else [(7 * step + 3) % n for step in range(n)]:
            if answer(release, register, k) != "done" or answer(audit, register) != "done":
                return f"the release of chunk {k} of {n}"
            gone.append(k)
            if register.files["tree"] != whole.files["tree"] or answer(release, register, k) != f"refused 18 tree {2 * k}":
                return f"the register behind the release of chunk {k} of {n}"
            for one in range(n + 1):
                said = f"refused 18 tree {2 * one}" if one in gone else answer(read, whole, one)
                if answer(read, register, one) != said or answer(find, register, one) != answer(find, whole, one):
                    return f"chunk {one} behind the release of chunk {k} of {n}"
                if answer(first_not_held, register, one) != f"done {min((k for k in gone if k >= one), default='none')}":
                    return f"the chunk not held from {one} on, behind the release of chunk {k} of {n}"
        for p in range(register.size):
            if answer(audit, changed(register, "data", p, 1)) != f"refused 10 tree {2 * find_byte(register, p)[0]}":
                return f"byte {p} of the released chunks of {n} isn't seen"
    return None

def main(path):
    with open(path, encoding="utf-8") as file:
        text = file.read()
    return (tables_differ(text) or drawing_differs(text) or hashes_differ(text) or registers_differ(text) or outside_differs(text)
            or packets_differ(text) or all_packets_differ() or answers_differ(text) or released_differ(text)
            or short_way_differs(text) or releases_differ())

if __name__ == "__main__":
    wrong = main(sys.argv[1])
    print(wrong or "tables, drawing, 7 hashes, 6 registers, the hash from outside, 2 packets, 28 answers, a cleared data bit and the short way agree")
    sys.exit(1 if wrong else 0)
