"""The second reader, carried on: lists, needs, comparisons, labels, paths, partial copies and the journal, from the format's description alone.
`python3 second_answers.py FORMAT.md` reads the lines of "More answers" and of the journal out of it, fails if a kind of line is missing, and answers each."""

import re
import sys

import second_reader as reader
from second_reader import (BITS, ENTRY, FILES, HEADER, HEADERS, MAX_CHUNK, MAX_CHUNKS, MAX_DATA, Refused, answer, children, depth, filled, index_of,
                           index_part, pair, refuse_unless, roots, set_bit, u64, used_sizes)


# --- lists, needs, root hashes of the first chunks

def append_list(register, lengths, given):
    n, count = register.n, len(lengths)
    refuse_unless(n + count <= MAX_CHUNKS and n < MAX_CHUNKS, 2)
    reader.first_checks(register)
    refuse_unless(1 <= count <= 256 and sum(lengths) == len(given), 16)
    refuse_unless(all(length <= MAX_CHUNK for length in lengths), 7)
    refuse_unless(register.s == n, 8)
    at = 0
    for number, length in enumerate(lengths):
        if number > 0:
            reader.store_signature(register, bytes(64))
        root = reader.append(register, given[at:at + length])
        at += length
    return register.n, register.s, register.size, root.hex()

def needs(n, size, lengths):
    count = len(lengths)
    refuse_unless(n + count <= MAX_CHUNKS, 2)
    refuse_unless(count <= 256, 16)
    refuse_unless(all(length <= MAX_CHUNK for length in lengths), 7)
    refuse_unless(size <= MAX_CHUNK * n, 9)
    leaves, parents = sum(blocks(9 + length) for length in lengths), 0
    for number in range(n, n + count):
        d = 1
        while (number + 1) % (1 << d) == 0:
            parents, d = parents + blocks(73), d + 1
    root = blocks(1 + 48 * len(roots(n + count)))
    return *used_sizes(n + count, n + count, size + sum(lengths)).values(), leaves, parents, root, leaves + parents + root

def blocks(count):
    return max(1, -(-count // 128))

def root_of_first(register, m):
    reader.first_checks(register)
    refuse_unless(m <= register.n, 9)
    return reader.hash_of_roots([register.entry(i) for i in roots(m)], m).hex(),


def stored_leaf(register, k):
    reader.first_checks(register)
    return leaf_entry(register, k)

def leaf_entry(register, k, must_know=lambda i: None):
    refuse_unless(k < register.n, 9)
    must_know(2 * k)
    found, length = register.entry(2 * k)
    return found.hex(), length


# --- comparing two registers

def compare(first, second):
    for register, which in ((first, "first"), (second, "second")):
        try:
            checked_whole(register)
        except Refused as refused:
            return f"{which} {refused}"
    if reader.root_hash(first) != reader.root_hash(second):
        return "roots differ"
    if first.n != second.n or any(first.raw(i) != second.raw(i) for i in roots(first.n)):
        return "collision at the roots"
    for i in range(2 * first.n - 1):
        one, other = message_at(first, i), message_at(second, i)
        if one != other and reader.H(one) == reader.H(other):
            return f"collision tree {i}"
    return "equal"

def checked_whole(register):
    reader.first_checks(register)
    for k in range(register.n):
        refuse_unless(register.held(k), 18, "tree", 2 * k)
    reader.audit(register)

def message_at(register, i):
    if not filled(i, register.n):
        return None
    if i % 2 == 0:
        start = sum(register.length(2 * k) for k in range(i // 2))
        return b"\0" + u64(register.length(i)) + register.bytes_at(start, register.length(i))
    left, right = (register.entry(child) for child in children(i))
    return b"\1" + u64(left[1] + right[1]) + left[0] + right[0]


# --- records

def varint(data, at):
    number, shift = 0, 0
    while True:
        refuse_unless(at < len(data) and shift < 70, 15)
        byte, at = data[at], at + 1
        number += byte % 128 << shift
        if byte < 128:
            refuse_unless((byte > 0 or shift == 0) and number < 2 ** 64, 15)
            return number, at
        shift += 7

def fields_of(data, rules):
    """The fields by their number; a rule is whether it must be there, how often at most, and what its value must be."""
    found, last, at = {}, 0, 0
    while at < len(data):
        tag, at = varint(data, at)
        number, kind = divmod(tag, 8)
        refuse_unless(number in rules and kind == (2 if rules[number][2] in PARTS else 0), 15)
        value, at = varint(data, at)
        if kind == 2:
            refuse_unless(value <= len(data) - at, 15)
            value, at = data[at:at + value], at + value
        refuse_unless(rules[number][2](value), 15)
        refuse_unless(number > last or number == last and len(found[number]) < rules[number][1], 15)
        found.setdefault(number, []).append(value)
        last = number
    refuse_unless(all(number in found for number, rule in rules.items() if rule[0]), 15)
    return found

def small(value):
    return value < 2 ** 32

def any_number(value):
    return True

def is_type(value):
    return value == b"hyperdrive"

def is_key(value):
    return len(value) == 32

def is_path(value):
    return 1 <= len(value) <= 255 and value[:1] == b"/"

def is_trie(value):
    return len(value) <= 1024

def is_permission(value):
    return len(value) <= 16

def is_stat(value):
    return fields_of(value, {number: (number == 1, 1, small if number < 4 else any_number) for number in range(1, 10)}) is not None

def is_writer(value):
    return fields_of(value, {1: (True, 1, is_key), 2: (False, 1, is_permission)}) is not None

PARTS = {is_type, is_key, is_path, is_trie, is_permission, is_stat, is_writer}
HEADER_RULES = {1: (True, 1, is_type), 2: (True, 1, is_key)}
NODE_RULES = {1: (True, 1, is_path), 2: (False, 1, is_stat), 3: (False, 1, is_trie), 4: (False, 8, is_writer), 5: (False, 1, any_number)}

def record_of(register, k, rules):
    chunk = reader.read(register, k)
    try:
        return fields_of(chunk, rules)
    except Refused:
        raise Refused(15, "tree", 2 * k)

def find_path(register, path):
    reader.first_checks(register)
    if register.n == 0:
        return "none"
    record_of(register, 0, HEADER_RULES)
    for k in range(register.n - 1, 0, -1):
        if record_of(register, k, NODE_RULES)[1] == [path]:
            return k
    return "none"


# --- partial copies

class Copy:
    def __init__(self, n, size):
        refuse_unless(n <= MAX_CHUNKS, 2)
        self.n, self.size = n, size
        used = used_sizes(n, 0, size)
        self.files = {name: bytearray(HEADERS.get(name, b"")).ljust(used[name], b"\0") for name in ("tree", "bitfield", "data")}

    raw, entry, length, held, bytes_at = (getattr(reader.Register, name) for name in ("raw", "entry", "length", "held", "bytes_at"))

    def known(self, i):
        return self.files["bitfield"][HEADER + BITS * (i // 16384) + 1024 + i % 16384 // 8] >> 7 - i % 8 & 1 == 1

    def must_know(self, i):
        refuse_unless(self.known(i), 20, "tree", i)

def lent_checks(copy):
    used = used_sizes(copy.n, 0, copy.size)
    refuse_unless(copy.n <= MAX_CHUNKS, 2)
    refuse_unless(all(len(file) >= used[name] for name, file in copy.files.items()), 4)
    refuse_unless(all(copy.files[name][:HEADER] == HEADERS[name] for name in ("tree", "bitfield")), 5)

def sum_check(copy):
    refuse_unless(sum(copy.length(i) for i in roots(copy.n)) == copy.size, 6)

def sum_check_where_known(copy):
    if all(copy.known(i) for i in roots(copy.n)):
        sum_check(copy)

def copy_checks(copy):
    lent_checks(copy)
    for i in roots(copy.n):
        copy.must_know(i)
    sum_check(copy)

def take_in(copy, packet, k, root):
    lent_checks(copy)                               # step 1
    sum_check_where_known(copy)
    n = copy.n
    chunk = reader.check_packet(packet, n, k, root) # step 2
    sibling_indexes, other_indexes = reader.siblings_of(n, k), reader.others_of(n, k)
    _, siblings, others = reader.taken_apart(packet, len(sibling_indexes), len(other_indexes))
    beside = dict(zip(sibling_indexes + other_indexes, siblings + others))
    refuse_unless(len(chunk) + sum(length for _, length in beside.values()) == copy.size, 6)    # step 3
    brought, node, q = dict(beside), reader.leaf_of(chunk), k   # step 4
    brought[2 * k] = node
    for d, sibling in enumerate(siblings):
        node = reader.parent_of(node, sibling) if q % 2 == 0 else reader.parent_of(sibling, node)
        q //= 2
        brought[index_of(d + 1, q)] = node
    start = sum(length for i, (_, length) in beside.items() if i < 2 * k)
    wrong = [i for i, one in brought.items() if copy.known(i) and copy.entry(i) != one]         # step 5
    if copy.held(k) and copy.bytes_at(start, len(chunk)) != chunk:
        wrong.append(2 * k)
    refuse_unless(not wrong, 19, "tree", min(wrong, default=None))
    bitfield = copy.files["bitfield"]               # step 6
    for i, one in brought.items():
        reader.write_entry(copy, i, one)
        set_bit(bitfield, HEADER + BITS * (i // 16384) + 1024, i % 16384)
    copy.files["data"][start:start + len(chunk)] = chunk
    at = HEADER + BITS * (k // 8192)
    set_bit(bitfield, at, k % 8192)
    bitfield[at + 3072:at + BITS] = index_part(bitfield[at:at + 1024])

def way_to(copy, k):
    """From step 3 of finding a chunk on, behind a copy's first checks."""
    start, above = 0, iter(roots(copy.n))
    i = next(above)
    copy.must_know(i)
    while k >= reader.behind(i):
        start += copy.length(i)
        i = next(above)
        copy.must_know(i)
    while i % 2:
        left, right = children(i)
        copy.must_know(left)
        copy.must_know(right)
        refuse_unless(copy.length(i) == copy.length(left) + copy.length(right), 10, "tree", i)
        if 2 * k < i:
            i = left
        else:
            start += copy.length(left)
            i = right
    refuse_unless(copy.length(i) <= MAX_CHUNK, 10, "tree", i)
    return start, copy.length(i)

def copy_find(copy, k, to_read=False):
    copy_checks(copy)
    refuse_unless(k < copy.n, 9)
    refuse_unless(not to_read or copy.held(k), 18, "tree", 2 * k)
    return way_to(copy, k)

def copy_read(copy, k):
    chunk = copy.bytes_at(*copy_find(copy, k, to_read=True))
    refuse_unless(reader.leaf_of(chunk)[0] == copy.entry(2 * k)[0], 10, "tree", 2 * k)
    return chunk

def copy_short_find(copy, k):
    copy_checks(copy)
    refuse_unless(k < copy.n, 9)
    start = 0
    for one in range(k + 1):
        copy.must_know(2 * one)
        refuse_unless(copy.length(2 * one) <= MAX_CHUNK, 10, "tree", 2 * one)
        start += copy.length(2 * one)
    return start - copy.length(2 * k), copy.length(2 * k)

def copy_find_byte(copy, p):
    copy_checks(copy)
    refuse_unless(p <= copy.size, 9)
    if p == copy.size:
        return copy.n, 0
    rest, above = p, iter(roots(copy.n))
    i = next(above)
    while rest >= copy.length(i):
        rest -= copy.length(i)
        i = next(above)
    while i % 2:
        left, right = children(i)
        copy.must_know(left)
        copy.must_know(right)
        refuse_unless(copy.length(i) == copy.length(left) + copy.length(right), 10, "tree", i)
        if rest < copy.length(left):
            i = left
        else:
            rest -= copy.length(left)
            i = right
    refuse_unless(copy.length(i) <= MAX_CHUNK, 10, "tree", i)
    return i // 2, rest

def copy_root_hash(copy):
    copy_checks(copy)
    return reader.root_hash(copy).hex()

def copy_stored_leaf(copy, k):
    copy_checks(copy)
    return leaf_entry(copy, k, copy.must_know)

def audit_copy(copy):
    lent_checks(copy)                               # step 1
    sum_check_where_known(copy)
    wrong = [place for i in range(2 * copy.n - 1) for place in wrong_by(copy, i)]               # step 2
    refuse_unless(not wrong, 10, "tree", min(wrong, default=None))
    for e in range((copy.n + 8191) // 8192):        # step 3
        at = HEADER + BITS * e
        data_bits = reader.pack(k < copy.n and copy.held(k) for k in range(8192 * e, 8192 * (e + 1)))
        tree_bits = reader.pack(filled(i, copy.n) and copy.known(i) for i in range(16384 * e, 16384 * (e + 1)))
        for offset, byte in enumerate(data_bits + tree_bits + index_part(data_bits), at):
            refuse_unless(copy.files["bitfield"][offset] == byte, 11, "bitfield", offset)

def wrong_by(copy, i):
    if not filled(i, copy.n):
        return [] if copy.raw(i) == bytes(ENTRY) else [i]
    if not copy.known(i):
        return [i] if copy.raw(i) != bytes(ENTRY) or i % 2 == 0 and copy.held(i // 2) else []
    if i % 2:
        return [] if not all(copy.known(child) for child in children(i)) or reader.right_parent(copy, i) else [i]
    try:
        start, length = way_to(copy, i // 2)
    except Refused as refused:
        return [i] if refused.args[0] == 20 else [refused.args[2]]
    return [] if reader.right_leaf(copy, i, start) else [i]


# --- the journal

LENGTHS = {
    "tree": lambda length: length == 32 or length % 80 == 72 and length <= 80 * MAX_CHUNKS - 8,
    "signatures": lambda length: length % 64 == 32 and length <= 32 + 64 * MAX_CHUNKS,
    "bitfield": lambda length: length % 3328 == 32 and length <= 32 + 3328 * 128,
    "data": lambda length: length <= MAX_DATA,
    "key": lambda length: length == 32,
}
NAMES = [f"{register}.{file}" for register in ("metadata", "content") for file in FILES] + ["metadata.key", "content.key"]

def journal_of(data):
    """The states and ranges of a well-formed journal; else refused with what is wrong first."""
    number = lambda at: int.from_bytes(data[at:at + 8], "big")
    refuse_unless(216 <= len(data) <= 2 ** 28, 1, 0)
    refuse_unless(data[:16] == b"sleep-archive 2\n", 2, 0)
    refuse_unless(number(16) == len(data), 3, 0)
    states = [(number(24 + 16 * file), number(32 + 16 * file)) for file in range(10)]
    for file, (old, new) in enumerate(states):
        refuse_unless(old <= new and (new == 0 or LENGTHS[NAMES[file].split(".")[1]](new - 1)), 4, file)
    ranges, ends, at, end = [], [max(old - 1, 0) for old, _ in states], 184, len(data) - 32
    while at < end:
        refuse_unless(at + 18 <= end and data[at] < 10 and 1 <= data[at + 1] <= 4, 5, at)
        file, kind, offset, length = data[at], data[at + 1], number(at + 2), number(at + 10)
        held = {1: 2, 2: 1, 3: 0, 4: 1}[kind] * length
        refuse_unless(length > 0 and at + 18 + held <= end, 5, at)
        one = file, kind, offset, length, data[at + 18:at + 18 + held]
        refuse_unless(range_right(one, ranges[-1] if ranges else None, states[file], ends[file]), 5, at)
        ranges.append(one)
        ends[file] = max(ends[file], offset + length)
        at += 18 + held
    for file, (_, new) in enumerate(states):
        refuse_unless(ends[file] == max(new - 1, 0), 6, file)
    refuse_unless(reader.H(data[:-32]) == data[-32:], 7, 0)
    return states, ranges

def range_right(one, before, states, reached):
    """The rules on ranges; `reached` is the old length, or the end of the range before in this file where that is higher."""
    file, kind, offset, length, _ = one
    old, new = (max(state - 1, 0) for state in states)
    if before is not None and (file < before[0] or file == before[0] and offset < before[2] + before[3]):
        return False
    return offset + length <= old if kind in (1, 4) else offset + length <= new and offset <= reached

def between(journal, files):
    """Refused where a file, its bytes or None, is not between its old and its new state."""
    states, ranges = journal
    for file, (content, (old, new)) in enumerate(zip(files, states)):
        refuse_unless(old <= (0 if content is None else len(content) + 1) <= new, 8, file)
        for one, kind, offset, length, given in ranges:
            there, first, second = (content or b"")[offset:offset + length], given[:length], given[length:] if kind == 1 else given
            for x, byte in enumerate(there if one == file and kind in (1, 4) else b""):
                refuse_unless(byte in (first[x], second[x]), 9, offset + x)

def finished(journal, files, order):
    """The files with the ranges written in this order."""
    states, ranges = journal
    out = [None if new == 0 else bytearray(content or b"").ljust(new - 1, b"\0") for content, (_, new) in zip(files, states)]
    for number in order:
        file, kind, offset, length, given = ranges[number]
        if kind < 4:
            out[file][offset:offset + length] = {1: given[length:], 2: given, 3: bytes(length)}[kind]
    return [None if content is None else bytes(content) for content in out]

def journal_differs(text):
    lines = [line.split()[1:] for line in reader.section(text, "## The journal").split("\n") if line.startswith("    journal ")]
    dumped = [line for line in lines if line[0].isdigit()]
    data = b"".join(bytes.fromhex(line[1]) for line in dumped)
    if [int(line[0]) for line in dumped] != list(range(0, len(data), 64)) or len(data) != 309 or len(lines) - len(dumped) != 12:
        return "the journal: other lines"
    for words in lines[len(dumped):]:
        changed = bytearray(data)
        if words[0] == "changed":
            changed[int(words[1])] = int(words[2], 16)
        given = answer(journal_of, bytes(changed))
        said = " ".join(words[words.index("gives") + 1:])
        if (f"0 {len(data)}" if given.startswith("done") else given.removeprefix("refused ")) != said:
            return f"the journal: {' '.join(words)}, and here {given}"
    return files_differ(journal_of(data)) or next((f"a journal with another byte {at}" for at in range(len(data)) if taken(data, at)), None)

def taken(data, at):
    """Whether the journal with a byte changed, or cut there, is well formed."""
    others = data[:at] + bytes([data[at] ^ 1]) + data[at + 1:], data[:at]
    return any(answer(journal_of, other).startswith("done") for other in others)

def files_differ(journal):
    """What the page says of its example: before, after and between; other files; and any order of the writes."""
    files = lambda content, key: [None] * 7 + [content, None, key]
    after = files(b"\0\0CDE", bytes(range(32)))
    for there in (files(b"ABCDE", None), files(b"\0BCDE", b""), files(b"A\0CDE", b"xyz"), after):
        orders = (0, 1, 2), (2, 0, 1), (2, 1, 0, 0, 2)
        if answer(between, journal, there) != "done" or any(finished(journal, there, order) != after for order in orders):
            return f"the journal over {there[7]}"
    for there, said in ((files(b"XBCDE", None), "9 0"), (files(b"ABCDF", None), "9 4"), (files(b"ABCD", None), "8 7"),
                        (files(b"ABCDE", bytes(33)), "8 9"), (files(None, None), "8 7")):
        if answer(between, journal, there) != "refused " + said:
            return f"the journal over {there[7]}: {answer(between, journal, there)}"
    return None


# --- the lines

def register_named(name, whole):
    """A register above by its n, with a chunk released or a byte changed."""
    name, _, gone = name.partition("~")
    n, *change = name.split("/")
    register = reader.copied(whole(int(n)))
    if gone:
        reader.release(register, int(gone))
    return reader.changed(register, change[0], int(change[1]), int(change[2], 16)) if change else register

def built(chunks):
    register = reader.started()
    for chunk in chunks:
        reader.append(register, chunk)
        reader.store_signature(register, bytes(64))
    return register

def hexed(word):
    return b"" if word == "-" else bytes.fromhex(word)

def numbers(word):
    return [] if word == "-" else [int(number) for number in word.split(",")]

def strings(word):
    return [hexed(part) for part in word.split(",")]

def plain(call, *args):
    """An answer without the word done."""
    given = answer(lambda: (call(*args),))
    return given[5:] if given.startswith("done ") else given

class Lines:
    """A method for each word: the answer to the words behind it, and how many of them are asked."""
    def __init__(self, text):
        self.text, self.copy, self.long = text, None, {}
        self.named = Nodes(text)

    def keyed(self, output, key, message):
        return reader.described_hash(self.text, bytes(range(int(message))), int(output), bytes(range(int(key)))).hex()

    def label(self, n, key):
        return reader.described_hash(self.text, reader.root_hash(reader.written(int(n))), 32, bytes(range(int(key)))).hex()

    def first(self, n, m):
        return plain(lambda: root_of_first(reader.written(int(n)), int(m))[0])

    def leaf(self, name, k):
        return plain(lambda: "{1} {0}".format(*stored_leaf(register_named(name, reader.written), int(k))))

    def list(self, n, lengths, given):
        return answer(append_list, reader.copied(reader.written(int(n))), numbers(lengths), hexed(given))

    def needs(self, n, size, lengths):
        return answer(needs, int(n), int(size), numbers(lengths))

    def search(self, n, gone, start):
        register = reader.copied(reader.written(int(n)))
        for k in numbers(gone):
            reader.release(register, k)
        if register.files["bitfield"][HEADER + 3072] != 0xe8:
            return "another Index"
        return plain(lambda: reader.first_not_held(register, int(start))[0])

    def compare(self, one, other):
        return compare(*(register_named(name, reader.written) for name in (one, other)))

    def zeros(self, one, other):
        kept, reader.H = reader.H, lambda message: bytes(32)
        try:
            return compare(*(built(strings(chunks)) for chunks in (one, other)))
        finally:
            reader.H = kept

    def find(self, path, at):
        register = self.named.register()
        if at != "-":
            register = reader.changed(register, "data", int(at), register.files["data"][int(at)] ^ 1)
        return plain(find_path, register, hexed(path))

    def copy_made(self, n, size):
        self.copy = Copy(int(n), int(size))
        return "done"

    def take(self, chunks, k):
        register = built(strings(chunks))
        packet = b"".join(part for _, part in reader.packet_parts(register, int(k)))
        return answer(take_in, self.copy, packet, int(k), reader.root_hash(register))

    def packet(self, packet, k, root):
        return answer(take_in, self.copy, hexed(packet), int(k), hexed(root))

    def audit(self, *change):
        if not change:
            return answer(audit_copy, self.copy)
        file, at = self.copy.files[change[0]], int(change[1])
        before, file[at] = file[at], int(change[2], 16)
        given = answer(audit_copy, self.copy)
        file[at] = before
        return given

    def root(self):
        return plain(copy_root_hash, self.copy)

    def place(self, k):
        return answer(copy_find, self.copy, int(k))

    def short(self, k):
        return answer(copy_short_find, self.copy, int(k))

    def byte(self, p):
        return answer(copy_find_byte, self.copy, int(p))

    def read(self, k):
        return plain(lambda: copy_read(self.copy, int(k)).hex())

    def empty(self, n):
        self.long[n] = empties(int(n))
        return reader.root_hash(self.long[n]).hex()

    def bitfield(self, n, at):
        return "%02x" % self.long[n].files["bitfield"][int(at)]

def empties(n):
    """A register of so many empty chunks, by its entries alone."""
    register = reader.Register({"tree": bytearray(used_sizes(n, n, 0)["tree"]), "bitfield": reader.bitfield_of(n)}, n, n, 0)
    for i in sorted((i for i in range(2 * n - 1) if filled(i, n)), key=depth):
        reader.write_entry(register, i, reader.leaf_of(b"") if i % 2 == 0 else reader.parent_of(*map(register.entry, children(i))))
    return register

class Nodes:
    """The register of the lines `find`."""
    def __init__(self, text):
        rows = [line for line in reader.section(text, "## Records").split("\n") if re.match(r"    [0-9a-f]{2} ", line)]
        header = bytes.fromhex("".join(rows[:2]))
        self.chunks = [header] + [bytes([10, 2]) + path for path in (b"/a", b"/b", b"/a")]

    def register(self):
        return built(self.chunks)

ASKED = {"keyed": 3, "label": 2, "first": 2, "leaf": 2, "list": 3, "needs": 3, "search": 3, "compare": 2, "zeros": 2, "find": 2, "copy": 2, "take": 2, "packet": 3,
         "root": 0, "place": 1, "short": 1, "byte": 1, "read": 1, "empty": 1, "bitfield": 2}
COUNTS = {"keyed": 3, "label": 1, "first": 4, "leaf": 3, "list": 4, "needs": 4, "search": 4, "compare": 6, "zeros": 3, "find": 7, "copy": 3, "take": 4, "audit": 8,
          "packet": 1, "root": 1, "place": 3, "short": 1, "byte": 3, "read": 2, "empty": 2, "bitfield": 16}

def answers_differ(text):
    lines, counts = Lines(text), dict.fromkeys(COUNTS, 0)
    for row in reader.section(text, "### More answers").split("\n"):
        if not row.startswith("    "):
            continue
        word, *rest = row.split()
        asked = ASKED.get(word, 3 if rest[0] in FILES else 0)
        given = getattr(lines, "copy_made" if word == "copy" else word)(*rest[:asked])
        counts[word] += 1
        if given.split() != rest[asked:]:
            return f"{row.strip()}: here {given}"
    return None if counts == COUNTS else f"the lines: {counts}"

def copies_differ():
    """A copy of each register into which all packets are taken, in two orders: accepted at each step, and at the end the register's own files."""
    for n in (1, 2, 3, 7, 10, 13):
        whole = reader.written(n)
        for order in (range(n), reversed(range(n))):
            copy = Copy(n, whole.size)
            for k in order:
                packet = b"".join(part for _, part in reader.packet_parts(whole, k))
                given = [answer(take_in, copy, packet, k, reader.root_hash(whole)), answer(audit_copy, copy), answer(copy_read, copy, k)]
                if given != ["done", "done", answer(reader.read, whole, k)]:
                    return f"the copy of {n} behind chunk {k}: {given}"
            if any(copy.files[name] != whole.files[name] for name in copy.files):
                return f"the whole copy of {n}"
            if any(answer(copy_find, copy, k) != answer(copy_short_find, copy, k) for k in range(n + 1)):
                return f"both ways in the whole copy of {n}"
    return None

if __name__ == "__main__":
    with open(sys.argv[1], encoding="utf-8") as file:
        page = file.read()
    wrong = answers_differ(page) or copies_differ() or journal_differs(page)
    print(wrong or f"{sum(COUNTS.values())} more answers, copies and the journal agree")
    sys.exit(1 if wrong else 0)
