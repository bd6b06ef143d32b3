"""The records in the chunks of a metadata register, after request N3 and the schema of source document 000: how they are
written, which bytes are read as one, and how a path is found.

Strings are bytes.  A field that is absent is None here, which is another thing than one that is present and empty or 0.
"""

from dataclasses import astuple, dataclass, field

from sleep_model import call, check_register, chunk_bytes, node_hash, refuse_if

TYPE, CONTENT = b'hyperdrive', 32
LONGEST_PATH, LONGEST_TRIE = 255, 1024
MOST_WRITERS, KEY, LONGEST_PERMISSION = 8, 32, 16
NUMBER, PART = 0, 2  # wire types: a varint, or a length and that many bytes

@dataclass
class Stat:
    """Fields 1 to 9 in their order; the first three are uint32, the others uint64."""
    mode: int = None
    uid: int = None
    gid: int = None
    size: int = None
    blocks: int = None
    offset: int = None
    byte_offset: int = None
    mtime: int = None
    ctime: int = None

@dataclass
class Writer:
    key: bytes
    permission: bytes = None

@dataclass
class Node:
    path: bytes
    stat: Stat = None
    trie: bytes = None
    writers: list = field(default_factory=list)
    sequence: int = None

# ---- Bounds ----
def header_fits(content):
    return len(content) == CONTENT

def stat_fits(stat):
    numbers = astuple(stat)
    return stat.mode is not None and all(number < 2 ** (32 if k < 3 else 64) for k, number in enumerate(numbers) if number is not None)

def writer_fits(writer):
    return len(writer.key) == KEY and (writer.permission is None or len(writer.permission) <= LONGEST_PERMISSION)

def node_fits(node):
    return (1 <= len(node.path) <= LONGEST_PATH and node.path[:1] == b'/' and (node.stat is None or stat_fits(node.stat))
            and (node.trie is None or len(node.trie) <= LONGEST_TRIE) and len(node.writers) <= MOST_WRITERS
            and all(map(writer_fits, node.writers)) and (node.sequence is None or node.sequence < 2 ** 64))

# ---- Writing ----
def varint(number):
    """Seven bits to a byte, the lowest first; the highest bit says that more follow."""
    return bytes([number]) if number < 128 else bytes([128 + number % 128]) + varint(number // 128)

def written(number, value):
    """A field by its number; nothing of one that is absent."""
    if value is None:
        return b''
    if isinstance(value, int):
        return varint(8 * number + NUMBER) + varint(value)
    return varint(8 * number + PART) + varint(len(value)) + value

def header_bytes(content):
    return written(1, TYPE) + written(2, content)

def stat_bytes(stat):
    return b''.join(written(number, value) for number, value in enumerate(astuple(stat), 1))

def writer_bytes(writer):
    return written(1, writer.key) + written(2, writer.permission)

def node_bytes(node):
    stat = None if node.stat is None else stat_bytes(node.stat)
    writers = b''.join(written(4, writer_bytes(writer)) for writer in node.writers)
    return written(1, node.path) + written(2, stat) + written(3, node.trie) + writers + written(5, node.sequence)

def put_record(fits, record, buffer):
    refuse_if(not fits, 15)
    refuse_if(len(buffer) < len(record), 14)
    buffer[:len(record)] = record
    return (len(record),)

@call
def write_header(content, buffer):
    """Writes the record at the front of the buffer and gives its length."""
    return put_record(header_fits(content), header_bytes(content), buffer)

@call
def write_node(node, buffer):
    return put_record(node_fits(node), node_bytes(node), buffer)

# ---- Reading ----
class NoRecord(Exception):
    """The bytes are none that the writer writes."""

def expect(holds):
    if not holds:
        raise NoRecord

def taken_varint(data, at):
    """A number below 2^64 in its shortest form, and where it ends."""
    number = 0
    for k in range(10):
        expect(at + k < len(data))
        number += data[at + k] % 128 << 7 * k
        if data[at + k] < 128:
            expect(number < 2 ** 64 and (k == 0 or data[at + k] != 0))
            return number, at + k + 1
    raise NoRecord

def taken_fields(data, types, repeated=()):
    """The values of each field number: the fields have these wire types, and rising numbers but for those that are repeated."""
    found, at, last = {number: [] for number in types}, 0, 0
    while at < len(data):
        tag, at = taken_varint(data, at)
        number, wire_type = divmod(tag, 8)
        expect(types.get(number) == wire_type and (number > last or number == last and number in repeated))
        value, at = taken_varint(data, at)
        if wire_type == PART:
            length = value
            expect(length <= len(data) - at)
            value, at = data[at:at + length], at + length
        found[number].append(value)
        last = number
    return found

def only(values):
    """Of a field that is there at most once."""
    return values[0] if values else None

def header_in(data):
    """The content bytes."""
    found = taken_fields(data, {1: PART, 2: PART})
    expect(found[1] == [TYPE] and found[2] and header_fits(found[2][0]))
    return found[2][0]

def stat_in(data):
    found = taken_fields(data, dict.fromkeys(range(1, 10), NUMBER))
    stat = Stat(*map(only, found.values()))
    expect(stat_fits(stat))
    return stat

def writer_in(data):
    found = taken_fields(data, {1: PART, 2: PART})
    expect(found[1])
    return Writer(*map(only, found.values()))

def node_in(data):
    found = taken_fields(data, {1: PART, 2: PART, 3: PART, 4: PART, 5: NUMBER}, repeated=(4,))
    expect(found[1])
    stat = None if not found[2] else stat_in(found[2][0])
    node = Node(found[1][0], stat, only(found[3]), list(map(writer_in, found[4])), only(found[5]))
    expect(node_fits(node))
    return node

def read_in(reader, data, place=None):
    try:
        return reader(data)
    except NoRecord:
        refuse_if(True, 15, place)

@call
def read_header(data):
    return (read_in(header_in, bytes(data)),)

@call
def read_node(data):
    return (read_in(node_in, bytes(data)),)

# ---- In a register ----
def record_as(r, chunk, reader, F):
    """After the chunk's own read."""
    found = chunk_bytes(r, chunk, F)
    return read_in(reader, found, ('tree', 2 * chunk))

def record_of(r, chunk, F):
    """Chunk 0 is a Header, every later chunk a Node."""
    return record_as(r, chunk, header_in if chunk == 0 else node_in, F)

@call
def read_as(r, chunk, reader, F=node_hash):
    """Any chunk as a Header (`header_in`) or as a Node (`node_in`)."""
    return (record_as(r, chunk, reader, F),)

@call
def read_record(r, chunk, F=node_hash):
    return (record_of(r, chunk, F),)

@call
def find(r, path, F=node_hash):
    """The highest chunk number from 1 up whose path has the same bytes, or None.  Chunk 0 is judged first, then every record
    from the latest down to the one found."""
    check_register(r)
    if r.n == 0:
        return (None,)
    record_of(r, 0, F)
    for chunk in reversed(range(1, r.n)):
        if record_of(r, chunk, F).path == path:
            return (chunk,)
    return (None,)
