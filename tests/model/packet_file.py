"""A file of many packets, as docs/FORMAT.md has it: made, and read with every bound."""

MAGIC = b'sleep-packets 1\n'
MOST_CHUNKS, LONGEST = 1048576, 65536
PACKET_LENGTHS = range(6, 67062 + 1)


class Wrong(Exception):
    """No file of packets."""


class About:
    """What a file says of a register."""

    def __init__(self, n, size, root, signature=bytes(64), count=None):
        self.n, self.size, self.root, self.signature, self.count = n, size, root, signature, count


def number(width, value):
    return value.to_bytes(width, 'big')


def made(registers, packets):
    """`packets`: for metadata and for content a list of chunk numbers and packets. A count that is told is not looked at."""
    out = MAGIC
    for about, own in zip(registers, packets):
        count = len(own) if about.count is None else about.count
        out += number(8, about.n) + number(8, about.size) + about.root + about.signature + number(8, count)
    for own in packets:
        for chunk, packet in own:
            out += number(8, chunk) + number(4, len(packet)) + packet
    return out


def read(content):
    """Both registers and their packets; or Wrong."""
    if content[:16] != MAGIC or len(content) < 256:
        raise Wrong
    registers, packets, at = [], [[], []], 256
    for start in (16, 136):
        told = content[start:start + 120]
        about = About(int.from_bytes(told[:8], 'big'), int.from_bytes(told[8:16], 'big'), told[16:48], told[48:112], int.from_bytes(told[112:], 'big'))
        if about.n > MOST_CHUNKS or about.size > LONGEST * about.n or about.count > about.n:
            raise Wrong
        registers.append(about)
    for about, own in zip(registers, packets):
        for _ in range(about.count):
            if len(content) < at + 12:
                raise Wrong
            chunk, length = int.from_bytes(content[at:at + 8], 'big'), int.from_bytes(content[at + 8:at + 12], 'big')
            at += 12
            if chunk >= about.n or (own and chunk <= own[-1][0]) or length not in PACKET_LENGTHS or len(content) < at + length:
                raise Wrong
            own.append((chunk, content[at:at + length]))
            at += length
    if at != len(content):
        raise Wrong
    return registers, packets


def example():
    """The lines of the page's example: the packet of chunk 0 of the register of three chunks, AB, none and CDE."""
    import sleep_model as model
    empty, three = model.register_of([]), model.register_of([b'AB', b'', b'CDE'])
    buffer = bytearray(70000)
    length = model.make_packet(three, 0, buffer)[1]
    abouts = [About(r.n, r.size, model.root_hash(r)[1]) for r in (empty, three)]
    content = made(abouts, [[], [(0, bytes(buffer[:length]))]])
    return ['    packets %d %s' % (at, content[at:at + 64].hex()) for at in range(0, len(content), 64)]


if __name__ == '__main__':
    print('\n'.join(example()))
