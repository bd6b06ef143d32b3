"""BLAKE2b with a key, step by step as RFC 7693 says it: slow, and there to be compared with other implementations."""

MODULUS = 2 ** 64
BLOCK, WORD, ROUNDS = 128, 8, 12

# Section 2.6.
IV = (0x6a09e667f3bcc908, 0xbb67ae8584caa73b, 0x3c6ef372fe94f82b, 0xa54ff53a5f1d36f1,
      0x510e527fade682d1, 0x9b05688c2b3e6c1f, 0x1f83d9abfb41bd6b, 0x5be0cd19137e2179)

# Section 2.7; rounds 10 and 11 use rows 0 and 1.
SIGMA = ((0, 1, 2, 3, 4, 5, 6, 7, 8, 9, 10, 11, 12, 13, 14, 15),
         (14, 10, 4, 8, 9, 15, 13, 6, 1, 12, 0, 2, 11, 7, 5, 3),
         (11, 8, 12, 0, 5, 2, 15, 13, 10, 14, 3, 6, 7, 1, 9, 4),
         (7, 9, 3, 1, 13, 12, 11, 14, 2, 6, 5, 10, 4, 0, 15, 8),
         (9, 0, 5, 7, 2, 4, 10, 15, 14, 1, 11, 12, 6, 8, 3, 13),
         (2, 12, 6, 10, 0, 11, 8, 3, 4, 13, 7, 5, 15, 14, 1, 9),
         (12, 5, 1, 15, 14, 13, 4, 10, 0, 7, 6, 3, 9, 2, 8, 11),
         (13, 11, 7, 14, 12, 1, 3, 9, 5, 0, 15, 4, 8, 6, 2, 10),
         (6, 15, 14, 9, 11, 3, 0, 8, 12, 2, 13, 7, 1, 4, 10, 5),
         (10, 2, 8, 4, 7, 6, 1, 5, 15, 11, 9, 14, 3, 12, 13, 0))

# Four columns, then four diagonals.
QUARTERS = ((0, 4, 8, 12), (1, 5, 9, 13), (2, 6, 10, 14), (3, 7, 11, 15),
            (0, 5, 10, 15), (1, 6, 11, 12), (2, 7, 8, 13), (3, 4, 9, 14))


def rotated(word, by):
    return (word >> by | word << 64 - by) % MODULUS


def mix(v, a, b, c, d, x, y):
    """Section 3.1."""
    v[a] = (v[a] + v[b] + x) % MODULUS
    v[d] = rotated(v[d] ^ v[a], 32)
    v[c] = (v[c] + v[d]) % MODULUS
    v[b] = rotated(v[b] ^ v[c], 24)
    v[a] = (v[a] + v[b] + y) % MODULUS
    v[d] = rotated(v[d] ^ v[a], 16)
    v[c] = (v[c] + v[d]) % MODULUS
    v[b] = rotated(v[b] ^ v[c], 63)


def compressed(h, block, t, last):
    """Section 3.2: the state after a block, of which t bytes are taken with it; the last one is flagged."""
    m = [int.from_bytes(block[at:at + WORD], 'little') for at in range(0, BLOCK, WORD)]
    v = [*h, *IV]
    v[12] ^= t % MODULUS
    v[13] ^= t // MODULUS
    if last:
        v[14] ^= MODULUS - 1
    for turn in range(ROUNDS):
        s = SIGMA[turn % 10]
        for k, quarter in enumerate(QUARTERS):
            mix(v, *quarter, m[s[2 * k]], m[s[2 * k + 1]])
    return [word ^ v[k] ^ v[k + 8] for k, word in enumerate(h)]


def padded(part):
    return part.ljust(BLOCK, b'\0')


def starts(length):
    """Where the blocks of so many bytes begin; nothing at all still makes one block."""
    return range(0, length, BLOCK) or [0]


def blocks_of(message, key=b''):
    """The blocks that are compressed, each with the bytes taken so far: the padded key first, where there is one, and one
    block of zeros for an empty message without a key."""
    data = (padded(key) if key else b'') + message
    return [(padded(data[at:at + BLOCK]), min(at + BLOCK, len(data))) for at in starts(len(data))]


def blake2b(length, message, key=b''):
    """Section 3.3, for output lengths of 1 to 64 and keys of 0 to 64 bytes."""
    h = [IV[0] ^ 0x01010000 ^ len(key) << 8 ^ length, *IV[1:]]
    *others, final = blocks_of(message, key)
    for block, t in others:
        h = compressed(h, block, t, False)
    h = compressed(h, *final, True)
    return b''.join(word.to_bytes(WORD, 'little') for word in h)[:length]
