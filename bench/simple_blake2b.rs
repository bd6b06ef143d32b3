//! BLAKE2b without a key, after RFC 7693, written as plainly as the standard has it: what a reader would write first.

const IV: [u64; 8] = [
    0x6a09e667f3bcc908,
    0xbb67ae8584caa73b,
    0x3c6ef372fe94f82b,
    0xa54ff53a5f1d36f1,
    0x510e527fade682d1,
    0x9b05688c2b3e6c1f,
    0x1f83d9abfb41bd6b,
    0x5be0cd19137e2179,
];

const SIGMA: [[usize; 16]; 10] = [
    [0, 1, 2, 3, 4, 5, 6, 7, 8, 9, 10, 11, 12, 13, 14, 15],
    [14, 10, 4, 8, 9, 15, 13, 6, 1, 12, 0, 2, 11, 7, 5, 3],
    [11, 8, 12, 0, 5, 2, 15, 13, 10, 14, 3, 6, 7, 1, 9, 4],
    [7, 9, 3, 1, 13, 12, 11, 14, 2, 6, 5, 10, 4, 0, 15, 8],
    [9, 0, 5, 7, 2, 4, 10, 15, 14, 1, 11, 12, 6, 8, 3, 13],
    [2, 12, 6, 10, 0, 11, 8, 3, 4, 13, 7, 5, 15, 14, 1, 9],
    [12, 5, 1, 15, 14, 13, 4, 10, 0, 7, 6, 3, 9, 2, 8, 11],
    [13, 11, 7, 14, 12, 1, 3, 9, 5, 0, 15, 4, 8, 6, 2, 10],
    [6, 15, 14, 9, 11, 3, 0, 8, 12, 2, 13, 7, 1, 4, 10, 5],
    [10, 2, 8, 4, 7, 6, 1, 5, 15, 11, 9, 14, 3, 12, 13, 0],
];

const BLOCK: usize = 128;

/// A hash under way: the state, the bytes that wait for a block to fill, and the count of bytes compressed.
pub struct Blake2b {
    h: [u64; 8],
    block: [u8; BLOCK],
    filled: usize,
    taken: u128,
    length: usize,
}

/// The mixing function G, section 3.1.
#[inline(always)]
fn mix(v: &mut [u64; 16], a: usize, b: usize, c: usize, d: usize, x: u64, y: u64) {
    v[a] = v[a].wrapping_add(v[b]).wrapping_add(x);
    v[d] = (v[d] ^ v[a]).rotate_right(32);
    v[c] = v[c].wrapping_add(v[d]);
    v[b] = (v[b] ^ v[c]).rotate_right(24);
    v[a] = v[a].wrapping_add(v[b]).wrapping_add(y);
    v[d] = (v[d] ^ v[a]).rotate_right(16);
    v[c] = v[c].wrapping_add(v[d]);
    v[b] = (v[b] ^ v[c]).rotate_right(63);
}

/// One round. Its number is a constant, so that it is the compiler that reads the table, and not the program.
#[inline(always)]
fn round<const R: usize>(v: &mut [u64; 16], m: &[u64; 16]) {
    let s = &SIGMA[R % 10];
    mix(v, 0, 4, 8, 12, m[s[0]], m[s[1]]);
    mix(v, 1, 5, 9, 13, m[s[2]], m[s[3]]);
    mix(v, 2, 6, 10, 14, m[s[4]], m[s[5]]);
    mix(v, 3, 7, 11, 15, m[s[6]], m[s[7]]);
    mix(v, 0, 5, 10, 15, m[s[8]], m[s[9]]);
    mix(v, 1, 6, 11, 12, m[s[10]], m[s[11]]);
    mix(v, 2, 7, 8, 13, m[s[12]], m[s[13]]);
    mix(v, 3, 4, 9, 14, m[s[14]], m[s[15]]);
}

/// The compression function F, section 3.2.
fn compress(h: &mut [u64; 8], block: &[u8; BLOCK], taken: u128, last: bool) {
    let mut m = [0u64; 16];
    for (word, bytes) in m.iter_mut().zip(block.chunks_exact(8)) {
        *word = u64::from_le_bytes(bytes.try_into().unwrap());
    }
    let mut v = [0u64; 16];
    v[..8].copy_from_slice(h);
    v[8..].copy_from_slice(&IV);
    v[12] ^= taken as u64;
    v[13] ^= (taken >> 64) as u64;
    if last {
        v[14] = !v[14];
    }
    round::<0>(&mut v, &m);
    round::<1>(&mut v, &m);
    round::<2>(&mut v, &m);
    round::<3>(&mut v, &m);
    round::<4>(&mut v, &m);
    round::<5>(&mut v, &m);
    round::<6>(&mut v, &m);
    round::<7>(&mut v, &m);
    round::<8>(&mut v, &m);
    round::<9>(&mut v, &m);
    round::<10>(&mut v, &m);
    round::<11>(&mut v, &m);
    for i in 0..8 {
        h[i] ^= v[i] ^ v[i + 8];
    }
}

impl Blake2b {
    /// A hash of `length` bytes, 1 to 64.
    pub fn new(length: usize) -> Blake2b {
        assert!((1..=64).contains(&length));
        let mut h = IV;
        h[0] ^= 0x01010000 ^ length as u64;
        Blake2b { h, block: [0; BLOCK], filled: 0, taken: 0, length }
    }

    /// Takes more of the message. A full block waits until more comes, since the last one is compressed otherwise.
    pub fn update(&mut self, mut message: &[u8]) {
        while !message.is_empty() {
            if self.filled == BLOCK {
                self.taken += BLOCK as u128;
                compress(&mut self.h, &self.block, self.taken, false);
                self.filled = 0;
            }
            let count = message.len().min(BLOCK - self.filled);
            self.block[self.filled..self.filled + count].copy_from_slice(&message[..count]);
            self.filled += count;
            message = &message[count..];
        }
    }

    /// The hash, and then zeros up to 64 bytes.
    pub fn finish(mut self) -> [u8; 64] {
        self.block[self.filled..].fill(0);
        self.taken += self.filled as u128;
        compress(&mut self.h, &self.block, self.taken, true);
        let mut digest = [0; 64];
        for (bytes, word) in digest.chunks_exact_mut(8).zip(self.h) {
            bytes.copy_from_slice(&word.to_le_bytes());
        }
        digest[self.length..].fill(0);
        digest
    }
}
