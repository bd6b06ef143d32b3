//! A SLEEP register written as plainly as its description has it, with vectors that grow: what a reader would write first. A refusal is
//! its number.
#![allow(dead_code)]

use crate::simple_blake2b::Blake2b;

const TREE_HEADER: [u8; 32] = *b"\x05\x02\x57\x02\0\0\x28\x07BLAKE2b\0\0\0\0\0\0\0\0\0\0\0\0\0\0\0\0\0";
const SIGNATURES_HEADER: [u8; 32] = *b"\x05\x02\x57\x01\0\0\x40\x07Ed25519\0\0\0\0\0\0\0\0\0\0\0\0\0\0\0\0\0";
const BITFIELD_HEADER: [u8; 32] = *b"\x05\x02\x57\x00\0\x0d\0\0\0\0\0\0\0\0\0\0\0\0\0\0\0\0\0\0\0\0\0\0\0\0\0\0";
const HEADER: usize = 32;
const ENTRY: usize = 40;
const BITS: usize = 3328;
const MOST_CHUNKS: usize = 1_048_576;
const LONGEST_CHUNK: usize = 65_536;
const MOST_BYTES: u64 = 68_719_476_736;

pub type Hash = [u8; 32];

#[derive(Clone, Copy, PartialEq)]
pub struct Node {
    hash: Hash,
    length: u64,
}

#[derive(Clone)]
pub struct Register {
    pub tree: Vec<u8>,
    pub signatures: Vec<u8>,
    pub bitfield: Vec<u8>,
    pub data: Vec<u8>,
    pub n: usize,
    pub s: usize,
}

// ---- hashes

fn hash(parts: &[&[u8]]) -> Hash {
    let mut hash = Blake2b::new(32);
    for part in parts {
        hash.update(part);
    }
    hash.finish()[..32].try_into().unwrap()
}

fn leaf(chunk: &[u8]) -> Node {
    let length = chunk.len() as u64;
    Node { hash: hash(&[&[0], &length.to_be_bytes(), chunk]), length }
}

fn parent(left: &Node, right: &Node) -> Node {
    let length = left.length + right.length;
    Node { hash: hash(&[&[1], &length.to_be_bytes(), &left.hash, &right.hash]), length }
}

fn hash_of_roots(roots: &[(usize, Node)]) -> Hash {
    let mut message = vec![2];
    for (index, node) in roots {
        message.extend_from_slice(&node.hash);
        message.extend_from_slice(&(*index as u64).to_be_bytes());
        message.extend_from_slice(&node.length.to_be_bytes());
    }
    hash(&[&message])
}

// ---- the in-order tree

fn depth(index: usize) -> u32 {
    index.trailing_ones()
}

fn block(index: usize) -> usize {
    index >> (depth(index) + 1)
}

pub fn index_of(depth: u32, block: usize) -> usize {
    ((2 * block + 1) << depth) - 1
}

fn filled(n: usize, index: usize) -> bool {
    (block(index) + 1) << depth(index) <= n
}

fn roots(n: usize) -> Vec<usize> {
    (0..usize::BITS).rev().filter(|d| n >> d & 1 == 1).map(|d| index_of(d, (n >> d) - 1)).collect()
}

fn children(index: usize) -> (usize, usize) {
    let half = 1 << (depth(index) - 1);
    (index - half, index + half)
}

fn entries(n: usize) -> usize {
    (2 * n).saturating_sub(1)
}

/// The root above a chunk.
fn root_above(n: usize, chunk: usize) -> usize {
    *roots(n).iter().find(|&&root| chunk < (block(root) + 1) << depth(root)).unwrap()
}

// ---- bitfield

fn combine(left: u8, right: u8) -> u8 {
    let mut combined = 0;
    for shift in [6, 4, 2, 0] {
        let tuple = match (left >> shift & 3, right >> shift & 3) {
            (3, 3) => 3,
            (0, 0) => 0,
            _ => 2,
        };
        combined |= tuple << shift;
    }
    combined
}

fn index_bytes(data_bits: &[u8]) -> [u8; 256] {
    let mut index = [0; 256];
    for (k, pair) in data_bits.chunks_exact(2).enumerate() {
        let tuple = match pair {
            [0xff, 0xff] => 3,
            [0, 0] => 0,
            _ => 2,
        };
        index[k / 4 * 2] |= tuple << (6 - 2 * (k % 4));
    }
    for d in 1..8 {
        for block in 0..128 >> d {
            let (left, right) = children(index_of(d, block));
            index[index_of(d, block)] = combine(index[left], index[right]);
        }
    }
    index
}

pub fn bitfield_image(n: usize) -> Vec<u8> {
    let mut image = BITFIELD_HEADER.to_vec();
    for e in 0..(n + 8191) / 8192 {
        let mut entry = [0u8; BITS];
        for k in (0..8192).filter(|k| 8192 * e + k < n) {
            entry[k / 8] |= 0x80 >> k % 8;
        }
        for k in (0..16384).filter(|k| filled(n, 16384 * e + k)) {
            entry[1024 + k / 8] |= 0x80 >> k % 8;
        }
        let index = index_bytes(&entry[..1024]);
        entry[3072..].copy_from_slice(&index);
        image.extend_from_slice(&entry);
    }
    image
}

// ---- packets

fn node_in(entry: &[u8]) -> Node {
    Node { hash: entry[..32].try_into().unwrap(), length: u64::from_be_bytes(entry[32..40].try_into().unwrap()) }
}

fn siblings(n: usize, chunk: usize) -> Vec<usize> {
    (0..depth(root_above(n, chunk))).map(|d| index_of(d, chunk >> d ^ 1)).collect()
}

fn other_roots(n: usize, chunk: usize) -> Vec<usize> {
    let above = root_above(n, chunk);
    roots(n).into_iter().filter(|&root| root != above).collect()
}

pub fn check_packet<'a>(packet: &'a [u8], n: usize, chunk: usize, root: &Hash) -> Result<&'a [u8], u64> {
    if n > MOST_CHUNKS {
        return Err(2);
    }
    if chunk >= n {
        return Err(9);
    }
    let (siblings, others) = (siblings(n, chunk), other_roots(n, chunk));
    let length = u32::from_be_bytes(packet.get(..4).ok_or(12u64)?.try_into().unwrap()) as usize;
    let first = 4 + length;
    let second = first + 1 + ENTRY * siblings.len();
    if length > LONGEST_CHUNK || packet.len() != second + 1 + ENTRY * others.len() {
        return Err(12);
    }
    if (packet[first] as usize, packet[second] as usize) != (siblings.len(), others.len()) {
        return Err(12);
    }
    let beside: Vec<Node> = packet[first + 1..second].chunks_exact(ENTRY).map(node_in).collect();
    let mut other_nodes = packet[second + 1..].chunks_exact(ENTRY).map(node_in);
    let lengths = beside.iter().map(|node| node.length as u128).sum::<u128>()
        + other_nodes.clone().map(|node| node.length as u128).sum::<u128>();
    if length as u128 + lengths > MOST_BYTES as u128 {
        return Err(13);
    }
    let found = &packet[4..first];
    let mut node = leaf(found);
    for (d, sibling) in beside.iter().enumerate() {
        node = if chunk >> d & 1 == 0 { parent(&node, sibling) } else { parent(sibling, &node) };
    }
    let above = root_above(n, chunk);
    let items: Vec<_> = roots(n).into_iter().map(|r| (r, if r == above { node } else { other_nodes.next().unwrap() })).collect();
    if hash_of_roots(&items) != *root {
        return Err(13);
    }
    Ok(found)
}

// ---- the register

impl Register {
    pub fn start() -> Register {
        Register {
            tree: TREE_HEADER.to_vec(),
            signatures: SIGNATURES_HEADER.to_vec(),
            bitfield: BITFIELD_HEADER.to_vec(),
            data: Vec::new(),
            n: 0,
            s: 0,
        }
    }

    fn node(&self, index: usize) -> Node {
        let at = HEADER + ENTRY * index;
        node_in(&self.tree[at..at + ENTRY])
    }

    /// Refusals 2 to 6.
    fn check(&self) -> Result<(), u64> {
        if self.n > MOST_CHUNKS {
            return Err(2);
        }
        if self.s != self.n && self.s + 1 != self.n {
            return Err(3);
        }
        let used = [HEADER + ENTRY * entries(self.n), HEADER + 64 * self.s, HEADER + BITS * ((self.n + 8191) / 8192)];
        if [&self.tree, &self.signatures, &self.bitfield].iter().zip(used).any(|(image, used)| image.len() < used) {
            return Err(4);
        }
        let headers = [TREE_HEADER, SIGNATURES_HEADER, BITFIELD_HEADER];
        if [&self.tree, &self.signatures, &self.bitfield].iter().zip(headers).any(|(image, header)| image[..HEADER] != header) {
            return Err(5);
        }
        if roots(self.n).iter().map(|&root| self.node(root).length as u128).sum::<u128>() != self.data.len() as u128 {
            return Err(6);
        }
        Ok(())
    }

    fn put(&mut self, index: usize, node: &Node) {
        let at = HEADER + ENTRY * index;
        self.tree[at..at + 32].copy_from_slice(&node.hash);
        self.tree[at + 32..at + ENTRY].copy_from_slice(&node.length.to_be_bytes());
        self.bitfield[HEADER + BITS * (index / 16384) + 1024 + index % 16384 / 8] |= 0x80 >> index % 8;
    }

    pub fn root_hash(&self) -> Hash {
        let items: Vec<_> = roots(self.n).into_iter().map(|root| (root, self.node(root))).collect();
        hash_of_roots(&items)
    }

    pub fn append(&mut self, chunk: &[u8]) -> Result<Hash, u64> {
        self.check()?;
        if self.n == MOST_CHUNKS {
            return Err(2);
        }
        if chunk.len() > LONGEST_CHUNK {
            return Err(7);
        }
        if self.s < self.n {
            return Err(8);
        }
        self.data.extend_from_slice(chunk);
        self.tree.resize(HEADER + ENTRY * entries(self.n + 1), 0);
        if self.n % 8192 == 0 {
            self.bitfield.resize(self.bitfield.len() + BITS, 0);
        }
        let (mut index, mut node) = (2 * self.n, leaf(chunk));
        self.put(index, &node);
        // a right child is the last that its parent waits for
        while block(index) % 2 == 1 {
            let left = self.node(index_of(depth(index), block(index) - 1));
            node = parent(&left, &node);
            index = index_of(depth(index) + 1, block(index) / 2);
            self.put(index, &node);
        }
        let at = HEADER + BITS * (self.n / 8192);
        self.bitfield[at + self.n % 8192 / 8] |= 0x80 >> self.n % 8;
        let bytes = index_bytes(&self.bitfield[at..at + 1024]);
        self.bitfield[at + 3072..at + BITS].copy_from_slice(&bytes);
        self.n += 1;
        Ok(self.root_hash())
    }

    pub fn store_signature(&mut self, signature: &[u8; 64]) -> Result<(), u64> {
        self.check()?;
        if self.s == self.n {
            return Err(8);
        }
        self.signatures.truncate(HEADER + 64 * self.s);
        self.signatures.extend_from_slice(signature);
        self.s += 1;
        Ok(())
    }

    /// Done, or the number of the refusal; the place is left out.
    pub fn audit(&self) -> Result<(), u64> {
        self.check()?;
        let mut start = 0;
        for index in 0..entries(self.n) {
            let node = self.node(index);
            let right = if !filled(self.n, index) {
                node == Node { hash: [0; 32], length: 0 }
            } else if index % 2 == 0 {
                let (from, length) = (start, node.length as usize);
                start += length;
                length <= LONGEST_CHUNK && start <= self.data.len() && node == leaf(&self.data[from..start])
            } else {
                let (left, right) = children(index);
                node == parent(&self.node(left), &self.node(right))
            };
            if !right {
                return Err(10);
            }
        }
        match self.bitfield == bitfield_image(self.n) {
            true => Ok(()),
            false => Err(11),
        }
    }

    /// From a node whose bytes begin at `start` down to a leaf: its chunk number, start and length.
    fn descend(&self, index: usize, start: u64, goes_right: &dyn Fn(usize, u64) -> bool) -> Result<(usize, u64, u64), u64> {
        let length = self.node(index).length;
        if index % 2 == 0 {
            return if length > LONGEST_CHUNK as u64 { Err(10) } else { Ok((index / 2, start, length)) };
        }
        let (left, right) = children(index);
        let half = self.node(left).length;
        if length as u128 != half as u128 + self.node(right).length as u128 {
            return Err(10);
        }
        if goes_right(right, start + half) {
            return self.descend(right, start + half, goes_right);
        }
        self.descend(left, start, goes_right)
    }

    /// Start and length of a chunk.
    pub fn place(&self, chunk: usize) -> Result<(u64, u64), u64> {
        self.check()?;
        if chunk >= self.n {
            return Err(9);
        }
        let above = root_above(self.n, chunk);
        let start = roots(self.n).iter().take_while(|&&root| root != above).map(|&root| self.node(root).length).sum();
        let (_, start, length) = self.descend(above, start, &|right, _| chunk >= block(right) << depth(right))?;
        Ok((start, length))
    }

    /// The chunk that has a byte, and the byte's offset in it; at the data's end n and 0.
    pub fn byte(&self, offset: u64) -> Result<(u64, u64), u64> {
        self.check()?;
        if offset > self.data.len() as u64 {
            return Err(9);
        }
        if offset == self.data.len() as u64 {
            return Ok((self.n as u64, 0));
        }
        let mut start = 0;
        for root in roots(self.n) {
            let length = self.node(root).length;
            if offset < start + length {
                let (chunk, start, _) = self.descend(root, start, &|_, start_of_right| offset >= start_of_right)?;
                return Ok((chunk as u64, offset - start));
            }
            start += length;
        }
        Err(10)
    }

    pub fn read(&self, chunk: usize) -> Result<&[u8], u64> {
        let (start, length) = self.place(chunk)?;
        let found = &self.data[start as usize..(start + length) as usize];
        match leaf(found) == self.node(2 * chunk) {
            true => Ok(found),
            false => Err(10),
        }
    }

    pub fn make_packet(&self, chunk: usize) -> Result<Vec<u8>, u64> {
        let found = self.read(chunk)?;
        let mut packet = (found.len() as u32).to_be_bytes().to_vec();
        packet.extend_from_slice(found);
        for section in [siblings(self.n, chunk), other_roots(self.n, chunk)] {
            packet.push(section.len() as u8);
            for index in section {
                packet.extend_from_slice(&self.tree[HEADER + ENTRY * index..HEADER + ENTRY * (index + 1)]);
            }
        }
        Ok(packet)
    }
}
