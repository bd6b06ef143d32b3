//! Registers of the first n chunks of one sequence, cut back from the register of the whole sequence, and the calls to be counted on them.
#![allow(dead_code)]

use crate::proved::Store;
use crate::simple_register::{bitfield_image, index_of};
use crate::timing::Numbers;

pub const CHUNKS: usize = 1_048_576;
pub const LENGTH: usize = 64;
pub const LOOKUPS: usize = 100;

/// The most chunks of a register whose short lookups are counted: they walk over every chunk.
pub const SHORT: usize = 30_000;

pub enum Case {
    Lookups,
    Append,
    List,
    Release,
    /// The packet of this chunk, taken into a copy that was made, and then that of the next chunk.
    Take(u64),
}

/// The chunks of a list.
pub const LISTED: usize = 40;

/// Chunks of the first bitfield entry that are released, at edges of its groups of 16 and of its bytes.
pub const RELEASED: [u64; 6] = [0, 7, 8, 15, 4096, 8191];

/// The chunk counts and what is called there, from the largest down; each append is previewed first. What an append does beside its hashing follows from the parents that it
/// completes, the roots that it leaves, and how far its bitfield entry is filled, whose Index it makes anew; so there are appends that have
/// these three in common at very different n. Lists are appended beside the single calls that leave the same, one of them across the border of
/// two bitfield entries. Chunks are released where their entry is full, at very different n. Packets are taken in with the longest path, and with
/// nine siblings and five other roots at very different n.
pub const CASES: [(usize, Case); 27] = [
    (CHUNKS, Case::Lookups),
    (CHUNKS, Case::Release),
    (CHUNKS, Case::Take(6)),
    (1_048_575, Case::Append),
    (1_048_536, Case::List),
    (1_041_384, Case::Append),
    (983_560, Case::Take(983_046)),
    (525_288, Case::Release),
    (525_288, Case::Append),
    (525_287, Case::Append),
    (65_535, Case::Append),
    (33_768, Case::Append),
    (33_767, Case::Append),
    (30_000, Case::Lookups),
    (30_000, Case::Release),
    (30_000, Case::List),
    (9192, Case::Append),
    (9191, Case::Append),
    (8192, Case::Release),
    (8192, Case::Take(6)),
    (8191, Case::Append),
    (8172, Case::List),
    (1000, Case::List),
    (1000, Case::Lookups),
    (1000, Case::Take(6)),
    (1000, Case::Append),
    (999, Case::Append),
];

/// The register of the first n chunks in the buffers of a register of more. The entries that aren't filled yet are holes: of each depth the
/// block that the n-th chunk cuts. What stands behind the used sizes may be anything.
pub fn cut_back(store: &mut Store, n: usize) {
    for d in 1..21 {
        let index = index_of(d, n >> d);
        if index < 2 * n - 1 {
            store.tree[32 + 40 * index..][..40].fill(0);
        }
    }
    let image = bitfield_image(n);
    store.bitfield[..image.len()].copy_from_slice(&image);
    (store.n, store.s, store.size) = (n as u64, n as u64, (n * LENGTH) as u64);
}

/// Numbers below a bound: the first, the last, and others picked at random.
pub fn picked(below: u64) -> Vec<u64> {
    let mut numbers = Numbers(below);
    let others = (2..LOOKUPS).map(|_| numbers.below(below));
    [0, below - 1].into_iter().chain(others).collect()
}
