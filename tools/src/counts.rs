//! The files of an archive, and the counts of its registers that follow from their lengths.
use crate::words::{Done, Trouble};
use std::path::Path;

/// The files of an archive, by the numbers that a journal has for them.
pub const FILES: [&str; 10] = [
    "metadata.tree",
    "metadata.signatures",
    "metadata.bitfield",
    "metadata.data",
    "content.tree",
    "content.signatures",
    "content.bitfield",
    "content.data",
    "metadata.key",
    "content.key",
];
pub const METADATA_KEY: usize = 8;
pub const CONTENT_KEY: usize = 9;

pub const TREE: usize = 0;
pub const SIGNATURES: usize = 1;
pub const BITFIELD: usize = 2;
pub const DATA: usize = 3;

pub const HEADER: u64 = 32;
pub const ENTRY: u64 = 40;
pub const SIGNATURE: u64 = 64;
const BITFIELD_ENTRY: u64 = 3328;
const CHUNKS_PER_ENTRY: u64 = 8192;

/// The most chunks of a register, and the most bytes of a chunk.
pub const MOST_CHUNKS: u64 = 1 << 20;
pub const LONGEST: u64 = 65536;

/// The two registers of an archive.
#[derive(Clone, Copy, PartialEq, Eq, Debug)]
pub enum Which {
    Metadata,
    Content,
}

pub const BOTH: [Which; 2] = [Which::Metadata, Which::Content];

impl Which {
    pub fn name(self) -> &'static str {
        match self {
            Which::Metadata => "metadata",
            Which::Content => "content",
        }
    }

    /// The number of the register's tree; its other files follow.
    pub fn first_file(self) -> usize {
        match self {
            Which::Metadata => 0,
            Which::Content => 4,
        }
    }
}

/// The used sizes of tree, signatures, bitfield and data, as docs/FORMAT.md has them.
pub fn used_sizes(n: u64, s: u64, size: u64) -> [u64; 4] {
    let entries = (2 * n).saturating_sub(1);
    [HEADER + ENTRY * entries, HEADER + SIGNATURE * s, HEADER + BITFIELD_ENTRY * n.div_ceil(CHUNKS_PER_ENTRY), size]
}

/// What the lengths of a register's files say. A partial copy has no signatures file and no s.
#[derive(Clone, Copy, Debug, PartialEq, Eq)]
pub struct Counts {
    pub n: u64,
    pub s: Option<u64>,
    pub size: u64,
    pub lengths: [u64; 4],
}

impl Counts {
    /// n, s and the data size of a register whose files have these lengths; the path of its archive is for messages.
    pub fn of(path: &Path, which: Which, lengths: [Option<u64>; 4]) -> Done<Counts> {
        let first = which.first_file();
        if let Some(kind) = [TREE, BITFIELD, DATA].into_iter().find(|kind| lengths[*kind].is_none()) {
            return Err(Trouble::File(format!("{}: no archive: {} is missing", path.display(), FILES[first + kind])));
        }
        let all = lengths.map(Option::unwrap_or_default);
        let counted = |kind: usize, entry| {
            let wrong = || wrong_length(path, first + kind, all[kind]);
            all[kind].checked_sub(HEADER).filter(|rest| rest % entry == 0).map(|rest| rest / entry).ok_or_else(wrong)
        };
        let entries = counted(TREE, ENTRY)?;
        if entries > 0 && entries % 2 == 0 {
            return Err(wrong_length(path, first + TREE, all[TREE]));
        }
        let n = entries.div_ceil(2);
        let s = lengths[SIGNATURES].map(|_| counted(SIGNATURES, SIGNATURE)).transpose()?;
        if counted(BITFIELD, BITFIELD_ENTRY)? > n.div_ceil(CHUNKS_PER_ENTRY) {
            return Err(wrong_length(path, first + BITFIELD, all[BITFIELD]));
        }
        Ok(Counts { n, s, size: all[DATA], lengths: all })
    }
}

fn wrong_length(path: &Path, number: usize, length: u64) -> Trouble {
    Trouble::File(format!(
        "{}: {length} bytes, which no register's file has here: it is another file, or it was cut short or grew",
        path.join(FILES[number]).display()
    ))
}

/// The roots of a tree of n chunks, by the offsets of their entries in its file: for each power of two in n one, from the largest.
pub fn root_entries(n: u64) -> Vec<u64> {
    let (mut offsets, mut before) = (Vec::new(), 0);
    for power in (0..u64::BITS).rev().map(|bit| 1 << bit).filter(|power| n & power != 0) {
        offsets.push(HEADER + ENTRY * (2 * before + power - 1));
        before += power;
    }
    offsets
}

#[cfg(test)]
mod tests {
    use super::*;

    #[test]
    fn roots_of_small_trees() {
        // By the tree indexes that the scope's table has: of 3 chunks 1 and 4, of 7 chunks 3, 9 and 12.
        let offsets = |indexes: &[u64]| indexes.iter().map(|index| 32 + 40 * index).collect::<Vec<_>>();
        for (n, indexes) in [(0, &[][..]), (1, &[0]), (2, &[1]), (3, &[1, 4]), (4, &[3]), (7, &[3, 9, 12]), (1 << 20, &[(1 << 20) - 1])] {
            assert_eq!(root_entries(n), offsets(indexes));
        }
    }

    #[test]
    fn counts_follow_from_lengths() {
        let of = |lengths| Counts::of(Path::new("a"), Which::Content, lengths);
        let counted = of([Some(152), Some(96), Some(3360), Some(7)]).unwrap();
        assert_eq!((counted.n, counted.s, counted.size), (2, Some(1), 7));
        assert_eq!(of([Some(32), None, Some(32), Some(0)]).unwrap().s, None);
        for wrong in [
            [Some(112), Some(32), Some(32), Some(0)],
            [Some(32), Some(33), Some(32), Some(0)],
            [Some(32), Some(32), Some(3360), Some(0)],
            [Some(31), None, Some(32), Some(0)],
        ] {
            assert!(of(wrong).is_err());
        }
        assert!(of([None, Some(32), Some(32), Some(0)]).unwrap_err().words().contains("content.tree is missing"));
    }
}
