//! The proved calls on journals, in the program's own words. What a journal is, which one is accepted, and when a file is between before and after is theirs
//! to say; docs/FORMAT.md has its bytes.
use crate::sleep_register::journal as proved;

pub use proved::{begin, check, end, state, Wrong};

/// Where the ranges of a journal begin, and what it has besides them.
pub const RANGES: u64 = proved::FRONT;
pub const BESIDE: u64 = proved::LEAST;

/// The longest journal.
pub const MOST: u64 = proved::MOST;

/// The kinds of ranges: old and new bytes; new bytes; zeros; bytes that stay.
#[derive(Clone, Copy, PartialEq, Eq, Debug)]
pub enum Kind {
    Replaced = proved::REPLACED as isize,
    Fresh = proved::FRESH as isize,
    Zeros = proved::BLANK as isize,
    Witness = proved::WITNESS as isize,
}

/// A range that is to be put down.
pub struct Given<'a> {
    pub kind: Kind,
    pub offset: u64,
    pub length: u64,
    pub old: &'a [u8],
    pub new: &'a [u8],
}

impl Given<'_> {
    /// The bytes that it takes in a journal.
    pub fn takes(&self) -> u64 {
        proved::HEADER + self.old.len() as u64 + self.new.len() as u64
    }
}

/// Puts a range of a file down at a place; the next one's place.
pub fn put(journal: &mut [u8], at: u64, file: usize, range: &Given) -> Result<u64, Wrong> {
    let Given { kind, offset, length, old, new } = *range;
    proved::put(journal, at, proved::Given { file: file as u64, kind: kind as u64, offset, length, old, new })
}

/// A file's length before and after the change; nothing where it is absent.
pub fn lengths(journal: &[u8], file: usize) -> Result<[Option<u64>; 2], Wrong> {
    proved::states(journal, file as u64).map(|states| states.map(proved::length))
}

/// Whether a file is between before and after; `at` is where its ranges begin, and the answer where the next file's do.
pub fn between(journal: &[u8], file: usize, at: u64, bytes: Option<&[u8]>) -> Result<u64, Wrong> {
    proved::between(journal, file as u64, at, bytes)
}

/// A range of a journal: its bytes after the change stand at `place` in it.
pub struct Range {
    pub file: usize,
    pub kind: Kind,
    pub offset: u64,
    pub length: u64,
    place: u64,
}

impl Range {
    /// The bytes that are to be there after the change; of zeros none.
    pub fn bytes<'a>(&self, journal: &'a [u8]) -> &'a [u8] {
        match self.kind {
            Kind::Zeros => &[],
            _ => &journal[self.place as usize..(self.place + self.length) as usize],
        }
    }
}

/// The ranges of a journal, one behind the other.
pub struct Ranges<'a> {
    journal: &'a [u8],
    at: u64,
}

pub fn ranges(journal: &[u8]) -> Ranges<'_> {
    Ranges { journal, at: RANGES }
}

impl Iterator for Ranges<'_> {
    type Item = Range;

    fn next(&mut self) -> Option<Range> {
        let (proved::Range { file, kind, offset, length, place }, next) = proved::next(self.journal, self.at)?;
        self.at = next;
        let kind = match kind {
            proved::REPLACED => Kind::Replaced,
            proved::FRESH => Kind::Fresh,
            proved::BLANK => Kind::Zeros,
            _ => Kind::Witness,
        };
        Some(Range { file: file as usize, kind, offset, length, place })
    }
}
