//! What words of the user mean: a chunk by its number, or a piece by its name, which begins with a slash.
use crate::arguments::number;
use crate::counts::Which;
use crate::printable::shown;
use crate::progress;
use crate::reading::Archive;
use crate::walk::{chunks_of, find_all, Chunks, Said};
use crate::words::{Done, Trouble};
use std::ffi::OsStr;
use std::ops::Range;

/// A chunk, or the chunks of a piece with what its record says of their places.
#[derive(Clone, Copy, PartialEq, Eq)]
pub enum Meant {
    Chunk(u64),
    Piece(Chunks),
}

impl Meant {
    pub fn numbers(&self) -> Range<u64> {
        match self {
            Meant::Chunk(chunk) => *chunk..chunk.saturating_add(1),
            Meant::Piece(chunks) => chunks.numbers(),
        }
    }
}

pub fn is_name(word: &OsStr) -> bool {
    word.as_encoded_bytes().starts_with(b"/")
}

/// What one word means in the content register.
pub fn meant(archive: &Archive, word: &OsStr) -> Done<Meant> {
    if is_name(word) {
        return piece_named(archive, word.as_encoded_bytes()).map(Meant::Piece);
    }
    numbered(word).map(Meant::Chunk)
}

fn numbered(word: &OsStr) -> Done<u64> {
    number(word, "a chunk").map_err(|_| {
        Trouble::Usage(format!("{}: a chunk is meant by its number or by its name, which begins with a slash", word.to_string_lossy()))
    })
}

/// What many words mean. Several names are found by one walk over the records.
pub fn all_meant(archive: &Archive, words: &[&OsStr]) -> Done<Vec<Meant>> {
    let names = words.iter().filter(|word| is_name(word)).map(|word| word.as_encoded_bytes()).collect::<Vec<_>>();
    if names.len() < 2 {
        return words.iter().map(|word| meant(archive, word)).collect();
    }
    let walked = find_all(archive, &names);
    let one = |word: &&OsStr| match is_name(word) {
        true => piece_found(archive, word.as_encoded_bytes(), walked.of(word.as_encoded_bytes())).map(Meant::Piece),
        false => numbered(word).map(Meant::Chunk),
    };
    words.iter().map(one).collect()
}

/// The chunks of the piece that a name stands for.
fn piece_named(archive: &Archive, name: &[u8]) -> Done<Chunks> {
    let metadata = archive.register(Which::Metadata);
    let found = progress::during("finding the name", metadata.bytes(), || metadata.find(name));
    let said = found.and_then(|record| record.map(|record| Ok(Said::of(record, &metadata.node_of(record)?))).transpose());
    piece_found(archive, name, said)
}

fn piece_found(archive: &Archive, name: &[u8], found: Result<Option<Said>, crate::sleep_register::Refusal>) -> Done<Chunks> {
    match found.map_err(|reason| archive.trouble(Which::Metadata, reason))? {
        Some(said) => chunks_of(archive, &said),
        None => Err(Trouble::Refused(format!("{}: there is no such name", shown(name)))),
    }
}
