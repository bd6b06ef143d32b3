//! What differs between the images of a command and the files, as ranges of a journal; and the witnesses that tie a journal to its archive.
use crate::counts::{root_entries, Which, CONTENT_KEY, DATA, ENTRY, FILES, HEADER, METADATA_KEY, MOST_CHUNKS, TREE};
use crate::folder::Folder;
use crate::image::Image;
use crate::journal_calls::{Given, Kind};
use crate::kept::Filed;
use crate::memory::Bytes;
use crate::words::Done;
use std::io;

/// Changes that lie fewer bytes apart than this are one range.
const GAP: usize = 32;

/// In a data file, zeros that lie no farther apart than this, with zeros between them, are one run: what a release leaves.
const ZEROS_GAP: usize = 4096;

/// Runs of zeros at least as long as this are not written down where a file grows, and in a data file those of the second length. Elsewhere zeros are
/// written down with the bytes that they replace, since these tell the state that a journal belongs to.
const ZEROS: usize = 4096;
const RELEASED: usize = 64;

/// Where a whole block of old bytes is zeros it may be a hole, and a file system may show other bytes in it after a stop.
const BLOCK: usize = 4096;

/// The bytes of a key.
const KEY: u64 = 32;

/// What is to become of one file.
pub struct Change<'a> {
    pub number: usize,
    /// Its length before and after; nothing where the change makes it.
    pub old: Option<u64>,
    pub length: u64,
    pub ranges: Vec<Given<'a>>,
}

/// All changes of a register's files since it was opened.
pub fn changes<'a>(folder: &Folder, which: Which, files: Vec<Filed<'a>>) -> Done<Vec<Change<'a>>> {
    let mut changes = Vec::new();
    for (kind, image, length) in files {
        let number = which.first_file() + kind;
        let ranges = differences(image, kind == DATA, length as usize).map_err(|error| folder.trouble(FILES[number], error))?;
        let old = image.file().map(|file| file.about.length);
        if !ranges.is_empty() || old.is_none() {
            changes.push(Change { number, old, length, ranges });
        }
    }
    Ok(changes)
}

/// What the file lacks of the first `length` bytes of an image, from the front.
fn differences(image: &Image, is_data: bool, length: usize) -> io::Result<Vec<Given<'_>>> {
    let (now, noted) = (image.as_ref(), image.noted());
    let before = if noted.is_empty() { &[] } else { image.before()? };
    let mut runs = Vec::new();
    for place in noted {
        different(&mut runs, now, before, place);
    }
    let mut ranges = Vec::new();
    for (from, to) in if is_data { joined(runs, now) } else { runs } {
        if is_data && to - from >= RELEASED && is_zeros(&now[from..to]) {
            ranges.push(zeros(from, to));
        } else {
            replaced(&mut ranges, now, before, from, to);
        }
    }
    let old = image.file().map_or(0, |file| file.about.length as usize);
    grown(&mut ranges, now, old, length);
    Ok(ranges)
}

/// Adds the runs of bytes that differ at a place.
fn different(runs: &mut Vec<(usize, usize)>, now: &[u8], before: &[u8], place: std::ops::Range<usize>) {
    for from in place.clone().step_by(BLOCK) {
        let to = place.end.min(from + BLOCK);
        if now[from..to] == before[from..to] {
            continue;
        }
        for at in (from..to).filter(|at| now[*at] != before[*at]) {
            match runs.last_mut() {
                Some(last) if at <= last.1 + GAP => last.1 = at + 1,
                _ => runs.push((at, at + 1)),
            }
        }
    }
}

/// Runs of zeros with few zeros between them as one.
fn joined(runs: Vec<(usize, usize)>, now: &[u8]) -> Vec<(usize, usize)> {
    let mut joined: Vec<(usize, usize, bool)> = Vec::new();
    for (from, to) in runs {
        let zeros = is_zeros(&now[from..to]);
        match joined.last_mut() {
            Some(last) if zeros && last.2 && from <= last.1 + ZEROS_GAP && is_zeros(&now[last.1..from]) => last.1 = to,
            _ => joined.push((from, to, zeros)),
        }
    }
    joined.into_iter().map(|(from, to, _)| (from, to)).collect()
}

fn is_zeros(bytes: &[u8]) -> bool {
    bytes.iter().all(|byte| *byte == 0)
}

fn zeros<'a>(from: usize, to: usize) -> Given<'a> {
    Given { kind: Kind::Zeros, offset: from as u64, length: (to - from) as u64, old: &[], new: &[] }
}

/// Old and new bytes; new bytes alone in blocks that may be holes.
fn replaced<'a>(ranges: &mut Vec<Given<'a>>, now: &'a [u8], before: &'a [u8], from: usize, to: usize) {
    let hole = |at: usize| is_zeros(&before[at / BLOCK * BLOCK..before.len().min(at / BLOCK * BLOCK + BLOCK)]);
    let mut at = from;
    while at < to {
        let fresh = hole(at);
        let mut end = at;
        while end < to && hole(end) == fresh {
            end = to.min(end / BLOCK * BLOCK + BLOCK);
        }
        let (kind, old) = if fresh { (Kind::Fresh, &[][..]) } else { (Kind::Replaced, &before[at..end]) };
        ranges.push(Given { kind, offset: at as u64, length: (end - at) as u64, old, new: &now[at..end] });
        at = end;
    }
}

/// What is behind the old length: bytes, and long runs of zeros apart from them.
fn grown<'a>(ranges: &mut Vec<Given<'a>>, now: &'a [u8], old: usize, length: usize) {
    let mut parts: Vec<(usize, usize, bool)> = Vec::new();
    for from in (old..length).step_by(ZEROS) {
        let to = length.min(from + ZEROS);
        let zeros = to - from == ZEROS && is_zeros(&now[from..to]);
        match parts.last_mut() {
            Some(last) if last.2 == zeros => last.1 = to,
            _ => parts.push((from, to, zeros)),
        }
    }
    ranges.extend(parts.into_iter().map(|(from, to, all_zeros)| match all_zeros {
        true => zeros(from, to),
        false => Given { kind: Kind::Fresh, offset: from as u64, length: (to - from) as u64, old: &[], new: &now[from..to] },
    }));
}

/// Bytes of an archive that tell it from others, and from itself later: the entries of both trees' roots, which no command writes again, and the keys.
pub struct Witnesses(Vec<Witness>);

/// The bytes of a file, and the places in it, offset and length, that are held to what they are.
struct Witness {
    number: usize,
    bytes: Bytes,
    places: Vec<(u64, u64)>,
}

impl Witnesses {
    pub fn of(folder: &Folder) -> Done<Witnesses> {
        let mut all = Vec::new();
        for number in [Which::Metadata.first_file() + TREE, Which::Content.first_file() + TREE, METADATA_KEY, CONTENT_KEY] {
            let Some(file) = folder.plain(number)? else { continue };
            let length = file.about.length;
            let places = match number {
                METADATA_KEY | CONTENT_KEY if length == KEY => vec![(0, length)],
                METADATA_KEY | CONTENT_KEY => Vec::new(), // no key, and no journal either
                _ => roots_of(length),
            };
            let bytes = Bytes::of(&file.file, length).map_err(|error| folder.trouble(FILES[number], error))?;
            all.push(Witness { number, bytes, places });
        }
        Ok(Witnesses(all))
    }

    /// The witnesses of a file beside its ranges, in their order, without those that a range changes.
    pub fn beside<'a>(&'a self, number: usize, ranges: Vec<Given<'a>>) -> Vec<Given<'a>> {
        let (mut all, changed) = (Vec::new(), ranges.iter().map(|range| (range.offset, range.offset + range.length)).collect::<Vec<_>>());
        for Witness { bytes, places, .. } in self.0.iter().filter(|witness| witness.number == number) {
            let apart = |place: &&(u64, u64)| place.1 > 0 && changed.iter().all(|(from, to)| place.0 + place.1 <= *from || *to <= place.0);
            all.extend(places.iter().filter(apart).map(|(offset, length)| {
                let old = &bytes.as_ref()[*offset as usize..(offset + length) as usize];
                Given { kind: Kind::Witness, offset: *offset, length: *length, old, new: &[] }
            }));
        }
        all.extend(ranges);
        all.sort_by_key(|range| range.offset);
        all
    }
}

/// The roots' entries in a tree of this length, where a register's can have it.
fn roots_of(length: u64) -> Vec<(u64, u64)> {
    let n = (length.saturating_sub(HEADER) / ENTRY).div_ceil(2);
    if n > MOST_CHUNKS {
        return Vec::new();
    }
    root_entries(n).into_iter().map(|offset| (offset, ENTRY)).collect()
}
