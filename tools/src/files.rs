//! The files of an `add`, read one after the other, some ahead of the one that is added.
use crate::below;
use crate::counts::LONGEST;
use crate::sleep_register::Stat;
use crate::sources::{modified, Sources, LONGEST_PIECE};
use crate::words::{at_file, Done};
use std::fs::{File, Metadata};
use std::io::{self, Read as _, Seek as _};
use std::ops::Range;
use std::os::unix::fs::MetadataExt;
use std::path::PathBuf;
use std::sync::mpsc::{sync_channel, Receiver, SyncSender};
use std::sync::Arc;

/// The mode that a piece gets which comes from no plain file.
const PLAIN_MODE: u32 = 0o100644;

/// Files are read by so many threads, and handed on in parcels of so many files or bytes, since threads that wait for each other at each file cost more than
/// reading it; so many parcels of each thread wait.
const READERS: usize = 2;
const FILES_AT_ONCE: usize = 256;
const BYTES_AT_ONCE: u64 = 1 << 19;
const PARCELS: usize = 3;

/// A file that is being read.
pub struct Reading {
    sources: Arc<Sources>,
    number: usize,
    bytes: Bytes,
    pub size: u64,
    mode: u32,
    pub mtime: Option<u64>,
}

/// Short files are read at once, and so is what can't be read twice: then their bytes lie among those of other files, the next one at `at`.
enum Bytes {
    File(File),
    Held { all: Arc<Vec<u8>>, own: Range<usize>, at: usize },
}

impl Reading {
    /// A file by itself.
    pub fn open(sources: &Arc<Sources>, number: usize) -> Done<Reading> {
        let mut bytes = Vec::new();
        let opened = Opening::new(sources).open(number, &mut bytes)?;
        Ok(Reading::of(sources, number, opened, &Arc::new(bytes)))
    }

    fn of(sources: &Arc<Sources>, number: usize, opened: Opened, all: &Arc<Vec<u8>>) -> Reading {
        let Opened { file, own, about } = opened;
        let size = if file.is_some() { about.as_ref().map_or(0, Metadata::len) } else { own.len() as u64 };
        let bytes = file.map_or_else(|| Bytes::Held { all: Arc::clone(all), at: own.start, own }, Bytes::File);
        let (mode, mtime) = about.map_or((PLAIN_MODE, None), |about| (about.mode(), modified(&about)));
        Reading { sources: Arc::clone(sources), number, bytes, size, mode, mtime }
    }

    /// Its name in messages.
    pub fn name(&self) -> PathBuf {
        named(&self.sources, self.number)
    }

    /// What a record says of it, but for its place.
    pub fn stat(&self) -> Stat {
        Stat { mode: Some(self.mode.into()), size: Some(self.size), ..Stat::default() }
    }

    /// The next bytes, as many as these if they are there. `room` is for those of a file that is read now.
    pub fn next<'a>(&'a mut self, length: u64, room: &'a mut Vec<u8>) -> Done<&'a [u8]> {
        match &mut self.bytes {
            Bytes::Held { all, own, at } => {
                let part = *at..own.end.min(at.saturating_add(length as usize));
                *at = part.end;
                Ok(&all[part])
            }
            Bytes::File(file) => {
                room.clear();
                let read = file.take(length).read_to_end(room);
                read.map(|_| &room[..]).map_err(|error| at_file(&named(&self.sources, self.number), error))
            }
        }
    }

    /// From the beginning.
    pub fn again(&mut self) -> Done<()> {
        match &mut self.bytes {
            Bytes::Held { own, at, .. } => *at = own.start,
            Bytes::File(file) => file.rewind().map_err(|error| at_file(&named(&self.sources, self.number), error))?,
        }
        Ok(())
    }
}

fn named(sources: &Sources, number: usize) -> PathBuf {
    let source = &sources.all[number];
    if sources.is_standard_input(source) {
        return PathBuf::from("standard input");
    }
    sources.path(source)
}

/// A file that was opened. Where it was read, it is closed, and its bytes stand in a buffer; nothing is known about what is no plain file.
struct Opened {
    file: Option<File>,
    own: Range<usize>,
    about: Option<Metadata>,
}

/// Opens one file after the other, and keeps the folder of the last one open.
struct Opening<'a> {
    sources: &'a Sources,
    /// The last one's number, and its folder.
    last: Option<(usize, File)>,
}

impl Opening<'_> {
    fn new(sources: &Sources) -> Opening<'_> {
        Opening { sources, last: None }
    }

    /// Files one after the other, with their bytes.
    fn parcel(&mut self, numbers: Range<usize>) -> Parcel {
        let mut bytes = Vec::with_capacity(BYTES_AT_ONCE as usize + LONGEST as usize + 1);
        let files = numbers.clone().map(|number| self.open(number, &mut bytes)).collect();
        Parcel { numbers, files, bytes }
    }

    /// Opens a file; what is no plain file is read to its end, as far as a piece goes. A file of a folder is opened without following a link, or waiting.
    fn open(&mut self, number: usize, into: &mut Vec<u8>) -> Done<Opened> {
        self.opened(number, into).map_err(|error| at_file(&named(self.sources, number), error))
    }

    fn opened(&mut self, number: usize, into: &mut Vec<u8>) -> io::Result<Opened> {
        let (source, start) = (&self.sources.all[number], into.len());
        if self.sources.is_standard_input(source) {
            return drained(&mut io::stdin().lock(), into);
        }
        let is_found = self.sources.is_found(source);
        let mut file = if is_found { self.found(number)? } else { File::open(self.sources.path(source))? };
        let about = file.metadata()?;
        if !about.is_file() {
            return if is_found { Err(io::Error::other("no longer a plain file")) } else { drained(&mut file, into) };
        }
        let is_whole = about.len() <= LONGEST && whole(&mut file, about.len() as usize, into)?;
        Ok(Opened { file: (!is_whole).then_some(file), own: start..into.len(), about: Some(about) })
    }

    /// A file that was found in a folder, which is opened where the last file did not lie in it.
    fn found(&mut self, number: usize) -> io::Result<File> {
        let sources = self.sources;
        let (place, name) = sources.place(&sources.all[number]);
        let same = self.last.as_ref().is_some_and(|(last, _)| sources.place(&sources.all[*last]).0 == place);
        if !same {
            let path = sources.path(&sources.all[number]);
            self.last = Some((number, below::folder(path.parent().unwrap_or(&path))?));
        }
        let (_, folder) = self.last.as_ref().expect("an open folder");
        below::open_found(folder, name)
    }
}

fn drained(file: &mut dyn io::Read, into: &mut Vec<u8>) -> io::Result<Opened> {
    let start = into.len();
    file.take(LONGEST_PIECE + 1).read_to_end(into)?;
    Ok(Opened { file: None, own: start..into.len(), about: None })
}

/// All bytes of a short file, by one read where its length is the one that it was told to have; none of them, and false, where it grew.
fn whole(file: &mut File, length: usize, into: &mut Vec<u8>) -> io::Result<bool> {
    let start = into.len();
    while into.len() <= start + length {
        let more = below::read_behind(file, into, start + length + 1 - into.len())?;
        if more == 0 || into.len() == start + length {
            return Ok(true);
        }
    }
    into.truncate(start);
    file.rewind()?;
    Ok(false)
}

/// The numbers of files that are read one after the other, with the bytes of all.
struct Parcel {
    numbers: Range<usize>,
    files: Vec<Done<Opened>>,
    bytes: Vec<u8>,
}

/// Files of these sizes in their order, in parcels. What has no bytes as it was looked at may be a pipe, and begins one: the files before it don't wait for it.
fn parcels(sizes: impl Iterator<Item = u64>) -> Vec<Range<usize>> {
    let (mut all, mut bytes) = (Vec::<Range<usize>>::new(), 0);
    for (number, size) in sizes.enumerate() {
        match all.last_mut() {
            Some(last) if last.len() < FILES_AT_ONCE && bytes < BYTES_AT_ONCE && size > 0 => last.end = number + 1,
            _ => {
                all.push(number..number + 1);
                bytes = 0;
            }
        }
        bytes += size.min(LONGEST);
    }
    all
}

/// Files in their order, read by other threads as far ahead as they may, parcel by parcel in turn. A few plain files are one parcel, which needs no thread.
pub struct Ahead {
    sources: Arc<Sources>,
    alone: Option<Range<usize>>,
    readers: Vec<Receiver<Parcel>>,
    /// How many parcels were taken, and the rest of the last: the numbers and the files from the next on, and the bytes of all.
    taken: usize,
    now: (Range<usize>, std::vec::IntoIter<Done<Opened>>, Arc<Vec<u8>>),
}

impl Ahead {
    pub fn start(sources: &Arc<Sources>) -> Ahead {
        let parcels = Arc::new(parcels(sources.all.iter().map(|source| source.size)));
        let alone = parcels.first().filter(|first| parcels.len() == 1 && sources.all[first.start].size > 0).cloned();
        let mut readers = Vec::new();
        for first in 0..READERS.min(if alone.is_some() { 0 } else { parcels.len() }) {
            let (hand, taken) = sync_channel(PARCELS);
            let (sources, parcels) = (Arc::clone(sources), Arc::clone(&parcels));
            // It is not waited for at the end: it may be reading what never comes.
            std::thread::spawn(move || read_some(&sources, parcels.iter().skip(first).step_by(READERS), &hand));
            readers.push(taken);
        }
        Ahead { sources: Arc::clone(sources), alone, readers, taken: 0, now: (0..0, Vec::new().into_iter(), Arc::default()) }
    }

    pub fn next(&mut self) -> Done<Reading> {
        if self.now.0.is_empty() {
            let Parcel { numbers, files, bytes } = match self.alone.take() {
                Some(numbers) => Opening::new(&self.sources).parcel(numbers),
                None => self.readers[self.taken % READERS].recv().expect("a file for each source"),
            };
            (self.taken, self.now) = (self.taken + 1, (numbers, files.into_iter(), Arc::new(bytes)));
        }
        let (numbers, files, bytes) = &mut self.now;
        let (number, opened) = numbers.next().zip(files.next()).expect("a file for each number");
        Ok(Reading::of(&self.sources, number, opened?, bytes))
    }
}

/// Hands on parcel after parcel, as long as somebody takes them.
fn read_some<'a>(sources: &Sources, parcels: impl Iterator<Item = &'a Range<usize>>, hand: &SyncSender<Parcel>) {
    let mut opening = Opening::new(sources);
    for numbers in parcels {
        if hand.send(opening.parcel(numbers.clone())).is_err() {
            return;
        }
    }
}

#[cfg(test)]
mod tests {
    use super::*;

    #[test]
    fn parcels_follow_each_other_and_are_bounded() {
        let sizes = (0..5000u64).map(|number| if number % 700 == 3 { 0 } else { number * number % 90000 }).collect::<Vec<_>>();
        let all = parcels(sizes.iter().copied());
        let end = all.iter().fold(0, |at, parcel| {
            assert!(parcel.start == at && at < parcel.end && parcel.len() <= FILES_AT_ONCE);
            let bytes = sizes[parcel.start..parcel.end - 1].iter().map(|size| (*size).min(LONGEST)).sum::<u64>();
            assert!(bytes < BYTES_AT_ONCE && sizes[parcel.start + 1..parcel.end].iter().all(|size| *size > 0));
            parcel.end
        });
        assert_eq!(end, sizes.len());
        assert!(parcels(std::iter::empty()).is_empty());
    }
}
