//! A journal that another run left, or that came from elsewhere: an input as any other. It is a plain file of a bounded length, the proved calls say whether
//! it is a journal and whether every file of this archive is between before and after its change; else nothing is touched, and the words say which file and
//! where. Reading commands apply it to their private images.
use crate::below::{self, Access, Plain};
use crate::commit::Down;
use crate::counts::FILES;
use crate::folder::Folder;
use crate::image::{set_handlers, Image};
use crate::journal_calls::{self as calls, Kind, Range, Wrong};
use crate::lock::{Patience, Use};
use crate::memory::{self, Bytes};
use crate::windows::{Windows, SHORT};
use crate::words::{in_file, Done, Trouble};
use std::fs::File;
use std::io;
use std::os::unix::fs::FileExt;
use std::path::{Path, PathBuf};

pub const NAME: &str = "sleep-archive.journal";

/// The first bytes of journals that older versions wrote.
const OLD: &[u8] = b"sleep-archive 1\n";

/// What this program takes on, so that no journal costs more than a moment and some memory: bytes, ranges, bytes in pages of the files that the judge looks
/// at, and what reading takes: bytes of memory, unless it is told to take on as many as a journal can bring, and mappings for parts that lie apart. What it
/// writes itself stays below the first three.
pub const MOST_BYTES: u64 = calls::MOST;
pub const MOST_RANGES: usize = 1 << 18;
const MOST_IN_PAGES: u64 = 24 << 20;
const MOST_BORNE: u64 = 61 << 20;
const MOST_BORNE_IF_TOLD: u64 = MOST_BYTES + MOST_IN_PAGES;
const MOST_APART: u64 = 6000;

/// Where a journal tells its own length.
const OWN_LENGTH: std::ops::Range<usize> = 16..24;

/// A file that a journal makes is judged in full where it is no longer than this.
const MOST_MADE: usize = 1 << 20;

/// What the lookout for a journal gives.
pub enum Found {
    None,
    /// It went away while it was waited for.
    Gone,
    Journal(Journal),
}

/// The bytes of a journal's file, which is locked: a copy, or windows that are copies, so that those that are judged are those that are applied.
pub struct Journal {
    bytes: Taken,
    /// Keeps the lock.
    _plain: Plain,
}

enum Taken {
    Whole(Vec<u8>),
    Windows(Windows),
}

impl Found {
    /// Looks for a journal, and waits for its lock: whoever makes an archive has no other.
    pub fn open(path: &Path, folder: &File, purpose: Use, patience: &mut Patience) -> Done<Found> {
        let trouble = |error| way_out(path, &in_file(path, NAME, error));
        let opened = below::open(folder, NAME, purpose.access()).or_else(|error| match error.kind() {
            // An exclusive lock needs a file that can be written on a network's file system alone.
            io::ErrorKind::PermissionDenied => below::open(folder, NAME, Access::Reading),
            _ => Err(error),
        });
        let Some(looked) = opened.map_err(trouble)? else { return Ok(Found::None) };
        patience.lock(&looked.file, purpose)?;
        match below::look(folder, NAME).map_err(trouble)? {
            Some(now) if now.identity == looked.about.identity => {}
            _ => return Ok(Found::Gone),
        }
        let length = below::about(&looked.file).map_err(trouble)?.length;
        if length > MOST_BYTES {
            return Err(trouble(io::Error::other(format!("{length} bytes, longer than any journal that this program writes or reads"))));
        }
        let bytes = taken(&looked.file, length as usize).map_err(trouble)?;
        Ok(Found::Journal(Journal { bytes, _plain: looked }))
    }
}

/// The bytes of a journal's file; of one that tells of another length than it has the first alone, which are refused for that.
fn taken(file: &File, length: usize) -> io::Result<Taken> {
    let mut bytes = vec![0; length.min(calls::BESIDE as usize)];
    file.read_exact_at(&mut bytes, 0)?;
    if bytes.get(OWN_LENGTH).is_some_and(|own| own == (length as u64).to_be_bytes()) {
        if length > SHORT {
            return Windows::of(file, length).map(Taken::Windows);
        }
        bytes.resize(length, 0);
        file.read_exact_at(&mut bytes, 0)?;
    }
    Ok(Taken::Whole(bytes))
}

impl AsRef<[u8]> for Journal {
    fn as_ref(&self) -> &[u8] {
        match &self.bytes {
            Taken::Whole(bytes) => bytes,
            Taken::Windows(windows) => windows.as_ref(),
        }
    }
}

/// The words for a journal that nothing is done with, and what can be done.
fn way_out(path: &Path, trouble: &Trouble) -> Trouble {
    let path = path.display();
    Trouble::File(format!(
        "{}; nothing is touched. `sleep-archive journal {path}` tells about it, `sleep-archive journal {path} --drop` sets it aside, and reading commands \
         pass over it with --without-journal",
        trouble.words()
    ))
}

fn not_taken(path: &Path, words: &str) -> Trouble {
    way_out(path, &Trouble::File(format!("{}: {words}", path.join(NAME).display())))
}

/// What a judge says of bytes that are no journal.
fn no_journal(wrong: Wrong, bytes: &[u8]) -> String {
    let name = |file: u64| FILES[file as usize % FILES.len()];
    match wrong {
        _ if bytes.starts_with(OLD) => {
            "the journal of an older version of this program, which has to finish it: any command of that version does".into()
        }
        Wrong::Length | Wrong::First => "no journal of this program, or of a later version of it".into(),
        Wrong::State(file) => format!("no journal: it gives {} a length that it can't have", name(file)),
        Wrong::Gap(file) => format!("no journal: it leaves a gap where {} grows", name(file)),
        Wrong::Range(place) => format!("no journal: what stands at its byte {place} is no range, or lies outside the file"),
        _ => "a damaged journal: its length or its hash is another".into(),
    }
}

/// Which file is neither before nor after nor between, and where.
fn strange(name: &str, length: Option<u64>, wrong: Wrong) -> String {
    let state = length.map_or("absent".to_string(), |length| format!("{length} bytes long"));
    match wrong {
        Wrong::Met(_) => format!("{name} is {state}, which it is neither before its change nor after"),
        Wrong::Byte(place) => format!("{name} has at byte {place} neither what it had before its change nor what it has after"),
        _ => format!("{name} can't be judged"),
    }
}

/// A journal that is one.
pub struct Left {
    journal: Journal,
    path: PathBuf,
    lengths: [[Option<u64>; 2]; 10],
    ranges: Vec<Range>,
}

impl Left {
    /// Judges every file before the first byte of any is written: each is before, after or between.
    pub fn belongs(&self, folder: &Folder) -> Done<()> {
        set_handlers();
        let mut at = calls::RANGES;
        for (number, name) in FILES.iter().enumerate() {
            let file = folder.plain(number)?;
            let bytes = file.as_ref().map(|file| Bytes::of(&file.file, file.about.length)).transpose();
            let bytes = bytes.map_err(|error| folder.trouble(name, error))?;
            let bytes = bytes.as_ref().map(|bytes| bytes.as_ref());
            let judged = calls::between(self.bytes(), number, at, bytes)
                .and_then(|next| self.made(number, bytes.unwrap_or_default()).map(|()| next));
            at = judged.map_err(|wrong| {
                let length = file.map(|file| file.about.length);
                not_taken(
                    &folder.path,
                    &format!("it belongs to another state of this archive, or to another one: {}", strange(name, length, wrong)),
                )
            })?;
        }
        Ok(())
    }

    /// A file that the journal makes has no old bytes to be judged by, and a copy's files never grow: the journal of `copy` would clear what the copy has
    /// taken in since. So a short one (every bitfield) has zeros or its new bytes, as far as it is there; else somebody used it already.
    fn made(&self, number: usize, bytes: &[u8]) -> Result<(), Wrong> {
        if self.lengths[number][0].is_some() || bytes.len() > MOST_MADE {
            return Ok(());
        }
        for range in self.ranges.iter().filter(|range| range.file == number) {
            let (from, new) = (range.offset as usize, range.bytes(self.bytes()));
            let there = bytes.iter().enumerate().skip(from).take(range.length as usize);
            if let Some((place, _)) = there.into_iter().find(|(place, byte)| **byte != 0 && new.get(place - from) != Some(byte)) {
                return Err(Wrong::Byte(place as u64));
            }
        }
        Ok(())
    }

    /// A journal that is one, whatever archive it belongs to.
    pub fn checked(path: &Path, journal: Journal) -> Done<Left> {
        let bytes = journal.as_ref();
        calls::check(bytes).map_err(|wrong| not_taken(path, &no_journal(wrong, bytes)))?;
        let mut lengths = [[None; 2]; 10];
        for (number, lengths) in lengths.iter_mut().enumerate() {
            *lengths = calls::lengths(bytes, number).map_err(|wrong| not_taken(path, &no_journal(wrong, bytes)))?;
        }
        let ranges = calls::ranges(bytes).take(MOST_RANGES + 1).collect();
        let left = Left { journal, path: path.to_owned(), lengths, ranges };
        let (looked_at, _) = left.in_pages(|kind| matches!(kind, Kind::Replaced | Kind::Witness));
        if left.ranges.len() > MOST_RANGES || looked_at > MOST_IN_PAGES {
            return Err(not_taken(path, "it has more ranges than any journal that this program writes"));
        }
        Ok(left)
    }

    /// The bytes of the pages that ranges of these kinds lie on, each once, and how many parts that lie apart; of zeros what their two ends take, and a mapping.
    fn in_pages(&self, counted: impl Fn(Kind) -> bool) -> (u64, u64) {
        let (page, mut all, mut parts, mut last) = (memory::page() as u64, 0, 0, (FILES.len(), 0));
        for range in self.ranges.iter().filter(|range| counted(range.kind)) {
            let (first, end) = (range.offset / page, (range.offset + range.length).div_ceil(page));
            let begun = range.file == last.0 && first < last.1;
            let pages = end - if begun { last.1 } else { first };
            all += if range.kind == Kind::Zeros { pages.min(3) } else { pages };
            parts += u64::from(range.kind == Kind::Zeros || range.file != last.0 || first > last.1);
            last = (range.file, end);
        }
        (all * page, parts)
    }

    /// The memory that reading its change as done takes: the pages that it writes, and the list of its ranges.
    fn borne(&self) -> u64 {
        self.in_pages(|_| true).0 + size_of_val(&self.ranges[..]) as u64
    }

    /// Whether reading commands take it on without being told to.
    pub fn is_large(&self) -> bool {
        self.borne() > MOST_BORNE
    }

    /// Whether its change can be borne in memory, as much as it needs where a reader says so.
    pub fn bear(&self, large: bool) -> Done<()> {
        let path = self.path.display();
        let unfinished = |words: String| {
            let name = self.path.join(NAME);
            Err(Trouble::File(format!("{}: the change that it holds is unfinished, and {words}", name.display())))
        };
        let finish = format!("`sleep-archive journal {path} --finish` finishes it");
        if self.borne() > MOST_BORNE_IF_TOLD || self.in_pages(|_| true).1 > MOST_APART {
            return unfinished(format!("has too many parts to be read as done; {finish}"));
        }
        if self.is_large() && !large {
            let (mib, most) = (self.borne().div_ceil(1 << 20), MOST_BORNE >> 20);
            return unfinished(format!(
                "would take {mib} MiB of memory to be read as done, where reading commands take {most} unasked; nothing is touched. {finish}, as any \
                 command that writes; reading commands show it as done with --large-journal, and pass over it with --without-journal"
            ));
        }
        Ok(())
    }

    pub fn bytes(&self) -> &[u8] {
        self.journal.as_ref()
    }

    pub fn ranges(&self) -> &[Range] {
        &self.ranges
    }

    /// The bytes, and whether the system can be handed them: what lies in windows is copied first.
    pub fn down(&self) -> Down<'_> {
        Down { bytes: self.bytes(), ranges: &self.ranges, in_windows: matches!(self.journal.bytes, Taken::Windows(_)) }
    }

    /// A file's length before and after the change.
    pub fn lengths(&self, number: usize) -> [Option<u64>; 2] {
        self.lengths[number]
    }

    /// An image with the change in it.
    pub fn applied(&self, number: usize, mut image: Image) -> io::Result<Image> {
        for range in self.ranges.iter().filter(|range| range.file == number) {
            match range.kind {
                Kind::Witness => {}
                Kind::Zeros => image.cleared(range.offset as usize, range.length as usize)?,
                Kind::Replaced | Kind::Fresh => image.written(range.offset as usize, range.bytes(self.bytes()))?,
            }
        }
        Ok(image)
    }
}
