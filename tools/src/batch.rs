//! One commit of an `add`: pieces as sets of chunks in both registers, in memory, each set with its signature.
use crate::changes::changes;
use crate::commit::{commit_from, Room};
use crate::counts::{used_sizes, Which, CONTENT_KEY, LONGEST, MOST_CHUNKS};
use crate::cuts::Cuts;
use crate::files::Reading;
use crate::image::Image;
use crate::kept::whole_files;
use crate::memory::Ready;
use crate::printable::shown;
use crate::reading::Archive;
use crate::signer::Signer;
use crate::sleep_register::{write_header, write_node, Node, Refusal, Stat, Store, NODE_ROOM};
use crate::sources::{too_large, too_long, BESIDE, LONGEST_PIECE};
use crate::words::{counted, refused, Done, Trouble};
use std::collections::VecDeque;
use std::path::PathBuf;

/// The most chunks of a set.
const MOST: usize = 256;

/// The bytes that every journal has at most, whatever is added: its own, witnesses, entries of trees and bitfields that were there and change.
const ALWAYS: u64 = 48 << 10;

const SET_SIZE: u64 = 16;
const TOO_LONG: u64 = 7;

/// Chunks one behind the other, and their lengths.
#[derive(Default)]
pub struct Set {
    pub lengths: Vec<u64>,
    bytes: Vec<u8>,
}

impl Set {
    pub fn push(&mut self, chunk: &[u8]) {
        self.bytes.extend(chunk);
        self.lengths.push(chunk.len() as u64);
    }
}

/// What a commit may hold.
pub struct Limits {
    /// The bytes of its journal, where it has several pieces.
    pub journal: u64,
    /// Whether a record has its file's time.
    pub times: bool,
    /// Without a signer there is one set, whose signature is owed then.
    pub one_set: bool,
}

pub struct Batch {
    /// Of the content's data; it ends before the image does.
    _ready: Ready,
    archive: Archive,
    content: Store<Image>,
    metadata: Store<Image>,
    /// The chunks and the records that no set has yet.
    chunks: Set,
    records: Set,
    limits: Limits,
    /// The bytes of the pieces, and what else the journal will hold.
    bytes: u64,
    beside: u64,
    pieces: u64,
    /// The file that a refusal of the next set is about, where a chunk of it is too long.
    long: Option<PathBuf>,
    roots: [[u8; 32]; 2],
    signed: Vec<(Which, [u8; 32])>,
    /// Of the last sets the root hashes whose signatures are not here yet, and whether the signer has the first: it signs while the next files come in.
    unsigned: VecDeque<(Which, [u8; 32])>,
    handed: bool,
}

impl Batch {
    /// Both registers with room for a commit, after the first checks. So many bytes of pieces are going to come, as far as they have room.
    pub fn begin(archive: Archive, limits: Limits, coming: u64) -> Done<Batch> {
        let folder = &archive.folder;
        let most = limits.journal.max(LONGEST_PIECE) + 2 * LONGEST;
        let grown = |which: Which| {
            let counts = folder.count(which)?;
            let n = MOST_CHUNKS.min(counts.n + most / BESIDE).max(counts.n);
            folder.to_grow(which, counts, used_sizes(n, n, counts.size + most))
        };
        let (content, metadata) = (grown(Which::Content)?, grown(Which::Metadata)?);
        let mut records = Set::default();
        if metadata.n == 0 {
            let (key, mut record) = (folder.key(CONTENT_KEY)?.unwrap_or([0; 32]), [0; NODE_ROOM]);
            let length = write_header(&key, &mut record).map_err(|reason| refused("the Header", reason))?;
            records.push(&record[..length]);
        }
        let (chunks, roots) = (Set::default(), [[0; 32]; 2]);
        Ok(Batch {
            _ready: content.data.ready(coming.min(limits.journal)),
            archive,
            content,
            metadata,
            chunks,
            records,
            limits,
            bytes: 0,
            beside: 0,
            pieces: 0,
            long: None,
            roots,
            signed: Vec::new(),
            unsigned: VecDeque::new(),
            handed: false,
        })
    }

    pub fn pieces(&self) -> u64 {
        self.pieces
    }

    /// Root hashes that were signed for this commit, with the one that the signer has.
    pub fn signed(&self) -> impl Iterator<Item = &(Which, [u8; 32])> {
        self.signed.iter().chain(self.unsigned.front().filter(|_| self.handed))
    }

    /// Whether a file has room in this commit, or would be alone in it. One set takes on whatever comes: a call judges it.
    pub fn has_room(&self, size: u64, cuts: &Cuts) -> bool {
        let more = size + BESIDE * (cuts.count(size) + 1) + NODE_ROOM as u64;
        self.limits.one_set || self.pieces == 0 || self.journal() + more <= self.limits.journal
    }

    /// The bytes that the journal has at most: pieces, what stands beside them, and what it always has.
    fn journal(&self) -> u64 {
        self.bytes + self.beside + ALWAYS
    }

    /// Whether one set has more chunks than any may have, so that no more is read.
    pub fn is_over(&self) -> bool {
        self.limits.one_set && self.chunks.lengths.len() > MOST
    }

    pub fn archive(&self) -> &Archive {
        &self.archive
    }

    /// How many records there are now.
    pub fn records(&self) -> u64 {
        self.metadata.n
    }

    /// A file becomes a piece: its chunks, and its record behind them. A set is closed before a piece that it has no room for.
    pub fn take(&mut self, read: &mut Reading, cuts: &Cuts, name: &[u8], signer: &mut Option<Signer>) -> Done<()> {
        let count = cuts.count(read.size) as usize;
        if !self.limits.one_set && count <= MOST && self.chunks.lengths.len() + count > MOST {
            self.close(signer)?;
        }
        let (first, start) = (self.content.n + self.chunks.lengths.len() as u64, self.content.size + self.chunks.bytes.len() as u64);
        let (mut size, mut blocks, mut room) = (0, 0, Vec::new());
        while let Some(length) = cuts.length(blocks) {
            let chunk = read.next(length, &mut room)?;
            let got = chunk.len() as u64;
            if got == 0 && blocks > 0 {
                break;
            }
            if !self.limits.one_set && self.chunks.lengths.len() == MOST {
                self.close(signer)?;
            }
            self.chunks.push(chunk);
            (size, blocks) = (size + got, blocks + 1);
            if got > LONGEST {
                self.long = Some(read.name());
            }
            if got < length || size + BESIDE * blocks > LONGEST_PIECE || self.is_over() {
                break;
            }
        }
        self.whole(read, cuts, size, blocks)?;
        let mtime = read.mtime.filter(|_| self.limits.times);
        let (size_of, blocks_of) = (Some(size), Some(blocks));
        self.record(name, Stat { size: size_of, blocks: blocks_of, offset: Some(first), byte_offset: Some(start), mtime, ..read.stat() })?;
        (self.bytes, self.beside, self.pieces) = (self.bytes + size, self.beside + BESIDE * (blocks + 1), self.pieces + 1);
        if self.chunks.lengths.len() >= MOST / 2 {
            self.sign_all_but(1, signer)?;
        }
        if !self.limits.one_set && (self.chunks.lengths.len() == MOST || self.records.lengths.len() == MOST) {
            self.close(signer)?;
        }
        Ok(())
    }

    /// Holds that all of a file was read, and cut as it was told.
    fn whole(&self, read: &mut Reading, cuts: &Cuts, size: u64, blocks: u64) -> Done<()> {
        let wrong = |read: &Reading, words| Err(Trouble::File(format!("{}: {words}; nothing of it is stored", read.name().display())));
        if size + BESIDE * blocks > LONGEST_PIECE {
            return wrong(read, too_large());
        }
        if let Cuts::At(lengths) = cuts {
            let more = read.next(1, &mut Vec::new())?.len() as u64;
            if blocks != lengths.len() as u64 || size + more != lengths.iter().sum() {
                let (sum, has) = (counted(lengths.iter().sum(), "byte"), counted(size + more, "byte"));
                return wrong(read, format!("its cuts add up to {sum}, and it has {has}"));
            }
        }
        Ok(())
    }

    fn record(&mut self, name: &[u8], stat: Stat) -> Done<()> {
        let mut record = [0; NODE_ROOM];
        let node = Node { path: name, stat: Some(stat), ..Node::default() };
        let length = write_node(&node, &mut record).map_err(|reason| refused(&shown(name), reason))?;
        self.records.push(&record[..length]);
        self.beside += length as u64;
        Ok(())
    }

    fn refusal(&self, which: Which, reason: Refusal) -> Trouble {
        match (&self.long, reason.number) {
            (Some(file), TOO_LONG) => {
                let words = too_long(LONGEST + 1).unwrap_or_default();
                Trouble::Refused(format!("{}: {words}", file.display()))
            }
            (_, SET_SIZE) if self.limits.one_set => {
                let words = refused(which.name(), reason);
                Trouble::Refused(format!("{}; with --signer or --sign-with any number is added", words.words()))
            }
            _ => refused(which.name(), reason),
        }
    }

    /// The chunks and records so far become a set of each register, which a signer signs.
    fn close(&mut self, signer: &mut Option<Signer>) -> Done<()> {
        self.sign_all_but(0, signer)?;
        let (chunks, records) = (std::mem::take(&mut self.chunks), self.closed_records());
        for (which, set) in [(Which::Content, &chunks), (Which::Metadata, &records)].into_iter().filter(|(_, set)| !set.lengths.is_empty())
        {
            let store = if which == Which::Content { &mut self.content } else { &mut self.metadata };
            let root = store.append_list(&set.lengths, &set.bytes).map_err(|reason| self.refusal(which, reason))?;
            self.roots[(which == Which::Content) as usize] = root;
        }
        let Some(signer) = signer else { return Ok(()) };
        let owing = [(Which::Metadata, &self.metadata), (Which::Content, &self.content)].into_iter().filter(|(_, store)| store.s < store.n);
        self.unsigned = owing.map(|(which, _)| (which, self.roots[(which == Which::Content) as usize])).collect();
        self.hand(signer)
    }

    /// Hands the signer the next root hash.
    fn hand(&mut self, signer: &mut Signer) -> Done<()> {
        self.handed = self.unsigned.front().map_or(Ok(false), |(_, root)| signer.ask(root))?;
        Ok(())
    }

    /// Takes in signatures of the last sets until so many are left to come.
    fn sign_all_but(&mut self, left: usize, signer: &mut Option<Signer>) -> Done<()> {
        let Some(signer) = signer else { return Ok(()) };
        while self.unsigned.len() > left {
            let (which, root) = self.unsigned.pop_front().expect("one that is left");
            self.handed = false;
            let signature = signer.sign(which, &root)?;
            self.signed.push((which, root));
            let store = if which == Which::Content { &mut self.content } else { &mut self.metadata };
            store.store_signature(&signature).map_err(|reason| refused(which.name(), reason))?;
            self.hand(signer)?;
        }
        Ok(())
    }

    /// The records that are to be a set; a Header alone waits for the first record.
    fn closed_records(&mut self) -> Set {
        let only_header = self.metadata.n == 0 && self.records.lengths.len() == 1;
        if only_header {
            return Set::default();
        }
        std::mem::take(&mut self.records)
    }

    /// Closes the last set.
    pub fn complete(&mut self, signer: &mut Option<Signer>) -> Done<()> {
        if self.pieces == 0 {
            return Ok(());
        }
        if !self.chunks.lengths.is_empty() || !self.records.lengths.is_empty() {
            self.close(signer)?;
        }
        self.sign_all_but(0, signer)?;
        signer.as_ref().map_or(Ok(()), Signer::quiet)
    }

    /// Whether the change stands after a trouble: it is made, or it is written down in a journal.
    pub fn stands(&self) -> bool {
        let folder = &self.archive.folder;
        let [length, ..] = used_sizes(self.metadata.n, self.metadata.s, self.metadata.size);
        let made = folder.now(Which::Metadata.first_file()).is_ok_and(|now| now == Some(length));
        self.pieces > 0 && (made || folder.is_unfinished().unwrap_or(false))
    }

    /// Makes the change, wholly or not at all. The root hashes of both registers with it.
    pub fn commit(&self) -> Done<[[u8; 32]; 2]> {
        let folder = &self.archive.folder;
        let mut all = changes(folder, Which::Metadata, whole_files(&self.metadata))?;
        all.extend(changes(folder, Which::Content, whole_files(&self.content))?);
        commit_from(folder, all, Room::Free, || self.content.data.let_go())?;
        Ok(self.roots)
    }
}
