//! Safe calls of the proved library `libc_api.a`: slices in, `Result` out. Link it by `rustc -L native=target/staticlib -l static=c_api`, or, as
//! tools/archive-for writes it for a processor, by `-L native=target/TARGET -l static=sleep_register`. What each call does, needs and refuses is said in
//! include/sleep_register.h.
#![allow(dead_code)]

use std::ops::Range;

/// What a refusal points at.
#[derive(Clone, Copy, Debug, PartialEq, Eq)]
pub enum Place {
    None,
    TreeIndex(u64),
    BitfieldByte(u64),
}

/// A refused call: nothing that was lent to it has changed; a served read that is refused has left its table.
#[derive(Clone, Copy, Debug, PartialEq, Eq)]
pub struct Refusal {
    pub number: u64,
    pub place: Place,
}

/// What the comparing walk answers. `Equal` says that both registers hold the same chunks in the same order.
#[derive(Clone, Copy, Debug, PartialEq, Eq)]
pub enum Comparison {
    Equal,
    RootsDiffer,
    CollisionAtRoots,
    CollisionAtIndex(u64),
    FirstRefused(Refusal),
    SecondRefused(Refusal),
}

/// What the walk along two packets answers: the same chunk, two different messages with one hash, or a refusal of one of them.
#[derive(Clone, Copy, Debug, PartialEq, Eq)]
pub enum Walked {
    SameChunk,
    CollisionAtRoots,
    CollisionAtIndex(u64),
    FirstRefused(Refusal),
    SecondRefused(Refusal),
}

/// What a packet has beside its chunk's bytes, at most.
pub const PACKET_EXTRA: usize = 1526;

/// The version that this wrapper is of, as include/sleep_register.h has it; `version` tells that of the archive that is linked.
pub const VERSION: u64 = 3051000;

/// The stored entry of a chunk's leaf: its hash and its length.
#[derive(Clone, Copy, Debug, PartialEq, Eq)]
pub struct Leaf {
    pub hash: [u8; 32],
    pub length: u64,
}

/// What a job will need: the used sizes of the four images afterwards, each signature counted, and the runs of BLAKE2b's compression function for
/// the new leaves, for the parents that they complete and for one root hash at the end, and all runs together.
#[derive(Clone, Copy, Debug, PartialEq, Eq)]
pub struct Needs {
    pub tree: u64,
    pub signatures: u64,
    pub bitfield: u64,
    pub data: u64,
    pub leaves: u64,
    pub parents: u64,
    pub root: u64,
    pub runs: u64,
}

/// Which of the two registers a read names.
#[derive(Clone, Copy, Debug, PartialEq, Eq)]
pub enum Name {
    Metadata,
    Content,
}

/// A read that was served: the station, the register and the chunk that it named, and what the direct read answers.
#[derive(Clone, Copy, Debug, PartialEq, Eq)]
pub struct Served<'a> {
    pub station: u64,
    pub name: Name,
    pub chunk: u64,
    pub read: Result<&'a [u8], Refusal>,
}

/// Reads of stations 0 to 15 that wait, at most 4 of each. The numbers may be any; include/sleep_register.h says how they are read.
#[derive(Clone, Debug, PartialEq, Eq)]
pub struct Table {
    pub numbers: [u64; 161],
}

/// The room that any Node's record has enough of, and the bytes of a Header's.
pub const NODE_ROOM: usize = 2070;
pub const HEADER_BYTES: usize = 46;

/// What a Node says of a piece. `mode` must be there, and with `uid` and `gid` below 2^32.
#[derive(Clone, Copy, Debug, Default, PartialEq, Eq)]
pub struct Stat {
    pub mode: Option<u64>,
    pub uid: Option<u64>,
    pub gid: Option<u64>,
    pub size: Option<u64>,
    pub blocks: Option<u64>,
    pub offset: Option<u64>,
    pub byte_offset: Option<u64>,
    pub mtime: Option<u64>,
    pub ctime: Option<u64>,
}

/// A key of 32 bytes, and a permission of at most 16 if there is one.
#[derive(Clone, Copy, Debug, Default, PartialEq, Eq)]
pub struct Writer<'a> {
    pub key: &'a [u8],
    pub permission: Option<&'a [u8]>,
}

/// The record of a piece. The path has 1 to 255 bytes and starts with a slash, the trie at most 1,024; there are at most 8 writers.
#[derive(Clone, Debug, Default, PartialEq, Eq)]
pub struct Node<'a> {
    pub path: &'a [u8],
    pub stat: Option<Stat>,
    pub trie: Option<&'a [u8]>,
    pub writers: Vec<Writer<'a>>,
    pub sequence: Option<u64>,
}

/// Two numbers that a lookup gives: start and length, or chunk number and offset within the chunk.
pub type Pair = (u64, u64);

/// A register's images, to be read, and its numbers.
#[derive(Clone, Copy)]
pub struct Register<'a> {
    pub tree: &'a [u8],
    pub signatures: &'a [u8],
    pub bitfield: &'a [u8],
    pub data: &'a [u8],
    pub n: u64,
    pub s: u64,
    pub size: u64,
}

/// A register's images in buffers that can be written: vectors, or what else has bytes of its own. The numbers follow the calls that are done.
#[derive(Clone, Debug, PartialEq, Eq)]
pub struct Store<B = Vec<u8>> {
    pub tree: B,
    pub signatures: B,
    pub bitfield: B,
    pub data: B,
    pub n: u64,
    pub s: u64,
    pub size: u64,
}

/// A partial copy's images, to be read, and its numbers. A register's tree, bitfield and data may be lent as one.
#[derive(Clone, Copy)]
pub struct Copied<'a> {
    pub tree: &'a [u8],
    pub bitfield: &'a [u8],
    pub data: &'a [u8],
    pub n: u64,
    pub size: u64,
}

/// A partial copy's images in buffers that can be written. No call changes the numbers.
#[derive(Clone, Debug, PartialEq, Eq)]
pub struct CopyStore<B = Vec<u8>> {
    pub tree: B,
    pub bitfield: B,
    pub data: B,
    pub n: u64,
    pub size: u64,
}

struct Answer {
    number: u64,
    place_kind: u64,
    place: u64,
}

struct Compared {
    outcome: u64,
    answer: Answer,
}

struct Serving {
    served: u64,
    station: u64,
    name: u64,
    chunk: u64,
    answer: Answer,
}

struct NodeRead {
    answer: Answer,
    node: [u64; 67],
}

struct Sought {
    found: u64,
    chunk: u64,
    answer: Answer,
}

/// The numbers in which the archive answers, and what they stand for.
trait Numbers {
    type Said;
    fn said(self) -> Self::Said;
}

impl Numbers for [u64; 3] {
    type Said = Answer;
    fn said(self) -> Answer {
        let [number, place_kind, place] = self;
        Answer { number, place_kind, place }
    }
}

impl Numbers for [u64; 4] {
    type Said = Compared;
    fn said(self) -> Compared {
        let [outcome, answer @ ..] = self;
        Compared { outcome, answer: answer.said() }
    }
}

impl Numbers for [u64; 5] {
    type Said = Sought;
    fn said(self) -> Sought {
        let [found, chunk, answer @ ..] = self;
        Sought { found, chunk, answer: answer.said() }
    }
}

impl Numbers for [u64; 7] {
    type Said = Serving;
    fn said(self) -> Serving {
        let [served, station, name, chunk, answer @ ..] = self;
        Serving { served, station, name, chunk, answer: answer.said() }
    }
}

impl Numbers for [u64; 70] {
    type Said = NodeRead;
    fn said(self) -> NodeRead {
        let [number, place_kind, place, node @ ..] = self;
        NodeRead { answer: Answer { number, place_kind, place }, node }
    }
}

/// A lent array, which the call writes whole.
fn lent<const K: usize>() -> [u64; K] {
    [0; K]
}

/// A call, and what it answers in the array that is lent to it last. The pointers are of slices with the lengths beside them.
macro_rules! call {
    ($call:ident, $($word:expr),* $(,)?) => {{
        let mut answer = lent();
        unsafe { $call($($word,)* &mut answer) };
        answer.said()
    }};
}

type In = *const u8;
type Out = *mut u8;

#[rustfmt::skip]
extern "C" {
    fn sleep_flat_hash(length: u64, key: In, key_length: u64, message: In, message_length: u64, digest: Out) -> u64;
    fn sleep_flat_hash_parts(key: In, key_length: u64, prefix: In, prefix_length: u64, body: In, body_length: u64, out: Out) -> u64;
    fn sleep_flat_label(root: In, key: In, key_length: u64, out: Out) -> u64;
    fn sleep_flat_start(t: Out, tl: u64, g: Out, gl: u64, b: Out, bl: u64, d: In, dl: u64, answer: &mut [u64; 3]);
    fn sleep_flat_append(t: Out, tl: u64, g: In, gl: u64, b: Out, bl: u64, d: Out, dl: u64, n: u64, s: u64, size: u64, chunk: In,
        chunk_length: u64, root: Out, answer: &mut [u64; 3]);
    fn sleep_flat_append_list(t: Out, tl: u64, g: Out, gl: u64, b: Out, bl: u64, d: Out, dl: u64, n: u64, s: u64, size: u64,
        lengths: *const u64, lengths_length: u64, bytes: In, bytes_length: u64, root: Out, answer: &mut [u64; 3]);
    fn sleep_flat_preview(t: In, tl: u64, g: In, gl: u64, b: In, bl: u64, d: In, dl: u64, n: u64, s: u64, size: u64, chunk: In,
        chunk_length: u64, root: Out, answer: &mut [u64; 3]);
    fn sleep_flat_store_signature(t: In, tl: u64, g: Out, gl: u64, b: In, bl: u64, d: In, dl: u64, n: u64, s: u64, size: u64, signature: In,
        answer: &mut [u64; 3]);
    fn sleep_flat_root_hash(t: In, tl: u64, g: In, gl: u64, b: In, bl: u64, d: In, dl: u64, n: u64, s: u64, size: u64, root: Out,
        answer: &mut [u64; 3]);
    fn sleep_flat_old_root(t: In, tl: u64, g: In, gl: u64, b: In, bl: u64, d: In, dl: u64, n: u64, s: u64, size: u64, m: u64, root: Out,
        answer: &mut [u64; 3]);
    fn sleep_flat_stored_leaf(t: In, tl: u64, g: In, gl: u64, b: In, bl: u64, d: In, dl: u64, n: u64, s: u64, size: u64, chunk: u64,
        hash: Out, length: *mut u64, answer: &mut [u64; 3]);
    fn sleep_flat_audit(t: In, tl: u64, g: In, gl: u64, b: In, bl: u64, d: In, dl: u64, n: u64, s: u64, size: u64, answer: &mut [u64; 3]);
    fn sleep_flat_place(t: In, tl: u64, g: In, gl: u64, b: In, bl: u64, d: In, dl: u64, n: u64, s: u64, size: u64, chunk: u64,
        out: *mut u64, answer: &mut [u64; 3]);
    fn sleep_flat_byte(t: In, tl: u64, g: In, gl: u64, b: In, bl: u64, d: In, dl: u64, n: u64, s: u64, size: u64, offset: u64,
        out: *mut u64, answer: &mut [u64; 3]);
    fn sleep_flat_read(t: In, tl: u64, g: In, gl: u64, b: In, bl: u64, d: In, dl: u64, n: u64, s: u64, size: u64, chunk: u64, out: *mut u64,
        answer: &mut [u64; 3]);
    fn sleep_flat_search(t: In, tl: u64, g: In, gl: u64, b: In, bl: u64, d: In, dl: u64, n: u64, s: u64, size: u64, from: u64,
        out: *mut u64, answer: &mut [u64; 3]);
    fn sleep_flat_short_place(t: In, tl: u64, g: In, gl: u64, b: In, bl: u64, d: In, dl: u64, n: u64, s: u64, size: u64, chunk: u64,
        out: *mut u64, answer: &mut [u64; 3]);
    fn sleep_flat_short_byte(t: In, tl: u64, g: In, gl: u64, b: In, bl: u64, d: In, dl: u64, n: u64, s: u64, size: u64, offset: u64,
        out: *mut u64, answer: &mut [u64; 3]);
    fn sleep_flat_short_search(t: In, tl: u64, g: In, gl: u64, b: In, bl: u64, d: In, dl: u64, n: u64, s: u64, size: u64, from: u64,
        out: *mut u64, answer: &mut [u64; 3]);
    fn sleep_flat_release(t: In, tl: u64, g: In, gl: u64, b: Out, bl: u64, d: Out, dl: u64, n: u64, s: u64, size: u64, chunk: u64,
        answer: &mut [u64; 3]);
    fn sleep_flat_make_packet(t: In, tl: u64, g: In, gl: u64, b: In, bl: u64, d: In, dl: u64, n: u64, s: u64, size: u64, chunk: u64,
        out: Out, out_length: u64, length: *mut u64, answer: &mut [u64; 3]);
    fn sleep_flat_needs(n: u64, size: u64, lengths: *const u64, lengths_count: u64, out: *mut u64, answer: &mut [u64; 3]);
    fn sleep_flat_fresh(table: *mut u64, answer: &mut [u64; 3]);
    fn sleep_flat_enter(table: *mut u64, station: u64, name: u64, chunk: u64, answer: &mut [u64; 3]);
    fn sleep_flat_serve(table: *mut u64, t: In, tl: u64, g: In, gl: u64, b: In, bl: u64, d: In, dl: u64, n: u64, s: u64, size: u64, t2: In,
        tl2: u64, g2: In, gl2: u64, b2: In, bl2: u64, d2: In, dl2: u64, n2: u64, s2: u64, size2: u64, out: *mut u64, answer: &mut [u64; 7]);
    fn sleep_flat_write_header(content: In, content_length: u64, out: Out, out_length: u64, length: *mut u64, answer: &mut [u64; 3]);
    fn sleep_flat_write_node(bytes: In, bytes_length: u64, node: &[u64; 67], out: Out, out_length: u64, length: *mut u64,
        answer: &mut [u64; 3]);
    fn sleep_flat_read_header(bytes: In, bytes_length: u64, out: *mut u64, answer: &mut [u64; 3]);
    fn sleep_flat_read_node(bytes: In, bytes_length: u64, answer: &mut [u64; 70]);
    fn sleep_flat_header_of(t: In, tl: u64, g: In, gl: u64, b: In, bl: u64, d: In, dl: u64, n: u64, s: u64, size: u64, chunk: u64,
        out: *mut u64, answer: &mut [u64; 3]);
    fn sleep_flat_node_of(t: In, tl: u64, g: In, gl: u64, b: In, bl: u64, d: In, dl: u64, n: u64, s: u64, size: u64, chunk: u64,
        answer: &mut [u64; 70]);
    fn sleep_flat_find(t: In, tl: u64, g: In, gl: u64, b: In, bl: u64, d: In, dl: u64, n: u64, s: u64, size: u64, path: In,
        path_length: u64, answer: &mut [u64; 5]);
    fn sleep_flat_group(bytes: In, bytes_length: u64, out: Out, out_length: u64, answer: &mut [u64; 3]);
    fn sleep_flat_ungroup(bytes: In, bytes_length: u64, out: Out, out_length: u64, answer: &mut [u64; 3]);
    fn sleep_flat_check_packet(packet: In, packet_length: u64, n: u64, chunk: u64, root: In, out: *mut u64, answer: &mut [u64; 3]);
    fn sleep_flat_compare_packets(first: In, first_length: u64, second: In, second_length: u64, n: u64, chunk: u64, root: In,
        answer: &mut [u64; 4]);
    fn sleep_flat_compare(t: In, tl: u64, g: In, gl: u64, b: In, bl: u64, d: In, dl: u64, n: u64, s: u64, size: u64, t2: In, tl2: u64,
        g2: In, gl2: u64, b2: In, bl2: u64, d2: In, dl2: u64, n2: u64, s2: u64, size2: u64, answer: &mut [u64; 4]);
    fn sleep_flat_audit_tree_part(t: In, tl: u64, g: In, gl: u64, b: In, bl: u64, d: In, dl: u64, n: u64, s: u64, size: u64, from: u64, to: u64,
        answer: &mut [u64; 3]);
    fn sleep_flat_audit_bitfield_part(t: In, tl: u64, g: In, gl: u64, b: In, bl: u64, d: In, dl: u64, n: u64, s: u64, size: u64, from: u64,
        to: u64, answer: &mut [u64; 3]);
    fn sleep_flat_compare_held_part(t: In, tl: u64, g: In, gl: u64, b: In, bl: u64, d: In, dl: u64, n: u64, s: u64, size: u64,
        answer: &mut [u64; 3]);
    fn sleep_flat_compare_roots_part(t: In, tl: u64, g: In, gl: u64, b: In, bl: u64, d: In, dl: u64, n: u64, s: u64, size: u64, t2: In,
        tl2: u64, g2: In, gl2: u64, b2: In, bl2: u64, d2: In, dl2: u64, n2: u64, s2: u64, size2: u64, answer: &mut [u64; 4]);
    fn sleep_flat_compare_walk_part(t: In, tl: u64, g: In, gl: u64, b: In, bl: u64, d: In, dl: u64, n: u64, s: u64, size: u64, t2: In,
        tl2: u64, g2: In, gl2: u64, b2: In, bl2: u64, d2: In, dl2: u64, n2: u64, s2: u64, size2: u64, from: u64, to: u64,
        answer: &mut [u64; 4]);
    fn sleep_flat_copy_audit_tree_part(t: In, tl: u64, b: In, bl: u64, d: In, dl: u64, n: u64, size: u64, from: u64, to: u64,
        answer: &mut [u64; 3]);
    fn sleep_flat_copy_audit_bitfield_part(t: In, tl: u64, b: In, bl: u64, d: In, dl: u64, n: u64, size: u64, from: u64, to: u64,
        answer: &mut [u64; 3]);
    fn sleep_flat_make_copy(t: Out, tl: u64, b: Out, bl: u64, d: Out, dl: u64, n: u64, size: u64, answer: &mut [u64; 3]);
    fn sleep_flat_take_in(t: Out, tl: u64, b: Out, bl: u64, d: Out, dl: u64, n: u64, size: u64, packet: In, packet_length: u64, chunk: u64,
        root: In, answer: &mut [u64; 3]);
    fn sleep_flat_copy_audit(t: In, tl: u64, b: In, bl: u64, d: In, dl: u64, n: u64, size: u64, answer: &mut [u64; 3]);
    fn sleep_flat_copy_root_hash(t: In, tl: u64, b: In, bl: u64, d: In, dl: u64, n: u64, size: u64, root: Out, answer: &mut [u64; 3]);
    fn sleep_flat_copy_old_root(t: In, tl: u64, b: In, bl: u64, d: In, dl: u64, n: u64, size: u64, m: u64, root: Out,
        answer: &mut [u64; 3]);
    fn sleep_flat_copy_stored_leaf(t: In, tl: u64, b: In, bl: u64, d: In, dl: u64, n: u64, size: u64, chunk: u64, hash: Out,
        length: *mut u64, answer: &mut [u64; 3]);
    fn sleep_flat_copy_place(t: In, tl: u64, b: In, bl: u64, d: In, dl: u64, n: u64, size: u64, chunk: u64, out: *mut u64,
        answer: &mut [u64; 3]);
    fn sleep_flat_copy_byte(t: In, tl: u64, b: In, bl: u64, d: In, dl: u64, n: u64, size: u64, offset: u64, out: *mut u64,
        answer: &mut [u64; 3]);
    fn sleep_flat_copy_read(t: In, tl: u64, b: In, bl: u64, d: In, dl: u64, n: u64, size: u64, chunk: u64, out: *mut u64,
        answer: &mut [u64; 3]);
    fn sleep_flat_copy_search(t: In, tl: u64, b: In, bl: u64, d: In, dl: u64, n: u64, size: u64, from: u64, out: *mut u64,
        answer: &mut [u64; 3]);
    fn sleep_flat_copy_short_place(t: In, tl: u64, b: In, bl: u64, d: In, dl: u64, n: u64, size: u64, chunk: u64, out: *mut u64,
        answer: &mut [u64; 3]);
    fn sleep_flat_copy_short_byte(t: In, tl: u64, b: In, bl: u64, d: In, dl: u64, n: u64, size: u64, offset: u64, out: *mut u64,
        answer: &mut [u64; 3]);
    fn sleep_flat_copy_short_search(t: In, tl: u64, b: In, bl: u64, d: In, dl: u64, n: u64, size: u64, from: u64, out: *mut u64,
        answer: &mut [u64; 3]);
    fn sleep_flat_copy_release(t: In, tl: u64, b: Out, bl: u64, d: Out, dl: u64, n: u64, size: u64, chunk: u64, answer: &mut [u64; 3]);
    fn sleep_flat_copy_make_packet(t: In, tl: u64, b: In, bl: u64, d: In, dl: u64, n: u64, size: u64, chunk: u64, out: Out, out_length: u64,
        length: *mut u64, answer: &mut [u64; 3]);
    fn sleep_flat_copy_header_of(t: In, tl: u64, b: In, bl: u64, d: In, dl: u64, n: u64, size: u64, chunk: u64, out: *mut u64,
        answer: &mut [u64; 3]);
    fn sleep_flat_copy_node_of(t: In, tl: u64, b: In, bl: u64, d: In, dl: u64, n: u64, size: u64, chunk: u64, answer: &mut [u64; 70]);
    fn sleep_flat_copy_find(t: In, tl: u64, b: In, bl: u64, d: In, dl: u64, n: u64, size: u64, path: In, path_length: u64,
        answer: &mut [u64; 5]);
    fn sleep_flat_journal_begin(journal: Out, journal_length: u64, states: &[u64; 20], answer: &mut [u64; 2]);
    fn sleep_flat_journal_put(journal: Out, journal_length: u64, at: u64, file: u64, kind: u64, offset: u64, length: u64, old_bytes: In,
        old_bytes_length: u64, new_bytes: In, new_bytes_length: u64, answer: &mut [u64; 2]);
    fn sleep_flat_journal_end(journal: Out, journal_length: u64, at: u64, answer: &mut [u64; 2]);
    fn sleep_flat_journal_check(journal: In, journal_length: u64, answer: &mut [u64; 2]);
    fn sleep_flat_journal_states(journal: In, journal_length: u64, file: u64, states: &mut [u64; 2], answer: &mut [u64; 2]);
    fn sleep_flat_journal_between(journal: In, journal_length: u64, file: u64, at: u64, there: u64, bytes: In, bytes_length: u64,
        answer: &mut [u64; 2]);
    fn sleep_flat_journal_next(journal: In, journal_length: u64, at: u64, range: &mut [u64; 5], answer: &mut [u64; 2]);
    fn sleep_flat_version() -> u64;
}

impl Answer {
    fn refusal(self) -> Refusal {
        let place = match self.place_kind {
            1 => Place::TreeIndex(self.place),
            2 => Place::BitfieldByte(self.place),
            _ => Place::None,
        };
        Refusal { number: self.number, place }
    }

    fn result<T>(self, given: T) -> Result<T, Refusal> {
        match self.number {
            0 => Ok(given),
            _ => Err(self.refusal()),
        }
    }
}

impl Compared {
    fn comparison(self) -> Comparison {
        match self.outcome {
            0 => Comparison::Equal,
            1 => Comparison::RootsDiffer,
            2 => Comparison::CollisionAtRoots,
            3 => Comparison::CollisionAtIndex(self.answer.place),
            4 => Comparison::FirstRefused(self.answer.refusal()),
            _ => Comparison::SecondRefused(self.answer.refusal()),
        }
    }
}

fn plain<T>(number: u64, given: T) -> Result<T, Refusal> {
    Answer { number, place_kind: 0, place: 0 }.result(given)
}

/// BLAKE2b with `length` bytes of output, 1 to 64, then zeros, under a key of 0 to 64 bytes.
pub fn hash(length: u64, key: &[u8], message: &[u8]) -> Result<[u8; 64], Refusal> {
    let mut digest = [0; 64];
    let number =
        unsafe { sleep_flat_hash(length, key.as_ptr(), key.len() as u64, message.as_ptr(), message.len() as u64, digest.as_mut_ptr()) };
    plain(number, digest)
}

/// BLAKE2b with 32 bytes of output under a key of 0 to 64 bytes, of a message in two parts.
pub fn hash_parts(key: &[u8], prefix: &[u8], body: &[u8]) -> Result<[u8; 32], Refusal> {
    let mut out = [0; 32];
    let (k, p, b) = (key.as_ptr(), prefix.as_ptr(), body.as_ptr());
    let number = unsafe { sleep_flat_hash_parts(k, key.len() as u64, p, prefix.len() as u64, b, body.len() as u64, out.as_mut_ptr()) };
    plain(number, out)
}

/// The label of a root hash under a key of 0 to 64 bytes.
pub fn label(root: &[u8; 32], key: &[u8]) -> Result<[u8; 32], Refusal> {
    let mut out = [0; 32];
    let number = unsafe { sleep_flat_label(root.as_ptr(), key.as_ptr(), key.len() as u64, out.as_mut_ptr()) };
    plain(number, out)
}

/// The bytes grouped, at the front of `out`, which keeps its rest.
pub fn group(bytes: &[u8], out: &mut [u8]) -> Result<(), Refusal> {
    call!(sleep_flat_group, bytes.as_ptr(), bytes.len() as u64, out.as_mut_ptr(), out.len() as u64).result(())
}

/// Grouped bytes as they were before, at the front of `out`, which keeps its rest.
pub fn ungroup(bytes: &[u8], out: &mut [u8]) -> Result<(), Refusal> {
    call!(sleep_flat_ungroup, bytes.as_ptr(), bytes.len() as u64, out.as_mut_ptr(), out.len() as u64).result(())
}

/// What chunks of these lengths behind `n` others of `size` bytes will need, appended singly.
pub fn needs(n: u64, size: u64, lengths: &[u64]) -> Result<Needs, Refusal> {
    let mut out = [0; 8];
    call!(sleep_flat_needs, n, size, lengths.as_ptr(), lengths.len() as u64, out.as_mut_ptr()).result(())?;
    let [tree, signatures, bitfield, data, leaves, parents, root, runs] = out;
    Ok(Needs { tree, signatures, bitfield, data, leaves, parents, root, runs })
}

/// The chunk in a packet that shows it to be chunk number `chunk` of the `n` chunks under a root hash.
pub fn check_packet<'a>(packet: &'a [u8], n: u64, chunk: u64, root: &[u8; 32]) -> Result<&'a [u8], Refusal> {
    let mut out = [0; 2];
    let answer = call!(sleep_flat_check_packet, packet.as_ptr(), packet.len() as u64, n, chunk, root.as_ptr(), out.as_mut_ptr());
    answer.result(())?;
    Ok(part(packet, out))
}

/// Both packets checked, and then the walk along them: chunks that differ under one root hash lead to two messages with one hash.
pub fn compare_packets(first: &[u8], second: &[u8], n: u64, chunk: u64, root: &[u8; 32]) -> Walked {
    #[rustfmt::skip]
    let said = call!(sleep_flat_compare_packets, first.as_ptr(), first.len() as u64, second.as_ptr(), second.len() as u64, n, chunk,
        root.as_ptr());
    match said.outcome {
        0 => Walked::SameChunk,
        2 => Walked::CollisionAtRoots,
        3 => Walked::CollisionAtIndex(said.answer.place),
        4 => Walked::FirstRefused(said.answer.refusal()),
        _ => Walked::SecondRefused(said.answer.refusal()),
    }
}

/// The Header with these content bytes, 32 of them, at the front of `out`; its length.
pub fn write_header(content: &[u8], out: &mut [u8]) -> Result<usize, Refusal> {
    let mut length = 0;
    let answer = call!(sleep_flat_write_header, content.as_ptr(), content.len() as u64, out.as_mut_ptr(), out.len() as u64, &mut length);
    answer.result(())?;
    Ok(length as usize)
}

/// The version of the archive that is linked: `VERSION` where it is the one that this wrapper is of.
pub fn version() -> u64 {
    unsafe { sleep_flat_version() }
}

/// The content bytes of the Header that `bytes` are.
pub fn read_header(bytes: &[u8]) -> Result<&[u8], Refusal> {
    let mut out = [0; 2];
    let answer = call!(sleep_flat_read_header, bytes.as_ptr(), bytes.len() as u64, out.as_mut_ptr());
    answer.result(())?;
    Ok(part(bytes, out))
}

/// The record of a Node at the front of `out`; its length.
pub fn write_node(node: &Node, out: &mut [u8]) -> Result<usize, Refusal> {
    let (flat, bytes) = node.flat();
    let mut length = 0;
    let answer = call!(sleep_flat_write_node, bytes.as_ptr(), bytes.len() as u64, &flat, out.as_mut_ptr(), out.len() as u64, &mut length);
    answer.result(())?;
    Ok(length as usize)
}

/// The Node that `bytes` are, with parts of them.
pub fn read_node(bytes: &[u8]) -> Result<Node<'_>, Refusal> {
    let read = call!(sleep_flat_read_node, bytes.as_ptr(), bytes.len() as u64);
    read.answer.result(())?;
    Ok(Node::of(bytes, &read.node))
}

/// A number's field, as numbers and back.
fn number(value: Option<u64>) -> [u64; 2] {
    [value.is_some() as u64, value.unwrap_or(0)]
}

fn number_at(flat: &[u64]) -> Option<u64> {
    (flat[0] != 0).then_some(flat[1])
}

/// More bytes behind those that are there, as a part of them.
fn placed(data: &[u8], bytes: &mut Vec<u8>) -> [u64; 2] {
    let offset = bytes.len() as u64;
    bytes.extend_from_slice(data);
    [offset, data.len() as u64]
}

fn part_at<'a>(flat: &[u64], whole: &'a [u8]) -> &'a [u8] {
    part(whole, [flat[0], flat[1]])
}

/// A part's field, as numbers and back.
fn optional(data: Option<&[u8]>, bytes: &mut Vec<u8>) -> [u64; 3] {
    let [offset, length] = data.map_or([0; 2], |data| placed(data, bytes));
    [data.is_some() as u64, offset, length]
}

fn optional_at<'a>(flat: &[u64], whole: &'a [u8]) -> Option<&'a [u8]> {
    (flat[0] != 0).then(|| part_at(&flat[1..], whole))
}

impl Stat {
    fn fields(self) -> [Option<u64>; 9] {
        [self.mode, self.uid, self.gid, self.size, self.blocks, self.offset, self.byte_offset, self.mtime, self.ctime]
    }

    fn of(fields: [Option<u64>; 9]) -> Stat {
        let [mode, uid, gid, size, blocks, offset, byte_offset, mtime, ctime] = fields;
        Stat { mode, uid, gid, size, blocks, offset, byte_offset, mtime, ctime }
    }
}

impl<'a> Node<'a> {
    /// The fields as numbers, and the bytes that the parts lie in. Of more than 8 writers the first 8 are listed, and all are counted.
    fn flat(&self) -> ([u64; 67], Vec<u8>) {
        let mut bytes = Vec::new();
        let mut flat = [0; 67];
        flat[..2].copy_from_slice(&placed(self.path, &mut bytes));
        if let Some(stat) = self.stat {
            flat[2] = 1;
            flat[3..21].copy_from_slice(&stat.fields().map(number).concat());
        }
        flat[21..24].copy_from_slice(&optional(self.trie, &mut bytes));
        flat[24] = self.writers.len() as u64;
        for (place, writer) in flat[25..65].chunks_mut(5).zip(&self.writers) {
            place[..2].copy_from_slice(&placed(writer.key, &mut bytes));
            place[2..].copy_from_slice(&optional(writer.permission, &mut bytes));
        }
        flat[65..].copy_from_slice(&number(self.sequence));
        (flat, bytes)
    }

    fn of(bytes: &'a [u8], flat: &[u64; 67]) -> Node<'a> {
        let writers = flat[25..65].chunks(5).take(flat[24] as usize);
        Node {
            path: part_at(flat, bytes),
            stat: (flat[2] != 0).then(|| Stat::of(std::array::from_fn(|k| number_at(&flat[3 + 2 * k..])))),
            trie: optional_at(&flat[21..], bytes),
            writers: writers.map(|w| Writer { key: part_at(w, bytes), permission: optional_at(&w[2..], bytes) }).collect(),
            sequence: number_at(&flat[65..]),
        }
    }
}

/// A part of a slice, by its offset and its length.
fn part(whole: &[u8], out: [u64; 2]) -> &[u8] {
    let (start, length) = (out[0] as usize, out[1] as usize);
    &whole[start..start + length]
}

/// A call on a register that is only read: the four slices and the three numbers come first.
macro_rules! reading {
    ($call:ident, $r:expr $(, $other:expr)*) => {
        call!(
            $call, $r.tree.as_ptr(), $r.tree.len() as u64, $r.signatures.as_ptr(), $r.signatures.len() as u64, $r.bitfield.as_ptr(),
            $r.bitfield.len() as u64, $r.data.as_ptr(), $r.data.len() as u64, $r.n, $r.s, $r.size $(, $other)*
        )
    };
}

/// A call on a copy that is only read: the three slices and the two numbers come first.
macro_rules! reading_copy {
    ($call:ident, $c:expr $(, $other:expr)*) => {
        call!(
            $call, $c.tree.as_ptr(), $c.tree.len() as u64, $c.bitfield.as_ptr(), $c.bitfield.len() as u64, $c.data.as_ptr(),
            $c.data.len() as u64, $c.n, $c.size $(, $other)*
        )
    };
}

/// A register or a copy, whichever is there.
#[derive(Clone, Copy)]
pub enum Lent<'a> {
    Whole(Register<'a>),
    Copy(Copied<'a>),
}

impl<'a> Register<'a> {
    fn data_bytes(&self) -> &'a [u8] {
        self.data
    }
}

impl<'a> Copied<'a> {
    fn data_bytes(&self) -> &'a [u8] {
        self.data
    }
}

impl<'a> Lent<'a> {
    fn data_bytes(&self) -> &'a [u8] {
        match self {
            Lent::Whole(lent) => lent.data,
            Lent::Copy(lent) => lent.data,
        }
    }
}

/// Which of two calls is made: the register's, the copy's, or that of the one which is there.
macro_rules! of_register {
    ($r:expr, $call:ident, $of_copy:ident $(, $other:expr)*) => { reading!($call, $r $(, $other)*) };
}

macro_rules! of_copy {
    ($c:expr, $of_register:ident, $call:ident $(, $other:expr)*) => { reading_copy!($call, $c $(, $other)*) };
}

macro_rules! of_either {
    ($lent:expr, $of_register:ident, $of_copy:ident $(, $other:expr)*) => {
        match $lent {
            Lent::Whole(r) => reading!($of_register, r $(, $other)*),
            Lent::Copy(c) => reading_copy!($of_copy, c $(, $other)*),
        }
    };
}

/// The calls that a register and a copy have in common. Those on a copy are refused with 20 where they would read an entry that is not known.
macro_rules! calls_of {
    ($lent:ident, $call:ident) => {
        impl<'a> $lent<'a> {
            pub fn audit(&self) -> Result<(), Refusal> {
                $call!(self, sleep_flat_audit, sleep_flat_copy_audit).result(())
            }

            pub fn root_hash(&self) -> Result<[u8; 32], Refusal> {
                let mut root = [0; 32];
                let answer = $call!(self, sleep_flat_root_hash, sleep_flat_copy_root_hash, root.as_mut_ptr());
                answer.result(root)
            }

            /// The root hash of the first m chunks, as it was when the register had m.
            pub fn old_root(&self, m: u64) -> Result<[u8; 32], Refusal> {
                let mut root = [0; 32];
                let answer = $call!(self, sleep_flat_old_root, sleep_flat_copy_old_root, m, root.as_mut_ptr());
                answer.result(root)
            }

            /// The entry that is stored for a chunk's leaf, held or released. Nothing is audited.
            pub fn stored_leaf(&self, chunk: u64) -> Result<Leaf, Refusal> {
                let mut leaf = Leaf { hash: [0; 32], length: 0 };
                let answer =
                    $call!(self, sleep_flat_stored_leaf, sleep_flat_copy_stored_leaf, chunk, leaf.hash.as_mut_ptr(), &mut leaf.length);
                answer.result(leaf)
            }

            /// Start and length of a chunk, held or not.
            pub fn place(&self, chunk: u64) -> Result<Pair, Refusal> {
                let mut out = [0; 2];
                let answer = $call!(self, sleep_flat_place, sleep_flat_copy_place, chunk, out.as_mut_ptr());
                answer.result((out[0], out[1]))
            }

            /// The chunk that has the byte at an offset, and the offset less its start; at the data size n and 0.
            pub fn byte(&self, offset: u64) -> Result<Pair, Refusal> {
                let mut out = [0; 2];
                let answer = $call!(self, sleep_flat_byte, sleep_flat_copy_byte, offset, out.as_mut_ptr());
                answer.result((out[0], out[1]))
            }

            /// The bytes of a chunk that is held, where they lie, after their hash was compared.
            pub fn read(&self, chunk: u64) -> Result<&'a [u8], Refusal> {
                let mut out = [0; 2];
                let answer = $call!(self, sleep_flat_read, sleep_flat_copy_read, chunk, out.as_mut_ptr());
                answer.result(())?;
                Ok(part(self.data_bytes(), out))
            }

            /// The first chunk from a number on, below n, that is not held.
            pub fn search(&self, from: u64) -> Result<Option<u64>, Refusal> {
                let mut out = [0; 2];
                let answer = $call!(self, sleep_flat_search, sleep_flat_copy_search, from, out.as_mut_ptr());
                answer.result(())?;
                Ok((out[0] == 1).then_some(out[1]))
            }

            /// Start and length of a chunk by the leaf lengths alone, added up from chunk 0 on. Of a register that no audit accepted they may run past the data.
            pub fn short_place(&self, chunk: u64) -> Result<Pair, Refusal> {
                let mut out = [0; 2];
                let answer = $call!(self, sleep_flat_short_place, sleep_flat_copy_short_place, chunk, out.as_mut_ptr());
                answer.result((out[0], out[1]))
            }

            /// The chunk that has the byte at an offset, and the offset less its start, by the leaf lengths alone; at the data size n and 0.
            pub fn short_byte(&self, offset: u64) -> Result<Pair, Refusal> {
                let mut out = [0; 2];
                let answer = $call!(self, sleep_flat_short_byte, sleep_flat_copy_short_byte, offset, out.as_mut_ptr());
                answer.result((out[0], out[1]))
            }

            /// The first chunk from a number on, below n, whose data bit is 0.
            pub fn short_search(&self, from: u64) -> Result<Option<u64>, Refusal> {
                let mut out = [0; 2];
                let answer = $call!(self, sleep_flat_short_search, sleep_flat_copy_short_search, from, out.as_mut_ptr());
                answer.result(())?;
                Ok((out[0] == 1).then_some(out[1]))
            }

            /// The packet of a chunk at the front of `out`; its length.
            pub fn make_packet(&self, chunk: u64, out: &mut [u8]) -> Result<usize, Refusal> {
                let mut length = 0;
                let answer = $call!(
                    self,
                    sleep_flat_make_packet,
                    sleep_flat_copy_make_packet,
                    chunk,
                    out.as_mut_ptr(),
                    out.len() as u64,
                    &mut length
                );
                answer.result(())?;
                Ok(length as usize)
            }

            /// The bytes of a chunk that was read.
            fn chunk(&self, chunk: u64) -> Result<&'a [u8], Refusal> {
                self.place(chunk).map(|(start, length)| part(self.data_bytes(), [start, length]))
            }

            /// The content bytes of the Header that a chunk is, as a rule chunk 0.
            pub fn header_of(&self, chunk: u64) -> Result<&'a [u8], Refusal> {
                let mut out = [0; 2];
                $call!(self, sleep_flat_header_of, sleep_flat_copy_header_of, chunk, out.as_mut_ptr()).result(())?;
                Ok(part(self.chunk(chunk)?, out))
            }

            /// The Node that a chunk is, with parts of the data.
            pub fn node_of(&self, chunk: u64) -> Result<Node<'a>, Refusal> {
                let read = $call!(self, sleep_flat_node_of, sleep_flat_copy_node_of, chunk);
                read.answer.result(())?;
                Ok(Node::of(self.chunk(chunk)?, &read.node))
            }

            /// The highest chunk number from 1 up whose record has this path.
            pub fn find(&self, path: &[u8]) -> Result<Option<u64>, Refusal> {
                let sought = $call!(self, sleep_flat_find, sleep_flat_copy_find, path.as_ptr(), path.len() as u64);
                sought.answer.result(())?;
                Ok((sought.found != 0).then_some(sought.chunk))
            }

            /// The audit's checks, then the tree entries of a range; of a copy the place may lie outside it.
            pub fn audit_tree_part(&self, range: Range<u64>) -> Result<(), Refusal> {
                $call!(self, sleep_flat_audit_tree_part, sleep_flat_copy_audit_tree_part, range.start, range.end).result(())
            }

            /// The audit's checks, then the bitfield's entries of a range.
            pub fn audit_bitfield_part(&self, range: Range<u64>) -> Result<(), Refusal> {
                $call!(self, sleep_flat_audit_bitfield_part, sleep_flat_copy_audit_bitfield_part, range.start, range.end).result(())
            }
        }
    };
}

calls_of!(Register, of_register);
calls_of!(Copied, of_copy);
calls_of!(Lent, of_either);

/// What a register alone has.
impl<'a> Register<'a> {
    /// What an append of a chunk would give, its root hash, or its refusal; nothing is written.
    pub fn preview(&self, chunk: &[u8]) -> Result<[u8; 32], Refusal> {
        let mut root = [0; 32];
        let answer = reading!(sleep_flat_preview, self, chunk.as_ptr(), chunk.len() as u64, root.as_mut_ptr());
        answer.result(root)
    }

    /// The checks of both registers, which have to hold all their chunks, and then the comparing walk.
    pub fn compare(&self, second: &Register) -> Comparison {
        let b = second;
        #[rustfmt::skip]
        let said = reading!(sleep_flat_compare, self, b.tree.as_ptr(), b.tree.len() as u64, b.signatures.as_ptr(), b.signatures.len() as u64,
            b.bitfield.as_ptr(), b.bitfield.len() as u64, b.data.as_ptr(), b.data.len() as u64, b.n, b.s, b.size);
        said.comparison()
    }
}

// ---- audits and comparisons in parts (include/sleep_register.h, AUDITS IN PARTS)

/// How many tree entries `n` chunks have, and how many entries their bitfield.
pub fn tree_entries(n: u64) -> u64 {
    (2 * n).saturating_sub(1)
}

pub fn bitfield_entries(n: u64) -> u64 {
    n.div_ceil(8192)
}

/// What two parts of one audit say together: the lower number, and of one number the lower place; "done" comes last.
pub fn earlier(a: Result<(), Refusal>, b: Result<(), Refusal>) -> Result<(), Refusal> {
    fn order(refusal: Refusal) -> (u64, u64) {
        let place = match refusal.place {
            Place::None => 0,
            Place::TreeIndex(at) | Place::BitfieldByte(at) => at,
        };
        (refusal.number, place)
    }
    match (a, b) {
        (Err(x), Err(y)) if order(x) < order(y) => a,
        (Err(_), Ok(())) => a,
        _ => b,
    }
}

impl Register<'_> {
    /// The checks for a comparison that look at no tree entry.
    pub fn compare_held_part(&self) -> Result<(), Refusal> {
        reading!(sleep_flat_compare_held_part, self).result(())
    }

    /// The root hashes, then the root messages. `Equal` says that neither differs.
    pub fn compare_roots_part(&self, second: &Register) -> Comparison {
        let b = second;
        #[rustfmt::skip]
        let said = reading!(sleep_flat_compare_roots_part, self, b.tree.as_ptr(), b.tree.len() as u64, b.signatures.as_ptr(),
            b.signatures.len() as u64, b.bitfield.as_ptr(), b.bitfield.len() as u64, b.data.as_ptr(), b.data.len() as u64, b.n, b.s, b.size);
        said.comparison()
    }

    /// The lowest collision of a range of tree indexes. `Equal` says that none of them has one.
    pub fn compare_walk_part(&self, second: &Register, range: Range<u64>) -> Comparison {
        let b = second;
        #[rustfmt::skip]
        let said = reading!(sleep_flat_compare_walk_part, self, b.tree.as_ptr(), b.tree.len() as u64, b.signatures.as_ptr(),
            b.signatures.len() as u64, b.bitfield.as_ptr(), b.bitfield.len() as u64, b.data.as_ptr(), b.data.len() as u64, b.n, b.s, b.size,
            range.start, range.end);
        said.comparison()
    }
}

impl CopyStore {
    /// Buffers for a copy of `n` chunks with `size` data bytes; `make` comes next.
    pub fn with_room(n: usize, size: usize) -> CopyStore {
        let Store { tree, bitfield, data, .. } = Store::with_room(n, size);
        CopyStore { tree, bitfield, data, n: n as u64, size: size as u64 }
    }
}

impl<B: AsRef<[u8]> + AsMut<[u8]>> CopyStore<B> {
    pub fn copied(&self) -> Copied<'_> {
        Copied { tree: self.tree.as_ref(), bitfield: self.bitfield.as_ref(), data: self.data.as_ref(), n: self.n, size: self.size }
    }

    /// A copy of which nothing is known yet.
    pub fn make(&mut self) -> Result<(), Refusal> {
        let (t, b, d) = (self.tree.as_mut(), self.bitfield.as_mut(), self.data.as_mut());
        let (tl, bl, dl) = (t.len() as u64, b.len() as u64, d.len() as u64);
        call!(sleep_flat_make_copy, t.as_mut_ptr(), tl, b.as_mut_ptr(), bl, d.as_mut_ptr(), dl, self.n, self.size).result(())
    }

    /// The packet of a chunk, under the root hash of the register: its entries are known then, and the chunk is held.
    pub fn take_in(&mut self, packet: &[u8], chunk: u64, root: &[u8; 32]) -> Result<(), Refusal> {
        let (t, b, d) = (self.tree.as_mut(), self.bitfield.as_mut(), self.data.as_mut());
        let (tl, bl, dl) = (t.len() as u64, b.len() as u64, d.len() as u64);
        #[rustfmt::skip]
        let answer = call!(sleep_flat_take_in, t.as_mut_ptr(), tl, b.as_mut_ptr(), bl, d.as_mut_ptr(), dl, self.n, self.size,
            packet.as_ptr(), packet.len() as u64, chunk, root.as_ptr());
        answer.result(())
    }

    /// Makes room: the chunk is no longer held, and its bytes are zeros; its entries stay known.
    pub fn release(&mut self, chunk: u64) -> Result<(), Refusal> {
        let (t, b, d) = (self.tree.as_ref(), self.bitfield.as_mut(), self.data.as_mut());
        let (bl, dl) = (b.len() as u64, d.len() as u64);
        #[rustfmt::skip]
        let answer = call!(sleep_flat_copy_release, t.as_ptr(), t.len() as u64, b.as_mut_ptr(), bl, d.as_mut_ptr(), dl, self.n, self.size,
            chunk);
        answer.result(())
    }
}

impl Table {
    /// No read waits, as if station 15 had been served.
    pub fn fresh() -> Table {
        let mut table = Table { numbers: [0; 161] };
        call!(sleep_flat_fresh, table.numbers.as_mut_ptr());
        table
    }

    /// A read that waits behind those of its station.
    pub fn enter(&mut self, station: u64, name: Name, chunk: u64) -> Result<(), Refusal> {
        let name = if name == Name::Metadata { 0 } else { 1 };
        call!(sleep_flat_enter, self.numbers.as_mut_ptr(), station, name, chunk).result(())
    }

    /// The read whose turn it is, which leaves the table; `None` where no read waits.
    pub fn serve<'a>(&mut self, metadata: &Register<'a>, content: &Register<'a>) -> Option<Served<'a>> {
        let (m, c, mut out) = (metadata, content, [0; 2]);
        #[rustfmt::skip]
        let said = call!(sleep_flat_serve, self.numbers.as_mut_ptr(), m.tree.as_ptr(), m.tree.len() as u64, m.signatures.as_ptr(),
            m.signatures.len() as u64, m.bitfield.as_ptr(), m.bitfield.len() as u64, m.data.as_ptr(), m.data.len() as u64, m.n, m.s, m.size,
            c.tree.as_ptr(), c.tree.len() as u64, c.signatures.as_ptr(), c.signatures.len() as u64, c.bitfield.as_ptr(),
            c.bitfield.len() as u64, c.data.as_ptr(), c.data.len() as u64, c.n, c.s, c.size, out.as_mut_ptr());
        if said.served == 0 {
            return None;
        }
        let (name, data) = if said.name == 0 { (Name::Metadata, m.data) } else { (Name::Content, c.data) };
        let read = said.answer.result(()).map(|()| part(data, out));
        Some(Served { station: said.station, name, chunk: said.chunk, read })
    }
}

impl Store {
    /// Buffers with room for `chunks` chunks of `bytes` bytes together; `start` comes next.
    pub fn with_room(chunks: usize, bytes: usize) -> Store {
        Store {
            tree: vec![0; 32 + 40 * (2 * chunks).saturating_sub(1)],
            signatures: vec![0; 32 + 64 * chunks],
            bitfield: vec![0; 32 + 3328 * ((chunks + 8191) / 8192)],
            data: vec![0; bytes],
            n: 0,
            s: 0,
            size: 0,
        }
    }
}

impl<B: AsRef<[u8]> + AsMut<[u8]>> Store<B> {
    pub fn register(&self) -> Register<'_> {
        Register {
            tree: self.tree.as_ref(),
            signatures: self.signatures.as_ref(),
            bitfield: self.bitfield.as_ref(),
            data: self.data.as_ref(),
            n: self.n,
            s: self.s,
            size: self.size,
        }
    }

    pub fn start(&mut self) -> Result<(), Refusal> {
        let (t, g, b, d) = (self.tree.as_mut(), self.signatures.as_mut(), self.bitfield.as_mut(), self.data.as_ref());
        let (tl, gl, bl) = (t.len() as u64, g.len() as u64, b.len() as u64);
        call!(sleep_flat_start, t.as_mut_ptr(), tl, g.as_mut_ptr(), gl, b.as_mut_ptr(), bl, d.as_ptr(), d.len() as u64).result(())?;
        (self.n, self.s, self.size) = (0, 0, 0);
        Ok(())
    }

    /// One more chunk; the new root hash.
    pub fn append(&mut self, chunk: &[u8]) -> Result<[u8; 32], Refusal> {
        let mut root = [0; 32];
        let (t, g, b, d) = (self.tree.as_mut(), self.signatures.as_ref(), self.bitfield.as_mut(), self.data.as_mut());
        let (tl, bl, dl) = (t.len() as u64, b.len() as u64, d.len() as u64);
        #[rustfmt::skip]
        let answer = call!(sleep_flat_append, t.as_mut_ptr(), tl, g.as_ptr(), g.len() as u64, b.as_mut_ptr(), bl, d.as_mut_ptr(), dl,
            self.n, self.s, self.size, chunk.as_ptr(), chunk.len() as u64, root.as_mut_ptr());
        answer.result(())?;
        self.n += 1;
        self.size += chunk.len() as u64;
        Ok(root)
    }

    /// All chunks of a list, whose bytes stand one behind another, or none; the new root hash. The last chunk's signature is owed then, and
    /// those before it are 64 zero bytes each.
    pub fn append_list(&mut self, lengths: &[u64], bytes: &[u8]) -> Result<[u8; 32], Refusal> {
        let mut root = [0; 32];
        let (t, g, b, d) = (self.tree.as_mut(), self.signatures.as_mut(), self.bitfield.as_mut(), self.data.as_mut());
        let (tl, gl, bl, dl) = (t.len() as u64, g.len() as u64, b.len() as u64, d.len() as u64);
        #[rustfmt::skip]
        let answer = call!(sleep_flat_append_list, t.as_mut_ptr(), tl, g.as_mut_ptr(), gl, b.as_mut_ptr(), bl, d.as_mut_ptr(), dl, self.n,
            self.s, self.size, lengths.as_ptr(), lengths.len() as u64, bytes.as_ptr(), bytes.len() as u64, root.as_mut_ptr());
        answer.result(())?;
        self.n += lengths.len() as u64;
        self.s += lengths.len() as u64 - 1;
        self.size += bytes.len() as u64;
        Ok(root)
    }

    pub fn store_signature(&mut self, signature: &[u8; 64]) -> Result<(), Refusal> {
        let (t, g, b, d) = (self.tree.as_ref(), self.signatures.as_mut(), self.bitfield.as_ref(), self.data.as_ref());
        let gl = g.len() as u64;
        #[rustfmt::skip]
        let answer = call!(sleep_flat_store_signature, t.as_ptr(), t.len() as u64, g.as_mut_ptr(), gl, b.as_ptr(), b.len() as u64,
            d.as_ptr(), d.len() as u64, self.n, self.s, self.size, signature.as_ptr());
        answer.result(())?;
        self.s += 1;
        Ok(())
    }

    /// Makes room: the chunk is no longer held, and its bytes are zeros.
    pub fn release(&mut self, chunk: u64) -> Result<(), Refusal> {
        let (t, g, b, d) = (self.tree.as_ref(), self.signatures.as_ref(), self.bitfield.as_mut(), self.data.as_mut());
        let (bl, dl) = (b.len() as u64, d.len() as u64);
        #[rustfmt::skip]
        let answer = call!(sleep_flat_release, t.as_ptr(), t.len() as u64, g.as_ptr(), g.len() as u64, b.as_mut_ptr(), bl, d.as_mut_ptr(),
            dl, self.n, self.s, self.size, chunk);
        answer.result(())
    }

    /// The packet of a chunk that was released, or that is held already: the register's images taken as those of a copy.
    pub fn take_back(&mut self, packet: &[u8], chunk: u64, root: &[u8; 32]) -> Result<(), Refusal> {
        let (tree, bitfield, data) = (self.tree.as_mut(), self.bitfield.as_mut(), self.data.as_mut());
        CopyStore { tree, bitfield, data, n: self.n, size: self.size }.take_in(packet, chunk, root)
    }
}

/// The journal of a change of an archive's ten files (docs/FORMAT.md, "The journal"). A state is 0 where a file is absent, else its length and 1.
pub mod journal {
    use super::{
        sleep_flat_journal_begin, sleep_flat_journal_between, sleep_flat_journal_check, sleep_flat_journal_end, sleep_flat_journal_next,
        sleep_flat_journal_put, sleep_flat_journal_states,
    };

    /// Where the first range stands, the bytes of the hash, the least and the most bytes of a journal, and the bytes of a range but for its own.
    pub const FRONT: u64 = 184;
    pub const HASH: u64 = 32;
    pub const LEAST: u64 = 216;
    pub const MOST: u64 = 1 << 28;
    pub const HEADER: u64 = 18;

    /// The files of an archive, by their numbers.
    pub const FILES: u64 = 10;

    /// Kinds of ranges.
    pub const REPLACED: u64 = 1;
    pub const FRESH: u64 = 2;
    pub const BLANK: u64 = 3;
    pub const WITNESS: u64 = 4;

    /// Why a call is not done.
    #[derive(Clone, Copy, PartialEq, Eq, Debug)]
    pub enum Wrong {
        /// The length is no journal's, or there is no room.
        Length,
        /// It does not begin as a journal does.
        First,
        /// Its own length is not its length.
        OwnLength,
        /// The states of this file are wrong.
        State(u64),
        /// The range at this place is wrong, or there is none.
        Range(u64),
        /// This file is not covered from its old to its new length.
        Gap(u64),
        /// The hash is wrong.
        Hash,
        /// The state of this file, as it is, is not between.
        Met(u64),
        /// The byte at this offset of the file, as it is, is not between.
        Byte(u64),
        /// No such file or kind, or not as many bytes as kind and length ask.
        Unfit,
    }

    /// The state of a file.
    pub fn state(length: Option<u64>) -> u64 {
        length.map_or(0, |length| length + 1)
    }

    /// The length that a state gives; nothing where the file is absent.
    pub fn length(state: u64) -> Option<u64> {
        state.checked_sub(1)
    }

    fn said([number, place]: [u64; 2]) -> Result<u64, Wrong> {
        match number {
            0 => Ok(place),
            1 => Err(Wrong::Length),
            2 => Err(Wrong::First),
            3 => Err(Wrong::OwnLength),
            4 => Err(Wrong::State(place)),
            5 => Err(Wrong::Range(place)),
            6 => Err(Wrong::Gap(place)),
            7 => Err(Wrong::Hash),
            8 => Err(Wrong::Met(place)),
            9 => Err(Wrong::Byte(place)),
            _ => Err(Wrong::Unfit),
        }
    }

    /// Begins a journal with the old and the new state of each file; the first range's place.
    pub fn begin(journal: &mut [u8], states: &[u64; 20]) -> Result<u64, Wrong> {
        let (mut answer, length) = ([0; 2], journal.len() as u64);
        unsafe { sleep_flat_journal_begin(journal.as_mut_ptr(), length, states, &mut answer) };
        said(answer)
    }

    /// A range to be put: its file, kind, offset and length, and the bytes that its kind asks for. A witness's are old ones.
    #[derive(Clone, Copy)]
    pub struct Given<'a> {
        pub file: u64,
        pub kind: u64,
        pub offset: u64,
        pub length: u64,
        pub old: &'a [u8],
        pub new: &'a [u8],
    }

    /// Puts a range at a place; the next range's place.
    pub fn put(journal: &mut [u8], at: u64, given: Given) -> Result<u64, Wrong> {
        let (mut answer, long) = ([0; 2], journal.len() as u64);
        let Given { file, kind, offset, length, old, new } = given;
        unsafe {
            sleep_flat_journal_put(
                journal.as_mut_ptr(),
                long,
                at,
                file,
                kind,
                offset,
                length,
                old.as_ptr(),
                old.len() as u64,
                new.as_ptr(),
                new.len() as u64,
                &mut answer,
            )
        };
        said(answer)
    }

    /// Ends a journal behind its last range, where `check` would accept it; its length.
    pub fn end(journal: &mut [u8], at: u64) -> Result<u64, Wrong> {
        let (mut answer, length) = ([0; 2], journal.len() as u64);
        unsafe { sleep_flat_journal_end(journal.as_mut_ptr(), length, at, &mut answer) };
        said(answer)
    }

    /// Whether bytes are a journal.
    pub fn check(journal: &[u8]) -> Result<(), Wrong> {
        let mut answer = [0; 2];
        unsafe { sleep_flat_journal_check(journal.as_ptr(), journal.len() as u64, &mut answer) };
        said(answer).map(|_| ())
    }

    /// The old and the new state of a file.
    pub fn states(journal: &[u8], file: u64) -> Result<[u64; 2], Wrong> {
        let (mut answer, mut states) = ([0; 2], [0; 2]);
        unsafe { sleep_flat_journal_states(journal.as_ptr(), journal.len() as u64, file, &mut states, &mut answer) };
        said(answer).map(|_| states)
    }

    /// Whether a file as it is, nothing where it is absent, is between; its ranges begin at a place. The next file's begin at the place given.
    pub fn between(journal: &[u8], file: u64, at: u64, bytes: Option<&[u8]>) -> Result<u64, Wrong> {
        let mut answer = [0; 2];
        let (there, bytes) = (u64::from(bytes.is_some()), bytes.unwrap_or(&[]));
        unsafe {
            sleep_flat_journal_between(
                journal.as_ptr(),
                journal.len() as u64,
                file,
                at,
                there,
                bytes.as_ptr(),
                bytes.len() as u64,
                &mut answer,
            )
        };
        said(answer)
    }

    /// A range of a journal; `place` is where in the journal the bytes stand that the file has there after the change.
    #[derive(Clone, Copy, PartialEq, Eq, Debug)]
    pub struct Range {
        pub file: u64,
        pub kind: u64,
        pub offset: u64,
        pub length: u64,
        pub place: u64,
    }

    /// The range at a place, and the next one's place; nothing behind the last one.
    pub fn next(journal: &[u8], at: u64) -> Option<(Range, u64)> {
        let (mut answer, mut range) = ([0; 2], [0; 5]);
        unsafe { sleep_flat_journal_next(journal.as_ptr(), journal.len() as u64, at, &mut range, &mut answer) };
        let [file, kind, offset, length, place] = range;
        said(answer).ok().map(|next| (Range { file, kind, offset, length, place }, next))
    }
}
