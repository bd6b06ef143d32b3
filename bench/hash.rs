//! Hashes 64 MiB with the proved library, with a simple Rust program and, where they are installed, with libsodium and libb2: whole messages of
//! 65,536 bytes, leaf messages (a prefix of 9 bytes and such a piece) and messages of 73 bytes, as parents have. All digests are compared.
//!
//! Usage: hash [ROUNDS], or hash count PROGRAM KIND CALLS, which makes so many calls on one message, for callgrind to count.

mod others;
mod simple_blake2b;
mod timing;

use others::Digest;
use simple_blake2b::Blake2b;
use timing::{timed, Numbers};

const MEBIBYTES: usize = 64;
const ROUNDS: usize = 30;

/// Nodes and roots have the empty key.
const NO_KEY: [u8; 1] = [0];

// The proved library's archive. A slice is an address and a length, a reference to an array an address.
#[rustfmt::skip]
extern "C" {
    fn sleep_flat_hash(length: u64, key: *const u8, key_len: u64, message: *const u8, message_len: u64, digest: *mut [u8; 64]) -> u64;
    fn sleep_flat_hash_parts(key: *const u8, key_len: u64, prefix: *const u8, prefix_len: u64, body: *const u8, body_len: u64,
        out: *mut Digest) -> u64;
}

type Hash = fn(&[u8]) -> Digest;

struct Program {
    name: &'static str,
    whole: Hash,
    leaf: Hash,
    parent: Hash,
}

struct Kind {
    name: &'static str,
    length: usize,
    of: fn(&Program) -> Hash,
}

const KINDS: [Kind; 3] = [
    Kind { name: "whole", length: 65_536, of: |program| program.whole },
    Kind { name: "leaf", length: 65_536, of: |program| program.leaf },
    Kind { name: "parent", length: 73, of: |program| program.parent },
];

/// What stands before a chunk in its leaf message: 00 and the chunk's length.
fn leaf_prefix(piece: &[u8]) -> [u8; 9] {
    let mut prefix = [0; 9];
    prefix[1..].copy_from_slice(&(piece.len() as u64).to_be_bytes());
    prefix
}

fn front(digest: [u8; 64]) -> Digest {
    digest[..32].try_into().unwrap()
}

fn proved_whole(message: &[u8]) -> Digest {
    let mut digest = [0; 64];
    let number = unsafe { sleep_flat_hash(32, NO_KEY.as_ptr(), 0, message.as_ptr(), message.len() as u64, &mut digest) };
    assert_eq!(number, 0, "the hash was refused");
    front(digest)
}

fn proved_parts(prefix: &[u8], body: &[u8]) -> Digest {
    let mut out = [0; 32];
    let (prefix_length, body_length) = (prefix.len() as u64, body.len() as u64);
    let number = unsafe { sleep_flat_hash_parts(NO_KEY.as_ptr(), 0, prefix.as_ptr(), prefix_length, body.as_ptr(), body_length, &mut out) };
    assert_eq!(number, 0, "the hash was refused");
    out
}

fn simple_parts(prefix: &[u8], body: &[u8]) -> Digest {
    let mut hash = Blake2b::new(32);
    hash.update(prefix);
    hash.update(body);
    front(hash.finish())
}

fn simple_whole(message: &[u8]) -> Digest {
    let mut hash = Blake2b::new(32);
    hash.update(message);
    front(hash.finish())
}

/// The proved library first. Its parents go the way that a register's do.
fn programs() -> Vec<Program> {
    let proved = Program {
        name: "proved",
        whole: proved_whole,
        leaf: |piece| proved_parts(&leaf_prefix(piece), piece),
        parent: |message| proved_parts(&[], message),
    };
    let simple = Program {
        name: "simple Rust",
        whole: simple_whole,
        leaf: |piece| simple_parts(&leaf_prefix(piece), piece),
        parent: simple_whole,
    };
    #[allow(unused_mut)]
    let mut all = vec![proved, simple];
    #[cfg(sodium)]
    {
        use others::sodium::{parts, start, whole};
        start();
        all.push(Program { name: "libsodium", whole, leaf: |piece| parts(&leaf_prefix(piece), piece), parent: whole });
    }
    #[cfg(b2)]
    {
        use others::b2::{parts, whole};
        all.push(Program { name: "libb2", whole, leaf: |piece| parts(&leaf_prefix(piece), piece), parent: whole });
    }
    all
}

/// Hashes every message of a part, and folds the digests into one.
fn folded(hash: Hash, part: &[u8], length: usize) -> Digest {
    part.chunks_exact(length).map(hash).fold([0; 32], |mut all, digest| {
        all.iter_mut().zip(digest).for_each(|(to, byte)| *to = to.rotate_left(1) ^ byte);
        all
    })
}

/// Every program on every part of the data in turns. Prints the lowest round of each and what the proved library's is to it; and the same of the
/// sums of each part's lowest times, which other work on the computer disturbs less.
fn compare(kind: &Kind, programs: &[Program], data: &[u8], rounds: usize) {
    let parts: Vec<&[u8]> = data.chunks(1 << 20).collect();
    let mut lowest = vec![vec![f64::INFINITY; parts.len()]; programs.len()];
    let mut lowest_round = vec![f64::INFINITY; programs.len()];
    for round in 0..rounds {
        let mut taken = vec![0.0; programs.len()];
        for (at, part) in parts.iter().enumerate() {
            let mut first = None;
            // each round another program is the first to touch the part
            for turn in round..round + programs.len() {
                let which = turn % programs.len();
                let (digest, seconds) = timed(|| folded((kind.of)(&programs[which]), part, kind.length));
                assert_eq!(*first.get_or_insert(digest), digest, "{}: the digests of {} DIFFER", kind.name, programs[which].name);
                lowest[which][at] = lowest[which][at].min(seconds);
                taken[which] += seconds;
            }
        }
        lowest_round.iter_mut().zip(taken).for_each(|(lowest, taken)| *lowest = lowest.min(taken));
    }
    println!("{} messages of {} bytes", kind.name, kind.length);
    let sums: Vec<f64> = lowest.iter().map(|lowest| lowest.iter().sum()).collect();
    for (which, program) in programs.iter().enumerate() {
        let (round, sum) = (lowest_round[which], sums[which]);
        println!(
            "  {:<12}{:>7.1} ms{:>6.0} MiB/s, proved to it {:.3}   part by part{:>7.1} ms, proved to it {:.3}",
            program.name,
            round * 1e3,
            MEBIBYTES as f64 / round,
            lowest_round[0] / round,
            sum * 1e3,
            sums[0] / sum
        );
    }
}

fn count(words: &[String]) {
    let programs = programs();
    let Some(program) = programs.iter().find(|program| program.name == words[0]) else {
        return;
    };
    let kind = KINDS.iter().find(|kind| kind.name == words[1]).expect("a kind of message");
    let message = Numbers(1).bytes(kind.length);
    for _ in 0..words[2].parse().expect("CALLS is a number") {
        std::hint::black_box((kind.of)(program)(std::hint::black_box(&message)));
    }
}

fn main() {
    let words: Vec<String> = std::env::args().skip(1).collect();
    if words.first().is_some_and(|word| word == "count") {
        return count(&words[1..]);
    }
    let (rounds, programs, data) = (timing::rounds(ROUNDS), programs(), Numbers(1).bytes(MEBIBYTES << 20));
    println!("{MEBIBYTES} MiB, {rounds} rounds in turns, by the processor's clock: the lowest round, and the lowest time of each MiB, summed");
    for (installed, name) in [(cfg!(sodium), "libsodium"), (cfg!(b2), "libb2")] {
        if !installed {
            println!("{name} is not installed and left out");
        }
    }
    for kind in &KINDS {
        compare(kind, &programs, &data, rounds);
    }
    println!("the digests agree");
}
