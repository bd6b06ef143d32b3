//! The calls of the proved library beside a simple Rust implementation, on the same chunks: append, audit, lookups, read and packets, at
//! three counts of chunks. The time is the processor's, of one call, and the lowest of several rounds in turns. What both give is compared.

#[path = "../bindings/sleep_register.rs"]
mod proved;
mod simple_blake2b;
mod simple_register;
mod timing;

use proved::{check_packet, Store, PACKET_EXTRA};
use simple_register::{check_packet as simply_checked, Register};
use timing::{timed, Numbers};

const ROUNDS: usize = 10;
const APPENDED: usize = 256;
const CALLS: usize = 1000;
/// Chunk counts and chunk lengths: small chunks at every count, so that the growth with n shows, and longer ones.
const SERIES: [(usize, usize); 5] = [(1000, 64), (30_000, 64), (1_048_576, 64), (1000, 4096), (30_000, 4096)];

/// The lowest times of one kind of call so far, in seconds for all calls of a round.
struct Row {
    what: &'static str,
    calls: usize,
    bytes: usize,
    ours: f64,
    theirs: f64,
}

/// Both registers of the same chunks, as they are before the last appends and as they are after them.
struct Pair {
    chunks: Vec<Vec<u8>>,
    ours: Store,
    theirs: Register,
    our_before: Store,
    their_before: Register,
}

fn append_all(chunks: &[Vec<u8>], ours: &mut Store, theirs: &mut Register) {
    for chunk in chunks {
        assert_eq!(ours.append(chunk).map_err(|refusal| refusal.number), theirs.append(chunk));
        ours.store_signature(&[7; 64]).unwrap();
        theirs.store_signature(&[7; 64]).unwrap();
    }
}

fn built(n: usize, length: usize) -> Pair {
    let mut numbers = Numbers(n as u64);
    let chunks: Vec<Vec<u8>> = (0..n).map(|_| numbers.bytes(length)).collect();
    let (mut ours, mut theirs) = (Store::with_room(n, n * length), Register::start());
    ours.start().unwrap();
    append_all(&chunks[..n - APPENDED], &mut ours, &mut theirs);
    let (our_before, their_before) = (ours.clone(), theirs.clone());
    append_all(&chunks[n - APPENDED..], &mut ours, &mut theirs);
    assert!(ours.tree == theirs.tree && ours.signatures == theirs.signatures, "the images differ");
    assert!(ours.bitfield == theirs.bitfield && ours.data == theirs.data, "the images differ");
    Pair { chunks, ours, theirs, our_before, their_before }
}

impl Row {
    fn new(what: &'static str, calls: usize, bytes: usize) -> Row {
        Row { what, calls, bytes, ours: f64::INFINITY, theirs: f64::INFINITY }
    }

    /// Both in turns. What they give has to be the same.
    fn round<T: PartialEq>(&mut self, ours: impl FnOnce() -> T, theirs: impl FnOnce() -> T) {
        let (a, our_time) = timed(ours);
        let (b, their_time) = timed(theirs);
        assert!(a == b, "{}: the answers differ", self.what);
        self.ours = self.ours.min(our_time);
        self.theirs = self.theirs.min(their_time);
    }
}

/// The last chunks appended once more, in buffers that hold the register before them. An append does not look into the signatures, which
/// are there already.
fn appends(pair: &mut Pair, rounds: usize) -> Row {
    let chunks = &pair.chunks[pair.chunks.len() - APPENDED..];
    let mut row = Row::new("append", APPENDED, chunks.iter().map(Vec::len).sum());
    let (ours, theirs, our_before, their_before) = (&mut pair.ours, &mut pair.theirs, &pair.our_before, &pair.their_before);
    for _ in 0..rounds {
        ours.tree.copy_from_slice(&our_before.tree);
        ours.bitfield.copy_from_slice(&our_before.bitfield);
        (ours.n, ours.s, ours.size) = (our_before.n, our_before.s, our_before.size);
        theirs.tree.clone_from(&their_before.tree);
        theirs.bitfield.clone_from(&their_before.bitfield);
        theirs.data.truncate(their_before.data.len());
        (theirs.n, theirs.s) = (their_before.n, their_before.s);
        let our_last = || chunks.iter().map(|chunk| (ours.append(chunk).unwrap(), ours.s += 1).0).last();
        let their_last = || chunks.iter().map(|chunk| (theirs.append(chunk).unwrap(), theirs.s += 1).0).last();
        row.round(our_last, their_last);
    }
    row
}

fn audits(pair: &Pair, rounds: usize) -> Row {
    let mut row = Row::new("audit", 1, pair.ours.data.len());
    assert!(pair.ours.register().audit().is_ok() && pair.theirs.audit().is_ok(), "both audits are done");
    for _ in 0..rounds {
        row.round(|| pair.ours.register().audit().is_ok(), || pair.theirs.audit().is_ok());
    }
    row
}

/// Place, byte and read, of chunks and offsets picked at random.
fn lookups(pair: &Pair, rounds: usize) -> Vec<Row> {
    let (n, size, mut numbers) = (pair.ours.n, pair.ours.size, Numbers(7));
    let chunks: Vec<u64> = (0..CALLS).map(|_| numbers.below(n)).collect();
    let offsets: Vec<u64> = (0..CALLS).map(|_| numbers.below(size)).collect();
    let (ours, theirs) = (pair.ours.register(), &pair.theirs);
    let mut rows =
        vec![Row::new("place", CALLS, 0), Row::new("byte", CALLS, 0), Row::new("read", CALLS, CALLS * pair.chunks[0].len())];
    let sum = |(a, b): (u64, u64)| a * 3 + b;
    for &chunk in &chunks {
        assert!(ours.read(chunk).unwrap() == theirs.read(chunk as usize).unwrap(), "both reads give the same bytes");
    }
    for _ in 0..rounds {
        rows[0].round(
            || chunks.iter().map(|&chunk| sum(ours.place(chunk).unwrap())).sum::<u64>(),
            || chunks.iter().map(|&chunk| sum(theirs.place(chunk as usize).unwrap())).sum(),
        );
        rows[1].round(
            || offsets.iter().map(|&offset| sum(ours.byte(offset).unwrap())).sum::<u64>(),
            || offsets.iter().map(|&offset| sum(theirs.byte(offset).unwrap())).sum(),
        );
        rows[2].round(
            || chunks.iter().map(|&chunk| ours.read(chunk).unwrap()[0] as u64).sum::<u64>(),
            || chunks.iter().map(|&chunk| theirs.read(chunk as usize).unwrap()[0] as u64).sum(),
        );
    }
    rows
}

/// Packets made into one buffer, which the simple program allocates for each; and checked.
fn packets(pair: &Pair, rounds: usize) -> Vec<Row> {
    let (n, mut numbers, mut out) = (pair.ours.n, Numbers(9), vec![0; pair.chunks[0].len() + PACKET_EXTRA]);
    let (ours, theirs, root) = (pair.ours.register(), &pair.theirs, pair.theirs.root_hash());
    let chunks: Vec<u64> = (0..CALLS).map(|_| numbers.below(n)).collect();
    let made: Vec<Vec<u8>> = chunks.iter().map(|&chunk| theirs.make_packet(chunk as usize).unwrap()).collect();
    for (&chunk, packet) in chunks.iter().zip(&made) {
        let length = ours.make_packet(chunk, &mut out).unwrap();
        assert!(out[..length] == packet[..], "the packets differ");
    }
    let bytes = CALLS * pair.chunks[0].len();
    let mut rows = vec![Row::new("make packet", CALLS, bytes), Row::new("check packet", CALLS, bytes)];
    for _ in 0..rounds {
        rows[0].round(
            || chunks.iter().map(|&chunk| ours.make_packet(chunk, &mut out).unwrap()).sum::<usize>(),
            || chunks.iter().map(|&chunk| theirs.make_packet(chunk as usize).unwrap().len()).sum(),
        );
        let both = || chunks.iter().zip(&made);
        rows[1].round(
            || both().map(|(&chunk, packet)| check_packet(packet, n, chunk, &root).unwrap().len()).sum::<usize>(),
            || both().map(|(&chunk, packet)| simply_checked(packet, n as usize, chunk as usize, &root).unwrap().len()).sum(),
        );
    }
    rows
}

fn measured(n: usize, length: usize, rounds: usize) -> Vec<Row> {
    let mut pair = built(n, length);
    let mut rows = vec![appends(&mut pair, rounds), audits(&pair, rounds)];
    rows.extend(lookups(&pair, rounds));
    rows.extend(packets(&pair, rounds));
    rows
}

fn scaled(seconds: f64) -> String {
    match seconds {
        s if s >= 0.1 => format!("{:.3} s", s),
        s if s >= 1e-4 => format!("{:.3} ms", s * 1e3),
        s => format!("{:.3} us", s * 1e6),
    }
}

fn print(series: &[(usize, usize, Vec<Row>)], kind: usize) {
    for (n, length, rows) in series {
        let row = &rows[kind];
        let (ours, theirs) = (row.ours / row.calls as f64, row.theirs / row.calls as f64);
        let first = series
            .iter()
            .find(|(_, other, _)| other == length)
            .map(|(_, _, rows)| rows[kind].ours / rows[kind].calls as f64)
            .unwrap();
        let per_byte = if row.bytes > 0 { format!("{:.2} ns", row.ours * 1e9 / row.bytes as f64) } else { "-".to_string() };
        println!(
            "{:<13}{:>10}{:>7}{:>14}{:>14}{:>8.2}{:>12}{:>10.2}",
            row.what,
            n,
            length,
            scaled(ours),
            scaled(theirs),
            ours / theirs,
            per_byte,
            ours / first
        );
    }
}

fn main() {
    let rounds = timing::rounds(ROUNDS);
    println!("one call, by the processor's time, the lowest of {rounds} rounds in turns; growth is from the lowest n with chunks of this length");
    println!(
        "{:<13}{:>10}{:>7}{:>14}{:>14}{:>8}{:>12}{:>10}",
        "call", "n", "chunk", "proved", "simple Rust", "ratio", "per byte", "growth"
    );
    let series: Vec<_> = SERIES.iter().map(|&(n, length)| (n, length, measured(n, length, rounds))).collect();
    for kind in 0..series[0].2.len() {
        print(&series, kind);
    }
    println!("the images, the answers and the packets of both agree");
}
