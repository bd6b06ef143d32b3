//! Grouping and ungrouping 65,536 bytes of coordinates, with the proved library and with a simple Rust program, in turns. What both give is
//! compared, and so is what comes back. The claim is a ratio of at most 1.3 each way.

#[path = "../bindings/sleep_register.rs"]
mod proved;
mod timing;

use std::hint::black_box;
use timing::{timed, Numbers};

const LENGTH: usize = 65_536;
const ROUNDS: usize = 20;
/// So many pieces, which stay in the processor's cache, and so many times each in a turn: a turn takes a third of a millisecond, so that
/// other work on the computer seldom falls into it. A round has so many turns.
const PIECES: usize = 4;
const TIMES: usize = 4;
const TURNS: usize = 16;

/// Differences of the words, then the four planes, then what remains.
fn simple_group(bytes: &[u8], out: &mut [u8]) {
    let n = bytes.len() / 4;
    let mut before = 0u32;
    for i in 0..n {
        let word = u32::from_be_bytes(bytes[4 * i..4 * i + 4].try_into().unwrap());
        let difference = word.wrapping_sub(before).to_be_bytes();
        for k in 0..4 {
            out[k * n + i] = difference[k];
        }
        before = word;
    }
    out[4 * n..bytes.len()].copy_from_slice(&bytes[4 * n..]);
}

fn simple_ungroup(bytes: &[u8], out: &mut [u8]) {
    let n = bytes.len() / 4;
    let mut word = 0u32;
    for i in 0..n {
        let difference = [bytes[i], bytes[n + i], bytes[2 * n + i], bytes[3 * n + i]];
        word = word.wrapping_add(u32::from_be_bytes(difference));
        out[4 * i..4 * i + 4].copy_from_slice(&word.to_be_bytes());
    }
    out[4 * n..bytes.len()].copy_from_slice(&bytes[4 * n..]);
}

fn proved_group(bytes: &[u8], out: &mut [u8]) {
    assert_eq!(proved::group(bytes, out), Ok(()));
}

fn proved_ungroup(bytes: &[u8], out: &mut [u8]) {
    assert_eq!(proved::ungroup(bytes, out), Ok(()));
}

/// All pieces, several times; the processor's time.
fn run(call: fn(&[u8], &mut [u8]), from: &[u8], to: &mut [u8]) -> f64 {
    timed(|| {
        for _ in 0..TIMES {
            for (piece, out) in from.chunks_exact(LENGTH).zip(to.chunks_exact_mut(LENGTH)) {
                call(black_box(piece), black_box(out));
            }
        }
    })
    .1
}

/// Both in turns; what the proved call gives.
fn compare(what: &str, calls: [fn(&[u8], &mut [u8]); 2], from: &[u8], rounds: usize) -> Vec<u8> {
    // Filled with unlike values, so that a byte that was not written shows.
    let mut to = [vec![1; from.len()], vec![2; from.len()]];
    let mut lowest = [f64::INFINITY; 2];
    for _ in 0..rounds * TURNS {
        for ((call, to), lowest) in calls.iter().zip(&mut to).zip(&mut lowest) {
            *lowest = lowest.min(run(*call, from, to));
        }
    }
    let [ours, theirs] = to;
    assert!(ours == theirs, "{what}: the results differ");
    let [a, b] = lowest.map(|seconds| seconds * 1e6 / (PIECES * TIMES) as f64);
    println!("{what:<8} proved {a:.1} µs, simple Rust {b:.1} µs, proved / simple Rust  {:.3}  (claim: at most 1.3)", a / b);
    ours
}

fn main() {
    let rounds = timing::rounds(ROUNDS);
    let pieces = Numbers(1).bytes(LENGTH * PIECES);
    println!("{LENGTH} bytes, by the processor's time, the lowest of {rounds} rounds of {TURNS} turns of {} calls", PIECES * TIMES);
    let grouped = compare("group", [proved_group, simple_group], &pieces, rounds);
    let back = compare("ungroup", [proved_ungroup, simple_ungroup], &grouped, rounds);
    assert!(back == pieces, "the bytes did not come back");
    println!("the results agree, and the bytes came back");
}
