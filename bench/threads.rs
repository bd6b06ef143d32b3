//! The audit of 1 GiB in chunks of 65,536 bytes by the clock: on one thread, on two in parts, and two audits of half of it at once. On two idle
//! processors alone these figures say something. The claim is that two threads take at most 0.56 of one, or at most 1.05 of the two halves at once.

#[path = "../bindings/sleep_register.rs"]
mod proved;
mod timing;

use proved::{bitfield_entries, earlier, tree_entries, Refusal, Register, Store};
use std::time::Instant;
use timing::Numbers;

const LENGTH: usize = 65_536;
const CHUNKS: usize = 16_384;
const PARTS: u64 = 64;
const ROUNDS: usize = 5;

fn built(chunks: usize) -> Store {
    let (mut store, mut numbers) = (Store::with_room(chunks, chunks * LENGTH), Numbers(1));
    let chunk = numbers.bytes(LENGTH);
    store.start().unwrap();
    for k in 0..chunks {
        let mut chunk = chunk.clone();
        chunk[..8].copy_from_slice(&k.to_be_bytes());
        store.append(&chunk).unwrap();
        store.store_signature(&[7; 64]).unwrap();
    }
    store
}

/// The parts whose numbers leave this remainder.
fn some(register: &Register, remainder: u64) -> Result<(), Refusal> {
    let entries = tree_entries(register.n);
    let part = |k: u64| register.audit_tree_part(entries * k / PARTS..entries * (k + 1) / PARTS);
    (0..PARTS).filter(|k| k % 2 == remainder).map(part).fold(Ok(()), earlier)
}

fn on_two(register: &Register) -> Result<(), Refusal> {
    std::thread::scope(|scope| {
        let other = scope.spawn(|| some(register, 1));
        let own = earlier(some(register, 0), register.audit_bitfield_part(0..bitfield_entries(register.n)));
        earlier(own, other.join().unwrap())
    })
}

fn at_once(first: &Register, second: &Register) -> Result<(), Refusal> {
    std::thread::scope(|scope| {
        let other = scope.spawn(|| second.audit());
        earlier(first.audit(), other.join().unwrap())
    })
}

/// The time on the clock, in seconds.
fn clocked(run: impl FnOnce() -> Result<(), Refusal>) -> f64 {
    let begun = Instant::now();
    assert_eq!(run(), Ok(()));
    begun.elapsed().as_secs_f64()
}

fn main() {
    let (whole, half, other, rounds) = (built(CHUNKS), built(CHUNKS / 2), built(CHUNKS / 2), timing::rounds(ROUNDS));
    let (mut one, mut two, mut halves) = (f64::INFINITY, f64::INFINITY, f64::INFINITY);
    for _ in 0..rounds {
        one = one.min(clocked(|| whole.register().audit()));
        two = two.min(clocked(|| on_two(&whole.register())));
        halves = halves.min(clocked(|| at_once(&half.register(), &other.register())));
    }
    println!("{CHUNKS} chunks of {LENGTH} bytes, by the clock, the lowest of {rounds} rounds in turns");
    println!("one thread {one:.3} s, two threads {two:.3} s, two audits of half of it at once {halves:.3} s");
    println!("two threads / one  {:.3}  (claim: at most 0.56, or the next)", two / one);
    println!("two threads / two halves at once  {:.3}  (claim: at most 1.05)", two / halves);
}
