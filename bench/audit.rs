//! The audit of chunks of 65,536 bytes beside hashing them alone, both by the proved library, in turns. The claim is a ratio within 1.3.

#[path = "../bindings/sleep_register.rs"]
mod proved;
mod timing;

use proved::{hash_parts, Store};
use timing::{timed, Numbers};

const LENGTH: usize = 65_536;
const CHUNKS: usize = 1024;
const ROUNDS: usize = 20;

fn built() -> Store {
    let (mut store, mut numbers) = (Store::with_room(CHUNKS, CHUNKS * LENGTH), Numbers(1));
    store.start().unwrap();
    for _ in 0..CHUNKS {
        store.append(&numbers.bytes(LENGTH)).unwrap();
        store.store_signature(&[7; 64]).unwrap();
    }
    store
}

/// The leaf hashes, from where the chunks lie.
fn hashed(data: &[u8]) -> [u8; 32] {
    let mut prefix = [0; 9];
    prefix[1..].copy_from_slice(&(LENGTH as u64).to_be_bytes());
    data.chunks_exact(LENGTH).map(|chunk| hash_parts(&[], &prefix, chunk).unwrap()).last().unwrap()
}

fn main() {
    let (store, rounds) = (built(), timing::rounds(ROUNDS));
    let (mut audit, mut hashing) = (f64::INFINITY, f64::INFINITY);
    for _ in 0..rounds {
        let (answer, audited) = timed(|| store.register().audit());
        let (last, alone) = timed(|| hashed(&store.data));
        assert_eq!(answer, Ok(()));
        assert_eq!(store.tree[32 + 80 * (CHUNKS - 1)..][..32], last, "another leaf hash");
        (audit, hashing) = (audit.min(audited), hashing.min(alone));
    }
    println!("{CHUNKS} chunks of {LENGTH} bytes, by the processor's time, the lowest of {rounds} rounds in turns");
    println!("audit {:.1} ms, hashing the chunks alone {:.1} ms", audit * 1e3, hashing * 1e3);
    println!("audit / hashing  {:.3}  (claim: within 1.3)", audit / hashing);
}
