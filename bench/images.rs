//! Builds the register of 1,048,576 chunks of 64 bytes by the proved calls and saves its four images in a folder; then cuts it back to
//! each count of the cases, and has each of these registers audited.

mod cases;
#[path = "../bindings/sleep_register.rs"]
mod proved;
mod simple_blake2b;
mod simple_register;
mod timing;

use cases::{cut_back, CASES, CHUNKS, LENGTH};
use proved::Store;
use timing::Numbers;

fn main() {
    let folder = std::env::args().nth(1).expect("a folder for the images");
    let (mut store, mut numbers) = (Store::with_room(CHUNKS, CHUNKS * LENGTH), Numbers(1));
    store.start().unwrap();
    for _ in 0..CHUNKS {
        store.append(&numbers.bytes(LENGTH)).unwrap();
        store.store_signature(&[7; 64]).unwrap();
    }
    std::fs::create_dir_all(&folder).unwrap();
    let images = [("tree", &store.tree), ("signatures", &store.signatures), ("bitfield", &store.bitfield), ("data", &store.data)];
    for (name, image) in images {
        std::fs::write(format!("{folder}/{name}"), image).unwrap();
    }
    for (n, _) in CASES {
        cut_back(&mut store, n);
        assert_eq!(store.register().audit(), Ok(()), "the register cut back to {n} chunks");
    }
}
