//! Makes whole audits and the same in parts, to be counted, and prints a line for each call: what it is of, and the count of chunks.

#[path = "../bindings/sleep_register.rs"]
mod proved;
mod timing;

use proved::{bitfield_entries, tree_entries, Store};
use timing::Numbers;

/// Chunks, their length, and the parts that the tree entries are cut into.
const CASES: [(usize, usize, u64); 2] = [(1024, 65_536, 64), (1_048_576, 64, 8)];

fn built(chunks: usize, length: usize) -> Store {
    let (mut store, mut numbers) = (Store::with_room(chunks, chunks * length), Numbers(1));
    store.start().unwrap();
    for _ in 0..chunks {
        store.append(&numbers.bytes(length)).unwrap();
        store.store_signature(&[7; 64]).unwrap();
    }
    store
}

fn main() {
    for (chunks, length, parts) in CASES {
        let store = built(chunks, length);
        let (register, entries) = (store.register(), tree_entries(chunks as u64));
        assert_eq!(register.audit(), Ok(()));
        println!("whole {chunks}");
        for k in 0..parts {
            assert_eq!(register.audit_tree_part(entries * k / parts..entries * (k + 1) / parts), Ok(()));
            println!("part {chunks}");
        }
        assert_eq!(register.audit_bitfield_part(0..bitfield_entries(chunks as u64)), Ok(()));
        println!("part {chunks}");
    }
}
