//! Makes the calls that are to be counted, on the saved images, and prints a line for each: the call and the count of chunks.

mod cases;
#[path = "../bindings/sleep_register.rs"]
mod proved;
mod simple_blake2b;
mod simple_register;
mod timing;

use cases::{cut_back, picked, Case, CASES, CHUNKS, LENGTH, LISTED, RELEASED, SHORT};
use proved::{Copied, CopyStore, Store, PACKET_EXTRA};

/// Counts of first chunks, with no roots, with nine, with one and with six.
const OLD: [u64; 4] = [0, 511, 512, 952];

fn loaded(folder: &str) -> Store {
    let image = |name: &str| std::fs::read(format!("{folder}/{name}")).unwrap();
    Store {
        tree: image("tree"),
        signatures: image("signatures"),
        bitfield: image("bitfield"),
        data: image("data"),
        n: 0,
        s: 0,
        size: 0,
    }
}

/// The single appends that leave what a list does, with a signature of zeros behind each but the last; the last root hash.
fn singly(store: &mut Store, n: usize) -> [u8; 32] {
    let mut root = [0; 32];
    for k in 0..LISTED {
        root = store.append(&[9; LENGTH]).unwrap();
        println!("singly {n}");
        if k + 1 < LISTED {
            store.store_signature(&[0; 64]).unwrap();
            println!("singly {n}");
        }
    }
    root
}

/// The search where all chunks are held, and where the Index says of no group that it is: then it reads every data bit.
fn searched(store: &mut Store, n: usize) {
    assert_eq!(store.register().search(0), Ok(None));
    println!("search {n}");
    for entry in store.bitfield[32..].chunks_mut(3328) {
        entry[3072..].fill(0);
    }
    assert_eq!(store.register().search(0), Ok(None));
    println!("bits {n}");
    cut_back(store, n);
}

/// The place of a chunk and its release; then the register is as it was.
fn released(store: &mut Store, n: usize, chunk: u64) {
    let (start, length) = store.register().place(chunk).unwrap();
    println!("found{chunk} {n}");
    let at = start as usize..(start + length) as usize;
    let bytes = store.data[at.clone()].to_vec();
    store.release(chunk).unwrap();
    println!("release{chunk} {n}");
    assert_eq!(store.register().search(0), Ok(Some(chunk)));
    println!("missing{chunk} {n}");
    cut_back(store, n);
    store.data[at].copy_from_slice(&bytes);
}

/// Lookups and reads on the register lent as a copy, which knows every entry; the short ones walk over every chunk before, so there are few of them.
fn looked_up(store: &Store, n: usize) {
    let copy = Copied {
        tree: &store.tree,
        bitfield: &store.bitfield,
        data: &store.data,
        n: store.n,
        size: store.size,
    };
    for chunk in picked(copy.n) {
        assert_eq!(copy.place(chunk), Ok((chunk * LENGTH as u64, LENGTH as u64)));
        println!("copy_place {n}");
        assert_eq!(copy.read(chunk).unwrap().len(), LENGTH);
        println!("copy_read {n}");
    }
    for offset in picked(copy.size) {
        copy.byte(offset).unwrap();
        println!("copy_byte {n}");
    }
    if n > SHORT {
        return;
    }
    for chunk in picked(copy.n).into_iter().step_by(10) {
        copy.short_place(chunk).unwrap();
        println!("copy_short_place {n}");
        copy.short_byte(chunk * LENGTH as u64).unwrap();
        println!("copy_short_byte {n}");
        assert_eq!(copy.short_search(chunk), Ok(None));
        println!("copy_short_search {n}");
    }
}

/// Packets of two neighbours, made from the register, taken into a copy of which nothing is known.
fn taken(store: &Store, n: usize, chunk: u64) {
    let mut copy = CopyStore::with_room(n, n * LENGTH);
    copy.make().unwrap();
    println!("make {n}");
    let root = store.register().root_hash().unwrap();
    println!("root {n}");
    for number in [chunk, chunk + 1] {
        let mut packet = [0; LENGTH + PACKET_EXTRA];
        let length = store.register().make_packet(number, &mut packet).unwrap();
        println!("packet {n}");
        copy.take_in(&packet[..length], number, &root).unwrap();
        println!("take{}of{} {n}", number - chunk, (length - LENGTH - 6) / 40);
    }
}

/// A packet of 65,536 bytes: its check, and its taking in by a copy that does not hold the chunk and by one that does.
fn taken_long() {
    const LONG: usize = 65_536;
    let mut store = Store::with_room(3, 3 * LONG);
    store.start().unwrap();
    store.append_list(&[LONG as u64; 3], &[9; 3 * LONG]).unwrap();
    println!("longlist 3");
    let root = store.register().root_hash().unwrap();
    println!("longroot 3");
    let mut packet = vec![0; LONG + PACKET_EXTRA];
    let length = store.register().make_packet(0, &mut packet).unwrap();
    println!("longpacket 3");
    proved::check_packet(&packet[..length], 3, 0, &root).unwrap();
    println!("longcheck 3");
    let mut copy = CopyStore::with_room(3, 3 * LONG);
    copy.make().unwrap();
    println!("longmake 3");
    for held in ["longfresh", "longheld"] {
        copy.take_in(&packet[..length], 0, &root).unwrap();
        println!("{held} 3");
    }
}

fn main() {
    let folder = std::env::args().nth(1).expect("the folder of the images");
    taken_long();
    let mut store = loaded(&folder);
    for n in [1000, 30_000, CHUNKS - 256] {
        proved::needs(n as u64, (n * LENGTH) as u64, &[LENGTH as u64; 256]).unwrap();
        println!("needs {n}");
    }
    for (n, case) in CASES {
        cut_back(&mut store, n);
        match case {
            Case::Lookups => {
                for chunk in picked(store.n) {
                    store.register().place(chunk).unwrap();
                    println!("place {n}");
                }
                for offset in picked(store.size) {
                    store.register().byte(offset).unwrap();
                    println!("byte {n}");
                }
                searched(&mut store, n);
                looked_up(&store, n);
            }
            Case::Release => {
                for chunk in RELEASED {
                    released(&mut store, n, chunk);
                }
            }
            Case::Take(chunk) => taken(&store, n, chunk),
            Case::Append => {
                for m in OLD {
                    store.register().old_root(m).unwrap();
                    println!("old{m} {n}");
                }
                let seen = store.register().preview(&[9; LENGTH]);
                println!("preview {n}");
                assert_eq!(store.append(&[9; LENGTH]), seen);
                println!("append {n}");
            }
            Case::List => {
                let root = singly(&mut store, n);
                let after = store.clone();
                cut_back(&mut store, n);
                assert_eq!(store.append_list(&[LENGTH as u64; LISTED], &[9; LENGTH * LISTED]), Ok(root));
                println!("list {n}");
                assert!(store == after);
            }
        }
    }
}
