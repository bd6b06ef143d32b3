//! The packet of a chunk under a later root hash, made of two: one of the chunk as the register was, and one, as it is now, of any chunk under the same old
//! root. Up to that root the siblings are the first one's, above it the second one's, and so are the other roots. Nothing is believed of it here: whoever
//! takes it in holds it to the root hash.

const ENTRY: usize = 40;

/// The parts of a packet: its chunk with its length before it, the siblings' entries, and what follows them.
struct Parts<'a> {
    chunk: &'a [u8],
    siblings: &'a [u8],
    rest: &'a [u8],
}

fn parts(packet: &[u8]) -> Option<Parts<'_>> {
    let length = u32::from_be_bytes(packet.get(..4)?.try_into().ok()?) as usize;
    let (chunk, behind) = packet.split_at_checked(length.checked_add(4)?)?;
    let (count, behind) = behind.split_first()?;
    let (siblings, rest) = behind.split_at_checked(usize::from(*count) * ENTRY)?;
    Some(Parts { chunk, siblings, rest })
}

/// The packet of the first one's chunk under the root hash of the second; nothing where these are no two packets under one old root.
pub fn spliced(old: &[u8], now: &[u8]) -> Option<Vec<u8>> {
    let (old, now) = (parts(old)?, parts(now)?);
    let siblings = [old.siblings, now.siblings.get(old.siblings.len()..)?].concat();
    let count = u8::try_from(siblings.len() / ENTRY).ok()?;
    Some([old.chunk, &[count], &siblings, now.rest].concat())
}

/// The chunks under each root of m chunks, from the left.
pub fn under_roots(m: u64) -> Vec<std::ops::Range<u64>> {
    let (mut all, mut before) = (Vec::new(), 0);
    for power in (0..u64::BITS).rev().map(|bit| 1 << bit).filter(|power| m & power != 0) {
        all.push(before..before + power);
        before += power;
    }
    all
}

#[cfg(test)]
mod tests {
    use super::*;
    use crate::sleep_register::{check_packet, Store, PACKET_EXTRA};

    fn store(n: u64) -> Store {
        let mut store = Store::with_room(n as usize, 3 * n as usize);
        store.start().unwrap();
        for chunk in 0..n {
            store.append(&[chunk as u8; 3]).unwrap();
            store.store_signature(&[1; 64]).unwrap();
        }
        store
    }

    fn packet(store: &Store, chunk: u64) -> Vec<u8> {
        let mut out = vec![0; 3 + PACKET_EXTRA];
        let length = store.register().make_packet(chunk, &mut out).unwrap();
        out[..length].to_vec()
    }

    #[test]
    fn a_spliced_packet_is_that_of_the_chunk_now() {
        for (m, n) in [(1, 1), (1, 2), (3, 8), (5, 13), (6, 7), (7, 16), (13, 21)] {
            let (old, now) = (store(m), store(n));
            let root = now.register().root_hash().unwrap();
            for under in under_roots(m) {
                for (chunk, bridge) in under.clone().flat_map(|chunk| under.clone().map(move |bridge| (chunk, bridge))) {
                    let made = spliced(&packet(&old, chunk), &packet(&now, bridge)).unwrap();
                    assert_eq!(made, packet(&now, chunk));
                    assert!(check_packet(&made, n, chunk, &root).is_ok());
                }
            }
        }
    }

    #[test]
    fn roots_from_the_left() {
        assert_eq!(under_roots(0), []);
        assert_eq!(under_roots(7), [0..4, 4..6, 6..7]);
        assert_eq!(under_roots(8), [0..8]);
    }

    #[test]
    fn no_packets() {
        let whole = packet(&store(3), 0);
        for end in 0..5 {
            assert_eq!(spliced(&whole[..end], &whole), None);
            assert_eq!(spliced(&whole, &whole[..end]), None);
        }
        assert_eq!(spliced(&whole, &packet(&store(3), 2)), None);
        assert_eq!(spliced(&[255; 40], &whole), None);
    }
}
