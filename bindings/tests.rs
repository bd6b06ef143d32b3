//! The wrapper over the proved library, called as a program would. `tests/run` builds and runs it.
mod sleep_register;

use sleep_register::{
    bitfield_entries, check_packet, compare_packets, earlier, group, hash, hash_parts, label, needs, read_header, read_node, tree_entries, ungroup, version, write_header, write_node, Comparison, CopyStore, HEADER_BYTES, Leaf, NODE_ROOM, Name, Needs, Node, PACKET_EXTRA, Place, Refusal, Register, Stat, Store, Table, VERSION, Walked, Writer,
};

fn refused<T>(number: u64, place: Place) -> Result<T, Refusal> {
    Err(Refusal { number, place })
}

fn filled(chunks: &[&[u8]]) -> Store {
    let mut store = Store::with_room(chunks.len(), chunks.iter().map(|chunk| chunk.len()).sum());
    store.start().unwrap();
    for chunk in chunks {
        store.append(chunk).unwrap();
        store.store_signature(&[7; 64]).unwrap();
    }
    store
}

#[test]
fn worked_case() {
    let store = filled(&[b"AB", b"", b"CDE"]);
    let register = store.register();
    assert_eq!(register.audit(), Ok(()));
    assert_eq!(register.byte(1), Ok((0, 1)));
    assert_eq!(register.byte(2), Ok((2, 0)));
    assert_eq!(register.byte(5), Ok((3, 0)));
    assert_eq!(register.byte(6), refused(9, Place::None));
    assert_eq!(register.place(1), Ok((2, 0)));
    assert_eq!(register.read(2), Ok(&b"CDE"[..]));
    assert_eq!(register.read(3), refused(9, Place::None));
}

#[test]
fn append_gives_the_root_hash() {
    let mut store = Store::with_room(2, 4);
    store.start().unwrap();
    let root = store.append(b"abcd").unwrap();
    assert_eq!(store.register().root_hash(), Ok(root));
    assert_eq!(store.append(b""), refused(8, Place::None));
}

#[test]
fn the_archive_is_of_this_version() {
    assert_eq!(version(), VERSION);
}

/// A leaf's entry is there of a released chunk too, and of a copy where it is known.
#[test]
fn stored_leaves() {
    let mut store = filled(&[b"AB", b"", b"CDE", b"F", b"GH"]);
    let chunks: [&[u8]; 5] = [b"AB", b"", b"CDE", b"F", b"GH"];
    let leaf = |chunk: &[u8]| {
        let prefix = [&[0][..], &(chunk.len() as u64).to_be_bytes()].concat();
        Leaf { hash: hash_parts(b"", &prefix, chunk).unwrap(), length: chunk.len() as u64 }
    };
    let (mut copy, root) = (made(5, 8), store.register().root_hash().unwrap());
    assert_eq!(copy.copied().stored_leaf(2), refused(20, Place::TreeIndex(3)));
    assert_eq!(copy.take_in(&packet_of(&store, 2), 2, &root), Ok(()));
    assert_eq!((copy.copied().stored_leaf(2), copy.copied().stored_leaf(3)), (Ok(leaf(b"CDE")), Ok(leaf(b"F"))));
    assert_eq!(copy.copied().stored_leaf(1), refused(20, Place::TreeIndex(2)));
    assert_eq!(copy.copied().stored_leaf(5), refused(9, Place::None));
    for (k, chunk) in chunks.iter().enumerate() {
        assert_eq!(store.register().stored_leaf(k as u64), Ok(leaf(chunk)));
        store.release(k as u64).unwrap();
        assert_eq!(store.register().stored_leaf(k as u64), Ok(leaf(chunk)));
    }
    assert_eq!(store.register().stored_leaf(5), refused(9, Place::None));
}

#[test]
fn old_root_hashes_are_those_of_the_time() {
    let mut store = Store::with_room(13, 24);
    store.start().unwrap();
    let mut then = vec![store.register().root_hash().unwrap()];
    for k in 0..13u8 {
        then.push(store.append(&vec![k; k as usize % 4]).unwrap());
        store.store_signature(&[7; 64]).unwrap();
    }
    for m in 0..=13 {
        assert_eq!(store.register().old_root(m), Ok(then[m as usize]));
    }
    assert_eq!(store.register().old_root(14), refused(9, Place::None));
    assert_eq!(store.register().old_root(u64::MAX), refused(9, Place::None));
}

#[test]
fn a_preview_is_what_the_append_gives() {
    let mut store = Store::with_room(17, 40);
    store.start().unwrap();
    for k in 0..17usize {
        let chunk = vec![k as u8; k % 4];
        let (before, seen) = (store.clone(), store.register().preview(&chunk));
        assert_eq!(store, before);
        assert_eq!(store.append(&chunk), seen);
        assert_eq!(store.register().preview(&chunk), refused(8, Place::None));
        store.store_signature(&[7; 64]).unwrap();
    }
    assert_eq!(store.register().preview(b""), refused(14, Place::None));
    assert_eq!(store.register().preview(&[0; 65537]), refused(7, Place::None));
}

/// A list, and beside it the single appends with zero signatures between them.
#[test]
fn a_list_is_its_single_appends() {
    let (mut store, mut singly) = (Store::with_room(60, 400), Store::with_room(60, 400));
    store.start().unwrap();
    singly.start().unwrap();
    for k in [1usize, 2, 40, 17] {
        let lengths: Vec<u64> = (0..k as u64).map(|j| j % 9).collect();
        let bytes: Vec<u8> = (0..lengths.iter().sum::<u64>()).map(|j| (k as u64 + j) as u8).collect();
        let (mut root, mut from) = ([0; 32], 0);
        for (j, length) in lengths.iter().enumerate() {
            root = singly.append(&bytes[from..from + *length as usize]).unwrap();
            from += *length as usize;
            if j + 1 < k {
                singly.store_signature(&[0; 64]).unwrap();
            }
        }
        assert_eq!(store.append_list(&lengths, &bytes), Ok(root));
        assert_eq!(store, singly);
        assert_eq!(store.append_list(&[0], &[]), refused(8, Place::None));
        store.store_signature(&[7; 64]).unwrap();
        singly.store_signature(&[7; 64]).unwrap();
        assert_eq!(store.register().audit(), Ok(()));
    }
}

#[test]
fn a_refused_list_is_left_out() {
    let mut store = filled(&[b"AB", b"C"]);
    let before = store.clone();
    assert_eq!(store.append_list(&[], &[]), refused(16, Place::None));
    assert_eq!(store.append_list(&[0; 257], &[]), refused(16, Place::None));
    assert_eq!(store.append_list(&[u64::MAX, 2], &[5]), refused(16, Place::None));
    assert_eq!(store.append_list(&[0, 65537], &[5; 65537]), refused(7, Place::None));
    assert_eq!(store.append_list(&[0, 0], &[]), refused(14, Place::None));
    assert_eq!(store, before);
}

#[test]
fn damage_is_found_where_it_is() {
    let mut store = filled(&[b"AB", b"", b"CDE"]);
    store.data[3] ^= 1;
    assert_eq!(store.register().audit(), refused(10, Place::TreeIndex(4)));
    assert_eq!(store.register().read(2), refused(10, Place::TreeIndex(4)));
    store.data[3] ^= 1;
    store.bitfield[40] ^= 1;
    assert_eq!(store.register().audit(), refused(11, Place::BitfieldByte(40)));
}

#[test]
fn refusals_change_nothing() {
    let mut store = filled(&[b"AB"]);
    let before = store.clone();
    assert_eq!(store.append(b"C"), refused(14, Place::None));
    assert_eq!(store.append(&[0; 65537]), refused(7, Place::None));
    assert_eq!(store, before);
}

#[test]
fn hash_lengths() {
    assert_eq!(hash(0, b"", b"abc"), refused(1, Place::None));
    assert_eq!(hash(65, &[0; 65], b"abc"), refused(1, Place::None));
    assert_eq!(hash(64, &[0; 65], b"abc"), refused(17, Place::None));
    assert_eq!(hash(64, b"", b"abc").unwrap()[..4], [0xba, 0x80, 0xa5, 0x3f]);
    assert_eq!(hash(32, b"", b"abc").unwrap()[32..], [0; 32]);
}

#[test]
fn labels_follow_the_key() {
    let root = [7; 32];
    assert_eq!(label(&root, b"key").unwrap(), hash(32, b"key", &root).unwrap()[..32]);
    assert_ne!(label(&root, b"key"), label(&root, b"another"));
    assert_eq!(label(&root, &[0; 65]), refused(17, Place::None));
}

#[test]
fn a_message_in_two_parts() {
    let whole = hash(32, b"key", b"abcdef").unwrap();
    for cut in 0..=6 {
        let (prefix, body) = b"abcdef".split_at(cut);
        assert_eq!(hash_parts(b"key", prefix, body).unwrap(), whole[..32]);
    }
}

#[test]
fn packets_show_every_chunk() {
    let chunks: Vec<Vec<u8>> = (0..7u8).map(|k| vec![k; k as usize]).collect();
    let store = filled(&chunks.iter().map(|chunk| &chunk[..]).collect::<Vec<_>>());
    let root = store.register().root_hash().unwrap();
    let mut packet = vec![0; 6 + PACKET_EXTRA];
    for (i, chunk) in (0..).zip(&chunks) {
        let length = store.register().make_packet(i, &mut packet).unwrap();
        assert_eq!(check_packet(&packet[..length], 7, i, &root), Ok(&chunk[..]));
        assert_eq!(check_packet(&packet[..length - 1], 7, i, &root), refused(12, Place::None));
        assert_eq!(check_packet(&packet[..length], 7, i, &[0; 32]), refused(13, Place::None));
        assert_eq!(check_packet(&packet[..length], 7, 7, &root), refused(9, Place::None));
    }
    assert_eq!(check_packet(&[], 1048577, 0, &root), refused(2, Place::None));
}

#[test]
fn walks_along_two_packets() {
    let store = filled(&[b"AB", b"", b"CDE"]);
    let root = store.register().root_hash().unwrap();
    let mut packet = vec![0; 3 + PACKET_EXTRA];
    let length = store.register().make_packet(2, &mut packet).unwrap();
    packet.truncate(length);
    let mut other = packet.clone();
    other[4] ^= 1;
    let refusal = |number| Refusal { number, place: Place::None };
    assert_eq!(compare_packets(&packet, &packet, 3, 2, &root), Walked::SameChunk);
    assert_eq!(compare_packets(&packet, &other, 3, 2, &root), Walked::SecondRefused(refusal(13)));
    assert_eq!(compare_packets(&other, &packet, 3, 2, &root), Walked::FirstRefused(refusal(13)));
    assert_eq!(compare_packets(&packet, &packet[1..], 3, 2, &root), Walked::SecondRefused(refusal(12)));
    assert_eq!(compare_packets(&packet, &packet, 3, 3, &root), Walked::FirstRefused(refusal(9)));
}

#[test]
fn a_refused_packet_is_not_written() {
    let mut store = filled(&[b"AB", b"", b"CDE"]);
    let mut out = [9; 54];
    assert_eq!(store.register().make_packet(3, &mut out), refused(9, Place::None));
    assert_eq!(store.register().make_packet(1, &mut out), refused(14, Place::None));
    store.data[2] ^= 1;
    assert_eq!(store.register().make_packet(2, &mut out), refused(10, Place::TreeIndex(4)));
    assert_eq!(out, [9; 54]);
}

#[test]
fn comparisons() {
    let first = filled(&[b"AB", b"", b"CDE"]);
    let mut second = filled(&[b"AB", b"", b"CDE"]);
    assert_eq!(first.register().compare(&first.register()), Comparison::Equal);
    assert_eq!(first.register().compare(&second.register()), Comparison::Equal);
    for other in [filled(&[b"A", b"B", b"CDE"]), filled(&[b"AB", b"", b"CDE", b""])] {
        assert_eq!(first.register().compare(&other.register()), Comparison::RootsDiffer);
    }
    second.bitfield[32] ^= 1;
    let refusal = Refusal { number: 11, place: Place::BitfieldByte(32) };
    assert_eq!(first.register().compare(&second.register()), Comparison::SecondRefused(refusal));
    assert_eq!(second.register().compare(&first.register()), Comparison::FirstRefused(refusal));
}

/// Parts that cover both files, two ranges each, the later ones first.
fn in_parts(r: &Register, cut: u64) -> Result<(), Refusal> {
    let (entries, rows) = (tree_entries(r.n), bitfield_entries(r.n));
    let tree = earlier(r.audit_tree_part(cut..entries), r.audit_tree_part(0..cut));
    earlier(earlier(r.audit_bitfield_part(1..rows), r.audit_bitfield_part(0..1)), tree)
}

#[test]
fn parts_give_the_audit() {
    let pieces = [&b"AB"[..], b"", b"CDE", b"F", b"GHIJ", b"", b"K"];
    let whole = filled(&pieces);
    for at in 0..whole.tree.len() {
        let mut store = whole.clone();
        store.tree[at] ^= 1;
        for cut in 0..14 {
            assert_eq!(in_parts(&store.register(), cut), store.register().audit());
        }
    }
    let r = whole.register();
    assert_eq!(in_parts(&r, 5), Ok(()));
    let turned = std::ops::Range { start: 9, end: 2 };
    assert_eq!((r.audit_tree_part(7..7), r.audit_tree_part(turned.clone()), r.audit_bitfield_part(turned)), (Ok(()), Ok(()), Ok(())));
    assert_eq!((r.audit_tree_part(u64::MAX..u64::MAX), r.audit_bitfield_part(5..u64::MAX)), (Ok(()), Ok(())));
    assert_eq!(Register { n: 8, ..r }.audit_tree_part(0..0), refused(4, Place::None));
}

#[test]
fn parts_give_the_comparison() {
    let (first, mut second) = (filled(&[b"AB", b"", b"CDE"]), filled(&[b"AB", b"", b"CDE"]));
    assert_eq!(first.register().compare_roots_part(&second.register()), Comparison::Equal);
    assert_eq!(first.register().compare_walk_part(&second.register(), 0..5), Comparison::Equal);
    second.data[3] ^= 1; // a damaged register has another message under the stored hash
    assert_eq!(first.register().compare_walk_part(&second.register(), 0..4), Comparison::Equal);
    assert_eq!(first.register().compare_walk_part(&second.register(), 4..5), Comparison::CollisionAtIndex(4));
    second.release(1).unwrap();
    assert_eq!(second.register().compare_held_part(), refused(18, Place::TreeIndex(2)));
    let other = filled(&[b"AB"]);
    assert_eq!(first.register().compare_roots_part(&other.register()), Comparison::RootsDiffer);
    assert_eq!(first.register().compare_walk_part(&other.register(), 0..5), Comparison::Equal);
    let short = Register { n: 1_048_577, ..other.register() };
    let Comparison::SecondRefused(reason) = first.register().compare_roots_part(&short) else { panic!("not refused") };
    assert_eq!(reason, Refusal { number: 2, place: Place::None });
}

/// Two words that rise by 1, and three bytes: the difference's bytes stand with those of the first word.
#[test]
fn grouped_and_back() {
    let bytes = [1, 2, 3, 4, 1, 2, 3, 5, 9, 8, 7];
    let (mut out, mut back) = ([6; 12], [6; 12]);
    assert_eq!(group(&bytes, &mut out), Ok(()));
    assert_eq!(out, [1, 0, 2, 0, 3, 0, 4, 1, 9, 8, 7, 6]);
    assert_eq!(ungroup(&out[..11], &mut back), Ok(()));
    assert_eq!(back[..11], bytes);
    assert_eq!(back[11], 6);
    assert_eq!(group(&bytes, &mut out[..10]), refused(14, Place::None));
    assert_eq!(ungroup(&[0; 65537], &mut out), refused(7, Place::None));
    assert_eq!(out, [1, 0, 2, 0, 3, 0, 4, 1, 9, 8, 7, 6]);
}

#[test]
fn a_job_takes_what_it_needs() {
    let lengths = [0, 119, 120, 65536, 3, 0, 1];
    let all = needs(0, 0, &lengths).unwrap();
    let mut store = Store::with_room(lengths.len(), all.data as usize);
    let sizes = [store.tree.len(), store.signatures.len(), store.bitfield.len(), store.data.len()];
    assert_eq!(sizes, [all.tree, all.signatures, all.bitfield, all.data].map(|size| size as usize));
    store.start().unwrap();
    for (k, &length) in lengths.iter().enumerate() {
        let one = needs(store.n, store.size, &[length]).unwrap();
        store.append(&vec![k as u8; length as usize]).unwrap();
        store.store_signature(&[7; 64]).unwrap();
        assert_eq!(needs(store.n, store.size, &[]), Ok(Needs { leaves: 0, parents: 0, runs: one.root, ..one }));
    }
    assert_eq!(store.register().audit(), Ok(()));
    assert_eq!((all.leaves, all.parents, all.root, all.runs), (1 + 1 + 2 + 513 + 1 + 1 + 1, 4, 2, 526));
    assert_eq!(needs(1048576, 0, &[65537]), refused(2, Place::None));
    assert_eq!(needs(10, 0, &[65537; 257]), refused(16, Place::None));
    assert_eq!(needs(10, 655361, &[65537]), refused(7, Place::None));
    assert_eq!(needs(10, 655361, &[1]), refused(9, Place::None));
}

#[test]
fn a_released_chunk_keeps_its_place() {
    let mut store = filled(&[b"AB", b"", b"CDE", b"F"]);
    let whole = filled(&[b"AB", b"", b"CDE", b"F"]);
    let root = store.register().root_hash();
    assert_eq!(store.register().search(0), Ok(None));
    assert_eq!(store.release(4), refused(9, Place::None));
    assert_eq!(store.release(2), Ok(()));
    assert_eq!(store.release(2), refused(18, Place::TreeIndex(4)));
    assert_eq!(&store.data[..6], b"AB\0\0\0F");
    let register = store.register();
    assert_eq!((register.audit(), register.root_hash()), (Ok(()), root));
    assert_eq!((register.search(0), register.search(2), register.search(3), register.search(u64::MAX)), (Ok(Some(2)), Ok(Some(2)), Ok(None), Ok(None)));
    assert_eq!((register.place(2), register.byte(3)), (Ok((2, 3)), Ok((2, 1))));
    assert_eq!(register.read(2), refused(18, Place::TreeIndex(4)));
    assert_eq!(register.read(3), Ok(&b"F"[..]));
    let mut packet = [0; 3 + PACKET_EXTRA];
    assert_eq!(register.make_packet(2, &mut packet), refused(18, Place::TreeIndex(4)));
    let length = register.make_packet(3, &mut packet).unwrap();
    assert_eq!(check_packet(&packet[..length], 4, 3, &root.unwrap()), Ok(&b"F"[..]));
    let gone = Refusal { number: 18, place: Place::TreeIndex(4) };
    assert_eq!(whole.register().compare(&register), Comparison::SecondRefused(gone));
    assert_eq!(register.compare(&whole.register()), Comparison::FirstRefused(gone));
}

#[test]
fn both_ways_agree_on_an_accepted_register() {
    let mut store = filled(&[b"", b"AB", b"", b"CDE", b"F", b""]);
    for gone in [None, Some(3), Some(0), Some(5)] {
        if let Some(chunk) = gone {
            store.release(chunk).unwrap();
        }
        let register = store.register();
        assert_eq!(register.audit(), Ok(()));
        for number in (0..9).chain([u64::MAX]) {
            assert_eq!(register.short_place(number), register.place(number));
            assert_eq!(register.short_byte(number), register.byte(number));
            assert_eq!(register.short_search(number), register.search(number));
        }
    }
}

#[test]
fn the_short_way_has_its_own_answers_elsewhere() {
    let mut store = filled(&[b"AB", b"", b"CDE", b"F"]);
    store.tree[32 + 40 * 2 + 39] = 1; // the empty chunk's leaf says 1
    assert_eq!(store.register().place(0), refused(10, Place::TreeIndex(1)));
    assert_eq!((store.register().short_place(0), store.register().short_place(3)), (Ok((0, 2)), Ok((6, 1))));
    assert_eq!((store.register().short_byte(2), store.register().short_byte(6)), (Ok((1, 0)), Ok((4, 0))));
    store.tree[32 + 40 * 6 + 39] = 0; // and so does the last one's, 0
    store.tree[32 + 40 * 4 + 39] = 2;
    assert_eq!(store.register().short_byte(5), refused(10, Place::TreeIndex(6)));
    store.tree[32 + 40 * 2 + 32] = 128;
    assert_eq!(store.register().short_place(0), Ok((0, 2)));
    assert_eq!((store.register().short_place(1), store.register().short_byte(3)), (refused(10, Place::TreeIndex(2)), refused(10, Place::TreeIndex(2))));
    store.bitfield[32] = 0x70; // chunk 0 is not held, says the bit; all are, says the Index
    store.bitfield[32 + 3072] = 0xc0;
    assert_eq!((store.register().search(0), store.register().short_search(0)), (Ok(None), Ok(Some(0))));
}

#[test]
fn stations_take_turns() {
    let (names, pieces) = (filled(&[b"names", b"more"]), filled(&[b"AB", b"", b"CDE"]));
    let (m, c) = (names.register(), pieces.register());
    let mut table = Table::fresh();
    assert_eq!(table.serve(&m, &c), None);
    for chunk in 0..4 {
        assert_eq!(table.enter(3, Name::Content, chunk), Ok(()));
    }
    let full = table.clone();
    assert_eq!(table.enter(3, Name::Content, 0), refused(22, Place::None));
    assert_eq!(table.enter(16, Name::Content, 0), refused(21, Place::None));
    assert_eq!(table, full);
    assert_eq!(table.enter(15, Name::Metadata, 1), Ok(()));
    assert_eq!(table.enter(2, Name::Content, 2), Ok(()));
    let expected: [(u64, Name, u64, Result<&[u8], Refusal>); 6] = [
        (2, Name::Content, 2, Ok(b"CDE")),
        (3, Name::Content, 0, Ok(b"AB")),
        (15, Name::Metadata, 1, Ok(b"more")),
        (3, Name::Content, 1, Ok(b"")),
        (3, Name::Content, 2, Ok(b"CDE")),
        (3, Name::Content, 3, refused(9, Place::None)),
    ];
    for (station, name, chunk, read) in expected {
        let served = table.serve(&m, &c).unwrap();
        assert_eq!((served.station, served.name, served.chunk, served.read), (station, name, chunk, read));
        let direct = if name == Name::Metadata { m } else { c };
        assert_eq!(served.read, direct.read(chunk));
    }
    let last = table.clone();
    assert_eq!((table.serve(&m, &c), table), (None, last));
    let mut spoilt = Table { numbers: [u64::MAX; 161] };
    assert_eq!((0..64).filter(|_| spoilt.serve(&m, &c).is_some()).count(), 64);
    assert_eq!(spoilt.serve(&m, &c), None);
}

fn full<'a>() -> Node<'a> {
    let stat = Stat { mode: Some(33188), size: Some(300), mtime: Some(1500000000), ctime: Some(0), ..Stat::default() };
    let writers = vec![Writer { key: &[7; 32], permission: Some(b"rw") }, Writer { key: &[8; 32], permission: None }];
    Node { path: b"/coat/sleeve", stat: Some(stat), trie: Some(b""), writers, sequence: Some(128) }
}

fn record<'a>(node: &Node, out: &'a mut [u8]) -> &'a [u8] {
    let length = write_node(node, out).unwrap();
    &out[..length]
}

/// Absent fields are told from those that are there and empty or 0, and what was read is written as it was.
#[test]
fn records_written_and_read() {
    let mut out = [9; NODE_ROOM];
    for node in [full(), Node { path: b"/", ..Node::default() }, Node { trie: None, sequence: Some(0), ..full() }] {
        let bytes = record(&node, &mut out).to_vec();
        assert_eq!(read_node(&bytes), Ok(node));
        assert!(out[bytes.len()..].iter().all(|&byte| byte == 9));
        assert_eq!(write_node(&read_node(&bytes).unwrap(), &mut vec![0; bytes.len()]), Ok(bytes.len()));
        assert_eq!(write_node(&read_node(&bytes).unwrap(), &mut vec![0; bytes.len() - 1]), refused(14, Place::None));
        assert_eq!(read_node(&bytes[1..]), refused(15, Place::None));
        out = [9; NODE_ROOM];
    }
    assert_eq!(write_header(&[3; 32], &mut out), Ok(HEADER_BYTES));
    assert_eq!(read_header(&out[..HEADER_BYTES]), Ok(&[3; 32][..]));
    assert_eq!(read_header(&out[..47]), refused(15, Place::None));
    assert_eq!(write_header(&[3; 31], &mut []), refused(15, Place::None));
    assert_eq!(write_header(&[3; 32], &mut []), refused(14, Place::None));
}

#[test]
fn fields_out_of_bounds() {
    let long = [b'/'; 256];
    let wide = |mode| Some(Stat { mode, ..Stat::default() });
    let (eight, nine) = (vec![Writer { key: &[1; 32], permission: Some(&[2; 16]) }; 8], vec![Writer { key: &[1; 32], permission: None }; 9]);
    let mut out = [0; NODE_ROOM];
    for node in [
        Node { path: &long[..255], ..full() },
        Node { stat: wide(Some(u32::MAX as u64)), ..full() },
        Node { trie: Some(&[0; 1024]), writers: eight, sequence: Some(u64::MAX), ..full() },
    ] {
        assert_eq!(read_node(record(&node, &mut out)), Ok(node));
    }
    for node in [
        Node { path: &long, ..full() },
        Node { path: b"", ..full() },
        Node { path: b"coat", ..full() },
        Node { stat: wide(None), ..full() },
        Node { stat: wide(Some(1 << 32)), ..full() },
        Node { trie: Some(&[0; 1025]), ..full() },
        Node { writers: nine, ..full() },
        Node { writers: vec![Writer { key: &[1; 31], permission: None }], ..full() },
        Node { writers: vec![Writer { key: &[1; 32], permission: Some(&[2; 17]) }], ..full() },
    ] {
        assert_eq!(write_node(&node, &mut []), refused(15, Place::None));
    }
}

#[test]
fn pieces_found_by_name() {
    let mut out = [0; NODE_ROOM];
    write_header(&[3; 32], &mut out).unwrap();
    let header = out[..HEADER_BYTES].to_vec();
    let nodes = [full(), Node { path: b"/coat", ..Node::default() }, Node { sequence: None, ..full() }];
    let records: Vec<Vec<u8>> = nodes.iter().map(|node| record(node, &mut out).to_vec()).collect();
    let named = filled(&[&header, &records[0], &records[1], &records[2]]);
    let r = named.register();
    assert_eq!(r.header_of(0), Ok(&[3; 32][..]));
    for (k, node) in nodes.iter().enumerate() {
        assert_eq!(r.node_of(k as u64 + 1).as_ref(), Ok(node));
    }
    assert_eq!(r.find(b"/coat/sleeve"), Ok(Some(3)));
    assert_eq!(r.find(b"/coat"), Ok(Some(2)));
    assert_eq!(r.find(b"/coa"), Ok(None));
    assert_eq!(r.find(b""), Ok(None));
    assert_eq!(r.node_of(0), refused(15, Place::TreeIndex(0)));
    assert_eq!(r.header_of(2), refused(15, Place::TreeIndex(4)));
    assert_eq!(r.node_of(4), refused(9, Place::None));
    assert_eq!(filled(&[]).register().find(b"/coat"), Ok(None));
    let broken = filled(&[&header, b"x", &records[0]]);
    assert_eq!(broken.register().find(b"/coat/sleeve"), Ok(Some(2)));
    assert_eq!(broken.register().find(b"/coat"), refused(15, Place::TreeIndex(2)));
    assert_eq!(filled(&[b"x", &records[0]]).register().find(b"/coat/sleeve"), refused(15, Place::TreeIndex(0)));
}

fn packet_of(store: &Store, chunk: u64) -> Vec<u8> {
    let mut packet = vec![0; 100 + PACKET_EXTRA];
    let length = store.register().make_packet(chunk, &mut packet).unwrap();
    packet.truncate(length);
    packet
}

fn made(n: usize, size: usize) -> CopyStore {
    let mut copy = CopyStore::with_room(n, size);
    copy.make().unwrap();
    copy
}

/// Every chunk taken in, from the last to the first: the copy is the register but for the signatures.
#[test]
fn a_copy_takes_in_its_chunks() {
    let chunks: Vec<Vec<u8>> = (0..13u8).map(|k| vec![k; k as usize % 5]).collect();
    let store = filled(&chunks.iter().map(|chunk| &chunk[..]).collect::<Vec<_>>());
    let (root, size) = (store.register().root_hash().unwrap(), store.size as usize);
    let mut copy = made(13, size);
    assert_eq!(copy.copied().audit(), Ok(()));
    assert_eq!(copy.copied().root_hash(), refused(20, Place::TreeIndex(7)));
    for chunk in (0..13).rev() {
        assert_eq!(copy.take_in(&packet_of(&store, chunk), chunk, &root), Ok(()));
        let held = copy.copied();
        assert_eq!((held.audit(), held.root_hash(), held.read(chunk)), (Ok(()), Ok(root), Ok(&chunks[chunk as usize][..])));
        assert_eq!(held.make_packet(chunk, &mut [0; 2000]), Ok(packet_of(&store, chunk).len()));
        assert_eq!(held.search(0), Ok((chunk > 0).then_some(0)));
    }
    assert_eq!((&copy.tree, &copy.bitfield, &copy.data), (&store.tree, &store.bitfield, &store.data));
    let (copied, register) = (copy.copied(), store.register());
    for m in 0..13 {
        assert_eq!((copied.old_root(m), copied.place(m)), (register.old_root(m), register.place(m)));
        assert_eq!((copied.short_place(m), copied.short_search(m)), (register.short_place(m), register.short_search(m)));
    }
    for offset in 0..=store.size + 1 {
        assert_eq!((copied.byte(offset), copied.short_byte(offset)), (register.byte(offset), register.short_byte(offset)));
    }
}

#[test]
fn two_packets_in_either_order() {
    let store = filled(&[b"AB", b"", b"CDE", b"F", b"GH"]);
    let root = store.register().root_hash().unwrap();
    for (first, second) in [(0, 1), (0, 4), (2, 3), (3, 3)] {
        let (mut there, mut back) = (made(5, 8), made(5, 8));
        for chunk in [first, second] {
            assert_eq!(there.take_in(&packet_of(&store, chunk), chunk, &root), Ok(()));
        }
        for chunk in [second, first] {
            assert_eq!(back.take_in(&packet_of(&store, chunk), chunk, &root), Ok(()));
        }
        assert_eq!(there, back);
    }
}

/// What a copy doesn't know it refuses, and what contradicts it too.
#[test]
fn a_copy_knows_what_it_took_in() {
    let (store, other) = (filled(&[b"AB", b"", b"CDE", b"F", b"GH"]), filled(&[b"AC", b"", b"CDE", b"F", b"GH"]));
    let (root, other_root) = (store.register().root_hash().unwrap(), other.register().root_hash().unwrap());
    let mut copy = made(5, 8);
    assert_eq!(copy.copied().place(0), refused(20, Place::TreeIndex(3)));
    assert_eq!(copy.take_in(&packet_of(&store, 2)[1..], 2, &root), refused(12, Place::None));
    assert_eq!(copy.take_in(&packet_of(&store, 2), 2, &other_root), refused(13, Place::None));
    assert_eq!(made(5, 9).take_in(&packet_of(&store, 2), 2, &root), refused(6, Place::None));
    assert_eq!(copy, made(5, 8));
    assert_eq!(copy.take_in(&packet_of(&store, 2), 2, &root), Ok(()));
    let before = copy.clone();
    assert_eq!(copy.take_in(&packet_of(&other, 0), 0, &other_root), refused(19, Place::TreeIndex(1)));
    assert_eq!(copy, before);
    assert_eq!(copy.copied().read(2), Ok(&b"CDE"[..]));
    assert_eq!(copy.copied().read(3), refused(18, Place::TreeIndex(6)));
    assert_eq!((copy.copied().place(3), copy.copied().place(4)), (Ok((5, 1)), Ok((6, 2))));
    assert_eq!(copy.copied().place(1), refused(20, Place::TreeIndex(0)));
    assert_eq!((copy.copied().byte(1), copy.copied().byte(2)), (refused(20, Place::TreeIndex(0)), Ok((2, 0))));
    assert_eq!(copy.copied().old_root(3), Ok(store.register().old_root(3).unwrap()));
    assert_eq!(copy.copied().old_root(1), refused(20, Place::TreeIndex(0)));
    assert_eq!(copy.copied().short_place(2), refused(20, Place::TreeIndex(0)));
    assert_eq!((copy.copied().search(2), copy.copied().short_search(2)), (Ok(Some(3)), Ok(Some(3))));
    copy.data[2] ^= 1;
    assert_eq!(copy.take_in(&packet_of(&store, 2), 2, &root), refused(19, Place::TreeIndex(4)));
    assert_eq!(copy.copied().audit(), refused(10, Place::TreeIndex(4)));
}

#[test]
fn released_chunks_come_back() {
    let mut store = filled(&[b"AB", b"", b"CDE", b"F", b"GH"]);
    let (whole, packet) = (store.clone(), packet_of(&store, 2));
    let root = store.register().root_hash().unwrap();
    store.release(2).unwrap();
    assert_eq!(store.take_back(&packet, 3, &root), refused(13, Place::None));
    assert_eq!(store.take_back(&packet, 2, &root), Ok(()));
    assert_eq!(store, whole);
    let mut copy = made(5, 8);
    copy.take_in(&packet, 2, &root).unwrap();
    let before = copy.clone();
    assert_eq!((copy.release(2), copy.release(2)), (Ok(()), refused(18, Place::TreeIndex(4))));
    assert_eq!((copy.copied().audit(), copy.copied().place(2)), (Ok(()), Ok((2, 3))));
    assert_eq!(copy.take_in(&packet, 2, &root), Ok(()));
    assert_eq!(copy, before);
}

#[test]
fn records_of_a_copy() {
    let mut out = [0; NODE_ROOM];
    write_header(&[3; 32], &mut out).unwrap();
    let header = out[..HEADER_BYTES].to_vec();
    let records: Vec<Vec<u8>> = [full(), Node { path: b"/coat", ..Node::default() }].iter().map(|node| record(node, &mut out).to_vec()).collect();
    let named = filled(&[&header, &records[0], &records[1]]);
    let root = named.register().root_hash().unwrap();
    let mut copy = made(3, named.size as usize);
    for chunk in [0, 2] {
        assert_eq!(copy.take_in(&packet_of(&named, chunk), chunk, &root), Ok(()));
    }
    assert_eq!(copy.copied().header_of(0), Ok(&[3; 32][..]));
    assert_eq!(copy.copied().node_of(2).map(|node| node.path), Ok(&b"/coat"[..]));
    assert_eq!(copy.copied().node_of(0), refused(15, Place::TreeIndex(0)));
    assert_eq!((copy.copied().find(b"/coat"), copy.copied().find(b"/")), (Ok(Some(2)), refused(18, Place::TreeIndex(2))));
}

#[test]
fn a_journal_made_judged_and_read() {
    use sleep_register::journal::{begin, between, check, end, next, put, state, states, Given, Wrong, BLANK, FRESH, FRONT, HASH, REPLACED, WITNESS};
    let (old, mut new) = ([5; 32], [5; 32]);
    new[..2].copy_from_slice(&[7, 8]);
    let mut given = [0; 20];
    (given[16], given[17], given[19]) = (state(Some(32)), state(Some(32)), state(Some(32)));
    let ranges = [
        Given { file: 8, kind: REPLACED, offset: 0, length: 2, old: &old[..2], new: &new[..2] },
        Given { file: 8, kind: WITNESS, offset: 2, length: 1, old: &old[2..3], new: &[] },
        Given { file: 9, kind: FRESH, offset: 0, length: 4, old: &[], new: &[1, 2, 3, 4] },
        Given { file: 9, kind: BLANK, offset: 4, length: 28, old: &[], new: &[] },
    ];
    let mut held = [0xa5; 400];
    let mut at = begin(&mut held, &given).unwrap();
    assert_eq!(put(&mut held, at, Given { kind: FRESH, ..ranges[0] }), Err(Wrong::Unfit));
    for range in ranges {
        at = put(&mut held, at, range).unwrap();
    }
    assert_eq!(end(&mut held, at - 18), Err(Wrong::Gap(9)));
    let long = end(&mut held, at).unwrap();
    assert_eq!(long, at + HASH);
    let journal = &mut held[..long as usize];
    assert_eq!((check(journal), states(journal, 9), states(journal, 10)), (Ok(()), Ok([0, 33]), Err(Wrong::Unfit)));
    let key = next(journal, FRONT).unwrap();
    assert_eq!((key.0.file, key.0.kind, journal[key.0.place as usize]), (8, REPLACED, 7));
    let torn = [&[5, 8][..], &old[2..]].concat();
    for bytes in [&old[..], &new, &torn] {
        assert_eq!(between(journal, 8, FRONT, Some(bytes)), Ok(FRONT + 41));
    }
    assert_eq!(between(journal, 8, FRONT, Some(&[&old[..2], &[9], &old[3..]].concat())), Err(Wrong::Byte(2)));
    assert_eq!((between(journal, 8, FRONT, None), between(journal, 9, FRONT + 41, Some(&[]))), (Err(Wrong::Met(8)), Ok(at)));
    assert_eq!(next(journal, at), None);
    journal[190] ^= 1;
    assert_eq!((check(journal), check(&journal[1..])), (Err(Wrong::Range(184)), Err(Wrong::First)));
}
