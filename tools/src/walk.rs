//! One walk over the records of the metadata register, from the latest down, for all names that a command has: what finding each of them would answer.
//! And what a record says of its piece, which may be several chunks in a row.
use crate::counts::Which;
use crate::kept::Lent;
use crate::printable::shown;
use crate::progress::Counter;
use crate::reading::Archive;
use crate::sleep_register::{Node, Refusal, Stat};
use crate::words::{refused, Done, Trouble};
use std::collections::hash_map::Entry;
use std::collections::{HashMap, HashSet};

/// What a record says of a piece, as it stands there: nothing of it is held to the content register yet. There may be as many of them as a register has
/// chunks, so numbers that are not there take no room of their own: a bit for each says whether it is.
#[derive(Clone, Copy, Debug, PartialEq, Eq)]
pub struct Said<'a> {
    /// The record's chunk number.
    pub record: u32,
    known: u8,
    pub path: &'a [u8],
    numbers: [u64; 6],
}

impl<'a> Said<'a> {
    pub fn of(record: u64, node: &Node<'a>) -> Said<'a> {
        let Stat { mode, size, blocks, offset, byte_offset, mtime, .. } = node.stat.unwrap_or_default();
        let all = [mode, size, blocks, offset, byte_offset, mtime];
        let known = all.iter().enumerate().fold(0, |known, (at, number)| known | u8::from(number.is_some()) << at);
        Said { record: record as u32, known, path: node.path, numbers: all.map(Option::unwrap_or_default) }
    }

    fn number(&self, at: usize) -> Option<u64> {
        (self.known >> at & 1 == 1).then_some(self.numbers[at])
    }

    pub fn mode(&self) -> Option<u64> {
        self.number(0)
    }

    pub fn size(&self) -> Option<u64> {
        self.number(1)
    }

    pub fn blocks(&self) -> Option<u64> {
        self.number(2)
    }

    pub fn offset(&self) -> Option<u64> {
        self.number(3)
    }

    fn byte_offset(&self) -> Option<u64> {
        self.number(4)
    }

    pub fn mtime(&self) -> Option<u64> {
        self.number(5)
    }

    /// The same, without its name, which lies in the archive's files.
    pub fn unnamed(&self) -> Said<'static> {
        Said { path: b"", ..*self }
    }

    /// The first chunk and how many, where a register of n chunks has all of them. A record without `blocks` means one.
    pub fn chunks_below(&self, n: u64) -> Option<(u64, u64)> {
        let (first, count) = (self.offset()?, self.blocks().unwrap_or(1));
        let end = first.checked_add(count)?;
        (count > 0 && end <= n).then_some((first, count))
    }
}

/// The chunks of a piece, held to the content register: they are there, the first begins at `start`, and together they have `size` bytes.
#[derive(Clone, Copy, Debug, PartialEq, Eq)]
pub struct Chunks {
    pub first: u64,
    pub count: u64,
    pub start: u64,
    pub size: u64,
}

impl Chunks {
    pub fn numbers(&self) -> std::ops::Range<u64> {
        self.first..self.first + self.count
    }
}

/// The chunks that a record tells of, where they are below n and lie where the record says. The places of the first and of the last are looked up; whoever
/// reads the chunks between them holds each to where the one before it ends.
pub fn chunks_of(archive: &Archive, said: &Said) -> Done<Chunks> {
    let (content, name) = (archive.register(Which::Content), shown(said.path));
    let wrong = |words: String| Err(Trouble::Refused(format!("{name}: {words}")));
    let Some(offset) = said.offset() else { return wrong("its record names no chunk".into()) };
    let Some((first, count)) = said.chunks_below(content.n()) else {
        let (blocks, n) = (said.blocks().unwrap_or(1), content.n());
        return wrong(format!("its record tells of chunk {offset} and {blocks} in all, which the content register, of {n}, has not"));
    };
    let place = |chunk| content.place(chunk).map_err(|reason| refused(&archive.named(Which::Content), reason));
    let ((start, length), (last, last_length)) = (place(first)?, place(first + count - 1)?);
    let size = if count == 1 { length } else { (last + last_length).saturating_sub(start) };
    if (said.byte_offset(), said.size()) != (Some(start), Some(size)) {
        let chunks = if count == 1 { format!("chunk {first} has") } else { format!("the chunks {first} to {} have", first + count - 1) };
        return wrong(format!("its record tells another start or size than {chunks}"));
    }
    Ok(Chunks { first, count, start, size })
}

/// The Header, which finding judges before any record; an empty register has none, and no name either.
pub fn headed(register: &Lent) -> Result<(), Refusal> {
    match register.n() {
        0 => register.root_hash().map(|_| ()),
        _ => register.header_of(0).map(|_| ()),
    }
}

/// After so many records, or pieces, the pages of the files that were come to are given up.
pub const KEPT_PAGES_OF: u64 = 1 << 16;

/// Records that are walked over, and the archive that they are of, which gives up pages that were looked at.
#[derive(Clone, Copy)]
pub struct Walking<'a> {
    register: Lent<'a>,
    archive: Option<&'a Archive>,
}

impl<'a> Walking<'a> {
    /// Of an archive's metadata register, or of its first chunks.
    pub fn over(archive: &'a Archive, register: Lent<'a>) -> Walking<'a> {
        Walking { register, archive: Some(archive) }
    }
}

impl<'a> From<&'a Archive> for Walking<'a> {
    fn from(archive: &'a Archive) -> Walking<'a> {
        Walking::over(archive, archive.register(Which::Metadata))
    }
}

#[cfg(test)]
impl<'a> From<Lent<'a>> for Walking<'a> {
    fn from(register: Lent<'a>) -> Walking<'a> {
        Walking { register, archive: None }
    }
}

/// The records from the latest down to the first, each with its number, read and judged. The Header is no record.
pub fn records<'a>(walking: impl Into<Walking<'a>>) -> impl Iterator<Item = (u64, Result<Node<'a>, Refusal>)> {
    let Walking { register, archive } = walking.into();
    (1..register.n()).rev().map(move |record| {
        if let (0, Some(archive)) = (record % KEPT_PAGES_OF, archive) {
            archive.give_up_pages();
        }
        (record, register.node_of(record))
    })
}

/// What a walk found: of each name the record that was written last, from the latest down, and the refusal that ended it before its end.
#[derive(Default)]
pub struct Walked<'a> {
    found: Vec<Said<'a>>,
    /// Where the record of each name stands among them.
    places: HashMap<&'a [u8], u32>,
    pub ended: Option<Refusal>,
}

impl<'a> Walked<'a> {
    /// What finding a name answers, of the names that were walked for.
    pub fn of(&self, name: &[u8]) -> Result<Option<Said<'a>>, Refusal> {
        match (self.places.get(name), self.ended) {
            (Some(place), _) => Ok(Some(self.found[*place as usize])),
            (None, Some(reason)) => Err(reason),
            (None, None) => Ok(None),
        }
    }

    /// All that were found, in the order of their records.
    pub fn all(self) -> Vec<Said<'a>> {
        let mut all = self.found;
        all.reverse();
        all
    }
}

/// Walks for the names that are wanted, until enough of them are found.
pub fn latest_until<'a>(
    walking: impl Into<Walking<'a>>,
    mut wanted: impl FnMut(&[u8]) -> bool,
    enough: impl Fn(usize) -> bool,
) -> Walked<'a> {
    let walking = walking.into();
    let mut walked = Walked { ended: headed(&walking.register).err(), ..Walked::default() };
    if walked.ended.is_some() {
        return walked;
    }
    let (mut counter, mut records) = (Counter::new("reading records", walking.register.n()), records(walking));
    while !enough(walked.found.len()) {
        let Some((record, read)) = records.next() else { break };
        counter.next();
        match read {
            Ok(node) if wanted(node.path) => {
                if let Entry::Vacant(place) = walked.places.entry(node.path) {
                    place.insert(walked.found.len() as u32);
                    walked.found.push(Said::of(record, &node));
                }
            }
            Ok(_) => {}
            Err(reason) => {
                walked.ended = Some(reason);
                break;
            }
        }
    }
    walked
}

/// One walk for many names, as far down as finding each of them goes.
pub fn find_all<'a>(walking: impl Into<Walking<'a>>, names: &[&[u8]]) -> Walked<'a> {
    let sought = names.iter().copied().collect::<HashSet<_>>();
    latest_until(walking, |path| sought.contains(path), |found| found == sought.len())
}

/// One walk for all names that there are, or those that a rule wants: for each the record that was written last.
pub fn latest<'a>(walking: impl Into<Walking<'a>>, wanted: impl FnMut(&[u8]) -> bool) -> Walked<'a> {
    latest_until(walking, wanted, |_| false)
}

/// The chunks of a register that are not held, rising.
pub fn not_held(archive: &Archive, which: Which) -> Done<Vec<u64>> {
    let (register, mut missing, mut from) = (archive.register(which), Vec::new(), 0);
    while let Some(chunk) = register.search(from).map_err(|reason| archive.trouble(which, reason))? {
        missing.push(chunk);
        from = chunk + 1;
    }
    Ok(missing)
}

/// How much of a piece is held.
#[derive(Clone, Copy, Debug, PartialEq, Eq)]
pub enum Holding {
    Held,
    Part,
    No,
    /// The record names no chunks that the register has.
    Unknown,
}

impl Holding {
    pub fn word(self) -> &'static str {
        match self {
            Holding::Held => "held",
            Holding::Part => "part",
            Holding::No => "no",
            Holding::Unknown => "-",
        }
    }

    /// By the chunks that are not held, rising, of a register of n chunks.
    pub fn of(said: &Said, n: u64, missing: &[u64]) -> Holding {
        let Some((first, count)) = said.chunks_below(n) else { return Holding::Unknown };
        let below = |end: u64| missing.partition_point(|chunk| *chunk < end);
        match (below(first + count) - below(first)) as u64 {
            0 => Holding::Held,
            gone if gone == count => Holding::No,
            _ => Holding::Part,
        }
    }
}

#[cfg(test)]
mod tests {
    use super::*;
    use crate::sleep_register::{write_header, write_node, Store, NODE_ROOM};

    /// A metadata register with these paths, and piece k in chunk k of the content.
    fn register(paths: &[&[u8]]) -> Store {
        let mut store = Store::with_room(paths.len() + 1, 46 + NODE_ROOM * paths.len());
        store.start().unwrap();
        let mut record = [0; NODE_ROOM];
        let mut append = |bytes: &[u8]| {
            store.append(bytes).unwrap();
            store.store_signature(&[1; 64]).unwrap();
        };
        let length = write_header(&[7; 32], &mut record).unwrap();
        append(&record[..length]);
        for (offset, path) in (0..).zip(paths) {
            let stat = Stat { mode: Some(0o100644), offset: Some(offset), ..Stat::default() };
            let length = write_node(&Node { path, stat: Some(stat), ..Node::default() }, &mut record).unwrap();
            append(&record[..length]);
        }
        store
    }

    /// Every name of these, and some that are none, by one walk for several of them and each by itself.
    fn held_to_find(store: &Store, choices: &[usize]) {
        let lent = Lent::Whole(store.register());
        let names: [&[u8]; 6] = [b"/a", b"/b", b"/c", b"/d", b"/none", b"a"];
        let of = |walked: &Walked, name: &[u8]| walked.of(name).map(|said| said.map(|said| u64::from(said.record)));
        for several in choices {
            let sought = names.iter().enumerate().filter(|(at, _)| several >> at & 1 == 1).map(|(_, name)| *name).collect::<Vec<_>>();
            let walked = find_all(lent, &sought);
            sought.iter().for_each(|name| assert_eq!(of(&walked, name), lent.find(name)));
        }
        let all = latest(lent, |_| true);
        names.iter().for_each(|name| assert_eq!(of(&all, name), lent.find(name)));
    }

    #[test]
    fn a_walk_answers_as_finding_does() {
        let store = register(&[b"/a", b"/b", b"/a", b"/c", b"/b", b"/d"]);
        let all = (0..64).collect::<Vec<_>>();
        held_to_find(&store, &all);
        held_to_find(&register(&[]), &all);
        let mut empty = Store::with_room(1, 1);
        empty.start().unwrap();
        held_to_find(&empty, &all);
        for at in (0..store.data.len()).step_by(7) {
            let mut damaged = store.clone();
            damaged.data[at] ^= 1;
            held_to_find(&damaged, &[0b000011, 0b101101]);
        }
        for at in (0..store.tree.len()).step_by(19) {
            let mut damaged = store.clone();
            damaged.tree[at] ^= 1;
            held_to_find(&damaged, &[0b000110, 0b111111]);
        }
        for chunk in 0..store.n {
            let mut released = store.clone();
            released.release(chunk).unwrap();
            held_to_find(&released, &all);
        }
    }

    #[test]
    fn the_order_is_that_of_the_records() {
        let store = register(&[b"/b", b"/a", b"/b", b"/c"]);
        let all = latest(Lent::Whole(store.register()), |path| path != b"/c").all();
        assert_eq!(all.iter().map(|said| (said.record, said.path)).collect::<Vec<_>>(), [(2, &b"/a"[..]), (3, b"/b")]);
    }

    #[test]
    fn chunks_are_below_n() {
        let stat = |offset, blocks| Some(Stat { blocks, offset, ..Stat::default() });
        let said = |offset, blocks| Said::of(1, &Node { path: b"/a", stat: stat(offset, blocks), ..Node::default() });
        assert_eq!(said(Some(2), Some(3)).chunks_below(5), Some((2, 3)));
        assert_eq!(said(Some(4), None).chunks_below(5), Some((4, 1)));
        for (offset, blocks) in
            [(None, None), (Some(5), None), (Some(2), Some(4)), (Some(0), Some(0)), (Some(1), Some(u64::MAX)), (Some(u64::MAX), Some(1))]
        {
            assert_eq!(said(offset, blocks).chunks_below(5), None);
        }
        let missing = [1, 2, 4];
        let held = |offset, blocks| Holding::of(&said(Some(offset), Some(blocks)), 6, &missing);
        assert_eq!(
            [held(0, 1), held(1, 2), held(1, 3), held(5, 1), held(5, 2)],
            [Holding::Held, Holding::No, Holding::Part, Holding::Held, Holding::Unknown]
        );
    }
}
