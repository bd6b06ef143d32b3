//! `diff`: what differs between two archives by name, or since one had fewer chunks. It goes by the records and by stored leaf entries, so pieces that were
//! released are compared too; it audits nothing.
use crate::arguments::Arguments;
use crate::counts::Which;
use crate::folder::Opening;
use crate::outputs;
use crate::printable::{printable, shown};
use crate::progress::Counter;
use crate::reading::{both, Archive};
use crate::sleep_register::Refusal;
use crate::walk::{headed, records, Said, KEPT_PAGES_OF};
use crate::words::{is_quiet, refused, remark, usage, Done, Trouble};
use std::cmp::Ordering;

/// The refusal of an entry that a copy does not know.
const UNKNOWN: u64 = 20;

/// More chunks than these are not compared for one name after another, nor more than four times what both registers have: names may share chunks, but
/// records that somebody prepared must not cost more than a moment.
const MOST_COMPARED: u64 = 1 << 22;

/// A name, the record that was written last of it, and its chunks, the first and how many; none where the register has not all of them.
struct Named<'a> {
    name: &'a [u8],
    record: u32,
    first: u32,
    count: u32,
}

impl<'a> Named<'a> {
    /// What a record says of its piece in a content register of so many chunks: at most 2^20.
    fn of(said: &Said<'a>, chunks: u64) -> Named<'a> {
        let (first, count) = said.chunks_below(chunks).unwrap_or_default();
        Named { name: said.path, record: said.record, first: first as u32, count: count as u32 }
    }

    fn chunks(&self) -> Option<(u64, u64)> {
        (self.count > 0).then(|| (self.first.into(), self.count.into()))
    }
}

/// The names of an archive as it is or was, rising, and the archive that their pieces lie in.
struct Side<'a> {
    names: Vec<Named<'a>>,
    archive: &'a Archive,
}

/// How a name differs.
#[derive(Clone, Copy, PartialEq, Eq)]
enum Differs {
    Added,
    Changed,
    Missing,
    /// A copy does not know a leaf of it, or a record names chunks that are not there.
    Unknown,
}

const KINDS: [(Differs, &str); 4] =
    [(Differs::Added, "added"), (Differs::Changed, "changed"), (Differs::Missing, "missing"), (Differs::Unknown, "unknown")];

/// `diff`: two archives, or one and what it had before.
pub fn diff(arguments: &Arguments) -> Done<()> {
    let (words, opening) = (arguments.words(), Opening::reading(arguments)?);
    match (&words[..], arguments.pair("--first")?) {
        ([path], Some(first)) => {
            let archive = Archive::open(path, opening)?;
            had(&archive, first)?;
            let [then, now] = sides(&archive, [first, numbers(&archive)])?;
            one_state(&then, first)?;
            told(&then, &now)
        }
        ([first, second], None) => {
            let (first, second) = both(first, second, [opening; 2])?;
            let second = second.as_ref().unwrap_or(&first);
            let ([one], [other]) = (sides(&first, [numbers(&first)])?, sides(second, [numbers(second)])?);
            told(&one, &other)
        }
        _ => usage("two archives are needed, or one and --first METADATA,CONTENT: how many chunks its registers had"),
    }
}

/// How many chunks the metadata register and the content register have.
fn numbers(archive: &Archive) -> (u64, u64) {
    (archive.register(Which::Metadata).n(), archive.register(Which::Content).n())
}

/// Whether the registers can have had so many chunks.
fn had(archive: &Archive, (m, c): (u64, u64)) -> Done<()> {
    for (which, had) in [(Which::Metadata, m), (Which::Content, c)] {
        let n = archive.register(which).n();
        if had > n {
            let words = format!("--first {m},{c}: it has {n} chunks, and never had {had}");
            return Err(Trouble::Refused(format!("{}: {words}", archive.named(which))));
        }
    }
    Ok(())
}

/// The first checks of the content register, of which entries are taken later; a copy needs not know its roots.
fn checked(archive: &Archive) -> Done<()> {
    match archive.register(Which::Content).root_hash() {
        Err(reason) if reason.number != UNKNOWN => Err(refused(&archive.named(Which::Content), reason)),
        _ => Ok(()),
    }
}

/// The names when the registers had these numbers of chunks, each state by one and the same walk.
fn sides<'a, const K: usize>(archive: &'a Archive, states: [(u64, u64); K]) -> Done<[Side<'a>; K]> {
    checked(archive)?;
    let (metadata, trouble) = (archive.register(Which::Metadata), |reason: Refusal| refused(&archive.named(Which::Metadata), reason));
    headed(&metadata).map_err(trouble)?;
    let mut found = states.map(|(m, c)| (m, c, Vec::new()));
    let mut counter = Counter::new("reading records", metadata.n());
    for (record, read) in records(archive) {
        counter.next();
        let said = Said::of(record, &read.map_err(trouble)?);
        for (_, c, names) in found.iter_mut().filter(|(m, ..)| record < *m) {
            names.push(Named::of(&said, *c));
        }
    }
    Ok(found.map(|(_, _, mut names)| {
        // Of a name that was written again the latest record comes first, and the others go.
        names.sort_unstable_by(|one, other| one.name.cmp(other.name).then(other.record.cmp(&one.record)));
        names.dedup_by_key(|named| named.name);
        Side { names, archive }
    }))
}

/// Whether two numbers are those of one state: the chunks of every name are among the first that the content had.
fn one_state(then: &Side, (m, c): (u64, u64)) -> Done<()> {
    match then.names.iter().find(|named| named.chunks().is_none()) {
        None => Ok(()),
        Some(named) => Err(Trouble::Refused(format!(
            "--first {m},{c}: {} stands in the first {m} records, and its chunks are not among the first {c}: the two numbers are of two states",
            shown(named.name)
        ))),
    }
}

/// How a name's piece differs that both have, if it does; and how many chunks that may look at.
fn of_both(first: &Side, one: &Named, second: &Side, other: &Named, compared: &mut u64) -> Option<Differs> {
    if std::ptr::eq(first.archive, second.archive) && one.record == other.record {
        return None;
    }
    let (Some((chunk, count)), Some((others_chunk, others_count))) = (one.chunks(), other.chunks()) else { return Some(Differs::Unknown) };
    if count != others_count {
        return Some(Differs::Changed);
    }
    *compared += count;
    let (content, others) = (first.archive.register(Which::Content), second.archive.register(Which::Content));
    for at in 0..count {
        match (content.stored_leaf(chunk + at), others.stored_leaf(others_chunk + at)) {
            (Ok(leaf), Ok(others_leaf)) if leaf == others_leaf => {}
            (Ok(_), Ok(_)) => return Some(Differs::Changed),
            _ => return Some(Differs::Unknown),
        }
    }
    None
}

/// All names that differ, rising: both lists from the front, always at the lower name.
fn differences<'a>(first: &'a Side, second: &'a Side) -> Done<Vec<(&'a [u8], Differs)>> {
    let (mut found, mut compared, mut at, mut others_at) = (Vec::new(), 0, 0, 0);
    let most = MOST_COMPARED.max(4 * (numbers(first.archive).1 + numbers(second.archive).1));
    let mut counter = Counter::new("comparing pieces", (first.names.len() + second.names.len()) as u64);
    loop {
        let (one, other) = (first.names.get(at), second.names.get(others_at));
        let order = match (one, other) {
            (None, None) => return Ok(found),
            (Some(one), Some(other)) => one.name.cmp(other.name),
            (one, _) => {
                if one.is_some() {
                    Ordering::Less
                } else {
                    Ordering::Greater
                }
            }
        };
        (at, others_at) = (at + usize::from(order.is_le()), others_at + usize::from(order.is_ge()));
        counter.add(1 + u64::from(order.is_eq()));
        if (at + others_at) as u64 % KEPT_PAGES_OF < 2 {
            [first, second].iter().for_each(|side| side.archive.give_up_pages());
        }
        let differs = match (order, one, other) {
            (Ordering::Equal, Some(one), Some(other)) => of_both(first, one, second, other, &mut compared),
            (Ordering::Less, ..) => Some(Differs::Missing),
            _ => Some(Differs::Added),
        };
        let name = if order.is_le() { one } else { other }.map_or(&b""[..], |named| named.name);
        found.extend(differs.map(|differs| (name, differs)));
        if compared > most {
            let path = first.archive.folder.path.display();
            return Err(Trouble::Refused(format!("{path}: the records tell of far more chunks than there are")));
        }
    }
}

/// Prints what differs, and says by what it was judged.
fn told(first: &Side, second: &Side) -> Done<()> {
    let found = differences(first, second)?;
    let mut out = Vec::new();
    for (name, differs) in found.iter().filter(|_| !is_quiet()) {
        let word = KINDS.iter().find(|(kind, _)| kind == differs).map_or("", |(_, word)| word);
        out.extend([format!("{word:<8}").as_bytes(), &printable(name), b"\n"].concat());
    }
    outputs::give(None, &out)?;
    if found.is_empty() {
        remark("sleep-archive: no difference, by names and stored hashes; nothing is audited");
        return Ok(());
    }
    let count = |kind: Differs| found.iter().filter(|(_, differs)| *differs == kind).count();
    let counts =
        KINDS.iter().filter(|(kind, _)| count(*kind) > 0).map(|(kind, word)| format!("{} {word}", count(*kind))).collect::<Vec<_>>();
    Err(Trouble::Refused(format!("{}, by names and stored hashes; nothing is audited", counts.join(", "))))
}
