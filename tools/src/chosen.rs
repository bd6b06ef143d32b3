//! Which chunks of both registers names stand for: the pieces' own, and the records that finding the names takes.
use crate::counts::Which;
use crate::kept::Lent;
use crate::paths::{folders_of, Asked};
use crate::printable::shown;
use crate::reading::Archive;
use crate::sleep_register::Refusal;
use crate::splice::under_roots;
use crate::walk::{chunks_of, latest_until, not_held, Holding, Said, Walking};
use crate::words::{usage, Done, Trouble};
use std::cell::RefCell;
use std::collections::{BTreeSet, HashSet};
use std::ffi::OsStr;
use std::ops::Range;

/// The numbers of chunks, of metadata and of content, rising.
pub type Chunks = [BTreeSet<u64>; 2];

/// Words that are names: each begins with a slash.
pub fn names<'a>(words: &[&'a OsStr]) -> Done<Vec<&'a [u8]>> {
    let bytes = words.iter().map(|word| word.as_encoded_bytes()).collect::<Vec<_>>();
    match bytes.iter().find(|name| !name.starts_with(b"/")) {
        Some(name) => usage(format!("{}: a name of an archive begins with a slash", shown(name))),
        None => Ok(bytes),
    }
}

/// The chunks of pieces by their names, or of all pieces of folders; the Header; and every record from the lowest of theirs to the last, since finding a
/// name begins at the last and reads each on its way down. `firsts` are the archive's registers, or their first chunks.
pub fn chosen(archive: &Archive, firsts: &[Lent; 2], names: &[&[u8]]) -> Done<Chunks> {
    let all = found(archive, firsts[0], names)?;
    let (missing, n) = (not_held(archive, Which::Content)?, firsts[1].n());
    let mut chunks = Chunks::default();
    for said in &all {
        let piece = chunks_of(archive, said)?;
        let trouble = |words: &str| Err(Trouble::Refused(format!("{}: {words}", shown(said.path))));
        match Holding::of(said, n, &missing) {
            Holding::Held => chunks[1].extend(piece.numbers()),
            Holding::Unknown => return trouble("its chunks are not among the first ones that are asked for"),
            _ => return trouble("not held here, or not all of it, so that no packet of it can be made"),
        }
    }
    if let Some(lowest) = all.iter().map(|said| said.record).min() {
        chunks[0].extend([0].into_iter().chain(lowest.into()..firsts[0].n()));
    }
    Ok(chunks)
}

/// What the records say that were written last of the names that are asked for. Each name must stand for a piece or a folder.
fn found<'a>(archive: &'a Archive, metadata: Lent<'a>, names: &[&[u8]]) -> Done<Vec<Said<'a>>> {
    let asked = RefCell::new(Asked::new(names));
    let walked = latest_until(Walking::over(archive, metadata), |name| asked.borrow_mut().wants(name), |_| asked.borrow().is_done());
    if let (Some(reason), false) = (walked.ended, asked.borrow().is_done()) {
        return Err(archive.trouble(Which::Metadata, reason));
    }
    let mut all = walked.all();
    all.retain(|said| asked.borrow().has(said.path));
    let known = all.iter().flat_map(|said| folders_of(said.path).chain([said.path])).collect::<HashSet<_>>();
    let is_there = |name: &&&[u8]| !known.contains(name.strip_suffix(b"/").unwrap_or(name)) && (**name != b"/" || all.is_empty());
    match names.iter().find(is_there) {
        Some(name) => Err(Trouble::Refused(format!("{}: there is no such name, and no folder of it", shown(name)))),
        None => Ok(all),
    }
}

/// The first chunk of some that is held.
pub fn first_held(register: &Lent, range: Range<u64>) -> Result<Option<u64>, Refusal> {
    for chunk in range {
        if register.search(chunk)? != Some(chunk) {
            return Ok(Some(chunk));
        }
    }
    Ok(None)
}

/// Adds what a copy of the first m chunks needs to follow: a chunk under each of their roots, unless there is one, and of metadata the records behind them.
pub fn bridged(archive: &Archive, which: Which, register: &Lent, m: u64, chunks: &mut BTreeSet<u64>) -> Done<()> {
    if m > register.n() {
        return usage(format!("--since {m}: {} has {} chunks", which.name(), register.n()));
    }
    for under in under_roots(m).into_iter() {
        if chunks.range(under.clone()).next().is_none() {
            chunks.insert(bridge(archive, which, register, under)?);
        }
    }
    if which == Which::Metadata {
        chunks.extend(m..register.n());
    }
    Ok(())
}

/// A chunk that is held of those under a root.
pub fn bridge(archive: &Archive, which: Which, register: &Lent, under: Range<u64>) -> Done<u64> {
    let Range { start, end } = under;
    first_held(register, under).map_err(|reason| archive.trouble(which, reason))?.ok_or_else(|| {
        let named = archive.named(which);
        Trouble::Refused(format!("{named}: none of the chunks {start} to {} is held, and a packet of one is needed", end - 1))
    })
}
