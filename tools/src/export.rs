//! `export`: pieces become files below a folder, under their names. What can't be written is named, and the rest is written.
use crate::arguments::Arguments;
use crate::counts::Which;
use crate::folder::Opening;
use crate::joined::{self, AHEAD};
use crate::laying::Laying;
use crate::paths::{folders_of, parts, Asked};
use crate::printable::shown;
use crate::progress::Counter;
use crate::reading::Archive;
use crate::sleep_register::Refusal;
use crate::walk::{chunks_of, latest, latest_until, not_held, Chunks, Holding, Said, KEPT_PAGES_OF};
use crate::words::{refusal, tell, usage, Done, Trouble};
use std::cell::RefCell;
use std::collections::HashSet;
use std::os::unix::ffi::OsStrExt;
use std::path::Path;

/// So many pieces that are not written are named one by one.
const NAMED: u64 = 1000;

/// What is not written: each is named, with the reason.
#[derive(Default)]
struct Unwritten {
    count: u64,
}

impl Unwritten {
    fn tell(&mut self, what: &str, words: &str) {
        self.count += 1;
        if self.count <= NAMED {
            tell(&format!("sleep-archive: {what}: {words}"));
        }
    }

    fn told(self) -> Done<()> {
        match self.count {
            0 => Ok(()),
            count => Err(Trouble::Refused(format!(
                "{} not written, named above",
                if count == 1 { "one is".into() } else { format!("{count} are") }
            ))),
        }
    }
}

/// A piece that is to be written.
struct Piece {
    name: Vec<u8>,
    chunks: Chunks,
    mode: Option<u64>,
    mtime: Option<u64>,
}

/// `export`.
pub fn export(arguments: &Arguments) -> Done<()> {
    let words = arguments.words();
    let [path, folder, names @ ..] = &words[..] else { return usage("an archive and a folder are needed, and names at most") };
    if let Some(name) = names.iter().find(|name| !name.as_bytes().starts_with(b"/")) {
        return usage(format!("{}: a name of an archive begins with a slash", name.to_string_lossy()));
    }
    let mut archive = Archive::open(path, Opening::reading(arguments)?)?;
    let mut unwritten = Unwritten::default();
    let names = names.iter().map(|name| name.as_bytes()).collect::<Vec<_>>();
    let pieces = chosen(&archive, &names, &mut unwritten)?;
    if pieces.is_empty() {
        return unwritten.told(); // no folder is made for nothing
    }
    let mut laying = Laying::begin(Path::new(folder), &archive.folder, arguments.has("--overwrite"))?;
    let mut counter = Counter::new("writing files", pieces.len() as u64);
    for (written, piece) in (1..).zip(pieces) {
        counter.next();
        if written % KEPT_PAGES_OF == 0 {
            archive.give_up_pages();
        }
        write(&mut laying, &mut archive, &piece).or_else(|trouble| match trouble {
            Unwritable::Here(words) => {
                unwritten.tell(&shown(&piece.name), &words);
                Ok(())
            }
            Unwritable::Anywhere(trouble) => Err(trouble),
        })?;
    }
    drop(counter);
    laying.end()?;
    unwritten.told()
}

/// Why a piece is not written: something of its own, or something that ends the command.
pub enum Unwritable {
    Here(String),
    Anywhere(Trouble),
}

/// The pieces that are asked for and can be written, in the order of their chunks.
fn chosen(archive: &Archive, names: &[&[u8]], unwritten: &mut Unwritten) -> Done<Vec<Piece>> {
    let asked = RefCell::new(Asked::new(names));
    let walked = match names.is_empty() {
        true => latest(archive, |_| true),
        false => latest_until(archive, |name| asked.borrow_mut().wants(name), |_| asked.borrow().is_done()),
    };
    let ended = walked.ended;
    let unmet = names.iter().copied().filter(|name| walked.of(name).is_err()).collect::<HashSet<_>>();
    let mut all = walked.all();
    if !names.is_empty() {
        all.retain(|said| asked.borrow().has(said.path));
        unfound(archive, names, &all, ended.map(|reason| (reason, unmet)), unwritten);
    } else if let Some(reason) = ended {
        unwritten.tell(&archive.named(Which::Metadata), &format!("{}; names that stand below that record are not known", refusal(reason)));
    }
    let (n, missing) = (archive.register(Which::Content).n(), not_held(archive, Which::Content)?);
    let folders = all.iter().flat_map(|said| folders_of(said.path)).collect::<HashSet<_>>();
    let mut pieces = Vec::new();
    for said in &all {
        match judged(archive, said, folders.contains(said.path), Holding::of(said, n, &missing)) {
            Ok(chunks) => pieces.push(Piece { name: said.path.to_vec(), chunks, mode: said.mode(), mtime: said.mtime() }),
            Err(words) => unwritten.tell(&shown(said.path), &words),
        }
    }
    pieces.sort_by_key(|piece| piece.chunks.first);
    Ok(pieces)
}

/// Names that stand for no piece and no folder, as far as that is known: where a refusal ended the walk it is told for those that were not met before.
fn unfound(archive: &Archive, names: &[&[u8]], all: &[Said], ended: Option<(Refusal, HashSet<&[u8]>)>, unwritten: &mut Unwritten) {
    let known = all.iter().flat_map(|said| folders_of(said.path).chain([said.path])).collect::<HashSet<_>>();
    for name in names {
        let is_there = known.contains(name.strip_suffix(b"/").unwrap_or(name)) || (*name == b"/" && !all.is_empty());
        match &ended {
            Some((reason, unmet)) if unmet.contains(name) => {
                unwritten.tell(&shown(name), &format!("{}: {}", archive.named(Which::Metadata), refusal(*reason)))
            }
            None if !is_there => unwritten.tell(&shown(name), "there is no such name, and no folder of it"),
            _ => {}
        }
    }
}

/// The chunks of a piece that can be written, or why it can't.
fn judged(archive: &Archive, said: &Said, is_folder: bool, holding: Holding) -> Result<Chunks, String> {
    parts(said.path).map_err(|words| format!("no path below a folder: {words}"))?;
    match holding {
        _ if is_folder => Err("other pieces have it as their folder".into()),
        Holding::No => Err("not held here".into()),
        Holding::Part => Err("held here in part".into()),
        Holding::Held | Holding::Unknown => chunks_of(archive, said).map_err(|trouble| trouble.words().to_string()),
    }
}

fn write(laying: &mut Laying, archive: &mut Archive, piece: &Piece) -> Result<(), Unwritable> {
    let parts = parts(&piece.name).map_err(|words| Unwritable::Here(words.into()))?;
    laying.file(&parts, piece.mode, piece.mtime, &mut |put| joined::each(archive, &piece.chunks, AHEAD, put))
}
