//! `add`: files and folders become pieces, set by set, in memory; a change of both registers is committed for every so many bytes, never inside a piece.
use crate::arguments::Arguments;
use crate::batch::{Batch, Limits};
use crate::counts::{Which, BOTH, MOST_CHUNKS};
use crate::files::{Ahead, Reading};
use crate::folder::{Folder, Opening};
use crate::outputs::{self, say};
use crate::printable::printable;
use crate::progress::{self, Counter};
use crate::reading::Archive;
use crate::signer::Signer;
use crate::sleep_register::needs;
use crate::sources::{self, Sources};
use crate::unchanged::{same, Known};
use crate::words::{counted, hex, refused, remark, usage, Done, Trouble};
use std::path::Path;
use std::sync::Arc;

/// Unless told otherwise a change is committed before its journal has more MiB than these, which reading commands take on unasked where it is left; a journal
/// has room for the most.
const COMMIT_EVERY: u64 = 60;
const MOST_EVERY: u64 = 192;

/// The refusal of more chunks than a register has.
const TOO_MANY: u64 = 2;

/// What is told of how a command is to add.
struct Told<'a> {
    path: &'a Path,
    opening: Opening,
    changed: bool,
    times: bool,
    /// The bytes of a commit's journal.
    every: u64,
}

/// How far an `add` came.
#[derive(Default)]
struct Far {
    /// Files that are committed, or passed over, from the first.
    files: usize,
    commits: u64,
    roots: Option<[[u8; 32]; 2]>,
}

fn told<'a>(arguments: &Arguments, path: &'a Path) -> Done<Told<'a>> {
    let every = arguments.number("--commit-every")?.unwrap_or(COMMIT_EVERY);
    if every == 0 || every > MOST_EVERY {
        return usage(format!("--commit-every {every}: 1 to {MOST_EVERY} are needed, in MiB"));
    }
    let (changed, times) = (arguments.has("--changed"), arguments.has("--times"));
    Ok(Told { path, opening: Opening::writing(arguments)?, changed, times, every: every << 20 })
}

/// `add`.
pub fn add(arguments: &Arguments) -> Done<()> {
    let (path, operands) = sources::typed(arguments)?;
    let (told, mut signer) = (told(arguments, Path::new(path))?, Signer::of(arguments)?);
    if signer.is_none() && arguments.has("--commit-every") {
        return usage("--commit-every needs --signer or --sign-with: without them one set is added");
    }
    let sources = Arc::new(sources::all(operands, told.path, told.times)?);
    if arguments.has("--dry-run") {
        return dry_run(&told, &sources);
    }
    let (mut far, printing) = (Far::default(), if signer.is_some() { "root" } else { "sign" });
    let added = add_all(&told, &sources, &mut signer, &mut far);
    added.map_err(|trouble| how_far(trouble, &sources, &far))?;
    signer.map_or(Ok(()), Signer::end)?;
    let Some([metadata, content]) = far.roots else {
        remark(&format!("{}: nothing is new", told.path.display()));
        return Ok(());
    };
    say(&format!("metadata {}\ncontent {}", hex(&metadata), hex(&content))).map_err(|trouble| {
        let path = told.path.display();
        Trouble::File(format!("{path}: added; the root hashes could not be printed, `{printing}` prints them ({})", trouble.words()))
    })
}

/// What is said of the commits that stand, where a later one was not made.
fn how_far(trouble: Trouble, sources: &Sources, far: &Far) -> Trouble {
    if far.commits == 0 {
        return trouble;
    }
    let (files, last) = (counted(sources.all.len() as u64, "file"), printable(&sources.all[far.files - 1].name));
    let last = String::from_utf8_lossy(&last).into_owned();
    let stand = format!("{} of {files} are in the archive, up to {last}; the same command with --changed adds the rest", far.files);
    let words = format!("{}; {stand}", trouble.words());
    match trouble {
        Trouble::Refused(_) => Trouble::Refused(words),
        Trouble::Usage(_) => Trouble::Usage(words),
        Trouble::File(_) => Trouble::File(words),
        Trouble::Stopped(_) => Trouble::Stopped(words),
    }
}

/// Commit by commit, each under the archive's lock for itself: others read between them.
fn add_all(told: &Told, sources: &Arc<Sources>, signer: &mut Option<Signer>, far: &mut Far) -> Done<()> {
    let mut work = Work { sources, files: Ahead::start(sources), next: None, known: Known::default(), counter: counter(sources) };
    while far.files < sources.all.len() {
        let archive = Archive::of(Folder::open(told.path, told.opening)?)?;
        match told.changed {
            true => work.known.look(&archive, sources)?,
            false if far.commits == 0 => fits(&archive, sources)?,
            false => {}
        }
        let coming = sources.all[far.files..].iter().map(|source| source.size).sum();
        let mut batch = Batch::begin(archive, Limits { journal: told.every, times: told.times, one_set: signer.is_none() }, coming)?;
        let made = work.fill(&mut batch, signer, far.files).and_then(|end| {
            batch.complete(signer)?;
            progress::note(&format!("committing {}, {end} of {} files", counted(batch.pieces(), "piece"), sources.all.len()));
            let roots = if batch.pieces() > 0 { Some(batch.commit()?) } else { None };
            Ok((end, roots))
        });
        progress::note("");
        let (end, roots) = made.map_err(|trouble| unstored(&batch, trouble))?;
        if roots.is_some() {
            (far.roots, far.commits) = (roots, far.commits + 1);
            work.known.committed(batch.records());
        }
        far.files = end;
        if end < sources.all.len() {
            remark(&format!("sleep-archive: {}: {end} of {} files are in the archive", told.path.display(), sources.all.len()));
        }
    }
    Ok(())
}

fn counter(sources: &Sources) -> Counter {
    Counter::new("adding files", sources.all.len() as u64)
}

/// Files on their way into batches.
struct Work<'a> {
    sources: &'a Sources,
    files: Ahead,
    /// One that the last batch had no room for.
    next: Option<Reading>,
    known: Known,
    counter: Counter,
}

impl Work<'_> {
    /// Fills a batch from this file on; the number of the first that is not in it.
    fn fill(&mut self, batch: &mut Batch, signer: &mut Option<Signer>, from: usize) -> Done<usize> {
        for (number, source) in self.sources.all.iter().enumerate().skip(from) {
            let mut read = self.next.take().map_or_else(|| self.files.next(), Ok)?;
            let cuts = self.sources.cuts(source);
            let same = self.known.of(number).map_or(Ok(false), |said| same(batch.archive(), said, &mut read))?;
            if !same && !batch.has_room(read.size, cuts) {
                self.next = Some(read);
                return Ok(number);
            }
            if !same {
                batch.take(&mut read, cuts, &source.name, signer)?;
            }
            self.counter.next();
            if batch.is_over() {
                return Ok(number + 1);
            }
        }
        Ok(self.sources.all.len())
    }
}

/// Asks beforehand whether the registers can have so many chunks more. Of as many as any has the call, which goes over all of them, is not asked: it would
/// be in vain, and an append that has no room is refused whatever is said here.
fn fits(archive: &Archive, sources: &Sources) -> Done<()> {
    for (which, more) in [(Which::Content, sources.chunks()), (Which::Metadata, sources.all.len() as u64)] {
        let register = archive.register(which);
        if register.n() + more <= MOST_CHUNKS {
            continue;
        }
        match needs(register.n(), register.size(), &vec![0; more.min(MOST_CHUNKS + 1) as usize]) {
            Err(reason) if reason.number == TOO_MANY => return Err(refused(&archive.named(which), reason)),
            _ => {}
        }
    }
    Ok(())
}

/// Prints the root hashes that were signed and are not stored: whoever has such a signature has one of a register that is none.
fn unstored(batch: &Batch, trouble: Trouble) -> Trouble {
    if batch.stands() {
        return trouble;
    }
    for (which, root) in batch.signed() {
        let _ = say(&format!("signed and not stored: {} {}", which.name(), hex(root)));
    }
    trouble
}

/// `--dry-run`: the files that would be added, with their chunks and bytes.
fn dry_run(told: &Told, sources: &Arc<Sources>) -> Done<()> {
    let (mut known, mut lines, mut sums) = (Known::default(), Vec::new(), [0; 3]);
    let archive = Archive::of(Folder::open(told.path, told.opening.to_read())?)?;
    BOTH.iter().try_for_each(|which| archive.register(*which).whole(&archive.named(*which)).map(|_| ()))?;
    if told.changed {
        known.look(&archive, sources)?;
    }
    let mut counter = Counter::new("looking at files", sources.all.len() as u64);
    for (number, source) in sources.all.iter().enumerate() {
        counter.next();
        let (mut chunks, mut size) = (sources.cuts(source).count(source.size), source.size);
        if told.changed || sources.is_standard_input(source) {
            let mut read = Reading::open(sources, number)?;
            if known.of(number).map_or(Ok(false), |said| same(&archive, said, &mut read))? {
                continue;
            }
            (chunks, size) = (sources.cuts(source).count(read.size), read.size);
        }
        sums = [sums[0] + 1, sums[1] + chunks, sums[2] + size];
        lines.extend([format!("{chunks:>7} {size:>7} ").as_bytes(), &printable(&source.name), b"\n"].concat());
    }
    drop(counter);
    outputs::give(None, &lines)?;
    say(&format!("{}, {}, {} would be added", counted(sums[0], "piece"), counted(sums[1], "chunk"), counted(sums[2], "byte")))
}
