//! The commands that read archives.
use crate::arguments::{number, Arguments};
use crate::below;
use crate::counts::{Which, BOTH};
use crate::folder::{Folder, Images, Opening};
use crate::inputs;
use crate::joined;
use crate::kept::Lent;
use crate::meant::{meant, Meant};
use crate::outputs::{self, report, say};
use crate::page;
use crate::paper::Paper;
use crate::parts::{self, Ended, Mark, Threads};
use crate::printable::printable;
use crate::progress::Counter;
use crate::sleep_register::{self as proved, Comparison, Needs, Refusal, Register};
use crate::walk::{headed, not_held, records, Holding, Said};
use crate::words::{at_file, counted, hex, refusal, refused, usage, Done, Trouble};
use std::cmp::Ordering;
use std::collections::HashSet;
use std::ffi::OsStr;
use std::fmt::Write;
use std::ops::Range;
use std::path::Path;

/// The refusal of an entry that a copy does not know.
const UNKNOWN: u64 = 20;

/// An archive that is locked for reading.
pub struct Archive {
    pub folder: Folder,
    metadata: Images,
    content: Images,
    /// Bytes of a register's data that are this process's own.
    own: (Which, Range<u64>),
}

impl Archive {
    pub fn open(path: &OsStr, opening: Opening) -> Done<Archive> {
        Archive::of(Folder::open(Path::new(path), opening)?)
    }

    pub fn of(folder: Folder) -> Done<Archive> {
        let (metadata, content) = (folder.to_read(Which::Metadata)?, folder.to_read(Which::Content)?);
        Ok(Archive { folder, metadata, content, own: (Which::Content, 0..0) })
    }

    pub fn register(&self, which: Which) -> Lent<'_> {
        match which {
            Which::Metadata => self.metadata.lent(),
            Which::Content => self.content.lent(),
        }
    }

    /// The bytes of a chunk, after their hash was compared. They are this process's own before they are hashed, so that what goes out is what was hashed,
    /// whatever another program writes meanwhile that knows no lock. So are `ahead` bytes of chunks that will be read next, and those before are given up.
    pub fn read_own(&mut self, which: Which, chunk: u64, ahead: u64) -> Done<&[u8]> {
        let named = self.named(which);
        let trouble = |reason| refused(&named, reason);
        let Ok((start, length)) = self.register(which).place(chunk) else { return self.register(which).read(chunk).map_err(trouble) };
        if self.own.0 != which || start < self.own.1.start || start + length > self.own.1.end {
            let images = if which == Which::Metadata { &mut self.metadata } else { &mut self.content };
            let end = (start + length.max(ahead)).min(images.lent().size());
            images.own(self.own.1.clone(), start..end).map_err(|error| at_file(&self.folder.path, error))?;
            self.own = (which, start..end);
        }
        let (bytes, place) = (self.register(which).read(chunk).map_err(trouble)?, self.register(which).place(chunk).map_err(trouble)?);
        if place != (start, length) || bytes.len() as u64 != length {
            return Err(Trouble::File(format!("{named}: another program changed it while it was read")));
        }
        Ok(bytes)
    }

    /// Gives up the pages of both registers' files that were come to, but for data that are this process's own: a walk over many records takes little memory.
    pub fn give_up_pages(&self) {
        self.metadata.give_up_pages(self.own.0 != Which::Metadata || self.own.1.is_empty());
        self.content.give_up_pages(self.own.0 != Which::Content || self.own.1.is_empty());
    }

    /// A refusal of a register's, with what to do where it is a copy that knows nothing yet.
    pub fn trouble(&self, which: Which, reason: proved::Refusal) -> Trouble {
        match fresh_words(self, which) {
            Some(words) if reason.number == UNKNOWN => Trouble::Refused(format!("{}: {}; {words}", self.named(which), refusal(reason))),
            _ => refused(&self.named(which), reason),
        }
    }

    /// Whether it is a copy to which nothing was taken in: no root is known.
    pub fn is_fresh(&self, which: Which) -> bool {
        let register = self.register(which);
        matches!(register, Lent::Copy(_)) && register.root_hash().is_err_and(|reason| reason.number == UNKNOWN)
    }

    /// How a register is named in a message.
    pub fn named(&self, which: Which) -> String {
        format!("{}: {}", self.folder.path.display(), which.name())
    }
}

/// What is known of a copy to which nothing was taken in, and what to do; nothing of other registers.
fn fresh_words(archive: &Archive, which: Which) -> Option<String> {
    archive.is_fresh(which).then(|| {
        let (n, path) = (archive.register(which).n(), archive.folder.path.display());
        let what = if which == Which::Metadata { "so no name is known" } else { "so no piece is held" };
        format!(
            "nothing is taken in yet of its {}, {what}: `sleep-archive packets take {path} FILE --root METADATA,CONTENT` takes in a file that \
             `packets make` made of the archive, under root hashes that you know from it or from a sheet",
            counted(n, "chunk")
        )
    })
}

/// The one word that a command needs.
pub fn only<'a>(words: &[&'a OsStr], what: &str) -> Done<&'a OsStr> {
    match words {
        [one] => Ok(one),
        _ => usage(format!("just {what} is needed")),
    }
}

/// A register by its name.
pub fn only_register(word: &OsStr) -> Done<Which> {
    BOTH.into_iter().find(|which| word == which.name()).map_or_else(|| usage("a register is named metadata or content"), Ok)
}

/// An archive, and which of its registers; both where none is named.
pub fn archive_and_registers(arguments: &Arguments) -> Done<(&OsStr, Vec<Which>)> {
    let words = arguments.words();
    let which = words.get(1).map_or(Ok(BOTH.to_vec()), |word| only_register(word).map(|which| vec![which]))?;
    match words[..] {
        [archive] | [archive, _] => Ok((archive, which)),
        _ => usage("an archive is needed, and metadata or content at most"),
    }
}

fn counts(register: &Lent) -> String {
    match register {
        Lent::Whole(Register { n, s, size, .. }) => {
            let mut line = format!("{}, {}, {}", counted(*n, "chunk"), counted(*size, "byte"), counted(*s, "signature"));
            if s < n {
                write!(line, ", one is owed").unwrap();
            }
            line
        }
        Lent::Copy(copied) => format!("a partial copy of {}, {}", counted(copied.n, "chunk"), counted(copied.size, "byte")),
    }
}

/// How many chunks of a copy are held.
fn held(archive: &Archive, which: Which) -> Done<u64> {
    Ok(archive.register(which).n() - not_held(archive, which)?.len() as u64)
}

/// `status`: what each register has, after the first checks.
pub fn status(arguments: &Arguments) -> Done<()> {
    let archive = Archive::open(only(&arguments.words(), "an archive")?, Opening::reading(arguments)?)?;
    for which in BOTH {
        let register = archive.register(which);
        let known = match (register, fresh_words(&archive, which)) {
            (_, Some(words)) => format!("; {words}"),
            (Lent::Copy(_), None) => format!(", {} of them held", held(&archive, which)?),
            (Lent::Whole(_), None) => {
                register.root_hash().map_err(|reason| refused(&archive.named(which), reason))?;
                String::new()
            }
        };
        say(&format!("{}: {}{known}", which.name(), counts(&register)))?;
    }
    say(&page::told(&archive.folder))
}

/// The root hash, to be held against one that is known from elsewhere.
fn root_words(register: &Lent) -> String {
    match register.root_hash() {
        Ok(root) => format!(", root hash {}", hex(&root)),
        Err(_) => ", and not all its roots are known".into(),
    }
}

/// Audits a register on several threads, its tree entries from `from` on. Ctrl-C ends the command, with the words that say how an audit goes on.
pub fn judged(archive: &Archive, which: Which, threads: Threads, from: u64) -> Done<Result<(), Refusal>> {
    let (register, name) = (archive.register(which), which.name());
    let ended = parts::audit(&format!("audit of {name}"), &register, threads, from);
    archive.give_up_pages();
    match ended {
        Ended::Whole(answer) => Ok(answer),
        Ended::Stopped(entry) => {
            let so_far = format!("stopped: {name}, {}{}", counts(&register), root_words(&register));
            Err(parts::stopped(&so_far, name, &Mark::of(&register, entry)))
        }
    }
}

/// The same, from where a mark stands: says what the register is, or gives the words of its refusal.
pub fn audited(archive: &Archive, which: Which, threads: Threads, mark: Option<&Mark>) -> Done<Result<(), String>> {
    let register = archive.register(which);
    let from = mark.map_or(Ok(0), |mark| mark.entry_in(&register, &archive.named(which)))?;
    let part = mark.map_or(String::new(), |_| format!(" from tree entry {from} on"));
    match judged(archive, which, threads, from)? {
        Ok(()) => report(&format!("{}: accepted{part}, {}{}", which.name(), counts(&register), root_words(&register))).map(Ok),
        Err(reason) => Ok(Err(format!("{part} {}", refusal(reason)).trim_start().into())),
    }
}

/// `audit`: whether the images are those of some chunks, on several threads, and have the root hash that stands on paper; a stopped one goes on where it
/// came to.
pub fn audit(arguments: &Arguments) -> Done<()> {
    let (path, registers) = archive_and_registers(arguments)?;
    let (threads, mark) = (parts::threads(arguments)?, Mark::of_option(arguments, registers.len())?);
    let paper = Paper::of(arguments, &registers)?;
    let archive = Archive::open(path, Opening::reading(arguments)?)?;
    let mut refusals = Vec::new();
    parts::stop_between_parts();
    for which in registers {
        if let Err(words) = audited(&archive, which, threads, mark.as_ref())? {
            report(&format!("{}: {words}", which.name()))?;
            refusals.push(which.name());
        }
    }
    if !refusals.is_empty() {
        return Err(Trouble::Refused(format!("{}: not accepted: {}", archive.folder.path.display(), refusals.join(", "))));
    }
    paper.map_or(Ok(()), |paper| report(&paper.holds(&archive)?))
}

/// `compare`: whether two archives hold the same chunks, on several threads.
pub fn compare(arguments: &Arguments) -> Done<()> {
    let [first, second] = arguments.words()[..] else { return usage("two archives are needed") };
    let threads = parts::threads(arguments)?;
    let (first, second) = both(first, second, [Opening::reading(arguments)?; 2])?;
    let second = second.as_ref().unwrap_or(&first);
    let whole = |archive: &'_ Archive, which| archive.register(which).whole(&archive.named(which)).map(|_| ());
    BOTH.iter().try_for_each(|which| whole(&first, *which).and_then(|()| whole(second, *which)))?;
    let mut equal = true;
    parts::stop_between_parts();
    for which in BOTH {
        let (one, other) = (first.register(which).whole(&first.named(which))?, second.register(which).whole(&second.named(which))?);
        let Ended::Whole(outcome) = parts::compare(&format!("comparing {}", which.name()), &one, &other, threads) else {
            return Err(Trouble::Stopped(format!("stopped while comparing {}: a comparison begins anew", which.name())));
        };
        equal &= outcome == Comparison::Equal;
        [&first, second].iter().for_each(|archive| archive.give_up_pages());
        report(&format!("{}: {}", which.name(), outcome_words(outcome)))?;
    }
    if equal {
        return Ok(());
    }
    Err(Trouble::Refused("the archives are not the same".into()))
}

/// Two archives, locked in an order that is the same for whoever compares them; one where they are the same.
pub fn both(first: &OsStr, second: &OsStr, openings: [Opening; 2]) -> Done<(Archive, Option<Archive>)> {
    let identity =
        |path: &OsStr| below::at_path(Path::new(path)).map(|about| about.identity).map_err(|error| at_file(Path::new(path), error));
    Ok(match identity(first)?.cmp(&identity(second)?) {
        Ordering::Equal => (Archive::open(first, openings[0])?, None),
        Ordering::Less => {
            let first = Archive::open(first, openings[0])?;
            (first, Some(Archive::open(second, openings[1])?))
        }
        Ordering::Greater => {
            let second = Archive::open(second, openings[1])?;
            (Archive::open(first, openings[0])?, Some(second))
        }
    })
}

fn outcome_words(outcome: Comparison) -> String {
    match outcome {
        Comparison::Equal => "the same chunks in the same order".into(),
        Comparison::RootsDiffer => "the root hashes differ, and so do the chunks".into(),
        Comparison::CollisionAtRoots => "other chunks under one root hash: two root messages have one hash".into(),
        Comparison::CollisionAtIndex(index) => {
            format!("other chunks under one root hash: two messages have one hash, at tree index {index}")
        }
        Comparison::FirstRefused(reason) => format!("the first archive is {}", refusal(reason)),
        Comparison::SecondRefused(reason) => format!("the second archive is {}", refusal(reason)),
    }
}

/// The root hash that is asked for: now, or of the first chunks.
fn root_of(archive: &Archive, which: Which, first: Option<u64>) -> Done<[u8; 32]> {
    let register = archive.register(which);
    let root = match first {
        None => register.root_hash(),
        Some(m) => register.old_root(m),
    };
    root.map_err(|reason| archive.trouble(which, reason))
}

/// `root`: the root hashes now, or of the first m chunks.
pub fn root(arguments: &Arguments) -> Done<()> {
    let (path, registers) = archive_and_registers(arguments)?;
    let (archive, first) = (Archive::open(path, Opening::reading(arguments)?)?, arguments.number("--first")?);
    if arguments.has("--raw") {
        let [which] = registers[..] else { return usage("--raw needs metadata or content") };
        return outputs::give(None, &root_of(&archive, which, first)?);
    }
    let roots = registers.iter().map(|which| Ok((which, root_of(&archive, *which, first)?))).collect::<Done<Vec<_>>>()?;
    for (which, root) in roots {
        say(&format!("{} {}", which.name(), hex(&root)))?;
    }
    Ok(())
}

/// `label`: the hash of a root hash under the maker's key.
pub fn label(arguments: &Arguments) -> Done<()> {
    let Some(key) = arguments.option("--key") else { return usage("--key is needed: the file that has the key, of at most 64 bytes") };
    let (key, _) = inputs::at_most(key, 65)?;
    let (path, registers) = archive_and_registers(arguments)?;
    let (archive, first) = (Archive::open(path, Opening::reading(arguments)?)?, arguments.number("--first")?);
    let label = |which: &Which| {
        let root = root_of(&archive, *which, first)?;
        proved::label(&root, &key).map_err(|reason| refused("--key", reason))
    };
    let labels = registers.iter().map(|which| Ok((which, label(which)?))).collect::<Done<Vec<_>>>()?;
    for (which, label) in labels {
        say(&format!("{} {}", which.name(), hex(&label)))?;
    }
    Ok(())
}

/// `get`: the bytes of a chunk, or of all chunks of a piece, after their hashes were compared.
pub fn get(arguments: &Arguments) -> Done<()> {
    let [path, word] = arguments.words()[..] else { return usage("an archive and a chunk are needed") };
    let mut archive = Archive::open(path, Opening::reading(arguments)?)?;
    let (which, meant) = match arguments.has("--metadata") {
        true => (Which::Metadata, Meant::Chunk(number(word, "a chunk")?)),
        false => (Which::Content, meant(&archive, word)?),
    };
    match meant {
        Meant::Piece(chunks) if chunks.count > 1 => joined::give(&mut archive, &chunks, arguments.option("-o")),
        one => outputs::give(arguments.option("-o"), archive.read_own(which, one.numbers().start, 0)?),
    }
}

/// `missing`: the numbers of the chunks that are not held, or the names of the pieces that are not held wholly.
pub fn missing(arguments: &Arguments) -> Done<()> {
    let archive = Archive::open(only(&arguments.words(), "an archive")?, Opening::reading(arguments)?)?;
    if arguments.has("--names") {
        if arguments.has("--metadata") || arguments.has("--from") {
            return usage("--names is of pieces: --metadata and --from are of chunks");
        }
        return missing_names(&archive);
    }
    let which = if arguments.has("--metadata") { Which::Metadata } else { Which::Content };
    let (register, mut from) = (archive.register(which), arguments.number("--from")?.unwrap_or(0));
    let mut lines = String::new();
    while let Some(chunk) = register.search(from).map_err(|reason| archive.trouble(which, reason))? {
        writeln!(lines, "{chunk}").unwrap();
        from = chunk + 1;
    }
    outputs::give(None, lines.as_bytes())
}

/// Of each name the record counts that was written last, so the walk remembers every name, and of those that are missing their order.
fn missing_names(archive: &Archive) -> Done<()> {
    let (missing, n) = (not_held(archive, Which::Content)?, archive.register(Which::Content).n());
    let (mut seen, mut names, mut ended) = (HashSet::new(), Vec::new(), headed(&archive.register(Which::Metadata)).err());
    let mut counter = Counter::new("reading records", archive.register(Which::Metadata).n());
    for (record, read) in ended.is_none().then(|| records(archive)).into_iter().flatten() {
        counter.next();
        match read {
            Ok(node) if seen.insert(node.path) && Holding::of(&Said::of(record, &node), n, &missing) != Holding::Held => {
                names.push(node.path)
            }
            Ok(_) => {}
            Err(reason) => {
                ended = Some(reason);
                break;
            }
        }
    }
    drop(counter);
    let mut lines = Vec::new();
    for name in names.iter().rev() {
        lines.extend([&printable(name), &b"\n"[..]].concat());
    }
    outputs::give(None, &lines)?;
    ended.map_or(Ok(()), |reason| Err(archive.trouble(Which::Metadata, reason)))
}

/// Prints what a register will need for chunks of these lengths.
pub fn needs_of(archive: &Archive, which: Which, lengths: &[u64]) -> Done<()> {
    let register = archive.register(which).whole(&archive.named(which))?;
    register.root_hash().map_err(|reason| refused(&archive.named(which), reason))?;
    let needs = proved::needs(register.n, register.size, lengths).map_err(|reason| refused(&archive.named(which), reason))?;
    let Needs { tree, signatures, bitfield, data, leaves, parents, root, runs } = needs;
    for (file, length) in [("tree", tree), ("signatures", signatures), ("bitfield", bitfield), ("data", data)] {
        say(&format!("{}.{file} {length} bytes", which.name()))?;
    }
    let name = which.name();
    say(&format!("{name}: {runs} compression runs: {leaves} for leaves, {parents} for parents, {root} for the root hash"))
}

/// `group` and `ungroup`: from standard input to standard output.
pub fn group(arguments: &Arguments) -> Done<()> {
    filter(arguments, proved::group)
}

pub fn ungroup(arguments: &Arguments) -> Done<()> {
    filter(arguments, proved::ungroup)
}

fn filter(arguments: &Arguments, call: fn(&[u8], &mut [u8]) -> Result<(), proved::Refusal>) -> Done<()> {
    if !arguments.words().is_empty() {
        return usage("the bytes come from standard input, and the result goes to standard output");
    }
    let (bytes, _) = inputs::at_most(OsStr::new("-"), inputs::LONGEST + 1)?;
    let mut out = vec![0; bytes.len()];
    call(&bytes, &mut out).map_err(|reason| refused("standard input", reason))?;
    outputs::give(None, &out)
}
