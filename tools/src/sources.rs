//! The files that are to be added, with their names: those that were typed, and those of folders. All are looked at before anything is written.
use crate::arguments::{Arguments, Typed};
use crate::below;
use crate::cuts::{self, Cuts};
use crate::printable::shown;
use crate::progress::Counter;
use crate::sleep_register::{needs, write_node, Node, NODE_ROOM};
use crate::words::{at_file, counted, refusal, remark, said, tell, usage, Done, Trouble};
use std::collections::HashSet;
use std::ffi::{OsStr, OsString};
use std::fs::{FileType, Metadata};
use std::os::unix::ffi::OsStrExt;
use std::os::unix::fs::{FileTypeExt, MetadataExt};
use std::path::{Component, Path, PathBuf};

/// The longest piece: a change that is made wholly or not at all holds all its chunks.
pub const LONGEST_PIECE: u64 = 240 << 20;

/// What a chunk takes in a journal beside its bytes, at most: in tree, signatures and bitfield.
pub const BESIDE: u64 = 80 + 64 + 2;

/// The words for a file that is longer.
pub fn too_large() -> String {
    format!("more than {LONGEST_PIECE} bytes with the hashes of its chunks, the most that one change holds: make several files of it")
}

/// So many files that can't be added are told one by one.
const TOLD: usize = 20;

/// For fewer files another thread costs more than it brings.
const LEAST_SHARE: usize = 1000;

/// A file or a folder as it was typed, with what was said of it.
pub struct Operand {
    pub file: OsString,
    /// By `--as`.
    name: Option<Vec<u8>>,
    /// By `--in`.
    folder: Option<Vec<u8>>,
    cuts: Cuts,
}

/// A file that is to be added under a name.
pub struct Source {
    pub name: Vec<u8>,
    /// The number of its operand; the file is the last bytes of its name, so many, below that.
    operand: u32,
    below: u32,
    /// As it was looked at; what is read counts.
    pub size: u64,
}

pub struct Sources {
    operands: Vec<Operand>,
    pub all: Vec<Source>,
}

impl Sources {
    pub fn cuts(&self, source: &Source) -> &Cuts {
        &self.operands[source.operand as usize].cuts
    }

    pub fn is_standard_input(&self, source: &Source) -> bool {
        self.operands[source.operand as usize].file == "-"
    }

    pub fn path(&self, source: &Source) -> PathBuf {
        let operand = Path::new(&self.operands[source.operand as usize].file);
        match source.below {
            0 => operand.to_owned(),
            below => operand.join(OsStr::from_bytes(&source.name[source.name.len() - below as usize..])),
        }
    }

    /// Of a file that was found in a folder: the operand and the path of its folder below it, and its name there.
    pub fn place<'a>(&self, source: &'a Source) -> ((u32, &'a [u8]), &'a [u8]) {
        let below = &source.name[source.name.len() - source.below as usize..];
        let at = below.iter().rposition(|byte| *byte == b'/').map_or(0, |at| at + 1);
        ((source.operand, &below[..at]), &below[at..])
    }

    /// Whether it was found in a folder, and not typed: then no link is followed to it.
    pub fn is_found(&self, source: &Source) -> bool {
        source.below > 0
    }

    pub fn chunks(&self) -> u64 {
        self.all.iter().map(|source| self.cuts(source).count(source.size)).sum()
    }
}

/// The archive, and what was typed: `--as NAME` is for the next file or folder, and so is `--cuts FILE`; `--in FOLDER` is for all that follow.
pub fn typed(arguments: &Arguments) -> Done<(&OsStr, Vec<Operand>)> {
    let (mut archive, mut operands, mut folder, mut idle) = (None, Vec::<Operand>::new(), None, false);
    let (mut name, mut cuts, split) = (None, None, cuts::split(arguments)?);
    for typed in &arguments.typed {
        match typed {
            Typed::Option("--in", word) => (folder, idle) = (Some(folder_in(word)?), true),
            Typed::Option("--as", _) if name.is_some() => return usage("--as needs a file behind its name"),
            Typed::Option("--as", word) => name = Some(word.as_bytes().to_vec()),
            Typed::Option("--cuts", _) if cuts.is_some() => return usage("--cuts needs a file behind it that is to be cut"),
            Typed::Option("--cuts", word) => cuts = Some(cuts::cuts_in(word)?),
            Typed::Option(..) => {}
            Typed::Word(word) if archive.is_none() => archive = Some(word.as_os_str()),
            Typed::Word(file) => {
                let cuts = cuts.take().unwrap_or_else(|| split.clone());
                operands.push(Operand { file: file.clone(), name: name.take(), folder: folder.clone(), cuts });
                idle = false;
            }
        }
    }
    // Of one file alone the cuts may stand behind it.
    if let ([only], Some(_)) = (&mut operands[..], &cuts) {
        only.cuts = cuts.take().expect("cuts");
    }
    match (archive, name, cuts) {
        (_, Some(_), _) => usage("--as needs a file behind its name"),
        (_, _, Some(_)) => usage("--cuts needs a file behind it that is to be cut"),
        (Some(_), ..) if idle && !operands.is_empty() => usage("--in needs files behind its folder: it is for those that follow it"),
        (Some(archive), ..) if !operands.is_empty() => Ok((archive, operands)),
        _ => usage("an archive and files are needed"),
    }
}

/// A folder of the archive, for the files that follow.
fn folder_in(word: &OsStr) -> Done<Vec<u8>> {
    if !word.as_bytes().starts_with(b"/") {
        return usage(format!("--in {}: a folder of an archive begins with a slash: /{0}", shown(word.as_bytes())));
    }
    Ok(word.as_bytes().to_vec())
}

impl Operand {
    /// The name of what was typed: the one that is given, its path as it was typed, or its last part in a folder of the archive.
    fn named(&self, is_folder: bool) -> Done<Vec<u8>> {
        if let Some(name) = &self.name {
            return Ok(if is_folder { name.strip_suffix(b"/").unwrap_or(name) } else { name }.to_vec());
        }
        if self.file == "-" {
            return usage("standard input needs a name, by --as");
        }
        let (path, mut name, mut above) = (Path::new(&self.file), Vec::new(), false);
        for part in path.components() {
            match part {
                Component::Normal(part) => name.extend([b"/", part.as_bytes()].concat()),
                Component::ParentDir => above = true,
                Component::RootDir | Component::CurDir | Component::Prefix(_) => continue,
            }
        }
        let folder = self.folder.as_ref().map(|folder| folder.strip_suffix(b"/").unwrap_or(folder));
        match (folder, path.file_name()) {
            (None, last) if !above && (last.is_some() || is_folder) => Ok(name),
            (Some(folder), Some(last)) => Ok([folder, b"/", last.as_bytes()].concat()),
            (Some(folder), None) if is_folder && !above => Ok(folder.to_vec()),
            _ => usage(format!("{}: give it a name by --as", self.file.to_string_lossy())),
        }
    }
}

/// What can't be added, as it is found.
#[derive(Default)]
struct Refused {
    lines: Vec<String>,
    count: usize,
    /// How many of them a proved call refused.
    by_call: usize,
}

impl Refused {
    fn push(&mut self, path: &Path, words: &str, by_call: bool) {
        self.by_call += usize::from(by_call);
        self.count += 1;
        if self.lines.len() < TOLD {
            self.lines.push(format!("{}: {words}", path.display()));
        }
    }

    /// One is told as it is; of several each is, as far as they are told, and then their number.
    fn told(self) -> Done<()> {
        let words = match &self.lines[..] {
            [] => return Ok(()),
            [one] => one.clone(),
            several => {
                several.iter().for_each(|line| tell(&format!("sleep-archive: {line}")));
                format!("{} can't be added; nothing is changed", counted(self.count as u64, "file"))
            }
        };
        Err(if self.by_call == self.count { Trouble::Refused(words) } else { Trouble::File(words) })
    }
}

/// Looks for all files: the typed ones in their order, those of a folder in the order of their names' bytes.
pub fn all(operands: Vec<Operand>, archive: &Path, times: bool) -> Done<Sources> {
    let own = below::at_path(archive).ok().map(|about| about.identity);
    let (mut found, mut refused) = (Vec::new(), Refused::default());
    let mut counter = Counter::new("looking at files", 0);
    for (number, operand) in operands.iter().enumerate() {
        let path = Path::new(&operand.file);
        let about = if operand.file == "-" { None } else { Some(std::fs::metadata(path).map_err(|error| at_file(path, error))?) };
        let is_folder = about.as_ref().is_some_and(Metadata::is_dir);
        let source = |name, below, size| Source { name, operand: number as u32, below, size };
        let name = operand.named(is_folder)?;
        if !is_folder {
            if let Some(about) = about.as_ref().filter(|about| times && modified(about).is_none()) {
                refused.push(path, &no_time(about), false);
            }
            found.push(source(name, 0, about.map_or(0, |about| if about.is_file() { about.len() } else { 0 })));
            continue;
        }
        if matches!(operand.cuts, Cuts::At(_)) {
            return usage(format!("{}: a folder: --cuts is for one file", path.display()));
        }
        let before = found.len();
        let mut folder =
            Looking { path, name, own, operand: number as u32, refused: &mut refused, counter: &mut counter, found: &mut found };
        folder.look(b"")?;
        // Each folder's files are in order by themselves, and folders among each other: a sort that looks for such runs has little to do.
        found[before..].sort_by(|one, other| one.name.cmp(&other.name));
        about_all(path, &mut found[before..], times, &mut refused);
    }
    let sources = Sources { operands, all: found };
    judge(&sources, &mut refused);
    refused.told()?;
    match sources.all.is_empty() {
        true => Err(Trouble::File("no file to add: the folder has none".into())),
        false => Ok(sources),
    }
}

/// A folder whose files are looked for.
struct Looking<'a> {
    path: &'a Path,
    name: Vec<u8>,
    own: Option<(u32, u32, u64)>,
    operand: u32,
    refused: &'a mut Refused,
    counter: &'a mut Counter,
    found: &'a mut Vec<Source>,
}

impl Looking<'_> {
    /// Looks at all that lies in a folder below, which is named by its path from there: first its files, then its folders. Links are not followed.
    fn look(&mut self, below: &[u8]) -> Done<()> {
        let path = self.path.join(OsStr::from_bytes(below));
        if self.own.is_some() && below::at_path(&path).ok().map(|about| about.identity) == self.own {
            remark(&format!("sleep-archive: {}: the archive itself, which is passed over", path.display()));
            return Ok(());
        }
        let entries = match std::fs::read_dir(&path) {
            Ok(entries) => entries,
            Err(error) => {
                self.refused.push(&path, &said(&error), false);
                return Ok(());
            }
        };
        let slash: &[u8] = if below.is_empty() { b"" } else { b"/" };
        let (mut folders, before, front) = (Vec::new(), self.found.len(), [&self.name[..], b"/", below, slash].concat());
        for entry in entries {
            let entry = entry.map_err(|error| at_file(&path, error))?;
            let kind = entry.file_type().map_err(|error| at_file(&entry.path(), error))?;
            match strange(kind) {
                _ if kind.is_dir() => folders.push([below, slash, entry.file_name().as_bytes()].concat()),
                Some(what) => {
                    self.refused.push(&entry.path(), &format!("{what}, and no plain file; a folder's links are not followed"), false)
                }
                None => {
                    let name = [&front, entry.file_name().as_bytes()].concat();
                    let below = name.len() - self.name.len() - 1;
                    self.found.push(Source { name, operand: self.operand, below: below as u32, size: 0 });
                    self.counter.next();
                }
            }
        }
        self.found[before..].sort_unstable_by(|one, other| one.name.cmp(&other.name));
        folders.sort_unstable();
        folders.iter().try_for_each(|folder| self.look(folder))
    }
}

/// Asks the system about files of a folder, whose sizes are not known yet, in as many threads as there are processors. What can't be read is told.
fn about_all(folder: &Path, found: &mut [Source], times: bool, refused: &mut Refused) {
    let wrong = if found.len() < 2 * LEAST_SHARE {
        about_some(folder, found, times)
    } else {
        let share = found.len().div_ceil(std::thread::available_parallelism().map_or(1, usize::from)).max(LEAST_SHARE);
        std::thread::scope(|scope| {
            let shares = found.chunks_mut(share).map(|share| scope.spawn(move || about_some(folder, share, times))).collect::<Vec<_>>();
            shares.into_iter().flat_map(|share| share.join().expect("a thread that ends")).collect()
        })
    };
    wrong.iter().for_each(|(path, words)| refused.push(path, words, false));
}

fn about_some(folder: &Path, found: &mut [Source], times: bool) -> Vec<(PathBuf, String)> {
    let mut wrong = Vec::new();
    for source in found {
        let path = folder.join(OsStr::from_bytes(&source.name[source.name.len() - source.below as usize..]));
        // Where all may read it the system is not asked again.
        let readable = |about: &Metadata| if about.mode() & 0o444 == 0o444 { Ok(()) } else { below::can_be_read(&path) };
        match std::fs::symlink_metadata(&path).and_then(|about| readable(&about).map(|()| about)) {
            Ok(about) if times && modified(&about).is_none() => wrong.push((path, no_time(&about))),
            Ok(about) => source.size = about.len(),
            Err(error) => wrong.push((path, said(&error))),
        }
    }
    wrong
}

fn strange(kind: FileType) -> Option<&'static str> {
    match kind {
        _ if kind.is_file() => None,
        _ if kind.is_symlink() => Some("a link"),
        _ if kind.is_fifo() => Some("a pipe"),
        _ if kind.is_socket() => Some("a socket"),
        _ => Some("a device"),
    }
}

/// Judges names and sizes.
fn judge(sources: &Sources, refused: &mut Refused) {
    let (mut names, mut room) = (HashSet::new(), [0; NODE_ROOM]);
    for source in &sources.all {
        let path = || sources.path(source);
        if let Err(reason) = write_node(&Node { path: &source.name, ..Node::default() }, &mut room) {
            refused.push(&path(), &format!("{}: {}", shown(&source.name), refusal(reason)), true);
        }
        // The names of one folder's files are all different.
        if sources.operands.len() > 1 && !names.insert(&source.name[..]) {
            refused.push(&path(), &format!("{}: the name of two files; name one by --as", shown(&source.name)), false);
        }
        let cuts = sources.cuts(source);
        if let Err(words) = cuts.fit(source.size).or_else(|words| if sources.is_standard_input(source) { Ok(()) } else { Err(words) }) {
            refused.push(&path(), &words, false);
        }
        let one = if *cuts == Cuts::None { too_long(source.size) } else { None };
        if let Some(words) = one {
            refused.push(&path(), &words, true);
        } else if source.size.saturating_add(BESIDE * cuts.count(source.size)) > LONGEST_PIECE {
            refused.push(&path(), &too_large(), false);
        }
    }
    if sources.operands.iter().filter(|operand| operand.file == "-").count() > 1 {
        refused.push(Path::new("-"), "standard input can be given once", false);
    }
}

/// The words for a file that is longer than a chunk, where no cuts are given: what a proved call says of one chunk of this length.
pub fn too_long(size: u64) -> Option<String> {
    let reason = needs(0, 0, &[size]).err()?;
    let options = "--split SIZE stores it as chunks of so many bytes, --cuts FILE as chunks of the lengths in a file";
    Some(format!("{}; {options}", refusal(reason)))
}

/// What a record says of a file's times, in nanoseconds since 1970; nothing where none can be said.
pub fn modified(about: &Metadata) -> Option<u64> {
    let seconds = u64::try_from(about.mtime()).ok()?;
    seconds.checked_mul(1_000_000_000)?.checked_add(about.mtime_nsec() as u64)
}

fn no_time(about: &Metadata) -> String {
    format!("its time, {} s from 1970, is none that a record has: 1970 to 2554", about.mtime())
}
