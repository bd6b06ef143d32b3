//! The commands that make an archive: an empty one, or partial copies of another.
use crate::arguments::Arguments;
use crate::changes::{changes, Change};
use crate::chosen;
use crate::commit::{commit, Room};
use crate::counts::{Which, BOTH, CONTENT_KEY, FILES, LONGEST, METADATA_KEY, MOST_CHUNKS};
use crate::folder::{unmade, unmade_copy, Folder, Opening};
use crate::image::Image;
use crate::inputs;
use crate::journal_calls::{Given, Kind};
use crate::kept::Kept;
use crate::page;
use crate::parcels;
use crate::progress::{self, Counter};
use crate::reading::{only, Archive};
use crate::words::{at_file, counted, refused, usage, Done, Trouble};
use std::collections::BTreeSet;
use std::fs::File;
use std::io;
use std::path::Path;

/// `new`: a folder with two empty registers.
pub fn new(arguments: &Arguments) -> Done<()> {
    let path = Path::new(only(&arguments.words(), "a folder")?);
    let key = |name| arguments.option(name).map(|file| inputs::exactly::<32>(Path::new(file))).transpose();
    let keys = [(METADATA_KEY, key("--metadata-key")?), (CONTENT_KEY, key("--content-key")?)];
    made(path, Opening::writing(arguments)?, |folder| {
        let (metadata, content) = (started(path)?, started(path)?);
        let mut all = changes(folder, Which::Metadata, metadata.files())?;
        all.extend(changes(folder, Which::Content, content.files())?);
        for (number, key) in &keys {
            if let Some(bytes) = key {
                let range = Given { kind: Kind::Fresh, offset: 0, length: 32, old: &[], new: bytes };
                all.push(Change { number: *number, old: None, length: 32, ranges: vec![range] });
            }
        }
        page::beside(folder, !arguments.has("--no-page"), || commit(folder, all, Room::Free))
    })
}

fn already(path: &Path) -> Trouble {
    Trouble::File(format!("{}: there is an archive already", path.display()))
}

/// Makes a folder, and in it what makes an archive of it.
fn made(path: &Path, opening: Opening, fill: impl Fn(&Folder) -> Done<()>) -> Done<()> {
    let made = make_folder(path)?;
    let result = Folder::open(path, opening).and_then(|folder| {
        if folder.is_used()? {
            return Err(already(path));
        }
        fill(&folder)
    });
    if made && result.is_err() {
        // Only an empty folder goes away: one with a journal in it stays, and the next command sees to it.
        let _ = std::fs::remove_dir(path);
    }
    result
}

/// An empty register.
fn started(path: &Path) -> Done<Kept> {
    let mut store = unmade().map_err(|error| at_file(path, error))?;
    store.start().map_err(|reason| refused(&path.display().to_string(), reason))?;
    Ok(Kept::Whole(store))
}

/// Makes a folder unless there is one. Its entry is synced in either case: a run that made it may have ended before that.
fn make_folder(path: &Path) -> Done<bool> {
    let made = match std::fs::create_dir(path) {
        Ok(()) => true,
        Err(error) if error.kind() == io::ErrorKind::AlreadyExists => false,
        Err(error) => return Err(at_file(path, error)),
    };
    let place = path.canonicalize().map_err(|error| at_file(path, error))?;
    let above = place.parent().unwrap_or(&place);
    match File::open(above).and_then(|above| above.sync_all()) {
        Err(error) if made || error.kind() != io::ErrorKind::PermissionDenied => Err(at_file(above, error)),
        _ => Ok(made),
    }
}

/// `copy`: a folder with partial copies, of which nothing is known yet. Without numbers of its own the metadata register is an empty one.
pub fn copy(arguments: &Arguments) -> Done<()> {
    if arguments.has("--names") {
        return copy_of_pieces(arguments);
    }
    let path = Path::new(only(&arguments.words(), "a folder")?);
    let counts = match (arguments.option("--of"), arguments.pair("--metadata")?, arguments.pair("--content")?) {
        (Some(archive), None, None) => counts_of(&Archive::open(archive, Opening::writing(arguments)?.to_read())?)?,
        (None, metadata, Some(content)) => [sensible("--metadata", metadata)?, sensible("--content", Some(content))?],
        _ => return usage("--of ARCHIVE is needed, or --content N,SIZE and for the records --metadata N,SIZE"),
    };
    made(path, Opening::writing(arguments)?, |folder| {
        laid(folder, [copied(path, counts[0])?, copied(path, counts[1])?], !arguments.has("--no-page"))
    })
}

/// Both registers into a folder, with the page of the format where it is wanted.
fn laid(folder: &Folder, registers: [Kept; 2], page: bool) -> Done<()> {
    let mut all = changes(folder, Which::Metadata, registers[0].files())?;
    all.extend(changes(folder, Which::Content, registers[1].files())?);
    page::beside(folder, page, || commit(folder, all, Room::Free))
}

/// `copy --names`: a copy that holds these pieces, and the records that finding them takes.
fn copy_of_pieces(arguments: &Arguments) -> Done<()> {
    let (words, of) = (arguments.words(), arguments.option("--of"));
    let (Some((path, names)), Some(of)) = (words.split_first().filter(|(_, names)| !names.is_empty()), of) else {
        return usage("a folder, --of ARCHIVE, --names and names are needed");
    };
    if arguments.has("--metadata") || arguments.has("--content") {
        return usage("--of ARCHIVE, or --content N,SIZE and --metadata N,SIZE");
    }
    let (path, names, opening) = (Path::new(path), chosen::names(names)?, Opening::writing(arguments)?);
    // Looked at before the other archive is locked: whoever waits for one archive with another locked may wait for somebody who does the same.
    if FILES.iter().any(|name| path.join(name).symlink_metadata().is_ok()) {
        return Err(already(path));
    }
    let archive = Archive::open(of, opening.to_read())?;
    counts_of(&archive)?;
    let registers = BOTH.map(|which| archive.register(which));
    let chunks = chosen::chosen(&archive, &registers, &names)?;
    made(path, opening, |folder| {
        let filled = |which: Which| filled(path, &archive, which, &chunks[which as usize]);
        laid(folder, [filled(Which::Metadata)?, filled(Which::Content)?], !arguments.has("--no-page"))
    })
}

/// A copy of an archive's register that holds these chunks.
fn filled(path: &Path, archive: &Archive, which: Which, chunks: &BTreeSet<u64>) -> Done<Kept> {
    let register = archive.register(which);
    let root = register.root_hash().map_err(|reason| archive.trouble(which, reason))?;
    let mut kept = copied(path, Some((register.n(), register.size())))?;
    if let Kept::Copy(store) = &mut kept {
        store.data = Image::to_write(None, register.size()).map_err(|error| at_file(path, error))?;
    }
    let mut counter = Counter::new("taking chunks in", chunks.len() as u64);
    parcels::each(archive, which, &register, &mut chunks.iter().copied(), &mut |chunk, packet| {
        counter.next();
        kept.take_in(packet, chunk, &root).map_err(|reason| refused(&format!("{}: chunk {chunk}", archive.named(which)), reason))
    })?;
    Ok(kept)
}

/// Numbers that a register can have: so many chunks have at most so many bytes. More chunks than any register has are left to the call.
fn sensible(option: &str, told: Option<(u64, u64)>) -> Done<Option<(u64, u64)>> {
    match told {
        Some((n, size)) if n <= MOST_CHUNKS && size > n * LONGEST => {
            usage(format!("{option} {n},{size}: {} have at most {}", counted(n, "chunk"), counted(n * LONGEST, "byte")))
        }
        told => Ok(told),
    }
}

/// The counts and the data sizes of both registers, after their first checks.
fn counts_of(archive: &Archive) -> Done<[Option<(u64, u64)>; 2]> {
    let count = |which: Which| {
        let register = archive.register(which);
        register.root_hash().map_err(|reason| refused(&archive.named(which), reason))?;
        Ok(Some((register.n(), register.size())))
    };
    Ok([count(Which::Metadata)?, count(Which::Content)?])
}

fn copied(path: &Path, counts: Option<(u64, u64)>) -> Done<Kept> {
    let Some((n, size)) = counts else { return started(path) };
    // The call clears every byte, so no more is mapped than it takes; more chunks than it takes it refuses by their number alone.
    let mut store = unmade_copy(if n > MOST_CHUNKS { 0 } else { n }, size).map_err(|error| at_file(path, error))?;
    store.n = n;
    progress::during("making the copy", size, || store.make()).map_err(|reason| refused(&path.display().to_string(), reason))?;
    Ok(Kept::Copy(store))
}
