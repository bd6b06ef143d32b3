//! What a command gives: on standard output, or in a file that is whole or as it was.
use crate::below;
use crate::commit::{ROOM, UNSYNCED};
use crate::counts::FILES;
use crate::left_over::NAME;
use crate::page;
use crate::words::{at_file, is_quiet, Done, Trouble};
use std::ffi::OsStr;
use std::fs::{File, OpenOptions, Permissions};
use std::io::{self, Write};
use std::os::unix::fs::FileExt;
use std::path::{Path, PathBuf};

/// Writes a result to a file, or to standard output where none is named or `-`. A plain file gets its bytes wholly or keeps what it had.
pub fn give(to: Option<&OsStr>, bytes: &[u8]) -> Done<()> {
    give_by(to, &mut |sink| sink.put(bytes))
}

/// The same of a result that comes in parts.
pub fn give_by(to: Option<&OsStr>, fill: &mut dyn FnMut(&mut Sink) -> Done<()>) -> Done<()> {
    match to.filter(|path| *path != "-") {
        None => fill(&mut Sink { name: Path::new("standard output"), file: None, at: None }),
        Some(path) => give_file(Path::new(path), fill),
    }
}

/// Where the parts of a result go.
pub struct Sink<'a> {
    name: &'a Path,
    file: Option<&'a File>,
    /// Of a plain file: where the next part begins.
    at: Option<u64>,
}

impl Sink<'_> {
    pub fn put(&mut self, bytes: &[u8]) -> Done<()> {
        let put = match (self.file, self.at) {
            (None, _) => print(bytes),
            (Some(mut file), None) => file.write_all(bytes),
            (Some(file), Some(at)) => file.write_all_at(bytes, at),
        };
        self.at = self.at.map(|at| at + bytes.len() as u64);
        put.map_err(|error| at_file(self.name, error))
    }

    /// Whether nothing of it is seen before all of it is there.
    pub fn can_be_taken_back(&self) -> bool {
        self.at.is_some()
    }
}

/// Looks first at what the path leads to: what is standard output, or no plain file, is written as it is.
fn give_file(path: &Path, fill: &mut dyn FnMut(&mut Sink) -> Done<()>) -> Done<()> {
    let trouble = |error| at_file(path, error);
    let before = match std::fs::metadata(path) {
        Ok(before) => Some(before),
        Err(error) if error.kind() == io::ErrorKind::NotFound => None,
        Err(error) => return Err(trouble(error)),
    };
    let Some(before) = before else {
        if path.symlink_metadata().is_ok() {
            return Err(Trouble::File(format!("{}: a link that leads nowhere; nothing is written", path.display())));
        }
        return replace(path, path, fill, None);
    };
    if is_standard_output(path) {
        return give_by(None, fill);
    }
    if !before.is_file() {
        let file = OpenOptions::new().write(true).open(path).map_err(trouble)?;
        return fill(&mut Sink { name: path, file: Some(&file), at: None });
    }
    replace(path, &path.canonicalize().map_err(trouble)?, fill, Some(before.permissions()))
}

fn is_standard_output(path: &Path) -> bool {
    let (there, own) = (below::at_path(path), below::about_number(1));
    there.is_ok_and(|there| own.is_ok_and(|own| own.identity == there.identity))
}

/// Writes a file beside its place, and gives it its name when all of it is synced.
fn replace(path: &Path, place: &Path, fill: &mut dyn FnMut(&mut Sink) -> Done<()>, rights: Option<Permissions>) -> Done<()> {
    if is_of_an_archive(place) {
        return Err(Trouble::File(format!("{}: a file of an archive; nothing is written", path.display())));
    }
    let (file, unsynced) = beside(place).map_err(|error| at_file(path, error))?;
    let named = || {
        rights.map_or(Ok(()), |rights| file.set_permissions(rights))?;
        file.sync_all()?;
        std::fs::rename(&unsynced, place)
    };
    fill(&mut Sink { name: path, file: Some(&file), at: Some(0) }).and_then(|()| named().map_err(|error| at_file(path, error))).inspect_err(
        |_| {
            let _ = std::fs::remove_file(&unsynced);
        },
    )
}

/// A new file in the folder of a place, of a name that no other run uses: what a killed one left is in nobody's way.
fn beside(place: &Path) -> io::Result<(File, PathBuf)> {
    for count in 0u64.. {
        let unsynced = place.with_file_name(format!(".sleep-archive.{}.{count}.tmp", std::process::id()));
        match OpenOptions::new().write(true).create_new(true).open(&unsynced) {
            Err(error) if error.kind() == io::ErrorKind::AlreadyExists => continue,
            opened => return opened.map(|file| (file, unsynced)),
        }
    }
    unreachable!("one of so many names is free")
}

/// Whether a path is one of the names that an archive's folder has, in such a folder.
fn is_of_an_archive(path: &Path) -> bool {
    let (own, pages) = ([NAME, UNSYNCED, ROOM], [page::NAME, page::UNSYNCED]);
    let names = FILES.iter().chain(&own).chain(&pages);
    let known = |name: &OsStr| names.clone().any(|known| name == *known) || name.as_encoded_bytes().starts_with(NAME.as_bytes());
    let beside = |name: &str| path.with_file_name(name).symlink_metadata().is_ok();
    path.file_name().is_some_and(known) && ["metadata.tree", "content.tree"].into_iter().chain(own).any(beside)
}

/// Where nobody reads on, this program ends as others do then.
fn print(bytes: &[u8]) -> io::Result<()> {
    let mut out = io::stdout().lock();
    let written = out.write_all(bytes).and_then(|()| out.flush());
    if matches!(&written, Err(error) if error.kind() == io::ErrorKind::BrokenPipe) {
        crate::signals::end_with_a_broken_pipe();
        return out.write_all(b"\n").and_then(|()| out.flush());
    }
    written
}

/// A line that says in words what the exit status says too; left out where quiet is asked for.
pub fn report(line: &str) -> Done<()> {
    if is_quiet() {
        return Ok(());
    }
    say(line)
}

/// A line on standard output.
pub fn say(line: &str) -> Done<()> {
    give(None, format!("{line}\n").as_bytes())
}
