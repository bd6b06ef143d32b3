//! Files that are laid below a folder of the user's. Every folder on the way is opened below the one before it, through no link; a file is written under
//! another name and gets its own when it is whole, so that what bears a piece's name is the piece; nothing is overwritten unless that is told.
use crate::below;
use crate::export::Unwritable;
use crate::folder::Folder;
use crate::printable::shown;
use crate::words::{at_file, said, Done, Trouble};
use std::fs::File;
use std::io;
use std::os::unix::fs::FileExt;
use std::path::{Path, PathBuf};

/// Of a file's mode what is given back.
const RIGHTS: u32 = 0o777;
const USUAL: u32 = 0o666;

pub struct Laying {
    path: PathBuf,
    root: File,
    /// The archive's own folder, into which nothing is written.
    own: Identity,
    overwrite: bool,
    /// The rights that new files don't get by themselves.
    mask: u32,
    /// The folders on the way to the last file.
    way: Vec<Entered>,
}

type Identity = (u32, u32, u64);

struct Entered {
    part: Vec<u8>,
    folder: File,
    /// This run made it, so nothing else lies in it.
    made: bool,
}

/// What puts a file's bytes, part by part, into what it is handed.
pub type Fill<'f> = dyn FnMut(&mut dyn FnMut(&[u8]) -> Done<()>) -> Done<()> + 'f;

impl Laying {
    /// Makes the folder, unless it is there.
    pub fn begin(path: &Path, archive: &Folder, overwrite: bool) -> Done<Laying> {
        let trouble = |error| at_file(path, error);
        match std::fs::create_dir(path) {
            Err(error) if error.kind() != io::ErrorKind::AlreadyExists => return Err(trouble(error)),
            _ => {}
        }
        let root = below::folder(path).map_err(|error| match error.kind() {
            io::ErrorKind::NotADirectory => Trouble::File(format!("{}: a file, and no folder", path.display())),
            _ => trouble(error),
        })?;
        let own = below::about(&archive.handle).map_err(|error| at_file(&archive.path, error))?.identity;
        if below::about(&root).map_err(trouble)?.identity == own {
            return Err(Trouble::File(format!("{}: the archive itself; nothing is written", path.display())));
        }
        Ok(Laying { path: path.to_owned(), root, own, overwrite, mask: below::mask(), way: Vec::new() })
    }

    /// Goes into the folder of a file, from those that the last file has in common with it.
    fn enter(&mut self, parts: &[&[u8]]) -> io::Result<()> {
        let common = self.way.iter().zip(parts).take_while(|(entered, part)| entered.part == **part).count();
        self.way.truncate(common);
        for part in &parts[common..] {
            let above = self.way.last().map_or(&self.root, |entered| &entered.folder);
            let (folder, made) = match below::folder_below(above, part) {
                Err(error) if error.kind() == io::ErrorKind::NotFound => {
                    below::make_folder(above, part)?;
                    (below::folder_below(above, part)?, true)
                }
                opened => (opened.map_err(|error| no_folder(part, error))?, false),
            };
            if below::about(&folder)?.identity == self.own {
                return Err(io::Error::other("the folder is the archive itself"));
            }
            self.way.push(Entered { part: part.to_vec(), folder, made });
        }
        Ok(())
    }

    /// Writes a file; its parts are those of its path.
    pub fn file(&mut self, parts: &[&[u8]], mode: Option<u64>, mtime: Option<u64>, fill: &mut Fill) -> Result<(), Unwritable> {
        let (last, folders) = parts.split_last().expect("a name has a part");
        self.enter(folders).map_err(unwritable)?;
        let (folder, made) = self.way.last().map_or((&self.root, false), |entered| (&entered.folder, entered.made));
        if !made && !self.overwrite && below::is_there(folder, last).map_err(unwritable)? {
            return Err(unwritable(io::ErrorKind::AlreadyExists.into()));
        }
        let rights = mode.map_or(USUAL & !self.mask, |mode| mode as u32 & RIGHTS);
        let (file, unnamed) = beside(folder, rights).map_err(unwritable)?;
        let mut at = 0;
        let mut put = |bytes: &[u8]| {
            file.write_all_at(bytes, at).map_err(|error| failed(&error))?;
            at += bytes.len() as u64;
            Ok(())
        };
        let written = fill(&mut put).map_err(in_the_middle).and_then(|()| {
            let times = mtime.map_or(Ok(()), |nanoseconds| below::set_time(&file, nanoseconds));
            let rights = if rights & self.mask == 0 { Ok(()) } else { below::set_rights(&file, rights) };
            rights.and(times).and_then(|()| below::give_name(folder, &unnamed, last, self.overwrite)).map_err(unwritable)
        });
        written.inspect_err(|_| {
            let _ = below::remove(folder, &unnamed);
        })
    }

    /// All that was written is on the disk.
    pub fn end(self) -> Done<()> {
        below::sync_all_of(&self.root).map_err(|error| at_file(&self.path, error))
    }
}

fn no_folder(part: &[u8], error: io::Error) -> io::Error {
    const A_LINK: i32 = 40;
    if error.kind() == io::ErrorKind::NotADirectory || error.raw_os_error() == Some(A_LINK) {
        return io::Error::other(format!("{}: a link or a file stands where its folder should be", shown(part)));
    }
    error
}

/// A disk without room ends the command; anything else is of this file alone.
fn unwritable(error: io::Error) -> Unwritable {
    match error.kind() {
        io::ErrorKind::StorageFull | io::ErrorKind::QuotaExceeded => Unwritable::Anywhere(failed(&error)),
        io::ErrorKind::AlreadyExists => Unwritable::Here("there is such a file already; --overwrite replaces it".into()),
        _ => Unwritable::Here(said(&error)),
    }
}

fn failed(error: &io::Error) -> Trouble {
    Trouble::File(format!("{}; files before it are written", said(error)))
}

/// Bytes that could not be written end the command; a chunk that can't be read is of this piece alone.
fn in_the_middle(trouble: Trouble) -> Unwritable {
    match trouble {
        Trouble::Refused(words) => Unwritable::Here(words),
        other => Unwritable::Anywhere(other),
    }
}

/// A new file in a folder, of a name that no other run uses: what a killed one left is in nobody's way.
fn beside(folder: &File, rights: u32) -> io::Result<(File, String)> {
    for count in 0u64.. {
        let name = format!(".sleep-archive.{}.{count}.tmp", std::process::id());
        match below::create(folder, &name, rights) {
            Err(error) if error.kind() == io::ErrorKind::AlreadyExists => continue,
            opened => return opened.map(|file| (file, name)),
        }
    }
    unreachable!("one of so many names is free")
}
