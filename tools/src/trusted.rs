//! The root hashes under which a file's packets are taken in. The one that stands in the file is shown and never believed: it comes from the command line,
//! from an archive of the user's, from the copy itself, or from a signature in the file that a command of the user's found good.
use crate::arguments::Arguments;
use crate::counts::{Which, BOTH};
use crate::folder::Opening;
use crate::packet_file::About;
use crate::reading::Archive;
use crate::verify::{is_good, Signed};
use crate::words::{hex, usage, Done, Trouble};
use std::ffi::OsStr;

/// Root hashes of metadata and of content, where they are known.
pub type Roots = [Option<[u8; 32]>; 2];

/// What the command line gives; nothing where it gives nothing. Called before a lock is taken: a command may take its time.
pub fn given(arguments: &Arguments, file: &[About; 2]) -> Done<Option<Roots>> {
    let root = arguments.roots("--root")?;
    match (root, arguments.option("--of"), arguments.option("--with")) {
        (None, None, None) => Ok(None),
        (Some(roots), None, None) => Ok(Some(roots)),
        (None, Some(archive), None) => of_archive(arguments, archive, file).map(Some),
        (None, None, Some(command)) => signed(command, file).map(Some),
        _ => usage("--root, --of or --with, and not two of them"),
    }
}

/// The root hashes of an archive, which may have grown since the file was made.
fn of_archive(arguments: &Arguments, path: &OsStr, file: &[About; 2]) -> Done<Roots> {
    let archive = Archive::open(path, Opening::writing(arguments)?.to_read())?;
    let root = |which: Which, about: &About| {
        let register = archive.register(which);
        if about.n > register.n() {
            let (named, n) = (archive.named(which), register.n());
            return Err(Trouble::Refused(format!("{named}: it has {n} chunks, and the file is of {}", about.n)));
        }
        let root = register.first(about.n).and_then(|first| first.root_hash());
        root.map(Some).map_err(|reason| archive.trouble(which, reason))
    };
    Ok([root(Which::Metadata, &file[0])?, root(Which::Content, &file[1])?])
}

/// The root hashes of the file, where the command finds their signatures good. A register of which it has no packets
/// needs no signature.
fn signed(command: &OsStr, file: &[About; 2]) -> Done<Roots> {
    let root = |which: Which, about: &About| {
        let name = which.name();
        if about.n == 0 || (about.count == 0 && !about.is_signed()) {
            return Ok(None);
        }
        if !about.is_signed() {
            return Err(Trouble::Refused(format!("{name}: the file has no signature of its root hash, {}", hex(&about.root))));
        }
        let signed = Signed { chunk: about.n - 1, root: about.root, signature: about.signature };
        match is_good(command, which, &signed)? {
            true => Ok(Some(about.root)),
            false => Err(Trouble::Refused(format!("{name}: the signature of the file's root hash, {}, is not good", hex(&about.root)))),
        }
    };
    Ok([root(Which::Metadata, &file[0])?, root(Which::Content, &file[1])?])
}

/// What is said where no root hash is known: what the file says, and how one is given.
pub fn needed(file: &[About; 2], why: &str) -> Trouble {
    let said = BOTH.iter().zip(file).map(|(which, about)| format!("{} {}", which.name(), hex(&about.root))).collect::<Vec<_>>();
    Trouble::Usage(format!(
        "--root METADATA,CONTENT is needed, or --of ARCHIVE, or --with COMMAND that checks signatures: {why}. The file says, and nobody has checked: {}",
        said.join(", ")
    ))
}
