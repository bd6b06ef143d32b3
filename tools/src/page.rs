//! The page of the format in an archive's folder, README.txt, for whoever finds the folder and nothing else. `new` and `copy` lay it, `status` says of which
//! version it is, and no other command looks at it: nothing depends on it.
use crate::below::{self, Access, Plain};
use crate::folder::Folder;
use crate::words::{said, Done, Trouble};
use std::io;
use std::os::unix::fs::FileExt;

pub const NAME: &str = "README.txt";

/// Its name until all of it is synced.
pub const UNSYNCED: &str = "sleep-archive.page.new";

pub const VERSION: &str = env!("CARGO_PKG_VERSION");

const FORMAT: &[u8] = include_bytes!("../../docs/FORMAT.md");
const FIRST: &str = "The page of the format, as sleep-archive ";
const USUAL: u32 = 0o666;

/// A first line that is longer than this is no page's.
const LONGEST_LINE: usize = 100;

/// The page: lines for whoever opens it first, and the page of the format as it was when this program was built.
pub fn page() -> Vec<u8> {
    let head = format!(
        "{FIRST}{VERSION} has it.\n\n\
         This folder is an archive: the files of two registers, content and metadata. Pieces are in the content register, and their names in the metadata\n\
         register. What follows says what each byte means, so that a reader can be written from it. Nothing in the archive depends on this file.\n\n"
    );
    [head.as_bytes(), FORMAT].concat()
}

/// The version that a page names on its first line, where it is one.
fn version(bytes: &[u8]) -> Option<&str> {
    let line = bytes.iter().take(LONGEST_LINE).position(|byte| *byte == b'\n')?;
    let version = std::str::from_utf8(&bytes[..line]).ok()?.strip_prefix(FIRST)?.strip_suffix(" has it.")?;
    let plain = version.bytes().all(|byte| byte.is_ascii_alphanumeric() || byte == b'.' || byte == b'-');
    (plain && !version.is_empty()).then_some(version)
}

/// At most `most` bytes from the front of a file.
fn front(plain: &Plain, most: usize) -> io::Result<Vec<u8>> {
    let mut bytes = vec![0; most.min(plain.about.length as usize)];
    plain.file.read_exact_at(&mut bytes, 0)?;
    Ok(bytes)
}

/// What `status` says. A file that can't be read here, or is no page, is told as such: the archive is what it is without it.
pub fn told(folder: &Folder) -> String {
    let page = page();
    let found = below::open(&folder.handle, NAME, Access::Reading);
    let bytes = found.and_then(|found| found.map(|plain| front(&plain, page.len() + 1)).transpose());
    match bytes {
        Err(error) => format!("page: {NAME}: {}", said(&error)),
        Ok(None) => format!("page: none; a folder made by `new` or `copy` without --no-page has it as {NAME}"),
        Ok(Some(bytes)) => match version(&bytes) {
            None => format!("page: {NAME} is another file, and no page of this program"),
            Some(VERSION) if bytes != page => format!("page: {NAME}, of version {VERSION}, with other words than that version's"),
            Some(version) => format!("page: {NAME}, of version {version}"),
        },
    }
}

/// Lays the page where it is wanted, and makes an archive beside it: so that there is no archive without its page, whenever the program stops. Where the
/// archive does not come to be, the page goes again.
pub fn beside(folder: &Folder, wanted: bool, make: impl FnOnce() -> Done<()>) -> Done<()> {
    let laid = wanted && lay(folder)?;
    make().inspect_err(|_| {
        if laid && !folder.is_used().unwrap_or(true) {
            let _ = below::remove(&folder.handle, NAME).and_then(|()| folder.handle.sync_all());
        }
    })
}

/// Writes the page, whole and synced, with its entry in the folder. False where it is there already; any other file of its name stays, and is told.
fn lay(folder: &Folder) -> Done<bool> {
    let trouble = |words: String| {
        let path = folder.file(NAME);
        Trouble::File(format!("{}: {words}; nothing is changed, and --no-page leaves the page of the format out", path.display()))
    };
    let page = page();
    let found = below::open(&folder.handle, NAME, Access::Reading);
    let there =
        found.and_then(|found| found.map(|plain| front(&plain, page.len() + 1)).transpose()).map_err(|error| trouble(said(&error)))?;
    match there {
        Some(bytes) if bytes == page => return Ok(false),
        Some(_) => return Err(trouble("there is another file of that name".into())),
        None => {}
    }
    written(folder, &page).map(|()| true).map_err(|error| {
        let _ = below::remove(&folder.handle, UNSYNCED);
        trouble(said(&error))
    })
}

fn written(folder: &Folder, page: &[u8]) -> io::Result<()> {
    let file = match below::create(&folder.handle, UNSYNCED, USUAL) {
        Err(error) if error.kind() == io::ErrorKind::AlreadyExists => {
            // What a killed run left; the folder's lock says that no other makes an archive here.
            below::remove(&folder.handle, UNSYNCED)?;
            below::create(&folder.handle, UNSYNCED, USUAL)?
        }
        created => created?,
    };
    file.write_all_at(page, 0)?;
    file.sync_all()?;
    below::rename(&folder.handle, UNSYNCED, NAME)?;
    folder.handle.sync_all().inspect_err(|_| {
        let _ = below::remove(&folder.handle, NAME);
    })
}

#[cfg(test)]
mod tests {
    use super::*;

    #[test]
    fn a_page_names_its_version() {
        assert_eq!(version(&page()), Some(VERSION));
        assert_eq!(version(b"The page of the format, as sleep-archive 12.0.3-rc has it.\nx"), Some("12.0.3-rc"));
        for other in [
            "",
            "The page",
            "The page of the format, as sleep-archive  has it.\n",
            "The page of the format, as sleep-archive \x1b[2J has it.\n",
        ] {
            assert_eq!(version(other.as_bytes()), None);
        }
        assert_eq!(version(b"The page of the format, as sleep-archive 1\xff has it.\n"), None);
        assert_eq!(version(format!("{FIRST}{} has it.\n", "1".repeat(60)).as_bytes()), None);
    }

    #[test]
    fn the_page_has_the_format() {
        let page = page();
        assert!(page.ends_with(FORMAT) && page.is_ascii() == FORMAT.is_ascii());
    }
}
