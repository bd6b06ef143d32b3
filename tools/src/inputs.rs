//! Files that a command is given: pieces, keys, signatures, packets. `-` is standard input.
use crate::words::{at_file, Done, Trouble};
use std::ffi::OsStr;
use std::fs::File;
use std::io;
use std::io::Read;
use std::os::unix::fs::MetadataExt;
use std::path::Path;

/// The longest chunk; one byte more is read, so that a proved call refuses what is longer.
pub const LONGEST: usize = 65536;

/// The mode that a piece gets which comes from no plain file.
const PLAIN_MODE: u32 = 0o100644;

/// At most `most` bytes of a file and its mode. What it has beyond them is not read.
pub fn at_most(path: &OsStr, most: usize) -> Done<(Vec<u8>, u32)> {
    let mut bytes = Vec::new();
    if path == "-" {
        io::stdin().lock().take(most as u64).read_to_end(&mut bytes).map_err(|error| at_file(Path::new("standard input"), error))?;
        return Ok((bytes, PLAIN_MODE));
    }
    let path = Path::new(path);
    let file = File::open(path).map_err(|error| at_file(path, error))?;
    let about = file.metadata().map_err(|error| at_file(path, error))?;
    if about.is_dir() {
        return Err(Trouble::File(format!("{}: a folder, and no file", path.display())));
    }
    file.take(most as u64).read_to_end(&mut bytes).map_err(|error| at_file(path, error))?;
    Ok((bytes, if about.is_file() { about.mode() } else { PLAIN_MODE }))
}

/// A file of just so many bytes.
pub fn exactly<const N: usize>(path: &Path) -> Done<[u8; N]> {
    just(at_most(path.as_os_str(), N + 1)?.0, path)
}

fn just<const N: usize>(bytes: Vec<u8>, path: &Path) -> Done<[u8; N]> {
    let many = if bytes.len() > N { "more".to_string() } else { bytes.len().to_string() };
    bytes.try_into().map_err(|_| Trouble::File(format!("{}: {N} bytes are needed, and it has {many}", path.display())))
}
