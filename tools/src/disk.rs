//! Room on the disk: reserved, and given back as holes.
use std::fs::File;
use std::io;
use std::os::fd::AsRawFd;
use std::os::unix::fs::FileExt;

const KEEP_SIZE: i32 = 1;
const PUNCH_HOLE: i32 = 2;

/// Zeros that are written at once where the file system has no holes.
const ZEROS: usize = 65536;

const BEGIN: u32 = 2;

/// Bytes for which the disk is asked to begin.
const WORTH: u64 = 1 << 20;

const NOT_NEEDED: i32 = 4;

extern "C" {
    fn fallocate(file: i32, mode: i32, offset: i64, length: i64) -> i32;
    fn sync_file_range(file: i32, offset: i64, length: i64, flags: u32) -> i32;
    fn posix_fadvise(file: i32, offset: i64, length: i64, advice: i32) -> i32;
}

/// A synced file's bytes are not read soon: the memory that has them is free for what is written next.
pub fn forget(file: &File, bytes: u64) {
    if bytes >= WORTH {
        unsafe { posix_fadvise(file.as_raw_fd(), 0, 0, NOT_NEEDED) };
    }
}

/// Lets the disk begin with what was written to a file, so that less is left for the sync, which alone is waited for and relied on. For a few bytes it is
/// not worth asking.
pub fn begin(file: &File, bytes: u64) {
    if bytes >= WORTH {
        unsafe { sync_file_range(file.as_raw_fd(), 0, 0, BEGIN) };
    }
}

/// The same again as long as a signal interrupts it.
fn allocated(file: &File, mode: i32, offset: u64, length: u64) -> io::Result<()> {
    loop {
        if unsafe { fallocate(file.as_raw_fd(), mode, offset as i64, length as i64) } == 0 {
            return Ok(());
        }
        let error = io::Error::last_os_error();
        if error.kind() != io::ErrorKind::Interrupted {
            return Err(error);
        }
    }
}

/// Room on the disk for a part of a file, which keeps its bytes and its length. A file system that can't promise room is no error.
pub fn reserve(file: &File, offset: u64, length: u64) -> io::Result<()> {
    if length == 0 {
        return Ok(());
    }
    match allocated(file, KEEP_SIZE, offset, length) {
        Err(error) if error.kind() == io::ErrorKind::Unsupported => Ok(()),
        other => other,
    }
}

/// Zeros in a part of a file, whose room the disk gets back; the length stays. Where the file system has no holes, zeros are written.
pub fn clear(file: &File, offset: u64, length: u64) -> io::Result<()> {
    if allocated(file, KEEP_SIZE | PUNCH_HOLE, offset, length).is_ok() {
        return Ok(());
    }
    let zeros = vec![0; ZEROS.min(length as usize)];
    for at in (0..length).step_by(ZEROS) {
        let count = (length - at).min(ZEROS as u64) as usize;
        file.write_all_at(&zeros[..count], offset + at)?;
    }
    Ok(())
}
