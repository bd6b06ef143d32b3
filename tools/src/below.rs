//! Files below an open folder, by their names in it. No link is followed, and what is no plain file is looked at and never opened: a name can't lead out
//! of the folder, to a device, or to something that is waited for. Nothing here needs /proc.
use std::ffi::{c_char, CStr, CString};
use std::fs::{File, OpenOptions};
use std::io;
use std::os::fd::{AsRawFd, FromRawFd, RawFd};
use std::os::unix::ffi::OsStrExt;
use std::os::unix::fs::OpenOptionsExt;
use std::path::Path;

const CREATE: i32 = 0o100;
const NEW_ONLY: i32 = 0o200;
const NOT_WAITING: i32 = 0o4000;
/// These differ between processors.
#[cfg(not(any(target_arch = "aarch64", target_arch = "arm")))]
const FOLDER_ALONE: i32 = 0o200000;
#[cfg(not(any(target_arch = "aarch64", target_arch = "arm")))]
const NO_LINK: i32 = 0o400000;
#[cfg(any(target_arch = "aarch64", target_arch = "arm"))]
const FOLDER_ALONE: i32 = 0o40000;
#[cfg(any(target_arch = "aarch64", target_arch = "arm"))]
const NO_LINK: i32 = 0o100000;
const CLOSED_AT_EXEC: i32 = 0o2000000;

/// In the place of a folder's number: paths are those of this process.
const FROM_HERE: i32 = -100;
const LINK_ITSELF: i32 = 0x100;
const OF_THE_HANDLE: i32 = 0x1000;
/// A network's file system asks its server, and answers from no memory of its own.
const AS_IT_IS_NOW: i32 = 0x2000;
const BASIC: u32 = 0x7ff;

const KIND: u16 = 0o170000;

const TO_READ: i32 = 4;
const AS_WHO_RUNS: i32 = 0x200;

/// What the system tells about a file; it is laid out in one way on every processor.
#[repr(C)]
#[derive(Clone, Copy)]
struct Told {
    mask: u32,
    block_size: u32,
    attributes: u64,
    links: u32,
    user: u32,
    group: u32,
    mode: u16,
    unused: u16,
    number: u64,
    size: u64,
    blocks: u64,
    attributes_mask: u64,
    times: [u64; 8],
    device_of: [u32; 2],
    device: [u32; 2],
    rest: [u64; 14],
}

extern "C" {
    fn openat(folder: i32, name: *const c_char, flags: i32, ...) -> i32;
    fn statx(folder: i32, name: *const c_char, flags: i32, mask: u32, told: *mut Told) -> i32;
    fn unlinkat(folder: i32, name: *const c_char, flags: i32) -> i32;
    fn renameat(folder: i32, name: *const c_char, other: i32, new: *const c_char) -> i32;
    fn dup(file: i32) -> i32;
    fn mkdirat(folder: i32, name: *const c_char, mode: u32) -> i32;
    fn renameat2(folder: i32, name: *const c_char, other: i32, new: *const c_char, flags: u32) -> i32;
    fn linkat(folder: i32, name: *const c_char, other: i32, new: *const c_char, flags: i32) -> i32;
    fn futimens(file: i32, times: *const [Moment; 2]) -> i32;
    fn fchmod(file: i32, mode: u32) -> i32;
    fn umask(mask: u32) -> u32;
    fn syncfs(file: i32) -> i32;
    fn faccessat(folder: i32, name: *const c_char, mode: i32, flags: i32) -> i32;
    fn read(file: i32, into: *mut u8, length: usize) -> isize;
}

/// How a plain file is opened. A lock that excludes needs a file that can be written, on a network's file system.
#[derive(Clone, Copy, PartialEq, Eq)]
pub enum Access {
    Reading = 0,
    Writing = 2,
}

/// What is known of a name, or of an open file.
#[derive(Clone, Copy)]
pub struct About {
    pub mode: u32,
    pub length: u64,
    /// How many names the file has.
    pub names: u32,
    /// The same for two names of one file alone.
    pub identity: (u32, u32, u64),
}

impl About {
    /// What stands there instead of a plain file.
    fn strange(&self) -> Option<&'static str> {
        match self.mode as u16 & KIND {
            0o100000 => None,
            0o120000 => Some("a link"),
            0o040000 => Some("a folder"),
            0o010000 => Some("a pipe"),
            0o140000 => Some("a socket"),
            _ => Some("a device"),
        }
    }
}

/// A plain file that is open.
pub struct Plain {
    pub file: File,
    pub about: About,
}

fn c_name(name: &str) -> io::Result<CString> {
    CString::new(name).map_err(io::Error::from)
}

fn told(folder: RawFd, name: &CStr, flags: i32) -> io::Result<About> {
    let mut told = std::mem::MaybeUninit::<Told>::zeroed();
    if unsafe { statx(folder, name.as_ptr(), flags | AS_IT_IS_NOW, BASIC, told.as_mut_ptr()) } != 0 {
        return Err(io::Error::last_os_error());
    }
    let Told { mode, size, links, device, number, .. } = unsafe { told.assume_init() };
    Ok(About { mode: mode.into(), length: size, names: links, identity: (device[0], device[1], number) })
}

/// A folder, by a path of the user's, through links; anything else is an error, and not opened.
pub fn folder(path: &Path) -> io::Result<File> {
    OpenOptions::new().read(true).custom_flags(FOLDER_ALONE).open(path)
}

/// What is known of a name in a folder; nothing where it is no name there.
pub fn look(folder: &File, name: &str) -> io::Result<Option<About>> {
    there(told(folder.as_raw_fd(), &c_name(name)?, LINK_ITSELF))
}

/// What is known of what a path leads to, through links.
pub fn at_path(path: &Path) -> io::Result<About> {
    let path = CString::new(path.as_os_str().as_bytes())?;
    told(FROM_HERE, &path, 0)
}

/// Whether this user may read what a path leads to.
pub fn can_be_read(path: &Path) -> io::Result<()> {
    let path = CString::new(path.as_os_str().as_bytes())?;
    done(unsafe { faccessat(FROM_HERE, path.as_ptr(), TO_READ, AS_WHO_RUNS) })
}

/// What is known of an open file.
pub fn about(file: &File) -> io::Result<About> {
    about_number(file.as_raw_fd())
}

/// The same of a file that is known by its number in this process.
pub fn about_number(number: RawFd) -> io::Result<About> {
    told(number, c"", OF_THE_HANDLE)
}

fn there<T>(found: io::Result<T>) -> io::Result<Option<T>> {
    match found {
        Ok(found) => Ok(Some(found)),
        Err(error) if error.kind() == io::ErrorKind::NotFound => Ok(None),
        Err(error) => Err(error),
    }
}

/// A plain file, opened; nothing where there is none. Anything else at its name is an error.
pub fn open(folder: &File, name: &str, access: Access) -> io::Result<Option<Plain>> {
    let Some(looked) = look(folder, name)? else { return Ok(None) };
    if let Some(what) = looked.strange() {
        return Err(io::Error::other(format!("{what}, and no plain file; it is not opened")));
    }
    let flags = access as i32 | NO_LINK | NOT_WAITING | CLOSED_AT_EXEC;
    let Some(file) = there(opened(folder, name, flags, 0))? else { return Ok(None) };
    let about = about(&file)?;
    if about.identity != looked.identity || about.strange().is_some() {
        return Err(io::Error::other("another file took its place while it was opened"));
    }
    Ok(Some(Plain { file, about }))
}

/// A file that was not there.
pub fn create(folder: &File, name: &str, mode: u32) -> io::Result<File> {
    opened(folder, name, Access::Writing as i32 | CREATE | NEW_ONLY | NO_LINK | CLOSED_AT_EXEC, mode)
}

fn opened(folder: &File, name: &str, flags: i32, mode: u32) -> io::Result<File> {
    let name = c_name(name)?;
    let handle = unsafe { openat(folder.as_raw_fd(), name.as_ptr(), flags, mode) };
    if handle < 0 {
        return Err(io::Error::last_os_error());
    }
    Ok(unsafe { File::from_raw_fd(handle) })
}

fn done(answer: i32) -> io::Result<()> {
    if answer == 0 {
        return Ok(());
    }
    Err(io::Error::last_os_error())
}

pub fn remove(folder: &File, name: &str) -> io::Result<()> {
    let name = c_name(name)?;
    done(unsafe { unlinkat(folder.as_raw_fd(), name.as_ptr(), 0) })
}

pub fn rename(folder: &File, name: &str, new: &str) -> io::Result<()> {
    let (name, new) = (c_name(name)?, c_name(new)?);
    done(unsafe { renameat(folder.as_raw_fd(), name.as_ptr(), folder.as_raw_fd(), new.as_ptr()) })
}

/// Another number of an open file, which stays when this process becomes another program.
pub fn kept_at_exec(file: RawFd) -> io::Result<RawFd> {
    match unsafe { dup(file) } {
        -1 => Err(io::Error::last_os_error()),
        number => Ok(number),
    }
}

/// A moment as the system takes it, in seconds since 1970 and nanoseconds.
#[repr(C)]
struct Moment {
    seconds: i64,
    nanoseconds: i64,
}

const NOT_CHANGED: i64 = (1 << 30) - 2;

/// Names of any bytes below an open folder: those of pieces. None of them has a slash.
fn any_name(name: &[u8]) -> io::Result<CString> {
    CString::new(name).map_err(io::Error::from)
}

/// A folder in a folder, opened through no link.
pub fn folder_below(folder: &File, name: &[u8]) -> io::Result<File> {
    let name = any_name(name)?;
    let handle = unsafe { openat(folder.as_raw_fd(), name.as_ptr(), FOLDER_ALONE | NO_LINK | CLOSED_AT_EXEC) };
    if handle < 0 {
        return Err(io::Error::last_os_error());
    }
    Ok(unsafe { File::from_raw_fd(handle) })
}

/// A file that was found in a folder of the user's, opened through no link, and without waiting.
pub fn open_found(folder: &File, name: &[u8]) -> io::Result<File> {
    let name = any_name(name)?;
    let handle = unsafe { openat(folder.as_raw_fd(), name.as_ptr(), NO_LINK | NOT_WAITING | CLOSED_AT_EXEC) };
    if handle < 0 {
        return Err(io::Error::last_os_error());
    }
    Ok(unsafe { File::from_raw_fd(handle) })
}

/// Reads at most so many bytes behind those that are there; how many. The room for them is not cleared before.
pub fn read_behind(file: &File, bytes: &mut Vec<u8>, most: usize) -> io::Result<usize> {
    bytes.reserve(most);
    loop {
        let count = unsafe { read(file.as_raw_fd(), bytes.as_mut_ptr().add(bytes.len()), most) };
        if let Ok(count) = usize::try_from(count) {
            unsafe { bytes.set_len(bytes.len() + count) };
            return Ok(count);
        }
        let error = io::Error::last_os_error();
        if error.kind() != io::ErrorKind::Interrupted {
            return Err(error);
        }
    }
}

pub fn make_folder(folder: &File, name: &[u8]) -> io::Result<()> {
    let name = any_name(name)?;
    done(unsafe { mkdirat(folder.as_raw_fd(), name.as_ptr(), 0o777) })
}

/// Whether there is anything of a name, be it a link.
pub fn is_there(folder: &File, name: &[u8]) -> io::Result<bool> {
    Ok(there(told(folder.as_raw_fd(), &any_name(name)?, LINK_ITSELF))?.is_some())
}

/// Gives a file another name. Unless it may, it takes no name that there is.
pub fn give_name(folder: &File, name: &str, new: &[u8], overwrite: bool) -> io::Result<()> {
    const NOT_REPLACING: u32 = 1;
    let (name, new, folder) = (c_name(name)?, any_name(new)?, folder.as_raw_fd());
    if overwrite {
        return done(unsafe { renameat(folder, name.as_ptr(), folder, new.as_ptr()) });
    }
    match done(unsafe { renameat2(folder, name.as_ptr(), folder, new.as_ptr(), NOT_REPLACING) }) {
        // A file system that can't do that has two names for a while.
        Err(error) if matches!(error.kind(), io::ErrorKind::InvalidInput | io::ErrorKind::Unsupported) => {
            done(unsafe { linkat(folder, name.as_ptr(), folder, new.as_ptr(), 0) })?;
            done(unsafe { unlinkat(folder, name.as_ptr(), 0) })
        }
        other => other,
    }
}

/// Sets the time of a file's last change, in nanoseconds since 1970.
pub fn set_time(file: &File, nanoseconds: u64) -> io::Result<()> {
    const SECOND: u64 = 1_000_000_000;
    let changed = Moment { seconds: (nanoseconds / SECOND) as i64, nanoseconds: (nanoseconds % SECOND) as i64 };
    done(unsafe { futimens(file.as_raw_fd(), &[Moment { seconds: 0, nanoseconds: NOT_CHANGED }, changed]) })
}

pub fn set_rights(file: &File, mode: u32) -> io::Result<()> {
    done(unsafe { fchmod(file.as_raw_fd(), mode) })
}

/// The rights that new files don't get. Asked for by setting it, so before there are threads.
pub fn mask() -> u32 {
    unsafe {
        let mask = umask(0o077);
        umask(mask);
        mask
    }
}

/// Syncs all that is on the file system of a folder.
pub fn sync_all_of(folder: &File) -> io::Result<()> {
    done(unsafe { syncfs(folder.as_raw_fd()) })
}
