//! Mapped memory and its protection.
use std::ffi::c_char;
use std::fs::File;
use std::io;
use std::os::fd::{AsRawFd, FromRawFd};
use std::sync::atomic::{AtomicBool, Ordering::SeqCst};
use std::sync::{Arc, OnceLock};
use std::thread::JoinHandle;

const NO_ACCESS: i32 = 0;
const READ: i32 = 1;
const WRITE: i32 = 2;
const SHARED: i32 = 0x01;
const PRIVATE: i32 = 0x02;
const FIXED: i32 = 0x10;
const ANONYMOUS: i32 = 0x20;
const NO_RESERVE: i32 = 0x4000;
/// All pages are there when the mapping is made.
const AT_ONCE: i32 = 0x8000;

const NOT_NEEDED: i32 = 4;
const TO_BE_WRITTEN: i32 = 23;
const CLOSED_AT_EXEC: u32 = 1;

const PAGE_SIZE: i32 = 30;

extern "C" {
    fn mmap(address: *mut u8, length: usize, protection: i32, flags: i32, file: i32, offset: i64) -> *mut u8;
    fn munmap(address: *mut u8, length: usize) -> i32;
    fn madvise(address: *mut u8, length: usize, advice: i32) -> i32;
    fn mprotect(address: *mut u8, length: usize, protection: i32) -> i32;
    fn memfd_create(name: *const c_char, flags: u32) -> i32;
    fn sysconf(name: i32) -> i64;
}

pub fn page() -> usize {
    static PAGE: OnceLock<usize> = OnceLock::new();
    *PAGE.get_or_init(|| unsafe { sysconf(PAGE_SIZE) } as usize)
}

/// A length in whole pages.
pub fn whole_pages(length: usize) -> usize {
    length.div_ceil(page()) * page()
}

fn mapping(address: *mut u8, length: usize, protection: i32, flags: i32, file: i32) -> io::Result<*mut u8> {
    // Where an address is given, it and the length lie in a mapping that the caller made and that nothing else uses.
    let given = unsafe { mmap(address, length, protection, flags, file, 0) };
    if given as isize == -1 {
        return Err(io::Error::last_os_error());
    }
    Ok(given)
}

/// Addresses without memory behind them, in whole pages.
pub fn addresses(length: usize) -> io::Result<*mut u8> {
    mapping(std::ptr::null_mut(), length, NO_ACCESS, PRIVATE | ANONYMOUS | NO_RESERVE, -1)
}

/// A file's bytes at addresses of ours, to be read; what is written there later stays in this process.
pub fn place_file(address: *mut u8, length: usize, file: &File) -> io::Result<()> {
    mapping(address, length, READ, PRIVATE | FIXED | NO_RESERVE, file.as_raw_fd()).map(|_| ())
}

/// Zeros at addresses of ours, to be read and written; memory is taken as they are written.
pub fn place_room(address: *mut u8, length: usize) -> io::Result<()> {
    mapping(address, length, READ | WRITE, PRIVATE | ANONYMOUS | FIXED | NO_RESERVE, -1).map(|_| ())
}

/// Pages that another thread makes ready, so that who writes them first does not wait for each. Ends with what it stands for.
pub struct Ready {
    over: Arc<AtomicBool>,
    thread: Option<JoinHandle<()>>,
}

/// How much is made ready at once, and the least that is worth a thread.
const AT_A_TIME: usize = 1 << 20;
const WORTH: usize = 1 << 22;

impl Ready {
    /// Of zeros at addresses of ours, which last as long as this. Where the system can't, or has no memory, they stay as they are.
    pub fn start(address: *mut u8, length: usize) -> Ready {
        let (from, to) = (whole_pages(address as usize), (address as usize + length) / page() * page());
        let over = Arc::new(AtomicBool::new(false));
        let stop = Arc::clone(&over);
        let thread = (from + WORTH <= to).then(|| {
            std::thread::spawn(move || {
                let parts = (from..to).step_by(AT_A_TIME).take_while(|_| !stop.load(SeqCst));
                let _ = parts.map(|at| unsafe { madvise(at as *mut u8, AT_A_TIME.min(to - at), TO_BE_WRITTEN) }).all(|done| done == 0);
            })
        });
        Ready { over, thread }
    }
}

impl Drop for Ready {
    fn drop(&mut self) {
        self.over.store(true, SeqCst);
        let _ = self.thread.take().map(JoinHandle::join);
    }
}

/// Zeros in memory that a file's handle stands for.
fn memory_file(length: usize) -> io::Result<File> {
    let handle = unsafe { memfd_create(c"sleep-archive".as_ptr(), CLOSED_AT_EXEC) };
    if handle < 0 {
        return Err(io::Error::last_os_error());
    }
    let memory = unsafe { File::from_raw_fd(handle) };
    memory.set_len(length as u64)?;
    Ok(memory)
}

/// The memory that all of many zeros share.
const ZEROS_SHARED: usize = 1 << 24;

/// Zeros at addresses of ours, where nothing but zeros will be written: of many, all share one run of memory.
pub fn place_zeros(address: *mut u8, length: usize) -> io::Result<()> {
    if length <= ZEROS_SHARED {
        return Ok(());
    }
    let memory = memory_file(ZEROS_SHARED)?;
    for from in (0..length).step_by(ZEROS_SHARED) {
        mapping(address.wrapping_add(from), ZEROS_SHARED.min(length - from), READ | WRITE, SHARED | FIXED, memory.as_raw_fd())?;
    }
    Ok(())
}

pub fn give_back(address: *mut u8, length: usize) {
    unsafe { munmap(address, length) };
}

/// Gives the memory of private pages of a file back, whose bytes stand there again. Where that fails they stay.
pub fn give_up(address: *mut u8, length: usize) {
    unsafe { madvise(address, length, NOT_NEEDED) };
}

/// Addresses of ours that can't be read any more, with no memory behind them.
pub fn shut(address: *mut u8, length: usize) -> io::Result<()> {
    mapping(address, length, NO_ACCESS, PRIVATE | ANONYMOUS | FIXED | NO_RESERVE, -1).map(|_| ())
}

/// Memory that can be placed at several addresses, and one of them, where it can be written.
pub fn shared(length: usize) -> io::Result<(File, *mut u8)> {
    let memory = memory_file(length)?;
    let start = mapping(std::ptr::null_mut(), length, READ | WRITE, SHARED, memory.as_raw_fd())?;
    Ok((memory, start))
}

/// A part of shared memory at addresses of ours, to be read.
pub fn place_shared(address: *mut u8, length: usize, memory: &File, offset: usize) -> io::Result<()> {
    let given = unsafe { mmap(address, length, READ, SHARED | FIXED | AT_ONCE, memory.as_raw_fd(), offset as i64) };
    if given as isize == -1 {
        return Err(io::Error::last_os_error());
    }
    Ok(())
}

/// Lets pages of ours be written, and makes what is written private. Called by the handler of a signal too: it allocates nothing.
pub fn let_write(address: *mut u8, length: usize) -> bool {
    unsafe { mprotect(address, length, READ | WRITE) == 0 }
}

/// The bytes of a file, mapped to be read.
pub struct Bytes {
    start: *mut u8,
    length: usize,
}

impl Bytes {
    pub fn of(file: &File, length: u64) -> io::Result<Bytes> {
        let length = usize::try_from(length).map_err(|_| io::Error::other("the file is too long for this machine"))?;
        if length == 0 {
            return Ok(Bytes { start: std::ptr::null_mut(), length });
        }
        let start = mapping(std::ptr::null_mut(), whole_pages(length), READ, PRIVATE, file.as_raw_fd())?;
        Ok(Bytes { start, length })
    }
}

impl AsRef<[u8]> for Bytes {
    fn as_ref(&self) -> &[u8] {
        if self.length == 0 {
            return &[];
        }
        unsafe { std::slice::from_raw_parts(self.start, self.length) }
    }
}

impl Drop for Bytes {
    fn drop(&mut self) {
        if self.length > 0 {
            give_back(self.start, whole_pages(self.length));
        }
    }
}
