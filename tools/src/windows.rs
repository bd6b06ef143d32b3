//! A long journal in memory, a few windows of it at a time, at addresses that lie one behind the other: the proved calls are lent all of it, and it takes no
//! more memory than a short one.
//!
//! None of the addresses can be read at first. A fault at one of them reads its window from the file, and gives up the one that was read before all others.
//! A window that is read again must have the hash that it had, under a key that no other program knows: so what is applied is what was judged, whatever
//! another program writes that knows no lock.
use crate::image::set_handlers;
use crate::memory;
use crate::signals::end_at_once;
use std::collections::hash_map::RandomState;
use std::fs::File;
use std::hash::{BuildHasher, Hasher};
use std::io;
use std::os::unix::fs::FileExt;
use std::ptr::null_mut;
use std::sync::atomic::{AtomicPtr, Ordering::SeqCst};

/// The bytes of a window, in whole pages of any machine, and how many of them are in memory.
pub const WINDOW: usize = 1 << 18;
const HELD: usize = 4;

/// What is no longer than this needs no windows.
pub const SHORT: usize = HELD * WINDOW;

/// The journals of two archives can be read at the same time.
static ALL: [AtomicPtr<State>; 2] = [const { AtomicPtr::new(null_mut()) }; 2];

struct State {
    start: *mut u8,
    length: usize,
    file: File,
    /// The memory of the windows that are held, and where it can be written.
    memory: File,
    room: *mut u8,
    key: RandomState,
    /// Of each window that was read.
    hashes: Vec<Option<u64>>,
    held: [Option<usize>; HELD],
    turn: usize,
}

impl State {
    fn place(&self, number: usize) -> (*mut u8, usize) {
        (self.start.wrapping_add(number * WINDOW), WINDOW.min(self.length - number * WINDOW))
    }

    /// Reads a window in the place of another. Called by the handler of a signal: it allocates nothing.
    fn read(&mut self, number: usize) {
        let slot = self.turn % HELD;
        let other = self.held[slot].replace(number);
        self.turn += 1;
        let shut = other.is_none_or(|other| memory::shut(self.place(other).0, WINDOW).is_ok());
        let (start, length) = self.place(number);
        let bytes = unsafe { std::slice::from_raw_parts_mut(self.room.wrapping_add(slot * WINDOW), length) };
        if self.file.read_exact_at(bytes, (number * WINDOW) as u64).is_err() {
            end_at_once(2, b"sleep-archive: sleep-archive.journal can't be read: it was cut short meanwhile, or the disk fails\n");
        }
        if !shut || memory::place_shared(start, WINDOW, &self.memory, slot * WINDOW).is_err() {
            end_at_once(2, b"sleep-archive: no memory for the journal\n");
        }
        let mut hasher = self.key.build_hasher();
        hasher.write(bytes);
        let now = hasher.finish();
        if *self.hashes[number].get_or_insert(now) != now {
            end_at_once(2, b"sleep-archive: sleep-archive.journal was changed by another program while it was read\n");
        }
    }
}

/// Reads the window that an address lies in, where it is one's.
pub fn met(address: usize) -> bool {
    for state in &ALL {
        // A state stands in `ALL` for as long as its windows are lent, and no one but this handler looks into it then.
        if let Some(state) = unsafe { state.load(SeqCst).as_mut() } {
            if (state.start as usize..state.start as usize + state.length).contains(&address) {
                state.read((address - state.start as usize) / WINDOW);
                return true;
            }
        }
    }
    false
}

/// All bytes of a file. The system is not to be handed them: it can't read what a fault would bring.
pub struct Windows {
    start: *mut u8,
    length: usize,
    state: &'static AtomicPtr<State>,
}

impl Windows {
    pub fn of(file: &File, length: usize) -> io::Result<Windows> {
        set_handlers();
        let state = ALL.iter().find(|state| state.load(SeqCst).is_null()).ok_or_else(|| io::Error::other("too many journals at once"))?;
        let (count, file, key) = (length.div_ceil(WINDOW), file.try_clone()?, RandomState::new());
        let (memory, room) = memory::shared(HELD * WINDOW)?;
        let start = memory::addresses(count * WINDOW)?;
        let made = State { start, length, file, memory, room, key, hashes: vec![None; count], held: [None; HELD], turn: 0 };
        state.store(Box::into_raw(Box::new(made)), SeqCst);
        Ok(Windows { start, length, state })
    }
}

impl AsRef<[u8]> for Windows {
    fn as_ref(&self) -> &[u8] {
        // What can't be read yet is there when a fault at it has been met, with the same bytes each time.
        unsafe { std::slice::from_raw_parts(self.start, self.length) }
    }
}

impl Drop for Windows {
    fn drop(&mut self) {
        let state = unsafe { Box::from_raw(self.state.swap(null_mut(), SeqCst)) };
        memory::give_back(state.room, HELD * WINDOW);
        memory::give_back(self.start, state.hashes.len() * WINDOW);
    }
}

#[cfg(test)]
mod tests {
    use super::*;
    use std::io::Write;

    fn file(name: &str, bytes: &[u8]) -> File {
        let path = std::env::temp_dir().join(format!("sleep-archive.{name}.{}", std::process::id()));
        let mut file = File::options().read(true).write(true).create_new(true).open(&path).unwrap();
        std::fs::remove_file(path).unwrap();
        file.write_all(bytes).unwrap();
        file
    }

    /// All bytes, in any order and again and again, and never more than some windows in memory.
    #[test]
    fn windows_are_the_file() {
        let bytes = (0..9 * WINDOW + 777).map(|at| (at / 3 % 251) as u8).collect::<Vec<_>>();
        let windows = Windows::of(&file("windows", &bytes), bytes.len()).unwrap();
        assert!(windows.as_ref() == bytes);
        for step in [WINDOW + 1, 3 * WINDOW - 1, 77_777] {
            for at in (0..40).map(|count| count * step % bytes.len()) {
                assert_eq!(windows.as_ref()[at], bytes[at]);
                let end = bytes.len().min(at + WINDOW + 5);
                assert!(windows.as_ref()[at..end] == bytes[at..end]);
            }
        }
        let state = unsafe { &*windows.state.load(SeqCst) };
        assert_eq!((state.held.iter().flatten().count(), state.hashes.len()), (HELD, 10));
    }
}
