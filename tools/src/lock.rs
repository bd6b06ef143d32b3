//! The lock of an archive: flock on two files that every archive has and no command replaces, `GATE` and `WORK`, and on the folder for programs that know
//! that one alone. A lock on a file is seen by other machines where the file system forwards it; one on a folder is not.
//!
//! A reader goes through the gate (shared), takes the work (shared), and opens the gate again. A writer takes the gate and keeps it, then the work: it waits
//! for the reads that have begun, and no later one overtakes it. The folder's lock is taken between the two, so it keeps that order. Where an archive is
//! made, and has neither file yet, its journal is the lock (see commit.rs): whoever reads or applies a journal holds its lock too.
use crate::below::{self, Access};
use crate::words::{at_file, in_file, remark, said, Done, Trouble};
use std::fs::{File, TryLockError};
use std::io;
use std::os::fd::AsRawFd;
use std::path::{Path, PathBuf};
use std::time::{Duration, Instant};

pub const GATE: &str = "metadata.tree";
pub const WORK: &str = "content.tree";

/// The numbers of the files that are locked for a command under `hold`, with commas between them.
pub const HELD: &str = "SLEEP_ARCHIVE_HELD";

/// Who waits this long says so. Until then, and where there is a limit, the lock is asked for again and again: a network's file system may not let a
/// call that waits be interrupted.
const SILENT: Duration = Duration::from_millis(500);
const FIRST_PAUSE: Duration = Duration::from_millis(1);
const LONGEST_PAUSE: Duration = Duration::from_millis(20);

#[derive(Clone, Copy, PartialEq, Eq)]
pub enum Use {
    Reading,
    Writing,
}

impl Use {
    pub fn access(self) -> Access {
        match self {
            Use::Reading => Access::Reading,
            Use::Writing => Access::Writing,
        }
    }
}

/// How long a command waits for its turn, all its locks together.
pub struct Patience {
    /// The archive that is waited for, in messages.
    path: PathBuf,
    limit: Option<Duration>,
    begun: Option<Instant>,
    told: bool,
}

impl Patience {
    pub fn new(path: &Path, limit: Option<Duration>) -> Patience {
        Patience { path: path.to_owned(), limit, begun: None, told: false }
    }

    /// Waits for a lock; whoever waits for more than a moment says so.
    pub fn lock(&mut self, file: &File, purpose: Use) -> Done<()> {
        if self.locked_at_once(file, purpose)? {
            return Ok(());
        }
        let begun = *self.begun.get_or_insert_with(Instant::now);
        let mut pause = FIRST_PAUSE;
        loop {
            let waited = begun.elapsed();
            if self.limit.is_some_and(|limit| waited >= limit) {
                return Err(self.no_turn());
            }
            if !self.told && waited >= SILENT {
                self.tell();
            }
            if self.told && self.limit.is_none() {
                return self.locked(file, purpose);
            }
            std::thread::sleep(self.limit.map_or(pause, |limit| pause.min(limit.saturating_sub(waited))));
            if self.locked_at_once(file, purpose)? {
                return Ok(());
            }
            pause = LONGEST_PAUSE.min(2 * pause);
        }
    }

    fn locked_at_once(&self, file: &File, purpose: Use) -> Done<bool> {
        let locked = match purpose {
            Use::Reading => file.try_lock_shared(),
            Use::Writing => file.try_lock(),
        };
        match locked {
            Ok(()) => Ok(true),
            Err(TryLockError::WouldBlock) => Ok(false),
            Err(TryLockError::Error(error)) => Err(self.not_locked(&error)),
        }
    }

    fn locked(&self, file: &File, purpose: Use) -> Done<()> {
        loop {
            let locked = match purpose {
                Use::Reading => file.lock_shared(),
                Use::Writing => file.lock(),
            };
            match locked {
                Err(error) if error.kind() == io::ErrorKind::Interrupted => continue,
                other => return other.map_err(|error| self.not_locked(&error)),
            }
        }
    }

    fn tell(&mut self) {
        self.told = true;
        let most = self.limit.map_or(String::new(), |limit| format!(", at most {} s", limit.as_secs()));
        remark(&format!("sleep-archive: {}: another program uses it; waiting{most}", self.path.display()));
    }

    fn no_turn(&self) -> Trouble {
        let limit = self.limit.unwrap_or_default().as_secs();
        Trouble::File(format!("{}: another program uses it, and still does after {limit} s; nothing is done", self.path.display()))
    }

    fn not_locked(&self, error: &io::Error) -> Trouble {
        Trouble::File(format!("{}: can't be locked: {}", self.path.display(), said(error)))
    }
}

/// The files that are locked, besides the folder; none where an archive is being made.
#[derive(Default)]
pub struct Lock {
    gate: Option<File>,
    pub work: Option<File>,
}

impl Lock {
    /// Whether both files are locked: an archive that is not being made.
    pub fn is_of_files(&self) -> bool {
        self.gate.is_some() && self.work.is_some()
    }

    /// Takes the lock of an archive's folder. Nothing where another folder or file got one of the names meanwhile, so that all must be looked at again.
    pub fn take(path: &Path, folder: &File, purpose: Use, patience: &mut Patience) -> Done<Option<Lock>> {
        if is_held(path, folder, purpose)? {
            return Ok(Some(Lock::default()));
        }
        let Some(gate) = turn(path, folder, GATE, purpose, patience)? else { return Ok(None) };
        patience.lock(folder, purpose)?;
        let trouble = |error| at_file(path, error);
        if below::at_path(path).map_err(trouble)?.identity != below::about(folder).map_err(trouble)?.identity {
            return Ok(None);
        }
        let Some(work) = turn(path, folder, WORK, purpose, patience)? else { return Ok(None) };
        if let (Use::Reading, Some(gate)) = (purpose, &gate) {
            gate.unlock().map_err(trouble)?;
        }
        Ok(Some(Lock { gate, work }))
    }
}

/// The lock on one of the two files; within it nothing where there is no such file, and nothing at all where its name leads to another one then.
fn turn(path: &Path, folder: &File, name: &str, purpose: Use, patience: &mut Patience) -> Done<Option<Option<File>>> {
    let trouble = |error| in_file(path, name, error);
    let Some(plain) = below::open(folder, name, purpose.access()).map_err(trouble)? else { return Ok(Some(None)) };
    patience.lock(&plain.file, purpose)?;
    let now = below::look(folder, name).map_err(trouble)?;
    let same = now.is_some_and(|now| now.identity == plain.about.identity);
    Ok(same.then_some(Some(plain.file)))
}

/// Whether this command runs under `hold`, which has the lock. Then it reads without one: it might wait for a writer who waits for `hold`.
fn is_held(path: &Path, folder: &File, purpose: Use) -> Done<bool> {
    let Ok(held) = std::env::var(HELD) else { return Ok(false) };
    let Some(work) = below::look(folder, WORK).map_err(|error| in_file(path, WORK, error))? else { return Ok(false) };
    let same =
        |number: &str| number.parse().is_ok_and(|number| below::about_number(number).is_ok_and(|held| held.identity == work.identity));
    match (held.split(',').any(same), purpose) {
        (true, Use::Writing) => Err(Trouble::File(format!("{}: `hold` holds it for this command; nothing is changed", path.display()))),
        (held, _) => Ok(held),
    }
}

/// Lets the commands that this process becomes keep the lock; the numbers of its files.
pub fn kept_for_others(files: &[&File]) -> io::Result<Vec<String>> {
    files.iter().map(|file| below::kept_at_exec(file.as_raw_fd()).map(|number| number.to_string())).collect()
}
