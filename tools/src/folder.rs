//! An archive's folder, locked: its files, and their images with a change applied to them that was left unfinished.
use crate::arguments::Arguments;
use crate::below::{self, Access, Plain};
use crate::commit;
use crate::counts::{used_sizes, Counts, Which, FILES, HEADER};
use crate::image::Image;
use crate::kept::{kinds, only_whole, Kept, Lent};
use crate::left_over::{Found, Left, NAME};
use crate::lock::{Lock, Patience, Use};
use crate::sleep_register::{CopyStore, Store};
use crate::words::{at_file, in_file, Done, Trouble};
use std::fs::File;
use std::io;
use std::ops::Range;
use std::path::{Path, PathBuf};
use std::rc::Rc;
use std::time::Duration;

/// How many of the files are a register's; keys stand behind them.
const OF_REGISTERS: usize = 8;

/// How an archive is to be opened.
#[derive(Clone, Copy)]
pub struct Opening {
    pub purpose: Use,
    pub wait: Option<Duration>,
    /// A journal is not looked at.
    past_journal: bool,
    /// One that is read as done may take as much memory as it needs.
    large_journal: bool,
}

impl Opening {
    pub fn reading(arguments: &Arguments) -> Done<Opening> {
        let (past_journal, large_journal) = (arguments.has("--without-journal"), arguments.has("--large-journal"));
        Ok(Opening { purpose: Use::Reading, wait: waits(arguments)?, past_journal, large_journal })
    }

    pub fn writing(arguments: &Arguments) -> Done<Opening> {
        Ok(Opening { purpose: Use::Writing, wait: waits(arguments)?, past_journal: false, large_journal: false })
    }

    /// The same, with whatever journal there is left to the caller.
    pub fn past_journal(self) -> Opening {
        Opening { past_journal: true, ..self }
    }

    /// The same, to read.
    pub fn to_read(self) -> Opening {
        Opening { purpose: Use::Reading, ..self }
    }
}

fn waits(arguments: &Arguments) -> Done<Option<Duration>> {
    Ok(arguments.number("--wait")?.map(Duration::from_secs))
}

/// A folder that this program has locked.
pub struct Folder {
    /// Its name in messages.
    pub path: PathBuf,
    pub handle: File,
    pub lock: Lock,
    files: [Option<Rc<Plain>>; OF_REGISTERS],
    /// A change that was left unfinished, and is read as done.
    left: Option<Left>,
    access: Access,
}

impl Folder {
    /// Opens and locks a folder. A change that was left over is finished where it is to be written, and read as done where it is not.
    pub fn open(path: &Path, opening: Opening) -> Done<Folder> {
        let mut patience = Patience::new(path, opening.wait);
        loop {
            let handle = below::folder(path).map_err(|error| match error.kind() {
                io::ErrorKind::NotADirectory => Trouble::File(format!("{}: a file, and no folder of an archive", path.display())),
                _ => at_file(path, error),
            })?;
            let Some(lock) = Lock::take(path, &handle, opening.purpose, &mut patience)? else { continue };
            let access = opening.purpose.access();
            let mut folder = Folder { path: path.to_owned(), handle, lock, files: Default::default(), left: None, access };
            if folder.ready(opening, &mut patience)? {
                return Ok(folder);
            }
        }
    }

    /// Opens the files, and sees to a journal. False where that took a while, or changed them, so that all must be looked at again.
    fn ready(&mut self, opening: Opening, patience: &mut Patience) -> Done<bool> {
        let found = match opening.past_journal {
            true => Found::None,
            false => Found::open(&self.path, &self.handle, opening.purpose, patience)?,
        };
        let journal = match found {
            Found::None => None,
            Found::Gone => return Ok(false),
            Found::Journal(journal) => Some(journal),
        };
        if opening.purpose == Use::Writing {
            commit::drop_begun(self);
        }
        for (number, file) in self.files.iter_mut().enumerate() {
            *file = below::open(&self.handle, FILES[number], self.access)
                .map_err(|error| in_file(&self.path, FILES[number], error))?
                .map(Rc::new);
        }
        let Some(journal) = journal else { return Ok(true) };
        let left = Left::checked(&self.path, journal)?;
        left.belongs(self)?;
        if opening.purpose == Use::Writing {
            commit::settle(self, &left)?;
            return Ok(false);
        }
        left.bear(opening.large_journal)?;
        self.left = Some(left);
        Ok(true)
    }

    /// The name of a file in messages.
    pub fn file(&self, name: &str) -> PathBuf {
        self.path.join(name)
    }

    pub fn trouble(&self, name: &str, error: io::Error) -> Trouble {
        in_file(&self.path, name, error)
    }

    /// A file of the archive as it lies there; nothing where there is none.
    pub fn plain(&self, number: usize) -> Done<Option<Rc<Plain>>> {
        match self.files.get(number) {
            Some(file) => Ok(file.clone()),
            None => {
                let found = below::open(&self.handle, FILES[number], self.access).map_err(|error| self.trouble(FILES[number], error))?;
                Ok(found.map(Rc::new))
            }
        }
    }

    /// A file's length, with what was left over done; nothing where there is no such file.
    pub fn length(&self, number: usize) -> Done<Option<u64>> {
        match &self.left {
            Some(left) => Ok(left.lengths(number)[1]),
            None => Ok(self.plain(number)?.map(|plain| plain.about.length)),
        }
    }

    /// The length that a file has on the disk at this moment; nothing where there is none.
    pub fn now(&self, number: usize) -> io::Result<Option<u64>> {
        Ok(below::look(&self.handle, FILES[number])?.map(|about| about.length))
    }

    /// Whether there is a journal, of whatever kind.
    pub fn is_unfinished(&self) -> Done<bool> {
        below::look(&self.handle, NAME).map(|found| found.is_some()).map_err(|error| self.trouble(NAME, error))
    }

    /// Whether anything of an archive is there.
    pub fn is_used(&self) -> Done<bool> {
        for name in FILES.iter().chain(&[NAME]) {
            if below::look(&self.handle, name).map_err(|error| self.trouble(name, error))?.is_some() {
                return Ok(true);
            }
        }
        Ok(false)
    }

    /// The 32 bytes of a public key; nothing where there is no such file.
    pub fn key(&self, number: usize) -> Done<Option<[u8; 32]>> {
        let Some(length) = self.length(number)? else { return Ok(None) };
        let image = self.image(number, length)?;
        let wrong = || Trouble::File(format!("{}: 32 bytes are needed, and it has {length}", self.file(FILES[number]).display()));
        image.as_ref().try_into().map(Some).map_err(|_| wrong())
    }

    /// n, s and the data size, from the lengths of a register's files.
    pub fn count(&self, which: Which) -> Done<Counts> {
        let mut lengths = [None; 4];
        for (kind, length) in lengths.iter_mut().enumerate() {
            *length = self.length(which.first_file() + kind)?;
        }
        Counts::of(&self.path, which, lengths)
    }

    /// A file to be read, with what was left over done.
    fn image(&self, number: usize, length: u64) -> Done<Image> {
        let placed = Image::to_read(self.plain(number)?, length).map_err(|error| self.trouble(FILES[number], error))?;
        match &self.left {
            Some(left) => left.applied(number, placed).map_err(|error| self.trouble(FILES[number], error)),
            None => Ok(placed),
        }
    }

    /// A register to be read.
    pub fn to_read(&self, which: Which) -> Done<Images> {
        let counts = self.count(which)?;
        let images = images(which, counts, |kind, number| self.image(number, counts.lengths[kind]))?;
        Ok(Images(kept(images, counts)))
    }

    /// A file to be written, with room up to this length.
    pub fn image_to_write(&self, number: usize, room: u64) -> Done<Image> {
        Image::to_write(self.plain(number)?, room).map_err(|error| self.trouble(FILES[number], error))
    }

    /// A register to be written, which does not grow.
    pub fn to_write(&self, which: Which) -> Done<Kept> {
        let counts = self.count(which)?;
        Ok(kept(images(which, counts, |_, number| self.image_to_write(number, 0))?, counts))
    }

    /// A whole register to be written, with room up to these lengths.
    pub fn to_grow(&self, which: Which, counts: Counts, room: [u64; 4]) -> Done<Store<Image>> {
        match kept(images(which, counts, |kind, number| self.image_to_write(number, room[kind]))?, counts) {
            Kept::Whole(store) => Ok(store),
            Kept::Copy(_) => Err(only_whole(&format!("{}: {}", self.path.display(), which.name()))),
        }
    }
}

fn images(which: Which, counts: Counts, place: impl Fn(usize, usize) -> Done<Image>) -> Done<Vec<Image>> {
    kinds(counts.s.is_some()).iter().map(|kind| place(*kind, which.first_file() + kind)).collect()
}

/// The images of a register's files, in their order.
fn kept(images: Vec<Image>, counts: Counts) -> Kept {
    let Counts { n, s, size, .. } = counts;
    let mut images = images.into_iter();
    let mut next = || images.next().expect("an image for each file");
    match s {
        Some(s) => Kept::Whole(Store { tree: next(), signatures: next(), bitfield: next(), data: next(), n, s, size }),
        None => Kept::Copy(CopyStore { tree: next(), bitfield: next(), data: next(), n, size }),
    }
}

/// A register that is read only.
pub struct Images(Kept);

impl Images {
    pub fn lent(&self) -> Lent<'_> {
        self.0.lent()
    }

    /// Makes a part of the data this process's own; a part that was is given up.
    pub fn own(&mut self, before: Range<u64>, part: Range<u64>) -> io::Result<()> {
        let data = match &mut self.0 {
            Kept::Whole(store) => &mut store.data,
            Kept::Copy(store) => &mut store.data,
        };
        data.give_up(before.start as usize, (before.end - before.start) as usize);
        data.own(part.start as usize, (part.end - part.start) as usize)
    }
}

impl Images {
    /// Gives up the pages that were come to, those of the data where that is told.
    pub fn give_up_pages(&self, of_data: bool) {
        let (images, signatures, data) = match &self.0 {
            Kept::Whole(store) => ([&store.tree, &store.bitfield], Some(&store.signatures), &store.data),
            Kept::Copy(store) => ([&store.tree, &store.bitfield], None, &store.data),
        };
        images.into_iter().chain(signatures).chain(of_data.then_some(data)).for_each(Image::give_up_all);
    }
}

/// A register of zeros in memory alone, with room for the headers.
pub fn unmade() -> io::Result<Store<Image>> {
    let room = |length| Image::to_write(None, length);
    Ok(Store { tree: room(HEADER)?, signatures: room(HEADER)?, bitfield: room(HEADER)?, data: room(0)?, n: 0, s: 0, size: 0 })
}

/// A copy of zeros in memory alone, with room for so many chunks and bytes.
pub fn unmade_copy(n: u64, size: u64) -> io::Result<CopyStore<Image>> {
    let [tree, _, bitfield, data] = used_sizes(n, 0, size);
    Ok(CopyStore { tree: Image::to_write(None, tree)?, bitfield: Image::to_write(None, bitfield)?, data: Image::of_zeros(data)?, n, size })
}
