//! A change made wholly or not at all: no byte and no length of an archive's file changes before all changes of both registers stand in one journal that is
//! synced, with its entry in the folder. Then they are made, synced, and the journal is removed. It is written under another name, and gets its own when
//! all of it is synced. A writer that finds a journal finishes it, again if need be; a file of the other name, of which nothing was applied, is dropped.
use crate::below::{self, Access, Plain};
use crate::changes::{Change, Witnesses};
use crate::counts::FILES;
use crate::disk;
use crate::folder::Folder;
use crate::journal_calls::{self as calls, Given, Kind, Wrong};
use crate::left_over::{Left, MOST_BYTES, MOST_RANGES, NAME};
use crate::memory::Ready;
use crate::windows::WINDOW;
use crate::words::{said, Done, Trouble};
use std::collections::BTreeMap;
use std::fs::{File, Permissions};
use std::io;
use std::os::unix::fs::{FileExt, PermissionsExt};
use std::rc::Rc;
use std::thread::Builder;

/// The journal's name until all of it is synced.
pub const UNSYNCED: &str = "sleep-archive.journal.new";

/// An empty file with room behind it on the disk: a release on a full disk writes its journal there.
pub const ROOM: &str = "sleep-archive.room";
const KEPT_ROOM: u64 = 65536;

/// So many bytes are written at once. For longer writes the system takes longer runs of free memory, which a virtual machine's host may have taken back:
/// then it has to bring them again, which takes longer than the write.
const AT_ONCE: usize = 256 << 10;

/// The disk begins with a journal after so many bytes of it.
const TO_BEGIN: usize = 8 << 20;

/// A journal that is written while its end is made, and the first bytes of it, among which the end writes.
const LONG: usize = 8 << 20;
const FIRST: usize = 4096;

/// A file that this user alone can see, until it is given the rights that the archive's files have.
const PRIVATE: u32 = 0o600;
const USUAL: u32 = 0o666;

/// Where the room for a journal comes from.
#[derive(Clone, Copy, PartialEq, Eq)]
pub enum Room {
    Free,
    /// From what is kept, where the disk is full: the change itself makes room.
    Kept,
}

/// Something that failed at a file of the archive.
struct Failed {
    name: &'static str,
    error: io::Error,
}

fn at(name: &'static str) -> impl Fn(io::Error) -> Failed {
    move |error| Failed { name, error }
}

impl Failed {
    fn told(&self, folder: &Folder, what: &str) -> Trouble {
        Trouble::File(format!("{}: {}; {what}", folder.file(self.name).display(), said(&self.error)))
    }
}

/// Makes all changes, or none of them.
pub fn commit(folder: &Folder, changes: Vec<Change>, room: Room) -> Done<()> {
    commit_from(folder, changes, room, || ())
}

/// The same; once the journal has the changes in memory, they may be let go where they came from.
pub fn commit_from(folder: &Folder, changes: Vec<Change>, room: Room, let_go: impl FnOnce()) -> Done<()> {
    if changes.is_empty() {
        return Ok(());
    }
    let numbers = changes.iter().map(|change| change.number).collect::<Vec<_>>();
    numbers.iter().try_for_each(|number| unshared(folder, *number))?;
    let not_begun = |failed: Failed| {
        give_back(folder, &numbers);
        failed.told(folder, "nothing is changed")
    };
    let ((mut bytes, end), mode) = (encoded(folder, changes)?, mode(folder)?);
    let_go();
    let is_long = bytes.len() >= LONG && room == Room::Free;
    if !is_long {
        calls::end(&mut bytes, end).map_err(|wrong| refused(folder, wrong))?;
    }
    let ranges = calls::ranges(&bytes).collect::<Vec<_>>();
    reserve(folder, &ranges).map_err(not_begun)?;
    let journal = match is_long {
        true => ended(folder, &mut bytes, end, mode).inspect_err(|_| give_back(folder, &numbers))?,
        false => written_down(folder, &bytes, mode, room).map_err(not_begun)?,
    };
    if let Err(error) = folder.handle.sync_all() {
        return Err(taken_back(folder, &numbers, &error));
    }
    finish(folder, Down { bytes: &bytes, ranges: &ranges, in_windows: false })?;
    drop(journal);
    keep_room(folder);
    Ok(())
}

/// A file that has several names, in a backup perhaps, is not written.
fn unshared(folder: &Folder, number: usize) -> Done<()> {
    match folder.plain(number)? {
        Some(file) if file.about.names > 1 => {
            let (name, path) = (FILES[number], folder.path.display());
            Err(Trouble::File(format!(
                "{path}/{name}: the file has {} names, as where a backup shares it, so it is read and not written; nothing is changed. A file of its own: \
                 (cd {path} && cp -p {name} {name}.own && mv {name}.own {name})",
                file.about.names
            )))
        }
        _ => Ok(()),
    }
}

/// Room on the disk for every byte that will be written into files that are there. Their bytes and lengths stay.
fn reserve(folder: &Folder, ranges: &[calls::Range]) -> Result<(), Failed> {
    for range in ranges.iter().filter(|range| matches!(range.kind, Kind::Replaced | Kind::Fresh)) {
        if let Ok(Some(plain)) = folder.plain(range.file) {
            disk::reserve(&plain.file, range.offset, range.length).map_err(at(FILES[range.file]))?;
        }
    }
    Ok(())
}

/// Gives reserved room back: a file that gets the length it has loses what was reserved behind it. Where that fails, the next change uses it.
fn give_back(folder: &Folder, numbers: &[usize]) {
    for number in numbers {
        if let Ok(Some(plain)) = folder.plain(*number) {
            let _ = plain.file.set_len(plain.about.length);
        }
    }
}

/// The rights of a journal: no more than each file of the archive has, whose bytes it may hold; nothing where there is none yet.
fn mode(folder: &Folder) -> Done<Option<u32>> {
    let mut all = None;
    for number in 0..FILES.len() {
        if let Some(file) = folder.plain(number)? {
            all = Some(all.unwrap_or(0o777) & file.about.mode & 0o777);
        }
    }
    Ok(all)
}

/// The bytes of the journal: the states of all ten files, the changes, and the witnesses; and where its end comes, which is not made yet.
fn encoded(folder: &Folder, changes: Vec<Change>) -> Done<(Vec<u8>, u64)> {
    let witnesses = Witnesses::of(folder)?;
    let mut states = [0; 20];
    for number in 0..FILES.len() {
        states[2 * number] = calls::state(folder.plain(number)?.map(|file| file.about.length));
        states[2 * number + 1] = states[2 * number];
    }
    let mut by_file: BTreeMap<usize, Vec<Given>> = (0..FILES.len()).map(|number| (number, Vec::new())).collect();
    for change in changes {
        states[2 * change.number] = calls::state(change.old);
        states[2 * change.number + 1] = calls::state(Some(change.length));
        by_file.insert(change.number, change.ranges);
    }
    let ranges =
        by_file.into_iter().flat_map(|(number, ranges)| witnesses.beside(number, ranges).into_iter().map(move |range| (number, range)));
    put_down(&states, &ranges.collect::<Vec<_>>()).map_err(|wrong| refused(folder, wrong))
}

fn put_down(states: &[u64; 20], ranges: &[(usize, Given)]) -> Result<(Vec<u8>, u64), Wrong> {
    let length = calls::BESIDE + ranges.iter().map(|(_, range)| range.takes()).sum::<u64>();
    if length > MOST_BYTES || ranges.len() > MOST_RANGES {
        return Err(Wrong::Length);
    }
    let mut bytes = vec![0; length as usize];
    let half = bytes.len() / 2;
    let _ready = Ready::start(bytes[half..].as_mut_ptr(), half);
    let mut place = calls::begin(&mut bytes, states)?;
    for (number, range) in ranges {
        place = calls::put(&mut bytes, place, *number, range)?;
    }
    Ok((bytes, place))
}

fn refused(folder: &Folder, wrong: Wrong) -> Trouble {
    let why = match wrong {
        Wrong::Length => "the change is too large for one journal: fewer pieces at once".to_string(),
        Wrong::State(file) => format!("{} has a length that no register's file has", FILES[file as usize % FILES.len()]),
        other => format!("no journal can be made ({other:?})"),
    };
    Trouble::File(format!("{}: {why}; nothing is changed", folder.path.display()))
}

/// A long journal is written while its end is made, which goes over all of it and writes its length, among the first bytes, and its hash alone. These come
/// when the end is made.
fn ended(folder: &Folder, bytes: &mut [u8], end: u64, mode: Option<u32>) -> Done<File> {
    let told = |failed: Failed| failed.told(folder, "nothing is changed");
    let file = fresh(folder, mode).inspect_err(|_| drop_new(folder)).map_err(told)?;
    let (start, middle) = (bytes.as_ptr() as usize, FIRST..end as usize);
    let write = || put_parts(&file, unsafe { std::slice::from_raw_parts((start + FIRST) as *const u8, middle.len()) }, FIRST);
    let (made, written) = std::thread::scope(|scope| {
        let writer = Builder::new().spawn_scoped(scope, write);
        let made = calls::end(bytes, end).map_err(|wrong| refused(folder, wrong));
        // where the system gives no thread, it is written now
        (made, writer.map_or_else(|_| write(), |writer| writer.join().expect("it does not panic")))
    });
    let rest = || put_parts(&file, &bytes[..middle.start], 0).and_then(|()| put_parts(&file, &bytes[middle.end..], middle.end));
    let written = written.and_then(|()| rest()).map_err(at(UNSYNCED));
    let synced = made.and_then(|_| written.and_then(|()| synced(folder, &file, bytes.len(), mode)).map_err(told));
    synced.inspect_err(|_| drop_new(folder))?;
    Ok(file)
}

fn drop_new(folder: &Folder) {
    let _ = below::remove(&folder.handle, UNSYNCED); // where it stays, the next change drops it
}

/// The journal on the disk, synced, and then under its name. A change that makes room takes what is kept where the disk has none.
fn written_down(folder: &Folder, bytes: &[u8], mode: Option<u32>, room: Room) -> Result<File, Failed> {
    let whole = |file: File| {
        put_parts(&file, bytes, 0).map_err(at(UNSYNCED))?;
        synced(folder, &file, bytes.len(), mode)?;
        Ok(file)
    };
    let written = fresh(folder, mode).and_then(whole).inspect_err(|_| drop_new(folder));
    match written {
        Err(failed) if room == Room::Kept && failed.error.kind() == io::ErrorKind::StorageFull => {
            if bytes.len() as u64 > KEPT_ROOM {
                return Err(at(UNSYNCED)(io::Error::other(
                    "no space left on device, and the room that is kept is for fewer pieces at once",
                )));
            }
            let written = kept_room(folder).and_then(whole).inspect_err(|_| drop_new(folder));
            written.inspect_err(|_| keep_room(folder))
        }
        other => other,
    }
}

/// Writes bytes of a journal from a place on.
fn put_parts(file: &File, bytes: &[u8], from: usize) -> io::Result<()> {
    for (number, part) in bytes.chunks(TO_BEGIN).enumerate() {
        write_parts(file, part, (from + number * TO_BEGIN) as u64)?;
        disk::begin(file, part.len() as u64);
    }
    Ok(())
}

fn write_parts(file: &File, bytes: &[u8], offset: u64) -> io::Result<()> {
    bytes.chunks(AT_ONCE).zip((offset..).step_by(AT_ONCE)).try_for_each(|(part, offset)| file.write_all_at(part, offset))
}

/// Syncs a journal that is written, and gives it its name.
fn synced(folder: &Folder, file: &File, length: usize, mode: Option<u32>) -> Result<(), Failed> {
    if let Some(mode) = mode {
        file.set_permissions(Permissions::from_mode(mode)).map_err(at(UNSYNCED))?;
    }
    file.sync_all().map_err(at(UNSYNCED))?;
    disk::forget(file, length as u64);
    below::rename(&folder.handle, UNSYNCED, NAME).map_err(at(NAME))
}

/// A journal's file that was not there. It is locked: whoever makes an archive has no other lock, and waits here for another who does.
fn fresh(folder: &Folder, mode: Option<u32>) -> Result<File, Failed> {
    loop {
        let file = match below::create(&folder.handle, UNSYNCED, if mode.is_some() { PRIVATE } else { USUAL }) {
            Ok(file) => file,
            Err(error) if error.kind() == io::ErrorKind::AlreadyExists => {
                drop_unsynced(folder)?;
                continue;
            }
            Err(error) => return Err(at(UNSYNCED)(error)),
        };
        if mode.is_some() {
            return Ok(file);
        }
        file.lock().map_err(at(UNSYNCED))?;
        let (now, mine) = (below::look(&folder.handle, UNSYNCED).map_err(at(UNSYNCED))?, below::about(&file).map_err(at(UNSYNCED))?);
        match now {
            Some(now) if now.identity == mine.identity => {}
            _ => continue,
        }
        if folder.is_used().unwrap_or(true) {
            return Err(at(NAME)(io::Error::other("another program made an archive here meanwhile")));
        }
        return Ok(file);
    }
}

/// Drops what another run left of a journal before all of it was synced. Nothing of it was applied. Where that run still makes an archive, it is waited for.
fn drop_unsynced(folder: &Folder) -> Result<(), Failed> {
    if let Some(plain) = below::open(&folder.handle, UNSYNCED, Access::Writing).map_err(at(UNSYNCED))? {
        plain.file.lock().map_err(at(UNSYNCED))?;
        let now = below::look(&folder.handle, UNSYNCED).map_err(at(UNSYNCED))?;
        if now.is_none_or(|now| now.identity != plain.about.identity) {
            return Ok(());
        }
        return below::remove(&folder.handle, UNSYNCED).map_err(at(UNSYNCED));
    }
    Ok(())
}

/// Drops a journal that was not synced, where the archive's lock says that nobody writes it. Where an archive is being made, `drop_unsynced` does.
pub fn drop_begun(folder: &Folder) {
    if folder.lock.is_of_files() {
        let _ = below::remove(&folder.handle, UNSYNCED);
    }
}

/// The room that is kept, under the journal's first name.
fn kept_room(folder: &Folder) -> Result<File, Failed> {
    let full = || io::Error::from(io::ErrorKind::StorageFull);
    let kept = below::open(&folder.handle, ROOM, Access::Writing).map_err(at(ROOM))?;
    let kept = kept.filter(|kept| kept.about.names == 1 && kept.about.length == 0).ok_or_else(|| at(UNSYNCED)(full()))?;
    below::rename(&folder.handle, ROOM, UNSYNCED).map_err(at(ROOM))?;
    Ok(kept.file)
}

/// Keeps room for the journal of a later release. Where there is none, or the file system can't promise it, nothing is lost.
fn keep_room(folder: &Folder) {
    if let Ok(None) = below::look(&folder.handle, ROOM) {
        let kept = below::create(&folder.handle, ROOM, PRIVATE).and_then(|file| disk::reserve(&file, 0, KEPT_ROOM));
        if kept.is_err() {
            let _ = below::remove(&folder.handle, ROOM);
        }
    }
}

/// Removes a journal whose entry in the folder can't be synced, and says what is known then.
fn taken_back(folder: &Folder, numbers: &[usize], error: &io::Error) -> Trouble {
    let known = match below::remove(&folder.handle, NAME).map(|()| folder.handle.sync_all()) {
        Ok(Ok(())) => {
            give_back(folder, numbers);
            "nothing is changed"
        }
        Ok(Err(_)) => "nothing is changed; but after a loss of power the change may be there",
        Err(_) => UNFINISHED,
    };
    Trouble::File(format!("{}: {}; {known}", folder.path.display(), said(error)))
}

const UNFINISHED: &str = "the change is written down in sleep-archive.journal and not yet made: the next command that writes finishes it";

/// The bytes of a journal that stands on the disk. Those in windows are copied before the system is handed them: it can't read what a fault would bring.
#[derive(Clone, Copy)]
pub struct Down<'a> {
    pub bytes: &'a [u8],
    pub ranges: &'a [calls::Range],
    pub in_windows: bool,
}

impl Down<'_> {
    fn write(&self, file: &File, range: &calls::Range) -> io::Result<()> {
        let bytes = range.bytes(self.bytes);
        if !self.in_windows {
            return write_parts(file, bytes, range.offset);
        }
        let (mut copy, mut offset) = (vec![0; bytes.len().min(WINDOW)], range.offset);
        for part in bytes.chunks(WINDOW) {
            copy[..part.len()].copy_from_slice(part);
            file.write_all_at(&copy[..part.len()], offset)?;
            offset += part.len() as u64;
        }
        Ok(())
    }
}

/// Applies a whole journal that is synced, and removes it.
fn finish(folder: &Folder, journal: Down) -> Done<()> {
    apply(folder, journal).map_err(|failed| failed.told(folder, UNFINISHED))?;
    let unfinished = |error: io::Error| Failed { name: NAME, error }.told(folder, UNFINISHED);
    folder.handle.sync_all().map_err(unfinished)?;
    below::remove(&folder.handle, NAME).map_err(unfinished)?;
    folder
        .handle
        .sync_all()
        .map_err(|error| Failed { name: NAME, error }.told(folder, "the change is made; whether it outlives a loss of power is not sure"))
}

/// Writes what a journal holds: in each file its new length and its ranges. All are written, and the disk begins, before the first is waited for.
fn apply(folder: &Folder, journal: Down) -> Result<(), Failed> {
    let (mut rest, mut written) = (journal.ranges, Vec::new());
    for (number, name) in FILES.into_iter().enumerate() {
        let (own, others) = rest.split_at(rest.partition_point(|range| range.file <= number));
        rest = others;
        let broken = |_| at(NAME)(io::Error::other("it can't be read again"));
        let [old, new] = calls::lengths(journal.bytes, number).map_err(broken)?;
        if let (Some(new), true) = (new, old != new || own.iter().any(|range| range.kind != Kind::Witness)) {
            written.push((name, write(folder, number, new, own, journal).map_err(at(name))?));
        }
    }
    written.iter().try_for_each(|(name, written)| written.file().sync_all().map_err(at(name)))
}

/// A file that was written, and is to be synced: one that was there, or one that was made.
enum Written {
    There(Rc<Plain>),
    Made(File),
}

impl Written {
    fn file(&self) -> &File {
        match self {
            Written::There(plain) => &plain.file,
            Written::Made(file) => file,
        }
    }
}

/// Writes into one file.
fn write(folder: &Folder, number: usize, length: u64, ranges: &[calls::Range], journal: Down) -> io::Result<Written> {
    let there = folder.plain(number).map_err(|trouble| io::Error::other(trouble.words().to_string()))?;
    let (written, before) = match there {
        None => (Written::Made(below::create(&folder.handle, FILES[number], USUAL)?), 0),
        Some(plain) => (Written::There(Rc::clone(&plain)), plain.about.length),
    };
    let file = written.file();
    if before != length {
        file.set_len(length)?;
    }
    for range in ranges {
        match range.kind {
            Kind::Witness => {}
            Kind::Zeros if before <= range.offset => {}
            Kind::Zeros => disk::clear(file, range.offset, range.length)?,
            Kind::Replaced | Kind::Fresh => journal.write(file, range)?,
        }
    }
    disk::begin(file, ranges.iter().map(|range| range.length).sum());
    Ok(written)
}

/// Finishes a journal that another run left, whose files are all between. Its entry in the folder is synced first, since that run may have ended before it.
pub fn settle(folder: &Folder, left: &Left) -> Done<()> {
    let mut written = [false; FILES.len()];
    for range in left.ranges().iter().filter(|range| range.kind != Kind::Witness) {
        written[range.file] = true;
    }
    for (number, written) in written.into_iter().enumerate() {
        let [old, new] = left.lengths(number);
        if old != new || written {
            unshared(folder, number)?;
        }
    }
    folder.handle.sync_all().map_err(|error| folder.trouble(NAME, error))?;
    finish(folder, left.down())
}
