//! A file of an archive in memory: its bytes, mapped and private, and zeros behind them as room to grow. Nothing that is written here reaches the file.
//!
//! Pages of the file can be read and not written. The first write to one is a fault, whose handler notes the block of pages around it and lets it be
//! written. So a page that is not noted has not been written, whatever a call does, and the noted ones can be compared with the file byte by byte.
//!
//! The system gives a process some 65,530 mappings, and every block that can be written among those that can't takes two. So blocks become larger as they
//! become many: of 64 GiB there are never more than some 12,000.
use crate::below::Plain;
use crate::memory::{self, Bytes, Ready};
use crate::signals;
use crate::windows;
use std::cell::OnceCell;
use std::io;
use std::rc::Rc;
use std::sync::atomic::{AtomicPtr, AtomicUsize, Ordering::SeqCst};
use std::sync::Once;

/// At most this many images can be written at the same time: four of each register.
const WATCHED: usize = 8;

/// The pages of the first blocks; after each `BLOCKS` of them blocks have four times as many.
const BLOCK: usize = 16;
const BLOCKS: usize = 2048;

/// Bytes of a file whose pages are given up.
const MANY: usize = 1 << 20;

/// How many pages the block of the next fault has, behind so many others.
fn block(others: usize) -> usize {
    BLOCK << (2 * (others / BLOCKS)).min(32)
}

/// Pages whose first write is to be noted. `notes` has room for a block at every page: the number of its first page. Its size follows from its place.
struct Watch {
    from: AtomicUsize,
    to: AtomicUsize,
    notes: AtomicPtr<usize>,
    noted: AtomicUsize,
}

static WATCHES: [Watch; WATCHED] = [const {
    Watch { from: AtomicUsize::new(0), to: AtomicUsize::new(0), notes: AtomicPtr::new(std::ptr::null_mut()), noted: AtomicUsize::new(0) }
}; WATCHED];

extern "C" fn first_write(signal: i32, information: *const u8, _: *const u8) {
    let met = unsafe { signals::address_met(information) };
    if windows::met(met) {
        return;
    }
    let Some(watch) = WATCHES.iter().find(|watch| (watch.from.load(SeqCst)..watch.to.load(SeqCst)).contains(&met)) else {
        signals::by_default(signal); // no page of ours: the same fault again ends the program
        return;
    };
    let (from, to) = (watch.from.load(SeqCst), watch.to.load(SeqCst));
    let noted = watch.noted.fetch_add(1, SeqCst);
    let number = (met - from) / memory::page() / block(noted) * block(noted);
    unsafe { watch.notes.load(SeqCst).add(noted).write(number) };
    let start = from + number * memory::page();
    if !memory::let_write(start as *mut u8, (block(noted) * memory::page()).min(to - start)) {
        signals::end_at_once(2, b"sleep-archive: no memory for the change; nothing is changed\n");
    }
}

extern "C" fn lost_page(_: i32, _: *const u8, _: *const u8) {
    signals::end_at_once(2, b"sleep-archive: a file of the archive can't be read: it was cut short meanwhile, or the disk fails\n");
}

/// From here on a mapped file that is cut short meanwhile is told in words.
pub fn set_handlers() {
    static SET: Once = Once::new();
    SET.call_once(|| signals::on_faults(first_write, lost_page));
}

pub struct Image {
    start: *mut u8,
    mapped: usize,
    /// The bytes that are lent.
    length: usize,
    /// The bytes that the file has.
    old: usize,
    file: Option<Rc<Plain>>,
    before: OnceCell<Bytes>,
    watch: Option<&'static Watch>,
    /// Other bytes than the file's were written here by `written` or `cleared`.
    altered: bool,
}

impl Image {
    /// The bytes of a file, and zeros behind them up to `length`; none of them is written but by `written` and `cleared`.
    pub fn to_read(file: Option<Rc<Plain>>, length: u64) -> io::Result<Image> {
        Image::placed(file, length)
    }

    /// The bytes of a file, and zeros up to `length`, all of which may be written. Without a file all are zeros.
    pub fn to_write(file: Option<Rc<Plain>>, length: u64) -> io::Result<Image> {
        let mut image = Image::placed(file, length)?;
        if image.old > 0 {
            image.watch()?;
        }
        Ok(image)
    }

    /// Has the first bytes behind the file's ready to be written, as long as what is given back lasts, which is no longer than the image.
    pub fn ready(&self, length: u64) -> Ready {
        let filled = memory::whole_pages(self.old);
        Ready::start(self.start.wrapping_add(filled), (self.mapped - filled).min(length as usize))
    }

    /// Gives the memory behind the file's bytes back: what was written there is gone.
    pub fn let_go(&self) {
        let filled = memory::whole_pages(self.old);
        memory::give_up(self.start.wrapping_add(filled), self.mapped - filled);
    }

    /// Zeros that a call may write as zeros, and as nothing else: a large part is one run of memory in many places.
    pub fn of_zeros(length: u64) -> io::Result<Image> {
        let image = Image::placed(None, length)?;
        memory::place_zeros(image.start, image.mapped)?;
        Ok(image)
    }

    fn placed(file: Option<Rc<Plain>>, length: u64) -> io::Result<Image> {
        set_handlers();
        let too_long = |_| io::Error::other("the file is too long for this machine");
        let old = usize::try_from(file.as_ref().map_or(0, |file| file.about.length)).map_err(too_long)?;
        let length = usize::try_from(length).map_err(too_long)?.max(old);
        let mapped = memory::whole_pages(length.max(1));
        let start = memory::addresses(mapped)?;
        let image = Image { start, mapped, length, old, file, before: OnceCell::new(), watch: None, altered: false };
        let filled = memory::whole_pages(old);
        if let (Some(file), true) = (&image.file, old > 0) {
            memory::place_file(start, filled, &file.file)?;
        }
        if filled < mapped {
            memory::place_room(start.wrapping_add(filled), mapped - filled)?;
        }
        Ok(image)
    }

    fn watch(&mut self) -> io::Result<()> {
        let pages = memory::whole_pages(self.old) / memory::page();
        let notes = memory::whole_pages(pages * size_of::<usize>());
        let room = memory::addresses(notes)?;
        memory::place_room(room, notes)?;
        let watch = WATCHES.iter().find(|watch| watch.notes.load(SeqCst).is_null()).ok_or_else(|| io::Error::other("too many images"))?;
        watch.notes.store(room.cast(), SeqCst);
        watch.noted.store(0, SeqCst);
        watch.from.store(self.start as usize, SeqCst);
        watch.to.store(self.start as usize + pages * memory::page(), SeqCst);
        self.watch = Some(watch);
        Ok(())
    }

    /// The places of the file that can have been written, from the lowest: whole blocks of pages, up to the file's end.
    pub fn noted(&self) -> Vec<std::ops::Range<usize>> {
        let Some(watch) = self.watch else { return Vec::new() };
        let noted = unsafe { std::slice::from_raw_parts(watch.notes.load(SeqCst), watch.noted.load(SeqCst)) };
        let place = |page: usize| self.old.min(page * memory::page());
        let mut blocks = noted.iter().enumerate().map(|(at, first)| (place(*first), place(first + block(at)))).collect::<Vec<_>>();
        blocks.sort_unstable();
        let mut places = Vec::<std::ops::Range<usize>>::new();
        for (from, to) in blocks {
            match places.last_mut() {
                Some(last) if from <= last.end => last.end = last.end.max(to),
                _ => places.push(from..to),
            }
        }
        places
    }

    pub fn file(&self) -> Option<&Rc<Plain>> {
        self.file.as_ref()
    }

    /// The bytes that the file has, whatever was written here.
    pub fn before(&self) -> io::Result<&[u8]> {
        if let (None, Some(plain)) = (self.before.get(), &self.file) {
            let _ = self.before.set(Bytes::of(&plain.file, self.old as u64)?);
        }
        Ok(self.before.get().map_or(&[], |bytes| bytes.as_ref()))
    }

    fn pages_of(&self, offset: usize, length: usize) -> (usize, usize) {
        let from = offset / memory::page() * memory::page();
        (from, memory::whole_pages(offset + length) - from)
    }

    /// Lets a part be written; what is written stays in this process.
    fn opened(&mut self, offset: usize, length: usize) -> io::Result<&mut [u8]> {
        let (from, pages) = self.pages_of(offset, length);
        if length > 0 && !memory::let_write(self.start.wrapping_add(from), pages) {
            return Err(io::Error::last_os_error());
        }
        Ok(&mut self.as_mut()[offset..offset + length])
    }

    /// Bytes in the place of others.
    pub fn written(&mut self, offset: usize, bytes: &[u8]) -> io::Result<()> {
        self.altered = true;
        self.opened(offset, bytes.len())?.copy_from_slice(bytes);
        Ok(())
    }

    /// Zeros in the place of others. Many take no memory.
    pub fn cleared(&mut self, offset: usize, length: usize) -> io::Result<()> {
        self.altered = true;
        let (from, to) = (memory::whole_pages(offset), (offset + length) / memory::page() * memory::page());
        if to < from + memory::page() {
            self.opened(offset, length)?.fill(0);
            return Ok(());
        }
        self.opened(offset, from - offset)?.fill(0);
        self.opened(to, offset + length - to)?.fill(0);
        memory::place_room(self.start.wrapping_add(from), to - from)
    }

    /// Makes a part this process's own, so that another program which writes the file can't change it from now on.
    pub fn own(&mut self, offset: usize, length: usize) -> io::Result<()> {
        for page in self.opened(offset, length)?.chunks_mut(memory::page()) {
            let (first, last) = (page.as_mut_ptr(), page.len() - 1);
            // A write of what is there makes the page private; the two ends of a part are on two pages at most.
            unsafe {
                first.write_volatile(first.read_volatile());
                first.add(last).write_volatile(first.add(last).read_volatile());
            }
        }
        Ok(())
    }
}

impl Image {
    /// Gives up the pages of a part that are as the file has them: bytes that were written there again take no memory then.
    pub fn give_up_same(&mut self, part: std::ops::Range<usize>) -> io::Result<()> {
        let (page, before) = (memory::page(), self.before()?);
        let pages = part.start / page..part.end.min(self.old) / page;
        for at in pages.map(|number| number * page) {
            if self.as_ref()[at..at + page] == before[at..at + page] {
                memory::give_up(self.start.wrapping_add(at), page);
            }
        }
        Ok(())
    }

    /// Gives up all pages of a file that is only read, where they are many; they are mapped again where they are needed.
    pub fn give_up_all(&self) {
        if self.watch.is_none() && !self.altered && self.old >= MANY {
            memory::give_up(self.start, memory::whole_pages(self.old));
        }
    }

    /// Gives up what `own` made this process's own, so that reading much of a file takes little memory: the file's bytes stand there again.
    pub fn give_up(&mut self, offset: usize, length: usize) {
        let (from, pages) = self.pages_of(offset, length);
        if length > 0 && !self.altered {
            memory::give_up(self.start.wrapping_add(from), pages);
        }
    }
}

impl AsRef<[u8]> for Image {
    fn as_ref(&self) -> &[u8] {
        // At least one page is mapped, and `length` bytes of the mapping can be read; the file is not written while it is locked.
        unsafe { std::slice::from_raw_parts(self.start, self.length) }
    }
}

impl AsMut<[u8]> for Image {
    fn as_mut(&mut self) -> &mut [u8] {
        unsafe { std::slice::from_raw_parts_mut(self.start, self.length) }
    }
}

impl Drop for Image {
    fn drop(&mut self) {
        if let Some(watch) = self.watch {
            watch.from.store(0, SeqCst);
            watch.to.store(0, SeqCst);
            let pages = memory::whole_pages(self.old) / memory::page();
            memory::give_back(watch.notes.swap(std::ptr::null_mut(), SeqCst).cast(), memory::whole_pages(pages * size_of::<usize>()));
        }
        memory::give_back(self.start, self.mapped);
    }
}
