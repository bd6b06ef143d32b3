//! Audits and comparisons in parts, on several threads. Every part is a proved call, and together they give the whole call's answer (the theorems of
//! crates/theorem_parts); this file hands them out, counts them, and stops between them.
use crate::arguments::{number, Arguments};
use crate::kept::Lent;
use crate::progress;
use crate::signals;
use crate::sleep_register::{bitfield_entries, earlier, tree_entries, Comparison, Refusal, Register};
use crate::words::{from_hex, hex, usage, Done, Trouble};
use std::ffi::OsStr;
use std::ops::Range;
use std::sync::atomic::{AtomicBool, AtomicU64, AtomicUsize, Ordering};
use std::sync::OnceLock;
use std::thread::Builder;

/// How many parts the entries of a file are cut into at most: each walks over the leaf lengths before it, so they are not many, and each is short.
const PARTS: u64 = 256;

/// Set by Ctrl-C: parts that run are finished, and no more are begun.
static STOPPED: AtomicBool = AtomicBool::new(false);

extern "C" fn stop(_: i32, _: *const u8, _: *const u8) {
    STOPPED.store(true, Ordering::SeqCst);
}

/// From here on the first Ctrl-C stops between parts.
pub fn stop_between_parts() {
    signals::on_interrupt(stop);
}

/// From here on Ctrl-C ends the program as it would have; one that was met behind the last part stops it here.
pub fn stop_at_once(what: &str) -> Done<()> {
    signals::interrupt_by_default();
    match STOPPED.load(Ordering::SeqCst) {
        true => Err(Trouble::Stopped(format!("stopped {what}"))),
        false => Ok(()),
    }
}

/// As many threads as are asked for, or as there are processors and as the work is worth.
#[derive(Clone, Copy)]
pub struct Threads(Option<usize>);

/// The bytes of a register that a thread is begun for.
const WORTH: u64 = 1 << 20;

pub fn threads(arguments: &Arguments) -> Done<Threads> {
    match arguments.number("--threads")? {
        None => Ok(Threads(None)),
        Some(count @ 1..=1024) => Ok(Threads(Some(count as usize))),
        Some(_) => usage("--threads needs a number from 1 to 1024"),
    }
}

impl Threads {
    fn over(self, register: &Lent) -> usize {
        let worth = usize::try_from(register.bytes() / WORTH).unwrap_or(usize::MAX);
        match self.0 {
            Some(count) => count,
            None if worth < 2 => 1, // what processors there are takes some files to know
            None => std::thread::available_parallelism().map_or(1, usize::from).min(worth),
        }
    }
}

/// What became of work in parts: it has an answer, or it was stopped, and nothing was found wrong by the parts before a tree entry.
#[derive(Clone, Copy, Debug, PartialEq, Eq)]
pub enum Ended<T> {
    Whole(T),
    Stopped(u64),
}

/// How many parts work over so many bytes is cut into: each makes the checks and adds up the lengths before it anew, so a short audit is one.
fn parts_of(bytes: u64) -> u64 {
    (bytes / WORTH).clamp(1, PARTS)
}

/// Ranges that follow each other, from `from` on and before `count`, so many of them at most.
fn cut(from: u64, count: u64, parts: u64) -> Vec<Range<u64>> {
    let width = count.saturating_sub(from).div_ceil(parts).max(1);
    (from..count).step_by(usize::try_from(width).unwrap_or(usize::MAX)).map(|a| a..(a + width).min(count)).collect()
}

/// Each range's answer, in any order, as far as they were come to: behind one that `ends` the work no more are begun.
fn run<T: Copy + Send + Sync>(
    ranges: &[Range<u64>],
    threads: usize,
    progress: &Progress,
    judge: impl Fn(Range<u64>) -> T + Sync,
    ends: impl Fn(T) -> bool + Sync,
) -> Vec<Option<T>> {
    let (next, last) = (AtomicUsize::new(0), AtomicUsize::new(usize::MAX));
    let answers = ranges.iter().map(|_| OnceLock::new()).collect::<Vec<OnceLock<T>>>();
    let work = || loop {
        let k = next.fetch_add(1, Ordering::SeqCst);
        if k >= ranges.len() || k > last.load(Ordering::SeqCst) || STOPPED.load(Ordering::SeqCst) {
            return;
        }
        let answer = judge(ranges[k].clone());
        if ends(answer) {
            last.fetch_min(k, Ordering::SeqCst);
        }
        let _ = answers[k].set(answer);
        progress.done(ranges[k].end - ranges[k].start);
    };
    std::thread::scope(|scope| {
        // where the system gives no more threads, those that there are do the work
        let _ = (1..threads.min(ranges.len())).try_for_each(|_| Builder::new().spawn_scoped(scope, work).map(drop));
        work();
    });
    answers.iter().map(|answer| answer.get().copied()).collect()
}

/// Where a stopped audit goes on: the n, the size and the root hash that it had, and the first tree entry that is left. A copy of which a root is not known has
/// no root hash.
#[derive(Clone, Debug, PartialEq, Eq)]
pub struct Mark {
    n: u64,
    size: u64,
    root: Option<[u8; 32]>,
    entry: u64,
}

const NO_ROOT: &str = "unknown";

impl Mark {
    pub fn of(register: &Lent, entry: u64) -> Mark {
        Mark { n: register.n(), size: register.size(), root: register.root_hash().ok(), entry }
    }

    /// Where --from is given, of one register.
    pub fn of_option(arguments: &Arguments, registers: usize) -> Done<Option<Mark>> {
        match arguments.option("--from") {
            Some(_) if registers > 1 => usage("--from needs metadata or content"),
            given => given.map(Mark::from_words).transpose(),
        }
    }

    /// What --from takes.
    fn words(&self) -> String {
        let root = self.root.map_or(NO_ROOT.into(), |root| hex(&root));
        format!("{},{},{root},{}", self.n, self.size, self.entry)
    }

    fn from_words(words: &OsStr) -> Done<Mark> {
        let parts = words.to_str().unwrap_or_default().split(',').collect::<Vec<_>>();
        let [n, size, root, entry] = parts[..] else { return usage("--from needs what a stopped audit printed: N,SIZE,ROOT,ENTRY") };
        let number = |word: &str| number(OsStr::new(word), "--from");
        let root = match root {
            NO_ROOT => None,
            root => match from_hex(root).and_then(|bytes| bytes.try_into().ok()) {
                Some(root) => Some(root),
                None => return usage("--from needs the root hash that a stopped audit printed: 64 hexadecimal digits"),
            },
        };
        Ok(Mark { n: number(n)?, size: number(size)?, root, entry: number(entry)? })
    }

    /// The entry to go on with, where the register is still the one that was stopped at, as far as these numbers tell.
    pub fn entry_in(&self, register: &Lent, what: &str) -> Done<u64> {
        let now = Mark::of(register, self.entry);
        let differs = match () {
            _ if now.n != self.n => format!("{} chunks, and not {}", now.n, self.n),
            _ if now.size != self.size => format!("{} bytes, and not {}", now.size, self.size),
            _ if now.root != self.root => "another root hash".into(),
            _ if self.entry > tree_entries(self.n) => format!("no tree entry {}", self.entry),
            _ => return Ok(self.entry),
        };
        Err(Trouble::Refused(format!("{what}: it has {differs}: the audit that was stopped was of other files, and can't go on here")))
    }
}

/// What a stopped audit says: what the register is, how far it came, and how it goes on.
pub fn stopped(so_far: &str, name: &str, mark: &Mark) -> Trouble {
    let (entry, words) = (mark.entry, mark.words());
    Trouble::Stopped(format!(
        "{so_far}: nothing was found wrong by the tree entries before {entry}; `audit ARCHIVE {name} --from {words}` goes on there"
    ))
}

/// Where some parts were not come to and none before them ends the work: how many of the first parts found nothing wrong.
fn stopped_behind(answers: &[Option<Result<(), Refusal>>], ends: impl Fn(Result<(), Refusal>) -> bool) -> Option<usize> {
    let passed = answers.iter().take_while(|answer| **answer == Some(Ok(()))).count();
    let told = answers.get(passed).copied().flatten().is_some_and(ends);
    (answers.contains(&None) && !told).then_some(passed)
}

/// The audit of a register or a copy, its tree entries from `from` on; of a register no part is begun behind one that refuses, since what it names lies in
/// its range.
pub fn audit(what: &str, register: &Lent, threads: Threads, from: u64) -> Ended<Result<(), Refusal>> {
    let count = tree_entries(register.n());
    let ranges = cut(from, count, parts_of(register.bytes()));
    let progress = Progress::begun(what, from, count);
    let ends = |answer: Result<(), Refusal>| answer.is_err() && matches!(register, Lent::Whole(_));
    let answers = progress.shown(|| run(&ranges, threads.over(register), &progress, |range| register.audit_tree_part(range), ends));
    if let Some(passed) = stopped_behind(&answers, ends) {
        return Ended::Stopped(ranges[passed].start);
    }
    let bits = register.audit_bitfield_part(0..bitfield_entries(register.n()));
    Ended::Whole(answers.into_iter().flatten().fold(bits, earlier))
}

/// The comparison of two registers: the checks and the parts of the first, then of the second, then the roots, then the parts of the walk. Where it is
/// stopped no entry is told: it begins anew.
pub fn compare(what: &str, first: &Register, second: &Register, threads: Threads) -> Ended<Comparison> {
    for (register, which, refused) in [
        (first, "the first", Comparison::FirstRefused as fn(Refusal) -> Comparison),
        (second, "the second", Comparison::SecondRefused as fn(Refusal) -> Comparison),
    ] {
        if let Err(reason) = register.compare_held_part() {
            return Ended::Whole(refused(reason));
        }
        match audit(&format!("{what}, {which}"), &Lent::Whole(*register), threads, 0) {
            Ended::Whole(Ok(())) => {}
            Ended::Whole(Err(reason)) => return Ended::Whole(refused(reason)),
            Ended::Stopped(at) => return Ended::Stopped(at),
        }
    }
    match first.compare_roots_part(second) {
        Comparison::Equal => walk(what, first, second, threads),
        told => Ended::Whole(told),
    }
}

fn walk(what: &str, first: &Register, second: &Register, threads: Threads) -> Ended<Comparison> {
    let count = tree_entries(first.n);
    let ranges = cut(0, count, parts_of(Lent::Whole(*first).bytes()));
    let progress = Progress::begun(&format!("{what}, both"), 0, count);
    let ends = |answer| answer != Comparison::Equal;
    let threads = threads.over(&Lent::Whole(*first));
    let answers = progress.shown(|| run(&ranges, threads, &progress, |range| first.compare_walk_part(second, range), ends));
    let told = answers.iter().position(|answer| answer.is_some_and(ends));
    let judged = answers.iter().take_while(|answer| answer.is_some()).count();
    match told {
        Some(at) if judged > at => Ended::Whole(answers[at].unwrap_or(Comparison::Equal)),
        _ if judged < answers.len() => Ended::Stopped(ranges[judged].start),
        _ => Ended::Whole(Comparison::Equal),
    }
}

/// How many entries were judged, told on a terminal alone.
struct Progress {
    what: String,
    of: u64,
    judged: AtomicU64,
}

impl Progress {
    fn begun(what: &str, from: u64, count: u64) -> Progress {
        Progress { what: what.into(), of: count.saturating_sub(from).max(1), judged: AtomicU64::new(0) }
    }

    fn done(&self, entries: u64) {
        self.judged.fetch_add(entries, Ordering::SeqCst);
    }

    /// Does the work, with a line on a terminal that is gone afterwards.
    fn shown<T>(&self, work: impl FnOnce() -> T) -> T {
        let told = || format!("{}: {} of {} entries", self.what, self.judged.load(Ordering::SeqCst), self.of);
        progress::telling(told, work)
    }
}

#[cfg(test)]
mod tests {
    use super::*;

    #[test]
    fn ranges_follow_each_other_and_cover() {
        for (from, count) in [(0, 0), (0, 1), (3, 3), (7, 2), (5, 300), (0, 256), (0, 257), (1, 2_097_151)] {
            let ranges = cut(from, count, PARTS);
            let end = ranges.iter().fold(from, |at, range| {
                assert!(range.start == at && at < range.end);
                range.end
            });
            assert!(end == count.max(from) && ranges.len() as u64 <= PARTS);
        }
    }

    #[test]
    fn every_range_is_judged_once_on_any_number_of_threads() {
        for threads in [1, 2, 7, 1024] {
            let ranges = cut(0, 1000, PARTS);
            let answers = run(&ranges, threads, &Progress::begun("", 0, 1000), |range| range.start, |_| false);
            assert!(answers.iter().zip(&ranges).all(|(answer, range)| *answer == Some(range.start)));
        }
    }

    #[test]
    fn behind_a_part_that_ends_the_work_none_is_needed() {
        for threads in [1, 2, 7] {
            let ranges = cut(0, 1000, PARTS);
            let answers = run(&ranges, threads, &Progress::begun("", 0, 1000), |range| range.contains(&500), |ends| ends);
            let at = answers.iter().position(|answer| *answer == Some(true)).unwrap();
            assert!(ranges[at].contains(&500) && answers[..at].iter().all(|answer| *answer == Some(false)));
        }
    }

    #[test]
    fn a_stopped_audit_goes_on_at_the_first_part_that_found_something_or_was_not_come_to() {
        let wrong = Some(Err(Refusal { number: 10, place: crate::sleep_register::Place::TreeIndex(9) }));
        let (register, copy) = (|answer: Result<(), Refusal>| answer.is_err(), |_| false);
        for (answers, of_register, of_copy) in [
            (vec![Some(Ok(())), Some(Ok(()))], None, None),
            (vec![Some(Ok(())), wrong], None, None),
            (vec![Some(Ok(())), wrong, None], None, Some(1)),
            (vec![Some(Ok(())), None, wrong], Some(1), Some(1)),
            (vec![None, None], Some(0), Some(0)),
            (vec![], None, None),
        ] {
            assert_eq!((stopped_behind(&answers, register), stopped_behind(&answers, copy)), (of_register, of_copy));
        }
    }

    #[test]
    fn marks_are_read_as_they_are_printed() {
        for root in [None, Some([0xa7; 32])] {
            let mark = Mark { n: 4, size: u64::MAX, root, entry: 6 };
            assert_eq!(Mark::from_words(OsStr::new(&mark.words())).ok(), Some(mark));
        }
        for wrong in ["", "4", "4,5,unknown", "4,5,unknown,6,7", "4,5,a7,6", "4,5,unknown,-6", "+4,5,unknown,6"] {
            assert!(Mark::from_words(OsStr::new(wrong)).is_err(), "{wrong}");
        }
    }
}
