//! What long work is at, on a terminal alone. A second thread tells it: of work in parts how many are done, and, since a proved call says nothing while it
//! runs, of one call how much of the files it has come to.
use crate::words::is_quiet;
use std::io::{stderr, IsTerminal, Write};
use std::sync::mpsc::{channel, RecvTimeoutError};
use std::time::{Duration, Instant};

const FIRST: Duration = Duration::from_millis(300);
const NEXT: Duration = Duration::from_millis(200);

/// Bytes that a call has come to before the first line would be shown: for fewer nothing is asked of the system.
const SHORT: u64 = 1 << 24;

/// Bytes of files that this process has mapped and come to; nothing where the system doesn't tell.
fn touched() -> Option<u64> {
    let numbers = std::fs::read_to_string("/proc/self/statm").ok()?;
    Some(numbers.split(' ').nth(2)?.parse::<u64>().ok()? * crate::memory::page() as u64)
}

/// In place of the line before, where the terminal still takes it.
fn show(line: &str) {
    let _ = write!(stderr(), "\r\x1b[K{line}").and_then(|()| stderr().flush());
}

/// Does the work. On a terminal a line says what is told of it, and for how long it goes; it is gone afterwards.
pub fn telling<T>(mut told: impl FnMut() -> String + Send, work: impl FnOnce() -> T) -> T {
    if !stderr().is_terminal() || is_quiet() {
        return work();
    }
    let begun = Instant::now();
    let (end, ended) = channel::<()>();
    std::thread::scope(|scope| {
        scope.spawn(move || {
            let mut wait = FIRST;
            while ended.recv_timeout(wait) == Err(RecvTimeoutError::Timeout) {
                show(&format!("{}, {} s", told(), begun.elapsed().as_secs()));
                wait = NEXT;
            }
            show("");
        });
        let result = work();
        drop(end);
        result
    })
}

/// The same for one proved call: how far it came is told from how much of `bytes` was looked at.
pub fn during<T>(what: &str, bytes: u64, work: impl FnOnce() -> T) -> T {
    if bytes < SHORT {
        return work();
    }
    let (before, mut most) = (touched(), 0);
    let told = move || {
        let share = match (before, touched()) {
            (Some(before), Some(now)) if bytes > 0 => now.saturating_sub(before).min(bytes) * 100 / bytes,
            _ => 0,
        };
        most = most.max(share);
        format!("{what}: some {most} %")
    };
    telling(told, work)
}

/// What short work is at, on a terminal; the next line takes its place.
pub fn note(line: &str) {
    if stderr().is_terminal() && !is_quiet() {
        show(line);
    }
}

/// Counts what is done of long work, on a terminal: how many, and of how many where that is known, after the first moment and now and then.
pub struct Counter {
    what: &'static str,
    total: u64,
    done: u64,
    shown: bool,
    /// Nothing where there is no terminal.
    next: Option<Instant>,
}

/// The clock is asked once in so many counts of small things.
const COUNTS: u64 = 64;

impl Counter {
    pub fn new(what: &'static str, total: u64) -> Counter {
        Counter { what, total, done: 0, shown: false, next: (stderr().is_terminal() && !is_quiet()).then(|| Instant::now() + FIRST) }
    }

    /// One more.
    pub fn next(&mut self) {
        self.add(1);
    }

    /// So many more.
    pub fn add(&mut self, count: u64) {
        let before = self.done / COUNTS;
        self.done += count;
        if self.next.is_some() && self.done / COUNTS != before {
            self.tell();
        }
    }

    fn tell(&mut self) {
        let now = Instant::now();
        if self.next.is_some_and(|next| next <= now) {
            let of = if self.total == 0 { String::new() } else { format!(" of {}", self.total) };
            show(&format!("{}: {}{of}", self.what, self.done));
            self.shown = true;
            self.next = Some(now + NEXT);
        }
    }
}

impl Drop for Counter {
    fn drop(&mut self) {
        if self.shown {
            show("");
        }
    }
}
