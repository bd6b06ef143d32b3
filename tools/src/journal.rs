//! `journal`: what a journal that was found would write, and ways to be rid of it.
use crate::arguments::Arguments;
use crate::below;
use crate::counts::FILES;
use crate::folder::{Folder, Opening};
use crate::journal_calls::Kind;
use crate::left_over::{Found, Left, NAME};
use crate::lock::{Patience, Use};
use crate::outputs::{self, say};
use crate::reading::only;
use crate::words::{counted, remark, usage, Done};
use std::fmt::Write;
use std::path::Path;

/// The name that a journal gets which is set aside, with a number where there are several.
const ASIDE: &str = "sleep-archive.journal.dropped";

/// `journal`: tells of it, sets it aside or finishes it.
pub fn journal(arguments: &Arguments) -> Done<()> {
    let path = Path::new(only(&arguments.words(), "an archive")?);
    let opening = Opening::writing(arguments)?;
    match (arguments.has("--drop"), arguments.has("--finish")) {
        (true, true) => usage("--drop or --finish, and not both"),
        (true, false) => aside(&Folder::open(path, opening.past_journal())?, Patience::new(path, opening.wait)),
        (false, true) => Folder::open(path, opening).map(|_| ()),
        (false, false) => tell_of(&Folder::open(path, opening.to_read().past_journal())?, Patience::new(path, opening.wait)),
    }
}

/// Gives a journal another name, under which no command looks at it. Whoever makes an archive has the journal's lock alone, and is waited for.
fn aside(folder: &Folder, mut patience: Patience) -> Done<()> {
    let plain = below::open(&folder.handle, NAME, Use::Writing.access()).ok().flatten();
    if let Some(plain) = &plain {
        patience.lock(&plain.file, Use::Writing)?;
    }
    if !folder.is_unfinished()? {
        return none(folder);
    }
    for count in 1u32.. {
        let name = if count == 1 { ASIDE.to_string() } else { format!("{ASIDE}.{count}") };
        if below::look(&folder.handle, &name).map_err(|error| folder.trouble(&name, error))?.is_some() {
            continue;
        }
        below::rename(&folder.handle, NAME, &name).map_err(|error| folder.trouble(NAME, error))?;
        folder.handle.sync_all().map_err(|error| folder.trouble(&name, error))?;
        let path = folder.path.display();
        return say(&format!("{path}/{NAME} is now {name}. The files may hold parts of its change: `sleep-archive audit {path}` tells"));
    }
    unreachable!("one of so many names is free")
}

fn none(folder: &Folder) -> Done<()> {
    remark(&format!("{}: no journal, so no change is unfinished", folder.path.display()));
    Ok(())
}

/// What it would write, and whether it belongs to this archive as it is.
fn tell_of(folder: &Folder, mut patience: Patience) -> Done<()> {
    let Found::Journal(journal) = Found::open(&folder.path, &folder.handle, Use::Reading, &mut patience)? else { return none(folder) };
    let left = Left::checked(&folder.path, journal)?;
    outputs::give(None, described(&left).as_bytes())?;
    left.belongs(folder)?;
    let reading =
        if left.is_large() { "reading commands show it as done with --large-journal" } else { "reading commands show it as done" };
    say(&format!("every file is as before the change, as after, or between: the next command that writes finishes it, and {reading}"))
}

fn described(left: &Left) -> String {
    let mut lines = String::new();
    let length = |length: Option<u64>| length.map_or("absent".to_string(), |length| counted(length, "byte"));
    for (number, name) in FILES.iter().enumerate() {
        let [old, new] = left.lengths(number);
        if old != new {
            writeln!(lines, "{name}: from {} to {}", length(old), length(new)).unwrap();
        }
    }
    for range in left.ranges() {
        let what = match range.kind {
            Kind::Replaced => "replaced",
            Kind::Fresh => "written",
            Kind::Zeros => "zeros",
            Kind::Witness => "held to what it was",
        };
        writeln!(lines, "{}: {} from byte {}: {what}", FILES[range.file], counted(range.length, "byte"), range.offset).unwrap();
    }
    lines
}
