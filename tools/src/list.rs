//! `list`: the pieces by their names, all or those that words mean. A record that can't be read is marked, and the others are listed.
use crate::arguments::Arguments;
use crate::counts::Which;
use crate::dates;
use crate::folder::Opening;
use crate::json;
use crate::kept::Lent;
use crate::outputs;
use crate::patterns::Pattern;
use crate::printable::printable;
use crate::progress::Counter;
use crate::reading::Archive;
use crate::sleep_register::{Node, Place, Refusal};
use crate::walk::{not_held, records, Holding, Said};
use crate::words::{counted, hex, refusal, refused, remark, usage, Done, Trouble};
use std::collections::HashSet;

/// More records than these are not marked one by one: the register is another file, or nothing of it can be read.
const MOST_MARKED: usize = 100;

/// The refusals of a record that this register does not have, and of one that is none.
const NO_RECORD: u64 = 15;
const NOT_HELD: u64 = 18;
const UNKNOWN: u64 = 20;

/// Lines that are written at once.
const AT_ONCE: usize = 4096;

/// A line of the list, the other way round as yet.
enum Line<'a> {
    Piece(Said<'a>),
    Marked(u64, Refusal),
}

/// How lines look.
#[derive(Clone, Copy, PartialEq, Eq)]
enum Form {
    Plain,
    Long,
    Json,
    /// The names alone, each with a zero byte behind it.
    Names,
}

impl Form {
    fn of(arguments: &Arguments) -> Done<Form> {
        match (arguments.has("--long"), arguments.has("--json"), arguments.has("-0")) {
            (false, false, false) => Ok(Form::Plain),
            (true, false, false) => Ok(Form::Long),
            (false, true, false) => Ok(Form::Json),
            (false, false, true) => Ok(Form::Names),
            _ => usage("--long, --json or -0, and not two of them"),
        }
    }
}

/// What is to be listed: names that words mean, of each the last piece or all.
struct Wanted {
    patterns: Vec<Pattern>,
    all: bool,
}

/// `list`: of a name that was written again the last piece, unless all are asked for.
pub fn list(arguments: &Arguments) -> Done<()> {
    let words = arguments.words();
    let Some((path, words)) = words.split_first() else { return usage("an archive is needed, and names or patterns at most") };
    let patterns = words.iter().map(|word| Pattern::of(word)).collect::<Done<Vec<_>>>()?;
    let (wanted, form) = (Wanted { patterns, all: arguments.has("--all") }, Form::of(arguments)?);
    let archive = Archive::open(path, Opening::reading(arguments)?)?;
    let missing = match archive.is_fresh(Which::Content) {
        true => (0..archive.register(Which::Content).n()).collect(),
        false => not_held(&archive, Which::Content)?,
    };
    let Listed { lines, marked, unheld } = listed(&archive, &wanted)?;
    print(&archive, &missing, &lines, form)?;
    if unheld > 0 {
        let (named, n) = (archive.named(Which::Metadata), archive.register(Which::Metadata).n());
        remark(&format!("{named}: of {} {unheld} not held in this copy: names that stand there are not known", counted(n, "record")));
    }
    if marked == 0 {
        return all_met(&wanted, &lines, unheld);
    }
    let (archive, records) = (archive.named(Which::Metadata), counted(marked as u64, "record"));
    let marked = if form == Form::Names { "" } else { ", marked above" };
    Err(Trouble::Refused(format!(
        "{archive}: {records} can't be read{marked}; names in them are not listed, and finding by name ends there"
    )))
}

/// Whether each word means a name that there is.
fn all_met(wanted: &Wanted, lines: &[Line], unheld: u64) -> Done<()> {
    let met = |pattern: &&Pattern| !lines.iter().any(|line| matches!(line, Line::Piece(said) if pattern.takes(said.path)));
    match wanted.patterns.iter().find(met) {
        None => Ok(()),
        Some(pattern) if unheld > 0 => {
            Err(Trouble::Refused(format!("{}: there is no such name in the records that are held here", pattern.words())))
        }
        Some(pattern) => Err(Trouble::Refused(format!("{}: there is no such name", pattern.words()))),
    }
}

/// The records from the latest down, and how many can't be read; in a copy, how many are not held.
struct Listed<'a> {
    lines: Vec<Line<'a>>,
    marked: usize,
    unheld: u64,
}

fn listed<'a>(archive: &'a Archive, wanted: &Wanted) -> Done<Listed<'a>> {
    let metadata = archive.register(Which::Metadata);
    if archive.is_fresh(Which::Metadata) {
        metadata.root_hash().map_err(|reason| archive.trouble(Which::Metadata, reason))?;
    }
    let is_copy = matches!(metadata, Lent::Copy(_));
    let (mut seen, mut lines, mut marked, mut unheld) = (HashSet::new(), Vec::new(), 0, 0);
    let header = (metadata.n() > 0).then(|| (0, metadata.header_of(0).map(|_| Node::default())));
    let mut counter = Counter::new("reading records", metadata.n());
    let meant = |path: &[u8]| wanted.patterns.is_empty() || wanted.patterns.iter().any(|pattern| pattern.takes(path));
    for (record, read) in records(archive).chain(header) {
        counter.next();
        match read {
            Ok(node) if record > 0 && meant(node.path) && (wanted.all || seen.insert(node.path)) => {
                lines.push(Line::Piece(Said::of(record, &node)))
            }
            Ok(_) => {}
            Err(reason) if is_copy && matches!(reason.number, NOT_HELD | UNKNOWN) => unheld += 1,
            Err(reason) if is_of_one_record(reason) && marked < MOST_MARKED => {
                lines.push(Line::Marked(record, reason));
                marked += 1;
            }
            Err(reason) => return Err(refused(&archive.named(Which::Metadata), reason)),
        }
    }
    Ok(Listed { lines, marked, unheld })
}

/// A refusal with a place, or of a record's form, is this record's; any other is the whole register's.
fn is_of_one_record(reason: Refusal) -> bool {
    reason.place != Place::None || reason.number == NO_RECORD
}

/// The lines in the order of their records, some at once.
fn print(archive: &Archive, missing: &[u64], lines: &[Line], form: Form) -> Done<()> {
    let n = archive.register(Which::Content).n();
    let printed = |line: &Line| match (line, form) {
        (Line::Piece(said), Form::Names) => [said.path, b"\0"].concat(),
        (Line::Marked(..), Form::Names) => Vec::new(),
        (Line::Piece(said), Form::Json) => in_json(said, Holding::of(said, n, missing)).into_bytes(),
        (Line::Marked(record, reason), Form::Json) => marked_in_json(*record, *reason).into_bytes(),
        (Line::Piece(said), form) => in_columns(said, Holding::of(said, n, missing), form),
        (Line::Marked(record, reason), form) => marked_in_columns(*record, *reason, form).into_bytes(),
    };
    let (between, mut before) = if form == Form::Json { (&b",\n"[..], &b"[\n"[..]) } else { (&b""[..], &b""[..]) };
    for some in lines.rchunks(AT_ONCE) {
        let mut out = Vec::new();
        for line in some.iter().rev() {
            out.extend(before);
            out.extend(printed(line));
            before = between;
        }
        outputs::give(None, &out)?;
    }
    match (form, lines.is_empty()) {
        (Form::Json, true) => outputs::give(None, b"[]\n"),
        (Form::Json, false) => outputs::give(None, b"\n]\n"),
        _ => Ok(()),
    }
}

fn shown(number: Option<u64>) -> String {
    number.map_or("-".to_string(), |number| number.to_string())
}

fn in_columns(said: &Said, holding: Holding, form: Form) -> Vec<u8> {
    let mut columns = format!("{:>7} {:>7} {:<4} ", shown(said.offset()), shown(said.size()), holding.word());
    if form == Form::Long {
        let (mode, time) = (said.mode().map_or("-".into(), |mode| format!("{mode:o}")), said.mtime().map_or("-".into(), dates::time_of));
        columns = format!("{:>6} {mode:>6} {:>5} {columns}{time:<20} ", said.record, shown(said.blocks()));
    }
    [columns.as_bytes(), &printable(said.path), b"\n"].concat()
}

/// What stands in the place of held or no for a record that can't be read.
fn mark(reason: Refusal) -> &'static str {
    if matches!(reason.number, NOT_HELD | UNKNOWN) {
        "no"
    } else {
        "bad"
    }
}

fn marked_in_columns(record: u64, reason: Refusal, form: Form) -> String {
    let long = if form == Form::Long { format!("{record:>6} {:>6} {:>5} ", "-", "-") } else { String::new() };
    format!("{long}{:>7} {:>7} {:<4} record {record}: {}\n", "-", "-", mark(reason), refusal(reason))
}

fn in_json(said: &Said, holding: Holding) -> String {
    let held = if holding == Holding::Unknown { "null".into() } else { json::string(holding.word()) };
    json::object(&[
        ("record", said.record.to_string()),
        ("name", json::string_of(said.path)),
        ("name_hex", json::string(&hex(said.path))),
        ("chunk", json::number(said.offset())),
        ("chunks", json::number(said.blocks())),
        ("size", json::number(said.size())),
        ("held", held),
        ("mode", json::number(said.mode())),
        ("mtime", json::number(said.mtime())),
        ("time", said.mtime().map_or("null".into(), |time| json::string(&dates::exact_time_of(time)))),
    ])
}

fn marked_in_json(record: u64, reason: Refusal) -> String {
    json::object(&[
        ("record", record.to_string()),
        ("bad", json::string(mark(reason))),
        ("refused", reason.number.to_string()),
        ("words", json::string(&refusal(reason))),
    ])
}
