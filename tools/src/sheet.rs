//! `sheet`: a page to print, which an archive can be held against later. What it has of a register, as text; sheet_html.rs draws it.
use crate::arguments::Arguments;
use crate::counts::{root_entries, Which, BOTH, CONTENT_KEY, ENTRY, FILES, HEADER, METADATA_KEY};
use crate::dates;
use crate::folder::Opening;
use crate::kept::Lent;
use crate::outputs;
use crate::page;
use crate::paper::{grouped, quoted};
use crate::parts;
use crate::printable::shown;
use crate::reading::{judged, only, Archive};
use crate::sheet_html;
use crate::verify::signed;
use crate::words::{at_file, counted, refused, usage, Done};
use std::os::unix::ffi::OsStrExt;
use std::path::Path;

/// The longest line of the text, and what stands in front of a row's words.
const WIDTH: usize = 78;
const NAMES: usize = 14;

/// More runs of chunks than these are not written out.
const MOST_RUNS: usize = 12;

/// The refusal of an entry that a copy does not know.
const UNKNOWN: u64 = 20;

/// A root of a register's tree: a run of chunks, and its stored entry.
pub struct Root {
    pub first: u64,
    pub chunks: u64,
    pub index: u64,
    pub hash: [u8; 32],
    pub bytes: u64,
}

/// What a sheet says of one register.
pub struct OnSheet {
    pub which: Which,
    pub n: u64,
    pub size: u64,
    /// How many signatures are stored, and how many of them are not zeros; a copy has none.
    pub signatures: Option<(u64, u64)>,
    pub files: Vec<(&'static str, u64)>,
    pub key: Option<[u8; 32]>,
    /// The root hash and the roots, where all of them are known.
    pub root: Option<([u8; 32], Vec<Root>)>,
    /// The chunks that are held, as runs of the first and the one behind the last; nothing where a copy can't tell.
    pub held: Option<Vec<(u64, u64)>>,
}

/// A whole sheet.
pub struct Sheet {
    pub name: String,
    pub date: String,
    pub audited: bool,
    pub registers: Vec<OnSheet>,
}

/// `sheet`: audits first, unless told not to, and says so.
pub fn sheet(arguments: &Arguments) -> Done<()> {
    let path = only(&arguments.words(), "an archive")?;
    let date = match arguments.option("--date") {
        None => dates::today(),
        Some(word) => match word.to_str().filter(|word| dates::is_date(word)) {
            Some(date) => date.to_string(),
            None => return usage("--date needs a date as 2026-11-17"),
        },
    };
    let archive = Archive::open(path, Opening::reading(arguments)?)?;
    let audited = !arguments.has("--no-audit");
    if audited {
        let threads = parts::threads(arguments)?;
        parts::stop_between_parts();
        for which in BOTH {
            judged(&archive, which, threads, 0)?.map_err(|reason| refused(&archive.named(which), reason))?;
        }
        parts::stop_at_once("before a sheet was made")?;
    }
    let registers = BOTH.into_iter().rev().map(|which| on_sheet(&archive, which)).collect::<Done<Vec<_>>>()?;
    let sheet = Sheet { name: folder_name(&archive.folder.path)?, date, audited, registers };
    let page = if arguments.has("--html") { sheet_html::page(&sheet) } else { text(&sheet) };
    outputs::give(arguments.option("-o"), page.as_bytes())
}

/// The folder's own name, whatever path led to it.
fn folder_name(path: &Path) -> Done<String> {
    let place = path.canonicalize().map_err(|error| at_file(path, error))?;
    Ok(shown(place.file_name().unwrap_or(place.as_os_str()).as_bytes()))
}

fn on_sheet(archive: &Archive, which: Which) -> Done<OnSheet> {
    let register = archive.register(which);
    let root = match register.root_hash() {
        Ok(root) => Some((root, roots(&register))),
        Err(reason) if reason.number == UNKNOWN => None,
        Err(reason) => return Err(refused(&archive.named(which), reason)),
    };
    let signatures = match register {
        Lent::Whole(whole) => Some((whole.s, signed(&whole).len() as u64)),
        Lent::Copy(_) => None,
    };
    let mut files = Vec::new();
    for (number, name) in FILES.into_iter().enumerate().skip(which.first_file()).take(4) {
        files.extend(archive.folder.length(number)?.map(|length| (name, length)));
    }
    let key = archive.folder.key(if which == Which::Metadata { METADATA_KEY } else { CONTENT_KEY })?;
    Ok(OnSheet { which, n: register.n(), size: register.size(), signatures, files, key, root, held: held(archive, which)? })
}

/// The roots as the tree has them; all are known.
fn roots(register: &Lent) -> Vec<Root> {
    let (mut first, tree) = (0, register.tree());
    let root = |offset: u64| {
        let (index, entry) = ((offset - HEADER) / ENTRY, &tree[offset as usize..(offset + ENTRY) as usize]);
        let chunks = 1 << index.trailing_ones();
        first += chunks;
        let (hash, bytes) = entry.split_at(32);
        let number = |bytes: &[u8]| bytes.iter().fold(0, |number, byte| number << 8 | u64::from(*byte));
        Root { first: first - chunks, chunks, index, hash: hash.try_into().expect("32 bytes"), bytes: number(bytes) }
    };
    root_entries(register.n()).into_iter().map(root).collect()
}

/// The runs of chunks that are held.
fn held(archive: &Archive, which: Which) -> Done<Option<Vec<(u64, u64)>>> {
    let (register, mut runs, mut from) = (archive.register(which), Vec::new(), 0);
    loop {
        let missing = match register.search(from) {
            Ok(missing) => missing,
            Err(reason) if reason.number == UNKNOWN => return Ok(None),
            Err(reason) => return Err(refused(&archive.named(which), reason)),
        };
        let to = missing.unwrap_or(register.n());
        if from < to {
            runs.push((from, to));
        }
        match missing {
            Some(chunk) => from = chunk + 1,
            None => return Ok(Some(runs)),
        }
    }
}

impl OnSheet {
    pub fn title(&self) -> &'static str {
        match self.which {
            Which::Content => "The content register: the pieces",
            Which::Metadata => "The metadata register: their names",
        }
    }

    pub fn held_words(&self) -> String {
        let Some(runs) = &self.held else { return "not known".into() };
        let count = runs.iter().map(|(from, to)| to - from).sum::<u64>();
        if count == self.n {
            return "all".into();
        }
        let words = runs.iter().take(MOST_RUNS).map(|(from, to)| run_words(*from, *to)).collect::<Vec<_>>();
        let more = if runs.len() > MOST_RUNS { ", and more" } else { "" };
        format!("{count} of {}{}{}{more}", self.n, if count > 0 { ": " } else { "" }, words.join(", "))
    }

    /// What is stored, and which signature is owed.
    pub fn signature_words(&self) -> String {
        match self.signatures {
            None => "a partial copy has none".into(),
            Some((s, own)) if s < self.n => format!("{s} stored, {own} of them not zeros; that of chunk {} is owed", self.n - 1),
            Some((s, own)) => format!("{s} stored, {own} of them not zeros; none is owed"),
        }
    }

    /// The command that holds an archive to this sheet, now and when it has grown.
    pub fn command(&self, name: &str) -> Option<Vec<String>> {
        let (root, _) = self.root.as_ref()?;
        let mut lines = vec![format!("sleep-archive audit {} {} --first {} --root '", quoted(name), self.which.name(), self.n)];
        lines.extend(grouped(root).into_iter().map(|line| format!("  {line}")));
        *lines.last_mut()? += "'";
        Some(lines)
    }
}

/// A run of chunks, of which the second number is the one behind the last.
pub fn run_words(from: u64, to: u64) -> String {
    match to - from {
        1 => format!("chunk {from}"),
        _ => format!("chunks {from} to {}", to - 1),
    }
}

impl Sheet {
    pub fn audit_words(&self) -> &'static str {
        match self.audited {
            true => {
                "Both registers were audited for this sheet, and accepted: these are the root hashes of the chunks that the files hold."
            }
            false => "NOT AUDITED: the numbers and root hashes are as the files have them, and nothing was judged.",
        }
    }
}

pub const CHECKED: &str =
    "The root hash holds for the first chunks when more were added, too. Signatures are checked by: sleep-archive verify";

/// The sheet as text, in lines that fit a page.
fn text(sheet: &Sheet) -> String {
    let mut lines =
        vec![format!("Archive {}", sheet.name), format!("Sheet of {}, by sleep-archive {}", sheet.date, page::VERSION), String::new()];
    lines.extend(folded(sheet.audit_words(), WIDTH));
    for register in &sheet.registers {
        lines.extend([String::new(), register.title().to_string()]);
        lines.extend(of_register(register));
        if let Some(command) = register.command(&sheet.name) {
            lines.push("  held to this sheet by".into());
            lines.extend(command.into_iter().map(|line| format!("    {line}")));
        }
    }
    lines.push(String::new());
    lines.extend(folded(CHECKED, WIDTH));
    lines.iter().map(|line| format!("{line}\n")).collect()
}

/// What is known of a register, in rows: a name in front of its words, which may take several lines.
fn of_register(register: &OnSheet) -> Vec<String> {
    let mut rows = vec![("chunks", vec![register.n.to_string()]), ("bytes", vec![register.size.to_string()])];
    rows.push(("files", register.files.iter().map(|(name, length)| format!("{name} {}", counted(*length, "byte"))).collect()));
    rows.push(("held", folded(&register.held_words(), WIDTH - NAMES)));
    rows.push(("signatures", folded(&register.signature_words(), WIDTH - NAMES)));
    rows.push(("public key", register.key.as_ref().map_or(vec!["none is kept".into()], |key| grouped(key))));
    match &register.root {
        None => rows.push(("root hash", vec!["not all roots are known in this copy".into()])),
        Some((root, roots)) => {
            let of_root = |root: &Root| {
                let run = run_words(root.first, root.first + root.chunks);
                format!("{run}, {}, {} ..", counted(root.bytes, "byte"), &grouped(&root.hash)[0][..9])
            };
            rows.extend([("root hash", grouped(root)), ("roots", roots.iter().map(of_root).collect())]);
        }
    }
    let in_lines = |(name, words): (&str, Vec<String>)| {
        let named = move |(at, line): (usize, String)| format!("  {:<12}{line}", if at == 0 { name } else { "" });
        words.into_iter().enumerate().map(named).collect::<Vec<_>>()
    };
    rows.into_iter().flat_map(in_lines).collect()
}

/// Words in lines of at most so many bytes.
fn folded(words: &str, width: usize) -> Vec<String> {
    let mut lines = vec![String::new()];
    for word in words.split(' ') {
        match lines.last_mut() {
            Some(line) if line.is_empty() => *line += word,
            Some(line) if line.len() + 1 + word.len() <= width => *line += &format!(" {word}"),
            _ => lines.push(word.to_string()),
        }
    }
    lines
}

#[cfg(test)]
mod tests {
    use super::*;

    fn some(n: u64, held: Option<Vec<(u64, u64)>>) -> OnSheet {
        OnSheet { which: Which::Content, n, size: 0, signatures: Some((n, 1)), files: Vec::new(), key: None, root: None, held }
    }

    #[test]
    fn runs_in_words() {
        assert_eq!(some(5, Some(vec![(0, 5)])).held_words(), "all");
        assert_eq!(some(5, Some(vec![(0, 1), (2, 5)])).held_words(), "4 of 5: chunk 0, chunks 2 to 4");
        assert_eq!(some(5, Some(vec![])).held_words(), "0 of 5");
        assert_eq!(some(0, Some(vec![])).held_words(), "all");
        assert_eq!(some(5, None).held_words(), "not known");
        let many = some(99, Some((0..40).map(|at| (2 * at, 2 * at + 1)).collect())).held_words();
        assert!(many.starts_with("40 of 99: chunk 0, chunk 2,") && many.ends_with("chunk 22, and more"));
    }

    #[test]
    fn lines_fit() {
        let lines = folded(CHECKED, WIDTH);
        assert!(lines.iter().all(|line| line.len() <= WIDTH) && lines.join(" ") == CHECKED);
    }

    #[test]
    fn the_command_is_one_of_the_shell() {
        let register = OnSheet { root: Some(([7; 32], Vec::new())), ..some(3, None) };
        let command = register.command("our coats").unwrap().join("\n");
        assert!(command.starts_with("sleep-archive audit 'our coats' content --first 3 --root '\n  0707 "));
        assert!(command.ends_with(" 0707'") && some(3, None).command("coats").is_none());
    }
}
