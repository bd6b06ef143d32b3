//! Plain words: what a refusal means, and troubles that end the program.
use crate::printable::{harmless, Backslash};
use crate::sleep_register::{Place, Refusal};
use std::fmt::Write;
use std::path::Path;
use std::sync::atomic::{AtomicBool, Ordering::Relaxed};

/// What ends a command before it is done, with the words for it.
#[derive(Debug)]
pub enum Trouble {
    /// A proved call refused, or what was compared differs: status 1.
    Refused(String),
    /// Wrong usage: status 2.
    Usage(String),
    /// A file that can't be read or written: status 2.
    File(String),
    /// Ctrl-C, met between two parts of long work: status 130, as the shell has it.
    Stopped(String),
}

pub type Done<T> = Result<T, Trouble>;

impl Trouble {
    pub fn status(&self) -> u8 {
        match self {
            Trouble::Refused(_) => 1,
            Trouble::Usage(_) | Trouble::File(_) => 2,
            Trouble::Stopped(_) => 130,
        }
    }

    pub fn words(&self) -> &str {
        match self {
            Trouble::Refused(words) | Trouble::Usage(words) | Trouble::File(words) | Trouble::Stopped(words) => words,
        }
    }
}

/// Whether remarks and progress are left out.
static QUIET: AtomicBool = AtomicBool::new(false);

pub fn be_quiet() {
    QUIET.store(true, Relaxed);
}

pub fn is_quiet() -> bool {
    QUIET.load(Relaxed)
}

/// A line for the person that is no reason for the exit status; left out where quiet is asked for.
pub fn remark(line: &str) {
    if !is_quiet() {
        tell(line);
    }
}

/// A line for the person, whom it may not reach. Names of files may stand in it, so nothing of it moves a terminal.
pub fn tell(line: &str) {
    let line = [&harmless(line.as_bytes(), Backslash::Kept)[..], b"\n"].concat();
    let _ = std::io::Write::write_all(&mut std::io::stderr(), &line);
}

pub fn usage<T>(words: impl Into<String>) -> Done<T> {
    Err(Trouble::Usage(words.into()))
}

/// What the system says of a file.
pub fn at_file(path: &Path, error: std::io::Error) -> Trouble {
    Trouble::File(format!("{}: {}", path.display(), said(&error)))
}

/// The same of a file in an archive's folder.
pub fn in_file(folder: &Path, name: &str, error: std::io::Error) -> Trouble {
    at_file(&folder.join(name), error)
}

/// A count with its word, in the singular for one.
pub fn counted(count: u64, word: &str) -> String {
    format!("{count} {word}{}", if count == 1 { "" } else { "s" })
}

/// The system's words, without its number.
pub fn said(error: &std::io::Error) -> String {
    let words = error.to_string();
    words.split(" (os error").next().unwrap_or(&words).to_lowercase()
}

fn meaning(number: u64) -> &'static str {
    match number {
        1 => "the hash length isn't 1 to 64",
        2 => "there would be more than 1,048,576 chunks",
        3 => "the count of signatures fits neither the count of chunks nor one less",
        4 => "a file is shorter than the others say",
        5 => "a file begins with another header: it is another file, or it is damaged",
        6 => "the lengths in the tree don't add up to the length of the data: other files, or damage",
        7 => "a piece is longer than 65,536 bytes",
        8 => "a signature is owed before more can be added, or one is offered while none is owed",
        9 => "there is no such chunk",
        10 => "an entry of the tree is wrong: damage in the tree or the data",
        11 => "a byte of the bitfield is wrong: damage",
        12 => "this is no packet of that chunk of so many chunks",
        13 => "the packet does not stand under this root hash",
        14 => "there is no room for the result",
        15 => "no record: a name has 1 to 255 bytes and begins with a slash, and every other field has its bounds too",
        16 => "a set has 1 to 256 chunks, and an archive's first one has a Header beside the records: at most 255 files",
        17 => "the key is longer than 64 bytes",
        18 => "a piece that is needed is not held here: it was released, or never taken in",
        19 => "the packet contradicts what is known here",
        20 => "an entry that is needed is not known in this copy",
        21 => "there is no such station",
        22 => "four reads of the station wait already",
        _ => "not done",
    }
}

/// A refusal in plain words: its number, what it means, and its place.
pub fn refusal(refusal: Refusal) -> String {
    let mut words = format!("refused with {}: {}", refusal.number, meaning(refusal.number));
    match refusal.place {
        Place::None => {}
        Place::TreeIndex(index) if index % 2 == 0 => write!(words, "; at tree index {index}, the leaf of chunk {}", index / 2).unwrap(),
        Place::TreeIndex(index) => write!(words, "; at tree index {index}, a parent").unwrap(),
        Place::BitfieldByte(offset) => write!(words, "; at byte {offset} of the bitfield file").unwrap(),
    }
    words
}

/// A refusal of a call on what is named.
pub fn refused(what: &str, reason: Refusal) -> Trouble {
    Trouble::Refused(format!("{what}: {}", refusal(reason)))
}

pub fn hex(bytes: &[u8]) -> String {
    bytes.iter().fold(String::new(), |mut words, byte| {
        write!(words, "{byte:02x}").unwrap();
        words
    })
}

/// Bytes given in hex.
pub fn from_hex(words: &str) -> Option<Vec<u8>> {
    if !words.len().is_multiple_of(2) || !words.bytes().all(|byte| byte.is_ascii_hexdigit()) {
        return None;
    }
    (0..words.len()).step_by(2).map(|at| u8::from_str_radix(&words[at..at + 2], 16).ok()).collect()
}

#[cfg(test)]
mod tests {
    use super::*;

    #[test]
    fn hex_is_digits_alone() {
        assert_eq!(from_hex("00ff7A"), Some(vec![0, 255, 122]));
        assert_eq!(from_hex(&"+f".repeat(32)), None);
        assert_eq!(from_hex("0"), None);
        assert_eq!(from_hex("é"), None);
        assert_eq!(from_hex(&hex(&[1, 2, 254])), Some(vec![1, 2, 254]));
    }

    #[test]
    fn one_is_singular() {
        assert_eq!(counted(1, "chunk"), "1 chunk");
        assert_eq!(counted(0, "chunk"), "0 chunks");
    }
}
