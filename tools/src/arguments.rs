//! The words behind a command: options, and what else stands there, in order.
use crate::words::{from_hex, usage, Done};
use std::ffi::{OsStr, OsString};
use std::os::unix::ffi::{OsStrExt, OsStringExt};

/// An option that a command takes.
#[derive(Clone)]
pub struct Rule {
    pub name: &'static str,
    pub takes_word: bool,
}

pub const fn flag(name: &'static str) -> Rule {
    Rule { name, takes_word: false }
}

pub const fn word(name: &'static str) -> Rule {
    Rule { name, takes_word: true }
}

/// One thing that was typed, in the order of typing.
#[derive(Clone, PartialEq, Eq)]
pub enum Typed {
    Word(OsString),
    Option(&'static str, OsString),
}

pub struct Arguments {
    pub typed: Vec<Typed>,
}

impl Arguments {
    /// Takes the words apart; `--` ends the options, and `--name=word` is `--name word`. With `own`, the first word ends them too: what stands behind it
    /// is another program's.
    pub fn of(words: impl Iterator<Item = OsString>, rules: &[&[Rule]], own: bool) -> Done<Arguments> {
        let (mut words, mut typed, mut ended) = (words, Vec::new(), false);
        while let Some(next) = words.next() {
            let bytes = next.as_encoded_bytes();
            if ended || bytes == b"-" || !bytes.starts_with(b"-") {
                typed.push(Typed::Word(next));
                ended |= own;
            } else if bytes == b"--" {
                ended = true;
            } else {
                typed.push(option(&next, &mut words, rules)?);
            }
        }
        Ok(Arguments { typed })
    }

    /// The words that are no options.
    pub fn words(&self) -> Vec<&OsStr> {
        let words = self.typed.iter().filter_map(|one| match one {
            Typed::Word(word) => Some(word.as_os_str()),
            Typed::Option(..) => None,
        });
        words.collect()
    }

    /// What writes takes no option that is for reading.
    pub fn for_writing(&self) -> Done<()> {
        match ["--without-journal", "--large-journal"].into_iter().find(|option| self.has(option)) {
            Some(option) => usage(format!("{option} is for reading")),
            None => Ok(()),
        }
    }

    pub fn has(&self, name: &str) -> bool {
        self.option(name).is_some()
    }

    /// The word of an option, the last where it is given twice.
    pub fn option(&self, name: &str) -> Option<&OsStr> {
        self.typed.iter().rev().find_map(|one| match one {
            Typed::Option(known, word) if *known == name => Some(word.as_os_str()),
            _ => None,
        })
    }

    /// A number that an option gives.
    pub fn number(&self, name: &str) -> Done<Option<u64>> {
        self.option(name).map(|word| number(word, name)).transpose()
    }

    /// Two numbers that an option gives, with a comma between them.
    pub fn pair(&self, name: &str) -> Done<Option<(u64, u64)>> {
        let Some(word) = self.option(name) else { return Ok(None) };
        let numbers = word.to_str().unwrap_or_default().split(',').map(|one| number(OsStr::new(one), name)).collect::<Done<Vec<_>>>()?;
        match numbers[..] {
            [first, second] => Ok(Some((first, second))),
            _ => usage(format!("{name} needs two numbers with a comma between them")),
        }
    }

    /// The 32 bytes that an option gives in hex; between the digits spaces may stand, as on a sheet.
    pub fn root(&self, name: &str) -> Done<Option<[u8; 32]>> {
        let Some(word) = self.option(name) else { return Ok(None) };
        match word.to_str().and_then(root_in) {
            Some(root) => Ok(Some(root)),
            None => usage(format!("{name} needs a root hash: 64 hexadecimal digits")),
        }
    }

    /// Two root hashes that an option gives, of metadata and of content, with a comma between them; one of them may be left out.
    pub fn roots(&self, name: &str) -> Done<Option<[Option<[u8; 32]>; 2]>> {
        let Some(word) = self.option(name) else { return Ok(None) };
        let parts = word.to_str().unwrap_or_default().split(',').map(str::trim).collect::<Vec<_>>();
        let root = |part: &str| if part.is_empty() { Some(None) } else { root_in(part).map(Some) };
        match parts[..] {
            [metadata, content] if !metadata.is_empty() || !content.is_empty() => match (root(metadata), root(content)) {
                (Some(metadata), Some(content)) => Ok(Some([metadata, content])),
                _ => usage(format!("{name} needs root hashes: 64 hexadecimal digits each")),
            },
            _ => usage(format!("{name} needs the root hashes of metadata and of content, with a comma between them")),
        }
    }
}

/// The 32 bytes of a root hash in hex; between the digits spaces may stand.
fn root_in(word: &str) -> Option<[u8; 32]> {
    from_hex(&word.split_ascii_whitespace().collect::<String>())?.try_into().ok()
}

fn option(next: &OsStr, words: &mut impl Iterator<Item = OsString>, rules: &[&[Rule]]) -> Done<Typed> {
    let bytes = next.as_bytes();
    let (name, given) = match bytes.iter().position(|byte| *byte == b'=') {
        Some(at) if bytes.starts_with(b"--") => (&bytes[..at], Some(OsString::from_vec(bytes[at + 1..].to_vec()))),
        _ => (bytes, None),
    };
    let name = String::from_utf8_lossy(name);
    let Some(rule) = rules.iter().copied().flatten().find(|rule| rule.name == name) else {
        return usage(format!("there is no option {name} here"));
    };
    match (rule.takes_word, given) {
        (false, None) => Ok(Typed::Option(rule.name, OsString::new())),
        (false, Some(_)) => usage(format!("{name} takes no word")),
        (true, Some(given)) => Ok(Typed::Option(rule.name, given)),
        (true, None) => match words.next() {
            Some(word) => Ok(Typed::Option(rule.name, word)),
            None => usage(format!("{name} needs a word behind it")),
        },
    }
}

/// A decimal number.
pub fn number(word: &OsStr, what: &str) -> Done<u64> {
    let digits = word.to_str().filter(|text| !text.is_empty() && text.bytes().all(|byte| byte.is_ascii_digit()));
    match digits.and_then(|text| text.parse().ok()) {
        Some(number) => Ok(number),
        None => usage(format!("{what} needs a number, not {}", word.to_string_lossy())),
    }
}

#[cfg(test)]
mod tests {
    use super::*;

    fn typed(words: &[&str], own: bool) -> Done<Arguments> {
        Arguments::of(words.iter().map(OsString::from), &[&[flag("--all"), word("-o")], &[flag("-h")]], own)
    }

    #[test]
    fn options_and_words() {
        let taken = typed(&["a", "--all", "-o", "-h", "--", "--all"], false).unwrap();
        assert_eq!(taken.words(), ["a", "--all"]);
        assert_eq!(taken.option("-o"), Some(OsStr::new("-h")));
        assert!(taken.has("--all") && !taken.has("-h"));
        assert!(typed(&["--none"], false).is_err() && typed(&["-o"], false).is_err() && typed(&["--all=1"], false).is_err());
    }

    #[test]
    fn words_of_another_program() {
        let taken = typed(&["--all", "a", "ls", "-l", "--", "-h"], true).unwrap();
        assert_eq!(taken.words(), ["a", "ls", "-l", "--", "-h"]);
    }

    #[test]
    fn numbers_are_digits() {
        assert_eq!(number(OsStr::new("18446744073709551615"), "x").ok(), Some(u64::MAX));
        for wrong in ["", "+1", "-1", "1 ", "18446744073709551616", "0x1"] {
            assert!(number(OsStr::new(wrong), "x").is_err());
        }
    }
}
