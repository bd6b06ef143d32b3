//! Root hashes as they stand on paper: printed in groups of four digits, and an archive held against one.
use crate::arguments::Arguments;
use crate::counts::Which;
use crate::kept::Lent;
use crate::reading::Archive;
use crate::words::{counted, hex, refused, usage, Done, Trouble};

/// Digits in groups of four, eight groups to a line: 16 bytes each.
pub fn grouped(bytes: &[u8]) -> Vec<String> {
    let line = |bytes: &[u8]| bytes.chunks(2).map(hex).collect::<Vec<_>>().join(" ");
    bytes.chunks(16).map(line).collect()
}

/// A word as a shell takes it.
pub fn quoted(word: &str) -> String {
    let plain = |byte: u8| byte.is_ascii_alphanumeric() || b"/._+-".contains(&byte);
    if !word.is_empty() && word.bytes().all(plain) {
        return word.to_string();
    }
    format!("'{}'", word.replace('\'', "'\\''"))
}

/// A root hash from a sheet, and of how many first chunks it is; of all of them where that is not told.
pub struct Paper {
    which: Which,
    root: [u8; 32],
    first: Option<u64>,
}

impl Paper {
    pub fn of(arguments: &Arguments, registers: &[Which]) -> Done<Option<Paper>> {
        match (arguments.root("--root")?, arguments.number("--first")?, registers) {
            (None, None, _) => Ok(None),
            (None, Some(_), _) => usage("--first is for the root hash that --root gives"),
            (Some(root), first, [which]) => Ok(Some(Paper { which: *which, root, first })),
            (Some(_), ..) => usage("--root needs metadata or content: a root hash is of one register"),
        }
    }

    /// Whether a register that was audited has this root hash, or had it when it had so many chunks.
    pub fn holds(&self, archive: &Archive) -> Done<String> {
        let register: Lent = archive.register(self.which);
        let named = archive.named(self.which);
        let found = match self.first {
            None => register.root_hash(),
            Some(m) => register.old_root(m),
        };
        let found = found.map_err(|reason| refused(&format!("{named}: the root hash to be held against the one given"), reason))?;
        let of = self.first.map_or(String::new(), |m| format!(" of the first {}", counted(m, "chunk")));
        if found != self.root {
            return Err(Trouble::Refused(format!("{named}: the root hash{of} is another than the one given: {}", hex(&found))));
        }
        Ok(format!("{}: the root hash{of} is the one given", self.which.name()))
    }
}

#[cfg(test)]
mod tests {
    use super::*;

    #[test]
    fn groups_of_four() {
        assert_eq!(grouped(&[0xab; 32]), [["abab"; 8].join(" "), ["abab"; 8].join(" ")]);
        assert_eq!(grouped(&[1, 2, 3]), ["0102 03"]);
    }

    #[test]
    fn a_shell_takes_it_as_one_word() {
        assert_eq!(quoted("a/b-c_1.x"), "a/b-c_1.x");
        assert_eq!(quoted("our coats"), "'our coats'");
        assert_eq!(quoted("it's"), "'it'\\''s'");
        assert_eq!(quoted(""), "''");
    }
}
