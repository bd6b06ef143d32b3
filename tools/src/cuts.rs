//! Where a file is cut into chunks: not at all, every so many bytes, or where a list of lengths says.
use crate::arguments::Arguments;
use crate::counts::LONGEST;
use crate::inputs;
use crate::words::{counted, usage, Done, Trouble};
use std::ffi::OsStr;
use std::path::Path;

/// A cut keeps the words of grouped coordinates whole.
const WORD: u64 = 4;

/// A list of lengths has at most so many bytes: enough for every chunk that a register can have.
const LONGEST_LIST: usize = 8 << 20;

#[derive(Clone, Debug, PartialEq, Eq)]
pub enum Cuts {
    None,
    Every(u64),
    At(Vec<u64>),
}

/// `--split SIZE`.
pub fn split(arguments: &Arguments) -> Done<Cuts> {
    match arguments.number("--split")? {
        None => Ok(Cuts::None),
        Some(size) if size > 0 && size <= LONGEST && size % WORD == 0 => Ok(Cuts::Every(size)),
        Some(size) => usage(format!("--split {size}: a multiple of {WORD} is needed, at most {LONGEST}")),
    }
}

/// `--cuts FILE`: lengths in decimal, with spaces, commas or line ends between them.
pub fn cuts_in(file: &OsStr) -> Done<Cuts> {
    let (bytes, _) = inputs::at_most(file, LONGEST_LIST + 1)?;
    let wrong = |words: &str| Trouble::File(format!("{}: {words}", Path::new(file).display()));
    if bytes.len() > LONGEST_LIST {
        return Err(wrong("too long for a list of lengths"));
    }
    lengths(&bytes).map(Cuts::At).map_err(|words| wrong(&words))
}

fn lengths(list: &[u8]) -> Result<Vec<u64>, String> {
    let text = std::str::from_utf8(list).map_err(|_| "no list of lengths: it is no text".to_string())?;
    let words = text.split(|c: char| c == ',' || c.is_ascii_whitespace()).filter(|word| !word.is_empty());
    let length = |word: &str| {
        let digits = word.bytes().all(|byte| byte.is_ascii_digit());
        let number = word.parse().ok().filter(|length| digits && (1..=LONGEST).contains(length));
        number.ok_or_else(|| format!("{word}: a chunk's length is a number from 1 to {LONGEST}"))
    };
    let lengths = words.map(length).collect::<Result<Vec<_>, _>>()?;
    if lengths.is_empty() {
        return Err("no lengths in it".into());
    }
    Ok(lengths)
}

impl Cuts {
    /// How many chunks a file of so many bytes has. An empty file has one, which is empty.
    pub fn count(&self, size: u64) -> u64 {
        match self {
            Cuts::None => 1,
            Cuts::Every(length) => size.div_ceil(*length).max(1),
            Cuts::At(lengths) => lengths.len() as u64,
        }
    }

    /// The most bytes that the chunk of this number has; nothing where there is none. A file without cuts has one byte more than a chunk may have, so that
    /// a proved call refuses it.
    pub fn length(&self, number: u64) -> Option<u64> {
        match self {
            Cuts::None => (number == 0).then_some(LONGEST + 1),
            Cuts::Every(length) => Some(*length),
            Cuts::At(lengths) => lengths.get(number as usize).copied(),
        }
    }

    /// Whether a file of so many bytes can be cut so.
    pub fn fit(&self, size: u64) -> Result<(), String> {
        match self {
            Cuts::At(lengths) if lengths.iter().sum::<u64>() != size => {
                let sum = lengths.iter().sum();
                Err(format!("its cuts add up to {}, and it has {}", counted(sum, "byte"), counted(size, "byte")))
            }
            _ => Ok(()),
        }
    }

    /// The lengths of the chunks of a file of so many bytes.
    pub fn lengths(&self, size: u64) -> Vec<u64> {
        match self {
            Cuts::None => vec![size],
            Cuts::Every(length) => (0..self.count(size)).map(|number| (size - number * length).min(*length)).collect(),
            Cuts::At(lengths) => lengths.clone(),
        }
    }
}

#[cfg(test)]
mod tests {
    use super::*;

    #[test]
    fn chunks_of_a_file() {
        let every = Cuts::Every(8);
        assert_eq!([every.lengths(0), every.lengths(8), every.lengths(17)], [vec![0], vec![8], vec![8, 8, 1]]);
        assert_eq!([every.count(0), every.count(8), every.count(9)], [1, 1, 2]);
        assert_eq!(Cuts::None.lengths(70000), [70000]);
        let at = Cuts::At(vec![3, 5]);
        assert!(at.fit(8).is_ok() && at.fit(7).is_err() && every.fit(7).is_ok());
        assert_eq!([at.length(0), at.length(1), at.length(2)], [Some(3), Some(5), None]);
    }

    #[test]
    fn lists_of_lengths() {
        assert_eq!(lengths(b"1, 65536\n7\r\n"), Ok(vec![1, 65536, 7]));
        for wrong in [&b""[..], b" \n", b"0", b"65537", b"+1", b"1.5", b"x", b"99999999999999999999", b"\xff"] {
            assert!(lengths(wrong).is_err());
        }
    }
}
