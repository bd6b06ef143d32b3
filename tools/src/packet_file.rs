//! The form of a file of many packets, as docs/FORMAT.md has it: what both registers are said to be, then packets of one and of the other, each behind its
//! chunk's number and its length. It is read from front to back, a packet at a time, and nothing in it is believed here: a packet is held to a root hash
//! where it is taken in, and the root hash that stands in the file is for people to look at.
use crate::counts::{Which, BOTH, LONGEST, MOST_CHUNKS};
use crate::sleep_register::PACKET_EXTRA;
use std::io::{self, Read};

pub const MAGIC: &[u8; 16] = b"sleep-packets 1\n";

/// The bytes that tell of a register, and those before a packet.
const ABOUT: usize = 120;
const BEFORE: usize = 12;

/// What the file begins with: the magic, and both registers.
pub const HEAD: usize = MAGIC.len() + 2 * ABOUT;

/// A packet has at least the length of its chunk and two counts.
const SHORTEST: u64 = 6;
const LONGEST_PACKET: u64 = LONGEST + PACKET_EXTRA as u64;

/// What a file says of a register, and how many packets of it follow.
#[derive(Clone, Debug, PartialEq, Eq)]
pub struct About {
    pub n: u64,
    pub size: u64,
    pub root: [u8; 32],
    /// The signature of that root hash; zeros where there is none.
    pub signature: [u8; 64],
    pub count: u64,
}

impl About {
    fn put(&self) -> Vec<u8> {
        [&self.n.to_be_bytes()[..], &self.size.to_be_bytes(), &self.root, &self.signature, &self.count.to_be_bytes()].concat()
    }

    fn of(bytes: &[u8]) -> About {
        let (root, signature) = (bytes[16..48].try_into().expect("32 bytes"), bytes[48..112].try_into().expect("64 bytes"));
        About { n: number(&bytes[..8]), size: number(&bytes[8..16]), root, signature, count: number(&bytes[112..]) }
    }

    pub fn is_signed(&self) -> bool {
        self.signature != [0; 64]
    }

    /// Why no register can be so.
    fn wrong(&self, which: Which) -> Option<String> {
        let About { n, size, count, .. } = self;
        let name = which.name();
        if *n > MOST_CHUNKS {
            return Some(format!("it tells of {n} chunks of {name}, and a register has at most {MOST_CHUNKS}"));
        }
        if *size > n * LONGEST {
            return Some(format!("it tells of {size} bytes in {n} chunks of {name}, which have at most {}", n * LONGEST));
        }
        (count > n).then(|| format!("it tells of {count} packets of {n} chunks of {name}"))
    }
}

fn number(bytes: &[u8]) -> u64 {
    u64::from_be_bytes(bytes.try_into().expect("8 bytes"))
}

/// The bytes that a file begins with.
pub fn head(registers: &[About; 2]) -> Vec<u8> {
    [&MAGIC[..], &registers[0].put(), &registers[1].put()].concat()
}

/// What stands before a packet.
pub fn before(chunk: u64, length: usize) -> Vec<u8> {
    [&chunk.to_be_bytes()[..], &(length as u32).to_be_bytes()].concat()
}

/// Why a file can't be read on: what the system says, or what is wrong with it.
#[derive(Debug)]
pub enum Unread {
    File(io::Error),
    Wrong(String),
}

type Read_<T> = Result<T, Unread>;

fn wrong<T>(words: impl Into<String>) -> Read_<T> {
    Err(Unread::Wrong(words.into()))
}

/// A file of packets that is being read.
pub struct Packets<R> {
    from: R,
    pub registers: [About; 2],
    /// The register whose packets are read, how many of them were, and the number of the last.
    at: (usize, u64, Option<u64>),
    packet: Vec<u8>,
}

impl<R: Read> Packets<R> {
    /// Reads what the file says of both registers.
    pub fn of(mut from: R) -> Read_<Packets<R>> {
        let mut bytes = [0; HEAD];
        let there = filled(&mut from, &mut bytes)?;
        if !bytes[..there].starts_with(MAGIC) {
            return wrong("no file of packets");
        }
        if there < HEAD {
            return wrong("a file of packets that ends before its first packet");
        }
        let about = |at: usize| About::of(&bytes[MAGIC.len() + at * ABOUT..][..ABOUT]);
        let registers = [about(0), about(1)];
        if let Some(words) = BOTH.iter().zip(&registers).find_map(|(which, about)| about.wrong(*which)) {
            return wrong(words);
        }
        Ok(Packets { from, registers, at: (0, 0, None), packet: Vec::new() })
    }

    /// The next packet; nothing behind the last one, where the file must end.
    pub fn next(&mut self) -> Read_<Option<(Which, u64, &[u8])>> {
        while self.at.0 < BOTH.len() && self.at.1 == self.registers[self.at.0].count {
            self.at = (self.at.0 + 1, 0, None);
        }
        let Some(which) = BOTH.get(self.at.0) else {
            return match filled(&mut self.from, &mut [0])? {
                0 => Ok(None),
                _ => wrong("it has bytes behind its last packet"),
            };
        };
        let chunk = self.packet(*which)?;
        self.at = (self.at.0, self.at.1 + 1, Some(chunk));
        Ok(Some((*which, chunk, &self.packet)))
    }

    /// Reads a packet into its room; the number of its chunk.
    fn packet(&mut self, which: Which) -> Read_<u64> {
        let (name, mut bytes) = (which.name(), [0; BEFORE]);
        let (place, About { n, count, .. }) = (self.at.1 + 1, &self.registers[self.at.0]);
        let ends = || wrong(format!("it ends in packet {place} of the {count} of {name} that it tells of"));
        if filled(&mut self.from, &mut bytes)? < BEFORE {
            return ends();
        }
        let (chunk, length) = (number(&bytes[..8]), u64::from(u32::from_be_bytes(bytes[8..].try_into().expect("4 bytes"))));
        if chunk >= *n {
            return wrong(format!("packet {place} of {name} is said to be of chunk {chunk}, and there are {n}"));
        }
        if self.at.2.is_some_and(|last| chunk <= last) {
            return wrong(format!("packet {place} of {name} is of chunk {chunk}: the numbers of chunks don't rise"));
        }
        if !(SHORTEST..=LONGEST_PACKET).contains(&length) {
            return wrong(format!("packet {place} of {name} is said to have {length} bytes, which no packet has"));
        }
        self.packet.resize(length as usize, 0);
        if filled(&mut self.from, &mut self.packet)? < length as usize {
            return ends();
        }
        Ok(chunk)
    }
}

/// Reads as many bytes as there is room for, or as there are.
fn filled(from: &mut impl Read, bytes: &mut [u8]) -> Read_<usize> {
    let mut there = 0;
    while there < bytes.len() {
        match from.read(&mut bytes[there..]) {
            Ok(0) => break,
            Ok(more) => there += more,
            Err(error) if error.kind() == io::ErrorKind::Interrupted => continue,
            Err(error) => return Err(Unread::File(error)),
        }
    }
    Ok(there)
}

#[cfg(test)]
mod tests {
    use super::*;

    fn about(n: u64, size: u64, count: u64) -> About {
        About { n, size, root: [7; 32], signature: [0; 64], count }
    }

    fn file(registers: [About; 2], packets: &[(u64, &[u8])]) -> Vec<u8> {
        let packets = packets.iter().flat_map(|(chunk, bytes)| [before(*chunk, bytes.len()), bytes.to_vec()].concat());
        head(&registers).into_iter().chain(packets).collect()
    }

    fn all(bytes: &[u8]) -> Result<Vec<(Which, u64, Vec<u8>)>, String> {
        let words = |unread| match unread {
            Unread::Wrong(words) => words,
            Unread::File(error) => panic!("{error}"),
        };
        let (mut packets, mut found) = (Packets::of(bytes).map_err(words)?, Vec::new());
        while let Some((which, chunk, packet)) = packets.next().map_err(words)? {
            found.push((which, chunk, packet.to_vec()));
        }
        Ok(found)
    }

    #[test]
    fn what_is_written_is_read() {
        let bytes = file([about(3, 9, 1), about(9, 100, 2)], &[(2, b"abcdef"), (0, b"ghijklm"), (8, b"nopqrs")]);
        assert_eq!((HEAD, bytes.len()), (256, 256 + 3 * 12 + 19));
        let found = all(&bytes).unwrap();
        assert_eq!(found[0], (Which::Metadata, 2, b"abcdef".to_vec()));
        assert_eq!(found[1..], [(Which::Content, 0, b"ghijklm".to_vec()), (Which::Content, 8, b"nopqrs".to_vec())]);
        assert_eq!(all(&file([about(0, 0, 0), about(0, 0, 0)], &[])), Ok(Vec::new()));
        for end in 0..bytes.len() {
            assert!(all(&bytes[..end]).is_err(), "{end} bytes of it are read");
        }
        assert!(all(&[&bytes[..], b"x"].concat()).is_err());
    }

    #[test]
    fn what_no_file_has() {
        for (n, size, count) in [(MOST_CHUNKS + 1, 0, 0), (u64::MAX, 0, 0), (1, LONGEST + 1, 0), (0, 1, 0), (2, 2, 3), (2, 2, u64::MAX)] {
            assert!(all(&file([about(n, size, count), about(0, 0, 0)], &[])).is_err());
            assert!(all(&file([about(0, 0, 0), about(n, size, count)], &[])).is_err());
        }
        let two = |first: u64, second: u64| all(&file([about(0, 0, 0), about(5, 9, 2)], &[(first, b"abcdef"), (second, b"abcdef")]));
        assert!(two(3, 4).is_ok() && two(3, 3).is_err() && two(4, 3).is_err() && two(4, 5).is_err());
        for length in [0, 5, LONGEST as usize + PACKET_EXTRA + 1, u32::MAX as usize] {
            let bytes = [file([about(0, 0, 0), about(5, 9, 1)], &[]), before(0, length)].concat();
            assert!(all(&bytes).is_err());
        }
    }
}
