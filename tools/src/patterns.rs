//! Which names a word means: a name, all that lies below it, or a pattern. `*` stands for any bytes but a slash, `**` for any bytes, `?` for one character
//! but a slash, `[..]` for one of some bytes, and a backslash makes what follows stand for itself.
use crate::printable::shown;
use crate::words::{usage, Done};
use std::ffi::OsStr;

#[derive(Debug, PartialEq, Eq)]
enum Token {
    Byte(u8),
    /// One byte but a slash.
    One,
    /// One of these ranges of bytes, or none of them; never a slash.
    Of(Vec<(u8, u8)>, bool),
    /// Any bytes, with slashes or without.
    Many(bool),
    /// What follows the first byte of a character.
    Tail,
}

pub struct Pattern {
    word: Vec<u8>,
    tokens: Vec<Token>,
}

impl Pattern {
    /// A word that begins with a slash, as names do, or with a star.
    pub fn of(word: &OsStr) -> Done<Pattern> {
        let bytes = word.as_encoded_bytes();
        if !bytes.starts_with(b"/") && !bytes.starts_with(b"*") {
            return usage(format!("{}: a name begins with a slash, and a pattern with a slash or **", shown(bytes)));
        }
        let end = bytes.iter().rposition(|byte| *byte != b'/').map_or(0, |at| at + 1);
        Ok(Pattern { word: bytes[..end].to_vec(), tokens: tokens(&bytes[..end]) })
    }

    pub fn words(&self) -> String {
        if self.word.is_empty() {
            return "/".into();
        }
        shown(&self.word)
    }

    /// Whether a name, or a folder above it, is the word as it stands or as a pattern.
    pub fn takes(&self, name: &[u8]) -> bool {
        let below = name.strip_prefix(&self.word[..]).is_some_and(|rest| rest.is_empty() || rest.starts_with(b"/"));
        below || self.matches(name)
    }

    /// Takes all ways through the pattern at once, a byte of the name after another.
    fn matches(&self, name: &[u8]) -> bool {
        let end = self.tokens.len();
        let (mut now, mut next) = (vec![false; end + 1], vec![false; end + 1]);
        self.enter(&mut now, 0);
        for byte in name {
            if *byte == b'/' && now[end] {
                return true;
            }
            next.fill(false);
            for at in (0..end).filter(|at| now[*at]) {
                match &self.tokens[at] {
                    Token::Byte(one) if one == byte => self.enter(&mut next, at + 1),
                    Token::One if *byte != b'/' => self.enter(&mut next, at + 1),
                    Token::Of(ranges, others)
                        if *byte != b'/' && ranges.iter().any(|(from, to)| (from..=to).contains(&byte)) != *others =>
                    {
                        self.enter(&mut next, at + 1)
                    }
                    Token::Many(slashes) if *slashes || *byte != b'/' => self.enter(&mut next, at),
                    Token::Tail if (0x80..0xc0).contains(byte) => self.enter(&mut next, at),
                    _ => {}
                }
            }
            std::mem::swap(&mut now, &mut next);
            if !now.contains(&true) {
                return false;
            }
        }
        now[end]
    }

    /// A place in the pattern, and those behind it that need no byte.
    fn enter(&self, places: &mut [bool], from: usize) {
        for (at, place) in places.iter_mut().enumerate().skip(from) {
            *place = true;
            if !matches!(self.tokens.get(at), Some(Token::Many(_) | Token::Tail)) {
                return;
            }
        }
    }
}

fn tokens(word: &[u8]) -> Vec<Token> {
    let (mut tokens, mut at) = (Vec::new(), 0);
    while let Some(byte) = word.get(at) {
        at += 1;
        match byte {
            b'*' if word.get(at) == Some(&b'*') => {
                at += 1;
                tokens.push(Token::Many(true));
            }
            b'*' => tokens.push(Token::Many(false)),
            b'?' => tokens.extend([Token::One, Token::Tail]),
            b'[' => match set(&word[at..]) {
                Some((token, length)) => {
                    at += length;
                    tokens.push(token);
                }
                None => tokens.push(Token::Byte(b'[')),
            },
            b'\\' if at < word.len() => {
                tokens.push(Token::Byte(word[at]));
                at += 1;
            }
            byte => tokens.push(Token::Byte(*byte)),
        }
    }
    tokens
}

/// What stands behind an opening bracket, up to the closing one; nothing where there is none. A first closing bracket is one of the bytes.
fn set(rest: &[u8]) -> Option<(Token, usize)> {
    let others = matches!(rest.first(), Some(b'!' | b'^'));
    let from = usize::from(others);
    let end = rest.iter().enumerate().skip(from + 1).find(|(_, byte)| **byte == b']')?.0;
    let (bytes, mut ranges, mut at) = (&rest[from..end], Vec::new(), 0);
    while at < bytes.len() {
        let range = at + 2 < bytes.len() && bytes[at + 1] == b'-';
        ranges.push((bytes[at], if range { bytes[at + 2] } else { bytes[at] }));
        at += if range { 3 } else { 1 };
    }
    Some((Token::Of(ranges, others), end + 1))
}

#[cfg(test)]
mod tests {
    use super::*;

    fn takes(word: &str, name: &str) -> bool {
        Pattern::of(OsStr::new(word)).unwrap().takes(name.as_bytes())
    }

    #[test]
    fn names_and_folders() {
        for (word, name) in [
            ("/", "/a"),
            ("/coat", "/coat"),
            ("/coat", "/coat/a/b"),
            ("/coat/", "/coat/a"),
            ("/coat//", "/coat"),
            ("/a[1]", "/a[1]"),
            ("/a*b", "/a*b/c"),
        ] {
            assert!(takes(word, name), "{word} {name}");
        }
        for (word, name) in [("/coat", "/coats"), ("/coat/a", "/coat"), ("/Coat", "/coat"), ("/coat", "/a/coat")] {
            assert!(!takes(word, name), "{word} {name}");
        }
        assert!(Pattern::of(OsStr::new("coat")).is_err() && Pattern::of(OsStr::new("")).is_err());
    }

    #[test]
    fn patterns() {
        for (word, name) in [
            ("/coat/*.plt", "/coat/a.plt"),
            ("/*", "/coat/deep/a"),
            ("/*/a", "/coat/a"),
            ("**.plt", "/coat/deep/a.plt"),
            ("/**/a", "/x/y/a"),
            ("/caf?", "/caf\u{e9}"),
            ("/?b", "/ab"),
            ("/[a-c]x", "/bx"),
            ("/[!a-c]x", "/dx"),
            ("/[]x]", "/]"),
            ("/\\*", "/*"),
            ("/a[", "/a["),
            ("/*a*a*a*a*a*b", "/aaaaaaaaaab"),
        ] {
            assert!(takes(word, name), "{word} {name}");
        }
        for (word, name) in [
            ("/coat/*.plt", "/coat/deep/a.plt"),
            ("/coat/*.plt", "/coat/a.pltx"),
            ("/*/a", "/a"),
            ("/?", "/"),
            ("/a?b", "/a/b"),
            ("/[a-c]x", "/dx"),
            ("/[!a-c]x", "/ax"),
            ("/a[!b]c", "/a/c"),
            ("/\\*", "/a"),
            ("/*a*a*a*a*a*b", "/aaaaaaaaaaaaaaaaaaaaaaaaaaaaaaaaaaaaaaaaaaaaaaaaaaa"),
        ] {
            assert!(!takes(word, name), "{word} {name}");
        }
    }
}
