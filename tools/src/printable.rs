//! Names as they can be printed: a name may have any bytes, and a terminal obeys some of them.
/// Whether a backslash stands for itself, in a message, or is written as its number, in a name that is to be read back.
#[derive(Clone, Copy, PartialEq, Eq)]
pub enum Backslash {
    Kept,
    Numbered,
}

/// Characters that are not seen, and that turn round, hide or break what stands beside them.
fn is_unseen(character: char) -> bool {
    matches!(character, '\u{ad}' | '\u{61c}' | '\u{180e}' | '\u{200b}'..='\u{200f}' | '\u{2028}'..='\u{202e}' | '\u{2060}'..='\u{206f}' | '\u{feff}' | '\u{fff9}'..='\u{fffb}' | '\u{e0000}'..='\u{e007f}')
}

/// Bytes on one line: control characters, what is not seen, and bytes that are no character as \\xNN for each byte.
pub fn harmless(bytes: &[u8], backslash: Backslash) -> Vec<u8> {
    let mut line = Vec::new();
    let escape = |line: &mut Vec<u8>, bytes: &[u8]| bytes.iter().for_each(|byte| line.extend(format!("\\x{byte:02x}").bytes()));
    for part in bytes.utf8_chunks() {
        for character in part.valid().chars() {
            let mut bytes = [0; 4];
            let bytes = character.encode_utf8(&mut bytes).as_bytes();
            let numbered = character == '\\' && backslash == Backslash::Numbered;
            match numbered || character.is_control() || is_unseen(character) {
                true => escape(&mut line, bytes),
                false => line.extend(bytes),
            }
        }
        escape(&mut line, part.invalid());
    }
    line
}

/// A name of an archive, in a list.
pub fn printable(name: &[u8]) -> Vec<u8> {
    harmless(name, Backslash::Numbered)
}

/// The same in a message.
pub fn shown(name: &[u8]) -> String {
    String::from_utf8_lossy(&printable(name)).into_owned()
}

#[cfg(test)]
mod tests {
    use super::*;

    #[test]
    fn nothing_moves_a_terminal() {
        assert_eq!(shown(b"/caf\xc3\xa9 x"), "/caf\u{e9} x");
        assert_eq!(shown(b"/a\nb\x1b[2J\x7f"), "/a\\x0ab\\x1b[2J\\x7f");
        assert_eq!(shown(b"/\x9b1m\xff"), "/\\x9b1m\\xff");
        assert_eq!(shown("/\u{202e}gpj".as_bytes()), "/\\xe2\\x80\\xaegpj");
        assert_eq!(shown("/\u{85}".as_bytes()), "/\\xc2\\x85");
        assert_eq!(shown(b"/back\\slash"), "/back\\x5cslash");
        assert_eq!(harmless(b"a\\x0a\x07", Backslash::Kept), b"a\\x0a\\x07");
    }
}
