//! Lines of JSON, in ASCII alone: names have any bytes, and a terminal obeys some of them.
use std::fmt::Write;

/// A string.
pub fn string(words: &str) -> String {
    let mut line = String::from("\"");
    for character in words.chars() {
        match character {
            '"' => line += "\\\"",
            '\\' => line += "\\\\",
            ' '..='~' => line.push(character),
            _ => character.encode_utf16(&mut [0; 2]).iter().for_each(|unit| write!(line, "\\u{unit:04x}").unwrap()),
        }
    }
    line + "\""
}

/// A string of bytes that are UTF-8, or null.
pub fn string_of(bytes: &[u8]) -> String {
    std::str::from_utf8(bytes).map_or("null".into(), string)
}

/// A number, or null.
pub fn number(number: Option<u64>) -> String {
    number.map_or("null".into(), |number| number.to_string())
}

/// Named values, each in JSON already, as an object on one line.
pub fn object(values: &[(&str, String)]) -> String {
    let values = values.iter().map(|(name, value)| format!("{}: {value}", string(name))).collect::<Vec<_>>();
    format!("{{{}}}", values.join(", "))
}

#[cfg(test)]
mod tests {
    use super::*;

    #[test]
    fn strings_are_ascii() {
        assert_eq!(string("/a \"b\"\\\n\u{7f}"), "\"/a \\\"b\\\"\\\\\\u000a\\u007f\"");
        assert_eq!(string("/caf\u{e9}\u{1f9f5}"), "\"/caf\\u00e9\\ud83e\\uddf5\"");
        assert_eq!((string_of(b"/\xff"), string_of(b"/a")), ("null".into(), "\"/a\"".into()));
    }

    #[test]
    fn objects_on_a_line() {
        assert_eq!(object(&[("a", number(Some(1))), ("b", number(None))]), "{\"a\": 1, \"b\": null}");
    }
}
