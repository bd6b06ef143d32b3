//! The manual page, made from the text of the help: the same words, laid out for `man`.
use crate::help;

/// Text as troff takes it: what stands in it is printed as it is, and a hyphen can be copied as one.
fn escaped(text: &str) -> String {
    let mut line = if text.starts_with('.') || text.starts_with('\'') { "\\&".to_string() } else { String::new() };
    for character in text.chars() {
        match character {
            '\\' => line += "\\e",
            '-' => line += "\\-",
            '\'' => line += "\\(aq",
            '`' => line += "\\(ga",
            '~' => line += "\\(ti",
            '^' => line += "\\(ha",
            other => line.push(other),
        }
    }
    line
}

/// What the line before was.
#[derive(Clone, Copy, PartialEq, Eq)]
enum Last {
    Text,
    /// How a command is typed.
    Head,
    /// A line that keeps its layout.
    Typed,
    Blank,
}

struct Page {
    lines: Vec<String>,
    last: Last,
}

impl Page {
    fn push(&mut self, line: impl Into<String>) {
        self.lines.push(line.into());
    }

    /// A line of running text, or one that keeps its layout, in front of the commands and behind them.
    fn text(&mut self, line: &str) {
        let now = if line.is_empty() {
            Last::Blank
        } else if line.starts_with("    ") {
            Last::Typed
        } else {
            Last::Text
        };
        match (self.last, now) {
            (Last::Typed, Last::Typed) | (_, Last::Blank) => {}
            (_, Last::Typed) => [".PP", ".RS 4", ".nf"].into_iter().for_each(|line| self.push(line)),
            (Last::Blank, Last::Text) => self.push(".PP"),
            _ => {}
        }
        if self.last == Last::Typed && now != Last::Typed {
            [".fi", ".RE"].into_iter().for_each(|line| self.push(line));
        }
        if now != Last::Blank {
            self.push(escaped(line.trim_start()));
        }
        self.last = now;
    }

    /// A line about a command: how it is typed, which may go on far to the right on the next line, or what is said of it.
    fn of_command(&mut self, line: &str) {
        let head = line.starts_with("  ") && !line.starts_with("   ");
        if head {
            self.push(if self.last == Last::Head { ".TQ" } else { ".TP" });
            self.push(format!("\\fB{}\\fR", escaped(line.trim_start())));
        } else if let (Last::Head, true, Some(last)) = (self.last, line.starts_with("          "), self.lines.last_mut()) {
            *last += &format!(" \\fB{}\\fR", escaped(line.trim_start()));
            return;
        } else if !line.is_empty() {
            self.push(escaped(line.trim_start()));
        }
        self.last = if head { Last::Head } else { Last::Text };
    }
}

/// The page in the language of `man`.
pub fn manual(version: &str) -> String {
    let mut page = Page { lines: Vec::new(), last: Last::Text };
    page.push("'\\\" made from the text of `sleep-archive --help`");
    page.push(format!(".TH SLEEP\\-ARCHIVE 1 \"\" \"sleep\\-archive {version}\" \"User Commands\""));
    [".nh", ".ad l", ".SH NAME"].into_iter().for_each(|line| page.push(line));
    let mut in_commands = false;
    for (count, line) in help::marked().enumerate() {
        match (count, line.strip_prefix(help::MARK).map(str::trim)) {
            (0, _) => {
                page.push(escaped(line).replacen(": ", " \\- ", 1));
                [".SH SYNOPSIS", "\\fBsleep\\-archive\\fR \\fICOMMAND\\fR ...", ".SH DESCRIPTION"]
                    .into_iter()
                    .for_each(|line| page.push(line));
            }
            (_, Some("")) => {
                in_commands = false;
                page.push(".SH NOTES");
            }
            (_, Some(names)) => {
                if !in_commands {
                    page.text("");
                    page.push(".SH COMMANDS");
                }
                in_commands = true;
                page.push(format!(".SS {}", escaped(&names.replace(' ', ", "))));
            }
            (_, None) if in_commands => page.of_command(line),
            (_, None) if line.starts_with("Exit status: ") => {
                page.push(".SH EXIT STATUS");
                page.last = Last::Text;
                page.text(line);
            }
            (_, None) => page.text(line),
        }
    }
    page.lines.iter().map(|line| format!("{line}\n")).collect()
}

#[cfg(test)]
mod tests {
    use super::*;

    #[test]
    fn every_word_of_the_help_is_there() {
        let manual = manual("1.2.3");
        let said = help::page().lines().skip(1).map(|line| escaped(line.trim())).filter(|line| !line.is_empty()).collect::<Vec<_>>();
        let mut rest = manual.as_str();
        for line in said {
            let at = rest.find(&line).unwrap_or_else(|| panic!("not in the manual page, or not in its place: {line}"));
            rest = &rest[at + line.len()..];
        }
        assert!(manual.contains(".TH SLEEP\\-ARCHIVE 1 \"\" \"sleep\\-archive 1.2.3\"") && manual.contains(".SH EXIT STATUS"));
    }

    #[test]
    fn troff_obeys_nothing() {
        assert_eq!(escaped(".PP \\x -a 'b'"), "\\&.PP \\ex \\-a \\(aqb\\(aq");
        assert_eq!(escaped("'tis"), "\\&\\(aqtis");
    }
}
