//! The help: one page, whose parts are marked with the commands that they are about.
use crate::words::{usage, Done};

const PAGE: &str = include_str!("help.txt");
pub const MARK: &str = "==";

/// The lines of the page, with its marks.
pub fn marked() -> impl Iterator<Item = &'static str> {
    PAGE.lines()
}

/// The whole page, without its marks.
pub fn page() -> String {
    PAGE.lines().filter(|line| !line.starts_with(MARK)).map(|line| format!("{line}\n")).collect()
}

/// What the page says of one command.
pub fn on(name: &str) -> Done<String> {
    let (mut said, mut of_it) = (String::new(), false);
    for line in PAGE.lines() {
        match line.strip_prefix(MARK) {
            Some(names) => of_it = names.split(' ').any(|named| named == name),
            None if of_it => said += &format!("{line}\n"),
            None => {}
        }
    }
    if said.is_empty() {
        return usage(format!("there is no command {name}; --help names them"));
    }
    Ok(said)
}
