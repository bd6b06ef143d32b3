//! An archive at the shell: pattern pieces in the files of two SLEEP registers. What it says about a register comes from calls of the proved library.
mod adding;
mod arguments;
mod batch;
mod below;
mod changes;
mod chosen;
mod commit;
mod counts;
mod cuts;
mod dates;
mod diff;
mod disk;
mod export;
mod files;
mod folder;
mod growing;
mod help;
mod hold;
mod image;
mod inputs;
mod joined;
mod journal;
mod journal_calls;
mod json;
mod kept;
mod laying;
mod left_over;
mod list;
mod lock;
mod making;
mod manual;
mod meant;
mod memory;
mod names;
mod outputs;
mod packet_file;
mod packets;
mod page;
mod paper;
mod parcels;
mod parts;
mod paths;
mod patterns;
mod printable;
mod progress;
mod reading;
mod sheet;
mod sheet_html;
mod shells;
mod signals;
mod signer;
mod signing;
#[allow(clippy::all)]
#[path = "../../bindings/sleep_register.rs"]
mod sleep_register;
mod sources;
mod splice;
mod trusted;
mod unchanged;
mod verify;
mod walk;
mod windows;
mod words;
mod writing;

use arguments::{flag, word, Arguments, Rule};
use std::process::ExitCode;
use words::{be_quiet, tell, usage, Done};

struct Command {
    name: &'static str,
    /// What it does with archives: the options that go with that are its own too.
    opens: Opens,
    rules: &'static [Rule],
    run: fn(&Arguments) -> Done<()>,
}

#[derive(Clone, Copy, PartialEq, Eq)]
enum Opens {
    Nothing,
    ToRead,
    ToWrite,
    /// And runs another program, whose words stand behind the archive.
    ForOthers,
}

const HELPS: &[Rule] = &[flag("--help"), flag("-h"), flag("-q")];
const WAITS: &[Rule] = &[word("--wait")];
const READS: &[Rule] = &[flag("--without-journal"), flag("--large-journal")];
const ADDS: &[Rule] = &[
    word("--as"),
    word("--in"),
    word("--split"),
    word("--cuts"),
    word("--sign-with"),
    word("--signer"),
    word("--commit-every"),
    flag("--changed"),
    flag("--times"),
    flag("--dry-run"),
];
const NEEDS: &[Rule] = &[word("--as"), word("--in"), word("--lengths"), word("--split"), word("--cuts")];

const COMMANDS: &[Command] = &[
    Command {
        name: "new",
        opens: Opens::ToWrite,
        rules: &[word("--metadata-key"), word("--content-key"), flag("--no-page")],
        run: making::new,
    },
    Command {
        name: "copy",
        opens: Opens::ToWrite,
        rules: &[word("--of"), flag("--names"), word("--metadata"), word("--content"), flag("--no-page")],
        run: making::copy,
    },
    Command { name: "add", opens: Opens::ToWrite, rules: ADDS, run: adding::add },
    Command { name: "list", opens: Opens::ToRead, rules: &[flag("--all"), flag("--long"), flag("--json"), flag("-0")], run: list::list },
    Command { name: "sign", opens: Opens::ToWrite, rules: &[word("--metadata"), word("--content"), word("--with")], run: signing::sign },
    Command { name: "release", opens: Opens::ToWrite, rules: &[], run: writing::release },
    Command { name: "status", opens: Opens::ToRead, rules: &[], run: reading::status },
    Command { name: "get", opens: Opens::ToRead, rules: &[word("-o"), flag("--metadata")], run: reading::get },
    Command { name: "export", opens: Opens::ToRead, rules: &[flag("--overwrite")], run: export::export },
    Command {
        name: "audit",
        opens: Opens::ToRead,
        rules: &[word("--threads"), word("--from"), word("--root"), word("--first")],
        run: reading::audit,
    },
    Command { name: "verify", opens: Opens::ToRead, rules: &[word("--with")], run: verify::verify },
    Command {
        name: "sheet",
        opens: Opens::ToRead,
        rules: &[flag("--html"), word("--date"), flag("--no-audit"), word("-o")],
        run: sheet::sheet,
    },
    Command { name: "signature", opens: Opens::ToRead, rules: &[flag("--raw")], run: verify::signature },
    Command { name: "compare", opens: Opens::ToRead, rules: &[word("--threads")], run: reading::compare },
    Command { name: "diff", opens: Opens::ToRead, rules: &[word("--first")], run: diff::diff },
    Command { name: "root", opens: Opens::ToRead, rules: &[word("--first"), flag("--raw")], run: reading::root },
    Command { name: "label", opens: Opens::ToRead, rules: &[word("--key"), word("--first")], run: reading::label },
    Command { name: "needs", opens: Opens::ToRead, rules: NEEDS, run: names::needs },
    Command { name: "missing", opens: Opens::ToRead, rules: &[word("--from"), flag("--metadata"), flag("--names")], run: reading::missing },
    Command {
        name: "packet",
        opens: Opens::ToRead,
        rules: &[word("-o"), flag("--metadata"), word("--first"), word("--chunks"), word("--number"), word("--root")],
        run: packets::packet,
    },
    Command {
        name: "packets",
        opens: Opens::ToRead,
        rules: &[word("-o"), word("--first"), word("--since"), word("--root"), word("--of"), word("--with")],
        run: parcels::packets,
    },
    Command { name: "grow", opens: Opens::ToWrite, rules: &[word("--of"), word("--root"), word("--with")], run: growing::grow },
    Command { name: "hold", opens: Opens::ForOthers, rules: &[], run: hold::hold },
    Command { name: "journal", opens: Opens::ToWrite, rules: &[flag("--drop"), flag("--finish")], run: journal::journal },
    Command { name: "group", opens: Opens::Nothing, rules: &[], run: reading::group },
    Command { name: "ungroup", opens: Opens::Nothing, rules: &[], run: reading::ungroup },
];

impl Command {
    /// Its own options, and those that others have too.
    fn all_rules(&self) -> [&'static [Rule]; 4] {
        let waits = if self.opens == Opens::Nothing { &[] } else { WAITS };
        let reads = if self.opens == Opens::ToRead { READS } else { &[] };
        [self.rules, HELPS, waits, reads]
    }

    fn arguments(&self, words: impl Iterator<Item = std::ffi::OsString>) -> Done<Arguments> {
        Arguments::of(words, &self.all_rules(), self.opens == Opens::ForOthers)
    }
}

/// The commands with their options, for those who complete them.
fn known() -> Vec<shells::Known> {
    COMMANDS.iter().map(|command| (command.name, command.all_rules().concat().iter().map(|rule| rule.name).collect())).collect()
}

/// `help`: of all commands, or of one; or what is made of the help and of the table, to be installed.
fn helped(of: Option<&str>) -> Done<String> {
    match of {
        None => Ok(help::page()),
        Some("--manual") => Ok(manual::manual(page::VERSION)),
        Some("--bash") => Ok(shells::bash(&known())),
        Some("--zsh") => Ok(shells::zsh(&known())),
        Some(name) => help::on(name),
    }
}

fn run() -> Done<()> {
    let mut words = std::env::args_os().skip(1);
    let Some(name) = words.next() else { return usage("a command is needed; --help names them") };
    if name == "--help" || name == "-h" || name == "help" {
        let of = words.next().map(|name| name.to_string_lossy().into_owned());
        return outputs::give(None, helped(of.as_deref())?.as_bytes());
    }
    if name == "--version" {
        return outputs::say(&format!("sleep-archive {}", page::VERSION));
    }
    let Some(command) = COMMANDS.iter().find(|command| name == command.name) else {
        return usage(format!("there is no command {}; --help names them", name.to_string_lossy()));
    };
    let arguments = command.arguments(words)?;
    if arguments.has("--help") || arguments.has("-h") {
        return outputs::give(None, help::on(command.name)?.as_bytes());
    }
    if arguments.has("-q") {
        be_quiet();
    }
    (command.run)(&arguments)
}

fn main() -> ExitCode {
    match run() {
        Ok(()) => ExitCode::SUCCESS,
        Err(trouble) => {
            tell(&format!("sleep-archive: {}", trouble.words()));
            ExitCode::from(trouble.status())
        }
    }
}

#[cfg(test)]
mod tests {
    use super::*;

    /// The options in the lines that say how a command is typed; those that many commands have stand in the text behind them all.
    fn typed(help: &str) -> Vec<String> {
        let words = help
            .lines()
            .filter(|line| !line.starts_with("      ") || line.starts_with("          "))
            .flat_map(|line| line.split([' ', '[', ']', '|']));
        words.filter(|word| word.len() > 1 && word.starts_with('-')).map(str::to_string).collect()
    }

    #[test]
    fn the_help_names_each_option() {
        for command in COMMANDS {
            let typed = typed(&help::on(command.name).unwrap());
            for rule in command.rules {
                assert!(typed.iter().any(|word| word == rule.name), "{} {} is not in the help", command.name, rule.name);
            }
            for word in &typed {
                assert!(command.all_rules().concat().iter().any(|rule| rule.name == word), "{} {word} is in the help alone", command.name);
            }
        }
        for rule in [HELPS, WAITS, READS].concat() {
            assert!(rule.name == "-h" || help::page().contains(rule.name), "{} is not in the help", rule.name);
        }
    }

    #[test]
    fn options_have_one_meaning() {
        for command in COMMANDS {
            let mut names = command.all_rules().concat().iter().map(|rule| rule.name).collect::<Vec<_>>();
            names.sort_unstable();
            assert!(names.windows(2).all(|two| two[0] != two[1]), "{} takes an option twice", command.name);
        }
    }
}
