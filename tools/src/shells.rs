//! What shells complete: the commands and the options that this program takes, from its own table.

/// A command, and its options.
pub type Known = (&'static str, Vec<&'static str>);

/// Words beside the commands in their place.
const FIRST: [&str; 4] = ["help", "--help", "-h", "--version"];

/// What one of several words is, at a place behind the command.
fn fixed(name: &str) -> Option<(usize, &'static str)> {
    match name {
        "packet" => Some((1, "make take check compare")),
        "audit" | "root" | "label" | "verify" | "signature" => Some((2, "metadata content")),
        _ => None,
    }
}

fn first(commands: &[Known]) -> String {
    commands.iter().map(|(name, _)| *name).chain(FIRST).collect::<Vec<_>>().join(" ")
}

fn names(commands: &[Known]) -> String {
    commands.iter().map(|(name, _)| *name).collect::<Vec<_>>().join(" ")
}

/// One line for each command, in a `case` of the shell.
fn cases(commands: &[Known], line: impl Fn(&Known) -> Option<String>) -> String {
    commands.iter().filter_map(line).collect()
}

/// For bash, as a file of its completions. Where nothing is offered, bash completes files.
pub fn bash(commands: &[Known]) -> String {
    let options = cases(commands, |(name, options)| Some(format!("            {name}) offered='{}' ;;\n", options.join(" "))));
    let words =
        cases(commands, |(name, _)| fixed(name).map(|(place, words)| format!("            {name}:{}) offered='{words}' ;;\n", place + 1)));
    format!(
        "# bash completion of sleep-archive, as `sleep-archive help --bash` prints it\n\
         _sleep_archive() {{\n    \
             local word=${{COMP_WORDS[COMP_CWORD]}} offered=\n    \
             if [ \"$COMP_CWORD\" -eq 1 ]; then\n        offered='{}'\n    \
             elif [ \"${{COMP_WORDS[1]}}\" = help ]; then\n        offered='{}'\n    \
             elif [ \"${{word#-}}\" != \"$word\" ]; then\n        case ${{COMP_WORDS[1]}} in\n{options}        esac\n    \
             else\n        case ${{COMP_WORDS[1]}}:$COMP_CWORD in\n{words}        esac\n    fi\n    \
             mapfile -t COMPREPLY < <(compgen -W \"$offered\" -- \"$word\")\n\
         }}\n\
         complete -o bashdefault -o default -F _sleep_archive sleep-archive\n",
        first(commands),
        names(commands)
    )
}

/// For zsh, as a file of its functions.
pub fn zsh(commands: &[Known]) -> String {
    let options = cases(commands, |(name, options)| Some(format!("        {name}) compadd -- {} ;;\n", options.join(" "))));
    let words =
        cases(commands, |(name, _)| fixed(name).map(|(place, words)| format!("        {name}:{}) compadd -- {words} ;;\n", place + 2)));
    format!(
        "#compdef sleep-archive\n\
         # zsh completion of sleep-archive, as `sleep-archive help --zsh` prints it\n\
         if (( CURRENT == 2 )); then\n    compadd -- {}\n\
         elif [[ $words[2] == help ]]; then\n    compadd -- {}\n\
         elif [[ $PREFIX == -* ]]; then\n    case $words[2] in\n{options}    esac\n\
         else\n    case $words[2]:$CURRENT in\n{words}        *) _files ;;\n    esac\nfi\n",
        first(commands),
        names(commands)
    )
}

#[cfg(test)]
mod tests {
    use super::*;

    #[test]
    fn all_commands_are_offered() {
        let commands: [Known; 2] = [("packet", vec!["-o", "--root"]), ("root", vec!["--raw"])];
        for text in [bash(&commands), zsh(&commands)] {
            for words in ["packet root help --help -h --version", "-o --root", "make take check compare", "metadata content"] {
                assert!(text.contains(words), "{words} in {text}");
            }
        }
    }
}
