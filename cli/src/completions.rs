//! Completions of the command line for shells, made of the table of commands.

use crate::commands::{Command, COMMANDS};
use crate::options::{Opt, HELP};

/// The name of a value that is a file.
const A_FILE: &str = "FILE";

type Made = fn() -> String;

/// The shells, each with what makes its completions.
const SHELLS: [(&str, Made); 3] = [("bash", bash), ("zsh", zsh), ("fish", fish)];

/// The completions for a shell, if they are known.
pub fn of_shell(name: &str) -> Option<String> {
    SHELLS.iter().find(|(shell, _)| *shell == name).map(|(_, made)| made())
}

/// The names of the shells.
pub fn shells() -> impl Iterator<Item = &'static str> {
    SHELLS.iter().map(|(shell, _)| *shell)
}

/// The names of all commands, with a blank between two.
fn names() -> String {
    COMMANDS.iter().map(|command| command.name).collect::<Vec<_>>().join(" ")
}

/// The options of a command, and the one that every command has.
fn options(command: &Command) -> impl Iterator<Item = &Opt> {
    command.options.iter().chain([&HELP])
}

/// An option as it may be typed: with its letter first, if it has one.
fn typed(option: &Opt) -> impl Iterator<Item = String> {
    option.short.map(|short| format!("-{short}")).into_iter().chain([format!("--{}", option.long)])
}

/// All that may be typed for the options of a command that are of some sort.
fn list(command: &Command, is_listed: impl Fn(&Opt) -> bool) -> String {
    options(command).filter(|option| is_listed(option)).flat_map(typed).collect::<Vec<_>>().join(" ")
}

fn bash() -> String {
    let case = |command: &Command| {
        let (all, other) =
            (list(command, |_| true), list(command, |option| !matches!(option.value, None | Some(A_FILE))));
        let files = list(command, |option| option.value == Some(A_FILE));
        format!("        {}) options='{all}' files='{files}' values='{other}' ;;\n", command.name)
    };
    let cases: String = COMMANDS.iter().map(case).collect();
    let names = names();
    format!(
        "\
# Completion of spireyerba for bash.
_spireyerba() {{
    local word=${{COMP_WORDS[COMP_CWORD]}} before=${{COMP_WORDS[COMP_CWORD - 1]}} options='' files='' values=''
    COMPREPLY=()
    if [ \"$COMP_CWORD\" -eq 1 ]; then
        mapfile -t COMPREPLY < <(compgen -W '{names} help --help --version' -- \"$word\")
        return
    fi
    case ${{COMP_WORDS[1]}} in
{cases}        help)
            mapfile -t COMPREPLY < <(compgen -W '{names} texts' -- \"$word\")
            return
            ;;
    esac
    case \" $files \" in *\" $before \"*) return ;; esac
    case \" $values \" in *\" $before \"*)
        compopt +o default
        return
        ;;
    esac
    case $word in -*) mapfile -t COMPREPLY < <(compgen -W \"$options\" -- \"$word\") ;; esac
}}
complete -o default -F _spireyerba spireyerba
"
    )
}

fn zsh() -> String {
    let described =
        |command: &Command| format!("        {}\n", quoted(&format!("{}:{}", command.name, command.summary)));
    let commands: String = COMMANDS.iter().map(described).collect();
    let case = |command: &Command| {
        let options: String =
            options(command).map(|option| format!(" \\\n                {}", zsh_option(option))).collect();
        format!("            {})\n                _arguments{options} \\\n                '*:file:_files'\n                ;;\n", command.name)
    };
    let cases: String = COMMANDS.iter().map(case).collect();
    format!(
        "\
#compdef spireyerba
# Completion of spireyerba for zsh.
_spireyerba() {{
    local -a commands
    commands=(
{commands}        'help:say what a command does, or how texts are written'
    )
    if (( CURRENT == 2 )); then
        _describe command commands
    else
        shift words
        (( CURRENT-- ))
        case $words[1] in
{cases}            help)
                _values command texts {names}
                ;;
        esac
    fi
}}
_spireyerba \"$@\"
",
        names = names()
    )
}

/// An option as `_arguments` has it.
fn zsh_option(option: &Opt) -> String {
    let help = option.help.replace('\\', "\\\\").replace('[', "\\[").replace(']', "\\]").replace(':', "\\:");
    let value = match option.value {
        None => String::new(),
        Some(A_FILE) => ":file:_files".to_owned(),
        Some(value) => format!(":{}: ", value.replace(':', "\\:")),
    };
    let both = option.short.map_or(String::new(), |short| format!("'(-{short} --{})'", option.long));
    let typed: Vec<String> = typed(option).collect();
    let typed = if typed.len() > 1 { format!("{{{}}}", typed.join(",")) } else { typed.concat() };
    format!("{both}{typed}{}", quoted(&format!("[{help}]{value}")))
}

fn fish() -> String {
    let mut script = "# Completion of spireyerba for fish.\n".to_owned();
    let at_first = "-n __fish_use_subcommand -f";
    for command in COMMANDS {
        let summary = fish_quoted(command.summary);
        script += &format!("complete -c spireyerba {at_first} -a {} -d {summary}\n", command.name);
        for option in options(command) {
            let short = option.short.map_or(String::new(), |short| format!(" -s {short}"));
            let value = match option.value {
                None => "",
                Some(A_FILE) => " -rF",
                Some(_) => " -x",
            };
            let (seen, help) = (format!("-n '__fish_seen_subcommand_from {}'", command.name), fish_quoted(option.help));
            script += &format!("complete -c spireyerba {seen}{short} -l {}{value} -d {help}\n", option.long);
        }
    }
    script += &format!("complete -c spireyerba {at_first} -a help -d 'say what a command does'\n");
    script + &format!("complete -c spireyerba -n '__fish_seen_subcommand_from help' -f -a '{} texts'\n", names())
}

/// A word for bash and zsh.
fn quoted(text: &str) -> String {
    format!("'{}'", text.replace('\'', "'\\''"))
}

fn fish_quoted(text: &str) -> String {
    format!("'{}'", text.replace('\\', "\\\\").replace('\'', "\\'"))
}

#[cfg(test)]
mod tests {
    use super::*;

    #[test]
    fn every_shell_knows_every_command_and_option() {
        for (shell, made) in SHELLS {
            let script = made();
            for command in COMMANDS {
                assert!(script.contains(command.name), "{shell}: {command:?}");
                let missing = command.options.iter().find(|option| !script.contains(option.long));
                assert!(missing.is_none(), "{shell}: {missing:?}");
            }
        }
        assert_eq!(of_shell("tcsh"), None);
    }
}
