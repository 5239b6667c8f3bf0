//! Manual pages, made of what `--help` says, in the macros of man(7).

use crate::commands::{Command, COMMANDS};
use crate::help;
use crate::options::Opt;

/// The page about texts, and its section: that of formats.
const TEXTS: &str = "texts";

/// The names of all pages, as their files are called.
pub fn names() -> Vec<String> {
    let of_commands = COMMANDS.iter().map(|command| format!("spireyerba-{}.1", command.name));
    ["spireyerba.1".to_owned()].into_iter().chain(of_commands).chain([format!("spireyerba-{TEXTS}.5")]).collect()
}

/// The page with a name, if there is one.
pub fn page(name: &str) -> Option<String> {
    let subject = name.strip_prefix("spireyerba-").and_then(|rest| rest.rsplit_once('.')).map(|(subject, _)| subject);
    match subject {
        _ if !names().iter().any(|known| known == name) => None,
        None => Some(of_program()),
        Some(TEXTS) => Some(of_texts()),
        Some(subject) => COMMANDS.iter().find(|command| command.name == subject).map(of_command),
    }
}

fn of_program() -> String {
    let [front, end] = help::PROGRAM_PARTS.map(|part| body(&plain(part)));
    let commands: String = COMMANDS
        .iter()
        .map(|command| format!(".TP\n\\fBspireyerba\\-{}\\fR(1)\n{}\n", escaped(command.name), line(command.summary)))
        .collect();
    format!(
        "{}.SH SYNOPSIS\n.B spireyerba\n\\fICOMMAND\\fR ..\n.SH DESCRIPTION\n{front}.SH COMMANDS\n{commands}.SH FILES AND EXIT STATUS\n{end}{}",
        head("SPIREYERBA", 1, "spireyerba", "ranked readings of a spoken utterance under a weighted grammar"),
        see_also(None),
    )
}

fn of_command(command: &Command) -> String {
    let name = format!("spireyerba-{}", command.name);
    let operands = command.operands.iter().enumerate().map(|(number, operand)| match number < command.needed {
        true => format!(" \\fI{operand}\\fR"),
        false => format!(" [\\fI{operand}\\fR]"),
    });
    let mut page = head(&name.to_uppercase(), 1, &name, command.summary);
    page += &format!(".SH SYNOPSIS\n\\fBspireyerba {}\\fR{}", command.name, operands.collect::<String>());
    page += if command.options.is_empty() { "\n" } else { " [\\fIOPTION\\fR ..]\n" };
    page += &format!(".SH DESCRIPTION\n{}{}", body(&help::sentence(command.summary)), body(command.details));
    page += ".SH OPTIONS\n";
    command.options.iter().for_each(|option| page += &of_option(option));
    page += ".TP\n\\fB\\-h\\fR, \\fB\\-\\-help\\fR\nprint the same in short\n";
    format!("{page}.SH EXAMPLE\n{}{}", preformatted(command.example), see_also(Some(command)))
}

fn of_texts() -> String {
    let head =
        head("SPIREYERBA-TEXTS", 5, "spireyerba-texts", "grammars, utterances, word graphs and readings as texts");
    format!("{head}.SH DESCRIPTION\n{}{}", body(&plain(help::TEXTS)), see_also(None))
}

/// What all pages begin with.
fn head(title: &str, section: u32, name: &str, summary: &str) -> String {
    let version = env!("CARGO_PKG_VERSION");
    let [name, summary] = [name, summary].map(escaped);
    format!(".TH {title} {section} \"\" \"spireyerba {version}\" \"Spireyerba\"\n.SH NAME\n{name} \\- {summary}\n")
}

fn of_option(option: &Opt) -> String {
    let short = option.short.map_or(String::new(), |short| format!("\\fB\\-{short}\\fR, "));
    let value = option.value.map_or(String::new(), |value| format!(" \\fI{}\\fR", escaped(value)));
    format!(".TP\n{short}\\fB\\-\\-{}\\fR{value}\n{}\n", escaped(option.long), line(option.help))
}

/// The other pages.
fn see_also(but: Option<&Command>) -> String {
    let others = COMMANDS.iter().filter(|other| but.is_none_or(|command| command.name != other.name));
    let others: String = others.map(|other| format!(".BR spireyerba\\-{} (1),\n", escaped(other.name))).collect();
    format!(".SH SEE ALSO\n.BR spireyerba (1),\n{others}.BR spireyerba\\-texts (5)\n")
}

/// A help's lines without those that a page has in sections of its own.
fn plain(help: &str) -> String {
    let lines = help.lines().filter(|line| !line.starts_with("usage: ") && !line.starts_with("example: "));
    lines.collect::<Vec<&str>>().join("\n")
}

/// Paragraphs, which are filled, and lines that begin with a blank, which stand as they are.
fn body(text: &str) -> String {
    let mut page = String::new();
    for paragraph in text.split("\n\n").filter(|paragraph| !paragraph.trim().is_empty()) {
        let paragraph = paragraph.trim_matches('\n');
        page += &match paragraph.starts_with(' ') {
            true => preformatted(paragraph),
            false => format!(".PP\n{}\n", paragraph.lines().map(line).collect::<Vec<_>>().join("\n")),
        };
    }
    page
}

fn preformatted(text: &str) -> String {
    let lines: String = text.lines().map(|text| line(text) + "\n").collect();
    format!(".PP\n.nf\n.RS 2\n{lines}.RE\n.fi\n")
}

/// A line of text, which is no request whatever it begins with.
fn line(text: &str) -> String {
    match text.starts_with(['.', '\'']) {
        true => format!("\\&{}", escaped(text)),
        false => escaped(text),
    }
}

fn escaped(text: &str) -> String {
    text.replace('\\', "\\e").replace('-', "\\-").replace('`', "\\(ga").replace('\'', "\\(aq").replace('^', "\\(ha")
}

#[cfg(test)]
mod tests {
    use super::*;

    #[test]
    fn every_command_has_a_page_with_all_of_its_options() {
        for command in COMMANDS {
            let page = page(&format!("spireyerba-{}.1", command.name)).expect("a page");
            let missing = command.options.iter().find(|option| !page.contains(&escaped(&format!("--{}", option.long))));
            assert!(missing.is_none(), "{command:?}: {missing:?}");
            assert!(page.contains(&escaped(command.example)), "{command:?}");
        }
    }

    #[test]
    fn no_text_is_taken_for_a_request() {
        for name in names() {
            let page = page(&name).expect("a page");
            let requests = [".TH", ".SH", ".PP", ".TP", ".B", ".BR", ".nf", ".fi", ".RS", ".RE"];
            let foreign = page.lines().find(|line| {
                line.starts_with(['.', '\'']) && !requests.contains(&line.split(' ').next().unwrap_or_default())
            });
            assert_eq!(foreign, None, "{name}");
        }
        assert_eq!(page("spireyerba-nothing.1"), None);
        assert_eq!(line(".\\-'"), "\\&.\\e\\-\\(aq");
    }
}
