//! The command `spireyerba`: the services of the proved library for people who have files with words in them.
//!
//! | module | has |
//! |---|---|
//! | `commands` | what each subcommand does, a file each, and the table of them |
//! | `options`, `help` | the command line and what is said about it |
//! | `manual`, `completions` | the same as manual pages and for shells, when the command is installed |
//! | `files`, `names` | texts and blocks, read and written; names of files that are no UTF-8 |
//! | `heard` | slots or a word graph, whichever it is |
//! | `reach` | which symbols of a grammar are of use |
//! | `rows` | a schedule as CSV and as a page |
//! | `anchor`, `words` | words that are known for certain, and words too many |
//! | `alignment`, `no_reading` | which words of two sentences differ; why there is no reading |
//! | `drawing`, `page`, `json` | readings drawn in a terminal, on a page, and for programs |
//! | `output`, `failure` | where answers and messages go |

mod alignment;
mod anchor;
mod commands;
mod completions;
mod drawing;
mod failure;
mod files;
mod heard;
mod help;
mod json;
mod manual;
mod names;
mod no_reading;
mod options;
mod output;
mod page;
mod reach;
mod rows;
mod width;
mod words;

use failure::Failure;
use output::Output;
use std::process::ExitCode;

fn main() -> ExitCode {
    let words: Vec<String> = std::env::args_os().skip(1).map(|word| names::carried(&word)).collect();
    let mut output = Output::standard();
    let done = run(&words, &mut output).and_then(|()| output.flush());
    match done {
        Ok(()) => ExitCode::SUCCESS,
        Err(failure) => failure.report(),
    }
}

/// What `make install` asks for behind `help`: the manual pages, or the completions for a shell.
const MANUAL: &str = "--manual";
const COMPLETIONS: &str = "--completions";

/// Prints the file with a name that belongs to an installed command; without a name, those of all manual pages.
fn installed(kind: &str, name: Option<&String>, output: &mut Output) -> Result<(), Failure> {
    let (text, advice) = match (kind, name) {
        (MANUAL, None) => (Some(manual::names().join("\n") + "\n"), String::new()),
        (MANUAL, Some(name)) => {
            let none = format!("there is no page `{name}`: `spireyerba help {MANUAL}` names them all");
            (manual::page(name), none)
        }
        (_, name) => {
            let shells = completions::shells().collect::<Vec<_>>().join(", ");
            (name.and_then(|name| completions::of_shell(name)), format!("{COMPLETIONS} needs one of {shells}"))
        }
    };
    match text {
        Some(text) => output.bytes(text.as_bytes()),
        None => Err(Failure::usage(advice, "spireyerba")),
    }
}

/// The version of the command, and that of the library that it is linked with.
fn version() -> String {
    format!("spireyerba {} (library {})", env!("CARGO_PKG_VERSION"), spireyerba::LIBRARY_VERSION)
}

/// Runs what the words of the command line ask for.
fn run(words: &[String], output: &mut Output) -> Result<(), Failure> {
    match words.first().map(String::as_str) {
        None => Err(Failure::usage("no command", "spireyerba")),
        Some("-h" | "--help" | "help") => match words.get(1) {
            Some(name) if name == "texts" => output.line(help::TEXTS),
            Some(name) if name == MANUAL || name == COMPLETIONS => installed(name, words.get(2), output),
            Some(name) => output.line(&help::of_command(commands::find(name)?)),
            None => output.line(&help::of_program()),
        },
        Some("-V" | "--version") => output.line(&version()),
        Some(name) => {
            let command = commands::find(name)?;
            if options::asks_for_help(&words[1..]) {
                return output.line(&help::of_command(command));
            }
            let arguments = options::Arguments::parse(command, &words[1..])?;
            (command.run)(&arguments, output)
        }
    }
}
