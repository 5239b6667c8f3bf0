//! The subcommands.

mod batch;
mod chance;
mod check;
mod lint;
pub mod list;
mod margins;
mod pack;
mod panel;
mod phrases;
mod pick;
mod ranges;
mod report;
mod schedule;
mod specimen;
mod test;
mod unpack;
mod why;

use crate::failure::Failure;
use crate::options::{Arguments, Opt};
use crate::output::Output;
use spireyerba::text::nearest;

/// A subcommand: what its command line has, what it says of itself, and what it does.
pub struct Command {
    pub name: &'static str,
    pub operands: &'static [&'static str],
    /// How many of the operands may not be left out.
    pub needed: usize,
    pub options: &'static [Opt],
    /// What it does, in one line.
    pub summary: &'static str,
    /// More of it, if there is more to say.
    pub details: &'static str,
    pub example: &'static str,
    pub run: fn(&Arguments, &mut Output) -> Result<(), Failure>,
}

impl std::fmt::Debug for Command {
    fn fmt(&self, formatter: &mut std::fmt::Formatter) -> std::fmt::Result {
        write!(formatter, "{}", self.name)
    }
}

/// All of them, in the order of the help.
pub const COMMANDS: &[Command] = &[
    list::COMMAND,
    panel::COMMAND,
    pick::COMMAND,
    why::COMMAND,
    report::COMMAND,
    batch::COMMAND,
    schedule::COMMAND,
    lint::COMMAND,
    test::COMMAND,
    specimen::COMMAND,
    phrases::COMMAND,
    margins::COMMAND,
    ranges::COMMAND,
    check::COMMAND,
    chance::COMMAND,
    pack::COMMAND,
    unpack::COMMAND,
];

/// The command with a name.
pub fn find(name: &str) -> Result<&'static Command, Failure> {
    let found = COMMANDS.iter().find(|command| command.name == name);
    found.ok_or_else(|| {
        let meant = nearest(name, COMMANDS.iter().map(|command| command.name));
        let meant = meant.map_or(String::new(), |meant| format!(": did you mean `{meant}`?"));
        Failure::usage(format!("there is no command `{name}`{meant}"), "spireyerba")
    })
}
