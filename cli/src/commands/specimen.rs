//! `specimen`: the least string of words that a grammar derives.

use super::Command;
use crate::failure::Failure;
use crate::files;
use crate::options::Arguments;
use crate::output::Output;
use spireyerba::limits::MAX_SLOTS;
use spireyerba::Error;

pub const COMMAND: Command = Command {
    name: "specimen",
    operands: &["GRAMMAR", "LENGTH"],
    needed: 2,
    options: &[],
    summary: "print the string of so many words that comes first, by word number",
    details: "\
The length is 1 to 24. Strings compare word by word from the left, and words by their number: as they are met in the
grammar's text. If there is no string of that length, nothing is printed, and a message says so.",
    example: "spireyerba specimen grammar.txt 6",
    run,
};

fn run(arguments: &Arguments, output: &mut Output) -> Result<(), Failure> {
    let length = arguments.operand_up_to(1, MAX_SLOTS)?;
    let grammar = files::grammar(arguments.operands[0])?;
    match grammar.packed.specimen(length).map_err(Error::from)? {
        Some(string) => output.line(&grammar.named.string(&string)),
        None => {
            eprintln!("none: the grammar derives no string of {length} words");
            Ok(())
        }
    }
}
