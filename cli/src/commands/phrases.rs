//! `phrases`: every string of words of a length that a grammar derives.

use super::Command;
use crate::failure::Failure;
use crate::files;
use crate::options::Arguments;
use crate::output::Output;
use spireyerba::limits::MAX_PHRASE;
use spireyerba::Error;

pub const COMMAND: Command = Command {
    name: "phrases",
    operands: &["GRAMMAR", "LENGTH"],
    needed: 2,
    options: &[],
    summary: "print every string of so many words that the grammar derives, the least first",
    details: "\
The length is 1 to 6. Strings compare as for `specimen`: word by word from the left, and words by their number. Each is
printed as soon as it is found. If there is none, nothing is printed, and a message says so.",
    example: "spireyerba phrases grammar.txt 3",
    run,
};

fn run(arguments: &Arguments, output: &mut Output) -> Result<(), Failure> {
    let length = arguments.operand_up_to(1, MAX_PHRASE)?;
    let grammar = files::grammar(arguments.operands[0])?;
    let mut is_empty = true;
    for phrase in grammar.packed.phrases(length).map_err(Error::from)? {
        is_empty = false;
        output.line(&grammar.named.string(&phrase))?;
    }
    if is_empty {
        eprintln!("none: the grammar derives no string of {length} words");
    }
    Ok(())
}
