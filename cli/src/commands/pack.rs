//! `pack`: texts to blocks.

use super::Command;
use crate::failure::Failure;
use crate::files;
use crate::options::{Arguments, DROP_DELETES, DROP_UNKNOWN, EMPTY, EXACT, FILE, FOLD, FORMAT, PATHS, SCALE};
use crate::output::Output;
use spireyerba::Error;

pub const COMMAND: Command = Command {
    name: "pack",
    operands: &["GRAMMAR", "UTTERANCE", "READING"],
    needed: 1,
    options: &[FILE, SCALE, FOLD, DROP_UNKNOWN, DROP_DELETES, EMPTY, FORMAT, PATHS, EXACT],
    summary: "turn a text into a block: the last file, under those before it",
    details: "\
A block is what the library's functions and the program lister take. It has numbers in place of names.",
    example: "spireyerba pack grammar.txt utterance.txt -o utterance.bin",
    run,
};

fn run(arguments: &Arguments, output: &mut Output) -> Result<(), Failure> {
    if !arguments.has(&FILE) && output.is_terminal() {
        return Err(arguments.wrong("a block is not for a terminal: give -o FILE, or a pipe"));
    }
    let grammar = files::grammar(arguments.operands[0])?;
    let block = match arguments.operands[1..] {
        [] => grammar.packed.block().to_vec(),
        [heard] => {
            files::heard(arguments, &grammar, heard)?.heard.to_block(grammar.packed.block()).map_err(Error::from)?
        }
        [heard, reading, ..] => {
            let heard = files::heard(arguments, &grammar, heard)?.heard;
            files::reading(&grammar, &heard, reading)?.block
        }
    };
    files::write(arguments, output, &block)
}
