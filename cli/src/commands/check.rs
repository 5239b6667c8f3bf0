//! `check`: whether a reading is that of a derivation.

use super::Command;
use crate::failure::Failure;
use crate::files;
use crate::options::{Arguments, DROP_DELETES, DROP_UNKNOWN, EMPTY, EXACT, FOLD, FORMAT, PATHS, SCALE};
use crate::output::Output;

pub const COMMAND: Command = Command {
    name: "check",
    operands: &["GRAMMAR", "UTTERANCE", "READING"],
    needed: 3,
    options: &[SCALE, FOLD, DROP_UNKNOWN, DROP_DELETES, EMPTY, FORMAT, PATHS, EXACT],
    summary: "say whether a reading is that of a derivation, with its true weight",
    details: "\
A reading's text is its weight and the rule number of each node: a node, its left part, its right part. `list
--rules` prints them behind the rank. For a word graph a bar and the numbers of the path's edges follow, which `list
--json` has.",
    example: "echo 72 0 2 12 3 13 15 8 17 11 20 21 | spireyerba check grammar.txt utterance.txt -",
    run,
};

fn run(arguments: &Arguments, output: &mut Output) -> Result<(), Failure> {
    let grammar = files::grammar(arguments.operands[0])?;
    let heard = files::heard(arguments, &grammar, arguments.operands[1])?.heard;
    let reading = files::reading(&grammar, &heard, arguments.operands[2])?.reading;
    output.line(&format!("passes: {}  {}", reading.weight, grammar.named.sentence(&reading)))
}
