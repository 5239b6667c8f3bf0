//! `unpack`: blocks to texts.

use super::Command;
use crate::failure::Failure;
use crate::files::{self, GrammarFile};
use crate::options::{
    Arguments, DROP_DELETES, DROP_UNKNOWN, EMPTY, EXACT, FILE, FOLD, FORMAT, LATTICE, NETWORK, PATHS, SCALE,
};
use crate::output::Output;
use spireyerba::Heard;

pub const COMMAND: Command = Command {
    name: "unpack",
    operands: &["GRAMMAR", "UTTERANCE", "READING"],
    needed: 1,
    options: &[FILE, NETWORK, LATTICE, SCALE, FOLD, DROP_UNKNOWN, DROP_DELETES, EMPTY, FORMAT, PATHS, EXACT],
    summary: "turn a block into a text: the last file, under those before it",
    details: "\
A block has no names: those of an utterance come from the grammar's text, and if the grammar is a block too, symbols
are called S0, S1 .. and words w0, w1 ...",
    example: "spireyerba unpack grammar.txt utterance.bin",
    run,
};

fn run(arguments: &Arguments, output: &mut Output) -> Result<(), Failure> {
    let grammar = files::grammar(arguments.operands[0])?;
    let text = match arguments.operands[1..] {
        [] => grammar.named.to_text(),
        [heard] => heard_text(arguments, &grammar, &files::heard(arguments, &grammar, heard)?.heard)?,
        [heard, reading, ..] => {
            let heard = files::heard(arguments, &grammar, heard)?.heard;
            let reading = files::reading(&grammar, &heard, reading)?.reading;
            grammar.named.reading_text(&reading)
        }
    };
    files::write(arguments, output, text.as_bytes())
}

fn heard_text(arguments: &Arguments, grammar: &GrammarFile, heard: &Heard) -> Result<String, Failure> {
    let forms = [&NETWORK, &LATTICE].map(|form| arguments.has(form));
    let no_form = |why: &str| Err(Failure::Refused(format!("{}: {why}", arguments.operands[1])));
    let scale = || match files::scale(arguments)? {
        Some(scale) => Ok(scale),
        None => Err(arguments.wrong("--network and --lattice need --scale X")),
    };
    match (heard, forms) {
        (_, [true, true]) => Err(arguments.wrong("--network and --lattice: only one of them")),
        (Heard::Slots(utterance), [false, false]) => Ok(grammar.named.utterance_text(utterance)),
        (Heard::Graph(graph), [false, false]) => Ok(grammar.named.graph_text(graph)),
        (Heard::Slots(utterance), [true, _]) => match grammar.named.network_text(utterance, scale()?) {
            Some(text) => Ok(text),
            None => {
                no_form("no confusion network can say this: a word has a blank, or a cost is too great beside --scale")
            }
        },
        (Heard::Graph(graph), [_, true]) => match grammar.named.lattice_text(graph, scale()?) {
            Some(text) => Ok(text),
            None => no_form("no lattice can say this: an edge is on no path, or a cost is too great beside --scale"),
        },
        (Heard::Graph(_), [true, _]) => no_form("--network: a word graph is no confusion network"),
        (Heard::Slots(_), [_, true]) => no_form("--lattice: slots are no word graph"),
    }
}
