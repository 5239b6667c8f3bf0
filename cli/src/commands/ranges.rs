//! `ranges`: the first reading where costs are known within ranges.

use super::Command;
use crate::failure::Failure;
use crate::files;
use crate::options::{Arguments, DROP_DELETES, DROP_UNKNOWN, EMPTY, EXACT, FOLD, FORMAT, PATHS, SCALE};
use crate::output::Output;
use spireyerba::{Error, Heard, Utterance};

pub const COMMAND: Command = Command {
    name: "ranges",
    operands: &["GRAMMAR", "LOW", "HIGH"],
    needed: 3,
    options: &[SCALE, FOLD, DROP_UNKNOWN, DROP_DELETES, EMPTY, FORMAT, PATHS, EXACT],
    summary: "say how the first weight varies where costs are known within ranges, and whether the first reading stands",
    details: "\
LOW and HIGH are two utterances of slots, alike but for their costs, of which none falls. Each word costs from what LOW
says to what HIGH says. The first line has the least and the greatest weight that a first reading can have. The second has
the first reading for LOW, which stands if under no choice of costs another is strictly lighter. If the grammar does not
derive the utterance, nothing is printed, and a message says so.",
    example: "spireyerba ranges grammar.txt utterance.txt high.txt",
    run,
};

fn run(arguments: &Arguments, output: &mut Output) -> Result<(), Failure> {
    let grammar = files::grammar(arguments.operands[0])?;
    let slots = |operand: &str| -> Result<Utterance, Failure> {
        match files::heard(arguments, &grammar, operand)?.heard {
            Heard::Slots(utterance) => Ok(utterance),
            Heard::Graph(_) => Err(arguments.wrong("ranges of costs are for slots, not for word graphs")),
        }
    };
    let (low, high) = (slots(arguments.operands[1])?, slots(arguments.operands[2])?);
    let Some(ranges) = grammar.packed.cost_ranges(&low, &high).map_err(Error::from)? else {
        eprintln!("none: the grammar does not derive the utterance");
        return Ok(());
    };
    output.line(&format!("first weight: {} to {}", ranges.least, ranges.greatest))?;
    let fate = if ranges.stands { "stands" } else { "can be outweighed" };
    let first = grammar.packed.list(&low, 1).map_err(Error::from)?;
    let sentences = first.iter().map(|reading| grammar.named.sentence(reading));
    output.line(&format!("{fate}: {}", sentences.collect::<String>()))
}
