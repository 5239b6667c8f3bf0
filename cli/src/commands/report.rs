//! `report`: a page to look at and to print.

use super::list::Listed;
use super::Command;
use crate::anchor;
use crate::failure::Failure;
use crate::files;
use crate::options::{
    Arguments, DISTINCT, DROP_DELETES, DROP_UNKNOWN, EMPTY, EVERY_TREE, EXACT, FILE, FOLD, FORMAT, HIGH, PATHS, SAID,
    SCALE, SKIP, WANTED,
};
use crate::output::Output;
use crate::page::{page, CostChanges, Ranges, Source};
use spireyerba::{Error, Heard, Utterance};

pub const COMMAND: Command = Command {
    name: "report",
    operands: &["GRAMMAR", "UTTERANCE"],
    needed: 2,
    options: &[
        FILE, WANTED, DISTINCT, EVERY_TREE, HIGH, SAID, SKIP, SCALE, FOLD, DROP_UNKNOWN, DROP_DELETES, EMPTY, FORMAT, PATHS, EXACT,
    ],
    summary: "write a page with what was heard, the readings as drawn trees, and which words to listen to again",
    details: "\
The page is one file of HTML that needs no other, to be looked at in a browser or printed. Of slots it says which words to
listen to again, as `margins` does; with --high, where the costs of UTTERANCE are the least ones, also how the first weight
varies, as `ranges` does. Of a word graph each sentence stands once, unless --every-tree is given.",
    example: "spireyerba report grammar.txt utterance.txt -o page.html",
    run,
};

fn run(arguments: &Arguments, output: &mut Output) -> Result<(), Failure> {
    let wanted = arguments.wanted()?;
    let mut listed = Listed::none_yet(arguments)?;
    let is_graph = matches!(listed.heard, Heard::Graph(_));
    listed.find(wanted, arguments.has(&DISTINCT) || is_graph && !arguments.has(&EVERY_TREE))?;
    let changes = match &listed.heard {
        Heard::Slots(utterance) => Some(cost_changes(arguments, &listed, utterance)?),
        Heard::Graph(_) if arguments.has(&HIGH) => {
            return Err(arguments.wrong("ranges of costs are for slots, not for word graphs"));
        }
        Heard::Graph(_) => None,
    };
    let [grammar, utterance] = [0, 1].map(|operand| files::name_of(arguments.operands[operand]));
    let html = page(&listed, &Source { grammar: &grammar, utterance: &utterance, wanted }, changes.as_ref());
    files::write(arguments, output, html.as_bytes())
}

/// What other costs would do to the first reading.
fn cost_changes(arguments: &Arguments, listed: &Listed, utterance: &Utterance) -> Result<CostChanges, Failure> {
    let named = &listed.grammar.named;
    let margins = listed.grammar.packed.word_margins(utterance).map_err(Error::from)?;
    let Some(operand) = arguments.value(&HIGH) else {
        return Ok(CostChanges { margins, ranges: None });
    };
    let mut heard = files::heard(arguments, &listed.grammar, operand)?.heard;
    let anchors: Vec<&str> = arguments.values(&SAID).collect();
    let in_file = |why| Failure::Refused(format!("{}: {why}", files::name_of(operand)));
    anchor::apply(&anchors, named, &mut heard).map_err(in_file)?;
    let Heard::Slots(high) = heard else {
        return Err(arguments.wrong("ranges of costs are for slots, not for word graphs"));
    };
    let found = listed.grammar.packed.cost_ranges(utterance, &high);
    let first = found.map_err(|refusal| Error::from(refusal).in_file(&files::name_of(operand)))?;
    Ok(CostChanges { margins, ranges: Some(Ranges { high, first }) })
}
