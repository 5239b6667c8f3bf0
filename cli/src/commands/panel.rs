//! `panel`: the least readings, as a desk panel lists them.

use super::list::{print, Listed, Shown};
use super::Command;
use crate::failure::Failure;
use crate::files;
use crate::options::{
    Arguments, DROP_DELETES, DROP_UNKNOWN, EMPTY, EXACT, FOLD, FORMAT, PANEL_WANTED, PATHS, SCALE, TREE,
};
use crate::output::Output;
use spireyerba::limits::PANEL_MAX_READINGS;
use spireyerba::{Error, Lister};

pub const COMMAND: Command = Command {
    name: "panel",
    operands: &["GRAMMAR", "UTTERANCE"],
    needed: 2,
    options: &[PANEL_WANTED, TREE, SCALE, FOLD, DROP_UNKNOWN, DROP_DELETES, EMPTY, FORMAT, PATHS, EXACT],
    summary: "list as a desk panel does: at most 12 slots and 16 readings",
    details: "\
Within the panel's limits this is what `list` prints; beyond them the panel refuses. Of a word graph it takes 13 places.",
    example: "spireyerba panel grammar.txt utterance.txt -n 16",
    run,
};

fn run(arguments: &Arguments, output: &mut Output) -> Result<(), Failure> {
    let grammar = files::grammar(arguments.operands[0])?;
    let wanted = arguments.wanted_up_to(PANEL_MAX_READINGS)?;
    let lattice = files::heard(arguments, &grammar, arguments.operands[1])?;
    let in_file = |refusal| Error::from(refusal).in_file(&files::name_of(arguments.operands[1]));
    let mut lister = Lister::of(grammar.packed.clone()).panel();
    let readings = lister.list(&lattice.heard, wanted).map_err(in_file)?;
    let mut listed = Listed::of(grammar, lattice, None);
    listed.readings = readings;
    print(&listed, Shown { with_trees: arguments.has(&TREE), says: false }, output)
}
