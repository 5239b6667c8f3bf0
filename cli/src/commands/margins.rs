//! `margins`: which word to listen to again.

use super::list::heard;
use super::Command;
use crate::failure::Failure;
use crate::files;
use crate::json;
use crate::no_reading::NO_READING;
use crate::options::{Arguments, DROP_DELETES, DROP_UNKNOWN, EMPTY, EXACT, FOLD, FORMAT, JSON, PATHS, SAID, SCALE};
use crate::output::{Output, Style};
use crate::width::{columns, padded};
use spireyerba::text::NamedGrammar;
use spireyerba::{Error, Heard, WordMargin};

pub const COMMAND: Command = Command {
    name: "margins",
    operands: &["GRAMMAR", "UTTERANCE"],
    needed: 2,
    options: &[JSON, SAID, SCALE, FOLD, DROP_UNKNOWN, DROP_DELETES, EMPTY, FORMAT, PATHS, EXACT],
    summary: "say which words to listen to again: by how little their costs must fall for another reading to come first",
    details: "\
A line has an amount, a slot, a word of it that the first reading does not use, and a weight. If the cost of that word alone
falls by the amount, and by no less, another reading is strictly lighter than the first; the weight is what that one weighs
now. The least amounts come first. Words that bring no other reading, however cheap they are, are left out.",
    example: "spireyerba margins grammar.txt utterance.txt",
    run,
};

fn run(arguments: &Arguments, output: &mut Output) -> Result<(), Failure> {
    let grammar = files::grammar(arguments.operands[0])?;
    let Heard::Slots(utterance) = heard(arguments, &grammar)?.lattice.heard else {
        return Err(arguments.wrong("margins are for slots, not for word graphs"));
    };
    let named = &grammar.named;
    let margins = grammar.packed.word_margins(&utterance).map_err(Error::from)?;
    if arguments.has(&JSON) {
        return output.bytes(&json_of(named, &margins));
    }
    if margins.is_empty() {
        match grammar.packed.list(&utterance, 1).map_err(Error::from)?.is_empty() {
            true => eprintln!("{NO_READING}"),
            false => eprintln!("none: no other word brings another reading, however cheap it is"),
        }
    }
    print(named, &margins, output)
}

fn json_of(named: &NamedGrammar, margins: &[WordMargin]) -> Vec<u8> {
    let mut line = b"{\"margins\":[".to_vec();
    for margin in margins {
        line.extend(b"{\"amount\":");
        json::push_number(&mut line, margin.amount);
        json::push_key(&mut line, "slot");
        json::push_number(&mut line, margin.slot);
        json::push_key(&mut line, "word");
        json::push_string(&mut line, named.word(margin.word));
        json::push_key(&mut line, "weight");
        json::push_number(&mut line, margin.weight);
        line.extend(b"},");
    }
    json::end_list(&mut line);
    line.extend(b"}\n");
    line
}

fn print(named: &NamedGrammar, margins: &[WordMargin], output: &mut Output) -> Result<(), Failure> {
    let width = |column: fn(&NamedGrammar, &WordMargin) -> usize| {
        margins.iter().map(|margin| column(named, margin)).max().unwrap_or(0)
    };
    let amount_width = width(|_, margin| margin.amount.to_string().len());
    let slot_width = width(|_, margin| margin.slot.to_string().len());
    let word_width = width(|named, margin| columns(named.word(margin.word)));
    let weight_width = width(|_, margin| margin.weight.to_string().len());
    for WordMargin { amount, slot, word, weight } in margins {
        let amount = output.paint(Style::Strong, &format!("{amount:>amount_width$}"));
        let word = padded(named.word(*word), word_width);
        output.line(&format!("{amount}  slot {slot:<slot_width$}  {word}  {weight:>weight_width$}"))?;
    }
    Ok(())
}
