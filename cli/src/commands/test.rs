//! `test`: sentences that a grammar should derive, and others that it should not.

use super::Command;
use crate::failure::Failure;
use crate::files::{self, GrammarFile};
use crate::no_reading::NoReading;
use crate::options::{Arguments, FOLD};
use crate::output::Output;
use spireyerba::text::{shortened, Sentence, UtteranceReader};
use spireyerba::{Error, Heard, Utterance};

pub const COMMAND: Command = Command {
    name: "test",
    operands: &["GRAMMAR", "FILE"],
    needed: 2,
    options: &[FOLD],
    summary: "test a grammar by sentences that it should derive and sentences that it should not",
    details: "\
A line of the file has `+` or `-` and a sentence, which the grammar derives or does not: `+ door twenty four oak`. Behind it
may stand the weight of the first reading and what that becomes: `+ door twenty four oak [5] => \"24 oak\"`. Empty lines and
comments are passed over. A line is printed for each that fails or cannot be read, and then the exit status is 1.",
    example: "echo '+ door twenty four oak fire thirty' | spireyerba test grammar.txt -",
    run,
};

fn run(arguments: &Arguments, output: &mut Output) -> Result<(), Failure> {
    let grammar = files::grammar(arguments.operands[0])?;
    let reader = files::utterance_reader(arguments, &grammar.named)?;
    let name = &files::name_of(arguments.operands[1]);
    let (mut sentences, mut failed) = (0, 0);
    for (before, line) in files::lines(arguments.operands[1])? {
        sentences += 1;
        let why = match fails(&grammar, &reader, &line) {
            Ok(None) => continue,
            Ok(Some(why)) => format!("{name}:{}: {}", before + 1, shortened(&why)),
            Err(error) => error.in_file(name).after_lines(before).to_string(),
        };
        failed += 1;
        output.line(&why)?;
    }
    match failed {
        0 => output.line(&format!("{name}: {sentences} passed")),
        _ => Err(Failure::Refused(format!("{name}: {failed} of {sentences} failed"))),
    }
}

/// Why a line fails, if it does.
fn fails(grammar: &GrammarFile, reader: &UtteranceReader, line: &str) -> Result<Option<String>, Error> {
    let sentence = reader.read_sentence(line)?;
    Ok(match (&sentence.words, sentence.is_derived) {
        (Err(_), false) => None,
        (Err(unknown), true) => Some(format!("not derived: {}", unknown.reason())),
        (Ok(words), _) => of_words(grammar, &sentence, words)?,
    })
}

/// The same of words that the grammar has.
fn of_words(grammar: &GrammarFile, sentence: &Sentence, words: &Utterance) -> Result<Option<String>, Error> {
    let (named, heard) = (&grammar.named, Heard::Slots(words.clone()));
    let readings = grammar.packed.list(&heard, 1)?;
    let reading = match (readings.first(), sentence.is_derived) {
        (None, false) => return Ok(None),
        (None, true) => {
            let why = NoReading::new(named, &heard)?.message();
            return Ok(Some(format!("not derived: {}", why.trim_start_matches("no reading: ").replace("\n  ", "; "))));
        }
        (Some(reading), false) => {
            let words = named.sentence(reading);
            return Ok(Some(format!("derived, with weight {}, and should not be: {words}", reading.weight)));
        }
        (Some(reading), true) => reading,
    };
    let becomes = named.tree(reading).map_or(String::new(), |tree| named.translation(&tree));
    Ok(match (sentence.weight, &sentence.translation) {
        (Some(weight), _) if weight != reading.weight => Some(format!("weighs {}, not {weight}", reading.weight)),
        (_, Some(wanted)) if *wanted != becomes => Some(format!("becomes \"{becomes}\", not \"{wanted}\"")),
        _ => None,
    })
}
