//! `chance`: the product of the shares of a reading's rules.

use super::list::{heard, line_begin, marked_words, Listed};
use super::Command;
use crate::failure::Failure;
use crate::files;
use crate::json;
use crate::options::{
    Arguments, DROP_DELETES, DROP_UNKNOWN, EMPTY, EXACT, FOLD, FORMAT, JSON, PATHS, SAID, SCALE, SKIP, WANTED,
};
use crate::output::{Output, Style};
use spireyerba::limits::MAX_READINGS;
use spireyerba::text::NamedGrammar;
use spireyerba::{Error, Reading, Refusal};

pub const COMMAND: Command = Command {
    name: "chance",
    operands: &["GRAMMAR", "UTTERANCE", "SHARES", "READING"],
    needed: 3,
    options: &[WANTED, JSON, SAID, SKIP, SCALE, FOLD, DROP_UNKNOWN, DROP_DELETES, EMPTY, FORMAT, PATHS, EXACT],
    summary: "print the chances of readings: the products of the shares of their rules",
    details: "\
SHARES has a whole number from 1 to 1024 for each rule, in the order of the rules; of 1024 uses of its head so many are by
the rule. READING is a file with a reading, or a rank of the list, and without it every reading listed is answered. A line
is one of `list` with the chance behind the weight, a 64-bit float whose digits are read back as the same float.",
    example: "spireyerba chance grammar.txt utterance.txt shares.txt -n 3",
    run,
};

fn run(arguments: &Arguments, output: &mut Output) -> Result<(), Failure> {
    let reading = arguments.operands.get(3).map(|reading| (*reading, reading.parse::<u32>()));
    if reading.is_some() && arguments.has(&WANTED) {
        return Err(arguments.wrong("--number and READING: only one of them"));
    }
    match reading {
        Some((file, Err(_))) => of_file(arguments, file, output),
        Some((_, Ok(rank))) if !(1..=MAX_READINGS).contains(&rank) => {
            Err(arguments.wrong(format!("READING: a rank is 1 to {MAX_READINGS}, not {rank}")))
        }
        Some((_, Ok(rank))) => of_ranks(arguments, &Listed::up_to(arguments, rank)?, rank as usize, output),
        None => of_ranks(arguments, &Listed::new(arguments, arguments.wanted()?)?, 1, output),
    }
}

/// The chances of readings that are listed, from a rank on.
fn of_ranks(arguments: &Arguments, listed: &Listed, first: usize, output: &mut Output) -> Result<(), Failure> {
    let named = &listed.grammar.named;
    let shares = files::shares(&listed.grammar, arguments.operands[2])?;
    let ranks = first..=listed.readings.len();
    let chance = |rank| {
        let reading: &Reading = &listed.readings[rank - 1];
        listed.grammar.packed.chance(&listed.heard, reading, &shares).map(written)
    };
    let chances = ranks.clone().map(chance).collect::<Result<Vec<String>, Refusal>>().map_err(Error::from)?;
    if arguments.has(&JSON) {
        let ranked = ranks.zip(&chances);
        return print_json(
            named,
            ranked.map(|(rank, chance)| (Some(rank as u32), &listed.readings[rank - 1], chance)),
            output,
        );
    }
    listed.say_what_is_missing();
    let width = chances.iter().map(String::len).max().unwrap_or(0);
    for (rank, chance) in ranks.zip(chances) {
        let chance = output.paint(Style::Strong, &format!("{chance:<width$}"));
        let [begin, words] = [line_begin(listed, rank, output), marked_words(listed, rank, output)];
        output.line(&format!("{begin}  {chance}  {words}"))?;
    }
    Ok(())
}

/// The chance of a reading that a file has.
fn of_file(arguments: &Arguments, file: &str, output: &mut Output) -> Result<(), Failure> {
    let grammar = files::grammar(arguments.operands[0])?;
    let heard = heard(arguments, &grammar)?.lattice.heard;
    let reading = files::reading(&grammar, &heard, file)?.reading;
    let shares = files::shares(&grammar, arguments.operands[2])?;
    let chance = written(grammar.packed.chance(&heard, &reading, &shares).map_err(Error::from)?);
    if arguments.has(&JSON) {
        return print_json(&grammar.named, [(None, &reading, &chance)].into_iter(), output);
    }
    let [weight, chance] = [reading.weight.to_string(), chance].map(|number| output.paint(Style::Strong, &number));
    output.line(&format!("{weight}  {chance}  {}", grammar.named.sentence(&reading)))
}

/// The shortest digits that are read back as the same float.
fn written(chance: f64) -> String {
    format!("{chance:?}")
}

/// Prints readings, with their ranks if they have any, and chances as a line of JSON.
fn print_json<'a>(
    named: &NamedGrammar,
    readings: impl Iterator<Item = (Option<u32>, &'a Reading, &'a String)>,
    output: &mut Output,
) -> Result<(), Failure> {
    let (names, mut line) = (json::Names::new(named), b"{\"readings\":[".to_vec());
    for (rank, reading, chance) in readings {
        names.begin_reading(&mut line, rank, reading);
        json::push_key(&mut line, "chance");
        line.extend(chance.as_bytes());
        json::end_reading(&mut line);
    }
    json::end_list(&mut line);
    line.extend(b"}\n");
    output.bytes(&line)
}
