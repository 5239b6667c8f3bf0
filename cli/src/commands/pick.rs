//! `pick`: readings found and shown one by one until one is taken.

use super::list::{drawn, json_of, line, used_up, Listed};
use super::Command;
use crate::failure::Failure;
use crate::options::{
    Arguments, DISTINCT, DROP_DELETES, DROP_UNKNOWN, EMPTY, EVERY_TREE, EXACT, FOLD, FORMAT, JSON, PATHS, SAID, SCALE,
    SKIP, TREE,
};
use crate::output::Output;
use spireyerba::limits::MAX_READINGS;
use spireyerba::{Distinct, Error, OpenListing, Reading};
use std::io::BufRead;

pub const COMMAND: Command = Command {
    name: "pick",
    operands: &["GRAMMAR", "UTTERANCE"],
    needed: 2,
    options: &[
        DISTINCT,
        EVERY_TREE,
        TREE,
        JSON,
        SAID,
        SKIP,
        SCALE,
        FOLD,
        DROP_UNKNOWN,
        DROP_DELETES,
        EMPTY,
        FORMAT,
        PATHS,
        EXACT,
    ],
    summary: "show one reading after another until one is taken",
    details: "\
Shows the sentences on standard error, each by its first reading, the least first; with --every-tree all readings. They
are those of at most 256 readings. Enter shows the next one, y takes the one shown and prints it to standard output as
`list --distinct` does, or as `list` does, q takes none. Each is looked for when it is asked for.",
    example: "spireyerba pick grammar.txt utterance.txt > meant.txt",
    run,
};

fn run(arguments: &Arguments, output: &mut Output) -> Result<(), Failure> {
    if arguments.operands.contains(&"-") {
        return Err(arguments.wrong("the answers come from standard input, so no file can"));
    }
    let [with_tree, for_programs] = [&TREE, &JSON].map(|form| arguments.has(form));
    if with_tree && for_programs {
        return Err(arguments.wrong("--tree and --json: only one of them"));
    }
    let mut picker = Picker::new(arguments)?;
    let mut answers = std::io::stdin().lock().lines();
    while picker.next() {
        let (listed, rank) = (&picker.listed, picker.listed.readings.len());
        let tree = if with_tree { drawn(listed, rank, output) } else { String::new() };
        let shown = line(listed, rank, output);
        eprint!("{shown}{}{tree}[Enter, y, q] ", if with_tree { "\n" } else { "  " });
        match answer(&mut answers)? {
            Answer::Next => {}
            Answer::Take => {
                let listed = picker.counted();
                let taken = format!("{}\n{tree}", line(&listed, rank, output));
                return output.bytes(&if for_programs { json_of(&listed, rank..=rank) } else { taken.into() });
            }
            Answer::Quit => return Err(Failure::Refused("none taken".into())),
        }
    }
    picker.listed.say_what_is_missing();
    Err(Failure::Refused(format!("none taken, and {}", picker.why_no_more())))
}

/// Readings that are looked for one by one.
struct Picker {
    listed: Listed,
    open: OpenListing,
    /// The sentences so far, if each is shown once.
    sentences: Option<Distinct>,
}

impl Picker {
    fn new(arguments: &Arguments) -> Result<Self, Failure> {
        let listed = Listed::none_yet(arguments)?;
        let open = listed.grammar.packed.open(&listed.heard).map_err(Error::from)?;
        let once = arguments.has(&DISTINCT) || !arguments.has(&EVERY_TREE);
        Ok(Self { listed, open, sentences: once.then(|| Distinct::new(MAX_READINGS as usize)) })
    }

    /// Adds the next one to the list; answers whether there is one.
    fn next(&mut self) -> bool {
        let Self { listed, open, sentences } = self;
        let grammar = &listed.grammar.named.grammar;
        let is_new = |found: &Reading| sentences.as_mut().is_none_or(|known| known.take(grammar, found.clone()));
        let next = open.find(is_new);
        next.map(|found| listed.readings.push(found)).is_some()
    }

    /// The list with the trees of each sentence counted, as `list` has it.
    fn counted(self) -> Listed {
        let Self { mut listed, open, sentences } = self;
        if let Some(mut sentences) = sentences {
            let shown = listed.readings.len();
            sentences.walk(&listed.grammar.named.grammar, open);
            listed.others = Some(sentences.found()[..shown].iter().map(|sentence| sentence.others).collect());
        }
        listed
    }

    fn why_no_more(&self) -> String {
        match (self.open.is_full(), &self.sentences) {
            (true, None) => format!("no more than {MAX_READINGS} readings are shown"),
            (true, Some(sentences)) => used_up(sentences.found().len()),
            (false, None) => "there are no more readings".into(),
            (false, Some(_)) => "there are no more sentences".into(),
        }
    }
}

enum Answer {
    Next,
    Take,
    Quit,
}

/// What is answered; asks again if it cannot be understood.
fn answer(lines: &mut impl Iterator<Item = std::io::Result<String>>) -> Result<Answer, Failure> {
    loop {
        let Some(answer) = lines.next() else { return Ok(Answer::Quit) };
        match answer.map_err(|error| Failure::file("<stdin>", &error))?.trim() {
            "" => return Ok(Answer::Next),
            "y" => return Ok(Answer::Take),
            "q" => return Ok(Answer::Quit),
            _ => eprint!("Enter for the next, y to take this one, q to take none: "),
        }
    }
}
