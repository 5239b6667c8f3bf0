//! `list`: the least readings of an utterance.

use super::Command;
use crate::alignment::differing;
use crate::drawing::Drawing;
use crate::failure::Failure;
use crate::files::{self, GrammarFile};
use crate::heard::{HeardWords, Taken};
use crate::json;
use crate::no_reading::NoReading;
use crate::options::{
    Arguments, DISTINCT, DROP_DELETES, DROP_UNKNOWN, EMPTY, EXACT, FOLD, FORMAT, JSON, PATHS, RULES, SAID, SAY, SCALE,
    SKIP, TREE, WANTED, WORDS,
};
use crate::output::{Output, Style};
use crate::words::{self, Changed, Input};
use spireyerba::limits::MAX_READINGS;
use spireyerba::text::Lattice;
use spireyerba::{Distinct, Error, Heard, Reading, Refusal, Tree};
use std::ops::RangeInclusive;

pub const COMMAND: Command = Command {
    name: "list",
    operands: &["GRAMMAR", "UTTERANCE"],
    needed: 1,
    options: &[
        WANTED, WORDS, SAY, DISTINCT, TREE, RULES, JSON, SAID, SKIP, SCALE, FOLD, DROP_UNKNOWN, DROP_DELETES, EMPTY, FORMAT, PATHS,
        EXACT,
    ],
    summary: "list the readings of least weight, the least first",
    details: "\
A line has rank, weight and words. Fewer readings than were asked for are all that there are; where there is none, a message
says how far what was heard goes along with the grammar, and what could follow there (\"prefix\" in JSON). With --distinct no words stand
twice: (+2 trees) says that 2 more of the first 256 readings have these, and a message if there may be more sentences.
In JSON \"edges\" are numbers of the word graph, of a lattice those of the graph that it was reduced to (`unpack` prints it),
\"links\" numbers of the file's links as they stand, from 0, and \"times\" when each word began and ended, if the file says it;
\"dropped\" has the words that --drop-unknown left out.
In a tree [5] is a rule's weight, and 12 behind a word its cost. With --skip some slots may have been words too many: as
many in a row as 96 edges of a word graph have room for, and a message says how many that is.",
    example: "spireyerba list grammar.txt utterance.txt -n 3 --tree --said 0=door",
    run,
};

/// What stands before each line of a tree.
const TREE_MARGIN: &str = "   ";

/// Readings of an utterance as a command line asks for them.
pub struct Listed {
    pub grammar: GrammarFile,
    pub heard: Heard,
    /// The weight up to which every reading is there, if what was heard had to be pruned.
    pub complete_up_to: Option<i64>,
    pub readings: Vec<Reading>,
    /// How many more readings have the words of each, if each sentence stands once.
    pub others: Option<Vec<u32>>,
    /// Whether there may be more sentences than were found, since no listing has more than 256 readings.
    pub used_up: bool,
    /// The slot of each edge, if the graph was drawn so that slots may be passed over.
    pub slots: Option<Vec<u32>>,
    /// When each place of a word graph was reached, if that is known.
    pub times: Option<Vec<f64>>,
    /// The link of each edge, if the graph was made of a lattice.
    pub links: Vec<u32>,
    /// Words that were left out since the grammar does not have them.
    pub dropped: Vec<String>,
    /// What was heard and left out, a sentence without its end each.
    pub left_out: Vec<String>,
}

impl Listed {
    /// Lists so many readings of the utterance that the first two operands name, each sentence once if it is said so.
    pub fn new(arguments: &Arguments, wanted: u32) -> Result<Self, Failure> {
        let mut listed = Self::none_yet(arguments)?;
        listed.find(wanted, arguments.has(&DISTINCT))?;
        Ok(listed)
    }

    /// What a list is of, and no reading yet.
    pub fn none_yet(arguments: &Arguments) -> Result<Self, Failure> {
        let grammar = files::grammar(arguments.operands[0])?;
        let Changed { lattice, slots } = heard(arguments, &grammar)?;
        Ok(Self::of(grammar, lattice, slots))
    }

    /// No reading yet of what was heard, with the slot of each edge if slots may be passed over.
    pub fn of(grammar: GrammarFile, lattice: Lattice, slots: Option<Vec<u32>>) -> Self {
        let (complete_up_to, left_out) = (lattice.complete_up_to(), lattice.notes());
        let Lattice { heard, times, sources: links, dropped, .. } = lattice;
        Self {
            grammar,
            heard,
            complete_up_to,
            readings: Vec::new(),
            others: None,
            used_up: false,
            slots,
            times,
            links,
            dropped,
            left_out,
        }
    }

    /// What the word graph was made of, if there is one.
    fn origin(&self) -> json::Origin<'_> {
        json::Origin::new(&self.heard, self.slots.as_deref(), &self.links, self.times.as_deref())
    }

    /// Finds so many readings, or the first ones of so many sentences.
    pub fn find(&mut self, wanted: u32, distinct: bool) -> Result<(), Failure> {
        let grammar = &self.grammar.packed;
        if !distinct {
            self.readings = grammar.list(&self.heard, wanted).map_err(Error::from)?;
            return Ok(());
        }
        if !(1..=MAX_READINGS).contains(&wanted) {
            return Err(Error::from(Refusal::ListingWanted).into());
        }
        let mut sentences = Distinct::new(wanted as usize);
        let mut open = grammar.open(&self.heard).map_err(Error::from)?;
        sentences.walk(grammar.grammar(), open.by_ref());
        self.used_up = open.is_full() && sentences.found().len() < wanted as usize;
        self.readings = sentences.found().iter().map(|sentence| sentence.first.clone()).collect();
        self.others = Some(sentences.found().iter().map(|sentence| sentence.others).collect());
        Ok(())
    }

    /// Lists readings up to the one with a rank, which there has to be.
    pub fn up_to(arguments: &Arguments, rank: u32) -> Result<Self, Failure> {
        let listed = Self::new(arguments, rank)?;
        match listed.readings.len() {
            found if found < rank as usize => {
                let why = match (listed.used_up, &listed.others) {
                    (true, _) => format!("no sentence {rank} found: {}", used_up(found)),
                    (false, Some(_)) => format!("there is no sentence {rank}: the utterance has {found} in all"),
                    (false, None) => format!("there is no reading {rank}: the utterance has {found} in all"),
                };
                Err(Failure::Refused(why))
            }
            _ => Ok(listed),
        }
    }

    /// Says on standard error that there is no reading, or that there may be more sentences, if it is so.
    pub fn say_what_is_missing(&self) {
        if let Some(none) = self.no_reading() {
            eprintln!("{}", none.message());
        }
        self.say_if_used_up();
    }

    /// Why there is no reading, if there is none.
    pub fn no_reading(&self) -> Option<NoReading<'_>> {
        let why = || NoReading::new(&self.grammar.named, &self.heard).expect("the library took the grammar");
        self.readings.is_empty().then(why)
    }

    /// Says on standard error that there may be more sentences, if it is so.
    pub fn say_if_used_up(&self) {
        if self.used_up {
            eprintln!("{}", used_up(self.readings.len()));
        }
    }

    /// The words of the reading with a rank, each where it was heard; none if there is no such reading.
    pub fn taken(&self, rank: usize) -> Vec<Taken> {
        match self.readings.get(rank - 1) {
            Some(reading) => self.heard.taken(&self.grammar.named, reading),
            None => Vec::new(),
        }
    }

    /// The words of the reading with a rank; none if there is no such reading.
    pub fn words(&self, rank: usize) -> Vec<&str> {
        self.taken(rank).iter().map(|taken| self.grammar.named.word(taken.candidate.word)).collect()
    }

    /// For each word of the reading with a rank whether the first reading does not have it there: in its slot, or by an alignment
    /// of both sentences.
    pub fn differing(&self, rank: usize) -> Vec<bool> {
        match self.heard {
            Heard::Slots(_) => self.words(1).iter().zip(self.words(rank)).map(|(usual, word)| *usual != word).collect(),
            Heard::Graph(_) => differing(&self.words(1), &self.words(rank)),
        }
    }

    pub fn tree(&self, reading: &Reading) -> Tree {
        self.grammar.named.tree(reading).expect("the library lists walks of derivations")
    }
}

/// That there may be more sentences than these.
pub fn used_up(found: usize) -> String {
    let sentences = if found == 1 { "is 1 sentence" } else { &format!("are {found} sentences") };
    format!("among {MAX_READINGS} readings, the most that a listing has, there {sentences}; there may be more")
}

/// What was heard, as the command line asks for it.
pub fn heard(arguments: &Arguments, grammar: &GrammarFile) -> Result<Changed, Failure> {
    let input = match (arguments.operands.get(1), arguments.value(&WORDS)) {
        (Some(_), Some(_)) => return Err(arguments.wrong("UTTERANCE and --words: only one of them")),
        (None, None) => return Err(arguments.wrong("UTTERANCE is missing")),
        (Some(operand), None) => Input::File(operand),
        (None, Some(words)) => Input::Words(words),
    };
    words::heard(arguments, grammar, input)
}

fn run(arguments: &Arguments, output: &mut Output) -> Result<(), Failure> {
    let forms = [&TREE, &RULES, &JSON].map(|form| arguments.has(form));
    if forms.iter().filter(|form| **form).count() > 1 {
        return Err(arguments.wrong("--tree, --rules and --json: only one of them"));
    }
    let listed = Listed::new(arguments, arguments.wanted()?)?;
    match forms {
        [_, true, _] => {
            listed.say_if_used_up();
            output.text(&listed.grammar.named.print_list(&listed.readings))
        }
        [_, _, true] => {
            listed.say_if_used_up();
            output.bytes(&json_of(&listed, 1..=listed.readings.len()))
        }
        [with_trees, ..] => print(&listed, Shown { with_trees, says: arguments.has(&SAY) }, output),
    }
}

/// The readings with ranks from one to another as a line of JSON. Those of a word graph have edges, and those of slots that may
/// be passed over the slots of their words.
pub fn json_of(listed: &Listed, ranks: RangeInclusive<usize>) -> Vec<u8> {
    let named = &listed.grammar.named;
    let (names, mut line) = (json::Names::new(named), b"{\"readings\":[".to_vec());
    for rank in ranks {
        let reading = &listed.readings[rank - 1];
        names.begin_reading(&mut line, Some(rank as u32), reading);
        json::push_path(&mut line, reading, listed.origin());
        if let Some(others) = &listed.others {
            json::push_key(&mut line, "others");
            json::push_number(&mut line, others[rank - 1]);
        }
        json::push_key(&mut line, "tree");
        let tree = listed.tree(reading);
        json::push_tree(&mut line, named, &tree);
        json::push_translation(&mut line, named, &tree);
        json::end_reading(&mut line);
    }
    json::end_list(&mut line);
    if listed.used_up {
        line.extend(b",\"used_up\":true");
    }
    words::push_notes(&mut line, listed.complete_up_to, &listed.dropped);
    if let Some(none) = listed.no_reading() {
        none.push_json(&mut line);
    }
    line.extend(b"}\n");
    line
}

/// What is printed of a reading beside its words.
#[derive(Clone, Copy, Default)]
pub struct Shown {
    pub with_trees: bool,
    /// Whether what it becomes is.
    pub says: bool,
}

pub fn print(listed: &Listed, Shown { with_trees, says }: Shown, output: &mut Output) -> Result<(), Failure> {
    listed.say_what_is_missing();
    for rank in 1..=listed.readings.len() {
        let mut text = line(listed, rank, output);
        if says {
            let becomes = listed.grammar.named.translation(&listed.tree(&listed.readings[rank - 1]));
            text += &format!("  => {}", output.paint(Style::Strong, &becomes));
        }
        text.push('\n');
        if with_trees {
            text += &drawn(listed, rank, output);
            text += if rank < listed.readings.len() { "\n" } else { "" };
        }
        output.text(&text)?;
    }
    Ok(())
}

/// The tree of the reading with a rank.
pub fn drawn(listed: &Listed, rank: usize, output: &Output) -> String {
    let drawing = Drawing { grammar: &listed.grammar.named, taken: &listed.taken(rank), output };
    drawing.draw(&listed.tree(&listed.readings[rank - 1]), TREE_MARGIN)
}

/// The reading with a rank in one line; words that the first reading does not have in their place are marked.
pub fn line(listed: &Listed, rank: usize, output: &Output) -> String {
    let others = other_trees(listed, rank).map_or(String::new(), |others| format!("  ({others})"));
    let others = output.paint(Style::Faint, &others);
    format!("{}  {}{others}", line_begin(listed, rank, output), marked_words(listed, rank, output))
}

/// How many more readings have the words of the one with a rank, if some have and sentences stand once.
pub fn other_trees(listed: &Listed, rank: usize) -> Option<String> {
    match listed.others.as_ref()?[rank - 1] {
        0 => None,
        1 => Some("+1 tree".into()),
        others => Some(format!("+{others} trees")),
    }
}

/// Rank and weight, as the line of the reading begins.
pub fn line_begin(listed: &Listed, rank: usize, output: &Output) -> String {
    let readings = &listed.readings;
    let width = |number: u32| number.to_string().len();
    let rank_width = width(readings.len() as u32);
    let weight_width = readings.iter().map(|reading| width(reading.weight)).max().unwrap_or(0);
    let weight = format!("{:>weight_width$}", readings[rank - 1].weight);
    format!("{rank:>rank_width$}  {}", output.paint(Style::Strong, &weight))
}

/// The words of the reading with a rank; those that the first reading does not have there are marked.
pub fn marked_words(listed: &Listed, rank: usize, output: &Output) -> String {
    let words = listed.words(rank).into_iter().zip(listed.differing(rank));
    let painted =
        words.map(|(word, differs)| if differs { output.paint(Style::Marked, word) } else { word.to_owned() });
    painted.collect::<Vec<_>>().join(" ")
}
