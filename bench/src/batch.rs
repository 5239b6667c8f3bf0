//! The command `spireyerba batch` beside the library's own time for the same utterances.

use crate::inputs::{greatest, utterance, Input, CANDIDATES, WEIGHT};
use crate::measure::{ratio, run, thread_time, Taken};
use crate::table::{print_head, print_row};
use spireyerba::limits::{reading_length, work_length, UTTERANCE_BLOCK_MAX};
use spireyerba::services::{listing, utterance_to_block};
use spireyerba::text::NamedGrammar;
use spireyerba::{Candidate, Grammar, Utterance};
use spireyerba_tests::seeded::rng::Rng;
use std::fs::File;
use std::path::{Path, PathBuf};
use std::process::Command;
use std::time::Duration;

const UTTERANCES: usize = 10_000;
const WANTED: u32 = 8;
const ROUNDS: usize = 15;
/// The slots of the larger load.
const SLOTS: usize = 12;
const DOORS: &str = include_str!("../../examples/doors/grammar.txt");

/// A grammar, and utterances under it.
pub struct Load {
    pub name: &'static str,
    pub named: NamedGrammar,
    pub utterances: Vec<Utterance>,
}

/// Prints processor time in milliseconds, of the library and of the command with all its threads, and how long the command
/// ran on all cores; the least of some rounds each.
pub fn print_table() {
    print_head("10,000 utterances", &["library", "batch", "ratio", "elapsed"]);
    for load in [doors(), large()] {
        let files = Files::write(&load);
        let mut samples = [Vec::new(), Vec::new(), Vec::new()];
        for _ in 0..ROUNDS {
            let (own, batch) = (library(&load), files.run(&[&format!("-n{WANTED}")]));
            samples.iter_mut().zip([own, batch.processor, batch.elapsed]).for_each(|(list, sample)| list.push(sample));
        }
        let [own, batch, elapsed] = samples.map(|list| list.into_iter().min().expect("rounds"));
        let millis = |time: Duration| format!("{:.0}", time.as_secs_f64() * 1e3);
        print_row(load.name, &[millis(own), millis(batch), ratio(batch, own), millis(elapsed)]);
    }
}

/// Lines of the door schedule: four to six slots, each with what was said and up to three other words.
fn doors() -> Load {
    let named = NamedGrammar::parse(DOORS).expect("the example");
    let rng = &mut Rng::new(5);
    let number = |word: &str| named.words.iter().position(|known| known == word).expect("a word of the example") as u32;
    let said = [
        "door twenty four oak fire thirty",
        "door five steel left",
        "door forty glass oak right",
        "door four oak fire sixty",
    ];
    let said = said.map(|line| line.split(' ').map(number).collect::<Vec<u32>>());
    let slot = |rng: &mut Rng, word: u32| {
        let mut words: Vec<u32> = (0..rng.within(0..=3)).map(|_| rng.within(0..=named.grammar.words - 1)).collect();
        words.push(word);
        words.sort_unstable();
        words.dedup();
        words.into_iter().map(|word| Candidate { word, cost: rng.within(0..=99) }).collect()
    };
    let utterances = (0..UTTERANCES)
        .map(|number| Utterance { slots: said[number % said.len()].iter().map(|&word| slot(rng, word)).collect() })
        .collect();
    Load { name: "door schedule, 4 to 6 slots", named, utterances }
}

/// 32 symbols and 256 rules, and 12 slots of seven words.
fn large() -> Load {
    let Input { grammar, .. } = greatest(SLOTS);
    let rng = &mut Rng::new(6);
    let utterances = (0..UTTERANCES).map(|_| utterance(rng, &grammar, SLOTS, CANDIDATES, WEIGHT)).collect();
    Load { name: "32 symbols, 256 rules, 12 slots", named: NamedGrammar::numbered(grammar), utterances }
}

/// The time that the library needs to pack the utterances and to list their readings.
fn library(load: &Load) -> Duration {
    let grammar: &Grammar = &load.named.grammar;
    let block = grammar.to_block().expect("an accepted grammar");
    let sheets: Vec<Vec<u32>> = load.utterances.iter().map(Utterance::to_sheet).collect();
    let lengths = |utterance: &Utterance| {
        let (slots, most) = (utterance.slots.len(), WANTED as usize);
        (work_length(grammar.symbols as usize, slots, most), most * reading_length(slots, grammar.rules.len()))
    };
    let lengths: Vec<(usize, usize)> = load.utterances.iter().map(lengths).collect();
    let longest = lengths.iter().copied().reduce(|a, b| (a.0.max(b.0), a.1.max(b.1))).expect("utterances");
    let (mut work, mut out) = (vec![0; longest.0], vec![0; longest.1]);
    let mut utterance = [0; UTTERANCE_BLOCK_MAX];
    let begin = thread_time();
    for (sheet, (work_length, out_length)) in sheets.iter().zip(lengths) {
        let length = utterance_to_block(&block, sheet, &mut utterance).expect("an accepted utterance");
        listing(&block, &utterance[..length], WANTED, &mut work[..work_length], &mut out[..out_length])
            .expect("a list");
    }
    thread_time() - begin
}

/// The files of a load, and the command beside this program.
pub struct Files {
    grammar: PathBuf,
    utterances: PathBuf,
    answers: PathBuf,
    command: PathBuf,
    lines: usize,
}

impl Files {
    pub fn write(load: &Load) -> Self {
        let command = std::env::current_exe().expect("this program").with_file_name("spireyerba");
        let folder = command.parent().unwrap_or(Path::new(".")).join("batch");
        std::fs::create_dir_all(&folder).expect("a folder");
        let in_a_line = |utterance| load.named.utterance_text(utterance).trim_end().replace('\n', " ; ") + "\n";
        let lines: String = load.utterances.iter().map(in_a_line).collect();
        let [grammar, utterances, answers] =
            ["grammar.txt", "utterances.txt", "answers.jsonl"].map(|name| folder.join(name));
        std::fs::write(&grammar, load.named.to_text()).expect("a file");
        std::fs::write(&utterances, lines).expect("a file");
        Self { grammar, utterances, answers, command, lines: load.utterances.len() }
    }

    /// A run with such options.
    pub fn run(&self, options: &[&str]) -> Taken {
        let mut command = Command::new(&self.command);
        command.arg("batch").args([&self.grammar, &self.utterances]).args(options);
        let taken = run(command.stdout(File::create(&self.answers).expect("a file")));
        let answers = std::fs::read_to_string(&self.answers).expect("answers");
        assert_eq!(answers.lines().count(), self.lines);
        taken
    }
}
