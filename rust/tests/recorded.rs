//! The lattices of a real recogniser in examples/recogniser/recorded: how many are read, pruned and right.

use spireyerba::lattice::{reduce, Acceptor, Keep, UNKNOWN};
use spireyerba::text::{Lattice, NamedGrammar, UtteranceReader};
use spireyerba::Heard;
use spireyerba_tests::clock;
use std::collections::{BTreeMap, BTreeSet};
use std::path::{Path, PathBuf};
use std::time::Duration;

/// The recordings over the office's words, and those over the recogniser's whole vocabulary.
const OFFICE: usize = 60;
const GENERAL: usize = 12;
/// Nothing takes longer than this for 400 nodes and 3,000 links.
const LONGEST: Duration = Duration::from_millis(50);

fn folder() -> PathBuf {
    Path::new(env!("CARGO_MANIFEST_DIR")).join("../examples/recogniser/recorded")
}

fn text(name: &str) -> String {
    let path = folder().join(name);
    std::fs::read_to_string(&path).unwrap_or_else(|error| panic!("{}: {error}", path.display()))
}

fn grammar() -> NamedGrammar {
    NamedGrammar::parse(&text("grammar.txt")).expect("the recordings' grammar")
}

/// What was said in each recording.
fn said() -> BTreeMap<String, String> {
    let said = text("said.txt");
    said.lines().filter_map(|line| line.split_once(' ')).map(|(name, words)| (name.into(), words.into())).collect()
}

fn reader(grammar: &NamedGrammar, keep: Keep) -> UtteranceReader<'_> {
    let mut reader = UtteranceReader::new(grammar);
    (reader.scale, reader.keep, reader.drop_unknown) = (Some(1.0), keep, true);
    reader
}

fn size(lattice: &Lattice) -> (u32, usize) {
    match &lattice.heard {
        Heard::Graph(graph) => (graph.places, graph.edges.len()),
        Heard::Slots(_) => (0, 0),
    }
}

#[test]
fn all_are_read_and_no_sentence_stands_twice() {
    let (grammar, said) = (grammar(), said());
    let reader = reader(&grammar, Keep::Strings);
    let (mut right, mut pruned, mut twice) = (0, 0, 0);
    for number in 0..OFFICE {
        let lattice = reader.read_heard(&text(&format!("office/u{number}.slf"))).expect("every lattice is read");
        pruned += usize::from(lattice.pruned.is_some());
        let (places, edges) = size(&lattice);
        assert!(places <= 25 && edges <= 96);
        let readings = grammar.grammar.list(&lattice.heard, 8).expect("a block");
        let sentences: Vec<String> = readings.iter().map(|reading| grammar.sentence(reading)).collect();
        twice += sentences.len() - sentences.iter().collect::<BTreeSet<_>>().len();
        right += usize::from(sentences.first() == said.get(&format!("u{number}")));
    }
    println!("{OFFICE} read, {right} right, {pruned} pruned, {twice} sentences twice");
    assert!(right >= 31, "{right} right");
    assert!(pruned <= 11, "{pruned} pruned");
    assert_eq!(twice, 0);
}

/// Those of the recogniser's whole vocabulary, of which only the office's words are left, and with every path.
#[test]
fn the_largest_are_read_in_time() {
    let grammar = grammar();
    let mut slowest = Duration::ZERO;
    for keep in [Keep::Strings, Keep::Paths] {
        let reader = reader(&grammar, keep);
        for number in 0..GENERAL {
            let text = text(&format!("general/u{number}.slf"));
            // where no path is left of the office's words that is said
            let read = reader.read_heard(&text).map_err(|error| error.to_string());
            assert!(read.is_ok() || read.is_err_and(|message| message.contains("no word on a path")));
            slowest = slowest.max(clock::time(|| reader.read_heard(&text)));
        }
    }
    println!("the slowest took {slowest:?}");
    assert!(slowest < LONGEST, "{slowest:?}");
}

/// The same with as many words as they have: nothing is left out, and the time is still kept.
#[test]
fn the_whole_vocabulary_in_time() {
    let (grammar, mut slowest, mut pruned) = (grammar(), Duration::ZERO, 0);
    let mut reader = reader(&grammar, Keep::Strings);
    reader.keep_unknown = true;
    for number in 0..GENERAL {
        let text = text(&format!("general/u{number}.slf"));
        let acceptor = with_words(reader.recognised_alone(&text).expect("a lattice").acceptor);
        let reduced = reduce(&acceptor, Keep::Strings).expect("what weighs the least fits");
        assert!(reduced.graph.edges.len() <= 96 && reduced.graph.places <= 25);
        pruned += usize::from(reduced.pruned.is_some());
        slowest = slowest.max(clock::time(|| (reader.recognised_alone(&text), reduce(&acceptor, Keep::Strings))));
    }
    println!("the slowest took {slowest:?}, {pruned} pruned");
    assert!(slowest < LONGEST, "{slowest:?}");
}

/// An acceptor whose words that the grammar does not have are other ones.
fn with_words(acceptor: Acceptor) -> Acceptor {
    let mut states = acceptor.into_states();
    let arcs = states.iter_mut().flat_map(|state| &mut state.arcs);
    arcs.filter(|arc| arc.label == UNKNOWN).for_each(|arc| arc.label = 100 + arc.to % 97);
    Acceptor::new(0, states).expect("no cycle")
}

/// A reading of the pruned lattice that weighs no more than is said is the whole lattice's too: the first ones are the same
/// where every path is kept.
#[test]
fn the_first_reading_is_the_same_by_every_path() {
    let grammar = grammar();
    let (strings, paths) = (reader(&grammar, Keep::Strings), reader(&grammar, Keep::Paths));
    let mut compared = 0;
    for number in 0..OFFICE {
        let text = text(&format!("office/u{number}.slf"));
        let both = [&strings, &paths].map(|reader| reader.read_heard(&text).expect("a lattice"));
        let first = both.each_ref().map(|lattice| {
            let list = grammar.grammar.list(&lattice.heard, 1).expect("a block");
            list.first().map(|reading| i64::from(reading.weight) + lattice.taken_off)
        });
        let up_to =
            both.iter().map(|lattice| lattice.complete_up_to().map_or(i64::MAX, |weight| weight + lattice.taken_off));
        let up_to = up_to.min().unwrap_or(i64::MAX);
        if first.iter().any(|weight| weight.is_some_and(|weight| weight <= up_to)) {
            assert_eq!(first[0], first[1], "u{number}");
            compared += 1;
        }
    }
    println!("{compared} compared");
    assert!(compared >= 20, "{compared} compared");
}
