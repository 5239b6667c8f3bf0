//! The texts of the crate `spireyerba`, on random grammars, utterances and word graphs: what is written is read again, and
//! packed to the same block.

use spireyerba::lattice::Keep;
use spireyerba::text::{is_graph, parse_reading, reading_text, NamedGrammar, UtteranceReader};
use spireyerba::{Body, Error, Grammar, Graph, Lister, Reading, Rule};
use spireyerba_tests::compare::over_seeds;
use spireyerba_tests::graph_reading;
use spireyerba_tests::seeded::grammars::{grammar, Size};
use spireyerba_tests::seeded::graphs::graph;
use spireyerba_tests::seeded::parsable::{case, graph_case, AMBIGUOUS, SPARSE};
use spireyerba_tests::seeded::rng::Rng;
use spireyerba_tests::seeded::utterances::utterance;
use std::collections::{HashMap, HashSet};
use std::fmt::Debug;

const SIZES: [Size; 3] = [Size::Small, Size::Middle, Size::Greatest];
/// Characters of names, some of which mean something in texts.
const SYMBOL_LETTERS: [char; 8] = ['a', 'B', '0', '_', 'ü', '\'', '-', '语'];
const WORD_LETTERS: [char; 14] = ['a', 'b', '1', 'é', ' ', '"', '\\', '|', ';', '#', '[', '>', '-', '词'];

/// So many names, no two alike.
fn names(rng: &mut Rng, count: u32, letters: &[char]) -> Vec<String> {
    let mut known = HashSet::new();
    let mut names = Vec::new();
    while names.len() < count as usize {
        let length = rng.within(1..=12);
        let name: String = (0..length).map(|_| rng.pick(letters)).collect();
        // a name that begins with a quote is no symbol's
        if known.insert(name.clone()) && !name.starts_with('\'') {
            names.push(name);
        }
    }
    names
}

fn named(rng: &mut Rng) -> NamedGrammar {
    let size = rng.pick(&SIZES);
    let grammar = grammar(rng, size);
    let symbols = names(rng, grammar.symbols, &SYMBOL_LETTERS);
    let words = names(rng, grammar.words, &WORD_LETTERS);
    NamedGrammar::new(grammar, symbols, words)
}

#[test]
fn grammars() {
    over_seeds(0..300, |rng| {
        let named = named(rng);
        assert!(named.symbols.iter().all(|name| NamedGrammar::is_symbol_name(name)));
        let text = named.to_text();
        let read = NamedGrammar::parse(&text).unwrap_or_else(|error| panic!("{error}\n{text}"));
        assert_eq!(read, named, "{text}");
        assert_eq!(read.grammar.to_block(), named.grammar.to_block());
    });
}

#[test]
fn grammars_without_names() {
    over_seeds(1_000..1_300, |rng| {
        let size = rng.pick(&SIZES);
        let grammar = grammar(rng, size);
        let text = NamedGrammar::numbered(grammar.clone()).to_text();
        assert_eq!(NamedGrammar::parse(&text).map(|named| named.grammar), Ok(grammar), "{text}");
    });
}

/// The text in one line.
fn in_a_line(text: &str) -> String {
    text.trim_end().replace('\n', " ; ")
}

/// A text is read as this value, and so is the same in one line. Answers what was read.
fn expect_read<T: PartialEq + Debug>(text: &str, value: &T, read: impl Fn(&str) -> Result<T, Error>) -> T {
    let [of_lines, _] = [text, &in_a_line(text)].map(|text| {
        let found = read(text).unwrap_or_else(|error| panic!("{error}\n{text}"));
        assert_eq!(found, *value, "{text}");
        found
    });
    of_lines
}

#[test]
fn utterances() {
    over_seeds(2_000..2_300, |rng| {
        let named = named(rng);
        let size = rng.pick(&SIZES);
        let utterance = utterance(rng, size, named.grammar.words);
        expect_read(&named.utterance_text(&utterance), &utterance, |text| named.parse_utterance(text));
    });
}

/// Lines as programs write them are read in one pass, and mean what they mean to the reader of any text; so do lines with
/// letters changed, and what is wrong is said at the same place.
#[test]
fn utterances_in_plain_lines() {
    let (mut accepted, mut refused) = (0, 0);
    over_seeds(9_000..10_500, |rng| {
        let mut named = named(rng);
        named.words = names(rng, named.grammar.words, &['a', 'b', 'Z', '0', '7', '_']);
        let block = named.to_block().expect("an accepted grammar");
        let size = rng.pick(&SIZES);
        let utterance = utterance(rng, size, named.grammar.words);
        let mut line: Vec<char> = in_a_line(&named.utterance_text(&utterance)).chars().collect();
        for _ in 0..rng.within(0..=2) {
            let (at, letter) = (rng.below(line.len()), rng.pick(&[' ', '|', ';', '#', '"', '9', 'a', '-', '\t', 'ü']));
            match rng.within(0..=2) {
                0 => line[at] = letter,
                1 => line.insert(at, letter),
                _ => drop(line.remove(at)),
            }
        }
        let line: String = line.into_iter().collect();
        let reader = UtteranceReader::new(&named);
        // this one goes by tokens
        let read = reader.read(&line);
        let (mut sheet, mut packed) = (vec![7; 9], vec![7; 9]);
        match reader.read_block(&line, &mut sheet, &mut packed) {
            Ok(()) => {
                let read = read.unwrap_or_else(|error| panic!("{error}\n{line}"));
                assert_eq!((&sheet, Ok(&packed)), (&read.to_sheet(), read.to_block(&block).as_ref()), "{line}");
                accepted += 1;
            }
            Err(error) => {
                assert_eq!(read, Err(error), "{line}");
                refused += 1;
            }
        }
    });
    assert!(accepted > 500 && refused > 500, "{accepted} accepted, {refused} refused");
}

#[test]
fn graphs() {
    over_seeds(5_000..5_300, |rng| {
        let named = named(rng);
        let size = rng.pick(&SIZES);
        let graph = graph(rng, size, named.grammar.words);
        let text = named.graph_text(&graph);
        assert!(
            is_graph(&text) && !is_graph(&named.utterance_text(&utterance(rng, size, named.grammar.words))),
            "{text}"
        );
        assert!(is_graph(&in_a_line(&text)), "{text}");
        let read = expect_read(&text, &graph, |text| named.parse_graph(text));
        let block = named.grammar.to_block().expect("an accepted grammar");
        assert_eq!(read.to_block(&block), graph.to_block(&block));
    });
}

#[test]
fn networks() {
    let mut written = 0;
    over_seeds(3_000..3_300, |rng| {
        let mut named = named(rng);
        named.words = names(rng, named.grammar.words, &['a', 'b', 'é', '*', '<', '>', '"']);
        let utterance = utterance(rng, Size::Middle, named.grammar.words);
        let scale = rng.pick(&[0.5, 100.0, 1_000.0]);
        let Some(text) = named.network_text(&utterance, scale) else {
            assert_eq!(scale, 0.5, "with a greater scale each cost has a posterior of its own");
            return;
        };
        let mut reader = UtteranceReader::new(&named);
        reader.scale = Some(scale);
        assert_eq!(reader.read(&text), Ok(utterance), "{text}");
        written += 1;
    });
    assert!(written > 150, "{written} networks");
}

/// A graph of which every edge is on a path has a lattice, and that of any other has none.
#[test]
fn lattices() {
    let (mut written, mut dead) = (0, 0);
    over_seeds(7_000..7_600, |rng| {
        let mut named = named(rng);
        named.words = names(rng, named.grammar.words, &['a', 'b', 'é', '=', '\'', '"', '\\', ' ', '#']);
        let size = rng.pick(&SIZES);
        let graph = graph(rng, size, named.grammar.words);
        let heard = Graph { edges: graph.edges.iter().copied().filter(|edge| edge.is_offered()).collect(), ..graph };
        let scale = rng.pick(&[0.5, 100.0, 1_000.0]);
        let Some(text) = named.lattice_text(&graph, scale) else {
            assert!(!is_on_paths(&heard), "{graph:?}");
            dead += 1;
            return;
        };
        assert!(is_graph(&text) && is_on_paths(&heard), "{text}");
        let mut reader = UtteranceReader::new(&named);
        (reader.scale, reader.keep) = (Some(scale), Keep::Paths);
        assert_eq!(reader.read_graph(&text), Ok(heard), "{text}");
        written += 1;
    });
    assert!(written > 100 && dead > 100, "{written} lattices, {dead} graphs without");
}

/// Whether every place and every edge is on a path from the first place to the last.
fn is_on_paths(graph: &Graph) -> bool {
    let inner = 1..graph.places - 1;
    let reached = |place| graph.edges.iter().any(|edge| edge.to == place);
    let left = |place| graph.edges.iter().any(|edge| edge.from == place);
    // edges go up, so what every place is reached from goes back to the first one
    inner.clone().all(reached) && reached(graph.places - 1) && inner.clone().all(left) && left(0)
}

/// A grammar in which every string of three words has one derivation.
fn any_words() -> NamedGrammar {
    let rule = |head, body| Rule { head, weight: 0, body };
    let words = (0..3).flat_map(|word| [0, 1].map(|head| rule(head, Body::Word(word))));
    let rules = [rule(0, Body::Pair(1, 0))].into_iter().chain(words).collect();
    NamedGrammar::numbered(Grammar { symbols: 2, words: 3, rules })
}

/// Lattices in which every word need not be said: each string that is left has its least weight, and there are no others.
#[test]
fn links_without_words_are_passed_over() {
    let named = any_words();
    let mut reader = UtteranceReader::new(&named);
    reader.scale = Some(1.0);
    over_seeds(8_000..8_200, |rng| {
        let costs: Vec<[u32; 2]> = (0..rng.within(1..=6)).map(|_| [rng.within(0..=50), rng.within(0..=50)]).collect();
        let words: Vec<u32> = costs.iter().map(|_| rng.within(0..=2)).collect();
        let mut text = format!("VERSION=1.0\nstart=0 end={}\n", costs.len());
        text.extend((0..=costs.len()).map(|node| format!("I={node}\n")));
        for (from, (word, [said, passed])) in words.iter().zip(&costs).enumerate() {
            text += &format!("J={} S={from} E={} W=w{word} a=-{said}\n", 2 * from, from + 1);
            text += &format!("J={} S={from} E={} W=!NULL a=-{passed}\n", 2 * from + 1, from + 1);
        }
        let graph = reader.read_graph(&text).unwrap_or_else(|error| panic!("{error}\n{text}"));
        let mut found: HashMap<Vec<u32>, u32> = HashMap::new();
        for reading in named.grammar.list(&graph, 256).expect("a list") {
            found.entry(named.words_of(&reading).collect()).or_insert(reading.weight);
        }
        let mut least: HashMap<Vec<u32>, u32> = HashMap::new();
        for choice in 1_u32..1 << costs.len() {
            let is_said = |slot: &usize| choice >> slot & 1 == 1;
            let weight: u32 = (0..costs.len()).map(|slot| costs[slot][usize::from(!is_said(&slot))]).sum();
            let string = (0..costs.len()).filter(is_said).map(|slot| words[slot]).collect();
            least.entry(string).and_modify(|known| *known = weight.min(*known)).or_insert(weight);
        }
        assert_eq!(found, least, "{text}");
    });
}

#[test]
fn readings_and_a_lister_that_is_kept() {
    over_seeds(4_000..4_200, |rng| {
        let shape = rng.pick(&[&AMBIGUOUS, &SPARSE]);
        let (grammar, utterance) = case(rng, shape);
        let mut lister = Lister::new(&grammar).expect("an accepted grammar");
        for wanted in [1, 30, 2] {
            let readings = lister.list(&utterance, wanted);
            assert_eq!(readings, grammar.list(&utterance, wanted));
            for reading in readings.into_iter().flatten() {
                assert_eq!(grammar.check(&utterance, &reading), Ok(()));
                assert_eq!(parse_reading(&reading_text(&reading)), Ok(reading));
            }
        }
    });
}

#[test]
fn readings_of_graphs() {
    let mut read = 0;
    over_seeds(6_000..6_200, |rng| {
        let shape = rng.pick(&[&AMBIGUOUS, &SPARSE]);
        let (grammar, graph) = graph_case(rng, shape);
        let block = grammar.to_block().expect("an accepted grammar");
        let graph_block = graph.to_block(&block).expect("an accepted graph");
        let mut lister = Lister::new(&grammar).expect("an accepted grammar");
        assert_eq!(lister.list(&graph, 2), grammar.list(&graph, 2));
        for found in lister.list(&graph, 30).expect("an accepted number") {
            assert_eq!(grammar.check(&graph, &found), Ok(()));
            assert_eq!(parse_reading(&reading_text(&found)).as_ref(), Ok(&found));
            let packed = found.to_block(&grammar).expect("a reading of the library's");
            assert_eq!(packed, graph_reading::pack(&grammar, &found));
            assert_eq!(Reading::from_block(&block, &graph_block, &packed), Ok(found));
            read += 1;
        }
    });
    assert!(read > 1_000, "{read} readings");
}
