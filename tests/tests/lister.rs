//! The lister as a program (document 01, "Checked examples"): over the examples, where a file is missing or too long, and
//! where the table that it lends is short. `make` and `.ci/run` build it.

use spireyerba::limits::NOT_HEARD;
use spireyerba::{services, Body, Candidate, Edge, Grammar, Graph, MarkedGrammar, Rule, Utterance};
use std::fs;
use std::path::{Path, PathBuf};
use std::process::Command;

/// The bytes of a file that count.
const MOST_BYTES: usize = 2_048;

fn root() -> PathBuf {
    Path::new(env!("CARGO_MANIFEST_DIR")).join("..")
}

fn read(path: &str) -> Vec<u8> {
    fs::read(root().join(path)).unwrap_or_else(|fault| panic!("{path}: {fault}"))
}

/// What the lister prints in a folder.
fn printed_in(folder: &Path) -> String {
    let program = root().join("target/bin/lister");
    let run = Command::new(&program).current_dir(folder).output();
    let output = run.unwrap_or_else(|fault| panic!("{}: {fault}", program.display()));
    assert!(output.status.success() && output.stderr.is_empty(), "{output:?}");
    String::from_utf8(output.stdout).expect("a text")
}

/// What the lister prints in a folder that has these files and no others.
fn printed(name: &str, grammar: Option<&[u8]>, utterance: Option<&[u8]>) -> String {
    let folder = Path::new(env!("CARGO_TARGET_TMPDIR")).join("lister").join(name);
    if folder.exists() {
        fs::remove_dir_all(&folder).expect("the folder of an earlier run goes");
    }
    fs::create_dir_all(&folder).expect("a new folder");
    for (file, bytes) in [("grammar.bin", grammar), ("utterance.bin", utterance)] {
        if let Some(bytes) = bytes {
            fs::write(folder.join(file), bytes).expect("a new file");
        }
    }
    printed_in(&folder)
}

#[test]
fn the_examples() {
    for example in ["examples/doors", "examples/doors_graph", "examples/doors_office", "examples/g"] {
        let readings = String::from_utf8(read(&format!("{example}/readings.txt"))).expect("a text");
        assert_eq!(printed_in(&root().join(example)), readings, "{example}");
    }
}

#[test]
fn a_missing_file_is_empty() {
    let (g, u) = (read("examples/g/grammar.bin"), read("examples/g/utterance.bin"));
    assert_eq!(printed("none", None, None), "refused 1\n");
    assert_eq!(printed("no_grammar", None, Some(&u)), "refused 1\n");
    assert_eq!(printed("empty_grammar", Some(&[]), Some(&u)), "refused 1\n");
    assert_eq!(printed("no_utterance", Some(&g), None), "refused 11\n");
    assert_eq!(printed("empty_utterance", Some(&g), Some(&[])), "refused 11\n");
}

/// No accepted block is so long: what counts of it is refused for its further bytes.
#[test]
fn of_a_long_file_the_first_bytes_count() {
    let (g, u) = (read("examples/g/grammar.bin"), read("examples/g/utterance.bin"));
    for length in [MOST_BYTES - 1, MOST_BYTES, MOST_BYTES + 1, 1_000_000] {
        let [long_g, long_u] = [&g, &u].map(|block| [block.as_slice(), &vec![0; length - block.len()]].concat());
        assert_eq!(printed("long_grammar", Some(&long_g), Some(&u)), "refused 7\n", "{length} bytes");
        assert_eq!(printed("long_utterance", Some(&g), Some(&long_u)), "refused 16\n", "{length} bytes");
        assert_eq!(printed("long_files", Some(&long_g), Some(&long_u)), "refused 7\n", "{length} bytes");
    }
    let [late_g, late_u] = [&g, &u].map(|block| [[0; MOST_BYTES].as_slice(), block].concat());
    assert_eq!(printed("late_grammar", Some(&late_g), Some(&u)), "refused 2\n");
    assert_eq!(printed("late_utterance", Some(&g), Some(&late_u)), "refused 12\n");
}

/// 0 to word 0, weight 5, and 0 to word 1, weight 3; one slot of both words.
fn printed_of_costs(name: &str, costs: [u32; 2]) -> String {
    let rule = |word, weight| Rule { head: 0, weight, body: Body::Word(word) };
    let grammar = Grammar { symbols: 1, words: 2, rules: vec![rule(0, 5), rule(1, 3)] };
    let slot = [0, 1].map(|word| Candidate { word, cost: costs[word as usize] });
    let grammar = grammar.to_block().expect("an accepted grammar");
    let utterance = Utterance { slots: vec![slot.into()] }.to_block(&grammar).expect("an accepted utterance");
    printed(name, Some(&grammar), Some(&utterance))
}

/// They are in no reading, and where nothing was heard there is none, which is no refusal (document 02, N3).
#[test]
fn words_that_were_not_heard() {
    assert_eq!(printed_of_costs("one_heard", [0, NOT_HEARD]), "readings 1\n1 5 0\n");
    assert_eq!(printed_of_costs("none_heard", [NOT_HEARD, NOT_HEARD]), "readings 0\n");
    assert_eq!(printed_of_costs("both_heard", [0, NOT_HEARD - 1]), "readings 2\n1 5 0\n2 65537 1\n");
}

/// A word graph stands where an utterance does, under the same name (document 02, N1). The lines have no numbers of edges, and
/// as many nodes as the reading's own path needs.
#[test]
fn word_graphs() {
    let g = read("examples/g/grammar.bin");
    let printed_of = |name, graph: &[u8]| printed(name, Some(&g), Some(graph));
    let redrawn = [0x52, 0x84, 0x00, 0x40, 0x00, 0x01, 0x10, 0x00, 0x00, 0x43, 0x00, 0x00, 0x0c, 0x80, 0x00, 0x00];
    let of_slots = String::from_utf8(read("examples/g/readings.txt")).expect("a text");
    assert_eq!(printed_of("graph_redrawn", &redrawn), of_slots);
    let two_lengths = [0x52, 0x04, 0x00, 0x40, 0x00, 0x01, 0x10, 0x00, 0x00, 0x02, 0x00, 0x01, 0x88, 0x60, 0x00, 0x00];
    assert_eq!(
        printed_of("graph_of_two_lengths", &two_lengths),
        "readings 3\n1 2 0 1 0 1 1\n2 2 0 0 1 1 1\n3 4 0 1 1\n"
    );
    assert_eq!(printed_of("graph_of_one_edge", &[0x51, 0x81, 0x00, 0x80, 0x00, 0xe0]), "readings 1\n1 7 1\n");
    assert_eq!(printed_of("graph_without_path", &[0x51, 0x81, 0x00, 0x40, 0x00, 0x00]), "readings 0\n");
    assert_eq!(printed_of("graph_places", &[0x51, 0x81, 0x08, 0x40, 0x00, 0x00]), "refused 51\n");
    assert_eq!(printed_of("graph_repeat", &[0x51, 0x82, 0x00, 0x40, 0x00, 0x00, 0x08, 0x00, 0x00]), "refused 52\n");
    assert_eq!(printed_of("graph_long", &[&redrawn[..], &[0]].concat()), "refused 16\n");
}

/// An edge that was not heard, and the other that was.
#[test]
fn an_edge_that_was_not_heard() {
    let grammar = [0x10, 0x40, 0x80, 0x50, 0x00, 0x2a, 0x00, 0x03, 0x80];
    let graph = [0x51, 0x02, 0x00, 0x5f, 0xff, 0xe0, 0x0c, 0x00, 0x00];
    assert_eq!(printed("edge_not_heard", Some(&grammar), Some(&graph)), "readings 1\n1 3 1\n");
}

/// Nodes whose rule is marked are left out (document 02, N5), of slots and of graphs alike.
#[test]
fn marked_rules() {
    let desk =
        [2, 4, 4, 0, 5, 3, 1, 0, 0, 1, 1, 2, 1, 1, 1, 1, 1, 1, 2, 2, 1, 3, 1, 1, 0, 7, 4, 1, 0, 0, 1, 1, 2, 1, 2];
    let mut block = [0; 41];
    assert_eq!(services::office_to_block(&desk, &mut block), Ok(41));
    let heard = [0x21, 0x08, 0x00, 0x08, 0x90, 0x00, 0x9c, 0x00, 0x31, 0x20, 0x01, 0x30, 0x00, 0x39, 0x80, 0x01, 0xc0];
    assert_eq!(printed("marks_of_an_office", Some(&block), Some(&heard)), "readings 2\n1 35 3 1\n2 39 0 2\n");
    let g = [0x40, 0x40, 0x40, 0x40, 0x00, 0x08, 0x80, 0x00, 0x10];
    let lines = [1, 2, 3, 4, 5].map(|rank| format!("{rank} 3 0 0 0\n")).concat();
    let redrawn = [0x52, 0x84, 0x00, 0x40, 0x00, 0x01, 0x10, 0x00, 0x00, 0x43, 0x00, 0x00, 0x0c, 0x80, 0x00, 0x00];
    for (name, heard) in [("marks_of_slots", read("examples/g/utterance.bin")), ("marks_of_a_graph", redrawn.to_vec())]
    {
        assert_eq!(printed(name, Some(&g), Some(&heard)), format!("readings 5\n{lines}"), "{name}");
    }
    // all marked, and none
    let all = Grammar { symbols: 1, words: 1, rules: vec![Rule { head: 0, weight: 4, body: Body::Word(0) }] };
    let one_slot = Utterance { slots: vec![vec![Candidate { word: 0, cost: 3 }]] };
    let one_slot = one_slot.to_block(&all.to_block().expect("an accepted grammar")).expect("an accepted utterance");
    for (mark, line) in [(true, "1 7\n"), (false, "1 7 0\n")] {
        let marked = MarkedGrammar { grammar: all.clone(), marks: vec![mark] };
        let block = marked.to_block().expect("an accepted grammar");
        let name = if mark { "all_marked" } else { "none_marked" };
        assert_eq!(printed(name, Some(&block), Some(&one_slot)), format!("readings 1\n{line}"));
    }
}

/// So many symbols of which only the start has a rule, for one word, and so many slots that offer it.
fn printed_of_size(name: &str, symbols: u32, slots: usize) -> String {
    let rules = vec![Rule { head: 0, weight: 0, body: Body::Word(0) }];
    let grammar = Grammar { symbols, words: 1, rules };
    let utterance = Utterance { slots: vec![vec![Candidate { word: 0, cost: 0 }]; slots] };
    let grammar = grammar.to_block().expect("an accepted grammar");
    let utterance = utterance.to_block(&grammar).expect("an accepted utterance");
    printed(name, Some(&grammar), Some(&utterance))
}

/// The same over a word graph of so many places, whose one edge goes over all of them.
fn printed_of_places(name: &str, symbols: u32, places: u32) -> String {
    let grammar = Grammar { symbols, words: 1, rules: vec![Rule { head: 0, weight: 0, body: Body::Word(0) }] };
    let graph = Graph { places, edges: vec![Edge { from: 0, to: places - 1, word: 0, cost: 0 }] };
    let grammar = grammar.to_block().expect("an accepted grammar");
    let graph = graph.to_block(&grammar).expect("an accepted graph");
    printed(name, Some(&grammar), Some(&graph))
}

/// A graph needs what one slot fewer than it has places needs.
#[test]
fn the_work_table_that_is_lent_for_a_graph() {
    assert_eq!(printed_of_places("graph_work_enough", 17, 6), "readings 1\n1 0 0\n");
    assert_eq!(printed_of_places("graph_work_short", 26, 5), "refused 22\n");
}

/// The sizes just below and just above 8,192 numbers of work table for eight readings: 8,160 and 8,320.
#[test]
fn the_work_table_that_is_lent() {
    assert_eq!(printed_of_size("work_enough", 17, 5), "readings 0\n");
    assert_eq!(printed_of_size("work_short", 26, 4), "refused 22\n");
}
