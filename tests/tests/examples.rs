//! The files of examples/ belong together: texts and sheets, blocks, and lists of readings.

use spireyerba::lattice::Keep;
use spireyerba::limits::{PANEL_OUTPUT_MAX, PANEL_WORK_MAX};
use spireyerba::text::{parse_sheet, print_list, NamedGrammar, UtteranceReader};
use spireyerba::{services, Grammar, Graph, Heard, Reading, Utterance, WordMargin};
use spireyerba_tests::chance::chance;
use spireyerba_tests::nbest::{least, least_of_graph};
use spireyerba_tests::word_margins::entries;
use spireyerba_tests::{grammar, graph, heard, office, utterance};
use std::path::PathBuf;

fn path(folder: &str, name: &str) -> PathBuf {
    [env!("CARGO_MANIFEST_DIR"), "..", "examples", folder, name].iter().collect()
}

fn bytes(folder: &str, name: &str) -> Vec<u8> {
    std::fs::read(path(folder, name)).unwrap_or_else(|fault| panic!("{folder}/{name}: {fault}"))
}

fn text(folder: &str, name: &str) -> String {
    String::from_utf8(bytes(folder, name)).expect("a text")
}

/// The blocks are these, and their readings those listed, by both implementations.
fn expect(folder: &str, grammar: &Grammar, utterance: &Utterance) {
    let (grammar_block, utterance_block) = (bytes(folder, "grammar.bin"), bytes(folder, "utterance.bin"));
    assert_eq!(grammar::pack(grammar), grammar_block);
    assert_eq!(grammar.to_block().as_ref(), Ok(&grammar_block));
    assert_eq!(utterance::pack(grammar, utterance), utterance_block);
    assert_eq!(utterance.to_block(&grammar_block).as_ref(), Ok(&utterance_block));
    let readings = text(folder, "readings.txt");
    assert_eq!(print_list(&least(grammar, utterance, 8)), readings);
    assert_eq!(grammar.list(utterance, 8).map(|list| print_list(&list)), Ok(readings));
    expect_panel(&grammar_block, &utterance_block);
}

/// The panel lists an example as the library does, to the byte.
fn expect_panel(grammar: &[u8], heard: &[u8]) {
    let [library, panel] = [services::listing, services::panel_listing].map(|service| {
        let (mut work, mut out) = (vec![7; PANEL_WORK_MAX], vec![7; PANEL_OUTPUT_MAX]);
        (service(grammar, heard, 8, &mut work, &mut out), work, out)
    });
    assert!(library.0.is_ok_and(|found| found > 0) && library == panel);
}

/// The chances are these, in both implementations.
fn expect_chances(folder: &str, grammar: &Grammar, heard: &Heard) {
    let shares: Vec<u32> = text("doors", "shares.txt").split_whitespace().map(|share| share.parse().unwrap()).collect();
    let named = NamedGrammar::numbered(grammar.clone());
    assert_eq!(named.parse_shares(&text("doors", "shares.txt")).as_ref(), Ok(&shares));
    let (grammar_block, block, chances) =
        (grammar::pack(grammar), heard::pack(grammar, heard), text(folder, "chances.txt"));
    for service in [services::chance, chance] {
        let mut printed = String::new();
        for (rank, (_, reading)) in (1..).zip(heard::least(grammar, heard, 8)) {
            let mut float = f64::NAN;
            service(&grammar_block, &block, &reading, &shares, &mut float).expect("a chance");
            printed += &format!("{rank} {float:?}\n");
        }
        assert_eq!(printed, chances, "{folder}");
    }
}

#[test]
fn g_and_u() {
    let grammar = grammar::from_sheet(&parse_sheet(&text("g", "grammar.sheet.txt")).unwrap()).unwrap();
    let sheet = parse_sheet(&text("g", "utterance.sheet.txt")).unwrap();
    expect("g", &grammar, &utterance::from_sheet(&grammar, &sheet).unwrap());
}

#[test]
fn the_door_schedule() {
    let named = NamedGrammar::parse(&text("doors", "grammar.txt")).unwrap();
    let utterance = named.parse_utterance(&text("doors", "utterance.txt")).unwrap();
    expect("doors", &named.grammar, &utterance);
    expect_chances("doors", &named.grammar, &Heard::Slots(utterance.clone()));
    let margins = [[9, 1, 1, 80], [9, 5, 10, 80], [51, 3, 6, 122]];
    assert_eq!(named.grammar.word_margins(&utterance), Ok(margins.map(WordMargin::from).into()));
    assert_eq!(entries(&named.grammar, &utterance), margins);
    let mut reader = UtteranceReader::new(&named);
    for line in text("doors", "utterances.txt").lines().filter(|line| !line.starts_with('#')) {
        assert!(reader.read(line).is_ok_and(|heard| named.grammar.list(&heard, 1).is_ok_and(|list| list.len() == 1)));
    }
    reader.scale = Some(100.0);
    assert_eq!(reader.read(&text("doors", "network.txt")), Ok(utterance));
    assert_eq!(grammar::from_sheet(&named.grammar.to_sheet()), Ok(named.grammar));
}

/// The same grammar over a word graph, which stands there as a lattice too.
#[test]
fn the_door_schedule_as_a_graph() {
    const FOLDER: &str = "doors_graph";
    let named = NamedGrammar::parse(&text(FOLDER, "grammar.txt")).unwrap();
    let graph = named.parse_graph(&text(FOLDER, "graph.txt")).unwrap();
    let (grammar_block, block) = (bytes(FOLDER, "grammar.bin"), bytes(FOLDER, "utterance.bin"));
    assert_eq!(graph::pack(&named.grammar, &graph), block);
    assert_eq!(graph.to_block(&grammar_block).as_ref(), Ok(&block));
    let readings = text(FOLDER, "readings.txt");
    let list = least_of_graph(&named.grammar, &graph, 8);
    assert_eq!(print_list(&list), readings);
    assert_eq!(Graph::from_block(&grammar_block, &block).as_ref(), Ok(&graph));
    assert_eq!(named.grammar.list(&graph, 8), Ok(list));
    expect_panel(&grammar_block, &block);
    let mut reader = UtteranceReader::new(&named);
    (reader.scale, reader.keep) = (Some(100.0), Keep::Paths);
    let heard = graph.edges.iter().copied().filter(|edge| edge.is_offered()).collect();
    let heard = Graph { edges: heard, ..graph };
    assert_eq!(reader.read_graph(&text(FOLDER, "lattice.slf")), Ok(heard));
    expect_chances(FOLDER, &named.grammar, &Heard::Graph(graph));
}

/// The same schedule as an office writes it, over the same utterance. Helpers' nodes are left out, and the weights are the same.
#[test]
fn the_door_schedule_of_an_office() {
    const FOLDER: &str = "doors_office";
    let heard = bytes(FOLDER, "utterance.bin");
    assert_eq!(heard, bytes("doors", "utterance.bin"));
    let sheet = parse_sheet(&text(FOLDER, "office.sheet.txt")).unwrap();
    let office = office::from_sheet(&sheet).unwrap();
    assert_eq!(office.to_sheet(), sheet);
    let (marked, block) = (office::convert(&office).unwrap(), bytes(FOLDER, "grammar.bin"));
    assert_eq!(grammar::pack_marked(&marked), block);
    assert_eq!(office.to_block().as_ref(), Ok(&block));
    let named = NamedGrammar::parse(&text(FOLDER, "grammar.txt")).unwrap();
    assert_eq!((named.office(), named.to_block()), (Some(&office), Ok(block.clone())));
    let utterance = Utterance::from_block(&block, &heard).unwrap();
    assert_eq!(named.parse_utterance(&text(FOLDER, "utterance.txt")).as_ref(), Ok(&utterance));
    let shown = |reading: &Reading| Reading::of_slots(reading.weight, marked.shown(&reading.walk));
    let print = |list: Vec<Reading>| print_list(&list.iter().map(shown).collect::<Vec<_>>());
    let readings = text(FOLDER, "readings.txt");
    assert_eq!(print(least(&marked.grammar, &utterance, 8)), readings);
    assert_eq!(marked.grammar.list(&utterance, 8).map(print), Ok(readings.clone()));
    let weights = |list: &str| list.lines().map(|line| line.split(' ').nth(1).map(str::to_owned)).collect::<Vec<_>>();
    assert_eq!(weights(&readings), weights(&text("doors", "readings.txt")));
    expect_panel(&block, &heard);
}
