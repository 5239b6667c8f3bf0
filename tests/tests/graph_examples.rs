//! Word graphs by example (document 02, N1): the blocks, readings and lines that are known, and every refusal in its place.
//! Each test runs on the library and on the second implementation.

use spireyerba::limits::{GRAPH_BLOCK_MAX, GRAPH_READING_BLOCK_MAX};
use spireyerba::text::print_list;
use spireyerba::Refusal::*;
use spireyerba::{Edge, Graph, Reading, Refusal};
use spireyerba_tests::bits::BitWriter;
use spireyerba_tests::both::{self, Services, LIBRARY, SECOND};
use spireyerba_tests::documents::{g, G, TWO_LENGTHS, U};
use spireyerba_tests::graph_reading::{of_listed, pack_nodes, Node};
use spireyerba_tests::{grammar, graph, graph_reading, tests_of_both};

tests_of_both! {
    &LIBRARY, &SECOND;
    slots_redrawn
    paths_of_two_lengths
    one_edge_over_two_places
    no_path
    a_word_that_was_not_heard
    the_greatest_sizes
    sizes_that_the_listing_needs
    refusals_of_a_block
    the_end_of_a_block
    refusals_of_a_reading
    another_mix_of_rules
    numbers_that_are_no_walk
    elsewhere_a_graph_is_of_another_kind
}

/// U redrawn as a graph.
const REDRAWN: [u8; 16] =
    [0x52, 0x84, 0x00, 0x40, 0x00, 0x01, 0x10, 0x00, 0x00, 0x43, 0x00, 0x00, 0x0c, 0x80, 0x00, 0x00];
/// The readings of `TWO_LENGTHS` under G.
const OF_TWO_LENGTHS: [[u8; 8]; 3] = [
    [0x60, 0xc0, 0x00, 0x00, 0x90, 0x08, 0x18, 0x30],
    [0x60, 0xc0, 0x00, 0x00, 0x88, 0x08, 0x18, 0x30],
    [0x60, 0x80, 0x00, 0x01, 0x10, 0x50, 0x60, 0x00],
];
/// Places 0 to 2: an edge from 0 to 2 at cost 7; an edge from 0 to 1 alone.
const OVER_TWO: [u8; 6] = [0x51, 0x81, 0x00, 0x80, 0x00, 0xe0];
const NO_PATH: [u8; 6] = [0x51, 0x81, 0x00, 0x40, 0x00, 0x00];

/// The numbers of an edge, as the blocks above have them.
fn edge((from, to, word, cost): (u32, u32, u32, u32)) -> Edge {
    Edge { from, to, word, cost }
}

/// A block is that of this graph under a grammar, for both crates of Rust.
fn expect_block(grammar_block: &[u8], block: &[u8], places: u32, edges: &[(u32, u32, u32, u32)]) {
    let grammar = grammar::from_block(grammar_block).expect("an accepted grammar");
    let value = Graph { places, edges: edges.iter().copied().map(edge).collect() };
    assert_eq!(graph::pack(&grammar, &value), block);
    assert_eq!(graph::from_block(&grammar, block).as_ref(), Ok(&value));
    assert_eq!(value.to_block(grammar_block).as_deref(), Ok(block));
}

/// The readings of a listing of eight.
fn list(services: &Services, grammar: &[u8], graph: &[u8]) -> Vec<Vec<u8>> {
    both::list(services.listing, grammar, graph, 8)
}

/// What the lister prints of readings that were listed.
fn printed(grammar: &[u8], graph: &[u8], readings: &[Vec<u8>]) -> String {
    let grammar = grammar::from_block(grammar).expect("an accepted grammar");
    let graph = graph::from_block(&grammar, graph).expect("an accepted graph");
    let reading = |block: &Vec<u8>| of_listed(&grammar, &graph, block);
    print_list(&readings.iter().map(reading).collect::<Vec<Reading>>())
}

fn slots_redrawn(services: &Services) {
    expect_block(&G, &REDRAWN, 5, &[(0, 1, 0, 0), (1, 2, 0, 0), (2, 3, 0, 0), (3, 4, 0, 0)]);
    let readings = list(services, &G, &REDRAWN);
    assert_eq!(readings[0], [0x61, 0x00, 0x00, 0x00, 0xd0, 0x08, 0x14, 0x14, 0x18]);
    let lines =
        "readings 5\n1 3 0 1 0 1 0 1 1\n2 3 0 1 0 0 1 1 1\n3 3 0 0 1 1 0 1 1\n4 3 0 0 1 0 1 1 1\n5 3 0 0 0 1 1 1 1\n";
    assert_eq!(printed(&G, &REDRAWN, &readings), lines);
    for reading in &readings {
        assert_eq!((services.check)(&G, &REDRAWN, reading), Ok(()));
        assert_eq!((services.check)(&G, &U, reading), Err(ReadingKind));
    }
    assert_eq!((services.check)(&G, &REDRAWN, &[0x31, 0x00, 0x00, 0x00, 0xd5, 0x80]), Err(ReadingKind));
}

fn paths_of_two_lengths(services: &Services) {
    expect_block(&G, &TWO_LENGTHS, 4, &[(0, 1, 0, 0), (1, 2, 0, 0), (0, 2, 0, 3), (2, 3, 0, 0)]);
    let readings = list(services, &G, &TWO_LENGTHS);
    assert_eq!(readings, OF_TWO_LENGTHS);
    assert_eq!(printed(&G, &TWO_LENGTHS, &readings), "readings 3\n1 2 0 1 0 1 1\n2 2 0 0 1 1 1\n3 4 0 1 1\n");
    let check = |reading: &[u8]| (services.check)(&G, &TWO_LENGTHS, reading);
    let [first, second, third] = OF_TWO_LENGTHS;
    assert_eq!((check(&first), check(&second), check(&third[..7])), (Ok(()), Ok(()), Ok(())));
    assert_eq!(check(&third), Err(ReadingFill));
    assert_eq!(check(&third[..6]), Err(ReadingEnd));
}

fn one_edge_over_two_places(services: &Services) {
    expect_block(&G, &OVER_TWO, 3, &[(0, 2, 0, 7)]);
    let readings = list(services, &G, &OVER_TWO);
    assert_eq!(readings, [[0x60, 0x40, 0x00, 0x01, 0xe0, 0x00, 0x00]]);
    assert_eq!(printed(&G, &OVER_TWO, &readings), "readings 1\n1 7 1\n");
    assert_eq!((services.check)(&G, &OVER_TWO, &readings[0][..6]), Ok(()));
    assert_eq!((services.check)(&G, &OVER_TWO, &readings[0]), Err(ReadingFill));
}

fn no_path(services: &Services) {
    expect_block(&G, &NO_PATH, 3, &[(0, 1, 0, 0)]);
    assert_eq!(list(services, &G, &NO_PATH), [[]; 0]);
    assert_eq!((services.check)(&G, &NO_PATH, &[0x60, 0x40, 0x00, 0x01, 0xe0, 0x00]), Err(ReadingWalk));
}

/// N3: the edge is not offered, and keeps its number.
fn a_word_that_was_not_heard(services: &Services) {
    // 0 to word 0, weight 5; 0 to word 1, weight 3
    let grammar = [0x10, 0x40, 0x80, 0x50, 0x00, 0x2a, 0x00, 0x03, 0x80];
    let graph = [0x51, 0x02, 0x00, 0x5f, 0xff, 0xe0, 0x0c, 0x00, 0x00];
    expect_block(&grammar, &graph, 2, &[(0, 1, 0, 65_535), (0, 1, 1, 0)]);
    let readings = list(services, &grammar, &graph);
    assert_eq!(readings, [[0x60, 0x40, 0x00, 0x00, 0xe0, 0x40]]);
    assert_eq!((services.check)(&grammar, &graph, &readings[0]), Ok(()));
    let under = grammar::from_block(&grammar).expect("an accepted grammar");
    for weight in [5, 5 + 65_535, 0] {
        let of_edge_0 = pack_nodes(&under, 1, weight, &[(0, Some(0))]);
        assert_eq!((services.check)(&grammar, &graph, &of_edge_0), Err(ReadingWalk));
    }
}

/// 25 places and 96 edges under 256 rules: a block of 410 bytes and readings of up to 73.
fn the_greatest_sizes(services: &Services) {
    let pairs = (0..206).map(|number| [0, number / 32, number, number % 32, 0]);
    let words = (0..50).map(|word| [1, 0, 65_535, word, 0]);
    let rules: Vec<u32> = pairs.chain(words).flatten().collect();
    let grammar = grammar::from_sheet(&[vec![32, 200, 256], rules].concat()).expect("an accepted grammar");
    let edge = |number: u32| edge((number / 4, number / 4 + 1, number % 4, 65_534));
    let graph = Graph { places: 25, edges: (0..96).map(edge).collect() };
    let (grammar_block, graph_block) = (grammar::pack(&grammar), graph::pack(&grammar, &graph));
    assert_eq!(graph_block.len(), GRAPH_BLOCK_MAX);
    let readings = list(services, &grammar_block, &graph_block);
    assert_eq!(readings.len(), 8);
    for block in &readings {
        assert_eq!(block.len(), GRAPH_READING_BLOCK_MAX);
        assert_eq!((services.check)(&grammar_block, &graph_block, block), Ok(()));
        let reading = of_listed(&grammar, &graph, block);
        assert_eq!(reading.edges().len(), 24);
        assert_eq!(graph_reading::pack(&grammar, &reading), *block);
    }
}

fn sizes_that_the_listing_needs(services: &Services) {
    let answer =
        |wanted, work, out| (services.listing)(&G, &TWO_LENGTHS, wanted, &mut vec![7; work], &mut vec![0xa5; out]);
    // 4 × 1 × 3 × 4 / 2 × 8 numbers, 8 × 8 bytes
    assert_eq!(answer(8, 192, 64), Ok(3));
    assert_eq!(answer(8, 191, 64), Err(ListingWork));
    assert_eq!(answer(8, 192, 63), Err(ListingOutput));
    assert_eq!(answer(8, 191, 63), Err(ListingWork));
    assert_eq!(answer(2, 48, 16), Ok(2));
    assert_eq!(answer(0, 192, 64), Err(ListingWanted));
    assert_eq!(answer(257, 192, 64), Err(ListingWanted));
}

/// Fields by their widths, as a block.
fn block(fields: &[(usize, u32)]) -> Vec<u8> {
    let mut writer = BitWriter::default();
    fields.iter().for_each(|&(width, value)| writer.field(width, value));
    writer.finish()
}

/// Fields of a graph's block: kind, P, the number of edges, then from, to, word and cost of each edge.
fn fields(head: [u32; 3], edges: &[[u32; 4]]) -> Vec<(usize, u32)> {
    let head = [4, 5, 7].into_iter().zip(head);
    head.chain(edges.iter().flat_map(|&edge| [5, 5, 2, 16].into_iter().zip(edge))).collect()
}

/// The answers of a listing of no readings, and of the check of an empty reading, under a grammar of three words.
fn answers(services: &Services, graph: &[u8]) -> [Option<Refusal>; 2] {
    let grammar = grammar::from_sheet(&[1, 3, 1, 1, 0, 0, 2, 0]).expect("an accepted grammar");
    let grammar = grammar::pack(&grammar);
    let listed = (services.listing)(&grammar, graph, 0, &mut [7], &mut [7]);
    [listed.err(), (services.check)(&grammar, graph, &[]).err()]
}

/// An edge that is accepted.
const GOOD: [u32; 4] = [0, 1, 2, 9];

/// The refusal that a head and edges meet.
type Row<'a> = ([u32; 3], &'a [[u32; 4]], Refusal);

/// The numbers that are refused, field by field.
const REFUSED: [Row; 22] = [
    ([4, 2, 1], &[GOOD], UtteranceKind),
    ([6, 2, 1], &[GOOD], UtteranceKind),
    ([13, 0, 0], &[], UtteranceKind),
    ([5, 0, 1], &[GOOD], UtteranceRange),
    ([5, 1, 0], &[], UtteranceRange),
    ([5, 26, 1], &[GOOD], UtteranceRange),
    ([5, 31, 127], &[GOOD], UtteranceRange),
    ([5, 2, 0], &[], UtteranceRange),
    ([5, 2, 97], &[GOOD], UtteranceRange),
    ([5, 2, 127], &[GOOD], UtteranceRange),
    ([5, 3, 1], &[[1, 1, 2, 9]], EdgePlaces),
    ([5, 3, 1], &[[2, 1, 2, 9]], EdgePlaces),
    ([5, 3, 1], &[[0, 3, 2, 9]], EdgePlaces),
    ([5, 25, 1], &[[0, 25, 3, 9]], EdgePlaces),
    ([5, 25, 1], &[[30, 31, 3, 9]], EdgePlaces),
    ([5, 3, 2], &[GOOD, [31, 0, 3, 9]], EdgePlaces),
    ([5, 3, 1], &[[0, 2, 3, 9]], UtteranceWord),
    ([5, 3, 2], &[GOOD, [0, 1, 3, 9]], UtteranceWord),
    ([5, 3, 2], &[GOOD, GOOD], EdgeRepeat),
    ([5, 3, 2], &[GOOD, [0, 1, 2, 65_535]], EdgeRepeat),
    ([5, 3, 3], &[GOOD, [0, 2, 2, 9], [0, 1, 2, 0]], EdgeRepeat),
    ([5, 3, 3], &[GOOD, GOOD, [1, 1, 3, 9]], EdgeRepeat),
];

fn refusals_of_a_block(services: &Services) {
    for (head, edges, refusal) in REFUSED {
        let refused = block(&fields(head, edges));
        assert_eq!(answers(services, &refused), [Some(refusal); 2], "{head:?} {edges:?}");
        // what stands behind makes no difference
        let longer = [refused, vec![0xff; 3]].concat();
        assert_eq!(answers(services, &longer), [Some(refusal); 2], "{head:?} {edges:?}");
    }
}

/// What passes the end is met where it stands: 52 behind the cost, 51 before the word, 13 of P before the number of edges.
fn the_end_of_a_block(services: &Services) {
    let answers = |graph: &[u8]| answers(services, graph);
    // other words over one span, and one word over other spans
    let whole = fields([5, 3, 4], &[GOOD, [0, 1, 1, 9], [0, 2, 2, 9], [1, 2, 2, 9]]);
    let accepted = block(&whole);
    assert_eq!(answers(&accepted), [Some(ListingWanted), Some(ReadingEnd)]);
    for length in 0..accepted.len() {
        assert_eq!(answers(&accepted[..length]), [Some(UtteranceEnd); 2], "{length} bytes");
    }
    assert_eq!(answers(&[&accepted[..], &[0]].concat()), [Some(UtteranceFill); 2]);
    assert_eq!(answers(&block(&[whole, vec![(1, 1)]].concat())), [Some(UtteranceFill); 2]);
    let twice = block(&fields([5, 3, 2], &[GOOD, GOOD]));
    assert_eq!(answers(&twice[..twice.len() - 1]), [Some(UtteranceEnd); 2]);
    let backwards = block(&fields([5, 3, 2], &[GOOD, [1, 1, 0, 0]]));
    // 16 bits, 28 of the first edge, and 10 of the second
    assert_eq!(answers(&backwards[..7]), [Some(EdgePlaces); 2]);
    assert_eq!(answers(&backwards[..6]), [Some(UtteranceEnd); 2]);
    assert_eq!(answers(&block(&[(4, 5), (5, 26)])), [Some(UtteranceRange); 2]);
    assert_eq!(answers(&[0x50]), [Some(UtteranceEnd); 2]);
}

/// A reading of two edges of `TWO_LENGTHS` under G.
const NODES: [Node; 3] = [(0, None), (1, Some(2)), (1, Some(3))];

fn refusals_of_a_reading(services: &Services) {
    let under = g();
    let pack = |edges, weight, nodes: &[Node]| pack_nodes(&under, edges, weight, nodes);
    let check = |reading: &[u8]| (services.check)(&G, &TWO_LENGTHS, reading);
    assert_eq!(check(&pack(2, 4, &NODES)), Ok(()));
    assert_eq!(check(&[]), Err(ReadingEnd));
    assert_eq!(check(&[0x30]), Err(ReadingKind));
    assert_eq!(check(&[0x60]), Err(ReadingEnd));
    // n is checked before the weight and the numbers are there
    assert_eq!(check(&[0x60, 0x00]), Err(ReadingSlots));
    assert_eq!(check(&[0x61, 0x00]), Err(ReadingSlots));
    assert_eq!(check(&[0x6f, 0xc0]), Err(ReadingSlots));
    assert_eq!(check(&[0x60, 0x80]), Err(ReadingEnd));
    assert_eq!(check(&pack(0, 0, &[])), Err(ReadingSlots));
    assert_eq!(check(&pack(4, 4, &NODES)), Err(ReadingSlots));
    // 51 bits for two edges: seven bytes, and no fewer
    assert_eq!(check(&pack(2, 4, &NODES)[..6]), Err(ReadingEnd));
    // a reading of three edges needs eight
    assert_eq!(check(&pack(3, 4, &NODES)), Err(ReadingEnd));
    assert_eq!(check(&pack(2, 5, &NODES)), Err(ReadingWeight));
    assert_eq!(check(&[&pack(2, 5, &NODES)[..], &[0]].concat()), Err(ReadingWeight));
    assert_eq!(check(&[&pack(2, 4, &NODES)[..], &[0]].concat()), Err(ReadingFill));
    let mut fill = pack(2, 4, &NODES);
    for bit in 0..5 {
        fill[6] ^= 1 << bit;
        assert_eq!(check(&fill), Err(ReadingFill));
        fill[6] ^= 1 << bit;
    }
    assert_eq!(check(&fill), Ok(()));
}

/// More words or fewer than the reading says, which takes more bits or fewer: no walk, and no missing field.
fn another_mix_of_rules(services: &Services) {
    let under = g();
    let check = |edges, nodes: &[Node], length: usize| {
        let mut reading = pack_nodes(&under, edges, 4, nodes);
        reading.resize(length, 0xff);
        (services.check)(&G, &TWO_LENGTHS, &reading)
    };
    let (pair, word) = ((0, None), |edge| (1, Some(edge)));
    // seven bytes are enough for two word rules and one pair rule
    for nodes in [
        &[word(0), word(1), word(3)][..],
        &[word(2), pair, pair],
        &[pair, pair, word(0)],
        &[pair, pair, pair],
        &[word(2), word(3), pair],
        &[pair, word(0), pair, word(1), word(3)],
    ] {
        assert_eq!(check(2, nodes, 7), Err(ReadingWalk), "{nodes:?}");
        assert_eq!(check(2, nodes, 6), Err(ReadingEnd), "{nodes:?}");
        assert_eq!(check(2, nodes, 20), Err(ReadingWalk), "{nodes:?}");
    }
    // one edge where there are two, and two where there is one
    assert_eq!(check(1, &NODES, 7), Err(ReadingWalk));
    assert_eq!(check(3, &NODES, 8), Err(ReadingWalk));
    assert_eq!(check(1, &[word(2)], 6), Err(ReadingWalk));
}

fn numbers_that_are_no_walk(services: &Services) {
    // rules 0 and 1 as in G; rule 2 for word 1, rule 3 for a symbol that is never reached
    let under =
        grammar::from_sheet(&[2, 2, 5, 0, 0, 1, 0, 0, 1, 0, 0, 0, 0, 1, 0, 0, 1, 0, 1, 1, 0, 0, 0, 0, 1, 0, 0, 0]);
    let under = under.expect("an accepted grammar");
    let edges = [(0, 1, 0, 0), (1, 2, 0, 0), (0, 2, 0, 3), (2, 3, 0, 0), (0, 1, 1, 65_535), (2, 3, 1, 65_534)];
    let graph = Graph { places: 4, edges: edges.map(edge).into() };
    let (grammar_block, graph_block) = (grammar::pack(&under), graph::pack(&under, &graph));
    let check = |[first, second]: [u32; 2], [top, left, right]: [u32; 3]| {
        let reading = pack_nodes(&under, 2, 4, &[(top, None), (left, Some(first)), (right, Some(second))]);
        (services.check)(&grammar_block, &graph_block, &reading)
    };
    assert_eq!(check([2, 3], [0, 1, 1]), Ok(()));
    assert_eq!(check([2, 5], [0, 1, 2]), Err(ReadingWeight));
    let no_walks = [
        ([2, 6], [0, 1, 1], "there is no such edge"),
        ([2, 127], [0, 1, 1], "nor this"),
        ([1, 3], [0, 1, 1], "the path does not start at place 0"),
        ([0, 3], [0, 1, 1], "the second edge does not start where the first ends"),
        ([0, 1], [0, 1, 1], "the path does not end at the last place"),
        ([3, 2], [0, 1, 1], "the edges are the wrong way round"),
        ([2, 2], [0, 1, 1], "an edge twice"),
        ([2, 3], [0, 1, 2], "the edge has another word than the rule"),
        ([2, 5], [0, 1, 1], "and the other way round"),
        ([2, 3], [0, 3, 1], "the left part has another head"),
        ([2, 3], [4, 1, 1], "the derivation has another head than the start"),
        ([2, 3], [0, 1, 7], "there is no such rule"),
    ];
    for (path, walk, why) in no_walks {
        assert_eq!(check(path, walk), Err(ReadingWalk), "{why}");
    }
    // an edge that was not heard, on a path of three
    let reading = Reading::of_path(2, vec![0, 2, 0, 1, 1], vec![4, 1, 3]);
    let reading = graph_reading::pack(&under, &reading);
    assert_eq!((services.check)(&grammar_block, &graph_block, &reading), Err(ReadingWalk));
}

fn elsewhere_a_graph_is_of_another_kind(services: &Services) {
    for graph in [&REDRAWN[..], &TWO_LENGTHS, &OVER_TWO, &NO_PATH, &[0x50]] {
        assert_eq!((services.utterance_to_sheet)(&G, graph, &mut [7; 400]), Err(UtteranceKind));
    }
}
