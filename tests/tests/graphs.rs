//! The library's listing and check of word graphs beside the second implementation, and the values of the crate `spireyerba`.

use spireyerba::limits::{nodes, GRAPH_READING_BLOCK_MAX, MAX_EDGES};
use spireyerba::Refusal::*;
use spireyerba::{services, Grammar, Graph, Heard, Reading};
use spireyerba_tests::both::list;
use spireyerba_tests::compare::listing::{compare, Call, Lists};
use spireyerba_tests::compare::listing::{compare_accepted, compare_damaged, compare_short_and_out_of_range};
use spireyerba_tests::compare::{check, over_seeds, Tally};
use spireyerba_tests::graph_reading::{nodes_of, pack_nodes, Node};
use spireyerba_tests::nbest::{least, least_of_graph};
use spireyerba_tests::refusal::{GRAMMAR_BLOCK, GRAPH_BLOCK, READING_BLOCK, UTTERANCE_BLOCK};
use spireyerba_tests::seeded::damage::{
    blocks, graph_blocks, repeated_edge, replaced_bytes, rule_number, some_grammar_blocks, with_one_damaged,
};
use spireyerba_tests::seeded::grammars::Size;
use spireyerba_tests::seeded::graphs::{heard_at, unheard};
use spireyerba_tests::seeded::parsable::{any_shape, case, graph_case, graph_of, utterance_of, wanted, Shape};
use spireyerba_tests::seeded::parsable::{AMBIGUOUS, GREATEST, LONG, MANY_SYMBOLS, SPARSE, TINY};
use spireyerba_tests::seeded::rng::Rng;
use spireyerba_tests::seeded::{grammars, graphs};
use spireyerba_tests::{grammar, graph, graph_reading, heard, reading, utterance};
use std::ops::Range;

/// More bits than a reading has: each is turned.
const EVERY_BIT: usize = 8 * GRAPH_READING_BLOCK_MAX;

/// Graphs without a path, with an edge that was not heard, and with zeros behind the first reading.
#[derive(Debug, Default)]
struct Graphs {
    no_path: usize,
    not_heard: usize,
    zeros: usize,
}

impl Graphs {
    fn record(&mut self, grammar: &Grammar, graph: &Graph) {
        self.no_path += usize::from(graph::paths(graph, 1_000).is_some_and(|paths| paths.is_empty()));
        self.not_heard += usize::from(graph.edges.iter().any(|edge| !edge.is_offered()));
        let shorter = |reading: &Reading| reading.edges().len() + 1 < graph.places as usize;
        self.zeros += usize::from(least_of_graph(grammar, graph, 1).first().is_some_and(shorter));
    }
}

/// A listing of a graph for each seed; so many at least are different.
fn accepted(seeds: Range<u64>, different: usize, shapes: &[&Shape], wanted: fn(&mut Rng) -> u32) -> (Lists, Graphs) {
    let mut graphs = Graphs::default();
    let lists = compare_accepted(seeds, different, |rng| {
        let shape = rng.pick(shapes);
        let (grammar, graph) = graph_case(rng, shape);
        graphs.record(&grammar, &graph);
        (grammar, Heard::Graph(graph), wanted(rng))
    });
    (lists, graphs)
}

#[test]
fn small_lists() {
    let (lists, graphs) = accepted(0..8_000, 5_000, &[&TINY, &TINY, &AMBIGUOUS, &AMBIGUOUS, &SPARSE], wanted);
    assert!(lists.empty > 1_000 && lists.short > 1_000 && lists.full > 1_000, "{lists:?}");
    assert!(graphs.no_path > 1_000 && graphs.not_heard > 2_000 && graphs.zeros > 1_000, "{graphs:?}");
}

#[test]
fn many_places_and_many_symbols() {
    let (lists, graphs) = accepted(10_000..10_500, 500, &[&LONG, &MANY_SYMBOLS], wanted);
    assert!(lists.full > 100 && graphs.zeros > 100, "{lists:?} {graphs:?}");
}

#[test]
fn the_greatest_sizes() {
    let (lists, _) = accepted(20_000..20_016, 16, &[&GREATEST], |rng| rng.pick(&[1, 16, 255, 256, 256]));
    assert!(lists.full > 4, "{lists:?}");
}

#[test]
fn short_slices_and_numbers_out_of_range() {
    compare_short_and_out_of_range(30_000..30_400, |rng| {
        let (grammar, graph) = graph_case(rng, &AMBIGUOUS);
        (grammar, Heard::Graph(graph))
    });
}

/// Bit by bit and byte by byte, which makes slots of some graphs.
#[test]
fn damaged_blocks() {
    let mut tally = Tally::default();
    over_seeds(40_000..40_120, |rng| {
        let (grammar, graph) = graph_case(rng, &SPARSE);
        let blocks = [grammar::pack(&grammar), graph::pack(&grammar, &graph)];
        let grammars = some_grammar_blocks(rng, &grammar, 10);
        let graphs = graph_blocks(rng, &grammar, &graph, 300);
        for blocks in &with_one_damaged(&blocks, grammars, graphs) {
            compare_damaged(rng, &mut tally, blocks);
        }
    });
    tally.demand(20_000, &[GRAMMAR_BLOCK.as_slice(), &UTTERANCE_BLOCK, &[ListingWanted], &GRAPH_BLOCK].concat());
}

/// Document 02, N1: the same weights and rule numbers in the same order, and of each word its place among all words.
#[test]
fn slots_redrawn_as_a_graph() {
    let (mut tally, mut readings) = (Tally::default(), 0);
    over_seeds(50_000..53_000, |rng| {
        let shape = if rng.once_in(10) { &LONG } else { rng.pick(&[&TINY, &AMBIGUOUS, &SPARSE]) };
        let (grammar, utterance) = case(rng, shape);
        let redrawn = Graph::from(&utterance);
        if redrawn.edges.len() > MAX_EDGES as usize {
            return;
        }
        let (of_slots, of_graph) = (grammar.list(&utterance, 60).unwrap(), grammar.list(&redrawn, 60).unwrap());
        assert!(of_graph.iter().cloned().map(reading::without_path).eq(of_slots.clone()), "{grammar:?} {utterance:?}");
        assert_eq!(of_slots, least(&grammar, &utterance, 60), "{grammar:?} {utterance:?}");
        for reading in &of_graph {
            let places = reading.edges().iter().map(|&edge| redrawn.edges[edge as usize].from);
            assert!(places.eq(0..utterance.slots.len() as u32), "{reading:?}");
        }
        readings += of_slots.len();
        let block = graph::pack(&grammar, &redrawn);
        let (work_len, out_len) = heard::listing_lengths(&grammar, &Heard::Graph(redrawn), 60);
        let call = Call { grammar: &grammar::pack(&grammar), utterance: &block, wanted: 60, work_len, out_len };
        assert_eq!(compare(rng, &mut tally, &call), Some(of_slots.len()));
    });
    tally.demand(2_000, &[]);
    assert!(readings > 10_000, "{readings} readings");
}

/// A node that some rule has, with or without an edge, or one of any numbers.
fn node(rng: &mut Rng, grammar: &Grammar, graph: &Graph) -> Node {
    let rule = rule_number(rng, grammar);
    let edge = if rng.once_in(4) { rng.within(0..=127) } else { rng.below(graph.edges.len()) as u32 };
    (rule, rng.pick(&[None, Some(edge), Some(edge)]))
}

/// The reading with another weight; with another number of edges; with one node replaced, one left out, one more, and two
/// exchanged; with one edge replaced.
fn altered(rng: &mut Rng, grammar: &Grammar, graph: &Graph, reading: &Reading) -> Vec<Vec<u8>> {
    let (edges, weight, nodes) = (reading.edges().len() as u32, reading.weight, nodes_of(grammar, reading));
    let weights = [weight + 1, weight.wrapping_sub(1), 0, (1 << 24) - 1];
    let mut all: Vec<Vec<u8>> = weights.map(|weight| pack_nodes(grammar, edges, weight, &nodes)).into();
    for other in [0, 1, edges - 1, edges + 1, graph.places - 1, graph.places, 63] {
        all.push(pack_nodes(grammar, other, weight, &nodes));
    }
    for at in 0..nodes.len() {
        let (mut replaced, mut fewer, mut more, mut exchanged, mut rerouted) =
            (nodes.clone(), nodes.clone(), nodes.clone(), nodes.clone(), nodes.clone());
        replaced[at] = node(rng, grammar, graph);
        fewer.remove(at);
        more.insert(at, node(rng, grammar, graph));
        exchanged.swap(at, rng.below(nodes.len()));
        rerouted[at].1 = nodes[at].1.map(|_| rng.below(graph.edges.len() + 2) as u32);
        all.extend(
            [replaced, fewer, more, exchanged, rerouted].map(|nodes| pack_nodes(grammar, edges, weight, &nodes)),
        );
    }
    all
}

/// Walks of noise, for each number of edges that a reading can have.
fn any_walks(rng: &mut Rng, grammar: &Grammar, graph: &Graph) -> Vec<Vec<u8>> {
    let walk = |edges: u32| {
        let nodes: Vec<Node> = (0..nodes(edges as usize)).map(|_| node(rng, grammar, graph)).collect();
        pack_nodes(grammar, edges, 0, &nodes)
    };
    (1..graph.places).map(walk).collect()
}

/// Readings of derivations but that they use words which were not heard.
fn of_words_not_heard(grammar: &Grammar, graph: &Graph) -> Vec<Reading> {
    let uses_one = |reading: &Reading| reading.edges().iter().any(|&edge| !graph.edges[edge as usize].is_offered());
    least_of_graph(grammar, &heard_at(0, graph), 3).into_iter().filter(uses_one).collect()
}

#[test]
fn readings_of_derivations_damaged_ones_and_noise() {
    let mut tally = Tally::default();
    over_seeds(60_000..60_400, |rng| {
        let shape = any_shape(rng);
        let (grammar, graph) = graph_case(rng, shape);
        let (grammar_block, graph_block) = (grammar::pack(&grammar), graph::pack(&grammar, &graph));
        let pack = |reading: &Reading| graph_reading::pack(&grammar, reading);
        let mut inputs = any_walks(rng, &grammar, &graph);
        let not_heard = of_words_not_heard(&grammar, &graph);
        for reading in least_of_graph(&grammar, &graph, 3).iter().chain(not_heard.first()) {
            inputs.extend(blocks(rng, &pack(reading), EVERY_BIT));
            inputs.extend(replaced_bytes(rng, &pack(reading)));
            inputs.extend(altered(rng, &grammar, &graph, reading));
        }
        let (other, slots) = (graph_of(rng, &grammar, shape), utterance_of(rng, &grammar, shape));
        inputs.extend(least_of_graph(&grammar, &other, 5).iter().map(pack));
        inputs.extend(least(&grammar, &slots, 5).iter().map(|of_slots| reading::pack(&grammar, of_slots)));
        inputs.extend((0..10).map(|length| rng.noise(length)));
        for reading in &inputs {
            check::compare(rng, &mut tally, [&grammar_block, &graph_block, reading]);
        }
        // a reading of a graph is none of slots
        let slots_block = utterance::pack(&grammar, &slots);
        for reading in least_of_graph(&grammar, &graph, 2) {
            check::compare(rng, &mut tally, [&grammar_block, &slots_block, &pack(&reading)]);
        }
        let reading = &inputs[rng.below(inputs.len())];
        for damaged in some_grammar_blocks(rng, &grammar, 6) {
            check::compare(rng, &mut tally, [&damaged, &graph_block, reading]);
        }
        let mut damaged = graph_blocks(rng, &grammar, &graph, 60);
        rng.shuffle(&mut damaged);
        damaged.truncate(20);
        damaged.push(graph::pack(&grammar, &repeated_edge(rng, &graph)));
        for damaged in &damaged {
            check::compare(rng, &mut tally, [&grammar_block, damaged, reading]);
        }
    });
    tally.demand(20_000, &[GRAMMAR_BLOCK.as_slice(), &UTTERANCE_BLOCK, &READING_BLOCK, &GRAPH_BLOCK].concat());
    assert!(tally.accepted() > 700, "{} readings passed", tally.accepted());
}

/// They would pass, or be refused for their weight or their fill, if the edge were offered.
#[test]
fn readings_that_use_an_edge_not_heard_are_no_walks() {
    let mut tally = Tally::default();
    over_seeds(70_000..73_000, |rng| {
        let shape = rng.pick(&[&TINY, &AMBIGUOUS, &SPARSE]);
        let (grammar, graph) = graph_case(rng, shape);
        let mut inputs: Vec<(Graph, Reading)> =
            of_words_not_heard(&grammar, &graph).into_iter().map(|reading| (graph.clone(), reading)).collect();
        for reading in least_of_graph(&grammar, &graph, 3) {
            let edge = rng.pick(reading.edges());
            inputs.push((unheard(&graph, edge as usize), reading));
        }
        let grammar_block = grammar::pack(&grammar);
        for (graph, reading) in inputs {
            let (graph, reading) = (graph::pack(&grammar, &graph), graph_reading::pack(&grammar, &reading));
            check::compare_with_surplus(rng, &mut tally, [&grammar_block, &graph, &reading]);
        }
    });
    tally.demand(10_000, &[ReadingWalk]);
    assert_eq!(tally.accepted(), 0, "readings that passed");
}

/// Every reading that is listed passes the check when it is cut to its own length, and only then.
#[test]
fn what_is_listed_passes_when_it_is_cut() {
    let (mut passed, mut cut) = (0, 0);
    over_seeds(80_000..81_000, |rng| {
        let shape = rng.pick(&[&TINY, &AMBIGUOUS, &SPARSE, &MANY_SYMBOLS]);
        let (grammar, graph) = graph_case(rng, shape);
        let (grammar_block, graph_block) = (grammar::pack(&grammar), graph::pack(&grammar, &graph));
        let check = |reading: &[u8]| services::check(&grammar_block, &graph_block, reading);
        for reading in list(services::listing, &grammar_block, &graph_block, 20) {
            let own = graph_reading::pack(&grammar, &graph_reading::of_listed(&grammar, &graph, &reading)).len();
            assert_eq!(check(&reading[..own]), Ok(()));
            assert!(reading[own..].iter().all(|&byte| byte == 0));
            if own < reading.len() {
                assert_eq!(check(&reading), Err(ReadingFill));
                cut += 1;
            }
            passed += 1;
        }
    });
    assert!(passed > 2_000 && cut > 1_000, "{passed} readings passed, {cut} were cut");
}

/// `Graph` packs itself; what a block means, the library says.
#[test]
fn graphs_as_values() {
    over_seeds(90_000..90_300, |rng| {
        let size = if rng.once_in(20) { Size::Greatest } else { Size::Small };
        let under = grammars::grammar(rng, size);
        let value = graphs::graph(rng, size, under.words);
        let grammar = grammar::pack(&under);
        assert_eq!(value.to_block(&grammar), Ok(graph::pack(&under, &value)));
        for block in graph_blocks(rng, &under, &value, 60) {
            let expected = graph::from_block(&under, &block);
            assert_eq!(Graph::from_block(&grammar, &block), expected, "{grammar:02x?} {block:02x?}");
        }
        let slots = utterance::pack(&under, &utterance_of(rng, &under, &TINY));
        assert_eq!(Graph::from_block(&grammar, &slots), Err(UtteranceKind));
        for damaged in some_grammar_blocks(rng, &under, 6) {
            let expected = grammar::from_block(&damaged).and_then(|under| graph::from_block(&under, &slots));
            assert_eq!(Graph::from_block(&damaged, &slots), expected, "{damaged:02x?} {slots:02x?}");
        }
    });
}

#[test]
fn lists_of_values() {
    over_seeds(100_000..100_500, |rng| {
        let shape = rng.pick(&[&AMBIGUOUS, &MANY_SYMBOLS, &SPARSE]);
        let (grammar, graph) = graph_case(rng, shape);
        let wanted = rng.pick(&[1, 2, 30, 256]);
        let list = grammar.list(&graph, wanted);
        assert_eq!(list, Ok(least_of_graph(&grammar, &graph, wanted as usize)), "{grammar:?} {graph:?}");
        for wanted in [0, 257, u32::MAX] {
            assert_eq!(grammar.list(&graph, wanted), Err(ListingWanted));
        }
    });
}
