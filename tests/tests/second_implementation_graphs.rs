//! The second implementation of word graphs beside itself: each service's quick way beside the plain definition, on small
//! cases.

use spireyerba::limits::{nodes, NOT_HEARD};
use spireyerba::{Body, Grammar, Graph, Reading, Refusal};
use spireyerba_tests::bits::BitWriter;
use spireyerba_tests::check::{check, weight_on_path};
use spireyerba_tests::compare::over_seeds;
use spireyerba_tests::derivation::{order, ranked, ranked_of_graph, Kind, Tree};
use spireyerba_tests::grammar::rule_width;
use spireyerba_tests::graph::{paths, slots_of_path};
use spireyerba_tests::graph_reading::nodes_of;
use spireyerba_tests::nbest::{least, least_of_graph};
use spireyerba_tests::reading::without_path;
use spireyerba_tests::seeded::graphs::heard_at;
use spireyerba_tests::seeded::parsable::{case, graph_case, Shape, AMBIGUOUS, MANY_SYMBOLS, SPARSE, TINY};
use spireyerba_tests::{grammar, graph};
use std::cmp::Ordering;
use std::collections::HashMap;
use std::ops::Range;
use std::rc::Rc;

#[test]
fn the_n_best_are_the_first_of_all_derivations_sorted() {
    let (mut compared, mut cut, mut uneven) = (0, 0, 0);
    over_seeds(0..6_000, |rng| {
        let shape = rng.pick(&[&TINY, &AMBIGUOUS, &SPARSE]);
        let (grammar, graph) = graph_case(rng, shape);
        let Some(all) = ranked_of_graph(&grammar, &graph, 2_000) else { return };
        let wanted = rng.pick(&[1, 2, 3, 7, 20, 256]);
        let first: Vec<Reading> = all.iter().take(wanted).map(|tree| tree.graph_reading()).collect();
        assert_eq!(least_of_graph(&grammar, &graph, wanted), first, "{grammar:?} {graph:?}");
        compared += usize::from(!all.is_empty());
        cut += usize::from(all.len() > wanted);
        uneven += usize::from(first.iter().any(|reading| reading.edges().len() != first[0].edges().len()));
    });
    assert!(
        compared > 2_000 && cut > 500 && uneven > 300,
        "{compared} lists with a reading, {cut} cut, {uneven} with paths of different lengths"
    );
}

#[test]
fn different_derivations_have_different_readings_and_one_comes_first() {
    over_seeds(0..1_000, |rng| {
        let (grammar, graph) = graph_case(rng, &TINY);
        let Some(all) = ranked_of_graph(&grammar, &graph, 500) else { return };
        for pair in all.windows(2) {
            assert_eq!(order(&pair[0], &pair[1]), Ordering::Less);
            assert_ne!(pair[0].graph_reading(), pair[1].graph_reading());
        }
    });
}

/// The tree on a path of a graph whose walk begins with these numbers.
fn tree_on_path(
    grammar: &Grammar,
    graph: &Graph,
    walk: &mut impl Iterator<Item = u32>,
    path: &mut impl Iterator<Item = u32>,
) -> Rc<Tree> {
    let number = walk.next().expect("a node") as usize;
    let rule = grammar.rules[number];
    Rc::new(match rule.body {
        Body::Word(_) => {
            let number_of_edge = path.next().expect("an edge for each word");
            let edge = graph.edges[number_of_edge as usize];
            let kind = Kind::Leaf(number_of_edge);
            Tree { rule: number, weight: rule.weight + edge.cost, costs: edge.cost, end: edge.to as usize, kind }
        }
        Body::Pair(..) => {
            let left = tree_on_path(grammar, graph, walk, path);
            let right = tree_on_path(grammar, graph, walk, path);
            let weight = rule.weight + left.weight + right.weight;
            let costs = left.costs + right.costs;
            Tree { rule: number, weight, costs, end: right.end, kind: Kind::Join(left, right) }
        }
    })
}

/// Path by path: a derivation of a graph is one of the slots that offer just the words of a path. The order alone is that of
/// places.
#[test]
fn the_derivations_of_a_graph_are_those_of_its_paths() {
    let (mut some, mut several) = (0, 0);
    over_seeds(10_000..16_000, |rng| {
        let shape = rng.pick(&[&TINY, &AMBIGUOUS, &SPARSE]);
        let (grammar, graph) = graph_case(rng, shape);
        let (Some(all), Some(paths)) = (ranked_of_graph(&grammar, &graph, 2_000), paths(&graph, 2_000)) else { return };
        let mut trees = Vec::new();
        for path in &paths {
            let slots = slots_of_path(&graph, path).expect("a path");
            for tree in ranked(&grammar, &slots, 100_000).expect("few trees over one path") {
                let mut walk = tree.walk().into_iter();
                let on_path = tree_on_path(&grammar, &graph, &mut walk, &mut path.iter().copied());
                assert_eq!((on_path.weight, on_path.end as u32), (tree.weight, graph.places - 1));
                trees.push(on_path);
            }
        }
        trees.sort_by(|a, b| order(a, b));
        let readings = |trees: &[Rc<Tree>]| trees.iter().map(|tree| tree.graph_reading()).collect::<Vec<_>>();
        assert_eq!(readings(&all), readings(&trees), "{grammar:?} {graph:?}");
        some += usize::from(!all.is_empty());
        several += usize::from(all.windows(2).any(|pair| pair[0].path() != pair[1].path()));
    });
    assert!(some > 2_000 && several > 1_000, "{some} graphs with derivations, {several} with some on different paths");
}

#[test]
fn the_derivations_are_those_over_all_words_without_those_that_use_one_not_heard() {
    let (mut some, mut every) = (0, 0);
    over_seeds(20_000..26_000, |rng| {
        let shape = rng.pick(&[&TINY, &AMBIGUOUS, &SPARSE]);
        let (grammar, graph) = graph_case(rng, shape);
        let all_heard = heard_at(rng.pick(&[0, NOT_HEARD - 1]), &graph);
        let Some(all) = ranked_of_graph(&grammar, &all_heard, 2_000) else { return };
        let uses_one = |reading: &Reading| reading.edges().iter().any(|&edge| !graph.edges[edge as usize].is_offered());
        let (out, expected): (Vec<_>, Vec<_>) = all.iter().map(|tree| tree.graph_reading()).partition(uses_one);
        assert_eq!(least_of_graph(&grammar, &graph, all.len().max(1)), expected, "{grammar:?} {graph:?}");
        some += usize::from(!out.is_empty() && !expected.is_empty());
        every += usize::from(!out.is_empty() && expected.is_empty());
    });
    assert!(some > 300 && every > 150, "some were left out in {some} cases, every one in {every}");
}

/// Document 02, N1: the same derivations in the same order.
#[test]
fn slots_redrawn_as_a_graph() {
    let mut readings = 0;
    over_seeds(30_000..34_000, |rng| {
        let shape = rng.pick(&[&TINY, &AMBIGUOUS, &SPARSE, &MANY_SYMBOLS]);
        let (grammar, utterance) = case(rng, shape);
        let redrawn = Graph::from(&utterance);
        if redrawn.edges.len() > 96 {
            return;
        }
        assert_eq!(graph::from_block(&grammar, &graph::pack(&grammar, &redrawn)).as_ref(), Ok(&redrawn));
        let (of_slots, of_graph) = (least(&grammar, &utterance, 60), least_of_graph(&grammar, &redrawn, 60));
        assert!(of_graph.into_iter().map(without_path).eq(of_slots.iter().cloned()), "{grammar:?} {utterance:?}");
        readings += of_slots.len();
    });
    assert!(readings > 10_000, "{readings} readings");
}

/// The bits of the nodes of a derivation, behind the weight, as one number.
fn bits_of_nodes(grammar: &Grammar, reading: &Reading) -> u32 {
    nodes_of(grammar, reading).into_iter().fold(0, |bits, (rule, edge)| {
        let bits = bits << rule_width(grammar) | rule;
        edge.map_or(bits, |edge| bits << 7 | edge)
    })
}

/// Every number that the bits of the nodes can be: "34 if no derivation of n edges has the block's bits from bit 34 on as the
/// packed bits of its nodes".
fn expect_all_bits(grammar: &Grammar, graph: &Graph, edges: usize, width: usize) -> usize {
    let all = ranked_of_graph(grammar, graph, 100_000).expect("few derivations");
    let of_edges = all.iter().map(|tree| tree.graph_reading()).filter(|reading| reading.edges().len() == edges);
    let weights: HashMap<u32, u32> =
        of_edges.map(|reading| (bits_of_nodes(grammar, &reading), reading.weight)).collect();
    let (grammar_block, graph_block) = (grammar::pack(grammar), graph::pack(grammar, graph));
    let a_weight = weights.values().next().copied().unwrap_or(0);
    for bits in 0..1 << width {
        let mut writer = BitWriter::default();
        for (width, value) in [(4, 6), (6, edges as u32), (24, a_weight), (width, bits)] {
            writer.field(width, value);
        }
        let expected = match weights.get(&bits) {
            None => Err(Refusal::ReadingWalk),
            Some(&weight) if weight != a_weight => Err(Refusal::ReadingWeight),
            Some(_) => Ok(()),
        };
        let reading = writer.finish();
        assert_eq!(check(&grammar_block, &graph_block, &reading), expected, "{grammar:?} {graph:?} {reading:02x?}");
    }
    weights.len()
}

/// How many derivations of so many edges there were among cases of a shape, all of whose bits were tried.
fn derivations_of_all_bits(seeds: Range<u64>, shape: &Shape, edges: usize) -> usize {
    let mut passed = 0;
    over_seeds(seeds, |rng| {
        let (grammar, graph) = graph_case(rng, shape);
        if graph.places as usize > edges {
            let width = nodes(edges) * rule_width(&grammar) + 7 * edges;
            passed += expect_all_bits(&grammar, &graph, edges, width);
        }
    });
    passed
}

#[test]
fn the_bits_that_pass_are_those_of_the_derivations() {
    let of_one = Shape { symbols: 1..=2, words: 1..=2, pair_rules: 1..=2, word_rules: 1..=3, ..TINY };
    let of_two = Shape { symbols: 1..=1, words: 1..=1, pair_rules: 1..=1, word_rules: 1..=1, ..TINY };
    let passed =
        [derivations_of_all_bits(40_000..40_400, &of_one, 1), derivations_of_all_bits(41_000..41_016, &of_two, 2)];
    assert!(passed[0] > 50 && passed[1] > 5, "{passed:?} derivations of one and of two edges");
}

#[test]
fn the_weight_on_a_path_is_that_of_the_derivation() {
    let mut found = 0;
    over_seeds(50_000..52_000, |rng| {
        let shape = rng.pick(&[&AMBIGUOUS, &SPARSE, &MANY_SYMBOLS]);
        let (grammar, graph) = graph_case(rng, shape);
        for reading in least_of_graph(&grammar, &graph, 20) {
            assert_eq!(weight_on_path(&grammar, &graph, &reading.walk, reading.edges()), Some(reading.weight));
            found += 1;
        }
    });
    assert!(found > 5_000, "{found} readings");
}
