//! How far what was heard goes along with a grammar, held to the proved services: what begins a sentence is found by listings of
//! every length, and what is a sentence by the specimen, the phrases and a listing.

use spireyerba::limits::{MAX_PHRASE, MAX_SLOTS};
use spireyerba::{Candidate, Edge, Grammar, Graph, Prefix, Utterance};
use spireyerba_tests::seeded::parsable::{any_shape, graph_case, Shape};
use spireyerba_tests::seeded::rng::Rng;
use std::collections::HashMap;

/// So small that what begins a sentence begins one of at most 24 words.
const SMALL: Shape =
    Shape { symbols: 1..=3, words: 1..=4, pair_rules: 1..=4, word_rules: 1..=5, slots: 1..=4, candidates: 1..=2 };

fn known(word: u32) -> Vec<Candidate> {
    vec![Candidate { word, cost: 0 }]
}

fn is_sentence(grammar: &Grammar, slots: Vec<Vec<Candidate>>) -> bool {
    !slots.is_empty() && !grammar.list(&Utterance { slots }, 1).expect("a list").is_empty()
}

/// Whether a sentence of at most 24 words begins so, by listings in which any word may follow.
fn begins(grammar: &Grammar, words: &[u32]) -> bool {
    let any: Vec<Candidate> = (0..grammar.words).map(|word| Candidate { word, cost: 0 }).collect();
    (words.len()..=MAX_SLOTS as usize).any(|length| {
        let slots = words.iter().map(|word| known(*word)).chain(vec![any.clone(); length - words.len()]);
        is_sentence(grammar, slots.collect())
    })
}

/// The beginnings of paths that begin a sentence, each by its words: the place that it reaches and its cost, the cheapest.
fn beginnings(grammar: &Grammar, graph: &Graph, usable: &[bool]) -> HashMap<u32, u64> {
    let mut reached = HashMap::new();
    let mut open = vec![(0, Vec::new(), 0_u64)];
    while let Some((place, words, cost)) = open.pop() {
        let least = reached.entry(place).or_insert(cost);
        *least = cost.min(*least);
        for (_, edge) in (0..).zip(&graph.edges).filter(|(number, edge)| usable[*number as usize] && edge.from == place)
        {
            let longer = [&words[..], &[edge.word]].concat();
            if begins(grammar, &longer) {
                open.push((edge.to, longer, cost + u64::from(edge.cost)));
            }
        }
    }
    reached
}

/// Which edges a path to the last place can have, or all that were heard if there is none.
fn usable(graph: &Graph) -> Vec<bool> {
    let ends = |place: u32| {
        let mut reached = vec![place];
        let mut at = 0;
        while let Some(&from) = reached.get(at) {
            reached
                .extend(graph.edges.iter().filter(|edge| edge.from == from && edge.is_offered()).map(|edge| edge.to));
            at += 1;
        }
        reached.contains(&(graph.places - 1))
    };
    let whole = ends(0);
    graph.edges.iter().map(|edge| edge.is_offered() && (!whole || ends(edge.to))).collect()
}

#[test]
fn as_the_listings_have_it() {
    let mut rng = Rng::new(39);
    let mut kinds = [0; 4];
    for _ in 0..300 {
        let (grammar, graph) = graph_case(&mut rng, &SMALL);
        let prefix = grammar.prefix(&graph).expect("a grammar");
        let usable = usable(&graph);
        let reached = beginnings(&grammar, &graph, &usable);
        let furthest = reached.keys().max().copied().expect("place 0");
        let edges: Vec<Edge> = prefix.path.iter().map(|number| graph.edges[*number as usize]).collect();
        assert!(prefix.path.iter().all(|number| usable[*number as usize]));
        let ends = edges.iter().map(|edge| edge.to);
        assert!(edges.iter().map(|edge| edge.from).eq([0].into_iter().chain(ends).take(edges.len())), "a path");
        let cost: u64 = edges.iter().map(|edge| u64::from(edge.cost)).sum();
        assert_eq!((prefix.place, Some(&cost)), (furthest, reached.get(&furthest)), "{grammar:?}\n{graph:?}");
        let words: Vec<u32> = edges.iter().map(|edge| edge.word).collect();
        follows(&grammar, &words, &prefix);
        let has_reading = !grammar.list(&graph, 1).expect("a list").is_empty();
        assert!(!has_reading || prefix.place == graph.places - 1);
        kinds[usize::from(has_reading)] += 1;
        kinds[2] += usize::from(!words.is_empty() && prefix.place < graph.places - 1);
        kinds[3] += usize::from(prefix.may_end && !prefix.next.is_empty());
    }
    assert!(kinds.iter().all(|count| *count > 20), "{kinds:?}");
}

/// What may follow some words, and whether they are a sentence.
fn follows(grammar: &Grammar, words: &[u32], prefix: &Prefix) {
    let next: Vec<u32> = (0..grammar.words).filter(|word| begins(grammar, &[words, &[*word]].concat())).collect();
    assert_eq!(prefix.next, next, "{grammar:?} {words:?}");
    assert_eq!(prefix.may_end, is_sentence(grammar, words.iter().map(|word| known(*word)).collect()));
}

/// Every sentence goes along with its grammar whole, and its beginnings do.
#[test]
fn specimens_and_phrases_go_along() {
    let mut rng = Rng::new(40);
    let mut sentences = 0;
    for _ in 0..200 {
        let (grammar, _) = graph_case(&mut rng, &SMALL);
        let specimens = (1..=MAX_SLOTS).filter_map(|length| grammar.specimen(length).expect("a grammar"));
        let phrases = (1..=MAX_PHRASE).flat_map(|length| grammar.phrases(length).expect("a grammar").take(20));
        for sentence in specimens.chain(phrases) {
            let chain =
                |words: &[u32]| Graph::from(&Utterance { slots: words.iter().map(|word| known(*word)).collect() });
            let whole = grammar.prefix(&chain(&sentence)).expect("a grammar");
            assert_eq!((whole.place as usize, whole.may_end), (sentence.len(), true));
            let (last, begin) = sentence.split_last().expect("a word");
            if !begin.is_empty() {
                let shorter = grammar.prefix(&chain(begin)).expect("a grammar");
                assert!(
                    shorter.place as usize == begin.len() && shorter.next.contains(last),
                    "{grammar:?} {sentence:?}"
                );
            }
            sentences += 1;
        }
    }
    assert!(sentences > 1_000, "{sentences}");
}

/// Of all sizes, and edges that no graph has: nothing but an answer.
#[test]
fn any_graph_is_answered() {
    let mut rng = Rng::new(41);
    for _ in 0..200 {
        let shape = any_shape(&mut rng);
        let (grammar, mut graph) = graph_case(&mut rng, shape);
        let at = rng.below(graph.edges.len());
        graph.edges[at] = Edge { from: rng.within(0..=30), to: rng.within(0..=30), ..graph.edges[at] };
        let prefix = grammar.prefix(&graph).expect("a grammar");
        assert!(prefix.place < graph.places);
    }
    let (grammar, _) = graph_case(&mut rng, &SMALL);
    let nothing = grammar.prefix(&Graph { places: 0, edges: Vec::new() }).expect("a grammar");
    assert!(nothing.path.is_empty() && nothing.place == 0);
}
