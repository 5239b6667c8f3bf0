//! Slots that may be passed over, beside every choice of slots: each is listed by itself, with no graph.

use crate::common::{folder, run_in, Run};
use spireyerba::limits::{MAX_EDGES, NOT_HEARD};
use spireyerba::text::NamedGrammar;
use spireyerba::{Body, Candidate, Grammar, Lister, Utterance};
use spireyerba_tests::compare::over_seeds;
use spireyerba_tests::seeded::parsable::{case, Shape};
use spireyerba_tests::seeded::rng::Rng;
use std::collections::{BTreeSet, HashMap};

const WANTED: u32 = 256;
const SKIPS: Shape =
    Shape { symbols: 1..=3, words: 1..=5, pair_rules: 1..=6, word_rules: 2..=8, slots: 1..=9, candidates: 1..=5 };

/// What is listed: slots, of which some are known, and what it costs to pass over one.
struct Case {
    named: NamedGrammar,
    utterance: Utterance,
    known: Vec<usize>,
    cost: u32,
}

impl Case {
    fn new(rng: &mut Rng) -> Self {
        let (grammar, mut utterance) = case(rng, &SKIPS);
        let mut known = Vec::new();
        for (number, slot) in utterance.slots.iter_mut().enumerate() {
            let offered: Vec<u32> = slot.iter().filter(|heard| heard.is_offered()).map(|heard| heard.word).collect();
            if !offered.is_empty() && rng.once_in(8) {
                // what `--said` does
                let word = rng.pick(&offered);
                slot.iter_mut().filter(|heard| heard.word != word).for_each(|heard| heard.cost = NOT_HEARD);
                known.push(number);
            }
        }
        let cost = rng.pick(&[0, 1, 20, 1_000, 20_000]);
        Self { named: NamedGrammar::numbered(grammar), utterance, known, cost }
    }

    fn run(&self) -> Run {
        let files = [("g", self.named.to_text()), ("u", self.named.utterance_text(&self.utterance))];
        let folder = folder("random_skips", &files.each_ref().map(|(name, text)| (*name, text.as_bytes())));
        let mut words = format!("list g u --json -n {WANTED} --skip {}", self.cost);
        for &slot in &self.known {
            let heard = self.utterance.slots[slot].iter().find(|heard| heard.is_offered()).expect("a word");
            words += &format!(" --said {slot}={}", self.named.word(heard.word));
        }
        run_in(&folder, &words)
    }

    /// The slots that are not passed over, in every way.
    fn choices(&self) -> Vec<Vec<usize>> {
        let slots = self.utterance.slots.len();
        let kept = |choice: u32| (0..slots).filter(|slot| choice >> slot & 1 == 1).collect::<Vec<_>>();
        let is_allowed = |kept: &Vec<usize>| self.known.iter().all(|known| kept.contains(known));
        (1..1 << slots).map(kept).filter(is_allowed).collect()
    }

    /// Whether the edges that all choices need have room in a word graph, and their costs in an edge.
    fn has_room(&self) -> bool {
        let mut edges = BTreeSet::new();
        for kept in self.choices() {
            for (number, &slot) in kept.iter().enumerate() {
                let from = if number == 0 { 0 } else { slot };
                let to = kept.get(number + 1).copied().unwrap_or(self.utterance.slots.len());
                let passed = (to - from - 1) as u32 * self.cost;
                for heard in self.utterance.slots[slot].iter().filter(|heard| heard.is_offered()) {
                    if heard.cost + passed >= NOT_HEARD {
                        return false;
                    }
                    edges.insert((from, to, heard.word));
                }
            }
        }
        edges.len() <= MAX_EDGES as usize
    }

    /// The least weight of each reading over all choices. Two in which only the slot of the first word differs are one.
    fn least(&self) -> HashMap<(Vec<u32>, Vec<usize>), u32> {
        let mut lister = Lister::new(&self.named.grammar).expect("an accepted grammar");
        let mut least = HashMap::new();
        for kept in self.choices() {
            let slots = kept.iter().map(|slot| self.utterance.slots[*slot].clone()).collect();
            let passed = (self.utterance.slots.len() - kept.len()) as u32 * self.cost;
            for reading in lister.list(&Utterance { slots }, WANTED).expect("a list") {
                let weight = reading.weight + passed;
                let known = least.entry((reading.walk, kept[1..].to_vec())).or_insert(weight);
                *known = weight.min(*known);
            }
        }
        least
    }

    /// The weight of a walk with its words in these slots.
    fn weigh(&self, walk: &[u32], slots: &[usize]) -> u32 {
        let Grammar { rules, .. } = &self.named.grammar;
        let rules = walk.iter().map(|rule| rules[*rule as usize]);
        let words = rules.clone().filter_map(|rule| match rule.body {
            Body::Word(word) => Some(word),
            Body::Pair(..) => None,
        });
        let heard = |(word, slot): (u32, &usize)| -> Candidate {
            *self.utterance.slots[*slot].iter().find(|heard| heard.word == word).expect("a word of the slot")
        };
        let passed = (self.utterance.slots.len() - slots.len()) as u32 * self.cost;
        rules.map(|rule| rule.weight).sum::<u32>()
            + words.zip(slots).map(heard).map(|heard| heard.cost).sum::<u32>()
            + passed
    }
}

/// A reading of the command's.
struct Found {
    weight: u32,
    walk: Vec<u32>,
    slots: Vec<usize>,
}

/// The readings of a line of JSON.
fn found(json: &str) -> Vec<Found> {
    let after = |text: &str, key: &str| text.split_once(key).expect("the key").1.to_owned();
    let numbers = |text: &str, key: &str| -> Vec<u32> {
        let list = after(text, key);
        let (list, _) = list.split_once(']').expect("the end of a list");
        list.split(',').map(|number| number.parse().expect("a number")).collect()
    };
    let reading = |text: &str| {
        let weight = after(text, "\"weight\":").split(',').next().and_then(|weight| weight.parse().ok());
        let slots = numbers(text, "\"slots\":[").into_iter().map(|slot| slot as usize).collect();
        Found { weight: weight.expect("a number"), walk: numbers(text, "\"rules\":["), slots }
    };
    json.split("{\"rank\":").skip(1).map(reading).collect()
}

/// A number that the command's messages have behind some words.
fn said(run: &Run, words: &str) -> Option<u32> {
    let (_, rest) = run.err.split_once(words)?;
    rest.split(' ').next().and_then(|number| number.parse().ok())
}

#[test]
fn beside_all_choices_of_slots() {
    let (mut readings, mut pruned, mut merged) = (0, 0, 0);
    over_seeds(0..150, |rng| {
        let case = Case::new(rng);
        let run = case.run();
        assert_eq!(run.status, 0, "{}", run.err);
        // what no edge can hold is taken off every weight
        let off = said(&run, "every weight is ").unwrap_or(0);
        let complete = said(&run, "every reading of weight up to ").map_or(u32::MAX, |weight| weight + off);
        assert!(!case.has_room() || complete == u32::MAX && off == 0, "{}", run.err);
        let (least, mut list) = (case.least(), found(&run.out));
        list.iter_mut().for_each(|found| found.weight += off);
        let mut weights: Vec<u32> = least.values().copied().filter(|weight| *weight <= complete).collect();
        weights.sort_unstable();
        weights.truncate(WANTED as usize);
        let listed = list.iter().map(|found| found.weight).filter(|weight| *weight <= complete);
        assert!(listed.eq(weights), "{}", run.out);
        let mut keys = BTreeSet::new();
        for Found { weight, walk, slots } in list {
            assert_eq!(case.weigh(&walk, &slots), weight, "{walk:?} {slots:?}");
            merged += u32::from(slots[0] > 0);
            let key = (walk, slots[1..].to_vec());
            assert!(weight > complete || least.get(&key) == Some(&weight), "{key:?}");
            assert!(keys.insert(key), "a reading twice");
        }
        readings += keys.len();
        pruned += u32::from(complete < u32::MAX);
    });
    assert!(readings > 3_000 && pruned > 10 && merged > 300, "{readings} readings, {pruned} pruned, {merged} later");
}
