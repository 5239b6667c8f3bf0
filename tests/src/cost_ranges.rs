//! Costs known within ranges (document 02, N11): every choice of costs is tried, by a listing of one reading for each.

use crate::nbest::least;
use crate::{grammar, utterance};
use spireyerba::limits::work_length;
use spireyerba::services::FirstReading;
use spireyerba::{Body, Grammar, Refusal, Utterance};

/// So many choices are tried. Where there are more, every cost is its low or its high one, and that many are tried at most.
pub const MOST_CHOICES: u64 = 1 << 10;

/// Writes the least and the greatest first weight, and says whether the first reading for the low costs is ever outweighed.
pub fn cost_ranges(
    grammar: &[u8],
    low: &[u8],
    high: &[u8],
    work: &mut [u32],
    least_weight: &mut u32,
    greatest_weight: &mut u32,
) -> Result<FirstReading, Refusal> {
    let grammar = grammar::from_block(grammar)?;
    let low = utterance::from_block(&grammar, low)?;
    let high = utterance::from_block(&grammar, high)?;
    let ranges = Ranges::between(&low, &high).ok_or(Refusal::RangesDisagree)?;
    if work.len() < work_length(grammar.symbols as usize, low.slots.len(), 1) {
        return Err(Refusal::ListingWork);
    }
    work.fill(0);
    let first_weight = |utterance: &Utterance| least(&grammar, utterance, 1).first().map(|reading| reading.weight);
    let Some(first) = least(&grammar, &low, 1).pop() else {
        return Ok(FirstReading::Nothing);
    };
    let choices: Vec<Utterance> = ranges.choices().collect();
    let weights = choices.iter().filter_map(first_weight);
    let outweighed = choices.iter().zip(weights.clone()).any(|(choice, lightest)| {
        let own = weight(&grammar, choice, &first.walk);
        lightest < own
    });
    *least_weight = weights.clone().min().expect("a choice");
    *greatest_weight = weights.max().expect("a choice");
    Ok(if outweighed { FirstReading::Outweighed } else { FirstReading::Stands })
}

/// The weight of the derivation with this walk: each word rule takes the next slot's word.
pub fn weight(grammar: &Grammar, utterance: &Utterance, walk: &[u32]) -> u32 {
    let mut slots = utterance.slots.iter();
    let of_node = |&number: &u32| {
        let rule = grammar.rules[number as usize];
        match rule.body {
            Body::Pair(..) => rule.weight,
            Body::Word(word) => {
                let slot = slots.next().expect("a slot for each word rule");
                let offered = slot.iter().find(|candidate| candidate.word == word).expect("the slot offers the word");
                rule.weight + offered.cost
            }
        }
    };
    walk.iter().map(of_node).sum()
}

/// An utterance, with the costs that each word of each slot can be given.
struct Ranges {
    utterance: Utterance,
    costs: Vec<Vec<Vec<u32>>>,
}

impl Ranges {
    /// Nothing if the utterances differ elsewhere than in costs, a cost falls, or a word was heard in one only.
    fn between(low: &Utterance, high: &Utterance) -> Option<Self> {
        let words = |utterance: &Utterance| -> Vec<Vec<u32>> {
            let of_slot = |slot: &Vec<spireyerba::Candidate>| slot.iter().map(|candidate| candidate.word).collect();
            utterance.slots.iter().map(of_slot).collect()
        };
        if words(low) != words(high) {
            return None;
        }
        let pairs: Vec<Vec<_>> =
            low.slots.iter().zip(&high.slots).map(|(low, high)| low.iter().zip(high).collect()).collect();
        if pairs.iter().flatten().any(|(low, high)| high.cost < low.cost || low.is_offered() != high.is_offered()) {
            return None;
        }
        let spread = |ends: bool| {
            let costs = move |low: u32, high: u32| match ends {
                true if low < high => vec![low, high],
                true => vec![low],
                false => (low..=high).collect(),
            };
            pairs.iter().map(|slot| slot.iter().map(|(low, high)| costs(low.cost, high.cost)).collect()).collect()
        };
        let number: u64 = pairs
            .iter()
            .flatten()
            .fold(1, |number, (low, high)| u64::saturating_mul(number, u64::from(high.cost - low.cost) + 1));
        Some(Self { utterance: low.clone(), costs: spread(number > MOST_CHOICES) })
    }

    fn choices(&self) -> impl Iterator<Item = Utterance> + '_ {
        let number: u64 = self.costs.iter().flatten().map(|costs| costs.len() as u64).product();
        assert!(number <= MOST_CHOICES, "{number} choices are too many to try");
        (0..number).map(|mut choice| {
            let mut chosen = self.utterance.clone();
            for (slot, costs) in chosen.slots.iter_mut().zip(&self.costs) {
                for (candidate, costs) in slot.iter_mut().zip(costs) {
                    candidate.cost = costs[(choice % costs.len() as u64) as usize];
                    choice /= costs.len() as u64;
                }
            }
            chosen
        })
    }
}
