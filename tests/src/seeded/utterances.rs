//! Seeded utterances.

use super::grammars::{Size, Weights};
use super::rng::Rng;
use spireyerba::limits::NOT_HEARD;
use spireyerba::{Candidate, Utterance};

/// How the costs of an utterance are drawn: as weights are, but that in some utterances words were not heard.
#[derive(Clone, Copy, Debug)]
pub struct Costs {
    weights: Weights,
    /// Of so many candidates one was not heard, or costs as much as one can that was.
    extreme_once_in: Option<usize>,
}

impl Costs {
    pub fn any(rng: &mut Rng) -> Self {
        Self { weights: Weights::any(rng), extreme_once_in: rng.pick(&[None, None, Some(6), Some(2)]) }
    }

    pub fn draw(self, rng: &mut Rng) -> u32 {
        match self.extreme_once_in {
            Some(times) if rng.once_in(times) => rng.pick(&[NOT_HEARD, NOT_HEARD, NOT_HEARD - 1]),
            _ => self.weights.draw(rng),
        }
    }
}

/// An utterance over the words below `words`.
pub fn utterance(rng: &mut Rng, size: Size, words: u32) -> Utterance {
    let (slots, most) = match size {
        Size::Small => (rng.within(1..=4), rng.within(1..=3)),
        Size::Middle => (rng.within(1..=24), rng.within(1..=7)),
        Size::Greatest => (24, 7),
    };
    let known: Vec<u32> = (0..words).collect();
    let costs = Costs::any(rng);
    let slots = (0..slots).map(|_| slot(rng, &known, most as usize, costs)).collect();
    Utterance { slots }
}

/// A slot with up to `most` of some words.
pub fn slot(rng: &mut Rng, known: &[u32], most: usize, costs: Costs) -> Vec<Candidate> {
    let mut words: Vec<u32> = (0..most).map(|_| rng.pick(known)).collect();
    words.sort_unstable();
    words.dedup();
    let mut slot: Vec<Candidate> = words.into_iter().map(|word| Candidate { word, cost: costs.draw(rng) }).collect();
    // few slots in which no word was heard stay so, or else few long utterances had readings
    if !slot.iter().any(|candidate| candidate.is_offered()) && !rng.once_in(8) {
        let heard = rng.below(slot.len());
        slot[heard].cost = rng.pick(&[0, NOT_HEARD - 1]);
    }
    slot
}

/// The utterance, but that a slot did not hear a word of its own.
pub fn unheard(utterance: &Utterance, slot: usize, word: u32) -> Utterance {
    let mut changed = utterance.clone();
    let candidates = changed.slots[slot].iter_mut().filter(|candidate| candidate.word == word);
    candidates.for_each(|candidate| candidate.cost = NOT_HEARD);
    changed
}

/// The utterance, but that every word was heard: those that were not have this cost.
pub fn heard_at(cost: u32, utterance: &Utterance) -> Utterance {
    let mut changed = utterance.clone();
    let candidates = changed.slots.iter_mut().flatten().filter(|candidate| !candidate.is_offered());
    candidates.for_each(|candidate| candidate.cost = cost);
    changed
}
