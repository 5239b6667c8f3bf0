//! Which word to listen to again (document 02, N12), by its sentence: for each amount from 1 on the cost is changed and the list
//! made afresh.

use crate::cost_ranges::weight;
use crate::nbest::least;
use crate::{grammar, utterance};
use spireyerba::limits::{margins_length, work_length, MARGIN_NUMBERS};
use spireyerba::{Body, Grammar, Reading, Refusal, Utterance};

/// Costs up to this one are lowered one by one. Of a greater one the amount is bisected: what a fall brings, a greater one
/// brings too.
pub const MOST_TRIED: u32 = 400;

/// Amount, slot, word and weight.
pub type Entry = [u32; MARGIN_NUMBERS];

/// Answers the number of entries.
pub fn word_margins(grammar: &[u8], heard: &[u8], work: &mut [u32], out: &mut [u32]) -> Result<usize, Refusal> {
    let grammar = grammar::from_block(grammar)?;
    let utterance = utterance::from_block(&grammar, heard)?;
    if work.len() < work_length(grammar.symbols as usize, utterance.slots.len(), 1) {
        return Err(Refusal::ListingWork);
    }
    if out.len() < margins_length(utterance.slots.iter().flatten().count()) {
        return Err(Refusal::OutputShort);
    }
    work.fill(0);
    let entries = entries(&grammar, &utterance);
    out.iter_mut().zip(entries.as_flattened()).for_each(|(to, number)| *to = *number);
    Ok(entries.len())
}

/// The entries, ascending.
pub fn entries(grammar: &Grammar, utterance: &Utterance) -> Vec<Entry> {
    let Some(first) = least(grammar, utterance, 1).pop() else {
        return Vec::new();
    };
    let mut entries: Vec<Entry> = Vec::new();
    for (slot, used) in words_of(grammar, &first).into_iter().enumerate() {
        let others = utterance.slots[slot].iter().filter(|candidate| candidate.is_offered() && candidate.word != used);
        for candidate in others {
            let lighter = |amount| {
                let fallen = with_fallen_cost(utterance, slot, candidate.word, amount);
                least(grammar, &fallen, 1).pop().filter(|reading| reading.weight < first.weight)
            };
            if let Some(amount) = least_amount(candidate.cost, |amount| lighter(amount).is_some()) {
                let reading = lighter(amount).expect("one that is lighter");
                let present = weight(grammar, utterance, &reading.walk);
                entries.push([amount, slot as u32, candidate.word, present]);
            }
        }
    }
    entries.sort_unstable();
    entries
}

/// The least amount from 1 to a cost that does.
fn least_amount(cost: u32, does: impl Fn(u32) -> bool) -> Option<u32> {
    if cost <= MOST_TRIED {
        return (1..=cost).find(|amount| does(*amount));
    }
    let (mut without, mut with) = (0, cost);
    if !does(with) {
        return None;
    }
    while with - without > 1 {
        let middle = without + (with - without) / 2;
        *(if does(middle) { &mut with } else { &mut without }) = middle;
    }
    Some(with)
}

/// The utterance with the cost of one word of one slot fallen by an amount.
pub fn with_fallen_cost(utterance: &Utterance, slot: usize, word: u32, amount: u32) -> Utterance {
    let mut fallen = utterance.clone();
    let candidate = fallen.slots[slot].iter_mut().find(|candidate| candidate.word == word);
    candidate.expect("a word of the slot").cost -= amount;
    fallen
}

/// The word of each slot that a reading uses.
pub fn words_of(grammar: &Grammar, reading: &Reading) -> Vec<u32> {
    let word = |rule: &u32| match grammar.rules[*rule as usize].body {
        Body::Word(word) => Some(word),
        Body::Pair(..) => None,
    };
    reading.walk.iter().filter_map(word).collect()
}
