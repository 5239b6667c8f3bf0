//! Anchors: words that are known for certain.

use spireyerba::limits::NOT_HEARD;
use spireyerba::text::NamedGrammar;
use spireyerba::{Candidate, Heard};

/// The slot and the word of `SLOT=WORD`.
pub fn slot_and_word(said: &str) -> Option<(usize, &str)> {
    let (number, word) = said.split_once('=')?;
    Some((number.parse().ok()?, word))
}

/// Strikes out, slot by slot, what stands beside the words that were said, as `SLOT=WORD`: they were not heard. Answers the slots of
/// those words, or why it cannot be.
pub fn apply(anchors: &[&str], grammar: &NamedGrammar, heard: &mut Heard) -> Result<Vec<usize>, String> {
    let mut known = Vec::new();
    for said in anchors {
        let Some((number, word)) = slot_and_word(said) else { continue };
        let Heard::Slots(utterance) = heard else {
            let instead = "only slots have numbers; --said WORD keeps the paths that have a word";
            return Err(format!("--said {said}: {instead}"));
        };
        let slots = utterance.slots.len();
        let slot = utterance.slots.get_mut(number);
        let slot = slot.ok_or_else(|| format!("--said {said}: the utterance has {slots} slots, numbered from 0"))?;
        let is_said = |candidate: &Candidate| grammar.word(candidate.word) == word;
        if !slot.iter().any(|candidate| is_said(candidate) && candidate.is_offered()) {
            let offered = grammar.slot_text(slot);
            return Err(format!("--said {said}: slot {number} does not offer it, but {offered}"));
        }
        slot.iter_mut().filter(|candidate| !is_said(candidate)).for_each(|candidate| candidate.cost = NOT_HEARD);
        known.push(number);
    }
    Ok(known)
}
