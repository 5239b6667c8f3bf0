//! The conversions: sheets to blocks and back (document 01, "The services"), and office sheets to blocks (document 02, N5).

use crate::{grammar, office, utterance};
use spireyerba::Refusal;

pub fn grammar_to_block(sheet: &[u32], out: &mut [u8]) -> Result<usize, Refusal> {
    hand_over(&grammar::of_sheet(sheet)?.pack(), out)
}

pub fn grammar_to_sheet(block: &[u8], out: &mut [u32]) -> Result<usize, Refusal> {
    hand_over(&grammar::of_block(block)?.to_sheet(), out)
}

pub fn office_to_block(sheet: &[u32], out: &mut [u8]) -> Result<usize, Refusal> {
    let marked = office::convert(&office::from_sheet(sheet)?)?;
    hand_over(&grammar::pack_marked(&marked), out)
}

pub fn utterance_to_block(grammar: &[u8], sheet: &[u32], out: &mut [u8]) -> Result<usize, Refusal> {
    let grammar = grammar::from_block(grammar)?;
    hand_over(&utterance::pack(&grammar, &utterance::from_sheet(&grammar, sheet)?), out)
}

pub fn utterance_to_sheet(grammar: &[u8], block: &[u8], out: &mut [u32]) -> Result<usize, Refusal> {
    let grammar = grammar::from_block(grammar)?;
    hand_over(&utterance::from_block(&grammar, block)?.to_sheet(), out)
}

/// Writes a result into the output and answers its length, or refuses with 43.
fn hand_over<T: Copy>(result: &[T], out: &mut [T]) -> Result<usize, Refusal> {
    let place = out.get_mut(..result.len()).ok_or(Refusal::OutputShort)?;
    place.copy_from_slice(result);
    Ok(result.len())
}
