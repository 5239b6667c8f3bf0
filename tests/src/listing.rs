//! The listing of the N least readings (document 01, "Tables", "Where each check stands"; document 02, N1), and the panel's (N8).

use crate::{grammar, heard};
use spireyerba::limits::{work_length, MAX_READINGS, PANEL_MAX_READINGS, PANEL_MAX_SLOTS};
use spireyerba::{Grammar, Heard, Refusal};

/// Answers the number of readings found.
pub fn listing(grammar: &[u8], heard: &[u8], wanted: u32, work: &mut [u32], out: &mut [u8]) -> Result<usize, Refusal> {
    let (grammar, heard) = both(grammar, heard)?;
    in_range(wanted)?;
    list(&grammar, &heard, wanted as usize, work, out)
}

/// The same within the panel's limits: 57 "after 16", 58 "directly after 21".
pub fn panel_listing(
    grammar: &[u8],
    heard: &[u8],
    wanted: u32,
    work: &mut [u32],
    out: &mut [u8],
) -> Result<usize, Refusal> {
    let (grammar, heard) = both(grammar, heard)?;
    if heard.longest() > PANEL_MAX_SLOTS as usize {
        return Err(Refusal::PanelSlots);
    }
    in_range(wanted)?;
    if wanted > PANEL_MAX_READINGS {
        return Err(Refusal::PanelWanted);
    }
    list(&grammar, &heard, wanted as usize, work, out)
}

fn both(grammar: &[u8], heard: &[u8]) -> Result<(Grammar, Heard), Refusal> {
    let grammar = grammar::from_block(grammar)?;
    let heard = heard::from_block(&grammar, heard)?;
    Ok((grammar, heard))
}

fn in_range(wanted: u32) -> Result<(), Refusal> {
    if (1..=MAX_READINGS).contains(&wanted) {
        Ok(())
    } else {
        Err(Refusal::ListingWanted)
    }
}

fn list(grammar: &Grammar, heard: &Heard, wanted: usize, work: &mut [u32], out: &mut [u8]) -> Result<usize, Refusal> {
    if work.len() < work_length(grammar.symbols as usize, heard.longest(), wanted) {
        return Err(Refusal::ListingWork);
    }
    let length = heard::reading_length(grammar, heard);
    if out.len() < wanted * length {
        return Err(Refusal::ListingOutput);
    }
    let readings = heard::least(grammar, heard, wanted);
    for (place, (_, reading)) in out.chunks_exact_mut(length).zip(&readings) {
        let (own, behind) = place.split_at_mut(reading.len());
        own.copy_from_slice(reading);
        behind.fill(0);
    }
    work.fill(0);
    Ok(readings.len())
}
