//! Blocks and sheets of which each number is drawn by itself, so that any of them may be out of range.

use super::rng::Rng;
use crate::bits::BitWriter;
use spireyerba::limits::{width, MAX_WEIGHT};

/// Mostly `number`, at times anything of `bits` bits.
fn mostly(rng: &mut Rng, number: u32, bits: usize) -> u32 {
    if rng.once_in(12) {
        rng.within(0..=(1 << bits) - 1)
    } else {
        number
    }
}

/// Mostly a number below `limit`, at times the limit or a number above it.
fn around(rng: &mut Rng, limit: u32) -> u32 {
    match rng.below(25) {
        0 => limit,
        1 => limit + rng.within(0..=70_000),
        _ => rng.within(0..=limit - 1),
    }
}

/// A weight or a cost: often the greatest, which as a cost says that the word was not heard, or the one before it; at times
/// past the greatest, of which a block takes the low bits.
fn weight(rng: &mut Rng) -> u32 {
    if rng.once_in(3) {
        rng.pick(&[MAX_WEIGHT - 1, MAX_WEIGHT])
    } else {
        around(rng, MAX_WEIGHT + 1)
    }
}

/// Up to nine bytes too few or too many of random bits after what was written.
fn with_random_end(rng: &mut Rng, writer: BitWriter, bits: usize) -> Vec<u8> {
    let mut block = writer.finish();
    let length = (bits / 8 + 9).saturating_sub(rng.below(19));
    block.extend(rng.noise::<u8>(length));
    block
}

/// A grammar block with a head that may be out of range and rules of random bits.
pub fn grammar_block(rng: &mut Rng) -> Vec<u8> {
    let (symbols, words, rules) = (rng.within(1..=6), rng.within(1..=6), rng.within(1..=5));
    let mut writer = BitWriter::default();
    writer.field(4, mostly(rng, 1, 4));
    writer.field(6, mostly(rng, symbols, 6));
    writer.field(8, mostly(rng, words, 8));
    writer.field(9, mostly(rng, rules, 9));
    for _ in 0..rng.within(0..=rules) {
        let is_word = rng.within(0..=1);
        writer.field(1, is_word);
        writer.field(width(symbols - 1), around(rng, symbols));
        writer.field(16, weight(rng));
        if is_word == 1 {
            writer.field(width(words - 1), around(rng, words));
        } else {
            writer.field(width(symbols - 1), around(rng, symbols));
            writer.field(width(symbols - 1), around(rng, symbols));
        }
    }
    if rng.once_in(2) {
        return writer.finish();
    }
    let bits = rules as usize * (17 + 3 * width(symbols - 1));
    with_random_end(rng, writer, bits)
}

/// An utterance block with a head that may be out of range and slots of random bits.
pub fn utterance_block(rng: &mut Rng, words: u32) -> Vec<u8> {
    let slots = rng.within(1..=5);
    let mut writer = BitWriter::default();
    writer.field(4, mostly(rng, 2, 4));
    writer.field(6, mostly(rng, slots, 6));
    for _ in 0..rng.within(0..=slots) {
        let count = rng.within(1..=4);
        writer.field(3, mostly(rng, count, 3));
        for _ in 0..count {
            writer.field(width(words - 1), around(rng, words));
            writer.field(16, weight(rng));
        }
    }
    if rng.once_in(2) {
        return writer.finish();
    }
    with_random_end(rng, writer, 40 * slots as usize)
}

/// A word graph's block with a head that may be out of range and edges of random bits.
pub fn graph_block(rng: &mut Rng, words: u32) -> Vec<u8> {
    let (places, edges) = (rng.within(2..=6), rng.within(1..=6));
    let mut writer = BitWriter::default();
    writer.field(4, mostly(rng, 5, 4));
    writer.field(5, mostly(rng, places, 5));
    writer.field(7, mostly(rng, edges, 7));
    for _ in 0..rng.within(0..=edges) {
        let from = rng.within(0..=places - 2);
        let to = rng.within(from + 1..=places - 1);
        writer.field(5, mostly(rng, from, 5));
        writer.field(5, mostly(rng, to, 5));
        writer.field(width(words - 1), around(rng, words));
        writer.field(16, weight(rng));
    }
    if rng.once_in(2) {
        return writer.finish();
    }
    with_random_end(rng, writer, 30 * edges as usize)
}

/// A grammar sheet of which each number may be out of range.
pub fn grammar_sheet(rng: &mut Rng) -> Vec<u32> {
    let (symbols, words, rules) = (rng.within(1..=6), rng.within(1..=6), rng.within(1..=5));
    let mut sheet = vec![mostly(rng, symbols, 6), mostly(rng, words, 8), mostly(rng, rules, 9)];
    let has_marks = rng.once_in(2);
    for _ in 0..mostly(rng, rules, 3) {
        let kind = around(rng, 2);
        sheet.extend([kind, around(rng, symbols), weight(rng)]);
        if kind == 1 {
            sheet.extend([around(rng, words), mostly(rng, 0, 4)]);
        } else {
            sheet.extend([around(rng, symbols), around(rng, symbols)]);
        }
        if has_marks {
            sheet.push(around(rng, 2));
        }
    }
    sheet
}

/// An office sheet of which each number may be out of range.
pub fn office_sheet(rng: &mut Rng) -> Vec<u32> {
    let (symbols, words, rules) = (rng.within(1..=6), rng.within(1..=6), rng.within(1..=5));
    let mut sheet = vec![mostly(rng, symbols, 6), mostly(rng, words, 8), mostly(rng, rules, 9)];
    for _ in 0..mostly(rng, rules, 3) {
        let count = rng.within(1..=6);
        sheet.extend([around(rng, symbols), weight(rng), mostly(rng, count, 3)]);
        for _ in 0..mostly(rng, count, 3) {
            let kind = around(rng, 2);
            sheet.extend([kind, around(rng, if kind == 1 { words } else { symbols })]);
        }
    }
    sheet
}

/// An utterance sheet of which each number may be out of range.
pub fn utterance_sheet(rng: &mut Rng, words: u32) -> Vec<u32> {
    let slots = rng.within(1..=5);
    let mut sheet = vec![mostly(rng, slots, 5)];
    for _ in 0..mostly(rng, slots, 3) {
        let count = rng.within(1..=3);
        sheet.push(mostly(rng, count, 4));
        for _ in 0..mostly(rng, count, 3) {
            sheet.extend([around(rng, words), weight(rng)]);
        }
    }
    sheet
}
