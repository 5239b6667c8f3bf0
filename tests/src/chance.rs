//! The chance of a reading (document 02, N14), with whole numbers alone: a float is 53 bits and a power of 2.

use crate::check::check;
use crate::{grammar, graph_reading, heard, reading};
use spireyerba::limits::MAX_SHARE;
use spireyerba::{Grammar, Heard, Refusal};

/// The bits of a float's significand, the leading one counted.
pub const PRECISION: u32 = 53;
/// The exponent field of a float from 1 up to 2.
const BIAS: i32 = 1_023;
/// Shares are of 2 to this power.
const SHARE_BITS: i32 = 10;

/// Writes the product of the shares of a reading's nodes.
pub fn chance(grammar: &[u8], heard: &[u8], reading: &[u8], shares: &[u32], chance: &mut f64) -> Result<(), Refusal> {
    check(grammar, heard, reading)?;
    let grammar = grammar::from_block(grammar)?;
    let walk = walk(&grammar, &heard::from_block(&grammar, heard)?, reading)?;
    if shares.len() != grammar.rules.len() {
        return Err(Refusal::SharesCount);
    }
    if shares.iter().any(|share| !(1..=MAX_SHARE).contains(share)) {
        return Err(Refusal::ShareRange);
    }
    let factors = walk.iter().map(|&rule| shares[rule as usize]);
    *chance = factors.fold(Product::ONE, Product::times).float();
    Ok(())
}

/// The rule number of each node of a reading that passes the check.
fn walk(grammar: &Grammar, heard: &Heard, reading: &[u8]) -> Result<Vec<u32>, Refusal> {
    match heard {
        Heard::Slots(utterance) => Ok(reading::from_block(grammar, utterance.slots.len(), reading)?.0.walk),
        Heard::Graph(graph) => {
            let fields = graph_reading::from_block(grammar, graph, reading)?;
            fields.numbers.map(|(walk, ..)| walk).ok_or(Refusal::ReadingWalk)
        }
    }
}

/// A float above 0 that is not subnormal: a significand of [`PRECISION`] bits, and the power of 2 that it is times.
#[derive(Clone, Copy, Debug)]
struct Product {
    significand: u64,
    exponent: i32,
}

impl Product {
    const ONE: Self = Self { significand: 1 << (PRECISION - 1), exponent: 1 - PRECISION as i32 };

    /// Times a share over 1,024, rounded once: to the nearest, and where two are as near to the even one.
    fn times(self, share: u32) -> Self {
        let exact = self.significand * u64::from(share);
        let surplus = u64::BITS - exact.leading_zeros() - PRECISION;
        let (kept, cut) = (exact >> surplus, exact & ((1 << surplus) - 1));
        let half = (1 << surplus) >> 1;
        let up = surplus > 0 && (cut > half || cut == half && kept % 2 == 1);
        let exponent = self.exponent + surplus as i32 - SHARE_BITS;
        match kept + u64::from(up) {
            carried if carried >> PRECISION == 1 => Self { significand: carried / 2, exponent: exponent + 1 },
            significand => Self { significand, exponent },
        }
    }

    /// The float, by its bits.
    fn float(self) -> f64 {
        let field = self.exponent + PRECISION as i32 - 1 + BIAS;
        let fraction = self.significand - Self::ONE.significand;
        f64::from_bits((field as u64) << (PRECISION - 1) | fraction)
    }
}
