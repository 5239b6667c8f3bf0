//! The comparison of a conversion.

use super::{Lent, Tally};
use crate::conversions;
use crate::seeded::rng::{Noise, Rng};
use spireyerba::limits::{GRAMMAR_BLOCK_MAX, GRAMMAR_SHEET_MAX};
use spireyerba::{services, Refusal};
use std::fmt::Debug;
use std::hash::Hash;

/// What a conversion is in either implementation: it takes a grammar block and an input, and writes an output.
pub type Service<I, O> = fn(&[u8], &[I], &mut [O]) -> Result<usize, Refusal>;

/// A conversion in both implementations. Those of grammars make nothing of the grammar block.
pub struct Conversion<I, O> {
    pub library: Service<I, O>,
    pub second: Service<I, O>,
    /// The length of the longest result.
    pub longest: usize,
}

pub const GRAMMAR_TO_BLOCK: Conversion<u32, u8> = Conversion {
    library: |_, sheet, out| services::grammar_to_block(sheet, out),
    second: |_, sheet, out| conversions::grammar_to_block(sheet, out),
    longest: GRAMMAR_BLOCK_MAX,
};
pub const GRAMMAR_TO_SHEET: Conversion<u8, u32> = Conversion {
    library: |_, block, out| services::grammar_to_sheet(block, out),
    second: |_, block, out| conversions::grammar_to_sheet(block, out),
    longest: GRAMMAR_SHEET_MAX,
};

impl<I: Noise + PartialEq + Debug + Hash, O: Noise + PartialEq + Debug> Conversion<I, O> {
    /// Compares on one input with outputs of several lengths: none, one short, exact and one more where the input is
    /// accepted.
    pub fn compare(&self, rng: &mut Rng, tally: &mut Tally, grammar: &[u8], input: &[I]) {
        let mut longest: Vec<O> = rng.noise(self.longest);
        match (self.second)(grammar, input, &mut longest) {
            Ok(length) => {
                for length in [0, length - 1, length, length + 1] {
                    self.compare_at(rng, tally, grammar, input, length);
                }
            }
            Err(_) => {
                let length = rng.pick(&[0, 1, 16, self.longest]);
                self.compare_at(rng, tally, grammar, input, length);
            }
        }
    }

    /// Compares on each of these inputs.
    pub fn compare_each(&self, rng: &mut Rng, tally: &mut Tally, grammar: &[u8], inputs: &[Vec<I>]) {
        for input in inputs {
            self.compare(rng, tally, grammar, input);
        }
    }

    /// What both implementations make of one input, with room for the longest result.
    pub fn answer(&self, grammar: &[u8], input: &[I]) -> Result<Vec<O>, Refusal> {
        let [library, second] = [self.library, self.second].map(|service| {
            let mut out = vec![O::cut(0xa5a5); self.longest];
            service(grammar, input, &mut out).map(|length| out[..length].to_vec())
        });
        assert_eq!(library, second, "answers of the library and of the second implementation\n{input:?}");
        library
    }

    /// Compares the answer and every slice after the call, guards included.
    fn compare_at(&self, rng: &mut Rng, tally: &mut Tally, grammar: &[u8], input: &[I], length: usize) {
        let lent_grammar = Lent::holding(rng, grammar);
        let lent_input = Lent::holding(rng, input);
        let mut out = Lent::noise(rng, length);
        let (grammar_before, input_before, mut expected) = (lent_grammar.clone(), lent_input.clone(), out.clone());
        let expected_answer = (self.second)(grammar, input, expected.slice_mut());
        let answer = (self.library)(lent_grammar.slice(), lent_input.slice(), out.slice_mut());
        tally.record((grammar, input), &answer);
        let context = || format!("grammar {grammar:02x?}\ninput {input:?}\noutput length {length}");
        assert_eq!(answer, expected_answer, "answers of the library and of the second implementation\n{}", context());
        assert!(out == expected, "output {:?}, expected {:?}\n{}", out.slice(), expected.slice(), context());
        assert!(lent_grammar == grammar_before, "the grammar was changed\n{}", context());
        assert!(lent_input == input_before, "the input was changed\n{}", context());
    }
}
