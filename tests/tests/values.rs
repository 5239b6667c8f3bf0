//! The values of the crate `spireyerba`, for which the library reads and writes, beside the second implementation.

use spireyerba::{Grammar, Refusal, Utterance};
use spireyerba_tests::compare::over_seeds;
use spireyerba_tests::nbest::least;
use spireyerba_tests::seeded::damage::{blocks, repeated_rule, sheets};
use spireyerba_tests::seeded::grammars::{grammar, Size};
use spireyerba_tests::seeded::parsable::{case, AMBIGUOUS, MANY_SYMBOLS, SPARSE};
use spireyerba_tests::seeded::rng::Rng;
use spireyerba_tests::seeded::utterances::utterance;
use spireyerba_tests::{grammar, utterance};

fn size(rng: &mut Rng) -> Size {
    if rng.once_in(20) {
        Size::Greatest
    } else {
        Size::Small
    }
}

#[test]
fn grammars() {
    over_seeds(0..200, |rng| {
        let size = size(rng);
        let value = grammar(rng, size);
        let block = grammar::pack(&value);
        assert_eq!(value.to_block().as_ref(), Ok(&block));
        for block in blocks(rng, &block, 60) {
            assert_eq!(Grammar::from_block(&block), grammar::from_block(&block), "{block:02x?}");
        }
        for sheet in sheets(rng, &value.to_sheet(), 60) {
            assert_eq!(Grammar::from_sheet(&sheet), grammar::from_sheet(&sheet), "{sheet:?}");
        }
        let damaged = repeated_rule(rng, &value);
        assert_eq!(damaged.to_block(), grammar::from_sheet(&damaged.to_sheet()).map(|value| grammar::pack(&value)));
    });
}

#[test]
fn utterances() {
    over_seeds(1_000..1_200, |rng| {
        let size = size(rng);
        let under = grammar(rng, size);
        let value = utterance(rng, size, under.words);
        let (grammar, block) = (grammar::pack(&under), utterance::pack(&under, &value));
        assert_eq!(value.to_block(&grammar).as_ref(), Ok(&block));
        for block in blocks(rng, &block, 60) {
            let expected = utterance::from_block(&under, &block);
            assert_eq!(Utterance::from_block(&grammar, &block), expected, "{grammar:02x?} {block:02x?}");
        }
        for sheet in sheets(rng, &value.to_sheet(), 60) {
            let expected = utterance::from_sheet(&under, &sheet);
            assert_eq!(Utterance::from_sheet(&grammar, &sheet), expected, "{grammar:02x?} {sheet:?}");
        }
    });
}

#[test]
fn lists() {
    over_seeds(2_000..2_500, |rng| {
        let shape = rng.pick(&[&AMBIGUOUS, &MANY_SYMBOLS, &SPARSE]);
        let (grammar, utterance) = case(rng, shape);
        let wanted = rng.pick(&[1, 2, 30, 256]);
        let list = grammar.list(&utterance, wanted);
        assert_eq!(list, Ok(least(&grammar, &utterance, wanted as usize)), "{grammar:?} {utterance:?}");
        for wanted in [0, 257, u32::MAX] {
            assert_eq!(grammar.list(&utterance, wanted), Err(Refusal::ListingWanted));
        }
    });
}
