//! The library's next phrase beside known sequences, beside the second implementation's, and beside all strings.

use spireyerba::limits::MAX_PHRASE;
use spireyerba::Refusal::*;
use spireyerba::{services, Refusal};
use spireyerba_tests::compare::next_phrase::compare;
use spireyerba_tests::compare::{over_seeds, Tally};
use spireyerba_tests::documents::G;
use spireyerba_tests::grammar::pack;
use spireyerba_tests::refusal::GRAMMAR_BLOCK;
use spireyerba_tests::seeded::damage::some_grammar_blocks;
use spireyerba_tests::seeded::phrases::{any_grammar, of_few_strings};
use spireyerba_tests::seeded::rng::Rng;
use spireyerba_tests::specimen::{derived_bytes, next_phrase};
use spireyerba_tests::tests_of_both;

type NextPhrase = fn(&[u8], u32, bool, &mut [u8]) -> Result<bool, Refusal>;

/// A later call on a string; what stands behind it stays.
fn above(service: NextPhrase, grammar: &[u8], string: &[u8]) -> Option<Vec<u8>> {
    let mut out = [string, &[0xa5]].concat();
    let found = service(grammar, string.len() as u32, false, &mut out).expect("an accepted grammar and length");
    assert!(out.pop() == Some(0xa5) && (found || out == string), "output beyond the string, or at the end");
    found.then_some(out)
}

/// A first call and later ones, up to the end and once more, where nothing changes.
fn all_phrases(service: NextPhrase, grammar: &[u8], length: u32) -> Vec<Vec<u8>> {
    let mut out = vec![0xa5; length as usize];
    let mut strings = Vec::new();
    let mut first = true;
    while service(grammar, length, first, &mut out).expect("an accepted grammar and length") {
        strings.push(out.clone());
        first = false;
    }
    let last = strings.last().cloned().unwrap_or(vec![0xa5; length as usize]);
    assert!(service(grammar, length, false, &mut out) == Ok(false) && out == last, "the end is the end");
    strings
}

/// 0 to 0 1; 0 to word 2; 1 to word 0; 1 to word 2; 0 to word 1: word 1 or 2, and then words 0 and 2.
const ANY_TAIL: [u8; 16] =
    [0x10, 0x80, 0xc0, 0xa0, 0x00, 0x0b, 0x00, 0x00, 0x58, 0x00, 0x01, 0x80, 0x00, 0x50, 0x00, 0x1a];

/// The door schedule of examples/.
const DOORS: &[u8] = include_bytes!("../../examples/doors/grammar.bin");

fn examples(service: NextPhrase) {
    assert_eq!(all_phrases(service, &ANY_TAIL, 2), [[1, 0], [1, 2], [2, 0], [2, 2]]);
    assert_eq!(above(service, &ANY_TAIL, &[0, 0, 0]), Some(vec![1, 0, 0]));
    assert_eq!(above(service, &ANY_TAIL, &[1, 0, 1]), Some(vec![1, 0, 2]));
    assert_eq!(above(service, &ANY_TAIL, &[1, 1, 9]), Some(vec![1, 2, 0]));
    assert_eq!(above(service, &ANY_TAIL, &[1, 255, 255]), Some(vec![2, 0, 0]));
    assert_eq!(above(service, &ANY_TAIL, &[2, 2, 1]), Some(vec![2, 2, 2]));
    assert_eq!(above(service, &ANY_TAIL, &[2, 2, 2]), None);
    assert_eq!(above(service, &ANY_TAIL, &[255, 255, 255]), None);
    assert_eq!(all_phrases(service, &G, 4), [[0; 4]]);
    let counts: Vec<usize> = (1..=MAX_PHRASE).map(|length| all_phrases(service, DOORS, length).len()).collect();
    assert_eq!(counts, [0, 0, 12, 72, 264, 816]);
}

tests_of_both! { services::next_phrase, next_phrase; examples }

#[test]
fn whole_sequences_beside_all_strings() {
    let mut handed_out = 0;
    over_seeds(20_000..20_200, |rng| {
        let (grammar, longest) = of_few_strings(rng);
        let block = pack(&grammar);
        for length in 1..=longest {
            let expected: Vec<Vec<u8>> = derived_bytes(&grammar, length).collect();
            let phrases = all_phrases(services::next_phrase, &block, length as u32);
            assert_eq!(phrases, expected, "length {length} of {grammar:?}");
            handed_out += expected.len();
        }
    });
    assert!(handed_out > 5_000, "{handed_out} strings handed out");
}

/// Any bytes, or bytes near the grammar's words, or of a phrase but for one.
fn some_string(rng: &mut Rng, block: &[u8], words: u32, length: u32) -> Vec<u8> {
    let mut string = vec![0; length as usize];
    if rng.once_in(3) && services::next_phrase(block, length, true, &mut string) == Ok(true) {
        let place = rng.below(string.len());
        string[place] = string[place].wrapping_add(rng.pick(&[0, 1, 255]));
        return string;
    }
    let greatest = rng.pick(&[words, words - 1, 255]);
    string.iter_mut().for_each(|byte| *byte = rng.within(0..=greatest) as u8);
    string
}

#[test]
fn later_calls_on_any_bytes() {
    let mut tally = Tally::default();
    let (mut some, mut none) = (0, 0);
    over_seeds(0..1_000, |rng| {
        let grammar = any_grammar(rng);
        let block = pack(&grammar);
        for length in 1..=MAX_PHRASE {
            for first in [true, false, false] {
                let mut held = some_string(rng, &block, grammar.words, length);
                held.extend(vec![7; rng.pick(&[0, 0, 1, 40])]);
                let is_found = compare(rng, &mut tally, &block, length, first, &held) == Some(true);
                *if is_found { &mut some } else { &mut none } += 1;
            }
        }
    });
    tally.demand(10_000, &[]);
    assert!(some > 5_000 && none > 3_000, "{some} strings, {none} times none");
}

#[test]
fn short_outputs_lengths_out_of_range_and_damaged_grammars() {
    let mut tally = Tally::default();
    over_seeds(10_000..10_300, |rng| {
        let grammar = any_grammar(rng);
        let block = pack(&grammar);
        let length = rng.within(1..=MAX_PHRASE);
        for first in [true, false] {
            for short in [0, length as usize / 2, length as usize - 1] {
                compare(rng, &mut tally, &block, length, first, &vec![1; short]);
            }
            for wild in [0, 7, 24, 1 << 16, u32::MAX] {
                let held = vec![1; rng.below(40)];
                compare(rng, &mut tally, &block, wild, first, &held);
            }
            for damaged in some_grammar_blocks(rng, &grammar, 10) {
                let (length, held) = (rng.within(0..=8), vec![1; rng.below(12)]);
                compare(rng, &mut tally, &damaged, length, first, &held);
            }
        }
    });
    tally.demand(5_000, &[GRAMMAR_BLOCK.as_slice(), &[SpecimenLength, SpecimenOutput]].concat());
}
