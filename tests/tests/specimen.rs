//! The library's specimen beside known strings, beside the second implementation's, and beside the first of all strings.

use spireyerba::limits::{MAX_SLOTS, MAX_WEIGHT};
use spireyerba::services;
use spireyerba::Refusal::*;
use spireyerba_tests::both::Specimen;
use spireyerba_tests::compare::specimen::compare;
use spireyerba_tests::compare::{over_seeds, Tally};
use spireyerba_tests::grammar::pack;
use spireyerba_tests::refusal::GRAMMAR_BLOCK;
use spireyerba_tests::seeded::damage::some_grammar_blocks;
use spireyerba_tests::seeded::phrases::{any_grammar, of_few_strings};
use spireyerba_tests::specimen::{derived_bytes, specimen};
use spireyerba_tests::tests_of_both;

/// A specimen, which takes the front of the output and no more.
fn ask(service: Specimen, grammar: &[u8], length: u32) -> Option<Vec<u8>> {
    let mut out = [0xa5; MAX_SLOTS as usize + 1];
    let found = service(grammar, length, &mut out).expect("an accepted grammar and length");
    let (string, beyond) = out.split_at(if found { length as usize } else { 0 });
    assert!(beyond.iter().all(|&byte| byte == 0xa5), "output beyond the string, or where there is none");
    found.then(|| string.to_vec())
}

/// 0 to word 1; 0 to word 0.
const TWO_WORDS: [u8; 9] = [0x10, 0x40, 0x80, 0x50, 0x00, 0x06, 0x00, 0x00, 0x00];
/// 0 to 1 2; 1 to word 1; 1 to 2 1; 2 to word 0; 2 to 2 2: one word 1, any number of words 0 before it and one or more
/// after it.
const LATER_IS_LESS: [u8; 17] =
    [0x10, 0xc0, 0x80, 0xa0, 0x00, 0x01, 0xa8, 0x00, 0x04, 0x80, 0x00, 0x4e, 0x00, 0x00, 0x20, 0x00, 0x0a];

/// The door schedule of examples/.
const DOORS: &[u8] = include_bytes!("../../examples/doors/grammar.bin");

fn examples(service: Specimen) {
    let expect = |grammar, length, string: Option<&[u8]>| {
        assert_eq!(ask(service, grammar, length).as_deref(), string, "length {length} of {grammar:02x?}");
    };
    expect(&TWO_WORDS, 1, Some(&[0]));
    expect(&TWO_WORDS, 2, None);
    expect(&LATER_IS_LESS, 1, None);
    expect(&LATER_IS_LESS, 2, Some(&[1, 0]));
    expect(&LATER_IS_LESS, 3, Some(&[0, 1, 0]));
    expect(&LATER_IS_LESS, 4, Some(&[0, 0, 1, 0]));
    expect(&LATER_IS_LESS, 24, Some(&[[0; 22].as_slice(), &[1, 0]].concat()));
    expect(DOORS, 2, None);
    expect(DOORS, 3, Some(&[4, 0, 5]));
    expect(DOORS, 4, Some(&[4, 0, 2, 5]));
}

tests_of_both! { services::specimen, specimen; examples }

#[test]
fn specimens_of_every_length() {
    let mut tally = Tally::default();
    let (mut some, mut none) = (0, 0);
    over_seeds(0..1_000, |rng| {
        let grammar = pack(&any_grammar(rng));
        for length in 1..=MAX_SLOTS {
            let out_len = length as usize + rng.pick(&[0, 0, 1, 40]);
            let is_found = compare(rng, &mut tally, &grammar, length, out_len) == Some(true);
            *if is_found { &mut some } else { &mut none } += 1;
        }
    });
    tally.demand(20_000, &[]);
    assert!(some > 10_000 && none > 5_000, "{some} specimens, {none} times none");
}

#[test]
fn specimens_beside_all_strings() {
    over_seeds(20_000..20_500, |rng| {
        let (grammar, longest) = of_few_strings(rng);
        let block = pack(&grammar);
        for length in 1..=longest {
            let first = derived_bytes(&grammar, length).next();
            assert_eq!(ask(services::specimen, &block, length as u32), first, "length {length} of {grammar:?}");
        }
    });
}

/// Two machines that have an office's rules in another order print the same string.
#[test]
fn neither_the_order_of_the_rules_nor_their_weights_count() {
    over_seeds(30_000..30_300, |rng| {
        let grammar = any_grammar(rng);
        let mut other = grammar.clone();
        rng.shuffle(&mut other.rules);
        other.rules.iter_mut().for_each(|rule| rule.weight = rng.within(0..=MAX_WEIGHT));
        let blocks = [&grammar, &other].map(pack);
        for length in 1..=MAX_SLOTS {
            let [one, two] = blocks.each_ref().map(|block| ask(services::specimen, block, length));
            assert_eq!(one, two, "length {length} of {grammar:?}\nand {other:?}");
        }
    });
}

#[test]
fn short_outputs_lengths_out_of_range_and_damaged_grammars() {
    let mut tally = Tally::default();
    over_seeds(10_000..10_300, |rng| {
        let grammar = any_grammar(rng);
        let block = pack(&grammar);
        let length = rng.within(1..=24);
        for short in [0, length as usize / 2, length as usize - 1] {
            compare(rng, &mut tally, &block, length, short);
        }
        for wild in [0, 25, 26, 1 << 16, u32::MAX] {
            let out_len = rng.below(40);
            compare(rng, &mut tally, &block, wild, out_len);
        }
        for damaged in some_grammar_blocks(rng, &grammar, 10) {
            let (length, out_len) = (rng.within(0..=26), rng.below(40));
            compare(rng, &mut tally, &damaged, length, out_len);
        }
    });
    tally.demand(5_000, &[GRAMMAR_BLOCK.as_slice(), &[SpecimenLength, SpecimenOutput]].concat());
}
