//! Document 01's checked examples, on the second implementation.

use spireyerba::limits::reading_length;
use spireyerba::{Reading, Refusal};
use spireyerba_tests::check::check;
use spireyerba_tests::conversions::{grammar_to_block, grammar_to_sheet, utterance_to_block, utterance_to_sheet};
use spireyerba_tests::derivation::ranked;
use spireyerba_tests::documents::{G, U};
use spireyerba_tests::listing::listing;
use spireyerba_tests::nbest::least;
use spireyerba_tests::specimen::specimen;
use spireyerba_tests::{grammar, reading, utterance};

const G_SHEET: [u32; 13] = [1, 1, 2, 0, 0, 1, 0, 0, 1, 0, 0, 0, 0];
const U_SHEET: [u32; 13] = [4, 1, 0, 0, 1, 0, 0, 1, 0, 0, 1, 0, 0];

/// The readings of G and U, cheapest first.
const WALKS: [[u32; 7]; 5] =
    [[0, 1, 0, 1, 0, 1, 1], [0, 1, 0, 0, 1, 1, 1], [0, 0, 1, 1, 0, 1, 1], [0, 0, 1, 0, 1, 1, 1], [0, 0, 0, 1, 1, 1, 1]];

#[test]
fn sheets_and_blocks_of_g_and_u() {
    let (mut block, mut sheet) = ([0xff; 12], [0xff; 13]);
    assert_eq!(grammar_to_block(&G_SHEET, &mut block), Ok(9));
    assert_eq!(block, *[G.as_slice(), &[0xff; 3]].concat());
    assert_eq!(grammar_to_sheet(&G, &mut sheet), Ok(13));
    assert_eq!(sheet, G_SHEET);
    assert_eq!(utterance_to_block(&G, &U_SHEET, &mut block), Ok(12));
    assert_eq!(block, U);
    assert_eq!(utterance_to_sheet(&G, &U, &mut sheet), Ok(13));
    assert_eq!(sheet, U_SHEET);
}

#[test]
fn g_ending_in_01_is_refused() {
    let mut damaged = G;
    damaged[8] = 1;
    let mut sheet = [0xff; 13];
    assert_eq!(grammar_to_sheet(&damaged, &mut sheet), Err(Refusal::GrammarFill));
    assert_eq!(sheet, [0xff; 13]);
}

/// Both ways to list find exactly these weights and walks.
fn expect_list(grammar: &[u32], utterance: &[u32], wanted: usize, expected: &[(u32, &[u32])]) {
    let grammar = grammar::from_sheet(grammar).unwrap();
    let utterance = utterance::from_sheet(&grammar, utterance).unwrap();
    let expected: Vec<Reading> =
        expected.iter().map(|&(weight, walk)| Reading::of_slots(weight, walk.to_vec())).collect();
    assert_eq!(least(&grammar, &utterance, wanted), expected);
    let all = ranked(&grammar, &utterance, 1_000).unwrap();
    assert_eq!(all.iter().take(wanted).map(|tree| tree.reading()).collect::<Vec<_>>(), expected);
}

#[test]
fn readings_of_g_and_u() {
    let all = WALKS.each_ref().map(|walk| (3, walk.as_slice()));
    expect_list(&G_SHEET, &U_SHEET, 8, &all);
    expect_list(&G_SHEET, &U_SHEET, 5, &all);
    expect_list(&G_SHEET, &U_SHEET, 3, &all[..3]);
}

#[test]
fn readings_of_g_over_one_two_and_three_slots() {
    expect_list(&G_SHEET, &[1, 1, 0, 0], 8, &[(0, &[1])]);
    expect_list(&G_SHEET, &[2, 1, 0, 0, 1, 0, 0], 8, &[(1, &[0, 1, 1])]);
    expect_list(&G_SHEET, &[3, 1, 0, 0, 1, 0, 0, 1, 0, 0], 8, &[(2, &[0, 1, 0, 1, 1]), (2, &[0, 0, 1, 1, 1])]);
}

#[test]
fn a_tie_between_two_words_goes_to_the_lower_rule() {
    let grammar = [1, 2, 2, 1, 0, 5, 0, 0, 1, 0, 3, 1, 0];
    expect_list(&grammar, &[1, 2, 0, 0, 1, 2], 8, &[(5, &[0]), (5, &[1])]);
}

#[test]
fn a_tie_between_two_trees_goes_to_the_lighter_left_part() {
    let rules = [[0, 0, 0, 1, 2], [1, 1, 5, 0, 0], [1, 1, 3, 1, 0], [1, 2, 1, 2, 0], [1, 2, 3, 3, 0]];
    let grammar = [[3, 4, 5].as_slice(), rules.as_flattened()].concat();
    let utterance = [2, 2, 0, 0, 1, 0, 2, 2, 0, 3, 0];
    expect_list(&grammar, &utterance, 8, &[(4, &[0, 2, 3]), (6, &[0, 2, 4]), (6, &[0, 1, 3]), (8, &[0, 1, 4])]);
}

#[test]
fn the_listing_of_g_and_u_as_bytes() {
    let mut work = [7; 321];
    let mut out = [0xff; 49];
    assert_eq!(listing(&G, &U, 8, &mut work, &mut out), Ok(5));
    assert_eq!(work, [0; 321]);
    let grammar = grammar::from_block(&G).unwrap();
    let blocks = WALKS.map(|walk| reading::pack(&grammar, &Reading::of_slots(3, walk.to_vec()))).concat();
    assert_eq!(out[..30], blocks);
    assert_eq!(out[30..], [0xff; 19]);
}

#[test]
fn sizes_that_the_listing_of_g_and_u_needs() {
    let answer = |wanted, work, out| listing(&G, &U, wanted, &mut vec![7; work], &mut vec![0xff; out]);
    assert_eq!(answer(8, 320, 48), Ok(5));
    assert_eq!(answer(8, 319, 48), Err(Refusal::ListingWork));
    assert_eq!(answer(8, 320, 47), Err(Refusal::ListingOutput));
    assert_eq!(answer(0, 320, 48), Err(Refusal::ListingWanted));
    assert_eq!(answer(257, 320, 48), Err(Refusal::ListingWanted));
}

#[test]
fn readings_that_pass_and_fail_the_check() {
    assert_eq!(check(&G, &U, &[0x31, 0x00, 0x00, 0x00, 0xd5, 0x80]), Ok(()));
    assert_eq!(check(&G, &U, &[0x31, 0x00, 0x00, 0x01, 0x15, 0x80]), Err(Refusal::ReadingWeight));
}

#[test]
fn specimens_of_g_and_of_one_word() {
    let mut out = [0xff; 4];
    assert_eq!(specimen(&G, 3, &mut out), Ok(true));
    assert_eq!(out, [0, 0, 0, 0xff]);
    let one_word = grammar::pack(&grammar::from_sheet(&[1, 1, 1, 1, 0, 0, 0, 0]).unwrap());
    let mut out = [0xff; 4];
    assert_eq!(specimen(&one_word, 2, &mut out), Ok(false));
    assert_eq!(out, [0xff; 4]);
}

/// Document 01, "Packed blocks": the longest of each.
#[test]
fn lengths_of_the_longest_blocks() {
    let rules = (0..256).flat_map(|number| [0, number % 32, 65_535, number / 32, 31]);
    let grammar = grammar::from_sheet(&[32, 200, 256].into_iter().chain(rules).collect::<Vec<u32>>()).unwrap();
    assert_eq!(grammar::pack(&grammar).len(), 1_028);
    let slot = [7].into_iter().chain((0..7).flat_map(|word| [word, 65_535]));
    let sheet: Vec<u32> = [24].into_iter().chain((0..24).flat_map(|_| slot.clone())).collect();
    let utterance = utterance::from_sheet(&grammar, &sheet).unwrap();
    assert_eq!(utterance::pack(&grammar, &utterance).len(), 515);
    assert_eq!(reading_length(24, 256), 52);
}
