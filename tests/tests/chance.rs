//! The library's chance of a reading beside known floats, beside the second implementation's, and beside the exact product.

use spireyerba::limits::{nodes, MAX_SHARE, MAX_SLOTS};
use spireyerba::Refusal::*;
use spireyerba::{services, Heard, Refusal};
use spireyerba_tests::chance::{chance, PRECISION};
use spireyerba_tests::compare::chance::compare;
use spireyerba_tests::compare::{over_seeds, Tally};
use spireyerba_tests::documents::{block_of_slots, g, slots_of_g, G, U};
use spireyerba_tests::nbest::least;
use spireyerba_tests::refusal::{GRAMMAR_BLOCK, GRAPH_BLOCK, READING_BLOCK, UTTERANCE_BLOCK};
use spireyerba_tests::seeded::damage::{blocks, graph_blocks, some_grammar_blocks, some_utterance_blocks};
use spireyerba_tests::seeded::parsable::{heard_case, AMBIGUOUS, LONG, MANY_SYMBOLS, SPARSE, TINY};
use spireyerba_tests::seeded::rng::Rng;
use spireyerba_tests::{grammar, heard, reading, tests_of_both};
use std::cmp::Ordering;

type Chance = fn(&[u8], &[u8], &[u8], &[u32], &mut f64) -> Result<(), Refusal>;

/// The first reading of U under G.
const FIRST: [u8; 6] = [0x31, 0x00, 0x00, 0x00, 0xd5, 0x80];

/// A grammar of seven rules, with slots, the graph that they can be redrawn as, and a reading of either: from the last node to
/// the first the product would be another float.
const SEVEN_RULES: [u8; 25] = [
    0x11, 0xc1, 0x00, 0xe0, 0x00, 0x02, 0x50, 0x80, 0x01, 0x39, 0x60, 0x00, 0x66, 0x00, 0x02, 0x24, 0x00, 0x0b, 0x76,
    0x80, 0x03, 0x5c, 0x00, 0x0f, 0x80,
];
const SLOTS: [u8; 12] = [0x21, 0x08, 0x00, 0x02, 0x50, 0x00, 0x13, 0x00, 0x00, 0x9c, 0x00, 0x04];
const OF_SLOTS: [u8; 7] = [0x31, 0x00, 0x00, 0x08, 0x01, 0x4e, 0x5c];
const GRAPH: [u8; 16] =
    [0x52, 0x84, 0x00, 0x40, 0x00, 0x10, 0x89, 0x00, 0x01, 0x10, 0xe0, 0x00, 0x11, 0x93, 0x00, 0x01];
const OF_GRAPH: [u8; 11] = [0x61, 0x00, 0x00, 0x08, 0x01, 0x40, 0x18, 0x19, 0x41, 0x60, 0x60];
const SEVEN_SHARES: [u32; 7] = [248, 682, 865, 389, 622, 582, 1023];

/// The bits of the chance.
fn bits(service: Chance, blocks: [&[u8]; 3], shares: &[u32]) -> Result<u64, Refusal> {
    let mut float = f64::NAN;
    service(blocks[0], blocks[1], blocks[2], shares, &mut float).map(|()| float.to_bits())
}

/// The blocks of so many slots that offer G's word, and of their first reading.
fn slots_and_reading(slots: usize) -> (Vec<u8>, Vec<u8>) {
    let first = &least(&g(), &slots_of_g(slots), 1)[0];
    (block_of_slots(slots), reading::pack(&g(), first))
}

fn document_02s_examples(service: Chance) {
    for blocks in [[&SEVEN_RULES[..], &SLOTS, &OF_SLOTS], [&SEVEN_RULES[..], &GRAPH, &OF_GRAPH]] {
        assert_eq!(bits(service, blocks, &SEVEN_SHARES), Ok(0x3f92_47d7_0185_541a));
    }
    let of_u: [&[u8]; 3] = [&G, &U, &FIRST];
    assert_eq!(bits(service, of_u, &[341, 683]), Ok(0x3f7d_efd5_dca6_57ca));
    assert_eq!(bits(service, of_u, &[512, 1_024]), Ok(0x3fc0_0000_0000_0000));
    let (one, of_one) = slots_and_reading(1);
    assert_eq!(bits(service, [&G, &one, &of_one], &[1_024, 3]), Ok(0x3f68_0000_0000_0000));
    let (longest, of_longest) = slots_and_reading(MAX_SLOTS as usize);
    assert_eq!(bits(service, [&G, &longest, &of_longest], &[1, 1]), Ok(0x2290_0000_0000_0000));
}

fn document_02s_refusals(service: Chance) {
    let expect = |blocks: [&[u8]; 3], shares: &[u32], refusal| assert_eq!(bits(service, blocks, shares), Err(refusal));
    let of_u: [&[u8]; 3] = [&G, &U, &FIRST];
    expect(of_u, &[], SharesCount);
    expect(of_u, &[0], SharesCount);
    expect(of_u, &[1, 1, 0], SharesCount);
    for shares in [[0, 1], [1, 0], [1_025, 1], [1, u32::MAX]] {
        expect(of_u, &shares, ShareRange);
    }
    expect([&G, &U, &FIRST[..5]], &[0], ReadingEnd);
    expect([&G, &U, &[0x31, 0x00, 0x00, 0x01, 0x15, 0x80]], &[0], ReadingWeight);
    expect([&G, &[], &FIRST], &[0], UtteranceEnd);
    expect([&[], &[], &[]], &[], GrammarEnd);
}

tests_of_both! { services::chance, chance; document_02s_examples document_02s_refusals }

/// A whole number of any size: digits to base 2 to the power 32, the lowest first, and none at the top that is 0.
#[derive(PartialEq, Eq)]
struct Whole(Vec<u32>);

impl Whole {
    fn new(number: u64) -> Self {
        Self(vec![number as u32, (number >> 32) as u32]).trimmed()
    }

    fn trimmed(mut self) -> Self {
        while self.0.last() == Some(&0) {
            self.0.pop();
        }
        self
    }

    fn times(mut self, factor: u32) -> Self {
        let mut carried = 0;
        for digit in &mut self.0 {
            carried += u64::from(*digit) * u64::from(factor);
            *digit = carried as u32;
            carried >>= 32;
        }
        self.0.push(carried as u32);
        self.trimmed()
    }

    fn doubled(self, times: u32) -> Self {
        (0..times).fold(self, |number, _| number.times(2))
    }

    /// How far two are apart.
    fn apart(&self, other: &Self) -> Self {
        let (greater, less) = if self.at_most(other) { (other, self) } else { (self, other) };
        let mut borrowed = false;
        let digits = greater.0.iter().enumerate().map(|(at, &digit)| {
            let taken = u64::from(less.0.get(at).copied().unwrap_or(0)) + u64::from(borrowed);
            borrowed = u64::from(digit) < taken;
            (u64::from(digit).wrapping_sub(taken)) as u32
        });
        Self(digits.collect()).trimmed()
    }

    fn at_most(&self, other: &Self) -> bool {
        let by_size = self.0.len().cmp(&other.0.len());
        by_size.then_with(|| self.0.iter().rev().cmp(other.0.iter().rev())) != Ordering::Greater
    }
}

/// |float × 2^(10m) − P| × 2^52 ≤ m × P over whole numbers, for m shares whose product is P; one share is exact.
fn expect_near(float: f64, shares: &[u32]) {
    let nodes = shares.len() as u32;
    let product = || shares.iter().fold(Whole::new(1), |product, &share| product.times(share));
    let significand = float.to_bits() & ((1 << (PRECISION - 1)) - 1) | 1 << (PRECISION - 1);
    // the float is the significand over 2 to this power
    let below = 1_023 + PRECISION - 1 - (float.to_bits() >> (PRECISION - 1)) as u32;
    let distance = || Whole::new(significand).doubled(10 * nodes).apart(&product().doubled(below));
    assert!(distance().doubled(52).at_most(&product().doubled(below).times(nodes)), "{float:e} of {shares:?}");
    assert!(nodes > 1 || distance().0.is_empty(), "one node is exact: {float:e} of {shares:?}");
}

fn share(rng: &mut Rng) -> u32 {
    match rng.below(4) {
        0 => rng.pick(&[1, 2, 3, 511, 512, 513, 1_023, MAX_SHARE]),
        1 => rng.within(1..=8),
        _ => rng.within(1..=MAX_SHARE),
    }
}

/// Shares for so many rules; sometimes their number or one of them is out of range.
fn any_shares(rng: &mut Rng, rules: usize) -> Vec<u32> {
    let count = if rng.once_in(6) { rng.pick(&[0, rules - 1, rules + 1, 2 * rules, 300]) } else { rules };
    let mut shares: Vec<u32> = (0..count).map(|_| share(rng)).collect();
    if rng.once_in(4) && count > 0 {
        shares[rng.below(count)] = rng.pick(&[0, 0, MAX_SHARE + 1, 1 << 16, u32::MAX]);
    }
    shares
}

#[test]
fn readings_of_derivations_damaged_ones_and_noise() {
    let mut tally = Tally::default();
    over_seeds(0..600, |rng| {
        let (grammar, heard) = heard_case(rng, &[&TINY, &AMBIGUOUS, &SPARSE, &LONG, &MANY_SYMBOLS]);
        let (grammar_block, heard_block) = (grammar::pack(&grammar), heard::pack(&grammar, &heard));
        let readings: Vec<Vec<u8>> = heard::least(&grammar, &heard, 4).into_iter().map(|(_, block)| block).collect();
        for reading in &readings {
            for _ in 0..8 {
                let shares = any_shares(rng, grammar.rules.len());
                compare(rng, &mut tally, [&grammar_block, &heard_block, reading], &shares);
            }
            for damaged in blocks(rng, reading, 16) {
                let shares = any_shares(rng, grammar.rules.len());
                compare(rng, &mut tally, [&grammar_block, &heard_block, &damaged], &shares);
            }
        }
        let noise = rng.noise(9);
        let reading = readings.first().unwrap_or(&noise);
        let shares = any_shares(rng, grammar.rules.len());
        for damaged in some_grammar_blocks(rng, &grammar, 4) {
            compare(rng, &mut tally, [&damaged, &heard_block, reading], &shares);
        }
        let damaged = match &heard {
            Heard::Slots(utterance) => some_utterance_blocks(rng, &grammar, utterance, 4),
            Heard::Graph(graph) => graph_blocks(rng, &grammar, graph, 4),
        };
        for damaged in damaged {
            compare(rng, &mut tally, [&grammar_block, &damaged, reading], &shares);
        }
    });
    let blocks = [&GRAMMAR_BLOCK[..], &UTTERANCE_BLOCK, &GRAPH_BLOCK, &READING_BLOCK].concat();
    tally.demand(20_000, &[&blocks[..], &[SharesCount, ShareRange]].concat());
    assert!(tally.accepted() > 5_000, "{} accepted", tally.accepted());
}

/// Under G the walk's numbers are 0 and 1, so every sequence of shares of two rules is one of its shares.
#[test]
fn every_float_is_near_to_the_exact_product() {
    let mut tally = Tally::default();
    over_seeds(0..200, |rng| {
        for slots in 1..=MAX_SLOTS as usize {
            let (utterance, reading) = slots_and_reading(slots);
            let shares = [share(rng), share(rng)];
            let float = compare(rng, &mut tally, [&G, &utterance, &reading], &shares).expect("a chance");
            let walk: Vec<u32> = (0..nodes(slots)).map(|node| shares[usize::from(node >= slots - 1)]).collect();
            // the order of the factors does not matter to the exact product
            expect_near(float, &walk);
        }
    });
    tally.demand(2_000, &[]);
}
