//! Cases for the tests of the Python package (python/tests/test_cases.py): seeded inputs with what the second implementation
//! answers, a line of JSON each.

use spireyerba::limits::work_length;
use spireyerba::services::FirstReading;
use spireyerba::{Grammar, Heard, Utterance};
use spireyerba_tests::seeded::parsable::{cheaper, heard_case, wanted, AMBIGUOUS, SPARSE, TINY, WORDY};
use spireyerba_tests::seeded::rng::Rng;
use spireyerba_tests::{chance, cost_ranges, grammar, heard, specimen, utterance, word_margins};
use std::fmt::Debug;

const CASES: u64 = 400;
/// Lengths of the strings that are asked for.
const LENGTHS: std::ops::RangeInclusive<usize> = 1..=3;
/// The most by which a cost may rise, so that few choices are to be tried.
const RISE: u32 = 1;

fn main() {
    (0..CASES).for_each(|seed| println!("{}", case(&mut Rng::new(seed))));
}

/// The fields of an object of JSON.
#[derive(Default)]
struct Fields(Vec<String>);

impl Fields {
    fn add(&mut self, name: &str, value: impl Debug) {
        self.0.push(format!("{name:?}: {value:?}"));
    }

    fn object(self) -> String {
        format!("{{{}}}", self.0.join(", "))
    }
}

fn hex(block: &[u8]) -> String {
    block.iter().map(|byte| format!("{byte:02x}")).collect()
}

fn case(rng: &mut Rng) -> String {
    let (under, mut value) = heard_case(rng, &[&TINY, &AMBIGUOUS, &SPARSE, &WORDY]);
    if let Heard::Slots(utterance) = &mut value {
        cheaper(utterance, 60);
    }
    let (block, heard_block, wanted) = (grammar::pack(&under), heard::pack(&under, &value), wanted(rng));
    let mut fields = Fields::default();
    fields.add("grammar", hex(&block));
    fields.add("heard", hex(&heard_block));
    fields.add("wanted", wanted);
    let readings = heard::least(&under, &value, wanted as usize);
    fields.add("weights", readings.iter().map(|(weight, _)| *weight).collect::<Vec<_>>());
    fields.add("readings", readings.iter().map(|(_, reading)| hex(reading)).collect::<Vec<_>>());
    let shares: Vec<u32> = under.rules.iter().map(|_| rng.within(1..=1_024)).collect();
    let chances = readings.iter().take(3).map(|(_, reading)| {
        let mut product = 0.0;
        chance::chance(&block, &heard_block, reading, &shares, &mut product).map(|()| product).expect("a chance")
    });
    fields.add("chances", chances.collect::<Vec<_>>());
    fields.add("shares", shares);
    fields.add(
        "specimens",
        LENGTHS.map(|length| specimen::least(&under, length).unwrap_or_default()).collect::<Vec<_>>(),
    );
    fields.add("phrases", LENGTHS.map(|length| specimen::derived(&under, length).collect()).collect::<Vec<Vec<_>>>());
    if let Heard::Slots(utterance) = &value {
        fields.add("margins", word_margins::entries(&under, utterance));
        add_ranges(&mut fields, &under, utterance, rng);
    }
    fields.object()
}

/// The same utterance with some costs risen, and what is answered about both.
fn add_ranges(fields: &mut Fields, under: &Grammar, low: &Utterance, rng: &mut Rng) {
    let mut high = low.clone();
    let candidates = high.slots.iter_mut().flatten().filter(|candidate| candidate.is_offered());
    candidates.take(6).for_each(|candidate| candidate.cost += rng.within(0..=RISE));
    let [grammar, low_block, high_block] =
        [grammar::pack(under), utterance::pack(under, low), utterance::pack(under, &high)];
    let mut work = vec![0; work_length(under.symbols as usize, low.slots.len(), 1)];
    let (mut least, mut greatest) = (0, 0);
    let first = cost_ranges::cost_ranges(&grammar, &low_block, &high_block, &mut work, &mut least, &mut greatest);
    fields.add("high", hex(&high_block));
    match first.expect("ranges") {
        FirstReading::Nothing => fields.add("ranges", [0; 0]),
        first => fields.add("ranges", [least, greatest, u32::from(first == FirstReading::Stands)]),
    }
}
