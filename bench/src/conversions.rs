//! Sheets to blocks and back, the check and the chance of a reading, which read all three blocks, and costs known within ranges: the
//! library beside the second implementation.

use crate::inputs::{graphs, greatest, Input};
use crate::measure::{medians, micros, ratio, Plan};
use crate::standing::Standing;
use crate::table::{print_head, print_row};
use spireyerba::limits::{work_length, MAX_SHARE};
use spireyerba::{services, Heard, Item, Office, OfficeRule, Refusal};
use spireyerba_tests::chance::chance;
use spireyerba_tests::check::check;
use spireyerba_tests::cost_ranges::cost_ranges;
use spireyerba_tests::{conversions, grammar, heard, utterance};
use std::cell::RefCell;
use std::hint::black_box;

const PLAN: Plan = Plan { rounds: 301, calls: 20 };

/// Of what takes milliseconds.
const FEW: Plan = Plan { rounds: 21, calls: 1 };

pub fn print_table(standing: &mut Standing) {
    let (input, graph) = (greatest(24), &graphs()[0]);
    print_head("256 rules, 24 slots of 7 words", &["ours", "second", "ratio"]);
    print_grammars(standing, &input);
    print_utterances(standing, &input);
    print_check(standing, "check of a reading", &input);
    print_check(standing, "check of a reading of a graph", graph);
    print_chance(standing, "chance of a reading", &input);
    print_chance(standing, "chance of a reading of a graph", graph);
    print_ranges(standing, "ranges of costs that are known", &input);
}

/// A grammar's sheet and block, and an office's sheet.
fn print_grammars(standing: &mut Standing, Input { grammar, .. }: &Input) {
    let (sheet, block) = (grammar.to_sheet(), grammar::pack(grammar));
    print_call(
        standing,
        "grammar sheet to block",
        &block,
        |out| services::grammar_to_block(&sheet, out),
        |out| conversions::grammar_to_block(&sheet, out),
    );
    print_call(
        standing,
        "grammar block to sheet",
        &sheet,
        |out| services::grammar_to_sheet(&block, out),
        |out| conversions::grammar_to_sheet(&block, out),
    );
    let office = office();
    let (sheet, block) = (office.to_sheet(), office.to_block().expect("a result within the limits"));
    print_call(
        standing,
        "office sheet to block",
        &block,
        |out| services::office_to_block(&sheet, out),
        |out| conversions::office_to_block(&sheet, out),
    );
}

/// An utterance's sheet and block.
fn print_utterances(standing: &mut Standing, Input { grammar, heard, .. }: &Input) {
    let Heard::Slots(utterance) = heard else { unreachable!("an utterance of slots") };
    let (under, sheet, block) = (grammar::pack(grammar), utterance.to_sheet(), utterance::pack(grammar, utterance));
    print_call(
        standing,
        "utterance sheet to block",
        &block,
        |out| services::utterance_to_block(&under, &sheet, out),
        |out| conversions::utterance_to_block(&under, &sheet, out),
    );
    print_call(
        standing,
        "utterance block to sheet",
        &sheet,
        |out| services::utterance_to_sheet(&under, &block, out),
        |out| conversions::utterance_to_sheet(&under, &block, out),
    );
}

/// 16 symbols and 240 rules, of which one in eight has a word in a body of two or three items.
fn office() -> Office {
    let rule = |number: u32| {
        let items = match number % 8 {
            0 if number < 64 => vec![Item::Symbol(number / 8), Item::Word(0), Item::Symbol(number % 16)],
            0 => vec![Item::Word(number / 64), Item::Symbol(number / 16)],
            1..=4 => vec![Item::Symbol(number / 16), Item::Symbol(number % 16)],
            _ => vec![Item::Word(number % 200)],
        };
        OfficeRule { head: number % 16, weight: number, items }
    };
    Office { symbols: 16, words: 200, rules: (0..240).map(rule).collect() }
}

/// The check of the least reading.
fn print_check(standing: &mut Standing, name: &str, Input { grammar, heard, .. }: &Input) {
    let (grammar_block, block) = (grammar::pack(grammar), heard::pack(grammar, heard));
    let (_, reading) = &heard::least(grammar, heard, 1)[0];
    print_call::<u8>(
        standing,
        name,
        &[],
        |_| services::check(&grammar_block, &block, reading).map(|()| 0),
        |_| check(&grammar_block, &block, reading).map(|()| 0),
    );
}

/// The chance of the least reading, by shares from the greatest down.
fn print_chance(standing: &mut Standing, name: &str, Input { grammar, heard, .. }: &Input) {
    let (grammar_block, block) = (grammar::pack(grammar), heard::pack(grammar, heard));
    let (_, reading) = &heard::least(grammar, heard, 1)[0];
    let shares: Vec<u32> = (1..=MAX_SHARE).rev().take(grammar.rules.len()).collect();
    let mut product = 0.0;
    chance(&grammar_block, &block, reading, &shares, &mut product).expect("a reading that passes the check");
    print_call(
        standing,
        name,
        &[product],
        |out| services::chance(&grammar_block, &block, reading, &shares, &mut out[0]).map(|()| 1),
        |out| chance(&grammar_block, &block, reading, &shares, &mut out[0]).map(|()| 1),
    );
}

/// Ranges of one cost each, so that the second implementation has one choice to try.
fn print_ranges(standing: &mut Standing, name: &str, Input { grammar, heard, .. }: &Input) {
    let work = RefCell::new(vec![0; work_length(grammar.symbols as usize, heard.longest(), 1)]);
    let (grammar, block) = (&grammar::pack(grammar), &heard::pack(grammar, heard));
    let call = |service: CostRanges, out: &mut [u32]| {
        let [least, greatest] = out else { unreachable!("two weights") };
        service(grammar, block, block, &mut work.borrow_mut(), least, greatest).map(|_| 2)
    };
    let mut weights = [0; 2];
    call(cost_ranges, &mut weights).expect("ranges of costs");
    print_planned(
        (standing, FEW),
        name,
        &weights,
        |out| call(services::cost_ranges, out),
        |out| call(cost_ranges, out),
    );
}

type CostRanges = fn(&[u8], &[u8], &[u8], &mut [u32], &mut u32, &mut u32) -> Result<services::FirstReading, Refusal>;

/// One service, which answers the length of its result and writes that.
fn print_call<T: Copy + Default + PartialEq>(
    standing: &mut Standing,
    name: &str,
    result: &[T],
    library: impl Fn(&mut [T]) -> Result<usize, Refusal>,
    second: impl Fn(&mut [T]) -> Result<usize, Refusal>,
) {
    print_planned((standing, PLAN), name, result, library, second);
}

fn print_planned<T: Copy + Default + PartialEq>(
    (standing, plan): (&mut Standing, Plan),
    name: &str,
    result: &[T],
    library: impl Fn(&mut [T]) -> Result<usize, Refusal>,
    second: impl Fn(&mut [T]) -> Result<usize, Refusal>,
) {
    let mut from_library = vec![T::default(); result.len()];
    let mut from_second = from_library.clone();
    let mut call_library = || assert!(library(black_box(&mut from_library)) == Ok(result.len()), "{name}");
    let mut call_second = || assert!(second(black_box(&mut from_second)) == Ok(result.len()), "{name}");
    let [ours, other] = medians(plan, [&mut call_library, &mut call_second]);
    assert!(from_library == result && from_second == result, "{name}: wrong result");
    standing.take(name, ours, other);
    print_row(name, &[micros(ours), micros(other), ratio(ours, other)]);
}
