//! The refusals and sizes of this crate are those of include/spireyerba.h.

use spireyerba::limits::*;
use spireyerba::services::{FirstReading, Next};
use spireyerba::Refusal;
use std::collections::BTreeMap;
use std::fmt::Debug;

const HEADER: &str = include_str!("../../include/spireyerba.h");
const PREFIX: &str = "SPIREYERBA_";

/// The beginnings of the names of answers, which are numbered as refusals are.
const OF_NEXT: &str = "NEXT_";
const OF_FIRST: &str = "FIRST_";

/// The names that the header gives a number: `PREFIX_NAME = NUMBER` to refusals and answers, `#define PREFIX_NAME NUMBER` to
/// sizes.
fn numbers(of_refusals: bool) -> BTreeMap<String, usize> {
    let of_line = |line: &str| {
        let (name, rest) = match line.trim().strip_prefix("#define ") {
            Some(definition) if !of_refusals => definition.split_once(' ')?,
            None if of_refusals => line.trim().split_once(" = ")?,
            _ => return None,
        };
        let digits = rest.split(|letter: char| !letter.is_ascii_digit()).next()?;
        Some((name.strip_prefix(PREFIX)?.to_owned(), digits.parse().ok()?))
    };
    HEADER.lines().filter_map(of_line).collect()
}

/// `GrammarEnd` as `GRAMMAR_END`.
fn name_in_c(value: impl Debug) -> String {
    let mut name = String::new();
    for letter in format!("{value:?}").chars() {
        if letter.is_uppercase() && !name.is_empty() {
            name.push('_');
        }
        name.push(letter.to_ascii_uppercase());
    }
    name
}

#[test]
fn refusals() {
    let refusals = Refusal::ALL.iter().map(|&refusal| (name_in_c(refusal), refusal.number() as usize));
    let is_answer = |name: &str| [OF_NEXT, OF_FIRST].iter().any(|begin| name.starts_with(begin));
    let (answers, numbered) = numbers(true).into_iter().partition(|(name, _)| is_answer(name));
    assert_eq!(refusals.collect::<BTreeMap<_, _>>(), numbered);
    let of_next = [Next::NoMore, Next::Reading, Next::Full];
    let of_next = of_next.map(|next| (OF_NEXT.to_owned() + &name_in_c(next), next as usize));
    let of_first = [FirstReading::Nothing, FirstReading::Outweighed, FirstReading::Stands];
    let of_first = of_first.map(|first| (OF_FIRST.to_owned() + &name_in_c(first), first as usize));
    assert_eq!(of_next.into_iter().chain(of_first).collect::<BTreeMap<_, _>>(), answers);
    assert!(Refusal::ALL.is_sorted());
    for &refusal in Refusal::ALL {
        assert_eq!(Refusal::from_number(refusal.number()), Some(refusal));
    }
    assert_eq!((0..100).filter_map(Refusal::from_number).count(), Refusal::ALL.len());
}

#[test]
fn sizes() {
    let limits = [
        ("MAX_SYMBOLS", MAX_SYMBOLS),
        ("MAX_WORDS", MAX_WORDS),
        ("MAX_RULES", MAX_RULES),
        ("MAX_SLOTS", MAX_SLOTS),
        ("MAX_CANDIDATES", MAX_CANDIDATES),
        ("MAX_PLACES", MAX_PLACES),
        ("MAX_EDGES", MAX_EDGES),
        ("MAX_WEIGHT", MAX_WEIGHT),
        ("NOT_HEARD", NOT_HEARD),
        ("MAX_ITEMS", MAX_ITEMS),
        ("MAX_SHARE", MAX_SHARE),
        ("MAX_READINGS", MAX_READINGS),
        ("MAX_PHRASE", MAX_PHRASE),
        ("PANEL_MAX_SLOTS", PANEL_MAX_SLOTS),
        ("PANEL_MAX_PLACES", PANEL_MAX_PLACES),
        ("PANEL_MAX_READINGS", PANEL_MAX_READINGS),
    ];
    let lengths = [
        ("GRAMMAR_BLOCK_MAX", GRAMMAR_BLOCK_MAX),
        ("UTTERANCE_BLOCK_MAX", UTTERANCE_BLOCK_MAX),
        ("GRAPH_BLOCK_MAX", GRAPH_BLOCK_MAX),
        ("READING_BLOCK_MAX", READING_BLOCK_MAX),
        ("GRAPH_READING_BLOCK_MAX", GRAPH_READING_BLOCK_MAX),
        ("GRAMMAR_SHEET_MAX", GRAMMAR_SHEET_MAX),
        ("UTTERANCE_SHEET_MAX", UTTERANCE_SHEET_MAX),
        ("MARGIN_NUMBERS", MARGIN_NUMBERS),
        ("MARGINS_MAX", MARGINS_MAX),
        ("PANEL_WORK_MAX", PANEL_WORK_MAX),
        ("PANEL_OUTPUT_MAX", PANEL_OUTPUT_MAX),
    ];
    let all = limits.map(|(name, number)| (name, number as usize)).into_iter().chain(lengths);
    assert_eq!(all.map(|(name, number)| (name.to_owned(), number)).collect::<BTreeMap<_, _>>(), numbers(false));
}
