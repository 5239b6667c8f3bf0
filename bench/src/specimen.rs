//! The specimen: the library beside the second implementation.

use crate::inputs::greatest_by_words;
use crate::measure::{medians, micros, ratio, Plan};
use crate::standing::Standing;
use crate::table::{print_head, print_row};
use spireyerba::limits::MAX_SLOTS;
use spireyerba::services;
use spireyerba_tests::grammar::pack;
use spireyerba_tests::specimen::specimen;
use std::hint::black_box;

const PLAN: Plan = Plan { rounds: 101, calls: 1 };

pub fn print_table(standing: &mut Standing) {
    print_head("32 symbols, 256 rules, 24 words", &["ours", "second", "ratio"]);
    for (name, grammar) in greatest_by_words() {
        let block = pack(&grammar);
        let mut from_library = [0; MAX_SLOTS as usize];
        let mut from_second = from_library;
        let mut library = || assert!(services::specimen(&block, MAX_SLOTS, black_box(&mut from_library)) == Ok(true));
        let mut second = || assert!(specimen(&block, MAX_SLOTS, black_box(&mut from_second)) == Ok(true));
        let [ours, other] = medians(PLAN, [&mut library, &mut second]);
        assert_eq!(from_library, from_second, "{name}: the strings differ");
        standing.take(&format!("specimen, {name}"), ours, other);
        print_row(name, &[micros(ours), micros(other), ratio(ours, other)]);
    }
}
