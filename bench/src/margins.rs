//! Word margins beside the listing of one reading, which is one first pass.

use crate::inputs::{greatest, shapes, Input};
use crate::measure::{medians, micros, ratio, Plan};
use crate::office;
use crate::table::{print_head, print_row};
use spireyerba::limits::{work_length, MARGINS_MAX};
use spireyerba::services::{listing, word_margins};
use spireyerba::Heard;
use spireyerba_tests::{grammar, heard};
use std::cell::RefCell;
use std::hint::black_box;

const PLAN: Plan = Plan { rounds: 101, calls: 1 };

pub fn print_table() {
    print_head("word margins", &["n", "entries", "listing", "margins", "ratio"]);
    let offices = [6, 12, 24].map(|slots| office::of_slots(slots).swap_remove(0));
    let inputs = [greatest(6), greatest(12), greatest(24)].into_iter().chain(shapes()).chain(offices);
    for input in inputs.chain(office::doors()).filter(|input| matches!(input.heard, Heard::Slots(_))) {
        let Input { grammar, heard, name } = &input;
        let (block, heard_block) = (grammar::pack(grammar), heard::pack(grammar, heard));
        let work = RefCell::new(vec![1; work_length(grammar.symbols as usize, heard.longest(), 1)]);
        let (mut reading, mut entries, mut count) =
            (vec![0; heard::reading_length(grammar, heard)], [0; MARGINS_MAX], 0);
        let mut list = || {
            listing(&block, &heard_block, 1, &mut work.borrow_mut(), black_box(&mut reading)).expect("a list");
        };
        let mut margins = || {
            let answer = word_margins(&block, &heard_block, &mut work.borrow_mut(), black_box(&mut entries));
            count = answer.expect("margins");
        };
        let [one, all] = medians(PLAN, [&mut list, &mut margins]);
        let sizes = [heard.longest(), count].map(|number| number.to_string());
        print_row(name, &[&sizes[..], &[one, all].map(micros), &[ratio(all, one)]].concat());
    }
}
