//! Readings one by one: opening a listing and taking its readings, up to 256, beside the listing of 256.

use crate::inputs::{graphs, greatest, shapes, Input};
use crate::measure::{median, micros, ratio_of_rounds, samples, Plan};
use crate::office;
use crate::table::{print_head, print_row};
use spireyerba::limits::{work_length, MAX_READINGS};
use spireyerba::services::{listing, next, open, Next, Place};
use spireyerba::Refusal;
use spireyerba_tests::{grammar, heard};
use std::cell::RefCell;
use std::hint::black_box;

const PLAN: Plan = Plan { rounds: 61, calls: 1 };
const READINGS: usize = MAX_READINGS as usize;

/// Prints the time of the listing and of one by one; of a call what it takes to read the blocks, and to read them and make the
/// index of their rules and edges; and how long one by one takes beside the listing, each of these apart.
pub fn print_table() {
    print_head("one by one", &["n", "readings", "listing", "one by one", "blocks", "and index", "ratio", "and index"]);
    let offices = [6, 12, 24].map(|slots| office::of_slots(slots).swap_remove(0));
    let inputs = [greatest(6), greatest(12), greatest(24)].into_iter().chain(shapes()).chain(graphs());
    for input in inputs.chain(offices).chain(office::doors()) {
        let mut lent = Lent::new(&input);
        let found = lent.listing();
        let list = lent.out.clone();
        lent.one_by_one(found);
        assert!(lent.out == list, "{}: the lists differ", input.name);
        lent.work.fill(0);
        let lent = RefCell::new(lent);
        let calls = |call: fn(&mut Lent)| (0..found).for_each(|_| call(&mut lent.borrow_mut()));
        // in this order, since the listing leaves the table all zeros, which `find_nothing` needs
        let [single, whole, indexed, read] = samples(
            PLAN,
            [
                &mut || lent.borrow_mut().one_by_one(found),
                &mut || assert_eq!(lent.borrow_mut().listing(), found),
                &mut || calls(Lent::find_nothing),
                &mut || calls(Lent::read_blocks),
            ],
        );
        let apart = [read, indexed];
        let ratios = apart.each_ref().map(|apart| ratio_of_rounds(&single, apart, &whole));
        let each = apart.map(|times| micros(median(times) / found.max(1) as u32));
        let [whole, single] = [whole, single].map(median);
        let sizes = [input.heard.longest(), found].map(|number| number.to_string());
        print_row(input.name, &[&sizes[..], &[whole, single].map(micros), &each, &ratios].concat());
    }
}

/// Two blocks, and what is lent for both ways to list them.
struct Lent {
    grammar: Vec<u8>,
    heard: Vec<u8>,
    work: Vec<u32>,
    /// The bytes of a reading.
    length: usize,
    out: Vec<u8>,
}

impl Lent {
    fn new(Input { grammar, heard, .. }: &Input) -> Self {
        let length = heard::reading_length(grammar, heard);
        Self {
            grammar: grammar::pack(grammar),
            heard: heard::pack(grammar, heard),
            work: vec![1; work_length(grammar.symbols as usize, heard.longest(), READINGS)],
            length,
            out: vec![0; READINGS * length],
        }
    }

    /// The listing of 256; answers how many there are.
    fn listing(&mut self) -> usize {
        let Self { grammar, heard, work, out, .. } = self;
        listing(grammar, heard, MAX_READINGS, work, black_box(out)).expect("readings")
    }

    /// So many readings one by one.
    fn one_by_one(&mut self, found: usize) {
        let Self { grammar, heard, work, length, out } = self;
        let mut place = Place::default();
        open(grammar, heard, &mut place, work).expect("an open listing");
        for out in out.chunks_exact_mut(*length).take(found) {
            assert_eq!(next(grammar, heard, &mut place, work, black_box(out)), Ok(Next::Reading));
        }
    }

    /// What a call does before it searches: in a table of zeros there is no rank behind the first.
    fn find_nothing(&mut self) {
        let Self { grammar, heard, work, length, out } = self;
        let mut place = Place { handed: 1, opened: 1 };
        assert_eq!(next(grammar, heard, black_box(&mut place), work, &mut out[..*length]), Ok(Next::NoMore));
    }

    /// What a call does first: it is refused for a table that is short, which is looked at next.
    fn read_blocks(&mut self) {
        let mut place = Place { handed: 0, opened: 1 };
        let answer = next(&self.grammar, &self.heard, black_box(&mut place), &mut [], &mut []);
        assert_eq!(answer, Err(Refusal::ListingWork));
    }
}
