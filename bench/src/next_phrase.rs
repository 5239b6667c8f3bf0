//! The next phrase: the library beside the second implementation.

use crate::inputs::greatest_by_words;
use crate::measure::{medians, micros, ratio, Plan};
use crate::standing::Standing;
use crate::table::{print_head, print_row};
use spireyerba::limits::MAX_PHRASE;
use spireyerba::{services, Refusal};
use spireyerba_tests::grammar::pack;
use spireyerba_tests::specimen::next_phrase;
use std::hint::black_box;
use std::time::Duration;

const PLAN: Plan = Plan { rounds: 101, calls: 1 };
const SEQUENCES: Plan = Plan { rounds: 11, calls: 1 };

/// The door schedule of examples/.
const DOORS: &[u8] = include_bytes!("../../examples/doors/grammar.bin");

type Service = fn(&[u8], u32, bool, &mut [u8]) -> Result<bool, Refusal>;
type String = [u8; MAX_PHRASE as usize];

/// A later call on a string, and what it leaves.
fn later(service: Service, block: &[u8], held: String) -> (Result<bool, Refusal>, String) {
    let mut out = held;
    (service(block, MAX_PHRASE, false, black_box(&mut out)), out)
}

/// How many strings a first call and later ones hand out.
fn handed_out(service: Service, block: &[u8]) -> usize {
    let mut out = [0; MAX_PHRASE as usize];
    (0..).take_while(|&calls| service(block, MAX_PHRASE, calls == 0, black_box(&mut out)) == Ok(true)).count()
}

pub fn print_table(standing: &mut Standing) {
    print_head("phrases of 6 words", &["ours", "second", "ratio"]);
    let count = handed_out(services::next_phrase, DOORS);
    let mut library = || assert_eq!(handed_out(services::next_phrase, DOORS), count);
    let mut second = || assert_eq!(handed_out(next_phrase, DOORS), count);
    let [ours, other] = medians(SEQUENCES, [&mut library, &mut second]);
    print_times(standing, &format!("all {count} of examples/doors"), [ours, other]);
    for (name, grammar) in greatest_by_words() {
        let block = pack(&grammar);
        let mut first = [0; MAX_PHRASE as usize];
        assert!(services::next_phrase(&block, MAX_PHRASE, true, &mut first) == Ok(true));
        for (start, held) in [("above the first", first), ("above all", [u8::MAX; MAX_PHRASE as usize])] {
            let expected = later(next_phrase, &block, held);
            let mut library =
                || assert!(later(services::next_phrase, &block, held) == expected, "{name}: the strings differ");
            let mut second = || assert!(later(next_phrase, &block, held) == expected);
            let [ours, other] = medians(PLAN, [&mut library, &mut second]);
            print_times(standing, &format!("{name}, {start}"), [ours, other]);
        }
    }
}

fn print_times(standing: &mut Standing, name: &str, [ours, second]: [Duration; 2]) {
    standing.take(&format!("phrases, {name}"), ours, second);
    print_row(name, &[micros(ours), micros(second), ratio(ours, second)]);
}
