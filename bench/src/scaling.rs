//! The command `spireyerba batch` by slots, readings wanted and threads: utterances a second, and memory.

use crate::batch::{Files, Load};
use crate::inputs::{greatest, utterance, Input, CANDIDATES, WEIGHT};
use crate::measure::Taken;
use crate::office;
use crate::table::{print_head, print_row};
use spireyerba::text::NamedGrammar;
use spireyerba::{Heard, Utterance};
use spireyerba_tests::seeded::rng::Rng;

const SLOTS: [usize; 3] = [6, 12, 24];
const WANTED: [u32; 4] = [1, 16, 64, 256];
/// The lines of a file under an office's grammar, and of a dense shape.
const OFFICE_LINES: usize = 2_000;
const DENSE_LINES: usize = 400;
const ROUNDS: usize = 3;

/// Prints utterances a second of a core's time with one thread, and of two cores' with two, so that what threads cost each other
/// is in it and other work on the machine is not; how much sooner two threads end; and the memory of a run with one thread and
/// what a second one adds, in MB.
pub fn print_table() {
    print_head("`batch`", &["n", "N", "1 core", "2 cores", "ratio", "elapsed", "MB", "a thread"]);
    for load in [office_load as fn(usize) -> Load, dense_load] {
        for slots in SLOTS {
            let load = load(slots);
            let files = Files::write(&load);
            WANTED.iter().for_each(|&wanted| print_wanted(&load, &files, (slots, wanted)));
        }
    }
}

fn print_wanted(load: &Load, files: &Files, (slots, wanted): (usize, u32)) {
    let [one, two] = ["-j1", "-j2"].map(|jobs| least(files, &["-n", &wanted.to_string(), jobs]));
    let a_second = |taken: Taken, cores: f64| cores * load.utterances.len() as f64 / taken.processor.as_secs_f64();
    let [of_one, of_two] = [a_second(one, 1.0), a_second(two, 2.0)];
    let elapsed = one.elapsed.as_secs_f64() / two.elapsed.as_secs_f64();
    let memory = [one.memory, two.memory.saturating_sub(one.memory)];
    let sizes = [slots.to_string(), wanted.to_string()];
    let speeds = [of_one, of_two].map(|number| format!("{number:.0}"));
    let ratios = [of_two / of_one, elapsed].map(|ratio| format!("{ratio:.2}"));
    let memory = memory.map(|bytes| format!("{:.1}", bytes as f64 / 1e6));
    print_row(load.name, &[&sizes[..], &speeds, &ratios, &memory].concat());
}

/// The least times of some runs, and the most memory.
fn least(files: &Files, options: &[&str]) -> Taken {
    let runs = (0..ROUNDS).map(|_| files.run(options));
    let both = |a: Taken, b: Taken| Taken {
        elapsed: a.elapsed.min(b.elapsed),
        processor: a.processor.min(b.processor),
        memory: a.memory.max(b.memory),
    };
    runs.reduce(both).expect("rounds")
}

/// What is heard under the first of the office grammars.
fn office_load(slots: usize) -> Load {
    let stream = office::streams_of_slots(slots, OFFICE_LINES).swap_remove(0);
    let named = NamedGrammar::numbered(stream[0].grammar.clone());
    let of_slots = |input: Input| match input.heard {
        Heard::Slots(utterance) => utterance,
        Heard::Graph(_) => unreachable!("an utterance of slots"),
    };
    Load { name: stream[0].name, named, utterances: stream.into_iter().map(of_slots).collect() }
}

/// 32 symbols and 256 rules, and slots of seven words.
fn dense_load(slots: usize) -> Load {
    let Input { name, grammar, .. } = greatest(slots);
    let rng = &mut Rng::new(6);
    let utterances: Vec<Utterance> =
        (0..DENSE_LINES).map(|_| utterance(rng, &grammar, slots, CANDIDATES, WEIGHT)).collect();
    Load { name, named: NamedGrammar::numbered(grammar), utterances }
}
