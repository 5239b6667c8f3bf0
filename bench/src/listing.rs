//! The listing: the library beside the free version with heaps, and beside the second implementation.

use crate::free;
use crate::inputs::{graphs, greatest, redrawn, shapes, Input};
use crate::measure::{median, medians, micros, ratio, thread_time, Plan};
use crate::office;
use crate::standing::Standing;
use crate::table::{print_head, print_row};
use spireyerba::limits::{work_length, PANEL_MAX_READINGS};
use spireyerba::services;
use spireyerba_tests::listing::listing;
use spireyerba_tests::{grammar, heard};
use std::hint::black_box;
use std::time::{Duration, Instant};

/// About how long the calls of one row are measured.
const BUDGET: Duration = Duration::from_millis(1_500);
const LEAST_ROUNDS: usize = 5;
const MOST_ROUNDS: usize = 500;

/// The readings wanted of what is heard in an office.
const OFFICE_WANTED: [usize; 3] = [1, 16, 256];
/// The size by which README states utterances a second.
const STATED: (usize, usize) = (12, 16);

/// Office grammars with slots and with word graphs, several of each size, and the door schedule.
fn office_rows() -> impl Iterator<Item = (Vec<Input>, usize)> {
    let of_sizes = [office::of_slots, office::of_graphs].into_iter().flat_map(|inputs| [6, 12, 24].map(inputs));
    let of_doors = office::doors().map(|input| vec![input]);
    of_sizes.chain(of_doors).flat_map(|inputs| OFFICE_WANTED.map(|wanted| (inputs.clone(), wanted)))
}

/// Growth with the slots and with the readings wanted, then the other shapes.
fn rows() -> impl Iterator<Item = (Vec<Input>, usize)> {
    let sizes = [(6, 1), (12, 1), (24, 1), (24, 16), (24, 64), (6, 256), (12, 256), (24, 256)];
    let of_shapes = shapes().into_iter().map(|input| (vec![input], 256));
    sizes.map(|(slots, wanted)| (vec![greatest(slots)], wanted)).into_iter().chain(of_shapes)
}

/// Word graphs, for one reading and for many.
fn graph_rows() -> impl Iterator<Item = (Vec<Input>, usize)> {
    [1, 256].into_iter().flat_map(|wanted| graphs().into_iter().map(move |input| (vec![input], wanted)))
}

/// What an office hears, and how many such utterances a second one core lists.
pub fn print_office(standing: &mut Standing) {
    print_rows_beside_free(standing, "what an office hears", "n", office_rows());
    let (slots, wanted) = STATED;
    let [ours] = times(&office::of_slots(slots), [(wanted, Lent::library as Call)]);
    let in_a_second = 1.0 / ours.as_secs_f64();
    println!("\n{in_a_second:.0} utterances of {slots} slots a second on one core, {wanted} readings each, under office grammars.");
}

/// The library beside the free version, with the clearing of the work table apart and in.
pub fn print_beside_free(standing: &mut Standing) {
    print_rows_beside_free(standing, "shape", "n", rows());
    let calls = [(1, Lent::library as Call), (1, Lent::clear), (256, Lent::library), (256, Lent::clear)];
    let [one, clearing_one, many, clearing_many] = times(&[greatest(24)], calls);
    let cost = ratio(many.saturating_sub(clearing_many), one.saturating_sub(clearing_one));
    println!("\n256 readings of 24 slots under 32 symbols and 256 rules cost {cost} times one, clearing apart.");
}

/// Word graphs beside the free version, where n is the steps from the first place to the last; then slots beside the graph that
/// they can be redrawn as, which has the same readings.
pub fn print_graphs(standing: &mut Standing) {
    print_rows_beside_free(standing, "25 places, 96 edges", "P - 1", graph_rows());
    println!();
    print_head("24 slots of 4 words", &["N", "slots", "graph", "ratio"]);
    for wanted in [1, 16, 256] {
        for [slots, graph] in redrawn() {
            assert_equal_lists(&graph, wanted);
            let name = slots.name;
            let [of_slots, of_graph] =
                medians_of([[slots], [graph]].each_ref().map(|input| (&input[..], wanted, Lent::library as Call)));
            print_row(name, &[wanted.to_string(), micros(of_slots), micros(of_graph), ratio(of_graph, of_slots)]);
        }
    }
}

fn print_rows_beside_free(
    standing: &mut Standing,
    name: &str,
    size: &str,
    rows: impl Iterator<Item = (Vec<Input>, usize)>,
) {
    print_head(name, &[size, "N", "ours", "clearing", "rest", "free", "rest/free", "ours/free"]);
    for (inputs, wanted) in rows {
        inputs.iter().for_each(|input| assert_equal_lists(input, wanted));
        let [ours, clearing, rest, free] = times_beside_free(&inputs, wanted);
        standing.take_clearing(&row_name(&inputs[0], wanted), [ours, rest], free);
        let times = [ours, clearing, rest, free].map(micros);
        print_numbers(&inputs[0], wanted, &[&times[..], &[ratio(rest, free), ratio(ours, free)]].concat());
    }
}

/// The panel's listing beside the library's, which is the same search: at the panel's limits and within them.
pub fn print_panel() {
    print_head("panel", &["n", "N", "library", "panel", "ratio"]);
    let sizes = [(6, 1), (12, 1), (12, PANEL_MAX_READINGS as usize)];
    for (inputs, wanted) in sizes.map(|(slots, wanted)| ([greatest(slots)], wanted)) {
        let [library, panel] = times(&inputs, [(wanted, Lent::library), (wanted, Lent::panel)]);
        print_numbers(&inputs[0], wanted, &[micros(library), micros(panel), ratio(panel, library)]);
    }
}

/// The library beside the second implementation, apart since that can take a hundred times as long.
pub fn print_beside_second(standing: &mut Standing) {
    print_head("shape", &["n", "N", "ours", "second", "ratio"]);
    for (inputs, wanted) in rows() {
        let [ours, second] = times(&inputs, [(wanted, Lent::library), (wanted, Lent::second)]);
        standing.take(&row_name(&inputs[0], wanted), ours, second);
        print_numbers(&inputs[0], wanted, &[micros(ours), micros(second), ratio(ours, second)]);
    }
}

/// How a row is named where it is counted.
fn row_name(input: &Input, wanted: usize) -> String {
    format!("{}, n {}, N {wanted}", input.name, input.heard.longest())
}

fn print_numbers(input: &Input, wanted: usize, numbers: &[String]) {
    let size = [input.heard.longest(), wanted].map(|number| number.to_string());
    print_row(input.name, &[&size[..], numbers].concat());
}

fn assert_equal_lists(input: &Input, wanted: usize) {
    let [library, free, second] = [Lent::library, Lent::free, Lent::second].map(|call| {
        let mut lent = Lent::new(input, wanted);
        call(&mut lent);
        lent.out
    });
    assert!(library == second && free == second, "{}: the lists differ", input.name);
}

type Call = fn(&mut Lent);

/// Two blocks, the number of readings wanted, and what is lent for one call.
struct Lent {
    grammar: Vec<u8>,
    heard: Vec<u8>,
    wanted: usize,
    work: Vec<u32>,
    out: Vec<u8>,
}

impl Lent {
    fn new(input: &Input, wanted: usize) -> Self {
        let Input { grammar, heard, .. } = input;
        Self {
            grammar: grammar::pack(grammar),
            heard: heard::pack(grammar, heard),
            wanted,
            work: vec![1; work_length(grammar.symbols as usize, heard.longest(), wanted)],
            out: vec![0; wanted * heard::reading_length(grammar, heard)],
        }
    }

    fn library(&mut self) {
        let Self { grammar, heard, wanted, work, out } = self;
        let _ = black_box(services::listing(grammar, heard, *wanted as u32, work, out));
    }

    fn panel(&mut self) {
        let Self { grammar, heard, wanted, work, out } = self;
        let _ = black_box(services::panel_listing(grammar, heard, *wanted as u32, work, out));
    }

    /// One pass over the work table, which any listing owes whatever the table held.
    fn clear(&mut self) {
        black_box(&mut self.work).fill(0);
    }

    fn free(&mut self) {
        let _ = black_box(free::listing(&self.grammar, &self.heard, self.wanted, &mut self.out));
    }

    fn second(&mut self) {
        let Self { grammar, heard, wanted, work, out } = self;
        let _ = black_box(listing(grammar, heard, *wanted as u32, work, out));
    }
}

/// The median times of the library, of clearing, of the rest and of the free version, in the mean over some inputs. Where many readings are wanted
/// clearing is nearly all of the library's time, so the rest is taken round by round, of the same table in turn.
fn times_beside_free(inputs: &[Input], wanted: usize) -> [Duration; 4] {
    let mut lent: Vec<Lent> = inputs.iter().map(|input| Lent::new(input, wanted)).collect();
    let mut samples = [(); 4].map(|()| Vec::new());
    let begin = Instant::now();
    while samples[0].len() < MOST_ROUNDS && (samples[0].len() < LEAST_ROUNDS || begin.elapsed() < BUDGET) {
        let [ours, clearing, free] = [Lent::library, Lent::clear, Lent::free].map(|call| {
            let begin = thread_time();
            lent.iter_mut().for_each(call);
            thread_time() - begin
        });
        let round = [ours, clearing, ours.saturating_sub(clearing), free];
        samples.iter_mut().zip(round).for_each(|(samples, time)| samples.push(time));
    }
    samples.map(|samples| median(samples) / inputs.len() as u32)
}

/// The median time of each call, in the mean over some inputs.
fn times<const COUNT: usize>(inputs: &[Input], calls: [(usize, Call); COUNT]) -> [Duration; COUNT] {
    medians_of(calls.map(|(wanted, call)| (inputs, wanted, call)))
}

/// The same with inputs for each call, of as many rounds as the time for one row allows.
fn medians_of<const COUNT: usize>(calls: [(&[Input], usize, Call); COUNT]) -> [Duration; COUNT] {
    let counts = calls.map(|(inputs, ..)| inputs.len() as u32);
    let mut calls = calls.map(|(inputs, wanted, call)| {
        let mut lent: Vec<Lent> = inputs.iter().map(|input| Lent::new(input, wanted)).collect();
        move || lent.iter_mut().for_each(call)
    });
    let begin = Instant::now();
    calls.iter_mut().for_each(|call| call());
    let rounds = (BUDGET.as_secs_f64() / begin.elapsed().as_secs_f64()) as usize;
    let plan = Plan { rounds: rounds.clamp(LEAST_ROUNDS, MOST_ROUNDS), calls: 1 };
    let mut medians = medians(plan, calls.each_mut().map(|call| call as &mut dyn FnMut()));
    medians.iter_mut().zip(counts).for_each(|(median, count)| *median /= count);
    medians
}
