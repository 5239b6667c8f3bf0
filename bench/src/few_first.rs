//! The crate's `Lister`, which asks for few readings first, beside one call for all: over utterances one after another under an
//! office's grammar, and over dense shapes again and again.

use crate::inputs::{graphs, greatest, shapes, Input};
use crate::measure::{median, micros, ratio, thread_time};
use crate::office;
use crate::table::{print_head, print_row};
use spireyerba::limits::{work_length, MAX_READINGS};
use spireyerba::services::listing;
use spireyerba::{Lister, PackedGrammar};
use spireyerba_tests::heard;
use std::time::Duration;

const WANTED: u32 = MAX_READINGS;
/// The utterances under each of an office's grammars.
const UTTERANCES: usize = 12;
/// How often they are listed in memory that is kept, and in new memory, which takes long.
const ROUNDS: usize = 11;
const NEW_ROUNDS: usize = 1;
/// The same for a dense shape, which is one utterance.
const DENSE_ROUNDS: (usize, usize) = (40, 12);
/// With fewer readings than these one call suffices.
const FEW: usize = 16;

/// What was heard under one grammar, one after another, and what is lent for its listings.
struct Stream {
    grammar: PackedGrammar,
    heard: Vec<Vec<u8>>,
    work: Vec<u32>,
    out: Vec<u8>,
    lister: Lister,
}

/// One way to list what was heard; answers how many readings there are.
type Call = fn(&mut Stream, usize) -> usize;

impl Stream {
    /// The inputs have one grammar and one length.
    fn new(inputs: &[Input]) -> Self {
        let Input { grammar, heard, .. } = &inputs[0];
        let packed = PackedGrammar::new(grammar).expect("an accepted grammar");
        let block = |input: &Input| input.heard.to_block(packed.block()).expect("what is accepted");
        Self {
            heard: inputs.iter().map(block).collect(),
            work: vec![1; work_length(grammar.symbols as usize, heard.longest(), WANTED as usize)],
            out: vec![0; WANTED as usize * heard::reading_length(grammar, heard)],
            lister: Lister::of(packed.clone()),
            grammar: packed,
        }
    }

    /// One call for all, with a table that is kept.
    fn at_once(&mut self, number: usize) -> usize {
        let Self { grammar, heard, work, out, .. } = self;
        listing(grammar.block(), &heard[number], WANTED, work, out).expect("an accepted listing")
    }

    /// A lister that is kept.
    fn kept(&mut self, number: usize) -> usize {
        self.lister.find_in_block(&self.heard[number], WANTED).expect("an accepted listing").len()
    }

    /// One call for all, with a new table.
    fn new_at_once(&mut self, number: usize) -> usize {
        (self.work, self.out) = (vec![0; self.work.len()], vec![0; self.out.len()]);
        self.at_once(number)
    }

    /// A new lister.
    fn new_lister(&mut self, number: usize) -> usize {
        self.lister = Lister::of(self.grammar.clone());
        self.kept(number)
    }

    /// The times for each that was heard, all of them in turn.
    fn times(&mut self, call: Call) -> Vec<Duration> {
        let count = self.heard.len();
        let timed = |number| {
            let begin = thread_time();
            call(self, number);
            thread_time() - begin
        };
        (0..count).map(timed).collect()
    }

    /// The median times for each that was heard, by some calls that come in turn in each round.
    fn medians<const COUNT: usize>(&mut self, rounds: usize, calls: [Call; COUNT]) -> Vec<[Duration; COUNT]> {
        let rounds: Vec<[Vec<Duration>; COUNT]> = (0..rounds).map(|_| calls.map(|call| self.times(call))).collect();
        let of = |call: usize, number: usize| median(rounds.iter().map(|round| round[call][number]).collect());
        (0..self.heard.len()).map(|number| std::array::from_fn(|call| of(call, number))).collect()
    }
}

/// What was heard of one thing: how many readings it has, and its times.
struct Heard {
    readings: usize,
    times: [Duration; 4],
}

/// Prints the times of one call for all and of a lister, both with memory that is kept, then both with new memory.
pub fn print_table() {
    let columns = ["stream", "n", "heard", "readings", "at once", "lister", "ratio", "new", "new lister", "ratio"];
    print_head("256 readings wanted", &columns);
    for streams in [office::streams_of_slots, office::streams_of_graphs] {
        [6, 12, 24].iter().for_each(|&length| print_streams(&streams(length, UTTERANCES)));
    }
    let dense = [greatest(6), greatest(12), greatest(24)].into_iter().chain(shapes()).chain(graphs());
    for input in office::doors().into_iter().chain(dense) {
        print_heard("alone", &input, &measured(std::slice::from_ref(&input), DENSE_ROUNDS));
    }
}

/// A row for what has few readings where nothing else is heard; then as it comes: one for what has few, and one for the others.
fn print_streams(streams: &[Vec<Input>]) {
    let measured = |inputs: &[Input]| measured(inputs, (ROUNDS, NEW_ROUNDS));
    let has_few = |input: &&Input| Stream::new(std::slice::from_ref(*input)).at_once(0) < FEW;
    let few_alone = streams.iter().map(|inputs| inputs.iter().filter(has_few).cloned().collect::<Vec<Input>>());
    let alone: Vec<Heard> = few_alone.filter(|few| !few.is_empty()).flat_map(|few| measured(&few)).collect();
    let (few, more) =
        streams.iter().flat_map(|inputs| measured(inputs)).partition(|heard: &Heard| heard.readings < FEW);
    for (stream, heard) in [("few", alone), ("mixed", few), ("mixed", more)] {
        if !heard.is_empty() {
            print_heard(stream, &streams[0][0], &heard);
        }
    }
}

fn measured(inputs: &[Input], (rounds, new_rounds): (usize, usize)) -> Vec<Heard> {
    let stream = &mut Stream::new(inputs);
    let readings: Vec<usize> = (0..inputs.len()).map(|number| stream.at_once(number)).collect();
    let listed = (0..inputs.len()).map(|number| stream.kept(number));
    assert!(listed.eq(readings.iter().copied()), "{}: the lists differ", inputs[0].name);
    let kept = stream.medians(rounds, [Stream::at_once, Stream::kept]);
    let new = stream.medians(new_rounds, [Stream::new_at_once, Stream::new_lister]);
    let times =
        kept.into_iter().zip(new).map(|([at_once, lister], [new, new_lister])| [at_once, lister, new, new_lister]);
    readings.into_iter().zip(times).map(|(readings, times)| Heard { readings, times }).collect()
}

/// A row of means, and of the median number of readings.
fn print_heard(stream: &str, input: &Input, heard: &[Heard]) {
    let mut readings: Vec<usize> = heard.iter().map(|heard| heard.readings).collect();
    readings.sort_unstable();
    let mean = |call: usize| heard.iter().map(|heard| heard.times[call]).sum::<Duration>() / heard.len() as u32;
    let [at_once, lister, new, new_lister] = [0, 1, 2, 3].map(mean);
    let sizes = [input.heard.longest(), heard.len(), readings[readings.len() / 2]].map(|number| number.to_string());
    let kept = [micros(at_once), micros(lister), ratio(lister, at_once)];
    let of_new = [micros(new), micros(new_lister), ratio(new_lister, new)];
    print_row(input.name, &[&[stream.to_owned()][..], &sizes, &kept, &of_new].concat());
}
