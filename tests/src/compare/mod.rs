//! One call of the library and of the second implementation on the same slices, held to each other.

pub mod chance;
pub mod check;
pub mod conversions;
pub mod cost_ranges;
pub mod listing;
pub mod next_phrase;
pub mod open_listing;
pub mod specimen;
pub mod word_margins;

use crate::seeded::rng::{Noise, Rng};
use spireyerba::Refusal;
use std::collections::{BTreeMap, BTreeSet, HashSet};
use std::hash::{DefaultHasher, Hash, Hasher};
use std::ops::Range;

/// Numbers on each side of a lent slice that no service may touch.
const GUARD: usize = 8;

/// A slice as it is lent to a service, with guards on both sides.
#[derive(Clone, PartialEq)]
pub struct Lent<T> {
    cells: Vec<T>,
}

impl<T: Noise> Lent<T> {
    pub fn holding(rng: &mut Rng, content: &[T]) -> Self {
        Self { cells: [rng.noise(GUARD).as_slice(), content, rng.noise(GUARD).as_slice()].concat() }
    }

    pub fn noise(rng: &mut Rng, length: usize) -> Self {
        Self { cells: rng.noise(length + 2 * GUARD) }
    }

    pub fn slice(&self) -> &[T] {
        &self.cells[GUARD..self.cells.len() - GUARD]
    }

    /// Whether what stands around it is what stands around another of the same length.
    pub fn has_guards_of(&self, other: &Self) -> bool
    where
        T: PartialEq,
    {
        let end = GUARD + self.slice().len();
        self.cells[..GUARD] == other.cells[..GUARD] && self.cells[end..] == other.cells[end..]
    }

    pub fn slice_mut(&mut self) -> &mut [T] {
        let end = self.cells.len() - GUARD;
        &mut self.cells[GUARD..end]
    }
}

/// What was compared so far.
#[derive(Default)]
pub struct Tally {
    /// Different inputs, by their hashes: one may be tried with slices of several lengths.
    inputs: HashSet<u64>,
    calls: usize,
    refusals: BTreeMap<Refusal, usize>,
}

impl Tally {
    pub fn record<T>(&mut self, input: impl Hash, answer: &Result<T, Refusal>) {
        let mut hasher = DefaultHasher::new();
        input.hash(&mut hasher);
        self.inputs.insert(hasher.finish());
        self.calls += 1;
        if let Err(refusal) = answer {
            *self.refusals.entry(*refusal).or_default() += 1;
        }
    }

    pub fn accepted(&self) -> usize {
        self.calls - self.refusals.values().sum::<usize>()
    }

    /// Exactly these refusals were met, over at least so many different inputs.
    pub fn demand(&self, inputs: usize, refusals: &[Refusal]) {
        self.demand_besides(&[], inputs, refusals);
    }

    /// The same, but that these others may have been met or not.
    pub fn demand_besides(&self, others: &[Refusal], inputs: usize, refusals: &[Refusal]) {
        let met: BTreeSet<Refusal> =
            self.refusals.keys().copied().filter(|refusal| !others.contains(refusal)).collect();
        assert_eq!(met, refusals.iter().copied().collect(), "refusals met, refusals demanded");
        println!("{} different inputs, {} calls", self.inputs.len(), self.calls);
        assert!(self.inputs.len() >= inputs, "{} different inputs, {inputs} demanded", self.inputs.len());
    }
}

/// Runs a case for each seed; a failure says which.
pub fn over_seeds(seeds: Range<u64>, mut case: impl FnMut(&mut Rng)) {
    for seed in seeds {
        let _on_failure = SayOnFailure(seed);
        case(&mut Rng::new(seed));
    }
}

struct SayOnFailure(u64);

impl Drop for SayOnFailure {
    fn drop(&mut self) {
        if std::thread::panicking() {
            eprintln!("the case with seed {} failed", self.0);
        }
    }
}
