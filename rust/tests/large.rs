//! Lattices of 400 nodes and 3,000 links, such as recognisers write and such as are hard to determinise, to prune or to close over:
//! how long reading and reducing takes, and how much memory.

use spireyerba::lattice::{reduce, Keep};
use spireyerba::text::{NamedGrammar, UtteranceReader};
use spireyerba_tests::clock;
use spireyerba_tests::seeded::rng::Rng;
use std::alloc::{GlobalAlloc, Layout, System};
use std::sync::atomic::{AtomicUsize, Ordering};
use std::time::Duration;

const NODES: usize = 400;
const LINKS: usize = 3_000;
/// Nothing takes longer.
const LONGEST: Duration = Duration::from_millis(50);
/// Nothing takes more memory.
const MOST_BYTES: usize = 64 << 20;
/// Lattices of each kind.
const SEEDS: u64 = 4;
/// The words of the grammar.
const WORDS: usize = 60;

/// The system's memory, with the bytes that are in use and the most that were.
struct Counted;

static IN_USE: AtomicUsize = AtomicUsize::new(0);
static MOST: AtomicUsize = AtomicUsize::new(0);

// SAFETY: every call is handed on to the system's allocator as it is.
#[allow(unsafe_code)]
unsafe impl GlobalAlloc for Counted {
    unsafe fn alloc(&self, layout: Layout) -> *mut u8 {
        let now = IN_USE.fetch_add(layout.size(), Ordering::Relaxed) + layout.size();
        MOST.fetch_max(now, Ordering::Relaxed);
        // SAFETY: the caller keeps what the system asks for.
        unsafe { System.alloc(layout) }
    }

    unsafe fn dealloc(&self, place: *mut u8, layout: Layout) {
        IN_USE.fetch_sub(layout.size(), Ordering::Relaxed);
        // SAFETY: the caller keeps what the system asks for.
        unsafe { System.dealloc(place, layout) }
    }
}

#[global_allocator]
static MEMORY: Counted = Counted;

/// The most bytes that a run has in use beyond those before it.
fn bytes(run: impl FnOnce()) -> usize {
    let before = IN_USE.load(Ordering::Relaxed);
    MOST.store(before, Ordering::Relaxed);
    run();
    MOST.load(Ordering::Relaxed) - before
}

/// A kind of lattice.
#[derive(Clone, Copy, Debug)]
struct Kind {
    name: &'static str,
    /// A link goes at most so many nodes on; some go this far at once, so that there is a path of few words.
    reach: usize,
    /// So many words there are.
    words: usize,
    /// Of so many links one says nothing; 0 if all have words.
    silent: usize,
    /// Scores are whole numbers below this, so that 1 makes all alike.
    scores: usize,
}

const KINDS: [Kind; 12] = [
    Kind { name: "random", reach: 40, words: 60, silent: 0, scores: 3_000 },
    Kind { name: "long", reach: 17, words: 60, silent: 0, scores: 3_000 },
    Kind { name: "few words", reach: 40, words: 3, silent: 0, scores: 3_000 },
    Kind { name: "one word", reach: 40, words: 1, silent: 0, scores: 3_000 },
    Kind { name: "two words, long", reach: 17, words: 2, silent: 0, scores: 50 },
    Kind { name: "few scores", reach: 40, words: 6, silent: 0, scores: 4 },
    Kind { name: "all alike", reach: 40, words: 2, silent: 0, scores: 1 },
    Kind { name: "half silent", reach: 40, words: 20, silent: 2, scores: 3_000 },
    Kind { name: "half silent, few scores", reach: 17, words: 4, silent: 2, scores: 9 },
    Kind { name: "mostly silent", reach: 60, words: 60, silent: 1, scores: 900 },
    Kind { name: "short", reach: 200, words: 60, silent: 0, scores: 3_000 },
    Kind { name: "short, few words", reach: 200, words: 2, silent: 0, scores: 300 },
];

impl Kind {
    /// A lattice in HTK's format.
    fn text(self, seed: u64) -> String {
        let mut rng = Rng::new(seed);
        let nodes: String = (0..NODES).map(|node| format!("I={node} t={}\n", node as f64 / 100.0)).collect();
        let mut links = String::new();
        for number in 0..LINKS {
            // each node is left, and behind that the links are anywhere
            let from = if number < NODES - 1 { number } else { rng.below(NODES - 1) };
            let far = if number < NODES - 1 { self.reach } else { 1 + rng.below(self.reach) };
            let to = (from + far).min(NODES - 1);
            links += &format!("J={number} S={from} E={to} W={} a=-{}\n", self.word(&mut rng), rng.below(self.scores));
        }
        format!("VERSION=1.0\nstart=0 end={}\nN={NODES} L={LINKS}\n{nodes}{links}", NODES - 1)
    }

    fn word(self, rng: &mut Rng) -> String {
        // 1 says that all but few are silent
        let is_silent = match self.silent {
            0 => false,
            1 => rng.below(8) > 0,
            silent => rng.below(silent) == 0,
        };
        if is_silent {
            "!NULL".into()
        } else {
            format!("w{}", rng.below(self.words))
        }
    }
}

fn grammar() -> NamedGrammar {
    let words: Vec<String> = (0..WORDS).map(|word| format!("\"w{word}\"")).collect();
    NamedGrammar::parse(&format!("A -> A A | {}", words.join(" | "))).expect("a grammar")
}

/// What is done with a lattice.
fn read(reader: &UtteranceReader, text: &str, skip: Option<i64>) -> bool {
    let Some(cost) = skip else { return reader.read_heard(text).is_ok() };
    let acceptor = reader.recognised_alone(text).expect("a lattice").acceptor;
    reduce(&acceptor.skip(cost, |_| false), reader.keep).is_ok()
}

#[test]
fn time_and_memory() {
    let grammar = grammar();
    let (mut slowest, mut most, mut whole) = ((Duration::ZERO, String::new()), (0, String::new()), 0);
    for kind in KINDS {
        for seed in 0..SEEDS {
            let text = kind.text(seed);
            for (keep, skip) in [(Keep::Strings, None), (Keep::Paths, None), (Keep::Strings, Some(700))] {
                let mut reader = UtteranceReader::new(&grammar);
                (reader.scale, reader.keep) = (Some(1.0), keep);
                let name = format!("{} {seed} {keep:?} {skip:?}", kind.name);
                let mut is_read = false;
                let taken = bytes(|| is_read = read(&reader, &text, skip));
                let time = clock::time(|| read(&reader, &text, skip));
                println!("{time:>12.3?} {:>8} KB {} {name}", taken >> 10, if is_read { "read   " } else { "refused" });
                whole += usize::from(is_read);
                if time > slowest.0 {
                    slowest = (time, name.clone());
                }
                most = most.max((taken, name));
            }
        }
    }
    println!("slowest {slowest:?}, most memory {most:?}, {whole} read");
    assert!(slowest.0 < LONGEST, "{slowest:?}");
    assert!(most.0 < MOST_BYTES, "{most:?}");
    assert!(whole > 60, "{whole} read");
}
