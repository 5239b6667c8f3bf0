//! Messages about lines that were refused.

use super::sink::Refused;
use std::collections::BTreeMap;

/// Of messages that say the same only so many are said.
const SAID: usize = 10;
/// So many different ones are counted; what comes then and is another one is said each time.
const DIFFERENT: usize = 1_000;

/// How often each message came, but for where.
#[derive(Default)]
pub struct Messages {
    counts: BTreeMap<String, usize>,
    count: usize,
}

impl Messages {
    /// Says on standard error why a line was refused, or counts it if that was said often enough.
    pub fn say(&mut self, Refused { message, reason }: &Refused) {
        self.count += 1;
        if self.counts.len() < DIFFERENT || self.counts.contains_key(reason) {
            let count = self.counts.entry(reason.clone()).or_default();
            *count += 1;
            if *count > SAID {
                return;
            }
        }
        eprintln!("{message}");
    }

    /// How many lines were refused.
    pub fn count(&self) -> usize {
        self.count
    }

    /// Says how often each message came that was not always said.
    pub fn finish(&self, name: &str) {
        for (reason, count) in self.counts.iter().filter(|(_, count)| **count > SAID) {
            eprintln!("{name}: {} more lines: {reason}", count - SAID);
        }
    }
}
