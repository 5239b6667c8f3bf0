//! Why there is no reading: how far what was heard goes along with the grammar, and what could follow there.

use crate::heard::HeardWords;
use crate::json;
use spireyerba::text::NamedGrammar;
use spireyerba::{Graph, Heard, Prefix, Refusal};

/// What a message says in any case.
pub const NO_READING: &str = "no reading: the grammar derives nothing of what was heard";

/// A message names so many words at most.
const MOST_NAMED: usize = 12;

/// What was heard and has no reading.
pub struct NoReading<'a> {
    named: &'a NamedGrammar,
    heard: &'a Heard,
    words: Vec<&'a str>,
    prefix: Prefix,
}

/// What is said of it, each with a title.
pub struct Lines {
    pub goes_along: String,
    pub could_follow: String,
    /// Where words were heard that do not fit, and these; or that nothing more was heard.
    pub heard: (String, String),
}

impl<'a> NoReading<'a> {
    pub fn new(named: &'a NamedGrammar, heard: &'a Heard) -> Result<Self, Refusal> {
        let redrawn;
        let graph = match heard {
            Heard::Graph(graph) => graph,
            Heard::Slots(utterance) => {
                redrawn = Graph::from(utterance);
                &redrawn
            }
        };
        let prefix = named.grammar.prefix(graph)?;
        let words = prefix.path.iter().map(|edge| named.word(graph.edges[*edge as usize].word)).collect();
        Ok(Self { named, heard, words, prefix })
    }

    pub fn lines(&self) -> Lines {
        let goes_along = if self.words.is_empty() { "nothing".into() } else { self.words.join(" ") };
        let next = self.prefix.next.iter().map(|word| self.named.word(*word).to_owned());
        let mut next = enumerated(next.collect());
        if self.prefix.may_end {
            next += if next.is_empty() { "the end" } else { ", or the end" };
        } else if next.is_empty() {
            next += "nothing: the grammar derives no sentence";
        }
        Lines { goes_along, could_follow: next, heard: self.heard_there() }
    }

    /// Where the words end that go along, and what was heard there.
    fn heard_there(&self) -> (String, String) {
        let place = self.prefix.place;
        if place as usize == self.heard.longest() {
            return ("heard behind it".into(), "nothing more".into());
        }
        let there = match self.heard {
            Heard::Slots(_) => format!("heard in slot {place}"),
            Heard::Graph(_) => format!("heard at place {place}"),
        };
        let groups = self.heard.groups();
        let mut heard: Vec<_> = groups.into_iter().flatten().filter(|taken| taken.span[0] == place).collect();
        heard.retain(|taken| taken.candidate.is_offered());
        heard.sort_by_key(|taken| taken.candidate.cost);
        match enumerated(heard.iter().map(|taken| self.named.candidate_text(taken.candidate)).collect()) {
            words if words.is_empty() => (there, "nothing".into()),
            words => (there, words),
        }
    }

    /// What a command says on standard error.
    pub fn message(&self) -> String {
        let Lines { goes_along, could_follow, heard: (there, heard) } = self.lines();
        format!("{NO_READING}\n  goes along with it: {goes_along}\n  could follow there: {could_follow}\n  {there}: {heard}")
    }

    /// Adds it to a line of JSON, behind other values.
    pub fn push_json(&self, json: &mut Vec<u8>) {
        let Prefix { place, next, may_end, .. } = &self.prefix;
        json::push_key(json, "prefix");
        json.extend_from_slice(b"{\"words\":");
        json::push_words(json, self.words.iter().copied());
        json::push_key(json, "place");
        json::push_number(json, *place);
        json::push_key(json, "next");
        json::push_words(json, next.iter().map(|word| self.named.word(*word)));
        json::push_key(json, "may_end");
        json.extend_from_slice(may_end.to_string().as_bytes());
        json.push(b'}');
    }
}

/// Words with commas between them, those of a long list cut off.
pub fn enumerated(mut words: Vec<String>) -> String {
    let more = words.len().saturating_sub(MOST_NAMED);
    words.truncate(MOST_NAMED);
    if more > 0 {
        words.push(format!("and {more} more"));
    }
    words.join(", ")
}
