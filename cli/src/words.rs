//! Words that are known for certain, and words too many.
//!
//! Both are done to what was heard before it becomes slots or a word graph for the library, by the crate's toolbox for lattices:
//! a word too many has a link that says nothing beside it, and a word that was said is on every path that is left.

use crate::anchor;
use crate::failure::Failure;
use crate::files::{self, GrammarFile, Written};
use crate::json::{self, Origin};
use crate::names::shown;
use crate::no_reading::enumerated;
use crate::options::{Arguments, EXACT, PATHS, SAID, SKIP};
use spireyerba::lattice::{reduce, word_label, Acceptor, Automaton, Keep, Misfit, Reduced};
use spireyerba::limits::{MAX_EDGES, MAX_PLACES};
use spireyerba::text::{nearest, Lattice, NamedGrammar, Unread, UtteranceReader};
use spireyerba::{Error, Graph, Heard, Position};

/// Where what was heard comes from.
#[derive(Clone, Copy)]
pub enum Input<'a> {
    /// A file.
    File(&'a str),
    /// Words of the command line.
    Words(&'a str),
}

impl Input<'_> {
    /// Its name in messages.
    fn name(self) -> String {
        match self {
            Self::File(operand) => files::name_of(operand),
            Self::Words(_) => "--words".into(),
        }
    }
}

/// What was heard, as a command line asks for it.
pub struct Changed {
    pub lattice: Lattice,
    /// The slot of each edge, if slots became a word graph.
    pub slots: Option<Vec<u32>>,
}

impl Changed {
    /// What the word graph was made of, if there is one.
    pub fn origin(&self) -> Origin<'_> {
        let Lattice { heard, sources, times, .. } = &self.lattice;
        Origin::new(heard, self.slots.as_deref(), sources, times.as_deref())
    }
}

impl From<Lattice> for Changed {
    fn from(lattice: Lattice) -> Self {
        Self { lattice, slots: None }
    }
}

/// One of those that a text has, of which an archive has many.
pub struct Entry {
    /// Its own name, if it has one.
    pub id: Option<String>,
    /// What was heard, as a command line asks for it, or why it cannot be.
    pub changed: Result<Changed, Why>,
}

/// Why one of those that a text has is not answered.
pub struct Why {
    /// Where in the text, if it cannot be read.
    position: Option<Position>,
    pub reason: String,
}

impl Why {
    /// The same of what stands in a line.
    pub fn in_line(self, line: usize) -> Self {
        Self { position: self.position.or(Some(Position { line, column: 1 })), ..self }
    }
}

impl From<String> for Why {
    fn from(reason: String) -> Self {
        Self { position: None, reason }
    }
}

impl From<Error> for Why {
    fn from(error: Error) -> Self {
        Self { position: error.position(), reason: error.reason() }
    }
}

impl Entry {
    /// Where it stands in a file, and its name, for messages.
    pub fn place(&self, file: &str) -> String {
        let position = self.changed.as_ref().err().and_then(|why| why.position);
        let at = position.map_or(String::new(), |Position { line, column }| format!(":{line}:{column}"));
        let name = self.id.as_ref().map_or(String::new(), |id| format!(": {}", shown(id)));
        format!("{file}{at}{name}")
    }
}

/// One of several that cannot be read.
impl From<Unread> for Entry {
    fn from(Unread { id, error }: Unread) -> Self {
        Self { id, changed: Err((*error).into()) }
    }
}

/// Adds what is to be said of what was heard to its answer: the weight up to which every reading is there, and words left out.
pub fn push_notes(json: &mut Vec<u8>, complete_up_to: Option<i64>, dropped: &[String]) {
    if let Some(weight) = complete_up_to {
        json::push_key(json, "complete_up_to");
        json.extend_from_slice(weight.to_string().as_bytes());
    }
    if !dropped.is_empty() {
        json::push_key(json, "dropped");
        json::push_words(json, dropped.iter().map(String::as_str));
    }
}

/// What was heard, as the command line asks for it. Says on standard error what was pruned or left out.
pub fn heard(arguments: &Arguments, grammar: &GrammarFile, input: Input) -> Result<Changed, Failure> {
    let (words, name) = (Words::new(arguments, &grammar.named)?, input.name());
    let in_input = |why: String| Failure::Refused(format!("{name}: {why}"));
    let changed = match input {
        // what was pruned or left out is said where it is read
        Input::File(operand) if !words.takes_acceptor() => {
            return words.anchored(files::heard(arguments, grammar, operand)?).map_err(in_input);
        }
        Input::File(operand) => words.apply(files::written(arguments, grammar, operand, words.may_skip())?),
        Input::Words(said) => words.apply(Written::Plain(files::words(arguments, grammar, said)?.into())),
    };
    let changed = changed.map_err(in_input)?;
    changed.lattice.notes().iter().for_each(|note| eprintln!("{name}: {note}"));
    Ok(changed)
}

/// What a command line says of words.
pub struct Words<'a> {
    named: &'a NamedGrammar,
    /// What a word too many costs, if there may be some.
    cost: Option<u32>,
    /// Words that are on every path, and words of slots.
    said: Vec<&'a str>,
    anchors: Vec<&'a str>,
    keep: Keep,
    is_exact: bool,
}

impl<'a> Words<'a> {
    pub fn new(arguments: &Arguments<'a>, named: &'a NamedGrammar) -> Result<Self, Failure> {
        let cost = arguments.number::<u32>(&SKIP)?;
        let (anchors, said) = arguments.values(&SAID).partition(|said| anchor::slot_and_word(said).is_some());
        let keep = if arguments.has(&PATHS) { Keep::Paths } else { Keep::Strings };
        let words = Self { named, cost, said, anchors, keep, is_exact: arguments.has(&EXACT) };
        let missing = words.said.iter().find(|word| words.label(word).is_none());
        match missing {
            Some(word) => Err(Failure::Refused(no_such_word(word, &named.words))),
            None => Ok(words),
        }
    }

    /// Whether the command line says nothing of words.
    pub fn are_none(&self) -> bool {
        self.cost.is_none() && self.said.is_empty() && self.anchors.is_empty()
    }

    fn label(&self, word: &str) -> Option<u32> {
        let number = self.named.words.iter().position(|known| known == word)?;
        Some(word_label(number as u32))
    }

    /// Whether it takes an acceptor to do as the command line says.
    fn takes_acceptor(&self) -> bool {
        self.cost.is_some() || !self.said.is_empty()
    }

    /// Whether words that the grammar does not have are passed over, and so not refused.
    pub fn may_skip(&self) -> bool {
        self.cost.is_some()
    }

    /// Reads a text that has one utterance.
    pub fn read(&self, reader: &UtteranceReader, text: &str) -> Result<Entry, Error> {
        if !self.takes_acceptor() {
            return reader.read_heard(text).map(|lattice| self.entry_of(lattice));
        }
        match reader.read_plain(text) {
            Some(plain) => plain.map(|plain| self.entry(Written::Plain(plain))),
            None => reader.recognised_alone(text).map(|recognised| self.entry(Written::Lattice(recognised))),
        }
    }

    /// Reads all that a text has. Of several those that cannot be read stand between the others.
    pub fn read_all(&self, reader: &UtteranceReader, text: &str) -> Result<Vec<Entry>, Error> {
        if !self.takes_acceptor() {
            let all = reader.read_all_heard(text)?.into_iter();
            return Ok(all.map(|read| read.map_or_else(Entry::from, |lattice| self.entry_of(lattice))).collect());
        }
        match reader.read_plain(text) {
            Some(plain) => plain.map(|plain| vec![self.entry(Written::Plain(plain))]),
            None => {
                let all = reader.recognised(text)?.into_iter();
                let entry = |recognised| self.entry(Written::Lattice(recognised));
                Ok(all.map(|read| read.map_or_else(Entry::from, entry)).collect())
            }
        }
    }

    /// What was heard, with its name and the words of slots that are known.
    fn entry_of(&self, lattice: Lattice) -> Entry {
        Entry { id: lattice.id.clone(), changed: self.anchored(lattice).map_err(Why::from) }
    }

    /// What was heard, with its name and as the command line asks for it.
    fn entry(&self, written: Written) -> Entry {
        let id = match &written {
            Written::Plain(_) => None,
            Written::Lattice(recognised) => recognised.id.clone(),
        };
        Entry { id, changed: self.apply(written).map_err(Why::from) }
    }

    /// What was heard, with the words of slots that are known.
    fn anchored(&self, mut lattice: Lattice) -> Result<Changed, String> {
        anchor::apply(&self.anchors, self.named, &mut lattice.heard)?;
        Ok(lattice.into())
    }

    /// What was heard, with the words that are known and without those that are too many.
    fn apply(&self, written: Written) -> Result<Changed, String> {
        let mut source = Source::new(self, written)?;
        if !self.takes_acceptor() {
            return Ok(source.rest.into());
        }
        if let Some(cost) = self.cost {
            let known = std::mem::take(&mut source.known);
            source.acceptor = source.acceptor.skip(cost.into(), |arc| known.contains(&(arc.source as usize)));
        }
        for word in &self.said {
            let label = self.label(word).unwrap_or_default();
            source.acceptor = source.acceptor.intersect(&Automaton::containing(label));
            if source.acceptor.is_empty() {
                return Err(format!("--said {word}: no path has it"));
            }
        }
        source.reduce(self.is_exact)
    }
}

/// What was heard as an acceptor.
struct Source {
    acceptor: Acceptor,
    /// Whether the sources of its arcs are numbers of slots, and the slots whose words are known for certain.
    is_slots: bool,
    known: Vec<usize>,
    keep: Keep,
    /// What the text says beside that.
    rest: Lattice,
}

impl Source {
    fn new(words: &Words, written: Written) -> Result<Self, String> {
        match written {
            Written::Plain(mut rest) => {
                let known = anchor::apply(&words.anchors, words.named, &mut rest.heard)?;
                let (acceptor, is_slots) = match &rest.heard {
                    Heard::Slots(utterance) => (Acceptor::from(utterance), true),
                    Heard::Graph(graph) => (Acceptor::from(graph), false),
                };
                Ok(Self { acceptor, is_slots, known, keep: Keep::Paths, rest })
            }
            Written::Lattice(recognised) => {
                let mut rest = Lattice::from(Heard::Graph(Graph { places: 0, edges: Vec::new() }));
                anchor::apply(&words.anchors, words.named, &mut rest.heard)?;
                (rest.id, rest.dropped) = (recognised.id, recognised.dropped);
                let acceptor = recognised.acceptor;
                Ok(Self { acceptor, is_slots: false, known: Vec::new(), keep: words.keep, rest })
            }
        }
    }

    /// The word graph of it, and the slot of each edge, if it was slots.
    fn reduce(self, is_exact: bool) -> Result<Changed, String> {
        let Self { acceptor, is_slots, keep, rest, .. } = self;
        let Reduced { graph, times, sources, taken_off, pruned } = match reduce(&acceptor, keep) {
            Ok(reduced) => reduced,
            // where nothing was heard there is no edge, and no reading of the slots either
            Err(Misfit::NoWord) if has_words(&rest.heard) => return Ok(rest.into()),
            Err(misfit) => return Err(why_not(misfit)),
        };
        if let Some(pruned) = pruned.filter(|_| is_exact) {
            let (edges, fits) = (pruned.of, MAX_EDGES);
            return Err(format!("takes {edges} edges and a word graph has {fits}: not --exact"));
        }
        let slots = is_slots.then(|| sources.clone());
        // what was left out of the text counts too
        let number = |edge: u32| rest.sources.get(edge as usize).map_or(edge, |number| *number);
        let sources = sources.into_iter().map(number).collect();
        let lattice = Lattice { heard: Heard::Graph(graph), times, sources, taken_off, pruned, ..rest };
        Ok(Changed { lattice, slots })
    }
}

/// Whether every slot has a word, so that the library takes them.
fn has_words(heard: &Heard) -> bool {
    matches!(heard, Heard::Slots(utterance) if utterance.slots.iter().all(|slot| !slot.is_empty()))
}

/// That the grammar has no such word, and which it has.
fn no_such_word(word: &str, words: &[String]) -> String {
    let meant = nearest(word, words.iter().map(String::as_str));
    let meant = meant.map_or(String::new(), |meant| format!(" (did you mean `{meant}`?)"));
    format!("--said {word}: the grammar has no such word{meant}: give one of {}", enumerated(words.to_vec()))
}

fn why_not(misfit: Misfit) -> String {
    match misfit {
        Misfit::NoWord => "no path has a word of the grammar".into(),
        Misfit::TooLarge { places, edges } => format!(
            "even the cheapest takes {places} places and {edges} edges, and a word graph has {MAX_PLACES} and {MAX_EDGES}"
        ),
    }
}
