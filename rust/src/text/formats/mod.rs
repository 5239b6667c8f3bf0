//! The formats in which recognisers write what they heard, told apart by what stands in them.

mod ctm;
mod draft;
mod fst;
mod json;
mod nbest;
mod recogniser_json;
mod slots;

use super::graph::{begins_with_edge, is_plain_fault};
use super::items::lines;
use super::lattice::is_lattice;
use super::network::{is_network, Alignments};
use super::utterance::UtteranceReader;
use super::{without_mark, Fault};
use crate::{Error, Heard};
pub(super) use draft::{Draft, Link, MAX_LINKS};
pub use draft::{Lattice, Recognised, Unread};
use std::collections::HashSet;

/// A format of what was heard.
#[derive(Clone, Copy, Debug, PartialEq, Eq)]
#[non_exhaustive]
pub enum Format {
    /// Slots, as [`text`](crate::text) says.
    Slots,
    /// A word graph of whole numbers, as [`text`](crate::text) says.
    Graph,
    /// HTK's standard lattice format.
    Slf,
    /// An acceptor or a transducer as OpenFst's `fstprint` writes it.
    OpenFst,
    /// Kaldi's lattices as text, one or many.
    Kaldi,
    /// SRILM's confusion network.
    Network,
    /// The best sentences, a line each.
    NBest,
    /// NIST's time-marked conversation, with alternatives.
    Ctm,
    /// The JSON of Vosk, AWS Transcribe, Google or Azure.
    Json,
}

/// Whether a text is in a format.
type Test = fn(&str) -> bool;

/// The formats by name.
const NAMES: [(&str, Format); 9] = [
    ("slots", Format::Slots),
    ("graph", Format::Graph),
    ("slf", Format::Slf),
    ("openfst", Format::OpenFst),
    ("kaldi", Format::Kaldi),
    ("network", Format::Network),
    ("nbest", Format::NBest),
    ("ctm", Format::Ctm),
    ("json", Format::Json),
];

impl Format {
    /// The names of all, as [`named`](Self::named) takes them.
    pub fn names() -> impl Iterator<Item = &'static str> {
        NAMES.iter().map(|(name, _)| *name)
    }

    /// The name of this one.
    pub fn name(self) -> &'static str {
        NAMES.iter().find(|(_, format)| *format == self).map_or("", |(name, _)| name)
    }

    /// The format with a name.
    ///
    /// ```
    /// use spireyerba::text::Format;
    ///
    /// assert_eq!(Format::named("slf"), Some(Format::Slf));
    /// assert_eq!(Format::Slf.name(), "slf");
    /// assert_eq!(Format::of("{\"text\": \"door four\"}"), Format::Json);
    /// assert_eq!(Format::of("door 4 | four 61"), Format::Slots);
    /// ```
    pub fn named(name: &str) -> Option<Self> {
        NAMES.iter().find(|(known, _)| *known == name).map(|(_, format)| *format)
    }

    /// The format of a text, by what stands in it. What is nothing else is slots.
    pub fn of(text: &str) -> Self {
        let text = front(without_mark(text));
        let is_of: [(Test, Self); 7] = [
            (json::is_json, Self::Json),
            (is_lattice, Self::Slf),
            (is_network, Self::Network),
            (ctm::is_ctm, Self::Ctm),
            (fst::is_kaldi, Self::Kaldi),
            (fst::is_openfst, Self::OpenFst),
            (nbest::is_nbest, Self::NBest),
        ];
        let found = is_of.iter().find(|(is_format, _)| is_format(text)).map(|(_, format)| *format);
        let is_graph = || lines(text).any(|line| begins_with_edge(line.text));
        found.unwrap_or_else(|| if is_graph() { Self::Graph } else { Self::Slots })
    }
}

/// The first lines of a text, by which its format is told.
fn front(text: &str) -> &str {
    let end = text.match_indices('\n').nth(FRONT_LINES).map_or(text.len(), |(at, _)| at);
    &text[..end]
}

/// A format is told by so many lines.
const FRONT_LINES: usize = 2_000;

/// What bytes are that are no text, and how they are printed as one, if they are of a known kind.
///
/// ```
/// use spireyerba::text::binary_kind;
///
/// assert!(binary_kind(&[0x1f, 0x8b, 8, 0]).is_some_and(|kind| kind.contains("gzip -dc")));
/// assert_eq!(binary_kind(b"door 4"), None);
/// ```
pub fn binary_kind(bytes: &[u8]) -> Option<&'static str> {
    const KINDS: [(&[u8], &str); 7] = [
        (&[0x1f, 0x8b], "a gzip file; `gzip -dc FILE` prints what is in it"),
        (
            &[0xd6, 0xfd, 0xb2, 0x7e],
            "a binary FST of OpenFst; `fstprint --isymbols=words.txt --acceptor FILE` prints it as text",
        ),
        (b"BZh", "a bzip2 file; `bzip2 -dc FILE` prints what is in it"),
        (&[0xfd, b'7', b'z', b'X', b'Z'], "an xz file; `xz -dc FILE` prints what is in it"),
        (&[0x28, 0xb5, 0x2f, 0xfd], "a zstd file; `zstd -dc FILE` prints what is in it"),
        (b"PK\x03\x04", "a zip file; `unzip -p FILE` prints what is in it"),
        (b"RIFF", "a sound file; a recogniser makes a lattice of it"),
    ];
    let known = KINDS.iter().find(|(begin, _)| bytes.starts_with(begin)).map(|(_, kind)| *kind);
    // Kaldi's archives have a name, a blank and a zero byte before each binary object
    let front = &bytes[..bytes.len().min(KALDI_FRONT)];
    let is_kaldi = front.windows(3).any(|window| window == b" \0B") || front.starts_with(b"\0B");
    let kaldi = "a binary archive of Kaldi; `lattice-copy ark:FILE ark,t:- | utils/int2sym.pl -f 3 words.txt` prints it as text";
    known.or(is_kaldi.then_some(kaldi))
}

/// The name before the first lattice of a Kaldi archive ends within so many bytes.
const KALDI_FRONT: usize = 512;

impl UtteranceReader<'_> {
    /// Reads what was heard in any format: slots or a word graph, and what it is of what the text has.
    ///
    /// ```
    /// use spireyerba::text::{NamedGrammar, UtteranceReader};
    ///
    /// let doors = NamedGrammar::parse("Entry -> Door Number\nDoor -> \"door\"\nNumber -> \"four\" | \"five\"")?;
    /// let mut reader = UtteranceReader::new(&doors);
    /// reader.scale = Some(100.0);
    /// let lattice = reader.read_heard("-1.5 door four\n-1.7 door five\n")?;
    /// let readings = doors.grammar.list(&lattice.heard, 8)?;
    /// assert_eq!(readings.iter().map(|reading| reading.weight).collect::<Vec<_>>(), [150, 170]);
    /// # Ok::<(), spireyerba::Error>(())
    /// ```
    pub fn read_heard(&self, text: &str) -> Result<Lattice, Error> {
        match self.read_plain(text) {
            Some(plain) => plain,
            None => self.recognised_alone(text)?.reduce(self.keep, self.exact),
        }
    }

    /// Reads the one lattice of a text as an acceptor, over the labels of the grammar's words.
    pub fn recognised_alone(&self, text: &str) -> Result<Recognised, Error> {
        alone(self.drafts(without_mark(text), true)?, text)?.map_err(|unread| *unread.error)?.recognised(self)
    }

    /// Reads all that a text has, of which only some formats have several. Of several one that cannot be read stands between the
    /// others with the reason; if none can be read, the text is refused for the first one's.
    ///
    /// ```
    /// use spireyerba::text::{NamedGrammar, UtteranceReader};
    ///
    /// let doors = NamedGrammar::parse("Entry -> Door Number\nDoor -> \"door\"\nNumber -> \"four\" | \"five\"")?;
    /// let archive = "one\n0 1 door 1\n1 2 four 2\n2\n\ntwo\n0 1 window 1\n1\n";
    /// let all = UtteranceReader::new(&doors).read_all_heard(archive)?;
    /// assert_eq!(all[0].as_ref().map(|lattice| lattice.id.as_deref()), Ok(Some("one")));
    /// let unread = all[1].as_ref().unwrap_err();
    /// assert_eq!(unread.id.as_deref(), Some("two"));
    /// assert_eq!(unread.error.to_string(), "text:7:1: refused 14: the grammar has no word `window`");
    /// # Ok::<(), spireyerba::Error>(())
    /// ```
    pub fn read_all_heard(&self, text: &str) -> Result<Vec<Result<Lattice, Unread>>, Error> {
        let reduce = |read: Result<Recognised, Unread>| {
            let recognised = read?;
            recognised.reduce(self.keep, self.exact).map_err(|error| Unread::new(recognised.id, error))
        };
        match self.read_plain(text) {
            Some(plain) => plain.map(|plain| vec![Ok(plain)]),
            None => some_read(self.recognised(text)?.into_iter().map(reduce)),
        }
    }

    /// The words that are left out of a text in one of the formats that take no lattice, each once: words for silence too, since
    /// slots and plain graphs have no place for them.
    fn left_out(&self, text: &str, format: Format) -> Vec<String> {
        if !self.drop_unknown {
            return Vec::new();
        }
        let draft = match format {
            Format::Slots => self.slots_draft(text),
            Format::Network => Alignments::parse(text).and_then(|network| network.draft(self)),
            _ => self.graph_draft(text),
        };
        let words = draft.into_iter().flat_map(|draft| draft.links).filter_map(|link| link.word);
        let mut seen = HashSet::new();
        words.filter(|word| self.known(word).is_none() && seen.insert(word.clone())).collect()
    }

    /// Reads all that a text has as acceptors, over the labels of the grammar's words. Of several one that cannot be read stands
    /// between the others, as in [`read_all_heard`](Self::read_all_heard).
    pub fn recognised(&self, text: &str) -> Result<Vec<Result<Recognised, Unread>>, Error> {
        let recognised = |draft: Result<Draft, Unread>| {
            let draft = draft?;
            let id = draft.id.clone();
            draft.recognised(self).map_err(|error| Unread::new(id, error))
        };
        some_read(self.drafts(without_mark(text), false)?.into_iter().map(recognised))
    }

    /// Reads a text in one of the formats that take no lattice: slots, a network that is slots, or a plain word graph; nothing if
    /// it is another. If words that the grammar does not have are kept, a slot of such words is empty, and a graph with one is
    /// a lattice.
    pub fn read_plain(&self, text: &str) -> Option<Result<Lattice, Error>> {
        let text = without_mark(text);
        let format = self.format.unwrap_or_else(|| Format::of(text));
        if format == Format::Graph && self.keep_unknown {
            let mut strict = self.clone();
            (strict.keep_unknown, strict.drop_unknown) = (false, false);
            return strict.read_plain(text).filter(|plain| !is_unknown(plain));
        }
        let plain = match format {
            Format::Slots | Format::Network => self.read(text).map(|slots| Lattice::from(Heard::Slots(slots))),
            Format::Graph => self.read_numbered_graph(text).map(|(graph, sources)| {
                let graph = Lattice::from(Heard::Graph(graph));
                Lattice { sources, ..graph }
            }),
            _ => return None,
        };
        let fault = plain.as_ref().err().and_then(Error::fault);
        let is_wide = matches!(fault, Some(Fault::TooMany { within: "a slot", .. } | Fault::Deletion));
        // where states are numbered otherwise, and only there, it is OpenFst's
        let is_fst = || fst::is_fst(text) && fst::parse_openfst(text).and_then(|draft| draft.recognised(self)).is_ok();
        let is_other_fst = self.format.is_none() && fault.is_some_and(is_plain_fault) && is_fst();
        (!is_wide && !is_other_fst).then(|| Ok(Lattice { dropped: self.left_out(text, format), ..plain? }))
    }

    /// All that a text has as it is written; if only one is wanted, several may be refused before any is read.
    fn drafts(&self, text: &str, is_alone: bool) -> Result<Vec<Result<Draft, Unread>>, Error> {
        let one = |draft: Draft| vec![Ok(draft)];
        match self.format.unwrap_or_else(|| Format::of(text)) {
            Format::Slots => self.slots_draft(text).map(one),
            Format::Network => Alignments::parse(text)?.draft(self).map(one),
            Format::Graph if fst::has_other_marks(text) => self.graph_draft(text).map(Draft::of_plain).map(one),
            Format::Graph => fst::parse_openfst(text).map(Draft::of_plain).map(one),
            Format::OpenFst => fst::parse_openfst(text).map(one),
            Format::Slf => self.slf_draft(text).map(one),
            Format::Kaldi => fst::parse_kaldi(text),
            Format::NBest => nbest::parse(text).map(one),
            // a draft of each takes far longer than their number, which is all that is told
            Format::Ctm if is_alone => match ctm::count(text)? {
                count @ 2.. => Err(many(count, text)),
                _ => ctm::parse(text),
            },
            Format::Ctm => ctm::parse(text),
            Format::Json => recogniser_json::parse(text).map(one),
        }
    }
}

/// Whether a word is not known.
fn is_unknown(plain: &Result<Lattice, Error>) -> bool {
    matches!(plain.as_ref().err().and_then(Error::fault), Some(Fault::UnknownWord(_)))
}

/// All that a text has if some of it can be read, and else why the first cannot. A scale that one lacks is lacking for all, since
/// the costs of an archive are by one scale.
fn some_read<T>(all: impl Iterator<Item = Result<T, Unread>>) -> Result<Vec<Result<T, Unread>>, Error> {
    let all: Vec<Result<T, Unread>> = all.collect();
    let without_scale = all.iter().position(|read| read.as_ref().is_err_and(lacks_scale));
    if without_scale.is_none() && all.iter().any(Result::is_ok) {
        return Ok(all);
    }
    let refusing = all.into_iter().skip(without_scale.unwrap_or(0)).find_map(Result::err);
    refusing.map_or_else(|| Ok(Vec::new()), |unread| Err(*unread.error))
}

/// Whether a scale was to be given.
fn lacks_scale(unread: &Unread) -> bool {
    matches!(unread.error.fault(), Some(Fault::NoScale { .. }))
}

/// The only one of some that a text has.
fn alone<T>(mut all: Vec<T>, text: &str) -> Result<T, Error> {
    match (all.len(), all.pop()) {
        (1, Some(only)) => Ok(only),
        (count, _) => Err(many(count, text)),
    }
}

/// That a text has several, or none, where one was wanted.
fn many(count: usize, text: &str) -> Error {
    Error::at(super::items::end_of(text), Fault::ManyLattices(count))
}
