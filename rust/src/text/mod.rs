//! Grammars, utterances, word graphs and readings as people and recognisers write them.
//!
//! # Grammars
//!
//! ```text
//! # How an office reads out a line of its door schedule.
//! Entry   -> Name Details | Name Leaf [30]
//! Name    -> "door" Number
//! Number  -> Tens Units [5]      # twenty four
//!          | "twenty" [10]
//! Details -> Leaf "fire" Minutes
//! ```
//!
//! A rule is a head, an arrow, a body of symbols and quoted words, and in brackets a weight,
//! which is 0 if it is left out. A bar stands between alternatives, each of which is a rule, and a line may begin with one. In
//! a quoted word `\"` is a quote and `\\` a backslash. What follows a `#` is passed over, and so are empty lines. Each symbol has a
//! rule, unless a list of symbols has it (below).
//!
//! ```text
//! Details -> Leaf ("fire" Minutes)?120 Side?   # may be left out; without fire and minutes it costs 120
//! Leaf    -> ("oak" | "steel" [5]) "veneer"?   # one of several, each with its weight
//! Number  -> Digit+ => "no. $1"                # one or more, Digit* for none too; and what a number becomes
//! Digit   -> Units [3]                         # a symbol alone: its rules, with weights added
//! Units   -> "four" => "4" | "five" => "5"
//! ```
//!
//! What is written with `?`, `+`, `*`, groups and a symbol alone is written out as rules of an office. Each way to use the rules of
//! the text is one of theirs, of equal weight, and answers have the rules, trees and weights of the text: there a node has what was
//! left out or chosen in its weight. Two ways that become the same rule are a fault. What stands behind `=>` is what a rule
//! becomes: `$1` is the first part of its body, which has at most 24, and `$$` a dollar sign. Without it a rule becomes what its
//! parts become, with a blank between two.
//!
//! If all bodies are one word or two symbols, the grammar is in normal form and its block has no marks. Otherwise the rules are
//! an [`Office`](crate::Office)'s: the library makes a grammar in normal form of them, and its helpers are in no answer. Ends of bodies
//! that are equal have one helper, where something is written out and where the grammar would not fit otherwise. A line
//! `office` says so of rules that are in normal form too. Behind the weight of a rule in normal form may stand `helper`, as in
//! `[helper]` or `[3 helper]`: the rule is marked. With this every block of a grammar has a text.
//!
//! Rules, symbols and words are numbered as they are met, so the first head is the start. Where other numbers are wanted, or
//! a word that no rule has, lists before the first rule give them: `symbols Entry Name ..` and `words "door" "twenty" ..`.
//!
//! # Utterances
//!
//! ```text
//! door 4 | four 61
//! twenty 12 | forty 20
//! ```
//!
//! A slot a line: candidates with bars between them, each a word and its cost, in any order. A word without a cost has cost 0, and
//! a cost of 65535 says that the word was not heard. A semicolon ends a slot too, so that an utterance can stand in one line. A word with a blank, a quote
//! or one of `| ; #` in it is quoted as in a grammar. Confusion networks as SRILM writes them are utterances too:
//!
//! ```text
//! numaligns 2
//! posterior 1
//! align 0 door 0.96 four 0.54
//! align 1 twenty 0.89 forty 0.82
//! ```
//!
//! A word's cost is then minus the natural logarithm of its share of the posterior, times a scale that the reader is given,
//! rounded; a posterior of 0 says that the word was not heard. Alignments of only `<s>` or `</s>` are no slots, and lines
//! that begin otherwise are passed over.
//!
//! # Sentences
//!
//! ```text
//! + door twenty four oak [5] => "24 oak"
//! - door door
//! ```
//!
//! A sentence a line, which a grammar should derive (`+`) or not (`-`), as a test of it; in brackets the weight that the first
//! reading should have, and behind `=>` what it should become, if that is to be tested. A word with a blank, a quote or one of
//! `| ; # [ ]` in it is quoted.
//!
//! # Word graphs
//!
//! ```text
//! 0 1 door 4
//! 1 2 twenty 12
//! 1 3 forty 24
//! 2 3 four 9
//! 3
//! ```
//!
//! An edge a line: the place where a word starts, the one where it ends, the word, and its
//! cost, which is 0 if it is left out. Edges are numbered as they stand. A line with one number has the last place; without
//! it that is the last one that an edge reaches. A semicolon ends an edge too, so that a graph can stand in one line. Lattices
//! in HTK's standard lattice format (SLF) are word graphs too:
//!
//! ```text
//! VERSION=1.0
//! lmscale=2.0 wdpenalty=-0.01
//! N=4 L=3
//! I=0 t=0.00
//! I=1 t=0.31
//! I=2 t=0.74
//! I=3 t=0.74
//! J=0 S=0 E=1 W=door a=-0.01 l=-0.01
//! J=1 S=1 E=2 W=twenty a=-0.05 l=-0.03
//! J=2 S=2 E=3 W=!NULL
//! ```
//!
//! A line that begins with `I=` is a node, with its time, and one that begins with `J=` a link from node `S=` to node `E=`. A
//! link's word is its own or that of the node where it ends; `!NULL`, the marks of a sentence's ends and a link without a word
//! say nothing. Its score is `a=` times `acscale=`, `l=` times `lmscale=`, `r=` times `prscale=`, and for a word `wdpenalty=`,
//! all of them logarithms to `base=` (e unless given, and 0 for likelihoods), and its cost is minus the natural logarithm
//! times the reader's scale, rounded. HTK's logarithm of 0, -1e10, says that the word was not heard. Other fields are passed
//! over; links with `p=` alone have posteriors. Words of silence, such as `<sil>`, `[noise]` or `++um++`, say nothing unless
//! the grammar has them.
//!
//! # Other formats
//!
//! [`UtteranceReader::read_heard`] reads what recognisers write in any [`Format`], told by what stands in it: HTK's lattices,
//! OpenFst's acceptors and transducers, Kaldi's lattices, confusion networks, lists of the best sentences, CTM, and the JSON of
//! Vosk, AWS Transcribe, Google and Azure. Scores become costs by the reader's scale, rounded link by link. From there on
//! everything is exact ([`lattice`](crate::lattice)): the graph has each word string of the lattice at its least cost, or, with
//! [`Keep::Paths`](crate::lattice::Keep), every path. What does not fit is pruned by the widest beam, and [`Lattice`] says up to
//! which weight every reading is there. Places are numbered so that edges go up, the earlier first.
//!
//! # Readings
//!
//! A weight and the rule number of each node, as the lister prints them behind the rank: `72 0 2 12 3 13 15 8 17 11 20 21`.
//! That of a word graph has a bar behind them and the numbers of its edges: `80 0 2 12 5 8 17 11 20 21 | 0 3 7 9 12`. Under an
//! office's rules the nodes of helpers are left out. Where a rule of the text is written out as several, a point and which of them
//! it is follow its number: `80 0 2.3 5`.
//!
//! # Shares
//!
//! A whole number from 1 to 1024 for each rule of the grammar's text, in their order: `922 102 1024 614`. What follows a `#` is
//! passed over.
//!
//! # Example
//!
//! ```
//! use spireyerba::text::NamedGrammar;
//!
//! let doors = NamedGrammar::parse(
//!     r#"Entry  -> Door Number [1]    # a door and its number
//!        Door   -> "door"
//!        Number -> "four" | "five" [2]"#,
//! )?;
//! let utterance = doors.parse_utterance("door 3 \n four 9 | five 5")?;
//! let readings = doors.grammar.list(&utterance, 8)?;
//! let in_words = readings.iter().map(|reading| (reading.weight, doors.sentence(reading)));
//! assert!(in_words.eq([(11, "door five".into()), (13, "door four".into())]));
//! # Ok::<(), spireyerba::Error>(())
//! ```

mod expansion;
mod fault;
mod finish;
mod fold;
mod formats;
mod grammar;
mod graph;
mod items;
mod lattice;
#[cfg(test)]
mod messages;
mod names;
mod nearest;
mod network;
mod notation;
mod plain;
mod reading;
mod room;
mod rule_fault;
mod rule_names;
mod scan;
mod score;
mod sentence;
mod shares;
mod source;
mod translation;
mod utterance;

pub use fault::{shortened, Fault};
pub use formats::{binary_kind, Format, Lattice, Recognised, Unread};
pub use grammar::Places;
pub use graph::is_graph;
pub use names::NamedGrammar;
pub use nearest::nearest;
pub use reading::{parse_reading, parse_sheet, print_list, reading_text};
pub use room::Room;
pub use rule_fault::RuleFault;
pub use sentence::Sentence;
pub use utterance::UtteranceReader;

/// The mark that some editors write before a text.
const BYTE_ORDER_MARK: char = '\u{feff}';

fn without_mark(text: &str) -> &str {
    text.strip_prefix(BYTE_ORDER_MARK).unwrap_or(text)
}
