//! The least readings of a spoken utterance under a weighted grammar, cheapest first, none left out.
//!
//! ```
//! use spireyerba::text::NamedGrammar;
//!
//! // how an office says the number of a door, with a weight on each rule
//! let doors = NamedGrammar::parse(
//!     r#"Entry  -> "door" Number [1]
//!        Number -> "four" | "five" [2]"#,
//! )?;
//! // what a recogniser heard: two slots, each with words and their costs
//! let heard = doors.parse_utterance("door 3 ; four 9 | five 5")?;
//! let readings = doors.grammar.list(&heard, 8)?;
//! assert_eq!((readings[0].weight, doors.sentence(&readings[0]).as_str()), (11, "door five"));
//! assert_eq!((readings[1].weight, doors.sentence(&readings[1]).as_str()), (13, "door four"));
//! # Ok::<(), spireyerba::Error>(())
//! ```
//!
//! A recogniser hears an utterance: slots, each with candidate words and their costs; a cost of 65,535 says that the word
//! was not heard, and no reading uses it there. An office has a weighted grammar in Chomsky normal form. A reading is a
//! derivation of the utterance: which rule made each phrase, and so which word was said in each slot. Its weight is the sum
//! of its rules' weights and its words' costs. Newer recognisers deliver a word graph in place of slots, words on edges
//! between places; a reading is then a derivation of a path through it.
//!
//! This crate calls the library that the repository proves, `target/staticlib/libspireyerba.a`. Whatever is searched,
//! weighed or checked, the library does it: here are its functions for Rust, values in place of numbers, and texts.
//! `make proved` builds the library, which has to stand there before this crate is linked; where it is installed,
//! `SPIREYERBA_LIB_DIR` names its folder. [`LIBRARY_VERSION`] is its version.
//!
//! | module | has |
//! |---|---|
//! | [`services`] | the library's functions over lent slices, with no allocation |
//! | [`Refusal`] | why one of them refused, by number and in words |
//! | [`Grammar`], [`Utterance`] | values that turn into blocks and sheets and back |
//! | [`Graph`] | word graphs, which have blocks and no sheets |
//! | [`Heard`], [`HeardRef`] | slots or a word graph, whichever it is; every service takes either |
//! | [`Reading`] | a derivation written down; [`Grammar::list`], [`Grammar::check`] |
//! | [`PackedGrammar`] | a grammar that is packed once for many calls |
//! | [`Office`], [`MarkedGrammar`] | rules as offices write them, and what they become; [`Office::to_grammar`], [`MarkedGrammar::to_office`] |
//! | [`Grammar::specimen`], [`Phrases`] | what can be said in a grammar |
//! | [`Grammar::prefix`], [`Prefix`] | how far what was heard goes along with a grammar |
//! | [`Grammar::cost_ranges`], [`CostRanges`] | the first reading where costs are known within ranges |
//! | [`Grammar::word_margins`], [`WordMargin`] | which word to listen to again |
//! | [`OpenListing`] | readings one by one, each found when it is asked for; [`Grammar::open`] |
//! | [`Distinct`], [`Sentence`] | each sentence once: of readings with the same words the first |
//! | [`Lister`] | many listings under one grammar, in memory that is kept, the library's or a desk panel's |
//! | [`Grammar::chance`] | the product of the shares of a reading's rules |
//! | [`Tree`] | a reading as a tree |
//! | [`limits`] | how large things may be, and how much is to be lent |
//! | [`text`] | grammars, utterances, word graphs, confusion networks and lattices with names |
//! | [`Error`] | a refusal, or a fault of a text with its file, line and column |
//!
//! # Numbers
//!
//! Names are for people: the library knows symbols and words by number, and so do [`Grammar`] and its kin. What comes from a program
//! need not be written down as a text.
//!
//! ```
//! use spireyerba::{Body, Candidate, Grammar, Rule, Utterance};
//!
//! // two phrases make a phrase, at weight 1; word 0 is a phrase
//! let rules = vec![
//!     Rule { head: 0, weight: 1, body: Body::Pair(0, 0) },
//!     Rule { head: 0, weight: 0, body: Body::Word(0) },
//! ];
//! let grammar = Grammar { symbols: 1, words: 1, rules };
//! // three slots, each of which offers word 0
//! let utterance = Utterance { slots: vec![vec![Candidate { word: 0, cost: 0 }]; 3] };
//!
//! let readings = grammar.list(&utterance, 8)?;
//! assert_eq!(readings.len(), 2);
//! assert_eq!((readings[0].weight, &readings[0].walk[..]), (2, &[0, 1, 0, 1, 1][..]));
//! # Ok::<(), spireyerba::Refusal>(())
//! ```

#![warn(missing_docs)]

pub mod lattice;
/// The version of the library that this crate was linked with, as its header or its package says it.
pub const LIBRARY_VERSION: &str = env!("SPIREYERBA_LIBRARY_VERSION");

pub mod limits;
pub mod services;
pub mod text;

mod distinct;
mod error;
mod few_first;
mod fields;
mod grammar;
mod graph;
mod heard;
mod lister;
mod margins;
mod marked;
mod office;
mod open_listing;
mod packed;
mod phrases;
mod prefix;
mod ranges;
mod reading;
mod refusal;
mod tree;
mod utterance;

pub use distinct::{Distinct, Sentence};
pub use error::{Error, Position};
pub use grammar::{Body, Grammar, Rule};
pub use graph::{Edge, Graph};
pub use heard::{Heard, HeardRef};
pub use lister::{Found, Lister};
pub use margins::WordMargin;
pub use marked::MarkedGrammar;
pub use office::{Item, Office, OfficeRule};
pub use open_listing::OpenListing;
pub use packed::PackedGrammar;
pub use phrases::Phrases;
pub use prefix::Prefix;
pub use ranges::CostRanges;
pub use reading::Reading;
pub use refusal::Refusal;
pub use tree::{Part, Tree};
pub use utterance::{Candidate, Utterance};
