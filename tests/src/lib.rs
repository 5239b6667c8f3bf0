//! A second implementation of the services, written from documents 01 and 02 (docs/DECISIONS.md) and not from the Rattle
//! code, and what is needed to compare the proved library with it. Values, sizes and the names of the refusals are those of
//! the crate `spireyerba`, through which the library is called.
//!
//! | modules | hold |
//! |---|---|
//! | `bits`, `refusal` | fields of bits; rows of the table of refusals |
//! | `grammar`, `utterance`, `reading` | the block and the sheet of each |
//! | `graph`, `graph_reading` | the blocks of word graphs and of their readings |
//! | `heard` | slots or a graph, and the words that they offer |
//! | `office` | rules as offices write them: the sheet, what it becomes, their derivations |
//! | `conversions`, `check`, `chance`, `cost_ranges`, `word_margins`, `listing`, `specimen` | the services over lent slices; the next phrase stands with the specimen, the panel's listing with the listing |
//! | `open_listing` | readings one by one, from the full list; which ranks a work table shows to be found |
//! | `derivation` | trees, their order, and all derivations sorted by it |
//! | `notation` | rules with notation, and their derivations taken from the notation itself |
//! | `nbest` | the N best trees of each cell, where all derivations are too many |
//! | `compare` | one call of both on the same slices, held to each other |
//! | `both`, `documents` | both held to the same examples; blocks of the documents |
//! | `seeded` | seeded inputs, valid and damaged |
//! | `clock` | the time that something takes |

pub mod bits;
pub mod both;
pub mod chance;
pub mod check;
pub mod clock;
pub mod compare;
pub mod conversions;
pub mod cost_ranges;
pub mod derivation;
pub mod documents;
pub mod grammar;
pub mod graph;
pub mod graph_reading;
pub mod heard;
pub mod listing;
pub mod nbest;
pub mod notation;
pub mod office;
pub mod open_listing;
pub mod reading;
pub mod refusal;
pub mod seeded;
pub mod specimen;
pub mod utterance;
pub mod word_margins;
