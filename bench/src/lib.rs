//! The library's times beside those of Rust on the same inputs.

pub mod batch;
pub mod conversions;
pub mod few_first;
pub mod free;
pub mod inputs;
pub mod listing;
pub mod margins;
pub mod measure;
pub mod next_phrase;
pub mod office;
pub mod one_by_one;
pub mod scaling;
pub mod specimen;
pub mod standing;
pub mod table;
