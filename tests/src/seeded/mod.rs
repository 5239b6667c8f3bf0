//! Seeded inputs, valid and damaged.

pub mod damage;
pub mod grammars;
pub mod graphs;
pub mod offices;
pub mod parsable;
pub mod phrases;
pub mod raw;
pub mod rng;
pub mod utterances;
