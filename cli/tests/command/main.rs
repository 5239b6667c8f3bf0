//! The command `spireyerba`, run as a user runs it.

mod answers;
mod batch;
mod chances;
mod common;
mod distinct;
mod graphs;
mod lattices;
mod messages;
mod no_readings;
mod notation;
mod offices;
mod picks;
mod random_skips;
mod readme;
mod recognisers;
mod report;
mod schedules;
mod skips;
mod usage;
mod users;
