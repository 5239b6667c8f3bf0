//! Prints Markdown tables of times in microseconds, medians of alternating calls in one process, and of their ratios: those
//! that the command line names, or all; then a line about the rows in which the library is behind a plain version.

use spireyerba_bench::standing::Standing;
use spireyerba_bench::{batch, conversions, few_first, listing, margins, next_phrase, one_by_one, scaling, specimen};

type Print = fn(&mut Standing);

const TABLES: [(&str, Print); 13] = [
    ("office", listing::print_office),
    ("free", listing::print_beside_free),
    ("graphs", listing::print_graphs),
    ("panel", |_| listing::print_panel()),
    ("few_first", |_| few_first::print_table()),
    ("one_by_one", |_| one_by_one::print_table()),
    ("margins", |_| margins::print_table()),
    ("conversions", conversions::print_table),
    ("specimen", specimen::print_table),
    ("phrases", next_phrase::print_table),
    ("batch", |_| batch::print_table()),
    ("scaling", |_| scaling::print_table()),
    ("second", listing::print_beside_second),
];

fn main() {
    let wanted: Vec<String> = std::env::args().skip(1).collect();
    let tables = TABLES.iter().filter(|(name, _)| wanted.is_empty() || wanted.iter().any(|wanted| wanted == name));
    let mut standing = Standing::default();
    for (number, (_, print)) in tables.enumerate() {
        if number > 0 {
            println!();
        }
        print(&mut standing);
    }
    if !standing.is_empty() {
        println!("\n{standing}");
    }
}
