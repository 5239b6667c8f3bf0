//! Markdown tables: a column of names, then columns of numbers.

use std::fmt::Display;

pub fn print_head(name: &str, columns: &[&str]) {
    print_row(name, columns);
    println!("|{:-<36}|{}", "", format!("{:->11}|", ":").repeat(columns.len()));
}

pub fn print_row<N: Display>(name: &str, numbers: &[N]) {
    let numbers: String = numbers.iter().map(|number| format!(" {number:>9} |")).collect();
    println!("| {name:<34} |{numbers}");
}
