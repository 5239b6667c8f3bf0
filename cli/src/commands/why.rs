//! `why`: what makes a reading heavier than the first.

use super::list::{line, Listed};
use super::Command;
use crate::failure::Failure;
use crate::heard::{HeardWords, Taken};
use crate::options::{
    Arguments, DISTINCT, DROP_DELETES, DROP_UNKNOWN, EMPTY, EXACT, FOLD, FORMAT, PATHS, SAID, SCALE, SKIP,
};
use crate::output::{Output, Style};
use crate::width::{columns, padded};
use spireyerba::limits::MAX_READINGS;
use spireyerba::{Candidate, Reading};
use std::collections::BTreeSet;

pub const COMMAND: Command = Command {
    name: "why",
    operands: &["GRAMMAR", "UTTERANCE", "K"],
    needed: 3,
    options: &[DISTINCT, SAID, SKIP, SCALE, FOLD, DROP_UNKNOWN, DROP_DELETES, EMPTY, FORMAT, PATHS, EXACT],
    summary: "lay reading K beside the first: what differs, and what each difference costs",
    details: "K is a rank of the list, 2 to 256; with --distinct one of the list in which each sentence stands once. The last column adds up to the difference of both weights.",
    example: "spireyerba why grammar.txt utterance.txt 2",
    run,
};

/// What one of both readings has and the other has not, or has otherwise.
struct Row {
    place: String,
    first: String,
    other: String,
    difference: i64,
}

fn run(arguments: &Arguments, output: &mut Output) -> Result<(), Failure> {
    let rank = arguments.operand_number(2)?;
    if !(2..=MAX_READINGS).contains(&rank) {
        return Err(
            arguments.wrong(format!("K is 2 to {MAX_READINGS}, not {rank}: the first reading is laid beside it"))
        );
    }
    let listed = Listed::up_to(arguments, rank)?;
    let [first, other] = [0, rank as usize - 1].map(|at| &listed.readings[at]);
    let difference = i64::from(other.weight) - i64::from(first.weight);
    let how = if difference == 0 { "as much as the first".into() } else { format!("{difference} more than the first") };
    output.line(&format!("reading {rank} weighs {}, {how}", other.weight))?;
    for rank in [1, rank as usize] {
        output.line(&format!("  {}", line(&listed, rank, output)))?;
    }
    if difference == 0 {
        output.line(
            "of equal weights the one whose words cost less comes first, then the one with the lower rule number,",
        )?;
        output
            .line("then the one whose left part ends earlier, then the lesser left part, then the lesser right part")?;
    }
    output.line("")?;
    let mut rows = words(&listed, rank as usize);
    rows.extend(rules(&listed, first, other));
    print(&rows, rank, difference, output)
}

/// The slots, or the places, between which both do not have the same word.
fn words(listed: &Listed, rank: usize) -> Vec<Row> {
    let both = [1, rank].map(|rank| listed.taken(rank));
    let spans: BTreeSet<[u32; 2]> = both.iter().flatten().map(|taken| taken.span).collect();
    let row = |span: [u32; 2]| {
        let there = |list: &Vec<Taken>| list.iter().find(|taken| taken.span == span).map(|taken| taken.candidate);
        let [first, other] = [there(&both[0]), there(&both[1])];
        let text =
            |candidate| Option::map_or(candidate, String::new(), |taken| listed.grammar.named.candidate_text(taken));
        let cost = |candidate| Option::map_or(candidate, 0, |taken: Candidate| i64::from(taken.cost));
        (first != other).then(|| Row {
            place: listed.heard.place(span),
            first: text(first),
            other: text(other),
            difference: cost(other) - cost(first),
        })
    };
    spans.into_iter().filter_map(row).collect()
}

/// The rules that one of both uses more often, or at other weights. Those of helpers weigh nothing and are left out.
fn rules(listed: &Listed, first: &Reading, other: &Reading) -> Vec<Row> {
    let named = &listed.grammar.named;
    let [first, other] = [first, other].map(|reading| named.rule_weights(reading));
    let rules: BTreeSet<u32> = first.keys().chain(other.keys()).copied().collect();
    let row = |rule: u32| {
        let [first, other] = [&first, &other].map(|uses| uses.get(&rule).map_or(&[][..], Vec::as_slice));
        let [before, after] = [first, other].map(|uses| uses.iter().copied().map(i64::from).sum::<i64>());
        let text = named.rule_text(rule);
        let (first, other) = match other.len() as i64 - first.len() as i64 {
            0 if first == other => return None,
            0 => (format!("{text}, at {before}"), format!("the same, at {after}")),
            more if more < 0 => (times(-more, text), String::new()),
            more => (String::new(), times(more, text)),
        };
        Some(Row { place: format!("rule {rule}"), first, other, difference: after - before })
    };
    rules.into_iter().filter_map(row).collect()
}

/// A rule that is used so many times more.
fn times(more: i64, text: String) -> String {
    match more {
        1 => text,
        more => format!("{more} times {text}"),
    }
}

fn print(rows: &[Row], rank: u32, sum: i64, output: &mut Output) -> Result<(), Failure> {
    let title = format!("reading {rank}");
    let width = |column: fn(&Row) -> &str, title: &str| {
        rows.iter().map(|row| columns(column(row))).chain([title.len()]).max().unwrap_or(0)
    };
    let [place, first, other] =
        [width(|row| &row.place, ""), width(|row| &row.first, "first"), width(|row| &row.other, &title)];
    let head = format!("{:place$}  {:first$}  {title:other$}", "", "first");
    output.line(output.paint(Style::Faint, head.trim_end()).as_str())?;
    for row in rows {
        let named = output.paint(Style::Faint, &padded(&row.place, place));
        let difference = output.paint(Style::Strong, &signed(row.difference));
        let (first, other) = (padded(&row.first, first), padded(&row.other, other));
        output.line(&format!("{named}  {first}  {other}{difference}"))?;
    }
    let sum = output.paint(Style::Strong, &signed(sum));
    output.line(&format!("{:place$}  {:first$}  {:other$}{sum}", "", "", ""))
}

/// A difference in a column of its own.
fn signed(difference: i64) -> String {
    match difference {
        0 => format!("{:>7}", 0),
        _ => format!("{difference:>+7}"),
    }
}
