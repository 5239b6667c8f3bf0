//! The page that `report` writes: HTML with its style and its drawings inside, and no script.

mod changes;
mod lattice;
mod tree;

pub use changes::{CostChanges, Ranges};

use crate::commands::list::{other_trees, used_up, Listed};
use crate::heard::{HeardWords, Taken};
use crate::no_reading::Lines;
use spireyerba::Heard;
use std::fmt::Write;

const STYLE: &str = include_str!("style.css");
/// Trees over no more slots than these stand beside each other.
const NARROW_SLOTS: usize = 8;

/// What the page was made from.
pub struct Source<'a> {
    pub grammar: &'a str,
    pub utterance: &'a str,
    pub wanted: u32,
}

/// The page about some readings, and about what other costs would do, if that is known.
pub fn page(listed: &Listed, source: &Source, changes: Option<&CostChanges>) -> String {
    let title = escaped(source.utterance);
    let mut html = format!(
        "<!DOCTYPE html>\n<html lang=\"en\">\n<head>\n<meta charset=\"utf-8\">\n<meta name=\"viewport\" \
         content=\"width=device-width, initial-scale=1\">\n<title>Readings of {title}</title>\n<style>\n{STYLE}</style>\n\
         </head>\n<body>\n"
    );
    html += &header(listed, source);
    html += &heard(listed, changes);
    html += &overview(listed);
    html += &no_reading(listed);
    html += &changes.map_or(String::new(), |changes| changes.sections(listed));
    html += &trees(listed);
    let version = env!("CARGO_PKG_VERSION");
    html + &format!(
        "<footer>spireyerba {version}: the readings of least weight, none left out</footer>\n</body>\n</html>\n"
    )
}

/// Text as it may stand in HTML.
pub fn escaped(text: &str) -> String {
    let mut html = String::with_capacity(text.len());
    for letter in text.chars() {
        match letter {
            '&' => html += "&amp;",
            '<' => html += "&lt;",
            '>' => html += "&gt;",
            '"' => html += "&quot;",
            letter => html.push(letter),
        }
    }
    html
}

fn header(listed: &Listed, source: &Source) -> String {
    let named = &listed.grammar.named;
    let counts = [
        counted(named.own_symbols() as usize, "symbol"),
        counted(named.words.len(), "word"),
        counted(named.own_rules() as usize, "rule"),
    ];
    let (found, what) = (listed.readings.len(), listed.others.as_ref().map_or("reading", |_| "sentence"));
    let number = match found {
        0 => "It has no reading: the grammar derives nothing of what was heard.".into(),
        _ if listed.used_up => format!("Its {} of least weight: {}.", counted(found, what), used_up(found)),
        _ if found < source.wanted as usize => format!("It has {} in all.", counted(found, what)),
        _ => format!("Its {} of least weight.", counted(found, what)),
    };
    let best = listed.readings.first().map_or(String::new(), |reading| {
        let sentence = escaped(&listed.grammar.named.sentence(reading));
        format!("<p class=\"best\">{sentence} <span class=\"weight\">{}</span></p>\n", reading.weight)
    });
    format!(
        "<header>\n<p class=\"source\">{} under {} ({})</p>\n{best}<p>{}. {number}</p>\n</header>\n",
        escaped(source.utterance),
        escaped(source.grammar),
        counts.join(", "),
        size(&listed.heard),
    )
}

/// What was heard in short.
fn size(heard: &Heard) -> String {
    match heard {
        Heard::Slots(utterance) => format!("An utterance of {}", counted(utterance.slots.len(), "slot")),
        Heard::Graph(graph) => {
            let places = counted(graph.places as usize, "place");
            format!("A word graph of {places} and {}", counted(graph.edges.len(), "edge"))
        }
    }
}

/// Why there is no reading, if there is none.
fn no_reading(listed: &Listed) -> String {
    let Some(none) = listed.no_reading() else { return String::new() };
    let Lines { goes_along, could_follow, heard: (there, heard) } = none.lines();
    let rows = [("goes along with the grammar", goes_along), ("could follow there", could_follow), (&there, heard)];
    let rows = rows.map(|(title, text)| format!("<dt>{title}</dt><dd>{}</dd>\n", escaped(&text))).concat();
    format!("<section>\n<h2>Why there is no reading</h2>\n<dl>\n{rows}</dl>\n</section>\n")
}

fn counted(count: usize, what: &str) -> String {
    format!("{count} {what}{}", if count == 1 { "" } else { "s" })
}

/// What was heard, and what of it is not on the page.
fn heard(listed: &Listed, changes: Option<&CostChanges>) -> String {
    let drawn = match &listed.heard {
        Heard::Slots(_) => slots(listed, changes),
        Heard::Graph(graph) => {
            let seconds = if listed.times.is_some() { ", below each of which its second stands" } else { "" };
            format!(
                "<figure>\n{}</figure>\n<p class=\"note\">Time goes from left to right, from place to place{seconds}. A number is a \
                 cost: how badly the word fits what was heard. Marked: the path of the first reading. Struck out: not \
                 heard.</p>\n",
                lattice::svg(listed, graph)
            )
        }
    };
    let left_out = listed.left_out.iter().map(|note| format!("<p class=\"left-out\">{}.</p>\n", escaped(note)));
    format!("<section>\n<h2>What was heard</h2>\n{}{drawn}</section>\n", left_out.collect::<String>())
}

/// The slots, each with its words, the cheapest first.
fn slots(listed: &Listed, changes: Option<&CostChanges>) -> String {
    let (best, mut groups) = (listed.taken(1), listed.heard.groups());
    let heard = groups.iter().flatten().map(|taken| taken.candidate).filter(|candidate| candidate.is_offered());
    let greatest = heard.map(|candidate| candidate.cost).max().unwrap_or(0).max(1);
    let mut html = String::from("<ol class=\"slots\" start=\"0\">\n");
    for group in &mut groups {
        group.sort_by_key(|taken| taken.candidate.cost);
        let words: String = group
            .iter()
            .map(|taken| {
                let highest = changes.and_then(|changes| changes.highest(taken));
                word(listed, taken, best.contains(taken), Costs { greatest, highest })
            })
            .collect();
        let title = listed.heard.place(group[0].span);
        write!(html, "<li><h3>{title}</h3>\n{words}</li>\n").expect("a string takes all");
    }
    html + "</ol>\n<p class=\"note\">A number is a cost: how badly the word fits what was heard. Marked: the words of the \
            first reading. Struck out: not heard.</p>\n"
}

/// The costs beside which that of a word is shown: the greatest of all, and the greatest that the word may have, if it is more.
struct Costs {
    greatest: u32,
    highest: Option<u32>,
}

/// A word that was heard, with a bar as long as its cost is great.
fn word(listed: &Listed, Taken { candidate, .. }: &Taken, is_best: bool, costs: Costs) -> String {
    let word = escaped(listed.grammar.named.word(candidate.word));
    if !candidate.is_offered() {
        return format!("<div class=\"candidate unheard\"><span>{word}</span></div>\n");
    }
    let class = if is_best { "candidate taken" } else { "candidate" };
    let percent = f64::from(candidate.cost) * 100.0 / f64::from(costs.greatest);
    let highest = costs.highest.map_or(String::new(), |highest| format!("–{highest}"));
    format!(
        "<div class=\"{class}\"><span>{word}</span><span class=\"number\">{}{highest}</span>\
         <span class=\"bar\" style=\"width:{percent:.1}%\"></span></div>\n",
        candidate.cost
    )
}

/// A table of the readings.
fn overview(listed: &Listed) -> String {
    let Some(first) = listed.readings.first() else { return String::new() };
    let mut html = String::from(
        "<section>\n<h2>Readings</h2>\n<table class=\"readings\">\n<tr><th>rank</th><th>weight</th><th>more</th>\
         <th>words</th></tr>\n",
    );
    for (rank, reading) in (1..).zip(&listed.readings) {
        let more = reading.weight - first.weight;
        let more = if rank == 1 { String::new() } else { format!("+{more}") };
        let words = marked_words(listed, rank);
        let others = other_trees(listed, rank).map_or(String::new(), |others| format!(" <small>{others}</small>"));
        writeln!(
            html,
            "<tr><td class=\"number\"><a href=\"#reading-{rank}\">{rank}</a></td><td class=\"number\">{}</td>\
             <td class=\"number more\">{more}</td><td>{words}{others}</td></tr>",
            reading.weight
        )
        .expect("a string takes all");
    }
    html += "</table>\n<p class=\"note\">A weight is the sum of a reading's rules and words. In a tree the number beside a \
            symbol is the weight of its rule, and that below a word its cost. Marked: words that the first reading does not \
            have there.";
    if listed.others.is_some() {
        html += " Each sentence stands once, by its first reading; +2 trees says that 2 more of the first 256 readings have its words.";
    }
    html + "</p>\n</section>\n"
}

fn marked_words(listed: &Listed, rank: usize) -> String {
    let words = listed.words(rank).into_iter().map(escaped).zip(listed.differing(rank));
    let words = words.map(|(word, differs)| if differs { format!("<mark>{word}</mark>") } else { word });
    words.collect::<Vec<_>>().join(" ")
}

/// Each reading as a drawn tree.
fn trees(listed: &Listed) -> String {
    if listed.readings.is_empty() {
        return String::new();
    }
    let wide = if listed.heard.longest() > NARROW_SLOTS { " class=\"wide\"" } else { "" };
    let mut html = String::from("<section class=\"trees\">\n");
    for (rank, reading) in (1..).zip(&listed.readings) {
        let svg = tree::svg(listed, rank);
        let words = escaped(&listed.grammar.named.sentence(reading));
        write!(
            html,
            "<figure{wide} id=\"reading-{rank}\">\n<figcaption><span class=\"rank\">{rank}</span> {words} \
             <span class=\"weight\">{}</span></figcaption>\n{svg}</figure>\n",
            reading.weight
        )
        .expect("a string takes all");
    }
    html + "</section>\n"
}
