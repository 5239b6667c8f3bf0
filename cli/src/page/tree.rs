//! A tree drawn as SVG: symbols above, words in a line below them.

use super::escaped;
use crate::commands::list::Listed;
use crate::heard::{HeardWords, Taken};
use spireyerba::text::NamedGrammar;
use spireyerba::{Part, Tree};
use std::fmt::Write;

/// Lengths in units of the drawing, of which a character is about `CHARACTER` wide.
const CHARACTER: f64 = 8.2;
const PADDING: f64 = 26.0;
const LEVEL: f64 = 52.0;
const MARGIN: f64 = 18.0;
/// From a node's baseline up to where a line to it ends, and down to where lines from it begin.
const ABOVE: f64 = 15.0;
const BELOW: f64 = 6.0;
/// By how much a mark is wider than its word.
const MARK_PADDING: f64 = 12.0;
/// From a word's baseline to that of its cost.
const COST_LINE: f64 = 17.0;
/// What stands below the words' baseline.
const FOOT: f64 = 26.0;

/// Where things stand in a drawing.
struct Layout<'a> {
    listed: &'a Listed,
    named: &'a NamedGrammar,
    /// The middle of each word's column.
    columns: Vec<f64>,
    /// The words' baseline.
    baseline: f64,
    /// The words as they were heard, and which of them are marked.
    taken: Vec<Taken>,
    marked: Vec<bool>,
    svg: String,
}

/// The drawing of a reading's tree, in which words that the first reading does not have there are marked.
pub fn svg(listed: &Listed, rank: usize) -> String {
    let (named, tree) = (&listed.grammar.named, &listed.tree(&listed.readings[rank - 1]));
    let mut widths = Vec::new();
    word_widths(named, tree, &mut widths);
    let mut columns = Vec::new();
    let mut edge = MARGIN;
    for width in widths {
        columns.push(edge + width / 2.0);
        edge += width;
    }
    let baseline = MARGIN + LEVEL * tree.height() as f64;
    let (width, height) = (edge + MARGIN, baseline + FOOT);
    let (taken, marked) = (listed.taken(rank), listed.differing(rank));
    let mut layout = Layout { listed, named, columns, baseline, taken, marked, svg: String::new() };
    layout.node(tree, MARGIN);
    let label = escaped(&format!("tree of {}", named.symbol(tree.head)));
    format!(
        "<svg viewBox=\"0 0 {width:.0} {height:.0}\" width=\"{width:.0}\" height=\"{height:.0}\" role=\"img\" \
         aria-label=\"{label}\">\n{}</svg>\n",
        layout.svg
    )
}

/// The width of each word's column. Those below a symbol that is wider than they are together are widened.
fn word_widths(named: &NamedGrammar, tree: &Tree, widths: &mut Vec<f64>) {
    let width = |text: &str| text.chars().count() as f64 * CHARACTER + PADDING;
    let first = widths.len();
    for part in &tree.parts {
        match part {
            Part::Word { word, .. } => widths.push(width(named.word(*word))),
            Part::Tree(tree) => word_widths(named, tree, widths),
        }
    }
    let below = &mut widths[first..];
    let missing = width(named.symbol(tree.head)) - below.iter().sum::<f64>();
    let share = missing.max(0.0) / below.len() as f64;
    below.iter_mut().for_each(|width| *width += share);
}

impl Layout<'_> {
    /// Draws a node at a height and what is below it; answers where its middle is.
    fn node(&mut self, tree: &Tree, y: f64) -> f64 {
        let (baseline, below) = (y + ABOVE, y + LEVEL);
        let middles = tree.parts.iter().map(|part| match part {
            Part::Word { word, number } => self.word(*word, *number),
            Part::Tree(tree) => self.node(tree, below),
        });
        let middles: Vec<f64> = middles.collect();
        let x = (middles[0] + middles[middles.len() - 1]) / 2.0;
        for (part, &middle) in tree.parts.iter().zip(&middles) {
            match part {
                Part::Tree(_) => self.line("", [x, baseline + BELOW], [middle, below]),
                Part::Word { .. } if middles.len() == 1 => self.leaf_line(x, baseline + BELOW),
                Part::Word { .. } => {
                    // no lower than the word
                    let bend = below.min(self.baseline - ABOVE);
                    self.line("", [x, baseline + BELOW], [middle, bend]);
                    self.leaf_line(middle, bend);
                }
            }
        }
        let weight = match tree.weight {
            0 => String::new(),
            weight => format!("<tspan class=\"small\" dx=\"3\">{weight}</tspan>"),
        };
        let (symbol, text) = (escaped(self.named.symbol(tree.head)), escaped(&self.named.rule_text(tree.rule)));
        self.put(format_args!(
            "<text class=\"symbol\" x=\"{x:.1}\" y=\"{baseline:.1}\"><title>rule {}: {text}</title>{symbol}{weight}</text>",
            tree.rule
        ));
        x
    }

    /// Draws the line from a height down to a word.
    fn leaf_line(&mut self, x: f64, from: f64) {
        let to = self.baseline - ABOVE;
        if from < to {
            self.line("leaf", [x, from], [x, to]);
        }
    }

    /// Draws a word below; answers where its middle is.
    fn word(&mut self, word: u32, number: usize) -> f64 {
        let (x, y) = (self.columns[number], self.baseline);
        let taken = self.taken[number];
        if self.marked[number] {
            let width = self.named.word(word).chars().count() as f64 * CHARACTER + MARK_PADDING;
            let (left, top, height) = (x - width / 2.0, y - ABOVE, ABOVE + BELOW);
            self.put(format_args!(
                "<rect x=\"{left:.1}\" y=\"{top:.1}\" width=\"{width:.1}\" height=\"{height:.1}\" rx=\"3\"/>"
            ));
        }
        let (text, place) = (escaped(self.named.word(word)), self.listed.heard.place(taken.span));
        let cost = taken.candidate.cost;
        self.put(format_args!("<text class=\"word\" x=\"{x:.1}\" y=\"{y:.1}\"><title>{place}</title>{text}</text>"));
        self.put(format_args!("<text class=\"small\" x=\"{x:.1}\" y=\"{:.1}\">{cost}</text>", y + COST_LINE));
        x
    }

    fn line(&mut self, class: &str, from: [f64; 2], to: [f64; 2]) {
        let class = if class.is_empty() { String::new() } else { format!(" class=\"{class}\"") };
        let [[x, y], [u, v]] = [from, to];
        self.put(format_args!("<line{class} x1=\"{x:.1}\" y1=\"{y:.1}\" x2=\"{u:.1}\" y2=\"{v:.1}\"/>"));
    }

    fn put(&mut self, element: std::fmt::Arguments) {
        writeln!(self.svg, "{element}").expect("a string takes all");
    }
}
