//! Trees drawn with characters.

use crate::heard::Taken;
use crate::output::{Output, Style};
use spireyerba::text::NamedGrammar;
use spireyerba::{Part, Tree};

/// What stands before a part, and before what is below it, if another part follows and if none does.
const BRANCH: [&str; 2] = ["├─ ", "│  "];
const LAST_BRANCH: [&str; 2] = ["└─ ", "   "];

/// Draws a tree, a node a line behind a margin: its symbol, its rule's weight in brackets, and words with their costs.
pub struct Drawing<'a> {
    pub grammar: &'a NamedGrammar,
    /// The words of the reading as they were heard.
    pub taken: &'a [Taken],
    pub output: &'a Output,
}

impl Drawing<'_> {
    pub fn draw(&self, tree: &Tree, margin: &str) -> String {
        let mut text = String::new();
        self.node(&mut text, tree, [margin, margin]);
        text
    }

    /// Draws a node behind what stands before it, and what is below it. A word that is all that stands below it stands behind
    /// it, and any other word in a line of its own.
    fn node(&self, text: &mut String, tree: &Tree, [before, below]: [&str; 2]) {
        let weight = self.output.paint(Style::Faint, &format!("[{}]", tree.weight));
        let symbol = self.grammar.symbol(tree.head);
        *text += &format!("{before}{symbol} {weight}");
        if let [Part::Word { word, number }] = tree.parts[..] {
            *text += &format!("  {}\n", self.word(word, number));
            return;
        }
        text.push('\n');
        for (behind, part) in (0..tree.parts.len()).rev().zip(&tree.parts) {
            let branch = if behind == 0 { LAST_BRANCH } else { BRANCH };
            let [first, rest] = branch.map(|branch| format!("{below}{branch}"));
            match part {
                Part::Word { word, number } => *text += &format!("{first}{}\n", self.word(*word, *number)),
                Part::Tree(tree) => self.node(text, tree, [&first, &rest]),
            }
        }
    }

    /// A word with its cost.
    fn word(&self, word: u32, number: usize) -> String {
        let name = self.output.paint(Style::Strong, self.grammar.word(word));
        let cost = self.taken[number].candidate.cost.to_string();
        format!("{name} {}", self.output.paint(Style::Faint, &cost))
    }
}
