//! What other costs would do to the first reading: words to listen to again, and costs known within ranges.

use super::escaped;
use crate::commands::list::Listed;
use crate::heard::Taken;
use spireyerba::{CostRanges, Heard, Utterance, WordMargin};
use std::fmt::Write;

pub struct CostChanges {
    pub margins: Vec<WordMargin>,
    /// If costs are known within ranges.
    pub ranges: Option<Ranges>,
}

pub struct Ranges {
    /// The greatest costs.
    pub high: Utterance,
    /// What can be said of the first reading, if there is one.
    pub first: Option<CostRanges>,
}

impl CostChanges {
    /// The greatest cost that a word may have, if that is more than the least.
    pub fn highest(&self, Taken { span, candidate }: &Taken) -> Option<u32> {
        let slot = &self.ranges.as_ref()?.high.slots[span[0] as usize];
        let high = slot.iter().find(|high| high.word == candidate.word)?.cost;
        (high > candidate.cost).then_some(high)
    }

    /// Both sections of the page; where there is no reading there is nothing to say.
    pub fn sections(&self, listed: &Listed) -> String {
        match &listed.heard {
            Heard::Slots(utterance) if !listed.readings.is_empty() => self.ranges() + &self.margins(listed, utterance),
            _ => String::new(),
        }
    }

    fn ranges(&self) -> String {
        let Some(CostRanges { least, greatest, stands }) = self.ranges.as_ref().and_then(|ranges| ranges.first) else {
            return String::new();
        };
        let fate = if stands {
            "<strong>The first reading stands</strong>: under no choice of costs is another strictly lighter."
        } else {
            "<strong>The first reading can be outweighed</strong>: under some choice of costs another is strictly lighter."
        };
        format!(
            "<section>\n<h2>Costs within ranges</h2>\n<p>Over all choices of costs a first reading weighs \
             <span class=\"weight\">{least}</span> to <span class=\"weight\">{greatest}</span>. {fate}</p>\n\
             <p class=\"note\">The readings on this page are for the least costs.</p>\n</section>\n"
        )
    }

    fn margins(&self, listed: &Listed, utterance: &Utterance) -> String {
        let mut html = String::from("<section>\n<h2>Words to listen to again</h2>\n");
        if self.margins.is_empty() {
            return html + "<p>No other word brings another reading, however cheap it is.</p>\n</section>\n";
        }
        html += "<table class=\"margins\">\n<tr><th>less</th><th>slot</th><th>word</th><th>cost</th><th>reading</th></tr>\n";
        for WordMargin { amount, slot, word, weight } in &self.margins {
            let words = &utterance.slots[*slot as usize];
            let cost = words.iter().find(|candidate| candidate.word == *word).map_or(0, |candidate| candidate.cost);
            let word = escaped(listed.grammar.named.word(*word));
            writeln!(
                html,
                "<tr><td class=\"number\">{amount}</td><td class=\"number\">{slot}</td><td>{word}</td>\
                 <td class=\"number\">{cost}</td><td class=\"number\">{weight}</td></tr>"
            )
            .expect("a string takes all");
        }
        html + "</table>\n<p class=\"note\">If the cost of the word alone were so much less, and no sooner, another reading would \
                come first: one that weighs now what stands last. Words that bring none, however cheap, are left out.</p>\n\
                </section>\n"
    }
}
