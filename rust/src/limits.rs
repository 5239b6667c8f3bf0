//! How large things may be, and how much is to be lent.

/// A grammar has 1 to so many symbols; symbol 0 is the start.
pub const MAX_SYMBOLS: u32 = 32;
/// A grammar has 1 to so many words, which are numbered apart from the symbols.
pub const MAX_WORDS: u32 = 200;
/// A grammar has 1 to so many rules.
pub const MAX_RULES: u32 = 256;
/// An utterance has 1 to so many slots.
pub const MAX_SLOTS: u32 = 24;
/// A slot has 1 to so many candidates.
pub const MAX_CANDIDATES: u32 = 7;
/// A word graph has 2 to so many places, and so a path has at most as many edges as an utterance has slots.
pub const MAX_PLACES: u32 = 25;
/// A word graph has 1 to so many edges.
pub const MAX_EDGES: u32 = 96;
/// The greatest weight of a rule, and the greatest cost that a candidate or an edge can be given.
pub const MAX_WEIGHT: u32 = 65_535;
/// The cost that says that a word was not heard: the slot does not offer it, or the graph not on that edge
/// ([`Candidate::is_offered`](crate::Candidate::is_offered), [`Edge::is_offered`](crate::Edge::is_offered)). As the weight
/// of a rule the number is like any other.
pub const NOT_HEARD: u32 = 65_535;
/// The body of an office's rule has 1 to so many items; one item is a word.
pub const MAX_ITEMS: u32 = 6;
/// The greatest share of a rule, and what shares are of; the least is 1.
pub const MAX_SHARE: u32 = 1_024;
/// A listing answers 1 to so many readings.
pub const MAX_READINGS: u32 = 256;

/// [`panel_listing`](crate::services::panel_listing) takes at most so many slots.
pub const PANEL_MAX_SLOTS: u32 = 12;
/// [`panel_listing`](crate::services::panel_listing) takes a word graph of at most so many places.
pub const PANEL_MAX_PLACES: u32 = 13;
/// [`panel_listing`](crate::services::panel_listing) answers 1 to so many readings.
pub const PANEL_MAX_READINGS: u32 = 16;
/// No call of [`panel_listing`](crate::services::panel_listing) needs a longer work table.
pub const PANEL_WORK_MAX: usize = 159_744;
/// No call of [`panel_listing`](crate::services::panel_listing) needs a longer output.
pub const PANEL_OUTPUT_MAX: usize = 608;

/// [`next_phrase`](crate::services::next_phrase) hands out phrases of 1 to so many words.
pub const MAX_PHRASE: u32 = 6;

/// The numbers of an entry of [`word_margins`](crate::services::word_margins): amount, slot, word and weight.
pub const MARGIN_NUMBERS: usize = 4;
/// No call of [`word_margins`](crate::services::word_margins) needs a longer output.
pub const MARGINS_MAX: usize = margins_length((MAX_SLOTS * MAX_CANDIDATES) as usize);

/// No grammar block that is accepted has more bytes. It is of 256 rules with marks; without marks, 1,028 is the most.
pub const GRAMMAR_BLOCK_MAX: usize = 1_060;
/// No utterance block that is accepted has more bytes.
pub const UTTERANCE_BLOCK_MAX: usize = 515;
/// No block of a word graph that is accepted has more bytes.
pub const GRAPH_BLOCK_MAX: usize = 410;
/// No block of a reading of slots has more bytes.
pub const READING_BLOCK_MAX: usize = 52;
/// No block of a reading of a word graph has more bytes.
pub const GRAPH_READING_BLOCK_MAX: usize = 73;
/// No grammar sheet that is accepted has more numbers. It is of 256 rules with marks; without marks, 1,283 is the most.
pub const GRAMMAR_SHEET_MAX: usize = 1_539;
/// No utterance sheet that is accepted has more numbers.
pub const UTTERANCE_SHEET_MAX: usize = 361;

/// The bits needed to write a number, at least 1. In a block a symbol's field has `width(S - 1)` bits for S symbols; words
/// and rule numbers likewise.
pub const fn width(number: u32) -> usize {
    match number {
        0 => 1,
        _ => number.ilog2() as usize + 1,
    }
}

/// The nodes of a derivation over so many slots, or over a path of so many edges, at least one.
pub const fn nodes(slots: usize) -> usize {
    2 * slots - 1
}

/// The bytes of a reading's block over so many slots under a grammar of so many rules, at least one of each.
pub const fn reading_length(slots: usize, rules: usize) -> usize {
    (READING_HEAD_WIDTH + nodes(slots) * width(rules as u32 - 1)).div_ceil(8)
}

/// The bytes of a graph's reading over a path of so many edges under a grammar of so many rules, at least one of each. A
/// listing of a graph of P places gives each reading as many bytes as one of P − 1 edges has, the rest zeros; the check takes
/// a reading cut to its own.
pub const fn graph_reading_length(edges: usize, rules: usize) -> usize {
    (READING_HEAD_WIDTH + nodes(edges) * width(rules as u32 - 1) + EDGE_NUMBER_WIDTH * edges).div_ceil(8)
}

/// The numbers of work table that a listing of so many readings needs. A graph of P places needs what P − 1 slots do.
pub const fn work_length(symbols: usize, slots: usize, wanted: usize) -> usize {
    NUMBERS_OF_ENTRY * symbols * (slots * (slots + 1) / 2) * wanted
}

/// The numbers of output that [`word_margins`](crate::services::word_margins) needs for an utterance with so many words in all.
pub const fn margins_length(candidates: usize) -> usize {
    MARGIN_NUMBERS * candidates
}

/// The bits of a block's kind; of a reading's number of slots, or of edges, and of its weight; of an edge's number in it.
pub(crate) const KIND_WIDTH: usize = 4;
pub(crate) const READING_SLOTS_WIDTH: usize = 6;
pub(crate) const READING_WEIGHT_WIDTH: usize = 24;
pub(crate) const EDGE_NUMBER_WIDTH: usize = 7;
const READING_HEAD_WIDTH: usize = KIND_WIDTH + READING_SLOTS_WIDTH + READING_WEIGHT_WIDTH;
/// The bits of an utterance's number of slots, and of a slot's number of candidates.
pub(crate) const SLOTS_WIDTH: usize = 6;
pub(crate) const CANDIDATES_WIDTH: usize = 3;
/// The bits of a graph's number of places and of edges; of an edge's place and of its cost.
pub(crate) const PLACES_WIDTH: usize = 5;
pub(crate) const EDGES_WIDTH: usize = 7;
pub(crate) const PLACE_WIDTH: usize = 5;
pub(crate) const COST_WIDTH: usize = 16;

/// The work table has an entry for each rank of each symbol over each span.
const NUMBERS_OF_ENTRY: usize = 4;

#[cfg(test)]
mod tests {
    use super::*;

    #[test]
    fn widths() {
        let widths = [0, 1, 2, 3, 4, 7, 8, 31, 128, 199, 255].map(width);
        assert_eq!(widths, [1, 1, 2, 2, 3, 3, 4, 5, 8, 8, 8]);
    }

    #[test]
    fn lengths_that_document_01_names() {
        assert_eq!((work_length(1, 4, 8), 8 * reading_length(4, 2)), (320, 48));
        assert_eq!(reading_length(MAX_SLOTS as usize, MAX_RULES as usize), READING_BLOCK_MAX);
    }

    #[test]
    fn lengths_of_the_panel() {
        let (slots, readings) = (PANEL_MAX_SLOTS as usize, PANEL_MAX_READINGS as usize);
        assert_eq!(work_length(MAX_SYMBOLS as usize, slots, readings), PANEL_WORK_MAX);
        assert_eq!(readings * graph_reading_length(slots, MAX_RULES as usize), PANEL_OUTPUT_MAX);
        assert!(readings * reading_length(slots, MAX_RULES as usize) <= PANEL_OUTPUT_MAX);
        assert_eq!((work_length(1, 12, 16), 16 * reading_length(12, 2)), (4_992, 128));
    }

    #[test]
    fn lengths_of_graphs() {
        let edge = 2 * PLACE_WIDTH + width(MAX_WORDS - 1) + COST_WIDTH;
        let bits = KIND_WIDTH + PLACES_WIDTH + EDGES_WIDTH + MAX_EDGES as usize * edge;
        assert_eq!(bits.div_ceil(8), GRAPH_BLOCK_MAX);
        assert_eq!(graph_reading_length(MAX_PLACES as usize - 1, MAX_RULES as usize), GRAPH_READING_BLOCK_MAX);
        assert_eq!([1, 2, 3, 4].map(|edges| graph_reading_length(edges, 2)), [6, 7, 8, 9]);
    }
}
