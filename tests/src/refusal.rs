//! Rows of the table of refusals (document 01, "Where each check stands"; document 02, N1).

use spireyerba::Refusal;

/// The refusals of the grammar block's row.
pub const GRAMMAR_BLOCK: [Refusal; 7] = [
    Refusal::GrammarEnd,
    Refusal::GrammarKind,
    Refusal::GrammarRange,
    Refusal::GrammarSymbol,
    Refusal::GrammarWord,
    Refusal::GrammarRepeat,
    Refusal::GrammarFill,
];

/// The refusals of the grammar sheet's row.
pub const GRAMMAR_SHEET: [Refusal; 6] = [
    Refusal::GrammarRange,
    Refusal::GrammarSymbol,
    Refusal::GrammarWord,
    Refusal::GrammarRepeat,
    Refusal::SheetCount,
    Refusal::SheetValue,
];

/// The refusals of the utterance block's row.
pub const UTTERANCE_BLOCK: [Refusal; 6] = [
    Refusal::UtteranceEnd,
    Refusal::UtteranceKind,
    Refusal::UtteranceRange,
    Refusal::UtteranceWord,
    Refusal::UtteranceOrder,
    Refusal::UtteranceFill,
];

/// The refusals of the reading block's row.
pub const READING_BLOCK: [Refusal; 6] = [
    Refusal::ReadingEnd,
    Refusal::ReadingKind,
    Refusal::ReadingSlots,
    Refusal::ReadingWalk,
    Refusal::ReadingWeight,
    Refusal::ReadingFill,
];

/// The refusals that a word graph's block adds to those of an utterance's.
pub const GRAPH_BLOCK: [Refusal; 2] = [Refusal::EdgePlaces, Refusal::EdgeRepeat];
