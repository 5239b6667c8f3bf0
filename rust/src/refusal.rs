//! The refusals, each with its number and its meaning.

use std::error::Error;
use std::fmt::{Display, Formatter};

macro_rules! refusals {
    ($($number:literal $name:ident $meaning:literal,)+) => {
        /// Why a service refused what it was handed. A refusal changes nothing that was lent.
        ///
        /// Where several conditions hold, the one that is met first is answered: the grammar's, then the utterance's, then
        /// the reading's, each field by field, then those of a number wanted, of shares and of lengths lent. Each function of
        /// [`services`](crate::services) says where it departs from this.
        ///
        /// ```
        /// use spireyerba::Refusal;
        ///
        /// let refusal = spireyerba::services::grammar_to_sheet(&[0x20], &mut []).unwrap_err();
        /// assert_eq!(refusal, Refusal::GrammarKind);
        /// assert_eq!(refusal.number(), 2);
        /// assert_eq!(refusal.to_string(), "refused 2: the grammar block's kind is not 1 or 4");
        /// ```
        #[derive(Clone, Copy, Debug, PartialEq, Eq, PartialOrd, Ord, Hash)]
        #[non_exhaustive]
        pub enum Refusal {
            $(#[doc = concat!(stringify!($number), ": ", $meaning, ".")] $name = $number,)+
        }

        impl Refusal {
            /// Every refusal, in the order of the numbers.
            pub const ALL: &'static [Self] = &[$(Self::$name),+];

            /// What was wrong, in words.
            pub const fn meaning(self) -> &'static str {
                match self {
                    $(Self::$name => $meaning,)+
                }
            }
        }
    };
}

refusals! {
    1 GrammarEnd "a field of the grammar block passes its end",
    2 GrammarKind "the grammar block's kind is not 1 or 4",
    3 GrammarRange "the grammar's number of symbols, words or rules is out of range",
    4 GrammarSymbol "a symbol of the grammar is not below the number of symbols",
    5 GrammarWord "a word of the grammar is not below the number of words",
    6 GrammarRepeat "a rule has kind, head and body of an earlier one, or in an office sheet head and items",
    7 GrammarFill "the grammar block has nonzero fill in its last byte, or further bytes",
    11 UtteranceEnd "a field of the utterance block passes its end",
    12 UtteranceKind "the utterance block's kind is not 2, nor 5 where a word graph is taken",
    13 UtteranceRange "the utterance's number of slots, of words in a slot, of places or of edges is out of range",
    14 UtteranceWord "a word of the utterance is not below the grammar's number of words",
    15 UtteranceOrder "a word is not above the one before it in its slot",
    16 UtteranceFill "the utterance block has nonzero fill in its last byte, or further bytes",
    21 ListingWanted "the number of readings wanted is not 1 to 256",
    22 ListingWork "the work table is short",
    23 ListingOutput "the output is short for the readings wanted",
    25 SpecimenLength "the length wanted is not 1 to 24, or for phrases not 1 to 6",
    26 SpecimenOutput "the output is shorter than the length wanted",
    31 ReadingEnd "a field of the reading block passes its end",
    32 ReadingKind "the reading block's kind is not 3, or for a word graph not 6",
    33 ReadingSlots "the reading's number of slots is not the utterance's, or that of edges is not 1 to P - 1",
    34 ReadingWalk "the reading's rule and edge numbers are not the walk of a derivation",
    35 ReadingWeight "the reading's weight is not its derivation's",
    36 ReadingFill "the reading block has nonzero fill in its last byte, or further bytes",
    41 SheetCount "numbers of the sheet are missing or left over",
    42 SheetValue "a rule's or an item's kind or a mark is not 0 or 1, a weight or cost passes 65,535, or a word rule's fifth number is not 0",
    43 OutputShort "the output is shorter than the result",
    51 EdgePlaces "an edge does not end above where it starts, or not below the number of places",
    52 EdgeRepeat "an edge has the places and the word of an earlier one",
    53 AlteredWalk "the walk that altered numbers spell is not a reading that passes",
    54 ItemCount "a body of an office sheet does not have 1 to 6 items",
    55 ItemAlone "a body of an office sheet is one symbol",
    56 OfficeSize "the grammar that an office sheet becomes passes 32 symbols or 256 rules",
    57 PanelSlots "the panel takes at most 12 slots, or 13 places of a word graph",
    58 PanelWanted "the panel lists at most 16 readings",
    59 RangesDisagree "the utterances differ elsewhere than in costs, a cost falls, or 65,535 stands in one only",
    60 SharesCount "there is not one share for each rule of the grammar",
    61 ShareRange "a share is not 1 to 1,024",
}

impl Refusal {
    /// The number by which document 01, the C interface and the lister name it.
    pub const fn number(self) -> u32 {
        self as u32
    }

    /// The refusal with a number, if there is one.
    pub fn from_number(number: u32) -> Option<Self> {
        Self::ALL.iter().copied().find(|refusal| refusal.number() == number)
    }
}

impl Display for Refusal {
    fn fmt(&self, formatter: &mut Formatter) -> std::fmt::Result {
        write!(formatter, "refused {}: {}", self.number(), self.meaning())
    }
}

impl Error for Refusal {}
