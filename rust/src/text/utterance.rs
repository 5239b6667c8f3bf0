//! The text of an utterance of slots.

use super::fold::{difference, folded};
use super::formats::Format;
use super::network::{is_network, Alignments};
use super::plain::PlainWords;
use super::scan::{is_bare, quoted, weight, Token, Tokens, UTTERANCE};
use super::{without_mark, Fault, NamedGrammar};
use crate::lattice::Keep;
use crate::limits::{MAX_CANDIDATES, MAX_SLOTS};
use crate::utterance::pack_accepted;
use crate::{Candidate, Error, Position, Refusal, Utterance};
use std::collections::HashMap;
use std::hash::{BuildHasherDefault, Hasher};

/// Reads utterances over a grammar's words, as text or as confusion networks, and word graphs, as text or as lattices.
/// [`text`](crate::text) says how they are written.
///
/// ```
/// use spireyerba::text::{NamedGrammar, UtteranceReader};
///
/// let doors = NamedGrammar::parse("Entry -> Door Number\nDoor -> \"door\"\nNumber -> \"four\" | \"five\"")?;
/// let mut reader = UtteranceReader::new(&doors);
/// let slots = reader.read("door 3\nfour 9 | five 5")?;
/// assert_eq!(reader.read("door 3 ; five 5 | four 9")?, slots);
/// reader.scale = Some(100.0);
/// let heard = reader.read("numaligns 2\nalign 0 door 0.97\nalign 1 five 0.95 four 0.91")?;
/// assert_eq!(heard, slots);
/// # Ok::<(), spireyerba::Error>(())
/// ```
#[derive(Clone, Debug)]
pub struct UtteranceReader<'a> {
    words: HashMap<&'a str, u32, BuildHasherDefault<ShortHasher>>,
    plain: PlainWords,
    /// How many words the grammar has.
    count: u32,
    /// The cost of a word with a posterior of 1/e in a confusion network, or a likelihood of 1/e in a lattice; twice as much
    /// has one with 1/e².
    pub scale: Option<f64>,
    /// The grammar's words without case and composition of letters.
    folded: HashMap<String, u32>,
    /// Take words for one that differ only in case or in the composition of letters.
    pub fold: bool,
    /// Leave out words that the grammar does not have, which no reading could use, in place of refusing them.
    pub drop_unknown: bool,
    /// Leave `*DELETE*` out of confusion networks in place of refusing it: something was said in every slot.
    pub drop_deletes: bool,
    /// Words that nobody says in lattices, such as those for silence, beside `!NULL` and the marks of a sentence's ends.
    pub empty_words: Vec<String>,
    /// The format that texts have; told by what stands in them unless given.
    pub format: Option<Format>,
    /// What is kept of lattices.
    pub keep: Keep,
    /// Refuse a lattice that a word graph has no room for in place of pruning it.
    pub exact: bool,
    /// Keep words that the grammar does not have, as [`UNKNOWN`](crate::lattice::UNKNOWN), in
    /// [`recognised`](Self::recognised). Those that would be left out otherwise are named as such all the same: no reading has
    /// them.
    pub keep_unknown: bool,
}

impl<'a> UtteranceReader<'a> {
    /// A reader that leaves nothing out and knows no scale.
    pub fn new(grammar: &'a NamedGrammar) -> Self {
        let words = grammar.words.iter().zip(0..).map(|(word, number)| (word.as_str(), number)).collect();
        let (plain, count) = (PlainWords::new(&grammar.words), grammar.words.len() as u32);
        // of two that differ only so the first
        let folded = (0..count).rev().map(|number| (folded(grammar.word(number)), number)).collect();
        Self {
            words,
            plain,
            count,
            scale: None,
            folded,
            fold: false,
            drop_unknown: false,
            drop_deletes: false,
            empty_words: Vec::new(),
            format: None,
            keep: Keep::default(),
            exact: false,
            keep_unknown: false,
        }
    }

    /// Reads the text of an utterance, or a confusion network.
    pub fn read(&self, text: &str) -> Result<Utterance, Error> {
        let text = without_mark(text);
        let is_network = |text| self.format.map_or_else(|| is_network(text), |format| format == Format::Network);
        if is_network(text) {
            return Alignments::parse(text)?.utterance(self);
        }
        let mut numbers = Vec::new();
        let mut slots = Slots::begin(&mut numbers);
        let mut lines = 1;
        for (before, line) in text.lines().enumerate() {
            lines = before + 1;
            self.line(&mut slots, &mut Tokens::new(line, lines, &UTTERANCE))?;
        }
        let end = Position { line: lines, column: 1 };
        slots.finish().map_err(|fault| Error::at(end, fault))?;
        Ok(Utterance::of_accepted(&numbers))
    }

    /// Reads the text of an utterance that stands in one line, with semicolons between its slots.
    pub fn read_line(&self, line: &str) -> Result<Utterance, Error> {
        let mut sheet = Vec::new();
        self.read_sheet(line, &mut sheet)?;
        Ok(Utterance::of_accepted(&sheet))
    }

    /// Reads the text of an utterance that stands in one line into a sheet, in the place of what that held and in the memory
    /// that it has.
    pub fn read_sheet(&self, line: &str, sheet: &mut Vec<u32>) -> Result<(), Error> {
        if self.plain.read(line.as_bytes(), &mut Slots::begin(sheet)).is_some() {
            return Ok(());
        }
        let mut slots = Slots::begin(sheet);
        let mut tokens = Tokens::new(line, 1, &UTTERANCE);
        self.line(&mut slots, &mut tokens)?;
        slots.finish().map_err(|fault| tokens.fault(fault))
    }

    /// Reads the text of an utterance that stands in one line into a block, by way of a sheet, both in the place of what they
    /// held and in the memory that they have.
    ///
    /// ```
    /// use spireyerba::text::{NamedGrammar, UtteranceReader};
    ///
    /// let doors = NamedGrammar::parse("Entry -> Door Number\nDoor -> \"door\"\nNumber -> \"four\" | \"five\"")?;
    /// let (mut sheet, mut block) = (Vec::new(), Vec::new());
    /// UtteranceReader::new(&doors).read_block("door 3; four 9 | five 5", &mut sheet, &mut block)?;
    /// assert_eq!(sheet, [2, 1, 0, 3, 2, 1, 9, 2, 5]);
    /// let utterance = doors.parse_utterance("door 3; four 9 | five 5")?;
    /// assert_eq!(block, utterance.to_block(&doors.to_block()?)?);
    /// # Ok::<(), spireyerba::Error>(())
    /// ```
    pub fn read_block(&self, line: &str, sheet: &mut Vec<u32>, block: &mut Vec<u8>) -> Result<(), Error> {
        self.read_sheet(line, sheet)?;
        pack_accepted(sheet, self.count, block);
        Ok(())
    }

    /// Adds the slots of one line.
    fn line(&self, slots: &mut Slots, tokens: &mut Tokens) -> Result<(), Error> {
        let mut next = tokens.next()?;
        while let Some(first) = next {
            let mark = tokens.mark();
            slots.begin_slot().map_err(|fault| tokens.fault(fault))?;
            next = self.slot(slots, first, tokens)?;
            if !self.keep_unknown {
                slots.finish_slot().map_err(|fault| Error::at(tokens.position_of(mark), fault))?;
            }
        }
        Ok(())
    }

    /// Reads the candidates of a slot; answers the first token of the next slot, if there is one in the line.
    fn slot<'b>(
        &self,
        slots: &mut Slots,
        first: Token<'b>,
        tokens: &mut Tokens<'b>,
    ) -> Result<Option<Token<'b>>, Error> {
        let mut word = Some(first);
        loop {
            match self.candidate(slots, word, tokens)? {
                None => return Ok(None),
                Some(Token::Mark(';')) => return tokens.next(),
                Some(Token::Mark('|')) => word = tokens.next()?,
                other => return tokens.expected("`|`, `;` or the end of the line", other),
            }
        }
    }

    /// Reads a candidate whose word is at hand; answers the token behind it.
    fn candidate<'b>(
        &self,
        slots: &mut Slots,
        word: Option<Token<'b>>,
        tokens: &mut Tokens<'b>,
    ) -> Result<Option<Token<'b>>, Error> {
        let known = match &word {
            Some(Token::Bare(word)) => self.take(slots, word),
            Some(Token::Quoted(word)) => self.take(slots, word),
            _ => return tokens.expected("a word", word),
        };
        let known = known.map_err(|fault| tokens.fault(fault))?;
        let mut next = tokens.next()?;
        let mut cost = 0;
        if let Some(Token::Bare(item)) = next {
            cost = weight(item, "cost").map_err(|fault| tokens.fault(fault))?;
            next = tokens.next()?;
        }
        if let Some(word) = known {
            slots.add(Candidate { word, cost });
        }
        Ok(next)
    }

    /// The number of a word that the last slot is to have; nothing if it is left out.
    pub(super) fn take(&self, slots: &Slots, word: &str) -> Result<Option<u32>, Fault> {
        match self.number(word)? {
            Some(number) if slots.has(number) => Err(Fault::RepeatedWord(word.to_owned())),
            Some(_) if slots.candidates() == MAX_CANDIDATES => {
                let refusal = Refusal::UtteranceRange;
                Err(Fault::TooMany { what: "words", within: "a slot", limit: MAX_CANDIDATES, refusal })
            }
            number => Ok(number),
        }
    }

    /// The number of a word, if the grammar has it.
    pub(super) fn known(&self, word: &str) -> Option<u32> {
        let other = || self.fold.then(|| self.folded.get(&folded(word)).copied()).flatten();
        self.words.get(word).copied().or_else(other)
    }

    /// The number of a word; nothing if the grammar does not have it and such words are left out.
    pub(super) fn number(&self, word: &str) -> Result<Option<u32>, Fault> {
        if let Some(&number) = self.words.get(word) {
            return Ok(Some(number));
        }
        match self.folded.get(&folded(word)) {
            Some(&number) if self.fold => Ok(Some(number)),
            _ if self.drop_unknown || self.keep_unknown => Ok(None),
            Some(number) => Err(self.other_spelling(word, *number)),
            None => Err(Fault::UnknownWord(word.to_owned())),
        }
    }

    /// That the grammar has a word, but spelt otherwise.
    fn other_spelling(&self, word: &str, number: u32) -> Fault {
        let known = self.words.iter().find(|(_, known)| **known == number).map_or("", |(known, _)| *known);
        Fault::OtherSpelling { word: word.to_owned(), known: known.to_owned(), how: difference(word, known) }
    }
}

/// FNV-1a, which for short words is several times as fast as what std has; a grammar has too few to make it slow.
#[derive(Clone, Debug)]
struct ShortHasher(u64);

impl Default for ShortHasher {
    fn default() -> Self {
        Self(0xcbf2_9ce4_8422_2325)
    }
}

impl Hasher for ShortHasher {
    fn write(&mut self, bytes: &[u8]) {
        for byte in bytes {
            self.0 = (self.0 ^ u64::from(*byte)).wrapping_mul(0x0000_0100_0000_01b3);
        }
    }

    fn finish(&self) -> u64 {
        self.0
    }
}

/// Slots that are being read, as the numbers of a sheet.
pub(super) struct Slots<'a> {
    numbers: &'a mut Vec<u32>,
    /// Where the number of the last slot's candidates stands.
    last: usize,
}

impl<'a> Slots<'a> {
    /// No slots, in the place of other numbers.
    pub(super) fn begin(numbers: &'a mut Vec<u32>) -> Self {
        numbers.clear();
        numbers.push(0);
        Self { numbers, last: 0 }
    }

    /// Begins the next slot.
    pub(super) fn begin_slot(&mut self) -> Result<(), Fault> {
        if self.numbers[0] == MAX_SLOTS {
            let refusal = Refusal::UtteranceRange;
            return Err(Fault::TooMany { what: "slots", within: "an utterance", limit: MAX_SLOTS, refusal });
        }
        self.numbers[0] += 1;
        self.last = self.numbers.len();
        self.numbers.push(0);
        Ok(())
    }

    /// How many candidates the last slot has.
    pub(super) fn candidates(&self) -> u32 {
        self.numbers[self.last]
    }

    /// Whether the last slot has a word.
    pub(super) fn has(&self, word: u32) -> bool {
        self.numbers[self.last + 1..].iter().step_by(2).any(|known| *known == word)
    }

    /// Adds a candidate to the last slot, behind those with lesser words.
    pub(super) fn add(&mut self, Candidate { word, cost }: Candidate) {
        self.numbers[self.last] += 1;
        let mut at = self.numbers.len();
        self.numbers.extend([word, cost]);
        while at > self.last + 1 && self.numbers[at - 2] > word {
            self.numbers.copy_within(at - 2..at, at);
            at -= 2;
            self.numbers[at..at + 2].copy_from_slice(&[word, cost]);
        }
    }

    /// Ends the last slot.
    pub(super) fn finish_slot(&self) -> Result<(), Fault> {
        match self.candidates() {
            0 => Err(none("word of the grammar in the slot")),
            _ => Ok(()),
        }
    }

    /// Ends the utterance.
    pub(super) fn finish(&self) -> Result<(), Fault> {
        match self.numbers[0] {
            0 => Err(none("slot")),
            _ => Ok(()),
        }
    }
}

fn none(what: &'static str) -> Fault {
    Fault::None { what, refusal: Refusal::UtteranceRange }
}

impl NamedGrammar {
    /// Reads the text of an utterance over this grammar's words, as [`UtteranceReader::read`] does.
    pub fn parse_utterance(&self, text: &str) -> Result<Utterance, Error> {
        UtteranceReader::new(self).read(text)
    }

    /// The text of an utterance over this grammar's words, from which [`parse_utterance`](Self::parse_utterance) reads it
    /// again, with a line for each slot.
    pub fn utterance_text(&self, utterance: &Utterance) -> String {
        utterance.slots.iter().map(|slot| self.slot_text(slot) + "\n").collect()
    }

    /// A slot as it is written in an utterance's text.
    pub fn slot_text(&self, slot: &[Candidate]) -> String {
        let candidates: Vec<String> = slot.iter().map(|candidate| self.candidate_text(*candidate)).collect();
        candidates.join(" | ")
    }

    /// A candidate as it is written in an utterance's text.
    pub fn candidate_text(&self, candidate: Candidate) -> String {
        let word = self.word(candidate.word);
        let word = if is_bare(word, &UTTERANCE) { word.to_owned() } else { quoted(word) };
        format!("{word} {}", candidate.cost)
    }
}
