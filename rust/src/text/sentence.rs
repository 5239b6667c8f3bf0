//! Sentences: words that were said for certain, and what a grammar should make of them.

use super::scan::{digits, Token, Tokens, SENTENCE, UTTERANCE};
use super::utterance::Slots;
use super::{Fault, UtteranceReader};
use crate::{Candidate, Error, Refusal, Utterance};

/// A line of a file of sentences begins with one of these: the grammar derives the sentence, or does not.
const DERIVED: &str = "+";
const NOT_DERIVED: &str = "-";

/// Words, each in a slot at no cost, or why they are none of the grammar's.
type Words = Result<Utterance, Fault>;

/// A sentence, and what a grammar should make of it.
#[derive(Clone, Debug, PartialEq)]
pub struct Sentence {
    /// Whether the grammar should derive it.
    pub is_derived: bool,
    /// Its words, each in a slot at no cost; or that the grammar does not have one of them, the first.
    pub words: Result<Utterance, Fault>,
    /// The weight that the first reading should have.
    pub weight: Option<u32>,
    /// What the first reading should become.
    pub translation: Option<String>,
}

impl UtteranceReader<'_> {
    /// Reads words with blanks between them, each of them a slot at no cost.
    ///
    /// ```
    /// use spireyerba::text::{NamedGrammar, UtteranceReader};
    ///
    /// let doors = NamedGrammar::parse("Entry -> Door Number\nDoor -> \"door\"\nNumber -> \"four\" | \"five\"")?;
    /// let reader = UtteranceReader::new(&doors);
    /// assert_eq!(reader.read_words("door five")?, reader.read("door 0; five 0")?);
    /// # Ok::<(), spireyerba::Error>(())
    /// ```
    pub fn read_words(&self, line: &str) -> Result<Utterance, Error> {
        let mut tokens = Tokens::new(line, 1, &UTTERANCE);
        let (mut sheet, mut next) = (Vec::new(), tokens.next()?);
        let mut slots = Slots::begin(&mut sheet);
        while let Some(token) = next {
            self.said(&mut slots, &token, &tokens)?;
            next = tokens.next()?;
        }
        slots.finish().map_err(|_| tokens.fault(no_word()))?;
        Ok(Utterance::of_accepted(&sheet))
    }

    /// Reads a line of a file of sentences: `+ door twenty four [5] => "24"` or `- door door`.
    pub fn read_sentence(&self, line: &str) -> Result<Sentence, Error> {
        let mut tokens = Tokens::new(line, 1, &SENTENCE);
        let is_derived = match tokens.next()? {
            Some(Token::Bare(DERIVED)) => true,
            Some(Token::Bare(NOT_DERIVED)) => false,
            other => return tokens.expected("`+` or `-` before a sentence", other),
        };
        let (words, end) = self.sentence_words(&mut tokens)?;
        let mut sentence = Sentence { is_derived, words, weight: None, translation: None };
        sentence.read_rest(end, &mut tokens)?;
        Ok(sentence)
    }

    /// The words of a sentence, or why the grammar does not have one of them, and the token behind them.
    fn sentence_words<'b>(&self, tokens: &mut Tokens<'b>) -> Result<(Words, Option<Token<'b>>), Error> {
        let (mut sheet, mut unknown) = (Vec::new(), None);
        let mut slots = Slots::begin(&mut sheet);
        let mut next = tokens.next()?;
        while let Some(token) = next.take_if(|token| !matches!(token, Token::Mark('[') | Token::Becomes)) {
            match self.said(&mut slots, &token, tokens) {
                Err(Error::Text { fault: fault @ (Fault::UnknownWord(_) | Fault::OtherSpelling { .. }), .. }) => {
                    unknown = unknown.or(Some(fault));
                }
                said => said?,
            }
            next = tokens.next()?;
        }
        slots.finish().map_err(|_| tokens.fault(no_word()))?;
        Ok((unknown.map_or_else(|| Ok(Utterance::of_accepted(&sheet)), Err), next))
    }

    /// Adds a slot with a word.
    fn said(&self, slots: &mut Slots, token: &Token, tokens: &Tokens) -> Result<(), Error> {
        let word = match token {
            Token::Bare(word) => word,
            Token::Quoted(word) => word.as_ref(),
            other => return tokens.expected("a word", Some(other.clone())),
        };
        slots.begin_slot().map_err(|fault| tokens.fault(fault))?;
        if let Some(word) = self.take(slots, word).map_err(|fault| tokens.fault(fault))? {
            slots.add(Candidate { word, cost: 0 });
        }
        slots.finish_slot().map_err(|fault| tokens.fault(fault))
    }
}

impl Sentence {
    /// Reads what stands behind the words, of which a token is at hand: the weight that is expected and the translation.
    fn read_rest<'a>(&mut self, first: Option<Token<'a>>, tokens: &mut Tokens<'a>) -> Result<(), Error> {
        let mut next = first;
        while let Some(token) = next {
            match token {
                Token::Mark('[') | Token::Becomes if !self.is_derived => {
                    return Err(tokens.fault(Fault::Underived(token.shown())));
                }
                Token::Mark('[') if self.weight.is_none() => self.weight = Some(weight(tokens)?),
                Token::Becomes if self.translation.is_none() => self.translation = Some(translation(tokens)?),
                other => return tokens.expected("the end of the line", Some(other)),
            }
            next = tokens.next()?;
        }
        Ok(())
    }
}

/// A weight, and the bracket behind it.
fn weight(tokens: &mut Tokens) -> Result<u32, Error> {
    let weight = match tokens.next()? {
        Some(Token::Bare(item)) => {
            digits(item).flatten().ok_or_else(|| tokens.fault(Fault::Number(item.to_owned())))?
        }
        other => return tokens.expected("a weight", other),
    };
    match tokens.next()? {
        Some(Token::Mark(']')) => Ok(weight),
        other => tokens.expected("`]`", other),
    }
}

/// What a sentence should become, in quotes.
fn translation(tokens: &mut Tokens) -> Result<String, Error> {
    match tokens.next()? {
        Some(Token::Quoted(text)) => Ok(text.into_owned()),
        other => tokens.expected("a quoted translation", other),
    }
}

/// That a sentence has nothing in it.
fn no_word() -> Fault {
    Fault::None { what: "word", refusal: Refusal::UtteranceRange }
}
