//! Slots with more words than a slot of a block has room for: a lattice with a place between two slots.

use super::{Draft, Link};
use crate::limits::NOT_HEARD;
use crate::text::items::{end_of, lines};
use crate::text::network::Alignments;
use crate::text::scan::{weight, Token, Tokens, UTTERANCE};
use crate::text::utterance::UtteranceReader;
use crate::text::Fault;
use crate::Error;

impl UtteranceReader<'_> {
    /// The text of slots as a lattice.
    pub(super) fn slots_draft(&self, text: &str) -> Result<Draft, Error> {
        let mut draft = Draft::default();
        let mut from = draft.node(None);
        for line in lines(text) {
            let mut tokens = Tokens::new(line.text, line.number, &UTTERANCE);
            while let Some(end) = slot(&mut draft, from, &mut tokens)? {
                from = end;
            }
        }
        (draft.ends, draft.end_of_text) = (vec![(from, 0.0)], Some(end_of(text)));
        Ok(draft)
    }
}

/// Reads a slot, if the line has one more; answers where it ends.
fn slot(draft: &mut Draft, from: u32, tokens: &mut Tokens) -> Result<Option<u32>, Error> {
    let Some(mut word) = tokens.next()? else { return Ok(None) };
    let to = draft.node(None);
    loop {
        let position = tokens.position();
        let said = match word {
            Token::Bare(word) => word.to_owned(),
            Token::Quoted(word) => word.into_owned(),
            other => return tokens.expected("a word", Some(other)),
        };
        let (mut next, mut cost) = (tokens.next()?, 0);
        if let Some(Token::Bare(item)) = next {
            cost = weight(item, "cost").map_err(|fault| tokens.fault(fault))?;
            next = tokens.next()?;
        }
        let cost = if cost == NOT_HEARD { f64::INFINITY } else { f64::from(cost) };
        draft.link(Link { from, to, word: Some(said), cost, position })?;
        word = match next {
            None | Some(Token::Mark(';')) => return Ok(Some(to)),
            Some(Token::Mark('|')) => match tokens.next()? {
                Some(word) => word,
                None => return tokens.expected("a word", None),
            },
            other => return tokens.expected("`|`, `;` or the end of the line", other),
        };
    }
}

impl Alignments<'_> {
    /// A network as a lattice, in which `*DELETE*` says nothing.
    pub(super) fn draft(&self, reader: &UtteranceReader) -> Result<Draft, Error> {
        let mut draft = Draft { scored: Some(("confusion network", "posteriors")), ..Draft::default() };
        let mut from = draft.node(None);
        for (_, words) in self.said() {
            let to = draft.node(None);
            for [word, posterior] in words.iter().filter(|[word, _]| !reader.drop_deletes || !word.is_deletion()) {
                let cost = -self.share(posterior)?.ln();
                let said = Some(word.text.to_owned()).filter(|_| !word.is_deletion());
                draft.link(Link { from, to, word: said, cost, position: word.position })?;
            }
            from = to;
        }
        (draft.ends, draft.end_of_text) = (vec![(from, 0.0)], Some(self.end()));
        if draft.links.is_empty() {
            let fault = Fault::None { what: "slot", refusal: crate::Refusal::UtteranceRange };
            return Err(Error::at(self.end(), fault));
        }
        Ok(draft)
    }
}
