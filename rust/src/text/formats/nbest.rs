//! The best sentences, a line each.
//!
//! A line has a score and words; or, as SRILM writes it, an acoustic score, one of the language model, both logarithms to the
//! base 10, how many words there are, and the words; or, behind a line `NBestList1.0` or `NBestList2.0`, a score in parentheses,
//! in SRILM's bytelog, and words, each of which may have times and scores in parentheses behind it; or, as Kaldi writes it, a
//! name with a number behind a hyphen, and words, without scores. The best comes first: scores that rise are costs.

use super::{Draft, Link};
use crate::text::items::{end_of, lines, Item, Line};
use crate::text::Fault;
use crate::{Error, Position};

const HEADER: &str = "NBestList";
/// SRILM's bytelog of a likelihood times this is its natural logarithm.
const BYTELOG: f64 = 1_024.0 / 10_000.5;
/// A line that begins with it is a comment.
const COMMENT: char = '#';

/// Whether every line of a text begins with a number and a word behind it, or three numbers and words, or the first line says
/// that it is a list of sentences; or each begins with one name and a number that counts.
pub(super) fn is_nbest(text: &str) -> bool {
    let mut sentences = lines(text).filter(|line| is_sentence(line.text));
    if text.trim_start().starts_with(HEADER) {
        return true;
    }
    // a score may be one that is refused, such as `nan`, beside others
    let has_score = |line: Line| is_scored(line) || is_odd(line);
    let is_list = sentences.clone().any(is_scored) && sentences.all(has_score);
    is_list || is_counted(text)
}

fn is_sentence(line: &str) -> bool {
    let line = line.trim_start();
    !line.is_empty() && !line.starts_with(COMMENT)
}

/// Whether a line begins with a score and then words.
fn is_scored(line: Line) -> bool {
    let numbers = line.items().take_while(Item::is_number).count();
    let is_word = |place: usize| line.items().nth(place).is_some_and(|item| !item.text.starts_with(['|', ';', '#']));
    matches!(numbers, 1 | 3) && is_word(numbers)
}

/// Whether a line begins with what is no score though it may be read as a number, and then words.
fn is_odd(line: Line) -> bool {
    let mut items = line.items();
    let is_odd = |item: Item| !item.is_number() && item.text.parse::<f64>().is_ok();
    items.next().is_some_and(is_odd) && items.next().is_some_and(|word| !word.is_number())
}

/// Whether lines begin with one name and numbers from 1 on.
fn is_counted(text: &str) -> bool {
    let names = lines(text).filter(|line| is_sentence(line.text)).map(|line| key(line.text));
    let mut first = None;
    let counts = names
        .zip(1..)
        .all(|(name, number)| name.is_some_and(|(name, found)| found == number && *first.get_or_insert(name) == name));
    counts && first.is_some()
}

/// The name and the number that a line begins with, if words follow.
fn key(line: &str) -> Option<(&str, usize)> {
    let (key, _) = line.trim().split_once(char::is_whitespace)?;
    let (name, number) = key.rsplit_once('-').filter(|(name, _)| !name.is_empty())?;
    Some((name, number.parse().ok()?))
}

/// A sentence with its score, the natural logarithm of its likelihood.
struct Sentence<'a> {
    score: f64,
    words: Vec<Item<'a>>,
    position: Position,
}

pub(super) fn parse(text: &str) -> Result<Draft, Error> {
    let mut draft = Draft { scored: Some(("list of sentences", "scores")), ..Draft::default() };
    let (is_counted, mut sentences) = (is_counted(text), Vec::new());
    for line in lines(text).filter(|line| is_sentence(line.text) && !line.text.trim_start().starts_with(HEADER)) {
        sentences.push(if is_counted { counted(line, &mut draft) } else { sentence(line)? });
    }
    let scores: Vec<f64> = sentences.iter().map(|sentence| sentence.score).collect();
    // the best comes first, so what rises are costs
    let rises = scores.windows(2).all(|pair| pair[0] <= pair[1]) && scores.first() < scores.last();
    let [start, end] = [draft.node(None), draft.node(None)];
    (draft.start, draft.ends, draft.end_of_text) = (start, vec![(end, 0.0)], Some(end_of(text)));
    for sentence in sentences {
        let cost = if rises { sentence.score } else { -sentence.score };
        lay(&mut draft, [start, end], &sentence, cost)?;
    }
    Ok(draft)
}

/// A sentence of Kaldi, without a score.
fn counted<'a>(line: Line<'a>, draft: &mut Draft) -> Sentence<'a> {
    draft.id = key(line.text).map(|(name, _)| name.to_owned());
    Sentence { score: 0.0, words: line.items().skip(1).collect(), position: line.position() }
}

/// A sentence with a score, in any other form.
fn sentence(line: Line) -> Result<Sentence, Error> {
    let mut words: Vec<Item> = line.items().collect();
    let position = words.first().map_or(line.position(), |item| item.position);
    let numbers = words.iter().take_while(|item| item.is_number()).count();
    if words.first().is_some_and(|first| first.text.starts_with('(')) {
        return bytelog(line);
    }
    let score = match numbers {
        3 => {
            let (score, count) =
                ((words[0].finite()? + words[1].finite()?) * std::f64::consts::LN_10, words[2].count()?);
            let said = words.len() - 3;
            // marks of a sentence's ends are counted or not
            if count > said || said > count + 2 {
                let fault = Fault::Count { text: "sentence", what: "words", said: count, found: said };
                return Err(words[2].fault(fault));
            }
            score
        }
        _ => words.first().ok_or_else(|| line.ends("a score"))?.finite()?,
    };
    words.drain(..if numbers == 3 { 3 } else { 1 });
    if words.is_empty() {
        return Err(line.ends("a word"));
    }
    Ok(Sentence { score, words, position })
}

/// A sentence whose score stands in parentheses; what stands in parentheses behind its words is passed over.
fn bytelog(line: Line) -> Result<Sentence, Error> {
    let mut depth = 0_usize;
    let (mut score, mut words) = (None, Vec::new());
    for item in line.items() {
        let inner = item.text.trim_matches(['(', ')']);
        let is_outside = depth == 0 && !item.text.starts_with('(');
        depth += item.text.matches('(').count();
        depth = depth.saturating_sub(item.text.matches(')').count());
        if is_outside {
            words.push(item);
        } else if score.is_none() && !inner.is_empty() {
            let number = inner.parse().ok().filter(|number: &f64| number.is_finite());
            score = Some(number.ok_or_else(|| item.fault(Fault::Real(inner.to_owned())))?);
        }
    }
    let score = score.ok_or_else(|| line.ends("a score"))? * BYTELOG;
    if words.is_empty() {
        return Err(line.ends("a word"));
    }
    Ok(Sentence { score, words, position: line.position() })
}

/// Lays a sentence from the start to the end; its first word has its cost.
fn lay(draft: &mut Draft, [start, end]: [u32; 2], sentence: &Sentence, cost: f64) -> Result<(), Error> {
    let (mut from, last) = (start, sentence.words.len() - 1);
    for (number, word) in sentence.words.iter().enumerate() {
        let to = if number == last { end } else { draft.node(None) };
        let cost = if number == 0 { cost } else { 0.0 };
        let position = if number == 0 { sentence.position } else { word.position };
        draft.link(Link { from, to, word: Some(word.text.to_owned()), cost, position })?;
        from = to;
    }
    Ok(())
}
