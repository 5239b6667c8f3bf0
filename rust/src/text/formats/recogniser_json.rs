//! The JSON of recognisers: Vosk, AWS Transcribe, Google's and Azure's.
//!
//! Vosk: `alternatives`, each with `text` and `confidence`, a logarithm; or `result`, words with `conf`. AWS Transcribe:
//! `results` with `items`, each with `alternatives` of `content` and `confidence`; punctuation is passed over. Google: `results`,
//! each with `alternatives` of `transcript` and `confidence`, one behind the other. Azure: `NBest` with `Lexical` and
//! `Confidence`, or `recognizedPhrases`, each with `nBest`. A confidence is a likelihood from 0 to 1, and one that is missing, or
//! 0 as Google writes it, is that of the alternative before it.

use super::json::{self, Value};
use super::{Draft, Link};
use crate::text::items::end_of;
use crate::text::Fault;
use crate::Error;

/// What JSON of a recogniser has words in.
pub(super) fn parse(text: &str) -> Result<Draft, Error> {
    let root = json::parse(text)?;
    let mut draft =
        Draft { scored: Some(("recogniser's JSON", "confidences")), is_written_out: true, ..Draft::default() };
    let start = draft.node(None);
    let end = read(&root, &mut draft, start)?;
    let Some(end) = end else { return Err(Error::at(root.position, Fault::OtherJson)) };
    (draft.ends, draft.end_of_text) = (vec![(end, 0.0)], Some(end_of(text)));
    let id = ["id", "jobName", "utterance", "name"].iter().find_map(|key| root.get(key).and_then(Value::text));
    draft.id = id.map(str::to_owned);
    Ok(draft)
}

/// Lays what a recogniser heard from a node on; answers where it ends, or nothing if it is no known form.
fn read(root: &Value, draft: &mut Draft, start: u32) -> Result<Option<u32>, Error> {
    let results = root.get("results");
    if let Some(items) = results.and_then(|results| results.get("items")) {
        return items.items().iter().try_fold(start, |from, item| aws_item(item, draft, from)).map(Some);
    }
    let phrases = results.or_else(|| root.get("recognizedPhrases")).map(Value::items).unwrap_or_default();
    if !phrases.is_empty() {
        return phrases.iter().try_fold(start, |from, phrase| alternatives(phrase, draft, from)).map(Some);
    }
    if let Some(words) = root.get("result").filter(|words| !words.items().is_empty()) {
        return words.items().iter().try_fold(start, |from, word| vosk_word(word, draft, from)).map(Some);
    }
    let has_some = ["alternatives", "NBest"].iter().any(|key| root.get(key).is_some());
    if has_some {
        return alternatives(root, draft, start).map(Some);
    }
    match root.get("text").or_else(|| root.get("DisplayText")).and_then(Value::text) {
        Some(_) => sentence(root, draft, [start, draft.times.len() as u32], 0.0).map(Some),
        None => Ok(None),
    }
}

/// The minus logarithm of a confidence from 0 to 1; nothing if it is not known.
fn share(value: &Value) -> Result<Option<f64>, Error> {
    match value.number() {
        None => match value.text() {
            Some(text) if !text.is_empty() => Err(Error::at(value.position, Fault::Likelihood(text.to_owned()))),
            _ => Ok(None),
        },
        Some(number) if (0.0..=1.0).contains(&number) => Ok(Some(-number.ln()).filter(|cost| cost.is_finite())),
        Some(number) => Err(Error::at(value.position, Fault::Likelihood(number.to_string()))),
    }
}

/// The time of a key, in seconds.
fn time(value: &Value, key: &str) -> Option<f64> {
    value.get(key).and_then(Value::number)
}

/// Lays a word of AWS with its alternatives; answers where it ends. Punctuation is no word.
fn aws_item(item: &Value, draft: &mut Draft, from: u32) -> Result<u32, Error> {
    if item.get("type").and_then(Value::text) == Some("punctuation") {
        return Ok(from);
    }
    let to = draft.node(time(item, "end_time"));
    if let Some(begin) = time(item, "start_time") {
        draft.times[from as usize].get_or_insert(begin);
    }
    let alternatives = item.get("alternatives").map(Value::items).unwrap_or_default();
    for alternative in alternatives {
        let content = needed(alternative, "content")?;
        let cost = alternative.get("confidence").map(share).transpose()?.flatten().unwrap_or_default();
        let word = Some(content.to_owned());
        draft.link(Link { from, to, word, cost, position: alternative.position })?;
    }
    if alternatives.is_empty() {
        return Err(Error::at(item.position, Fault::OtherJson));
    }
    Ok(to)
}

/// Lays a word of Vosk.
fn vosk_word(word: &Value, draft: &mut Draft, from: u32) -> Result<u32, Error> {
    let to = draft.node(time(word, "end"));
    if let Some(begin) = time(word, "start") {
        draft.times[from as usize].get_or_insert(begin);
    }
    let cost = word.get("conf").map(share).transpose()?.flatten().unwrap_or_default();
    let said = Some(needed(word, "word")?.to_owned());
    draft.link(Link { from, to, word: said, cost, position: word.position })?;
    Ok(to)
}

fn needed<'a>(value: &'a Value, key: &'static str) -> Result<&'a str, Error> {
    let missing = || Error::at(value.position, Fault::Expected { wanted: key, found: None });
    value.get(key).and_then(Value::text).ok_or_else(missing)
}

/// Lays sentences that are alternatives side by side; answers where they end.
fn alternatives(phrase: &Value, draft: &mut Draft, from: u32) -> Result<u32, Error> {
    let list = ["alternatives", "NBest"].iter().find_map(|key| phrase.get(key)).map(Value::items).unwrap_or_default();
    let to = draft.node(None);
    // Vosk's are logarithms, and pass 1
    let confidence = |value: &Value| value.get("confidence").and_then(Value::number);
    let is_logarithm = list.iter().filter_map(confidence).any(|number| !(0.0..=1.0).contains(&number));
    let mut cost = 0.0;
    for alternative in list {
        let written = alternative.get("confidence");
        let own = match written {
            Some(value) if is_logarithm => value.number().map(|number| -number),
            Some(value) => share(value)?,
            None => None,
        };
        cost = own.unwrap_or(cost);
        sentence(alternative, draft, [from, to], cost)?;
    }
    if list.is_empty() {
        return Err(Error::at(phrase.position, Fault::OtherJson));
    }
    Ok(to)
}

/// Lays the words of a sentence between two nodes, of which the second may be new; the first word has the cost.
fn sentence(alternative: &Value, draft: &mut Draft, [from, to]: [u32; 2], cost: f64) -> Result<u32, Error> {
    let keys = ["Lexical", "transcript", "text", "DisplayText"];
    let text = keys.iter().find_map(|key| alternative.get(key).and_then(Value::text));
    let missing = Error::at(alternative.position, Fault::Expected { wanted: "a transcript", found: None });
    let mut words: Vec<Option<String>> =
        text.ok_or(missing)?.split_whitespace().map(|word| Some(word.to_owned())).collect();
    if words.is_empty() {
        words.push(None);
    }
    if to as usize == draft.times.len() {
        draft.node(None);
    }
    let (mut at, last) = (from, words.len() - 1);
    for (number, word) in words.into_iter().enumerate() {
        let next = if number == last { to } else { draft.node(None) };
        let cost = if number == 0 { cost } else { 0.0 };
        draft.link(Link { from: at, to: next, word, cost, position: alternative.position })?;
        at = next;
    }
    Ok(to)
}
