//! Time-marked words as NIST's CTM has them: file, channel, beginning, duration, word and, if it is known, a confidence from 0 to 1.
//! Lines `* * <ALT_BEGIN>`, `<ALT>` and `<ALT_END>` in the place of times and word stand around alternatives. The word `@`
//! says nothing. Each file and channel is an utterance.

use super::{Draft, Link, Unread};
use crate::text::items::{end_of, lines, Item, Line};
use crate::text::Fault;
use crate::{Error, Position};

/// A line that begins with it is a comment.
const COMMENT: &str = ";;";
const BEGIN: &str = "<ALT_BEGIN>";
const NEXT: &str = "<ALT>";
const END: &str = "<ALT_END>";
/// What stands for a time that is not known.
const NO_TIME: &str = "*";
/// A confidence that is not known.
const NO_CONFIDENCE: &str = "NA";
/// File, channel, beginning, duration and word.
const NEEDED: usize = 5;
const WANTED: &str = "file, channel, beginning, duration and word";

fn is_line(line: &Line) -> bool {
    let line = line.text.trim_start();
    !line.is_empty() && !line.starts_with(COMMENT)
}

/// Whether every line of a text has two names, two times and a word; the last of several may be cut off.
pub(super) fn is_ctm(text: &str) -> bool {
    let is_time = |item: &Item| item.text == NO_TIME || item.text.parse::<f64>().is_ok();
    let is_word = |line: Line| {
        let items: Vec<Item> = line.items().take(NEEDED).collect();
        items.len() == NEEDED && items[2..4].iter().all(is_time) && !items[4].text.starts_with(['|', ';', '#'])
    };
    let mut others = lines(text).filter(is_line).skip_while(|line| is_word(*line));
    let is_cut = |line: Line| line.items().nth(NEEDED - 1).is_none();
    let is_whole = others.next().is_none_or(|last| is_cut(last) && others.next().is_none());
    is_whole && lines(text).find(is_line).is_some_and(is_word)
}

/// How many utterances a text has, some of which may be wrong.
pub(super) fn count(text: &str) -> Result<usize, Error> {
    let (mut count, mut last) = (0, None);
    for line in lines(text).filter(is_line) {
        let mut items = line.items().map(|item| item.text);
        let name = Some(items.next().zip(items.next()).ok_or_else(|| line.ends(WANTED))?);
        count += usize::from(name != last);
        last = name;
    }
    Ok(count)
}

/// Reads the utterances of a text, of which some may be wrong.
pub(super) fn parse(text: &str) -> Result<Vec<Result<Draft, Unread>>, Error> {
    let mut utterances: Vec<Utterance> = Vec::new();
    let mut items: Vec<Item> = Vec::with_capacity(NEEDED + 1);
    for line in lines(text).filter(is_line) {
        items.clear();
        items.extend(line.items().take(NEEDED + 1));
        let [file, channel, ..] = items[..] else { return Err(line.ends(WANTED)) };
        let is_known = |last: &Utterance| last.is_of(file.text, channel.text);
        if !utterances.last().is_some_and(is_known) {
            utterances.push(Utterance::new(format!("{} {}", file.text, channel.text)));
        }
        if let Some(utterance) = utterances.last_mut().filter(|utterance| utterance.error.is_none()) {
            utterance.error = utterance.line(line, &items).err();
        }
    }
    if utterances.is_empty() {
        let fault = Fault::None { what: "word", refusal: crate::Refusal::UtteranceRange };
        return Err(Error::at(end_of(text), fault));
    }
    let end = end_of(text);
    Ok(utterances.into_iter().map(|utterance| utterance.finish(end)).collect())
}

/// An utterance that is being read.
struct Utterance {
    draft: Draft,
    /// Where the next word begins.
    at: u32,
    /// Where alternatives begin and end, if some are being read.
    fork: Option<[u32; 2]>,
    /// What is wrong with it.
    error: Option<Error>,
}

impl Utterance {
    fn new(name: String) -> Self {
        let mut draft = Draft { id: Some(name), scored: Some(("CTM", "confidences")), ..Draft::default() };
        let at = draft.node(None);
        Self { draft, at, fork: None, error: None }
    }

    fn is_of(&self, file: &str, channel: &str) -> bool {
        let name = self.draft.id.as_deref().and_then(|name| name.strip_prefix(file));
        name.and_then(|rest| rest.strip_prefix(' ')) == Some(channel)
    }

    fn line(&mut self, line: Line, items: &[Item]) -> Result<(), Error> {
        match items {
            [_, _, begin, duration, word, confidence @ ..] => self.take(*begin, *duration, *word, confidence.first()),
            _ => Err(line.ends(WANTED)),
        }
    }

    fn take(&mut self, begin: Item, duration: Item, word: Item, confidence: Option<&Item>) -> Result<(), Error> {
        match (word.text, self.fork) {
            (BEGIN, None) => {
                let end = self.draft.node(None);
                self.fork = Some([self.at, end]);
                Ok(())
            }
            (NEXT | END, Some([first, end])) => {
                self.draft.link(Link { from: self.at, to: end, word: None, cost: 0.0, position: word.position })?;
                (self.at, self.fork) = if word.text == NEXT { (first, self.fork) } else { (end, None) };
                Ok(())
            }
            (BEGIN | NEXT | END, _) => {
                let wanted = if self.fork.is_some() { "<ALT> or <ALT_END>" } else { "<ALT_BEGIN> or a word" };
                Err(word.fault(Fault::Expected { wanted, found: Some(word.text.to_owned()) }))
            }
            _ => self.word([begin, duration], word, confidence),
        }
    }

    fn word(&mut self, [begin, duration]: [Item; 2], word: Item, confidence: Option<&Item>) -> Result<(), Error> {
        let confidence = confidence.filter(|item| item.text != NO_CONFIDENCE && !item.text.starts_with(COMMENT));
        let share: f64 = confidence.map_or(Ok(1.0), |item| {
            let share = item.text.parse().ok().filter(|share| (0.0..=1.0).contains(share));
            share.ok_or_else(|| item.fault(Fault::Likelihood(item.text.to_owned())))
        })?;
        let times = if begin.text == NO_TIME { None } else { Some([begin.finite()?, duration.finite()?]) };
        if let Some([begin, _]) = times {
            self.draft.times[self.at as usize].get_or_insert(begin);
        }
        let to = self.draft.node(times.map(|[begin, duration]| begin + duration));
        let (word, position) = (Some(word.text.to_owned()), word.position);
        self.draft.link(Link { from: self.at, to, word, cost: -share.ln(), position })?;
        self.at = to;
        Ok(())
    }

    fn finish(mut self, end: Position) -> Result<Draft, Unread> {
        let is_open = self.fork.is_some();
        let open = || Error::at(end, Fault::Expected { wanted: END, found: None });
        if let Some(error) = self.error.or_else(|| is_open.then(open)) {
            return Err(Unread::new(self.draft.id, error));
        }
        (self.draft.ends, self.draft.end_of_text) = (vec![(self.at, 0.0)], Some(end));
        Ok(self.draft)
    }
}
