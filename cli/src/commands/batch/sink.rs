//! Where the answers go, in the order of the lines.

use super::messages::Messages;
use crate::failure::Failure;
use crate::output::{is_dumb, Output};
use spireyerba::Error;
use std::collections::BTreeMap;
use std::io::{stderr, IsTerminal};
use std::sync::{Condvar, Mutex};
use std::time::{Duration, Instant};

/// The progress line is drawn anew at most so often.
const PROGRESS_EVERY: Duration = Duration::from_millis(100);

/// What became of some lines.
pub struct Answers {
    pub json: Vec<u8>,
    /// Why lines were refused.
    pub refused: Vec<Refused>,
    pub utterances: usize,
}

/// Why a line was refused.
pub struct Refused {
    pub message: String,
    /// The same without where.
    pub reason: String,
}

impl Refused {
    /// What stands here cannot be answered, for a reason.
    pub fn new(place: &str, reason: String) -> Self {
        Self { message: format!("{place}: {reason}"), reason }
    }

    /// A file that could not be read.
    pub fn of_file(failure: Failure, name: &str) -> Self {
        let message = failure.message().to_owned();
        let reason = message.strip_prefix(name).unwrap_or(&message).trim_start_matches([':', ' ']).to_owned();
        Self { message, reason }
    }
}

impl From<Error> for Refused {
    fn from(error: Error) -> Self {
        Self { message: error.to_string(), reason: error.reason() }
    }
}

/// Where answers go, in the order of the lines. Whose turn it is writes its own, which are still near its core.
pub struct Sink<'a> {
    writer: Mutex<Writer<'a>>,
    /// The pieces that may wait to be written.
    most: usize,
    written: Condvar,
}

struct Writer<'a> {
    output: &'a mut Output,
    /// Whether somebody waits for each answer before the next line is said.
    by_line: bool,
    progress: Progress,
    messages: Messages,
    /// Answers before which others are missing.
    early: BTreeMap<usize, Result<Answers, Failure>>,
    /// Why nothing more is written.
    failure: Option<Failure>,
}

impl<'a> Sink<'a> {
    pub fn new(output: &'a mut Output, by_line: bool, most: usize) -> Self {
        let (progress, messages) = (Progress::begin(output), Messages::default());
        let writer = Writer { output, by_line, progress, messages, early: BTreeMap::new(), failure: None };
        Self { writer: Mutex::new(writer), most, written: Condvar::new() }
    }

    /// Takes the answers of a piece, and writes all that are next. Gives memory for others, or nothing if none are wanted.
    pub fn put(&self, number: usize, answers: Result<Answers, Failure>) -> Option<Vec<u8>> {
        let is_far_ahead =
            |writer: &mut Writer| writer.failure.is_none() && number >= writer.progress.pieces + self.most;
        let mut writer = self.written.wait_while(self.writer.lock().ok()?, is_far_ahead).ok()?;
        writer.early.insert(number, answers);
        let memory = writer.write_next();
        self.written.notify_all();
        writer.failure.is_none().then_some(memory)
    }

    /// Says what is left to be said of the input with this name.
    pub fn finish(self, name: &str) -> Result<(), Failure> {
        let Ok(writer) = self.writer.into_inner() else { unreachable!("no thread ends while it writes") };
        writer.progress.clear();
        writer.messages.finish(name);
        match (writer.failure, writer.messages.count()) {
            (Some(failure), _) => Err(failure),
            (None, 0) => Ok(()),
            (None, refused) => {
                Err(Failure::Refused(format!("{refused} of {} utterances refused", writer.progress.utterances)))
            }
        }
    }
}

impl Writer<'_> {
    /// Writes the answers that are next, if they are there; gives the memory of the first.
    fn write_next(&mut self) -> Vec<u8> {
        let mut memory = Vec::new();
        while self.failure.is_none() {
            let Some(answers) = self.early.remove(&self.progress.pieces) else { break };
            match answers.and_then(|answers| self.write(answers)) {
                Ok(json) if memory.capacity() == 0 => memory = json,
                Ok(_) => {}
                Err(failure) => self.failure = Some(failure),
            }
        }
        if self.by_line && self.failure.is_none() {
            self.failure = self.output.flush().err();
        }
        memory.clear();
        memory
    }

    fn write(&mut self, answers: Answers) -> Result<Vec<u8>, Failure> {
        self.output.bytes(&answers.json)?;
        if !answers.refused.is_empty() {
            self.progress.clear();
            answers.refused.iter().for_each(|refused| self.messages.say(refused));
        }
        self.progress.advance(answers.utterances);
        Ok(answers.json)
    }
}

/// A line that says how far the work is, if it would not stand among the answers.
struct Progress {
    shown: bool,
    begin: Instant,
    drawn: Option<Instant>,
    pieces: usize,
    utterances: usize,
}

impl Progress {
    fn begin(output: &Output) -> Self {
        let shown = stderr().is_terminal() && !output.is_terminal() && !is_dumb();
        Self { shown, begin: Instant::now(), drawn: None, pieces: 0, utterances: 0 }
    }

    fn advance(&mut self, utterances: usize) {
        self.pieces += 1;
        self.utterances += utterances;
        if self.shown && self.drawn.unwrap_or(self.begin).elapsed() >= PROGRESS_EVERY {
            let speed = self.utterances as f64 / self.begin.elapsed().as_secs_f64();
            eprint!("\r{} utterances, {speed:.0} a second\x1b[K", self.utterances);
            self.drawn = Some(Instant::now());
        }
    }

    fn clear(&self) {
        if self.drawn.is_some() {
            eprint!("\r\x1b[K");
        }
    }
}
