//! `batch`: many utterances, a line each, on all cores.

mod lattices;
mod line;
mod messages;
mod resume;
mod sink;
mod source;
mod told;

pub use super::Command;
use crate::failure::Failure;
use crate::files::{self, File};
use crate::json;
use crate::names::{carried, shown};
use crate::no_reading::NoReading;
use crate::options::{
    Arguments, DISTINCT, DROP_DELETES, DROP_UNKNOWN, EMPTY, EXACT, FILES, FOLD, FORMAT, JOBS, LINE, PATHS, RESUME,
    SAID, SCALE, SKIP, WANTED,
};
use crate::output::Output;
use crate::words::{push_notes, Changed, Entry, Why, Words};
use lattices::Lines;
pub use lattices::{are_lattices, named, read_all};
pub use line::Line;
use resume::Answered;
use sink::{Answers, Refused, Sink};
use source::{Piece, Source};
use spireyerba::limits::MAX_READINGS;
use spireyerba::text::{is_graph, NamedGrammar, UtteranceReader};
use spireyerba::{Distinct, Error, Found, Heard, Lister, Reading, Refusal};
use std::borrow::Cow;
use std::ffi::OsStr;
use std::os::unix::ffi::OsStrExt;
use std::sync::Mutex;
use std::thread::Builder;
pub use told::refuse_other;

pub const COMMAND: Command = Command {
    name: "batch",
    operands: &["GRAMMAR", "FILE"],
    needed: 1,
    options: &[
        WANTED, DISTINCT, FILES, JOBS, LINE, RESUME, SAID, SKIP, SCALE, FOLD, DROP_UNKNOWN, DROP_DELETES, EMPTY, FORMAT, PATHS, EXACT,
    ],
    summary: "list the readings of many utterances, word graphs or lattices on all cores",
    details: "\
A line of the file has an utterance, with semicolons between its slots: `door 4 | four 61 ; twenty 12`, or a word graph,
with semicolons between its edges: `0 1 door 4 ; 1 3 twenty 12 ; 3`. Empty lines and comments are passed over. The
answers are lines of JSON in the same order, with the number of the line; what is refused has \"error\" in place of
\"readings\", and a message on standard error, of which those that say the same are counted after the tenth. With
--distinct \"others\" counts the readings with the same words among the first 256, and \"used_up\" says that these do not
have N sentences, though there may be more. Where there is no reading, \"prefix\" has the words that begin a sentence, the
place or slot where they end, and what could follow there.
A name without blanks and a tab may stand before what was heard: the name comes back as \"id\". Where a number alone
follows the tab, such as a cost, it is a blank like any other. A line may also have a value of a recogniser's JSON.
Lattices stand in files of their own: --files names a list of them, one a line, also with a name and a tab before it. A file
in HTK's format, of Kaldi's, a confusion network or one value of JSON may be FILE itself, and one in another format, or one
that comes from standard input, with --format. Each lattice is an answer, with its own name as \"id\", or the line's, or the
file's; \"complete_up_to\" says that it was pruned and up to which weight every reading is there, and \"dropped\" has the
words that --drop-unknown left out. For each word of a reading \"edges\" has the number of its edge in the word graph that
the lattice was reduced to, \"links\" that of its link as links stand in the file, from 0, and \"times\" when it began and
ended, if the file has times. With --skip \"slots\" has the slots of an utterance's words instead.
With --resume a run that was interrupted goes on: no line, and no lattice of a file, is answered twice or left out.",
    example: "spireyerba batch grammar.txt utterances.txt -n 1 --resume readings.jsonl",
    run,
};

/// Pieces that a thread may be ahead of what is written.
const AHEAD: usize = 4;
/// With more threads for each core nothing is done sooner.
const MOST_FOR_A_CORE: usize = 4;

fn run(arguments: &Arguments, output: &mut Output) -> Result<(), Failure> {
    let cores = std::thread::available_parallelism().map_or(1, usize::from);
    let jobs = arguments.number(&JOBS)?.unwrap_or(cores).clamp(1, MOST_FOR_A_CORE * cores);
    let grammar = files::grammar(arguments.operands[0])?;
    let words = Words::new(arguments, &grammar.named)?;
    let mut reader = files::utterance_reader(arguments, &grammar.named)?;
    reader.keep_unknown = words.may_skip();
    let Lines { operand, are_files, file, whole } = Lines::open(arguments, reader.format)?;
    let name = files::name_of(operand);
    let batch = Batch {
        name: &name,
        are_files,
        whole,
        wanted: arguments.wanted()?,
        distinct: arguments.has(&DISTINCT),
        named: &grammar.named,
        reader,
        words,
        lister: Lister::of(grammar.packed.clone()),
        names: json::Names::new(&grammar.named),
    };
    let mut source = Source::new(file);
    batch.refuse_other(&mut source)?;
    let mut resumed = arguments.value(&RESUME).map(|out| batch.resume(out, &mut source)).transpose()?;
    let by_line = arguments.has(&LINE) || !files::is_still(operand);
    let sink = Sink::new(resumed.as_mut().unwrap_or(output), by_line, AHEAD * jobs);
    let source = Mutex::new(source);
    std::thread::scope(|scope| {
        // this thread is one of them, and does the work of those for which the system has no room
        for _ in 1..jobs {
            if Builder::new().spawn_scoped(scope, || batch.work(&source, &sink)).is_err() {
                break;
            }
        }
        batch.work(&source, &sink);
    });
    sink.finish(batch.name)?;
    resumed.map_or(Ok(()), |mut output| output.flush())
}

struct Batch<'a> {
    name: &'a str,
    names: json::Names,
    named: &'a NamedGrammar,
    reader: UtteranceReader<'a>,
    /// Words that are known for certain, and words too many.
    words: Words<'a>,
    lister: Lister,
    wanted: u32,
    /// Whether each sentence stands once.
    distinct: bool,
    /// Whether each line is the name of a file with lattices.
    are_files: bool,
    /// What the one file has, if it was read.
    whole: Option<File>,
}

impl Batch<'_> {
    /// The file of answers behind which to go on; what it answers of the input is passed over.
    fn resume(&self, out: &str, source: &mut Source) -> Result<Output, Failure> {
        let Self { name, are_files, .. } = self;
        let (file, lines) = resume::open(out, if *are_files { Answered::Often } else { Answered::Once })?;
        if let Err(found) = source.pass_over(lines).map_err(|error| Failure::file(name, &error))? {
            let other = format!("{}: answers line {lines} of another input: {name} has {found} lines", shown(out));
            return Err(Failure::Refused(other));
        }
        if lines > 0 {
            eprintln!("{}: goes on behind line {lines}", shown(out));
        }
        Ok(Output::file(out, file))
    }

    /// Refuses lines that look like another format, if none was given.
    fn refuse_other(&self, source: &mut Source) -> Result<(), Failure> {
        if self.are_files || self.reader.format.is_some() {
            return Ok(());
        }
        let Some(front) = source.front().map_err(|error| Failure::file(self.name, &error))? else { return Ok(()) };
        let mut worker = Worker::new(self);
        told::refuse_other(self.name, &String::from_utf8_lossy(front), |line| worker.has_reading(line.heard))
    }

    /// Answers lines until there are none, or nobody wants the answers.
    fn work(&self, source: &Mutex<Source>, sink: &Sink) {
        let (mut worker, mut memory) = (Worker::new(self), Vec::new());
        loop {
            let next = source.lock().map(|mut source| (source.pieces, source.next()));
            let Ok((number, next)) = next else { return };
            let answers = match next {
                Ok(None) => return,
                Ok(Some(piece)) => Ok(worker.answers(&piece, memory)),
                Err(error) => Err(Failure::file(self.name, &error)),
            };
            match sink.put(number, answers) {
                Some(again) => memory = again,
                None => return,
            }
        }
    }
}

/// What a thread needs for one line after another.
struct Worker<'a> {
    batch: &'a Batch<'a>,
    lister: Lister,
    /// What is heard in the line at hand.
    sheet: Vec<u32>,
    block: Vec<u8>,
    reading: Reading,
    /// The sentences of the line at hand, if each stands once.
    sentences: Option<Distinct>,
}

impl<'a> Worker<'a> {
    fn new(batch: &'a Batch) -> Self {
        let lister = batch.lister.clone();
        let sentences = batch.distinct.then(|| Distinct::new(batch.wanted as usize));
        Self { batch, lister, sheet: Vec::new(), block: Vec::new(), reading: Reading::default(), sentences }
    }

    /// The answers of some lines, in memory of others.
    fn answers(&mut self, piece: &Piece, memory: Vec<u8>) -> Answers {
        let mut answers = Answers { json: memory, refused: Vec::new(), utterances: 0 };
        // that a text is all right is found faster than where it is not
        let text = match std::str::from_utf8(&piece.text) {
            _ if self.batch.are_files => Cow::Owned(carried(OsStr::from_bytes(&piece.text))),
            Ok(text) => Cow::Borrowed(text),
            Err(_) => String::from_utf8_lossy(&piece.text),
        };
        for (number, line) in text.split('\n').enumerate() {
            let first = line.trim_start().chars().next();
            if first.is_none_or(|first| first == '#') {
                continue;
            }
            let line = Line::new(line, piece.before + number);
            if self.batch.are_files {
                self.answer_file(&line, &mut answers);
            } else {
                self.answer_line(&line, &mut answers);
            }
        }
        answers
    }

    /// Adds the answer of each lattice of a file that a line names.
    fn answer_file(&mut self, line: &Line, answers: &mut Answers) {
        let name = line.heard.trim();
        let Batch { words, reader, whole, .. } = self.batch;
        let lattices = match lattices::read(words, reader, name, whole.as_ref()) {
            Ok(lattices) => lattices,
            Err(refused) => return refuse(answers, refused, |json| line.begin_lattice(json, None, true)),
        };
        let is_alone = lattices.len() == 1;
        for entry in lattices {
            let begin = |json: &mut Vec<u8>| line.begin_lattice(json, entry.id.as_deref(), is_alone);
            self.answer(Some(&entry.changed), || entry.place(&shown(name)), begin, answers);
        }
    }

    /// Adds the answer of a line.
    fn answer_line(&mut self, line: &Line, answers: &mut Answers) {
        let name = self.batch.name;
        match self.read(line.heard) {
            Err(error) => {
                let error = error.in_file(name).after_columns(line.columns()).after_lines(line.before);
                refuse(answers, error.into(), |json| line.begin(json, None));
            }
            Ok(entry) => {
                let own = entry.as_ref().and_then(|entry| entry.id.as_deref());
                let changed = entry.as_ref().map(|entry| &entry.changed);
                let place = || format!("{name}:{}", line.before + 1);
                self.answer(changed, place, |json| line.begin(json, own), answers);
            }
        }
    }

    /// Adds the answer of what was heard at some place, or of the slots whose block is at hand, or why it is refused.
    fn answer(
        &mut self,
        changed: Option<&Result<Changed, Why>>,
        place: impl Fn() -> String,
        begin: impl Fn(&mut Vec<u8>),
        answers: &mut Answers,
    ) {
        let answered = match changed.map(Result::as_ref).transpose() {
            Err(why) => Err(Refused::new(&place(), why.reason.clone())),
            Ok(changed) => {
                let answered = self.answer_heard(changed, &begin, &mut answers.json);
                answered.map_err(|refusal| Error::from(refusal).in_file(&place()).into())
            }
        };
        match answered {
            Ok(()) => answers.utterances += 1,
            Err(refused) => refuse(answers, refused, begin),
        }
    }

    /// Adds the answer of what was heard, or of the slots whose block is at hand; nothing if it is refused.
    fn answer_heard(
        &mut self,
        changed: Option<&Changed>,
        begin: impl Fn(&mut Vec<u8>),
        json: &mut Vec<u8>,
    ) -> Result<(), Refusal> {
        let Batch { named, wanted, .. } = self.batch;
        let heard = changed.map(|changed| &changed.lattice.heard);
        let origin = changed.map(Changed::origin).unwrap_or_default();
        let asked = self.sentences.as_ref().filter(|_| *wanted <= MAX_READINGS).map_or(*wanted, |_| MAX_READINGS);
        let found = match heard {
            Some(heard) => self.lister.find(heard, asked),
            None => self.lister.find_in_block(&self.block, asked),
        }?;
        begin(json);
        json.extend_from_slice(b",\"readings\":[");
        let mut used_up = false;
        if let Some(sentences) = &mut self.sentences {
            sentences.clear();
            sentences.walk(&named.grammar, found.readings());
            push_sentences(json, self.batch, sentences, origin);
            used_up = found.len() == MAX_READINGS as usize && sentences.found().len() < *wanted as usize;
        } else {
            push_readings(json, self.batch, found, &mut self.reading, origin);
        }
        let is_none = found.is_empty();
        json::end_list(json);
        if is_none {
            self.push_why(json, heard)?;
        }
        json.extend_from_slice(if used_up { b",\"used_up\":true" } else { b"" });
        if let Some(Changed { lattice, .. }) = changed {
            push_notes(json, lattice.complete_up_to(), &lattice.dropped);
        }
        json.extend_from_slice(b"}\n");
        Ok(())
    }

    /// Reads a line: a word graph, a recogniser's JSON, or else slots, whose block is then at hand and which are not answered.
    fn read(&mut self, line: &str) -> Result<Option<Entry>, Error> {
        let Batch { reader, words, .. } = self.batch;
        let is_other = || match line.trim_start().chars().next() {
            Some('0'..='9') => is_graph(line),
            first => matches!(first, Some('{' | '[')),
        };
        // what is left out is said
        if !words.are_none() || reader.drop_unknown || is_other() {
            return words.read(reader, line).map(Some);
        }
        reader.read_block(line, &mut self.sheet, &mut self.block)?;
        Ok(None)
    }

    /// Whether a line can be read and has a reading.
    fn has_reading(&mut self, line: &str) -> bool {
        let found = match self.read(line) {
            Ok(Some(Entry { changed: Ok(changed), .. })) => self.lister.find(&changed.lattice.heard, 1),
            Ok(None) => self.lister.find_in_block(&self.block, 1),
            Ok(Some(_)) | Err(_) => return false,
        };
        found.is_ok_and(|found| !found.is_empty())
    }

    /// Adds why what was heard, or the slots whose block is at hand, has no reading.
    fn push_why(&self, json: &mut Vec<u8>, heard: Option<&Heard>) -> Result<(), Refusal> {
        let slots;
        let heard = match heard {
            Some(heard) => heard,
            None => {
                slots = Heard::from_block(self.lister.grammar().block(), &self.block)?;
                &slots
            }
        };
        NoReading::new(self.batch.named, heard)?.push_json(json);
        Ok(())
    }
}

/// Adds readings, in the memory of another.
fn push_readings(json: &mut Vec<u8>, batch: &Batch, found: Found, memory: &mut Reading, origin: json::Origin) {
    for number in 0..found.len() {
        found.read(number, memory);
        begin_reading(json, batch, number, memory, origin);
        json::end_reading(json);
    }
}

/// Adds the first reading of each sentence, and how many others it has.
fn push_sentences(json: &mut Vec<u8>, batch: &Batch, sentences: &Distinct, origin: json::Origin) {
    for (number, sentence) in sentences.found().iter().enumerate() {
        begin_reading(json, batch, number, &sentence.first, origin);
        json::push_key(json, "others");
        json::push_number(json, sentence.others);
        json::end_reading(json);
    }
}

/// Adds a reading with so many before it, but for its end.
fn begin_reading(json: &mut Vec<u8>, batch: &Batch, before: usize, reading: &Reading, origin: json::Origin) {
    batch.names.begin_reading(json, Some(before as u32 + 1), reading);
    json::push_path(json, reading, origin);
    let tree = batch.named.has_translations().then(|| batch.named.tree(reading)).flatten();
    if let Some(tree) = tree {
        json::push_translation(json, batch.named, &tree);
    }
}

/// Adds the answer of what is refused.
fn refuse(answers: &mut Answers, refused: Refused, begin: impl Fn(&mut Vec<u8>)) {
    answers.utterances += 1;
    begin(&mut answers.json);
    json::push_key(&mut answers.json, "error");
    json::push_string(&mut answers.json, &refused.message);
    answers.json.extend_from_slice(b"}\n");
    answers.refused.push(refused);
}
