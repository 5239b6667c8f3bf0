//! Files: texts and blocks, read and written.
//!
//! What the library accepts as a block is one. What it refuses is a text, unless it has bytes that no text has: then it is a
//! block, and refused. The first byte alone would not tell: texts may begin with a blank, a quote, a `#` or a digit, and so
//! do blocks of utterances and readings.

use crate::failure::Failure;
use crate::names::{carried, path, shown};
use crate::options::{Arguments, DROP_DELETES, DROP_UNKNOWN, EMPTY, EXACT, FILE, FOLD, FORMAT, PATHS, SCALE};
use crate::output::Output;
use spireyerba::lattice::Keep;
use spireyerba::services::check;
use spireyerba::text::{binary_kind, Format, Lattice, NamedGrammar, Places, Recognised, UtteranceReader};
use spireyerba::{Error, Heard, PackedGrammar, Reading, Refusal};
use std::ffi::OsStr;
use std::io::Read;
use std::os::fd::AsFd;
use std::os::unix::ffi::OsStrExt;

/// The operand that means standard input, and its name in messages.
const STANDARD_INPUT: &str = "-";
const STANDARD_INPUT_NAME: &str = "<stdin>";

/// The control characters that texts have.
const TEXT_CONTROLS: &[char] = &['\t', '\n', '\r', '\x0c'];

/// The marks before texts in UTF-16.
const UTF_16: [&[u8]; 2] = [&[0xff, 0xfe], &[0xfe, 0xff]];

/// A file that was read.
pub struct File {
    /// Its name in messages.
    pub name: String,
    pub bytes: Vec<u8>,
}

/// Whether an operand means standard input.
pub fn is_standard_input(operand: &str) -> bool {
    operand == STANDARD_INPUT
}

/// The name of a file in messages.
pub fn name_of(operand: &str) -> String {
    match is_standard_input(operand) {
        true => STANDARD_INPUT_NAME.to_owned(),
        false => shown(operand),
    }
}

/// A file, or standard input, opened to be read.
pub fn open(operand: &str) -> Result<Box<dyn Read + Send>, Failure> {
    if is_standard_input(operand) {
        return Ok(Box::new(std::io::stdin()));
    }
    match std::fs::File::open(path(operand)) {
        Ok(file) => Ok(Box::new(file)),
        Err(error) => Err(Failure::file(operand, &error)),
    }
}

/// Whether this is a file whose bytes are all there, and not a pipe or a terminal.
pub fn is_still(operand: &str) -> bool {
    let metadata = if is_standard_input(operand) {
        std::io::stdin().as_fd().try_clone_to_owned().and_then(|stdin| std::fs::File::from(stdin).metadata())
    } else {
        std::fs::metadata(path(operand))
    };
    metadata.is_ok_and(|metadata| metadata.is_file())
}

impl File {
    pub fn read(operand: &str) -> Result<Self, Failure> {
        let name = name_of(operand);
        let mut bytes = Vec::new();
        match open(operand)?.read_to_end(&mut bytes) {
            Ok(_) => Ok(Self { name, bytes }),
            Err(error) => Err(Failure::file(&name, &error)),
        }
    }

    /// What the file holds, if the library accepts it as a block, and otherwise what is made of its text.
    fn block_or_text<T>(
        &self,
        accepted: Result<T, Refusal>,
        parse: impl FnOnce(&str) -> Result<T, Error>,
    ) -> Result<T, Failure> {
        match (accepted, text_of(&self.bytes)) {
            (Ok(value), _) => Ok(value),
            (Err(_), Ok(text)) => Ok(parse(text).map_err(|error| error.in_file(&self.name))?),
            (Err(refusal), Err(at)) => Err(Failure::Refused(match (self.binary(), self.is_block()) {
                (Some(kind), _) => kind,
                (None, true) => format!("{}: {refusal}; and {}", self.name, self.no_text(at)),
                (None, false) => format!("{}: {}", self.name, self.no_text(at)),
            })),
        }
    }

    /// Whether the file has bytes that no text has in any encoding, or few that all have.
    fn is_block(&self) -> bool {
        let is_foreign = |byte: &u8| byte.is_ascii_control() && !TEXT_CONTROLS.contains(&char::from(*byte));
        let known = self.bytes.iter().filter(|byte| byte.is_ascii()).count();
        self.bytes.iter().any(is_foreign) || 2 * known < self.bytes.len()
    }

    /// What is made of the file's text.
    pub fn text<T>(&self, parse: impl FnOnce(&str) -> Result<T, Error>) -> Result<T, Failure> {
        match text_of(&self.bytes) {
            Ok(text) => Ok(parse(text).map_err(|error| error.in_file(&self.name))?),
            Err(at) => {
                Err(Failure::Refused(self.binary().unwrap_or_else(|| format!("{}: {}", self.name, self.no_text(at)))))
            }
        }
    }

    /// That the file is of a kind that is printed as a text first, if it is.
    fn binary(&self) -> Option<String> {
        let is_utf_16 = UTF_16.iter().any(|mark| self.bytes.starts_with(mark));
        let kind = binary_kind(&self.bytes).or(is_utf_16.then_some("a text in UTF-16: save it as UTF-8"));
        kind.map(|kind| format!("{}: {}", self.name, kind.replace("FILE", &self.name)))
    }

    /// That the file is no text, for a byte of it.
    fn no_text(&self, at: usize) -> String {
        let line = self.bytes[..at].iter().filter(|byte| **byte == b'\n').count() + 1;
        let byte = self.bytes[at];
        match self.is_block() || byte.is_ascii() {
            true => format!("no text, for byte 0x{byte:02x} in line {line}"),
            false => format!("not UTF-8 (byte 0x{byte:02x}, line {line}): save it as UTF-8"),
        }
    }
}

/// The text that bytes are, or where a byte stands that no text has.
fn text_of(bytes: &[u8]) -> Result<&str, usize> {
    let text = std::str::from_utf8(bytes).map_err(|error| error.valid_up_to())?;
    let is_foreign = |letter: char| letter.is_control() && !TEXT_CONTROLS.contains(&letter);
    text.find(is_foreign).map_or(Ok(text), Err)
}

/// A grammar that was read, and packed once.
pub struct GrammarFile {
    /// The file's name in messages.
    pub name: String,
    pub named: NamedGrammar,
    pub packed: PackedGrammar,
    /// Where in the text things stand, if it was a text.
    pub places: Option<Places>,
}

/// Reads a grammar.
pub fn grammar(operand: &str) -> Result<GrammarFile, Failure> {
    let file = File::read(operand)?;
    let without_places = |named| (named, None);
    let (named, places) = file.block_or_text(NamedGrammar::from_block(&file.bytes).map(without_places), |text| {
        NamedGrammar::parse_with_places(text).map(|(named, places)| (named, Some(places)))
    })?;
    let packed = named.packed().map_err(|refusal| Error::from(refusal).in_file(&file.name))?;
    Ok(GrammarFile { name: file.name, named, packed, places })
}

/// A reader of utterances that does as the command line says.
pub fn utterance_reader<'a>(arguments: &Arguments, grammar: &'a NamedGrammar) -> Result<UtteranceReader<'a>, Failure> {
    let mut reader = UtteranceReader::new(grammar);
    reader.scale = scale(arguments)?;
    reader.fold = arguments.has(&FOLD);
    reader.drop_unknown = arguments.has(&DROP_UNKNOWN);
    reader.drop_deletes = arguments.has(&DROP_DELETES);
    reader.empty_words = arguments.values(&EMPTY).map(str::to_owned).collect();
    reader.format = format(arguments)?;
    reader.keep = if arguments.has(&PATHS) { Keep::Paths } else { Keep::Strings };
    reader.exact = arguments.has(&EXACT);
    Ok(reader)
}

/// The scale by which posteriors or scores become costs, if the command line has one.
pub fn scale(arguments: &Arguments) -> Result<Option<f64>, Failure> {
    match arguments.number::<f64>(&SCALE)? {
        Some(scale) if !(scale.is_finite() && scale > 0.0) => Err(arguments.wrong("--scale is a number above 0")),
        scale => Ok(scale),
    }
}

/// The format that texts have, if the command line has one.
fn format(arguments: &Arguments) -> Result<Option<Format>, Failure> {
    let named = |name: &str| {
        let names = Format::names().collect::<Vec<_>>().join(", ");
        Format::named(name).ok_or_else(|| arguments.wrong(format!("--format: `{name}` is none of {names}")))
    };
    arguments.value(&FORMAT).map(named).transpose()
}

/// Reads an utterance, a word graph or a lattice in any format over the words of a grammar, and says on standard error what
/// was pruned or left out.
pub fn heard(arguments: &Arguments, grammar: &GrammarFile, operand: &str) -> Result<Lattice, Failure> {
    let reader = utterance_reader(arguments, &grammar.named)?;
    let file = File::read(operand)?;
    let accepted = Heard::from_block(grammar.packed.block(), &file.bytes).map(Lattice::from);
    let lattice = file.block_or_text(accepted, |text| reader.read_heard(text))?;
    lattice.notes().iter().for_each(|note| eprintln!("{}: {note}", file.name));
    Ok(lattice)
}

/// What a file has before it is made fit for the library.
pub enum Written {
    /// Slots or a word graph as they stand. Slots may have no word if words that the grammar does not have are passed over.
    Plain(Lattice),
    /// What a recogniser wrote otherwise.
    Lattice(Recognised),
}

/// Reads an utterance, a word graph or a lattice in any format; if words may be passed over, those that the grammar does not have
/// are not refused.
pub fn written(
    arguments: &Arguments,
    grammar: &GrammarFile,
    operand: &str,
    may_skip: bool,
) -> Result<Written, Failure> {
    let mut reader = utterance_reader(arguments, &grammar.named)?;
    reader.keep_unknown = may_skip;
    let file = File::read(operand)?;
    let accepted = Heard::from_block(grammar.packed.block(), &file.bytes).map(|heard| Written::Plain(heard.into()));
    file.block_or_text(accepted, |text| match reader.read_plain(text) {
        Some(plain) => plain.map(Written::Plain),
        None => reader.recognised_alone(text).map(Written::Lattice),
    })
}

/// The lines of a text file, each with how many stand before it, but for those that are empty or a comment.
pub fn lines(operand: &str) -> Result<Vec<(usize, String)>, Failure> {
    File::read(operand)?.text(|text| Ok(lines_of(text).map(|(before, line)| (before, line.to_owned())).collect()))
}

/// The names of files in a list, one a line, as the system has them.
pub fn list(operand: &str) -> Result<Vec<(usize, String)>, Failure> {
    let names = carried(OsStr::from_bytes(&File::read(operand)?.bytes));
    Ok(lines_of(&names).map(|(before, line)| (before, line.to_owned())).collect())
}

/// The lines of a text, each with how many stand before it, but for those that are empty or a comment.
pub fn lines_of(text: &str) -> impl Iterator<Item = (usize, &str)> {
    let lines = text.trim_start_matches('\u{feff}').lines().enumerate();
    lines.filter(|(_, line)| !matches!(line.trim_start().chars().next(), None | Some('#')))
}

/// Words that were said, as a command line has them.
pub fn words(arguments: &Arguments, grammar: &GrammarFile, words: &str) -> Result<Heard, Failure> {
    let said = utterance_reader(arguments, &grammar.named)?.read_words(words);
    Ok(Heard::Slots(said.map_err(|error| error.in_file("--words"))?))
}

/// A reading that the library passes, and its block.
pub struct ReadingFile {
    pub reading: Reading,
    pub block: Vec<u8>,
}

/// Reads a reading of what was heard, the block of the file or the packed numbers of its text. What the library does not
/// pass is refused.
pub fn reading(grammar: &GrammarFile, heard: &Heard, operand: &str) -> Result<ReadingFile, Failure> {
    let file = File::read(operand)?;
    let in_file = |refusal: Refusal| Error::from(refusal).in_file(&file.name);
    let under = grammar.packed.block();
    let heard_block = heard.to_block(under).map_err(Error::from)?;
    let accepted = Reading::from_block(under, &heard_block, &file.bytes);
    let reading =
        file.block_or_text(accepted, |text| grammar.named.parse_reading(text, matches!(heard, Heard::Graph(_))))?;
    let block = reading.to_block(grammar.packed.grammar()).map_err(in_file)?;
    check(under, &heard_block, &block).map_err(in_file)?;
    Ok(ReadingFile { reading, block })
}

/// Reads the shares of a grammar's rules.
pub fn shares(grammar: &GrammarFile, operand: &str) -> Result<Vec<u32>, Failure> {
    File::read(operand)?.text(|text| grammar.named.parse_shares(text))
}

/// Writes an answer to the file that the command line names, or to standard output.
pub fn write(arguments: &Arguments, output: &mut Output, bytes: &[u8]) -> Result<(), Failure> {
    match arguments.value(&FILE) {
        Some(operand) if !is_standard_input(operand) => {
            std::fs::write(path(operand), bytes).map_err(|error| Failure::file(operand, &error))
        }
        _ => output.bytes(bytes),
    }
}
