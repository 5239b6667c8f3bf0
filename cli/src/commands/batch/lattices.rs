//! Files of lattices, in any format, of which some have several.

use super::line::Line;
use super::sink::Refused;
use crate::failure::Failure;
use crate::files::{self, File};
use crate::names::{path, shown};
use crate::options::{Arguments, FILES};
use crate::words::{Entry, Words};
use spireyerba::text::{Format, Unread, UtteranceReader};
use spireyerba::Error;
use std::io::{BufRead, BufReader, Cursor, Read};
use std::os::unix::ffi::OsStringExt;

/// So much of a file is looked at to tell whether its lines are a lattice's, and of what follows the line where that ends.
const FRONT: u64 = 1 << 16;

/// Where lines come from.
pub struct Lines<'a> {
    /// The name of what has them, in messages.
    pub operand: &'a str,
    /// Whether each is the name of a file with lattices.
    pub are_files: bool,
    pub file: Box<dyn Read + Send>,
    /// What the one file has, if it had to be read to tell.
    pub whole: Option<File>,
}

impl<'a> Lines<'a> {
    /// The lines that the command line names: a list of files, utterances, or a file of lattices, which is a list of one.
    pub fn open(arguments: &Arguments<'a>, format: Option<Format>) -> Result<Self, Failure> {
        let (operand, are_files) = named(arguments)?;
        if !are_files && format == Some(Format::Json) && is_stream(operand) {
            return Self::of_json(operand);
        }
        match !are_files && is_of_lattices(operand, format)? {
            true => Ok(Self::of_one(operand, None)),
            false => Ok(Self { operand, are_files, file: files::open(operand)?, whole: None }),
        }
    }

    /// A file of lattices, and what it has if it was read.
    fn of_one(operand: &'a str, whole: Option<File>) -> Self {
        let file = Box::new(Cursor::new(path(operand).into_os_string().into_vec()));
        Self { operand, are_files: true, file, whole }
    }

    /// JSON that can be read only once: values a line each, if the first line has a whole one, or else one value.
    fn of_json(operand: &'a str) -> Result<Self, Failure> {
        let name = files::name_of(operand);
        let of_file = |error| Failure::file(&name, &error);
        let (mut file, mut bytes) = (BufReader::new(files::open(operand)?), Vec::new());
        let is_closed = loop {
            let begin = bytes.len();
            let read = file.read_until(b'\n', &mut bytes).map_err(of_file)?;
            let line = String::from_utf8_lossy(&bytes[begin..]);
            let is_closed = files::lines_of(&line).next().map(|(_, first)| is_closed(first));
            if is_closed.is_some() || read == 0 {
                break is_closed.unwrap_or_default();
            }
        };
        if is_closed {
            let file = Box::new(Cursor::new(bytes).chain(file));
            return Ok(Self { operand, are_files: false, file, whole: None });
        }
        file.read_to_end(&mut bytes).map_err(of_file)?;
        Ok(Self::of_one(operand, Some(File { name, bytes })))
    }
}

/// What the command line names, and whether it is a list of files.
pub fn named<'a>(arguments: &Arguments<'a>) -> Result<(&'a str, bool), Failure> {
    match (arguments.value(&FILES), arguments.operands.get(1)) {
        (Some(list), None) => Ok((list, true)),
        (None, Some(file)) => Ok((*file, false)),
        (Some(_), Some(_)) => Err(arguments.wrong("--files and FILE: only one of them")),
        (None, None) => Err(arguments.wrong("FILE is missing: name one, `-` for standard input, or a list by --files")),
    }
}

/// Whether a text is lattices and not utterances, one a line: the command line says so, or its front is a lattice in HTK's
/// format, one of Kaldi's, a confusion network, or JSON. Values of JSON, one a line, are utterances.
pub fn are_lattices(text: &str, format: Option<Format>) -> bool {
    match format.unwrap_or_else(|| Format::of(text)) {
        Format::Json => !are_values(text),
        Format::Slf | Format::Kaldi | Format::Network => true,
        Format::Slots | Format::Graph => false,
        // of these a text has others too
        _ => format.is_some(),
    }
}

/// Whether a text of JSON has values a line each: the first line has a whole one, and others follow.
fn are_values(text: &str) -> bool {
    let mut lines = files::lines_of(text);
    lines.next().is_some_and(|(_, first)| is_closed(first)) && lines.next().is_some()
}

/// Whether all brackets and quotes that a line of JSON opens are closed in it.
pub fn is_closed(line: &str) -> bool {
    let (mut open, mut is_quoted, mut is_escaped) = (0_usize, false, false);
    for letter in line.chars() {
        match letter {
            _ if is_escaped => is_escaped = false,
            '\\' if is_quoted => is_escaped = true,
            '"' => is_quoted = !is_quoted,
            '{' | '[' if !is_quoted => open += 1,
            '}' | ']' if !is_quoted => open = open.saturating_sub(1),
            _ => {}
        }
    }
    open == 0 && !is_quoted
}

/// Whether what is taken from a file is gone.
fn is_stream(operand: &str) -> bool {
    files::is_standard_input(operand) || !files::is_still(operand)
}

/// Whether a file has lattices.
fn is_of_lattices(operand: &str, format: Option<Format>) -> Result<bool, Failure> {
    if is_stream(operand) {
        return Ok(format.is_some() && are_lattices("", format));
    }
    let front = front(operand).map_err(|error| Failure::file(operand, &error))?;
    Ok(are_lattices(&String::from_utf8_lossy(&front), format))
}

/// The front of a file, in which its first line is whole.
fn front(operand: &str) -> std::io::Result<Vec<u8>> {
    let (mut file, mut front) = (BufReader::new(std::fs::File::open(path(operand))?), Vec::new());
    file.by_ref().take(FRONT).read_to_end(&mut front)?;
    file.read_until(b'\n', &mut front)?;
    file.take(FRONT).read_to_end(&mut front)?;
    Ok(front)
}

/// The lattices of a file, which may have been read, each as the command line asks for it or why it cannot be.
pub fn read(words: &Words, reader: &UtteranceReader, name: &str, whole: Option<&File>) -> Result<Vec<Entry>, Refused> {
    let lattices = match whole {
        Some(file) => file.text(|text| read_all(words, reader, text)),
        None => File::read(name).and_then(|file| file.text(|text| read_all(words, reader, text))),
    };
    lattices.map_err(|failure| Refused::of_file(failure, &shown(name)))
}

/// All that a text has: the lines of values of JSON, a line each, or else its lattices.
pub fn read_all(words: &Words, reader: &UtteranceReader, text: &str) -> Result<Vec<Entry>, Error> {
    // before the first value may stand a comment, and its name
    let first = files::lines_of(text).next().map_or("", |(before, line)| Line::new(line, before).heard);
    let format = reader.format.unwrap_or_else(|| Format::of(first));
    if format != Format::Json || !are_values(text) {
        return words.read_all(reader, text);
    }
    let read = |(before, line)| {
        let line = Line::new(line, before);
        let name = line.name.map(str::to_owned);
        match words.read(reader, line.heard) {
            Ok(Entry { id, changed }) => {
                Entry { id: name.or(id), changed: changed.map_err(|why| why.in_line(before + 1)) }
            }
            Err(error) => Unread::new(name, error.after_columns(line.columns()).after_lines(before)).into(),
        }
    };
    Ok(files::lines_of(text).map(read).collect())
}
