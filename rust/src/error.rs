//! What can go wrong: the library refuses, or a text cannot be read.

use crate::text::Fault;
use crate::Refusal;
use std::fmt::{Display, Formatter};

/// A place in a text. Lines and columns count from 1, columns in characters.
#[derive(Clone, Copy, Debug, PartialEq, Eq, PartialOrd, Ord, Hash)]
pub struct Position {
    /// The line.
    pub line: usize,
    /// The column.
    pub column: usize,
}

/// Why something could not be read, packed or listed.
///
/// ```
/// use spireyerba::text::NamedGrammar;
///
/// let error = NamedGrammar::parse("Entry -> Door Number [70000]").unwrap_err().in_file("doors.txt");
/// assert_eq!(error.to_string(), "doors.txt:1:23: refused 42: 70000 is too large: a weight is at most 65535");
/// assert_eq!((error.number(), error.file()), (Some(42), Some("doors.txt")));
/// assert_eq!(error.position().map(|position| (position.line, position.column)), Some((1, 23)));
/// ```
#[derive(Clone, Debug, PartialEq)]
pub enum Error {
    /// The library refused blocks or numbers.
    Refused {
        /// The file that they came from, if that is known.
        file: Option<String>,
        /// Why.
        refusal: Refusal,
    },
    /// A text cannot be read, or says what no block can hold.
    Text {
        /// The text's file, if that is known.
        file: Option<String>,
        /// Where in the text.
        position: Position,
        /// What is wrong there.
        fault: Fault,
    },
}

impl Error {
    /// A fault at a place of a text whose file is not known here.
    pub(crate) fn at(position: Position, fault: Fault) -> Self {
        Self::Text { file: None, position, fault }
    }

    /// The refusal, with its number and its words; nothing if a text says nothing that the library could be asked about.
    pub fn refusal(&self) -> Option<Refusal> {
        match self {
            Self::Refused { refusal, .. } => Some(*refusal),
            Self::Text { fault, .. } => fault.refusal(),
        }
    }

    /// The number of the refusal, if there is one.
    pub fn number(&self) -> Option<u32> {
        self.refusal().map(Refusal::number)
    }

    /// The file, if it is known.
    pub fn file(&self) -> Option<&str> {
        let (Self::Refused { file, .. } | Self::Text { file, .. }) = self;
        file.as_deref()
    }

    /// Where in the text, if a text cannot be read.
    pub fn position(&self) -> Option<Position> {
        match self {
            Self::Refused { .. } => None,
            Self::Text { position, .. } => Some(*position),
        }
    }

    /// What is wrong in the text, if a text cannot be read.
    pub fn fault(&self) -> Option<&Fault> {
        match self {
            Self::Refused { .. } => None,
            Self::Text { fault, .. } => Some(fault),
        }
    }

    /// The same error, known to be in a file.
    pub fn in_file(mut self, name: &str) -> Self {
        let (Self::Refused { file, .. } | Self::Text { file, .. }) = &mut self;
        *file = Some(name.to_owned());
        self
    }

    /// What is wrong, without where.
    pub fn reason(&self) -> String {
        match self {
            Self::Refused { refusal, .. } => refusal.to_string(),
            Self::Text { fault, .. } => fault.to_string(),
        }
    }

    /// The same error in a line of which this was the end, with so many characters before it.
    pub fn after_columns(mut self, before: usize) -> Self {
        if let Self::Text { position: Position { line: 1, column }, .. } = &mut self {
            *column += before;
        }
        self
    }

    /// The same error in a text of which this was one line, with so many lines before it.
    pub fn after_lines(mut self, before: usize) -> Self {
        if let Self::Text { position, .. } = &mut self {
            position.line += before;
        }
        self
    }
}

impl From<Refusal> for Error {
    fn from(refusal: Refusal) -> Self {
        Self::Refused { file: None, refusal }
    }
}

impl Display for Error {
    fn fmt(&self, formatter: &mut Formatter) -> std::fmt::Result {
        match self {
            Self::Refused { file: Some(file), refusal } => write!(formatter, "{file}: {refusal}"),
            Self::Refused { file: None, refusal } => write!(formatter, "{refusal}"),
            Self::Text { file, position: Position { line, column }, fault } => {
                let file = file.as_deref().unwrap_or("text");
                write!(formatter, "{file}:{line}:{column}: {fault}")
            }
        }
    }
}

impl std::error::Error for Error {}
