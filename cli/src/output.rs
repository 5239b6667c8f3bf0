//! Where answers go: standard output, plain to a pipe and with colours on a terminal, or a file.

use crate::failure::Failure;
use std::fs::File;
use std::io::{stdout, BufWriter, IsTerminal, Write};

/// The name of standard output in messages.
const NAME: &str = "<stdout>";

/// What a piece of text is, and so how it looks on a terminal.
#[derive(Clone, Copy)]
pub enum Style {
    /// A weight, or what else is looked for first.
    Strong,
    /// What is there to be looked up.
    Faint,
    /// What differs from something else.
    Marked,
}

impl Style {
    /// The sequence that switches a terminal to it.
    fn sequence(self) -> &'static str {
        match self {
            Self::Strong => "\x1b[1m",
            Self::Faint => "\x1b[2m",
            Self::Marked => "\x1b[1;33m",
        }
    }
}

/// The sequence that switches a terminal back.
const PLAIN: &str = "\x1b[0m";

/// Whether the terminal says that it knows no sequences.
pub fn is_dumb() -> bool {
    std::env::var_os("TERM").is_some_and(|term| term == "dumb")
}

/// Where answers go.
pub struct Output {
    stream: BufWriter<Box<dyn Write + Send>>,
    /// Its name in messages.
    name: String,
    is_terminal: bool,
    coloured: bool,
}

impl Output {
    /// Standard output, with colours if it is a terminal and nobody has asked for none (no-color.org).
    pub fn standard() -> Self {
        let is_terminal = stdout().is_terminal();
        let is_asked_for = std::env::var_os("NO_COLOR").is_none_or(|value| value.is_empty());
        let coloured = is_terminal && is_asked_for && !is_dumb();
        Self { stream: BufWriter::new(Box::new(stdout())), name: NAME.to_owned(), is_terminal, coloured }
    }

    /// A file that is open to be written.
    pub fn file(name: &str, file: File) -> Self {
        let stream = BufWriter::new(Box::new(file) as Box<dyn Write + Send>);
        Self { stream, name: name.to_owned(), is_terminal: false, coloured: false }
    }

    pub fn is_terminal(&self) -> bool {
        self.is_terminal
    }

    /// The text in a style, or as it is if there are no colours.
    pub fn paint(&self, style: Style, text: &str) -> String {
        if self.coloured && !text.is_empty() {
            format!("{}{text}{PLAIN}", style.sequence())
        } else {
            text.to_owned()
        }
    }

    pub fn bytes(&mut self, bytes: &[u8]) -> Result<(), Failure> {
        self.stream.write_all(bytes).map_err(|error| Failure::file(&self.name, &error))
    }

    pub fn text(&mut self, text: &str) -> Result<(), Failure> {
        self.bytes(text.as_bytes())
    }

    pub fn line(&mut self, line: &str) -> Result<(), Failure> {
        self.text(line)?;
        self.text("\n")
    }

    pub fn flush(&mut self) -> Result<(), Failure> {
        self.stream.flush().map_err(|error| Failure::file(&self.name, &error))
    }
}
