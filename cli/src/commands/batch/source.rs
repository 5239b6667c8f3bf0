//! Where the lines come from.

use std::io::{ErrorKind, Read};

/// A thread takes at most so many bytes at a time, or one line that is longer.
const BYTES_AT_A_TIME: usize = 1 << 15;
/// The mark that some editors write before a text.
const BYTE_ORDER_MARK: &[u8] = "\u{feff}".as_bytes();

/// Where the lines come from.
pub struct Source {
    file: Box<dyn Read + Send>,
    /// The front of a line whose end was not read yet.
    rest: Vec<u8>,
    /// The first lines, if they were looked at and are still to be taken.
    first: Option<Piece>,
    /// The pieces and the lines that were taken.
    pub pieces: usize,
    taken: usize,
}

/// Some lines of the file.
pub struct Piece {
    /// How many lines stand before them.
    pub before: usize,
    pub text: Vec<u8>,
}

impl Source {
    pub fn new(file: Box<dyn Read + Send>) -> Self {
        Self { file, rest: Vec::new(), first: None, pieces: 0, taken: 0 }
    }

    /// Passes over so many lines; answers how many there were, if there are fewer.
    pub fn pass_over(&mut self, lines: usize) -> std::io::Result<Result<(), usize>> {
        while self.taken < lines {
            let Some(mut piece) = self.next()? else { return Ok(Err(self.taken)) };
            let mut ends = piece.text.iter().enumerate().filter(|(_, byte)| **byte == b'\n').map(|(at, _)| at + 1);
            let Some(end) = ends.nth(lines - piece.before - 1) else {
                // the last line of all may have no end
                self.taken += usize::from(!piece.text.ends_with(b"\n"));
                continue;
            };
            piece.text.drain(..end);
            self.rest.splice(..0, piece.text);
            self.taken = lines;
        }
        self.pieces = 0;
        Ok(Ok(()))
    }

    /// The lines that are taken first; nothing if there are none, or some were taken.
    pub fn front(&mut self) -> std::io::Result<Option<&[u8]>> {
        if self.taken == 0 {
            self.first = self.next()?;
            (self.pieces, self.taken) = (0, 0);
        }
        Ok(self.first.as_ref().map(|piece| &piece.text[..]))
    }

    /// The next lines, as many as can be read at once, and at least one; nothing if there are none.
    pub fn next(&mut self) -> std::io::Result<Option<Piece>> {
        let piece = match self.first.take() {
            Some(first) => Some(first),
            None => self.read()?,
        };
        self.pieces += 1;
        self.taken += piece.iter().flat_map(|piece| &piece.text).filter(|byte| **byte == b'\n').count();
        Ok(piece)
    }

    /// Reads the next lines.
    fn read(&mut self) -> std::io::Result<Option<Piece>> {
        let mut text = std::mem::take(&mut self.rest);
        let mut end = lines_end(&text, 0);
        while end.is_none() {
            let known = text.len();
            text.resize(known + BYTES_AT_A_TIME, 0);
            let read = read_some(&mut self.file, &mut text[known..])?;
            text.truncate(known + read);
            if read == 0 {
                break;
            }
            end = lines_end(&text, known);
        }
        if let Some(end) = end {
            self.rest = text.split_off(end);
        }
        if self.taken == 0 && text.starts_with(BYTE_ORDER_MARK) {
            text.drain(..BYTE_ORDER_MARK.len());
        }
        Ok(Some(Piece { before: self.taken, text }).filter(|piece| !piece.text.is_empty()))
    }
}

/// Where the last whole line ends, if that is behind so many bytes.
fn lines_end(text: &[u8], known: usize) -> Option<usize> {
    text[known..].iter().rposition(|byte| *byte == b'\n').map(|at| known + at + 1)
}

/// Reads what there is, and tries again if it was interrupted.
fn read_some(file: &mut impl Read, into: &mut [u8]) -> std::io::Result<usize> {
    loop {
        match file.read(into) {
            Err(error) if error.kind() == ErrorKind::Interrupted => {}
            read => return read,
        }
    }
}
