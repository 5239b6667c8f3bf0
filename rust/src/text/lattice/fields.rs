//! The fields of a lattice's lines: `NAME=VALUE`, with blanks between them.

use crate::text::scan::digits;
use crate::text::Fault;
use crate::{Error, Position};

/// A line that begins with it is a comment.
const COMMENT: char = '#';
const QUOTES: [u8; 2] = [b'"', b'\''];
const APOSTROPHE: u8 = b'\'';
const ESCAPE: u8 = b'\\';
/// Behind a backslash so many octal digits are a byte.
const OCTAL_DIGITS: usize = 3;

pub(super) struct Field<'a> {
    pub(super) name: &'a str,
    pub(super) value: String,
    /// Where the field stands.
    pub(super) position: Position,
}

impl Field<'_> {
    pub(super) fn fault(&self, fault: Fault) -> Error {
        Error::at(self.position, fault)
    }

    /// The value as a whole number.
    pub(super) fn number(&self) -> Result<u32, Error> {
        digits(&self.value).flatten().ok_or_else(|| self.fault(Fault::Number(self.value.clone())))
    }

    /// The value as a number that may be minus infinity, the logarithm of 0.
    pub(super) fn real(&self) -> Result<f64, Error> {
        let number = self.value.parse().ok().filter(|number: &f64| number.is_finite() || *number == f64::NEG_INFINITY);
        number.ok_or_else(|| self.fault(Fault::Real(self.value.clone())))
    }
}

/// The fields of a line; none if it is empty or a comment.
pub(super) fn fields(line: &str, number: usize) -> Result<Vec<Field<'_>>, Error> {
    let mut list = Vec::new();
    let mut rest = line.trim_start();
    if rest.starts_with(COMMENT) {
        return Ok(list);
    }
    // up to where columns are counted, so that a long line is counted once
    let (mut counted, mut column) = (0, 1);
    while !rest.is_empty() {
        let at = line.len() - rest.len();
        column += line[counted..at].chars().count();
        counted = at;
        let position = Position { line: number, column };
        let item = rest.split_whitespace().next().unwrap_or(rest);
        let Some((name, _)) = item.split_once('=') else {
            let fault = Fault::Expected { wanted: "NAME=VALUE", found: Some(item.to_owned()) };
            return Err(Error::at(position, fault));
        };
        let behind = &rest[name.len() + 1..];
        let (value, length) = value(behind).map_err(|fault| Error::at(position, fault))?;
        list.push(Field { name, value, position });
        rest = behind[length..].trim_start();
    }
    Ok(list)
}

/// The value at the front of a text, quoted or not, and how many bytes it takes.
fn value(text: &str) -> Result<(String, usize), Fault> {
    let bytes = text.as_bytes();
    // a word may begin with an apostrophe, and then no other one ends it
    let is_quote = |first: &u8| QUOTES.contains(first) && (*first != APOSTROPHE || text[1..].contains('\''));
    let quote = bytes.first().copied().filter(is_quote);
    let (mut at, mut value) = (usize::from(quote.is_some()), Vec::new());
    loop {
        match (bytes.get(at), quote) {
            (None, Some(_)) => return Err(Fault::Unclosed),
            (None, None) => break,
            (Some(byte), Some(quote)) if *byte == quote => {
                at += 1;
                break;
            }
            (Some(byte), None) if byte.is_ascii_whitespace() => break,
            (Some(&ESCAPE), _) => {
                let (byte, length) = escaped(&bytes[at + 1..]);
                value.push(byte);
                at += 1 + length;
            }
            (Some(byte), _) => {
                value.push(*byte);
                at += 1;
            }
        }
    }
    let value = String::from_utf8(value).map_err(|_| Fault::Bytes(text[..at].to_owned()))?;
    Ok((value, at))
}

/// The byte that stands behind a backslash, as itself or in octal digits, and how many bytes that takes.
fn escaped(behind: &[u8]) -> (u8, usize) {
    let octal = behind.get(..OCTAL_DIGITS).and_then(|digits| {
        let digit = |value: u32, byte: &u8| char::from(*byte).to_digit(8).map(|digit| value * 8 + digit);
        u8::try_from(digits.iter().try_fold(0, digit)?).ok()
    });
    match (octal, behind.first()) {
        (Some(byte), _) => (byte, OCTAL_DIGITS),
        (None, Some(byte)) => (*byte, 1),
        (None, None) => (ESCAPE, 0),
    }
}

/// A value as it is written, in quotes if it has to be.
pub(super) fn written(value: &str) -> String {
    let is_plain = |byte: u8| !byte.is_ascii_whitespace() && byte != ESCAPE && !QUOTES.contains(&byte);
    if !value.is_empty() && value.bytes().all(is_plain) {
        return value.to_owned();
    }
    format!("\"{}\"", value.replace('\\', "\\\\").replace('"', "\\\""))
}

#[cfg(test)]
mod tests {
    use super::*;

    fn read(line: &str) -> Vec<(usize, String, String)> {
        let list = fields(line, 1).unwrap();
        list.into_iter().map(|field| (field.position.column, field.name.to_owned(), field.value)).collect()
    }

    #[test]
    fn fields_of_a_line() {
        let field = |column, name: &str, value: &str| (column, name.to_owned(), value.to_owned());
        let line = " J=0  S=0\tW='new york' v=\"a=b\" d=:a,0.1: W=T\\303\\274r x=\\\"q e=";
        let expected = [
            field(2, "J", "0"),
            field(7, "S", "0"),
            field(11, "W", "new york"),
            field(24, "v", "a=b"),
            field(32, "d", ":a,0.1:"),
            field(42, "W", "Tür"),
            field(55, "x", "\"q"),
            field(61, "e", ""),
        ];
        assert_eq!(read(line), expected);
        assert!(read("").is_empty() && read("  # N=1").is_empty());
    }

    #[test]
    fn what_is_written_is_read_again() {
        for word in ["", "a", "new york", "\"", "'s", "o'", "\\", "\\101", "a=b", "#", "Tür"] {
            assert_eq!(read(&format!("W={} v=1", written(word)))[0].2, word);
        }
    }
}
