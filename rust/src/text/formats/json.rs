//! JSON, read into values that know where they stand.

use super::MAX_LINKS;
use crate::text::Fault;
use crate::{Error, Position};

/// Values within values go so deep at most.
const MAX_DEPTH: usize = 64;
/// A text has at most so many values: some for each link that a lattice may have.
const MAX_VALUES: usize = 4 * MAX_LINKS;

/// A value, and where it begins.
#[derive(Debug, PartialEq)]
pub(super) struct Value {
    pub(super) kind: Kind,
    pub(super) position: Position,
}

/// What a value is.
#[derive(Debug, PartialEq)]
pub(super) enum Kind {
    /// `null`, `true` or `false`.
    Word,
    Number(f64),
    Text(String),
    List(Vec<Value>),
    Object(Vec<(String, Value)>),
}

impl Value {
    /// The value of a key of an object, whatever the case of its letters.
    pub(super) fn get(&self, key: &str) -> Option<&Value> {
        match &self.kind {
            Kind::Object(fields) => {
                fields.iter().find(|(known, _)| known.eq_ignore_ascii_case(key)).map(|(_, value)| value)
            }
            _ => None,
        }
    }

    /// The items of a list.
    pub(super) fn items(&self) -> &[Value] {
        match &self.kind {
            Kind::List(items) => items,
            _ => &[],
        }
    }

    /// A text.
    pub(super) fn text(&self) -> Option<&str> {
        match &self.kind {
            Kind::Text(text) => Some(text),
            _ => None,
        }
    }

    /// A number, which some write in quotes.
    pub(super) fn number(&self) -> Option<f64> {
        match &self.kind {
            Kind::Number(number) => Some(*number),
            Kind::Text(text) => text.parse().ok().filter(|number: &f64| number.is_finite()),
            _ => None,
        }
    }
}

/// Whether a text begins as JSON does.
pub(super) fn is_json(text: &str) -> bool {
    let text = text.trim_start();
    let behind = |marks: [char; 3]| text[1..].trim_start().starts_with(marks);
    (text.starts_with('{') && behind(['{', '"', '}'])) || (text.starts_with('[') && behind(['{', '[', '"']))
}

/// Reads the one value of a text.
pub(super) fn parse(text: &str) -> Result<Value, Error> {
    let mut reader = Reader { text, at: 0, line: 1, counted: 0, column: 1, values: 0 };
    let value = reader.value(0)?;
    match reader.peek() {
        None => Ok(value),
        Some(other) => Err(reader.expected("the end of the text", Some(other))),
    }
}

/// A text that is being read.
struct Reader<'a> {
    text: &'a str,
    at: usize,
    line: usize,
    /// Up to where the columns of the line are counted, and how many there are.
    counted: usize,
    column: usize,
    /// How many values there are so far.
    values: usize,
}

impl Reader<'_> {
    /// The next character that is no blank.
    fn peek(&mut self) -> Option<char> {
        let bytes = self.text.as_bytes();
        while let Some(byte) = bytes.get(self.at).filter(|byte| byte.is_ascii_whitespace()) {
            self.at += 1;
            if *byte == b'\n' {
                self.line += 1;
                (self.counted, self.column) = (self.at, 1);
            }
        }
        self.text[self.at..].chars().next()
    }

    fn position(&mut self) -> Position {
        self.column += self.text[self.counted..self.at].chars().count();
        self.counted = self.at;
        Position { line: self.line, column: self.column }
    }

    fn expected(&mut self, wanted: &'static str, found: Option<char>) -> Error {
        Error::at(self.position(), Fault::Expected { wanted, found: found.map(String::from) })
    }

    /// Takes a character that has to stand here.
    fn take(&mut self, wanted: char, name: &'static str) -> Result<(), Error> {
        match self.peek() {
            Some(found) if found == wanted => {
                self.at += found.len_utf8();
                Ok(())
            }
            other => Err(self.expected(name, other)),
        }
    }

    fn value(&mut self, depth: usize) -> Result<Value, Error> {
        let first = self.peek();
        let position = self.position();
        self.values += 1;
        if depth > MAX_DEPTH || self.values > MAX_VALUES {
            let fault = if depth > MAX_DEPTH { Fault::JsonDepth } else { Fault::JsonValues(MAX_VALUES) };
            return Err(Error::at(position, fault));
        }
        let kind = match first {
            Some('{') => Kind::Object(self.object(depth)?),
            Some('[') => Kind::List(self.list(depth)?),
            Some('"') => Kind::Text(self.text_value()?),
            Some('-' | '0'..='9') => Kind::Number(self.number()?),
            _ => self.word()?,
        };
        Ok(Value { kind, position })
    }

    fn object(&mut self, depth: usize) -> Result<Vec<(String, Value)>, Error> {
        self.at += 1;
        let mut fields = Vec::new();
        if self.peek() == Some('}') {
            self.at += 1;
            return Ok(fields);
        }
        loop {
            if self.peek() != Some('"') {
                let found = self.peek();
                return Err(self.expected("a name in quotes", found));
            }
            let name = self.text_value()?;
            self.take(':', "`:`")?;
            fields.push((name, self.value(depth + 1)?));
            match self.peek() {
                Some(',') => self.at += 1,
                _ => return self.take('}', "`,` or `}`").map(|()| fields),
            }
        }
    }

    fn list(&mut self, depth: usize) -> Result<Vec<Value>, Error> {
        self.at += 1;
        let mut items = Vec::new();
        if self.peek() == Some(']') {
            self.at += 1;
            return Ok(items);
        }
        loop {
            items.push(self.value(depth + 1)?);
            match self.peek() {
                Some(',') => self.at += 1,
                _ => return self.take(']', "`,` or `]`").map(|()| items),
            }
        }
    }

    fn number(&mut self) -> Result<f64, Error> {
        let rest = &self.text[self.at..];
        let is_part = |letter: char| letter.is_ascii_digit() || matches!(letter, '-' | '+' | '.' | 'e' | 'E');
        let digits = &rest[..rest.find(|letter| !is_part(letter)).unwrap_or(rest.len())];
        let number = digits.parse().ok().filter(|number: &f64| number.is_finite());
        let (length, fault) = (digits.len(), Fault::Real(digits.to_owned()));
        let number = number.ok_or_else(|| Error::at(self.position(), fault))?;
        self.at += length;
        Ok(number)
    }

    /// `null`, `true` or `false`.
    fn word(&mut self) -> Result<Kind, Error> {
        let rest = &self.text[self.at..];
        let Some(word) = ["null", "true", "false"].into_iter().find(|word| rest.starts_with(word)) else {
            let found = self.peek();
            return Err(self.expected("a value", found));
        };
        self.at += word.len();
        Ok(Kind::Word)
    }

    /// A text in quotes.
    fn text_value(&mut self) -> Result<String, Error> {
        let begin = self.position();
        self.at += 1;
        let mut text = String::new();
        loop {
            let rest = &self.text[self.at..];
            let end = rest.find(['"', '\\', '\n']).ok_or_else(|| Error::at(begin, Fault::Unclosed))?;
            text += &rest[..end];
            self.at += end + 1;
            match rest.as_bytes()[end] {
                b'"' => return Ok(text),
                b'\\' => text.push(self.escaped()?),
                _ => return Err(Error::at(begin, Fault::Unclosed)),
            }
        }
    }

    /// The character that stands behind a backslash.
    fn escaped(&mut self) -> Result<char, Error> {
        let letter = self.text[self.at..].chars().next();
        let plain = match letter {
            Some('n') => Some('\n'),
            Some('t') => Some('\t'),
            Some('r') => Some('\r'),
            Some('b') => Some('\u{8}'),
            Some('f') => Some('\u{c}'),
            Some(same @ ('"' | '\\' | '/')) => Some(same),
            Some('u') => return self.code(),
            _ => None,
        };
        let found =
            plain.ok_or_else(|| Error::at(self.position(), Fault::Escape(format!("\\{}", letter.unwrap_or(' ')))))?;
        self.at += 1;
        Ok(found)
    }

    /// The character of `u` and four digits, or of two such halves.
    fn code(&mut self) -> Result<char, Error> {
        const DIGITS: usize = 4;
        let position = self.position();
        let unit = |at: usize| {
            let digits = self.text.get(at + 1..at + 1 + DIGITS)?;
            u32::from_str_radix(digits, 16).ok().filter(|_| self.text.as_bytes()[at] == b'u')
        };
        let high = unit(self.at);
        let is_high = high.is_some_and(|high| (0xd800..0xdc00).contains(&high));
        let low_at = self.at + DIGITS + 2;
        let low = if is_high && self.text.as_bytes().get(low_at - 1) == Some(&b'\\') { unit(low_at) } else { None };
        let low = low.filter(|low| (0xdc00..0xe000).contains(low));
        let number = match (high, low) {
            (Some(high), Some(low)) => Some(0x10000 + ((high - 0xd800) << 10) + (low - 0xdc00)),
            (high, _) => high,
        };
        self.at += 1 + DIGITS + if low.is_some() { DIGITS + 2 } else { 0 };
        match number {
            // half a character stands for none
            Some(number) => Ok(char::from_u32(number).unwrap_or(char::REPLACEMENT_CHARACTER)),
            None => Err(Error::at(position, Fault::Escape("\\u".to_owned()))),
        }
    }
}

#[cfg(test)]
mod tests {
    use super::*;

    fn text(json: &str) -> Option<String> {
        parse(json).ok()?.text().map(str::to_owned)
    }

    #[test]
    fn texts_and_numbers() {
        assert_eq!(text(r#" "T\u00fcr \ud83d\udeaa \"a\\\n" "#).as_deref(), Some("Tür 🚪 \"a\\\n"));
        assert_eq!(text(r#""\ud83dx""#).as_deref(), Some("\u{fffd}x"));
        let numbers = parse("[0, -1.5e3, \"0.25\", null, true]").unwrap();
        let found: Vec<Option<f64>> = numbers.items().iter().map(Value::number).collect();
        assert_eq!(found, [Some(0.0), Some(-1500.0), Some(0.25), None, None]);
    }

    #[test]
    fn mistakes_have_places() {
        for (json, message) in [
            ("{\"a\": 1", "1:8: the line ends where `,` or `}` should stand"),
            ("{\n  a: 1}", "2:3: `a` where a name in quotes should stand"),
            ("[1, 2", "1:6: the line ends where `,` or `]` should stand"),
            ("\"a", "1:1: a quoted word has no quote at its end"),
            ("[\"\\x\"]", "1:4: `\\x` in a quoted word: only \\\" and \\\\ have a meaning"),
            ("[1] 2", "1:5: `2` where the end of the text should stand"),
            ("[nil]", "1:2: `n` where a value should stand"),
            ("[1e999]", "1:2: `1e999` is not a number that can stand here: it has to be finite"),
        ] {
            assert_eq!(parse(json).unwrap_err().in_file("f").to_string(), format!("f:{message}"), "{json}");
        }
        assert!(parse(&"[".repeat(1_000_000)).is_err());
    }
}
