//! A line of text cut into tokens, each with its column.

use super::Fault;
use crate::{Error, Position};
use std::borrow::Cow;

/// What follows it in a line is a comment.
const COMMENT: char = '#';
const QUOTE: char = '"';
const ESCAPE: char = '\\';
const ARROW: &str = "->";
/// What stands before what a rule becomes.
const BECOMES: &str = "=>";

/// What tokens a text has.
pub(super) struct Syntax {
    /// Whether an ASCII character is a token by itself.
    is_mark: [bool; 128],
    /// Whether a token without quotes ends before it.
    ends_bare: [bool; 128],
    /// Whether a byte is a character within such a token, and not one that an arrow begins with.
    is_plain: [bool; 256],
    /// The arrows.
    arrows: &'static [&'static str],
}

pub(super) static GRAMMAR: Syntax = Syntax::new(b"|[]()?*+;", &[ARROW, BECOMES]);
pub(super) static UTTERANCE: Syntax = Syntax::new(b"|;", &[ARROW]);
pub(super) static SENTENCE: Syntax = Syntax::new(b"|;[]", &[BECOMES]);

impl Syntax {
    const fn new(marks: &[u8], arrows: &'static [&'static str]) -> Self {
        let mut syntax = Self { is_mark: [false; 128], ends_bare: [false; 128], is_plain: [false; 256], arrows };
        let mut number = 0;
        while number < marks.len() {
            syntax.is_mark[marks[number] as usize] = true;
            number += 1;
        }
        let mut byte = 0;
        while byte < 128 {
            let letter = byte as u8 as char;
            syntax.ends_bare[byte] =
                syntax.is_mark[byte] || letter.is_whitespace() || letter == QUOTE || letter == COMMENT;
            syntax.is_plain[byte] = !syntax.ends_bare[byte];
            byte += 1;
        }
        let mut number = 0;
        while number < arrows.len() {
            syntax.is_plain[arrows[number].as_bytes()[0] as usize] = false;
            number += 1;
        }
        syntax
    }

    /// The arrow that a text begins with.
    fn arrow(&self, text: &str) -> Option<&'static str> {
        self.arrows.iter().copied().find(|arrow| text.starts_with(arrow))
    }

    fn ends_bare(&self, letter: char) -> bool {
        self.ends_bare.get(letter as usize).copied().unwrap_or_else(|| letter.is_whitespace())
    }
}

#[derive(Clone, Debug, PartialEq)]
pub(super) enum Token<'a> {
    Bare(&'a str),
    Quoted(Cow<'a, str>),
    Mark(char),
    Arrow,
    Becomes,
}

impl Token<'_> {
    /// The token as it is shown in a message.
    pub(super) fn shown(&self) -> String {
        match self {
            Self::Bare(name) => name.to_string(),
            Self::Quoted(word) => quoted(word),
            Self::Mark(mark) => mark.to_string(),
            Self::Arrow => ARROW.to_owned(),
            Self::Becomes => BECOMES.to_owned(),
        }
    }
}

/// The tokens of a line.
pub(super) struct Tokens<'a> {
    line: &'a str,
    number: usize,
    syntax: &'static Syntax,
    /// The byte where the next token is looked for, and that where the last one begins or the line ends.
    at: usize,
    last: usize,
}

impl<'a> Tokens<'a> {
    /// The tokens of a line with its number.
    pub(super) fn new(line: &'a str, number: usize, syntax: &'static Syntax) -> Self {
        Self { line, number, syntax, at: 0, last: 0 }
    }

    /// The byte where the last token begins, or where the line ends.
    pub(super) fn mark(&self) -> usize {
        self.last
    }

    /// Where that byte stands.
    pub(super) fn position_of(&self, mark: usize) -> Position {
        Position { line: self.number, column: self.line[..mark].chars().count() + 1 }
    }

    /// Where the last token begins, or where the line ends.
    pub(super) fn position(&self) -> Position {
        self.position_of(self.last)
    }

    /// A fault at the last token.
    pub(super) fn fault(&self, fault: Fault) -> Error {
        Error::at(self.position(), fault)
    }

    /// A fault since something else stands where `wanted` should.
    pub(super) fn expected<T>(&self, wanted: &'static str, found: Option<Token>) -> Result<T, Error> {
        Err(self.fault(Fault::Expected { wanted, found: found.map(|token| token.shown()) }))
    }

    /// The next token, and nothing at the end of the line or before a comment.
    pub(super) fn next(&mut self) -> Result<Option<Token<'a>>, Error> {
        self.pass_blanks();
        self.last = self.at;
        let rest = &self.line[self.at..];
        match rest.bytes().next().map(char::from) {
            None | Some(COMMENT) => Ok(None),
            Some(QUOTE) => self.quoted().map(Some),
            Some(mark) if self.syntax.is_mark.get(mark as usize) == Some(&true) => {
                self.at += mark.len_utf8();
                Ok(Some(Token::Mark(mark)))
            }
            Some('-' | '=') => Ok(Some(match self.syntax.arrow(rest) {
                None => self.bare(rest),
                Some(arrow) => {
                    self.at += arrow.len();
                    if arrow == ARROW {
                        Token::Arrow
                    } else {
                        Token::Becomes
                    }
                }
            })),
            Some(_) => Ok(Some(self.bare(rest))),
        }
    }

    /// Takes one of these marks, if it stands right behind the last token, with no blank between them.
    pub(super) fn touching(&mut self, marks: &[char]) -> Option<char> {
        let mark = self.line[self.at..].chars().next().filter(|mark| marks.contains(mark))?;
        self.last = self.at;
        self.at += mark.len_utf8();
        Some(mark)
    }

    /// Takes what stands right behind the last token, if it begins as numbers do.
    pub(super) fn touching_number(&mut self) -> Option<&'a str> {
        let rest = &self.line[self.at..];
        if !rest.starts_with(|letter: char| letter.is_ascii_digit() || "-.".contains(letter)) {
            return None;
        }
        self.last = self.at;
        match self.bare(rest) {
            Token::Bare(number) => Some(number),
            _ => None,
        }
    }

    /// Whether a blank, the end of the line or one of these stands behind the last token.
    pub(super) fn is_apart(&self, marks: &[char]) -> bool {
        let next = self.line[self.at..].chars().next();
        next.is_none_or(|next| next.is_whitespace() || next == COMMENT || marks.contains(&next))
    }

    fn pass_blanks(&mut self) {
        let bytes = self.line.as_bytes();
        // nearly always it is one
        self.at += usize::from(bytes.get(self.at) == Some(&b' '));
        if bytes.get(self.at).is_some_and(|byte| !byte.is_ascii_graphic()) {
            self.at += prefix(&self.line[self.at..], char::is_whitespace);
        }
    }

    /// A token that ends at a blank, before a mark or before an arrow.
    fn bare(&mut self, rest: &'a str) -> Token<'a> {
        let plain = rest.bytes().position(|byte| !self.syntax.is_plain[usize::from(byte)]).unwrap_or(rest.len());
        let end = match rest.as_bytes().get(plain) {
            Some(b'-' | b'=' | 128..) => self.bare_end(rest),
            _ => plain,
        };
        self.at += end;
        Token::Bare(&rest[..end])
    }

    /// The bytes of a token that has characters of several bytes in it, or what may be an arrow.
    fn bare_end(&self, rest: &str) -> usize {
        let end = prefix(rest, |letter| !self.syntax.ends_bare(letter));
        self.syntax.arrows.iter().filter_map(|arrow| rest[..end].find(arrow)).min().unwrap_or(end)
    }

    fn quoted(&mut self) -> Result<Token<'a>, Error> {
        let inner = &self.line[self.at + QUOTE.len_utf8()..];
        let end = closing_quote(inner).ok_or_else(|| self.fault(Fault::Unclosed))?;
        let inner = &inner[..end];
        let word = if inner.contains(ESCAPE) { Cow::Owned(self.unescaped(inner)?) } else { Cow::Borrowed(inner) };
        self.at += end + 2 * QUOTE.len_utf8();
        Ok(Token::Quoted(word))
    }

    fn unescaped(&self, inner: &str) -> Result<String, Error> {
        let (mut word, mut letters) = (String::new(), inner.chars());
        while let Some(letter) = letters.next() {
            word.push(match letter {
                ESCAPE => match letters.next() {
                    Some(escaped @ (QUOTE | ESCAPE)) => escaped,
                    other => {
                        return Err(self.fault(Fault::Escape([Some(ESCAPE), other].into_iter().flatten().collect())))
                    }
                },
                letter => letter,
            });
        }
        Ok(word)
    }
}

/// The byte at which the quote stands that ends a quoted word.
fn closing_quote(inner: &str) -> Option<usize> {
    let mut escaped = false;
    for (at, letter) in inner.char_indices() {
        match letter {
            QUOTE if !escaped => return Some(at),
            _ => escaped = letter == ESCAPE && !escaped,
        }
    }
    None
}

/// The bytes at the front of a text whose characters are all of a kind.
fn prefix(text: &str, is_kind: impl Fn(char) -> bool) -> usize {
    for (at, byte) in text.bytes().enumerate() {
        if !byte.is_ascii() {
            return text.find(|letter| !is_kind(letter)).unwrap_or(text.len());
        }
        if !is_kind(char::from(byte)) {
            return at;
        }
    }
    text.len()
}

/// A word in quotes.
pub(super) fn quoted(word: &str) -> String {
    format!("\"{}\"", word.replace(ESCAPE, "\\\\").replace(QUOTE, "\\\""))
}

/// Whether a word is one token where it stands without quotes.
pub(super) fn is_bare(word: &str, syntax: &Syntax) -> bool {
    let has_arrow = syntax.arrows.iter().any(|arrow| word.contains(arrow));
    !word.is_empty() && !word.contains(|letter| syntax.ends_bare(letter)) && !has_arrow
}

/// The whole number that some digits write, if 32 bits hold it.
pub(super) fn digits(item: &str) -> Option<Option<u32>> {
    let all_digits = !item.is_empty() && item.bytes().all(|byte| byte.is_ascii_digit());
    all_digits.then(|| item.parse().ok())
}

/// A weight or a cost.
pub(super) fn weight(item: &str, what: &'static str) -> Result<u32, Fault> {
    match digits(item) {
        None => Err(Fault::Weight { what, found: item.to_owned() }),
        Some(Some(number)) if number <= crate::limits::MAX_WEIGHT => Ok(number),
        Some(_) => Err(Fault::TooLarge { what, number: item.to_owned() }),
    }
}

#[cfg(test)]
mod tests {
    use super::*;

    fn all(line: &str) -> Vec<(usize, String)> {
        let mut tokens = Tokens::new(line, 1, &GRAMMAR);
        let mut list = Vec::new();
        while let Some(token) = tokens.next().unwrap() {
            list.push((tokens.position().column, token.shown()));
        }
        list
    }

    #[test]
    fn tokens_have_columns_in_characters() {
        let shown =
            [(1, "Tür"), (5, "->"), (8, "\"große\""), (16, "["), (17, "3"), (18, "]"), (20, "|"), (22, "A"), (24, "B")];
        assert_eq!(all("Tür -> \"große\" [3] | A B# C"), shown.map(|(column, text)| (column, text.to_owned())));
        assert_eq!(all("A->B C").len(), 4);
    }

    #[test]
    fn quoted_words() {
        for word in ["", "a", "a b", "#", "\"", "\\", "\\\"", "a\\\"b|;"] {
            let line = quoted(word);
            let token = Tokens::new(&line, 1, &UTTERANCE).next().unwrap();
            assert_eq!(token, Some(Token::Quoted(word.into())), "{line}");
        }
    }
}
