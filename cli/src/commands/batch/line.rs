//! A line of the input, with its name.

use super::resume::BEGIN;
use crate::json;
use crate::names::shown;

/// A line of the input.
pub struct Line<'a> {
    /// The lines before it.
    pub before: usize,
    /// What stands before a tab.
    pub name: Option<&'a str>,
    pub heard: &'a str,
}

impl<'a> Line<'a> {
    pub fn new(line: &'a str, before: usize) -> Self {
        let named = line.split_once('\t').filter(|(name, heard)| is_name(name) && !is_number_alone(heard));
        match named {
            Some((name, heard)) => Self { before, name: Some(name), heard },
            None => Self { before, name: None, heard: line },
        }
    }

    /// The columns before what was heard.
    pub fn columns(&self) -> usize {
        self.name.map_or(0, |name| name.chars().count() + 1)
    }

    /// Begins its answer, with its name or that of what was heard.
    pub fn begin(&self, json: &mut Vec<u8>, own: Option<&str>) {
        self.begin_as(json, self.name.or(own));
    }

    /// The name of a lattice of the file that it names: one of several has its own, and one alone the line's, or its own, or that
    /// of the file.
    pub fn name_of<'b>(&'b self, own: Option<&'b str>, is_alone: bool) -> &'b str {
        let [first, second] = if is_alone { [self.name, own] } else { [own, self.name] };
        first.or(second).unwrap_or(self.heard.trim())
    }

    /// Begins the answer of a lattice of the file that it names.
    pub fn begin_lattice(&self, json: &mut Vec<u8>, own: Option<&str>, is_alone: bool) {
        self.begin_as(json, Some(&shown(self.name_of(own, is_alone))));
    }

    fn begin_as(&self, json: &mut Vec<u8>, name: Option<&str>) {
        json.extend_from_slice(BEGIN);
        json::push_number(json, self.before as u32 + 1);
        if let Some(name) = name {
            json::push_key(json, "id");
            json::push_string(json, name);
        }
    }
}

/// Whether this can be a line's name: it has no blank and nothing that stands between words.
fn is_name(text: &str) -> bool {
    !text.is_empty() && !text.contains(|letter: char| letter.is_whitespace() || "|;\"".contains(letter))
}

/// Whether a text begins with a number, as a cost or a place is one, and no other number follows at once: then what stands before it
/// is a word that was heard, or a place. Behind a cost stands a word, a mark or nothing.
fn is_number_alone(text: &str) -> bool {
    let is_number = |item: &str| !item.is_empty() && item.bytes().all(|byte| byte.is_ascii_digit());
    let is_end = |letter: char| letter.is_whitespace() || "|;".contains(letter);
    let text = text.trim_start();
    let (first, rest) = text.split_at(text.find(is_end).unwrap_or(text.len()));
    let next = rest.trim_start().split(is_end).next();
    is_number(first) && !next.is_some_and(is_number)
}
