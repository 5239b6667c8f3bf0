//! Lines that look like those of a text in another format.

use super::lattices::is_closed;
use super::line::Line;
use crate::failure::Failure;
use crate::files;
use spireyerba::text::Format;

/// So many lines are looked at, and fewer than the least could be anything.
const MOST: usize = 10;
const LEAST: usize = 2;

/// What stands between words in an utterance's line, and nowhere in other formats but behind the mark of a comment.
const MARKS: [char; 2] = ['|', ';'];
const COMMENT: &str = ";;";

/// Refuses a text whose format was not given if its first lines look like another than utterances, a line each, and none of them has a
/// reading.
pub fn refuse_other(name: &str, text: &str, mut has_reading: impl FnMut(&Line) -> bool) -> Result<(), Failure> {
    let lines: Vec<Line> = files::lines_of(text).take(MOST).map(|(before, line)| Line::new(line, before)).collect();
    let format = Format::of(text);
    let is_other = match format {
        Format::Slots | Format::Graph => false,
        Format::Json => !lines.first().is_some_and(|first| is_closed(first.heard)),
        _ => true,
    };
    let has_marks = |line: &Line| !line.heard.trim_start().starts_with(COMMENT) && line.heard.contains(MARKS);
    let is_by_itself = |line: &Line| matches!(Format::of(line.heard), Format::Slots | Format::Graph | Format::Json);
    let mut is_utterance = |line: &Line| has_marks(line) || is_by_itself(line) && has_reading(line);
    if !is_other || lines.len() < LEAST || lines.iter().any(&mut is_utterance) {
        return Ok(());
    }
    let format = format.name();
    Err(Failure::Refused(format!(
        "{name}: the first lines look like a text in the format {format} and not like utterances, a line each: give --format {format} \
         (with --format slots or graph each line is read by itself)"
    )))
}
