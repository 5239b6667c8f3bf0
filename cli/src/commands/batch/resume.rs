//! Answers of a run that was interrupted, behind which another goes on.

use crate::failure::Failure;
use crate::names::{path, shown};
use std::fs::File;
use std::io::{Read, Seek, SeekFrom};

/// How an answer begins; the number of its line follows.
pub const BEGIN: &[u8] = b"{\"line\":";
/// The end of the file in which the last answer is looked for first.
const TAIL: u64 = 1 << 16;

/// What a line of the input is answered by.
#[derive(Clone, Copy, PartialEq, Eq)]
pub enum Answered {
    /// By one answer.
    Once,
    /// By one or several, of which the last ones may be missing: those of the last line go and are made again.
    Often,
}

/// Opens a file of answers to write behind the last whole one, or where its line may have several behind those of the line before,
/// and says of which line of the input that is: 0 if there is none. What stands behind it, such as the front of an answer that was
/// being written, goes. What is no file of answers is refused, and stays.
pub fn open(name: &str, answered: Answered) -> Result<(File, usize), Failure> {
    let of_file = |error| Failure::file(name, &error);
    let mut file =
        File::options().read(true).write(true).create(true).truncate(false).open(path(name)).map_err(of_file)?;
    let Some((end, line)) = last_answer(&mut file, answered).map_err(of_file)? else {
        return Err(Failure::Refused(format!("{}: not answers of `batch` to the end, and left as it is", shown(name))));
    };
    file.set_len(end).map_err(of_file)?;
    file.seek(SeekFrom::Start(end)).map_err(of_file)?;
    Ok((file, line))
}

/// Where to go on, and behind which line; nothing if the file does not end in an answer or the front of one.
fn last_answer(file: &mut File, answered: Answered) -> std::io::Result<Option<(u64, usize)>> {
    let length = file.metadata()?.len();
    let mut size = TAIL.min(length);
    loop {
        let mut tail = Vec::new();
        file.seek(SeekFrom::Start(length - size))?;
        file.by_ref().take(size).read_to_end(&mut tail)?;
        let tail = Tail { bytes: &tail, is_whole: size == length };
        if let Some(found) = tail.last(answered) {
            return Ok(found.map(|(end, line)| (length - size + end as u64, line)));
        }
        size = (2 * size).min(length);
    }
}

/// The end of a file, or the whole of it.
struct Tail<'a> {
    bytes: &'a [u8],
    is_whole: bool,
}

impl Tail<'_> {
    /// The same in it; nothing yet if an answer that counts begins before it.
    fn last(&self, answered: Answered) -> Option<Option<(usize, usize)>> {
        let end = self.bytes.iter().rposition(|byte| *byte == b'\n').map_or(0, |at| at + 1);
        let rest = &self.bytes[end..];
        let is_front = rest.starts_with(BEGIN) || BEGIN.starts_with(rest);
        let mut begin = self.begin_of(end)?;
        let line = if end == 0 { Some(0) } else { line_of(&self.bytes[begin..end]) };
        let Some(line) = line.filter(|_| is_front) else { return Some(None) };
        if answered == Answered::Once || line == 0 {
            return Some(Some((end, line)));
        }
        // the first answer of that line
        while begin > 0 {
            let before = self.begin_of(begin)?;
            if line_of(&self.bytes[before..begin]) != Some(line) {
                break;
            }
            begin = before;
        }
        Some(Some((begin, line - 1)))
    }

    /// Where the answer begins that ends here; nothing yet if that is before the tail.
    fn begin_of(&self, end: usize) -> Option<usize> {
        let before = &self.bytes[..end.saturating_sub(1)];
        let begin = before.iter().rposition(|byte| *byte == b'\n').map(|at| at + 1);
        begin.or(self.is_whole.then_some(0))
    }
}

/// The line that an answer is of, if it is one.
fn line_of(answer: &[u8]) -> Option<usize> {
    let rest = answer.strip_prefix(BEGIN)?;
    let digits = rest.iter().take_while(|byte| byte.is_ascii_digit()).count();
    let whole = rest[digits..].starts_with(b",") && answer.ends_with(b"}\n");
    std::str::from_utf8(&rest[..digits]).ok()?.parse().ok().filter(|_| whole)
}
