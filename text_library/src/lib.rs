//! Grammars and what was heard as texts, for programs in other languages: include/spireyerba_text.h says what each function does.
//! The readers are those of the crate `spireyerba`.

#![warn(missing_docs)]

use spireyerba::text::{NamedGrammar, UtteranceReader};
use spireyerba::{Error, Part, Position, Reading, Refusal, Tree};
use std::fmt::Write;

/// Bytes that are lent.
#[repr(C)]
#[derive(Clone, Copy, Debug)]
pub struct Text {
    /// Where they begin.
    pub start: *const u8,
    /// How many there are.
    pub length: usize,
}

/// Where an answer goes.
#[repr(C)]
#[derive(Debug)]
pub struct Out {
    /// Where it begins.
    pub start: *mut u8,
    /// How many bytes may be written.
    pub room: usize,
    /// How many bytes the answer has.
    pub length: usize,
}

/// How what was heard is read.
#[repr(C)]
#[derive(Clone, Copy, Debug)]
pub struct Options {
    /// Of networks and lattices, or 0.
    pub scale: f64,
    /// Whether words that the grammar does not have are left out.
    pub drop_unknown: u32,
    /// Whether `*DELETE*` is left out.
    pub drop_deletes: u32,
    /// Words that nobody says.
    pub empty_words: Text,
}

/// A grammar with its names, and its block.
#[derive(Debug)]
pub struct TextGrammar {
    named: NamedGrammar,
    block: Vec<u8>,
}

/// What is answered.
const READ: i32 = 0;
const FAULT: i32 = 1;
const SHORT: i32 = 2;

impl Text {
    /// The bytes; none for a null pointer or no length.
    ///
    /// # Safety
    ///
    /// The pointer is valid for the length as long as the answer is used.
    #[allow(unsafe_code)]
    unsafe fn bytes<'a>(self) -> &'a [u8] {
        if self.start.is_null() || self.length == 0 {
            return &[];
        }
        // SAFETY: as the caller promises.
        unsafe { std::slice::from_raw_parts(self.start, self.length) }
    }
}

/// Why there is no answer: the refusal's number, where, and in words.
struct Wrong {
    number: u32,
    position: Position,
    message: String,
}

impl From<Error> for Wrong {
    fn from(error: Error) -> Self {
        let nowhere = Position { line: 0, column: 0 };
        let (number, position) = (error.number().unwrap_or_default(), error.position().unwrap_or(nowhere));
        Self { number, position, message: error.to_string() }
    }
}

/// The text that bytes are.
fn text(bytes: &[u8]) -> Result<&str, Wrong> {
    std::str::from_utf8(bytes).map_err(|error| {
        let before = &bytes[..error.valid_up_to()];
        let line = before.iter().filter(|byte| **byte == b'\n').count() + 1;
        let message = format!("not UTF-8, in line {line}: save the text as UTF-8");
        Wrong { number: 0, position: Position { line, column: 1 }, message }
    })
}

/// Bytes in hexadecimal digits.
fn hex(bytes: &[u8]) -> String {
    bytes.iter().fold(String::new(), |mut digits, byte| {
        let _ = write!(digits, "{byte:02x}");
        digits
    })
}

/// The lines of a text.
fn lines(bytes: &[u8]) -> Result<Vec<String>, Wrong> {
    Ok(text(bytes)?.lines().map(str::to_owned).collect())
}

/// What is answered about a grammar.
fn grammar_lines(grammar: &TextGrammar) -> String {
    let TextGrammar { named, block } = grammar;
    let (symbols, rules) = (named.own_symbols(), named.own_rules());
    let mut lines = format!("{}\n{symbols} {} {rules}\n", hex(block), named.words.len());
    let names = named.symbols[..symbols as usize].iter().chain(&named.words);
    names.for_each(|name| lines.extend([name, "\n"]));
    (0..rules).for_each(|rule| lines.extend([&named.rule_text(rule), "\n"]));
    lines
}

/// The grammar of a text.
fn read_grammar(bytes: &[u8]) -> Result<TextGrammar, Wrong> {
    let named = NamedGrammar::parse(text(bytes)?)?;
    let block = named.to_block().map_err(Error::from)?;
    Ok(TextGrammar { named, block })
}

/// The grammar of a block, with as many names as are given.
fn name_grammar(block: &[u8], symbols: &[u8], words: &[u8]) -> Result<TextGrammar, Wrong> {
    let mut named = NamedGrammar::from_block(block).map_err(Error::from)?;
    for (names, given) in [(&mut named.symbols, lines(symbols)?), (&mut named.words, lines(words)?)] {
        names.iter_mut().zip(given).for_each(|(name, given)| *name = given);
    }
    Ok(TextGrammar { named, block: block.to_vec() })
}

/// The block of what was heard, and what is to be told of it.
fn heard_line(grammar: &TextGrammar, heard: &[u8], options: &Options, empty: &[u8]) -> Result<String, Wrong> {
    let mut reader = UtteranceReader::new(&grammar.named);
    reader.scale = Some(options.scale).filter(|scale| *scale > 0.0);
    reader.drop_unknown = options.drop_unknown != 0;
    reader.drop_deletes = options.drop_deletes != 0;
    reader.empty_words = lines(empty)?;
    let lattice = reader.read_heard(text(heard)?)?;
    let block = lattice.heard.to_block(&grammar.block).map_err(Error::from)?;
    let notes = lattice.notes().into_iter().map(|note| note.replace('\n', " ") + "\n");
    Ok(hex(&block) + "\n" + &notes.collect::<String>())
}

/// The tree of a reading's rules, and its translation.
fn tree_lines(grammar: &TextGrammar, rules: &[u32]) -> Result<String, Wrong> {
    let reading = Reading::of_slots(0, rules.to_vec());
    match grammar.named.tree(&reading) {
        Some(tree) => Ok(format!("{}\n{}\n", node(&tree), grammar.named.translation(&tree))),
        None => Err(Error::from(Refusal::ReadingWalk).into()),
    }
}

/// A node in numbers.
fn node(tree: &Tree) -> String {
    let parts = tree.parts.iter().map(|part| match part {
        Part::Word { word, number } => format!("[{word}, {number}]"),
        Part::Tree(tree) => node(tree),
    });
    format!("[{}, {}, {}, [{}]]", tree.rule, tree.head, tree.weight, parts.collect::<Vec<_>>().join(", "))
}

/// The shares of the block's rules.
fn shares_line(grammar: &TextGrammar, shares: &[u8]) -> Result<String, Wrong> {
    let shares = grammar.named.parse_shares(text(shares)?)?;
    Ok(shares.iter().map(u32::to_string).collect::<Vec<_>>().join(" ") + "\n")
}

/// Writes an answer or what is wrong.
///
/// # Safety
///
/// `out` is valid, and its pointer for its room.
#[allow(unsafe_code)]
unsafe fn write(answer: Result<String, Wrong>, out: *mut Out) -> i32 {
    let (status, lines) = match answer {
        Ok(lines) => (READ, lines),
        Err(Wrong { number, position: Position { line, column }, message }) => {
            (FAULT, format!("{number} {line} {column}\n{}\n", message.replace('\n', " ")))
        }
    };
    // SAFETY: as the caller promises.
    let out = unsafe { &mut *out };
    out.length = lines.len();
    if out.room < lines.len() {
        return SHORT;
    }
    // SAFETY: as the caller promises, and there is room.
    unsafe { std::ptr::copy_nonoverlapping(lines.as_ptr(), out.start, lines.len()) };
    status
}

/// Writes what is answered about a grammar, and hands it out if there is room.
///
/// # Safety
///
/// `to` is valid, and `out` as for [`write`].
#[allow(unsafe_code)]
unsafe fn hand_out(read: Result<TextGrammar, Wrong>, to: *mut *mut TextGrammar, out: *mut Out) -> i32 {
    let (grammar, answer) = match read {
        Ok(grammar) => {
            let lines = grammar_lines(&grammar);
            (Some(grammar), Ok(lines))
        }
        Err(wrong) => (None, Err(wrong)),
    };
    // SAFETY: as the caller promises.
    unsafe {
        let status = write(answer, out);
        let kept = grammar.filter(|_| status == READ).map(Box::new);
        *to = kept.map_or(std::ptr::null_mut(), Box::into_raw);
        status
    }
}

/// Reads a grammar's text.
///
/// # Safety
///
/// All pointers are valid, those of texts for their lengths and that of the answer for its room.
#[allow(unsafe_code)]
#[no_mangle]
pub unsafe extern "C" fn spireyerba_text_read_grammar(
    text: *const Text,
    grammar: *mut *mut TextGrammar,
    out: *mut Out,
) -> i32 {
    // SAFETY: as the caller promises.
    unsafe { hand_out(read_grammar((*text).bytes()), grammar, out) }
}

/// Gives names to a grammar's block.
///
/// # Safety
///
/// As for [`spireyerba_text_read_grammar`].
#[allow(unsafe_code)]
#[no_mangle]
pub unsafe extern "C" fn spireyerba_text_name_grammar(
    block: *const Text,
    symbols: *const Text,
    words: *const Text,
    grammar: *mut *mut TextGrammar,
    out: *mut Out,
) -> i32 {
    // SAFETY: as the caller promises.
    unsafe {
        let [block, symbols, words] = [*block, *symbols, *words].map(|text| text.bytes());
        hand_out(name_grammar(block, symbols, words), grammar, out)
    }
}

/// Gives a grammar back.
///
/// # Safety
///
/// It is null, or was handed out and not given back yet.
#[allow(unsafe_code)]
#[no_mangle]
pub unsafe extern "C" fn spireyerba_text_free(grammar: *mut TextGrammar) {
    if !grammar.is_null() {
        // SAFETY: as the caller promises.
        drop(unsafe { Box::from_raw(grammar) });
    }
}

/// Reads what was heard under a grammar.
///
/// # Safety
///
/// As for [`spireyerba_text_read_grammar`], and the grammar was handed out and not given back yet.
#[allow(unsafe_code)]
#[no_mangle]
pub unsafe extern "C" fn spireyerba_text_heard(
    grammar: *const TextGrammar,
    text: *const Text,
    options: *const Options,
    out: *mut Out,
) -> i32 {
    // SAFETY: as the caller promises.
    unsafe {
        let options = *options;
        write(heard_line(&*grammar, (*text).bytes(), &options, options.empty_words.bytes()), out)
    }
}

/// Draws the tree of a reading's rule numbers.
///
/// # Safety
///
/// As for [`spireyerba_text_heard`], and the rules are valid for their count.
#[allow(unsafe_code)]
#[no_mangle]
pub unsafe extern "C" fn spireyerba_text_tree(
    grammar: *const TextGrammar,
    rules: *const u32,
    count: usize,
    out: *mut Out,
) -> i32 {
    // SAFETY: as the caller promises.
    unsafe {
        let rules = if count == 0 { &[] } else { std::slice::from_raw_parts(rules, count) };
        write(tree_lines(&*grammar, rules), out)
    }
}

/// Reads the shares of a grammar's rules.
///
/// # Safety
///
/// As for [`spireyerba_text_heard`].
#[allow(unsafe_code)]
#[no_mangle]
pub unsafe extern "C" fn spireyerba_text_shares(grammar: *const TextGrammar, text: *const Text, out: *mut Out) -> i32 {
    // SAFETY: as the caller promises.
    unsafe { write(shares_line(&*grammar, (*text).bytes()), out) }
}

#[cfg(test)]
mod tests {
    use super::*;

    const DOORS: &str = "Entry -> \"door\" Number [1]\nNumber -> \"four\" | \"five\" [2]";

    fn lent(text: &str) -> Text {
        Text { start: text.as_ptr(), length: text.len() }
    }

    /// What a call answers in so many bytes.
    fn answered(room: usize, call: impl FnOnce(*mut Out) -> i32) -> (i32, usize, String) {
        let mut bytes = vec![0xa5; room];
        let mut out = Out { start: bytes.as_mut_ptr(), room, length: 0 };
        let status = call(&mut out);
        let written = if status == SHORT { 0 } else { out.length };
        assert!(bytes[written..].iter().all(|byte| *byte == 0xa5));
        (status, out.length, String::from_utf8_lossy(&bytes[..written]).into_owned())
    }

    /// A grammar that is given back in the end.
    struct Kept(*mut TextGrammar);

    impl Drop for Kept {
        #[allow(unsafe_code)]
        fn drop(&mut self) {
            // SAFETY: it is null or was handed out.
            unsafe { spireyerba_text_free(self.0) };
        }
    }

    #[allow(unsafe_code)]
    fn grammar(text: &str, room: usize) -> (Kept, (i32, usize, String)) {
        let mut kept = Kept(std::ptr::null_mut());
        // SAFETY: all of it is lent until the call returns.
        let answer = answered(room, |out| unsafe { spireyerba_text_read_grammar(&lent(text), &mut kept.0, out) });
        (kept, answer)
    }

    #[test]
    #[allow(unsafe_code)]
    fn a_grammar_with_its_names() {
        let block = NamedGrammar::parse(DOORS).unwrap().to_block().unwrap();
        let names = "Entry\nNumber\ndoor\nfour\nfive\n";
        let rules = "Entry -> \"door\" Number [1]\nNumber -> \"four\"\nNumber -> \"five\" [2]\n";
        let expected = format!("{}\n2 3 3\n{names}{rules}", hex(&block));
        let (kept, answer) = grammar(DOORS, 1_000);
        assert!(!kept.0.is_null());
        assert_eq!(answer, (READ, expected.len(), expected.clone()));
        assert_eq!(grammar(DOORS, expected.len()).1 .0, READ);
        let (kept, answer) = grammar(DOORS, expected.len() - 1);
        assert!(kept.0.is_null());
        assert_eq!(answer, (SHORT, expected.len(), String::new()));
        // the block with the same names
        let (block, symbols, words) =
            (Text { start: block.as_ptr(), length: block.len() }, lent("Entry\nNumber"), lent("door\nfour\nfive\n"));
        let mut kept = Kept(std::ptr::null_mut());
        // SAFETY: all of it is lent until the call returns.
        let answer =
            answered(1_000, |out| unsafe { spireyerba_text_name_grammar(&block, &symbols, &words, &mut kept.0, out) });
        assert_eq!(answer.2, expected);
    }

    #[test]
    fn a_fault_with_its_place() {
        let wrong = "Entry -> Door Number [70000]";
        let (kept, (status, _, answer)) = grammar(wrong, 1_000);
        let error = NamedGrammar::parse(wrong).unwrap_err();
        assert!(kept.0.is_null());
        assert_eq!((status, answer), (FAULT, format!("42 1 23\n{error}\n")));
    }

    #[allow(unsafe_code)]
    fn heard(text: &str, scale: f64) -> (i32, String) {
        let (kept, _) = grammar(DOORS, 1_000);
        let nothing = Text { start: std::ptr::null(), length: 0 };
        let options = Options { scale, drop_unknown: 0, drop_deletes: 0, empty_words: nothing };
        // SAFETY: all of it is lent until the call returns.
        let answer = answered(1_000, |out| unsafe { spireyerba_text_heard(kept.0, &lent(text), &options, out) });
        (answer.0, answer.2)
    }

    #[test]
    fn slots_graphs_networks() {
        let named = NamedGrammar::parse(DOORS).unwrap();
        let block = named.to_block().unwrap();
        let slots = hex(&named.parse_utterance("door 3; four 9 | five 5").unwrap().to_block(&block).unwrap()) + "\n";
        assert_eq!(heard("door 3\nfour 9 | five 5", 0.0), (READ, slots.clone()));
        assert_eq!(heard("numaligns 2\nalign 0 door 0.97\nalign 1 five 0.95 four 0.91", 100.0), (READ, slots));
        let (status, graph) = heard("0 1 door 3\n1 2 five 5\n2", 0.0);
        assert!(status == READ && graph.starts_with('5'), "{graph}");
        let (status, fault) = heard("door 3\nsix 9", 0.0);
        assert!(status == FAULT && fault.contains("six"), "{fault}");
    }

    #[test]
    #[allow(unsafe_code)]
    fn trees_and_shares() {
        let (kept, _) = grammar(DOORS, 1_000);
        let tree = |rules: &[u32]| {
            // SAFETY: all of it is lent until the call returns.
            answered(1_000, |out| unsafe { spireyerba_text_tree(kept.0, rules.as_ptr(), rules.len(), out) })
        };
        let (status, _, answer) = tree(&[0, 3, 2]);
        assert_eq!((status, answer.as_str()), (READ, "[0, 0, 1, [[0, 0], [2, 1, 2, [[2, 1]]]]]\ndoor five\n"));
        assert_eq!(tree(&[0, 3]).0, FAULT);
        assert_eq!(tree(&[]).0, FAULT);
        // SAFETY: all of it is lent until the call returns.
        let shares = |text: &str| answered(1_000, |out| unsafe { spireyerba_text_shares(kept.0, &lent(text), out) }).2;
        assert_eq!(shares("1024 768 256"), "1024 768 256 1024\n");
        assert!(shares("1024 768").starts_with("60 "));
    }
}
