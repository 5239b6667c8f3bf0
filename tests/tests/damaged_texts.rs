//! Damaged texts of grammars with notation and translations, and of sentences: each is read or refused at a place of it, and none is
//! more than that.

use spireyerba::text::{NamedGrammar, UtteranceReader};
use spireyerba::{Candidate, Error, Utterance};
use spireyerba_tests::notation::{rules_of, text};
use spireyerba_tests::seeded::rng::Rng;

const TEXTS: usize = 100_000;
/// What is put into texts.
const PIECES: [&str; 30] = [
    "(",
    ")",
    "?",
    "+",
    "*",
    "|",
    "[",
    "]",
    "->",
    "=>",
    "\"",
    "\"\"",
    "\\",
    "$1",
    "$",
    "#",
    ";",
    "'",
    "“",
    "\n",
    " ",
    "9",
    "65536",
    "99999999999",
    "symbols",
    "words",
    "office",
    "helper",
    "ü\u{301}",
    "\u{feff}",
];

fn damaged(rng: &mut Rng, text: &str) -> String {
    let mut letters: Vec<char> = text.chars().collect();
    for _ in 0..rng.within(1..=6) {
        let at = rng.below(letters.len() + 1);
        match rng.within(0..=3) {
            0 if at < letters.len() => drop(letters.remove(at)),
            1 if at < letters.len() => {
                let end = letters.len().min(at + rng.below(12));
                let copied: Vec<char> = letters[at..end].to_vec();
                let to = rng.below(letters.len());
                letters.splice(to..to, copied);
            }
            _ => {
                let piece = rng.pick(&PIECES);
                letters.splice(at..at, piece.chars());
            }
        }
    }
    letters.into_iter().collect()
}

#[test]
fn a_hundred_thousand() {
    let (mut rng, mut read, mut refused) = (Rng::new(40), 0, 0);
    let mut whole = String::new();
    for number in 0..TEXTS {
        if number % 10 == 0 {
            whole = text(&rules_of(&mut rng, |rules| NamedGrammar::parse(&text(rules)).is_ok()));
        }
        let text = damaged(&mut rng, &whole);
        match NamedGrammar::parse(&text) {
            Ok(named) => {
                read += 1;
                use_it(&named, &text);
            }
            Err(error) => {
                refused += 1;
                expect_place(&error, &text);
            }
        }
    }
    assert!(read > TEXTS / 20 && refused > TEXTS / 20, "{read} read, {refused} refused");
}

/// No message is longer.
const LONGEST_MESSAGE: usize = 600;

/// A message has a place of the text, and is short.
fn expect_place(error: &Error, text: &str) {
    let place = error.position().unwrap_or_else(|| panic!("{error}\n{text}"));
    let line = text.lines().nth(place.line - 1).unwrap_or_default();
    assert!(place.line <= text.lines().count().max(1), "{error}\n{text}");
    assert!((1..=line.chars().count() + 1).contains(&place.column), "{error}\n{text}");
    assert!(error.to_string().len() < LONGEST_MESSAGE, "{error}");
}

/// What was read is packed, its text is read as the same, and the first string that it derives has a tree and becomes something.
fn use_it(named: &NamedGrammar, text: &str) {
    let packed = named.packed().unwrap_or_else(|refusal| panic!("{refusal}\n{text}"));
    assert_eq!(NamedGrammar::parse(&named.to_text()).as_ref(), Ok(named), "{text}");
    let words = (1..=3).find_map(|length| named.grammar.specimen(length).expect("a length"));
    let Some(words) = words else { return };
    let slots = words.into_iter().map(|word| vec![Candidate { word, cost: 0 }]).collect();
    let readings = packed.list(&Utterance { slots }, 4).unwrap_or_else(|refusal| panic!("{refusal}\n{text}"));
    assert!(!readings.is_empty(), "{text}");
    for reading in readings {
        let tree = named.tree(&reading).unwrap_or_else(|| panic!("{text}"));
        named.translation(&tree);
    }
}

/// Lines of files of sentences, whose words the grammar has.
const SENTENCES: [&str; 4] =
    ["+ w0 w1 w2 [5] => \"<w0>\"", "- w0 w0 w1", "+ \"w1\" w0 => \"a \\\" b\" [70000] # said", "\u{feff}  + w2\t[0]"];

#[test]
fn a_hundred_thousand_sentences() {
    let named = NamedGrammar::parse("A -> A A | \"w0\" | \"w1\" [3] => \"1\" | \"w2\"").expect("a grammar");
    let (mut rng, mut read, mut refused) = (Rng::new(41), 0, 0);
    for _ in 0..TEXTS {
        let whole = rng.pick(&SENTENCES);
        let line = damaged(&mut rng, whole).replace(['\n', '\r'], " ");
        let mut reader = UtteranceReader::new(&named);
        reader.fold = rng.once_in(2);
        match reader.read_sentence(&line) {
            Ok(sentence) => {
                read += 1;
                let readings = sentence.words.map(|words| named.grammar.list(&words, 1).expect("slots").len());
                assert!(
                    readings.map_or_else(|fault| fault.reason().len() < LONGEST_MESSAGE, |count| count == 1),
                    "{line}"
                );
            }
            Err(error) => {
                refused += 1;
                expect_place(&error, &line);
            }
        }
    }
    assert!(read > TEXTS / 20 && refused > TEXTS / 20, "{read} read, {refused} refused");
}

/// Long and deep texts end soon, too.
#[test]
fn long_and_deep() {
    for piece in ["(", "(\"a\"|", "\"a\"? ", "A ", "(A? ", "\"x\"+ ", "| \"x\" ", "A -> \"x\"?\n"] {
        let text = format!("A -> {}", piece.repeat(20_000));
        assert!(NamedGrammar::parse(&text).is_err(), "{piece}");
    }
}
