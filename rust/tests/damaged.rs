//! Damaged files of every format: never a panic, always an answer or a message with a place, and none takes long.

use spireyerba::text::{Format, NamedGrammar, Unread, UtteranceReader};
use spireyerba_tests::clock;
use spireyerba_tests::seeded::rng::Rng;
use std::path::{Path, PathBuf};
use std::time::Duration;

/// So many damaged files are read, of all formats together.
const FILES: usize = 100_000;
/// No message is longer.
const LONGEST_MESSAGE: usize = 600;

fn examples() -> PathBuf {
    Path::new(env!("CARGO_MANIFEST_DIR")).join("../examples")
}

/// The examples of formats, and those of slots and of a word graph.
fn texts() -> Vec<String> {
    let folder = std::fs::read_dir(examples().join("formats")).expect("examples/formats");
    let mut paths: Vec<PathBuf> = folder.map(|entry| entry.expect("an entry").path()).collect();
    paths.retain(|path| path.file_name().is_some_and(|name| name != "grammar.txt"));
    let others = ["doors/utterance.txt", "doors/network.txt", "doors_graph/graph.txt", "doors_graph/lattice.slf"];
    paths.extend(others.map(|name| examples().join(name)));
    paths.sort();
    paths.iter().map(|path| std::fs::read_to_string(path).expect("a text")).collect()
}

/// What stands in a damaged file in the place of something else.
const PIECES: [&str; 28] = [
    "",
    " ",
    "\n",
    "\t",
    "0",
    "-1",
    "nan",
    "inf",
    "-inf",
    "1e400",
    "99999999999",
    "0.5",
    ",",
    ",,",
    "=",
    "|",
    ";",
    "\"",
    "\\",
    "(",
    ")",
    "{",
    "[",
    "}",
    "]",
    "<eps>",
    "ü",
    "\u{feff}",
];

/// A text with some damage: cut off, with pieces in other places, or with lines twice or missing.
fn damaged(text: &str, rng: &mut Rng) -> String {
    let mut letters: Vec<char> = text.chars().collect();
    for _ in 0..1 + rng.below(4) {
        let (at, other) = (rng.below(letters.len() + 1), rng.below(letters.len() + 1));
        match rng.below(6) {
            0 => letters.truncate(at),
            1 => letters.splice(at..at, PIECES[rng.below(PIECES.len())].chars()).for_each(drop),
            2 => {
                let end = (at + 1 + rng.below(6)).min(letters.len());
                letters.splice(at..end, PIECES[rng.below(PIECES.len())].chars()).for_each(drop);
            }
            3 => {
                let copy: Vec<char> = letters[at.min(other)..at.max(other)].iter().copied().take(60).collect();
                letters.splice(at..at, copy).for_each(drop);
            }
            4 => letters.drain(at.min(other)..at.max(other).min(at.min(other) + 40)).for_each(drop),
            _ => {
                let (one, two) = (rng.below(10) as u8, rng.below(10) as u8);
                let digit = |number: u8| char::from(b'0' + number);
                letters
                    .iter_mut()
                    .filter(|letter| **letter == digit(one))
                    .take(2)
                    .for_each(|letter| *letter = digit(two));
            }
        }
    }
    letters.into_iter().collect()
}

/// Every format has a text that is damaged.
#[test]
fn every_format_is_among_them() {
    let texts = texts();
    for name in Format::names() {
        assert!(texts.iter().any(|text| Some(Format::of(text)) == Format::named(name)), "{name}");
    }
}

/// What stands in place of a score, of every format that is scored: told where it is and what is wanted, or taken for what it says.
#[test]
fn scores_that_are_none() {
    let grammar = NamedGrammar::parse("A -> A A | \"x\" | \"y\"").expect("a grammar");
    let read = |text: &str| {
        let mut reader = UtteranceReader::new(&grammar);
        reader.scale = Some(100.0);
        reader.read_all_heard(text).map(|lattices| lattices.len()).map_err(|error| error.in_file("f").to_string())
    };
    let no_number =
        |at: &str, found: &str| format!("f:{at}: `{found}` is not a number that can stand here: it has to be finite");
    let no_likelihood = |at: &str, found: &str| format!("f:{at}: `{found}` is not a likelihood from 0 to 1");
    let no_posterior = |at: &str, found: &str| format!("f:{at}: `{found}` is not a posterior from 0 to the network's");
    for odd in ["nan", "inf"] {
        assert_eq!(read(&format!("I=0\nI=1\nJ=0 S=0 E=1 W=x a={odd}\n")), Err(no_number("3:17", odd)));
        assert_eq!(read(&format!("-1.5 x y\n{odd} x\n")), Err(no_number("2:1", odd)));
        assert_eq!(read(&format!("a 1 0 1 x {odd}\n")), Err(no_likelihood("1:11", odd)));
        assert_eq!(read(&format!("a 1 0 1 x 0.5\na 1 {odd} 1 y 0.5\n")), Err(no_number("2:5", odd)));
        assert_eq!(read(&format!("align 0 x {odd} y 0.5\n")), Err(no_posterior("1:11", odd)));
    }
    assert_eq!(read("0 1 x nan\n1\n"), Err(no_number("1:7", "nan")));
    assert_eq!(read("u\n0 1 x nan,1,2\n1\n"), Err(no_number("2:7", "nan")));
    let word = |confidence: &str| format!("{{\"result\": [{{\"word\": \"x\", \"conf\": {confidence}}}]}}");
    assert_eq!(read(&word("-0.5")), Err(no_likelihood("1:35", "-0.5")));
    assert_eq!(read(&word("\"high\"")), Err(no_likelihood("1:35", "high")));
    assert_eq!(read(&word("\"0.9\"")), Ok(1));
    assert_eq!(read("I=0\nI=1\nJ=0 S=0 E=1 W=x p=1.5\n"), Err(no_likelihood("3:17", "1.5")));
    let too_large = "gives a cost that passes 65534: a smaller scale is needed";
    assert_eq!(read("0 1 x 1e14\n1\n"), Err(format!("f:1:1: refused 42: `100000000000000` {too_large}")));
    // a CTM that is cut off, a list in a list
    let cut = "f:2:8: the line ends where file, channel, beginning, duration and word should stand";
    assert_eq!(read("a 1 0 1 x 0.5\na 1 0 1\n"), Err(cut.into()));
    assert!(read(&"[".repeat(100_000)).is_err_and(|message| message.contains("go too deep")));
}

#[test]
fn damaged_files_are_answered_or_refused() {
    let grammar = std::fs::read_to_string(examples().join("formats/grammar.txt")).expect("a grammar");
    let grammar = NamedGrammar::parse(&grammar).expect("a grammar");
    let (texts, mut rng) = (texts(), Rng::new(20));
    let block = grammar.to_block().expect("a block");
    let (mut read, mut refused, mut in_part) = (0, 0, 0);
    for number in 0..FILES {
        let text = damaged(&texts[number % texts.len()], &mut rng);
        let mut reader = UtteranceReader::new(&grammar);
        reader.scale = Some(100.0).filter(|_| rng.below(8) > 0);
        reader.drop_unknown = rng.below(2) == 0;
        reader.format = Format::named(Format::names().nth(rng.below(30)).unwrap_or_default());
        let all = reader.read_all_heard(&text).unwrap_or_else(|error| vec![Err(Unread::new(None, error))]);
        in_part += usize::from(all.iter().any(Result::is_ok) && all.iter().any(Result::is_err));
        for one in all {
            match one {
                Ok(lattice) => {
                    read += 1;
                    drop(lattice.heard.to_block(&block).expect("what is read has a block"));
                }
                Err(Unread { error, .. }) => {
                    refused += 1;
                    let position = error.position().expect("a place");
                    assert!(position.line >= 1 && position.line <= text.lines().count().max(1) + 1, "{error}\n{text}");
                    assert!(error.to_string().len() < LONGEST_MESSAGE, "{error}");
                }
            }
        }
    }
    let few = [read, refused].iter().any(|count| *count < FILES / 10) || in_part < FILES / 1_000;
    assert!(!few, "{read} read, {refused} refused, {in_part} files of which only some is read");
}

/// What is enormous is refused within a second, and so is a name of a megabyte; the message is short.
#[test]
fn enormous_files() {
    const LINKS: usize = 1_000_000;
    let long = "x".repeat(1 << 20);
    let grammar = NamedGrammar::parse("A -> A A | \"x\"").expect("a grammar");
    let slf = || {
        let nodes: String = (0..1_000).map(|node| format!("I={node}\n")).collect();
        let link = |number: usize| format!("J={number} S={} E={} W=x a=-1\n", number % 999, number % 999 + 1);
        format!("VERSION=1.0\n{nodes}{}", (0..LINKS).map(link).collect::<String>())
    };
    let fst = || (0..LINKS).map(|number| format!("{} {} x 0.5\n", number % 999, number % 999 + 1)).collect::<String>();
    let json = || format!("{{\"result\": [{}]}}", vec!["{\"word\": \"x\", \"conf\": 0.5}"; LINKS].join(","));
    let cycle = || (0..60_000).map(|number| format!("{number} {} x 0.5\n", (number + 1) % 60_000)).collect::<String>();
    let texts = [
        ("nodes of SLF", format!("VERSION=1.0\n{}", (0..LINKS).map(|node| format!("I={node}\n")).collect::<String>())),
        ("a cycle", cycle()),
        ("slots", "x 3 ; ".repeat(LINKS)),
        ("graph", (0..LINKS).map(|number| format!("{number} {} x 3\n", number + 1)).collect()),
        ("list of sentences", "-1.5 x x\n".repeat(LINKS)),
        ("alignments", (0..LINKS).map(|number| format!("align {number} x 0.5\n")).collect()),
        ("utterances of CTM", (0..LINKS).map(|number| format!("u{number} A 0 1 x 0.5\n")).collect()),
        ("alternatives", format!("{{\"alternatives\": [{}]}}", vec!["{\"text\": \"x\"}"; LINKS].join(","))),
        ("SLF", slf()),
        ("OpenFst", fst()),
        ("Kaldi", format!("u\n{}", fst().replace("0.5", "0.5,1,"))),
        ("JSON", json()),
        ("sentences", format!("-1.5 {}\n", "x ".repeat(LINKS))),
        ("CTM", "a A 0 1 x 0.5\n".repeat(LINKS)),
        ("network", format!("align 0{}\n", " x 0.5".repeat(LINKS))),
        ("name", format!("u\n0 1 {long} 1,2,\n1\n")),
        ("word", format!("-1.5 {long}\n")),
    ];
    for (name, text) in texts {
        let mut reader = UtteranceReader::new(&grammar);
        reader.scale = Some(1.0);
        let (taken, read) = clock::once(|| reader.read_heard(&text));
        let message = read.expect_err(name).to_string();
        assert!(taken < Duration::from_secs(1), "{name} took {taken:?}");
        assert!(message.len() < LONGEST_MESSAGE, "{name}: {} bytes", message.len());
    }
}
