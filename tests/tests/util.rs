//! The conveniences for C (include/spireyerba_util.h) beside the Rust crate: the program tests/c/util.c, compiled as C and as
//! C++ and watched for what is undefined, makes a call for each line that is written here.

use spireyerba::limits::{graph_reading_length, reading_length, width, work_length, GRAPH_BLOCK_MAX};
use spireyerba::services::check;
use spireyerba::text::NamedGrammar;
use spireyerba::{Body, Graph, Heard, Lister, Reading, Refusal};
use spireyerba_tests::compare::over_seeds;
use spireyerba_tests::heard;
use spireyerba_tests::seeded::damage::{blocks, repeated_edge};
use spireyerba_tests::seeded::grammars::{grammar, Size};
use spireyerba_tests::seeded::graphs::graph;
use spireyerba_tests::seeded::offices::generous;
use spireyerba_tests::seeded::parsable::{any_shape, heard_case};
use spireyerba_tests::seeded::raw::grammar_block;
use std::fmt::Display;
use std::fs::{read_to_string, write, File};
use std::path::{Path, PathBuf};
use std::process::Command;
use std::sync::OnceLock;

const ROOT: &str = concat!(env!("CARGO_MANIFEST_DIR"), "/..");
const FOLDER: &str = env!("CARGO_TARGET_TMPDIR");
/// The languages, each with its standard.
const LANGUAGES: [(&str, &str); 2] = [("c", "c99"), ("c++", "c++11")];

/// The program, compiled as each language.
fn programs() -> &'static [PathBuf; 2] {
    static PROGRAMS: OnceLock<[PathBuf; 2]> = OnceLock::new();
    PROGRAMS.get_or_init(|| LANGUAGES.map(|(language, standard)| compiled(language, standard)))
}

fn compiled(language: &str, standard: &str) -> PathBuf {
    let program = Path::new(FOLDER).join(format!("util_{standard}"));
    let status = Command::new("gcc")
        .current_dir(ROOT)
        .args(["-O1", "-Wall", "-Wextra", "-Werror", "-pedantic", "-Iinclude"])
        .args(["-fsanitize=address,undefined", "-fno-sanitize-recover=all"])
        .args(["-x", language, &format!("-std={standard}"), "tests/c/util.c", "util/spireyerba_util.c"])
        .args(["-x", "none", "target/staticlib/libspireyerba.a", "-o"])
        .arg(&program)
        .status();
    assert!(status.expect("gcc runs").success(), "tests/c/util.c is compiled as {language}");
    program
}

/// Makes the calls of some lines and compares what is answered with what is expected.
fn expect(name: &str, calls: &[(String, String)]) {
    let [lines, answers] = ["in", "out"].map(|end| Path::new(FOLDER).join(format!("util_{name}.{end}")));
    let text: String = calls.iter().map(|(call, _)| format!("{call}\n")).collect();
    write(&lines, text).expect("a file of calls");
    for program in programs() {
        let [input, output] = [File::open(&lines), File::create(&answers)].map(|file| file.expect("a file"));
        let status = Command::new(program).stdin(input).stdout(output).status();
        let answered = read_to_string(&answers).expect("answers");
        for ((call, expected), answer) in calls.iter().zip(answered.lines()) {
            assert_eq!(answer, expected, "{call}");
        }
        assert!(status.expect("the program runs").success() && answered.lines().count() == calls.len());
    }
}

fn hex(block: &[u8]) -> String {
    match block {
        [] => "-".to_owned(),
        _ => block.iter().map(|byte| format!("{byte:02x}")).collect(),
    }
}

fn numbers(numbers: impl IntoIterator<Item = impl Display>) -> String {
    numbers.into_iter().map(|number| format!(" {number}")).collect()
}

fn refused(refusal: Refusal) -> String {
    format!("refused {}", refusal.number())
}

#[test]
fn versions_and_words_of_refusals() {
    let version = env!("CARGO_PKG_VERSION");
    let mut calls = vec![("version".to_owned(), format!("{version} {version} 1 1"))];
    for number in 0..100 {
        let words = Refusal::from_number(number).map_or("no refusal", Refusal::meaning);
        calls.extend(["", "-"].map(|sign| (format!("words {sign}{number}"), words.to_owned())));
    }
    expect("words", &calls);
}

#[test]
fn lengths() {
    let mut calls = Vec::new();
    for rules in 1..=256 {
        let (symbols, slots, wanted) = (1 + rules % 32, 1 + rules % 24, 1 + rules * 7 % 256);
        let lengths = [
            width(rules as u32 - 1),
            reading_length(slots, rules),
            graph_reading_length(slots, rules),
            work_length(symbols, slots, wanted),
        ];
        let expected = numbers(lengths).trim_start().to_owned();
        calls.push((format!("lengths {symbols} {slots} {rules} {wanted}"), expected));
    }
    expect("lengths", &calls);
}

/// What tests/c/util.c prints of a grammar's block.
fn of_grammar(block: &[u8]) -> String {
    let named = match NamedGrammar::from_block(block) {
        Ok(named) => named,
        Err(refusal) => return refused(refusal),
    };
    let rules = &named.grammar.rules;
    let words = rules.iter().map(|rule| match rule.body {
        Body::Word(word) => i64::from(word),
        Body::Pair(..) => -1,
    });
    let marks = (0..rules.len() as u32).map(|rule| u32::from(named.is_marked(rule)));
    let sizes = [named.grammar.symbols, named.grammar.words, rules.len() as u32, named.marks().is_some().into()];
    format!("{} words{} marks{}", numbers(sizes).trim_start(), numbers(words), numbers(marks))
}

#[test]
fn grammars() {
    let (mut calls, mut accepted) = (Vec::new(), 0);
    over_seeds(0..300, |rng| {
        let whole = match rng.below(3) {
            0 => generous(rng).to_block().expect("a block"),
            1 => grammar_block(rng),
            _ => {
                let size = Size::any(rng);
                grammar(rng, size).to_block().expect("a block")
            }
        };
        for block in blocks(rng, &whole, 4).into_iter().take(8).chain([whole]) {
            let expected = of_grammar(&block);
            accepted += usize::from(!expected.starts_with("refused"));
            calls.push((format!("grammar {}", hex(&block)), expected));
        }
    });
    assert!(accepted > 200 && calls.len() - accepted > 200, "{accepted} of {}", calls.len());
    expect("grammars", &calls);
}

/// What tests/c/util.c prints of a reading.
fn of_reading(named: &NamedGrammar, reading: &Reading) -> String {
    let (of_graph, leaves) = (reading.path.is_some(), 0..reading.walk.len() as u32 / 2 + 1);
    let edges = reading.path.clone().unwrap_or_else(|| leaves.collect());
    let (rules, words, edges) = (numbers(&reading.walk), numbers(named.words_of(reading)), numbers(edges));
    format!("{} {} rules{rules} words{words} edges{edges}", reading.weight, u32::from(of_graph))
}

#[test]
fn readings_and_what_is_lent() {
    let (mut calls, mut readings) = (Vec::new(), 0);
    over_seeds(0..400, |rng| {
        let shape = any_shape(rng);
        let (under, heard) = heard_case(rng, &[shape]);
        let (block, wanted) = (under.to_block().expect("a block"), rng.within(1..=8));
        let heard_block = heard::pack(&under, &heard);
        let of_graph = matches!(heard, Heard::Graph(_));
        let (work, out) = heard::listing_lengths(&under, &heard, wanted);
        let lengths = [heard.longest(), of_graph.into(), heard::reading_length(&under, &heard), work, out];
        let call = format!("measure {} {} {wanted}", hex(&block), hex(&heard_block));
        calls.push((call, numbers(lengths).trim_start().to_owned()));
        let mut lister = Lister::new(&under).expect("a lister");
        let named = NamedGrammar::numbered(under);
        let mut list = String::new();
        for found in lister.find_in_block(&heard_block, wanted).expect("a listing").readings() {
            let packed = found.to_block(&named.grammar).expect("a block");
            let call = format!("reading {} {}", hex(&block), hex(&packed));
            let expected = of_reading(&named, &found);
            list += &format!(" | {expected}");
            calls.push((call, expected));
            readings += 1;
        }
        calls.push((format!("list {} {} {wanted}", hex(&block), hex(&heard_block)), list));
        for damaged in blocks(rng, &heard_block, 3).into_iter().take(4) {
            if let Err(refusal) = lister.find_in_block(&damaged, wanted) {
                calls.push((format!("list {} {} {wanted}", hex(&block), hex(&damaged)), refused(refusal)));
            }
        }
    });
    assert!(readings > 400, "{readings} readings");
    expect("readings", &calls);
}

/// Whatever bytes a reading has, it is read or refused, and what the library passes is read.
#[test]
fn damaged_readings() {
    let (mut calls, mut passed) = (Vec::new(), 0);
    over_seeds(0..60, |rng| {
        let shape = any_shape(rng);
        let (under, heard) = heard_case(rng, &[shape]);
        let (block, heard_block) = (under.to_block().expect("a block"), heard::pack(&under, &heard));
        let named = NamedGrammar::numbered(under);
        for (_, whole) in heard::least(&named.grammar, &heard, 2) {
            for damaged in blocks(rng, &whole, 12) {
                let call = format!("reading {} {}", hex(&block), hex(&damaged));
                passed += usize::from(check(&block, &heard_block, &damaged).is_ok());
                calls.push((call, damaged_reading(&named, &damaged)));
            }
        }
    });
    assert!(calls.len() > 600, "{} readings, of which {passed} pass", calls.len());
    expect("damaged", &calls);
}

/// What tests/c/util.c prints of any bytes as a reading: by the format's words, field by field.
fn damaged_reading(named: &NamedGrammar, block: &[u8]) -> String {
    let rules = &named.grammar.rules;
    let mut reader = spireyerba_tests::bits::BitReader::new(block);
    let (Some(kind), end) = (reader.field(4), || refused(Refusal::ReadingEnd)) else {
        return refused(Refusal::ReadingEnd);
    };
    if kind != 3 && kind != 6 {
        return refused(Refusal::ReadingKind);
    }
    let Some(leaves) = reader.field(6) else { return end() };
    if !(1..=24).contains(&leaves) {
        return refused(Refusal::ReadingSlots);
    }
    let Some(weight) = reader.field(24) else { return end() };
    let (mut walk, mut path) = (Vec::new(), Vec::new());
    for _ in 0..2 * leaves - 1 {
        let Some(rule) = reader.field(width(rules.len() as u32 - 1)) else { return end() };
        let Some(known) = rules.get(rule as usize) else { return refused(Refusal::ReadingWalk) };
        walk.push(rule);
        if matches!(known.body, Body::Word(_)) {
            if path.len() == leaves as usize {
                return refused(Refusal::ReadingWalk);
            }
            let Some(edge) = (if kind == 6 { reader.field(7) } else { Some(path.len() as u32) }) else { return end() };
            path.push(edge);
        }
    }
    if path.len() != leaves as usize {
        return refused(Refusal::ReadingWalk);
    }
    of_reading(named, &Reading { weight, walk, path: Some(path).filter(|_| kind == 6) })
}

/// A call that packs a graph in an output of some length.
fn packing(under: &[u8], graph: &Graph, length: usize) -> String {
    let edges = graph.edges.iter().map(|edge| format!("{} {} {} {}", edge.from, edge.to, edge.word, edge.cost));
    format!("graph {} {length} {}{}", hex(under), graph.places, numbers(edges))
}

#[test]
fn graphs() {
    let (mut calls, mut packed) = (Vec::new(), 0);
    over_seeds(0..600, |rng| {
        let size = Size::any(rng);
        let under = grammar(rng, size);
        let mut value = graph(rng, size, under.words);
        if rng.once_in(4) {
            value = repeated_edge(rng, &value);
        }
        let number = rng.below(value.edges.len());
        let edge = &mut value.edges[number];
        match rng.below(9) {
            0 => value.places = rng.within(0..=40),
            1 => edge.from = rng.within(0..=40),
            2 => edge.to = rng.within(0..=40),
            3 => edge.word = rng.within(0..=300),
            4 => edge.cost = rng.within(65_530..=65_540),
            5 => value.edges.clear(),
            6 => value.edges = [value.edges.clone(), value.edges].concat(),
            _ => (),
        }
        let block = under.to_block().expect("a block");
        match value.to_block(&block) {
            Ok(bytes) => {
                packed += 1;
                calls.push((packing(&block, &value, bytes.len()), hex(&bytes)));
                calls.push((packing(&block, &value, bytes.len() - 1), refused(Refusal::OutputShort)));
            }
            Err(refusal) => calls.push((packing(&block, &value, GRAPH_BLOCK_MAX), refused(refusal))),
        }
    });
    assert!(packed > 150 && packed < 450, "{packed} packed");
    expect("graphs", &calls);
}
