//! Word graphs where utterances stand, over the door schedule as a graph.

use crate::common::{
    answer, answer_graph, answer_with, answered, doors_graph, expect_refused_readings, folder, refused, run, run_in,
    run_with,
};
use spireyerba::Refusal;
use std::path::PathBuf;

#[test]
fn list_in_words() {
    let list = "\
1  72  door twenty four oak fire thirty
2  80  door forty oak fire thirty
3  80  door twenty four oak fire sixty
4  88  door twenty glass fire thirty
5  88  door twenty four oak right
6  88  door forty oak fire sixty
7  96  door forty oak right
8  96  door twenty glass fire sixty
";
    assert_eq!(answer_graph("list grammar.txt graph.txt"), list);
    assert_eq!(answer_graph("list grammar.txt utterance.bin"), list);
    let readings = std::fs::read_to_string(doors_graph().join("readings.txt")).expect("the list of the example");
    assert_eq!(answer_graph("list grammar.txt graph.txt --rules"), readings);
    assert_eq!(answer_graph("list grammar.bin utterance.bin --rules"), readings);
}

#[test]
fn list_as_trees_and_for_programs() {
    let trees = answer_graph("list grammar.txt graph.txt --tree -n 2");
    assert!(trees.ends_with("         └─ Minutes [0]  thirty 25\n"), "{trees}");
    assert!(trees.contains("   │  └─ Number [10]  forty 24\n"), "{trees}");
    let json = r#"{"rank":2,"weight":80,"words":["door","forty","oak","fire","thirty"],"#.to_owned()
        + r#""rules":[0,2,12,5,8,17,11,20,21],"edges":[0,3,7,9,12],"tree":["#;
    assert!(answer_graph("list grammar.txt graph.txt --json").contains(&json));
    assert!(!answer("list grammar.txt utterance.txt --json").contains("edges"));
}

#[test]
fn a_graph_has_no_slots() {
    let said = refused(run_in(&doors_graph(), "list grammar.txt graph.txt --said 0=door"), 1);
    let instead = "only slots have numbers; --said WORD keeps the paths that have a word";
    assert_eq!(said, format!("graph.txt: --said 0=door: {instead}\n"));
    let network = refused(run_in(&doors_graph(), "unpack grammar.txt utterance.bin --network --scale 100"), 1);
    assert_eq!(network, "utterance.bin: --network: a word graph is no confusion network\n");
}

/// A word that is known for certain is on every path that is left.
#[test]
fn a_word_that_was_said() {
    let said = |words: &str| run_in(&doors_graph(), &format!("list grammar.txt {words} -n 3"));
    let forty = "1  80  door forty oak fire thirty\n2  88  door forty oak fire sixty\n3  96  door forty oak right\n";
    assert_eq!(said("graph.txt --said forty").out, forty);
    assert_eq!(said("lattice.slf --scale 100 --said forty").out, forty);
    assert_eq!(said("graph.txt --said forty --said sixty").out, "1  88  door forty oak fire sixty\n");
    // of slots the ones that have it somewhere
    let slots = said("../doors/utterance.txt --said sixty").out;
    assert!(
        slots.starts_with("1   80  door twenty four oak fire sixty\n2   88  door forty four oak fire sixty\n"),
        "{slots}"
    );
    // a word that was said is not passed over
    let skipped = said("graph.txt --said glass --skip 5").out;
    assert!(skipped.lines().count() == 3 && skipped.lines().all(|line| line.contains(" glass")), "{skipped}");
    assert_eq!(refused(said("graph.txt --said steel"), 1), "graph.txt: --said steel: no path has it\n");
    let all = "give one of twenty, forty, four, five, door, oak, glass, steel, fire, thirty, sixty, left, and 1 more";
    for (word, meant) in [("green", ""), ("fourty", " (did you mean `forty`?)")] {
        let message = format!("--said {word}: the grammar has no such word{meant}: {all}\n");
        assert_eq!(refused(said(&format!("graph.txt --said {word}")), 1), message);
    }
}

#[test]
fn why_a_reading_is_not_the_first() {
    let why = "\
reading 4 weighs 88, 16 more than the first
  1  72  door twenty four oak fire thirty
  4  88  door twenty glass fire thirty

         first                     reading 4
2 to 3   four 9                                                -9
2 to 4                             glass 22                   +22
3 to 4   oak 7                                                 -7
rule 3   Number -> Tens Units [5]                              -5
rule 4                             Number -> \"twenty\" [10]    +10
rule 13  Tens -> \"twenty\"                                       0
rule 15  Units -> \"four\"                                        0
rule 17  Leaf -> \"oak\"                                          0
rule 18                            Leaf -> \"glass\" [5]         +5
                                                              +16
";
    assert_eq!(answer_graph("why grammar.txt graph.txt 4"), why);
}

#[test]
fn check_a_reading() {
    let check = |reading: &str| run_with(&doors_graph(), "check grammar.txt graph.txt -", reading.as_bytes());
    let passes = answered(check("80 0 2 12 5 8 17 11 20 21 | 0 3 7 9 12"), "check");
    assert_eq!(passes, "passes: 80  door forty oak fire thirty\n");
    let rows = [
        ("81 0 2 12 5 8 17 11 20 21 | 0 3 7 9 12", Refusal::ReadingWeight),
        ("80 0 2 12 5 8 17 11 20 21 | 0 3 7 9 13", Refusal::ReadingWalk),
        ("80 0 2 12 5 8 17 11 20 21 | 0 3 7 9 12 12", Refusal::ReadingWalk),
        ("80 0 2 12 5 8 17 11 20 21 | 0 3 7 9 200", Refusal::ReadingWalk),
        ("80 0 2 12 5 8 17 11 20 21", Refusal::ReadingWalk),
        ("80 0 2 12 5 8 17 11 20 99 | 0 3 7 9 12", Refusal::ReadingWalk),
        ("99999999 0 2 12 5 8 17 11 20 21 | 0 3 7 9 12", Refusal::ReadingWeight),
    ];
    expect_refused_readings(check, &rows);
    assert_eq!(refused(check("80 0 | 3 | 4"), 1), "<stdin>:1:10: `|` is not a whole number\n");
}

#[test]
fn pack_and_unpack() {
    let reading = "80 0 2 12 5 8 17 11 20 21 | 0 3 7 9 12\n";
    let packed = folder("packed_graph", &[("text", reading.as_bytes())]);
    let path = |name: &str| packed.join(name).display().to_string();
    let (text, graph, block) = (path("text"), path("graph"), path("block"));
    answer_graph(&format!("pack grammar.txt graph.txt -o {graph}"));
    let read = |path: PathBuf| std::fs::read(path).expect("a file");
    assert_eq!(read(packed.join("graph")), read(doors_graph().join("utterance.bin")));
    let unpacked = answer_graph("unpack grammar.txt utterance.bin");
    assert!(unpacked.starts_with("0 1 door 4\n0 1 four 61\n") && unpacked.ends_with("5 6 sixty 33\n6\n"), "{unpacked}");
    assert_eq!(answer_with(&doors_graph(), "unpack grammar.txt -", unpacked.as_bytes()), unpacked);
    answer_graph(&format!("pack grammar.txt graph.txt {text} -o {block}"));
    assert_eq!(answer_graph(&format!("unpack grammar.txt graph.txt {block}")), reading);
    let other = refused(run(&format!("check grammar.txt utterance.txt {block}")), 1);
    assert!(other.contains(&format!("{}; and no text", Refusal::ReadingKind)), "{other}");
}

#[test]
fn the_page() {
    let page = answer_graph("report grammar.txt graph.txt");
    assert!(page.contains("A word graph of 7 places and 14 edges. Its 8 sentences of least weight."));
    assert_eq!(page.matches("<svg ").count(), 9);
    let (_, drawing) = page.split_once("<svg class=\"lattice\"").expect("the graph drawn");
    let (drawing, _) = drawing.split_once("</svg>").expect("its end");
    assert_eq!((drawing.matches("<path").count(), drawing.matches("<circle").count()), (14, 7));
    // the path of the first reading, and what was not heard
    for (class, edges) in [("taken", vec![0, 2, 4, 7, 9, 12]), ("unheard", vec![8])] {
        assert_eq!(drawing.matches(&format!("<path class=\"{class}\"")).count(), edges.len());
        let label = |edge: u32| drawing.contains(&format!("><title>edge {edge}: "));
        assert!(edges.into_iter().all(label), "{drawing}");
        let labels = drawing.matches(&format!("<text class=\"{class}\"")).count();
        assert_eq!(labels, drawing.matches(&format!("<path class=\"{class}\"")).count());
    }
    assert!(
        drawing.contains("<title>edge 3: 1 to 3</title>forty<tspan class=\"small\" dx=\"4\">24</tspan></text>"),
        "{drawing}"
    );
}

/// Words that differ are marked by an alignment of the sentences: the words behind a longer or shorter part are not.
#[test]
fn the_page_marks_few_words() {
    let page = answer_graph("report grammar.txt graph.txt");
    for words in ["door <mark>forty</mark> oak fire thirty", "door twenty <mark>glass</mark> fire thirty"] {
        assert!(page.contains(&format!("<td>{words}</td>")), "{words}");
    }
    let trees = answer_graph("report grammar.txt graph.txt -n 2");
    assert_eq!(trees.matches("rx=\"3\"/>").count(), 1);
}

/// Each sentence stands once, unless every tree is asked for.
#[test]
fn the_page_has_a_sentence_once() {
    let files: [(&str, &[u8]); 2] =
        [("g", b"A -> B B\nB -> \"x\""), ("l", b"0 1 x 1\n0 2 x 2\n1 3 x 1\n2 3 x 4\n1 2 x 9\n3")];
    let folder = folder("page_once", &files);
    let rows = |options: &str| {
        let page = run_in(&folder, &format!("report g l {options}")).out;
        page.matches("<a href=\"#reading-").count()
    };
    assert_eq!([rows(""), rows("--every-tree"), rows("--distinct")], [1, 2, 1]);
    let page = run_in(&folder, "report g l").out;
    assert!(page.contains("<td>x x <small>+1 tree</small></td>"), "{page}");
}

#[test]
fn mistakes() {
    let files: [(&str, &[u8]); 5] = [
        ("g", b"A -> B B [3]\nB -> \"x\"\n"),
        ("back", b"0 1 x 1\n1 1 x 2"),
        ("word", b"0 1 x 1\n0 1 y 2"),
        ("block", &[0x51, 0x81, 0x08, 0x40, 0x00, 0x00]),
        ("kind", &[0x71, 0x81, 0x08]),
    ];
    let folder = folder("graph_mistakes", &files);
    for (words, message) in [
        ("list g back", "back:2:3: refused 51: an edge ends above where it starts: not 1 to 1".to_owned()),
        ("list g word", "word:2:5: refused 14: the grammar has no word `y`".to_owned()),
        ("list g block", format!("block: {}; and no text, for byte 0x81 in line 1", Refusal::EdgePlaces)),
        ("list g kind", format!("kind: {}; and no text, for byte 0x81 in line 1", Refusal::UtteranceKind)),
    ] {
        assert_eq!(refused(run_in(&folder, words), 1), format!("{message}\n"), "{words}");
    }
}
