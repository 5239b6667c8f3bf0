//! Why there is no reading: how far what was heard goes along with the grammar, and what could follow there.

use crate::common::{answer_with, answered, doors, folder, run_with, Run};

const NONE: &str = "no reading: the grammar derives nothing of what was heard\n";

fn list(words: &str, heard: &[u8]) -> Run {
    run_with(&doors(), &format!("list grammar.txt - {words}"), heard)
}

/// What is said of something that has no reading.
fn why(heard: &[u8]) -> String {
    let Run { status, out, err } = list("", heard);
    assert_eq!((status, out.as_str()), (0, ""));
    err.strip_prefix(NONE).unwrap_or_else(|| panic!("{err}")).to_owned()
}

#[test]
fn how_far_slots_go_along() {
    let middle = "  goes along with it: door twenty\n  could follow there: four, five, oak, glass, steel\n  \
                  heard in slot 2: left 9, right 12\n";
    assert_eq!(why(b"door 4; twenty 12 | forty 20; right 12 | left 9 | oak 65535; oak 1"), middle);
    let first = "  goes along with it: nothing\n  could follow there: door\n  heard in slot 0: four 4\n";
    assert_eq!(why(b"four 4; oak 12"), first);
    let short = "  goes along with it: door four oak fire\n  could follow there: thirty, sixty\n  \
                 heard behind it: nothing more\n";
    assert_eq!(why(b"door 4; four 12; oak 1; fire 3"), short);
    let long = "  goes along with it: door four oak\n  could follow there: oak, glass, steel, fire, left, right, or the end\n  \
                heard in slot 3: door 1\n";
    assert_eq!(why(b"door 4; four 12; oak 1; door 1"), long);
    let unheard =
        "  goes along with it: door four\n  could follow there: oak, glass, steel\n  heard in slot 2: nothing\n";
    assert_eq!(why(b"door 4; four 12; oak 65535; left 1"), unheard);
}

/// Of the paths to the furthest place the cheapest; an edge that leads nowhere is on none.
#[test]
fn how_far_graphs_go_along() {
    let graph = b"0 1 door 4\n1 2 twenty 9\n1 3 forty 2\n2 3 four 1\n3 4 fire 3\n4 5 left 1\n3 6 oak 1\n5";
    let message = "  goes along with it: door forty\n  could follow there: four, five, oak, glass, steel\n  \
                   heard at place 3: fire 3\n";
    let with_end = String::from_utf8_lossy(graph).replace("3 6 oak 1\n5", "3 5 door 7\n5");
    assert_eq!(why(with_end.as_bytes()), message.replace("fire 3", "fire 3, door 7"));
    // place 6 is the last one that an edge reaches, so nothing else is on a path
    let dead = String::from_utf8_lossy(graph).replace("\n5", "\n7");
    assert_eq!(why(dead.as_bytes()).lines().next(), Some("  goes along with it: door forty oak"));
}

#[test]
fn for_programs() {
    let heard = b"door 4; twenty 12; right 12";
    let prefix = r#""prefix":{"words":["door","twenty"],"place":2,"next":["four","five","oak","glass","steel"],"may_end":false}}"#;
    assert_eq!(answered(list("--json", heard), "list"), format!("{{\"readings\":[],{prefix}\n"));
    for distinct in ["", "--distinct"] {
        let batch = answer_with(&doors(), &format!("batch grammar.txt - {distinct}"), heard);
        assert_eq!(batch, format!("{{\"line\":1,\"readings\":[],{prefix}\n"));
        let graph = answer_with(&doors(), "batch grammar.txt -", b"0 1 door 4; 1 2 twenty 12; 2 3 right 12; 3");
        assert_eq!(graph, format!("{{\"line\":1,\"readings\":[],{prefix}\n"));
    }
    assert!(!answered(list("--json", b"door 4; four 2; oak 1"), "list").contains("prefix"));
}

#[test]
fn on_the_page() {
    let page = answer_with(&doors(), "report grammar.txt -", b"door 4; twenty 12; right 12");
    let section =
        "<section>\n<h2>Why there is no reading</h2>\n<dl>\n<dt>goes along with the grammar</dt><dd>door twenty</dd>\n\
                   <dt>could follow there</dt><dd>four, five, oak, glass, steel</dd>\n\
                   <dt>heard in slot 2</dt><dd>right 12</dd>\n</dl>\n</section>\n";
    assert!(page.contains(section), "{page}");
    assert!(!answer_with(&doors(), "report grammar.txt -", b"door 4; four 2; oak 1").contains("no reading"));
}

/// A message does not name all words of a long list, and a grammar may derive nothing at all.
#[test]
fn long_lists_and_no_sentence() {
    let words: Vec<String> = (0..20).map(|word| format!("\"w{word}\"")).collect();
    let files = [
        ("g", format!("A -> \"x\" B\nB -> {}", words.join(" | "))),
        ("nothing", "A -> A B\nB -> \"x\"".into()),
        ("u", "x 1; x 2".into()),
    ];
    let files = files.each_ref().map(|(name, text)| (*name, text.as_bytes()));
    let folder = folder("no_readings", &files);
    let many = run_with(&folder, "list g u", b"").err;
    let next = "w0, w1, w2, w3, w4, w5, w6, w7, w8, w9, w10, w11, and 8 more";
    assert_eq!(many, format!("{NONE}  goes along with it: x\n  could follow there: {next}\n  heard in slot 1: x 2\n"));
    let nothing = run_with(&folder, "list nothing u", b"").err;
    let none = "nothing: the grammar derives no sentence";
    assert_eq!(
        nothing,
        format!("{NONE}  goes along with it: nothing\n  could follow there: {none}\n  heard in slot 0: x 1\n")
    );
}
