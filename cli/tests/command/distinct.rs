//! Each sentence once.

use crate::common::{answer, answer_in, doors, folder, refused, run_in, run_with, Run};
use std::path::PathBuf;

/// A grammar with two trees for each sentence, and what was heard as slots and as a graph on which `x y` has two paths.
fn ambiguous(name: &str) -> PathBuf {
    let files: [(&str, &[u8]); 4] = [
        ("g", b"A -> B C | C B [1]\nB -> \"x\" | \"y\" [2]\nC -> \"x\" [1] | \"y\""),
        ("slots", b"x 1 | y 4; x 2 | y 1"),
        ("graph", b"0 1 x 1\n1 3 y 1\n0 2 x 2\n2 3 y 3\n2 3 x 5\n3"),
        ("many", b"x 1 | y 4; x 2 | y 1\n0 1 x 1; 1 2 x 2\nx 1"),
    ];
    folder(name, &files)
}

#[test]
fn the_first_of_each_word_string() {
    let folder = ambiguous("distinct_first");
    let all = "\
1  2  x y
2  4  x x
3  5  x x
4  6  x y
5  7  y y
6  7  y x
7  8  y y
8  9  y x
";
    assert_eq!(answer_in(&folder, "list g slots"), all);
    let once = "\
1  2  x y  (+1 tree)
2  4  x x  (+1 tree)
3  7  y y  (+1 tree)
4  7  y x  (+1 tree)
";
    assert_eq!(answer_in(&folder, "list g slots --distinct"), once);
    assert_eq!(
        answer_in(&folder, "list g slots --distinct -n 2"),
        once.split_inclusive('\n').take(2).collect::<String>()
    );
    assert_eq!(answer_in(&folder, "list g graph --distinct"), "1  2  x y  (+3 trees)\n2  8  x x  (+1 tree)\n");
    assert_eq!(answer_in(&folder, "list g slots --distinct --rules -n 2"), "readings 2\n1 2 0 2 5\n2 4 0 2 4\n");
    let tree = answer_in(&folder, "list g graph --distinct --tree -n 1");
    assert_eq!(tree, "1  2  x y  (+3 trees)\n   A [0]\n   ├─ B [0]  x 1\n   └─ C [0]  y 1\n");
}

#[test]
fn for_programs() {
    let folder = ambiguous("distinct_json");
    let json = r#"{"readings":[{"rank":1,"weight":2,"words":["x","y"],"rules":[0,2,5],"edges":[0,1],"others":3,"tree":["A",["B","x"],["C","y"]]}]}"#;
    assert_eq!(answer_in(&folder, "list g graph --distinct --json -n 1"), format!("{json}\n"));
    let batch = r#"{"line":1,"readings":[{"rank":1,"weight":2,"words":["x","y"],"rules":[0,2,5],"others":1},{"rank":2,"weight":4,"words":["x","x"],"rules":[0,2,4],"others":1}]}
{"line":2,"readings":[{"rank":1,"weight":4,"words":["x","x"],"rules":[0,2,4],"edges":[0,1],"others":1}]}
{"line":3,"readings":[]}
"#;
    let begin = batch.replace("\"readings\":[]}\n", "\"readings\":[]");
    let found = answer_in(&folder, "batch g many --distinct -n 2");
    assert!(found.starts_with(&begin), "{found}");
}

/// Weight, words and count of each sentence of a line of JSON.
fn sentences(json: &str) -> Vec<[String; 3]> {
    let between = |text: &str, key: &str, end: &[char]| {
        let (_, behind) = text.split_once(key).expect("the key");
        behind.split(end).next().unwrap_or_default().to_owned()
    };
    let sentence = |text: &str| {
        let [weight, others] = ["\"weight\":", "\"others\":"].map(|key| between(text, key, &[',', '}']));
        [weight, between(text, "\"words\":[", &[']']), others]
    };
    json.split("{\"rank\":").skip(1).map(sentence).collect()
}

/// `list` takes readings one by one from an open listing and `batch` from a whole one: the same sentences and counts, of random
/// utterances under a grammar of many trees, also where 256 readings are used up.
#[test]
fn one_by_one_and_by_a_whole_list() {
    let (mut lines, mut used_up) = (Vec::new(), 0);
    for seed in 0..40_u32 {
        let number = |place: u32| (seed * 37 + place * 101 + seed * place * 13) % 9;
        let slots = 2 + seed % 7;
        let slot = |place: u32| format!("x {} | y {}", number(place), number(place + 50));
        lines.push((0..slots).map(slot).collect::<Vec<_>>().join(" ; "));
        let edge = |place: u32| {
            format!("{place} {} x {} ; {place} {} y {}", place + 1, number(place), place + 1, number(place + 9))
        };
        let skip = |place: u32| format!("{place} {} x {}", place + 2, number(place + 30));
        let edges = (0..slots).map(edge).chain((0..slots - 1).map(skip)).collect::<Vec<_>>().join(" ; ");
        lines.push(edges);
    }
    let grammar = b"A -> A A [1] | B A | \"x\" [2]\nB -> \"x\" | \"y\" [3] | B B";
    let folder = folder("distinct_both", &[("g", grammar), ("u", lines.join("\n").as_bytes())]);
    let batch = answer_in(&folder, "batch g u --distinct -n 12");
    for (line, answer) in lines.iter().zip(batch.lines()) {
        let list = run_with(&folder, "list g - --distinct -n 12 --json", line.replace(" ; ", "\n").as_bytes());
        assert_eq!(sentences(&list.out), sentences(answer), "{line}");
        assert_eq!(list.out.contains("\"used_up\""), answer.contains("\"used_up\""), "{line}");
        used_up += usize::from(answer.contains("\"used_up\":true"));
    }
    assert!(batch.lines().count() == lines.len() && used_up > 5, "{used_up} used up");
}

#[test]
fn a_rank_counts_sentences() {
    let folder = ambiguous("distinct_why");
    let why = answer_in(&folder, "why g slots 3 --distinct");
    let begin = "reading 3 weighs 7, 5 more than the first\n  1  2  x y  (+1 tree)\n  3  7  y y  (+1 tree)\n\n";
    assert!(why.starts_with(begin), "{why}");
    let none = refused(run_in(&folder, "why g slots 5 --distinct"), 1);
    assert_eq!(none, "there is no sentence 5: the utterance has 4 in all\n");
}

#[test]
fn what_256_readings_do_not_show_is_said() {
    let slots = "x 0;".repeat(9) + "x 0 | y 90";
    let files: [(&str, &[u8]); 2] = [("g", b"A -> A A [1] | \"x\" | \"y\""), ("u", slots.as_bytes())];
    let folder = folder("distinct_used_up", &files);
    let more = "among 256 readings, the most that a listing has, there is 1 sentence; there may be more\n";
    let line = "1  9  x x x x x x x x x x  (+255 trees)\n".to_owned();
    let list = |words: &str| run_in(&folder, &format!("list g u --distinct {words}"));
    assert_eq!(list("-n 2"), Run { status: 0, out: line.clone(), err: more.into() });
    assert_eq!(list("-n 1"), Run { status: 0, out: line, err: String::new() });
    let json = list("-n 2 --json");
    assert!(json.out.ends_with("]}],\"used_up\":true}\n") && json.err == more, "{json:?}");
    let rules = list("-n 2 --rules");
    assert!(rules.out.starts_with("readings 1\n1 9 0 1 0 ") && rules.err == more, "{rules:?}");
    let batch = run_in(&folder, "batch g u --distinct -n 2");
    assert!(batch.out.ends_with(",\"others\":255}],\"used_up\":true}\n") && batch.err.is_empty(), "{batch:?}");
    assert!(answer_in(&folder, "batch g u --distinct -n 1").ends_with(",\"others\":255}]}\n"));
    let why = refused(run_in(&folder, "why g u 2 --distinct"), 1);
    assert_eq!(why, format!("no sentence 2 found: {more}"));
    let page = answer_in(&folder, "report g u --distinct -n 2");
    assert!(page.contains(&format!("Its 1 sentence of least weight: {}.</p>", more.trim())), "{page}");
}

/// Where no sentence has two readings nothing else changes.
#[test]
fn nothing_stands_twice_here() {
    for heard in ["utterance.txt", "../doors_graph/graph.txt"] {
        let list = answer(&format!("list grammar.txt {heard} -n 256"));
        assert_eq!(answer(&format!("list grammar.txt {heard} -n 256 --distinct")), list);
        let words = |line: &str| line.split_whitespace().skip(2).collect::<Vec<_>>().join(" ");
        let sentences: std::collections::HashSet<String> = list.lines().map(words).collect();
        assert_eq!(sentences.len(), list.lines().count());
    }
}

#[test]
fn a_number_that_no_list_has() {
    for wanted in [0, 257] {
        let [once, all] = ["--distinct", ""]
            .map(|words| run_with(&doors(), &format!("list grammar.txt utterance.txt -n {wanted} {words}"), b""));
        assert_eq!(once, all);
        assert_ne!(once.status, 0);
    }
}
