//! Chances beside weights, over the door schedule.

use crate::common::{answer, answer_in, answer_with, doors, doors_graph, example, folder, refused, run, run_with};
use spireyerba::Refusal;

/// Rank and chance of each line, as the examples have them.
fn ranks_and_chances(lines: &str) -> String {
    let row = |line: &str| {
        let columns: Vec<&str> = line.split_whitespace().collect();
        format!("{} {}\n", columns[0], columns[2])
    };
    lines.lines().map(row).collect()
}

#[test]
fn chances_of_a_list() {
    let list = "\
1  72  0.03397781251340959   door twenty four oak fire thirty
2  80  0.022688767313514546  door twenty four oak fire sixty
3  80  0.022688767313514546  door forty four oak fire thirty
";
    assert_eq!(answer("chance grammar.txt utterance.txt shares.txt -n 3"), list);
    for (folder, heard) in [("doors", "utterance.txt"), ("doors_graph", "graph.txt"), ("doors_graph", "utterance.bin")]
    {
        let folder = example(folder);
        let words = format!("chance grammar.txt {heard} ../doors/shares.txt");
        let chances = std::fs::read_to_string(folder.join("chances.txt")).expect("the chances of the example");
        assert_eq!(ranks_and_chances(&answer_in(&folder, &words)), chances);
    }
}

#[test]
fn the_chance_of_one() {
    let second = "2  80  0.022688767313514546  door twenty four oak fire sixty\n";
    assert_eq!(answer("chance grammar.txt utterance.txt shares.txt 2"), second);
    let of_file = |words: &str, reading: &str| answer_with(&doors(), words, reading.as_bytes());
    let reading = "80 0 2 12 3 13 15 8 17 11 20 22";
    let words = "chance grammar.txt utterance.txt shares.txt -";
    assert_eq!(of_file(words, reading), "80  0.022688767313514546  door twenty four oak fire sixty\n");
    let words = "chance grammar.txt ../doors_graph/graph.txt shares.txt -";
    let found = of_file(words, "80 0 2 12 5 8 17 11 20 21 | 0 3 7 9 12");
    let chances = std::fs::read_to_string(doors_graph().join("chances.txt")).expect("the example");
    assert_eq!(found, format!("80  {}  door forty oak fire thirty\n", &chances.lines().nth(1).expect("rank 2")[2..]));
    let json = r#"{"readings":[{"weight":80,"words":["door","twenty","four","oak","fire","sixty"],"#.to_owned()
        + r#""rules":[0,2,12,3,13,15,8,17,11,20,22],"chance":0.022688767313514546}]}"#;
    assert_eq!(of_file("chance grammar.txt utterance.txt shares.txt - --json", reading), json.clone() + "\n");
    let ranked = json.replace("{\"weight\"", "{\"rank\":2,\"weight\"");
    assert_eq!(answer("chance grammar.txt utterance.txt shares.txt 2 --json"), ranked + "\n");
}

/// An office gives shares of its own rules; helpers have 1,024 of 1,024, so the chance is the same as with them.
#[test]
fn shares_of_an_office() {
    let grammar = b"A -> \"x\" A \"y\" | \"z\"";
    let files: [(&str, &[u8]); 4] = [
        ("g", grammar),
        ("u", b"x 1; x 1; z 2; y 3; y 4"),
        ("own", b"256 # the long one\n768"),
        ("all", b"256 768 1024 1024 1024"),
    ];
    let folder = folder("office_shares", &files);
    for shares in ["own", "all"] {
        let words = format!("chance g u {shares}");
        assert_eq!(answer_in(&folder, &words), "1  11  0.046875  x x z y y\n");
    }
    let few = refused(run_with(&folder, "chance g u -", b"256"), 1);
    assert_eq!(few, "<stdin>:1:4: refused 60: not one share for each rule: 1 of them for 2 rules\n");
}

#[test]
fn other_options_mean_the_same() {
    let said = answer("chance grammar.txt utterance.txt shares.txt 1 --said 1=forty");
    assert!(said.starts_with("1  80  0.022688767313514546  door forty four oak"), "{said}");
    let skipped = run("chance grammar.txt utterance.txt shares.txt 4 --skip 20");
    assert!(
        skipped.out.starts_with("4  80  ") && skipped.out.ends_with("door four oak fire thirty\n"),
        "{}",
        skipped.out
    );
    let none = run_with(&doors(), "chance grammar.txt - shares.txt", b"door 1");
    assert_eq!((none.status, none.out.as_str()), (0, ""));
    assert!(none.err.starts_with("no reading: the grammar derives nothing of what was heard\n"), "{}", none.err);
}

#[test]
fn mistakes() {
    let chance = |shares: &[u8]| refused(run_with(&doors(), "chance grammar.txt utterance.txt -", shares), 1);
    let shares = std::fs::read(doors().join("shares.txt")).expect("the example");
    let [first, rest] = [&shares[..3], &shares[3..]];
    assert_eq!(first, b"922");
    assert_eq!(chance(&[b"0", rest].concat()), "<stdin>:1:1: refused 61: `0` is not a share from 1 to 1024\n");
    assert_eq!(chance(&[b"\n 1025", rest].concat()), "<stdin>:2:2: refused 61: `1025` is not a share from 1 to 1024\n");
    assert_eq!(chance(&[b"half", rest].concat()), "<stdin>:1:1: `half` is not a whole number\n");
    let count = |found| format!("refused 60: not one share for each rule: {found} of them for 25 rules\n");
    assert_eq!(chance(&[&shares, &b" 7\n7"[..]].concat()), format!("<stdin>:2:2: {}", count(27)));
    assert_eq!(chance(b"\n5 # one\n 6 7 "), format!("<stdin>:3:6: {}", count(3)));
    assert_eq!(chance(b""), format!("<stdin>:1:1: {}", count(0)));
    assert_eq!(chance(b"\xff"), "<stdin>: no text, for byte 0xff in line 1\n");
    let words = "chance grammar.txt utterance.txt shares.txt";
    assert_eq!(refused(run(&format!("{words} 17")), 1), "there is no reading 17: the utterance has 16 in all\n");
    let reading = run_with(&doors(), &format!("{words} -"), b"73 0 2 12 3 13 15 8 17 11 20 21");
    assert_eq!(refused(reading, 1), format!("<stdin>: {}\n", Refusal::ReadingWeight));
}
