//! Grammars as offices write them, over the door schedule: every answer is in the office's own rules.

use crate::common::{
    answer_in, answer_with, answered, doors, example, expect_refused_readings, folder, refused, run_in, run_with,
};
use spireyerba::Refusal;
use std::path::PathBuf;

fn doors_office() -> PathBuf {
    example("doors_office")
}

fn answer(words: &str) -> String {
    answer_in(&doors_office(), words)
}

#[test]
fn list_in_every_form() {
    let words = "list grammar.txt utterance.txt";
    assert_eq!(answer(words), answer_in(&doors(), words));
    let tree = "\
1  72  door twenty four oak fire thirty
   Entry [0]
   ├─ Name [0]
   │  ├─ door 4
   │  └─ Number [5]
   │     ├─ Tens [0]  twenty 12
   │     └─ Units [0]  four 9
   └─ Details [0]
      ├─ Leaf [0]  oak 7
      ├─ fire 10
      └─ Minutes [0]  thirty 25
";
    assert_eq!(answer("list grammar.txt utterance.txt --tree -n1"), tree);
    let readings = std::fs::read_to_string(doors_office().join("readings.txt")).expect("the list of the example");
    assert_eq!(answer("list grammar.txt utterance.txt --rules"), readings);
    assert_eq!(answer("list grammar.bin utterance.bin --rules"), readings);
    let json = r#"{"readings":[{"rank":1,"weight":72,"words":["door","twenty","four","oak","fire","thirty"],"#
        .to_owned()
        + r#""rules":[0,2,3,11,13,8,15,18],"tree":["Entry",["Name","door",["Number",["Tens","twenty"],["Units","four"]]],"#
        + r#"["Details",["Leaf","oak"],"fire",["Minutes","thirty"]]]}]}"#;
    assert_eq!(answer("list grammar.txt utterance.txt -n1 --json"), json + "\n");
    let batch = answer("batch grammar.txt ../doors/utterances.txt -n 1");
    assert!(batch.contains(r#""weight":51,"words":["door","five","steel","left"],"rules":[0,2,7,9,17,20]"#), "{batch}");
}

#[test]
fn list_a_graph() {
    let graph = answer("list grammar.txt ../doors_graph/graph.txt --tree -n 2");
    assert!(graph.ends_with("      ├─ fire 10\n      └─ Minutes [0]  thirty 25\n"), "{graph}");
    let json = answer("list grammar.txt ../doors_graph/graph.txt --json");
    assert!(json.contains(r#""rules":[0,2,5,8,15,18],"edges":[0,3,7,9,12],"tree":["Entry",["Name","door","#), "{json}");
}

#[test]
fn why_names_the_office_s_rules() {
    let folder = folder(
        "office_why",
        &[
            ("g", b"A -> \"x\" A \"y\" [3] | \"x\" B | \"z\" [1]\nB -> A \"y\" \"y\" [2]\n"),
            ("u", b"x 1; z 2; y 3; y 4 | z 9"),
        ],
    );
    let text = answer_in(&folder, "list g u --tree");
    assert!(
        text.contains(
            "1  13  x z y y\n   A [0]\n   ├─ x 1\n   └─ B [2]\n      ├─ A [1]  z 2\n      ├─ y 3\n      └─ y 4\n"
        ),
        "{text}"
    );
    let why = answer("why grammar.txt utterance.txt 6");
    assert!(why.contains("rule 10                            Leaf -> Leaf Leaf [25]     +25\n"), "{why}");
    let graph = answer("why grammar.txt ../doors_graph/graph.txt 5");
    assert!(graph.contains("rule 8   Details -> Leaf \"fire\" Minutes"), "{graph}");
    assert!(!graph.contains("rule 22") && !graph.contains("rule 24"), "{graph}");
}

#[test]
fn check_pack_and_unpack() {
    let check = |reading: &str| run_with(&doors_office(), "check grammar.txt utterance.txt -", reading.as_bytes());
    // with and without the nodes of helpers
    for reading in ["72 0 2 3 11 13 8 15 18", "72 0 2 22 3 11 13 8 15 24 23 18", "72 0 2 22 3 11 13 8 15 18"] {
        assert_eq!(answered(check(reading), reading), "passes: 72  door twenty four oak fire thirty\n");
    }
    let rows = [
        ("73 0 2 3 11 13 8 15 18", Refusal::ReadingWeight),
        ("72 0 2 3 11 13 8 15 19", Refusal::ReadingWeight),
        ("72 0 2 3 11 13 8 15 20", Refusal::ReadingWalk),
        ("72 0 2 3 11 13 8 18", Refusal::ReadingEnd),
        ("72 0 2 3 11 13 8 15 18 18 18", Refusal::ReadingSlots),
    ];
    expect_refused_readings(check, &rows);
    let packed = folder("packed_office", &[("reading", b"72 0 2 3 11 13 8 15 18\n")]);
    let path = |name: &str| packed.join(name).display().to_string();
    let (reading, block, grammar) = (path("reading"), path("block"), path("grammar"));
    answer(&format!("pack grammar.txt -o {grammar}"));
    let read = |path: PathBuf| std::fs::read(path).expect("a file");
    assert_eq!(read(packed.join("grammar")), read(doors_office().join("grammar.bin")));
    answer(&format!("pack grammar.txt utterance.txt {reading} -o {block}"));
    assert_eq!(answer(&format!("unpack grammar.txt utterance.txt {block}")), "72 0 2 3 11 13 8 15 18\n");
    let unpacked = answer("unpack grammar.bin");
    assert!(unpacked.contains("\nS1 -> \"w4\" S2\n") && unpacked.contains("\nS3 -> S4 \"w8\" S5\n"), "{unpacked}");
    assert_eq!(unpacked.lines().count(), 24);
    assert_eq!(answer(&format!("unpack {grammar}")), unpacked);
    let names = answer("unpack grammar.txt");
    assert!(names.contains("\nDetails -> Leaf \"fire\" Minutes\n"), "{names}");
}

#[test]
fn lint_counts_helpers() {
    let room = "9 of 32 symbols and 3 for helpers (20 left), 13 of 200 words (187 left), 22 of 256 rules and 3 for helpers (231 left)\n";
    assert_eq!(answer("lint grammar.txt"), format!("grammar.txt: {room}"));
    assert_eq!(answer("lint grammar.bin"), format!("grammar.bin: {room}"));
    let text = b"words \"unused\"\nA -> A \"x\" A | \"x\"\nC -> \"z\" C \"z\" | \"z\"\n";
    let folder = folder("lint_office", &[("g", text)]);
    let lint = "\
g:3:1: nothing uses `C`
g:1:7: no rule has the word unused
g: 2 of 32 symbols and 4 for helpers (26 left), 3 of 200 words (197 left), 4 of 256 rules and 4 for helpers (248 left)
";
    assert_eq!(answer_in(&folder, "lint g"), lint);
}

#[test]
fn the_page_and_what_can_be_said() {
    let page = answer("report grammar.txt utterance.txt");
    assert!(page.contains("utterance.txt under grammar.txt (9 symbols, 13 words, 22 rules)"), "{page}");
    assert!(page.contains("<title>rule 8: Details -&gt; Leaf &quot;fire&quot; Minutes</title>"), "{page}");
    for words in ["specimen grammar.txt 4", "phrases grammar.txt 3"] {
        assert_eq!(answer(words), answer_in(&doors(), words));
    }
    let taken = run_with(&doors_office(), "pick grammar.txt utterance.txt", b"y\n");
    assert_eq!(taken.out, "1  72  door twenty four oak fire thirty\n");
}

#[test]
fn mistakes() {
    let item = |number: u32, at: u32| if number >> at & 1 == 1 { " \"x\"" } else { " A" };
    let rule = |number| format!("A ->{}\n", (0..6).map(|at| item(number, at)).collect::<String>());
    let long: String = (0..64).map(rule).collect();
    let many = format!("A -> \"x\"\nA ->{}", " A".repeat(25));
    let files: [(&str, &[u8]); 4] = [
        ("many", many.as_bytes()),
        ("none", b"A -> \"x\" | [3]"),
        ("large", long.as_bytes()),
        ("twice", b"A -> \"x\" A [1]\nA -> \"x\" A [2]"),
    ];
    let folder = folder("office_mistakes", &files);
    for (file, message) in [
        ("many", "2:54: refused 54: one too many: a body has at most 24 parts"),
        ("none", "1:12: refused 54: a body has at least one symbol or quoted word"),
        (
            "large",
            "1:6: refused 56: the grammar needs 62 symbols and 32 fit: 1 yours, 1 for words in bodies of several items, 60 \
             joints; most is added for line 1 (4), line 17 (4), line 33 (4). A head of its own for the end of a long body, \
             as in Entry -> Name Rest, takes one in place of a joint for each way to take that end",
        ),
        ("twice", "2:6: refused 6: the same rule stands in line 1"),
    ] {
        for words in [format!("lint {file}"), format!("pack {file}"), format!("list {file} -")] {
            assert_eq!(refused(run_in(&folder, &words), 1), format!("{file}:{message}\n"), "{words}");
        }
    }
}

/// Marks that no office's rules give: trees are without marked nodes all the same, and the text has the marks.
#[test]
fn any_marks() {
    let text = "A -> B A [1 helper]\nA -> \"x\" [2]\nB -> \"x\" [helper]\n";
    let folder = folder("any_marks", &[("g", text.as_bytes()), ("u", b"x 1; x 2; x 3")]);
    let tree = "1  10  x x x\n   A [1]\n   ├─ x 1\n   ├─ x 2\n   └─ A [2]  x 3\n";
    assert_eq!(answer_in(&folder, "list g u --tree"), tree);
    assert_eq!(answer_in(&folder, "list g u --rules"), "readings 1\n1 10 1\n");
    assert_eq!(answer_in(&folder, "unpack g"), text);
    answer_in(&folder, "pack g -o block");
    assert_eq!(answer_in(&folder, "pack block -o again"), "");
    let read = |name: &str| std::fs::read(folder.join(name)).expect("a block");
    assert_eq!((read("block")[0] >> 4, read("block")), (4, read("again")));
    assert_eq!(answer_with(&folder, "check g u -", b"10 0 2 0 2 1"), "passes: 10  x x x\n");
}
