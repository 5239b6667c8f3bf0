//! Every subcommand over the door schedule.

use crate::common::{
    answer, answer_in, answer_with, answered, doors, expect_refused_readings, folder, refused, run, run_in, run_with,
    Run,
};
use spireyerba::Refusal;

#[test]
fn list_in_words() {
    let list = "\
1   72  door twenty four oak fire thirty
2   80  door twenty four oak fire sixty
3   80  door forty four oak fire thirty
4   88  door forty four oak fire sixty
5  122  door twenty four glass fire thirty
6  127  door twenty oak oak fire thirty
7  130  door twenty four glass fire sixty
8  130  door forty four glass fire thirty
";
    assert_eq!(answer("list grammar.txt utterance.txt"), list);
    assert_eq!(answer("list grammar.txt network.txt --scale 100"), list);
    assert_eq!(answer("list grammar.txt utterance.bin"), list);
    assert_eq!(answer("list grammar.txt utterance.txt -n 1"), "1  72  door twenty four oak fire thirty\n");
    let all = answer("list grammar.txt utterance.txt --number=256");
    assert_eq!(all.lines().count(), 16);
    assert!(all.starts_with(" 1   72  door twenty"), "{all}");
}

#[test]
fn list_as_trees() {
    let tree = "\
1  72  door twenty four oak fire thirty
   Entry [0]
   ├─ Name [0]
   │  ├─ Door [0]  door 4
   │  └─ Number [5]
   │     ├─ Tens [0]  twenty 12
   │     └─ Units [0]  four 9
   └─ Details [0]
      ├─ Leaf [0]  oak 7
      └─ Rating [0]
         ├─ Fire [0]  fire 10
         └─ Minutes [0]  thirty 25
";
    assert_eq!(answer("list grammar.txt utterance.txt --tree -n1"), tree);
}

#[test]
fn list_for_programs() {
    let readings = std::fs::read_to_string(doors().join("readings.txt")).expect("the list of the example");
    assert_eq!(answer("list grammar.txt utterance.txt --rules"), readings);
    assert_eq!(answer("list grammar.bin utterance.bin --rules"), readings);
    let json = r#"{"readings":[{"rank":1,"weight":72,"words":["door","twenty","four","oak","fire","thirty"],"#
        .to_owned()
        + r#""rules":[0,2,12,3,13,15,8,17,11,20,21],"tree":["Entry",["Name",["Door","door"],["Number",["Tens","twenty"],"#
        + r#"["Units","four"]]],["Details",["Leaf","oak"],["Rating",["Fire","fire"],["Minutes","thirty"]]]]}]}"#;
    assert_eq!(answer("list grammar.txt utterance.txt -n1 --json"), json + "\n");
}

#[test]
fn list_with_words_that_are_known() {
    assert_eq!(
        answer("list grammar.txt utterance.txt -n 2 --said 2=oak --said=5=sixty"),
        "1  135  door twenty oak oak fire sixty\n2  143  door forty oak oak fire sixty\n"
    );
    let refused = |words: &str| refused(run(&format!("list grammar.txt utterance.txt --said {words}")), 1);
    assert_eq!(
        refused("2=steel"),
        "utterance.txt: --said 2=steel: slot 2 does not offer it, but four 9 | door 40 | oak 34\n"
    );
    assert_eq!(refused("6=oak"), "utterance.txt: --said 6=oak: the utterance has 6 slots, numbered from 0\n");
    assert_eq!(
        refused("2=oak --said 2=four"),
        "utterance.txt: --said 2=four: slot 2 does not offer it, but four 65535 | door 65535 | oak 34\n"
    );
}

#[test]
fn an_utterance_without_readings_is_answered() {
    let words = "list grammar.txt -";
    let empty = |words| run_with(&doors(), words, b"door 1");
    let message = "\
no reading: the grammar derives nothing of what was heard
  goes along with it: door
  could follow there: twenty, forty, four, five
  heard behind it: nothing more
";
    assert_eq!(empty(words), Run { status: 0, out: String::new(), err: message.into() });
    assert_eq!(answered(empty("list grammar.txt - --rules"), words), "readings 0\n");
    assert_eq!(
        answered(empty("list grammar.txt - --json"), words),
        r#"{"readings":[],"prefix":{"words":["door"],"place":1,"next":["twenty","forty","four","five"],"may_end":false}}
"#
    );
    assert!(answered(empty("report grammar.txt -"), words).contains("It has no reading"));
}

#[test]
fn why_a_reading_is_not_the_first() {
    let why = "\
reading 6 weighs 127, 55 more than the first
  1   72  door twenty four oak fire thirty
  6  127  door twenty oak oak fire thirty

         first                     reading 6
slot 2   four 9                    oak 34                     +25
rule 3   Number -> Tens Units [5]                              -5
rule 4                             Number -> \"twenty\" [10]    +10
rule 10                            Leaf -> Leaf Leaf [25]     +25
rule 13  Tens -> \"twenty\"                                       0
rule 15  Units -> \"four\"                                        0
rule 17                            Leaf -> \"oak\"                0
                                                              +55
";
    assert_eq!(answer("why grammar.txt utterance.txt 6"), why);
    assert_eq!(
        refused(run("why grammar.txt utterance.txt 17"), 1),
        "there is no reading 17: the utterance has 16 in all\n"
    );
}

/// The last column of `why` is the difference of the weights, and so are the rows above it together.
#[test]
fn why_adds_up() {
    for rank in 2..=16 {
        let text = answer(&format!("why grammar.txt utterance.txt {rank}"));
        let rows: Vec<&str> = text.lines().skip_while(|line| !line.is_empty()).skip(2).collect();
        let number =
            |row: &&str| row.split_whitespace().last().and_then(|item| item.parse::<i64>().ok()).expect("a number");
        let numbers: Vec<i64> = rows.iter().map(number).collect();
        let (sum, parts) = numbers.split_last().expect("rows");
        assert_eq!(parts.iter().sum::<i64>(), *sum, "{text}");
        assert!(text.contains(&format!("{sum} more than the first")), "{text}");
    }
}

#[test]
fn why_of_equal_weights() {
    let folder = folder("equal", &[("g", b"A -> A A [1] | \"x\""), ("u", b"x 0; x 0; x 0")]);
    let text = answer_in(&folder, "why g u 2");
    assert!(text.starts_with("reading 2 weighs 2, as much as the first\n"), "{text}");
    assert!(text.contains("words cost less") && text.contains("ends earlier") && text.ends_with("0\n"), "{text}");
}

#[test]
fn check_a_reading() {
    let check = |reading: &str| run_with(&doors(), "check grammar.txt utterance.txt -", reading.as_bytes());
    let passes = answered(check("72 0 2 12 3 13 15 8 17 11 20 21"), "check");
    assert_eq!(passes, "passes: 72  door twenty four oak fire thirty\n");
    let rows = [
        ("73 0 2 12 3 13 15 8 17 11 20 21", Refusal::ReadingWeight),
        ("72 0 2 12 3 13 15 8 17 11 20 20", Refusal::ReadingWalk),
        ("72 0 2 12 3 13 15 8 17 11 20 99", Refusal::ReadingWalk),
        ("72 0 2 12 3 13 15 8 17 11 20", Refusal::ReadingEnd),
        ("72 0 2 12", Refusal::ReadingSlots),
        ("72", Refusal::ReadingSlots),
        ("99999999 0 2 12 3 13 15 8 17 11 20 21", Refusal::ReadingWeight),
    ];
    expect_refused_readings(check, &rows);
}

#[test]
fn pack_and_unpack() {
    let packed = folder("packed", &[]);
    let path = |name: &str| packed.join(name).display().to_string();
    answer(&format!("pack grammar.txt -o {}", path("g")));
    answer(&format!("pack grammar.txt utterance.txt -o {}", path("u")));
    let read = |path: std::path::PathBuf| std::fs::read(path).expect("a file");
    assert_eq!(read(packed.join("g")), read(doors().join("grammar.bin")));
    assert_eq!(read(packed.join("u")), read(doors().join("utterance.bin")));
    let text = "door 4 | four 61\ntwenty 12 | forty 20\n";
    assert_eq!(answer("unpack grammar.txt utterance.bin").lines().count(), 6);
    let sorted = answer_with(&doors(), "unpack grammar.txt -", text.as_bytes());
    assert_eq!(sorted, "four 61 | door 4\ntwenty 12 | forty 20\n");
    assert_eq!(answer("unpack grammar.bin").lines().next(), Some("S0 -> S1 S2"));
    assert_eq!(answer("unpack grammar.bin utterance.bin").lines().next(), Some("w2 61 | w4 4"));
    let network = answer("unpack grammar.txt utterance.bin --network --scale 100");
    assert_eq!(network.lines().nth(2), Some("align 0 four 0.543 door 0.96"));
    let back = answer_with(&doors(), "unpack grammar.txt - --scale 100", network.as_bytes());
    assert_eq!(back, answer("unpack grammar.txt utterance.bin"));
}

#[test]
fn pack_and_unpack_a_reading() {
    let packed = folder("packed_reading", &[("text", b"72 0 2 12 3 13 15 8 17 11 20 21\n")]);
    let path = |name: &str| packed.join(name).display().to_string();
    let (text, block) = (path("text"), path("block"));
    answer(&format!("pack grammar.txt utterance.txt {text} --output {block}"));
    assert_eq!(std::fs::read(&block).expect("a block")[0] >> 4, 3);
    assert_eq!(answer(&format!("unpack grammar.txt utterance.txt {block}")), "72 0 2 12 3 13 15 8 17 11 20 21\n");
    assert!(answer(&format!("check grammar.bin utterance.bin {block}")).starts_with("passes: 72  w4 w0"));
}

#[test]
fn the_panel_lists_as_list_does() {
    for heard in ["utterance.txt", "../doors_graph/graph.txt"] {
        for options in ["", "-n 16", "-n 3 --tree"] {
            assert_eq!(
                answer(&format!("panel grammar.txt {heard} {options}")),
                answer(&format!("list grammar.txt {heard} {options}"))
            );
        }
    }
    let many = refused(run("panel grammar.txt utterance.txt -n 17"), 2);
    assert_eq!(many, "spireyerba panel: --number is 1 to 16, not 17\ntry `spireyerba panel --help`\n");
    let long = run_with(&doors(), "panel grammar.txt -", "door 0;".repeat(13).trim_end_matches(';').as_bytes());
    assert_eq!(
        refused(long, 1),
        "<stdin>: refused 57: the panel takes at most 12 slots, or 13 places of a word graph\n"
    );
}

#[test]
fn specimen_of_a_length() {
    assert_eq!(answer("specimen grammar.txt 3"), "door twenty oak\n");
    assert_eq!(answer("specimen grammar.txt 4"), "door twenty four oak\n");
    let none = run("specimen grammar.txt 2");
    assert_eq!(none.err, "none: the grammar derives no string of 2 words\n");
    assert_eq!((none.status, none.out.as_str()), (0, ""));
    assert_eq!(
        refused(run("specimen grammar.txt 25"), 2),
        "spireyerba specimen: LENGTH is 1 to 24, not 25\ntry `spireyerba specimen --help`\n"
    );
}

#[test]
fn ranges_of_costs() {
    let stands = "first weight: 72 to 84\nstands: door twenty four oak fire thirty\n";
    assert_eq!(answer("ranges grammar.txt utterance.txt high.txt"), stands);
    let texts = folder(
        "ranges",
        &[
            ("grammar", b"Entry -> Door Number\nDoor -> \"door\"\nNumber -> \"four\" | \"five\" [2]\n"),
            ("low", b"door 3\nfour 1 | five 1\n"),
            ("high", b"door 3\nfour 3 | five 5\n"),
            ("higher", b"door 3\nfour 9 | five 5\n"),
            ("other", b"door 3\nfour 9\n"),
            ("silent", b"door 65535\nfour 1 | five 1\n"),
        ],
    );
    let answer = |words: &str| run_with(&texts, &format!("ranges grammar {words}"), b"");
    assert_eq!(answer("low high").out, "first weight: 4 to 6\nstands: door four\n");
    assert_eq!(answer("low higher").out, "first weight: 4 to 10\ncan be outweighed: door four\n");
    let none = answer("silent silent");
    assert_eq!((none.status, none.out.as_str()), (0, ""));
    assert_eq!(none.err, "none: the grammar does not derive the utterance\n");
    let refusal =
        "refused 59: the utterances differ elsewhere than in costs, a cost falls, or 65,535 stands in one only\n";
    assert_eq!(refused(answer("high low"), 1), refusal);
    assert_eq!(refused(answer("low other"), 1), refusal);
}

#[test]
fn words_to_listen_to_again() {
    let margins = " 9  slot 1  forty   80\n 9  slot 5  sixty   80\n51  slot 3  glass  122\n";
    assert_eq!(answer("margins grammar.txt utterance.txt"), margins);
    assert_eq!(answer("margins grammar.bin utterance.bin").lines().next(), Some(" 9  slot 1  w1    80"));
    assert_eq!(answer("margins grammar.txt utterance.txt --said 1=forty --said 5=sixty"), "51  slot 3  glass  138\n");
    let json = r#"{"margins":[{"amount":9,"slot":1,"word":"forty","weight":80},{"amount":9,"slot":5,"word":"sixty","weight":80},"#
        .to_owned()
        + r#"{"amount":51,"slot":3,"word":"glass","weight":122}]}"#;
    assert_eq!(answer("margins grammar.txt utterance.txt --json"), json + "\n");
    let none = |heard: &str| run_with(&doors(), "margins grammar.txt -", heard.as_bytes());
    let message = "none: no other word brings another reading, however cheap it is\n";
    assert_eq!(none("door 1; four 2; oak 3 | fire 9"), Run { status: 0, out: String::new(), err: message.into() });
    let message = "no reading: the grammar derives nothing of what was heard\n";
    assert_eq!(none("door 1; four 2 | five 7"), Run { status: 0, out: String::new(), err: message.into() });
    let json = run_with(&doors(), "margins grammar.txt - --json", b"door 1");
    assert_eq!(answered(json, "margins"), "{\"margins\":[]}\n");
    assert_eq!(refused(none("door 1; green 2"), 1), "<stdin>:1:9: refused 14: the grammar has no word `green`\n");
}

#[test]
fn phrases_of_a_length() {
    let phrases = answer("phrases grammar.txt 3");
    assert!(
        phrases.starts_with("door twenty oak\ndoor twenty glass\ndoor twenty steel\ndoor forty oak\n"),
        "{phrases}"
    );
    assert_eq!(phrases.lines().count(), 12);
    assert_eq!(answer("phrases grammar.bin 6").lines().count(), 816);
    let none = run("phrases grammar.txt 2");
    assert_eq!(none.err, "none: the grammar derives no string of 2 words\n");
    assert_eq!((none.status, none.out.as_str()), (0, ""));
    for length in [0, 7] {
        let refusal = refused(run(&format!("phrases grammar.txt {length}")), 2);
        let message = format!("LENGTH is 1 to 6, not {length}");
        assert_eq!(refusal, format!("spireyerba phrases: {message}\ntry `spireyerba phrases --help`\n"));
    }
}

#[test]
fn lint_a_grammar() {
    let room = "12 of 32 symbols (20 left), 13 of 200 words (187 left), 25 of 256 rules (231 left)\n";
    assert_eq!(answer("lint grammar.txt"), format!("grammar.txt: {room}"));
    assert_eq!(answer("lint grammar.bin"), format!("grammar.bin: {room}"));
    let text = b"words \"unused\"\nA -> A A | \"x\" | B C\nB -> B B\nC -> \"y\"\nD -> E E\nE -> \"x\"\nF -> G G\nG -> F F | \"x\"";
    let folder = folder("lint", &[("g", text)]);
    let lint = "\
g:2:18: `B` derives nothing: no string of 24 words or fewer
g:5:1: nothing uses `D`
g:7:1: nothing that `A` derives uses `F`
g:1:7: no rule has the word unused
g: 7 of 32 symbols (25 left), 3 of 200 words (197 left), 10 of 256 rules (246 left)
";
    let run = run_in(&folder, "lint g");
    assert_eq!((run.status, run.out.as_str(), run.err.as_str()), (1, lint, "g: a symbol derives nothing\n"));
}

/// An utterance has room for 24 words, so a symbol whose shortest string is longer derives nothing, and a rule that is only
/// used beside such a string is of no use.
#[test]
fn lint_looks_as_far_as_an_utterance_goes() {
    let doubling: String = (0..5).map(|n| format!("D{n} -> D{} D{}\n", n + 1, n + 1)).collect();
    let text = format!("S -> \"x\" | D0 E\n{doubling}D5 -> \"x\"\nE -> \"y\"\n");
    let folder = folder("lint_long", &[("g", text.as_bytes())]);
    let lint = run_in(&folder, "lint g").out;
    assert!(lint.starts_with("g:1:12: `D0` derives nothing: no string of 24 words or fewer\n"), "{lint}");
    assert_eq!(lint.lines().count(), 2, "{lint}");
    let short = folder_of_sixteen();
    let lint = answer_in(&short, "lint g");
    assert_eq!(lint.lines().count(), 1, "{lint}");
}

/// A start that derives 16 words and one more.
fn folder_of_sixteen() -> std::path::PathBuf {
    let doubling: String = (1..5).map(|n| format!("D{n} -> D{} D{}\n", n + 1, n + 1)).collect();
    folder("lint_short", &[("g", format!("S -> D1 E\n{doubling}D5 -> \"x\"\nE -> \"y\"\n").as_bytes())])
}
