//! Grammars with notation: every answer is in the rules of the text, and sentences test them.

use crate::common::{answer_in, answer_with, example, folder, output, refused, run_in, run_with, PROGRAM};
use std::path::{Path, PathBuf};
use std::process::Command;

fn door_schedule() -> PathBuf {
    example("door_schedule")
}

/// What the command prints for words of a command line of which the last is a sentence.
fn of_words(folder: &Path, words: &str, sentence: &str) -> String {
    let run = output(Command::new(PROGRAM).current_dir(folder).args(words.split_whitespace()).arg(sentence), b"");
    assert!(run.status.success() && run.stderr.is_empty(), "{sentence}: {run:?}");
    String::from_utf8(run.stdout).expect("a text")
}

#[test]
fn list_in_every_form() {
    let tree = "\
1  125  door four oak thirty  => 4 oak FD30
   Entry [0]
   ├─ Name [0]
   │  ├─ door 0
   │  └─ Number [5]
   │     └─ Units [0]  four 0
   └─ Details [0]
      ├─ Leaf [0]  oak 0
      └─ Rating [120]
         └─ Minutes [0]  thirty 0
";
    assert_eq!(of_words(&door_schedule(), "list grammar.txt --tree --say --words", "door four oak thirty"), tree);
    let json = r#"{"readings":[{"rank":1,"weight":5,"words":["door","five","oak"],"rules":[0,1,4,8,9,10],"#.to_owned()
        + r#""tree":["Entry",["Name","door",["Number",["Units","five"]]],["Details",["Leaf","oak"]]],"translation":"5 oak"}]}"#;
    assert_eq!(of_words(&door_schedule(), "list grammar.txt --json --words", "door five oak"), json + "\n");
}

/// The rules that `list --rules` prints are those that `check` reads.
#[test]
fn readings_by_their_rules() {
    let heard = b"door; four; oak; oak";
    let rules = answer_with(&door_schedule(), "list grammar.txt - --rules", heard);
    let reading = rules.lines().nth(1).expect("a reading").strip_prefix("1 ").expect("a rank");
    assert_eq!(reading, "5 0.1 1.2 4.1 9.12 10.1 10.1");
    let folder = folder("notation_check", &[("u", heard), ("r", reading.as_bytes())]);
    let check = |words: &str| {
        let path = |name: &str| folder.join(name).display().to_string();
        run_in(&door_schedule(), &format!("{words} grammar.txt {} {}", path("u"), path("r")))
    };
    assert_eq!(check("check").out, "passes: 5  door four oak oak\n");
    assert_eq!(check("unpack").out, format!("{reading}\n"));
    for (reading, wrong) in
        [("5 0.9", "1:3: `0.9`"), ("5 9", "1:3: `9`"), ("5 x", "1:3: `x`"), ("5 77.1", "1:3: `77.1`")]
    {
        std::fs::write(folder.join("r"), reading).expect("a reading");
        let message =
            format!("{}:{wrong} where a rule as `list --rules` prints it should stand\n", folder.join("r").display());
        assert_eq!(refused(check("check"), 1), message);
    }
}

#[test]
fn why_and_chance_by_the_rules_of_the_text() {
    let heard = b"door 1; four 2 | five 4; oak 1; fire 9 | oak 1; thirty 3";
    let why = answer_with(&door_schedule(), "why grammar.txt - 2", heard);
    let rows = "
rule 10                                  Leaf -> ( \"oak\" | \"glass\" [5] | \"steel\" [5] )      0
rule 11  Rating -> \"fire\"?120 Minutes => \"FD$2\", at 0  the same, at 120    +120
";
    let third = answer_with(&door_schedule(), "why grammar.txt - 3", heard);
    let columns = |text: &str| text.split_whitespace().collect::<Vec<_>>().join(" ");
    assert!(columns(&why).contains("slot 1 four 2 five 4 +2"), "{why}");
    assert!(columns(&third).contains(&columns(rows)), "{third}");
    let folder = folder(
        "notation_shares",
        &[
            ("g", b"A -> B C?\nB -> \"x\" | \"y\"\nC -> \"z\""),
            ("u", b"x"),
            ("s", b"512 256 768 1024"),
            ("t", b"511 255 769 1024"),
        ],
    );
    assert_eq!(answer_in(&folder, "chance g u s"), "1  0  0.125  x\n");
    assert_eq!(
        refused(run_in(&folder, "chance g u t"), 1),
        "t:1:17: `A -> B C?` and `B -> \"x\"` become one rule, and the product of their shares is no whole number of 1024: give \
         one of them 1024, or shares that divide it\n"
    );
}

/// Both examples are as they should be.
#[test]
fn examples_pass_their_sentences() {
    assert_eq!(answer_in(&door_schedule(), "test grammar.txt sentences.txt"), "sentences.txt: 10 passed\n");
    assert_eq!(answer_in(&example("site_notes"), "test grammar.txt sentences.txt"), "sentences.txt: 6 passed\n");
    for name in ["door_schedule", "site_notes"] {
        assert_eq!(answer_in(&example(name), "lint grammar.txt").lines().count(), 1, "{name}");
    }
}

#[test]
fn sentences_that_fail() {
    let sentences = "\
+ door four\n# a comment\n+ door four [3]\n+ door four => \"5\"\n- door five\n+ door oak\n+ window four\n- window\n";
    let run = run_with(&door_schedule(), "test grammar.txt -", sentences.as_bytes());
    let lines = "\
<stdin>:3: weighs 35, not 3
<stdin>:4: becomes \"4\", not \"5\"
<stdin>:5: derived, with weight 35, and should not be: door five
<stdin>:6: not derived: the grammar derives nothing of what was heard; goes along with it: door; could follow there: number, \
twenty, forty, four, five; heard in slot 1: oak 0
<stdin>:7: not derived: the grammar has no word `window`
";
    assert_eq!((run.status, run.out.as_str(), run.err.as_str()), (1, lines, "<stdin>: 5 of 7 failed\n"));
    // what cannot be read fails, and the others are tried all the same
    let run = run_with(
        &door_schedule(),
        "test grammar.txt -",
        b"door four\n+ door four [x]\n+\n+ door four\n- door four [3]\n",
    );
    let lines = "\
<stdin>:1:1: `door` where `+` or `-` before a sentence should stand
<stdin>:2:14: `x` is not a whole number
<stdin>:3:2: refused 13: there is no word
<stdin>:5:13: `[` behind a sentence with `-`, which has no weight and becomes nothing
";
    assert_eq!((run.status, run.out.as_str(), run.err.as_str()), (1, lines, "<stdin>: 4 of 5 failed\n"));
}

/// What stands close together is taken apart, and a word of another case is named.
#[test]
fn sentences_close_together() {
    let sentences =
        b"+ door four[35]=>\"4\"\n+ door five =>\"5\" [35]\n  + \"door\" five # as said\n- Door five\n+ Door five\n";
    let run = run_with(&door_schedule(), "test grammar.txt -", sentences);
    let line = "<stdin>:5: not derived: the grammar has no word `Door`, but `door`, of another case: --fold takes both for one\n";
    assert_eq!((run.status, run.out.as_str(), run.err.as_str()), (1, line, "<stdin>: 1 of 5 failed\n"));
    let folded = run_with(&door_schedule(), "test grammar.txt - --fold", sentences);
    let line = "<stdin>:4: derived, with weight 35, and should not be: door five\n";
    assert_eq!((folded.status, folded.out.as_str()), (1, line));
}

#[test]
fn words_in_place_of_an_utterance() {
    let wrong = |words: &str| refused(run_in(&door_schedule(), words), 2);
    let usage = |message: &str| format!("spireyerba list: {message}\ntry `spireyerba list --help`\n");
    assert_eq!(wrong("list grammar.txt"), usage("UTTERANCE is missing"));
    assert_eq!(wrong("list grammar.txt u --words door"), usage("UTTERANCE and --words: only one of them"));
    assert_eq!(
        refused(run_in(&door_schedule(), "list grammar.txt --words window"), 1),
        "--words:1:1: refused 14: the grammar has no word `window`\n"
    );
}

#[test]
fn batch_translates() {
    let out = answer_with(&door_schedule(), "batch grammar.txt - -n 1", b"door; five; steel; sixty\n");
    assert!(out.contains(r#","translation":"5 steel FD60"}]"#), "{out}");
}
