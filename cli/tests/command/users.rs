//! What the five users who tried the command first would write: grammars of their own with all of the notation, each held to its
//! sentences, and what each of them does next.

use crate::common::{answer_in, answer_with, folder, output, PROGRAM};
use std::path::PathBuf;
use std::process::Command;

struct User {
    name: &'static str,
    grammar: &'static str,
    /// What `test` holds the grammar to.
    sentences: &'static str,
}

const USERS: [User; 5] = [
    User {
        name: "author",
        grammar: r#"# An office's author of grammars: a door schedule as it is written in the first minute.
Entry   -> "door" Number Details
Number  -> Units [3] | Tens Units? => "$1$2"
Tens    -> "twenty" => "2" | "thirty" => "3"
Units   -> "four" => "4" | "five" => "5"
Details -> ( Leaf | "double" Leaf [4] ) Fire? Note*
Leaf    -> "oak" | "steel" [5]
Fire    -> "fire"?120 "rated"? Minutes => "FD$3"
Minutes -> "thirty" => "30" | "sixty" => "60"
Note    -> "vision" "panel" => "VP" | "closer"
"#,
        sentences: r#"+ door twenty four oak fire rated thirty [0] => "door 24 oak FD30"
+ door four double steel sixty [132] => "door 4 double steel FD60"
+ door thirty oak closer vision panel closer => "door 3 oak closer VP closer"
- door oak
- door four fire thirty
"#,
    },
    User {
        name: "integrator",
        grammar: r#"# An integrator of a recogniser: numbers as they are read out, digit by digit or in groups.
Call   -> ( "unit" | "plot" [2] ) Code => "$2"
Code   -> Digit+ | Digit "double" Digit [1] => "$1$3$3"
Digit  -> "oh" => "0" | "one" => "1" | "two" => "2"
"#,
        sentences: r#"+ unit one two oh [0] => "1 2 0"
+ plot one double two [3] => "122"
+ unit oh [0] => "0"
- unit
- unit double one
"#,
    },
    User {
        name: "surveyor",
        grammar: r#"# A surveyor at a terminal: measurements of rooms.
Measure -> Room Length ( "by" Length )? => "$1 $2 $3"
Room    -> "hall" | "bath" "room"? => "bathroom"
Length  -> Whole Part?5 ( "metres" | "meters" )? => "$1$2"
Part    -> "point" Whole+ => ".$2"
Whole   -> "two" => "2" | "three" => "3" | "five" => "5"
"#,
        sentences: r#"+ hall three point two by two metres [5] => "hall 3.2 by 2"
+ bath room five meters [5] => "bathroom 5 "
+ bath two point five five [0]
- hall metres
- room two
"#,
    },
    User {
        name: "operator",
        grammar: r#"# An operator of batches: parts of a store, of which letters and digits are spelt.
Line   -> Count? Part => "$1;$2"
Count  -> Number "times" => "$1"
Part   -> Letter+ "dash"?7 Number* => "$1-$3"
Number -> "one" => "1" | "two" => "2" | "ten" [1] => "10"
Letter -> "alpha" => "A" | "bravo" => "B"
"#,
        sentences: r#"+ two times alpha bravo dash one two [0] => "2;A B-1 2"
+ alpha alpha [7] => ";A A-"
+ bravo ten [8] => ";B-10"
- dash one
- one alpha
"#,
    },
    User {
        name: "programmer",
        grammar: r#"# A programmer: commands of a plotter.
Command -> ( Move | Pen | "home" ) "please"?0 => "$1"
Move    -> "go" Way Steps? => "G $2 $3"
Way     -> "up" => "0 1" | "down" => "0 -1"
Steps   -> Digit Digit? => "$1$2"
Digit   -> "one" => "1" | "nine" => "9"
Pen     -> "pen" ( "up" | "down" ) => "P $2"
"#,
        sentences: r#"+ go up nine one please [0] => "G 0 1 91"
+ go down => "G 0 -1 "
+ pen down => "P down"
+ home [0] => "home"
- go nine
- home home
"#,
    },
];

/// The notation, of which each has to stand in some grammar.
const NOTATION: [(&str, &str); 9] = [
    ("a symbol left out", "Fire?"),
    ("a word left out", "\"rated\"?"),
    ("what an absence costs", "\"fire\"?120"),
    ("a group", "( \"unit\" | \"plot\" [2] )"),
    ("a group left out", "( \"by\" Length )?"),
    ("a symbol alone", "-> Units [3] |"),
    ("one or more", "Digit+"),
    ("any number", "Note*"),
    ("a translation", "=> \"$1$2\""),
];

/// A folder with a user's grammar, sentences, and something else, by whose name it is another than those of other tests, which run
/// at the same time.
fn folder_of(name: &str, other: (&str, &[u8])) -> PathBuf {
    let user = USERS.iter().find(|user| user.name == name).expect("a user");
    let files = [("g", user.grammar.as_bytes()), ("s", user.sentences.as_bytes()), other];
    folder(&format!("user_{name}_{}", other.0), &files)
}

#[test]
fn grammars_pass_lint_and_their_sentences() {
    for User { name, sentences, .. } in USERS {
        let folder = folder_of(name, ("all", b""));
        let lint = answer_in(&folder, "lint g");
        assert!(lint.lines().count() == 1 && lint.contains(" left), "), "{name}: {lint}");
        assert_eq!(answer_in(&folder, "test g s"), format!("s: {} passed\n", sentences.lines().count()), "{name}");
    }
    for (what, text) in NOTATION {
        assert!(USERS.iter().any(|user| user.grammar.contains(text)), "{what}: {text}");
    }
}

#[test]
fn an_author_looks_at_a_tree() {
    let folder = folder_of("author", ("nothing", b""));
    let mut list = Command::new(PROGRAM);
    list.args(["list", "g", "--tree", "--say", "--words", "door four double steel sixty"]).current_dir(&folder);
    let tree = "\
1  132  door four double steel sixty  => door 4 double steel FD60
   Entry [0]
   ├─ door 0
   ├─ Number [3]
   │  └─ Units [0]  four 0
   └─ Details [4]
      ├─ double 0
      ├─ Leaf [5]  steel 0
      └─ Fire [120]
         └─ Minutes [0]  sixty 0
";
    assert_eq!(String::from_utf8(output(&mut list, b"").stdout).as_deref(), Ok(tree));
}

#[test]
fn an_integrator_has_a_lattice() {
    let lattice = "\
VERSION=1.0
start=0 end=4
I=0
I=1
I=2
I=3
I=4
J=0 S=0 E=1 W=unit a=-1.5
J=1 S=0 E=1 W=plot a=-1.75
J=2 S=1 E=2 W=++um++ a=-0.5
J=3 S=2 E=3 W=one a=-2
J=4 S=3 E=4 W=two a=-1
J=5 S=3 E=4 W=oh a=-1.25
";
    let folder = folder_of("integrator", ("u.slf", lattice.as_bytes()));
    let list = "1  50  unit one two  => 1 2\n2  53  unit one oh  => 1 0\n3  55  plot one two  => 1 2\n";
    assert_eq!(answer_in(&folder, "list g u.slf --scale 10 --say -n 3"), list);
    let row = "line,Code,weight,note\r\n1,1 2,50,Code: or 1 0\r\n";
    assert_eq!(answer_in(&folder, "schedule g u.slf --scale 10 --columns Code --close 3"), row);
}

#[test]
fn a_surveyor_asks_why() {
    let folder = folder_of("surveyor", ("nothing", b""));
    let why = answer_with(&folder, "why g - 2", b"hall;two|three 4;point;five");
    assert!(why.starts_with("reading 2 weighs 4, 4 more than the first\n  1  0  hall two point five\n"), "{why}");
    let taken = answer_with(&folder, "list g - --say -n 1", b"hall;two|three 4;point;five");
    assert_eq!(taken, "1  0  hall two point five  => hall 2.5 \n");
}

#[test]
fn an_operator_has_a_batch() {
    let lines = b"d1\talpha;dash;one|two 4\nd2\talpha 3;bravo 2|alpha 4\nd3\tone;alpha\n";
    let folder = folder_of("operator", ("u", lines));
    let rows = [
        "line,id,Line,Letter,Number,weight,note",
        "1,d1,;A-1,A,1,0,Line: or ;A-2; Number: or 2",
        "2,d2,;A B-,A,,12,Line: or ;A A-",
        "3,d3,,,,,no reading: the grammar derives nothing of what was heard; goes along with it: one; could follow there: times; \
         heard in slot 1: alpha 0",
    ];
    let schedule = answer_in(&folder, "schedule g u --columns Line,Letter,Number --close 5");
    assert_eq!(schedule, rows.map(|row| format!("{row}\r\n")).concat());
    assert_eq!(answer_in(&folder, "batch g u -n 1").lines().count(), 3);
}

#[test]
fn a_programmer_reads_json() {
    let folder = folder_of("programmer", ("nothing", b""));
    let json = r#"{"readings":[{"rank":1,"weight":3,"words":["go","up","nine"],"rules":[0,1,2,4,6],"#.to_owned()
        + r#""tree":["Command",["Move","go",["Way","up"],["Steps",["Digit","nine"]]]],"translation":"G 0 1 9"}]}"#;
    assert_eq!(answer_with(&folder, "list g - --json -n 1", b"go;up 3|down 5;nine"), json + "\n");
}
