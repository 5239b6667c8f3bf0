//! Schedules: a row for each utterance, as CSV and as a page.

use crate::common::{answer_in, answer_with, example, folder, refused, run_in, run_with};
use crate::report::{browser, open};

const COLUMNS: &str = "--columns Number,Leaf,Rating,Side";

#[test]
fn rows_as_csv() {
    let schedule =
        answer_in(&example("door_schedule"), &format!("schedule grammar.txt utterances.txt {COLUMNS} --close 10"));
    let rows = [
        "line,Number,Leaf,Rating,Side,weight,note",
        "2,24,oak,FD30,,72,Rating: or FD60",
        "3,24,oak,,left,47,Number: or 40",
        "4,5,steel,FD60,,130,",
        "5,,,,,,no reading: the grammar derives nothing of what was heard; goes along with it: nothing; could follow there: door; \
         heard in slot 0: oak 3",
        "6,,,,,,utterances.txt:6:1: refused 14: the grammar has no word `window`",
    ];
    assert_eq!(schedule, rows.map(|row| format!("{row}\r\n")).concat());
    // nothing is as light as the first
    let strict = answer_in(&example("door_schedule"), &format!("schedule grammar.txt utterances.txt {COLUMNS}"));
    assert!(strict.contains("2,24,oak,FD30,,72,\r\n"), "{strict}");
}

/// The words of a sentence that says what the rules of `A` have.
const TWO_COLUMNS: &str = "A -> B C | C B [1]\nB -> \"x\" | \"y\" [2] | \"z\" [9]\nC -> \"x\" | \"y\" | \"z\"";

/// A row is marked where the second reading weighs at most W more and has another column, with what that has: neither where it
/// weighs more, nor where it has the same columns.
#[test]
fn a_row_is_marked_by_the_second_reading() {
    let folder = folder("schedule_second", &[("g", TWO_COLUMNS.as_bytes())]);
    let row = |line: &[u8], options: &str| {
        let schedule = answer_with(&folder, &format!("schedule g - {options}"), line);
        schedule.lines().nth(1).expect("a row").to_owned()
    };
    // the second reading has C before B, at 1 more
    assert_eq!(row(b"x;y\n", "--columns B,C --close 1"), "1,x,y,0,");
    let second = answer_with(&folder, "list g - -n 2", b"x;y\n");
    assert_eq!(second, "1  0  x y\n2  3  x y\n");
    assert_eq!(row(b"x;y\n", "--columns B,C --close 2"), "1,x,y,0,");
    assert_eq!(row(b"x;y\n", "--columns B,C --close 3"), "1,x,y,0,B: or y; C: or x");
    assert_eq!(row(b"x;y\n", "--columns C --close 3"), "1,y,0,C: or x");
    // the start is the same words in both
    assert_eq!(row(b"x;y\n", "--columns A --close 3"), "1,x y,0,");
    // of three words for a slot the second reading's counts, not the third's
    assert_eq!(row(b"x|y|z;x\n", "--columns B --close 65535"), "1,x,0,B: or y");
}

/// Where the second reading has the same row by another derivation, the first that has another marks it, however many stand before.
#[test]
fn a_row_that_many_derivations_have() {
    let grammar = "A -> N A | A N [0] | N\nN -> \"x\" => \"\" | \"y\" => \"y\" [1]";
    let folder = folder("schedule_many", &[("g", grammar.as_bytes())]);
    let row = |words: usize, last: &str, close: &str| {
        let line = format!("{}{last}\n", "x;".repeat(words));
        let schedule = answer_with(&folder, &format!("schedule g - --columns A --close {close}"), line.as_bytes());
        schedule.lines().nth(1).expect("a row").to_owned()
    };
    // 2 to the 5th readings of six words have the row, and then comes one with y
    let listed = answer_with(&folder, "list g - -n 256", format!("{}x|y 3\n", "x;".repeat(5)).as_bytes());
    assert_eq!(listed.lines().filter(|line| line.split_whitespace().nth(1) == Some("0")).count(), 32);
    assert_eq!(row(5, "x|y 3", "4"), "1,,0,A: or y");
    assert_eq!(row(5, "x|y 3", "3"), "1,,0,");
    // of ten words 512
    assert_eq!(row(9, "x|y 3", "4"), "1,,0,\"256 readings have this row, and more may be close\"");
    assert_eq!(row(9, "x", "0"), "1,,0,\"256 readings have this row, and more may be close\"");
}

/// CSV as RFC 4180 has it, taken apart by its rules: lines end in CR and LF, quotes stand twice within quotes.
fn records(text: &str) -> Vec<Vec<String>> {
    let (mut records, mut record, mut field) = (Vec::new(), Vec::new(), String::new());
    let mut letters = text.chars().peekable();
    let mut is_quoted = false;
    while let Some(letter) = letters.next() {
        match letter {
            '"' if is_quoted && letters.peek() == Some(&'"') => field.extend(letters.next()),
            '"' => is_quoted = !is_quoted,
            ',' if !is_quoted => record.push(std::mem::take(&mut field)),
            '\r' if !is_quoted => {
                assert_eq!(letters.next(), Some('\n'), "{text:?}");
                record.push(std::mem::take(&mut field));
                records.push(std::mem::take(&mut record));
            }
            '\n' if !is_quoted => panic!("a line ends in LF alone: {text:?}"),
            letter => field.push(letter),
        }
    }
    assert!(record.is_empty() && field.is_empty() && !is_quoted, "{text:?}");
    records
}

#[test]
fn fields_in_quotes() {
    let grammar = "A,1 -> B C D\nB -> \"x\" => \"a, \\\"b\\\"\"\nC -> \"c\"\nD -> \"d\" => \"ü; '\"";
    let list = "\"a\rb\"\tu\n".as_bytes();
    let folder = crate::common::folder(
        "schedule_quotes",
        &[("g", grammar.as_bytes()), ("u", b"x 3;c;d\r\n"), ("v", b"say \"x, y\"\n"), ("l", list)],
    );
    let csv = answer_in(&folder, "schedule g u --columns B,C,D");
    assert_eq!(csv, "line,B,C,D,weight,note\r\n1,\"a, \"\"b\"\"\",c,ü; ',3,\r\n");
    assert_eq!(records(&csv)[1], ["1", "a, \"b\"", "c", "ü; '", "3", ""]);
    let csv = answer_in(&folder, "schedule g v --columns B");
    assert_eq!(records(&csv)[1], ["1", "", "", "v:1:1: refused 14: the grammar has no word `say`"]);
    // a name with an end of a line in it
    let run = run_in(&folder, "schedule g --files l --columns B");
    assert_eq!(run.status, 0, "{}", run.err);
    records(&run.out);
    for name in ["door_schedule", "site_notes"] {
        let table = answer_in(&example(name), "schedule grammar.txt utterances.txt --columns Number --close 99");
        assert!(records(&table).iter().all(|record| record.len() == 4), "{table}");
    }
}

#[test]
fn a_network_is_one_row() {
    let network = b"numaligns 2\nposterior 1\nalign 0 door 0.96 four 0.04\nalign 1 twenty 0.6 forty 0.4\n";
    let schedule = answer_with(
        &example("door_schedule"),
        "schedule grammar.txt - --columns Number --scale 100 --close 50",
        network,
    );
    assert_eq!(schedule, "line,Number,weight,note\r\n1,20,95,Number: or 40\r\n");
}

#[test]
fn rows_as_a_page() {
    let page = answer_in(
        &example("door_schedule"),
        &format!("schedule grammar.txt utterances.txt {COLUMNS} --close 10 --html"),
    );
    for part in [
        "<p>5 rows, 4 to look at.",
        "<td><mark>FD30</mark> <span class=\"other\">or FD60</span></td>",
        "<td><mark>24</mark> <span class=\"other\">or 40</span></td>",
        "<td class=\"note\">no reading: the grammar derives nothing of what was heard;",
    ] {
        assert!(page.contains(part), "{part}\n{page}");
    }
    assert_eq!((page.matches("<tr>").count(), page.matches("</tr>").count()), (6, 6));
}

#[test]
fn wrong_usage() {
    let wrong = |words: &str| refused(run_in(&example("door_schedule"), words), 2);
    let usage = |message: &str| format!("spireyerba schedule: {message}\ntry `spireyerba schedule --help`\n");
    assert_eq!(
        wrong("schedule grammar.txt utterances.txt"),
        usage("--columns is missing: the symbols that are the columns, such as Number,Leaf")
    );
    assert_eq!(
        wrong("schedule grammar.txt utterances.txt --columns Nubmer"),
        usage("--columns: the grammar has no symbol `Nubmer` (did you mean `Number`?)")
    );
    for (columns, message) in [
        ("--columns", "--columns needs SYMBOL,.."),
        ("--columns=", "--columns: a name is missing beside a comma"),
        ("--columns Number,,Leaf", "--columns: a name is missing beside a comma"),
        ("--columns Colour", "--columns: the grammar has no symbol `Colour`"),
        ("--columns Number --close 1.5", "--close: `1.5` is no whole number from 0 on"),
    ] {
        assert_eq!(wrong(&format!("schedule grammar.txt utterances.txt {columns}")), usage(message));
    }
}

/// Every lattice of a file is a row, with its name, and what is missing of it is said.
#[test]
fn lattices_are_rows() {
    let formats = example("formats");
    let archive = answer_in(&formats, "schedule grammar.txt kaldi.txt --columns Number,Tens --scale 100");
    let rows = ["line,id,Number,Tens,weight,note", "1,house-0017,twenty four,twenty,4983,", "1,house-0018,four,,2705,"];
    assert_eq!(archive, rows.map(|row| format!("{row}\r\n")).concat());
    let list = b"# two files, the first with a name\nd1\tgoogle.json\nvosk.json\nnone\n";
    let run = run_with(&formats, "schedule grammar.txt --files - --columns Number --scale 100 --close 99", list);
    let rows = [
        "line,id,Number,weight,note",
        "2,d1,twenty four,94,Number: or forty four",
        "3,vosk.json,twenty,10,\"every weight is 21566 more than the lattice says, since no edge weighs less than 0\"",
        "4,none,,,none: No such file or directory (os error 2)",
    ];
    assert_eq!((run.status, run.out), (0, rows.map(|row| format!("{row}\r\n")).concat()));
    // a file of JSON is no file of lines
    let json = answer_in(&formats, "schedule grammar.txt google.json --columns Number --scale 100");
    assert!(json.starts_with("line,Number,weight,note\r\n1,twenty four,94,") && json.lines().count() == 2, "{json}");
    let both = refused(run_in(&formats, "schedule grammar.txt kaldi.txt --files list --columns Number"), 2);
    assert!(both.contains("--files and FILE: only one of them"), "{both}");
    let neither = refused(run_in(&formats, "schedule grammar.txt --columns Number"), 2);
    assert!(neither.contains("FILE is missing"), "{neither}");
}

#[test]
fn names_and_words_that_are_left_out() {
    let lines = b"d1\tdoor; five; steel | iron 3; sixty\nd2\tdoor; xyz\n";
    let schedule =
        answer_with(&example("door_schedule"), "schedule grammar.txt - --columns Number,Leaf --drop-unknown", lines);
    let rows = [
        "line,id,Number,Leaf,weight,note",
        "1,d1,5,steel,130,\"left out, for the grammar does not have them: iron\"",
        "2,d2,,,,<stdin>:2:10: refused 13: there is no word of the grammar in the slot",
    ];
    assert_eq!(schedule, rows.map(|row| format!("{row}\r\n")).concat());
}

/// Where there is no browser, this says so and passes.
#[test]
fn a_browser_draws_the_schedule() {
    let Some(browser) = browser() else { return };
    let folder = folder("schedule_browser", &[]);
    let page = folder.join("page.html");
    let words = format!("schedule grammar.txt utterances.txt {COLUMNS} --close 10 --html -o {}", page.display());
    answer_in(&example("door_schedule"), &words);
    let drawn = open(browser, &folder, "page.html", &["--dump-dom"]);
    let dom = String::from_utf8_lossy(&drawn.stdout);
    assert_eq!(dom.matches("<tr>").count(), 6, "{dom}");
    assert_eq!(dom.matches("<mark>").count(), 2, "{dom}");
}
