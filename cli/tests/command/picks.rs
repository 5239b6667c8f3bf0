//! `pick`: readings one by one, with the answers of whoever looks at them.

use crate::common::{answer, doors, folder, output, refused, run, run_with, Run, PROGRAM};
use std::process::Command;

const DOORS: &str = "pick grammar.txt utterance.txt";

fn pick(words: &str, answers: &[u8]) -> Run {
    run_with(&doors(), words, answers)
}

#[test]
fn the_second_is_taken() {
    let taken = pick(DOORS, b"\nwhat\ny\n");
    assert_eq!((taken.status, taken.out.as_str()), (0, "2  80  door twenty four oak fire sixty\n"));
    let shown =
        "1  72  door twenty four oak fire thirty  [Enter, y, q] 2  80  door twenty four oak fire sixty  [Enter, y, q] \
                 Enter for the next, y to take this one, q to take none: ";
    assert_eq!(taken.err, shown);
    // blanks and the line ends of other systems do not count
    assert_eq!(pick(DOORS, b"\r\n y \r\n").out, taken.out);
}

#[test]
fn none_is_taken() {
    for answers in [&b"\nq\n"[..], b"\n", b""] {
        assert!(refused(pick(DOORS, answers), 1).ends_with("[Enter, y, q] none taken\n"));
    }
    let all = refused(pick(DOORS, &[b'\n'; 17]), 1);
    assert!(all.ends_with("[Enter, y, q] none taken, and there are no more sentences\n"), "{all}");
    assert_eq!(all.matches("[Enter, y, q]").count(), 16);
    let folder = folder("pick_nothing", &[("g", b"A -> \"x\""), ("u", b"x 1; x 2")]);
    let nothing = refused(run_with(&folder, "pick g u", b"y\n"), 1);
    let expected = "\
no reading: the grammar derives nothing of what was heard
  goes along with it: x
  could follow there: the end
  heard in slot 1: x 2
none taken, and there are no more sentences
";
    assert_eq!(nothing, expected);
}

/// What is shown one by one is what `list` prints, and so is what is taken.
#[test]
fn as_list_has_them() {
    for heard in ["utterance.txt", "../doors_graph/graph.txt", "utterance.txt --skip 20"] {
        for [list, pick] in [["--distinct", ""], ["", "--every-tree"]] {
            taken_as_listed(&format!("list grammar.txt {heard} {list}"), &format!("pick grammar.txt {heard} {pick}"));
        }
    }
}

fn taken_as_listed(list: &str, words: &str) {
    let listed = run(list).out;
    assert_eq!(listed.lines().count(), 8);
    for (rank, line) in listed.lines().enumerate() {
        let answers = "\n".repeat(rank) + "y\n";
        let taken = pick(words, answers.as_bytes());
        let plain = |text: &str| text.split_whitespace().map(str::to_owned).collect::<Vec<_>>();
        assert_eq!((taken.status, plain(&taken.out)), (0, plain(line)), "{words}");
    }
}

#[test]
fn as_a_tree() {
    let taken = pick(&format!("{DOORS} --tree"), b"y\n");
    let tree = answer("list grammar.txt utterance.txt --tree -n 1");
    assert_eq!((taken.status, &taken.out), (0, &tree));
    assert_eq!(taken.err, tree + "[Enter, y, q] ");
}

#[test]
fn for_programs() {
    let taken = pick(&format!("{DOORS} --json"), b"\ny\n");
    let list = answer("list grammar.txt utterance.txt --json --distinct -n 2");
    let (_, second) = list.split_once(",{\"rank\":2").expect("two readings");
    assert_eq!((taken.status, taken.out), (0, format!("{{\"readings\":[{{\"rank\":2{second}")));
    assert!(taken.err.starts_with("1  72  door twenty four oak fire thirty  [Enter, y, q] 2  80 "), "{}", taken.err);
    let graph = pick("pick grammar.txt ../doors_graph/graph.txt --json", b"\ny\n");
    assert!(graph.out.contains("\"edges\":[0,3,7,9,12]"), "{}", graph.out);
}

/// A listing ends after 256 readings.
#[test]
fn full() {
    let slots = "x 0;".repeat(10);
    let folder = folder("pick_full", &[("g", b"A -> A A [1] | \"x\""), ("u", slots.trim_end_matches(';').as_bytes())]);
    let message = refused(run_with(&folder, "pick g u --every-tree", &[b'\n'; 300]), 1);
    assert_eq!(message.matches("[Enter, y, q]").count(), 256);
    assert!(message.ends_with("none taken, and no more than 256 readings are shown\n"), "{message}");
    let last = run_with(&folder, "pick g u --every-tree", &[&[b'\n'; 255][..], b"y"].concat());
    assert_eq!((last.status, last.out.as_str()), (0, "256  9  x x x x x x x x x x\n"));
    let once = refused(run_with(&folder, "pick g u", &[b'\n'; 300]), 1);
    let more = "among 256 readings, the most that a listing has, there is 1 sentence; there may be more";
    assert_eq!(once, format!("1  9  x x x x x x x x x x  [Enter, y, q] none taken, and {more}\n"));
    assert_eq!(run_with(&folder, "pick g u", b"y").out, "1  9  x x x x x x x x x x  (+255 trees)\n");
}

/// Answers may come from a pipe, and what is taken may go into one.
#[test]
fn in_pipes() {
    let script =
        format!("yes '' | head -n 5 | {PROGRAM} {DOORS} | wc -c; (echo; echo y) | {PROGRAM} {DOORS} | cut -c 4-5");
    let run = output(Command::new("sh").args(["-c", &script]).current_dir(doors()), b"");
    assert_eq!(String::from_utf8_lossy(&run.stdout).split_whitespace().collect::<Vec<_>>(), ["0", "80"]);
}
