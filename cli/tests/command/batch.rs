//! Many utterances on all cores.

use crate::common::{answer, answer_in, answer_with, doors, doors_graph, folder, refused, run_in, run_with, PROGRAM};
use std::io::{BufRead, BufReader, Write};
use std::path::{Path, PathBuf};
use std::process::{Command, Stdio};
use std::sync::mpsc::channel;
use std::time::Duration;

#[test]
fn batch_of_utterances() {
    let expected = r#"{"line":2,"readings":[{"rank":1,"weight":72,"words":["door","twenty","four","oak","fire","thirty"],"rules":[0,2,12,3,13,15,8,17,11,20,21]}]}
{"line":3,"readings":[{"rank":1,"weight":51,"words":["door","five","steel","left"],"rules":[0,2,12,7,9,19,23]}]}
{"line":4,"readings":[{"rank":1,"weight":48,"words":["door","forty","glass","fire","sixty"],"rules":[0,2,12,5,8,18,11,20,22]}]}
"#;
    assert_eq!(answer("batch grammar.txt utterances.txt -n 1"), expected);
    assert_eq!(answer("batch grammar.txt utterances.txt -n 1 -j 1"), expected);
}

/// Long enough that several threads take turns; the answers come in the order of the lines all the same.
#[test]
fn batch_answers_in_order() {
    let words = ["twenty", "forty", "four", "five"];
    let line = |number: usize| format!("door {} ; {} 1 ; oak 2\n", number, words[number % words.len()]);
    let text: String = (0..5_000).map(line).collect();
    for jobs in ["-j 1", "-j 2", "-j 7", ""] {
        let out = answer_with(&doors(), &format!("batch grammar.txt - -n 1 {jobs}"), text.as_bytes());
        assert_eq!(out.lines().count(), 5_000);
        for (number, answer) in out.lines().enumerate() {
            // the tens alone weigh 10, the units alone 5, an entry without details 30
            let weight = number + 1 + 2 + 30 + [10, 10, 5, 5][number % words.len()];
            let begin = format!("{{\"line\":{},\"readings\":[{{\"rank\":1,\"weight\":{weight},", number + 1);
            assert!(answer.starts_with(&begin), "{answer}");
            assert!(answer.contains(words[number % words.len()]), "{answer}");
        }
    }
}

#[test]
fn batch_goes_on_after_a_refusal() {
    let text = b"door 1; four 2; oak 3\ndoor 1; green 2\n\n# a comment\ndoor x\ndoor 1; five 2; oak 3";
    let run = run_with(&doors(), "batch grammar.txt - -n 1", text);
    assert_eq!(run.status, 1);
    let errors = "\
<stdin>:2:9: refused 14: the grammar has no word `green`
<stdin>:5:6: `x` is no cost: a cost is 0 to 65535, digits only, and between slots stands `;`
2 of 4 utterances refused
";
    assert_eq!(run.err, errors);
    let lines: Vec<&str> = run.out.lines().collect();
    assert_eq!(lines.len(), 4);
    assert_eq!(lines[1], r#"{"line":2,"error":"<stdin>:2:9: refused 14: the grammar has no word `green`"}"#);
    assert!(lines[3].starts_with(r#"{"line":6,"readings":[{"rank":1,"weight":41,"#), "{}", lines[3]);
}

/// Graphs stand between utterances, and their answers say which edges were taken.
#[test]
fn batch_of_graphs() {
    let graph = std::fs::read_to_string(doors_graph().join("graph.txt")).expect("the example");
    let edges = graph.lines().map(|line| line.split('#').next().unwrap_or_default().trim());
    let graph = edges.filter(|edge| !edge.is_empty()).collect::<Vec<_>>().join(" ; ");
    let text = format!("door 1; four 2; oak 3\n  {graph}\n0 1 door 1 ; 1 1 four 2\n0 1 door 1 ; 2 3 oak 4\n");
    let run = run_with(&doors(), "batch grammar.txt - -n 3", text.as_bytes());
    assert_eq!(
        run.err,
        "<stdin>:3:16: refused 51: an edge ends above where it starts: not 1 to 1\n1 of 4 utterances refused\n"
    );
    let lines: Vec<&str> = run.out.lines().collect();
    assert_eq!(lines.len(), 4);
    assert!(!lines[0].contains("edges"), "{}", lines[0]);
    let third = r#"{"rank":3,"weight":80,"words":["door","twenty","four","oak","fire","sixty"],"rules":[0,2,12,3,13,15,8,17,11,20,22],"edges":[0,2,4,7,9,13]}]}"#;
    assert!(
        lines[1].starts_with(r#"{"line":2,"readings":[{"rank":1,"weight":72,"#) && lines[1].ends_with(third),
        "{}",
        lines[1]
    );
    let prefix = r#""prefix":{"words":["door"],"place":1,"next":["twenty","forty","four","five"],"may_end":false}}"#;
    assert_eq!(lines[3], format!("{{\"line\":4,\"readings\":[],{prefix}"));
}

/// Lines may be longer than what is read at a time, end in any way, and have bytes that are no characters.
#[test]
fn batch_of_any_lines() {
    let comment = format!("# {}\r\n", "x".repeat(100_000));
    let utterance =
        |number: usize| format!("door {number} ; four 1 ;  oak 2{}\n", ["", "\r", " ", "\t# said"][number % 4]);
    let mut text = Vec::new();
    for number in 0..2_000 {
        text.extend(utterance(number).as_bytes());
        if number % 500 == 7 {
            text.extend(comment.as_bytes());
            text.extend(b"door 1; gr\xfcn 2; oak 1\n\n");
        }
    }
    text.extend(b"door 5; \"five\" 1; oak 2");
    let run = run_with(&doors(), "batch grammar.txt - -n 1", &text);
    assert_eq!((run.status, run.err.lines().count()), (1, 5), "{}", run.err);
    assert_eq!(run.err.lines().next(), Some("<stdin>:10:9: refused 14: the grammar has no word `gr\u{fffd}n`"));
    assert_eq!(run.err.lines().last(), Some("4 of 2005 utterances refused"));
    let weights =
        |answer: &str| answer.split_once("\"weight\":").and_then(|(_, rest)| rest.split(',').next()?.parse().ok());
    let found: Vec<usize> = run.out.lines().filter_map(weights).collect();
    assert!(found.into_iter().eq((0..2_000).chain([5]).map(|cost| cost + 1 + 2 + 30 + 5)));
    let numbers: Vec<&str> = run.out.lines().map(|line| &line[8..line.find([',', '}']).expect("a number")]).collect();
    assert!(numbers.windows(2).all(|pair| pair[0].parse::<u32>().unwrap() < pair[1].parse().unwrap()), "{numbers:?}");
    assert_eq!(numbers.last(), Some(&"2013"));
}

/// Whoever waits for an answer before it says the next line gets it.
#[test]
fn each_line_is_answered_before_the_next_is_waited_for() {
    let mut command = Command::new(PROGRAM);
    let command = command.current_dir(doors()).args(["batch", "grammar.txt", "-", "-n", "1"]);
    let mut child = command.stdin(Stdio::piped()).stdout(Stdio::piped()).spawn().expect("a run");
    let (mut stdin, stdout) = (child.stdin.take().expect("a pipe"), child.stdout.take().expect("a pipe"));
    let (sender, answers) = channel();
    let reader = std::thread::spawn(move || {
        for answer in BufReader::new(stdout).lines() {
            sender.send(answer.expect("a line")).expect("somebody who waits");
        }
    });
    for number in 1..=20 {
        stdin.write_all(format!("door {number} ; four 1 ; oak 2\n").as_bytes()).expect("a line is taken");
        let answer = answers.recv_timeout(Duration::from_secs(60)).expect("an answer while the input is open");
        let begin = format!("{{\"line\":{number},\"readings\":[{{\"rank\":1,\"weight\":{},", number + 38);
        assert!(answer.starts_with(&begin), "{answer}");
    }
    drop(stdin);
    reader.join().expect("the end of the answers");
    assert!(child.wait().expect("an end").success());
}

/// There are no more threads than there is use for, however many are asked for.
#[test]
#[cfg(target_os = "linux")]
fn no_more_threads_than_there_is_use_for() {
    let cores = std::thread::available_parallelism().map_or(1, usize::from);
    let mut command = Command::new(PROGRAM);
    let command = command.current_dir(doors()).args(["batch", "grammar.txt", "-", "-n", "1", "-j", "100000"]);
    let mut child = command.stdin(Stdio::piped()).stdout(Stdio::piped()).spawn().expect("a run");
    let (mut stdin, stdout) = (child.stdin.take().expect("a pipe"), child.stdout.take().expect("a pipe"));
    stdin.write_all(b"door 1 ; four 1 ; oak 2\n").expect("a line is taken");
    let mut answer = String::new();
    BufReader::new(stdout).read_line(&mut answer).expect("an answer");
    assert!(answer.starts_with(r#"{"line":1,"readings":[{"rank":1,"weight":39,"#), "{answer}");
    let threads = std::fs::read_dir(format!("/proc/{}/task", child.id())).expect("its threads").count();
    assert!((1..=4 * cores).contains(&threads), "{threads} threads on {cores} cores");
    drop(stdin);
    assert!(child.wait().expect("an end").success());
}

#[test]
fn a_file_may_be_answered_line_by_line_too() {
    let expected = answer("batch grammar.txt utterances.txt -n 2");
    assert_eq!(answer("batch grammar.txt utterances.txt -n 2 --line"), expected);
}

/// A name before a tab comes back. Where a number alone follows, the tab is a blank.
#[test]
fn names_of_lines() {
    let text = "\
utt-1\tdoor 1; four 2; oak 3
17\t0 1 door 1 ; 1 2 four 2 ; 2 3 oak 3
\"odd\"\tdoor 1; four 2; oak 3
b\\c\tdoor 1; green 2
door\t1; four\t2; oak\t3
0\t1\tdoor\t1 ; 1 2 four 2 ; 2 3 oak 3
door 1;\tfour 2; oak 3
";
    let run = run_with(&doors(), "batch grammar.txt - -n 1", text.as_bytes());
    let reading = r#""readings":[{"rank":1,"weight":41,"#;
    let begins = [
        format!(r#"{{"line":1,"id":"utt-1",{reading}"#),
        format!(r#"{{"line":2,"id":"17",{reading}"#),
        r#"{"line":3,"error":"<stdin>:3:1: refused 14: the grammar has no word `odd`"}"#.into(),
        r#"{"line":4,"id":"b\\c","error":"<stdin>:4:13: refused 14: the grammar has no word `green`"}"#.into(),
        format!(r#"{{"line":5,{reading}"#),
        format!(r#"{{"line":6,{reading}"#),
        format!(r#"{{"line":7,{reading}"#),
    ];
    assert_eq!(run.out.lines().count(), begins.len(), "{}", run.out);
    for (line, begin) in run.out.lines().zip(&begins) {
        assert!(line.starts_with(begin), "{line}\n{begin}");
    }
}

/// A word of digits before a tab and its cost is no name, for a number and a mark behind it are no utterance.
#[test]
fn words_of_digits_before_a_tab() {
    let folder = folder("batch_digits", &[("g", b"A -> B B\nB -> \"4\" | \"5\" | \"61\"")]);
    let text = b"4\t61 | 5 20 ; 5 1\n4\t61\t;\t5\t1\nname\t61 5 | 4 20 ; 5 1\n7\t61 5 ; 5 1\n";
    let run = run_with(&folder, "batch g - -n 1", text);
    let words: Vec<&str> =
        run.out.lines().filter_map(|line| line.split_once(",\"rules\"")).map(|(front, _)| front).collect();
    let expected = [
        r#"{"line":1,"readings":[{"rank":1,"weight":21,"words":["5","5"]"#,
        r#"{"line":2,"readings":[{"rank":1,"weight":62,"words":["4","5"]"#,
        r#"{"line":3,"id":"name","readings":[{"rank":1,"weight":6,"words":["61","5"]"#,
        r#"{"line":4,"id":"7","readings":[{"rank":1,"weight":6,"words":["61","5"]"#,
    ];
    assert_eq!((words, run.err.as_str()), (expected.to_vec(), ""), "{}", run.out);
}

/// Of messages that say the same the first ten are said, and the others counted; every answer says its own.
#[test]
fn equal_messages_are_counted() {
    let text = "door 1; green 2\n".repeat(15) + &"door x\n".repeat(11) + "door 1; blue 2\n";
    let run = run_with(&doors(), "batch grammar.txt - -n 1", text.as_bytes());
    let green = |line| format!("<stdin>:{line}:9: refused 14: the grammar has no word `green`\n");
    let no_cost = "`x` is no cost: a cost is 0 to 65535, digits only, and between slots stands `;`";
    let number = |line| format!("<stdin>:{line}:6: {no_cost}\n");
    let mut expected: String = (1..=10).map(green).chain((16..=25).map(number)).collect();
    expected += "<stdin>:27:9: refused 14: the grammar has no word `blue`\n";
    expected += &format!("<stdin>: 1 more lines: {no_cost}\n");
    expected += "<stdin>: 5 more lines: refused 14: the grammar has no word `green`\n";
    expected += "27 of 27 utterances refused\n";
    assert_eq!(run.err, expected);
    assert_eq!(run.out.matches("\"error\":").count(), 27);
}

#[test]
fn a_byte_order_mark_is_passed_over() {
    let text = "door 1; four 2; oak 3\ndoor 1; five 2; oak 3\n";
    let marked = format!("\u{feff}{text}");
    let run = |text: &str| answer_with(&doors(), "batch grammar.txt - -n 1", text.as_bytes());
    assert_eq!(run(&marked), run(text));
    // nowhere else
    let later = run_with(&doors(), "batch grammar.txt - -n 1", format!("{text}{marked}").as_bytes());
    assert_eq!(later.out.matches("\"error\":").count(), 1, "{}", later.out);
}

/// The folder of a test with the door schedule's grammar and some lines in it, of which some are refused and some none.
fn resumed_folder(name: &str) -> PathBuf {
    let grammar = std::fs::read(doors().join("grammar.txt")).expect("the example");
    let lines = b"# doors\nu1\tdoor 1; four 2; oak 3\n\ndoor 1; green 2\n# more\ndoor 1; five 2; oak 3\ndoor 1; twenty 2; oak 3";
    folder(name, &[("grammar.txt", &grammar), ("lines.txt", lines)])
}

/// Runs with an output that has these bytes, and says what it has then.
fn resumed(folder: &Path, bytes: &[u8], words: &str) -> Vec<u8> {
    let out = folder.join("out.jsonl");
    std::fs::write(&out, bytes).expect("a file");
    let run = run_in(folder, words);
    assert!(run.out.is_empty() && run.status <= 1, "{run:?}");
    std::fs::read(&out).expect("the output")
}

/// Wherever a run was interrupted, no line is answered twice and none is left out.
#[test]
fn an_interrupted_run_goes_on() {
    const WORDS: &str = "batch grammar.txt lines.txt -n 1 --resume out.jsonl";
    let folder = resumed_folder("batch_resumed");
    let whole = run_in(&folder, "batch grammar.txt lines.txt -n 1").out;
    assert_eq!(whole.lines().count(), 4);
    let first = run_in(&folder, WORDS);
    assert_eq!((first.status, first.out.as_str()), (1, ""), "{}", first.err);
    assert_eq!(std::fs::read_to_string(folder.join("out.jsonl")).expect("a new file"), whole);
    for length in (0..whole.len()).step_by(7).chain(whole.match_indices('\n').flat_map(|(at, _)| [at, at + 1])) {
        let found = resumed(&folder, &whole.as_bytes()[..length], WORDS);
        assert_eq!(String::from_utf8(found).as_deref(), Ok(whole.as_str()), "after {length} bytes");
    }
    let last = run_in(&folder, WORDS);
    assert_eq!((last.status, last.err.as_str()), (0, "out.jsonl: goes on behind line 7\n"));
}

/// Long answers, many pieces, and standard input.
#[test]
fn a_long_run_goes_on() {
    let text: String = (0..4_000).map(|number| format!("n{number}\tdoor {number} ; four 1 ; oak 2\n")).collect();
    let folder = resumed_folder("batch_resumed_long");
    std::fs::write(folder.join("lines.txt"), &text).expect("a file");
    let whole = answer_in(&folder, "batch grammar.txt lines.txt");
    for length in [1, 65_535, 65_536, 70_001, whole.len() / 2, whole.len() - 1, whole.len()] {
        let found = resumed(&folder, &whole.as_bytes()[..length], "batch grammar.txt lines.txt --resume out.jsonl");
        assert!(found == whole.as_bytes(), "after {length} bytes");
    }
    std::fs::write(folder.join("out.jsonl"), &whole.as_bytes()[..100_000]).expect("a file");
    let run = run_with(&folder, "batch grammar.txt - --resume out.jsonl", text.as_bytes());
    assert_eq!((run.status, run.out.as_str()), (0, ""), "{}", run.err);
    assert!(std::fs::read(folder.join("out.jsonl")).expect("the output") == whole.as_bytes());
}

/// What is no file of answers, or not of this input, is refused and stays.
#[test]
fn what_cannot_be_resumed_stays() {
    const WORDS: &str = "batch grammar.txt lines.txt --resume out.jsonl";
    let folder = resumed_folder("batch_not_resumed");
    let others = [
        "door 1; four 2",
        "door 1; four 2\n",
        "{\"line\":1,\"readings\":[]}\nmine",
        "{\"line\":x,}\n",
        "{\"line\":2\n",
    ];
    for bytes in others {
        std::fs::write(folder.join("out.jsonl"), bytes).expect("a file");
        let message = "out.jsonl: not answers of `batch` to the end, and left as it is\n";
        assert_eq!(refused(run_in(&folder, WORDS), 1), message, "{bytes}");
        assert_eq!(std::fs::read(folder.join("out.jsonl")).expect("the file"), bytes.as_bytes());
    }
    std::fs::write(folder.join("out.jsonl"), "{\"line\":8,\"readings\":[]}\n").expect("a file");
    let message = "out.jsonl: answers line 8 of another input: lines.txt has 7 lines\n";
    assert_eq!(refused(run_in(&folder, WORDS), 1), message);
}
