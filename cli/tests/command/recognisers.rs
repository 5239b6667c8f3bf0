//! Lattices as recognisers write them: those of examples/recogniser, which PocketSphinx heard, and archives of several.

use crate::common::{answer_in, answer_with, example, folder, refused, run_in, run_with, Run};
use std::collections::HashMap;
use std::path::PathBuf;

/// The lattices over the office's words and those over the whole vocabulary.
const OFFICE: usize = 60;
const GENERAL: usize = 12;

fn recorded() -> PathBuf {
    example("recogniser/recorded")
}

/// A list of files, a line each.
fn list(kind: &str, count: usize) -> String {
    (0..count).map(|number| format!("u{number}\t{kind}/u{number}.slf\n")).collect()
}

/// Words that the grammar does not have are passed over; then each lattice is answered, by readings or by why there is none.
#[test]
fn the_whole_vocabulary_is_answered_with_skips() {
    for number in 0..GENERAL {
        let general = format!("list grammar.txt general/u{number}.slf --scale 1 -n 4");
        assert!(refused(run_in(&recorded(), &general), 1).contains("the grammar has no word `"), "u{number}");
        let Run { status, out, err } = run_in(&recorded(), &format!("{general} --skip 300"));
        assert_eq!(status, 0, "u{number}: {err}");
        let is_none = err.contains("no reading: the grammar derives nothing of what was heard\n  goes along with it: ");
        assert!(is_none == out.is_empty() && (is_none || out.starts_with("1  ")), "u{number}: {out}{err}");
    }
}

/// Skips find a reading where a word of another office stands between those of this one.
#[test]
fn a_lattice_with_a_word_too_many() {
    let said = std::fs::read_to_string(recorded().join("office/u1.slf")).expect("a recorded lattice");
    let other = said.replace("W=painted\t", "W=varnished\t");
    let skipped = run_with(&recorded(), "list grammar.txt - --scale 1 -n 1 --skip 300", other.as_bytes());
    let pruned = "<stdin>: kept 96 of 157 edges: every reading of weight up to 1612 is in the list";
    assert!(skipped.status == 0 && skipped.err.starts_with(pruned), "{}", skipped.err);
    assert_eq!(skipped.out, "1  1147  door one oak fire thirty\n");
}

#[test]
fn a_list_of_files() {
    let list = list("office", OFFICE);
    let answers = answer_with(&recorded(), "batch grammar.txt --files - --scale 1 -n 3 --distinct", list.as_bytes());
    let said = std::fs::read_to_string(recorded().join("said.txt")).expect("what was said");
    let said: HashMap<&str, &str> = said.lines().filter_map(|line| line.split_once(' ')).collect();
    let mut right = 0;
    for (number, answer) in answers.lines().enumerate() {
        let name = format!("u{number}");
        let begin = format!("{{\"line\":{},\"id\":\"{name}\",\"readings\":[", number + 1);
        assert!(answer.starts_with(&begin), "{answer}");
        let words: Vec<String> = said[name.as_str()].split(' ').map(|word| format!("\"{word}\"")).collect();
        let first = answer.split("\"words\":[").nth(1).and_then(|rest| rest.split(']').next());
        right += usize::from(first == Some(words.join(",").as_str()));
        assert!(first.is_some() || answer.contains("\"prefix\":{\"words\":["), "{answer}");
    }
    assert!(answers.lines().count() == OFFICE && right >= 31, "{right}");
    assert_eq!(answers.matches("\"complete_up_to\":").count(), 10);
}

/// Without a name the file's own stands there, and of several lattices each one's.
#[test]
fn archives() {
    let [first, second] = [
        r#","id":"house-0017","readings":[{"rank":1,"weight":50,"words":["door","twenty","four"],"rules":[0,1,5,7],"edges":[0,1,3],"links":[0,1,5],"times":[[0,0.04],[0.04,0.08],[0.08,0.09]]}]}"#,
        r#","id":"house-0018","readings":[{"rank":1,"weight":32,"words":["door","four"],"rules":[0,4],"edges":[0,1],"links":[0,1],"times":[[0,0.03],[0.03,0.06]]}]}"#,
    ];
    let kaldi = answer_in(&example("formats"), "batch grammar.txt kaldi.txt --scale 1 -n 1");
    assert_eq!(kaldi, format!("{{\"line\":1{first}\n{{\"line\":1{second}\n"));
    let files = b"kaldi.txt\n# and once more\nagain\tkaldi.txt\nmine\tpocketsphinx.slf\nopenfst.txt";
    let list = answer_with(&example("formats"), "batch grammar.txt --files - --scale 1 -n 1", files);
    let lines: Vec<&str> = list.lines().collect();
    assert_eq!(
        lines[..4].concat(),
        format!("{{\"line\":1{first}{{\"line\":1{second}{{\"line\":3{first}{{\"line\":3{second}")
    );
    assert!(lines[4].starts_with(r#"{"line":4,"id":"mine","readings":["#), "{}", lines[4]);
    assert!(lines[5].starts_with(r#"{"line":5,"id":"openfst.txt","readings":["#), "{}", lines[5]);
    let ctm = answer_in(&example("formats"), "batch grammar.txt words.ctm --format ctm --scale 100 -n 1");
    assert!(ctm.starts_with(r#"{"line":1,"id":"house-0017 A","readings":[{"rank":1,"weight":98,"#), "{ctm}");
}

#[test]
fn files_that_cannot_be_answered() {
    let files: [(&str, &[u8]); 4] = [
        ("g", b"A -> A A | \"x\""),
        ("l", b"VERSION=1.0\nI=0\nI=1\nI=2\nJ=0 S=0 E=1 W=x a=-7\nJ=1 S=1 E=2 W=um a=-1\nJ=2 S=1 E=2 W=x a=-2\n"),
        ("cut", b"VERSION=1.0\nI=0\nI=1\nJ=0 S=0 E=9 W=x a=-7\n"),
        ("list", b"l\nnone\ncut\n"),
    ];
    let folder = folder("batch_files", &files);
    let run = run_in(&folder, "batch g --files list --scale 1 --drop-unknown");
    let missing = "none: No such file or directory (os error 2)";
    let errors = format!("{missing}\ncut:4:9: there is no node `9`\n2 of 3 utterances refused\n");
    assert_eq!((run.status, run.err.as_str()), (1, errors.as_str()));
    let lines: Vec<&str> = run.out.lines().collect();
    assert_eq!(
        lines[0],
        r#"{"line":1,"id":"l","readings":[{"rank":1,"weight":9,"words":["x","x"],"rules":[0,1,1],"edges":[0,1],"links":[0,2]}],"dropped":["um"]}"#
    );
    assert_eq!(lines[1], format!("{{\"line\":2,\"id\":\"none\",\"error\":\"{missing}\"}}"));
    for (words, message) in [
        ("g l --files list", "--files and FILE: only one of them"),
        ("g", "FILE is missing: name one, `-` for standard input, or a list by --files"),
    ] {
        let usage = refused(run_in(&folder, &format!("batch {words}")), 2);
        assert_eq!(usage, format!("spireyerba batch: {message}\ntry `spireyerba batch --help`\n"));
    }
}

/// Values of JSON, one a line, are answered line by line, and one value over many lines is one lattice.
#[test]
fn values_of_json() {
    let [grammar, one] = ["grammar.txt", "vosk_words.json"]
        .map(|name| std::fs::read_to_string(example("formats").join(name)).expect(name));
    let value = |words: &str| format!(r#"{{"text": "{words}", "note": "}} \" ["}}"#);
    let lines = format!("{}\n\n{}\n{{\"text\": \"door um\n", value("door four"), value("door um twenty"));
    let files = [("g", grammar.as_bytes()), ("one.json", one.as_bytes()), ("lines.jsonl", lines.as_bytes())];
    let folder = folder("batch_json", &files);
    assert!(one.trim_end().lines().count() > 1, "{one}");
    let whole = answer_in(&folder, "batch g one.json --scale 100 -n 1");
    assert!(
        whole.starts_with(r#"{"line":1,"id":"one.json","readings":[{"rank":1,"#) && whole.lines().count() == 1,
        "{whole}"
    );
    let same = answer_in(&folder, "batch g one.json --scale 100 -n 1 --format json");
    assert_eq!(same, whole);
    let begins = [
        r#"{"line":1,"readings":[{"rank":1,"weight":5,"words":["door","four"],"#,
        r#"{"line":3,"error":"lines.jsonl:3:1: refused 14: the grammar has no word `um`"}"#,
        r#"{"line":4,"error":"lines.jsonl:4:10: a quoted word has no quote at its end"}"#,
    ];
    for words in ["lines.jsonl", "lines.jsonl --format json"] {
        let run = run_in(&folder, &format!("batch g {words} --scale 100 -n 1"));
        assert!(run.out.lines().count() == 3 && run.status == 1, "{}", run.out);
        run.out.lines().zip(begins).for_each(|(line, begin)| assert!(line.starts_with(begin), "{line}"));
    }
    for format in ["", " --format json"] {
        let input = run_with(&folder, &format!("batch g - --scale 100 -n 1{format}"), lines.as_bytes());
        let answers = begins.map(|begin| begin.replace("lines.jsonl", "<stdin>"));
        assert!(input.out.lines().count() == 3 && input.status == 1, "{}", input.out);
        input.out.lines().zip(&answers).for_each(|(line, begin)| assert!(line.starts_with(begin), "{line}"));
    }
    let streamed = run_with(&folder, "batch g - --scale 100 -n 1 --format json", one.as_bytes());
    assert_eq!((streamed.status, streamed.out), (0, whole.replace("one.json", "-")), "{}", streamed.err);
    let dropped = run_in(&folder, "batch g lines.jsonl --scale 100 -n 1 --drop-unknown");
    assert!(dropped.out.starts_with(begins[0]) && dropped.out.lines().count() == 3, "{}", dropped.out);
    let rows = run_in(&folder, "schedule g lines.jsonl --columns Number --scale 100").out;
    assert!(rows.starts_with("line,Number,weight,note\r\n1,four,5,\r\n3,") && rows.lines().count() == 4, "{rows}");
    let row = answer_in(&folder, "schedule g one.json --columns Number --scale 100");
    assert_eq!(row.lines().count(), 2, "{row}");
}

/// A list of files may have such files among others; each value is an answer, and its name that before a tab, its own, or the file's.
#[test]
fn values_of_json_in_a_list() {
    let grammar = std::fs::read_to_string(example("formats").join("grammar.txt")).expect("the grammar");
    let lines = "# two\n{\"text\": \"door four\"}\nu2\t{\"text\": \"door um\"}\n\n{\"text\": \"door forty\", \"id\": \"mine\"}\n";
    let files = [("g", grammar.as_bytes()), ("lines.jsonl", lines.as_bytes()), ("list", b"lines.jsonl\n")];
    let folder = folder("batch_json_list", &files);
    let why = "lines.jsonl:3:4: u2: refused 14: the grammar has no word `um`";
    let reading = |words: &str, weight: u32, rule: u32| {
        format!("[{{\"rank\":1,\"weight\":{weight},\"words\":[{words}],\"rules\":[0,{rule}],\"edges\":[0,1],\"links\":[0,1]}}]")
    };
    let answers = [
        format!("{{\"line\":1,\"id\":\"lines.jsonl\",\"readings\":{}}}\n", reading(r#""door","four""#, 5, 4)),
        format!("{{\"line\":1,\"id\":\"u2\",\"error\":\"{why}\"}}\n"),
        format!("{{\"line\":1,\"id\":\"mine\",\"readings\":{}}}\n", reading(r#""door","forty""#, 10, 3)),
    ];
    for format in ["", " --format json"] {
        let run = run_in(&folder, &format!("batch g --files list --scale 100 -n 1{format}"));
        let expected = Run { status: 1, out: answers.concat(), err: format!("{why}\n1 of 3 utterances refused\n") };
        assert_eq!(run, expected, "{format}");
        let said = run_in(&folder, &format!("batch g --files list --scale 100 -n 1 --said four{format}"));
        let no_path = "lines.jsonl:5:1: mine: --said four: no path has it";
        assert_eq!(said.err, format!("{why}\n{no_path}\n2 of 3 utterances refused\n"));
        let rows = answer_in(&folder, &format!("schedule g --files list --scale 100 --columns Number{format}"));
        assert_eq!(
            rows,
            format!("line,id,Number,weight,note\r\n1,lines.jsonl,four,5,\r\n1,u2,,,{why}\r\n1,mine,forty,10,\r\n")
        );
    }
}

/// A text in a format that lines do not have is refused once, with what to give; what may be lines is read line by line.
#[test]
fn texts_in_other_formats_are_refused_once() {
    let formats = example("formats");
    let message = |name: &str, format: &str| {
        format!(
            "{name}: the first lines look like a text in the format {format} and not like utterances, a line each: give --format {format} \
             (with --format slots or graph each line is read by itself)\n"
        )
    };
    for (name, format) in [
        ("openfst.txt", "openfst"),
        ("openfst_transducer.txt", "openfst"),
        ("nbest.txt", "nbest"),
        ("nbest_srilm.txt", "nbest"),
        ("nbest_decipher.txt", "nbest"),
        ("nbest_kaldi.txt", "nbest"),
        ("words.ctm", "ctm"),
    ] {
        for words in [format!("batch grammar.txt {name}"), format!("schedule grammar.txt {name} --columns Number")] {
            for option in ["", " --drop-unknown", " --skip 20"] {
                let refused = refused(run_in(&formats, &format!("{words} --scale 100{option}")), 1);
                assert_eq!(refused, message(name, format), "{words}{option}");
            }
        }
        let given = run_in(&formats, &format!("batch grammar.txt {name} --scale 100 -n 1 --format {format}"));
        assert!(given.out.starts_with("{\"line\":1,\"id\":\""), "{given:?}");
    }
    // what stands in a file of its own is read there, and cannot be told in time from standard input
    for (name, format) in
        [("kaldi.txt", "kaldi"), ("pocketsphinx.slf", "slf"), ("network.txt", "network"), ("vosk_words.json", "json")]
    {
        let text = std::fs::read(formats.join(name)).expect(name);
        let refused = refused(run_with(&formats, "batch grammar.txt - --scale 100", &text), 1);
        assert_eq!(refused, message("<stdin>", format));
    }
    // names that are numbers, as scores are, and single lines
    for (lines, refused) in [
        ("1\tdoor 4\n2\tdoor 3 ; four 2\n", 0),
        ("1\tdoor 4 ; green 1\n2\tdoor 3 ; blue 2\n", 2),
        ("-1.5 door four\n", 1),
        ("-1.5 door four\ndoor 3 ; four 2\n", 1),
    ] {
        let run = run_with(&formats, "batch grammar.txt - -n 1", lines.as_bytes());
        let answers = run.out.lines().count();
        assert_eq!(
            (answers, run.out.matches("\"error\":").count()),
            (lines.lines().count(), refused),
            "{lines}{run:?}"
        );
    }
}

/// A lattice of an archive that is refused has its name, as one that is answered; messages that say the same are counted all the same.
#[test]
fn refused_lattices_have_names() {
    const COPIES: usize = 12;
    let read = |name: &str| std::fs::read_to_string(example("formats").join(name)).expect(name);
    let (grammar, archive) = (read("grammar.txt"), read("kaldi.txt"));
    let numbered = |number: usize| {
        archive.replace("house-0017", &format!("a{number}")).replace("house-0018", &format!("b{number}"))
    };
    let many: String = (0..COPIES).map(numbered).collect();
    let folder = folder(
        "batch_names",
        &[("g", grammar.as_bytes()), ("kaldi.txt", archive.as_bytes()), ("many", many.as_bytes())],
    );
    let why = "kaldi.txt: house-0018: --said twenty: no path has it";
    for (words, input) in [("g kaldi.txt", ""), ("g --files -", "mine\tkaldi.txt\n")] {
        let run = run_with(&folder, &format!("batch {words} --scale 1 --said twenty -n 1"), input.as_bytes());
        assert_eq!((run.status, run.err), (1, format!("{why}\n1 of 2 utterances refused\n")));
        let [first, second] = [0, 1].map(|line| run.out.lines().nth(line).expect("two answers"));
        assert!(first.starts_with(r#"{"line":1,"id":"house-0017","readings":["#), "{first}");
        assert_eq!(second, format!(r#"{{"line":1,"id":"house-0018","error":"{why}"}}"#));
        let words = format!("schedule {words} --columns Number --scale 1 --said twenty");
        let rows = run_with(&folder, &words, input.as_bytes()).out;
        assert_eq!(rows.lines().nth(2), Some(format!("1,house-0018,,,{why}").as_str()), "{rows}");
    }
    let run = run_in(&folder, "batch g many --scale 1 --said twenty -n 1");
    assert_eq!(run.out.matches(r#","error":"many: b"#).count(), COPIES, "{}", run.out);
    assert!(
        run.err.ends_with("many: 2 more lines: --said twenty: no path has it\n12 of 24 utterances refused\n"),
        "{}",
        run.err
    );
}

/// Of an archive each lattice that cannot be read or does not fit is refused by itself, with its name, and the others are answered;
/// if none can be read, the file is refused.
#[test]
fn lattices_beside_refused_ones() {
    let long: String = (0..30).map(|state| format!("{state} {} x 1\n", state + 1)).collect();
    let (unknown, empty) = ("unknown\n0 1 x 1\n1 2 window 2\n2\n\n", "empty\n\n");
    let archive = format!("{unknown}one\n0 1 x 1\n1\n\n{empty}long\n{long}30\n\ntwo\n0 1 x 2\n1\n");
    let none = format!("{unknown}{empty}");
    let files = [
        ("g", &b"A -> A A | \"x\""[..]),
        ("archive", archive.as_bytes()),
        ("none", none.as_bytes()),
        ("list", b"archive\n"),
    ];
    let folder = folder("batch_beside_refused", &files);
    let why = [
        "archive:3:1: unknown: refused 14: the grammar has no word `window`",
        "archive:11:1: empty: refused 13: there is no arc",
        "archive:44:1: long: refused 13: even what weighs the least takes 31 places and 30 edges, and a word graph has 25 places and \
         96 edges: cut the utterance in two, or give words different scores",
    ];
    let reading =
        |weight| format!(r#"{{"rank":1,"weight":{weight},"words":["x"],"rules":[1],"edges":[0],"links":[0]}}"#);
    let refused = |id: &str, why: &str| format!("{{\"line\":1,\"id\":\"{id}\",\"error\":\"{why}\"}}\n");
    let read = |id: &str, weight| format!("{{\"line\":1,\"id\":\"{id}\",\"readings\":[{}]}}\n", reading(weight));
    let answers =
        [refused("unknown", why[0]), read("one", 1), refused("empty", why[1]), refused("long", why[2]), read("two", 2)];
    let errors = format!("{}\n3 of 5 utterances refused\n", why.join("\n"));
    for words in ["archive", "--files list"] {
        let run = run_in(&folder, &format!("batch g {words}"));
        assert_eq!(run, Run { status: 1, out: answers.concat(), err: errors.clone() }, "{words}");
    }
    for words in ["archive", "--files list"] {
        let rows = run_in(&folder, &format!("schedule g {words} --columns A"));
        let [unknown, empty, long] = why;
        let table = format!(
            "line,id,A,weight,note\r\n1,unknown,,,{unknown}\r\n1,one,x,1,\r\n1,empty,,,{empty}\r\n1,long,,,\"{long}\"\r\n1,two,x,2,\r\n"
        );
        assert_eq!(rows, Run { status: 0, out: table, err: String::new() }, "{words}");
    }
    // with what the command line says of words
    let run = run_in(&folder, "batch g archive --said x");
    assert_eq!((run.status, run.out.matches("\"error\":").count()), (1, 3), "{}", run.out);
    assert!(run.err.starts_with(&format!("{}\n{}\narchive: long: ", why[0], why[1])), "{}", run.err);
    let all = "none:3:1: refused 14: the grammar has no word `window`";
    let run = run_in(&folder, "batch g none");
    let answer = format!("{{\"line\":1,\"id\":\"none\",\"error\":\"{all}\"}}\n");
    assert_eq!(run, Run { status: 1, out: answer, err: format!("{all}\n1 of 1 utterances refused\n") });
    let one = run_in(&folder, "list g archive");
    assert_eq!(
        (one.status, one.err.as_str()),
        (1, "archive:47:1: the text has 5 utterances, and one is read here: `batch` takes many\n")
    );
}

/// Wherever a run over files was interrupted, which may have several lattices, none is answered twice or left out.
#[test]
fn an_interrupted_run_over_files_goes_on() {
    let [grammar, kaldi, slf] = ["grammar.txt", "kaldi.txt", "pocketsphinx.slf"]
        .map(|name| std::fs::read(example("formats").join(name)).expect(name));
    let list: &[u8] = b"kaldi.txt\n# and once more\nkaldi.txt\nnone\nmine\tpocketsphinx.slf\nkaldi.txt";
    let files = [("grammar.txt", &grammar[..]), ("kaldi.txt", &kaldi), ("pocketsphinx.slf", &slf), ("list", list)];
    let folder = folder("batch_files_resumed", &files);
    let whole = run_in(&folder, "batch grammar.txt --files list --scale 1").out;
    assert_eq!(whole.lines().count(), 8, "{whole}");
    let out = folder.join("out.jsonl");
    for length in (0..whole.len()).step_by(23).chain(whole.match_indices('\n').flat_map(|(at, _)| [at, at + 1])) {
        std::fs::write(&out, &whole[..length]).expect("a file");
        let run = run_in(&folder, "batch grammar.txt --files list --scale 1 --resume out.jsonl");
        assert!(run.out.is_empty() && run.status <= 1, "{run:?}");
        assert_eq!(std::fs::read_to_string(&out).as_deref().ok(), Some(&whole[..]), "after {length} bytes");
    }
}

/// What was pruned or left out stands on the page.
#[test]
fn the_page_says_what_is_missing() {
    let pruned = run_in(&recorded(), "batch grammar.txt --files /dev/stdin --scale 1 -n 1");
    assert_eq!(pruned.out, "");
    let folder = folder(
        "page_dropped",
        &[
            ("g", b"A -> A A | \"x\""),
            ("l", b"VERSION=1.0\nI=0 t=0\nI=1 t=0.5\nJ=0 S=0 E=1 W=x a=-7\nJ=1 S=0 E=1 W=um a=-1\n"),
        ],
    );
    let page = run_in(&folder, "report g l --scale 1 --drop-unknown");
    let note = "left out, for the grammar does not have them: um";
    assert_eq!((page.status, page.err.as_str()), (0, format!("l: {note}\n").as_str()));
    assert!(page.out.contains(&format!("<p class=\"left-out\">{note}.</p>")), "{}", page.out);
    assert!(page.out.contains(">0.50</text>"), "{}", page.out);
}

/// Words that are left out are said of slots and of plain word graphs too.
#[test]
fn what_is_left_out_of_slots_is_said() {
    let files: [(&str, &[u8]); 3] = [
        ("g", b"A -> A A | \"x\""),
        ("slots", b"x 1 | um 2; x 3 | ah 4\n"),
        ("graph", b"0 1 x 1\n0 1 um 2\n1 2 x 3\n"),
    ];
    let folder = folder("left_out", &files);
    for (file, words) in [("slots", "um, ah"), ("graph", "um")] {
        let note = format!("{file}: left out, for the grammar does not have them: {words}\n");
        let run = run_in(&folder, &format!("list g {file} --drop-unknown"));
        assert_eq!(run, Run { status: 0, out: "1  4  x x\n".to_owned(), err: note });
    }
}

/// Words for silence as well, which slots and plain graphs have no place for; a lattice has, and nothing is left out of it.
#[test]
fn silences_that_are_left_out_are_said() {
    let files: [(&str, &[u8]); 5] = [
        ("g", b"A -> A A | \"x\""),
        ("slots", b"x 1 | sil 2 | um 3; x 3 | <noise> 4\n"),
        ("graph", b"0 1 x 1; 0 1 sil 2; 0 1 um 3; 1 2 <noise> 4; 1 2 x 3\n"),
        ("network", b"numaligns 2\nalign 0 x 0.37 sil 0.3 um 0.2\nalign 1 x 0.05 <noise> 0.05\n"),
        (
            "l.slf",
            b"VERSION=1.0\nI=0\nI=1\nI=2\nI=3\nJ=0 S=0 E=1 W=x a=-1\nJ=1 S=1 E=2 W=sil a=0\nJ=2 S=2 E=3 W=x a=-3\n",
        ),
    ];
    let folder = folder("left_out_silences", &files);
    for (file, words) in [("slots", "sil, um, <noise>"), ("graph", "sil, um, <noise>"), ("network", "sil, um, <noise>")]
    {
        for option in ["", " --said x"] {
            let run = run_in(&folder, &format!("list g {file} -n 1 --scale 1 --drop-unknown{option}"));
            let note = format!("{file}: left out, for the grammar does not have them: {words}\n");
            assert_eq!(run, Run { status: 0, out: "1  4  x x\n".to_owned(), err: note }, "{file}{option}");
        }
    }
    let whole = Run { status: 0, out: "1  4  x x\n".to_owned(), err: String::new() };
    assert_eq!(run_in(&folder, "list g l.slf -n 1 --scale 1 --drop-unknown"), whole);
}

/// Links are counted as the file has them, whatever is left out of a plain word graph or of a lattice.
#[test]
fn links_are_those_of_the_file() {
    let files: [(&str, &[u8]); 3] = [
        ("g", b"A -> A A | \"x\""),
        ("graph", b"0 1 um 2; 0 1 x 1; 1 2 ah 4; 1 2 x 3\n"),
        ("l.slf", b"VERSION=1.0\nI=0\nI=1\nI=2\nJ=0 S=0 E=1 W=um a=-2\nJ=1 S=0 E=1 W=x a=-1\nJ=2 S=1 E=2 W=ah a=-4\nJ=3 S=1 E=2 W=x a=-3\n"),
    ];
    let folder = folder("left_out_links", &files);
    let reading = r#"{"readings":[{"rank":1,"weight":4,"words":["x","x"],"rules":[0,1,1],"edges":[0,1],"links":[1,3],"#;
    let rest = r#""tree":["A",["A","x"],["A","x"]]}],"dropped":["um","ah"]}"#;
    for file in ["graph", "l.slf"] {
        for option in ["", " --said x"] {
            let json = run_in(&folder, &format!("list g {file} -n 1 --json --scale 1 --drop-unknown{option}")).out;
            assert_eq!(json, format!("{reading}{rest}\n"), "{file}{option}");
        }
    }
}

/// They are said as well where words are known for certain or may be too many, by each command.
#[test]
fn what_is_left_out_is_said_with_other_options() {
    let files: [(&str, &[u8]); 4] = [
        ("g", b"A -> A A | \"x\""),
        ("slots", b"x 1 | um 2; x 3 | ah 4\n"),
        ("graph", b"0 1 x 1; 0 1 um 2; 1 2 x 3; 1 2 ah 4\n"),
        ("l.slf", b"VERSION=1.0\nI=0\nI=1\nI=2\nJ=0 S=0 E=1 W=x a=-1\nJ=1 S=0 E=1 W=um a=-2\nJ=2 S=1 E=2 W=x a=-3\nJ=3 S=1 E=2 W=ah a=-4\n"),
    ];
    let folder = folder("left_out_options", &files);
    let note = "left out, for the grammar does not have them: um, ah";
    for file in ["slots", "graph", "l.slf"] {
        for option in ["", "--said x", "--skip 50", "--said x --skip 50"] {
            let run = |words: &str| run_in(&folder, &format!("{words} --scale 1 --drop-unknown {option}"));
            let list = run(&format!("list g {file} -n 1"));
            assert_eq!((list.out.as_str(), list.err), ("1  4  x x\n", format!("{file}: {note}\n")), "{file} {option}");
            for words in [format!("list g {file} -n 1 --json"), format!("batch g {file} -n 1")] {
                let json = run(&words).out;
                assert!(json.ends_with("],\"dropped\":[\"um\",\"ah\"]}\n"), "{words} {option}: {json}");
            }
            let rows = run(&format!("schedule g {file} --columns A")).out;
            assert!(rows.ends_with(&format!(",x x,4,\"{note}\"\r\n")), "{file} {option}: {rows}");
        }
        let kept = run_in(&folder, &format!("list g {file} -n 1 --scale 1 --skip 50 --json"));
        assert!(kept.err.is_empty() && !kept.out.contains("dropped"), "{file}: {kept:?}");
    }
}
