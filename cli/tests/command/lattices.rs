//! HTK's lattices where word graphs stand, over the door schedule as a lattice.

use crate::common::{answer_graph, answer_in, answer_with, doors_graph, folder, refused, run_in, run_with};

#[test]
fn a_lattice_is_a_word_graph() {
    for form in ["", "--tree", "--rules"] {
        let words = |file: &str| format!("list grammar.txt {file} {form}");
        let lattice = answer_graph(&words("lattice.slf --scale 100 --paths"));
        assert_eq!(lattice, answer_graph(&words("graph.txt")), "{form}");
    }
    let why = "why grammar.txt lattice.slf 4 --scale 100 --paths";
    assert_eq!(answer_graph(why), answer_graph("why grammar.txt graph.txt 4"));
    // one of the graph's 14 edges was not heard
    let page = answer_graph("report grammar.txt lattice.slf --scale 100 --paths");
    assert!(page.contains("A word graph of 7 places and 13 edges."));
    let reading = b"80 0 2 12 5 8 17 11 20 21 | 0 3 7 8 11";
    let check = answer_with(&doors_graph(), "check grammar.txt lattice.slf - --scale 100 --paths", reading);
    assert_eq!(check, "passes: 80  door forty oak fire thirty\n");
}

/// Unless every path is asked for, each sentence of a lattice has one, and the readings are the same.
#[test]
fn each_sentence_of_a_lattice_has_one_path() {
    let weights = |options: &str| {
        let list = answer_graph(&format!("list grammar.txt lattice.slf --scale 100 -n 256 --distinct {options}"));
        let line = |line: &str| {
            let mut items = line.split_whitespace();
            (
                items.nth(1).map(str::to_owned),
                items.take_while(|item| !item.starts_with('(')).collect::<Vec<_>>().join(" "),
            )
        };
        list.lines().map(line).collect::<std::collections::BTreeSet<_>>()
    };
    assert!(weights("").len() > 10);
    assert_eq!(weights(""), weights("--paths"));
}

#[test]
fn to_a_block_and_back() {
    let packed = folder("packed_lattice", &[]).join("block").display().to_string();
    answer_graph(&format!("pack grammar.txt lattice.slf --scale 100 --paths -o {packed}"));
    let whole = answer_graph("unpack grammar.txt utterance.bin");
    let heard: String =
        whole.lines().filter(|line| !line.ends_with(" 65535")).map(|line| format!("{line}\n")).collect();
    assert!(heard.len() < whole.len());
    assert_eq!(answer_graph(&format!("unpack grammar.txt {packed}")), heard);
    let lattice = answer_graph("unpack grammar.txt utterance.bin --lattice --scale 100");
    let begin = "VERSION=1.0\nstart=0 end=6\nN=7 L=14\nI=0\n";
    assert!(lattice.starts_with(begin) && lattice.ends_with("J=13 S=5 E=6 W=sixty a=-0.33\n"), "{lattice}");
    assert!(lattice.contains("J=8 S=3 E=4 W=steel a=-1e10\n"), "{lattice}");
    let back = answer_with(&doors_graph(), "unpack grammar.txt - --scale 100 --paths", lattice.as_bytes());
    assert_eq!(back, heard);
}

#[test]
fn what_cannot_be_written_as_a_lattice() {
    let dead = run_with(&doors_graph(), "unpack grammar.txt - --lattice --scale 100", b"0 1 door 4\n3");
    let why = "no lattice can say this: an edge is on no path, or a cost is too great beside --scale";
    assert_eq!(refused(dead, 1), format!("-: {why}\n"));
    let slots = refused(run_in(&doors_graph(), "unpack grammar.txt ../doors/utterance.txt --lattice --scale 100"), 1);
    assert_eq!(slots, "../doors/utterance.txt: --lattice: slots are no word graph\n");
}

const SILENT: &[u8] = b"I=0\nI=1\nI=2\nI=3\nJ=0 S=0 E=1 W=x a=-1\nJ=1 S=1 E=2 W=um a=-0.5\nJ=2 S=2 E=3 W=x\n";

#[test]
fn words_that_nobody_says() {
    let folder = folder("lattice_silence", &[("g", b"A -> A A | \"x\""), ("l", SILENT)]);
    let unknown = refused(run_in(&folder, "list g l --scale 10"), 1);
    assert_eq!(unknown, "l:6:1: refused 14: the grammar has no word `um`\n");
    let list = answer_in(&folder, "list g l --scale 10 --empty um");
    assert_eq!(list, "1  15  x x\n");
    let left_out = refused(run_in(&folder, "list g l --scale 10 --drop-unknown"), 1);
    assert_eq!(left_out, "l:7:1: refused 13: there is no word on a path to the end\n");
    let silence = String::from_utf8_lossy(SILENT).replace("um", "<sil>");
    let list = answer_with(&folder, "list g - --scale 10", silence.as_bytes());
    assert_eq!(list, "1  15  x x\n");
}

/// What is pruned is said, on standard error and in JSON, or refused; and so is what is left out.
#[test]
fn what_does_not_fit() {
    let words: Vec<String> = (0..9).map(|word| format!("\"w{word}\"")).collect();
    let grammar = format!("A -> A A | {}", words.join(" | "));
    let slot: Vec<String> = (0..9).map(|word| format!("w{word} {}", 10 * word)).collect();
    let text = format!("{}\n", slot.join(" | ")).repeat(12);
    let folder = folder("lattice_pruned", &[("g", grammar.as_bytes()), ("u", text.as_bytes())]);
    let pruned = run_in(&folder, "list g u -n 1 --json");
    assert_eq!(pruned.status, 0);
    let limits = "a word graph has 25 places and 96 edges";
    let note = format!("u: kept 96 of 108 edges: every reading of weight up to 79 is in the list ({limits})\n");
    assert_eq!(pruned.err, note);
    assert!(pruned.out.contains("\"complete_up_to\":79"), "{}", pruned.out);
    let exact = refused(run_in(&folder, "list g u --exact"), 1);
    assert!(exact.starts_with("u:12:1: refused 13: the lattice takes 108 edges, and a word graph has"), "{exact}");
}

#[test]
fn formats_by_name_and_files_that_are_no_text() {
    let files: [(&str, &[u8]); 4] = [
        ("g", b"A -> A A | \"x\" | \"7\""),
        ("sentences", b"-1.5 x x\n-2 x\n"),
        ("packed", &[0x1f, 0x8b, 8, 0]),
        ("fst", &[0xd6, 0xfd, 0xb2, 0x7e, 6]),
    ];
    let folder = folder("lattice_formats", &files);
    assert_eq!(answer_in(&folder, "list g sentences --scale 10"), "1  15  x x\n2  20  x\n");
    assert_eq!(answer_in(&folder, "list g sentences --scale 10 --format nbest"), "1  15  x x\n2  20  x\n");
    let slots = refused(run_in(&folder, "list g sentences --scale 10 --format slots"), 1);
    assert_eq!(slots, "sentences:1:1: refused 14: the grammar has no word `-1.5`\n");
    let unknown = refused(run_in(&folder, "list g sentences --format lattice"), 2);
    assert!(unknown.contains("--format: `lattice` is none of slots, graph, slf, openfst"), "{unknown}");
    let packed = refused(run_in(&folder, "list g packed"), 1);
    assert_eq!(packed, "packed: a gzip file; `gzip -dc packed` prints what is in it\n");
    let fst = refused(run_in(&folder, "list g fst"), 1);
    assert!(fst.starts_with("fst: a binary FST of OpenFst; `fstprint"), "{fst}");
}

#[test]
fn mistakes() {
    let files: [(&str, &[u8]); 6] = [
        ("g", b"A -> A A | \"x\""),
        ("scores", b"VERSION=1.0\nI=0\nI=1\nJ=0 S=0 E=1 W=x a=-700\n"),
        ("count", b"N=2 L=2\nI=0\nI=1\nJ=0 S=0 E=1 W=x\n"),
        ("node", b"N=2 L=1\nI=0\nI=1\nJ=0 S=0 E=5 W=x\n"),
        ("circle", b"start=0 end=1\nI=0\nI=1\nJ=0 S=0 E=1 W=x\nJ=1 S=1 E=0 W=x\n"),
        ("empty", b"N=0 L=0\n"),
    ];
    let folder = folder("lattice_mistakes", &files);
    for (words, message) in [
        ("scores", "scores:4:1: a lattice needs a scale by which scores become costs: add --scale X, such as 100"),
        ("count", "count:1:5: the lattice says 2 links and has 1: was it cut off?"),
        ("node", "node:4:9: there is no node `5`"),
        ("circle", "circle:5:1: links go round in a circle, and this is one of them: a lattice has no way back"),
        ("empty", "empty:1:1: refused 13: there is no node"),
    ] {
        assert_eq!(refused(run_in(&folder, &format!("list g {words}")), 1), format!("{message}\n"), "{words}");
    }
    assert_eq!(answer_in(&folder, "list g scores --scale 1"), "1  700  x\n");
}
