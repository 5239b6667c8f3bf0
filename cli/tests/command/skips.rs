//! Slots that may be passed over.

use crate::common::{doors, folder, refused, run, run_in, run_with, Run};

/// What was said with a word too many in it.
const TOO_MANY: &[u8] = b"door 4; four 9; twenty 12; four 9; oak 7; glass 3; fire 10; thirty 25";

fn list(words: &str, heard: &[u8]) -> Run {
    run_with(&doors(), &format!("list grammar.txt - {words}"), heard)
}

#[test]
fn words_too_many_are_passed_over() {
    assert_eq!(list("", TOO_MANY).out, "");
    let with_skips = list("--skip 20 -n 3", TOO_MANY);
    let lines = "\
1  112  door twenty four oak fire thirty
2  113  door twenty four glass fire thirty
3  120  door four oak fire thirty
";
    assert_eq!((with_skips.status, with_skips.out.as_str()), (0, lines), "{}", with_skips.err);
    assert_eq!(with_skips.err, "");
    // the least reading without a skip is the least with them, if they are dear
    let dear = run("list grammar.txt utterance.txt -n 1 --skip 1000");
    assert_eq!(dear.out, "1  72  door twenty four oak fire thirty\n");
}

#[test]
fn the_first_and_the_last_slots_too() {
    let ends = list("--skip 20 -n 1", b"five 1; four 1; door 4; four 9; oak 7; left 3; right 3; glass 1");
    assert_eq!(ends.out, "1  118  door four oak left\n", "{}", ends.err);
    let all_but_one =
        run_in(&folder("skip_one", &[("g", b"A -> \"x\""), ("u", b"x 5; x 1; x 9")]), "list g u --skip 20");
    assert_eq!((all_but_one.out.as_str(), all_but_one.err.as_str()), ("1  41  x\n", ""));
}

#[test]
fn programs_are_told_the_slots() {
    let json = list("--skip 20 -n 1 --json", TOO_MANY).out;
    assert!(json.contains(r#""rules":[0,2,12,3,13,15,8,17,11,20,21],"slots":[0,2,3,4,6,7],"tree":["#), "{json}");
    assert!(!json.contains("edges"), "{json}");
    let rules = list("--skip 20 -n 1 --rules", TOO_MANY).out;
    assert_eq!(rules, "readings 1\n1 112 0 2 12 3 13 15 8 17 11 20 21\n");
}

#[test]
fn elsewhere_it_means_the_same() {
    let why = run("why grammar.txt utterance.txt 4 --skip 20");
    assert!(why.out.starts_with("reading 4 weighs 80, 8 more than the first\n"), "{}", why.out);
    let picked = run_with(&doors(), "pick grammar.txt utterance.txt --skip 20", b"y\n");
    assert!(picked.out.ends_with("72  door twenty four oak fire thirty\n"), "{}", picked.out);
    let page = run("report grammar.txt utterance.txt --skip 20");
    assert!(page.out.contains("A word graph of 7 places and "), "{}", page.err);
}

/// A slot whose word is known for certain is not passed over.
#[test]
fn what_is_known_is_not_passed_over() {
    let known = list("--skip 20 -n 1 --said 5=glass", TOO_MANY);
    assert_eq!(known.out, "1  113  door twenty four glass fire thirty\n", "{}", known.err);
    let both = list("--skip 20 -n 1 --said 5=glass --said 4=oak", TOO_MANY);
    assert_eq!(both.out, "1  125  door twenty four oak glass fire thirty\n", "{}", both.err);
}

/// What has no room is pruned, and up to a weight all is there.
#[test]
fn what_has_no_room_is_said() {
    let grammar = ("g", &b"A -> A A | \"x\" | \"y\" | \"z\""[..]);
    let skips = |slot: &str, slots: usize, words: &str| {
        let text = vec![slot; slots].join("\n");
        run_in(&folder("skip_limits", &[grammar, ("u", text.as_bytes())]), &format!("list g u -n 2 --skip {words}"))
    };
    let message = |kept, of, weight| {
        let limits = "a word graph has 25 places and 96 edges";
        format!("u: kept {kept} of {of} edges: every reading of weight up to {weight} is in the list ({limits})\n")
    };
    let run = skips("x 1 | y 4 | z 7", 16, "5");
    assert_eq!(run.err, message(92, 408, 25));
    assert_eq!(run.out.lines().map(|line| &line[..5]).collect::<Vec<_>>(), ["1  16", "2  16"]);
    let json = skips("x 1 | y 4 | z 7", 16, "5 --json");
    assert!(json.out.ends_with("],\"complete_up_to\":25}\n"), "{}", json.out);
    let exact = skips("x 1 | y 4 | z 7", 16, "5 --exact");
    assert_eq!(refused(exact, 1), "u: takes 408 edges and a word graph has 96: not --exact\n");
    // costs that no edge holds are taken off every weight
    let dear = skips("x 1", 3, "40000");
    assert_eq!(dear.out, "1  3  x x x\n2  3  x x x\n", "{}", dear.err);
}

/// In word graphs and lattices likewise: a link that says nothing stands beside each word.
#[test]
fn in_word_graphs_and_lattices() {
    let graph =
        b"0 1 door 4\n1 2 four 9\n2 3 twenty 12\n3 4 four 9\n4 5 oak 7\n5 6 glass 3\n6 7 fire 10\n7 8 thirty 25";
    let [slots, edges] = [TOO_MANY, graph].map(|heard| list("--skip 20 -n 8", heard));
    assert_eq!((edges.status, &edges.out), (0, &slots.out), "{}", edges.err);
    let mut lattice = String::from("VERSION=1.0\n");
    lattice.extend((0..9).map(|node| format!("I={node} t={node}\n")));
    let words = ["door -4", "four -9", "twenty -12", "four -9", "oak -7", "glass -3", "fire -10", "thirty -25"];
    for (number, (word, score)) in words.iter().filter_map(|word| word.split_once(' ')).enumerate() {
        lattice += &format!("J={number} S={number} E={} W={word} a={score}\n", number + 1);
    }
    let once = list("--skip 20 -n 8 --scale 1", lattice.as_bytes());
    assert_eq!((once.status, once.err.as_str()), (0, ""));
    let distinct = list("--skip 20 -n 8 --distinct", TOO_MANY).out.replace(" (+1 tree)", "");
    assert_eq!(once.out.split_whitespace().collect::<Vec<_>>(), distinct.split_whitespace().collect::<Vec<_>>());
    let json = list("--skip 20 -n 1 --json", graph).out;
    assert!(!json.contains("\"slots\""), "{json}");
}

/// Words that the grammar does not have are passed over and not refused, in every form.
#[test]
fn words_that_the_grammar_does_not_have() {
    let heard: [&[u8]; 4] = [
        b"door 4; um 1; four 9; oak 7 | ok 2",
        b"0 1 door 4\n1 2 um 1\n2 3 four 9\n3 4 oak 7\n3 4 ok 2",
        b"VERSION=1.0\nI=0\nI=1\nI=2\nI=3\nI=4\nJ=0 S=0 E=1 W=door a=-4\nJ=1 S=1 E=2 W=um a=-1\nJ=2 S=2 E=3 W=four a=-9\nJ=3 S=3 E=4 W=oak a=-7\n",
        b"numaligns 4\nposterior 1\nalign 0 door 0.018315638888734\nalign 1 um 0.5\nalign 2 four 0.00012340980408668\nalign 3 oak 0.000911881965554516\n",
    ];
    for text in heard {
        let skipped = list("--skip 20 -n 1 --scale 1", text);
        assert_eq!((skipped.status, skipped.out.as_str()), (0, "1  75  door four oak\n"), "{}", skipped.err);
        let refused = list("--scale 1", text);
        assert!(refused.status == 1 && refused.err.contains("the grammar has no word `um`"), "{}", refused.err);
    }
    // a word that was not heard is not there to be said, but the place may be passed over
    let unheard = list("--skip 20 -n 2", b"0 1 door 4\n1 2 um 1\n2 3 four 65535\n2 3 five 9\n3 4 oak 7");
    assert!(unheard.status == 0 && !unheard.out.contains("four"), "{unheard:?}");
    let nothing = list("--skip 20", b"um 4; er 2");
    assert_eq!(refused(nothing, 1), "<stdin>: no path has a word of the grammar\n");
}

#[test]
fn a_slot_has_any_number_of_words() {
    let words: Vec<String> = (0..5).map(|word| format!("A -> \"w{word}\"\n")).collect();
    let slot: Vec<String> = (0..5).map(|word| format!("w{word} {word}")).collect();
    let text = vec![slot.join(" | "); 20].join("\n");
    let folder = folder("skip_full", &[("g", words.concat().as_bytes()), ("u", text.as_bytes())]);
    let full = run_in(&folder, "list g u --skip 5 -n 1");
    assert!(full.status == 0 && full.err.starts_with("u: kept "), "{full:?}");
    let nothing = run_with(&doors(), "list grammar.txt - --skip 5 --rules", b"door 65535; four 65535");
    assert_eq!((nothing.status, nothing.out.as_str()), (0, "readings 0\n"));
}

/// Each line of a batch, and each row of a schedule, is changed as a single utterance is.
#[test]
fn in_batches_and_schedules() {
    let lines = [TOO_MANY, b"door 4; um 1; four 9; oak 7; left 3", b"door 4; four 9; glass 3; left 3"];
    let input = lines.join(&b'\n');
    let answers = run_with(&doors(), "batch grammar.txt - --skip 20 -n 2", &input);
    assert_eq!((answers.status, answers.err.as_str()), (0, ""));
    for (answer, line) in answers.out.lines().zip(lines) {
        let list = list("--skip 20 -n 2 --json", line).out;
        let front = |json: &str| {
            json.split(",\"tree\"").next().and_then(|front| front.split("\"readings\"").nth(1)).map(str::to_owned)
        };
        let own = front(&list).expect("readings");
        assert!(answer.contains(&own) && own.contains("\"slots\":["), "{answer}\n{list}");
    }
    let said = run_with(&doors(), "batch grammar.txt - --said oak -n 1", &input);
    assert_eq!(said.out.lines().filter(|answer| answer.contains("\"readings\"")).count(), 1, "{}", said.out);
    assert!(said.err.contains("<stdin>:3: --said oak: no path has it"), "{}", said.err);
    assert!(said.err.contains("<stdin>:2:9: refused 14: the grammar has no word `um`"), "{}", said.err);
    let struck = run_with(&doors(), "batch grammar.txt - --said 2=glass -n 1", &input);
    let not_offered = "<stdin>:1: --said 2=glass: slot 2 does not offer it, but twenty 12";
    assert!(struck.out.lines().count() == 3 && struck.err.contains(not_offered), "{}", struck.err);
    let rows = run_with(&doors(), "schedule grammar.txt - --skip 20 --columns Number,Leaf", &input);
    assert!(rows.out.lines().count() == 4 && rows.out.contains(",oak,112,"), "{}", rows.out);
    let green = refused(run_with(&doors(), "batch grammar.txt - --said green", &input), 1);
    let all = "twenty, forty, four, five, door, oak, glass, steel, fire, thirty, sixty, left, and 1 more";
    assert_eq!(green, format!("--said green: the grammar has no such word: give one of {all}\n"));
}
