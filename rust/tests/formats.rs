//! What recognisers write: an example of each format, what it says, and how formats are told apart.

use spireyerba::lattice::{Keep, Pruned};
use spireyerba::text::{binary_kind, Format, Lattice, NamedGrammar, Unread, UtteranceReader};
use spireyerba::{Edge, Error, Graph, Heard};
use std::path::Path;

const SCALE: f64 = 100.0;

fn example(name: &str) -> String {
    let path = Path::new(env!("CARGO_MANIFEST_DIR")).join("../examples/formats").join(name);
    std::fs::read_to_string(&path).unwrap_or_else(|error| panic!("{}: {error}", path.display()))
}

fn grammar() -> NamedGrammar {
    NamedGrammar::parse(&example("grammar.txt")).expect("the examples' grammar")
}

fn read_all(text: &str) -> Result<Vec<Lattice>, Error> {
    let grammar = grammar();
    let mut reader = UtteranceReader::new(&grammar);
    reader.scale = Some(SCALE);
    reader.read_all_heard(text)?.into_iter().map(|read| read.map_err(|unread| *unread.error)).collect()
}

/// The weights and words of the first readings, and what all weights are less than in the text.
fn readings(lattice: &Lattice) -> Vec<(i64, String)> {
    let grammar = grammar();
    let list = grammar.grammar.list(&lattice.heard, 8).expect("a block");
    list.iter().map(|reading| (i64::from(reading.weight) + lattice.taken_off, grammar.sentence(reading))).collect()
}

/// Holds the readings of an example to what they should be.
fn expect(name: &str, format: Format, expected: &[(i64, &str)]) {
    let text = example(name);
    assert_eq!(Format::of(&text), format, "{name}");
    let lattices = read_all(&text).unwrap_or_else(|error| panic!("{name}: {error}"));
    let found = readings(&lattices[0]);
    let found: Vec<(i64, &str)> = found.iter().map(|(weight, words)| (*weight, words.as_str())).collect();
    assert_eq!(found, expected, "{name}");
}

/// The cost of a likelihood.
fn of(share: f64) -> i64 {
    (-SCALE * share.ln()).round() as i64
}

#[test]
fn acceptors_and_transducers_of_openfst() {
    expect(
        "openfst.txt",
        Format::OpenFst,
        &[(225, "door twenty four"), (248, "door twenty"), (360, "door forty"), (375, "door forty four")],
    );
    expect(
        "openfst_transducer.txt",
        Format::OpenFst,
        &[(225, "door twenty four"), (235, "door twenty"), (350, "door forty four"), (360, "door forty")],
    );
}

#[test]
fn lattices_of_kaldi() {
    let graph_and_acoustic = [(4_983, "door twenty four"), (5_045, "door forty four")];
    expect("kaldi.txt", Format::Kaldi, &graph_and_acoustic);
    expect("kaldi_state_level.txt", Format::Kaldi, &[(3_993, "door twenty"), (4_005, "door forty")]);
    let two = read_all(&example("kaldi.txt")).expect("two lattices");
    assert_eq!(
        two.iter().map(|lattice| lattice.id.as_deref()).collect::<Vec<_>>(),
        [Some("house-0017"), Some("house-0018")]
    );
    assert_eq!(readings(&two[1]), [(2_705, "door four".to_owned())]);
    // frames are times
    let times = two[1].times.as_deref().expect("times");
    assert!(times.iter().zip([0.0, 0.03, 0.06]).all(|(found, time)| (found - time).abs() < 1e-9), "{times:?}");
    let grammar = grammar();
    let without_scale = UtteranceReader::new(&grammar);
    let message = without_scale.read_all_heard(&example("kaldi.txt")).map_err(|error| error.to_string());
    assert!(message.is_err_and(|message| message.contains("a scale")));
    let mut reader = UtteranceReader::new(&grammar);
    reader.scale = Some(1.0);
    let message = reader.read_heard(&example("kaldi.txt")).unwrap_err().to_string();
    assert!(message.ends_with("the text has 2 utterances, and one is read here: `batch` takes many"), "{message}");
}

/// The names of what a text has, each with the reason if it cannot be read.
fn names(text: &str, format: Format) -> Vec<(String, Option<String>)> {
    let grammar = grammar();
    let mut reader = UtteranceReader::new(&grammar);
    reader.format = Some(format);
    let all = reader.read_all_heard(text).expect("some can be read");
    let name = |id: Option<String>| id.expect("a name");
    let one = |read: Result<Lattice, Unread>| match read {
        Ok(lattice) => (name(lattice.id), None),
        Err(Unread { id, error }) => (name(id), Some(error.to_string())),
    };
    all.into_iter().map(one).collect()
}

/// Why 30 words in a row are refused whose text ends in line 55.
const LONG: &str =
    "55:1: refused 13: even what weighs the least takes 31 places and 30 edges, and a word graph has 25 places and 96 \
                    edges: cut the utterance in two, or give words different scores";

/// Of several each that cannot be read has its name and the reason, and the others are read.
#[test]
fn some_of_several_cannot_be_read() {
    let expected = |all: &[(&str, &str)]| -> Vec<(String, Option<String>)> {
        let reason = |reason: &str| Some(format!("text:{reason}")).filter(|_| !reason.is_empty());
        all.iter().map(|(name, why)| ((*name).to_owned(), reason(why))).collect()
    };
    let long: String = (0..30).map(|state| format!("{state} {} door 0\n", state + 1)).collect();
    let archive = format!(
        "unknown\n0 1 door 1,2,\n1 2 window 1,2,\n2\n\nempty\n\none\n0 1 door 0\n1 2 four 0\n2\n\n\
         number\n0 1 door x,y\n1 2 four 0\n2\n\ncircle\n0 1 door 0\n1 0 four 0\n1\n\n\
         long\n{long}30\n\nsilent\n0 1 <eps> 0\n1\n\ntwo\n0 1 door 0\n1 2 forty 0\n2\n"
    );
    let all = [
        ("unknown", "3:1: refused 14: the grammar has no word `window`"),
        ("empty", "7:1: refused 13: there is no arc"),
        ("one", ""),
        ("number", "14:10: `x` is not a number that can stand here: it has to be finite"),
        ("circle", "20:1: links go round in a circle, and this is one of them: a lattice has no way back"),
        ("long", LONG),
        ("silent", "59:1: refused 13: there is no word on a path to the end"),
        ("two", ""),
    ];
    assert_eq!(names(&archive, Format::Kaldi), expected(&all));
    let words = "a 1 0 1 door\na 1 1 1 four\nb 1 0 1 door\nb 1 1 1 window\nc 1 0 x door\nc 1 1\nd 1 0 1\ne 1 0 1 door\ne 1 1 1 forty\n";
    let all = [
        ("a 1", ""),
        ("b 1", "4:9: refused 14: the grammar has no word `window`"),
        ("c 1", "5:7: `x` is not a number that can stand here: it has to be finite"),
        ("d 1", "7:8: the line ends where file, channel, beginning, duration and word should stand"),
        ("e 1", ""),
    ];
    assert_eq!(names(words, Format::Ctm), expected(&all));
}

/// What is said of a lattice that was pruned, also where not every beam was tried.
#[test]
fn what_was_pruned_is_said() {
    let graph = Graph { places: 2, edges: vec![Edge { from: 0, to: 1, word: 0, cost: 3 }] };
    let notes = |untried| {
        let pruned = Some(Pruned { kept: 90, of: 200, complete_up_to: 7, untried });
        Lattice { pruned, ..Lattice::from(Heard::Graph(graph.clone())) }.notes()
    };
    let kept = "kept 90 of 200 edges: every reading of weight up to 7 is in the list (a word graph has 25 places and 96 edges)";
    assert_eq!(notes(0), [kept]);
    let untried = "; more may fit, but 3 wider beams were not tried, since that takes too long";
    assert_eq!(notes(3), [format!("{kept}{untried}")]);
}

#[test]
fn networks_with_silence() {
    let four = of(0.96) + of(0.55);
    let none = of(0.96) + of(0.45);
    let expected = [
        (four + of(0.7), "door twenty four"),
        (none + of(0.7) + 10, "door twenty"),
        (four + of(0.28), "door forty four"),
        (none + of(0.28) + 10, "door forty"),
        (four + of(0.02) + 5, "door four"),
    ];
    expect("network.txt", Format::Network, &expected);
    let grammar = grammar();
    let mut reader = UtteranceReader::new(&grammar);
    (reader.scale, reader.drop_deletes) = (Some(SCALE), true);
    let slots = reader.read_heard(&example("network.txt")).expect("slots");
    assert!(matches!(slots.heard, Heard::Slots(_)));
}

#[test]
fn lists_of_sentences() {
    let kept = [(183_250, "door twenty four"), (183_375, "door forty four"), (184_035, "door twenty")];
    expect("nbest.txt", Format::NBest, &kept);
    let log10 = |score: f64| (-SCALE * score * 10_f64.ln()).round() as i64;
    let srilm =
        [(log10(-805.0), "door twenty four"), (log10(-805.6), "door forty four"), (log10(-806.5) + 10, "door twenty")];
    expect("nbest_srilm.txt", Format::NBest, &srilm);
    let bytelog = |score: f64| (-SCALE * score * 1_024.0 / 10_000.5).round() as i64 + 10;
    expect(
        "nbest_decipher.txt",
        Format::NBest,
        &[(bytelog(-18_240.0), "door twenty"), (bytelog(-18_296.0), "door forty")],
    );
    expect("nbest_kaldi.txt", Format::NBest, &[(0, "door twenty four"), (0, "door forty four"), (10, "door twenty")]);
    // the best comes first, so what rises are costs
    let costs = read_all("12.5 door four\n13.5 door twenty\n").expect("costs");
    assert_eq!(readings(&costs[0]), [(1_255, "door four".to_owned()), (1_360, "door twenty".to_owned())]);
}

#[test]
fn time_marked_words() {
    let [twenty, forty] = [of(0.96) + of(0.71) + of(0.55), of(0.96) + of(0.28) + of(0.55)];
    expect("words.ctm", Format::Ctm, &[(twenty, "door twenty four"), (forty, "door forty four")]);
    let lattice = &read_all(&example("words.ctm")).expect("words")[0];
    assert_eq!(lattice.id.as_deref(), Some("house-0017 A"));
}

#[test]
fn json_of_recognisers() {
    expect("vosk.json", Format::Json, &[(-21_556, "door twenty"), (-21_381, "door forty")]);
    expect("vosk_words.json", Format::Json, &[(of(0.96) + of(0.71) + 10, "door twenty")]);
    let aws = [(of(0.96) + of(0.71) + 10, "door twenty"), (of(0.96) + of(0.28) + 10, "door forty")];
    expect("aws_transcribe.json", Format::Json, &aws);
    let google = [(of(0.71) + of(0.55), "door twenty four"), (of(0.71) + of(0.55), "door forty four")];
    expect("google.json", Format::Json, &google);
    expect("azure.json", Format::Json, &[(of(0.71) + 10, "door twenty"), (of(0.28) + 10, "door forty")]);
    let name = read_all(&example("aws_transcribe.json")).expect("a job")[0].id.clone();
    assert_eq!(name.as_deref(), Some("house-0017"));
}

#[test]
fn habits_of_slf() {
    let sphinx = [(29_675 + 10, "door twenty"), (29_750 + 10, "door forty")];
    expect("pocketsphinx.slf", Format::Slf, &sphinx);
    let posteriors = [of(0.96) + of(0.71) + of(0.55), of(0.96) + of(0.28) + of(0.55)];
    expect("posteriors.slf", Format::Slf, &[(posteriors[0], "door twenty four"), (posteriors[1], "door forty four")]);
    let lattice = &read_all(&example("posteriors.slf")).expect("a lattice")[0];
    assert_eq!(lattice.id.as_deref(), Some("house-0017"));
    assert_eq!(lattice.times.as_deref(), Some(&[0.0, 0.31, 0.74, 1.04][..]));
    assert_eq!(lattice.sources, [0, 1, 2, 3]);
}

/// Plain word graphs stay as they are, whatever could be done with them.
#[test]
fn plain_word_graphs() {
    let text = "0 1 door 4\n0 2 door 9\n1 3 four 0\n2 3 four 0\n3\n";
    assert_eq!(Format::of(text), Format::Graph);
    let Heard::Graph(graph) = &read_all(text).expect("a graph")[0].heard else { panic!("a graph") };
    assert_eq!((graph.places, graph.edges.len(), graph.edges[1].cost), (4, 4, 9));
    // any other numbering is OpenFst's
    for other in ["7 3 door 4\n3 9 four 1\n9\n", "0 30 door 4\n30 31 four 1\n", "0 1 door 4\n0 1 door 5\n1 2 four 1\n"]
    {
        let lattice = &read_all(other).expect(other)[0];
        assert_eq!(readings(lattice), [(505, "door four".to_owned())], "{other}");
    }
    let grammar = grammar();
    let mut reader = UtteranceReader::new(&grammar);
    assert_eq!(reader.read_heard("7 3 door 4\n3 9 four 1\n9\n").map(|lattice| lattice.taken_off), Ok(0));
    reader.format = Some(Format::Graph);
    let message = reader.read_heard("7 3 door 4\n3 9 four 1\n9\n").unwrap_err().to_string();
    assert!(message.contains("an edge ends above where it starts"), "{message}");
}

#[test]
fn slots_of_more_than_seven_words() {
    let words: Vec<String> = (0..9).map(|word| format!("\"w{word}\"")).collect();
    let grammar = NamedGrammar::parse(&format!("A -> A A | {}", words.join(" | "))).expect("nine words");
    let slot: Vec<String> = (0..9).map(|word| format!("w{word} {}", 10 * word)).collect();
    let slot = slot.join(" | ");
    let mut reader = UtteranceReader::new(&grammar);
    let lattice = reader.read_heard(&format!("{slot}\n{slot}\n")).expect("18 edges");
    let Heard::Graph(graph) = &lattice.heard else { panic!("a graph") };
    assert_eq!((graph.places, graph.edges.len(), lattice.pruned), (3, 18, None));
    let many = format!("{slot}\n").repeat(12);
    let pruned = reader.read_heard(&many).expect("the cheapest words");
    assert_eq!(pruned.notes().len(), 1);
    assert!(
        pruned.notes()[0].starts_with("kept 96 of 108 edges: every reading of weight up to 79 is in the list"),
        "{:?}",
        pruned.notes()
    );
    reader.exact = true;
    let message = reader.read_heard(&many).unwrap_err().to_string();
    assert!(message.contains("the lattice takes 108 edges"), "{message}");
}

#[test]
fn what_is_no_text() {
    let kinds: [(&[u8], &str); 4] = [
        (&[0x1f, 0x8b, 8], "gzip -dc"),
        (&[0xd6, 0xfd, 0xb2, 0x7e, 6, 0, 0, 0], "fstprint"),
        (b"house-0017 \0B\x01", "lattice-copy"),
        (b"\0Bx", "lattice-copy"),
    ];
    for (bytes, command) in kinds {
        assert!(binary_kind(bytes).is_some_and(|kind| kind.contains(command)), "{command}");
    }
    assert_eq!(binary_kind(b"0 1 door 4"), None);
}

#[test]
fn paths_and_words_that_are_left_out() {
    let grammar = grammar();
    let text = "0 1 door 0.5\n0 2 door 0.75\n1 3 four 1\n2 3 four 1\n2 3 um 0.5\n2 3 er 0.5\n3 0.25\n";
    let mut reader = UtteranceReader::new(&grammar);
    (reader.scale, reader.drop_unknown) = (Some(SCALE), true);
    let lattice = reader.read_heard(text).expect("a lattice");
    assert_eq!(lattice.notes(), ["left out, for the grammar does not have them: um, er"]);
    let edges = |lattice: &Lattice| match &lattice.heard {
        Heard::Graph(graph) => graph.edges.len(),
        Heard::Slots(_) => 0,
    };
    reader.keep = Keep::Paths;
    assert_eq!((edges(&lattice), edges(&reader.read_heard(text).expect("paths"))), (2, 4));
}

#[test]
fn mistakes() {
    for (text, message) in [
        ("0 1 door 0.5\n1 0 four nan\n", "2:10: `nan` is not a number that can stand here: it has to be finite"),
        ("0 1 door 0.5\n1 2 four -inf\n2\n", "2:10: `-inf` is not a number that can stand here: it has to be finite"),
        ("0 1 door 0.5\n1 2 four 1e30\n2\n", "2:1: refused 42: `1000000000000000000000000000000` gives a cost that passes 65534: a smaller scale is needed"),
        ("0 1 door 0.5\n1 2 four\n2 1 four\n2\n", "2:1: links go round in a circle, and this is one of them: a lattice has no way back"),
        ("0 1 door 0.5\n1 2 um 1\n2\n", "2:1: refused 14: the grammar has no word `um`"),
        ("u\n0 1 door 3,4\n1 2 four 1 2 3\n2\n", "3:14: `3` where the end of the line should stand"),
        ("u\n0 1 door 3,x,\n", "2:10: `x` is not a number that can stand here: it has to be finite"),
        ("-1.5 door four\n-1e999 door\n", "2:1: `-1e999` is not a number that can stand here: it has to be finite"),
        ("-1 -2 4 door four\n", "1:7: the sentence says 4 words and has 2: was it cut off?"),
        ("a A 0 1 door 1.5\n", "1:14: `1.5` is not a likelihood from 0 to 1"),
        ("a A * * <ALT_BEGIN>\na A 0 1 door 1\n", "2:1: the line ends where <ALT_END> should stand"),
        ("a A * * <ALT_END>\na A 0 1 door 1\n", "1:9: `<ALT_END>` where <ALT_BEGIN> or a word should stand"),
        ("{\"hypotheses\": []}", "1:1: JSON, but not in a form of Vosk (text, result, alternatives), AWS Transcribe (results.items), Google (results) or Azure (NBest)"),
        ("{\"NBest\": [{\"Confidence\": 1.5, \"Lexical\": \"door\"}, {\"Confidence\": 0.5}]}", "1:52: the line ends where a transcript should stand"),
        ("{\"results\": [{\"alternatives\": [", "1:32: the line ends where a value should stand"),
        ("VERSION=1.0\nI=0\nI=1\nJ=0 S=0 E=1 W=door p=1.5\n", "4:20: `1.5` is not a likelihood from 0 to 1"),
    ] {
        let error = read_all(text).expect_err(text).in_file("f").to_string();
        assert_eq!(error, format!("f:{message}"), "{text}");
    }
}
