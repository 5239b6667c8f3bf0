//! HTK's lattices: which word graph they are, and every mistake that one can make in them.

use spireyerba::lattice::Keep;
use spireyerba::limits::NOT_HEARD;
use spireyerba::text::{is_graph, NamedGrammar, UtteranceReader};
use spireyerba::{Edge, Error, Graph, Heard};

const GRAMMAR: &str = "A -> A A | \"x\" | \"y\" | \"z\"";

fn grammar() -> NamedGrammar {
    NamedGrammar::parse(GRAMMAR).unwrap()
}

fn read_at(scale: Option<f64>, text: &str) -> Result<Graph, Error> {
    let grammar = grammar();
    let mut reader = UtteranceReader::new(&grammar);
    (reader.scale, reader.keep) = (scale, Keep::Paths);
    assert!(is_graph(text), "{text}");
    reader.read_graph(text)
}

fn read(text: &str) -> Result<Graph, Error> {
    read_at(Some(10.0), text)
}

/// The graph with these places and edges: from, to, word, cost.
fn graph(places: u32, edges: &[(u32, u32, u32, u32)]) -> Graph {
    let edges = edges.iter().map(|&(from, to, word, cost)| Edge { from, to, word, cost }).collect();
    Graph { places, edges }
}

/// A lattice with nodes from 0 on and these links.
fn lattice(nodes: usize, links: &[&str]) -> String {
    let nodes: String = (0..nodes).map(|node| format!("I={node}\n")).collect();
    let links: String = (0..).zip(links).map(|(number, link)| format!("J={number} {link}\n")).collect();
    format!("VERSION=1.0\n{nodes}{links}")
}

#[test]
fn words_on_links_and_on_nodes() {
    let expected = graph(3, &[(0, 1, 0, 12), (0, 1, 1, 5), (1, 2, 2, 0)]);
    let on_links = "\
# a comment
VERSION=1.0
UTTERANCE=\"some file\" lmname=bigram vocab=dict tscale=0.01
N=3 L=3
I=0 t=0.00
I=1 t=0.50 v=1
I=2 t=0.90

J=0 S=0 E=1 W=x v=0 a=-1.2 l=0 n=-3 p=0.4
J=1 START=0 END=1 WORD='y' acoustic=-0.5 language=0
J=2 S=1 E=2 W=\"z\" d=:z,0.4:
";
    assert_eq!(read(on_links), Ok(expected));
    // a word ends at its node, and so x and y end at two
    let on_nodes = "\
V=1.0
NODES=4 LINKS=4
I=0 W=!NULL
I=1 W=x
I=2 WORD=y
I=3 W=z
J=0 S=0 E=1 a=-1.2
J=1 S=0 E=2 a=-0.5
J=2 S=1 E=3
J=3 S=2 E=3 l=-0.1
";
    assert_eq!(read(on_nodes), Ok(graph(4, &[(0, 1, 0, 12), (0, 2, 1, 5), (1, 3, 2, 0), (2, 3, 2, 1)])));
}

#[test]
fn scores_by_scales_penalty_and_base() {
    let of_header = |header: &str| {
        let text = format!("VERSION=1.0\n{header}\n{}", lattice(2, &["S=0 E=1 W=x a=-1 l=-2 r=-3"]));
        read(&text).map(|graph| graph.edges[0].cost)
    };
    assert_eq!(of_header(""), Ok(60));
    assert_eq!(of_header("acscale=0.5 lmscale=3 prscale=0 wdpenalty=-0.7"), Ok(72));
    assert_eq!(of_header("base=10"), Ok((60.0 * 10_f64.ln()).round() as u32));
    assert_eq!(of_header("base=10 wdpenalty=1"), Ok((50.0 * 10_f64.ln()).round() as u32));
    let likelihoods =
        "VERSION=1.0\nbase=0.0\n".to_owned() + &lattice(2, &["S=0 E=1 W=x a=0.5 l=0.25", "S=0 E=1 W=y a=0"]);
    let cost = (-10.0 * 0.125_f64.ln()).round() as u32;
    assert_eq!(read(&likelihoods), Ok(graph(2, &[(0, 1, 0, cost)])));
    // what was not heard is on no path
    let zeros = lattice(2, &["S=0 E=1 W=x a=-1e10 l=-3", "S=0 E=1 W=y a=-inf", "S=0 E=1 W=z"]);
    let expected = graph(2, &[(0, 1, 2, 0)]);
    assert_eq!(read(&zeros).as_ref(), Ok(&expected));
    // what costs nothing, or was not heard, needs no scale
    assert_eq!(read_at(None, &zeros), Ok(expected));
}

/// Of two that are alike, such as pronunciations of a word, the cheapest stays.
#[test]
fn alike_links() {
    let text = lattice(2, &["S=0 E=1 W=x v=1 a=-2", "S=0 E=1 W=y", "S=0 E=1 W=x v=2 a=-1", "S=0 E=1 W=x v=3 a=-3"]);
    assert_eq!(read(&text), Ok(graph(2, &[(0, 1, 1, 0), (0, 1, 0, 10)])));
}

/// Nodes are ordered by links first, then by time, then as they stand.
#[test]
fn nodes_in_any_order() {
    let links = ["S=7 E=3 W=x", "S=3 E=9 W=y", "S=7 E=4 W=z", "S=4 E=9 W=z", "S=4 E=3 W=x"];
    let links = lattice(0, &links);
    let [end, early, late, begin] = ["I=9", "I=4 t=0.2", "I=3 t=0.3", "I=7"];
    let expected = graph(4, &[(0, 2, 0, 0), (2, 3, 1, 0), (0, 1, 2, 0), (1, 3, 2, 0), (1, 2, 0, 0)]);
    assert_eq!(read(&format!("{links}{end}\n{early}\n{late}\n{begin}\n")).as_ref(), Ok(&expected));
    assert_eq!(read(&format!("{late}\n{begin}\n{end}\n{early}\n{links}")), Ok(expected));
    let side_by_side = "J=0 S=0 E=1 W=x\nJ=1 S=0 E=2 W=y\nJ=2 S=1 E=3 W=z\nJ=3 S=2 E=3 W=z\n";
    let of = |times: [&str; 2]| {
        let nodes = format!("I=0\nI=1 t={}\nI=2 t={}\nI=3 t=9\n", times[0], times[1]);
        read(&format!("{nodes}{side_by_side}")).map(|graph| graph.edges[0].to)
    };
    assert_eq!([of(["1", "2"]), of(["2", "1"]), of(["1", "1"])], [Ok(1), Ok(2), Ok(1)]);
}

/// Links on which nothing is said have no edges; their scores go to the word before, or at the beginning to that behind.
#[test]
fn links_without_words() {
    let between = lattice(4, &["S=0 E=1 W=x a=-1", "S=1 E=2 W=!NULL a=-0.5", "S=2 E=3 W=y"]);
    assert_eq!(read(&between), Ok(graph(3, &[(0, 1, 0, 15), (1, 2, 1, 0)])));
    let at_both_ends = lattice(5, &["S=0 E=1 W=<s> l=-1", "S=1 E=2 W=x", "S=2 E=3 W=y", "S=3 E=4 W=</s> l=-2"]);
    assert_eq!(read(&at_both_ends), Ok(graph(3, &[(0, 1, 0, 10), (1, 2, 1, 20)])));
    let marks = "I=0 W=!SENT_START\nI=1 W=x\nI=2 W=!SENT_END\nJ=0 S=0 E=1\nJ=1 S=1 E=2 a=-3\n";
    assert_eq!(read(marks), Ok(graph(2, &[(0, 1, 0, 30)])));
    let penalty = format!("wdpenalty=-1\n{}", lattice(3, &["S=0 E=1 W=x", "S=1 E=2"]));
    assert_eq!(read(&penalty), Ok(graph(2, &[(0, 1, 0, 10)])));
}

/// Past a word that need not be said go the edge before it and, at the beginning, the one behind it.
#[test]
fn words_that_need_not_be_said() {
    let middle = lattice(4, &["S=0 E=1 W=x", "S=1 E=2 W=y a=-1", "S=1 E=2 W=!NULL a=-2", "S=2 E=3 W=z"]);
    assert_eq!(read(&middle), Ok(graph(4, &[(0, 1, 0, 0), (0, 2, 0, 20), (1, 2, 1, 10), (2, 3, 2, 0)])));
    let first = lattice(3, &["S=0 E=1 W=x a=-1", "S=0 E=1 W=!NULL a=-2", "S=1 E=2 W=y"]);
    assert_eq!(read(&first), Ok(graph(3, &[(0, 1, 0, 10), (0, 2, 1, 20), (1, 2, 1, 0)])));
    let last = lattice(3, &["S=0 E=1 W=x", "S=1 E=2 W=y a=-1", "S=1 E=2 a=-2"]);
    assert_eq!(read(&last), Ok(graph(3, &[(0, 1, 0, 0), (0, 2, 0, 20), (1, 2, 1, 10)])));
    // the best way past counts, here over two links
    let ways = ["S=0 E=1 W=x", "S=1 E=3 a=-5", "S=1 E=2 a=-1", "S=2 E=3 a=-2", "S=3 E=4 W=y"];
    assert_eq!(read(&lattice(5, &ways)), Ok(graph(3, &[(0, 1, 0, 30), (1, 2, 1, 0)])));
}

#[test]
fn what_is_on_no_path_is_left_out() {
    let dead = ["S=0 E=1 W=x", "S=1 E=2 W=y", "S=1 E=3 W=z", "S=4 E=1 W=z"];
    let text = format!("start=0 end=2\n{}", lattice(5, &dead));
    assert_eq!(read(&text), Ok(graph(3, &[(0, 1, 0, 0), (1, 2, 1, 0)])));
    let grammar = grammar();
    let mut reader = UtteranceReader::new(&grammar);
    reader.drop_unknown = true;
    let unknown = lattice(4, &["S=0 E=1 W=um", "S=0 E=2 W=x", "S=1 E=3 W=y", "S=2 E=3 W=z"]);
    assert_eq!(reader.read_graph(&unknown), Ok(graph(3, &[(0, 1, 0, 0), (1, 2, 2, 0)])));
}

/// Holds what a lattice gives to a message.
fn expect(read: Result<Graph, Error>, text: &str, message: &str) {
    let error = read.map(|graph| format!("{graph:?}")).expect_err(text);
    assert_eq!(error.in_file("f").to_string(), format!("f:{message}"), "{text}");
}

#[test]
fn mistakes_in_fields() {
    for (text, message) in [
        ("VERSION=1.0 1.1\nN=2", "1:13: `1.1` where NAME=VALUE should stand"),
        ("N=two\n", "1:1: `two` is not a whole number"),
        ("N=2\nSUBLAT=inner", "2:1: a lattice within a lattice is not read"),
        ("N=2\nbase=1", "2:1: `1` is not a base of logarithms"),
        ("N=2\nbase=-2", "2:1: `-2` is not a base of logarithms"),
        ("N=2\nlmscale=high", "2:1: `high` is not a number that can stand here: it has to be finite"),
        ("N=2\nwdpenalty=-inf", "2:1: `-inf` is not a number that can stand here: it has to be finite"),
        ("I=0 t=soon", "1:5: `soon` is not a number that can stand here: it has to be finite"),
        ("I=0 L=inner", "1:5: a lattice within a lattice is not read"),
        ("I=x", "1:1: `x` is not a whole number"),
        ("I=0\nI=1\nI=0", "3:1: a node with this number stands in line 1"),
        ("I=0\nJ=0 S=0", "2:8: the line ends where E= should stand"),
        ("I=0\nJ=0", "2:4: the line ends where S= should stand"),
        ("I=0\nJ=0 S=0 E=a", "2:9: `a` is not a whole number"),
        ("J=0 S=0 E=1 W=\"x", "1:13: a quoted word has no quote at its end"),
        ("J=0 S=0 E=1 W=\\377", "1:13: `\\377` has bytes that are no characters"),
        ("J=0 S=0 E=1 a=inf", "1:13: `inf` is not a number that can stand here: it has to be finite"),
    ] {
        expect(read(text), text, message);
    }
}

#[test]
fn mistakes_in_lattices() {
    for (header, links, message) in [
        ("N=3", &["S=0 E=1 W=x"][..], "2:1: the lattice says 3 nodes and has 2: was it cut off?"),
        ("L=2", &["S=0 E=1 W=x"], "2:1: the lattice says 2 links and has 1: was it cut off?"),
        ("start=2", &["S=0 E=1 W=x"], "2:1: there is no node `2`"),
        ("end=2", &["S=0 E=1 W=x"], "2:1: there is no node `2`"),
        ("", &["S=0 E=2 W=x"], "6:9: there is no node `2`"),
        ("", &["S=0 E=1 W=um"], "6:1: refused 14: the grammar has no word `um`"),
        (
            "",
            &["S=0 E=1 W=x", "S=1 E=0 W=y"],
            "6:1: links go round in a circle, and this is one of them: a lattice has no way back",
        ),
        (
            "start=0 end=1",
            &["S=0 E=1 W=x", "S=1 E=1 W=y"],
            "7:1: links go round in a circle, and this is one of them: a lattice has no way back",
        ),
        ("start=0 end=1", &["S=0 E=1"], "6:1: refused 13: there is no word on a path to the end"),
        ("start=1 end=0", &["S=0 E=1 W=x"], "6:1: refused 13: there is no word on a path to the end"),
        (
            "base=0",
            &["S=0 E=1 W=x a=-0.5"],
            "6:17: `-0.5` is not a number that can stand here: by base=0 it is a likelihood, 0 or more",
        ),
    ] {
        let text = format!("VERSION=1.0\n{header}\n{}", lattice(2, links));
        expect(read(&text), &text, message);
    }
}

/// What no edge can hold is taken off every path alike.
#[test]
fn scores_beyond_costs() {
    let of = |links: &[&str]| {
        let grammar = grammar();
        let mut reader = UtteranceReader::new(&grammar);
        reader.scale = Some(10.0);
        let lattice = reader.read_heard(&lattice(2, links)).expect("a lattice");
        let Heard::Graph(graph) = lattice.heard else { panic!("a graph") };
        (lattice.taken_off, graph.edges.iter().map(|edge| edge.cost).collect::<Vec<_>>())
    };
    assert_eq!(of(&["S=0 E=1 W=x a=-6553.5", "S=0 E=1 W=y a=-6553.6"]), (2, vec![65_533, 65_534]));
    assert_eq!(of(&["S=0 E=1 W=x a=0.5", "S=0 E=1 W=y a=-1"]), (-5, vec![0, 15]));
}

#[test]
fn mistakes_in_starts_ends_and_words() {
    for (text, message) in [
        ("N=0 L=0".to_owned(), "1:1: refused 13: there is no node"),
        (lattice(3, &["S=0 E=2 W=x", "S=1 E=2 W=y"]), "3:1: there is no start=, and it could be node 0 or node 1"),
        (lattice(3, &["S=0 E=1 W=x", "S=0 E=2 W=y"]), "4:1: there is no end=, and it could be node 1 or node 2"),
        (
            "I=0\nI=1 W=x\nJ=0 S=0 E=1 W=y".to_owned(),
            "3:1: the link has the word `y`, and the node where it ends has `x`",
        ),
    ] {
        expect(read(&text), &text, message);
    }
    let text = lattice(2, &["S=0 E=1 W=x a=-1"]);
    expect(
        read_at(None, &text),
        &text,
        "4:1: a lattice needs a scale by which scores become costs: add --scale X, such as 100",
    );
}

#[test]
fn what_a_graph_has_no_room_for() {
    let chain = |count: usize| {
        let links: Vec<String> = (1..=count).map(|to| format!("S={} E={to} W=x", to - 1)).collect();
        lattice(count + 1, &links.iter().map(String::as_str).collect::<Vec<_>>())
    };
    assert_eq!(read(&chain(24)).map(|graph| (graph.places, graph.edges.len())), Ok((25, 24)));
    let advice = "a word graph has 25 places and 96 edges: cut the utterance in two, or give words different scores";
    let message = |line, places, edges| {
        format!(
            "{line}:1: refused 13: even what weighs the least takes {places} places and {edges} edges, and {advice}"
        )
    };
    expect(read(&chain(25)), "26 places", &message(52, 26, 25));
    // three words over each of 24 steps, and one more
    let every_word = |from: usize, to| ["x", "y", "z"].map(|word| format!("S={from} E={to} W={word}"));
    let mut links: Vec<String> = (0..24).flat_map(|from| every_word(from, from + 1)).collect();
    links.extend((0..8).flat_map(|from| every_word(from, from + 2)));
    let text = |links: &[String]| lattice(25, &links.iter().map(String::as_str).collect::<Vec<_>>());
    assert_eq!(read(&text(&links)).map(|graph| graph.edges.len()), Ok(96));
    links.push("S=9 E=11 W=x".to_owned());
    expect(read(&text(&links)), "97 edges", &message(123, 25, 97));
    // so many nodes, of which most are on no path or between links without words
    let mut silent: Vec<String> = (1..=200).map(|to| format!("S={} E={to}", to - 1)).collect();
    silent[100].push_str(" W=x");
    let silent: Vec<&str> = silent.iter().map(String::as_str).collect();
    assert_eq!(read(&lattice(201, &silent)), Ok(graph(2, &[(0, 1, 0, 0)])));
}

#[test]
fn what_is_no_lattice() {
    let grammar = NamedGrammar::parse("A -> \"I=0\" | \"J=0\" | \"=\"").unwrap();
    for text in ["I=0 3", "J=0 3 | I=0 4", "J=0 5 ; I=0 6", "= 7"] {
        assert!(!is_graph(text) && grammar.parse_utterance(text).is_ok(), "{text}");
    }
    assert!(is_graph("0 1 J=0 3") && grammar.parse_graph("0 1 J=0 3").is_ok());
}

#[test]
fn graphs_that_no_lattice_can_say() {
    let grammar = NamedGrammar::parse("A -> A A | \"x\" | \"!NULL\" | \"new york\"").unwrap();
    let text = |edges: &[(u32, u32, u32, u32)], scale| grammar.lattice_text(&graph(3, edges), scale);
    let whole = text(&[(0, 1, 0, 4), (1, 2, 2, 7)], 100.0).expect("a lattice");
    assert!(whole.ends_with("J=0 S=0 E=1 W=x a=-0.04\nJ=1 S=1 E=2 W=\"new york\" a=-0.07\n"), "{whole}");
    // what was not heard is written, and read as nothing
    let unheard = text(&[(0, 1, 0, 4), (1, 2, 0, 7), (1, 2, 2, NOT_HEARD)], 100.0).expect("a lattice");
    assert!(unheard.ends_with(" a=-1e10\n") && text(&[(0, 1, 0, 4), (1, 2, 2, NOT_HEARD)], 100.0).is_none());
    assert_eq!(text(&[(0, 1, 0, 4), (1, 2, 1, 0)], 100.0), None);
    assert_eq!(text(&[(0, 2, 0, 4)], 100.0), None);
    assert_eq!(text(&[(0, 2, 0, 4), (0, 1, 0, 4)], 100.0), None);
}
