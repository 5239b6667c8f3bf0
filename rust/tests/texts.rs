//! The texts: what they mean, and every mistake that one can make in them.

use spireyerba::limits::{
    MAX_CANDIDATES, MAX_EDGES, MAX_PLACES, MAX_RULES, MAX_SLOTS, MAX_SYMBOLS, MAX_WORDS, NOT_HEARD,
};
use spireyerba::text::{is_graph, parse_reading, parse_sheet, NamedGrammar, UtteranceReader};
use spireyerba::{
    Body, Candidate, Edge, Error, Grammar, Graph, Item, Office, OfficeRule, Reading, Refusal, Rule, Utterance,
};

const GRAMMAR: &str = "A -> B B [3] | \"x\"\n\n# two more rules\nB -> \"y\" [4] # the last";

fn grammar() -> NamedGrammar {
    NamedGrammar::parse(GRAMMAR).unwrap()
}

#[test]
fn a_grammar_with_names() {
    let rule = |head, weight, body| Rule { head, weight, body };
    let rules = vec![rule(0, 3, Body::Pair(1, 1)), rule(0, 0, Body::Word(0)), rule(1, 4, Body::Word(1))];
    let names = |names: [&str; 2]| names.map(str::to_owned).to_vec();
    let expected = NamedGrammar::new(Grammar { symbols: 2, words: 2, rules }, names(["A", "B"]), names(["x", "y"]));
    assert_eq!(grammar(), expected);
    let spaced = "\u{feff}A->B B[3]\r\n  | \"x\" [0]\r\nB -> \"y\" [4]";
    assert_eq!(NamedGrammar::parse(spaced).as_ref(), Ok(&expected));
    assert_eq!(expected.to_text(), "A -> B B [3]\nA -> \"x\"\nB -> \"y\" [4]\n");
}

#[test]
fn lists_give_other_numbers() {
    let text = "symbols S B A\nwords \"z\" \"y\"\nA -> B B\nB -> \"x\" | \"y\"\n";
    let named = NamedGrammar::parse(text).unwrap();
    assert_eq!((named.symbols.join(" "), named.words.join(" ")), ("S B A".into(), "z y x".into()));
    assert_eq!(named.grammar.rules[0].body, Body::Pair(1, 1));
    assert_eq!(NamedGrammar::parse(&named.to_text()), Ok(named));
    let symbols = NamedGrammar::parse("symbols -> words words\nwords -> \"w\"").unwrap();
    assert_eq!(symbols.symbols, ["symbols", "words"]);
}

/// Bodies of up to six items become what the library makes of them, and their text is what was written.
#[test]
fn a_grammar_of_an_office() {
    let named = NamedGrammar::parse("A -> \"x\" B \"y\" [3] | B B\nB -> \"y\"\n").unwrap();
    let (word, symbol) = (Item::Word, Item::Symbol);
    let rule = |head, weight, items: &[Item]| OfficeRule { head, weight, items: items.to_vec() };
    let rules =
        vec![rule(0, 3, &[word(0), symbol(1), word(1)]), rule(0, 0, &[symbol(1), symbol(1)]), rule(1, 0, &[word(1)])];
    let office = Office { symbols: 2, words: 2, rules };
    assert_eq!(named.office(), Some(&office));
    let marked = office.to_grammar().unwrap();
    assert_eq!((&named.grammar, named.marks()), (&marked.grammar, Some(&marked.marks[..])));
    assert_eq!(named.symbols, ["A", "B", "\"x\"", "\"y\"", "B \"y\""]);
    assert_eq!(named.to_text(), "A -> \"x\" B \"y\" [3]\nA -> B B\nB -> \"y\"\n");
    assert_eq!(NamedGrammar::parse(&named.to_text()), Ok(named));
}

/// A line says that rules in normal form are an office's, and words in brackets mark rules one by one.
#[test]
fn a_grammar_with_marks() {
    let plain = "A -> A A [3]\nA -> \"x\"\n";
    let [one, four] = [plain.to_owned(), format!("office\n{plain}")].map(|text| NamedGrammar::parse(&text).unwrap());
    assert_eq!((one.marks(), four.marks()), (None, Some(&[false, false][..])));
    assert_eq!((one.to_text(), four.to_text()), (plain.to_owned(), format!("office\n{plain}")));
    assert_eq!([one, four].map(|named| named.to_block().unwrap()[0] >> 4), [1, 4]);
    let text = "A -> B A [helper]\nA -> \"x\" [2]\nB -> \"x\" [7 helper]\n";
    let named = NamedGrammar::parse(text).unwrap();
    assert_eq!((named.marks(), named.office()), (Some(&[true, false, true][..]), None));
    assert_eq!((named.symbols.join(" "), named.to_text()), ("A B".into(), text.into()));
    // those that an office's rules become are an office's
    let helpers = "A -> X A\nA -> \"y\"\nX -> \"x\" [helper]\n";
    assert_eq!(NamedGrammar::parse(helpers).unwrap().to_text(), "words \"y\" \"x\"\nA -> \"x\" A\nA -> \"y\"\n");
    for (text, message) in [
        ("A -> \"x\" [helper]\nA -> \"x\" A", "2:6: where a rule is marked as a helper's, all bodies are one quoted word or two symbols: not so beside line 1"),
        ("A -> \"x\" A\n\nA -> \"x\" [1 helper]", "3:6: where a rule is marked as a helper's, all bodies are one quoted word or two symbols: not so beside line 1"),
        ("A -> \"x\" A [helper]", "1:6: where a rule is marked as a helper's, all bodies are one quoted word or two symbols: not so beside line 1"),
    ] {
        expect(NamedGrammar::parse(text), text, message);
    }
}

/// The first rule that is too much is named, and without it the library accepts what is left.
#[test]
fn an_office_whose_grammar_is_too_large() {
    let body = |number: u32| (0..6).map(|at| if number >> at & 1 == 1 { " \"x\"" } else { " A" }).collect::<String>();
    let text = |rules: u32| (0..rules).map(|number| format!("A ->{}\n", body(number))).collect::<String>();
    let seven = NamedGrammar::parse(&(text(7) + "A -> \"x\"")).unwrap();
    assert_eq!((seven.grammar.symbols, seven.own_symbols(), seven.own_rules()), (30, 1, 8));
    // of eight there are 33 symbols, unless equal ends of bodies have one
    let eight = NamedGrammar::parse(&(text(8) + "A -> \"x\"")).unwrap();
    assert_eq!((eight.grammar.symbols, eight.own_symbols(), eight.own_rules()), (10, 1, 9));
    let message = "1:6: refused 56: the grammar needs 62 symbols and 32 fit: 1 yours, 1 for words in bodies of several items, \
                   60 joints; most is added for line 1 (4), line 17 (4), line 33 (4). A head of its own for the end of a long \
                   body, as in Entry -> Name Rest, takes one in place of a joint for each way to take that end";
    expect(NamedGrammar::parse(&(text(64) + "A -> \"x\"")), "many symbols", message);
    // 16 symbols and 16 helpers, one for each word; 241 rules and those of the helpers
    let words: String = (0..16).map(|word| format!("A -> A \"w{word}\"\n")).collect();
    let pairs: String = (0..225).map(|rule| format!("S{} -> S{} A\n", rule % 15, rule / 15)).collect();
    let message = "1:6: refused 56: the grammar needs 257 rules and 256 fit: 241 yours, 16 for words in bodies of several items; \
                   most is added for line 1 (1), line 2 (1), line 3 (1). A part that may be left out doubles the rules of its \
                   body, and a symbol alone has as many as that symbol: give parts heads of their own";
    expect(NamedGrammar::parse(&(words + &pairs)), "many rules", message);
}

#[test]
fn an_utterance_in_any_order() {
    let slots = |text| grammar().parse_utterance(text).map(|utterance| utterance.slots);
    let candidate = |(word, cost)| Candidate { word, cost };
    let expected = Ok(vec![vec![candidate((0, 2)), candidate((1, 1))], vec![candidate((0, NOT_HEARD))]]);
    for text in ["y 1 | x 2\n\nx 65535", "x 2|y 1; x 65535 # not heard", "\"x\" 2 | \"y\" 1 ;\nx 65535;"] {
        assert_eq!(slots(text), expected, "{text}");
    }
}

fn network(text: &str) -> Result<Vec<Vec<Candidate>>, Error> {
    let grammar = grammar();
    let mut reader = UtteranceReader::new(&grammar);
    reader.scale = Some(10.0);
    reader.read(text).map(|utterance| utterance.slots)
}

#[test]
fn networks() {
    let candidate = |(word, cost)| Candidate { word, cost };
    let slots = Ok(vec![vec![candidate((0, 7)), candidate((1, NOT_HEARD))], vec![candidate((0, 0))]]);
    assert_eq!(network("align 0 y 0 x 0.5\nalign 1 x 1"), slots);
    let whole =
        "name n\nnumaligns 4\nposterior 2\nalign 0 <s> 2\nalign 1 x 1 y 0\nreference 1 x\nalign 2 x 2\nalign 3 </s> 2";
    assert_eq!(network(whole), slots);
}

#[test]
fn what_a_network_has_and_a_slot_has_not() {
    let grammar = grammar();
    let mut reader = UtteranceReader::new(&grammar);
    (reader.scale, reader.drop_unknown, reader.drop_deletes) = (Some(1.0), true, true);
    let slots = reader.read("align 0 *DELETE* 0.5 um 0.25 x 1").unwrap().slots;
    assert_eq!(slots, [[Candidate { word: 0, cost: 0 }]]);
    let empty = reader.read("align 0 um 0.5 *DELETE* 0.5").unwrap_err();
    assert_eq!(empty.to_string(), "text:1:7: refused 13: there is no word of the grammar in the slot");
    assert_eq!(reader.read("um 3 | x 4").unwrap().slots, [[Candidate { word: 0, cost: 4 }]]);
}

#[test]
fn a_graph_whose_edges_stand_in_the_order_of_the_text() {
    let edge = |(from, to, word, cost)| Edge { from, to, word, cost };
    let edges: Vec<Edge> = [(0, 2, 1, 1), (0, 2, 0, 0), (0, 1, 0, NOT_HEARD)].map(edge).into();
    let graph = |text| grammar().parse_graph(text);
    let text = "0 2 y 1\n0 2 x\n\n0 1 \"x\" 65535 # not heard\n";
    assert_eq!(graph(text), Ok(Graph { places: 3, edges: edges.clone() }));
    let ended = format!("\u{feff}  {text} 4 # two places that no edge reaches");
    assert_eq!(graph(&ended), Ok(Graph { places: 5, edges }));
    assert!(is_graph(text) && is_graph(&ended));
    for text in ["", "0 1", "0 1 | 2 3", "0 1; 2 3", "0 1 # 2", "x 1 | y 2", "align 0 x 1", "2"] {
        assert!(!is_graph(text), "{text}");
    }
}

#[test]
fn words_that_are_left_out_of_a_graph() {
    let grammar = grammar();
    let mut reader = UtteranceReader::new(&grammar);
    reader.drop_unknown = true;
    let edge = Edge { from: 0, to: 1, word: 0, cost: 3 };
    assert_eq!(reader.read_graph("0 2 um 1\n0 1 x 3"), Ok(Graph { places: 3, edges: vec![edge] }));
}

/// Holds what a text gives to a message.
fn expect<T: std::fmt::Debug>(read: Result<T, Error>, text: &str, message: &str) {
    let error = read.map(|value| format!("{value:?}")).expect_err(text);
    assert_eq!(error.in_file("f").to_string(), format!("f:{message}"), "{text}");
}

#[test]
fn readings_and_sheets() {
    assert_eq!(parse_reading("3 0 # the root\n1 1"), Ok(Reading::of_slots(3, vec![0, 1, 1])));
    assert_eq!(parse_sheet("1 2 # three\n4"), Ok(vec![1, 2, 4]));
}

/// The text's refusal is the library's of the same numbers, and the text that has one less is accepted.
#[test]
fn limits_are_those_of_the_library() {
    let lines = |count: u32, line: &dyn Fn(u32) -> String| (0..count).map(line).collect::<String>();
    for (what, limit, line) in [
        ("symbols", MAX_SYMBOLS, &(|number| format!("S{number} -> \"w\"\n")) as &dyn Fn(u32) -> String),
        ("words", MAX_WORDS, &|number| format!("S -> \"w{number}\"\n")),
        ("rules", MAX_RULES, &|number| format!("S{} -> \"w{}\"\n", number % 32, number / 32)),
    ] {
        let accepted = NamedGrammar::parse(&lines(limit, line)).unwrap();
        assert!(accepted.grammar.to_block().is_ok(), "{what}");
        let column = if what == "symbols" { 1 } else { line(limit).find('"').unwrap() + 1 };
        let message = format!("{}:{column}: refused 3: one too many: a grammar has at most {limit} {what}", limit + 1);
        expect(NamedGrammar::parse(&lines(limit + 1, line)), what, &message);
        let mut grammar = accepted.grammar;
        grammar.symbols += u32::from(what == "symbols");
        grammar.words += u32::from(what == "words");
        if what == "rules" {
            grammar.rules.push(Rule { head: 0, weight: 0, body: Body::Pair(0, 0) });
        }
        assert_eq!(grammar.to_block(), Err(Refusal::GrammarRange), "{what}");
    }
}

#[test]
fn limits_of_utterances_are_those_of_the_library() {
    let words: String = (0..8).map(|word| format!("S -> \"w{word}\"\n")).collect();
    let named = NamedGrammar::parse(&words).unwrap();
    let block = named.grammar.to_block().unwrap();
    let slot = |count| (0..count).map(|word| format!("w{word} 1")).collect::<Vec<_>>().join(" | ");
    let accepted = named.parse_utterance(&vec![slot(MAX_CANDIDATES); MAX_SLOTS as usize].join("\n")).unwrap();
    assert!(accepted.to_block(&block).is_ok());
    let text = vec!["w0 1"; MAX_SLOTS as usize + 1].join("\n");
    let message = "25:1: refused 13: one too many: an utterance has at most 24 slots";
    expect(named.parse_utterance(&text), "25 slots", message);
    let message = "1:50: refused 13: one too many: a slot has at most 7 words";
    expect(named.parse_utterance(&slot(8)), "8 words", message);
    let candidates: Vec<Candidate> = (0..8).map(|word| Candidate { word, cost: 1 }).collect();
    for slots in [vec![candidates.clone()], vec![candidates[..1].to_vec(); 25]] {
        assert_eq!(Utterance { slots }.to_block(&block), Err(Refusal::UtteranceRange));
    }
}

#[test]
fn limits_of_graphs_are_those_of_the_library() {
    let named = grammar();
    let block = named.grammar.to_block().unwrap();
    let last = MAX_PLACES - 1;
    let spans = (0..last).flat_map(|from| (from + 1..=last).map(move |to| (from, to)));
    let edges: Vec<Edge> = spans.map(|(from, to)| Edge { from, to, word: 0, cost: 1 }).collect();
    let graph = |count: u32, places| Graph { places, edges: edges[..count as usize].to_vec() };
    let most = graph(MAX_EDGES, MAX_PLACES);
    assert_eq!(named.parse_graph(&named.graph_text(&most)).as_ref(), Ok(&most));
    assert!(most.to_block(&block).is_ok());
    for (graph, message) in [
        (graph(MAX_EDGES + 1, MAX_PLACES), "97:1: refused 13: one too many: a word graph has at most 96 edges"),
        (graph(1, MAX_PLACES + 1), "2:1: refused 13: one too many: a word graph has at most 25 places"),
    ] {
        expect(named.parse_graph(&named.graph_text(&graph)), message, message);
        assert_eq!(graph.to_block(&block), Err(Refusal::UtteranceRange));
    }
    let message = "1:3: refused 13: one too many: a word graph has at most 25 places";
    expect(named.parse_graph("0 25 x 1"), "place 25", message);
}
