//! Every message of the readers of texts by its whole text, with line and column. A kind of fault, and a part that may be missing,
//! that no text here provokes fails the test.

use super::{parse_reading, parse_sheet, Fault, Format, NamedGrammar, RuleFault, UtteranceReader};
use crate::Error;
use std::collections::BTreeSet;
use std::path::Path;

/// The grammar over which texts are read.
const GRAMMAR: &str = "A -> B B [3] | \"x\"\n\n# two more rules\nB -> \"y\" [4] # the last";
/// One of whose rules two become one.
const WRITTEN_OUT: &str = "A -> B C?\nB -> \"x\" | \"y\"\nC -> \"z\"";
const SCALE: f64 = 10.0;

/// Reads a text; what it says does not matter here.
type Read = fn(&str) -> Result<(), Error>;

fn grammar() -> NamedGrammar {
    NamedGrammar::parse(GRAMMAR).expect("a grammar")
}

/// What a reader makes of a text that is set up so.
fn with<T>(
    set: impl Fn(&mut UtteranceReader),
    read: impl Fn(&UtteranceReader) -> Result<T, Error>,
) -> Result<(), Error> {
    let grammar = grammar();
    let mut reader = UtteranceReader::new(&grammar);
    reader.scale = Some(SCALE);
    set(&mut reader);
    read(&reader).map(drop)
}

fn rules(text: &str) -> Result<(), Error> {
    NamedGrammar::parse(text).map(drop)
}

fn slots(text: &str) -> Result<(), Error> {
    with(|_| (), |reader| reader.read(text))
}

fn graph(text: &str) -> Result<(), Error> {
    grammar().parse_graph(text).map(drop)
}

fn lattices(text: &str) -> Result<(), Error> {
    with(|_| (), |reader| reader.read_all_heard(text))
}

fn one_lattice(text: &str) -> Result<(), Error> {
    with(|_| (), |reader| reader.read_heard(text))
}

fn exact(text: &str) -> Result<(), Error> {
    with(|reader| reader.exact = true, |reader| reader.read_heard(text))
}

fn ctm(text: &str) -> Result<(), Error> {
    with(|reader| reader.format = Some(Format::Ctm), |reader| reader.read_heard(text))
}

fn kaldi(text: &str) -> Result<(), Error> {
    with(|reader| reader.format = Some(Format::Kaldi), |reader| reader.read_heard(text))
}

fn nbest(text: &str) -> Result<(), Error> {
    with(|reader| reader.format = Some(Format::NBest), |reader| reader.read_heard(text))
}

fn without_scale(text: &str) -> Result<(), Error> {
    with(|reader| reader.scale = None, |reader| reader.read_heard(text))
}

fn great_scale(text: &str) -> Result<(), Error> {
    with(|reader| reader.scale = Some(1e6), |reader| reader.read(text))
}

fn sentence(text: &str) -> Result<(), Error> {
    with(|_| (), |reader| reader.read_sentence(text))
}

/// A sentence whose words the grammar should have.
fn known_sentence(text: &str) -> Result<(), Error> {
    let at = crate::Position { line: 1, column: 1 };
    with(|_| (), |reader| reader.read_sentence(text)?.words.map_err(|fault| Error::at(at, fault)))
}

fn words(text: &str) -> Result<(), Error> {
    with(|_| (), |reader| reader.read_words(text))
}

fn shares(text: &str) -> Result<(), Error> {
    grammar().parse_shares(text).map(drop)
}

fn shares_written_out(text: &str) -> Result<(), Error> {
    NamedGrammar::parse(WRITTEN_OUT)?.parse_shares(text).map(drop)
}

fn reading(text: &str) -> Result<(), Error> {
    parse_reading(text).map(drop)
}

fn reading_written_out(text: &str) -> Result<(), Error> {
    NamedGrammar::parse(WRITTEN_OUT)?.parse_reading(text, false).map(drop)
}

fn sheet(text: &str) -> Result<(), Error> {
    parse_sheet(text).map(drop)
}

/// Texts and what is said of them.
type Rows = &'static [(&'static str, &'static str)];

const RULES: Rows = &[
    ("", "1:1: refused 3: there is no rule"),
    ("# nothing\n\n", "2:1: refused 3: there is no rule"),
    ("A -> A A", "1:1: refused 3: there is no quoted word"),
    ("-> A A", "1:1: `->` where a rule's head should stand"),
    ("| A A", "1:1: `|` where the first rule's head should stand"),
    ("\"x\" -> A A", "1:1: `\"x\"` where a rule's head should stand"),
    ("A", "1:2: the line ends where `->` should stand"),
    ("A B -> C", "1:3: `B` where `->` should stand"),
    ("A ->", "1:5: refused 54: a body has at least one symbol or quoted word"),
    ("A -> \"x\" | | \"y\"", "1:12: refused 54: a body has at least one symbol or quoted word"),
    ("A -> \"x", "1:6: a quoted word has no quote at its end"),
    ("A -> \"x\\n\"", "1:6: `\\n` in a quoted word: only \\\" and \\\\ have a meaning"),
    ("A -> \"x\" [", "1:11: the line ends where a weight should stand"),
    ("A -> \"x\" []", "1:11: `]` where a weight should stand"),
    ("A -> \"x\" [3", "1:12: the line ends where `]` should stand"),
    ("A -> \"x\" [3 4]", "1:13: `4` where `]` should stand"),
    ("A -> \"x\" [-1]", "1:11: `-1` is no weight: a weight is 0 to 65535, digits only"),
    ("A -> \"x\" [1.5]", "1:11: `1.5` is no weight: a weight is 0 to 65535, digits only; for 1.5 multiply all by 100"),
    ("A -> \"x\" [65536]", "1:11: refused 42: 65536 is too large: a weight is at most 65535"),
    ("A -> \"x\" [99999999999]", "1:11: refused 42: 99999999999 is too large: a weight is at most 65535"),
    ("A -> \"x\" [3] \"y\"", "1:14: `\"y\"` where `|` or the end of the line should stand"),
    ("A -> \"x\" [3]\nA -> B C\n  | \"x\"", "3:5: refused 6: the same rule stands in line 1"),
    ("A -> \"x\" B [3]\nA -> B \"x\" | \"x\" B", "2:14: refused 6: the same rule stands in line 1"),
    ("A -> \"x\" [helper 3]", "1:18: `3` where `]` should stand"),
    ("A -> \"x\" [3 helpers]", "1:13: `helpers` where `]` should stand"),
    ("office x", "1:8: `x` where `->` should stand"),
    ("symbols A \"B\"", "1:11: `\"B\"` where a symbol should stand"),
    ("symbols A A", "1:11: `A` is listed already"),
    ("words a", "1:7: `a` where a quoted word should stand"),
    ("words \"a\" \"a\"", "1:11: `\"a\"` is listed already"),
    ("A -> B \"x\"", "1:6: no rule for `B`: give it one, or write \"B\" if it is a word"),
    (
        "A -> door four",
        "1:6: no rule for `door`, and none for `four`: give it one, or write \"door\" if it is a word",
    ),
    (
        "A -> \"fire\"? 120 A",
        "1:14: no rule for `120`: a weight stands in brackets, [120], and what an absence costs right behind `?`, as in \
         \"fire\"?120",
    ),
    ("Number -> \"x\" Nubmer | Tens \"y\"", "1:15: no rule for `Nubmer` (did you mean `Number`?), and none for `Tens`"),
    ("A -> 'the' \"x\"", "1:6: `'the'`: a word stands in straight double quotes, \"so\""),
    ("A -> “the” \"x\"", "1:6: `“the”`: a word stands in straight double quotes, \"so\""),
    ("A -> \"x\" | \"\"", "1:12: \"\" is no word: for what may be left out write `?` behind it, as in \"fire\"?"),
    ("A -> \"x\";", "1:9: `;` where `|` or the end of the line should stand"),
    ("A -> \"x\" )", "1:10: `)` where `|` or the end of the line should stand"),
    ("A -> ( \"x\"", "1:6: `(` has no `)` in its line, and a group stands in one line"),
    ("A -> \"x\" (", "1:10: `(` has no `)` in its line, and a group stands in one line"),
    ("A -> ( \"x\" => \"y\" )", "1:12: `=>` where `|` or `)` should stand"),
    ("A -> ( \"x\" [helper] )", "1:13: `helper` where a weight should stand"),
    ("A -> ( \"x\" [3 helper] )", "1:15: `helper` where `]` should stand"),
    ("A -> [ \"x\"", "1:6: refused 54: a body has at least one symbol or quoted word"),
    ("A -> \"x\" ]", "1:10: `]` where `|` or the end of the line should stand"),
    ("A -> ( )", "1:8: refused 54: a body has at least one symbol or quoted word"),
    ("A -> ? \"x\"", "1:6: `?` stands right behind the part that it is for, with no blank: \"fire\"?"),
    ("A -> \"x\" ?", "1:10: `?` stands right behind the part that it is for, with no blank: \"fire\"?"),
    ("A -> \"x\" *", "1:10: `*` stands right behind the part that it is for, with no blank: \"fire\"*"),
    ("A -> \"x\"+?", "1:10: `?` where a blank should stand"),
    ("A -> \"x\"?A", "1:10: `A` where a blank should stand"),
    ("A -> \"x\"?9A", "1:10: `9A` is no cost: a cost is 0 to 65535, digits only"),
    ("A -> \"x\"?-1", "1:10: `-1` is no cost: a cost is 0 to 65535, digits only"),
    ("A -> \"x\"?.5", "1:10: `.5` is no cost: a cost is 0 to 65535, digits only; for .5 multiply all by 100"),
    ("A -> \"x\" \"y\"?65536", "1:14: refused 42: 65536 is too large: a cost is at most 65535"),
    (
        "A -> \"x\"? B?\nB -> \"y\"",
        "1:11: every part of this may be left out, and a rule derives at least one word: write one without `?` or `*`, and \
         `A?` where A may be left out",
    ),
    ("A -> \"x\" (\"y\"?)+", "1:10: what is repeated may be left out: write one part of it without `?` or `*`"),
    (
        "A -> B\nB -> C | \"x\"\nC -> \"x\" | A",
        "3:12: `A` -> `B` -> `C` -> `A` go round in a circle of rules that are one symbol alone: a derivation by them has no \
         end",
    ),
    (
        "A -> B | \"x\"\nB -> \"x\"",
        "1:10: refused 6: this and line 1, column 6 both become A -> \"x\", and one rule has one derivation",
    ),
    (
        "A -> \"x\" (\"y\" | \"y\")",
        "1:17: refused 6: this and line 1, column 11 both become ( \"y\" | \"y\" ) -> \"y\", and one rule has one derivation",
    ),
    (
        "A -> B [40000]\nB -> \"x\" [40000]",
        "1:6: refused 42: the weights of A -> \"x\" add up to 80000: a weight is at most 65535, so make all smaller",
    ),
    (
        "A -> \"a\"? \"b\"? \"c\"? \"d\"? \"e\"? \"f\"? \"g\"? \"h\"? \"i\"? \"j\"",
        "1:46: refused 56: what may be left out and chosen here makes more than 256 rules: give parts of it heads of their own",
    ),
    (
        "A -> ((((((((((((((((( \"x\" )))))))))))))))))",
        "1:22: groups stand within groups up to 16 deep: give this one a head of its own",
    ),
    ("A -> \"x\" => x", "1:13: `x` where a quoted translation should stand"),
    ("A -> \"x\" => \"$2\"", "1:13: `$2` in a translation: $1 to $1 are the parts of this body, and $$ is a dollar sign"),
    ("A -> \"x\" => \"$\"", "1:13: `$` in a translation: $1 to $1 are the parts of this body, and $$ is a dollar sign"),
    (
        "A -> B+ B?\nB -> \"x\"",
        "1:9: refused 6: this and line 1, column 6 both become A -> B B, and one rule has one derivation",
    ),
    ("A -> \"x\" [helper]\nA -> \"x\" A", "2:6: where a rule is marked as a helper's, all bodies are one quoted word or two symbols: not so beside line 1"),
];

const SLOTS: Rows = &[
    ("", "1:1: refused 13: there is no slot"),
    ("\n# nothing", "2:1: refused 13: there is no slot"),
    ("x y", "1:3: `y` is no cost: a cost is 0 to 65535, digits only, and between slots stands `;`"),
    ("x 1 y", "1:5: `y` where `|`, `;` or the end of the line should stand"),
    ("x 1\nx 1 |", "2:6: the line ends where a word should stand"),
    ("x 1 | | y 2", "1:7: `|` where a word should stand"),
    ("; x 1", "1:1: `;` where a word should stand"),
    ("x |", "1:4: the line ends where a word should stand"),
    ("x 65536", "1:3: refused 42: 65536 is too large: a cost is at most 65535"),
    ("x 1 | z 2", "1:7: refused 14: the grammar has no word `z`"),
    ("x 1 | y 2 | x 3", "1:13: refused 15: the slot has `x` already"),
    ("x 1 | \"y", "1:7: a quoted word has no quote at its end"),
    ("X 1", "1:1: refused 14: the grammar has no word `X`, but `x`, of another case: --fold takes both for one"),
    ("x 1.5", "1:3: `1.5` is no cost: a cost is 0 to 65535, digits only; for 1.5 multiply all by 100"),
    ("x -1", "1:3: `-1` is no cost: a cost is 0 to 65535, digits only"),
];

const NETWORKS: Rows = &[
    ("align 0 x 1\nalign", "2:6: the line ends where an alignment's number should stand"),
    ("align 0 x", "1:10: the line ends where a posterior should stand"),
    ("align 0 x 1 y", "1:14: the line ends where a posterior should stand"),
    ("align 0 x y", "1:11: `y` is not a posterior from 0 to the network's"),
    ("align 0 x -1", "1:11: `-1` is not a posterior from 0 to the network's"),
    ("align 0 x 2", "1:11: `2` is not a posterior from 0 to the network's, which is 1"),
    ("align 0 x inf", "1:11: `inf` is not a posterior from 0 to the network's"),
    ("align 1 x 1", "1:7: alignment `1` where alignment 0 should stand"),
    ("align 0 x 1\nalign 2 x 1", "2:7: alignment `2` where alignment 1 should stand"),
    ("numaligns 2\nalign 0 x 1", "1:11: the network says 2 alignments and has 1: was it cut off?"),
    ("numaligns x\nalign 0 x 1", "1:11: `x` is not a whole number"),
    ("posterior\nalign 0 x 1", "1:10: the line ends where a posterior should stand"),
    ("align 0 x 0.5 z 0.5", "1:15: refused 14: the grammar has no word `z`"),
    ("align 0 x 0.5 x 0.5", "1:15: refused 15: the slot has `x` already"),
    ("align 0 <s> 1\nalign 1 </s> 1", "2:1: refused 13: there is no slot"),
    ("align 0 x 1\nalign 1", "2:7: refused 13: there is no word of the grammar in the slot"),
    ("align 0 *DELETE* 0.5 x 0.5", "1:9: `*DELETE*`: a word is said in every slot, and --drop-deletes leaves this out"),
    ("numaligns\nalign 0 x 1", "1:10: the line ends where how many alignments there are should stand"),
];

const GRAPHS: Rows = &[
    ("", "1:1: refused 13: there is no edge"),
    ("# nothing\n2", "2:1: refused 13: there is no edge"),
    ("x 1", "1:1: `x` is not a whole number"),
    ("| 1", "1:1: `|` where the number of a place should stand"),
    ("0 x", "1:3: `x` is not a whole number"),
    ("0 1", "1:4: the line ends where a word should stand"),
    ("0 1 | x", "1:5: `|` where a word should stand"),
    ("0 1 x y", "1:7: `y` is no cost: a cost is 0 to 65535, digits only, and between slots stands `;`"),
    ("0 1 x |", "1:7: `|` where a cost should stand"),
    ("0 1 x 1 2", "1:9: `2` where `;` or the end of the line should stand"),
    ("0 1 x 65536", "1:7: refused 42: 65536 is too large: a cost is at most 65535"),
    ("0 1 z 1", "1:5: refused 14: the grammar has no word `z`"),
    ("1 1 x 1", "1:3: refused 51: an edge ends above where it starts: not 1 to 1"),
    ("0 1 x 1\n 0 1 x 2", "2:2: refused 52: the same word between the same places stands in line 1"),
    ("0 2 x 1\n1", "2:1: refused 51: not the last place: an edge reaches place 2"),
    ("0 2 x 1\n2\n\n3", "4:1: the last place stands in line 2"),
    ("0 1 \"x", "1:5: a quoted word has no quote at its end"),
];

const SENTENCES: Rows = &[
    ("x y", "1:1: `x` where `+` or `-` before a sentence should stand"),
    ("+x y", "1:1: `+x` where `+` or `-` before a sentence should stand"),
    ("+", "1:2: refused 13: there is no word"),
    ("- [3]", "1:3: refused 13: there is no word"),
    ("+ x; y", "1:4: `;` where a word should stand"),
    ("+ x [y]", "1:6: `y` is not a whole number"),
    ("+ x []", "1:6: `]` where a weight should stand"),
    ("+ x [3", "1:7: the line ends where `]` should stand"),
    ("+ x [3] y", "1:9: `y` where the end of the line should stand"),
    ("+ x [3] [4]", "1:9: `[` where the end of the line should stand"),
    ("+ x => y", "1:8: `y` where a quoted translation should stand"),
    ("+ x => \"y\" => \"z\"", "1:12: `=>` where the end of the line should stand"),
    ("- x [3]", "1:5: `[` behind a sentence with `-`, which has no weight and becomes nothing"),
    ("- x => \"y\"", "1:5: `=>` behind a sentence with `-`, which has no weight and becomes nothing"),
    ("+ \"x", "1:3: a quoted word has no quote at its end"),
];

const LATTICES: Rows = &[
    ("0 1 x 0.5\n1 2 y nan\n", "2:7: `nan` is not a number that can stand here: it has to be finite"),
    ("0 1 x 0.5\n1 2 y\n2 1 y\n2\n", "2:1: links go round in a circle, and this is one of them: a lattice has no way back"),
    ("u\n0 1 x 3,4\n1 2 y 1 2 3\n2\n", "3:11: `3` where the end of the line should stand"),
    ("-1 -2 4 x y\n", "1:7: the sentence says 4 words and has 2: was it cut off?"),
    ("a A * * <ALT_BEGIN>\na A 0 1 x 1\n", "2:1: the line ends where <ALT_END> should stand"),
    (
        "{\"hypotheses\": []}",
        "1:1: JSON, but not in a form of Vosk (text, result, alternatives), AWS Transcribe (results.items), Google (results) or \
         Azure (NBest)",
    ),
    ("{\"NBest\": [{\"Confidence\": 0.5}]}", "1:12: the line ends where a transcript should stand"),
    ("{\"results\": [", "1:14: the line ends where a value should stand"),
    ("{\"text\": \"x\"} 3", "1:15: `3` where the end of the text should stand"),
    ("{\"a\": 1, b}", "1:10: `b` where a name in quotes should stand"),
    ("VERSION=1.0 1.1\nN=2", "1:13: `1.1` where NAME=VALUE should stand"),
    ("N=2\nSUBLAT=inner", "2:1: a lattice within a lattice is not read"),
    ("N=2\nbase=1", "2:1: `1` is not a base of logarithms"),
    ("I=0\nI=1\nI=0", "3:1: a node with this number stands in line 1"),
    ("J=0 S=0 E=1 W=\\377", "1:13: `\\377` has bytes that are no characters"),
    ("N=0 L=0", "1:1: refused 13: there is no node"),
    ("I=0\nI=1 W=x\nJ=0 S=0 E=1 W=y", "3:1: the link has the word `y`, and the node where it ends has `x`"),
    ("I=0\nI=1\nJ=0 S=0 E=2 W=x", "3:9: there is no node `2`"),
    ("I=0\nI=1\nI=2\nJ=0 S=0 E=2 W=x\nJ=1 S=1 E=2 W=y", "2:1: there is no start=, and it could be node 0 or node 1"),
    ("VERSION=1.0\nstart=0 end=1\nI=0\nI=1\nJ=0 S=0 E=1", "5:1: refused 13: there is no word on a path to the end"),
];

/// The readers with their texts.
const TABLES: &[(Read, Rows)] = &[
    (rules, RULES),
    (slots, SLOTS),
    (slots, NETWORKS),
    (graph, GRAPHS),
    (sentence, SENTENCES),
    (lattices, LATTICES),
    (
        known_sentence,
        &[
            ("+ x z", "1:1: refused 14: the grammar has no word `z`"),
            (
                "+ X z",
                "1:1: refused 14: the grammar has no word `X`, but `x`, of another case: --fold takes both for one",
            ),
        ],
    ),
    (words, &[("", "1:1: refused 13: there is no word"), ("x ;", "1:3: `;` where a word should stand")]),
    (
        without_scale,
        &[(
            "align 0 x 1",
            "1:7: a confusion network needs a scale by which posteriors become costs: add --scale X, such as 100",
        )],
    ),
    (
        ctm,
        &[
            ("a A 0", "1:6: the line ends where file, channel, beginning, duration and word should stand"),
            ("", "1:1: refused 13: there is no word"),
        ],
    ),
    (kaldi, &[("", "1:1: refused 13: there is no lattice"), ("u\n\n", "2:1: refused 13: there is no arc")]),
    (
        nbest,
        &[
            ("-1.5", "1:5: the line ends where a word should stand"),
            ("NBestList1.0\n()", "2:3: the line ends where a score should stand"),
        ],
    ),
    (
        great_scale,
        &[(
            "align 0 x 0.5",
            "1:11: refused 42: `0.5` gives a cost that passes 65534: a smaller scale is needed",
        )],
    ),
    (
        shares,
        &[
            ("1 2 x", "1:5: `x` is not a whole number"),
            ("1 2 0", "1:5: refused 61: `0` is not a share from 1 to 1024"),
            ("1 2", "1:4: refused 60: not one share for each rule: 2 of them for 3 rules"),
        ],
    ),
    (
        shares_written_out,
        &[(
            "511 255 769 1024",
            "1:17: `A -> B C?` and `B -> \"x\"` become one rule, and the product of their shares is no whole number of 1024: \
             give one of them 1024, or shares that divide it",
        )],
    ),
    (
        reading,
        &[("", "1:1: the line ends where a weight should stand"), ("72 0\n 2 x", "2:4: `x` is not a whole number")],
    ),
    (reading_written_out, &[("5 9", "1:3: `9` where a rule as `list --rules` prints it should stand")]),
    (sheet, &[("1 2\n3 four", "2:3: `four` is not a whole number")]),
];

/// Texts that are too long to stand here.
fn long_texts() -> Vec<(Read, String, String)> {
    let lines = |count: usize, line: &dyn Fn(usize) -> String| (0..count).map(line).collect::<String>();
    let chain = |count: usize| lines(count, &|from| format!("{from} {} x 0.5\n", from + 1)) + &format!("{count}\n");
    let wide = lines(12, &|from| {
        lines(9, &|way| format!("{from} {} {} {}.5\n", from + 1 + way % 3, ["x", "y"][way % 2], way))
    });
    let words = |letter: &str| (0..100).map(|word| format!("\"{letter}{word}\"")).collect::<Vec<_>>().join(" | ");
    let groups =
        lines(6, &|n| format!("S{n} -> (\"a{n}\" | \"b{n}\")+ (\"c{n}\" | \"d{n}\" \"e{n}\") \"f{n}\" S{}?\n", n + 1));
    let row = |read: Read, text: String, message: &str| (read, text, message.to_owned());
    vec![
        row(
            rules,
            format!("A -> B [1] | C [2]\nB -> {}\nC -> {}", words("b"), words("c")),
            "1:6: refused 56: the grammar needs 400 rules and 256 fit: 202 yours, 198 for groups, repetitions and parts left \
             out; most is added for line 1 (198). A part that may be left out doubles the rules of its body, and a symbol alone \
             has as many as that symbol: give parts heads of their own",
        ),
        row(
            rules,
            "Entry -> \"door\" Number (Leaf | \"double\" Leaf [4]) Fire? Note*\nNumber -> \"four\"\nLeaf -> \"oak\"\nFire -> \"fire\"?120 \
             \"rated\"? Minutes\nMinutes -> \"thirty\"\nNote -> \"vision\" \"panel\" | \"closer\""
                .to_owned(),
            "1:10: refused 56: the grammar needs 39 symbols and 32 fit: 6 yours, 1 for groups, repetitions and parts left out, 6 \
             for words in bodies of several items, 26 joints; most is added for line 1 (28), line 4 (3), line 6 (2). A head of its \
             own for the end of a long body, as in Entry -> Name Rest, takes one in place of a joint for each way to take that end",
        ),
        row(
            rules,
            format!("{groups}S6 -> \"x\""),
            "1:7: refused 56: the grammar needs 61 symbols and 32 fit: 7 yours, 18 for groups, repetitions and parts left out, 18 \
             for words in bodies of several items, 18 joints; most is added for line 1 (9), line 2 (9), line 3 (9). One symbol for \
             all words that may stand in a place, as in Metal -> \"steel\" | \"zinc\", takes one in place of one for each",
        ),
        row(rules, lines(33, &|number| format!("S{number} -> \"w\"\n")), "33:1: refused 3: one too many: a grammar has at most 32 symbols"),
        row(rules, lines(201, &|number| format!("S -> \"w{number}\"\n")), "201:6: refused 3: one too many: a grammar has at most 200 words"),
        row(rules, lines(257, &|number| format!("S{} -> \"w{}\"\n", number % 32, number / 32)), "257:7: refused 3: one too many: a grammar has at most 256 rules"),
        row(rules, format!("A -> \"x\"{}", " A".repeat(24)), "1:56: refused 54: one too many: a body has at most 24 parts"),
        row(slots, "x;".repeat(25), "1:49: refused 13: one too many: an utterance has at most 24 slots"),
        row(graph, lines(97, &|number| format!("{} {} x\n", number % 10, number % 10 + 1 + number / 10)), "97:1: refused 13: one too many: a word graph has at most 96 edges"),
        row(graph, "0 25 x".to_owned(), "1:3: refused 13: one too many: a word graph has at most 25 places"),
        row(one_lattice, "u\n0 1 x 1,2,\n1\n\nv\n0 1 x 1,2,\n1\n".to_owned(), "7:1: the text has 2 utterances, and one is read here: `batch` takes many"),
        row(lattices, format!("{{\"a\": {}", "[".repeat(200)), "1:71: values of JSON within values go too deep"),
        row(lattices, format!("{{\"a\": [{}", "1,".repeat(1 << 18)), "1:524292: more than 262144 values of JSON: have the recogniser write a file for each utterance"),
        row(lattices, "a A 0 1 x 1.5\n".to_owned(), "1:11: `1.5` is not a likelihood from 0 to 1"),
        row(lattices, lines(65_538, &|number| format!("I={number}\n")), "65538:1: refused 13: more than 65536 nodes: prune the lattice where it is made, such as by `lattice-prune --beam`, `lattice-tool -posterior-prune` or `HLRescore -t`"),
        row(lattices, chain(25), "26:1: refused 13: even what weighs the least takes 26 places and 25 edges, and a word graph has 25 places and 96 edges: cut the utterance in two, or give words different scores"),
        row(exact, wide, "108:1: refused 13: the lattice takes 154 edges, and a word graph has 25 places and 96 edges: without --exact the readings of least weight are kept, and it is said up to which weight"),
        row(lattices, lines(65_537, &|number| format!("0 1 x {number}.5\n")), "65537:1: refused 13: more than 65536 links: prune the lattice where it is made, such as by `lattice-prune --beam`, `lattice-tool -posterior-prune` or `HLRescore -t`"),
    ]
}

macro_rules! kinds {
    ($kind:ident, $all:ident, $type:ident: $($variant:ident)*) => {
        /// All kinds. One that is new is missing in the match below, and so in the list.
        const $all: &[&str] = &[$(stringify!($variant)),*];

        fn $kind(fault: &$type) -> &'static str {
            match fault {
                $($type::$variant { .. } => stringify!($variant),)*
            }
        }
    };
}

kinds!(kind, KINDS, Fault: Expected Unclosed Escape Rule Marked Named Number Weight TooLarge TooMany None RepeatedRule Share
    Shares UnknownWord OtherSpelling RepeatedWord Underived EdgePlaces RepeatedEdge SecondEnd EarlyEnd AlignmentOrder Count
    Posterior PosteriorAbove CostTooLarge Deletion NoScale Real Base Bytes Sublattice RepeatedNode NoNode TwoWords Circle
    TwoEnds Links DoesNotFit NotExact ManyLattices JsonDepth JsonValues OtherJson Likelihood);
kinds!(rule_kind, RULE_KINDS, RuleFault: NoRule Quotes EmptyWord NoBody Open Apart MayBeEmpty RepeatsNothing Cycle SameRule
    SumTooLarge ManyForms Deep Reference SharesOfOne Room);

/// What a text is refused for, if its message is this; or what it says otherwise.
fn refused(read: Read, text: &str, message: &str) -> Result<Fault, String> {
    let shown = &text[..text.len().min(99)];
    match read(text).map_err(|error| error.in_file("f")) {
        Err(Error::Text { fault, file, position }) => {
            let said = Error::Text { fault: fault.clone(), file, position }.to_string();
            (said == format!("f:{message}")).then_some(fault).ok_or(format!("{shown:?}: {said}"))
        }
        other => Err(format!("{shown:?}: {other:?}")),
    }
}

/// The texts of the sources behind these words, each of which is what should stand somewhere, or what there is none or too much of.
fn in_sources(folder: &Path, before: &[&str], found: &mut BTreeSet<String>) {
    for entry in std::fs::read_dir(folder).expect("the sources").map(|entry| entry.expect("an entry").path()) {
        if entry.is_dir() {
            in_sources(&entry, before, found);
        } else if entry.extension().is_some_and(|end| end == "rs") && !entry.ends_with("messages.rs") {
            let text = std::fs::read_to_string(&entry).expect("a source");
            let code = text.split("#[cfg(test)]").next().unwrap_or_default();
            for word in before {
                let behind = code.split(word).skip(1).filter_map(|rest| rest.trim_start().strip_prefix('"'));
                found.extend(behind.filter_map(|rest| rest.split('"').next()).map(str::to_owned));
            }
        }
    }
}

/// Every text is refused as the table says, and every kind of fault and every word of a message stands in the table.
#[test]
fn every_message_by_its_whole_text() {
    let rows = TABLES.iter().flat_map(|(read, rows)| rows.iter().map(|(text, message)| refused(*read, text, message)));
    let long = long_texts().into_iter().map(|(read, text, message)| refused(read, &text, &message)).collect::<Vec<_>>();
    let (faults, wrong): (Vec<_>, Vec<_>) = rows.chain(long).partition(Result::is_ok);
    assert!(wrong.is_empty(), "{wrong:#?}");
    let faults: Vec<Fault> = faults.into_iter().flatten().collect();
    let set = |names: &mut dyn Iterator<Item = &'static str>| names.collect::<BTreeSet<_>>();
    let of_rules =
        faults.iter().filter_map(|fault| if let Fault::Rule(fault) = fault { Some(rule_kind(fault)) } else { None });
    assert_eq!(set(&mut faults.iter().map(kind)), set(&mut KINDS.iter().copied()));
    assert_eq!(set(&mut of_rules.into_iter()), set(&mut RULE_KINDS.iter().copied()));
    let said: BTreeSet<String> = faults
        .iter()
        .filter_map(|fault| match fault {
            Fault::Expected { wanted, .. } => Some((*wanted).to_owned()),
            Fault::None { what, .. } | Fault::TooMany { what, .. } => Some((*what).to_owned()),
            _ => None,
        })
        .collect();
    let mut wanted = BTreeSet::new();
    let before = [
        "expected(",
        "ends(",
        "wanted:",
        "too_many(",
        "none(",
        "None { what:",
        "TooMany { what:",
        "const A_SYMBOL: &str =",
        "const A_WORD: &str =",
    ];
    in_sources(&Path::new(env!("CARGO_MANIFEST_DIR")).join("src/text"), &before, &mut wanted);
    let missing: Vec<&String> = wanted.difference(&said).collect();
    assert!(missing.is_empty() && wanted.len() > 30, "{missing:?} of {}", wanted.len());
}
