//! What the command says of grammars, sentences, schedules and command lines, each by its whole text, and none left out.

use crate::common::{folder, run_with, Run};
use std::path::{Path, PathBuf};

/// The files that the rows are about.
const FILES: [(&str, &[u8]); 21] = [
    ("long", b"Entry -> \"seven\" | L L\nL -> M M\nM -> N N\nN -> O O\nO -> P P\nP -> \"x\"\n"),
    ("many", b"A -> N A | A N | N\nN -> \"x\"\n"),
    ("g", b"Entry -> Number Leaf\nNumber -> \"seven\" [3] => \"7\"\nLeaf -> \"oak\" | \"steel\" [5]\n"),
    ("misspelt", b"Entry -> Nubmer Leaf\nNumber -> \"seven\"\nLeaf -> Nubmer \"oak\"\n"),
    ("unused", b"Entry -> \"seven\"\nColour -> \"red\"\n"),
    ("apart", b"Entry -> \"seven\"\nColour -> Shade \"red\"\nShade -> Colour \"dark\" | \"light\"\n"),
    ("nothing", b"Entry -> Entry Leaf | \"seven\"\nLeaf -> Leaf \"oak\"\n"),
    ("nothings", b"Entry -> Entry Leaf | \"seven\"\nLeaf -> Leaf \"oak\" | Leaf Tree\nTree -> Tree Leaf\n"),
    ("listed", b"words \"elm\"\nEntry -> \"seven\"\n"),
    ("weight", b"Entry -> \"seven\" [-1]\n"),
    ("half", b"Entry -> \"seven\" [0.5]\n"),
    ("quotes", b"Entry -> \xe2\x80\x9cseven\xe2\x80\x9d\n"),
    ("latin", b"T\xfcr -> \"seven\"\n"),
    ("utf16", b"\xff\xfeE\0"),
    ("zipped", &[0x1f, 0x8b, 8, 0]),
    ("fst", &[0xd6, 0xfd, 0xb2, 0x7e, 6, 0, 0, 0]),
    ("case", b"Seven 1; oak 2"),
    ("network", b"numaligns 2\nalign 0 seven 1\nalign 1 oak 0.5 *DELETE* 0.5\n"),
    ("above", b"align 0 seven 1.5\n"),
    ("u", b"seven; oak 3 | steel 4\n"),
    ("s", b"+ seven oak\n"),
];

/// A command line, what is on standard input, the exit status, and all that is printed: answers, and then messages.
type Row = (&'static str, &'static str, i32, &'static str);

const GRAMMARS: &[Row] = &[
    ("lint misspelt", "", 1, "misspelt:1:10: no rule for `Nubmer` (did you mean `Number`?)\n"),
    (
        "lint unused",
        "",
        0,
        "unused:2:1: nothing uses `Colour`\nunused: 2 of 32 symbols (30 left), 2 of 200 words (198 left), 2 of 256 rules (254 left)\n",
    ),
    (
        "lint apart",
        "",
        0,
        "apart:2:1: nothing that `Entry` derives uses `Colour`\napart: 3 of 32 symbols and 2 for helpers (27 left), 4 of 200 words \
         (196 left), 4 of 256 rules and 2 for helpers (250 left)\n",
    ),
    (
        "lint nothing",
        "",
        1,
        "nothing:1:16: `Leaf` derives nothing: no string of 24 words or fewer\nnothing: 2 of 32 symbols and 1 for helpers (29 left), 2 \
         of 200 words (198 left), 3 of 256 rules and 1 for helpers (252 left)\nnothing: a symbol derives nothing\n",
    ),
    (
        "lint nothings",
        "",
        1,
        "nothings:1:16: `Leaf` derives nothing: no string of 24 words or fewer\nnothings:2:27: `Tree` derives nothing: no string of 24 \
         words or fewer\nnothings: 3 of 32 symbols and 1 for helpers (28 left), 2 of 200 words (198 left), 5 of 256 rules and 1 for \
         helpers (250 left)\nnothings: 2 symbols derive nothing\n",
    ),
    (
        "lint listed",
        "",
        0,
        "listed:1:7: no rule has the word elm\nlisted: 1 of 32 symbols (31 left), 2 of 200 words (198 left), 1 of 256 rules (255 \
         left)\n",
    ),
    (
        "lint long",
        "",
        0,
        "long:1:20: with rule 1, Entry -> L L, nothing has 24 words or fewer\nlong: 6 of 32 symbols (26 left), 2 of 200 words (198 \
         left), 7 of 256 rules (249 left)\n",
    ),
    ("lint weight", "", 1, "weight:1:19: `-1` is no weight: a weight is 0 to 65535, digits only\n"),
    (
        "lint half",
        "",
        1,
        "half:1:19: `0.5` is no weight: a weight is 0 to 65535, digits only; for 0.5 multiply all by 100\n",
    ),
    ("lint quotes", "", 1, "quotes:1:10: `“seven”`: a word stands in straight double quotes, \"so\"\n"),
    ("lint latin", "", 1, "latin: not UTF-8 (byte 0xfc, line 1): save it as UTF-8\n"),
    ("lint utf16", "", 1, "utf16: a text in UTF-16: save it as UTF-8\n"),
];

const HEARD: &[Row] = &[
    (
        "list g case",
        "",
        1,
        "case:1:1: refused 14: the grammar has no word `Seven`, but `seven`, of another case: --fold takes both for one\n",
    ),
    (
        "list g network",
        "",
        1,
        "network:2:7: a confusion network needs a scale by which posteriors become costs: add --scale X, such as 100\n",
    ),
    ("list g network --scale 9", "", 0, "1  9  seven oak\n"),
    ("list g network --scale 9 --drop-deletes", "", 0, "1  9  seven oak\n"),
    (
        "list g above --scale 9",
        "",
        1,
        "above:1:15: `1.5` is not a posterior from 0 to the network's, which is 1\n",
    ),
    ("list g zipped", "", 1, "zipped: a gzip file; `gzip -dc zipped` prints what is in it\n"),
    (
        "list g fst",
        "",
        1,
        "fst: a binary FST of OpenFst; `fstprint --isymbols=words.txt --acceptor fst` prints it as text\n",
    ),
    ("list g - --format nbest --scale 1", "-2 seven oak", 0, "1  5  seven oak\n"),
    ("list g - --scale 1", "a A 0 1 seven 1\na A 1 1 oak 1", 0, "1  3  seven oak\n"),
    ("list g - --scale 1", "{\"text\": \"seven oak\"}", 0, "1  3  seven oak\n"),
];

const COMMAND_LINES: &[Row] = &[
    ("lsit", "", 2, "spireyerba: there is no command `lsit`: did you mean `list`?\ntry `spireyerba --help`\n"),
    ("frobnicate", "", 2, "spireyerba: there is no command `frobnicate`\ntry `spireyerba --help`\n"),
    ("specimen g 25", "", 2, "spireyerba specimen: LENGTH is 1 to 24, not 25\ntry `spireyerba specimen --help`\n"),
    ("phrases g 7", "", 2, "spireyerba phrases: LENGTH is 1 to 6, not 7\ntry `spireyerba phrases --help`\n"),
    ("phrases g x", "", 2, "spireyerba phrases: LENGTH: `x` is no number\ntry `spireyerba phrases --help`\n"),
    ("list g u -n 0", "", 2, "spireyerba list: --number is 1 to 256, not 0\ntry `spireyerba list --help`\n"),
    ("list g u -n 257", "", 2, "spireyerba list: --number is 1 to 256, not 257\ntry `spireyerba list --help`\n"),
    (
        "list g u -n -1",
        "",
        2,
        "spireyerba list: --number: `-1` is no whole number from 0 on\ntry `spireyerba list --help`\n",
    ),
    (
        "list g u -n 99999999999",
        "",
        2,
        "spireyerba list: --number: `99999999999` is too large\ntry `spireyerba list --help`\n",
    ),
    (
        "list g u --numbr 3",
        "",
        2,
        "spireyerba list: there is no option --numbr: did you mean --number?\ntry `spireyerba list --help`\n",
    ),
    ("list g u -q", "", 2, "spireyerba list: there is no option -q\ntry `spireyerba list --help`\n"),
    ("list g u --tree=3", "", 2, "spireyerba list: --tree takes no value\ntry `spireyerba list --help`\n"),
    ("list g u -n", "", 2, "spireyerba list: --number needs N\ntry `spireyerba list --help`\n"),
    ("test g", "", 2, "spireyerba test: FILE is missing\ntry `spireyerba test --help`\n"),
    ("test g s u", "", 2, "spireyerba test: `u` is one operand too many\ntry `spireyerba test --help`\n"),
    (
        "test - -",
        "",
        2,
        "spireyerba test: only one operand can be - for standard input\ntry `spireyerba test --help`\n",
    ),
];

const SENTENCES: &[Row] = &[
    ("test g s", "", 0, "s: 1 passed\n"),
    ("test g -", "+ seven elm", 1, "<stdin>:1: not derived: the grammar has no word `elm`\n<stdin>: 1 of 1 failed\n"),
    (
        "test g -",
        "+ seven",
        1,
        "<stdin>:1: not derived: the grammar derives nothing of what was heard; goes along with it: seven; could follow there: oak, \
         steel; heard behind it: nothing more\n<stdin>: 1 of 1 failed\n",
    ),
    (
        "test g -",
        "- seven oak",
        1,
        "<stdin>:1: derived, with weight 3, and should not be: seven oak\n<stdin>: 1 of 1 failed\n",
    ),
    ("test g -", "+ seven oak [4]", 1, "<stdin>:1: weighs 3, not 4\n<stdin>: 1 of 1 failed\n"),
    ("test g -", "+ seven oak => \"8\"", 1, "<stdin>:1: becomes \"7 oak\", not \"8\"\n<stdin>: 1 of 1 failed\n"),
];

const SCHEDULES: &[Row] = &[
    (
        "schedule g u",
        "",
        2,
        "spireyerba schedule: --columns is missing: the symbols that are the columns, such as Number,Leaf\ntry `spireyerba schedule \
         --help`\n",
    ),
    (
        "schedule g u --columns Nubmer",
        "",
        2,
        "spireyerba schedule: --columns: the grammar has no symbol `Nubmer` (did you mean `Number`?)\ntry `spireyerba schedule --help`\n",
    ),
    (
        "schedule g u --columns ,",
        "",
        2,
        "spireyerba schedule: --columns: a name is missing beside a comma\ntry `spireyerba schedule --help`\n",
    ),
    (
        "schedule many - --columns N",
        "x;x;x;x;x;x;x;x;x;x",
        0,
        "line,N,weight,note\r\n1,x,0,\"256 readings have this row, and more may be close\"\r\n",
    ),
    ("schedule g u --columns Leaf --close 6", "", 0, "line,Leaf,weight,note\r\n1,oak,6,Leaf: or steel\r\n"),
    (
        "schedule g - --columns Leaf",
        "oak",
        0,
        "line,Leaf,weight,note\r\n1,,,no reading: the grammar derives nothing of what was heard; goes along with it: nothing; could \
         follow there: seven; heard in slot 0: oak 0\r\n",
    ),
    (
        "schedule g - --columns Leaf",
        "elm",
        0,
        "line,Leaf,weight,note\r\n1,,,<stdin>:1:1: refused 14: the grammar has no word `elm`\r\n",
    ),
];

/// All that a row's command prints, if it is this; or what it prints otherwise.
fn printed(folder: &Path, (words, input, status, expected): &Row) -> Result<String, String> {
    let Run { status: found, out, err } = run_with(folder, words, input.as_bytes());
    let all = out + &err;
    match (found, all.as_str()) == (*status, *expected) {
        true => Ok(all),
        false => Err(format!("{words}: {found}: {all}")),
    }
}

/// Messages that these sources have, as what stands before, between and behind what is put into them.
fn in_source(name: &str) -> Vec<Vec<String>> {
    let path = PathBuf::from(env!("CARGO_MANIFEST_DIR")).join("src").join(name);
    let source = std::fs::read_to_string(path).expect("a source");
    let code = source.split("#[cfg(test)]").next().unwrap_or_default();
    let behind = ["wrong(", "format!("].iter().flat_map(|before| code.split(before).skip(1));
    let literals = behind.filter_map(|rest| rest.trim_start().strip_prefix('"')).map(literal);
    let pieces = literals.map(|text| text.split(['{', '}']).step_by(2).map(str::to_owned).collect::<Vec<_>>());
    pieces.filter(|pieces| pieces.concat().split_whitespace().count() > 1).collect()
}

/// The text of a literal, behind its quote.
fn literal(rest: &str) -> String {
    let mut text = String::new();
    let mut letters = rest.chars();
    while let Some(letter) = letters.next().filter(|letter| *letter != '"') {
        text.extend(if letter == '\\' { letters.next() } else { Some(letter) });
    }
    text
}

/// Whether the pieces stand in a text one after another.
fn has(text: &str, pieces: &[String]) -> bool {
    let mut rest = Some(text);
    pieces.iter().for_each(|piece| rest = rest.and_then(|rest| rest.split_once(piece.as_str())).map(|(_, rest)| rest));
    rest.is_some()
}

#[test]
fn every_message_by_its_whole_text() {
    let folder = folder("messages", &FILES);
    let rows = [GRAMMARS, HEARD, COMMAND_LINES, SENTENCES, SCHEDULES].concat();
    let (printed, wrong): (Vec<_>, Vec<_>) = rows.iter().map(|row| printed(&folder, row)).partition(Result::is_ok);
    assert!(wrong.is_empty(), "{wrong:#?}");
    let printed: Vec<String> = printed.into_iter().flatten().collect();
    for source in ["commands/mod.rs", "commands/test.rs", "commands/schedule.rs", "commands/lint.rs", "options.rs"] {
        let mut messages = in_source(source);
        assert!(!messages.is_empty(), "{source}");
        messages.retain(|pieces| !printed.iter().any(|text| has(text, pieces)));
        assert!(messages.is_empty(), "{source}: no row provokes {messages:#?}");
    }
}
