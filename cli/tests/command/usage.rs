//! Help at every level, wrong usage, mistakes in files, pipes and empty input.

use crate::common::{answer, answer_in, answer_with, doors, folder, output, refused, run, run_in, run_with, PROGRAM};
use spireyerba::Refusal;
use std::ffi::OsStr;
use std::io::Write;
use std::os::unix::ffi::OsStrExt;
use std::path::Path;
use std::process::{Command, Stdio};

const COMMANDS: [&str; 17] = [
    "list", "panel", "pick", "why", "report", "batch", "lint", "specimen", "phrases", "margins", "ranges", "check",
    "chance", "pack", "unpack", "schedule", "test",
];

#[test]
fn help_at_every_level() {
    let program = answer("--help");
    assert_eq!(program, answer("-h"));
    assert_eq!(program, answer("help"));
    for command in COMMANDS {
        let row = program.lines().find(|line| line.trim_start().starts_with(command));
        assert!(row.is_some(), "{command} in\n{program}");
        let help = answer(&format!("{command} --help"));
        assert!(help.contains(&format!("usage: spireyerba {command} GRAMMAR")), "{help}");
        assert_eq!(help, answer(&format!("help {command}")));
        assert_eq!(help, answer(&format!("{command} nonsense --nonsense -h")));
    }
    assert!(answer("help texts").contains("numaligns 2"));
    let version = env!("CARGO_PKG_VERSION");
    assert_eq!(answer("--version"), format!("spireyerba {version} (library {version})\n"));
}

/// What `make install` asks for.
#[test]
fn manual_pages_and_completions() {
    let pages = answer("help --manual");
    assert_eq!(pages.lines().count(), COMMANDS.len() + 2);
    for page in pages.lines() {
        let text = answer(&format!("help --manual {page}"));
        assert!(text.starts_with(".TH SPIREYERBA") && text.contains("\n.SH NAME\nspireyerba"), "{page}: {text}");
    }
    for shell in ["bash", "zsh", "fish"] {
        let script = answer(&format!("help --completions {shell}"));
        assert!(script.contains("drop-unknown") && script.contains("specimen"), "{script}");
    }
    expect_usage(&[
        ("help --manual list", "spireyerba", "there is no page `list`: `spireyerba help --manual` names them all"),
        ("help --completions", "spireyerba", "--completions needs one of bash, zsh, fish"),
        ("help --completions tcsh", "spireyerba", "--completions needs one of bash, zsh, fish"),
    ]);
}

/// A copy of the door schedule, in which files can be written.
fn copied_doors(name: &str) -> std::path::PathBuf {
    let folder = folder(name, &[]);
    for file in std::fs::read_dir(doors()).expect("the example").map(|file| file.expect("a file").path()) {
        std::fs::copy(&file, folder.join(file.file_name().expect("a name"))).expect("a copy");
    }
    folder
}

/// Every example of the help does what it says, but that somebody has to answer `pick`.
#[test]
fn examples_of_the_help_run() {
    let folder = copied_doors("help_examples");
    let path = Path::new(PROGRAM).parent().expect("the program's folder").display().to_string();
    let path = format!("{path}:{}", std::env::var("PATH").unwrap_or_default());
    for help in
        COMMANDS.map(|command| format!("{command} --help")).iter().map(String::as_str).chain(["--help", "help texts"])
    {
        let help = answer(help);
        let example = help.lines().find_map(|line| line.strip_prefix("example: ")).expect("an example");
        let shell = output(Command::new("sh").args(["-c", example]).current_dir(&folder).env("PATH", &path), b"y\n");
        assert!(shell.status.success(), "{example}: {shell:?}");
    }
    for written in ["meant.txt", "page.html", "readings.jsonl", "utterance.bin"] {
        assert!(std::fs::metadata(folder.join(written)).expect(written).len() > 0, "{written}");
    }
}

/// What stands in the help about texts with a title before it is read as such.
#[test]
fn examples_of_the_texts_are_read() {
    let help = answer("help texts");
    let example = |title: &str| {
        let (_, behind) = help.split_once(title).unwrap_or_else(|| panic!("{title} in\n{help}"));
        let lines = behind.lines().skip_while(|line| !line.starts_with("  ")).take_while(|line| line.starts_with("  "));
        lines.map(|line| format!("{line}\n")).collect::<String>()
    };
    let rest =
        "Name -> \"door\" Number\nMinutes -> \"thirty\"\nSide -> \"left\"\nPaint -> \"white\"\nRound -> \"forty\"\n";
    let grammar = example("A grammar:") + rest;
    let words =
        "A -> A A | \"door\" | \"four\" | \"twenty\" => \"2\" | \"forty\" | \"oak\" | \"new york\" | \"newark\"\n";
    let sentences =
        "Entry -> \"door\" Number Leaf [5] => \"$2 $3\"\nNumber -> \"twenty\" \"four\" => \"24\"\nLeaf -> \"oak\"\n";
    let folder = copied_doors("help_texts");
    for (name, text) in [("g", grammar.as_str()), ("w", words), ("sg", sentences)] {
        std::fs::write(folder.join(name), text).expect("a file");
    }
    assert_eq!(answer_in(&folder, "lint g").lines().count(), 1);
    for (words, title, shown) in [
        ("list w - -n 1", "An utterance:", "1  16  door new york\n"),
        ("list w - -n 1 --scale 100", "A confusion network as SRILM writes it", "1  16  door twenty\n"),
        ("list w - -n 1", "A word graph, where", "1  28  door forty\n"),
        ("list w - -n 1 --scale 100", "A lattice in HTK's standard format", "1  4  door\n"),
        ("test sg -", "Sentences, to which", "<stdin>: 2 passed\n"),
    ] {
        assert_eq!(answer_with(&folder, words, example(title).as_bytes()), shown, "{title}");
    }
    let readings = example("A reading:");
    for (line, heard) in readings.lines().zip(["utterance.txt", "../../doors_graph/graph.txt"]) {
        let folder = if heard.starts_with("..") { doors() } else { folder.clone() };
        let heard = heard.replace("../../", "../");
        let passes = answer_with(&folder, &format!("check grammar.txt {heard} -"), line.as_bytes());
        assert!(passes.starts_with("passes: "), "{line}");
    }
}

/// Holds what the command says of wrong usage to messages: its words, which command it is, and what is wrong.
fn expect_usage(rows: &[(&str, &str, &str)]) {
    for (words, command, message) in rows {
        assert_eq!(refused(run(words), 2), format!("{command}: {message}\ntry `{command} --help`\n"), "{words}");
    }
}

#[test]
fn wrong_usage_of_list() {
    expect_usage(&[
        ("", "spireyerba", "no command"),
        ("lst", "spireyerba", "there is no command `lst`: did you mean `list`?"),
        ("help lst", "spireyerba", "there is no command `lst`: did you mean `list`?"),
        ("list", "spireyerba list", "GRAMMAR is missing"),
        ("list grammar.txt", "spireyerba list", "UTTERANCE is missing"),
        ("list a b c", "spireyerba list", "`c` is one operand too many"),
        ("list - -", "spireyerba list", "only one operand can be - for standard input"),
        ("list a b --trees", "spireyerba list", "there is no option --trees: did you mean --tree?"),
        ("list a b --colours", "spireyerba list", "there is no option --colours"),
        ("lsit", "spireyerba", "there is no command `lsit`: did you mean `list`?"),
        ("list grammar.txt utterance.txt -n 0", "spireyerba list", "--number is 1 to 256, not 0"),
        ("list grammar.txt utterance.txt -n 257", "spireyerba list", "--number is 1 to 256, not 257"),
        ("list a b -n 99999999999", "spireyerba list", "--number: `99999999999` is too large"),
        ("list a b -n -1", "spireyerba list", "--number: `-1` is no whole number from 0 on"),
        ("list a b -n 1.5", "spireyerba list", "--number: `1.5` is no whole number from 0 on"),
        ("list a b -x", "spireyerba list", "there is no option -x"),
        ("list a b --tree=yes", "spireyerba list", "--tree takes no value"),
        ("list a b -n", "spireyerba list", "--number needs N"),
        ("list a b -n many", "spireyerba list", "--number: `many` is no number"),
        ("list a b --tree --json", "spireyerba list", "--tree, --rules and --json: only one of them"),
        ("list grammar.txt network.txt --scale 0", "spireyerba list", "--scale is a number above 0"),
        ("list grammar.txt network.txt --scale -1", "spireyerba list", "--scale is a number above 0"),
    ]);
}

#[test]
fn wrong_usage_of_others() {
    expect_usage(&[
        ("why grammar.txt utterance.txt", "spireyerba why", "K is missing"),
        ("why grammar.txt utterance.txt two", "spireyerba why", "K: `two` is no number"),
        (
            "why grammar.txt utterance.txt 1",
            "spireyerba why",
            "K is 2 to 256, not 1: the first reading is laid beside it",
        ),
        ("pick grammar.txt -", "spireyerba pick", "the answers come from standard input, so no file can"),
        ("pick - utterance.txt", "spireyerba pick", "the answers come from standard input, so no file can"),
        ("pick grammar.txt utterance.txt --tree --json", "spireyerba pick", "--tree and --json: only one of them"),
        ("pick grammar.txt utterance.txt -n 3", "spireyerba pick", "there is no option -n"),
        (
            "margins grammar.txt ../doors_graph/graph.txt",
            "spireyerba margins",
            "margins are for slots, not for word graphs",
        ),
        ("margins grammar.txt utterance.txt --skip 3", "spireyerba margins", "there is no option --skip"),
        ("specimen grammar.txt x", "spireyerba specimen", "LENGTH: `x` is no number"),
        ("phrases grammar.txt x", "spireyerba phrases", "LENGTH: `x` is no number"),
        ("unpack grammar.txt utterance.txt --network", "spireyerba unpack", "--network and --lattice need --scale X"),
        (
            "unpack grammar.txt ../doors_graph/graph.txt --lattice",
            "spireyerba unpack",
            "--network and --lattice need --scale X",
        ),
        (
            "unpack grammar.txt utterance.txt --lattice --network",
            "spireyerba unpack",
            "--network and --lattice: only one of them",
        ),
        ("list grammar.txt utterance.txt --skip much", "spireyerba list", "--skip: `much` is no number"),
        ("list grammar.txt utterance.txt --skip", "spireyerba list", "--skip needs COST"),
        ("chance grammar.txt utterance.txt", "spireyerba chance", "SHARES is missing"),
        ("chance grammar.txt utterance.txt shares.txt 0", "spireyerba chance", "READING: a rank is 1 to 256, not 0"),
        (
            "why grammar.txt utterance.txt 257",
            "spireyerba why",
            "K is 2 to 256, not 257: the first reading is laid beside it",
        ),
        (
            "chance grammar.txt utterance.txt shares.txt 2 -n 3",
            "spireyerba chance",
            "--number and READING: only one of them",
        ),
        ("batch grammar.txt utterances.txt -j x", "spireyerba batch", "--jobs: `x` is no number"),
    ]);
}

/// Two files that are as they should be, and others.
const WITH_MISTAKES: [(&str, &[u8]); 11] = [
    ("case", b"X 1; x 2"),
    ("g", b"A -> B B [3]\nB -> \"x\"\n"),
    ("u", b"x 1\nx 2"),
    ("empty", b""),
    ("weight", b"A -> B B [65536]"),
    ("word", b"x 1\ny 2 | x 3"),
    ("latin", b"T\xfcr -> B B"),
    ("cut", &[0x10, 0x40, 0x40]),
    ("kind", &[0x70, 0x00]),
    ("slots", &[0x2f, 0xff, 0xff]),
    ("network", b"align 0 x 1 *DELETE* 0.5"),
];

#[test]
fn mistakes_in_files() {
    let folder = folder("mistakes", &WITH_MISTAKES);
    for (words, message) in [
        ("list nothing u", "nothing: No such file or directory (os error 2)"),
        ("list g nothing", "nothing: No such file or directory (os error 2)"),
        ("list empty u", "empty:1:1: refused 3: there is no rule"),
        ("list g empty", "empty:1:1: refused 13: there is no slot"),
        ("check g u empty", "empty:1:1: the line ends where a weight should stand"),
        ("list weight u", "weight:1:11: refused 42: 65536 is too large: a weight is at most 65535"),
        ("list g word", "word:2:1: refused 14: the grammar has no word `y`"),
        ("lint latin", "latin: not UTF-8 (byte 0xfc, line 1): save it as UTF-8"),
        ("list g case", "case:1:1: refused 14: the grammar has no word `X`, but `x`, of another case: --fold takes both for one"),
        (
            "lint cut",
            "cut: refused 1: a field of the grammar block passes its end; and no text, for byte 0x10 in line 1",
        ),
        ("lint kind", "kind: refused 2: the grammar block's kind is not 1 or 4; and no text, for byte 0x00 in line 1"),
        ("list g slots", &format!("slots: {}; and no text, for byte 0xff in line 1", Refusal::UtteranceRange)),
        (
            "list g network",
            "network:1:7: a confusion network needs a scale by which posteriors become costs: add --scale X, such as 100",
        ),
        ("pack g -o no/folder", "no/folder: No such file or directory (os error 2)"),
    ] {
        assert_eq!(refused(run_in(&folder, words), 1), format!("{message}\n"), "{words}");
    }
    let list = run_in(&folder, "list g word --drop-unknown");
    let note = "word: left out, for the grammar does not have them: y\n";
    assert_eq!((list.status, list.out.as_str(), list.err.as_str()), (0, "1  7  x x\n", note));
    assert_eq!(run_in(&folder, "list g network --scale 100 --drop-deletes").status, 0);
}

#[test]
fn standard_input_stands_for_any_file() {
    let read = |name| std::fs::read(doors().join(name)).expect(name);
    let list = answer("list grammar.txt utterance.txt");
    for (words, file) in [
        ("list - utterance.txt", "grammar.txt"),
        ("list grammar.txt -", "utterance.txt"),
        ("list - utterance.bin", "grammar.txt"),
        ("list grammar.txt -", "utterance.bin"),
    ] {
        assert_eq!(answer_with(&doors(), words, &read(file)), list);
    }
    let empty = run_with(&doors(), "list grammar.txt -", b"");
    assert_eq!(refused(empty, 1), "<stdin>:1:1: refused 13: there is no slot\n");
    assert_eq!(answer_with(&doors(), "batch grammar.txt -", b""), "");
}

#[test]
fn commands_in_pipes() {
    let path = Path::new(PROGRAM).display();
    let shell = |script: String| {
        let run = output(Command::new("sh").args(["-c", &script]).current_dir(doors()), b"");
        assert!(run.status.success() && run.stderr.is_empty(), "{script}: {run:?}");
        String::from_utf8(run.stdout).expect("a text")
    };
    let piped = shell(format!("{path} pack grammar.txt utterance.txt | {path} list grammar.txt - -n 1"));
    assert_eq!(piped, "1  72  door twenty four oak fire thirty\n");
    let piped = shell(format!("{path} unpack grammar.bin | {path} pack - | cmp - grammar.bin && echo same"));
    assert_eq!(piped, "same\n");
    // a reader that has seen enough is no fault
    let lines = "door 1; four 1; oak 1\\n".repeat(100);
    let many = format!("i=0; while [ $i -lt 60 ]; do printf '{lines}'; i=$((i + 1)); done");
    let piped = shell(format!("({many}) 2>/dev/null | {path} batch grammar.txt - | head -n 1 | cut -c 1-9"));
    assert_eq!(piped, "{\"line\":1\n");
}

#[test]
fn no_colours_in_a_pipe() {
    for words in ["list grammar.txt utterance.txt --tree", "why grammar.txt utterance.txt 2", "--help"] {
        assert!(!answer(words).contains('\x1b'), "{words}");
    }
}

/// What the command prints on a terminal, which the program `script` makes; where there is none, this says so.
fn on_a_terminal(words: &str) -> Option<String> {
    on_a_terminal_with(words, &[])
}

/// The same with some variables of the environment.
fn on_a_terminal_with(words: &str, variables: &[(&str, &str)]) -> Option<String> {
    let mut script = Command::new("script");
    script.args(["-qec", &format!("{PROGRAM} {words}"), "/dev/null"]).current_dir(doors());
    script.env_remove("NO_COLOR").env("TERM", "xterm").envs(variables.iter().copied());
    let run = script.stdin(Stdio::null()).output();
    if run.is_err() {
        writeln!(std::io::stderr(), "skipped: no program `script` is installed").expect("standard error");
    }
    run.ok().map(|run| String::from_utf8(run.stdout).expect("a text"))
}

/// So many utterances take half a second or more, several times what passes before progress is shown.
const MANY: usize = 200_000;

/// Long work says how far it is, on a terminal only, and not among its answers.
#[test]
fn progress_on_a_terminal() {
    let lines = "door 1 | four 2; forty 1; glass 1 | oak 2; fire 1; thirty 2\n".repeat(MANY);
    let folder = folder("progress", &[("many.txt", lines.as_bytes())]);
    let many = folder.join("many.txt").display().to_string();
    let words = format!("batch grammar.txt {many} -n 1 -j 1");
    assert_eq!(answer(&words).lines().count(), MANY);
    let Some(shown) = on_a_terminal(&format!("{words} > {}", folder.join("answers").display())) else { return };
    assert!(shown.contains(" utterances, ") && shown.contains(" a second\x1b[K"), "{shown:?}");
    assert!(shown.ends_with("\r\x1b[K"), "{shown:?}");
    assert!(!on_a_terminal(&words).expect("a terminal").contains(" a second"));
}

/// Neither colours nor progress where the terminal knows no sequences, and no colours where nobody wants them.
#[test]
fn no_colours_on_a_terminal() {
    let folder = folder("dumb", &[("many.txt", "door 1; forty 1; glass 1 | oak 2\n".repeat(MANY).as_bytes())]);
    let [many, answers] = ["many.txt", "answers"].map(|name| folder.join(name).display().to_string());
    for words in [
        "list grammar.txt utterance.txt --tree",
        "why grammar.txt utterance.txt 2",
        "margins grammar.txt utterance.txt",
    ] {
        for (variable, value) in [("TERM", "dumb"), ("NO_COLOR", "1")] {
            let Some(shown) = on_a_terminal_with(words, &[(variable, value)]) else { return };
            assert_eq!(shown.replace("\r\n", "\n"), answer(words), "{variable}={value}");
        }
        let coloured = on_a_terminal_with(words, &[("NO_COLOR", "")]).expect("a terminal");
        assert!(coloured.contains('\x1b'), "{words}: {coloured:?}");
    }
    let batch = format!("batch grammar.txt {many} -n 1 -j 1 > {answers}");
    assert_eq!(on_a_terminal_with(&batch, &[("TERM", "dumb")]).expect("a terminal"), "");
}

#[test]
fn colours_on_a_terminal() {
    let Some(list) = on_a_terminal("list grammar.txt utterance.txt -n 2") else { return };
    assert!(list.contains("2  \x1b[1m80\x1b[0m  door twenty four oak fire \x1b[1;33msixty\x1b[0m"), "{list:?}");
    let refused = on_a_terminal("pack grammar.txt").expect("a terminal");
    assert!(
        refused.starts_with("spireyerba pack: a block is not for a terminal: give -o FILE, or a pipe"),
        "{refused:?}"
    );
}

/// A full disk is said, and is no answer.
#[test]
fn output_that_cannot_be_written() {
    let full = std::fs::OpenOptions::new().write(true).open("/dev/full").expect("/dev/full");
    let words = ["list", "grammar.txt", "utterance.txt"];
    let run = Command::new(PROGRAM).args(words).current_dir(doors()).stdout(Stdio::from(full)).output().expect("a run");
    assert_eq!(run.status.code(), Some(1));
    assert_eq!(run.stderr, b"<stdout>: No space left on device (os error 28)\n");
}

/// A name that is not UTF-8 names the file that the system has, and a message shows what can be shown of it.
#[test]
fn names_that_are_not_utf_8() {
    let files: [(&str, &[u8]); 5] = [
        ("g", b"A -> \"x\"\nB -> \"y\""),
        ("u", b"x 3"),
        ("s", b"- x"),
        ("l", b"M\xfc u\nM\xfcll\n"),
        ("k", b"k\n0 1 x 1,2,\n1\n"),
    ];
    let folder = folder("names", &files);
    for (from, to) in [("g", &b"T\xfcr"[..]), ("u", b"M\xfc u"), ("s", b"S\xfc"), ("l", b"L\xfc"), ("k", b"K\xfc")] {
        std::fs::copy(folder.join(from), folder.join(OsStr::from_bytes(to))).expect("a copy");
    }
    let run = |words: &[&[u8]]| {
        let run = output(
            Command::new(PROGRAM).current_dir(&folder).args(words.iter().map(|word| OsStr::from_bytes(word))),
            b"",
        );
        let [out, err] = [run.stdout, run.stderr].map(|text| String::from_utf8(text).expect("a text"));
        (run.status.code().expect("an end"), out, err)
    };
    let lint = "T\u{fffd}r:2:1: nothing uses `B`\nT\u{fffd}r: 2 of 32 symbols (30 left), 2 of 200 words (198 left), 2 of 256 rules (254 left)\n";
    assert_eq!(run(&[b"lint", b"T\xfcr"]), (0, lint.to_owned(), String::new()));
    let missing = "M\u{fffd}ll: No such file or directory (os error 2)";
    assert_eq!(run(&[b"lint", b"M\xfcll"]), (1, String::new(), format!("{missing}\n")));
    let fails = "S\u{fffd}:1: derived, with weight 0, and should not be: x\n";
    assert_eq!(run(&[b"test", b"T\xfcr", b"S\xfc"]), (1, fails.to_owned(), "S\u{fffd}: 1 of 1 failed\n".to_owned()));
    // files that are written have the name that was asked for
    for words in [
        &[&b"report"[..], b"g", b"u", b"-o", b"O\xfc"][..],
        &[b"schedule", b"g", b"u", b"--columns", b"A", b"--html", b"-o", b"O\xfc"],
        &[b"batch", b"g", b"u", b"--resume", b"O\xfc"],
    ] {
        assert_eq!(run(words).0, 0, "{words:?}");
        std::fs::remove_file(folder.join(OsStr::from_bytes(b"O\xfc"))).expect("the file that was written");
    }
    // and so have those that a list names
    let rows = format!("line,id,A,weight,note\r\n1,M\u{fffd} u,x,3,\r\n2,M\u{fffd}ll,,,{missing}\r\n");
    assert_eq!(run(&[b"schedule", b"g", b"--files", b"L\xfc", b"--columns", b"A"]), (0, rows, String::new()));
    let (status, answers, message) = run(&[b"batch", b"g", b"--files", b"L\xfc"]);
    assert_eq!((status, message), (1, format!("{missing}\n1 of 2 utterances refused\n")));
    assert!(answers.starts_with("{\"line\":1,\"id\":\"M\u{fffd} u\",\"readings\":[{\"rank\":1,"), "{answers}");
    // a file of lattices is a list of one
    assert!(run(&[b"batch", b"g", b"K\xfc", b"--scale", b"1"])
        .1
        .starts_with("{\"line\":1,\"id\":\"k\",\"readings\":[{\"rank\":1,"));
}

#[test]
fn words_that_differ_in_case_or_composition() {
    let folder = folder(
        "fold",
        &[("g", "A -> \"étage\" | \"Seven\"".as_bytes()), ("u", "e\u{301}tage 1".as_bytes()), ("v", b"SEVEN 2")],
    );
    let message = "u:1:1: refused 14: the grammar has no word `e\u{301}tage`, but `étage`, spelt with other code points: --fold takes both \
                   for one\n";
    assert_eq!(refused(run_in(&folder, "list g u"), 1), message);
    assert_eq!(answer_in(&folder, "list g u --fold"), "1  1  étage\n");
    assert_eq!(answer_in(&folder, "list g v --fold"), "1  2  Seven\n");
}
