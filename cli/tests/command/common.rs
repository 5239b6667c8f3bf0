//! The command run as a user runs it.

use spireyerba::Refusal;
use std::io::Write;
use std::path::{Path, PathBuf};
use std::process::{Command, Output, Stdio};

pub const PROGRAM: &str = env!("CARGO_BIN_EXE_spireyerba");

/// A folder of examples/.
pub fn example(name: &str) -> PathBuf {
    Path::new(env!("CARGO_MANIFEST_DIR")).join("../examples").join(name)
}

/// The folder of the door schedule.
pub fn doors() -> PathBuf {
    example("doors")
}

/// The folder of the door schedule as a word graph.
pub fn doors_graph() -> PathBuf {
    example("doors_graph")
}

/// A new folder of a test, with these files in it.
pub fn folder(name: &str, files: &[(&str, &[u8])]) -> PathBuf {
    let folder = Path::new(env!("CARGO_TARGET_TMPDIR")).join(name);
    if folder.exists() {
        std::fs::remove_dir_all(&folder).expect("the folder of an earlier run goes");
    }
    std::fs::create_dir_all(&folder).expect("a new folder");
    for (file, bytes) in files {
        std::fs::write(folder.join(file), bytes).expect("a new file");
    }
    folder
}

/// What a run of the command gave.
#[derive(Debug, PartialEq)]
pub struct Run {
    pub status: i32,
    pub out: String,
    pub err: String,
}

/// Runs the command in a folder with words that have no blanks in them, and something on standard input.
pub fn run_with(folder: &Path, words: &str, input: &[u8]) -> Run {
    let output = output(Command::new(PROGRAM).current_dir(folder).args(words.split_whitespace()), input);
    let text = |bytes| String::from_utf8(bytes).expect("a text");
    let status = output.status.code().expect("an end by itself");
    Run { status, out: text(output.stdout), err: text(output.stderr) }
}

/// Runs a command with something on standard input.
pub fn output(command: &mut Command, input: &[u8]) -> Output {
    let pipes = command.stdin(Stdio::piped()).stdout(Stdio::piped()).stderr(Stdio::piped());
    let mut child = pipes.spawn().unwrap_or_else(|fault| panic!("{command:?}: {fault}"));
    let mut stdin = child.stdin.take().expect("a pipe");
    let input = input.to_vec();
    // a command that ends early closes the pipe
    let writer = std::thread::spawn(move || stdin.write_all(&input).is_ok());
    let output = child.wait_with_output().expect("the command's output");
    writer.join().expect("the writer ends");
    output
}

/// Runs the command in a folder.
pub fn run_in(folder: &Path, words: &str) -> Run {
    run_with(folder, words, b"")
}

/// Runs the command over the door schedule.
pub fn run(words: &str) -> Run {
    run_in(&doors(), words)
}

/// What the command prints over the door schedule when it answers and has no messages.
pub fn answer(words: &str) -> String {
    answer_in(&doors(), words)
}

/// The same over the door schedule as a word graph.
pub fn answer_graph(words: &str) -> String {
    answer_in(&doors_graph(), words)
}

/// The same in a folder.
pub fn answer_in(folder: &Path, words: &str) -> String {
    answer_with(folder, words, b"")
}

/// The same in a folder, with something on standard input.
pub fn answer_with(folder: &Path, words: &str, input: &[u8]) -> String {
    answered(run_with(folder, words, input), words)
}

pub fn answered(run: Run, words: &str) -> String {
    assert_eq!((run.status, run.err.as_str()), (0, ""), "{words}");
    run.out
}

/// What the command says when it refuses and prints nothing.
pub fn refused(run: Run, status: i32) -> String {
    assert_eq!((run.status, run.out.as_str()), (status, ""), "{}", run.err);
    run.err
}

/// A check of readings from standard input refuses each of these so.
pub fn expect_refused_readings(check: impl Fn(&str) -> Run, rows: &[(&str, Refusal)]) {
    for (reading, refusal) in rows {
        assert_eq!(refused(check(reading), 1), format!("<stdin>: {refusal}\n"), "{reading}");
    }
}
