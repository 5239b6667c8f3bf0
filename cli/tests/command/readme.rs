//! What README shows of the command is what it prints.

use crate::common::answer_in;
use std::path::Path;

/// The lines of a text that are set off as code, each block by itself.
fn blocks(text: &str) -> Vec<Vec<&str>> {
    let mut blocks = vec![Vec::new()];
    for line in text.lines() {
        match line.strip_prefix("    ") {
            Some(code) => blocks.last_mut().expect("a block").push(code),
            None if !line.is_empty() => blocks.push(Vec::new()),
            None => {}
        }
    }
    blocks
}

#[test]
fn runs_of_the_command() {
    let root = Path::new(env!("CARGO_MANIFEST_DIR")).join("..");
    let readme = std::fs::read_to_string(root.join("README.md")).expect("README.md");
    let mut runs = 0;
    for block in blocks(&readme) {
        let Some((words, shown)) =
            block.split_first().and_then(|(first, rest)| Some((first.strip_prefix("$ spireyerba ")?, rest)))
        else {
            continue;
        };
        let out = answer_in(&root, words);
        assert_eq!(out.lines().collect::<Vec<_>>(), shown, "{words}");
        runs += 1;
    }
    assert!(runs >= 2, "README has the list in words and as a tree");
}

/// README's table has every command of the help, and no other.
#[test]
fn the_table_of_commands() {
    let root = Path::new(env!("CARGO_MANIFEST_DIR")).join("..");
    let readme = std::fs::read_to_string(root.join("README.md")).expect("README.md");
    let (_, table) = readme.split_once("| command | does |\n").expect("the table");
    let rows = table.lines().skip(1).take_while(|line| line.starts_with("| `"));
    let named = rows.flat_map(|row| row.split(" | ").next().unwrap_or_default().split(", "));
    let mut named: Vec<&str> =
        named.map(|command| command.trim_matches(['|', ' ', '`']).split(' ').next().unwrap_or_default()).collect();
    let help = answer_in(&root, "--help");
    let rows = help.lines().filter_map(|line| line.strip_prefix("  ")?.split(' ').next());
    let mut known: Vec<&str> = rows.filter(|name| !name.is_empty()).collect();
    named.sort_unstable();
    known.sort_unstable();
    assert_eq!(named, known);
}
