//! `lint`: what a grammar has that is of no use.

use super::Command;
use crate::failure::Failure;
use crate::files::{self, GrammarFile};
use crate::options::Arguments;
use crate::output::Output;
use crate::reach::{unused, Unused};
use spireyerba::limits::{MAX_RULES, MAX_SLOTS, MAX_SYMBOLS, MAX_WORDS};
use spireyerba::text::{shortened, Places};
use spireyerba::{Body, Error, Grammar, Position, Refusal, Rule};

pub const COMMAND: Command = Command {
    name: "lint",
    operands: &["GRAMMAR"],
    needed: 1,
    options: &[],
    summary: "find symbols that derive nothing, and symbols, rules and words of no use",
    details: "\
Nothing means: no string of 24 words or fewer, which is what an utterance has room for; then the exit status is 1, as for a
grammar that cannot be read. What is of no use is a warning. The last line says how much room a grammar has left.",
    example: "spireyerba lint grammar.txt",
    run,
};

fn run(arguments: &Arguments, output: &mut Output) -> Result<(), Failure> {
    let file = files::grammar(arguments.operands[0])?;
    let named = &file.named;
    let shortest = shortest_strings(&named.grammar).map_err(Error::from)?;
    let derives_nothing: Vec<u32> =
        (0..named.own_symbols()).filter(|symbol| shortest[*symbol as usize].is_none()).collect();
    for &symbol in &derives_nothing {
        let what = format!("`{}` derives nothing: no string of {MAX_SLOTS} words or fewer", named.symbol(symbol));
        output.line(&found(&file, |places| places.symbols[symbol as usize], &what))?;
    }
    warnings(&file, &shortest, output)?;
    output.line(&room(&file))?;
    match derives_nothing.len() {
        0 => Ok(()),
        1 => Err(Failure::Refused(format!("{}: a symbol derives nothing", file.name))),
        count => Err(Failure::Refused(format!("{}: {count} symbols derive nothing", file.name))),
    }
}

/// Symbols, rules and words that no derivation uses, the cause alone.
fn warnings(file: &GrammarFile, shortest: &[Option<u32>], output: &mut Output) -> Result<(), Failure> {
    let (named, grammar) = (&file.named, &file.named.grammar);
    for Unused { symbol, is_in_no_rule } in unused(named) {
        let what = match is_in_no_rule {
            true => format!("nothing uses `{}`", named.symbol(symbol)),
            false => format!("nothing that `{}` derives uses `{}`", named.symbol(0), named.symbol(symbol)),
        };
        output.line(&found(file, |places| places.symbols[symbol as usize], &what))?;
    }
    for rule in too_long(file, shortest) {
        let what = format!("with rule {rule}, {}, nothing has {MAX_SLOTS} words or fewer", named.rule_text(rule));
        output.line(&found(file, |places| places.rules[rule as usize], &what))?;
    }
    for word in (0..grammar.words).filter(|&word| !grammar.rules.iter().any(|rule| rule.body == Body::Word(word))) {
        let what = format!("no rule has the word {}", named.word(word));
        output.line(&found(file, |places| places.words[word as usize], &what))?;
    }
    Ok(())
}

/// The rules of the text that the start could use if an utterance had more room. Where a symbol derives nothing that comes first.
fn too_long(file: &GrammarFile, shortest: &[Option<u32>]) -> Vec<u32> {
    let (named, grammar) = (&file.named, &file.named.grammar);
    if shortest.contains(&None) {
        return Vec::new();
    }
    let beside = words_beside(grammar, shortest);
    // where even the shortest string of the head is too long, the rules above it say so
    let has_room = |head: usize| Some(beside[head]? + shortest[head]? <= MAX_SLOTS);
    let is_explained =
        |rule: &Rule| !has_room(rule.head as usize).unwrap_or(false) || body_length(rule, shortest).is_none();
    let [used, explained] = [used_rules(grammar, shortest), grammar.rules.iter().map(is_explained).collect()]
        .map(|some| in_text(file, &some));
    (0..named.own_rules()).filter(|&rule| !used[rule as usize] && !explained[rule as usize]).collect()
}

/// A line about something at a place of the text, if it was a text.
fn found(file: &GrammarFile, place: impl FnOnce(&Places) -> Position, what: &str) -> String {
    let what = shortened(what);
    match file.places.as_ref().map(place) {
        Some(Position { line, column }) => format!("{}:{line}:{column}: {what}", file.name),
        None => format!("{}: {what}", file.name),
    }
}

/// How much of everything the grammar has, what the helpers of an office's rules take, and what is left.
fn room(file: &GrammarFile) -> String {
    let (named, Grammar { symbols, words, rules }) = (&file.named, &file.named.grammar);
    let counts = [
        ("symbols", named.own_symbols(), *symbols, MAX_SYMBOLS),
        ("words", *words, *words, MAX_WORDS),
        ("rules", named.own_rules(), rules.len() as u32, MAX_RULES),
    ];
    let parts = counts.map(|(what, own, all, limit)| {
        let helpers = if own == all { String::new() } else { format!(" and {} for helpers", all - own) };
        format!("{own} of {limit} {what}{helpers} ({} left)", limit - all)
    });
    format!("{}: {}", file.name, parts.join(", "))
}

/// The length of the shortest string that each symbol derives, if an utterance has room for one: the library's specimens of
/// the grammar that starts with that symbol.
fn shortest_strings(grammar: &Grammar) -> Result<Vec<Option<u32>>, Refusal> {
    let shortest = |symbol| {
        let grammar = started_with(grammar, symbol);
        for length in 1..=MAX_SLOTS {
            if grammar.specimen(length)?.is_some() {
                return Ok(Some(length));
            }
        }
        Ok(None)
    };
    (0..grammar.symbols).map(shortest).collect()
}

/// The grammar with another start: that symbol and symbol 0 change their numbers.
fn started_with(grammar: &Grammar, start: u32) -> Grammar {
    let renumbered = |symbol| match symbol {
        0 => start,
        symbol if symbol == start => 0,
        symbol => symbol,
    };
    let rule = |rule: &Rule| Rule {
        head: renumbered(rule.head),
        body: match rule.body {
            Body::Pair(first, second) => Body::Pair(renumbered(first), renumbered(second)),
            word => word,
        },
        ..*rule
    };
    Grammar { rules: grammar.rules.iter().map(rule).collect(), ..*grammar }
}

/// Whether some derivation over as many slots as an utterance may have uses each rule.
fn used_rules(grammar: &Grammar, shortest: &[Option<u32>]) -> Vec<bool> {
    let beside = words_beside(grammar, shortest);
    let fits = |rule: &Rule| {
        let length = body_length(rule, shortest)?;
        Some(beside[rule.head as usize]? + length <= MAX_SLOTS)
    };
    grammar.rules.iter().map(|rule| fits(rule).unwrap_or(false)).collect()
}

/// Whether one of the rules that a rule of the text becomes is among some, of each of them.
fn in_text(file: &GrammarFile, some: &[bool]) -> Vec<bool> {
    let mut in_text = vec![false; file.named.own_rules() as usize];
    for (rule, _) in (0..).zip(some).filter(|(_, is_one)| **is_one) {
        let shown = file.named.rules_shown(rule).into_iter();
        shown.filter(|rule| *rule < file.named.own_rules()).for_each(|rule| in_text[rule as usize] = true);
    }
    in_text
}

/// The length of the shortest string that a rule's body derives.
fn body_length(rule: &Rule, shortest: &[Option<u32>]) -> Option<u32> {
    match rule.body {
        Body::Word(_) => Some(1),
        Body::Pair(first, second) => Some(shortest[first as usize]? + shortest[second as usize]?),
    }
}

/// The least number of words that stand beside each symbol in a string that the start derives, if it is in one.
fn words_beside(grammar: &Grammar, shortest: &[Option<u32>]) -> Vec<Option<u32>> {
    let mut beside = vec![None; grammar.symbols as usize];
    beside[0] = Some(0);
    // a path from the start to a symbol passes each other symbol at most once
    for _ in 0..grammar.symbols {
        for rule in &grammar.rules {
            let (Body::Pair(first, second), Some(outside)) = (rule.body, beside[rule.head as usize]) else { continue };
            for (part, other) in [(first, second), (second, first)] {
                let Some(length) = shortest[other as usize] else { continue };
                let known = beside[part as usize].unwrap_or(u32::MAX);
                beside[part as usize] = Some(known.min(outside + length));
            }
        }
    }
    beside
}
