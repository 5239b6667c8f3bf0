//! Which symbols of a grammar's text the start uses.

use spireyerba::text::NamedGrammar;
use spireyerba::Body;
use std::collections::BTreeSet;

/// A symbol that the start does not use.
pub struct Unused {
    pub symbol: u32,
    /// Whether no rule of another symbol has it.
    pub is_in_no_rule: bool,
}

/// The symbols that the start does not use, but for those that one of them uses.
pub fn unused(named: &NamedGrammar) -> Vec<Unused> {
    let mentioned: Vec<BTreeSet<u32>> = (0..named.own_symbols()).map(|symbol| mentioned_by(named, symbol)).collect();
    let is_in_no_rule =
        |symbol: u32| (0..).zip(&mentioned).all(|(head, symbols)| head == symbol || !symbols.contains(&symbol));
    let mut known = reached(&mentioned, 0, &BTreeSet::new());
    let mut list = Vec::new();
    // first those that no rule has, then one of each circle
    let [first, rest]: [Vec<u32>; 2] = [true, false]
        .map(|wanted| (0..named.own_symbols()).filter(|symbol| is_in_no_rule(*symbol) == wanted).collect());
    for symbol in first.into_iter().chain(rest) {
        if !known.contains(&symbol) {
            list.push(Unused { symbol, is_in_no_rule: is_in_no_rule(symbol) });
            known.extend(reached(&mentioned, symbol, &known));
        }
    }
    list
}

/// The symbols that one uses, itself among them, but for what those use that are known.
fn reached(mentioned: &[BTreeSet<u32>], from: u32, known: &BTreeSet<u32>) -> BTreeSet<u32> {
    let (mut reached, mut open) = (BTreeSet::from([from]), vec![from]);
    while let Some(symbol) = open.pop() {
        let new = mentioned[symbol as usize].iter().filter(|symbol| !known.contains(symbol));
        open.extend(new.copied().filter(|symbol| reached.insert(*symbol)));
    }
    reached
}

/// The symbols of the text in the rules of one.
fn mentioned_by(named: &NamedGrammar, symbol: u32) -> BTreeSet<u32> {
    let (mut mentioned, mut helpers, mut open) = (BTreeSet::new(), BTreeSet::new(), vec![symbol]);
    while let Some(head) = open.pop() {
        let rules = (0..).zip(&named.grammar.rules).filter(|(_, rule)| rule.head == head);
        let symbols = rules.flat_map(|(number, rule)| {
            // a symbol alone in a body is in the rule that took over its own
            let alone = named.rules_shown(number).into_iter().skip(1).map(|rule| named.head(rule));
            let parts = match rule.body {
                Body::Pair(first, second) => vec![first, second],
                Body::Word(_) => Vec::new(),
            };
            alone.chain(parts).collect::<Vec<u32>>()
        });
        for symbol in symbols {
            if symbol < named.own_symbols() {
                mentioned.insert(symbol);
            } else if helpers.insert(symbol) {
                open.push(symbol);
            }
        }
    }
    mentioned
}
