//! JSON, as much of it as is printed here.

use spireyerba::text::NamedGrammar;
use spireyerba::{Body, Edge, Heard, Part, Reading, Tree};
use std::io::Write;

/// Adds a string in quotes.
pub fn push_string(json: &mut Vec<u8>, text: &str) {
    json.push(b'"');
    for letter in text.chars() {
        match letter {
            '"' => json.extend(b"\\\""),
            '\\' => json.extend(b"\\\\"),
            letter if letter.is_control() => push_escape(json, letter),
            letter => json.extend(letter.encode_utf8(&mut [0; 4]).as_bytes()),
        }
    }
    json.push(b'"');
}

/// Adds a control character, none of which needs more than four digits.
fn push_escape(json: &mut Vec<u8>, letter: char) {
    write!(json, "\\u{:04x}", u32::from(letter)).expect("a list takes all");
}

/// Adds a whole number. Many are printed, and this is several times as fast as `write!`.
pub fn push_number(json: &mut Vec<u8>, number: u32) {
    let (mut digits, mut at, mut rest) = ([0; 10], 10, number);
    loop {
        at -= 1;
        digits[at] = b'0' + (rest % 10) as u8;
        rest /= 10;
        if rest == 0 {
            break;
        }
    }
    json.extend_from_slice(&digits[at..]);
}

/// Adds the name of a value that follows another.
pub fn push_key(json: &mut Vec<u8>, key: &str) {
    json.push(b',');
    push_string(json, key);
    json.push(b':');
}

/// Adds a list of numbers with its name.
pub fn push_numbers(json: &mut Vec<u8>, key: &str, numbers: impl Iterator<Item = u32>) {
    push_key(json, key);
    json.push(b'[');
    for number in numbers {
        push_number(json, number);
        json.push(b',');
    }
    end_list(json);
}

/// What a word graph was made of.
#[derive(Clone, Copy, Default)]
pub struct Origin<'a> {
    /// The slot of each edge, if it was slots.
    pub slots: Option<&'a [u32]>,
    /// The link of each edge, if it was a lattice.
    pub links: &'a [u32],
    /// When each place was reached, if that is known, and the edges.
    pub times: Option<(&'a [f64], &'a [Edge])>,
}

impl<'a> Origin<'a> {
    pub fn new(heard: &'a Heard, slots: Option<&'a [u32]>, links: &'a [u32], times: Option<&'a [f64]>) -> Self {
        let edges: &[Edge] = match heard {
            Heard::Graph(graph) => &graph.edges,
            Heard::Slots(_) => &[],
        };
        Self { slots, links, times: times.map(|times| (times, edges)) }
    }
}

/// Adds where the words of a reading were heard: the slots, if slots became a word graph; or else the edges of a graph, and of a
/// lattice the links, and when each word began and ended if that is known.
pub fn push_path(json: &mut Vec<u8>, reading: &Reading, origin: Origin) {
    let Some(path) = &reading.path else { return };
    let all = |of: &'_ [u32]| path.iter().map(|edge| of[*edge as usize]).collect::<Vec<_>>();
    if let Some(slots) = origin.slots {
        return push_numbers(json, "slots", all(slots).into_iter());
    }
    push_numbers(json, "edges", path.iter().copied());
    if !origin.links.is_empty() {
        push_numbers(json, "links", all(origin.links).into_iter());
    }
    if let Some((times, edges)) = origin.times {
        push_key(json, "times");
        json.push(b'[');
        for edge in path.iter().map(|edge| edges[*edge as usize]) {
            let [from, to] = [edge.from, edge.to].map(|place| in_milliseconds(times[place as usize]));
            write!(json, "[{from},{to}],").expect("a list takes all");
        }
        end_list(json);
    }
}

/// A time in seconds without digits that say nothing.
fn in_milliseconds(time: f64) -> f64 {
    let rounded = (time * 1e3).round() / 1e3;
    if rounded.is_finite() {
        rounded
    } else {
        time
    }
}

/// Adds a list of strings.
pub fn push_words<'a>(json: &mut Vec<u8>, words: impl Iterator<Item = &'a str>) {
    json.push(b'[');
    for word in words {
        push_string(json, word);
        json.push(b',');
    }
    end_list(json);
}

/// Ends a list in which a comma stands behind each item.
pub fn end_list(json: &mut Vec<u8>) {
    if json.last() == Some(&b',') {
        json.pop();
    }
    json.push(b']');
}

/// Ends a reading in a list.
pub fn end_reading(json: &mut Vec<u8>) {
    json.extend_from_slice(b"},");
}

/// The bytes that are copied at once.
const SHORT: usize = 16;

/// A piece of JSON that is added many times. A short one is copied whole and then cut, which takes no call.
struct Piece {
    short: [u8; SHORT],
    length: usize,
    /// The piece, if it is long.
    long: Box<[u8]>,
}

impl Piece {
    fn new(bytes: &[u8]) -> Self {
        let (mut short, length) = ([0; SHORT], bytes.len());
        match short.get_mut(..length) {
            Some(front) => {
                front.copy_from_slice(bytes);
                Self { short, length, long: Box::default() }
            }
            None => Self { short, length, long: bytes.into() },
        }
    }

    fn push(&self, json: &mut Vec<u8>) {
        if self.long.is_empty() {
            let end = json.len() + self.length;
            json.extend_from_slice(&self.short);
            json.truncate(end);
        } else {
            json.extend_from_slice(&self.long);
        }
    }
}

/// Adds what a tree becomes, if the grammar's rules say it.
pub fn push_translation(json: &mut Vec<u8>, named: &NamedGrammar, tree: &Tree) {
    if named.has_translations() {
        push_key(json, "translation");
        push_string(json, &named.translation(tree));
    }
}

/// The word, if it has one, of each rule of a grammar and the numbers of the text's rules whose nodes it makes, as they stand in
/// lists, written once for many readings.
pub struct Names {
    words: Vec<Option<Piece>>,
    rules: Vec<Piece>,
}

impl Names {
    pub fn new(named: &NamedGrammar) -> Self {
        let rules = &named.grammar.rules;
        let word = |body| match body {
            Body::Pair(..) => None,
            Body::Word(word) => {
                let mut json = Vec::new();
                push_string(&mut json, named.word(word));
                json.push(b',');
                Some(Piece::new(&json))
            }
        };
        let numbers = |rule| named.rules_shown(rule).iter().map(|rule| format!("{rule},")).collect::<String>();
        let words = rules.iter().map(|rule| word(rule.body)).collect();
        Self { words, rules: (0..rules.len()).map(|rule| Piece::new(numbers(rule as u32).as_bytes())).collect() }
    }

    /// Adds a reading but for its end: rank, if it has one, weight, words and rules.
    pub fn begin_reading(&self, json: &mut Vec<u8>, rank: Option<u32>, reading: &Reading) {
        json.push(b'{');
        if let Some(rank) = rank {
            json.extend_from_slice(b"\"rank\":");
            push_number(json, rank);
            json.push(b',');
        }
        json.extend_from_slice(b"\"weight\":");
        push_number(json, reading.weight);
        json.extend_from_slice(b",\"words\":[");
        let words = reading.walk.iter().filter_map(|rule| self.words[*rule as usize].as_ref());
        words.for_each(|word| word.push(json));
        end_list(json);
        json.extend_from_slice(b",\"rules\":[");
        reading.walk.iter().for_each(|rule| self.rules[*rule as usize].push(json));
        end_list(json);
    }
}

/// Adds a tree: a list of its symbol and its parts, of which a word is a string.
pub fn push_tree(json: &mut Vec<u8>, grammar: &NamedGrammar, tree: &Tree) {
    json.push(b'[');
    push_string(json, grammar.symbol(tree.head));
    for part in &tree.parts {
        json.push(b',');
        match part {
            Part::Word { word, .. } => push_string(json, grammar.word(*word)),
            Part::Tree(tree) => push_tree(json, grammar, tree),
        }
    }
    json.push(b']');
}

#[cfg(test)]
mod tests {
    use super::*;

    fn pushed(push: impl FnOnce(&mut Vec<u8>)) -> String {
        let mut json = Vec::new();
        push(&mut json);
        String::from_utf8(json).expect("a text")
    }

    #[test]
    fn strings_and_numbers() {
        assert_eq!(pushed(|json| push_string(json, "a \"b\"\\ \t\u{7f}ü")), r#""a \"b\"\\ \u0009\u007fü""#);
        for number in [0, 9, 10, 65_535, u32::MAX] {
            assert_eq!(pushed(|json| push_number(json, number)), number.to_string());
        }
    }

    #[test]
    fn pieces_of_any_length() {
        for length in [0, 1, 15, 16, 17, 40] {
            let text = "x".repeat(length);
            assert_eq!(pushed(|json| Piece::new(text.as_bytes()).push(json)), text);
        }
    }
}
