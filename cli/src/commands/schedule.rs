//! `schedule`: a row for each utterance.

use super::batch::{are_lattices, named, read_all, refuse_other, Line};
use super::Command;
use crate::failure::Failure;
use crate::files::{self, File, GrammarFile};
use crate::names::shown;
use crate::no_reading::NoReading;
use crate::options::{
    Arguments, CLOSE, COLUMNS, DROP_DELETES, DROP_UNKNOWN, EMPTY, EXACT, FILE, FILES, FOLD, FORMAT, HTML, PATHS, SAID,
    SCALE, SKIP,
};
use crate::output::Output;
use crate::rows::{csv, html, Row};
use crate::words::{Entry, Words};
use spireyerba::limits::MAX_READINGS;
use spireyerba::text::{nearest, Lattice, UtteranceReader};
use spireyerba::{Error, Part, Reading, Refusal, Tree};

pub const COMMAND: Command = Command {
    name: "schedule",
    operands: &["GRAMMAR", "FILE"],
    needed: 1,
    options: &[
        COLUMNS,
        CLOSE,
        HTML,
        FILES,
        FILE,
        FORMAT,
        SAID,
        SKIP,
        SCALE,
        FOLD,
        DROP_UNKNOWN,
        DROP_DELETES,
        EMPTY,
        PATHS,
        EXACT,
    ],
    summary: "write a table with a row for each utterance, the columns of which are symbols",
    details: "\
A line of the file has an utterance or a word graph, with or without a name before a tab, as for `batch`; of a file with
lattices, and of each that --files names, every lattice is a row. A column has what the first node of its symbol becomes in
the first reading, the last ones the weight and a note: what the next reading with another row has in a column, if it weighs
at most W more, or why there is no reading. Those are the rows to look at. Readings are compared up to the 256th.",
    example: "spireyerba schedule grammar.txt utterances.txt --columns Number,Leaf --close 10",
    run,
};

/// What the readings of an utterance make of its row.
struct Found {
    cells: Vec<String>,
    weight: u32,
    other: Other,
}

/// Another row of an utterance.
enum Other {
    /// No reading that is close has another.
    None,
    /// The first reading that is close and has another has these cells.
    Cells(Vec<String>),
    /// As many readings as can be listed are close and have the same cells, and there may be more.
    UsedUp,
}

/// Readings among which another row is looked for: more of them where all so far are close and have the same cells.
const LOOKED_AT: [u32; 3] = [2, 16, MAX_READINGS];

fn run(arguments: &Arguments, output: &mut Output) -> Result<(), Failure> {
    let grammar = files::grammar(arguments.operands[0])?;
    let words = Words::new(arguments, &grammar.named)?;
    let mut reader = files::utterance_reader(arguments, &grammar.named)?;
    reader.keep_unknown = words.may_skip();
    let (operand, are_files) = named(arguments)?;
    let name = &files::name_of(operand);
    let (columns, close) = (columns(arguments, &grammar)?, arguments.number(&CLOSE)?.unwrap_or(0));
    let schedule = Schedule { columns, close, reader, words, grammar: &grammar, name };
    let rows = match are_files {
        true => files::list(operand)?.iter().flat_map(|(before, line)| schedule.rows_of_file(*before, line)).collect(),
        false => schedule.rows(&File::read(operand)?.text(|text| Ok(text.to_owned()))?)?,
    };
    let names: Vec<&str> = schedule.columns.iter().map(|symbol| grammar.named.symbol(*symbol)).collect();
    let text = if arguments.has(&HTML) { html(&names, &rows, name) } else { csv(&names, &rows) };
    files::write(arguments, output, text.as_bytes())
}

/// The symbols that the command line names.
fn columns(arguments: &Arguments, grammar: &GrammarFile) -> Result<Vec<u32>, Failure> {
    let Some(names) = arguments.value(&COLUMNS) else {
        return Err(arguments.wrong("--columns is missing: the symbols that are the columns, such as Number,Leaf"));
    };
    let own = &grammar.named.symbols[..grammar.named.own_symbols() as usize];
    let number = |name: &str| match own.iter().position(|own| own == name) {
        Some(number) => Ok(number as u32),
        None => {
            let meant = nearest(name, own.iter().map(String::as_str));
            let meant = meant.map_or(String::new(), |meant| format!(" (did you mean `{meant}`?)"));
            Err(arguments.wrong(format!("--columns: the grammar has no symbol `{name}`{meant}")))
        }
    };
    let names: Vec<&str> = names.split(',').map(str::trim).collect();
    match names.contains(&"") {
        true => Err(arguments.wrong("--columns: a name is missing beside a comma")),
        false => names.into_iter().map(number).collect(),
    }
}

struct Schedule<'a> {
    grammar: &'a GrammarFile,
    columns: Vec<u32>,
    /// How much more another reading may weigh that is noted.
    close: u32,
    reader: UtteranceReader<'a>,
    /// Words that are known for certain, and words too many.
    words: Words<'a>,
    /// The name of the file in messages.
    name: &'a str,
}

impl Schedule<'_> {
    /// The rows of a text: of each lattice, or of each line.
    fn rows(&self, text: &str) -> Result<Vec<Row>, Failure> {
        if !are_lattices(text, self.reader.format) {
            if self.reader.format.is_none() {
                refuse_other(self.name, text, |line| self.has_reading(line))?;
            }
            let lines = files::lines_of(text);
            return Ok(lines.map(|(before, line)| self.row_of_line(&Line::new(line, before))).collect());
        }
        let line = Line::new(text, 0);
        Ok(match read_all(&self.words, &self.reader, text) {
            Err(error) => vec![self.refused(&line, None, error.in_file(self.name).to_string())],
            Ok(lattices) => {
                lattices.iter().map(|entry| self.row_of(&line, None, &entry.place(self.name), entry)).collect()
            }
        })
    }

    /// Whether a line can be read and has a reading.
    fn has_reading(&self, line: &Line) -> bool {
        let changed = self.words.read(&self.reader, line.heard).ok().and_then(|entry| entry.changed.ok());
        let readings = changed.and_then(|changed| self.grammar.packed.list(&changed.lattice.heard, 1).ok());
        readings.is_some_and(|readings| !readings.is_empty())
    }

    fn row_of_line(&self, line: &Line) -> Row {
        let place = format!("{}:{}", self.name, line.before + 1);
        match self.words.read(&self.reader, line.heard) {
            Ok(entry) => self.row_of(line, line.name, &place, &entry),
            Err(error) => {
                let error = error.in_file(self.name).after_columns(line.columns()).after_lines(line.before);
                self.refused(line, line.name, error.to_string())
            }
        }
    }

    /// The rows of the lattices of a file that a line names.
    fn rows_of_file(&self, before: usize, line: &str) -> Vec<Row> {
        let line = Line::new(line, before);
        let file = line.heard.trim();
        let read = File::read(file).and_then(|file| file.text(|text| read_all(&self.words, &self.reader, text)));
        match read {
            Err(failure) => {
                vec![self.refused(&line, Some(&shown(line.name_of(None, true))), failure.message().to_owned())]
            }
            Ok(lattices) => {
                let is_alone = lattices.len() == 1;
                let row = |entry: &Entry| {
                    let id = shown(line.name_of(entry.id.as_deref(), is_alone));
                    self.row_of(&line, Some(&id), &entry.place(&shown(file)), entry)
                };
                lattices.iter().map(row).collect()
            }
        }
    }

    /// The row of what was heard at some place, with its own name if none is given, or of why it is not as the command line says.
    fn row_of(&self, line: &Line, id: Option<&str>, place: &str, entry: &Entry) -> Row {
        let id = id.or(entry.id.as_deref());
        let lattice = match &entry.changed {
            Ok(changed) => &changed.lattice,
            Err(why) => return self.refused(line, id, format!("{place}: {}", why.reason)),
        };
        let missing = lattice.notes().join("; ");
        match self.first_of(lattice) {
            Ok(Ok(Found { cells, weight, other })) => {
                let (note, other) = match other {
                    Other::None => (String::new(), None),
                    Other::Cells(other) => (self.note(&cells, &other), Some(other)),
                    Other::UsedUp => (format!("{MAX_READINGS} readings have this row, and more may be close"), None),
                };
                Row { cells, weight: Some(weight), other, missing, ..self.refused(line, id, note) }
            }
            Ok(Err(none)) => Row { missing, ..self.refused(line, id, none) },
            Err(refusal) => Row { missing, ..self.refused(line, id, Error::from(refusal).in_file(place).to_string()) },
        }
    }

    /// The cells and the weight of the first reading, and the cells of another that is close; or why there is no reading.
    fn first_of(&self, lattice: &Lattice) -> Result<Result<Found, String>, Refusal> {
        for most in LOOKED_AT {
            let readings = self.grammar.packed.list(&lattice.heard, most)?;
            let Some(first) = readings.first() else {
                let none = NoReading::new(&self.grammar.named, &lattice.heard)?;
                return Ok(Err(none.message().replace("\n  ", "; ")));
            };
            let (cells, weight) = (self.cells(first), first.weight);
            let is_close = |other: &&Reading| other.weight - weight <= self.close;
            let mut others = readings.iter().take_while(is_close).map(|other| self.cells(other));
            let are_all = readings.len() < most as usize || readings.last().is_some_and(|last| !is_close(&last));
            let other = match others.find(|other| *other != cells) {
                Some(other) => Other::Cells(other),
                None if are_all => Other::None,
                None if most < MAX_READINGS => continue,
                None => Other::UsedUp,
            };
            return Ok(Ok(Found { cells, weight, other }));
        }
        unreachable!("the last of the numbers looked at ends it")
    }

    /// A row without a reading, with the reason.
    fn refused(&self, line: &Line, id: Option<&str>, note: String) -> Row {
        let cells = vec![String::new(); self.columns.len()];
        let id = id.map(str::to_owned);
        Row { line: line.before + 1, id, cells, weight: None, other: None, note, missing: String::new() }
    }

    /// What the first node of each column's symbol becomes in a reading.
    fn cells(&self, reading: &Reading) -> Vec<String> {
        let named = &self.grammar.named;
        let tree = named.tree(reading);
        let node = |symbol: &u32| tree.as_ref().and_then(|tree| first_node(tree, *symbol));
        self.columns.iter().map(|symbol| node(symbol).map_or(String::new(), |node| named.translation(node))).collect()
    }

    /// In which columns another reading has something else.
    fn note(&self, cells: &[String], other: &[String]) -> String {
        let columns = self.columns.iter().zip(cells.iter().zip(other)).filter(|(_, (cell, other))| cell != other);
        let notes = columns.map(|(symbol, (_, other))| {
            let other = if other.is_empty() { "nothing" } else { other };
            format!("{}: or {other}", self.grammar.named.symbol(*symbol))
        });
        notes.collect::<Vec<_>>().join("; ")
    }
}

/// The first node of a symbol, a node before what is below it.
fn first_node(tree: &Tree, symbol: u32) -> Option<&Tree> {
    if tree.head == symbol {
        return Some(tree);
    }
    tree.parts.iter().find_map(|part| match part {
        Part::Word { .. } => None,
        Part::Tree(tree) => first_node(tree, symbol),
    })
}

#[cfg(test)]
mod tests {
    use super::*;

    /// What stands in damaged lists of columns.
    const PIECES: [&str; 9] = ["Number", "Leaf", ",", "", " ", "leaf", "Nubmer", "\u{301}", "\"--"];

    /// Any list of columns is answered with symbols, or refused with a message.
    #[test]
    fn damaged_columns() {
        let text = "Entry -> Number Leaf\nNumber -> \"four\"\nLeaf -> \"oak\"";
        let (named, places) = spireyerba::text::NamedGrammar::parse_with_places(text).expect("a grammar");
        let packed = named.packed().expect("a grammar");
        let grammar = GrammarFile { name: "g".into(), named, packed, places: Some(places) };
        let (mut taken, mut refused) = (0, 0);
        for mut number in 0..PIECES.len().pow(5) {
            let mut list = String::from("--columns=");
            while number > 0 {
                list += PIECES[number % PIECES.len()];
                number /= PIECES.len();
            }
            let words = ["g", "u", &list].map(str::to_owned);
            let arguments = Arguments::parse(&COMMAND, &words).expect("an option");
            match columns(&arguments, &grammar) {
                Ok(columns) => {
                    taken += 1;
                    let names: Vec<&str> = columns.iter().map(|symbol| grammar.named.symbol(*symbol)).collect();
                    assert_eq!(names.join(","), list["--columns=".len()..].replace(' ', ""));
                }
                Err(failure) => {
                    refused += 1;
                    assert!(failure.message().starts_with("--columns: "), "{list}");
                }
            }
        }
        assert!(taken > 100 && refused > 10_000, "{taken} taken, {refused} refused");
    }
}
