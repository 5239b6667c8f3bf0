//! The command line. An option means the same in every command that has it.

use crate::commands::Command;
use crate::failure::Failure;
use spireyerba::limits::MAX_READINGS;
use spireyerba::text::nearest;
use std::str::FromStr;

/// An option, as `--long`, and some as `-s` too.
#[derive(Debug)]
pub struct Opt {
    pub long: &'static str,
    pub short: Option<char>,
    /// The name of its value in the help, if it has one.
    pub value: Option<&'static str>,
    pub help: &'static str,
}

pub const WANTED: Opt =
    Opt { long: "number", short: Some('n'), value: Some("N"), help: "list so many readings, 1 to 256; 8 unless given" };
pub const PANEL_WANTED: Opt =
    Opt { long: "number", short: Some('n'), value: Some("N"), help: "list so many readings, 1 to 16; 8 unless given" };
pub const TREE: Opt = Opt { long: "tree", short: None, value: None, help: "draw each reading as a tree" };
pub const RULES: Opt =
    Opt { long: "rules", short: None, value: None, help: "print rule numbers, as the program lister does" };
pub const JSON: Opt = Opt { long: "json", short: None, value: None, help: "print one line of JSON, for programs" };
pub const SAID: Opt = Opt {
    long: "said",
    short: None,
    value: Some("[SLOT=]WORD"),
    help: "the word is known for certain: strike out the slot's others, slots count from 0; or keep the paths that have it",
};
pub const SKIP: Opt = Opt {
    long: "skip",
    short: None,
    value: Some("COST"),
    help: "words too many: each may be passed over at this cost, and words that the grammar does not have are",
};
pub const DISTINCT: Opt = Opt {
    long: "distinct",
    short: None,
    value: None,
    help: "each sentence once: of readings with the same words the first; (+2 trees) counts the others",
};
pub const EVERY_TREE: Opt = Opt {
    long: "every-tree",
    short: None,
    value: None,
    help: "every reading, also if one before it has the same words",
};
pub const WORDS: Opt = Opt {
    long: "words",
    short: None,
    value: Some("SENTENCE"),
    help: "words that were said, in place of UTTERANCE: each at no cost",
};
pub const SAY: Opt =
    Opt { long: "say", short: None, value: None, help: "print what a reading becomes beside its words" };
pub const COLUMNS: Opt = Opt {
    long: "columns",
    short: None,
    value: Some("SYMBOL,.."),
    help: "the symbols whose translations are the columns",
};
pub const CLOSE: Opt = Opt {
    long: "close",
    short: None,
    value: Some("W"),
    help: "mark rows where another reading weighs at most W more and has another column; 0 unless given",
};
pub const HTML: Opt = Opt { long: "html", short: None, value: None, help: "write a page in place of CSV" };
pub const FILE: Opt =
    Opt { long: "output", short: Some('o'), value: Some("FILE"), help: "write to a file, not to standard output" };
pub const SCALE: Opt = Opt {
    long: "scale",
    short: None,
    value: Some("X"),
    help: "networks and lattices: a cost is -X times the logarithm of a posterior or of a likelihood",
};
pub const NETWORK: Opt = Opt {
    long: "network",
    short: None,
    value: None,
    help: "write the utterance as a confusion network; needs --scale",
};
pub const LATTICE: Opt = Opt {
    long: "lattice",
    short: None,
    value: None,
    help: "write the word graph as a lattice in HTK's standard format; needs --scale",
};
pub const FOLD: Opt = Opt {
    long: "fold",
    short: None,
    value: None,
    help: "take words for one that differ only in case or in the composition of letters",
};
pub const DROP_UNKNOWN: Opt =
    Opt { long: "drop-unknown", short: None, value: None, help: "leave out words that the grammar does not have" };
pub const DROP_DELETES: Opt =
    Opt { long: "drop-deletes", short: None, value: None, help: "confusion networks: leave out *DELETE*" };
pub const EMPTY: Opt = Opt {
    long: "empty",
    short: None,
    value: Some("WORD"),
    help: "lattices: nobody says this word, such as one for silence; it is as !NULL",
};
pub const FORMAT: Opt = Opt {
    long: "format",
    short: None,
    value: Some("NAME"),
    help:
        "what the text is: slots, graph, slf, openfst, kaldi, network, nbest, ctm or json; told by itself unless given",
};
pub const PATHS: Opt = Opt {
    long: "paths",
    short: None,
    value: None,
    help: "lattices: keep every alignment of a sentence that fits, not each sentence once",
};
pub const EXACT: Opt = Opt {
    long: "exact",
    short: None,
    value: None,
    help: "lattices: refuse what does not fit into a word graph in place of pruning it",
};
pub const HIGH: Opt = Opt {
    long: "high",
    short: None,
    value: Some("FILE"),
    help: "costs known within ranges: the same utterance with the greatest costs",
};
pub const FILES: Opt = Opt {
    long: "files",
    short: None,
    value: Some("LIST"),
    help: "in place of FILE: a list of files with lattices in any format, one a line",
};
pub const JOBS: Opt = Opt {
    long: "jobs",
    short: Some('j'),
    value: Some("N"),
    help: "use so many threads, of which there are at most four for each core; one for each unless given",
};
pub const LINE: Opt = Opt {
    long: "line",
    short: None,
    value: None,
    help: "answer each line before the next is waited for, as always where FILE is a pipe or a terminal",
};
pub const RESUME: Opt = Opt {
    long: "resume",
    short: None,
    value: Some("FILE"),
    help: "write to this file, behind the answers that an interrupted run left in it",
};

/// What every command has beside its own.
pub const HELP: Opt = Opt { long: "help", short: Some('h'), value: None, help: "print this" };

/// The readings of a list that is not told how many to have.
pub const WANTED_UNLESS_GIVEN: u32 = 8;

/// A command line after the command.
pub struct Arguments<'a> {
    pub command: &'static Command,
    pub operands: Vec<&'a str>,
    given: Vec<(&'static str, &'a str)>,
}

/// Whether a command line asks for help, whatever else it says.
pub fn asks_for_help(words: &[String]) -> bool {
    words.iter().take_while(|word| *word != "--").any(|word| word == "-h" || word == "--help")
}

impl<'a> Arguments<'a> {
    /// Takes the words of a command line apart.
    pub fn parse(command: &'static Command, words: &'a [String]) -> Result<Self, Failure> {
        let mut arguments = Self { command, operands: Vec::new(), given: Vec::new() };
        let mut words = words.iter().map(String::as_str);
        while let Some(word) = words.next() {
            if word == "--" {
                arguments.operands.extend(words.by_ref());
            } else if let Some(option) = word.strip_prefix("--") {
                arguments.long(option, &mut words)?;
            } else if let Some(option) = word.strip_prefix('-').filter(|option| !option.is_empty()) {
                arguments.short(option, &mut words)?;
            } else {
                arguments.operands.push(word);
            }
        }
        arguments.count_operands()?;
        Ok(arguments)
    }

    /// `--option`, `--option=value` or `--option value`.
    fn long(&mut self, option: &'a str, rest: &mut impl Iterator<Item = &'a str>) -> Result<(), Failure> {
        let (name, value) = option.split_once('=').map_or((option, None), |(name, value)| (name, Some(value)));
        let Some(known) = self.command.options.iter().find(|known| known.long == name) else {
            let meant = nearest(name, self.command.options.iter().map(|known| known.long));
            let meant = meant.map_or(String::new(), |meant| format!(": did you mean --{meant}?"));
            return Err(self.wrong(format!("there is no option --{name}{meant}")));
        };
        match (known.value, value) {
            (None, Some(_)) => Err(self.wrong(format!("--{name} takes no value"))),
            (None, None) => self.take(known, Some("")),
            (Some(_), value) => self.take(known, value.or_else(|| rest.next())),
        }
    }

    /// `-o`, `-o value` or `-ovalue`.
    fn short(&mut self, option: &'a str, rest: &mut impl Iterator<Item = &'a str>) -> Result<(), Failure> {
        let letter = option.chars().next().unwrap_or_default();
        let Some(known) = self.command.options.iter().find(|known| known.short == Some(letter)) else {
            return Err(self.wrong(format!("there is no option -{letter}")));
        };
        let value = Some(&option[letter.len_utf8()..]).filter(|value| !value.is_empty());
        self.take(known, value.or_else(|| rest.next()))
    }

    fn take(&mut self, option: &Opt, value: Option<&'a str>) -> Result<(), Failure> {
        match value {
            Some(value) => self.given.push((option.long, value)),
            None => return Err(self.wrong(format!("--{} needs {}", option.long, option.value.unwrap_or("a value")))),
        }
        Ok(())
    }

    fn count_operands(&self) -> Result<(), Failure> {
        let (needed, all) = (self.command.needed, self.command.operands);
        if self.operands.len() < needed {
            return Err(self.wrong(format!("{} is missing", all[self.operands.len()])));
        }
        match self.operands.get(all.len()) {
            Some(extra) => Err(self.wrong(format!("`{extra}` is one operand too many"))),
            None if self.operands.iter().filter(|name| **name == "-").count() > 1 => {
                Err(self.wrong("only one operand can be - for standard input"))
            }
            None => Ok(()),
        }
    }

    /// This command line cannot be understood.
    pub fn wrong(&self, message: impl Into<String>) -> Failure {
        Failure::usage(message, format!("spireyerba {}", self.command.name))
    }

    pub fn has(&self, option: &Opt) -> bool {
        self.value(option).is_some()
    }

    /// The values of an option, in their order.
    pub fn values<'b>(&'b self, option: &'b Opt) -> impl Iterator<Item = &'a str> + 'b {
        self.given.iter().filter(|(long, _)| *long == option.long).map(|(_, value)| *value)
    }

    /// The value of an option: the last one given.
    pub fn value(&self, option: &Opt) -> Option<&'a str> {
        self.values(option).last()
    }

    /// An option's value as a number.
    pub fn number<T: FromStr>(&self, option: &Opt) -> Result<Option<T>, Failure> {
        self.value(option).map(|value| self.parsed(&format!("--{}", option.long), value)).transpose()
    }

    /// What is the value of something, as a number.
    fn parsed<T: FromStr>(&self, what: &str, value: &str) -> Result<T, Failure> {
        let why = |_| match (value.bytes().all(|byte| byte.is_ascii_digit()), value.parse::<f64>()) {
            (_, Err(_)) => "no number",
            (true, Ok(_)) => "too large",
            (false, Ok(_)) => "no whole number from 0 on",
        };
        value.parse().map_err(|error| self.wrong(format!("{what}: `{value}` is {}", why(error))))
    }

    /// The readings wanted.
    pub fn wanted(&self) -> Result<u32, Failure> {
        self.wanted_up_to(MAX_READINGS)
    }

    /// The same, of which there are at most so many.
    pub fn wanted_up_to(&self, most: u32) -> Result<u32, Failure> {
        let wanted = self.number(&WANTED)?.unwrap_or(WANTED_UNLESS_GIVEN);
        match (1..=most).contains(&wanted) {
            true => Ok(wanted),
            false => Err(self.wrong(format!("--number is 1 to {most}, not {wanted}"))),
        }
    }

    /// An operand as a number from 1 to the greatest.
    pub fn operand_up_to(&self, operand: usize, greatest: u32) -> Result<u32, Failure> {
        let number = self.operand_number(operand)?;
        match (1..=greatest).contains(&number) {
            true => Ok(number),
            false => Err(self.wrong(format!("{} is 1 to {greatest}, not {number}", self.command.operands[operand]))),
        }
    }

    /// An operand as a number.
    pub fn operand_number(&self, operand: usize) -> Result<u32, Failure> {
        self.parsed(self.command.operands[operand], self.operands[operand])
    }
}
