//! What can be wrong in the rules of a grammar's text.

use super::room::Room;
use super::scan::quoted;
use crate::limits::{MAX_RULES, MAX_SHARE, MAX_WEIGHT};
use crate::{Position, Refusal};
use std::fmt::{Display, Formatter};

/// What is wrong in the rules of a grammar's text.
#[derive(Clone, Debug, PartialEq)]
#[non_exhaustive]
pub enum RuleFault {
    /// A symbol without a rule.
    NoRule {
        /// Its name.
        name: String,
        /// A symbol with a rule whose name is nearly the same.
        nearest: Option<String>,
        /// The other symbols without a rule.
        others: Vec<String>,
    },
    /// Something in quotes that are not those of a word.
    Quotes(String),
    /// A word without a letter.
    EmptyWord,
    /// A body with nothing in it.
    NoBody,
    /// A group that its line does not close.
    Open,
    /// `?`, `+` or `*` that stands right behind nothing.
    Apart(char),
    /// A body, or a group, of which every part may be left out.
    MayBeEmpty {
        /// The symbol that the body is of.
        head: String,
    },
    /// A part that is repeated and may be left out.
    RepeatsNothing,
    /// Rules of one symbol that go round in a circle.
    Cycle(Vec<String>),
    /// Two ways to write out rules that become the same rule.
    SameRule {
        /// What they become.
        rule: String,
        /// Where the other one stands.
        other: Position,
    },
    /// Weights that pass the greatest when they are added.
    SumTooLarge {
        /// The rule that they are added for.
        rule: String,
        /// Their sum.
        sum: u32,
    },
    /// A body that stands for more rules than a grammar can have.
    ManyForms,
    /// Groups within groups within groups.
    Deep {
        /// How many there may be.
        limit: usize,
    },
    /// A translation with `$` and something else than the number of a part of the body.
    Reference {
        /// What stands there.
        found: String,
        /// How many parts the body has.
        parts: usize,
    },
    /// Shares whose product is that of one rule, and is no whole number of 1,024.
    SharesOfOne {
        /// The rules of the text that become one.
        rules: Vec<String>,
    },
    /// A grammar that passes the limits of a block.
    Room(Box<Room>),
}

impl RuleFault {
    /// The refusal by which the library would refuse the same, if it can be asked.
    pub(super) fn refusal(&self) -> Option<Refusal> {
        match self {
            Self::NoBody => Some(Refusal::ItemCount),
            Self::SameRule { .. } => Some(Refusal::GrammarRepeat),
            Self::SumTooLarge { .. } => Some(Refusal::SheetValue),
            Self::ManyForms | Self::Room(_) => Some(Refusal::OfficeSize),
            _ => None,
        }
    }

    /// Of notation.
    fn notation_words(&self, formatter: &mut Formatter) -> std::fmt::Result {
        match self {
            Self::MayBeEmpty { head } => write!(
                formatter,
                "every part of this may be left out, and a rule derives at least one word: write one without `?` or `*`, \
                 and `{head}?` where {head} may be left out"
            ),
            Self::RepeatsNothing => {
                write!(formatter, "what is repeated may be left out: write one part of it without `?` or `*`")
            }
            Self::Cycle(symbols) => write!(
                formatter,
                "{} go round in a circle of rules that are one symbol alone: a derivation by them has no end",
                symbols.iter().map(|name| format!("`{name}`")).collect::<Vec<_>>().join(" -> ")
            ),
            Self::SameRule { rule, other: Position { line, column } } => {
                write!(
                    formatter,
                    "this and line {line}, column {column} both become {rule}, and one rule has one derivation"
                )
            }
            Self::SumTooLarge { rule, sum } => {
                write!(
                    formatter,
                    "the weights of {rule} add up to {sum}: a weight is at most {MAX_WEIGHT}, so make all smaller"
                )
            }
            Self::ManyForms => write!(
                formatter,
                "what may be left out and chosen here makes more than {MAX_RULES} rules: give parts of it heads of their own"
            ),
            Self::Deep { limit } => {
                write!(formatter, "groups stand within groups up to {limit} deep: give this one a head of its own")
            }
            Self::SharesOfOne { rules } => write!(
                formatter,
                "{} become one rule, and the product of their shares is no whole number of {MAX_SHARE}: give one of them \
                 {MAX_SHARE}, or shares that divide it",
                rules.iter().map(|rule| format!("`{rule}`")).collect::<Vec<_>>().join(" and ")
            ),
            Self::Reference { found, parts } => write!(
                formatter,
                "`{found}` in a translation: $1 to ${parts} are the parts of this body, and $$ is a dollar sign"
            ),
            _ => unreachable!("the others are worded before"),
        }
    }
}

impl Display for RuleFault {
    fn fmt(&self, formatter: &mut Formatter) -> std::fmt::Result {
        match self {
            Self::NoRule { name, nearest, others } => {
                write!(formatter, "no rule for `{name}`")?;
                nearest.iter().try_for_each(|nearest| write!(formatter, " (did you mean `{nearest}`?)"))?;
                if !others.is_empty() {
                    let others: Vec<String> = others.iter().map(|name| format!("`{name}`")).collect();
                    write!(formatter, ", and none for {}", others.join(", "))?;
                }
                match (nearest, name.bytes().all(|byte| byte.is_ascii_digit())) {
                    (Some(_), _) => Ok(()),
                    (None, false) => write!(formatter, ": give it one, or write {} if it is a word", quoted(name)),
                    (None, true) => write!(
                        formatter,
                        ": a weight stands in brackets, [{name}], and what an absence costs right behind `?`, as in \"fire\"?{name}"
                    ),
                }
            }
            Self::Quotes(found) => {
                write!(formatter, "`{found}`: a word stands in straight double quotes, \"so\"")
            }
            Self::EmptyWord => {
                write!(formatter, "\"\" is no word: for what may be left out write `?` behind it, as in \"fire\"?")
            }
            Self::NoBody => {
                write!(formatter, "a body has at least one symbol or quoted word")
            }
            Self::Open => write!(formatter, "`(` has no `)` in its line, and a group stands in one line"),
            Self::Apart(mark) => {
                write!(formatter, "`{mark}` stands right behind the part that it is for, with no blank: \"fire\"{mark}")
            }
            Self::Room(room) => write!(formatter, "{room}"),
            _ => self.notation_words(formatter),
        }
    }
}
