//! Readings as trees.

use crate::{Body, Grammar, Rule};

/// A derivation as a tree.
///
/// ```
/// use spireyerba::{Body, Grammar, Part, Rule, Tree};
///
/// let rules = vec![
///     Rule { head: 0, weight: 1, body: Body::Pair(0, 0) },
///     Rule { head: 0, weight: 0, body: Body::Word(0) },
/// ];
/// let grammar = Grammar { symbols: 1, words: 1, rules };
/// let leaf = |number| Part::Tree(Tree::new(1, &grammar.rules[1], vec![Part::Word { word: 0, number }]));
/// let pair = Tree::new(0, &grammar.rules[0], vec![leaf(0), leaf(1)]);
/// assert_eq!((pair.head, pair.weight, &pair.elements[..]), (0, 1, &[0, 1][..]));
/// assert_eq!(Tree::from_walk(&grammar, &[0, 1, 1]), Some(pair));
/// assert_eq!(Tree::from_walk(&grammar, &[0, 1]), None);
/// ```
#[derive(Clone, Debug, PartialEq, Eq, Hash)]
pub struct Tree {
    /// The number of the rule that made it.
    pub rule: u32,
    /// The symbol that the rule derives from.
    pub head: u32,
    /// What the rule costs here, with what was left out or chosen in its body.
    pub weight: u32,
    /// What the rule's body became: a word, or two parts; as it was written, any number.
    pub parts: Vec<Part>,
    /// Of each part which of the body it stands for, from 0 on.
    pub elements: Vec<u32>,
}

/// What stands below a node.
#[derive(Clone, Debug, PartialEq, Eq, Hash)]
pub enum Part {
    /// A word.
    Word {
        /// Which.
        word: u32,
        /// How many words stand to the left of this one: the number of its slot.
        number: usize,
    },
    /// Another node.
    Tree(Tree),
}

impl Tree {
    /// A node of a rule with a number, whose body is these parts.
    pub fn new(number: u32, rule: &Rule, parts: Vec<Part>) -> Self {
        let elements = (0..parts.len() as u32).collect();
        Self { rule: number, head: rule.head, weight: rule.weight, parts, elements }
    }

    /// The tree of a reading's rule numbers; nothing if they are not a walk by this grammar's rules. Whether heads fit bodies
    /// and which words were offered is not looked at: only [`check`](crate::services::check) knows.
    pub fn from_walk(grammar: &Grammar, walk: &[u32]) -> Option<Self> {
        let mut rules = walk.iter().copied();
        let tree = Self::part(grammar, &mut rules, &mut 0)?;
        rules.next().is_none().then_some(tree)
    }

    fn part(grammar: &Grammar, walk: &mut impl Iterator<Item = u32>, words: &mut usize) -> Option<Self> {
        let number = walk.next()?;
        let rule = grammar.rules.get(number as usize)?;
        let parts = match rule.body {
            Body::Word(word) => {
                *words += 1;
                vec![Part::Word { word, number: *words - 1 }]
            }
            Body::Pair(..) => {
                let left = Self::part(grammar, walk, words)?;
                vec![Part::Tree(left), Part::Tree(Self::part(grammar, walk, words)?)]
            }
        };
        Some(Self::new(number, rule, parts))
    }

    /// The tree without the nodes of marked rules below its root, as an office wrote its rules: what stands below such a node
    /// takes its place.
    ///
    /// ```
    /// use spireyerba::{Item::{Symbol, Word}, Office, OfficeRule, Part, Tree};
    ///
    /// let rules = vec![
    ///     OfficeRule { head: 0, weight: 0, items: vec![Word(0), Word(1), Symbol(0)] },
    ///     OfficeRule { head: 0, weight: 0, items: vec![Word(1)] },
    /// ];
    /// let marked = Office { symbols: 1, words: 2, rules }.to_grammar()?;
    /// let tree = Tree::from_walk(&marked.grammar, &[0, 2, 4, 3, 1]).map(|tree| tree.without(&marked.marks));
    /// let word = |word, number| Part::Word { word, number };
    /// let [first, second] = [0, 1].map(|rule| &marked.grammar.rules[rule]);
    /// let last = Part::Tree(Tree::new(1, second, vec![word(1, 2)]));
    /// assert_eq!(tree, Some(Tree::new(0, first, vec![word(0, 0), word(1, 1), last])));
    /// # Ok::<(), spireyerba::Refusal>(())
    /// ```
    pub fn without(self, marks: &[bool]) -> Self {
        let parts = self.parts.into_iter().flat_map(|part| match part {
            Part::Word { .. } => vec![part],
            Part::Tree(tree) => {
                let tree = tree.without(marks);
                match marks[tree.rule as usize] {
                    true => tree.parts,
                    false => vec![Part::Tree(tree)],
                }
            }
        });
        let parts: Vec<Part> = parts.collect();
        Self { elements: (0..parts.len() as u32).collect(), parts, ..self }
    }

    /// The levels of the tree: 1 if it has only words below it.
    pub fn height(&self) -> usize {
        let below = self.parts.iter().map(|part| match part {
            Part::Word { .. } => 0,
            Part::Tree(tree) => tree.height(),
        });
        1 + below.max().unwrap_or(0)
    }
}
