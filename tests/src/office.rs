//! Rules as offices write them (document 02, N5): their sheets, the grammar that they become, and their own derivations.

use crate::grammar::up_to;
use crate::heard::Offers;
use spireyerba::limits::{MAX_ITEMS, MAX_RULES, MAX_SYMBOLS, MAX_WEIGHT, MAX_WORDS};
use spireyerba::{Body, Grammar, Item, MarkedGrammar, Office, OfficeRule, Refusal, Rule};

/// Reads a sheet number by number, or refuses it with 3 to 6, 41, 42, 54 or 55.
pub fn from_sheet(sheet: &[u32]) -> Result<Office, Refusal> {
    let mut reader = Reader { left: sheet.iter() };
    let symbols = up_to(MAX_SYMBOLS, reader.number()?)?;
    let words = up_to(MAX_WORDS, reader.number()?)?;
    let count = up_to(MAX_RULES, reader.number()?)?;
    let mut office = Office { symbols, words, rules: Vec::new() };
    for _ in 0..count {
        let rule = reader.rule(&office)?;
        if office.rules.iter().any(|earlier| earlier.head == rule.head && earlier.items == rule.items) {
            return Err(Refusal::GrammarRepeat);
        }
        office.rules.push(rule);
    }
    match reader.number() {
        Ok(_) => Err(Refusal::SheetCount),
        Err(_) => Ok(office),
    }
}

/// The numbers of a sheet that are left.
struct Reader<'a> {
    left: std::slice::Iter<'a, u32>,
}

impl Reader<'_> {
    fn number(&mut self) -> Result<u32, Refusal> {
        self.left.next().copied().ok_or(Refusal::SheetCount)
    }

    /// The next number, which may not pass the greatest.
    fn at_most(&mut self, most: u32, refusal: Refusal) -> Result<u32, Refusal> {
        let number = self.number()?;
        if number <= most {
            Ok(number)
        } else {
            Err(refusal)
        }
    }

    fn rule(&mut self, office: &Office) -> Result<OfficeRule, Refusal> {
        let head = self.at_most(office.symbols - 1, Refusal::GrammarSymbol)?;
        let weight = self.at_most(MAX_WEIGHT, Refusal::SheetValue)?;
        let count = self.at_most(MAX_ITEMS, Refusal::ItemCount)?;
        if count == 0 {
            return Err(Refusal::ItemCount);
        }
        let items = (0..count).map(|_| self.item(office, count)).collect::<Result<_, _>>()?;
        Ok(OfficeRule { head, weight, items })
    }

    /// An item of a body of so many.
    fn item(&mut self, office: &Office, count: u32) -> Result<Item, Refusal> {
        match (self.at_most(1, Refusal::SheetValue)?, count) {
            (0, 1) => Err(Refusal::ItemAlone),
            (0, _) => self.at_most(office.symbols - 1, Refusal::GrammarSymbol).map(Item::Symbol),
            _ => self.at_most(office.words - 1, Refusal::GrammarWord).map(Item::Word),
        }
    }
}

/// What a helper symbol stands for: a word, or the items of a rule from one of them to the last.
#[derive(Clone, Copy, PartialEq)]
enum Helper {
    Word(u32),
    Rest { rule: usize, from: usize },
}

/// The helpers of an office grammar, in the order of their numbers: of each longer body its new words, then its rests, which begin
/// behind the first item and have at least two.
fn helpers(office: &Office) -> Vec<Helper> {
    let mut helpers = Vec::new();
    for (rule, OfficeRule { items, .. }) in office.rules.iter().enumerate().filter(|(_, rule)| rule.items.len() > 1) {
        for item in items {
            match *item {
                Item::Word(word) if !helpers.contains(&Helper::Word(word)) => helpers.push(Helper::Word(word)),
                _ => (),
            }
        }
        helpers.extend((1..items.len() - 1).map(|from| Helper::Rest { rule, from }));
    }
    helpers
}

/// The grammar of kind 4 that an office grammar becomes, or 56.
pub fn convert(office: &Office) -> Result<MarkedGrammar, Refusal> {
    let names = Names { office, helpers: helpers(office) };
    let of_office = (0..).zip(&office.rules).map(|(number, rule)| Rule {
        head: rule.head,
        weight: rule.weight,
        body: names.body(number, 0),
    });
    let of_helpers = names.helpers.iter().map(|&helper| {
        let body = match helper {
            Helper::Word(word) => Body::Word(word),
            Helper::Rest { rule, from } => names.body(rule, from),
        };
        Rule { head: names.symbol(helper), weight: 0, body }
    });
    let rules: Vec<Rule> = of_office.chain(of_helpers).collect();
    let symbols = office.symbols + names.helpers.len() as u32;
    if symbols > MAX_SYMBOLS || rules.len() > MAX_RULES as usize {
        return Err(Refusal::OfficeSize);
    }
    let marks = (0..rules.len()).map(|number| number >= office.rules.len()).collect();
    Ok(MarkedGrammar { grammar: Grammar { symbols, words: office.words, rules }, marks })
}

/// The symbols that stand for items.
struct Names<'a> {
    office: &'a Office,
    helpers: Vec<Helper>,
}

impl Names<'_> {
    /// Helpers are numbered behind the office's symbols, by their place in the list.
    fn symbol(&self, wanted: Helper) -> u32 {
        let place = self.helpers.iter().position(|&helper| helper == wanted).expect("each has its helper");
        self.office.symbols + place as u32
    }

    /// The symbol of the items of a rule from one of them to the last.
    fn rest(&self, rule: usize, from: usize) -> u32 {
        match self.office.rules[rule].items[from..] {
            [item] => self.item(item),
            _ => self.symbol(Helper::Rest { rule, from }),
        }
    }

    fn item(&self, item: Item) -> u32 {
        match item {
            Item::Symbol(symbol) => symbol,
            Item::Word(word) => self.symbol(Helper::Word(word)),
        }
    }

    /// The items of a rule from one of them to the last, as a body.
    fn body(&self, rule: usize, from: usize) -> Body {
        match self.office.rules[rule].items[from..] {
            [Item::Word(word)] => Body::Word(word),
            [first, ..] => Body::Pair(self.item(first), self.rest(rule, from + 1)),
            [] => unreachable!("no body is empty"),
        }
    }
}

/// A derivation of an office grammar: its weight, and its rule numbers from the top, the first item's before the rest's.
pub type Derivation = (u32, Vec<u32>);

/// All derivations of an office grammar, made from the items themselves, by weight and rule numbers.
pub fn derivations(office: &Office, offers: &Offers) -> Vec<Derivation> {
    let mut all = of_items(office, offers, &[Item::Symbol(0)], 0, offers.last);
    all.sort();
    all
}

fn of_items(office: &Office, offers: &Offers, items: &[Item], from: usize, to: usize) -> Vec<Derivation> {
    match items {
        [] => unreachable!("no body is empty"),
        [Item::Word(word)] => offers.get(from, to, *word).map(|offer| (offer.cost, Vec::new())).into_iter().collect(),
        [Item::Symbol(head)] => {
            let rules = (0..).zip(&office.rules).filter(|(_, rule)| rule.head == *head);
            let under = |(number, rule): (u32, &OfficeRule)| {
                let below = of_items(office, offers, &rule.items, from, to).into_iter();
                let weight = rule.weight;
                below.map(move |(sum, walk)| (weight + sum, [vec![number], walk].concat()))
            };
            rules.flat_map(under).collect()
        }
        [first, rest @ ..] => (from + 1..to)
            .flat_map(|split| {
                let lefts = of_items(office, offers, std::slice::from_ref(first), from, split);
                let rights = if lefts.is_empty() { Vec::new() } else { of_items(office, offers, rest, split, to) };
                let joined = |left: &Derivation| {
                    let left = left.clone();
                    rights.clone().into_iter().map(move |right| (left.0 + right.0, [&left.1[..], &right.1].concat()))
                };
                lefts.iter().flat_map(joined).collect::<Vec<_>>()
            })
            .collect(),
    }
}
