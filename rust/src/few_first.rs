//! How many readings to ask for first: few, since the library clears a table with room for all that are asked for.

use crate::Grammar;

/// So many are asked for first.
const FEW: u32 = 16;
/// If as many came as were asked for, so many times as many are asked for next.
const STEP: u32 = 4;
/// So many lists are remembered.
const REMEMBERED: usize = 8;
/// With so many rules for each symbol most that is heard has many readings, and takes longer to search than the table to clear.
const CROWDED: usize = 16;

/// How many readings the last lists under a grammar had.
#[derive(Clone, Debug, Default)]
pub(crate) struct FewFirst {
    last: [u32; REMEMBERED],
    /// How many lists there were.
    lists: usize,
    /// Whether the grammar has many rules for each symbol.
    is_crowded: bool,
}

impl FewFirst {
    /// Before the first list under a grammar.
    pub(crate) fn of(grammar: &Grammar) -> Self {
        let is_crowded = grammar.rules.len() >= CROWDED * grammar.symbols as usize;
        Self { is_crowded, ..Self::default() }
    }

    /// How many to ask for first: few, or more than the shortest of the last lists had. Of a crowded grammar's first list all.
    pub(crate) fn first(&self, wanted: u32) -> u32 {
        if self.is_crowded && self.lists == 0 {
            return wanted;
        }
        let shortest = self.last.iter().take(self.lists).min().copied().unwrap_or(0);
        wanted.min((shortest + 1).next_power_of_two().max(FEW))
    }

    /// How many to ask for if as many came as were asked for. Of the first list, which may be the only one, all that are wanted.
    pub(crate) fn next(&self, asked: u32, wanted: u32) -> u32 {
        match self.lists {
            0 => wanted,
            _ => wanted.min(asked * STEP),
        }
    }

    /// Takes the number of readings of a list. One of which no more than few were wanted says nothing of the others.
    pub(crate) fn remember(&mut self, count: u32, wanted: u32) {
        if wanted > FEW {
            self.last[self.lists % REMEMBERED] = count;
            self.lists += 1;
        }
    }
}

#[cfg(test)]
mod tests {
    use super::*;

    /// The numbers that are asked for one after another of what has so many readings.
    fn asked(few_first: &mut FewFirst, wanted: u32, readings: u32) -> Vec<u32> {
        let mut asked = vec![few_first.first(wanted)];
        while let Some(&last) = asked.last().filter(|last| **last <= readings && **last < wanted) {
            asked.push(few_first.next(last, wanted));
        }
        few_first.remember(readings.min(wanted), wanted);
        asked
    }

    #[test]
    fn few_come_first() {
        let few_first = &mut FewFirst::default();
        for readings in [3, 0, 15, 1, 7] {
            assert_eq!(asked(few_first, 256, readings), [16]);
        }
        assert_eq!(asked(few_first, 256, 16), [16, 64]);
        assert_eq!(asked(few_first, 256, 300), [16, 64, 256]);
        assert_eq!(asked(few_first, 40, 300), [16, 40]);
        assert_eq!(asked(few_first, 8, 300), [8]);
    }

    #[test]
    fn of_the_first_list_all_come_next() {
        assert_eq!(asked(&mut FewFirst::default(), 256, 300), [16, 256]);
    }

    #[test]
    fn of_a_crowded_grammar_s_first_list_all_come_first() {
        let rule = crate::Rule { head: 0, weight: 0, body: crate::Body::Word(0) };
        let under = |rules| FewFirst::of(&Grammar { symbols: 2, words: 1, rules: vec![rule; rules] });
        assert_eq!(asked(&mut under(31), 256, 3), [16]);
        let crowded = &mut under(32);
        assert_eq!(asked(crowded, 256, 3), [256]);
        assert_eq!(asked(crowded, 256, 300), [16, 64, 256]);
    }

    #[test]
    fn where_all_lists_are_long_many_come_first() {
        let few_first = &mut FewFirst::default();
        assert_eq!(asked(few_first, 256, 300), [16, 256]);
        assert_eq!(asked(few_first, 1, 300), [1]);
        assert_eq!(asked(few_first, 256, 40), [256]);
        assert_eq!(asked(few_first, 256, 100), [64, 256]);
        assert_eq!(asked(few_first, 256, 3), [64]);
        // one short list among the last
        for _ in 0..REMEMBERED {
            assert_eq!(asked(few_first, 256, 100), [16, 64, 256]);
        }
        assert_eq!(asked(few_first, 256, 100), [128]);
    }
}
