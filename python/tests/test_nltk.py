"""The package beside NLTK's chart parser, where NLTK is installed (Debian: python3-nltk)."""

from __future__ import annotations

import random
import unittest
from itertools import product

from spireyerba import Grammar, Rule, Utterance, Word

try:
    import nltk
except ImportError:
    nltk = None

WORDS = ["a", "b", "c"]
SYMBOLS = ["S", "A", "B"]
#: More derivations than this are not listed.
MOST = 256


def some_grammar(rng: random.Random) -> "list[Rule]":
    """Rules of one word or of two or three symbols and words, no two alike."""
    rules = {("S", ("A", "B")): 1}
    rules |= {(head, (Word(rng.choice(WORDS)),)): rng.randrange(9) for head in ("A", "B")}
    for _ in range(rng.randrange(1, 5)):
        body = tuple(rng.choice([*SYMBOLS, Word(rng.choice(WORDS))]) for _ in range(rng.randrange(2, 4)))
        rules[rng.choice(SYMBOLS), body] = rng.randrange(9)
    for _ in range(rng.randrange(1, 4)):
        rules[rng.choice(SYMBOLS), (Word(rng.choice(WORDS)),)] = rng.randrange(9)
    return [Rule(head, body, weight) for (head, body), weight in rules.items()]


def some_slots(rng: random.Random, words: "list[str]") -> "list[dict[str, int]]":
    """One to four slots of up to two words."""
    count = min(2, len(words))
    return [{word: rng.randrange(20) for word in rng.sample(words, count)} for _ in range(rng.randrange(1, 5))]


def parser(rules: "list[Rule]") -> "nltk.ChartParser":
    symbol = nltk.Nonterminal
    productions = [
        nltk.Production(symbol(rule.head), [str(item) if isinstance(item, Word) else symbol(item) for item in rule.body])
        for rule in rules
    ]
    return nltk.ChartParser(nltk.CFG(symbol("S"), productions))


def weights(rules: "list[Rule]") -> "dict[object, int]":
    return {(rule.head, tuple(map(str, rule.body))): rule.weight for rule in rules}


def weight(tree: "nltk.Tree", of_rules: "dict[object, int]") -> int:
    """The sum of the weights of a tree's rules."""
    return sum(of_rules[str(made.lhs()), tuple(map(str, made.rhs()))] for made in tree.productions())


@unittest.skipIf(nltk is None, "NLTK is not installed: apt-get install python3-nltk")
class Nltk(unittest.TestCase):
    def test_all_derivations_are_listed_by_weight(self) -> None:
        compared = 0
        for seed in range(400):
            rng = random.Random(seed)
            rules = some_grammar(rng)
            grammar, chart, of_rules = Grammar(rules), parser(rules), weights(rules)
            known = [word for word in WORDS if word in grammar.words]
            slots = some_slots(rng, known)
            expected = []
            for sentence in product(*slots):
                costs = sum(slot[word] for slot, word in zip(slots, sentence))
                expected += [(weight(tree, of_rules) + costs, brackets(tree)) for tree in chart.parse(sentence)]
            readings = grammar.list(Utterance(slots), MOST)
            with self.subTest(seed=seed):
                if len(expected) <= MOST:
                    found = [(reading.weight, str(reading.tree)) for reading in readings]
                    self.assertEqual(sorted(found), sorted(expected))
                    self.assertEqual([each for each, _ in found], sorted(each for each, _ in found))
                    compared += len(found)
        self.assertGreater(compared, 500)

    def test_trees_are_read_by_nltk(self) -> None:
        grammar = Grammar([Rule("S", [Word("a"), "B"]), Rule("B", [Word("b")])])
        [reading] = grammar.list(Utterance([{"a": 1}, {"b": 2}]))
        tree = nltk.Tree.fromstring(str(reading.tree))
        self.assertEqual((tree.label(), tree.leaves()), ("S", ["a", "b"]))


def brackets(tree: "nltk.Tree | str") -> str:
    """A tree of NLTK in one line."""
    if isinstance(tree, str):
        return tree
    return f"({tree.label()} {' '.join(map(brackets, tree))})"


if __name__ == "__main__":
    unittest.main()
