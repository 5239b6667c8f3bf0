"""The package beside the second implementation: the cases that `cargo run --example python_cases` prints."""

from __future__ import annotations

import json
import os
import unittest
from pathlib import Path

from spireyerba import Grammar, Graph, Reading, Refused, Utterance

CASES = Path(os.environ.get("SPIREYERBA_CASES", Path(__file__).resolve().parents[2] / "target" / "python_cases.jsonl"))


def named(grammar: Grammar, words: "list[int]") -> "tuple[str, ...]":
    return tuple(grammar.words[word] for word in words)


class Cases(unittest.TestCase):
    cases: "list[dict]"

    @classmethod
    def setUpClass(cls) -> None:
        if not CASES.exists():
            raise unittest.SkipTest(f"no {CASES}: cargo run --release -p spireyerba-tests --example python_cases > {CASES}")
        cls.cases = [json.loads(line) for line in CASES.read_text().splitlines()]

    def each(self):
        """Each case with its grammar and what was heard."""
        for number, case in enumerate(self.cases):
            grammar = Grammar.from_block(bytes.fromhex(case["grammar"]))
            with self.subTest(case=number):
                yield case, grammar, grammar.heard(bytes.fromhex(case["heard"]))

    def test_there_are_many(self) -> None:
        self.assertGreater(len(self.cases), 100)
        self.assertGreater(sum(map(len, (case["readings"] for case in self.cases))), 1000)

    def test_blocks_there_and_back(self) -> None:
        for case, grammar, heard in self.each():
            made = type(heard)(heard.slots) if isinstance(heard, Utterance) else Graph(heard.edges, heard.places)
            self.assertEqual(made.to_block(grammar).hex(), case["heard"])

    def test_listings(self) -> None:
        for case, grammar, heard in self.each():
            readings = grammar.list(heard, case["wanted"])
            self.assertEqual([reading.block.hex() for reading in readings], case["readings"])
            self.assertEqual([reading.weight for reading in readings], case["weights"])

    def test_one_by_one(self) -> None:
        for case, grammar, heard in self.each():
            wanted = min(case["wanted"], 12)
            handed = [reading for reading, _ in zip(grammar.readings(heard), range(wanted))]
            self.assertEqual([reading.block.hex() for reading in handed], case["readings"][:wanted])

    def test_fields_and_trees(self) -> None:
        for case, grammar, heard in self.each():
            for reading in grammar.list(heard, min(case["wanted"], 16)):
                self.assert_is_whole(grammar, heard, reading)

    def assert_is_whole(self, grammar: Grammar, heard: "Utterance | Graph", reading: Reading) -> None:
        """Words, costs, rules and tree of a reading agree with each other and with what was heard."""
        tree = reading.tree
        self.assertEqual(tuple(leaf.word for leaf in tree.leaves()), reading.words)
        self.assertEqual(len(reading.walk), 2 * len(reading.words) - 1)
        if isinstance(heard, Graph):
            edges = [heard.edges[number] for number in reading.path or ()]
            self.assertEqual([edge.end for edge in edges[:-1]], [edge.start for edge in edges[1:]])
            self.assertEqual((edges[0].start, edges[-1].end), (0, heard.places - 1))
            costs = [edge.cost for edge in edges]
        else:
            self.assertIsNone(reading.path)
            costs = [slot[word] for slot, word in zip(heard.slots, reading.words)]
        self.assertEqual(reading.weight, sum(costs) + sum(node.weight for node in tree.nodes()))

    def test_check(self) -> None:
        for case, grammar, heard in self.each():
            for reading in grammar.list(heard, 2):
                grammar.check(heard, reading)
                block = bytearray(reading.block)
                block[4] ^= 0x40  # the last bit of the weight
                with self.assertRaises(Refused) as raised:
                    grammar.check(heard, bytes(block))
                self.assertEqual(raised.exception.number, 35)
                self.assertIn("weight", raised.exception.words)

    def test_chances(self) -> None:
        for case, grammar, heard in self.each():
            readings = grammar.list(heard, case["wanted"])[: len(case["chances"])]
            self.assertEqual([grammar.chance(heard, reading, case["shares"]) for reading in readings], case["chances"])

    def test_specimens_and_phrases(self) -> None:
        for case, grammar, _ in self.each():
            for length, (specimen, phrases) in enumerate(zip(case["specimens"], case["phrases"]), 1):
                self.assertEqual(grammar.specimen(length), named(grammar, specimen) or None)
                self.assertEqual(list(grammar.phrases(length)), [named(grammar, phrase) for phrase in phrases])

    def test_margins_and_ranges(self) -> None:
        for case, grammar, heard in self.each():
            if not isinstance(heard, Utterance):
                continue
            margins = [[*margin[:2], grammar.word_number(margin.word), margin.weight] for margin in grammar.word_margins(heard)]
            self.assertEqual(margins, case["margins"])
            ranges = grammar.cost_ranges(heard, grammar.heard(bytes.fromhex(case["high"])))
            self.assertEqual(list(ranges or ()), case["ranges"])


if __name__ == "__main__":
    unittest.main()
