"""The package by itself: documentation, names, refusals, texts and threads."""

from __future__ import annotations

import doctest
import importlib
import os
import subprocess
import sys
import unittest
from concurrent.futures import ThreadPoolExecutor
from pathlib import Path
from unittest import mock

import spireyerba
from spireyerba import Grammar, Graph, Refused, Rule, TextFault, Utterance, Word

EXAMPLES = Path(__file__).resolve().parents[2] / "examples"
MODULES = ["spireyerba"] + [f"spireyerba.{name}" for name in ("errors", "grammar", "heard", "reading")]


class Documentation(unittest.TestCase):
    def test_examples_of_the_documentation(self) -> None:
        for name in MODULES:
            result = doctest.testmod(importlib.import_module(name))
            self.assertGreater(result.attempted, 0, name)
            self.assertEqual(result.failed, 0, name)


class FewFirst(unittest.TestCase):
    """Few readings are asked for first. Seven and eight words have 42 and 132 trees over pairs, and one of nine more than 256."""

    def setUp(self) -> None:
        self.grammar = Grammar.from_text('A -> A A [1] | "x"')
        self.by_words = {words: Utterance([{"x": 0}] * words) for words in range(1, 10)}

    def asked(self, words: int, wanted: int) -> "list[int]":
        """The numbers that the library is asked for; the list is that of readings one by one."""
        numbers, heard = [], self.by_words[words]
        listing = spireyerba.grammar._listing

        def recorded(*arguments: object) -> object:
            numbers.append(arguments[4])
            return listing(*arguments)

        with mock.patch.object(spireyerba.grammar, "_listing", recorded):
            listed = self.grammar.list(heard, wanted)
        one_by_one = [reading.block for reading, _ in zip(self.grammar.readings(heard), range(wanted))]
        self.assertEqual([reading.block for reading in listed], one_by_one)
        return numbers

    def test_more_only_if_so_many_came(self) -> None:
        self.assertEqual(self.asked(6, 256), [16, 256])
        for words in (1, 2, 3, 4, 5):
            self.assertEqual(self.asked(words, 256), [16] if words > 1 else [64])
        self.assertEqual(self.asked(6, 256), [16, 64])
        self.assertEqual(self.asked(9, 256), [16, 64, 256])
        self.assertEqual(self.asked(9, 40), [16, 40])
        self.assertEqual(self.asked(9, 8), [8])

    def test_all_at_once_of_a_crowded_grammar_s_first_list(self) -> None:
        words = " | ".join(f'"{word}" [{cost}]' for cost, word in enumerate(["x", *(f"y{number}" for number in range(14))]))
        self.grammar = Grammar.from_text(f"A -> A A [1] | {words}")
        self.assertEqual(self.asked(6, 256), [256])
        self.assertEqual(self.asked(2, 256), [64])
        self.assertEqual(self.asked(2, 256), [16])

    def test_more_at_once_where_all_lists_are_long(self) -> None:
        self.assertEqual(self.asked(9, 256), [16, 256])
        self.assertEqual(self.asked(7, 256), [256])
        self.assertEqual(self.asked(7, 256), [256])

    def test_a_number_that_is_refused(self) -> None:
        for wanted in (0, 257):
            with self.assertRaises(Refused) as raised:
                self.grammar.list(self.by_words[1], wanted)
            self.assertEqual(raised.exception.number, 21)


class Doors(unittest.TestCase):
    """The door schedule of examples/, in normal form and as an office writes it."""

    def setUp(self) -> None:
        self.grammar = Grammar.from_file(EXAMPLES / "doors" / "grammar.txt")
        self.heard = self.grammar.read((EXAMPLES / "doors" / "utterance.txt").read_text())

    def test_blocks_are_those_of_the_examples(self) -> None:
        self.assertEqual(self.grammar.block, (EXAMPLES / "doors" / "grammar.bin").read_bytes())
        self.assertEqual(self.heard.to_block(self.grammar), (EXAMPLES / "doors" / "utterance.bin").read_bytes())

    def test_readings_are_those_of_the_examples(self) -> None:
        lines = (EXAMPLES / "doors" / "readings.txt").read_text().splitlines()
        expected = [line.split() for line in lines if line[:1].isdigit()]
        readings = self.grammar.list(self.heard, 256)
        shown = [[rank, reading.weight, *reading.walk] for rank, reading in enumerate(readings, 1)]
        rows = [list(map(int, row)) for row in expected if len(row) > 2]
        self.assertEqual(shown[: len(rows)], rows)

    def test_an_office_reads_the_same(self) -> None:
        office = Grammar.from_file(EXAMPLES / "doors_office" / "grammar.txt")
        self.assertEqual(office.block, (EXAMPLES / "doors_office" / "grammar.bin").read_bytes())
        heard = office.read((EXAMPLES / "doors_office" / "utterance.txt").read_text())
        for reading in office.list(heard, 3):
            self.assertLess(len(reading.rules), len(reading.walk))
            self.assertEqual(reading.tree.sentence, reading.sentence)
            self.assertTrue(all(leaf.place == number for number, leaf in enumerate(reading.tree.leaves())))
            self.assertEqual({node.symbol for node in reading.tree.nodes()} - set(office.symbols), set())

    def test_rules_there_and_back(self) -> None:
        for folder in ("doors", "doors_office"):
            grammar = Grammar.from_file(EXAMPLES / folder / "grammar.txt")
            lists = ["symbols " + " ".join(grammar.symbols), "words " + " ".join(f'"{word}"' for word in grammar.words)]
            self.assertEqual(Grammar.from_text("\n".join([*lists, *grammar.rules])).block, grammar.block)
            again = Grammar.from_block(grammar.block, grammar.symbols, grammar.words)
            self.assertEqual((again.rules, again.words), (grammar.rules, grammar.words))

    def test_rules_as_values_are_those_of_the_text(self) -> None:
        rules = [Rule("S", [Word("a"), "B", Word('"')], 3), Rule("B", [Word("b\\")]), Rule("B", ["B", "B"], 1)]
        read = Grammar.from_text("\n".join(map(str, rules)))
        self.assertEqual((Grammar(rules).block, Grammar(rules).rules), (read.block, tuple(map(str, rules))))
        other = Grammar(rules, words=["b\\", "a"])
        self.assertEqual(other.words, ("b\\", "a", '"'))

    def test_parts_left_out_and_translations(self) -> None:
        grammar = Grammar.from_text('Number -> Tens Units? => "$1$2"\nTens -> "twenty" => "2"\nUnits -> "four" => "4"')
        [reading] = grammar.list(grammar.read("twenty 3; four 1"))
        self.assertEqual((reading.sentence, reading.translation), ("twenty four", "24"))
        self.assertEqual(str(reading.tree), "(Number (Tens twenty) (Units four))")
        [short] = grammar.list(grammar.read("twenty 3"))
        self.assertEqual((str(short.tree), short.rules), ("(Number (Tens twenty))", (0, 1)))

    def test_a_lattice_is_read(self) -> None:
        grammar = Grammar.from_file(EXAMPLES / "doors_graph" / "grammar.txt")
        graph = grammar.read((EXAMPLES / "doors_graph" / "lattice.slf").read_text(), scale=100)
        self.assertIsInstance(graph, Graph)
        self.assertTrue(grammar.list(graph))

    def test_formats_of_recognisers_are_read(self) -> None:
        formats = EXAMPLES / "formats"
        grammar = Grammar.from_file(formats / "grammar.txt")
        heard = grammar.read((formats / "pocketsphinx.slf").read_text(), scale=1)
        self.assertEqual(grammar.list(heard)[0].sentence, "door twenty")
        heard = grammar.read("-1.5 door four\n-1.7 door fifty\n", scale=100, drop_unknown=True)
        self.assertTrue(any("fifty" in note for note in heard.notes), heard.notes)

    def test_threads_have_memory_of_their_own(self) -> None:
        alone = [reading.block for reading in self.grammar.list(self.heard, 8)]
        with ThreadPoolExecutor(4) as pool:
            lists = pool.map(lambda _: [reading.block for reading in self.grammar.list(self.heard, 8)], range(400))
        self.assertTrue(all(blocks == alone for blocks in lists))

    def test_readings_outlive_the_next_listing(self) -> None:
        first = self.grammar.list(self.heard, 8)
        before = [(reading.weight, reading.words, reading.block) for reading in first]
        self.grammar.list(Utterance([{self.grammar.words[0]: 1}]), 8)
        self.assertEqual([(reading.weight, reading.words, reading.block) for reading in first], before)


class Examples(unittest.TestCase):
    def test_a_lattice_becomes_a_line_of_a_schedule(self) -> None:
        words = ["door_schedule.py", "doors/grammar.txt", "100", "doors_graph/lattice.slf", "doors/grammar.txt"]
        path = {"PYTHONPATH": str(Path(spireyerba.__file__).parents[1])}
        command = [sys.executable, "-B", *words]
        done = subprocess.run(command, cwd=EXAMPLES, env={**os.environ, **path}, capture_output=True, text=True)
        lines = ["Number\tLeaf\tRating\tSide\tmargin", "twenty four\toak\tfire thirty\t\t8"]
        self.assertEqual(done.stdout.splitlines(), lines)
        self.assertRegex(done.stderr, "^doors/grammar.txt: ")


class Refusals(unittest.TestCase):
    grammar = Grammar([Rule("Entry", [Word("door"), "Number"]), Rule("Number", [Word("four")])])

    def refusal(self, call, *arguments) -> int:
        with self.assertRaises(Refused) as raised:
            call(*arguments)
        self.assertTrue(str(raised.exception).startswith(f"refused {raised.exception.number}: "))
        return raised.exception.number

    def test_numbers_of_refusals(self) -> None:
        heard = Utterance([{"door": 3}, {"four": 9}])
        self.assertEqual(self.refusal(Grammar.from_block, b""), 1)
        self.assertEqual(self.refusal(Grammar, []), 3)
        self.assertEqual(self.refusal(Grammar, [Rule("A", ["A"])]), 3)
        self.assertEqual(self.refusal(Grammar, [Rule("A", [Word("a")], 65536)]), 42)
        self.assertEqual(self.refusal(Grammar, [Rule("A", [Word("a")], -1)]), 42)
        self.assertEqual(self.refusal(Grammar, [Rule("A", [Word("a")] * 7)]), 54)
        self.assertEqual(self.refusal(Grammar, [Rule("A", [Word("a")]), Rule("A", ["A"])]), 55)
        self.assertEqual(self.refusal(Grammar, [Rule("A", [Word("a")])] * 2), 6)
        self.assertEqual(self.refusal(self.grammar.list, heard, 0), 21)
        self.assertEqual(self.refusal(self.grammar.list, heard, 257), 21)
        self.assertEqual(self.refusal(self.grammar.list, heard, -1), 21)
        self.assertEqual(self.refusal(self.grammar.list, Utterance([{"door": 1}] * 25)), 13)
        self.assertEqual(self.refusal(self.grammar.list, Utterance([{"door": 65536}])), 42)
        self.assertEqual(self.refusal(self.grammar.list, Graph([(1, 0, "door", 1)], 2)), 51)
        self.assertEqual(self.refusal(self.grammar.word_margins, Graph([(0, 1, "door", 1)])), 12)
        self.assertEqual(self.refusal(self.grammar.specimen, 25), 25)
        self.assertEqual(self.refusal(next, self.grammar.phrases(7)), 25)
        self.assertEqual(self.refusal(self.grammar.reading, b"\x10"), 32)
        reading = self.grammar.list(heard)[0]
        self.assertEqual(self.refusal(self.grammar.chance, heard, reading, [1024]), 60)
        self.assertEqual(self.refusal(self.grammar.chance, heard, reading, [0, 1]), 61)

    def test_a_word_that_the_grammar_does_not_have(self) -> None:
        with self.assertRaisesRegex(KeyError, "no word 'six'"):
            self.grammar.list(Utterance([{"six": 1}]))

    def test_faults_of_texts(self) -> None:
        with self.assertRaises(TextFault) as raised:
            self.grammar.read("door 3\nsix 9")
        self.assertEqual(raised.exception.line, 2)
        self.assertIn("six", str(raised.exception))
        self.assertEqual(self.grammar.read("door 3 ; four 9"), Utterance([{"door": 3}, {"four": 9}]))

    def test_a_name_is_one_line(self) -> None:
        for name in ("", "a\nb"):
            with self.assertRaisesRegex(ValueError, "no name"):
                Grammar([Rule("S", [Word(name)])])

    def test_no_reading(self) -> None:
        self.assertEqual(self.grammar.list(Utterance([{"door": 3}])), [])
        self.assertIsNone(self.grammar.cost_ranges(Utterance([{"door": 3}]), Utterance([{"door": 4}])))
        self.assertIsNone(self.grammar.specimen(1))

    def test_shares_of_an_office(self) -> None:
        heard = Utterance([{"door": 3}, {"four": 9}])
        [reading] = self.grammar.list(heard)
        self.assertEqual(self.grammar.chance(heard, reading, [512, 256]), 0.125)


class Versions(unittest.TestCase):
    def test_version(self) -> None:
        self.assertRegex(spireyerba.__version__, r"^\d+\.\d+\.\d+$")


if __name__ == "__main__":
    unittest.main()
