"""Grammars, and what can be asked of them."""

from __future__ import annotations

import json
from ctypes import Array, byref, c_double, c_size_t, c_uint8, c_uint32, c_void_p, string_at
from itertools import chain, islice
from os import PathLike
from typing import Any, Iterable, Iterator, List, NamedTuple, Sequence, Union
from weakref import finalize

from . import _library as lib
from .errors import Refused, TextFault
from .heard import Graph, Heard, Packed, Utterance
from .reading import Found, Leaf, Reading, Tree

_grammar_to_block = lib.function("grammar_to_block")
_office_to_block = lib.function("office_to_block")
_read_grammar = lib.function("util_read_grammar")
_listing = lib.function("listing")
_read_readings = lib.function("util_read_readings")
_read_reading = lib.function("util_read_reading")
_open = lib.function("open")
_next = lib.function("next")
_check = lib.function("check")
_chance = lib.function("chance")
_specimen = lib.function("specimen")
_next_phrase = lib.function("next_phrase")
_cost_ranges = lib.function("cost_ranges")
_word_margins = lib.function("word_margins")

#: The numbers of a word in a tree.
LEAF_NUMBERS = 2
#: Few readings are asked for first, since most utterances have no more and the library clears a table with room for all; if so
#: many came, some times as many. Where the last lists were all longer, more are asked for first, and of the first list under a
#: grammar with many rules for each symbol all. As the Rust crate does.
FEW, STEP, REMEMBERED, CROWDED = 16, 4, 8, 16


class Word(str):
    """A word in the body of a rule; a plain string there is a symbol."""

    __slots__ = ()

    def __repr__(self) -> str:
        return f"Word({str(self)!r})"


class Rule(NamedTuple):
    """A rule as an office writes it: its body is one word, or two to six symbols and words.

    >>> print(Rule("Entry", [Word("door"), "Number"], 1))
    Entry -> "door" Number [1]
    """

    head: str
    body: "Sequence[Union[str, Word]]"
    weight: int = 0

    def __str__(self) -> str:
        escaped = [item.replace("\\", "\\\\").replace('"', '\\"') for item in self.body]
        items = [f'"{text}"' if isinstance(item, Word) else item for item, text in zip(self.body, escaped)]
        return f"{self.head} -> {' '.join(items)}" + (f" [{self.weight}]" if self.weight else "")


class CostRange(NamedTuple):
    """The least and the greatest weight of a first reading over all choices of costs, and whether the first reading for the
    low costs stands under every choice."""

    least: int
    greatest: int
    stands: bool


class WordMargin(NamedTuple):
    """By how much the cost of a word must fall for another reading to come first, where the word was heard, and what that
    reading weighs now."""

    amount: int
    slot: int
    word: str
    weight: int


class Grammar:
    """A weighted grammar with the names of its symbols and words, packed once.

    From rules. Symbols and words are numbered as they are met, so the first head is the start, unless lists of some of them give
    them other numbers:

    >>> doors = Grammar([
    ...     Rule("Entry", [Word("door"), "Number"], 1),
    ...     Rule("Number", [Word("four")]),
    ...     Rule("Number", [Word("five")], 2),
    ... ])
    >>> heard = Utterance([{"door": 3}, {"four": 9, "five": 5}])
    >>> [(reading.weight, reading.sentence) for reading in doors.list(heard)]
    [(11, 'door five'), (13, 'door four')]

    The same from the text notation, ``from_text``, and from a block of the C interface, ``from_block``. A grammar is not
    changed by anything, and any threads may use it at once.
    """

    __slots__ = ("block", "symbols", "words", "rules", "unpacked", "_numbers", "_named", "_last", "__weakref__")

    def __init__(self, rules: "Iterable[Rule]", symbols: "Iterable[str]" = (), words: "Iterable[str]" = ()) -> None:
        rules = [Rule(*rule) for rule in rules]
        symbol_numbers = {name: number for number, name in enumerate(symbols)}
        word_numbers = {name: number for number, name in enumerate(words)}
        for rule in rules:
            symbol_numbers.setdefault(rule.head, len(symbol_numbers))
            for item in rule.body:
                names = word_numbers if isinstance(item, Word) else symbol_numbers
                names.setdefault(str(item), len(names))
        block = _packed_rules(rules, symbol_numbers, word_numbers)
        self._set(*_named(block, symbol_numbers, word_numbers))

    @classmethod
    def from_text(cls, text: str) -> "Grammar":
        """Reads the notation that ``spireyerba help texts`` describes, by the reader of the command.

        >>> Grammar.from_text('Entry -> "door" Number [1]\\nNumber -> "four" | "five" [2]').rules
        ('Entry -> "door" Number [1]', 'Number -> "four"', 'Number -> "five" [2]')
        """
        grammar = cls.__new__(cls)
        grammar._set(*lib.read_grammar("read_grammar", text.encode()))
        return grammar

    @classmethod
    def from_file(cls, path: "Union[str, PathLike[str]]") -> "Grammar":
        """Reads the text of a file."""
        with open(path, encoding="utf-8") as file:
            return cls.from_text(file.read())

    @classmethod
    def from_block(
        cls, block: bytes, symbols: "Sequence[str] | None" = None, words: "Sequence[str] | None" = None
    ) -> "Grammar":
        """Takes a block. Symbols without names are called S0, S1 and so on, words w0, w1 and so on.

        >>> Grammar.from_block(bytes.fromhex("104040400009000000")).rules
        ('S0 -> S0 S0 [1]', 'S0 -> "w0"')
        """
        grammar = cls.__new__(cls)
        grammar._set(*_named(bytes(block), symbols or (), words or ()))
        return grammar

    def _set(self, named: c_void_p, lines: "Sequence[str]") -> None:
        """Takes a grammar with its names, and the lines about it."""
        self._named = named
        self._last: "tuple[int, ...]" = ()
        finalize(self, lib.free_grammar, named)
        self.block = bytes.fromhex(lines[0])
        symbols, words, rules = map(int, lines[1].split())
        names = iter(lines[2:])
        self.symbols = tuple(islice(names, symbols))
        self.words = tuple(islice(names, words))
        self.rules = tuple(islice(names, rules))
        self._numbers = {word: number for number, word in enumerate(self.words)}
        self.unpacked = lib.UtilGrammar()
        lib.answered(_read_grammar(self.block, len(self.block), byref(self.unpacked)))

    def word_number(self, word: str) -> int:
        """The number of a word. One that the grammar does not have is a ``KeyError``."""
        try:
            return self._numbers[word]
        except KeyError:
            raise KeyError(f"the grammar has no word {word!r}") from None

    def reading_length(self, leaves: int, of_graph: bool) -> int:
        """The bytes of a reading's block."""
        return lib.reading_length(leaves, self.unpacked.rules, of_graph)

    def read(
        self,
        text: str,
        *,
        scale: "float | None" = None,
        drop_unknown: bool = False,
        drop_deletes: bool = False,
        empty_words: "Iterable[str]" = (),
    ) -> Heard:
        """Reads the text of an utterance, a confusion network, a word graph or a lattice, as the command does with the options
        of these names. What the command would tell of it stands in the answer's ``notes``.

        >>> doors = Grammar.from_text('Entry -> "door" Number\\nNumber -> "four" | "five"')
        >>> doors.read("door 3; four 9 | five 5")
        Utterance([{'door': 3}, {'four': 9, 'five': 5}])
        """
        lent, empty = text.encode(), "\n".join(empty_words).encode()
        options = lib.TextOptions(scale or 0.0, drop_unknown, drop_deletes, lib.lent_text(empty))
        block, *notes = lib.read_text("heard", self._named, byref(lib.lent_text(lent)), byref(options))
        heard = self.heard(bytes.fromhex(block))
        heard.notes = tuple(notes)
        return heard

    def heard(self, block: bytes) -> Heard:
        """Unpacks the block of slots or of a word graph."""
        is_graph = block[:1] and block[0] >> 4 == GRAPH_KIND
        return Graph.from_block(self, block) if is_graph else Utterance.from_block(self, block)

    def list(self, heard: Heard, wanted: int = 8) -> List[Reading]:
        """The readings of least weight, the least first: as many as wanted, 1 to 256, or as there are."""
        packed, asked, last = heard.packed(self), wanted, self._last
        if FEW < wanted <= lib.MAX_READINGS and (last or self.unpacked.rules < CROWDED * self.unpacked.symbols):
            asked = min(wanted, max(FEW, 1 << min(last, default=0).bit_length()))
        found = self._call(packed, asked)
        while found == asked < wanted:
            asked = min(wanted, asked * STEP) if last else wanted
            found = self._call(packed, asked)
        if wanted > FEW:
            self._last = (*last[1 - REMEMBERED :], found)
        if not found:
            return []
        length, out = packed.lengths(asked)[0], lib.LENT.out
        fields = (lib.UtilReading * found)()
        lib.answered(_read_readings(byref(self.unpacked), out, length, found, fields))
        listed = Found(self, fields, string_at(out, found * length), length)
        return [Reading(listed, rank) for rank in range(found)]

    def _call(self, packed: Packed, wanted: int) -> int:
        """Lists so many readings; answers how many there are, which stand in what is lent."""
        lent = lib.LENT
        _, work_len, out_len = packed.lengths(wanted)
        if lent.work_len < work_len or lent.out_len < out_len:
            lent.grow(work_len, out_len)
        found: int = _listing(
            self.block, len(self.block), packed.block, packed.length, wanted, lent.work, work_len, lent.out, out_len
        )
        if found < 0:
            raise lib.refused(found)
        return found

    def readings(self, heard: Heard) -> "Iterator[Reading]":
        """The same readings one by one, up to 256, each looked for when it is asked for.

        >>> doors = Grammar.from_text('Entry -> "door" Number\\nNumber -> "four" | "five"')
        >>> next(doors.readings(doors.read("door 3; four 9 | five 5"))).sentence
        'door five'
        """
        packed, place = heard.packed(self), lib.Place()
        length, work_len, _ = packed.lengths(lib.MAX_READINGS)
        blocks = (self.block, len(self.block), packed.block, packed.length, byref(place))
        work, out = (c_uint32 * work_len)(), (c_uint8 * length)()
        lib.answered(_open(*blocks, work, work_len))
        while lib.answered(_next(*blocks, work, work_len, out, length)) == lib.NEXT_READING:
            yield self.reading(bytes(out))

    def reading(self, block: bytes) -> Reading:
        """A reading's block, with or without zeros behind it. Whether it is a derivation's is for ``check`` to say."""
        fields = (lib.UtilReading * 1)()
        lib.answered(_read_reading(byref(self.unpacked), block, len(block), fields))
        return Reading(Found(self, fields, block, len(block)), 0)

    def check(self, heard: Heard, reading: "Union[Reading, bytes]") -> None:
        """Returns if the reading is that of a derivation, with its true weight; else raises why not."""
        packed, block = heard.packed(self), _block(reading)
        lib.answered(_check(self.block, len(self.block), packed.block, packed.length, block, len(block)))

    def chance(self, heard: Heard, reading: "Union[Reading, bytes]", shares: "Sequence[int]") -> float:
        """The product of the shares of a reading's rules, of 1024 each. There is a share for each rule as it is written."""
        packed, block, chance = heard.packed(self), _block(reading), c_double()
        numbers = self._shares(shares)
        blocks = (self.block, len(self.block), packed.block, packed.length, block, len(block))
        lib.answered(_chance(*blocks, numbers, len(numbers), chance))
        return chance.value

    def _shares(self, shares: "Sequence[int]") -> "Array[c_uint32]":
        """The shares of the block's rules."""
        lent = " ".join(map(str, shares)).encode()
        try:
            [line] = lib.read_text("shares", self._named, byref(lib.lent_text(lent)))
        except TextFault as fault:
            raise Refused(fault.number, fault.message) from fault
        return lib.table(list(map(int, line.split())))

    def specimen(self, length: int) -> "tuple[str, ...] | None":
        """The first string of so many words, 1 to 24, that the grammar derives, by word numbers; ``None`` if there is none.

        >>> Grammar.from_text('Entry -> "door" Number\\nNumber -> "four" | "five"').specimen(2)
        ('door', 'four')
        """
        out = (c_uint8 * lib.MAX_SLOTS)()
        found = lib.answered(_specimen(self.block, len(self.block), max(length, 0), out, len(out)))
        return tuple(self.words[word] for word in out[:found]) if found else None

    def phrases(self, length: int) -> "Iterator[tuple[str, ...]]":
        """Every string of so many words, 1 to 6, that the grammar derives, by word numbers.

        >>> list(Grammar.from_text('Entry -> "door" Number\\nNumber -> "four" | "five"').phrases(2))
        [('door', 'four'), ('door', 'five')]
        """
        out, first = (c_uint8 * lib.MAX_SLOTS)(), 1
        while lib.answered(_next_phrase(self.block, len(self.block), max(length, 0), first, out, len(out))):
            yield tuple(self.words[word] for word in out[:length])
            first = 0

    def cost_ranges(self, low: Utterance, high: Utterance) -> "CostRange | None":
        """How the first weight varies where each word costs from what ``low`` says to what ``high`` says; ``None`` if there is
        no reading.

        >>> doors = Grammar.from_text('Entry -> "door" Number\\nNumber -> "four" | "five"')
        >>> doors.cost_ranges(*(Utterance([{"door": 3}, {"four": 9, "five": cost}]) for cost in (5, 12)))
        CostRange(least=8, greatest=12, stands=False)
        """
        low_packed, high_packed = low.packed(self), high.packed(self)
        work, work_len = self._work(low)
        least, greatest = c_uint32(), c_uint32()
        blocks = (low_packed.block, low_packed.length, high_packed.block, high_packed.length)
        found = lib.answered(_cost_ranges(self.block, len(self.block), *blocks, work, work_len, least, greatest))
        return CostRange(least.value, greatest.value, found != lib.FIRST_READING_OUTWEIGHED) if found else None

    def word_margins(self, utterance: Utterance) -> List[WordMargin]:
        """Which words to listen to again: by how little the cost of each must fall for another reading to come first.

        >>> doors = Grammar.from_text('Entry -> "door" Number\\nNumber -> "four" | "five"')
        >>> doors.word_margins(Utterance([{"door": 3}, {"four": 9, "five": 5}]))
        [WordMargin(amount=5, slot=1, word='four', weight=12)]
        """
        packed, out = utterance.packed(self), (c_uint32 * lib.MARGINS_MAX)()
        work, work_len = self._work(utterance)
        blocks = (self.block, len(self.block), packed.block, packed.length)
        found = lib.answered(_word_margins(*blocks, work, work_len, out, len(out)))
        numbers = iter(out[: found * lib.MARGIN_NUMBERS])
        return [WordMargin(amount, slot, self.words[word], weight) for amount, slot, word, weight in zip(*[numbers] * 4)]

    def _work(self, heard: Heard) -> "tuple[object, int]":
        """The work table for one reading."""
        _, work_len, _ = heard.packed(self).lengths(1)
        lib.LENT.grow(work_len, 0)
        return lib.LENT.work, work_len

    def tree(self, walk: "Sequence[int]", places: "Sequence[int]") -> Tree:
        """The tree of a reading's rule numbers in the rules as they are written, with where each word was heard."""
        words, symbols = self.words, self.symbols

        def part(numbers: "Sequence[Any]") -> "Union[Tree, Leaf]":
            if len(numbers) == LEAF_NUMBERS:
                return Leaf(words[numbers[0]], places[numbers[1]])
            rule, symbol, weight, below = numbers
            return Tree(symbols[symbol], rule, weight, tuple([part(each) for each in below]))

        tree = part(json.loads(self._drawn(walk)[0]))
        assert isinstance(tree, Tree)
        return tree

    def translation(self, walk: "Sequence[int]") -> str:
        """What the tree of a reading's rule numbers becomes by the translations of the text's rules, or its words."""
        return self._drawn(walk)[1]

    def _drawn(self, walk: "Sequence[int]") -> "Sequence[str]":
        return lib.read_text("tree", self._named, lib.table(walk), c_size_t(len(walk)))

    def __repr__(self) -> str:
        return f"<Grammar of {len(self.rules)} rules>"


#: The kind of a graph's block, its first four bits.
GRAPH_KIND = 5


def _block(reading: "Union[Reading, bytes]") -> bytes:
    return reading.block if isinstance(reading, Reading) else reading


def _named(block: bytes, symbols: "Iterable[str]", words: "Iterable[str]") -> "tuple[c_void_p, Sequence[str]]":
    """A block with names, none of which is longer than a line."""
    names = [list(symbols), list(words)]
    for name in chain(*names):
        if len(name.splitlines()) != 1:
            raise ValueError(f"{name!r} is no name: it is empty or has more than one line")
    return lib.read_grammar("name_grammar", block, *("\n".join(each).encode() for each in names))


def _packed_rules(rules: "Sequence[Rule]", symbols: "dict[str, int]", words: "dict[str, int]") -> bytes:
    """The block of rules: in normal form if they are, else as an office's."""
    sheet = [len(symbols), len(words), len(rules)]
    in_normal_form = all(_is_normal(rule.body) for rule in rules)
    for head, body, weight in rules:
        items = [(1, words[item]) if isinstance(item, Word) else (0, symbols[item]) for item in body]
        if in_normal_form:
            second = items[1][1] if len(items) > 1 else 0
            sheet += [int(len(items) == 1), symbols[head], weight, items[0][1], second]
        else:
            sheet += [symbols[head], weight, len(items)] + [number for item in items for number in item]
    pack = _grammar_to_block if in_normal_form else _office_to_block
    numbers, out = lib.table(sheet), (c_uint8 * lib.GRAMMAR_BLOCK_MAX)()
    return bytes(out[: lib.answered(pack(numbers, len(numbers), out, len(out)))])


def _is_normal(body: "Sequence[Union[str, Word]]") -> bool:
    """Whether a body is one word or two symbols."""
    return [isinstance(item, Word) for item in body] in ([True], [False, False])
