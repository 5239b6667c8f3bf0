"""Readings, as numbers and as trees."""

from __future__ import annotations

from typing import TYPE_CHECKING, Iterator, NamedTuple, Union

if TYPE_CHECKING:
    from ctypes import Array

    from ._library import UtilReading
    from .grammar import Grammar


class Leaf(NamedTuple):
    """A word of a tree, and where it was heard: the number of its slot, or of its edge in the graph."""

    word: str
    place: int

    def __str__(self) -> str:
        return self.word


class Tree(NamedTuple):
    """A node of a derivation: a symbol, the number of the rule that made it, what that costs here, and what stands below it.

    ``str`` writes it in brackets, as NLTK and other tools read trees.
    """

    symbol: str
    rule: int
    weight: int
    children: "tuple[Union[Tree, Leaf], ...]"

    def nodes(self) -> "Iterator[Tree]":
        """All nodes: a node before those below it, from the left."""
        yield self
        for child in self.children:
            if isinstance(child, Tree):
                yield from child.nodes()

    def leaves(self) -> "Iterator[Leaf]":
        """The words from left to right."""
        for child in self.children:
            if isinstance(child, Leaf):
                yield child
            else:
                yield from child.leaves()

    def find(self, symbol: str) -> "Iterator[Tree]":
        """The nodes of a symbol, in the same order."""
        return (node for node in self.nodes() if node.symbol == symbol)

    @property
    def sentence(self) -> str:
        """The words with a blank between two."""
        return " ".join(leaf.word for leaf in self.leaves())

    def __str__(self) -> str:
        return f"({self.symbol} {' '.join(map(str, self.children))})"


class Found(NamedTuple):
    """Readings as the library left them: their blocks, each so many bytes long, and the fields of each."""

    grammar: "Grammar"
    fields: "Array[UtilReading]"
    data: bytes
    length: int


class Reading:
    """A derivation of what was heard. Its fields are looked up when they are asked for.

    >>> from spireyerba import Grammar, Utterance
    >>> doors = Grammar.from_text('Entry -> "door" Number [1]\\nNumber -> "four" | "five" [2]')
    >>> [reading] = doors.list(Utterance([{"door": 3}, {"four": 9, "five": 5}]), 1)
    >>> reading.weight, reading.words, reading.rules
    (11, ('door', 'five'), (0, 2))
    >>> print(reading.tree)
    (Entry door (Number five))
    """

    __slots__ = ("_found", "_rank")

    def __init__(self, found: "Found", rank: int) -> None:
        self._found = found
        self._rank = rank

    @property
    def grammar(self) -> "Grammar":
        """The grammar that it is of."""
        return self._found.grammar

    @property
    def _fields(self) -> "UtilReading":
        return self._found.fields[self._rank]

    @property
    def weight(self) -> int:
        """The sum of the rules' weights and of the words' costs."""
        return self._fields.weight  # type: ignore[no-any-return]

    @property
    def walk(self) -> "tuple[int, ...]":
        """The rule number of each node of the derivation in normal form: a node, its left part, its right part."""
        fields = self._fields
        return tuple(fields.rule[: fields.nodes])

    @property
    def rules(self) -> "tuple[int, ...]":
        """The numbers of the rules as they are written, in the order of the tree's nodes."""
        return tuple(node.rule for node in self.tree.nodes())

    @property
    def words(self) -> "tuple[str, ...]":
        """The words in their order."""
        fields, names = self._fields, self.grammar.words
        return tuple([names[word] for word in fields.word[: fields.leaves]])

    @property
    def sentence(self) -> str:
        """The words with a blank between two."""
        return " ".join(self.words)

    @property
    def path(self) -> "tuple[int, ...] | None":
        """Of a word graph: the number of each word's edge. Of slots there is none."""
        fields = self._fields
        return tuple(fields.edge[: fields.leaves]) if fields.of_graph else None

    @property
    def block(self) -> bytes:
        """The block of the reading, of its own length, as the C interface has it."""
        fields, found = self._fields, self._found
        own = self.grammar.reading_length(fields.leaves, bool(fields.of_graph))
        return found.data[self._rank * found.length :][:own]

    @property
    def tree(self) -> Tree:
        """The derivation as a tree, in the rules as they are written."""
        fields = self._fields
        return self.grammar.tree(fields.rule[: fields.nodes], fields.edge[: fields.leaves])

    @property
    def translation(self) -> str:
        """What the tree becomes by the translations of the grammar's rules; without any, the sentence."""
        return self.grammar.translation(self.walk)

    def __eq__(self, other: object) -> bool:
        return isinstance(other, Reading) and self.block == other.block and self.grammar.block == other.grammar.block

    def __hash__(self) -> int:
        return hash(self.block)

    def __repr__(self) -> str:
        return f"<Reading {self.weight}: {self.sentence}>"
