"""What was heard: slots, or a word graph."""

from __future__ import annotations

from ctypes import byref, c_uint8, c_uint32
from typing import TYPE_CHECKING, Iterable, Mapping, NamedTuple, Union

from . import _library as lib

if TYPE_CHECKING:
    from .grammar import Grammar

#: The cost that says that a word was not heard.
NOT_HEARD = 65535

_measure = lib.function("util_measure")
_utterance_to_block = lib.function("utterance_to_block")
_utterance_to_sheet = lib.function("utterance_to_sheet")
_graph_to_block = lib.function("util_graph_to_block")
_read_graph = lib.function("util_read_graph")


class Packed:
    """A block under a grammar, and what its listings need."""

    __slots__ = ("grammar", "block", "length", "_lengths")

    def __init__(self, grammar: "Grammar", block: bytes) -> None:
        self.grammar = grammar
        self.block = block
        self.length = len(block)
        self._lengths: "dict[int, tuple[int, int, int]]" = {}

    def lengths(self, wanted: int) -> "tuple[int, int, int]":
        """The bytes of a reading, the numbers of the work table and the bytes of the output for so many readings."""
        known = self._lengths.get(wanted)
        if known is None:
            needed = lib.UtilLengths()
            wanted_number = wanted if 0 <= wanted <= lib.NO_WORD else 0
            lib.answered(
                _measure(byref(self.grammar.unpacked), self.block, self.length, wanted_number, byref(needed))
            )
            known = self._lengths[wanted] = (needed.reading, needed.work, needed.out)
        return known


class _Heard:
    """What slots and graphs share: a block for the grammar under which it was asked for last."""

    __slots__ = ("_packed", "notes")
    _packed: "Packed | None"
    #: What is to be told of a text that this was read from: what was left out of it, and what that means.
    notes: "tuple[str, ...]"

    def __init__(self) -> None:
        self._packed = None
        self.notes = ()

    def packed(self, grammar: "Grammar") -> Packed:
        """The block under a grammar, packed once."""
        packed = self._packed
        if packed is None or packed.grammar is not grammar:
            packed = self._packed = Packed(grammar, self._pack(grammar))
        return packed

    def to_block(self, grammar: "Grammar") -> bytes:
        """The block under a grammar, as the C interface has it."""
        return self.packed(grammar).block

    def _pack(self, grammar: "Grammar") -> bytes:
        raise NotImplementedError


class Utterance(_Heard):
    """Slots, each a mapping of words to costs; 65535 says that a word was not heard.

    >>> from spireyerba import Grammar
    >>> doors = Grammar.from_text('Entry -> "door" Number\\nNumber -> "four" | "five"')
    >>> heard = Utterance([{"door": 3}, {"four": 9, "five": 5}])
    >>> Utterance.from_block(doors, heard.to_block(doors)) == heard
    True
    """

    __slots__ = ("slots",)

    def __init__(self, slots: "Iterable[Mapping[str, int]]") -> None:
        super().__init__()
        self.slots: "tuple[dict[str, int], ...]" = tuple(map(dict, slots))

    @classmethod
    def from_block(cls, grammar: "Grammar", block: bytes) -> "Utterance":
        """Unpacks a block of slots under a grammar."""
        sheet = (c_uint32 * lib.UTTERANCE_SHEET_MAX)()
        lib.answered(_utterance_to_sheet(grammar.block, len(grammar.block), block, len(block), sheet, len(sheet)))
        numbers = iter(sheet)
        slots = [
            {grammar.words[next(numbers)]: next(numbers) for _ in range(next(numbers))} for _ in range(next(numbers))
        ]
        utterance = cls(slots)
        utterance._packed = Packed(grammar, block)
        return utterance

    def _pack(self, grammar: "Grammar") -> bytes:
        sheet = [len(self.slots)]
        for slot in self.slots:
            sheet.append(len(slot))
            for word, cost in sorted((grammar.word_number(word), cost) for word, cost in slot.items()):
                sheet += (word, cost)
        numbers, out = lib.table(sheet), (c_uint8 * lib.UTTERANCE_BLOCK_MAX)()
        block = grammar.block
        length = lib.answered(_utterance_to_block(block, len(block), numbers, len(numbers), out, len(out)))
        return bytes(out[:length])

    def __eq__(self, other: object) -> bool:
        return isinstance(other, Utterance) and self.slots == other.slots

    __hash__ = None  # type: ignore[assignment]

    def __repr__(self) -> str:
        return f"Utterance({list(self.slots)!r})"


class Edge(NamedTuple):
    """A word that was heard from one place of a graph to a later one."""

    start: int
    end: int
    word: str
    cost: int


class Graph(_Heard):
    """A word graph: edges between places, which are numbered from 0. A reading takes the words of a path from the first place
    to the last one, which is the greatest that an edge ends at unless ``places`` says how many there are.

    >>> from spireyerba import Grammar
    >>> doors = Grammar.from_text('Entry -> "door" Number\\nNumber -> "four" | "five"')
    >>> graph = Graph([(0, 1, "door", 3), (1, 2, "five", 5), (1, 2, "four", 9)])
    >>> [reading.sentence for reading in doors.list(graph)]
    ['door five', 'door four']
    """

    __slots__ = ("edges", "places")

    def __init__(self, edges: "Iterable[tuple[int, int, str, int]]", places: "int | None" = None) -> None:
        super().__init__()
        self.edges = tuple(Edge(*edge) for edge in edges)
        self.places = max((edge.end for edge in self.edges), default=0) + 1 if places is None else places

    @classmethod
    def from_block(cls, grammar: "Grammar", block: bytes) -> "Graph":
        """Unpacks a block of a graph under a grammar."""
        edges, places = (lib.UtilEdge * lib.MAX_EDGES)(), c_uint32()
        count = lib.answered(_read_graph(grammar.block, len(grammar.block), block, len(block), places, edges))
        words = grammar.words
        graph = cls(
            ((edge.from_place, edge.to_place, words[edge.word], edge.cost) for edge in edges[:count]), places.value
        )
        graph._packed = Packed(grammar, block)
        return graph

    def _pack(self, grammar: "Grammar") -> bytes:
        numbers = [(edge.start, edge.end, grammar.word_number(edge.word), edge.cost) for edge in self.edges]
        lib.table([number for edge in numbers for number in edge] + [self.places])
        edges = (lib.UtilEdge * len(numbers))(*(lib.UtilEdge(*edge) for edge in numbers))
        out = (c_uint8 * lib.GRAPH_BLOCK_MAX)()
        block = grammar.block
        length = _graph_to_block(block, len(block), self.places, edges, len(edges), out, len(out))
        return bytes(out[: lib.answered(length)])

    def __eq__(self, other: object) -> bool:
        return isinstance(other, Graph) and (self.edges, self.places) == (other.edges, other.places)

    __hash__ = None  # type: ignore[assignment]

    def __repr__(self) -> str:
        return f"Graph({[tuple(edge) for edge in self.edges]!r}, places={self.places})"


#: Slots or a word graph.
Heard = Union[Utterance, Graph]
