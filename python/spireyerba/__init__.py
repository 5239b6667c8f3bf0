"""The least readings of a spoken utterance under a weighted grammar, cheapest first, none left out.

>>> from spireyerba import Grammar, Utterance
>>> doors = Grammar.from_text('''
... Entry  -> "door" Number [1]     # an entry is a door and its number
... Number -> "four" | "five" [2]
... ''')
>>> heard = Utterance([{"door": 3}, {"four": 9, "five": 5}])
>>> for reading in doors.list(heard):
...     print(reading.weight, reading.sentence)
11 door five
13 door four
>>> print(doors.list(heard)[0].tree)
(Entry door (Number five))

Whatever is searched, weighed or checked, the proved library does it. What it refuses is raised as `Refused`, with the refusal's
number and words. While it works the interpreter's lock is released, and its memory is kept from one listing to the next, for
each thread apart.
"""

from ._library import version
from .errors import Refused, TextFault
from .grammar import CostRange, Grammar, Rule, Word, WordMargin
from .heard import NOT_HEARD, Edge, Graph, Heard, Utterance
from .reading import Leaf, Reading, Tree

__version__ = version()
__all__ = [
    "NOT_HEARD",
    "CostRange",
    "Edge",
    "Grammar",
    "Graph",
    "Heard",
    "Leaf",
    "Reading",
    "Refused",
    "Rule",
    "TextFault",
    "Tree",
    "Utterance",
    "Word",
    "WordMargin",
    "version",
]
