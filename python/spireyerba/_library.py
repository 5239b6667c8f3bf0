"""The shared libraries: where they are, and their functions.

``libspireyerba.so`` has the proved functions and, beside them, the conveniences of ``spireyerba_util.h``.
``libspireyerba_text.so`` has names: it reads texts and draws trees.
"""

from __future__ import annotations

import ctypes
import os
import threading
from ctypes import POINTER, Structure, byref, c_char_p, c_double, c_int32, c_size_t, c_uint8, c_uint32, c_void_p
from functools import lru_cache
from pathlib import Path
from typing import Callable, Iterator, Sequence

from .errors import Refused, TextFault

#: The number of the interface that this package speaks, of both libraries.
INTERFACE = 1
TEXT_INTERFACE = 1

#: The sizes of include/spireyerba.h that are needed here.
MAX_RULES = 256
MAX_SLOTS = 24
MAX_EDGES = 96
MAX_READINGS = 256
GRAMMAR_BLOCK_MAX = 1060
GRAMMAR_SHEET_MAX = 1539
UTTERANCE_BLOCK_MAX = 515
UTTERANCE_SHEET_MAX = 361
GRAPH_BLOCK_MAX = 410
MARGINS_MAX = 672
MARGIN_NUMBERS = 4
MAX_SHARE = 1024
NEXT_READING = 1
FIRST_READING_OUTWEIGHED = 1

#: What a rule has in place of a word if its body is two symbols.
NO_WORD = 0xFFFFFFFF


class UtilGrammar(Structure):
    """``spireyerba_util_grammar``"""

    _fields_ = [
        ("symbols", c_uint32),
        ("words", c_uint32),
        ("rules", c_uint32),
        ("has_marks", c_uint32),
        ("word", c_uint32 * MAX_RULES),
        ("is_marked", c_uint32 * MAX_RULES),
    ]


class UtilLengths(Structure):
    """``spireyerba_util_lengths``"""

    _fields_ = [
        ("longest", c_uint32),
        ("of_graph", c_uint32),
        ("reading", c_size_t),
        ("work", c_size_t),
        ("out", c_size_t),
    ]


class UtilReading(Structure):
    """``spireyerba_util_reading``"""

    _fields_ = [
        ("weight", c_uint32),
        ("nodes", c_uint32),
        ("leaves", c_uint32),
        ("of_graph", c_uint32),
        ("rule", c_uint32 * (2 * MAX_SLOTS - 1)),
        ("word", c_uint32 * MAX_SLOTS),
        ("edge", c_uint32 * MAX_SLOTS),
    ]


class UtilEdge(Structure):
    """``spireyerba_util_edge``"""

    _fields_ = [("from_place", c_uint32), ("to_place", c_uint32), ("word", c_uint32), ("cost", c_uint32)]


class Place(Structure):
    """``spireyerba_place``"""

    _fields_ = [("handed", c_uint32), ("opened", c_uint32)]


class Text(Structure):
    """``spireyerba_text``"""

    _fields_ = [("start", c_char_p), ("length", c_size_t)]


class TextOut(Structure):
    """``spireyerba_text_out``"""

    _fields_ = [("start", c_void_p), ("room", c_size_t), ("length", c_size_t)]


class TextOptions(Structure):
    """``spireyerba_text_options``"""

    _fields_ = [
        ("scale", c_double),
        ("drop_unknown", c_uint32),
        ("drop_deletes", c_uint32),
        ("empty_words", Text),
    ]


def folders() -> Iterator[Path]:
    """Where a library may be: as the environment says, where it was installed, and in the repository."""
    named = os.environ.get("SPIREYERBA_LIB_DIR")
    if named:
        yield Path(named)
    try:
        from ._installed import LIBDIR  # type: ignore[import]  # written by `make install`

        yield Path(LIBDIR)
    except ImportError:
        pass
    yield Path(__file__).resolve().parents[2] / "target" / "lib"


def load(name: str) -> ctypes.CDLL:
    """The library with a name: from a folder that is known, or wherever the system finds it."""
    found = (folder / name for folder in folders() if (folder / name).exists())
    try:
        return ctypes.CDLL(str(next(found, name)))
    except OSError as error:
        advice = "run `make install`, or `make` in the repository, or set SPIREYERBA_LIB_DIR"
        raise ImportError(f"{name} cannot be loaded ({error}): {advice}") from error


#: Slices are two parameters: a pointer and a length. Bytes are lent as they are.
BYTES = (c_char_p, c_size_t)
TABLE = (c_void_p, c_size_t)

_PARAMETERS: "dict[str, tuple[type, ...]]" = {
    "grammar_to_block": TABLE + TABLE,
    "office_to_block": TABLE + TABLE,
    "grammar_to_sheet": BYTES + TABLE,
    "utterance_to_block": BYTES + TABLE + TABLE,
    "utterance_to_sheet": BYTES + BYTES + TABLE,
    "check": BYTES + BYTES + BYTES,
    "chance": BYTES + BYTES + BYTES + TABLE + (POINTER(c_double),),
    "specimen": BYTES + (c_uint32,) + TABLE,
    "next_phrase": BYTES + (c_uint32, c_uint32) + TABLE,
    "listing": BYTES + BYTES + (c_uint32,) + TABLE + TABLE,
    "open": BYTES + BYTES + (c_void_p,) + TABLE,
    "next": BYTES + BYTES + (c_void_p,) + TABLE + TABLE,
    "cost_ranges": BYTES + BYTES + BYTES + TABLE + (POINTER(c_uint32), POINTER(c_uint32)),
    "word_margins": BYTES + BYTES + TABLE + TABLE,
    "util_interface": (),
    "util_read_grammar": BYTES + (c_void_p,),
    "util_measure": (c_void_p,) + BYTES + (c_uint32, c_void_p),
    "util_read_reading": (c_void_p,) + BYTES + (c_void_p,),
    "util_read_readings": (c_void_p, c_void_p, c_size_t, c_uint32, c_void_p),
    "util_graph_to_block": BYTES + (c_uint32,) + TABLE + TABLE,
    "util_read_graph": BYTES + BYTES + (POINTER(c_uint32), c_void_p),
}

_LIBRARY = load(f"libspireyerba.so.{INTERFACE}")


def function(name: str) -> "Callable[..., int]":
    """A function of the library, without its prefix."""
    found = getattr(_LIBRARY, f"spireyerba_{name}")
    found.argtypes = _PARAMETERS[name]
    found.restype = c_int32
    return found  # type: ignore[no-any-return]


_words = _LIBRARY.spireyerba_util_words
_words.argtypes, _words.restype = (c_int32,), c_char_p
_version = _LIBRARY.spireyerba_util_version
_version.argtypes, _version.restype = (), c_char_p

if function("util_interface")() != INTERFACE:
    raise ImportError(f"the library speaks interface {function('util_interface')()}, and this package {INTERFACE}")


_LENGTHS = [_LIBRARY.spireyerba_util_reading_length, _LIBRARY.spireyerba_util_graph_reading_length]
for _length in _LENGTHS:
    _length.argtypes, _length.restype = (c_uint32, c_uint32), c_size_t


def reading_length(leaves: int, rules: int, of_graph: bool) -> int:
    """The bytes of a reading over so many slots, or edges of a path, under so many rules."""
    return _LENGTHS[of_graph](leaves, rules)  # type: ignore[no-any-return]


def version() -> str:
    """The version of the library."""
    return str(_version(), "ascii")


def refused(answer: int) -> Refused:
    """The exception for a number below 0 that a function answered."""
    return Refused(-answer, _words(answer).decode())


def answered(answer: int) -> int:
    """Hands on an answer, or raises the refusal."""
    if answer < 0:
        raise refused(answer)
    return answer


def table(numbers: "Sequence[int]") -> "ctypes.Array[c_uint32]":
    """Numbers to be lent. What no 32 bits hold is refused as a value that passes."""
    for number in numbers:
        if not 0 <= number <= NO_WORD:
            raise refused(-42)
    return (c_uint32 * len(numbers))(*numbers)


class Lent(threading.local):
    """Memory that is lent to listings, and kept from one to the next: each thread has its own."""

    def __init__(self) -> None:
        self.work = (c_uint32 * 0)()
        self.work_len = 0
        self.out = (c_uint8 * 0)()
        self.out_len = 0

    def grow(self, work_len: int, out_len: int) -> None:
        """Makes room."""
        if self.work_len < work_len:
            self.work, self.work_len = (c_uint32 * work_len)(), work_len
        if self.out_len < out_len:
            self.out, self.out_len = (c_uint8 * out_len)(), out_len


LENT = Lent()


@lru_cache(maxsize=None)
def _text_library() -> ctypes.CDLL:
    library = load(f"libspireyerba_text.so.{TEXT_INTERFACE}")
    library.spireyerba_text_free.argtypes, library.spireyerba_text_free.restype = (c_void_p,), None
    return library


def lent_text(text: bytes) -> Text:
    """A text to be lent. Its bytes must be kept until the call has returned."""
    return Text(text, len(text))


#: The bytes in which most answers about a text have room.
TEXT_ROOM = 1 << 14
TEXT_FAULT, TEXT_SHORT = 1, 2


def read_text(name: str, *arguments: object) -> "list[str]":
    """The lines that a function about texts answers, or its fault."""
    call = getattr(_text_library(), f"spireyerba_text_{name}")
    room = TEXT_ROOM
    while True:
        memory = ctypes.create_string_buffer(room)
        out = TextOut(ctypes.addressof(memory), room, 0)
        status = call(*arguments, byref(out))
        if status != TEXT_SHORT:
            break
        room = out.length
    lines = memory.raw[: out.length].decode().split("\n")[:-1]
    if status == TEXT_FAULT:
        number, line, column = map(int, lines[0].split())
        raise TextFault(number, line, column, lines[1]) if line else refused(-number)
    return lines


def read_grammar(name: str, *texts: bytes) -> "tuple[c_void_p, list[str]]":
    """A grammar with its names, which is to be given back, and the lines about it."""
    grammar = c_void_p()
    lines = read_text(name, *(byref(lent_text(text)) for text in texts), byref(grammar))
    return grammar, lines


def free_grammar(grammar: c_void_p) -> None:
    """Gives a grammar back."""
    _text_library().spireyerba_text_free(grammar)
