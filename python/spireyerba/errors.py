"""What can go wrong."""

from __future__ import annotations


class Refused(ValueError):
    """The library refused what it was handed.

    ``number`` is the refusal's number, by which the header of the C interface names it, and ``words`` says what was wrong.

    >>> from spireyerba import Grammar
    >>> Grammar.from_block(b" ")
    Traceback (most recent call last):
    ...
    spireyerba.errors.Refused: refused 2: the grammar block's kind is not 1 or 4
    """

    def __init__(self, number: int, words: str) -> None:
        super().__init__(number, words)
        self.number = number
        self.words = words

    def __str__(self) -> str:
        return f"refused {self.number}: {self.words}"


class TextFault(ValueError):
    """A text cannot be read. ``line`` and ``column`` count from 1; ``number`` is that of a refusal, or 0 for none.

    >>> from spireyerba import Grammar
    >>> try:
    ...     Grammar.from_text('Entry -> Door Number [70000]')
    ... except TextFault as fault:
    ...     print(fault.line, fault.column, fault.number)
    1 23 42
    """

    def __init__(self, number: int, line: int, column: int, message: str) -> None:
        super().__init__(number, line, column, message)
        self.number = number
        self.line = line
        self.column = column
        self.message = message

    def __str__(self) -> str:
        return self.message
