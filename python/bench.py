"""How much time the package takes above the library: a listing of 12 slots and 8 readings, in microseconds.

    PYTHONPATH=python python3 python/bench.py

The library's own time is that of a loop in C, compiled here by gcc.
"""

from __future__ import annotations

import subprocess
import tempfile
from pathlib import Path
from time import perf_counter
from typing import Callable

from spireyerba import Grammar, Reading, Utterance

ROOT = Path(__file__).resolve().parents[1]
SLOTS, WANTED, CALLS, ROUNDS = 12, 8, 50, 100

#: A door schedule's line with its words for numbers: few rules, and more than one way to read most lines.
GRAMMAR = """
Entry   -> Name Details | Entry Details [40]
Name    -> "door" Number
Number  -> Tens Units [5] | "twenty" [10] | "four" [10]
Tens    -> "twenty" | "forty"
Units   -> "four" | "five"
Details -> Leaf Rating | Leaf Leaf [20] | Rating Leaf [9]
Leaf    -> "oak" | "ash" | Leaf Leaf [3]
Rating  -> "fire" Minutes
Minutes -> "thirty" | "sixty"
"""
LINE = "door twenty four oak fire thirty ash oak fire sixty oak ash".split()
OTHERS = {"twenty": "forty", "four": "five", "oak": "ash", "ash": "oak", "thirty": "sixty", "sixty": "thirty"}

PROGRAM = """
#include "spireyerba_util.h"
#include <stdio.h>
#include <time.h>
static const uint8_t grammar[] = {%s}, heard[] = {%s};
int main(void) {
    static spireyerba_util_lister lister;
    struct timespec begin, end;
    double time, least = 1e9;
    int k, round;
    spireyerba_util_answered(spireyerba_util_set_block(&lister, grammar, sizeof grammar));
    spireyerba_util_answered(spireyerba_util_list_block(&lister, heard, sizeof heard, %d));
    for (round = 0; round < %d; round++) {
        clock_gettime(CLOCK_MONOTONIC, &begin);
        for (k = 0; k < %d; k++)
            spireyerba_listing(grammar, sizeof grammar, heard, sizeof heard, %d, lister.work, lister.lengths.work,
                               lister.out, lister.lengths.out);
        clock_gettime(CLOCK_MONOTONIC, &end);
        time = ((end.tv_sec - begin.tv_sec) * 1e6 + (end.tv_nsec - begin.tv_nsec) / 1e3) / %d;
        least = time < least ? time : least;
    }
    printf("%%f\\n", least);
    return 0;
}
"""


def in_c(grammar: Grammar, heard: Utterance) -> "Callable[[], float]":
    """The library's time, by a program in C."""
    blocks = [", ".join(map(str, block)) for block in (grammar.block, heard.to_block(grammar))]
    folder = tempfile.mkdtemp()
    source, program = Path(folder, "listing.c"), Path(folder, "listing")
    source.write_text(PROGRAM % (*blocks, WANTED, ROUNDS, CALLS, WANTED, CALLS))
    library = ROOT / "target" / "lib"
    flags = [f"-I{ROOT}/include", f"-L{library}", "-lspireyerba", f"-Wl,-rpath,{library}", "-o", str(program)]
    subprocess.run(["gcc", "-O2", str(source), *flags], check=True)
    return lambda: float(subprocess.run([program], check=True, capture_output=True).stdout)


def in_python(call: "Callable[[], object]") -> "Callable[[], float]":
    """The least time of a call, of several rounds."""

    def round() -> float:
        begin = perf_counter()
        for _ in range(CALLS):
            call()
        return (perf_counter() - begin) * 1e6 / CALLS

    return lambda: min(round() for _ in range(ROUNDS))


def main() -> None:
    """Prints the times."""
    grammar = Grammar.from_text(GRAMMAR)
    slots = [{word: 4, OTHERS[word]: 9} if word in OTHERS else {word: 4} for word in LINE]
    heard = Utterance(slots)
    assert (len(slots), len(grammar.list(heard, WANTED))) == (SLOTS, WANTED)

    def fields(read: "Callable[[Reading], object]") -> "Callable[[], object]":
        return lambda: [read(reading) for reading in grammar.list(heard, WANTED)]

    rows = {
        "the library, in C": in_c(grammar, heard),
        "Grammar.list": in_python(lambda: grammar.list(heard, WANTED)),
        ".. and each weight": in_python(fields(lambda reading: reading.weight)),
        ".. and each sentence": in_python(fields(lambda reading: (reading.weight, reading.sentence))),
        ".. and each tree": in_python(fields(lambda reading: reading.tree)),
        ".. of a new Utterance": in_python(lambda: grammar.list(Utterance(slots), WANTED)),
    }
    times = {name: measure() for name, measure in rows.items()}
    library = times["the library, in C"]
    for name, time in times.items():
        print(f"{name:24} {time:7.1f} µs {time - library:+7.1f}")


if __name__ == "__main__":
    main()
