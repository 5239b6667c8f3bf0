"""From the lattices of a recogniser to a door schedule: a line for each lattice, in columns.

    python3 examples/door_schedule.py examples/doors/grammar.txt 100 examples/doors_graph/lattice.slf

PocketSphinx writes such lattices by decoder.get_lattice().write_htk("1.slf"), of which 1 is a good scale: a cost is minus so
many times the logarithm of a likelihood.
"""

import sys

from spireyerba import Grammar, TextFault

COLUMNS = ["Number", "Leaf", "Rating", "Side"]  # symbols of the grammar
SILENCE = ["<sil>", "[NOISE]", "[SPEECH]"]  # words that nobody says

grammar, scale = Grammar.from_file(sys.argv[1]), float(sys.argv[2])
print(*COLUMNS, "margin", sep="\t")
for name in sys.argv[3:]:
    try:
        with open(name, encoding="utf-8") as lattice:
            heard = grammar.read(lattice.read(), scale=scale, drop_unknown=True, empty_words=SILENCE)
    except TextFault as fault:
        print(f"{name}: {fault}", file=sys.stderr)
        continue
    print(*(f"{name}: {note}\n" for note in heard.notes), sep="", end="", file=sys.stderr)
    readings = grammar.list(heard, 2)
    if not readings:
        print(f"{name}: no reading", file=sys.stderr)
        continue
    tree, margin = readings[0].tree, readings[-1].weight - readings[0].weight  # by how much the next one is dearer
    print(*(next((node.sentence for node in tree.find(column)), "") for column in COLUMNS), margin, sep="\t")
