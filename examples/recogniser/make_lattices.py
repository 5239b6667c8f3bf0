#!/usr/bin/env python3
"""Makes lattices of sentences of an office's grammar, as a recogniser writes them.

usage: make_lattices.py GRAMMAR FOLDER [COUNT] [--general]

Sentences that the grammar derives are spoken by espeak-ng and heard by PocketSphinx, both of which are packages of Debian (espeak-ng,
pocketsphinx, pocketsphinx-en-us). FOLDER gets u0.slf, u1.slf and so on, lattices in HTK's format, and said.txt with what was said. The
recogniser knows the grammar's words alone, with equal chances; with --general its whole English vocabulary. The command
`spireyerba` is looked for in PATH, or is what the variable SPIREYERBA names.
"""

import math
import os
import random
import subprocess
import sys
import wave
from pathlib import Path

MODEL = Path("/usr/share/pocketsphinx/model/en-us")
VOICES = ["en-us", "en-us+f3", "en-gb", "en-us+m3", "en-gb-scotland"]
LENGTHS = range(2, 7)  # `spireyerba phrases` knows phrases of up to six words
PHRASES = 20_000  # at most so many of each length are chosen from
SEED = 1
SPIREYERBA = os.environ.get("SPIREYERBA", "spireyerba")


def phrases(grammar, length):
    """What the grammar derives in so many words, or the front of that."""
    command = [SPIREYERBA, "phrases", grammar, str(length)]
    with subprocess.Popen(command, stdout=subprocess.PIPE, stderr=subprocess.PIPE, text=True) as run:
        found = [line.strip() for line, _ in zip(run.stdout, range(PHRASES))]
        if not found and run.wait() != 0:
            sys.exit(run.stderr.read())
        return found


def chosen(grammar, count):
    """Sentences of all lengths, chosen with a fixed seed."""
    rng = random.Random(SEED)
    by_length = [found for found in (phrases(grammar, length) for length in LENGTHS) if found]
    if not by_length:
        sys.exit(f"{grammar}: derives nothing of {LENGTHS[0]} to {LENGTHS[-1]} words")
    return [rng.choice(rng.choice(by_length)) for _ in range(count)]


def speak(sentence, voice, path):
    """Writes the sentence as sound."""
    subprocess.run(["espeak-ng", "-v", voice, "-s", "150", "-w", str(path), sentence], check=True)
    with wave.open(str(path)) as sound:
        return sound.getframerate()


def vocabulary(words, folder):
    """The pronunciations of some words and a language model in which all have the same chance; answers the options for both."""
    known = {}
    for line in (MODEL / "cmudict-en-us.dict").read_text().splitlines():
        word, _, sounds = line.partition(" ")
        if word.split("(")[0] in words:
            known[word] = sounds
    missing = sorted(words - known.keys())
    if missing:
        print("no pronunciation, so the recogniser cannot hear:", *missing, file=sys.stderr)
    (folder / "words.dict").write_text("".join(f"{word} {sounds}\n" for word, sounds in known.items()))
    entries = sorted(words & known.keys()) + ["</s>"]
    chance = -math.log10(len(entries))
    lines = [f"{chance:.4f} {word}" for word in entries] + ["-99 <s>"]
    (folder / "words.lm").write_text("\n".join(["\\data\\", f"ngram 1={len(lines)}", "", "\\1-grams:", *lines, "", "\\end\\", ""]))
    return ["-lm", str(folder / "words.lm"), "-dict", str(folder / "words.dict")]


def hear(folder, names, rate, model):
    """Writes a lattice of each sound."""
    (folder / "sounds.txt").write_text("".join(f"{name}\n" for name in names))
    files = ["-ctl", "sounds.txt", "-cepdir", ".", "-cepext", ".wav", "-outlatdir", ".", "-outlatext", ".slf", "-outlatfmt", "htk"]
    sound = ["-adcin", "yes", "-adchdr", "44", "-samprate", str(rate), "-nfft", "1024", "-logfn", "recogniser.log"]
    command = ["pocketsphinx_batch", "-hmm", str(MODEL / "en-us"), *model, *files, *sound, "-hyp", "heard.txt"]
    subprocess.run(command, check=True, cwd=folder)


def main():
    operands = [word for word in sys.argv[1:] if word != "--general"]
    if len(operands) not in (2, 3):
        sys.exit(__doc__)
    grammar, folder, count = operands[0], Path(operands[1]).resolve(), int((operands + ["20"])[2])
    folder.mkdir(parents=True, exist_ok=True)
    sentences = chosen(grammar, count)
    names = [f"u{number}" for number in range(count)]
    rates = {speak(sentence, VOICES[number % len(VOICES)], folder / f"u{number}.wav") for number, sentence in enumerate(sentences)}
    (folder / "said.txt").write_text("".join(f"{name} {sentence}\n" for name, sentence in zip(names, sentences)))
    all_words = {word for length in LENGTHS for phrase in phrases(grammar, length) for word in phrase.split()}
    general = ["-lm", str(MODEL / "en-us.lm.bin"), "-dict", str(MODEL / "cmudict-en-us.dict")]
    hear(folder, names, rates.pop(), general if "--general" in sys.argv else vocabulary(all_words, folder))


if __name__ == "__main__":
    main()
