#!/usr/bin/env python3
"""Spells the repository's own definitions and lemmas in snake case, after /opt/rattle/port/port.py: words of a name are joined by `_`.

usage: respell.py [--check]      at the top of the repository, once, after port.py

It turns what the texts of specs/ and proofs/ declare: definitions, lemmas, fields, constructors and `let`s whose name begins with a small
letter, in every .antt file and in the clauses of every .rt file. Left as they are: types and modules, names of goals in a Proof.antt, what a
file imports from a library of the kit, and Rust outside clauses. A name that would meet another one in some file gets the spelling in APART.
--check writes nothing and lists the names that would meet another.
"""

import collections
import os
import re
import sys

TOKEN = re.compile(r"--[^\n]*|\"(?:[^\"\\]|\\.)*\"|«[^»]*»|[^\s(){}\[\].;,@\"«»]+")
DECLARED = re.compile(r"^ *((?:abbrev|unfoldable|opaque|pub|let|where|private|instance|in) +)*(\([^()\n]*\)|\S+)(?: \{[^{}\n]*\})* : ?(.*)$", re.M)
SMALL = re.compile(r"[a-z]")
USE = re.compile(r"^ *(?:pub )?use (\S+?)(?:\.\{([^}]*)\})?(?: as (\S+))?$", re.M)
GHOST_USE = re.compile(r"^ *ghost use ([^\s;{]+?)(?:\.\{([^}]*)\})?(?: as (\S+))?;", re.M)

# Names that would meet another one: old spelling, and what stands for it.
APART = {
    "by-word": "by_word_rule",
    "by-pair": "by_pair_rule",
    "is_share": "is_share_lem",
    "row_back": "row_back_lem",
    "pair_step": "pair_step_lem",
    "shown_of": "shown_of_lem",
    "put-back": "put_back_lem",
    "slots-of": "slots_of_lem",
    "edge-at": "edge_at_lem",
    "room-for": "room_for_lem",
    "block-at": "block_at_lem",
    "slots-by": "slots_by_lem",
    "in-range": "in_range_lem",
}


def snake(name):
    words = re.sub(r"(?<=[a-z0-9'])([A-Z]+)(?=[A-Z][a-z]|[^A-Za-z]|$)|(?<=[a-z0-9'])([A-Z])", lambda m: "_" + m[0].lower(), name)
    return re.sub(r"(?<=[\w'])-(?=[\w'])", "_", words)


def is_own(module):
    m = re.match(r"Rattle\.(\w+)", module)
    return bool(m) and m[1] in CRATES or module.startswith("package")


def texts():
    for folder, dirs, files in os.walk("crates"):
        dirs[:] = sorted(d for d in dirs if d != "out")
        for f in sorted(files):
            if f.endswith((".rt", ".antt")):
                path = os.path.join(folder, f)
                with open(path, encoding="utf-8") as it:
                    yield path, it.read()


def without_comments(text):
    return re.sub(r"--[^\n]*", "", text)


def goals_of(text):
    """The names of goals that a Proof.antt declares: those whose type is one of the borrow checker's."""
    return {m[2] for m in DECLARED.finditer(text) if re.match(r"\{?.*\btie\.(Need|Invariant|Measure|Decreases)|\{?.*\btie\.\w*Need", m[3]) or m[3].startswith(("tie.", "goal."))}


def clauses(text):
    """The places of the clauses, ghost fields and ghost uses of a .rt file, as pairs of begin and end."""
    out = []
    for m in re.finditer(r"\b(?:requires|ensures|ghost)\*?(?: \w+:?)? ?(?:: ?)?\{", text):
        deep, k = 1, m.end()
        while deep and k < len(text):
            deep += {"{": 1, "}": -1}.get(text[k], 0)
            k += 1
        out.append((m.end(), k - 1))
    out += [(m.start(1), m.end() - 1) for m in GHOST_USE.finditer(text)]
    return sorted(out)


def imported(text, use):
    """What a file has from a library of the kit, and the names that it gives to modules."""
    out = set()
    for m in use.finditer(text):
        if not is_own(m[1]):
            for it in (m[2] or "").split(","):
                out.update(it.strip().split(" as "))
        if m[3]:
            out.add(m[3])
    return out


def turned(text, begin, end, names, kit, skip, before=""):
    def one(m):
        word = m[0]
        if word.startswith(("--", '"', "«")) or word in kit or word in skip:
            return word
        dotted = m.start() and text[begin + m.start() - 1] == "."
        if dotted and (text[begin : begin + m.start()].endswith("tie.") or word in APART and "_" in word):
            return word
        return names.get(word, word)

    return TOKEN.sub(one, text[begin:end])


def main():
    global CRATES
    check = "--check" in sys.argv[1:]
    CRATES = {d for d in os.listdir("crates")}
    files = dict(texts())
    own = set()
    for path, text in files.items():
        if path.endswith(".antt"):
            plain = without_comments(text)
            goals = goals_of(plain) if path.endswith("/Proof.antt") else set()
            for m in DECLARED.finditer(plain):
                each = m[2].strip("()").split() if m[2].startswith("(") else [m[2]]
                own.update(it for it in each if SMALL.match(it) and it not in goals)
            # several fields or constructors on one line
            for m in re.finditer(r"^ +(?:pub )?((?:[a-z]\S* )+): ", plain, re.M):
                own.update(it for it in m[1].split() if it not in ("let", "pub", "abbrev", "unfoldable", "in", "where"))
    names = {it: APART.get(it, snake(it)) for it in own if snake(it) != it or it in APART}
    # declared names that fall together
    by_new = collections.defaultdict(set)
    for old, new in names.items():
        by_new[new].add(old)
    meets = []
    for path, text in files.items():
        antt = path.endswith(".antt")
        body = without_comments(text) if antt else None
        spans = [(0, len(body))] if antt else clauses(text)
        src = body if antt else text
        # a step of a module's path meets nothing
        paths = lambda it: re.sub(r"Rattle\.[\w.+]+", " ", it)
        words = [m[0] for a, b in spans for m in TOKEN.finditer(re.sub(r"(?<=[\w')])\.[a-z][^\s(){}\[\].;,@\"]*", " ", paths(src[a:b])))]
        if not antt:  # parameters and fields
            words += re.findall(r"(?<![\w:])(\w+): ", text)
        have = collections.Counter(words)
        kit = imported(src, USE if antt else GHOST_USE)
        goals = goals_of(body) if path.endswith("/Proof.antt") else set()
        for w in have:
            if w in names and w not in kit and w not in goals:
                new = names[w]
                rivals = [o for o in by_new[new] if o != w and o in have and o not in kit]
                if new in have or rivals:
                    meets.append((path, w, new, rivals, new in have))
    # a lemma that would have its function's name gets `_lem`
    for path, w, new, rivals, is_there in meets:
        if rivals and "-" in w and w not in APART:
            names[w] = new + "_lem"
    if check:
        for it in meets:
            print(*it)
        print(len(names), "names turn;", len(meets), "meet another")
        for new, olds in by_new.items():
            if len(olds) > 1:
                print("together:", new, sorted(olds))
        return
    for path, text in files.items():
        if path.endswith(".antt"):
            kit = imported(without_comments(text), USE)
            goals = goals_of(without_comments(text)) if path.endswith("/Proof.antt") else set()
            new = turned(text, 0, len(text), names, kit, goals)
        else:
            kit = imported(text, GHOST_USE)
            new, at = "", 0
            for a, b in clauses(text):
                if a < at:
                    continue
                new += text[at:a] + turned(text, a, b, names, kit, set())
                at = b
            new += text[at:]
        if new != text:
            with open(path, "w", encoding="utf-8") as it:
                it.write(new)
            print(path)


main()
