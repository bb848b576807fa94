#!/usr/bin/env python3
"""Spells the repository's own definitions and lemmas as today's Rattle does: words in snake case (`cntAt` is `cnt_at`).

usage: tools/spell.py [--check] [TOP]

Run once, behind the kit's port.py. Turned are words that begin with a small letter and have a capital, in the code of .antt files, in clauses and
ghost items of .rt files, in comments and in must-fail edits, and the same words in .md pages. Types, modules, variants and the manual's
names of bits (`CCxE`, `UDIS`) begin with a capital and stay; so do strings, the names of functions in src/ (they are in snake case already),
and what Rattle makes (`bool_Lawful`). A dash joins two names, as in std's lemmas, and stays. Names that would fall together are
printed, and then nothing is written.
"""
import os
import re
import sys

WORD = re.compile(r"(?<![A-Za-z0-9_'])[a-z][A-Za-z0-9_']*")
STRING = re.compile(r'b?"(?:\\.|[^"\\\n])*"')
# in place of the letter rule
SPECIAL = {"getD": "get_or"}
# names that the rule would let fall together with another one: OLD -> NEW
APART = {"ccrAct": "ccr_in_use"}  # `ccr_act` is a field
# lemmas that would have the name of a definition get `_lem`: folder or file, OLD, NEW
FIRST = [
    ("crates/text/proofs/WordLaws.antt", "same_word", "same_word_lem"),
    ("crates/boards/proofs/More.antt", "tree_set", "tree_set_lem"),
    ("crates/nvic/proofs/Laws.antt", "on_line", "on_line_lem"),
    ("crates/busy/proofs/Twice.antt", "on_line", "on_line_lem"),
    ("crates/machine/proofs/", "in_order", "in_order_lem"),
    ("crates/answer/proofs/", "in_order", "in_order_lem"),
    ("crates/state/proofs/", "line_set", "line_set_lem"),
    ("crates/state/proofs/", "tree_set", "tree_set_lem"),
    ("crates/state/proofs/", "pin_level", "pin_level_lem"),
    ("crates/levels/proofs/", "pin_level", "pin_level_lem"),
    ("crates/accuracy/proofs/Accurate.antt", "in_order", "in_order_lem"),
    ("crates/reported/proofs/", "in_order", "in_order_lem"),
    ("crates/write/proofs/Laws.antt", "at_count", "at_count_lem"),
    ("crates/machine/proofs/NumberLaws.antt", "by_tests", "by_tests_lem"),
    ("crates/stepping/proofs/", "counts_of", "counts_of_lem"),
    ("crates/why/proofs/", "no_pin", "no_pin_lem"),
    ("crates/pads/proofs/", "no_pin", "no_pin_lem"),
]


def is_camel(w):
    return bool(re.search(r"[A-Z]", w)) and not re.search(r"_[A-Z]", w)


def snake(w):
    if w in SPECIAL:
        return SPECIAL[w]
    if w in APART:
        return APART[w]
    return re.sub(r"(?<=[a-z0-9])([A-Z])", r"_\1", w).lower()


def files(top):
    for root, dirs, names in os.walk(top):
        dirs[:] = sorted(d for d in dirs if d not in (".git", "out", "target", "src") or (d == "src" and "crates" in root))
        for n in sorted(names):
            yield os.path.join(root, n)


def outside_strings(text, turn):
    parts, last = [], 0
    for m in STRING.finditer(text):
        parts += [WORD.sub(turn, text[last : m.start()]), m.group()]
        last = m.end()
    return "".join(parts) + WORD.sub(turn, text[last:])


def main():
    args = [a for a in sys.argv[1:] if a != "--check"]
    top = args[0] if args else "."
    crates = [f for f in files(os.path.join(top, "crates")) if f.endswith((".antt", ".rt", ".edit"))]
    pages = [f for f in files(top) if f.endswith(".md")]
    if "--check" not in sys.argv:
        for where, old, new in FIRST:
            for f in crates:
                if os.path.relpath(f, top).startswith(where):
                    text = open(f, encoding="utf-8").read()
                    after = re.sub(r"(?<![A-Za-z0-9_'-])%s(?![A-Za-z0-9_'-])" % old, new, text)
                    if after != text:
                        open(f, "w", encoding="utf-8").write(after)
    words, seen = {}, {}
    for f in crates:
        if f.endswith(".edit"):
            continue
        text = open(f, encoding="utf-8").read()
        for w in set(WORD.findall(STRING.sub('""', text) if f.endswith(".rt") else re.sub(r"--[^\n]*", "", text))):
            seen.setdefault(w, set()).add(f)
            if is_camel(w):
                words[w] = snake(w)
    bad = {}
    for old, new in words.items():
        bad.setdefault(new, []).append(old)
    # a definition or lemma that has the new name already (the name of a function in src/ may be that of what it is equal to)
    made = {}
    for f in crates:
        if f.endswith(".antt"):
            for w in re.findall(r"^ *(?:abbrev |unfoldable )?(?:pub )?([a-z][A-Za-z0-9_']*) :", open(f, encoding="utf-8").read(), re.M):
                made.setdefault(w, set()).add(f)
    clash = [(o, n, sorted(made[n])) for o, n in sorted(words.items()) if n in made and o in made and n != o and o not in SPECIAL]
    for n, olds in sorted(bad.items()):
        if len(olds) > 1:
            clash.append((" ".join(olds), n, []))
    for o, n, where in clash:
        print("together:", o, n, " ".join(where))
    if "--check" in sys.argv:
        print(len(words), "words")
        return
    if clash:
        raise SystemExit(1)

    def turn(m):
        return words.get(m.group(), m.group())

    for f in crates + pages:
        text = open(f, encoding="utf-8").read()
        new = outside_strings(text, turn) if f.endswith((".rt", ".edit")) else WORD.sub(turn, text)
        if new != text:
            open(f, "w", encoding="utf-8").write(new)


main()
