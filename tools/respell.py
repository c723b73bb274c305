#!/usr/bin/env python3
"""Spells the definitions and lemmas of crates/ as the kit spells its own: words in snake case, types and modules in camel case.

tools/respell.py [--dry]: run once, at the top of the repository, after the kit's port.py. It goes by whole words: each
name that a file of specs/ or proofs/ declares and that has a dash or a capital within becomes one of plain underscores,
wherever it stands in .rt, .antt and .edit files and in code spans of .md files. A lemma that would then have the name of
a definition gets `_lem` after it. Names that rattle makes of the code (goals, steps of a proof) stay, and so do
functions of src/, exported names and strings.
"""

import collections
import re
import sys
from pathlib import Path

WORD = re.compile(r'[^\s(){}.;,@"«»\[\]`]+')
DECLARED = re.compile(r"^ *(?:\| *)?(?:(?:abbrev|unfoldable|pub|data|record|opaque|mutual) +)*([a-z][^\s:(){}]*) (?:[^=\n]* )?: ?(.*)$")
SPAN = re.compile(r"`[^`\n]+`")
# A field that would have the name of a definition beside it.
OF_ITS_OWN = {"with-flags": "of_flags"}
SPELLED = re.compile(r"[A-Za-zℕℤ][\w'ℕℤ₀-₉]*(?:-[\w'ℕℤ₀-₉]+)*")


def snake(name):
    words = re.sub(r"(?<=[a-z0-9])[A-Z]", lambda m: "_" + m[0].lower(), name)
    return words.replace("-", "_")


def within_function(path):
    """Whether a file is the proof of a function, as proofs/F/Proof.antt."""
    parts = path.parts
    return "proofs" in parts and len(parts) - parts.index("proofs") > 2


def declared(path):
    """The names that a file declares, but for goals and the statement in the proof of a function."""
    names = set()
    for line in path.read_text(encoding="utf-8").splitlines():
        found = DECLARED.match(line)
        if not found or found[1] in ("use", "let", "module", "open", "where"):
            continue
        name, kind = found[1], found[2]
        if not (within_function(path) and (kind.startswith("tie.") or "statement" in kind)):
            names.add(name)
    return names


def spellings(texts):
    """Old names and new ones; and the lemmas in snake case that give way to a definition."""
    own, stated = set(), set()
    for path in texts:
        if path.suffix == ".antt":
            names = declared(path)
            if within_function(path):
                names = {name for name in names if snake(name) != name}
            names -= OF_ITS_OWN.keys()
            own |= names
            stated |= names if "specs" in path.parts else set()
    met = collections.defaultdict(set)
    for name in own:
        met[snake(name)].add(name)
    turned, given_way = dict(OF_ITS_OWN), {}
    for new, olds in sorted(met.items()):
        first = olds & stated or {name for name in olds if "-" not in name and name != new} or {new} & olds or olds
        if len(first) > 1:
            print(f"falls together: {', '.join(sorted(first))} as {new}")
        for old in olds:
            to = new if old in first else new + "_lem"
            if old != to:
                (given_way if old == new else turned)[old] = to
    return turned, given_way


def main(words):
    texts = [p for s in ("rt", "antt", "edit") for p in sorted(Path("crates").rglob(f"*.{s}")) if "out" not in p.parts]
    turned, given_way = spellings(texts)
    for old, new in given_way.items():
        print(f"gives way: {old} is {new}")
    if "--dry" in words:
        print(len(turned), "names")
        return
    for path in texts:
        text = path.read_text(encoding="utf-8")
        keep = {m[1] for m in re.finditer(r"^(\S+) : tie\.", text, re.M)} if within_function(path) else set()

        def one(m):
            word = m[0]
            if word in keep:
                return word
            if word in given_way and path.suffix == ".antt" and text[m.start() - 1] != ".":
                return given_way[word]
            return turned.get(word, word)

        new = WORD.sub(one, text)
        if new != text:
            path.write_text(new, encoding="utf-8")
    made = {name for p in texts if p.suffix == ".antt" for name in WORD.findall(p.read_text(encoding="utf-8"))}

    def span(m):
        return SPELLED.sub(lambda w: turned.get(w[0]) or (snake(w[0]) if w[0][0].islower() and snake(w[0]) in made else w[0]), m[0])

    for page in [Path("README.md"), *sorted(Path("docs").rglob("*.md"))]:
        text = page.read_text(encoding="utf-8")
        new = SPAN.sub(span, text)
        if new != text:
            page.write_text(new, encoding="utf-8")


main(sys.argv[1:])
