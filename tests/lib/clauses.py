"""Compares each function for C with the one that it calls: signature, clauses, and where their words come from."""

import re
import sys
from pathlib import Path

FUNCTION = re.compile(r'^pub (?:extern "C" )?fn (hundurzek_\w+)\((.*?)^\{$', re.M | re.S)
WORDS = re.compile(r"^ghost use ([\w.]+)(?:\.\{(.*?)\}| as (\w+));$", re.M | re.S)


def functions(crate):
    """By name: the text between a function's name and its body, and the modules of its file's words."""
    found = {}
    for path in sorted(Path("crates", crate, "src").rglob("*.rt")):
        text = path.read_text(encoding="utf-8")
        words = {}
        for module, names, alias in WORDS.findall(text):
            words.update({alias: module} if alias else {name.strip(): module for name in names.split(",")})
        for name, rest in FUNCTION.findall(text):
            found[name] = " ".join(rest.replace(",\n)", ")").split()).replace("( ", "("), words
    return found


def same(one, other):
    (text, words), (called, meant) = one, other
    used = set(re.findall(r"[^\s(){}.,]+", text)) & {*words, *meant}
    return text == called and all(words.get(name) == meant.get(name) for name in used)


good, bad = 0, 0
for crate in ("host", "host_write", "probe"):
    exported, called = functions(crate + "_c"), functions(crate)
    for name in sorted({*exported, *called}):
        if name in exported and name in called and same(exported[name], called[name]):
            good += 1
        else:
            print(f"FAILED: {name} of {crate}_c promises something else than {crate}'s")
            bad += 1
print(f"{good} passed, {bad} failed")
sys.exit(bad > 0)
