#!/usr/bin/env python3
"""Brings the names of definitions and lemmas of specs/ and proofs/ to snake case.

usage: python3 tools/snake_case_names.py [--list]    at the top of the repository

A name is taken if it is defined in an .antt file (a definition, a lemma, a constructor, a field of a record or a
local definition) with a capital inside, or a dash. Names of types keep their capital letters, and names that Rattle
makes of the code (the answers to its goals) keep theirs. Where two names of one file would fall together, the one
with a dash, which is a lemma, gets the ending `_lem`. With --list nothing is written.
"""

import pathlib
import re
import sys

TOKEN = re.compile(r"[^\s(){}\[\],.;:⌜⌝⟦⟧«»\"`\\]+")
KINDS = r"(?:(?:unfoldable|abbrev|pub|private)\s+)*"
DEFINED = re.compile(r"^\s*" + KINDS + r"([^\s(){}\[\],.;:⌜⌝⟦⟧«»\"`]+)(?:\s+[^\s(){}\[\],.;:=→λ]+)*\s*:\s")
MADE = re.compile(r":\s*(?:goal|need|given)\.")
# Words that another name of the library stands for, and definitions that would fall together with a function's name.
WORDS = {
    "getD": "get_or",
    "fromBits": "number_of_bits",
    "hasArcs": "has_any_arc",
    "isSkipped": "is_skipped_line",
    "partLen": "part_length",
    "someIs": "some_equals",
    "threeNumbers": "three_numbers_of",
    "threeStages": "three_stage_rules",
    "twoNumbers": "two_numbers_of",
}


def snake(name):
    parts = [WORDS.get(p, re.sub(r"(?<=[a-z0-9])([A-Z])", lambda m: "_" + m.group(1).lower(), p)) for p in name.split("-")]
    return "_".join(parts)


def is_ours(name):
    if not re.fullmatch(r"[a-z][A-Za-z0-9'-]*", name):
        return False
    return "-" in name or re.search(r"[a-z0-9][A-Z]", name) is not None


def files(root):
    for path in sorted((root / "crates").glob("*/**/*")):
        if "out" not in path.parts and path.suffix in (".antt", ".rt", ".edit"):
            yield path


def definitions(path, text):
    for line in text.splitlines():
        if path.suffix != ".antt" or MADE.search(line) or line.lstrip().startswith(("--", "let ", "use ")):
            continue
        found = DEFINED.match(line)
        if found:
            head = line.split(":")[0]
            for word in TOKEN.findall(head):
                if is_ours(word):
                    yield word


def main():
    root = pathlib.Path(".")
    texts = {p: p.read_text() for p in files(root)}
    names = {n for p, t in texts.items() for n in definitions(p, t)}
    made = set()
    for t in texts.values():
        for line in t.splitlines():
            if MADE.search(line):
                made.update(TOKEN.findall(line.split(":")[0]))
    names -= made
    tokens = {p: set(TOKEN.findall(t)) for p, t in texts.items()}
    new = {n: snake(n) for n in names}
    for name in sorted(names):
        for words in tokens.values():
            rivals = {o for o in words if o != name and (o == new[name] or new.get(o) == new[name])}
            if name in words and rivals and "-" in name and not any("-" in o for o in rivals):
                new[name] = snake(name) + "_lem"
                break
    for path, words in tokens.items():
        seen = {}
        for w in sorted(words):
            n = new.get(w, w)
            if n in seen and seen[n] != w:
                print(f"fall together: {path}: {seen[n]} and {w} as {n}")
            seen[n] = w
    if "--list" in sys.argv:
        for n in sorted(names):
            print(n, "->", new[n])
        return
    for path, text in texts.items():
        turned = TOKEN.sub(lambda m: new.get(m.group(), m.group()), text)
        if turned != text:
            path.write_text(turned)


main()
