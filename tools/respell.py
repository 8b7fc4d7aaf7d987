#!/usr/bin/env python3
"""Respells this repository's own definitions, facts, lemmas and record fields.

usage: respell.py [--dry]     at the top of the repository, once, after the toolchain's own script

Words are in snake case, types, facts and modules in upper camel case, and a dash joins two names. Declared is what the
.antt files right in specs/ and proofs/ declare; what is turned is turned wherever it stands.

- A declared name that begins with a small letter and has a capital inside is turned (`isPair` to `is_pair`), also inside
  the names that are built on it (`length-restOf` to `length-rest_of`).
- A fact of specs/ has no dash (`Reads-back` to `ReadsBack`), nor has a field of a record there (`to-end` to `to_end`).
- In a lemma's name a dash stays where it joins two names, of definitions here or of the library's words, or where a
  symbol follows (`outs-++`). A plain word is added with `_` (`plays-longer` to `plays_longer`).
- A lemma that would get the name of something else gets `_lem` behind it.
- What these rules cannot see stands in the tables below.
- Names of the library stay: they are the words that the repository imports from it. So do the names that the check
  gives to goals, and the functions, comments and strings of .rt files. Edits below must-fail/ are turned like the code.
"""
import os
import re
import sys

NAME = re.compile(r"[A-Za-z_ℕℤ][\w'ℕℤ]*(?:-[\w'ℕℤ+*≤<=∷]+)*")
DECLARATION = re.compile(
    r"^\s*(?:abbrev |unfoldable )?(?:pub )?(?:(?:record|data) )?([A-Za-z_][\w']*(?:-[\w'+*≤<=∷]+)*)\s*(?:\(.*\)|\{.*\})?\s*:"
)
OWN = re.compile(r"^crates/\w+/(specs|proofs)/\w+\.antt$")
IMPORT = re.compile(r"use (?:Rattle\.std|mathlib|lib)\b[\w.]*\.\{([^}]*)\}")


def snake(name):
    return re.sub(r"([a-z0-9])([A-Z])", lambda m: m[1] + "_" + m[2], name).lower()


# Lemmas that have, since the toolchain's script or ever, the name which a definition gets.
FELL_TOGETHER = {"turns_at": "turns_at_lem", "has_room": "room_has"}
# Names that a proof gives to a step or a variable, and lemmas that stand beside the answers to goals.
LOCAL = (
    "A-size a-is a-le built-in-sound d-is e-is front-in j-is k-in k-le l-is m-is n-is n-lt no-c ns-is p-is p-is' q-is r-is "
    "step-waiting t-is text-is u-size w-is y-real yes-at"
).split()
# Lemmas whose last word is a plain word that only happens to be the name of something else.
PLAIN_WORDS = (
    "first-not first-zero handed-on is-one-first left-all not-all not-both place-next repeat-next repeat-on resolve-back "
    "tally-next tally-on whole-complete whole-real zero-chart"
).split()
# Names under which .rt files import a definition.
IN_CLAUSES = "bodyHeld brokenOf coversOf isNext labelHeld markedOf playedOf readyOf startsOf".split()
# All of these, a fact in small letters, and a lemma with an older name of the library's word.
BY_HAND = (
    {name: name.replace("-", "_") for name in LOCAL + PLAIN_WORDS}
    | {name: snake(name) for name in IN_CLAUSES}
    | {"sameInstance": "SameInstance", "joined-++": "flat_map-++"}
)
# Behind a dot these words are fields and modules that the check makes.
NOT_BEHIND_A_DOT = {*LOCAL, *FELL_TOGETHER}


def files(ends):
    for folder, dirs, names in os.walk("crates"):
        dirs[:] = sorted(d for d in dirs if d not in ("out", "data"))
        for name in sorted(names):
            if name.endswith(ends):
                yield os.path.join(folder, name)


def read(path):
    with open(path, encoding="utf-8") as f:
        return f.read()


def library_words(texts):
    words = set()
    for text in texts:
        for m in IMPORT.finditer(text):
            words |= {w for part in m[1].split(",") for w in part.split()}
    return words


class Declared:
    """What the .antt files right in specs/ and proofs/ declare."""

    def __init__(self, texts):
        self.names, self.top, self.facts, self.fields = set(), set(), set(), set()
        for path, text in texts.items():
            if OWN.match(path):
                self.file(text, "/specs/" in path)

    def file(self, text, specs):
        in_record = None
        for line in text.splitlines():
            indent = len(line) - len(line.lstrip())
            if in_record is not None and line.strip() and indent <= in_record:
                in_record = None
            m = DECLARATION.match(line)
            if m:
                name = m[1]
                self.names.add(name)
                if not indent:
                    self.top.add(name)
                if specs and not indent and name[0].isupper():
                    self.facts.add(name)
                if specs and in_record is not None:
                    self.fields.add(name)
            if re.match(r"\s*(?:pub )?record .*where\s*$", line):
                in_record = indent


def joined(name, words):
    """A lemma's name: a dash between two names and before a symbol, else an underscore."""
    parts, segments, i = name.split("-"), [], 0
    while i < len(parts):
        j = next(j for j in range(len(parts), i, -1) if j == i + 1 or "_".join(parts[i:j]) in words)
        segments.append("_".join(parts[i:j]))
        i = j
    out = segments[0]
    for before, after in zip(segments, segments[1:]):
        stays = not after[0].isalnum() or before in words and after in words
        out += ("-" if stays else "_") + after
    return out


def turns(texts, code):
    declared, library = Declared(texts), library_words([*texts.values(), *code.values()])
    used = {w for text in texts.values() for w in NAME.findall(text)}
    heads = {}
    for name in declared.names:
        head = name.split("-")[0]
        if head[0].islower() and head != snake(head) and head not in library:
            heads[head] = snake(head)
    words = {heads.get(n, n) for n in declared.top if "-" not in n} | {w for w in library if "-" not in w}
    full = dict(FELL_TOGETHER)
    for name in sorted(declared.names - library - set(full)):
        if name in declared.facts:
            new = re.sub(r"-(\w)", lambda m: m[1].upper(), name)
        elif name in declared.fields:
            new = "_".join(heads.get(p, p) for p in name.split("-"))
        else:
            new = joined("-".join(heads.get(p, snake(p) if p[:1].islower() else p) for p in name.split("-")), words)
        if new != name:
            full[name] = new
    full |= BY_HAND
    stands = (used - set(full)) | {new for name, new in full.items() if "-" not in name}
    for name, new in full.items():
        if "-" in name and new in stands and name not in declared.fields | declared.facts | set(BY_HAND):
            full[name] = new + "_lem"
    return full, used, declared


def main():
    texts = {p: read(p) for p in files((".antt",))}
    code = {p: read(p) for p in files((".rt", ".edit"))}
    full, used, declared = turns(texts, code)
    print(len(full), "names are turned")
    if "--dry" in sys.argv:
        new = list(full.values())
        for name in sorted(full):
            twice = "  (twice)" if new.count(full[name]) > 1 else ""
            print(f"  {name} -> {full[name]}" + ("  (stands already)" if full[name] in used - set(full) else "") + twice)
        return

    def turned(text, skip=()):
        def one(m):
            stays = m[0] in skip or m[0] in NOT_BEHIND_A_DOT and text[m.start() - 1 : m.start()] == "."
            return m[0] if stays else full.get(m[0], m[0])

        return NAME.sub(one, text)

    for path, text in (texts | code).items():
        if path.endswith(".antt"):
            new = turned(text)
        else:
            parts = re.split(r'(//[^\n]*|b?"(?:\\.|[^"\\])*")', text)
            new = "".join(p if i % 2 else turned(p, FELL_TOGETHER) for i, p in enumerate(parts))
        if new != text:
            with open(path, "w", encoding="utf-8") as f:
                f.write(new)


main()
