#!/usr/bin/env python3
"""Brings the repository's own names in specs/ and proofs/ to today's spelling, once, after the kit's port.py.

usage: python3 tools/respell.py            at the top of the repository

- A definition or lemma in lower camel case becomes snake case (`blockSize`, `asTerm-only`: `block_size`, `as_term-only`).
- A record's field, a constructor and a definition that is marked `unfoldable` or `abbrev` have no dash (`holds-a`: `holds_a`);
  a lemma keeps the dashes that join the names in it.
- A lemma that would then have the name of a definition gets `_lem`.
- Types of src/ that were copied as plain values derive Clone and Copy, where port.py wrote Drop.
Functions of src/, exported names and strings keep theirs. It prints each pair of names.
"""
import os
import re
import sys

WORD = re.compile(r"[^\W\d][\w'?₀₁₂₃₄₅₆₇₈₉-]*")
SIGNATURE = re.compile(r"^([ \t]*)((?:(?:pattern|unfoldable|abbrev|axiom|pub) )*)([^\s:(){}]+)(?: \{[^}]*\})? :(?= |$)", re.M)
# Lemmas that port.py respelled into the name that a definition gets here, and their files.
LEMMAS = {
    "a_pair": "terms/proofs/DecideTries.antt",
    "has_block": "blocks/proofs/Parts.antt",
    "next_place": "terms/proofs/PlaceEntryLaws.antt",
    "raised_by": "judge/proofs/Answering/Loaders.antt",
    "tag_in": "terms/proofs/TermGraphLaws.antt",
    "value_in": "terms/proofs/TermGraphLaws.antt",
    "told_of": "judge/proofs/Covering/Repeats.antt",
}


def files(ends):
    for folder, dirs, names in os.walk("crates"):
        dirs[:] = sorted(d for d in dirs if d != "out")
        for name in sorted(names):
            if name.endswith(ends):
                yield os.path.join(folder, name)


def snake(name):
    return re.sub(r"(?<=[a-z0-9?])[A-Z]", lambda m: "_" + m.group(0).lower(), name)


def new_names(texts):
    found = {}
    for path, text in texts.items():
        own = "/specs/" in path
        for m in SIGNATURE.finditer(text):
            indent, marks, name = m.groups()
            if not re.match(r"[a-z]", name):
                continue
            new = snake(name)
            field = "pub" in marks and indent.strip("\n") != ""
            if own and (field or "unfoldable" in marks or "abbrev" in marks) and "Lemma" not in name:
                new = new.replace("-", "_")
            if new != name:
                found[name] = new
        for m in re.finditer(r"^pub data .*?(?=^\S|\Z)", text, re.M | re.S):
            for c in re.finditer(r"^  ([a-z][\w'-]*) :", m.group(0), re.M):
                new = snake(c.group(1)).replace("-", "_")
                if new != c.group(1):
                    found[c.group(1)] = new
    return found


def main():
    if not os.path.isdir("crates"):
        sys.exit("respell: run it at the top of the repository")
    texts = {p: open(p, encoding="utf-8").read() for p in files((".antt", ".rt"))}
    names = new_names({p: t for p, t in texts.items() if p.endswith(".antt")})
    for lemma, home in LEMMAS.items():
        home = os.path.join("crates", home)
        module = re.sub(r"/", ".", home[len("crates/"):-len(".antt")])
        for path, text in texts.items():
            cited = re.search(r"Rattle\." + re.escape(module) + r"\.\{[^}]*(?<![\w'-])" + lemma + r"(?![\w'?-])", text)
            if path == home or cited:
                texts[path] = re.sub(r"(?<![\w'?.-])" + lemma + r"(?![\w'?-])", lemma + "_lem", text)
    for path, text in texts.items():
        def word(m):
            w = m.group(0)
            return names.get(w, w)
        new = WORD.sub(word, text)
        if path.endswith(".rt"):
            new = new.replace("#[derive(Drop)]", "#[derive(Clone, Copy)]")
        with open(path, encoding="utf-8") as f:
            if new != f.read():
                with open(path, "w", encoding="utf-8") as f:
                    f.write(new)
    for old, new in sorted(names.items()):
        print(old, new)


main()
