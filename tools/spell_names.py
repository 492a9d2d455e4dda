#!/usr/bin/env python3
"""Spells the repository's own definitions and lemmas in snake case: firstFailing and none-failing become first_failing and none_failing.

usage: tools/spell_names.py            at the top of the repository, once, behind /opt/rattle/port/port.py

Renamed is what a file of specs/ or proofs/ declares: definitions, lemmas, fields and constructors whose first letter is small, and in
specs/ variables too. Types and modules keep their names, and so do the names that Rust's source gives, the names of a library, and the labels of a function's own proof.
Texts in quotes stay, and so do comments but for names such as firstFailing. Where a lemma would get the name of a definition, it gets _lem
behind it.
"""

import os
import re
import sys

WORD = r"[^\s(){}.;,:@\"«»\[\]]+"
TOKEN = re.compile(r"--[^\n]*|//[^\n]*|\"(?:[^\"\\\n]|\\.)*\"|'(?:[^'\\]|\\.)'|" + WORD)
DECLARED = re.compile(r"^\s*(?:(?:abbrev|unfoldable|pub|private|constructor)\s+)*(?:(?:record|data|module)\s+)?(" + WORD + r")((?:\s+[^:=]*)?)\s:(?:\s|$)")
USE = re.compile(r"\buse (Rattle\.(?:std|core)[\w.]*|mathlib[\w.]*|native[\w.]*|lib[\w.]*|borrow[\w.]*|Prim[\w.]*|package[\w.]*)\.\{([^}]*)\}")
# Two fields that would get the names of definitions.
FIELDS = {"free-seqs": "seqs_free", "no-sends": "nothing_sent"}
OLD = re.compile(r"^(?:[a-z][\w'₀]*(?:-[\w'₀→≤<]+)+|[a-z][a-z0-9_]*[A-Z]\w*'?)$")


def texts(root):
    for folder, dirs, files in os.walk(os.path.join(root, "crates")):
        dirs[:] = sorted(d for d in dirs if d != "out")
        for name in sorted(files):
            if name.endswith((".antt", ".rt")):
                yield os.path.join(folder, name)


def read(path):
    with open(path, encoding="utf-8") as it:
        return it.read()


def snake(name):
    return re.sub(r"(?<=[a-z0-9])[A-Z]", lambda m: "_" + m[0].lower(), name).replace("-", "_")


def is_own_proof(path):
    return path.endswith("/Proof.antt")


def declared(root):
    names, snakes = set(), set()
    for path in texts(root):
        if path.endswith(".antt") and not is_own_proof(path):
            for line in read(path).split("\n"):
                it = DECLARED.match(line)
                if it:
                    (names if OLD.match(it[1]) else snakes).add(it[1])
                names.update(w for w in re.findall(r" as (" + WORD + ")", line) if OLD.match(w))
    definitions = {snake(name) for name in names if "-" not in name}
    out = {}
    for name in names:
        out[name] = FIELDS.get(name, snake(name) + ("_lem" if "-" in name and snake(name) in definitions else ""))
    for name in snakes & definitions:
        out[name] = name + "_lem"
    return out


def respelled(text, names, kept, all_own):
    def word(it):
        old = it[0]
        if all_own and OLD.match(old) and old not in kept and text[it.start() - 1] != ".":
            return names.get(old, snake(old))
        if old.startswith(("--", "//")):
            return re.sub(r"\b[a-z]\w*[A-Z]\w*", lambda m: names.get(m[0], m[0]), old)
        return names.get(old, old) if old not in kept else old

    return TOKEN.sub(word, text)


def main():
    names = declared(".")
    count = 0
    for path in texts("."):
        text = read(path)
        kept = {w.strip() for _, ws in USE.findall(text) for w in ws.split(",")}
        own = names if path.endswith(".antt") else {name: names[name] for name in names if OLD.match(name)}
        turned = respelled(text, own, kept, "/specs/" in path)
        if turned != text:
            count += 1
            with open(path, "w", encoding="utf-8") as it:
                it.write(turned)
    for old, new in sorted(names.items()):
        if new.endswith("_lem"):
            print(old, new)
    print(f"{len(names)} names, {count} files")


if __name__ == "__main__":
    main()
