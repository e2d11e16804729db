#!/usr/bin/env python3
"""Spells the repository's own definitions and lemmas as the library spells its names: words in snake case, joined by underscores.

usage: tools/port_names.py [FOLDER]      at the top of the repository, once, after the kit's port.py (default: this folder)

A name turns that specs/ or a file of lemmas right in proofs/ declares: a definition, a lemma, a field of a record or a constructor, written
with a dash or with a capital inside. It turns in the code of each .antt file, in the ghost lines of each .rt file, in comments where the
file's code has it, in must-fail edits and in the code spans of pages. Strings keep their text, and so do the names of Rust's own items.
A lemma that would have its function's name gets `_lem`.
"""
import glob
import os
import re
import sys

NAME = r'[^\s(){}.;,@"«»\[\]|]+'
DECLARED = re.compile(rf"^ *(?:(?:abbrev|unfoldable|pub) )*({NAME})(?: \{{[^{{}}\n]*\}})* :(?= |$)", re.M)
TOKEN = re.compile(rf'"(?:[^"\\\n]|\\.)*"|(?<![^\s(){{}}.;,@"«»\[\]|])(?:--|//)[^\n]*|b?\'(?:\\.|[^\'\\])\'(?=\W)|{NAME}', re.S)
WORD = re.compile(r"[A-Za-z0-9_'≢≡ℕ∷-]+")
SPAN = re.compile(r"`[^`\n]+`")


def spelt(name):
    words = re.sub(r"(?<=[a-z0-9])[A-Z]+(?![a-z])|(?<=[a-z0-9])[A-Z]", lambda m: "_" + m[0].lower(), name)
    return words.replace("-", "_")


def read(path):
    with open(path, encoding="utf-8") as f:
        return f.read()


def laws(root):
    for path in sorted(glob.glob(os.path.join(root, "crates/*/specs/**/*.antt"), recursive=True)) + sorted(glob.glob(os.path.join(root, "crates/*/proofs/*.antt"))):
        if "/out/" not in path:
            yield path


# Lemmas that port.py spelt as their definition is spelt now: the crate, and the name.
LEMMAS = [("layout", "nothing_written"), ("night", "is_within"), ("pack", "columns_of"), ("pack", "nothing_written"), ("report", "mark_on"), ("report", "step_by"), ("value", "no_value")]


def table(root):
    """Old name to new, of what the repository declares."""
    new, old, seen = {}, {}, set()
    for path in laws(root):
        for name in DECLARED.findall(read(path)):
            seen.add(name)
    for name in seen:
        if not re.match(r"[a-z]", name):
            continue
        to = spelt(name)
        if to != name:
            new[name] = to
            old.setdefault(to, set()).add(name)
    for name in new:
        if "-" in name and (len(old[new[name]]) > 1 or new[name] in seen):
            new[name] += "_lem"
    return new


def turned(text, new):
    code = set()
    for m in TOKEN.finditer(text):
        if not m[0].startswith(('"', "--", "//")):
            code.add(m[0])

    def token(m):
        if m[0].startswith('"'):
            return m[0]
        if m[0].startswith(("--", "//")):
            return WORD.sub(lambda w: new[w[0]] if w[0] in new and w[0] in code else w[0], SPAN.sub(lambda s: WORD.sub(lambda w: new.get(w[0], w[0]), s[0]), m[0]))
        return new.get(m[0], m[0])

    return TOKEN.sub(token, text)


def lemmas(root):
    """The lemmas whose name their definition takes get their ending, in the proofs of their crate."""
    for crate, name in LEMMAS:
        for path in glob.glob(os.path.join(root, "crates", crate, "proofs/**/*.antt"), recursive=True):
            before = read(path)
            after = TOKEN.sub(lambda m: m[0] + "_lem" if m[0] == name else m[0], before)
            if after != before:
                write(path, after)


def paged(names):
    """A page or an edit has each name as it stood before port.py: it turns where its spelling of today is declared."""

    def word(w):
        to = spelt(w[0])
        if to == w[0] or not re.match(r"[a-z]", w[0]):
            return w[0]
        if "-" in w[0] and to + "_lem" in names:
            return to + "_lem"
        return to if to in names else w[0]

    return lambda part: WORD.sub(word, part)


def edited(text, turn):
    lines = []
    for line in text.split("\n"):
        head = re.match(r"(?:old|new): ?", line)
        lines.append(head[0] + turn(line[head.end() :]) if head else line)
    return "\n".join(lines)


def write(path, text):
    with open(path, "w", encoding="utf-8") as f:
        f.write(text)


def main(root):
    lemmas(root)
    new = table(root)
    declared = {new.get(n, n) for path in laws(root) for n in DECLARED.findall(read(path))}
    page = paged(declared)
    changed = 0
    for folder, dirs, files in os.walk(root):
        dirs[:] = [d for d in dirs if d not in ("out", ".git", "target", "data", "tools") and not os.path.islink(os.path.join(folder, d))]
        for f in files:
            path = os.path.join(folder, f)
            if f.endswith((".antt", ".rt")):
                after = turned(read(path), new)
            elif f.endswith(".edit"):
                after = edited(read(path), page)
            elif f.endswith(".md"):
                after = SPAN.sub(lambda s: page(s[0]), read(path))
            else:
                continue
            if after != read(path):
                write(path, after)
                changed += 1
    print(f"{len(new)} names, {changed} files")


if __name__ == "__main__":
    main(sys.argv[1] if len(sys.argv) > 1 else ".")
