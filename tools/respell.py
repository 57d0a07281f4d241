#!/usr/bin/env python3
"""Brings the repository's own definitions and lemmas to the spelling of the installed Rattle (words in snake case; a dash only between two names of the theory).

usage: tools/respell.py [ROOT]    at the top of the repository, or of a checkout of an older state after the toolchain's port.py

tools/respell.txt has a line `OLD NEW` for each name (`OLD NEW FILE`: in that file alone). Whole names are replaced in proof and definition files, in the ghost parts of source files, in
must-fail edits and mutants, and between backticks in documents. Functions of src/, module paths, strings and what the toolchain names in a proof (goals,
loops, branches) keep their names: a name with a dash is replaced in a function's own proof folder only where the file imports it or it is a record's field.
Run it once. It proves nothing: `rt ci` decides."""

import os
import re
import sys

HERE = os.path.dirname(os.path.realpath(__file__))
WORD = re.compile(r"[^\s(){}\[\];,.:\"`λ→⌜⌝∷=|<>&*+!?#\\/@$%^~]+")
STRING = re.compile(r'b?"(?:[^"\\\n]|\\.)*"')
IMPORT = re.compile(r"^\s*(?:pub )?use [^\s{]+\.\{([^}]*)\}", re.M)


def table(path):
    """The names for all files, and those of one file by its path."""
    everywhere, of_file = {}, {}
    with open(path, encoding="utf-8") as f:
        for line in f:
            old, new, *file = line.split()
            (of_file.setdefault(file[0], {}) if file else everywhere)[old] = new
    return everywhere, of_file


def replaced(text, wanted):
    """The text with each whole word w for which wanted(w, what stands before it, what after it) answers a name replaced by that name."""
    out, at = [], 0
    for m in WORD.finditer(text):
        new = wanted(m.group(), text[max(0, m.start() - 2):m.start()], text[m.end():m.end() + 3])
        if new:
            out += [text[at:m.start()], new]
            at = m.end()
    return "".join(out) + text[at:]


def in_proofs(names, text, of_function):
    """A file of specs/ or proofs/. In a function's folder, dashes are mostly the toolchain's."""
    imported = {w.strip() for m in IMPORT.finditer(text) for w in m.group(1).split(",")}

    def wanted(word, before, after):
        if "-" in word and of_function:
            projected = before.endswith(".") and not word.endswith("-is")
            field = before[-1:] in (" ", "{") and after == " = "
            if before == "c." or not (projected or field or word in imported):
                return None
        return names.get(word)

    return replaced(text, wanted)


def in_source(names, text):
    """A source file: strings stay."""
    out, at = [], 0
    for m in STRING.finditer(text):
        out += [replaced(text[at:m.start()], lambda word, *_: names.get(word)), m.group()]
        at = m.end()
    return "".join(out) + replaced(text[at:], lambda word, *_: names.get(word))


def in_edit(names, text):
    """An edit: the line `file: F` says of what kind the lines after it are; comments are documents."""
    out, kind = [], ""
    for line in text.splitlines(keepends=True):
        if line.startswith("file:"):
            kind = line[5:].strip()
        if not line.startswith(("old:", "new:")):
            out.append(in_document(names, line))
        elif kind.endswith(".rt"):
            out.append(line[:4] + in_source(names, line[4:]))
        else:
            out.append(line[:4] + in_proofs(names, line[4:], not re.fullmatch(r"(specs|proofs)/[A-Za-z0-9]+\.antt", kind)))
    return "".join(out)


def in_document(names, text):
    """Names between backticks; names in camel case anywhere."""
    quoted = re.sub(r"`[^`\n]*`", lambda m: replaced(m.group(), lambda word, *_: names.get(word)), text)
    return replaced(quoted, lambda word, *_: None if "-" in word else names.get(word))


def turned(names, path, text):
    if path.endswith(".edit"):
        return in_edit(names, text)
    if path.endswith(".rt"):
        return in_source(names, text)
    if path.endswith(".antt"):
        return in_proofs(names, text, not re.search(r"/(specs|proofs)/[A-Za-z0-9]+\.antt$", path))
    return in_document(names, text)


def files(root):
    for top in ("crates", "mutants", "docs"):
        for folder, dirs, names in os.walk(os.path.join(root, top)):
            dirs[:] = sorted(d for d in dirs if d not in ("out", "target"))
            yield from (os.path.join(folder, f) for f in sorted(names) if f.endswith((".rt", ".antt", ".edit", ".md")) and not f.startswith("PORT"))
    for folder in ("", "compare", "bench", "bindings", "jobs"):
        where = os.path.join(root, folder)
        if os.path.isdir(where):
            yield from (os.path.join(where, f) for f in sorted(os.listdir(where)) if f.endswith(".md"))


def main(root):
    names, of_file = table(os.path.join(HERE, "respell.txt"))
    changed = 0
    for path in files(root):
        with open(path, encoding="utf-8", newline="") as f:
            text = f.read()
        own = of_file.get(os.path.relpath(path, root), {})
        new = turned(names, path, replaced(text, lambda word, before, _: None if before.endswith(".") else own.get(word)))
        if new != text:
            changed += 1
            with open(path, "w", encoding="utf-8", newline="") as f:
                f.write(new)
    print(f"respell: {len(names)} names, {changed} files changed; next rt fmt in each crate, then rt ci")


if __name__ == "__main__":
    main(sys.argv[1] if len(sys.argv) > 1 else ".")
