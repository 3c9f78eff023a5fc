#!/usr/bin/env python3
"""Brings the repository's own names to the spelling of today's Rattle. It was run once, right after the kit's port.py.

usage: python3 tools/respell.py        at the top of the repository

- A definition, a lemma, a field or a variable in camel case comes to snake case: `sizeBelow` is `size_below`.
- A lemma that would then have a definition's name gets `_lem` behind it: `place_after` is `place_after_lem`.
- A name that a file gives to what it brings in loses its middle dot: `Set·join` is `set_join`.
- A module is in camel case: `specs.inner` is `specs.Inner`.

Functions of src/ keep their names, and so do types, facts, exported names, strings, inputs and outputs.
Pages name what they cite in quotes, as `sizeBelow`, and only what stands so is turned there.
"""

import os
import re
import subprocess

NAME = r"[A-Za-z_][A-Za-z0-9_'·\-]*"
STRING = re.compile(r'"(?:[^"\\\n]|\\.)*"')


def snake(name):
    return re.sub(r"([a-z0-9])([A-Z])", lambda m: m.group(1) + "_" + m.group(2).lower(), name)


def listed(*suffixes):
    out = subprocess.run(["git", "ls-files", "-co", "--exclude-standard"], capture_output=True, text=True, check=True).stdout
    return [f for f in out.split("\n") if f.endswith(suffixes) and os.path.isfile(f)]


def read(path):
    with open(path, encoding="utf-8") as f:
        return f.read()


def write(path, text):
    with open(path, "w", encoding="utf-8") as f:
        f.write(text)


def is_camel(name):
    return not name[0].isupper() and "·" not in name and re.search(r"[a-z0-9][A-Z]", name) is not None


def outside_strings(text, turn):
    """The text with what stands between its strings turned."""
    parts, at = [], 0
    for m in STRING.finditer(text):
        parts += [turn(text[at:m.start()]), m.group(0)]
        at = m.end()
    return "".join(parts) + turn(text[at:])


def respell(text, camel, lemmas, proof):
    def one(m):
        name = m.group(0)
        if "·" in name:
            module, word = name.split("·", 1)
            return snake(module[0].lower() + module[1:]) + "_" + word
        if name in camel:
            return snake(name)
        # a lemma, and not a part of a path, a field or a comment
        if proof and name in lemmas and text[m.start() - 1:m.start()] != "." and text[m.end():m.end() + 1] != ".":
            line = text[text.rfind("\n", 0, m.start()) + 1:m.start()]
            if "-- " not in line:
                return name + "_lem"
        return name

    return re.sub(NAME, one, text)


def quoted(text, known):
    """A page, with the names in its quotes turned, where what they become stands in the sources."""

    def one(n):
        name = n.group(0)
        return snake(name) if is_camel(name) and snake(name) in known else name

    return re.sub(r"`[^`\n]*`", lambda m: re.sub(NAME, one, m.group(0)), text)


def main():
    sources = [f for f in listed(".antt", ".rt") if f.startswith("crates/")]
    texts = {f: read(f) for f in sources}
    names = {f: re.findall(NAME, t) for f, t in texts.items()}
    camel = {n for found in names.values() for n in found if is_camel(n)}
    # A record of specs/ keeps the names of its fields.
    fields = {n for f, t in texts.items() if "/specs/" in f for n in re.findall(r"(?m)^ +pub (\S+) :", t)}
    lemmas = {snake(n) for n in camel} - fields
    for f, text in texts.items():
        proof = f.endswith(".antt")
        new = outside_strings(text, lambda part: respell(part, camel, lemmas, proof))
        if proof or f.endswith(".rt"):
            new = re.sub(r"\bspecs\.inner\b", "specs.Inner", new)
            new = re.sub(r"\b(mod) inner\b", r"\1 Inner", new)
        if new != text:
            write(f, new)
    for f in listed(".edit"):
        text = read(f)
        new = respell(text, camel, lemmas, False)
        new = re.sub(r"\bspecs\.inner\b", "specs.Inner", new).replace("specs/inner/", "specs/Inner/")
        if new != text:
            write(f, new)
    known = {n for f in sources for n in re.findall(NAME, read(f))}
    for f in listed(".md"):
        text = read(f)
        new = quoted(text, known).replace("specs/inner", "specs/Inner")
        if new != text:
            write(f, new)
    for crate in sorted(os.listdir("crates")):
        for tail in ("", ".antt"):
            old, new = (f"crates/{crate}/specs/{word}{tail}" for word in ("inner", "Inner"))
            if os.path.exists(old):
                os.rename(old, new)


main()
