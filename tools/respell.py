#!/usr/bin/env python3
"""The names of definitions, fields, constructors and lemmas in snake case, as antt of this kit spells them.

usage: tools/respell.py [FOLDER]     once, after the kit's port.py, at the top of a checkout (FOLDER, or here)

A name with a small first letter that specs/ or proofs/ declares is respelled wherever it stands as a word of its own: a capital inside gets '_' and its small
letter. A dash stays: it joins two names. Types and modules keep their capitals, functions of src/, exported names, strings, inputs and outputs are not touched.
LEMMAS get back the dash that port.py took from them, since they would fall together with a definition.
"""
import os
import re
import sys

# lemmas whose names, as port.py leaves them, are what a definition is to be called: leftOver, atMark, noRoom, goesOn, pastAfter, byNumber, byRank, oneLine, inSize
LEMMAS = "left_over at_mark no_room goes_on past_after by_number by_rank one_line in_size".split()
LEMMA = re.compile(r"(?<![.\w'-])(" + "|".join(LEMMAS) + r")(?![\w'-])")

WORD = r"[^\s(){}\[\].,;:⌜⌝\"`|\\]+"
SIGNED = re.compile(r"^[ \t]*(?:(?:abbrev|unfoldable|pub|opaque|ruleset) )*(" + WORD + r")\s+:(?=\s)", re.M)
HEADS = re.compile(r"^[ \t]*(?:(?:abbrev|unfoldable|pub) )*(?:record|data) (" + WORD + r")", re.M)
MADE = re.compile(r"^[ \t]*(?:pub )?(" + WORD + r")\s+:\s+(?:tie|goal|Goals|Given)\.", re.M)
KEYWORDS = {"let", "in", "where", "module", "use", "λ"}


def respelled(name):
    """The name in snake case."""
    s = re.sub(r"(?<=[a-z0-9'])([A-Z])", lambda m: "_" + m.group(1).lower(), name)
    s = re.sub(r"(?<=_)([a-z])(?=[A-Z])", r"\1_", s)
    s = re.sub(r"(?<=-)([A-Z])", lambda m: m.group(1).lower(), s)
    s = re.sub(r"([A-Z])", lambda m: "_" + m.group(1).lower(), s)
    return s


def files(root, ends):
    for folder, dirs, names in os.walk(os.path.join(root, "crates")):
        dirs[:] = sorted(d for d in dirs if d != "out")
        for name in sorted(names):
            if name.endswith(ends):
                yield os.path.join(folder, name)


def own_names(root):
    """Old name -> new name, of all that specs/ and proofs/ declare, but for the goals that are answered under the name that the check gives."""
    found, kept = set(), set()
    for path in files(root, ".antt"):
        with open(path, encoding="utf-8") as f:
            text = re.sub(r"--.*", "", f.read())
        kept |= set(MADE.findall(text))
        found |= set(SIGNED.findall(text))
    names = {}
    for name in sorted(found - kept):
        plain = name.lstrip("_")
        if not plain or not plain[0].islower() or not re.fullmatch(r"[A-Za-z0-9'₀-₉_?-]+", name):
            continue
        new = respelled(name)
        if new != name:
            names[name] = new
    return names


def main(root):
    names = own_names(root)
    back = {}
    for old, new in names.items():
        back.setdefault(new, []).append(old)
    for new, olds in back.items():
        if len(olds) > 1:
            print(f"fall together: {' '.join(olds)} -> {new}", file=sys.stderr)
    word = re.compile(r"(?<![^\s(){}\[\].,;:⌜⌝\"`|\\?→])(" + WORD + r")")

    def words(text):
        return word.sub(lambda m: names.get(m.group(1), m.group(1)), text)

    changed = 0
    for path in files(root, (".antt", ".rt")):
        with open(path, encoding="utf-8") as f:
            text = f.read()
        new = []
        for line in text.split("\n"):
            # comments: only names in backticks or behind a dot
            start = line.find("--") if path.endswith(".antt") else line.find("//")
            while start > 0 and path.endswith(".antt") and not line[start - 1].isspace():
                start = line.find("--", start + 1)
            code, said = (line, "") if start < 0 else (line[:start], line[start:])
            if path.endswith(".rt"):
                parts = re.split(r'("(?:[^"\\]|\\.)*")', code)
                code = "".join(p if i % 2 else words(p) for i, p in enumerate(parts))
            else:
                code = words(LEMMA.sub(lambda m: m.group(1).replace("_", "-"), code))
            said = re.sub(r"`[^`]*`", lambda m: words(m.group(0)), said)
            said = re.sub(r"(?<=[A-Za-z]\.)([A-Za-z][A-Za-z0-9'-]*)", lambda m: names.get(m.group(1), m.group(1)), said)
            new.append(code + said)
        new = "\n".join(new)
        if new != text:
            changed += 1
            with open(path, "w", encoding="utf-8") as f:
                f.write(new)
    print(f"respell: {len(names)} names, {changed} files")
    return names


if __name__ == "__main__":
    main(sys.argv[1] if len(sys.argv) > 1 else ".")
