#!/usr/bin/env python3
"""Brings the repository's own definitions and lemmas to snake case: with-vertex becomes with_vertex.

usage: python3 tools/respell.py           at the top of a checkout: rewrites the files below crates/ in place
       python3 tools/respell.py --list    lists the names and changes nothing

Renamed is what an .antt file of the repository declares: definitions, lemmas, fields, cases, what a `let` gives
a type, and a name that it gives to an import by `as`. The names of goals and of invariants, which Rattle makes, keep their dashes, as do those of the
library. Functions of src/, strings and comments of src/ are not touched. The script stops where two names would fall
together, or one with another word of the repository.
"""

import os
import re
import sys

NAME = r"[A-Za-z_](?:[\w']|-(?=\w))*"
WORD = re.compile(r"(?<![\w'-])" + NAME)
DECLARED = re.compile(r"^ *(?:pub |abbrev |unfoldable |record |data |let )*(" + NAME + r")(?: \([^:()]*:[^=]*\)| \{[^}]*\})* : (.*)$")
ALIAS = re.compile(r" as (" + NAME + r")(?=[},\s])")

# Names whose new spelling would be that of a function of src/ or of a word of the library, found by hand.
OTHERS = {"bit-and": "bit_of_and", "bit-xor": "bit_of_xor", "mutual-rows": "rows_are_mutual", "one-path": "path_is_one"}


def files(root, ends):
    for folder, dirs, names in os.walk(os.path.join(root, "crates")):
        dirs[:] = sorted(d for d in dirs if d != "out")
        for name in sorted(names):
            if name.endswith(ends):
                yield os.path.join(folder, name)


def declared(root):
    """The dashed names that .antt files declare, but for those that a file of goals or invariants must have."""
    names = set()
    for path in files(root, ".antt"):
        with open(path, encoding="utf-8") as f:
            for line in f:
                m = DECLARED.match(line)
                if m and "-" in m.group(1) and not m.group(2).startswith("goal."):
                    names.add(m.group(1))
                if line.startswith("use "):
                    names |= {n for n in ALIAS.findall(line) if "-" in n}
    return names


def split(path, text):
    """The text in turns of what is read and what is left alone: comments and strings of src/."""
    if path.endswith(".rt"):
        return re.split(r"(//.*|\"(?:[^\"\\]|\\.)*\")", text)
    return [text]


def main(argv):
    root = "."
    names = declared(root)
    new = {n: OTHERS.get(n, n.replace("-", "_")) for n in names}
    if argv == ["--list"]:
        print("\n".join(f"{n} {new[n]}" for n in sorted(names)))
        return 0
    seen = set()
    for path in files(root, (".antt", ".rt")):
        with open(path, encoding="utf-8") as f:
            seen |= set(WORD.findall(f.read()))
    taken = list(new.values())
    met = sorted(n for n in names if new[n] in seen or taken.count(new[n]) > 1)
    if met:
        print("respell: these would fall together with another name: " + ", ".join(met))
        return 1
    for path in files(root, (".antt", ".rt", ".edit")):
        with open(path, encoding="utf-8") as f:
            text = f.read()
        parts = split(path, text)
        parts[::2] = [WORD.sub(lambda m: new.get(m.group(0), m.group(0)), p) for p in parts[::2]]
        if "".join(parts) != text:
            with open(path, "w", encoding="utf-8") as f:
                f.write("".join(parts))
    print(f"respell: {len(names)} names")
    return 0


if __name__ == "__main__":
    raise SystemExit(main(sys.argv[1:]))
