#!/usr/bin/env python3
"""Turns the names of this repository that port.py leaves to today's spelling: definitions, fields and lemmas in snake case.

usage: python3 tools/respell.py [FOLDER]     once, right after port.py, at the top of the repository (or of FOLDER)

A definition `frameSize` becomes `frame_size`, in a lemma's name too, and a record's field `size-from` becomes `size_from`; dashes
join the parts of a lemma's name and stay. In comments only the first kind is turned: a dash may be plain words' there. Functions of
src/, exported names, strings, inputs and outputs have no such names, and the pages of docs/ are no business of this script.
"""

import os
import re
import sys

TOKEN = re.compile(r"(?<![\w'-])[A-Za-z_][\w']*(?:-[\w']+)*(?![\w'-])")
HUMP = re.compile(r"(?<=[a-z0-9])(?=[A-Z])")
SIGNATURE = re.compile(r"^(\s*)(?:abbrev |unfoldable )?(?:pub )?([A-Za-z_][\w'-]*) : ")
# lemmas that would fall together with a definition
APART = {"entry_in": "entry_in-is", "all_set": "all_set-next", "room_of": "room-of", "pair_is": "pair-is"}
# names that stand under a λ or a where only
LOCAL = ["pairsRead", "spectralRead", "frameSent", "pairsSent", "lastRead", "pairRead"]
# of the logic, which has another name for it now
WORDS = {"getD": "get_or"}


def files(root, endings):
    for folder, dirs, names in os.walk(root):
        dirs[:] = sorted(d for d in dirs if d not in ("out", "target", ".git"))
        yield from (os.path.join(folder, n) for n in sorted(names) if n.endswith(endings))


def declared(root):
    """The names that the antt files declare, and those of them that are fields of a record."""
    names, fields = set(LOCAL), set()
    for path in files(root, ".antt"):
        record = False
        with open(path, encoding="utf-8") as f:
            for line in f:
                if re.match(r"(pub )?record ", line):
                    record = True
                elif line.strip() and not line.startswith(" "):
                    record = False
                m = SIGNATURE.match(line)
                if m:
                    (fields if record and m[1] else names).add(m[2])
    return names | fields, fields


def snake(name):
    return "-".join(WORDS.get(p) or HUMP.sub("_", p).lower() for p in name.split("-"))


def table(root):
    names, fields = declared(root)
    new = {n: snake(n) for n in names if n[0].islower() and HUMP.search(n)}
    for n in fields:
        new[n] = new.get(n, n).replace("-", "_")
    return {a: b for a, b in new.items() if a != b}


# comments; in the sources strings too, which keep every word
COMMENT = {".antt": re.compile(r"--(?= |$).*", re.M), ".rt": re.compile(r'//.*|"(?:[^"\\\\]|\\\\.|\\\\\n)*"'), ".edit": re.compile(r"^(?!file: |old: |new: ).*", re.M)}


def turned(text, ending, new):
    """The text with its names turned, those with dashes outside comments alone."""
    plain = {a: b for a, b in new.items() if "-" not in a}
    at, out = 0, []
    for m in COMMENT[ending].finditer(text):
        out += [TOKEN.sub(lambda k: new.get(k[0], k[0]), text[at:m.start()]), TOKEN.sub(lambda k: plain.get(k[0], k[0]), m[0])]
        at = m.end()
    return "".join([*out, TOKEN.sub(lambda k: new.get(k[0], k[0]), text[at:])])


def main(argv):
    root = argv[0] if argv else "."
    crates = os.path.join(root, "crates")
    new = table(crates)
    changed = 0
    for path in files(crates, (".antt", ".rt", ".edit")):
        with open(path, encoding="utf-8") as f:
            old = f.read()
        text = old
        if path.endswith(".antt"):
            text = TOKEN.sub(lambda m: APART.get(m[0], m[0]), text)
        text = turned(text, os.path.splitext(path)[1], new)
        if text != old:
            with open(path, "w", encoding="utf-8") as f:
                f.write(text)
            changed += 1
    print(f"respell: {len(new)} names, {changed} files")


if __name__ == "__main__":
    main(sys.argv[1:])
