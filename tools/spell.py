#!/usr/bin/env python3
"""Brings the repository's own definitions and lemmas to the spelling of today's Rattle.

usage: python3 tools/spell.py      at the top of the repository, once, after port.py

Words are in snake case, types in camel case. A name is the repository's own if one of its .antt files declares it outside
a function's proof; names of the library, and names that Rattle makes of the code (goals, steps and their parts), stay.
It goes by text, prints the names that fall together, and proves nothing: the check decides.
"""
import os
import re
import sys

TOKEN = re.compile(r"[^\s(){}\[\];,◌λ`|\"∷≡→×⊎↔≢≤<+*∙.]+")
DECLARED = re.compile(r"^(\s*)((?:abbrev |unfoldable |pub |data |record )*)((?:[^\s(){}\[\];,.◌λ:]+ )*[^\s(){}\[\];,.◌λ:]+)\s*(?:\(|\{|:(?!:))")
MADE = ("Answers.antt", "Invariants.antt", "Proof.antt", "Choices.antt")


def files(top, ending):
    for folder, inner, names in os.walk(os.path.join(top, "crates")):
        inner[:] = sorted(d for d in inner if d != "out")
        for name in sorted(names):
            if name.endswith(ending):
                yield os.path.join(folder, name)


def read(path):
    with open(path, encoding="utf-8") as f:
        return f.read()


def respelled(name):
    if name[0].isupper():
        return "".join(part[0].upper() + part[1:] for part in name.split("-") if part)
    return name.replace("-", "_")


def imported(text, own_crates):
    """The names that a file brings in from outside this repository."""
    found = set()
    for path, names in re.findall(r"^(?:ghost )?use (\S+?)\.\{(.*)\};?$", text, re.M):
        crate = re.match(r"Rattle\.(\w+)\.", path)
        if not (crate and crate.group(1) in own_crates):
            found.update(w for n in names.split(", ") for w in n.split(" as "))
    return found


def declared(path, text):
    """The names with a dash that a file declares."""
    made = os.path.basename(path) in MADE
    found = set()
    for line in text.split("\n"):
        if line.startswith(("--", "use ", "mod ", "pub mod ")):
            continue
        m = DECLARED.match(line)
        if m and not (made and not m.group(1)):
            found.update(n for n in m.group(3).split(" ") if "-" in n and re.search("[A-Za-z]", n) and not n.startswith("-"))
        found.update(n for n in re.findall(r"\blet ([A-Za-z][^\s:=]*-[^\s:=]*) [:=]", line))
    return found


def turned(text, names, made, comment):
    """A text with its own names respelled, but for comments, strings, and names that Rattle makes."""
    lines = []
    for line in text.split("\n"):
        if line.lstrip().startswith(comment):
            for n in re.findall(r"`([^`]+)`", line):
                line = line.replace(f"`{n}`", f"`{TOKEN.sub(lambda m: names.get(m.group(), m.group()), n)}`")
            lines.append(line)
            continue
        head = re.match(r"^(pub )?([^\s:]+) (:|g |c |t )", line) if made else None
        stay = {head.group(2)} if head else set()

        def turn(m):
            word = m.group()
            if word not in names or word in stay:
                return word
            before = line[: m.start()]
            if before.endswith(("goal.", "given.")) or made and re.search(r"(?:^|[^\w.'-])[clw](?:\.[\w'+-]+)*\.$", before) and word not in FIELDS:
                return word
            return names[word]

        lines.append(TOKEN.sub(turn, line))
    return "\n".join(lines)


FIELDS = set()


def main():
    top = os.getcwd()
    own_crates = set(os.listdir(os.path.join(top, "crates")))
    texts = {p: read(p) for p in files(top, ".antt")}
    own = {}
    for path, text in texts.items():
        for name in declared(path, text) - imported(text, own_crates):
            own.setdefault(name, respelled(name))
        inside = False
        for line in text.split("\n"):
            inside = line.lstrip().startswith(("pub record", "record")) or inside and line.startswith(" ")
            m = re.match(r"^\s+pub ([^\s:]+-[^\s:]+) :", line)
            if inside and m:
                FIELDS.add(m.group(1))
    words = {path: set(TOKEN.findall(text)) for path, text in texts.items()}
    for old, new in sorted(own.items()):
        both = [p for p in words if old in words[p] and new in words[p]]
        for path in both:
            print(f"fall together: {old} and {new} in {os.path.relpath(path, top)}")
    for other in sorted(set(own.values())):
        olds = [o for o in own if own[o] == other]
        if len(olds) > 1:
            print(f"fall together: {', '.join(olds)}")
    changed = 0
    for path, text in texts.items():
        outside = imported(text, own_crates)
        here = {o: n for o, n in own.items() if o not in outside}
        new = turned(text, here, os.path.basename(path) in MADE, "--")
        if new != text:
            changed += 1
            with open(path, "w", encoding="utf-8") as f:
                f.write(new)
    for path in files(top, ".rt"):
        text = read(path)
        outside = imported(text, own_crates)
        here = {o: n for o, n in own.items() if o not in outside}
        strings = re.split(r'("(?:[^"\\]|\\.)*")', text)
        new = "".join(s if i % 2 else turned(s, here, False, "//") for i, s in enumerate(strings))
        if new != text:
            changed += 1
            with open(path, "w", encoding="utf-8") as f:
                f.write(new)
    print(f"spell: {len(own)} names, {changed} files")
    return 0


if __name__ == "__main__":
    sys.exit(main())
