#!/usr/bin/env python3
"""Turns this repository's own definitions and lemmas from names-with-dashes to snake_case.

Run once, at the top, after the kit's scripts have turned the spelling: it renames what specs/ and proofs/ declare,
wherever antt speaks of it (in .antt files, and in the ghost lines and clauses of .rt files). Functions of src/, strings,
names that Rattle makes and names of the library stay as they are. It stops where two names would fall together.
"""
import os
import re
import sys

NAME = re.compile(r"[^\s(){}\[\];,.:λ=\"`]+")
# a string, a comment, or a piece of code; in a comment only what stands in backticks is code
PIECE = re.compile(r'"(?:[^"\\]|\\.)*"|(?:--|//)[^\n]*|[^"\n]+?(?="|--|//|\n|$)|\n')
# what a fact says is a type, and has a capital
TYPES = {"None-before": "NoneBefore"}


def own_files():
    for root, dirs, names in os.walk("crates"):
        dirs[:] = sorted(d for d in dirs if d != "out")
        for name in sorted(names):
            if name.endswith((".antt", ".rt")):
                yield os.path.join(root, name)


def code_of(line):
    """The line without its comment."""
    return re.sub(r"(^|\s)--.*$", "", line)


def declared(text):
    """The names with dashes that an .antt file declares, and those that it takes from the library."""
    mine, theirs = set(), set()
    for line in text.split("\n"):
        line = code_of(line)
        use = re.match(r"\s*use (\S*?)\.\{(.*)\}", line)
        if use:
            own = re.match(r"Rattle\.(?!std\b)", use.group(1))
            if not own:
                theirs.update(n.strip().split(" as ")[-1] for n in use.group(2).split(","))
            continue
        head = re.match(r"\s*(?:abbrev |unfoldable |pub )*([^\s(){}:]+)\s*:\s*(.*)", line)
        if head and "-" in head.group(1) and not re.match(r"(goal|given)\.", head.group(2)):
            mine.add(head.group(1))
        for group in re.finditer(r"[({]((?:[^\s(){}\[\];,.:=]+\s+)+):\s", line):
            mine.update(n for n in group.group(1).split() if "-" in n)
        for name in re.finditer(r"\blet\s+([^\s:=(]*-[^\s:=(]*)\s", line):
            mine.add(name.group(1))
    return {n for n in mine if "-" in n and not n.startswith("◌")}, theirs


def new_name(name):
    return TYPES.get(name) or re.sub(r"(?<=[a-z])(?=[A-Z])", "_", name).replace("-", "_").lower()


def turned(text, renames, is_rust):
    def word(m):
        return renames.get(m.group(0), m.group(0))

    def piece(m):
        p = m.group(0)
        if p.startswith('"'):
            return p
        if p.startswith(("--", "//")):
            return re.sub(r"`[^`]*`", lambda q: NAME.sub(word, q.group(0)), p)
        return NAME.sub(word, p)

    return PIECE.sub(piece, text)


def main():
    texts = {p: open(p, encoding="utf-8").read() for p in own_files()}
    mine, theirs = set(), {}
    for path, text in texts.items():
        if path.endswith(".antt"):
            names, theirs[path] = declared(text)
            mine |= names
    renames = {n: new_name(n) for n in sorted(mine)}
    targets = {}
    for old, new in renames.items():
        targets.setdefault(new, []).append(old)
    bad = [f"{olds} -> {new}" for new, olds in targets.items() if len(olds) > 1]
    for path, text in texts.items():
        bare = re.sub(r"(?m)^use [^{\n]*", "", text)
        taken = {w for line in bare.split("\n") for w in NAME.findall(code_of(line))} if path.endswith(".antt") else set()
        for old, new in renames.items():
            if old in taken and new in taken:
                bad.append(f"{path}: {old} and {new}")
    if bad:
        print("these would fall together:\n" + "\n".join(bad), file=sys.stderr)
        sys.exit(1)
    for path, text in texts.items():
        here = {o: n for o, n in renames.items() if o not in theirs.get(path, ())}
        new = turned(text, here, path.endswith(".rt"))
        if new != text:
            open(path, "w", encoding="utf-8").write(new)
    print(f"{len(renames)} names turned")


if __name__ == "__main__":
    main()
