#!/usr/bin/env python3
"""Lists the pairs of functions in crates/*/src whose bodies are alike, contracts and tests left out.

    python3 tools/similar.py            the tree as it is
    python3 tools/similar.py COMMIT     the tree of a commit

Two functions are alike where three quarters of their words and signs agree in order; shorter ones than 25 words and
signs are left out. Each line has the ratio and the two places.
"""
import difflib
import re
import subprocess
import sys

ALIKE = 0.75
SHORTEST = 25


def git(*args):
    return subprocess.run(["git", *args], capture_output=True, text=True, check=True).stdout


def sources(commit):
    names = git("ls-tree", "-r", "--name-only", commit).split() if commit else git("ls-files").split()
    for name in names:
        if re.match(r"crates/[^/]+/src/.*\.rt$", name) and not name.endswith("tests.rt"):
            text = git("show", f"{commit}:{name}") if commit else open(name).read()
            yield name, re.sub(r"(?s)#\[cfg\(test\)\]\nmod tests \{.*", "", text)


def functions(commit):
    for name, text in sources(commit):
        for found in re.finditer(r"(?m)^( *)(?:pub(?:\(crate\))? )?fn (\w+)", text):
            rest = text[found.start():]
            end = re.search(r"(?m)^" + found.group(1) + r"\}", rest)
            if not end:
                continue
            lines = [x for x in rest[:end.end()].split("\n") if not re.match(r"\s*(ensures|requires|//)", x)]
            signs = re.findall(r"\w+|[^\s\w]", "\n".join(lines))
            if len(signs) >= SHORTEST:
                yield f"{name}:{found.group(2)}", signs


def main():
    every = list(functions(sys.argv[1] if len(sys.argv) > 1 else None))
    pairs = []
    for i, (first, a) in enumerate(every):
        for second, b in every[i + 1:]:
            if min(len(a), len(b)) >= 0.6 * max(len(a), len(b)):
                ratio = difflib.SequenceMatcher(None, a, b, autojunk=False).ratio()
                if ratio >= ALIKE:
                    pairs.append((ratio, first, second))
    for ratio, first, second in sorted(pairs, reverse=True):
        print(f"{ratio:.2f} {first} {second}")
    print(f"{len(pairs)} pairs")


main()
