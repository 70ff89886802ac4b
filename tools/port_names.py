#!/usr/bin/env python3
"""Gives the repository's own definitions and lemmas today's spelling. Run once, at the top, right after port.py of the kit.

In each .rt and .antt file of crates/:
1. a name in camel case that begins with a small letter becomes one in snake case (maxInput: max_input);
2. a field or constructor of specs/ has '_' where it had '-' (made-long: made_long);
3. the proof of a function f is f_spec (points-up-to-spec: points_up_to_spec).
Types, modules, and lemmas whose parts a dash joins keep their names. It prints the names that fall together, and changes nothing then.
"""
import os
import re
import sys

CAMEL = re.compile(r"(?<![A-Za-z0-9_])[a-z][a-z0-9]*(?:[A-Z][A-Za-z0-9]*)+(?![A-Za-z0-9_])")
FIELD = re.compile(r"^ +(?:pub )?([a-z][a-z0-9]*(?:-[A-Za-z0-9]+)+) *:", re.M)
PROOF = re.compile(r"^pub ([a-z0-9_]+(?:-[a-z0-9_]+)*)-spec\b", re.M)
WORD = re.compile(r"[A-Za-z0-9_'\u2080-\u2089-]+")


def snake(name):
    return re.sub(r"(?<=[a-z0-9])[A-Z]+(?![a-z])|(?<=[a-z0-9])[A-Z]", lambda m: "_" + m.group(0).lower(), name)


def files(root):
    for folder, dirs, names in os.walk(os.path.join(root, "crates")):
        dirs[:] = sorted(d for d in dirs if d != "out")
        for name in sorted(names):
            if name.endswith((".rt", ".antt")):
                yield os.path.join(folder, name)


def renamed(texts):
    """Old names and new ones: fields and constructors of specs/. Those in camel case go by pattern."""
    names = {}
    for path, text in texts.items():
        if "/specs/" in path:
            for old in FIELD.findall(text):
                names[old] = snake(old.replace("-", "_"))
    return names


def turn_file(path, text, names):
    if path.endswith("/Proof.antt"):
        for old in PROOF.findall(text):
            text = re.sub(r"(?<![\w-])" + re.escape(old + "-spec") + r"(?![\w-])", old.replace("-", "_") + "_spec", text)
    text = WORD.sub(lambda m: names.get(m.group(0), m.group(0)), text)
    return CAMEL.sub(lambda m: snake(m.group(0)), text)


def together(texts, names):
    """Places where a name that comes was there before, in one file with the one that goes."""
    bad = []
    for path, text in texts.items():
        words = set(WORD.findall(text))
        for word in words:
            old = [word] if word in names or CAMEL.fullmatch(word) else []
            for o in old:
                new = names.get(o, snake(o))
                if new in words and path.endswith(".antt") and re.search(r"^ *(?:pub |abbrev |unfoldable )*" + re.escape(new) + r" *:|[{,] *" + re.escape(new) + r" *[,}]", text, re.M):
                    bad.append(f"{path}: {o} and {new}")
    return sorted(bad)


def main(root):
    texts = {}
    for path in files(root):
        with open(path, encoding="utf-8") as f:
            texts[path] = f.read()
    names = renamed(texts)
    bad = together(texts, names)
    if bad:
        print("\n".join(bad))
        return 1
    changed = 0
    for path, text in texts.items():
        new = turn_file(path, text, names)
        if new != text:
            changed += 1
            with open(path, "w", encoding="utf-8") as f:
                f.write(new)
    print(f"port_names: {changed} files changed, {len(names)} fields and constructors")
    return 0


if __name__ == "__main__":
    raise SystemExit(main(sys.argv[1] if len(sys.argv) > 1 else "."))
