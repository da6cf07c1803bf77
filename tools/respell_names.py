#!/usr/bin/env python3
"""Spells the repository's own definitions and lemmas in today's manner, in crates/ and, between backticks, in README.md and docs/.

usage: python3 tools/respell_names.py [--look]      at the top of the repository; --look writes nothing and lists what would change

It is run once, behind the kit's port.py. A type or a fact gets upper camel case, every other name underscores in place of dashes. Names that Rattle makes of
the code (goals, steps, labels) keep theirs, and so do functions of src/, strings, inputs and outputs. `K`, the ring number, keeps its letter: in lower
case it would meet the many numbers k. A new name that meets another one in a file where it would stand stops the script.
"""

import os
import re
import sys

NAME = r"[^\s(){}\[\].;,@\"«»`]+"
TOKEN = re.compile(r"--[^\n]*|//[^\n]*|\"(?:[^\"\\\n]|\\.)*\"|" + NAME)
DECLARED = re.compile(
    r"(?m)^ *((?:(?:pub|abbrev|unfoldable|data|record) )*)(" + NAME + r")((?: \{[^{}\n]*\}| \((?:[^()\n]|\([^()\n]*\))*\))*) :(?=\s)(.*)"
)
# Names that the rules below would leave odd.
ODD = {
    "two's-complement": "twos_complement",
    "getD-pos": "get_or_pos",
    "turnE": "turn_e",
    "areaE": "area_e",
    "excessE": "excess_e",
    "scaleE": "scale_e",
    "blendE": "blend_e",
    "KE": "K_e",
}
# Bound names of lemmas, which no signature declares.
BOUND = "adds-p adds-q empty-x empty-y front-masters made-t marked-front next-is one-high one-low own-front part-is plus-p plus-q"


def files(top, *ends):
    for folder, dirs, names in os.walk(top):
        dirs[:] = sorted(d for d in dirs if d not in ("out", ".git"))
        for name in sorted(names):
            if name.endswith(ends):
                yield os.path.join(folder, name)


def respelled(name):
    if name in ODD:
        return ODD[name]
    if "-" not in name:
        return name
    if name[0].isupper() and not name.startswith("K-"):
        return "".join(w[:1].upper() + w[1:] for w in name.split("-"))
    return name.replace("-", "_")


def declared(texts):
    """Each own name that changes, with its new spelling."""
    names = {name: respelled(name) for name in BOUND.split()}
    for path, text in texts.items():
        if not path.endswith(".antt"):
            continue
        for m in DECLARED.finditer(text):
            _, name, _, kind = m.groups()
            if "goal." in kind or name.startswith("--"):
                continue
            new = respelled(name)
            if new != name:
                if names.setdefault(name, new) != new:
                    sys.exit(f"{name} would be {names[name]} and {new}")
    return names


def words(text):
    return {t for t in TOKEN.findall(text) if not t.startswith(("--", "//", '"'))}


def fallen_together(names, texts):
    """New names that stand already in a file in which the old one stands, or are the new names of two."""
    said = []
    by_new = {}
    for old, new in names.items():
        by_new.setdefault(new, []).append(old)
    said += [f"{new}: {', '.join(olds)}" for new, olds in by_new.items() if len(olds) > 1]
    for path, text in texts.items():
        # a function of src/ may have the name of the definition that its contract cites
        here = words(re.sub(r"\b\w+(?=\()", "", text) if path.endswith(".rt") else text)
        said += [f"{path}: {old} meets {new}" for old, new in names.items() if old in here and new in here]
    return said


def turn(text, names):
    def word(m):
        t = m[0]
        if t.startswith(("--", "//")):
            return re.sub(r"`([^`\n]+)`", lambda q: "`" + re.sub(NAME, lambda w: names.get(w[0], w[0]), q[1]) + "`", t)
        # w.x-is: a step's fact on the variable x, whose name Rattle makes
        made = t.endswith("-is") and text[m.start() - 1 : m.start()] == "."
        return t if made or t.startswith('"') else names.get(t, t)

    return TOKEN.sub(word, text)


def in_backticks(text, names):
    return re.sub(r"`([^`\n]+)`", lambda q: "`" + re.sub(NAME, lambda w: names.get(w[0], w[0]), q[1]) + "`", text)


def main():
    look = "--look" in sys.argv[1:]
    texts = {}
    for path in files("crates", ".antt", ".rt"):
        with open(path, encoding="utf-8") as f:
            texts[path] = f.read()
    names = declared(texts)
    said = fallen_together(names, texts)
    if said:
        print("\n".join(said))
        return 1
    if look:
        print("\n".join(f"{old} {new}" for old, new in sorted(names.items())))
        return 0
    turned = {path: turn(text, names) for path, text in texts.items()}
    for path in ["README.md", *files("docs", ".md")]:
        with open(path, encoding="utf-8") as f:
            texts[path] = f.read()
        turned[path] = in_backticks(texts[path], names)
    for path, text in turned.items():
        if text != texts[path]:
            with open(path, "w", encoding="utf-8") as f:
                f.write(text)
    print(f"{len(names)} names in {sum(turned[p] != texts[p] for p in turned)} files")
    return 0


if __name__ == "__main__":
    sys.exit(main())
