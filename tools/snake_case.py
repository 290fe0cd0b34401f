#!/usr/bin/env python3
"""Respells the names that this repository declares in specs/ and proofs/ as this Rattle spells names.

usage: python3 tools/snake_case.py [--dry]      at the top of a repository that port.py has turned

A definition, a constructor, a field, a variable and a lemma that is named for what it says get underscores in place of
hyphens. A lemma named by the left side of its equation keeps the hyphens between the words of that side, as the library's
own lemmas do. A prime is an apostrophe, and what is imported under another name needs no quotes. Names of the library and
of generated goals stay, and so do comments, strings, file names and the code of src/ outside ghost text, where no name has
a hyphen.
It writes every renaming to standard output, and stops before it writes a file if two names would fall together.
"""

import collections
import os
import re
import sys

BREAKS = r"\s(){}\[\];,.:\"@"
TOKEN = re.compile(rf"[^{BREAKS}]+")
# a declaration: at the head of a line, or behind an opening bracket, or after `let`
HEAD = re.compile(rf"^\s*(?:abbrev |unfoldable )?(?:pub )?(?:data |record |abbrev )?(?:pub )?([^{BREAKS}]+)(?=\s*[:({{])", re.M)
BOUND = re.compile(rf"[({{]((?:[^{BREAKS}]+ )+):|\blet (?:rec )?([^{BREAKS}]+)\s*[:=]|λ ((?:[^{BREAKS}]+ ?)+)\.")
ALIAS = re.compile(rf"\bas ([^{BREAKS}]+)(?=[,}}])")
FOREIGN = re.compile(r"use (?:Rattle\.std|mathlib|native|lib|borrow|Prim|logic)(?:\.\w+)*\.\{([^}]*)\}")
MADE = re.compile(r"\b(?:goal|c)\.([^\s(){}\[\];:\"@]+)|use [\w.+]*\.(?:Goals|Given)[\w.]*\.\{([^}]*)\}")
# a word of the library under the name of another word of it: the gate refuses that
ALL = re.compile(r"(?<![\w'.-])All(?![\w'-])")
# names that would fall together with another name in use, and what stands for them
CHOSEN = {"bit-and": "bit_and_of_digits"}
# names in camel case that are no types
CAMEL = {"ofParts": "of_parts", "digitValue": "value_of_digit"}


def files(root):
    for folder, dirs, names in os.walk(os.path.join(root, "crates")):
        dirs[:] = sorted(d for d in dirs if d not in ("out", "must-fail"))
        for n in sorted(names):
            if n.endswith((".antt", ".rt")):
                yield os.path.join(folder, n)


def parts(path, text):
    """The text as pieces, each with whether it is to be respelled: comments and strings are not."""
    comment = r"--[^\n]*" if path.endswith(".antt") else r"//[^\n]*"
    last = 0
    for m in re.finditer(rf"(?:(?<=\s)|^){comment}|\"(?:[^\"\\\n]|\\.)*\"", text, re.M):
        yield text[last:m.start()], True
        yield m.group(), False
        last = m.end()
    yield text[last:], True


def plain(path, text):
    return "".join(t if live else " " for t, live in parts(path, text))


def is_name(word):
    return "-" in word.strip("-") and re.match(r"[A-Za-z_]", word) is not None


def statement(text, name):
    """The conclusion's left side where the lemma's statement is an equation."""
    m = re.search(rf"^([ \t]*)(?:pub )?{re.escape(name)}\s*:(.*?)(?=^\1(?:\s*unfolding .*\n\1)?{re.escape(name)}[\s=]|\Z)", text, re.M | re.S)
    if not m:
        return None
    said = re.sub(r"\n\s*unfolding .*", "", m.group(2))
    said = re.split(r"→", said)[-1]
    depth, left = 0, None
    for i, ch in enumerate(said):
        depth += ch in "({["
        depth -= ch in ")}]"
        if ch == "≡" and depth == 0:
            left = said[:i]
    return left


def split_words(name, words):
    """The name as words of the left side, joined by hyphens, or None."""
    bits = name.split("-")

    def go(i, first):
        if i == len(bits):
            return []
        for j in range(len(bits), i, -1):
            word = "-".join(bits[i:j])
            if word in words and not (first and j == len(bits)):
                rest = go(j, False)
                if rest is not None:
                    return [word] + rest
        return None

    return go(0, True)


def main(argv):
    root = "."
    texts = {p: open(p, encoding="utf-8").read() for p in files(root)}
    declared, foreign, made, everywhere = {}, collections.Counter(), {}, collections.Counter()
    for p, t in texts.items():
        t = plain(p, t)
        everywhere.update(TOKEN.findall(t))
        for m in FOREIGN.finditer(t):
            foreign.update(it.split()[0] for it in m.group(1).split(",") if it.split())
        if not p.endswith(".antt"):
            continue
        answers = os.path.basename(p) in ("Answers.antt", "Invariants.antt")
        if answers:
            made[p] = {w for m in MADE.finditer(t) for w in re.split(r"[.,\s]+", m.group(1) or m.group(2))}
        for m in HEAD.finditer(t):
            name = m.group(1)
            if is_name(name) and not (answers and re.search(rf"{re.escape(name)} : goal\.", t)):
                declared.setdefault(name, p)
        for m in BOUND.finditer(t):
            for name in " ".join(g for g in m.groups() if g).split():
                if is_name(name):
                    declared.setdefault(name, p)
        for m in ALIAS.finditer(t):
            if is_name(m.group(1)):
                declared.setdefault(m.group(1), p)
    turned = {}
    for name, p in declared.items():
        if name in foreign:
            print(f"stays, the library's: {name} ({p})")
            continue
        for q, words in made.items():
            if name in words:
                print(f"stays in {q}, a generated goal's: {name} ({p})")
        left = statement(texts[p], name) if "/proofs/" in p else None
        words = split_words(name, set(TOKEN.findall(left))) if left else None
        turned[name] = CHOSEN.get(name) or ("-".join(w.replace("-", "_") for w in words) if words else name.replace("-", "_"))
        if words:
            print(f"by its left side: {turned[name]}")
    for name in everywhere:
        if "′" in name and name not in foreign:
            turned[name] = turned.get(name, name).replace("′", "'")
    turned.update({a: b for a, b in CAMEL.items() if a in everywhere})
    turned = {a: b for a, b in turned.items() if a != b}
    taken = collections.Counter(turned.values())
    used = {m.group(1) for p, t in texts.items() if p.endswith(".antt") for m in HEAD.finditer(plain(p, t))} | set(foreign)
    bad = sorted(a for a, b in turned.items() if taken[b] > 1 or (b in used and b not in turned))
    for a, b in sorted(turned.items()):
        print(f"{a} -> {b}")
    for a in bad:
        print(f"falls together: {a} -> {turned[a]} ({declared.get(a)})")
    if "--dry" in argv:
        return 0
    if bad:
        return 1
    for p, t in texts.items():
        here = {a: b for a, b in turned.items() if a not in made.get(p, ())}
        new = "".join(TOKEN.sub(lambda m: here.get(m.group(), m.group()), piece) if live else piece for piece, live in parts(p, t))
        if "AllByRecursion as All" in new:
            new = "\n".join(line if line.lstrip().startswith("--") else ALL.sub("AllByRecursion", line.replace("AllByRecursion as All", "AllByRecursion")) for line in new.split("\n"))
        new = re.sub(r"«([a-z_]+(?:-[a-z]+)*)»", lambda m: m.group(1).replace("-", "_"), new)
        if new != t:
            with open(p, "w", encoding="utf-8") as f:
                f.write(new)
    return 0


if __name__ == "__main__":
    raise SystemExit(main(sys.argv[1:]))
