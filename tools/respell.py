#!/usr/bin/env python3
"""Gives the definitions and lemmas of this repository the spelling of today's Rattle.

usage: python3 tools/respell.py [FOLDER]     at the top of a checkout, once, after the toolchain's own port.py

A word is in snake case (card-of becomes card_of), a type or a fact in camel case (Card-rule becomes CardRule).
Only names that specs/ or proofs/ declare are changed, and only where they stand as words of their own: in .antt
files outside strings, in the ghost text of .rt files outside strings, and in backquotes in comments. Names that Rattle makes
(goals, as returns-then-x) and those of the library keep their spelling. The script stops, and writes
nothing, where two names would fall together.
"""
import os
import re
import sys

WORD = re.compile(r"[^\s(){}\[\].,;\"`@]+")
DECLARED = re.compile(
    r"^\s*(?:unfoldable )?(?:abbrev )?(?:pub )?(?:abbrev |data |record |ruleset )?"
    r"([^\s:(){}]+)((?: +(?:\([^()]*(?:\([^()]*\)[^()]*)*\)|\{[^{}]*\}))*) +: *(.*)$"
)
MODULE_NAME = re.compile(r"[(\{]([^(){}:]+) : ")


def files(root):
    for folder, dirs, names in os.walk(os.path.join(root, "crates")):
        dirs[:] = sorted(d for d in dirs if d not in ("out", "must-fail"))
        for name in sorted(names):
            if name.endswith((".antt", ".rt")):
                yield os.path.join(folder, name)


def turned(name):
    if name[0].isupper():
        return "".join(part[:1].upper() + part[1:] for part in name.split("-"))
    return name.replace("-", "_")


def is_ours(name):
    """A name of letters, digits and dashes: no operator, no made name."""
    return re.fullmatch(r"[A-Za-z][A-Za-z0-9_]*(-[A-Za-z0-9_]+)*'*", name) is not None


def declared(texts):
    names, made = {}, set()
    for path, text in texts.items():
        if not path.endswith(".antt"):
            continue
        for line in text.splitlines():
            m = DECLARED.match(line)
            if not m:
                continue
            name, kind = m.group(1), m.group(3)
            if re.match(r"(goal|rules|Goals|needs|need)\.", kind):
                made.add(name)
            elif is_ours(name):
                names.setdefault(name, path)
    return names, made


def imported(texts):
    """Names that come from outside the repository."""
    own = {p.split(os.sep)[-3] for p in texts if p.endswith(os.path.join("src", "lib.rt"))}
    found = set()
    for text in texts.values():
        for m in re.finditer(r"use ([\w.'-]+)\.\{([^}]*)\}", text):
            crate = m.group(1).split(".")[1] if m.group(1).startswith("Rattle.") else ""
            if crate not in own:
                for it in m.group(2).split(","):
                    found.add(it.split(" as ")[0].strip())
    return found


def in_words(text, names):
    return WORD.sub(lambda m: names.get(m.group(0), m.group(0)), text)


def in_quotes(text, names):
    return re.sub(r"`[^`]*`", lambda m: in_words(m.group(0), names), text)


def in_code(line, names, comment):
    """One line: words outside strings, and in a comment those in backquotes."""
    out, i = [], 0
    while i < len(line):
        if line.startswith(comment, i) and (i == 0 or line[i - 1] in " \t"):
            out.append(in_quotes(line[i:], names))
            return "".join(out)
        if line[i] == '"':
            j = i + 1
            while j < len(line) and line[j] != '"':
                j += 2 if line[j] == "\\" else 1
            out.append(line[i : j + 1])
            i = j + 1
            continue
        j = i + 1
        while j < len(line) and line[j] != '"' and not (line.startswith(comment, j) and line[j - 1] in " \t"):
            j += 1
        out.append(in_words(line[i:j], names))
        i = j
    return "".join(out)


def main(argv):
    root = argv[0] if argv else "."
    texts = {}
    for path in files(root):
        with open(path, encoding="utf-8") as f:
            texts[path] = f.read()
    names, made = declared(texts)
    outside = imported(texts)
    mapping = {n: turned(n) for n in names if "-" in n and n not in made and n not in outside}
    everything = set(names) | outside | made
    together = [(n, t) for n, t in mapping.items() if t in everything]
    twice = {}
    for n, t in mapping.items():
        twice.setdefault(t, []).append(n)
    together += [(ns, t) for t, ns in twice.items() if len(ns) > 1]
    for n, t in together:
        print(f"falls together: {n} and {t}")
    for n in sorted(n for n in names if "-" in n and (n in made or n in outside)):
        print(f"kept: {n}, which Rattle or the library also has ({names[n]})")
    if together:
        return 1
    changed = 0
    for path, text in texts.items():
        comment = "--" if path.endswith(".antt") else "//"
        new = "".join(in_code(line, mapping, comment) for line in text.splitlines(keepends=True))
        if new != text:
            with open(path, "w", encoding="utf-8") as f:
                f.write(new)
            changed += 1
    print(f"{len(mapping)} names, {changed} files")
    return 0


if __name__ == "__main__":
    raise SystemExit(main(sys.argv[1:]))
