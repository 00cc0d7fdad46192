#!/usr/bin/env python3
"""Brings this repository's own definitions and lemmas to today's spelling, once, after the kit's port.py.

usage: python3 tools/port/spelling.py [--dry]    at the top of the checkout

A name of specs/ (a definition, a field, a constructor) is in snake case, and a type in camel case. A lemma of proofs/ keeps a dash
where it joins two words, each a definition or a function of the library, and has an underscore elsewhere. Names that the kit makes
of the code (goals and steps) are left alone, and so are strings, inputs, outputs and the functions of src/.
A lemma that would have the name of a function of src/ ends in _lem. Prints each name that changed, and stops before it writes
anything where two names would fall together.
"""
import collections
import os
import re
import sys

ENDS = "\\s(){}\\[\\],;.«»\""
TOKEN = re.compile(f"[^{ENDS}]+")
DECLARES = re.compile(
    f"^\\s*(?:where\\s+)?(?:(?:abbrev|unfoldable)\\s+)?(?:pub\\s+)?(?:(?:data|record)\\s+)?([^{ENDS}]+)(?:\\s+[({{].*[)}}])?\\s+:\\s"
)
# Names that stand elsewhere in another scope: a constructor and fields beside fields of the same meaning in src/, two definitions
# beside parameters of functions that don't cite them, and three beside private functions of another crate.
APART = set("known_span rests_at rests_known to_channels to_rate channels_answer rate_answer uniform_answer".split())
LIBRARY = set("length append drop take map sum set get_or replicate concat cons".split())


def files():
    for folder, dirs, names in os.walk("crates"):
        dirs[:] = sorted(d for d in dirs if d != "out")
        for name in sorted(names):
            if name.endswith((".antt", ".rt")):
                yield os.path.join(folder, name)


def camel(name):
    return "".join(part[:1].upper() + part[1:] for part in name.split("-"))


def snake(name):
    return name.replace("-", "_")


def lemma(name, words):
    parts, chunks = name.split("-"), []
    while parts:
        for n in range(len(parts), 0, -1):
            if "_".join(parts[:n]) in words:
                chunks.append(("_".join(parts[:n]), True))
                parts = parts[n:]
                break
        else:
            chunks.append((parts[0], False))
            parts = parts[1:]
    out, known = chunks[0]
    for text, word in chunks[1:]:
        out += ("-" if known and word else "_") + text
        known = word
    return out


def main():
    every = list(files())
    texts = {}
    for path in every:
        with open(path, encoding="utf-8") as f:
            texts[path] = f.read()
    in_specs, in_proofs, tokens = set(), set(), collections.Counter()
    for path, text in texts.items():
        tokens.update(TOKEN.findall(text))
        if not path.endswith(".antt"):
            continue
        for line in text.splitlines():
            found = DECLARES.match(line)
            if not found or re.search(r":\s+goal\.", line):
                continue
            name = found.group(1)
            if "-" in name and re.match(r"[A-Za-z]", name):
                (in_specs if "/specs/" in path else in_proofs).add(name)
    goals = set()
    for text in texts.values():
        goals.update(re.findall(rf"goal\.([^{ENDS}]+)", text))
    new = {}
    words = {snake(n) for n in in_specs if n[0].islower()} | LIBRARY
    for text in texts.values():
        words.update(re.findall(r"(?m)^(?:abbrev|unfoldable) pub ([a-z][a-z0-9_]*) :", text))
    for name in sorted(in_specs | in_proofs):
        if name in goals:
            continue
        if name[0].isupper():
            new[name] = camel(name)
        elif name in in_specs:
            new[name] = snake(name)
        else:
            new[name] = lemma(name, words).replace("getD", "get_or")
    functions = {n for path, text in texts.items() if path.endswith(".rt") for n in re.findall(r"\bfn (\w+)", text)}
    new = {a: b + "_lem" if a in in_proofs and b in functions else b for a, b in new.items() if a != b}
    clash = [(a, b) for a, b in new.items() if tokens[b] and b not in APART]
    twice = [b for b, n in collections.Counter(new.values()).items() if n > 1]
    for a, b in new.items():
        print(f"{a} -> {b}")
    if clash or twice:
        print("fall together:", clash, twice, file=sys.stderr)
        return 1
    if "--dry" in sys.argv:
        return 0
    for path, text in texts.items():
        if path.endswith(".rt"):
            parts = re.split(r'("(?:[^"\\\n]|\\.)*")', text)
            out = "".join(p if i % 2 else TOKEN.sub(lambda m: new.get(m.group(0), m.group(0)), p) for i, p in enumerate(parts))
        else:
            out = TOKEN.sub(lambda m: new.get(m.group(0), m.group(0)), text)
        if out != text:
            with open(path, "w", encoding="utf-8") as f:
                f.write(out)
    return 0


if __name__ == "__main__":
    raise SystemExit(main())
