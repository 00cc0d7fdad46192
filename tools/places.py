#!/usr/bin/env python3
"""places.py [POINT..]: lists the places in crates/*/src at which an older form of the language may stand, a line for each, and counts them.

The points are those of docs/DESIGN-PASS.md. It goes by text, so a place that it lists is one to look at, and no verdict.
"""
import collections
import glob
import os
import re
import sys

os.chdir(os.path.join(os.path.dirname(os.path.abspath(__file__)), ".."))
FILES = sorted(glob.glob("crates/*/src/**/*.rt", recursive=True))


def code(path):
    """The lines of a file without comments and contracts, each with its number."""
    depth, lines = 0, []
    for number, line in enumerate(open(path, encoding="utf-8"), 1):
        line = re.sub(r"//.*", "", line.rstrip("\n"))
        if depth or re.match(r"\s*(pub )?(ghost|ensures|requires)\b", line):
            depth += line.count("{") - line.count("}")
            line = ""
        lines.append((number, line))
    return lines


def matching(pattern, but=None):
    for path in FILES:
        for number, line in code(path):
            if re.search(pattern, line) and not (but and re.search(but, line)):
                yield f"{path}:{number}: {line.strip()}"


def functions():
    """Each function: where it stands, its name, its parameters, the clauses of its contract, its body."""
    for path in FILES:
        text = open(path, encoding="utf-8").read()
        for found in re.finditer(r"^( *)(?:pub(?:\(crate\))? )?(?:extern \"C\" )?fn (\w+)([^{;]*)", text, re.M):
            end = re.compile(r"^%s\}" % found[1], re.M).search(text, found.end())
            whole = text[found.start() : end.end()] if end else found[0]
            clauses = re.findall(r"^\s*(?:ensures|requires) (?:\w+ )?(\{.*\})$", whole, re.M)
            body = re.split(r"^%s\{$" % found[1], whole, maxsplit=1, flags=re.M)
            head = re.split(r"\n\s*(?:ensures|requires)", found[3])[0]
            line = text.count("\n", 0, found.start()) + 1
            yield f"{path}:{line}", found[2], head, clauses, body[1] if len(body) == 2 else ""


def shape(body):
    """A body's tokens, where names, numbers and text are all alike."""
    body = re.sub(r"//.*", "", body)
    tokens = re.findall(r'"[^"]*"|\w+|[^\w\s]', body)
    words = "if else match for in while loop let return mut self Some None Ok Err".split()
    return " ".join(t if not re.match(r'\w|"', t) or t in words else "_" for t in tokens)


def twins():
    by = collections.defaultdict(list)
    for where, name, _, _, body in functions():
        form = shape(body)
        if form.count(" ") >= 4:
            by[form].append(f"{where} {name}")
    for group in by.values():
        if len(group) > 1:
            yield " ~ ".join(group)


def clauses():
    by = collections.defaultdict(set)
    for where, name, _, facts, _ in functions():
        for fact in facts:
            by[fact].add(f"{where} {name}")
    for fact, names in by.items():
        if len(names) >= 3:
            yield f"{fact} in {len(names)} functions"


def travelling():
    by = collections.defaultdict(set)
    for where, name, head, _, _ in functions():
        if head.startswith("<"):
            depth = 0
            for i, letter in enumerate(head):
                depth += {"<": 1, ">": -1}.get(letter, 0) if head[i - 1 : i + 1] != "->" else 0
                if depth == 0:
                    head = head[i + 1 :]
                    break
        inside = head[head.find("(") + 1 : head.rfind(")")]
        names = frozenset(re.sub(r"\s+", " ", p).strip() for p in re.findall(r"\b\w+: [^,]+", inside))
        for other in list(by) + [names]:
            both = names & other
            if len(both) >= 2:
                by[both].add(f"{where} {name}")
        for both in by:
            if both <= names:
                by[both].add(f"{where} {name}")
    for both, names in by.items():
        if len(names) >= 3:
            yield f"{', '.join(sorted(both))} in {len(names)} functions: {' '.join(sorted(names))}"


POINTS = {
    "1": lambda: [
        *matching(r"\benum \w+"),
        *matching(r"\bbool\b", r"-> bool"),
        *matching(r"^\s+\w+\(u8\),|-> (Option<)?u8\b"),
        *matching(r"unreachable\(\)"),
    ],
    "2": lambda: list(twins()),
    "3": lambda: [*matching(r"\bfor \w+ in [^{]*\.\."), *matching(r"\b(while|loop)\b"), *matching(r"\w\[([a-z]\w*|self\.\w+|\d)\]")],
    "4": lambda: [
        *matching(r"fn (eq|cmp|partial_cmp|clone|copy_from|number|shown|fmt|from|(from|as|to|reply)_\w+)\b"),
        *matching(r"Some\((\w+)\) => Some\(|None => None\b|get\(\) == "),
    ],
    "5": lambda: [*clauses(), *travelling()],
    "6": lambda: [
        *matching(r"^    (pub(\(crate\))? )?\w+: (\[\w+; \w+\]|Vec<|VecDeque<|ArrayVec<|&'a (mut )?\[)"),
        *matching(r"\.remove\(0\)"),
    ],
    "7": lambda: [*matching(r"^\s+\w+::\w+\(\w+\) => .*\w\("), *matching(r'^\s+"\w+" => '), *matching(r"\bdyn \w|: fn\(")],
    "8": lambda: [
        f"{path}: {sum(1 for _ in open(path, encoding='utf-8'))} lines" for path in sorted(glob.glob("crates/*/proofs/**/*.antt", recursive=True))
    ],
}

for point in sys.argv[1:] or POINTS:
    found = POINTS[point]()
    print("\n".join(found))
    print(f"point {point}: {len(found)} places\n")
