#!/usr/bin/env python3
"""Spells this repository's own definitions and lemmas as today's Rattle does, after port.py.

usage: python3 tools/respell.py            at the top of the repository, once, with everything committed
       python3 tools/respell.py --check    says what would be turned, and writes nothing

A name that specs/ or proofs/ declares, or an import gives, and that has a dash gets underscores, or is joined in camel case if it begins with a
capital, as a fact or a type does. OTHERS has the facts that began with a small letter. Whole words turn: in .antt files
the code and a comment's code spans, in .rt files all but strings and the rest of comments. A name that Rattle makes stays:
the first one behind `c.`, `w.`, `l.` or `goal.` in the files of a function's proof, and what those files declare at a goal.
The script stops, with nothing written, where a new name meets another name of a file.
"""

import collections
import os
import re
import sys

NAME = r'[^\s(){}.;,@"«»]+'
DECLARED = re.compile(
    rf'(?m)^ *(?:(?:pub|abbrev|unfoldable) )*(?:(?:data|record) )?(?:pub )?({NAME})(?: [({{][^(){{}}]*(?:\([^()]*\)[^(){{}}]*)*[)}}])*(?:[^\S\n]+where)? : *(\S*)'
)
IMPORTED = re.compile(r"use ([^\s;{]+)\.\{([^}]*)\}")
OTHERS = {"told-full": "ToldFull"}
# Beside a Rust function of that name, or as a field of another record: nothing is taken for the other.
MAY_MEET = {"in_first", "in_second", "side_on", "under_mark", "bytes_needed", "low_other", "high_other"}
HEADS = ("c", "w", "l", "goal")
OF_A_PROOF = re.compile(r"/proofs/.*(Answers|Invariants)\.antt$")
LIBRARY = re.compile(r"Rattle\.std\b|Prim\b|native\b|lib\b|borrow\b|mathlib\b|denote\b")


def files(root):
    for folder, dirs, names in os.walk(os.path.join(root, "crates")):
        dirs[:] = sorted(d for d in dirs if d != "out")
        for name in sorted(names):
            if name.endswith((".antt", ".rt")):
                yield os.path.join(folder, name)


def spelled(name):
    if name in OTHERS:
        return OTHERS[name]
    if name[0].isupper():
        return "".join(part[:1].upper() + part[1:] for part in name.split("-"))
    return name.replace("-", "_")


def table(texts):
    declared, library = collections.defaultdict(set), set()
    for path, text in texts.items():
        for path_used, names in IMPORTED.findall(text):
            if LIBRARY.match(path_used) or path_used.endswith((".Goals", ".Given")):
                library.update(n.strip().split(" as ")[0] for n in names.split(","))
            for item in names.split(","):
                given = item.strip().split(" as ")[-1]
                if " as " in item and "-" in given:
                    declared[given].add(path)
        if not path.endswith(".antt"):
            continue
        for name, sort in DECLARED.findall(text):
            if not sort.startswith("goal."):
                declared[name].add(path)
    turned = {n: spelled(n) for n in declared if ("-" in n or n in OTHERS) and re.match(r"\w", n)}
    for name in sorted(set(turned) & library):
        print(f"left: {name}, which a library or a goal has too")
        del turned[name]
    return {old: new for old, new in turned.items() if old != new}


CODE_SPAN = re.compile(r"`[^`\n]*`")


def turn(path, text, names):
    of_a_proof = bool(OF_A_PROOF.search(path))
    word = re.compile(r"[^\s(){}.;,@\"«»`]+")

    def words(piece, base):
        def one(m):
            name = m[0]
            if name not in names:
                return name
            if of_a_proof:
                before = text[max(0, base + m.start() - 40) : base + m.start()]
                head = re.search(r"(?<![\w.'-])([\w'-]+)\.$", before)
                if head and head[1] in HEADS:
                    return name
            return names[name]

        return word.sub(one, piece)

    comment = "--" if path.endswith(".antt") else "//"
    cut = re.compile(
        r'"(?:\\.|[^"\\])*"|(?<![^\s(){}.;,@"«»])' + comment + r"[^\n]*", re.S
    )
    out, at = [], 0
    for m in cut.finditer(text):
        out.append(words(text[at : m.start()], at))
        if m[0].startswith('"'):
            out.append(m[0])
        else:
            out.append(CODE_SPAN.sub(lambda s: word.sub(lambda n: names.get(n[0], n[0]), s[0]), m[0]))
        at = m.end()
    out.append(words(text[at:], at))
    return "".join(out)


def clashes(texts, names):
    """New names that a file has already beside the old one, or that two old names of a file share."""
    found = []
    word = re.compile(r"[^\s(){}.;,@\"«»`]+")
    for path, text in texts.items():
        there = set(word.findall(text))
        met = collections.defaultdict(set)
        for old, new in names.items():
            if old in there:
                met[new].add(old)
        for new, olds in met.items():
            if len(olds) > 1 or new in there and new not in MAY_MEET:
                found.append((path, new, sorted(olds)))
    return found


def main():
    texts = {}
    for path in files("."):
        with open(path, encoding="utf-8", newline="") as f:
            texts[path] = f.read()
    names = table(texts)
    found = clashes(texts, names)
    for path, new, olds in found:
        print(f"met: {path}: {', '.join(olds)} would meet {new}")
    if "--check" in sys.argv:
        for old, new in sorted(names.items()):
            print(f"{old}\t{new}")
        return
    if found:
        raise SystemExit("respell: nothing was written")
    count = 0
    for path, text in texts.items():
        new = turn(path, text, names)
        if new != text:
            count += 1
            with open(path, "w", encoding="utf-8", newline="") as f:
                f.write(new)
    print(f"respell: {len(names)} names, {count} files")


main()
