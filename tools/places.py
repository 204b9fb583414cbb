#!/usr/bin/env python3
"""Lists the places of docs/DESIGN-PASS.md in the sources of a commit, point by point.

usage: tools/places.py [COMMIT] [--list]     (no COMMIT: the working tree; --list: each place, not only the counts)

A hit is a line, or a pair of functions, that has the look of an older form. Whether it is one, a reader says: the page
tells which hits are places and which are none.
"""
import difflib
import pathlib
import re
import subprocess
import sys

ROOT = pathlib.Path(__file__).resolve().parent.parent

LINES = {
    "1 numbers for kinds, codes, refusals": [
        r"const [A-Z_0-9]+: u(8|32) = ",
        r"Result<.*, u8>|Before\(u8\)",
        r"\b(op|kind|netlist|number): u8\b",
        r"fn (from_number|value_count)\b",
        r"-> Option<\w*Fault>",
    ],
    "1 sentinels, flags with a value": [
        r"unwrap_or\(0\)|u32::MAX|NOTHING|None => 0|(Ok\((_|\(\))\)|_) => 0,|link != 0|return 0;|, 99\)",
        r"fn \w+\(&mut self.*-> bool",
    ],
    "4 equality, conversion, printing by hand": [
        r"fn (same|same_finding|alike|at_line|at_pair|in_first|in_second|numbered|or_none|number|from_number|copy_findings)\b",
        r"Some\((\w+)\) => Some\(\1 as",
        r"Err\((_|e|fault)\) => Err\(|Ok\((x|h|handle)\) => Ok\(\2\)",
        r"const (BLANK|FRAME|CLEAN|UNCHECKED|EMPTY): ",
    ],
    "6 lengths beside, parallel lists, searches": [
        r"^\s*(pub )?(mask|next|heads|handles|values|findings|found|list|patterns|middle): (Vec<|usize|u32)",
    ],
    "7 steps switched on": [r"TURN\b", r"values == 2"],
}


def tree(commit, folder="src", kind="rt"):
    """The sources, or the proofs: path and text of each."""
    if commit is None:
        paths = sorted(ROOT.glob(f"crates/*/{folder}/**/*.{kind}"))
        return [(str(p.relative_to(ROOT)), p.read_text()) for p in paths]
    git = ["git", "-C", str(ROOT)]
    names = subprocess.run(git + ["ls-tree", "-r", "--name-only", commit, "crates"], capture_output=True, text=True, check=True)
    paths = [n for n in names.stdout.split("\n") if re.search(rf"/{folder}/.*\.{kind}$", n)]
    return [(p, subprocess.run(git + ["show", f"{commit}:{p}"], capture_output=True, text=True, check=True).stdout) for p in paths]


def functions(files):
    """Each function: where it stands, its name, the names of its parameters, the clauses it requires, its body's shape."""
    for path, text in files:
        for m in re.finditer(r"^( *)(?:pub(?:\([a-z]+\))? )?fn (\w+)(.*?)^\1\}", text, re.S | re.M):
            whole = m.group(3)
            head, _, body = whole.partition("\n" + m.group(1) + "{\n")
            if not body:
                head, _, body = whole.partition("{")
            signature = re.split(r"\n\s*(?:requires|ensures)", head)[0]
            params = set(re.findall(r"[(,]\s*(?:mut )?&?(?:mut )?(\w+)(?=:|[,)])", signature)) - {"self"}
            needs = re.findall(r"requires(?: \w+)? (\{.*\})$", head, re.M)
            words = re.findall(r'b?"[^"]*"|\w+|[^\w\s]', body)
            shape = [w if re.match(r"[^\w]|(match|if|else|return|for|in|let|while|Ok|Err|Some|None)$", w) else "N" if w[0].isdigit() else "S" if '"' in w else "I" for w in words]
            line = text[: m.start()].count("\n") + 1
            yield f"{path}:{line}", m.group(2), params, needs, shape, words


def loops(files):
    """Loops that count by hand: a `while`, a counter that is stepped, a sequence indexed by the loop's own number, a
    filling with one value."""
    for path, text in files:
        lines = text.split("\n")
        for number, line in enumerate(lines):
            m = re.match(r"( *)(while|loop|for)\b(.*)\{$", line)
            if not m:
                continue
            end = next((i for i in range(number + 1, len(lines)) if lines[i].startswith(m.group(1) + "}")), number)
            body = "\n".join(lines[number + 1 : end])
            ranged = re.match(r" (?:mut )?(\w+) in .*\.\.", m.group(3))
            counted = re.match(r" \((\w+), .*enumerate\(\)", m.group(3))
            index = (ranged or counted) and (ranged or counted).group(1)
            stepped = re.search(r"^\s*(?:(\w+) [-+]= |(\w+) = \2\.wrapping_add\(|(from_\w+) = |(end) = )", body, re.M)
            if m.group(2) != "for" or (index and re.search(r"\[[^\]\n]*\b" + index + r"\b[^\]\n]*\]", body)) or stepped or re.fullmatch(r"\s*\*\w+ = [\w:]+;", body):
                yield f"{path}:{number + 1}: {line.strip()}"


def twins(files):
    """Pairs of functions whose bodies have one shape, or nearly, and share most words."""
    all_of = [f for f in functions(files) if len(f[4]) >= 20]
    for i, a in enumerate(all_of):
        for b in all_of[i + 1 :]:
            if abs(len(a[4]) - len(b[4])) > 0.5 * max(len(a[4]), len(b[4])):
                continue
            shape = difflib.SequenceMatcher(None, a[4], b[4], autojunk=False)
            if shape.quick_ratio() < 0.75 or shape.ratio() < 0.75:
                continue
            words = difflib.SequenceMatcher(None, a[5], b[5], autojunk=False).ratio()
            if words >= 0.7:
                yield f"{a[0]} {a[1]}", f"{b[0]} {b[1]}"


def families(files):
    """The functions of these pairs, those that hang together as one family."""
    found = []
    for pair in twins(files):
        joined = [f for f in found if f & set(pair)]
        found = [f for f in found if not f & set(pair)] + [set(pair).union(*joined)]
    for family in sorted(map(sorted, found)):
        yield "; ".join(family)


def together(files):
    """Facts that three or more functions require, and parameters that five or more take together."""
    facts, groups = {}, {}
    for where, name, params, needs, _, _ in functions(files):
        for need in needs:
            need = re.sub(r"\b(self|table)\.(old|now)\b", "T", need)
            facts.setdefault(need, []).append(f"{where} {name}")
        for group in (("table", "algebra", "memo", "rows"), ("algebra", "codes"), ("op", "x", "y"), ("first", "second"), ("book", "table", "algebra"), ("dice", "frame"), ("out", "at")):
            if params.issuperset(group):
                groups.setdefault(", ".join(group), []).append(f"{where} {name}")
    for fact, users in facts.items():
        if len(users) >= 3:
            yield f"{fact}: {len(users)}", users
    for group, users in groups.items():
        if len(users) >= 3:
            yield f"parameters {group}: {len(users)}", users


def main():
    words = [w for w in sys.argv[1:] if w != "--list"]
    listed = "--list" in sys.argv
    files = tree(words[0] if words else None)
    for point, patterns in LINES.items():
        hits = []
        for path, text in files:
            for number, line in enumerate(text.split("\n"), 1):
                if line.lstrip().startswith("//") or "ghost" in line:
                    continue
                if any(re.search(p, line) for p in patterns):
                    hits.append(f"{path}:{number}: {line.strip()}")
        print(f"point {point}: {len(hits)}")
        if listed:
            print("".join(f"    {h}\n" for h in hits), end="")
    for point, hits in (("3 loops that count by hand", list(loops(files))), ("2 families of like functions", list(families(files)))):
        print(f"point {point}: {len(hits)}")
        if listed:
            print("".join(f"    {h}\n" for h in hits), end="")
    groups = list(together(files))
    print(f"point 5 facts and parameters together: {len(groups)}")
    for group, users in groups:
        print(f"    {group}")
        if listed:
            print("".join(f"        {u}\n" for u in users), end="")
    proofs = tree(words[0] if words else None, "proofs", "antt")
    print(f"point 8 files of proofs: {len(proofs)}, lines: {sum(text.count(chr(10)) for _, text in proofs)}")


main()
