#!/usr/bin/env python3
"""Lists the places of src/ that the design pass looks at, by patterns over the text.

usage: tools/design_places.py [--at COMMIT] [POINT..]   lists them, or with --count only how many there are

A pattern finds candidates: docs/DESIGN-PASS.md says of each whether it is a place, and what became of it.
"""
import re
import subprocess
import sys
from collections import defaultdict


def sources(commit):
    """The text of each file of src/, at a commit or as it stands."""
    if commit:
        names = subprocess.run(["git", "ls-tree", "-r", "--name-only", commit, "crates"], capture_output=True,
                               text=True, check=True).stdout.split()
    else:
        names = subprocess.run(["git", "ls-files", "crates"], capture_output=True, text=True, check=True).stdout.split()
    texts = {}
    for name in sorted(names):
        if not re.match(r"crates/\w+/src/.*\.rt$", name):
            continue
        if commit:
            texts[name] = subprocess.run(["git", "show", f"{commit}:{name}"], capture_output=True, text=True,
                                         check=True).stdout
        else:
            texts[name] = open(name, encoding="utf-8").read()
    return texts


def bare(text):
    """The text without comments, clauses and ghost lines, line by line."""
    lines = []
    for line in text.split("\n"):
        if re.match(r"\s*(//|ghost |requires|ensures)", line):
            lines.append("")
        else:
            lines.append(line)
    return "\n".join(lines)


def found(texts, pattern, flags=0):
    """Where the pattern stands in code: file, line, text."""
    for name, text in texts.items():
        code = bare(text)
        for m in re.finditer(pattern, code, flags):
            line = code.count("\n", 0, m.start()) + 1
            yield name, line, " ".join(m.group(0).split())[:110]


def functions(text):
    """Each function's name, its parameters by name, and its clauses."""
    for m in re.finditer(r"^( *)(?:pub(?:\([a-z]+\))? )?(?:final )?fn (\w+)(?:<[^(]*>)?\(", text, re.M):
        depth, at = 1, m.end()
        while depth and at < len(text):
            depth += {"(": 1, ")": -1}.get(text[at], 0)
            at += 1
        params = re.findall(r"(?:mut )?(\w+):", re.sub(r"<[^<>]*>", "", text[m.end():at]))
        rest = text[at:]
        end = re.search(r"^" + m.group(1) + r"[{}]|;$", rest, re.M)
        clauses = re.findall(r"^\s*(?:requires|ensures) (?:\w+ )?\{ (.*) \}", rest[: end.start() if end else None], re.M)
        yield m.group(2), text.count("\n", 0, m.start()) + 1, params, clauses


def point1(texts):
    yield from found(texts, r"\b\w+: bool\b")
    yield from found(texts, r"-> Option<\w*(?:Cause|Fault|Part)>")
    yield from found(texts, r"(?:Ok\([^)]*\)+|Err\(\w+\)|Some\(\w+\)|None|Err\(_\)) => (?:Ok|Err|Some|None|0\b|[A-Z]\w+::NONE)[^,\n]*")
    yield from found(texts, r"if let (?:Some|Err)\((?:fault|part)\)[^}]*return Err", re.S)
    yield from found(texts, r"\w+::\w+(?:\(_\))? => \d+,")
    for name, text in texts.items():
        for m in re.finditer(r"// .*(?:; 0 (?:where|for)|, or 0\b|\(0 for).*", text):
            yield name, text.count("\n", 0, m.start()) + 1, m.group(0)[:110]


def point2(texts):
    made = defaultdict(list)
    for name, text in texts.items():
        for m in re.finditer(r"const (\w+): [^=]*= [^;]*;", text):
            made[m.group(1)].append((name, text.count("\n", 0, m.start()) + 1, m.group(0)))
        for fn, line, _, _ in functions(text):
            if fn not in ("main", "new", "number", "fmt", "from", "run", "play"):
                made["fn " + fn].append((name, line, "fn " + fn))
    for places in made.values():
        if len(places) > 1:
            yield from places


def point3(texts):
    yield from found(texts, r"for \w+ in [^{\n]*\.\.[^{\n]*\{")
    yield from found(texts, r"while [^{]*\{")
    yield from found(texts, r"\w+ \+= 1;")
    yield from found(texts, r"for \(\w+, \w+\) in [^{]*enumerate\(\)[^{]*\{")
    yield from found(texts, r"for \w+ in [^{]*\{\s*if [^{]*\{\s*return (?:true|false|None|Some)[^}]*\}", re.S)


def point4(texts):
    yield from found(texts, r"[\w.)\]]+ as [ui](?:8|16|32|64|128|size)\b")
    yield from found(texts, r"println!\(rt;\s*\"[^\"]*\"", re.S)
    yield from found(texts, r"fn (?:same\w*|stands_before|copied|number_of|is_first|takes_notices)\b")


def point5(texts):
    crates = defaultdict(list)
    for name, text in texts.items():
        for fn, line, params, clauses in functions(text):
            crates[name.split("/")[1]].append((name, line, fn, params, clauses))
    for crate, fns in sorted(crates.items()):
        groups = defaultdict(list)
        for name, line, fn, params, _ in fns:
            for other in fns:
                both = tuple(p for p in params if p in other[3])
                if len(both) >= 3:
                    groups[both].append((name, line, fn))
        for both, where in sorted(groups.items(), key=lambda g: -len(g[0])):
            names = sorted(set(w[2] for w in where))
            if len(names) >= 3:
                yield where[0][0], where[0][1], f"({', '.join(both)}) in {len(names)}: {', '.join(names)}"
        facts = defaultdict(set)
        for name, line, fn, _, clauses in fns:
            for clause in clauses:
                facts[clause].add(fn)
        for clause, names in sorted(facts.items()):
            if len(names) >= 3:
                yield f"crates/{crate}/src", 0, f"{{ {clause[:70]} }} in {len(names)}: {', '.join(sorted(names))}"


def point6(texts):
    yield from found(texts, r"\w+: (?:&'?\w* ?(?:mut )?)?\[[\w:]+; [\w:]+\]")
    yield from found(texts, r"\b(?:len|count|made): usize\b")
    yield from found(texts, r"= \[[^;\]]+; \w+\];")


def point7(texts):
    yield from found(texts, r"\b(?:measure|party|equal|to|stage|side): (?:Measure|Party|bool|Stage|Side)\b")
    yield from found(texts, r"\bfn\([^)]*\) ->|\bdyn ")


POINTS = {"1": point1, "2": point2, "3": point3, "4": point4, "5": point5, "6": point6, "7": point7}


def main(args):
    commit = args[args.index("--at") + 1] if "--at" in args else None
    wanted = [a for a in args if a in POINTS] or sorted(POINTS)
    texts = sources(commit)
    for point in wanted:
        places = list(dict.fromkeys(POINTS[point](texts)))
        print(f"point {point}: {len(places)}")
        if "--count" not in args:
            for name, line, text in places:
                print(f"  {name}:{line}: {text}")


if __name__ == "__main__":
    main(sys.argv[1:])
