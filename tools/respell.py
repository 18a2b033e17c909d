#!/usr/bin/env python3
"""Brings the repository's own definitions, lemmas and local names in specs/ and proofs/ to the kit's spelling.

usage: python3 tools/respell.py            at the top of the repository, once, right after the kit's port.py

Words are in snake case and types in upper camel case: row-named -> row_named, Law-holds -> LawHolds, rowOf -> row_of.
Names that Rattle makes for goals and steps, and names of the library, keep their dashes. Functions of src/, strings,
comments of source files, inputs and outputs are left alone. It prints the names that would fall together,
and writes each renaming to /tmp/respelled.tsv; docs/PORT.md has those that follow no plain rule.
"""
import os
import re
import sys

WORD = r"[^\s(){}\[\];,.:=«»@\"\\◌]+"
TOKEN = re.compile(r"--(?=\s|$|-)[^\n]*|\"(?:\\.|[^\"\\\n])*\"|«[^»]*»|" + WORD)
IDENT = re.compile(r"^[A-Za-z][A-Za-z0-9_'ℕℤ₀-₉]*(?:-[A-Za-z0-9_'ℕℤ]+)*$")
KIT = os.environ.get("RATTLE_KIT", "/opt/rattle/rattle")
# Modules that Rattle makes of a function: what is imported from them keeps its name.
MADE = r"(?:Goals|Given|Invariants|Answers|Tie|Code|Met|Reads|Statement|Kinds)"
# A fact that stands first in a lemma's name keeps its capital and the dash behind it.
FACTS = ("All-", "Decides-")
# Where a word would be that of something else in the same place.
SPECIAL = {"holder-alike": "HolderAlike", "deliverable-alike": "DeliverableAlike"}


def files(root, ends):
    for folder, dirs, names in os.walk(os.path.join(root, "crates")):
        dirs[:] = sorted(d for d in dirs if d not in ("out", "data"))
        for name in sorted(names):
            if name.endswith(ends):
                yield os.path.join(folder, name)


def read(path):
    with open(path, encoding="utf-8") as f:
        return f.read()


def needs(name):
    return IDENT.match(name) and ("-" in name or re.match(r"^[a-z][a-z0-9']*[A-Z]", name) or re.match(r"^[A-Z]\w*_", name))


def respelled(name):
    if name in SPECIAL:
        return SPECIAL[name]
    if name.startswith(FACTS):
        return name
    if name[0].isupper():
        parts = re.split(r"[-_]", name)
        return "".join(p[:1].upper() + p[1:] for p in parts)
    name = name.replace("-", "_")
    return re.sub(r"(?<=[a-z0-9])([A-Z])", lambda m: "_" + m.group(1).lower(), name)


def imports(text):
    """Yields each imported name with its module, and its alias."""
    for m in re.finditer(r"(?m)^\s*(?:pub )?(?:ghost )?use ([A-Za-z][^\s{;]*?)\.\{([^}]*)\}", text):
        for it in m.group(2).split(","):
            words = it.split()
            if words:
                yield m.group(1), words[0], (words[2] if len(words) == 3 else None)


def pages(root):
    for folder in (root, os.path.join(root, "docs")):
        for name in sorted(os.listdir(folder)):
            if name.endswith(".md"):
                yield os.path.join(folder, name)


def in_backticks(text, new):
    """Respells the names that stand in backticks."""
    return re.sub(r"`([^`\n]*)`", lambda m: "`" + TOKEN.sub(lambda w: new.get(w.group(), w.group()), m.group(1)) + "`", text)


def in_comments(text, new):
    return re.sub(r"(?m)(?:--|//) [^\n]*$", lambda m: in_backticks(m.group(), new), text)


def plain_all(text):
    """The library's `All` goes by index today; the one by recursion, which the files mean, is called by its own name."""
    if "AllByRecursion as All" not in text:
        return text
    text = text.replace("AllByRecursion as All", "AllByRecursion")
    return TOKEN.sub(lambda m: "AllByRecursion" if m.group() == "All" else m.group(), text)


def main(root):
    own = set(os.listdir(os.path.join(root, "crates")))
    antt = {p: read(p) for p in files(root, ".antt")}
    rt = {p: read(p) for p in files(root, ".rt")}
    foreign, made = set(), {}
    for p, text in {**antt, **rt}.items():
        made[p] = set(re.findall(r"\bgoal\.(%s)" % WORD, text))
        for module, name, alias in imports(text):
            parts = module.split(".")
            if parts[0] != "Rattle" or parts[1] not in own:
                foreign.add(name)
            elif re.search(r"\.proofs\..*\." + MADE + "$", module):
                made[p].add(name)
    declared = set()
    for p, text in antt.items():
        for m in re.finditer(r"(?m)^\s*(?:abbrev |unfoldable |ruleset |data |record |pub )*(" + WORD + r") :(?= )", text):
            if m.group(1) not in made[p]:
                declared.add(m.group(1))
        for m in re.finditer(r"(?m)^\s*(?:pub )*(?:record|data|ruleset) (" + WORD + r")", text):
            declared.add(m.group(1))
        for m in re.finditer(r"\| (" + WORD + r") :", text):
            declared.add(m.group(1))
    # Ghost members and ghost fields of the sources are reached by a dot too.
    for text in rt.values():
        declared.update(re.findall(r"(?m)^ *ghost (\w+)(?=:| =)", text))
    new = {}

    def turn(path, text, ghost):
        out, at = [], 0
        for m in TOKEN.finditer(text):
            w = m.group()
            out.append(text[at:m.start()])
            at = m.end()
            before = text[m.start() - 1:m.start()]
            keep = not needs(w) or w in made[path] or w in foreign
            if not keep and before == ".":
                keep = w not in declared
            if not keep and not ghost(m.start()):
                keep = True
            if keep:
                out.append(w)
            else:
                new[w] = respelled(w)
                out.append(new[w])
        out.append(text[at:])
        return "".join(out)

    said = {}
    for p, text in antt.items():
        said[p] = turn(p, text, lambda i: True)
    for p, text in rt.items():
        spans = [m.span() for m in re.finditer(r"(?m)^ *(?:ghost use [^;]*;|(?:ghost|requires|ensures)\*?(?: \w+)?:? \{[^\n]*\}(?=[;\n]|$)|ghost \w+ = [^\n]*;|ghost \w+: [^\n]*,?$)", text)]
        said[p] = turn(p, text, lambda i: any(a <= i < b for a, b in spans))
    before = set()
    for p, text in {**antt, **rt}.items():
        before |= {m.group() for m in TOKEN.finditer(text)}
    groups = {}
    for old, it in new.items():
        groups.setdefault(it, set()).add(old)
    for it, olds in sorted(groups.items()):
        if len(olds) > 1:
            print("fall together:", it, sorted(olds))
        if it in before:
            print("stood already:", it, sorted(olds))
    for p in pages(root):
        text = read(p)
        turned = in_backticks(text, new)
        if turned != text:
            with open(p, "w", encoding="utf-8") as f:
                f.write(turned)
    for p, text in said.items():
        text = plain_all(text)
        said[p] = re.sub(r"([{, ])(\w+) as \2(?=[,}])", r"\1\2", in_comments(text, new))
    for p, text in said.items():
        if text != {**antt, **rt}[p]:
            with open(p, "w", encoding="utf-8") as f:
                f.write(text)
    with open("/tmp/respelled.tsv", "w") as f:
        for old in sorted(new):
            if new[old] != old:
                f.write(f"{old}\t{new[old]}\n")
    print(len([o for o in new if new[o] != o]), "names respelled; the list: /tmp/respelled.tsv")


if __name__ == "__main__":
    main(sys.argv[1] if len(sys.argv) > 1 else ".")
