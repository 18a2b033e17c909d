#!/usr/bin/env python3
"""Turns the names that an older Rattle made for goals, steps and labels, in proofs/, to this one's.

usage: python3 tools/goal_names.py [CRATE..]     at the top of the repository, once, after tools/respell.py

A name of the source keeps its spelling in them:
c.take-line.ensures.refused-moves-nothing -> c.take_line.ensures.refused_moves_nothing.
"""
import os
import re
import sys

WORD = r"[^\s(){}\[\];,.:=«»@\"\\◌·]+"
TOKEN = re.compile(r"--(?=\s|$|-)[^\n]*|\"(?:\\.|[^\"\\\n])*\"|«[^»]*»|" + WORD)
IMPORT = re.compile(r"(?m)^\s*(?:pub )?use ([A-Za-z][^\s{;]*?)\.\{([^}]*)\}")
# Methods of std that are called here, and the words that Rattle makes of several parts.
KNOWN = """split_at saturating_sub saturating_add as_slice is_empty unsigned_abs checked_add checked_sub checked_mul
 copy_from_slice is_some is_none is_ok is_err unwrap_or as_mut_slice split_first split_last wrapping_add get_mut iter_mut
 is_ascii_digit abs_diff as_bytes from_residual type_inv well_formed overflow_add overflow_sub overflow_mul overflow_cast
 overflow_shl overflow_shr overflow_step overflow_neg nonzero_div nonzero_rem slice_bounds offset_bounds invariant_of
 in_default In_default in_err In_err in_ok In_ok no_deeper yielded_by row_known shared_slice_known""".split()


def files(root, end):
    for folder, dirs, names in os.walk(os.path.join(root, "crates")):
        dirs[:] = sorted(d for d in dirs if d not in ("out", "data"))
        for name in sorted(names):
            if name.endswith(end):
                yield os.path.join(folder, name)


def read(path):
    with open(path, encoding="utf-8") as f:
        return f.read()


def source_words(root):
    """The words of the sources that have an underscore, by their dashed form, the longest first."""
    words = set(KNOWN)
    for path in files(root, ".rt"):
        words.update(re.findall(r"\b[A-Za-z]\w*_\w+\b", re.sub(r"//[^\n]*", "", read(path))))
    return sorted(((w.replace("_", "-"), w) for w in words if "_" in w.strip("_")), key=lambda it: -len(it[0]))


def imported(texts, own):
    """What is imported from the library or from specs/: those names are not Rattle's own."""
    names = set()
    for text in texts:
        for module, items in IMPORT.findall(text):
            if not module.startswith("Rattle.") or module.split(".")[1] not in own or ".specs." in module:
                names.update(it.split()[-1] for it in items.split(",") if it.split())
    return names


def main(root, crates):
    own = set(os.listdir(os.path.join(root, "crates")))
    table = source_words(root)
    texts = {path: read(path) for path in files(root, ".antt")}
    foreign = imported(texts.values(), own)
    known = {}

    def turned(word):
        if word not in known:
            new = word
            for dashed, plain in table:
                if dashed in new:
                    new = re.sub(r"(?<![A-Za-z0-9_])" + re.escape(dashed) + r"(?![A-Za-z0-9_])", plain, new)
            known[word] = new
        return known[word]

    def token(m):
        word = m.group()
        made = "-" in word and re.match(r"[A-Za-z+]", word) and word not in foreign
        return turned(word) if made else word

    count = 0
    for path, text in texts.items():
        parts = os.path.relpath(path, root).split(os.sep)
        if "proofs" not in parts or crates and parts[1] not in crates:
            continue
        new = re.sub(r"(\b[\w-]+)·(\d+)", r"\1-\2", TOKEN.sub(token, text)).replace("invariant-of-", "invariant_of-")
        if new != text:
            count += 1
            with open(path, "w", encoding="utf-8") as f:
                f.write(new)
    print(count, "files turned")


if __name__ == "__main__":
    main(".", sys.argv[1:])
