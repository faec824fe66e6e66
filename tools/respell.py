#!/usr/bin/env python3
"""Spells this repository's own definitions, lemmas and fields in snake case, after the kit's port.py, which respells only some of them.

usage: python3 tools/respell.py [--check]       at the top of a checkout, once, right after port.py

A name turns if a file of specs/ or proofs/ declares it and it has a hump (`baseFor`) or a dash (`fed-at`): `base_for`, `fed_at`. Types keep their
capitals; humps that begin with a capital stay. Names of functions of src/, exported C names, strings, inputs and outputs are not touched, nor are the
labels that Rattle makes (what a proof file declares at a type `tie.X` or `goal.X`, and what stands behind these two). Two names of one file that would
fall together are said, and one of them gets the name in APART. --check writes nothing.
"""

import os
import re
import sys

# names that would meet another: what they get instead of their plain spelling
APART = {
    "aux-in": "aux_in_lem",
    "counts-fit": "counts_fit_lem",
    "fed-to": "fed_to_lem",
    "header-bytes": "header_bytes_lem",
    "is-kind": "kind_known",
    "lowered-byte": "lowered_byte_lem",
    "merge-no": "merge_no_lem",
    "no-job": "no_job_lem",
    "place-in": "place_in_lem",
    "size-line": "size_line_lem",
    "table-in": "table_in_lem",
    "values-from": "values_from_lem",
    "word-at": "word_at_lem",
    "words-in": "words_in_lem",
    "write-no": "write_no_lem",
}
# the same for two lemmas that port.py spelled like a definition: where they stand and are used
APART_HERE = {"open_no": ("open_no_lem", ("crates/model/proofs/", "crates/merge_job/proofs/")), "word_count": ("word_count_lem", ("crates/image_list/proofs/",))}
# old names of the library in the names of lemmas, with what the library says today
LIBRARY = {"getD": "get_or"}

WORD = re.compile(r'[^\s(){}.;,@"«»`]+')
TOKEN = re.compile(r'"(?:[^"\\\n]|\\.)*"|(?P<word>[^\s(){}.;,@"«»`]+)|.', re.S)
DECL = re.compile(r"(?m)^[ ]*(?:(?:abbrev|unfoldable|pub|record|data|module) )*([^\s(){}:.,;]+)((?: [({][^\n]*)?) :(?= |$)(?! *(?:tie|goal)\.)")
LABEL = re.compile(r"(?m)^[ ]*(?:(?:abbrev|unfoldable|pub) )*([^\s(){}:.,;]+) : (?:tie|goal)\.")


def files(root, ends):
    for d, ds, fs in os.walk(os.path.join(root, "crates")):
        ds[:] = sorted(x for x in ds if x != "out")
        for f in sorted(fs):
            if f.endswith(ends):
                yield os.path.join(d, f)


def read(p):
    with open(p, encoding="utf-8") as f:
        return f.read()


def snake(name):
    for old, new in LIBRARY.items():
        if name.startswith(old + "-"):
            name = new + name[len(old):]
    return re.sub(r"(?<=[a-z0-9])([A-Z])", lambda m: "_" + m[1].lower(), name).replace("-", "_")


def declared(root):
    """Each name that a file of specs/ or proofs/ declares and that is to turn, with its new spelling."""
    table = {}
    for p in files(root, ".antt"):
        text = re.sub(r"(?m)--[^\n]*$", "", read(p))
        labels = set(LABEL.findall(text))
        for m in DECL.finditer(text):
            n = m[1]
            if n in labels or n[0].isupper() or "◌" in n or n.endswith("-spec") or not re.search(r"[a-z0-9][A-Z]|-", n):
                continue
            table[n] = APART.get(n, snake(n))
    return {k: v for k, v in table.items() if k != v}


def crates(root):
    return {c for c in os.listdir(os.path.join(root, "crates"))}


USE = re.compile(r"(?m)^(?:ghost )?use ([^\s{;]+)\.\{([^}]*)\}")


def of_library(text, own):
    """The names that a file has from a library: they stay."""
    out = set()
    for m in USE.finditer(text):
        steps = m[1].split(".")
        if not (steps[0] == "Rattle" and steps[1] in own):
            out |= {w.strip().split(" as ")[-1] for w in m[2].split(",")}
    return out


def turned(text, table, rt, own):
    """The text with each word of the table turned, but for strings and for what stands behind `tie.` and `goal.`."""
    labels = (set(LABEL.findall(text)) if not rt else set()) | of_library(text, own)
    out = []
    for m in TOKEN.finditer(text):
        w = m["word"]
        if w is None or w not in table or w in labels:
            out.append(m[0])
            continue
        before = text[max(0, m.start() - 5) : m.start()]
        out.append(w if before.endswith(("tie.", "goal.")) else table[w])
    return "".join(out)


def main(argv):
    check = "--check" in argv
    root = "."
    table = declared(root)
    own = crates(root)
    bad = 0
    for p in files(root, (".antt", ".rt")):
        text = read(p)
        here = table | {k: v for k, (v, where) in APART_HERE.items() if any(it in p for it in where)}
        code = re.sub(r"(?m)(?:--|//)[^\n]*$", "", text)
        words = set(WORD.findall(code))
        meets = {}
        for w in words:
            meets.setdefault(here.get(w, w), set()).add(w)
        for new, olds in sorted(meets.items()):
            if len(olds) > 1:
                bad += 1
                print(f"meet: {p}: {' and '.join(sorted(olds))} as {new}")
        if not check:
            new = turned(text, here, p.endswith(".rt"), own)
            if new != text:
                with open(p, "w", encoding="utf-8") as f:
                    f.write(new)
    for p in files(root, ".edit"):
        text = read(p)
        new = turned(text, table, True, own)
        if new != text and not check:
            with open(p, "w", encoding="utf-8") as f:
                f.write(new)
    print(f"{len(table)} names turn, {bad} meetings")
    return 0


if __name__ == "__main__":
    raise SystemExit(main(sys.argv[1:]))
