#!/usr/bin/env python3
"""Brings this repository's own definitions and lemmas to snake case, after port.py, once.

usage: python3 tools/respell.py [--dry]      at the top of the checkout

A name that a file of specs/ or proofs/ declares, with a dash or a capital inside, becomes a word in snake case:
`first-from` and `firstFrom` become `first_from`. Types and modules keep their camel case, and names of Rattle source,
strings and what the toolchain makes keep theirs. Where a definition and a lemma would fall together, the lemma ends in
`_lem`, but for those that port.py had spelled so before. A name that the library has, too, with the same dash stays as
it is.
"""

import glob
import os
import re
import sys

KIT = os.path.dirname(os.path.dirname(os.popen("rt doc").read().strip())) + "/rattle/rattle"
TOKEN = re.compile(r"[^\s(){}\[\]:;,.\"«»@`λ]+")
CAMEL = re.compile(r"[a-z][A-Za-z0-9₀-₉']*[A-Z]")
# Names that a lemma has in snake case already, and that a definition gets: the lemma gives way. The files are those that know the lemma.
GIVE_WAY = {
    "is_read": ("crates/scans/proofs",),
    "live_at": ("crates/lookup/proofs",),
    "no_room": ("crates/ducklake/proofs",),
    "none_above": ("crates/soundness/proofs",),
    "in_order": ("crates/soundness_deletes/proofs",),
    "same_answer": ("crates/ducklake/proofs",),
    "column_fits": ("crates/ducklake/proofs",),
    "has_room": ("crates/catalog_fresh/proofs/Lent",),
    "first_next": ("crates/lists/proofs/Merges", "crates/expiry/proofs/Merged", "crates/row_deletion/proofs/Merging"),
}

def own_files():
    for pattern in ("crates/*/specs/**/*.antt", "crates/*/proofs/**/*.antt"):
        yield from sorted(glob.glob(pattern, recursive=True))


def read(path):
    with open(path, encoding="utf-8") as f:
        return f.read()


def code(text):
    """The text without comments."""
    return re.sub(r"(?m)(^|\s)--( .*|$)", r"\1", text)


def kit_names():
    found = set()
    for folder, _, files in os.walk(KIT):
        for f in files:
            if f.endswith(".antt"):
                for t in TOKEN.findall(read(os.path.join(folder, f))):
                    if "-" in t:
                        found.add(t)
    return found


def snake(name):
    name = name.replace("-", "_")
    return re.sub(r"(?<=[a-z0-9₀-₉'])([A-Z])", lambda m: "_" + m.group(1).lower(), name)


def declared():
    """Words with a dash or a capital inside that stand in code, not behind a dot: declared, bound or imported."""
    dashed, camel, plain = set(), set(), set()
    for path in own_files():
        text = code(read(path))
        for m in TOKEN.finditer(text):
            t = m.group(0)
            if not re.fullmatch(r"[a-z][A-Za-z0-9₀-₉'-]*(_[A-Za-z0-9₀-₉'-]+)*", t):
                continue
            dotted = m.start() > 0 and text[m.start() - 1] == "."
            if "-" in t:
                if not dotted:
                    dashed.add(t)
            elif CAMEL.match(t):
                camel.add(t)
        for m in re.finditer(r"^\s*(?:pub\s+|unfoldable\s+|abbrev\s+)*([a-z][a-z0-9_₀-₉']*)\s*:\s", text, re.M):
            plain.add(m.group(1))
    return dashed, camel, plain


def mapping():
    kit = kit_names()
    dashed, camel, plain = declared()
    dashed = {t for t in dashed if t not in kit}
    new = {}
    for t in camel:
        new[t] = snake(t)
    taken = set(new.values()) | {t for t in plain}
    for t in sorted(dashed):
        # a name of both kinds, as dataFile-next, is a lemma's
        to = snake(t)
        new[t] = to + "_lem" if to in taken and to not in GIVE_WAY else to
        if to in GIVE_WAY:
            new[t] = to + "_lem"
    return new


def respell(text, new, comments, made):
    out, last = [], 0
    spans = [m.span() for m in re.finditer(r'"(?:[^"\\\n]|\\.)*"', text)]
    marks = [m.span() for m in re.finditer(comments, text, re.M)]

    def inside(at, where):
        return any(a <= at < b for a, b in where)

    for m in TOKEN.finditer(text):
        t = m.group(0)
        to = new.get(t)
        if to is None or to == t or inside(m.start(), spans) and not inside(m.start(), marks):
            continue
        if inside(m.start(), marks) and "-" in t and text[m.start() - 1] != "`":
            continue
        if made and "-" in t and text[m.start() - 1] == ".":
            # in a proof of a function, the name of a call
            to = snake(t)
        out.append(text[last : m.start()])
        out.append(to)
        last = m.end()
    out.append(text[last:])
    return "".join(out)


def main(argv):
    dry = "--dry" in argv
    new = mapping()
    seen = {}
    for path in list(own_files()) + sorted(glob.glob("crates/*/src/**/*.rt", recursive=True)):
        text = read(path)
        rust = path.endswith(".rt")
        names = dict(new)
        tokens = set(TOKEN.findall(text if rust else code(text)))
        for word, folders in GIVE_WAY.items():
            if path.startswith(folders) and word in tokens:
                names[word] = word + "_lem"
        clash = {}
        for t in tokens:
            if t in names and names[t] != t and names[t] in tokens and names[t] not in GIVE_WAY:
                clash[t] = names[t]
        if clash:
            seen[path] = clash
        to = respell(text, names, r"//.*$" if rust else r"(^|\s)--( .*|$)", path.endswith("/Proof.antt"))
        if to != text and not dry:
            with open(path, "w", encoding="utf-8") as f:
                f.write(to)
    if dry:
        for path, clash in sorted(seen.items()):
            print(path, clash)
    back = {}
    for t, to in new.items():
        back.setdefault(to, set()).add(t)
    for to, ts in sorted(back.items()):
        if len(ts) > 1:
            print("fall together:", to, sorted(ts))
    print(len(new), "names")
    return 0


if __name__ == "__main__":
    raise SystemExit(main(sys.argv[1:]))
